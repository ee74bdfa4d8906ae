// The matrix: a line for each end that sends, a column for each that receives. Where there are many workloads a namespace is one line, and
// equal workloads are one line, until opened.

const MANY_LINES = 60;
const MOST_LINES = 150;
const SIGNS = ['·', '◐', '●'];
const LEVEL_WORDS = ['nothing passes', 'some passes', 'everything passes'];
const LEVEL_CLASSES = ['none', 'some', 'all'];

// The workloads that are an end of a row that the filter keeps and in which something passes.
function keptWorkloads(table, filter) {
    const kept = new Set();
    const wanted = Object.assign({}, filter, { sort: SORTS.all, passing: true, focus: '' });
    eachRow(table, wanted, true, row => {
        for (const members of [row.from, row.to]) if (members) members.forEach(member => kept.add(member));
    });
    return kept;
}

// The parts that lines are made of: equal workloads, of one namespace, or of several where there are too many for that.
function matrixParts(table, kept, focus) {
    const byNamespace = [].concat(...table.groups.map(group => focusParts(table, focus, group.members))).map(members => {
        const parts = new Map();
        for (const member of members) {
            if (kept && !kept.has(member)) continue;
            const namespace = table.namespaces[member];
            if (!parts.has(namespace)) parts.set(namespace, []);
            parts.get(namespace).push(member);
        }
        return parts;
    });
    const total = byNamespace.reduce((sum, parts) => sum + parts.size, 0);
    const sections = new Map();
    const put = (namespace, members) => {
        if (!sections.has(namespace)) sections.set(namespace, []);
        sections.get(namespace).push(members);
    };
    byNamespace.forEach(parts => {
        if (parts.size > 1 && total > MANY_LINES) put('', [].concat(...parts.values()));
        else for (const [namespace, members] of parts) put(namespace, members);
    });
    const lines = Array.from(sections.values()).reduce((sum, parts) => sum + parts.length, 0);
    const order = Array.from(sections.keys()).sort();
    return { closed: lines > MANY_LINES, sections: order.map(namespace => ({ namespace, parts: sections.get(namespace) })) };
}

// The lines that are shown: what is toggled is open where it is closed at first, and closed where it is open.
function matrixLines(table, { toggled, focus }, kept) {
    const { closed, sections } = matrixParts(table, kept, focus);
    const lines = [];
    for (const { namespace, parts } of sections) {
        const key = 'namespace ' + namespace;
        const alone = parts.length === 1 && parts[0].length === 1;
        const open = namespace === '' || (closed && parts.length > 1) === toggled.includes(key) || alone;
        if (!open) {
            const members = [].concat(...parts);
            lines.push({ kind: 'namespace', key, namespace, members, label: namespace, full: 'namespace ' + namespace });
            continue;
        }
        parts.forEach((members, place) => pushPart(table, toggled, lines, namespace, key, members, place === 0));
    }
    return lines;
}

function pushPart(table, toggled, lines, namespace, key, members, first) {
    const group = 'equal ' + table.names[members[0]];
    const open = members.length === 1 || toggled.includes(group);
    const heading = first ? { namespace, key } : null;
    if (!open) {
        const label = equalLabel(table, namespace, members);
        lines.push({ kind: 'equal', key: group, namespace, members, heading, label, full: endText(table, members) });
        return;
    }
    members.forEach((member, place) => lines.push({
        kind: 'workload',
        key: members.length > 1 && place === 0 ? group : null,
        namespace,
        members: [member],
        heading: place === 0 ? heading : null,
        label: shortName(table, member, namespace),
        full: table.names[member],
    }));
}

// The name without its namespace, and without its kind where it is the only one of that name. The whole name is told besides.
function shortName(table, workload, namespace) {
    if (!table.plainNames) {
        table.plainNames = new Map();
        for (const name of table.names) table.plainNames.set(plainName(name), (table.plainNames.get(plainName(name)) || 0) + 1);
    }
    const name = table.names[workload];
    const short = table.plainNames.get(plainName(name)) === 1 ? plainName(name) : name;
    return namespace === '' ? short : short.slice(namespace.length + 1);
}

function plainName(name) { return name.replace(/\[[^\]]*\]/, ''); }

function equalLabel(table, namespace, members) {
    return shortName(table, members[0], namespace) + ' +' + (members.length - 1).toLocaleString('en') + ' equal';
}

// The groups of a line: the number of the group, how many of it are in the line, and the first of these.
function lineGroups(table, line) {
    if (!line.groups) {
        const groups = new Map();
        for (const member of line.members) {
            const number = table.groupOf[member];
            if (groups.has(number)) groups.get(number).size += 1;
            else groups.set(number, { number, size: 1, first: member, group: table.groups[number] });
        }
        line.groups = Array.from(groups.values());
    }
    return line.groups;
}

// How many pairs of two lines are of each level; a line and itself: its workloads with each other, and with themselves where np has a row.
function cellLevels(table, from, to) {
    const levels = [0, 0, 0];
    for (const one of lineGroups(table, from)) {
        for (const other of lineGroups(table, to)) {
            if (one.number !== other.number) {
                levels[table.levels[one.group.row[other.first]]] += one.size * other.size;
                continue;
            }
            const pairs = one.size * other.size - (from === to ? one.size : 0);
            if (pairs > 0) levels[table.levels[one.group.inner]] += pairs;
            if (from === to && (one.group.own || from.members.length === 1)) levels[table.levels[one.group.own]] += one.size;
        }
    }
    return levels;
}

function levelOfCounts(levels) {
    if (levels[SOME] || levels[ALL] && levels[NONE]) return SOME;
    return levels[ALL] ? ALL : NONE;
}

// A cell that the filter leaves out is null.
function makeCell(table, filter, from, to) {
    if (from.kind === 'through' || from.kind === 'addresses' || to.kind === 'addresses') return outsideCell(table, filter, from, to);
    if (!from.members.some(a => to.members.some(b => isShown(table, a, b)))) return null;
    if (filter.namespace && !lineIn(table, from, filter.namespace) && !lineIn(table, to, filter.namespace)) return null;
    if (filter.narrow && !cellKept(table, filter, from, to)) return null;
    const levels = cellLevels(table, from, to);
    return { level: levelOfCounts(levels), levels };
}

function lineIn(table, line, namespace) { return line.members.some(member => table.namespaces[member] === namespace); }

// Whether a row of the cell is kept by the words, the protocol and the port.
function cellKept(table, filter, from, to) {
    const seen = new Set();
    for (const a of from.members) for (const b of to.members) {
        const key = filter.words.length ? a + ' ' + b : table.groupOf[a] + ' ' + table.groupOf[b] + (a === b);
        if (seen.has(key)) continue;
        seen.add(key);
        const bits = filter.bits(table.names[a]) | filter.bits(table.names[b]);
        const texts = table.texts[between(table, a, b)];
        if (texts.some(({ text }) => keepsText(filter, text, bits))) return true;
    }
    return false;
}

function outsideCell(table, filter, from, to) {
    const inner = from.members ? from : to;
    if (from.kind !== 'workload' && !from.members && !to.members) return null;
    if (filter.namespace && !lineIn(table, inner, filter.namespace)) return null;
    const levels = [0, 0, 0];
    let kept = !filter.narrow;
    for (const member of inner.members) {
        if (table.outside.of[member] < 0) continue;
        const rows = from.kind === 'through'
            ? table.texts[table.groups[table.groupOf[member]].through].map(({ text }) => ({ range: CONTROLLER, text }))
            : addressRows(table, member, from.kind === 'addresses' ? 0 : 1);
        const level = from.kind === 'through' ? (rows.length ? (rows[0].text === EVERYTHING ? ALL : SOME) : NONE)
            : addressLevel(table, member, from.kind === 'addresses' ? 0 : 1);
        levels[level] += 1;
        kept = kept || rows.some(row => row.text !== NOTHING
            && keepsText(filter, row.text, filter.bits(table.names[member]) | filter.bits(row.range)));
    }
    if (!kept || !(levels[0] + levels[1] + levels[2])) return null;
    return { level: levelOfCounts(levels), levels };
}

function makeMatrix(app) {
    const { table, state } = app;
    const filter = makeFilter(state);
    const lines = matrixLines(table, state, filter.narrow && keptWorkloads(table, filter));
    const outside = { kind: 'addresses', label: 'addresses', full: 'addresses' };
    const controller = { kind: 'through', label: CONTROLLER, full: CONTROLLER };
    const some = table.groups.some(group => group.through);
    const senders = lines.concat([outside], some ? [controller] : []);
    const receivers = lines.concat([outside]);
    const shownLines = lines.slice(0, MOST_LINES);
    const keptSenders = senders.filter(line => !line.members || shownLines.includes(line));
    const keptReceivers = receivers.filter(line => !line.members || shownLines.includes(line));
    const cells = keptSenders.map(from => keptReceivers.map(to => makeCell(table, filter, from, to)));
    if (!filter.narrow) return { senders: keptSenders, receivers: keptReceivers, cells, left: lines.length - shownLines.length };
    // A filter leaves the lines in which something is kept and passes.
    const live = cell => cell !== null && cell.level !== NONE;
    const rowKept = keptSenders.map((line, r) => cells[r].some(live));
    const columnKept = keptReceivers.map((line, c) => cells.some(row => live(row[c])));
    return {
        senders: keptSenders.filter((line, r) => rowKept[r]),
        receivers: keptReceivers.filter((line, c) => columnKept[c]),
        cells: cells.filter((row, r) => rowKept[r]).map(row => row.filter((cell, c) => columnKept[c])),
        left: lines.length - shownLines.length,
    };
}

function matrixSection(app) {
    const matrix = makeMatrix(app);
    app.matrix = matrix;
    const grid = element('table', { class: 'matrix-table', role: 'grid', 'aria-label': 'Who reaches whom: lines send, columns receive' },
        element('thead', {}, matrixHead(app, matrix)),
        element('tbody', {}, ...matrixRows(app, matrix)));
    grid.addEventListener('click', event => {
        const place = placeOfEvent(matrix, event);
        if (place) openCell(app, matrix, place.r, place.c);
    });
    grid.addEventListener('keydown', event => moveInMatrix(app, matrix, event));
    grid.addEventListener('mouseover', event => tellCell(matrix, event));
    grid.addEventListener('focusin', event => tellCell(matrix, event));
    labelCells(matrix);
    const first = grid.querySelector('tbody td:not(.left-out)');
    if (first) first.tabIndex = 0;
    const scroll = element('div', { class: 'scroll' }, grid);
    scroll.style.setProperty('--zoom', ZOOMS.includes(app.state.zoom) ? app.state.zoom / 100 : 1);
    const nothing = app.table.names.length ? 'Nothing that passes is kept by the filter.' : 'The cluster has no workloads.';
    return viewSection('matrix', 'Matrix', 'Who reaches whom', [legend(), zoomControl(app)],
        matrix.left > 0 && hint(count(matrix.left, 'line is', 'lines are') + ' not shown here: '
            + 'close namespaces that are open, choose a namespace, or read the list.'),
        matrix.senders.length && matrix.receivers.length
            ? element('div', {}, scroll, element('div', { class: 'sheets' }))
            : hint(nothing));
}

function legend() {
    const words = ['nothing', 'some', 'everything'];
    const entry = level => element('span', { class: 'entry' },
        element('span', { class: 'sign ' + LEVEL_CLASSES[level] }, SIGNS[level]), ' ' + words[level]);
    return element('span', { class: 'legend' }, 'from the line to the column: ', entry(ALL), entry(SOME), entry(NONE));
}

function matrixHead(app, matrix) {
    return element('tr', {},
        element('th', { class: 'corner' }, element('span', {}, 'from ↓   to →')),
        ...matrix.receivers.map((line, c) => element('th', { scope: 'col', class: columnClass(matrix.receivers, c, app), title: line.full },
            element('span', { class: 'turned' },
                cutMiddle(sheetName(line), 24)))));
}

// Whether a column begins a namespace, where it is not among closed ones.
function isEdge(lines, place) {
    const line = lines[place], before = lines[place - 1];
    return !before || before.namespace !== line.namespace && !(before.kind === 'namespace' && line.kind === 'namespace');
}

function columnClass(lines, place, app) {
    const line = lines[place];
    const classes = [isEdge(lines, place) ? 'edge' : '', isFocused(app, line) ? 'focused' : '', line.members ? '' : 'outside'];
    return classes.join(' ').trim() || undefined;
}

function isFocused(app, line) {
    const { focus } = app.state;
    return Boolean(focus && line.members && line.members.some(member => app.table.names[member] === focus));
}

function matrixRows(app, matrix) {
    const rows = [];
    const edges = matrix.receivers.map((line, c) => isEdge(matrix.receivers, c) ? ' edge' : '');
    let namespace;
    matrix.rows = [];
    matrix.senders.forEach((line, r) => {
        const begins = line.members && line.kind !== 'namespace' && line.namespace !== namespace;
        if (begins) rows.push(headingRow(app, line.namespace, matrix.receivers.length));
        namespace = line.namespace;
        rows.push(element('tr', { class: line.members ? undefined : 'outside' }, lineHead(app, line),
            ...matrix.cells[r].map((cell, c) => matrixCell(cell, edges[c]))));
        matrix.rows.push(rows[rows.length - 1]);
    });
    return rows;
}

function toggle(app, key) {
    const toggled = app.state.toggled;
    app.change({ toggled: toggled.includes(key) ? toggled.filter(other => other !== key) : toggled.concat([key]) });
}

function headingRow(app, namespace, columns) {
    const label = namespace === '' ? 'equal in several namespaces' : namespace;
    return element('tr', { class: 'heading' }, element('th', { scope: 'rowgroup', colspan: columns + 1 },
        namespace === '' ? label : element('button', { type: 'button', class: 'toggle', 'data-key': 'namespace ' + namespace,
            'aria-expanded': 'true', title: 'Close ' + namespace,
            click: () => toggle(app, 'namespace ' + namespace) }, '▾ ' + cutMiddle(label, nameLetters()))));
}

// How many letters of a name there is room for.
function nameLetters() { return innerWidth < 600 ? 20 : innerWidth < 1800 ? 36 : 56; }

// The label of a line, with the number of the workloads of a namespace.
function lineLabel(line, letters) {
    return cutMiddle(line.label, letters) + (line.kind === 'namespace' ? ' (' + line.members.length.toLocaleString('en') + ')' : '');
}

function lineHead(app, line) {
    const opens = line.kind === 'namespace' || line.kind === 'equal';
    const closes = line.kind === 'workload' && line.key;
    return element('th', { scope: 'row', title: line.full, class: [line.kind, isFocused(app, line) ? 'focused' : ''].join(' ').trim() },
        opens && element('button', {
            type: 'button',
            class: 'toggle',
            'data-key': line.key,
            'aria-expanded': 'false',
            click: () => toggle(app, line.key),
        }, '▸ ' + lineLabel(line, nameLetters())),
        closes && element('button', {
            type: 'button',
            class: 'toggle',
            'data-key': line.key,
            'aria-expanded': 'true',
            title: 'Join the equal workloads',
            click: () => toggle(app, line.key),
        }, '▾'),
        line.kind === 'workload' && element('button', {
            type: 'button',
            class: 'name',
            title: 'Picture of ' + line.full,
            click: () => app.change({ view: 'graph', focus: line.full }),
        }, lineLabel(line, nameLetters())),
        !line.members && line.label);
}

// A cell has as little as can be: there may be twenty thousand of them.
function matrixCell(cell, edge) {
    const made = document.createElement('td');
    made.className = (cell === null ? 'left-out' : LEVEL_CLASSES[cell.level]) + edge;
    if (cell !== null) made.textContent = SIGNS[cell.level];
    return made;
}

function labelCells(matrix) {
    matrix.cells.forEach((row, r) => row.forEach((cell, c) => {
        if (cell !== null) matrix.rows[r].cells[c + 1].setAttribute('aria-label', cellWords(matrix, r, c));
    }));
}

function cellWords(matrix, r, c) {
    const { levels, level } = matrix.cells[r][c];
    const counts = levels
        .map((number, place) => number ? number.toLocaleString('en') + ' × ' + LEVEL_WORDS[place] : '')
        .filter(Boolean)
        .reverse();
    return matrix.senders[r].full + ' => ' + matrix.receivers[c].full + ': ' + (counts.length > 1 ? counts.join(', ') : LEVEL_WORDS[level]);
}

// The ends that a cell opens: names of workloads, of a group its first, and its second where both ends are the group.
function cellEnds(table, from, to) {
    const name = (line, other, place) => {
        if (!line.members) return line.full;
        if (line.kind === 'namespace') return line.full;
        const second = place === 1 && line === other && line.members.length > 1 ? 1 : 0;
        return table.names[line.members[second]];
    };
    return { from: name(from, to, 0), to: name(to, from, 1) };
}

// The place of the cell of an event, if it is one that may be opened.
function placeOfEvent(matrix, event) {
    const cell = event.target.closest('td');
    if (!cell || cell.classList.contains('left-out')) return null;
    return { cell, r: matrix.rows.indexOf(cell.parentElement), c: cell.cellIndex - 1 };
}

function openCell(app, matrix, r, c) { app.change(cellEnds(app.table, matrix.senders[r], matrix.receivers[c])); }

// The cell whose ends are opened.
function openedCell(app, matrix) {
    for (const [r, from] of matrix.senders.entries()) {
        for (const [c, to] of matrix.receivers.entries()) {
            const ends = cellEnds(app.table, from, to);
            if (ends.from === app.state.from && ends.to === app.state.to && matrix.cells[r][c]) return matrix.rows[r].cells[c + 1];
        }
    }
    return null;
}

const STEPS = { ArrowRight: [0, 1], ArrowLeft: [0, -1], ArrowDown: [1, 0], ArrowUp: [-1, 0] };

function moveInMatrix(app, matrix, event) {
    const place = placeOfEvent(matrix, event);
    if (!place) return;
    byKey(() => openCell(app, matrix, place.r, place.c))(event);
    const step = STEPS[event.key];
    if (!step) return;
    event.preventDefault();
    let { r, c } = place;
    do {
        r += step[0];
        c += step[1];
        if (!matrix.cells[r] || c < 0 || c >= matrix.receivers.length) return;
    } while (matrix.cells[r][c] === null);
    place.cell.removeAttribute('tabindex');
    const next = matrix.rows[r].cells[c + 1];
    next.tabIndex = 0;
    next.focus();
}

function tellCell(matrix, event) {
    const place = placeOfEvent(matrix, event);
    if (place) place.cell.title = place.cell.getAttribute('aria-label');
}
