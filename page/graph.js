// The picture of one workload: who sends to it stands at its left, what it sends to at its right, addresses and Ingresses below them. A
// star needs no layout to be worked out, so no library draws it.

const BOX = { height: 46, gap: 10, middle: 300, column: 110 };
const MOST_BOXES = 30;

function neighbours(table, workload) {
    const senders = [], receivers = [];
    const name = table.names[workload];
    table.groups.forEach((group, number) => {
        const others = group.members.filter(member => member !== workload);
        if (!others.length) return;
        const first = others[0];
        for (const { mark, text } of table.texts[isShown(table, first, workload) ? between(table, first, workload) : 0]) {
            senders.push({ members: others, label: endText(table, others) + mark, text, from: table.names[first], to: name });
        }
        for (const { mark, text } of table.texts[isShown(table, workload, first) ? between(table, workload, first) : 0]) {
            receivers.push({ members: others, label: endText(table, others) + mark, text, from: name, to: table.names[first] });
        }
    });
    for (const { mark, text } of table.texts[between(table, workload, workload)]) {
        receivers.push({ members: [workload], label: 'its own other pods' + mark, text, from: name, to: name });
    }
    return { senders, receivers };
}

function outsideNeighbours(table, workload) {
    const name = table.names[workload];
    const passing = side => addressRows(table, workload, side).filter(row => row.connections !== 0);
    const through = table.texts[table.groups[table.groupOf[workload]].through]
        .map(({ text }) => ({ label: CONTROLLER, text, from: CONTROLLER, to: name }));
    return {
        senders: passing(0).map(row => ({ label: endShown(row.range), text: row.text, from: row.range, to: name })).concat(through),
        receivers: passing(1).map(row => ({ label: endShown(row.range), text: row.text, from: name, to: row.range })),
    };
}

// Those that the filter keeps.
function keptNeighbours({ table, state }, { senders, receivers }) {
    const filter = makeFilter(state);
    const inNamespace = box => !filter.namespace || namespaceOf(state.focus) === filter.namespace
        || box.members && box.members.some(member => table.namespaces[member] === filter.namespace);
    const isKept = box => inNamespace(box)
        && keepsText(filter, box.text, filter.bits(box.from) | filter.bits(box.to) | filter.bits(box.label));
    return { senders: senders.filter(isKept), receivers: receivers.filter(isKept) };
}

// A box is as wide as there is room, so that long names are cut as little as can be.
function boxWidth() { return Math.round(Math.max(340, Math.min(760, (innerWidth - 60 - BOX.middle - 2 * BOX.column) / 2))); }

function boxLetters() { return Math.floor((boxWidth() - 8) / 7.9); }

function graphSection(app) {
    const { table, state } = app;
    const workload = table.place.get(state.focus);
    const chooser = element('label', {}, 'Workload ', focusInput(app));
    if (workload === undefined) {
        return viewSection('graph', 'Picture', 'One workload', [chooser],
            hint(state.focus
                ? 'No workload has that name.'
                : 'Choose a workload to see who sends to it and what it sends to.'));
    }
    const [near, outside] = [neighbours(table, workload), outsideNeighbours(table, workload)].map(sides => keptNeighbours(app, sides));
    return viewSection('graph', 'Picture of ' + state.focus, 'One workload',
        [chooser, zoomControl(app), savePicture(state.focus.replace(/[^A-Za-z0-9._-]+/g, '-'))],
        shownPicture(app, starDrawing(app, state.focus, near, outside)));
}

function focusInput(app) {
    const names = element('datalist', { id: 'names' }, ...app.table.names.map(name => element('option', { value: name })));
    const input = element('input', {
        id: 'focus',
        list: 'names',
        size: 40,
        autocomplete: 'off',
        change: event => app.change({ focus: event.currentTarget.value }),
    });
    input.value = app.state.focus;
    return element('span', {}, input, names);
}

function starDrawing(app, name, near, outside) {
    const left = near.senders.slice(0, MOST_BOXES), right = near.receivers.slice(0, MOST_BOXES);
    const leftOut = outside.senders.slice(0, MOST_BOXES), rightOut = outside.receivers.slice(0, MOST_BOXES);
    const step = BOX.height + BOX.gap;
    // How many steps a column is high: where boxes are left out, the text that counts them takes one.
    const steps = (list, whole) => list.length + (whole.length > list.length);
    const inner = Math.max(steps(left, near.senders), steps(right, near.receivers), 1);
    const outer = Math.max(steps(leftOut, outside.senders), steps(rightOut, outside.receivers));
    const top = 40, height = top + (inner + outer) * step + (outer ? 50 : 10);
    const width = 2 * (boxWidth() + BOX.column) + BOX.middle;
    const centre = { x: boxWidth() + BOX.column, y: top + Math.max(0, (inner * step - BOX.gap - BOX.height) / 2), width: BOX.middle };
    const rightX = centre.x + BOX.middle + BOX.column;
    const boxes = [], lines = [];
    const place = (list, whole, x, y, side) => {
        list.forEach((box, i) => {
            boxes.push(starBox(app, box, x, y + i * step));
            lines.push(...starLine(box, x, y + i * step, centre, side));
        });
        if (whole.length > list.length) boxes.push(drawing('text', { x: x + 10, y: y + list.length * step + 20, class: 'more-text' },
            'and ' + count(whole.length - list.length, 'other', 'others') + ': see the list'));
    };
    const below = top + inner * step + 34;
    const sideText = (x, y, text) => drawing('text', { x, y, class: 'side-text' }, text);
    place(left, near.senders, 0, top, 'left');
    place(right, near.receivers, rightX, top, 'right');
    place(leftOut, outside.senders, 0, below, 'left');
    place(rightOut, outside.receivers, rightX, below, 'right');
    return drawing('svg', { viewBox: '0 0 ' + width + ' ' + height, width, height, role: 'group',
        'aria-label': 'Senders at the left and receivers at the right of ' + name },
        sideText(0, 20, near.senders.length ? 'Workloads that send to it' : 'No workload sends to it'),
        sideText(rightX, 20, near.receivers.length ? 'Workloads that it sends to' : 'It sends to no workload'),
        outer && sideText(0, below - 12, outside.senders.length ? 'From outside' : 'Nothing from outside'),
        outer && sideText(rightX, below - 12, outside.receivers.length ? 'To outside' : 'Nothing to outside'),
        ...lines, ...boxes,
        drawing('g', { class: 'centre' },
            drawing('rect', { x: centre.x, y: centre.y, width: BOX.middle, height: BOX.height, rx: 6 }),
            drawing('text', { x: centre.x + BOX.middle / 2, y: centre.y + 28, 'text-anchor': 'middle' },
                cutMiddle(name, 36), drawing('title', {}, name))));
}

function starBox(app, box, x, y) {
    const open = () => app.change({ from: box.from, to: box.to });
    const focus = () => app.change({ focus: app.table.names[box.members[0]], from: '', to: '' });
    const attributes = {
        class: 'box' + (box.members ? '' : ' outside'),
        'data-ends': endsKey(box.from, box.to),
        tabindex: 0,
        role: 'button',
        'aria-label': rowLine({ source: box.from, destination: box.to, connections: box.text }),
        click: open,
        dblclick: () => box.members && focus(),
        keydown: event => {
            byKey(open)(event);
            if (event.key === 'f' && box.members) { event.stopPropagation(); focus(); }
        },
    };
    return drawing('g', attributes,
        drawing('title', {}, box.label + ' : ' + box.text + (box.members ? ' (double click, or f: its own picture)' : '')),
        drawing('rect', { x, y, width: boxWidth(), height: BOX.height, rx: 6 }),
        drawing('text', { x: x + 10, y: y + 19 }, cutMiddle(box.label, boxLetters())),
        drawing('text', { x: x + 10, y: y + 37, class: 'passes' }, cutMiddle(box.text, boxLetters())));
}

// The line of a box and its head; thick where everything passes, broken where some does.
function starLine(box, x, y, centre, side) {
    const middle = y + BOX.height / 2, target = centre.y + BOX.height / 2;
    const start = side === 'left' ? x + boxWidth() : centre.x + centre.width;
    const end = side === 'left' ? centre.x : x;
    const startY = side === 'left' ? middle : target, endY = side === 'left' ? target : middle;
    const bend = (end - start) / 2;
    const point = (x, y) => x + ' ' + y;
    const curve = 'M' + point(start, startY)
        + ' C' + point(start + bend, startY) + ' ' + point(end - bend, endY) + ' ' + point(end - 7, endY);
    const head = 'M' + point(end - 8, endY - 4) + ' L' + point(end, endY) + ' L' + point(end - 8, endY + 4) + ' Z';
    return [
        drawing('path', { class: 'line ' + (box.text === EVERYTHING ? 'all' : 'some'), d: curve }),
        drawing('path', { class: 'arrow', d: head }),
    ];
}
