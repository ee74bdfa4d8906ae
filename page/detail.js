// What is opened of a cell or a row: its rows, the commands that say what decides, and what either side allows of new pods.

const MOST_EXPLAINED = 20;

function shellWord(word) { return /^[A-Za-z0-9_.\/:=@%+,-]+$/.test(word) ? word : "'" + word.replace(/'/g, "'\\''") + "'"; }

// The end that np explain takes: a range is explained by the first address of its first block.
function explainEnd(end) { return end.includes('[') ? end : end.slice(0, end.indexOf('/')); }

function explainCommands(from, to) {
    const commands = [];
    for (let i = 0; i < page.commands.length; i += 2) {
        commands.push(page.commands[i] + ' --from ' + shellWord(from) + ' --to ' + shellWord(to) + page.commands[i + 1]);
    }
    return commands;
}

// The rows of np with the two ends, each the name of a workload, a range, the controller, or 'addresses' for all ranges.
function rowsOfEnds(table, from, to) {
    const source = table.place.get(from), destination = table.place.get(to);
    if (source !== undefined && destination !== undefined) {
        return table.texts[between(table, source, destination)]
            .map(({ mark, text }) => ({ source: from, destination: to + mark, connections: text }));
    }
    if (from === CONTROLLER) {
        return table.texts[table.groups[table.groupOf[destination]].through]
            .map(({ text }) => ({ source: from, destination: to, connections: text }));
    }
    const side = source === undefined ? 0 : 1;
    const wanted = side === 0 ? from : to;
    return addressRows(table, side === 0 ? destination : source, side)
        .filter(row => wanted === 'addresses' || wanted === row.range)
        .map(row => ({ source: side === 0 ? row.range : from, destination: side === 0 ? to : row.range, connections: row.text }));
}

function rowLine(row) { return endShown(row.source) + ' => ' + endShown(row.destination) + ' : ' + row.connections; }

// The workloads of an end of a cell: one, or all of a namespace; undefined for an end outside.
function endMembers(table, end) {
    if (table.place.has(end)) return [table.place.get(end)];
    if (!end.startsWith('namespace ')) return undefined;
    const namespace = end.slice('namespace '.length);
    return table.names.map((name, place) => place).filter(place => table.namespaces[place] === namespace);
}

// The rows between two ends of which one is a namespace; equal workloads are one line.
function manyRows(app, from, to) {
    const { table } = app;
    const senders = endMembers(table, from), receivers = endMembers(table, to);
    const state = Object.assign({}, app.state,
        { passing: true, namespace: '', focus: '', sort: 'all', search: '', protocol: '', port: '' });
    const inside = (members, workloads) => !members || members.some(member => workloads.has(member));
    const sending = new Set(senders), receiving = new Set(receivers);
    const rows = [];
    eachRow(table, makeFilter(state), true, row => {
        if (Boolean(row.from) !== Boolean(senders) || Boolean(row.to) !== Boolean(receivers)) return;
        if (!senders && (from === CONTROLLER) !== (row.kind === 'through')) return;
        if (inside(row.from, sending) && inside(row.to, receiving)) rows.push(row);
    });
    return rows;
}

function manyDetail(app, from, to) {
    const rows = manyRows(app, from, to);
    const namespaces = [from, to].filter(end => end.startsWith('namespace '));
    return element('div', { class: 'detail-body' },
        element('p', {}, ...Array.from(new Set(namespaces)).map(end => element('button', { type: 'button',
            click: () => toggle(app, end) }, 'Open or close ' + end))),
        element('h3', {}, rows.length ? 'Rows in which something passes (' + rows.length.toLocaleString('en') + ')' : 'Nothing passes'),
        rows.length > 0 && element('table', { class: 'rows-table', 'aria-label': 'Rows' }, rowsHead(['', 'From', 'To', 'Connections']),
            element('tbody', {}, ...rows.slice(0, LIST_PART).map(row => listRow(app, row)))),
        rows.length > LIST_PART && hint('The first ' + LIST_PART + ' are shown; the list has all of them.'));
}

function detailOf(app, from, to) {
    const { table } = app;
    if ((from.startsWith('namespace ') || to.startsWith('namespace ')) && [from, to].every(end =>
        end === 'addresses' || end === CONTROLLER || (endMembers(table, end) || []).length)) return manyDetail(app, from, to);
    const known = end => table.place.has(end);
    const fits = (known(from) && (known(to) || to === 'addresses' || to.includes('/'))) ||
        (known(to) && (from === CONTROLLER || from === 'addresses' || from.includes('/')));
    if (!fits) return element('p', {}, 'No such row stands in this page.');
    const rows = rowsOfEnds(table, from, to);
    const shown = rows.length ? rows : [{ source: from, destination: to, connections: NOTHING }];
    return element('div', { class: 'detail-body' },
        element('h3', {}, 'Connections'),
        codeLines(shown.map(rowLine)),
        ...decidingPart(app, from, to, rows),
        ...caveatPart(table, from, to),
        ...exposurePart(app, from, 1, 'New pods that ' + from + ' may send to'),
        ...exposurePart(app, to, 0, 'New pods that may send to ' + to));
}

function decidingPart(app, from, to, rows) {
    if (from === CONTROLLER) return [element('h3', {}, 'What decides'), ...controllerPart(app, to)];
    const ends = rows.length ? rows : [{ source: from, destination: to }];
    const asked = [];
    for (const row of ends) {
        const one = from === 'addresses' || !app.table.place.has(from) ? explainEnd(row.source) : from;
        const other = to === 'addresses' || !app.table.place.has(to) ? explainEnd(row.destination) : to;
        if (!asked.some(pair => pair.one === one && pair.other === other)) asked.push({ one, other });
    }
    const left = asked.length - MOST_EXPLAINED;
    return [element('h3', {}, 'What decides'),
        ...asked.slice(0, MOST_EXPLAINED).map(pair => explained(app, pair.one, pair.other)),
        left > 0 && hint(count(left, 'more range is', 'more ranges are') + ' not explained here; each is a row of the list.')];
}

// Of what comes through Ingresses, only what a controller of a known name may send can be explained.
function controllerPart(app, to) {
    if (!page.controller) {
        return [hint('The controller of Ingresses is no workload that is known here, so np explain has no end for it. '
            + 'What the workload lets in stands below; --controller NAME names the controller.')];
    }
    return [hint('The controller is ' + page.controller + '. Of what it may send, the ports to which an Ingress leads pass:'),
        explained(app, page.controller, to)];
}

function explained(app, from, to) {
    const answer = app.explained.get(from + ' ' + to);
    return element('div', { class: 'explained' },
        answer ? element('pre', { class: 'answer' }, ...answer.map(line => element('span', { class: deciderClass(line) }, line + '\n')))
            : page.explain ? page.explain(from, to) : isolationPart(app, from, to),
        ...explainCommands(from, to).map(command => element('div', { class: 'command' },
            element('code', {}, command), copyButton('Copy', command))));
}

// Where the page has no answer about two ends: the policies that isolate either, which answers about other ends name.
function isolationPart(app, from, to) {
    const lines = ['egress of ' + from, 'ingress of ' + to].filter(side => app.isolation.has(side))
        .map(side => side + ' : isolated by NetworkPolicy ' + app.isolation.get(side).join(', '));
    return element('div', {},
        lines.length && hint('Without a rule that allows it nothing passes here, since policies isolate a side:'),
        lines.length && element('pre', { class: 'answer isolation' }, lines.map(line => line + '\n').join('')),
        hint('The rule is named by np, for every port and at both ends:'));
}

function deciderClass(line) {
    if (line.includes(' : Allow by ') && !line.endsWith(' : Allow by default')) return 'rule';
    if (line.includes(' : Deny ')) return 'denied';
    return line.startsWith('ingress of ') || line.startsWith('egress of ') ? 'side' : '';
}
