// The list of rows, a part at a time.

const LIST_PART = 200;
// What a spreadsheet takes.
const MOST_CSV = 1000000;
const ROW_HEAD = ['source', 'destination', 'connections'];

function levelSign(text) {
    if (text === NOTHING) return element('span', { class: 'sign none', title: 'nothing passes' }, '·');
    if (text === EVERYTHING) return element('span', { class: 'sign all', title: 'everything passes' }, '●');
    return element('span', { class: 'sign some', title: 'some passes' }, '◐');
}

function listSection(app) {
    const { table, state } = app;
    const joined = state.joined && table.groups.length < table.names.length;
    const filter = makeFilter(state);
    const taken = takeRows(table, filter, joined, app.listed);
    const said = count(taken.lines, joined ? 'line' : 'row', joined ? 'lines' : 'rows')
        + (joined && taken.total !== taken.lines ? ', which are ' + count(taken.total, 'row', 'rows') + ' of np' : '')
        + (taken.rows.length < taken.lines ? '; the first ' + taken.rows.length.toLocaleString('en') + ' are shown' : '');
    const copyLabel = taken.total > MOST_CSV ? 'Copy the first ' + count(MOST_CSV, 'row', 'rows') + ' as CSV' : 'Copy as CSV';
    return viewSection('list', 'List of rows', 'Rows', [told(said), copyButton(copyLabel, () => listCsv(app))],
        app.table.only && hint('This page has the rows with an end in the namespace ' + app.table.only + ' alone.'),
        ...isReach(filter) ? unknownPart() : [],
        element('table', { class: 'rows-table', 'aria-label': 'Rows' },
            rowsHead(['', 'From', 'To', 'Connections']),
            element('tbody', {}, ...taken.rows.map(row => listRow(app, row)))),
        !taken.lines && hint('No row is kept by the filter.'),
        taken.rows.length < taken.lines && moreButton(app));
}

function moreButton(app) {
    return element('button', { type: 'button', class: 'more', click: () => { app.listed += LIST_PART * 5; app.draw(); } }, 'Show more');
}

function isReach(filter) { return filter.sort === SORTS.reach; }

// Behind what is reached: the workloads of which that is not known.
function unknownPart() {
    const caveats = unknownReached();
    return caveats.length ? [hint('Ingresses lead to these too, but who the Ingress controller is was not said '
        + '(--controller NAME), so it is not known whether it is let in:'), caveatLines(caveats)] : [];
}

// The ends that a row opens: of a group its first workload, and its second where both ends are the group.
function endsOfRow(table, row) {
    if (row.kind === 'from' || row.kind === 'through') return [row.source, table.names[row.to[0]]];
    if (row.kind === 'to') return [table.names[row.from[0]], row.destination];
    const second = row.from === row.to && !row.own && row.from.length > 1 ? 1 : 0;
    return [table.names[row.from[0]], table.names[row.to[second]]];
}

function listRow(app, row) {
    return openingRow(app, endsOfRow(app.table, row), [levelSign(row.connections), row.source, row.destination, row.connections]);
}

// A row of a table that opens its ends: a sign, the two ends, and texts.
function openingRow(app, [from, to], [sign, source, destination, ...texts]) {
    const open = () => app.change({ from, to });
    return element('tr', { 'data-ends': endsKey(from, to), tabindex: 0, click: open, keydown: event => {
        byKey(open)(event);
        if (event.key === 'ArrowDown' || event.key === 'ArrowUp') {
            const next = event.key === 'ArrowDown' ? event.currentTarget.nextElementSibling : event.currentTarget.previousElementSibling;
            if (next) { event.preventDefault(); next.focus(); }
        }
    } },
    element('td', {}, sign),
    element('td', { class: 'end' }, ...breakable(endShown(source))),
    element('td', { class: 'end' }, ...breakable(endShown(destination))),
    ...texts.map(text => element('td', { class: 'connections' }, text)));
}

// The rows that the filter keeps, each of np's by itself.
function listCsv(app) {
    const taken = takeRows(app.table, makeFilter(app.state), false, MOST_CSV);
    return csvOf(ROW_HEAD, taken.rows.map(row => [row.source, row.destination, row.connections]));
}
