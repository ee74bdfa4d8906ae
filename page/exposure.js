// What new pods would reach: the rows of np exposure.

// The rows of a workload and a direction are one table, whose first row that a pod meets is its verdict. So the filter keeps all of it or
// nothing: without the rows that deny, those below them would say too much.
function exposureTables(app) {
    const { table, state } = app;
    const filter = makeFilter(state);
    const tables = [];
    table.names.forEach((name, workload) => {
        if (filter.namespace && table.namespaces[workload] !== filter.namespace || filter.focus && filter.focus !== name) return;
        for (const side of [0, 1]) {
            const rows = exposureRows(table, workload, side).map(({ end, text }) =>
                side === 0 ? { source: end, destination: name, connections: text } : { source: name, destination: end, connections: text });
            const isKept = row => filter.port(row.connections)
                && [row.source, row.destination, row.connections].reduce((bits, text) => bits | filter.bits(text), 0) === filter.full;
            if (rows.some(isKept)) tables.push(rows);
        }
    });
    return tables;
}

function exposureSection(app) {
    if (app.refused) {
        return viewSection('exposure', 'New pods', 'New pods', [], hint(app.refused));
    }
    const rows = [].concat(...exposureTables(app));
    const texts = row => [row.source, row.destination, row.connections];
    return viewSection('exposure', 'New pods', 'New pods',
        [told(count(rows.length, 'row', 'rows')), copyButton('Copy as CSV', () => csvOf(ROW_HEAD, rows.map(texts)))],
        hint('What each workload allows a pod that nobody has written yet. Of a workload and a direction, the first row whose '
            + 'requirements the pod meets is its verdict, so all of its rows are shown, those in which nothing passes too.'),
        element('table', { class: 'rows-table', 'aria-label': 'New pods' },
            rowsHead(['', 'From', 'To', 'Connections']),
            element('tbody', {}, ...rows.slice(0, app.listed).map(exposureRow))),
        rows.length > app.listed && moreButton(app));
}

function exposureRow(row) {
    return element('tr', {},
        element('td', {}, levelSign(row.connections)),
        element('td', { class: 'end' }, ...breakable(row.source)),
        element('td', { class: 'end' }, ...breakable(row.destination)),
        element('td', { class: 'connections' }, row.connections));
}

// What either side of an opened row allows new pods.
function exposurePart(app, name, side, title) {
    const { table } = app;
    if (!table.place.has(name)) return [];
    if (app.refused) return [element('h3', {}, title), hint(app.refused)];
    const rows = exposureRows(table, table.place.get(name), side);
    if (!rows.length) return [];
    return [element('h3', {}, title), codeLines(rows.map(row => rowLine(side === 0
        ? { source: row.end, destination: name, connections: row.text } : { source: name, destination: row.end, connections: row.text })))];
}
