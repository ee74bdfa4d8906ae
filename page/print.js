// The page on paper: the matrix in parts, each of which is a sheet with the names of its lines and columns, and with what the page is of.

// How many lines and columns fit on a sheet of A4 or Letter on its side, and how many letters of a name.
const SHEET = { lines: 20, columns: 30, name: 40, head: 22 };

// What the page is of, and what of it is shown.
function sheetText(app) {
    const { state } = app;
    const words = [state.search, state.namespace && 'namespace ' + state.namespace, state.focus, state.protocol,
        state.port && 'port ' + state.port,
        state.sort !== 'all' && SORTS[state.sort] && SORTS[state.sort].label];
    return [page.title[0], page.source !== page.title[0] && page.source, 'made ' + page.made + ' by np ' + page.np,
        words.some(Boolean) && 'filter: ' + words.filter(Boolean).join(', ')].filter(Boolean).join(' · ');
}

// Parts of about the same size: where each begins and ends.
function sheetParts(count, most) {
    const size = Math.ceil(count / Math.max(1, Math.ceil(count / most)));
    const parts = [];
    for (let start = 0; start < count; start += size) parts.push([start, Math.min(count, start + size)]);
    return parts;
}

function sheetName(line) {
    return !line.members || line.kind === 'namespace' || line.namespace === '' ? line.label : line.namespace + '/' + line.label;
}

// The number of each line and column, since many names are alike where they are cut. A line and a column of the same workloads have
// the same.
function lineNumbers(matrix) {
    const numbers = new Map();
    for (const line of matrix.senders.concat(matrix.receivers)) if (!numbers.has(line.full)) numbers.set(line.full, numbers.size + 1);
    return numbers;
}

function sheetOf(app, numbers, [lines, columns], said) {
    const { matrix } = app;
    const name = (line, most) => numbers.get(line.full) + '  ' + cutMiddle(sheetName(line), most);
    const head = matrix.receivers.slice(...columns).map(line =>
        element('th', { scope: 'col' }, element('span', { class: 'turned' }, name(line, SHEET.head))));
    const rows = matrix.senders.slice(...lines).map((line, place) => element('tr', {},
        element('th', { scope: 'row' }, name(line, SHEET.name)),
        ...matrix.cells[lines[0] + place].slice(...columns).map(cell => matrixCell(cell, ''))));
    const part = ([start, end], whole, what) => what + ' ' + (start + 1) + ' to ' + end + ' of ' + whole;
    return element('section', { class: 'sheet' },
        element('p', { class: 'running' }, sheetText(app)),
        element('table', { class: 'matrix-table' },
            element('caption', {}, said + ': ' + part(lines, matrix.senders.length, 'lines') + ', '
                + part(columns, matrix.receivers.length, 'columns')
                + '. From the line to the column: ● everything passes, ◐ some, · nothing'),
            element('thead', {}, element('tr', {}, element('th', {}, 'from ↓   to →'), ...head)),
            element('tbody', {}, ...rows)));
}

// The names that are cut on the sheets, in whole.
function cutNames(app, numbers) {
    const cut = app.matrix.senders.concat(app.matrix.receivers).filter(line => sheetName(line).length > SHEET.head).map(line => line.full);
    return cut.length ? [element('section', { class: 'sheet' },
        element('p', { class: 'running' }, sheetText(app)),
        element('p', {}, 'Names that are cut on the sheets, by their numbers'),
        element('ul', { class: 'names' }, ...Array.from(new Set(cut), full => element('li', {}, numbers.get(full) + '  ' + full))))] : [];
}

function makeSheets(app) {
    const { matrix } = app;
    const numbers = lineNumbers(matrix), places = [];
    for (const lines of sheetParts(matrix.senders.length, SHEET.lines)) {
        for (const columns of sheetParts(matrix.receivers.length, SHEET.columns)) places.push([lines, columns]);
    }
    return places.map((place, number) => sheetOf(app, numbers, place, 'Sheet ' + (number + 1) + ' of ' + places.length))
        .concat(cutNames(app, numbers));
}

// Sheets are made when they are needed: a browser says so before it prints.
function listenForPrint() {
    const fillSheets = () => {
        const place = document.querySelector('.sheets');
        if (place) place.replaceChildren(...makeSheets(app));
    };
    window.addEventListener('beforeprint', fillSheets);
    matchMedia('print').addEventListener('change', event => { if (event.matches) fillSheets(); });
}
