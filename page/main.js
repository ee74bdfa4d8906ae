// The page: what stands at its top, the views, and what its keys do.

// What is shown, as np answered it, and the state of the page; both are there once `show` is called.
let page = null, app = null;

const WORDS = ['search'], WHICH = ['search', 'namespace', 'protocol', 'port'];
const EVERY = [...WHICH, 'sort', 'passing', 'joined', 'cidrs', 'focus'];

// The filters of a view are those that leave something out of it.
const VIEWS = [
    { name: 'matrix', label: 'Matrix', sections: [matrixSection], beside: [listSection], filters: EVERY },
    { name: 'list', label: 'List', sections: [listSection], beside: [], filters: EVERY },
    { name: 'graph', label: 'One workload', sections: [graphSection], beside: [listSection], filters: EVERY },
    { name: 'overview', label: 'Whole cluster', sections: [overviewSection], beside: [], filters: WHICH },
    { name: 'changes', label: 'Changes', sections: [changesSection], beside: [], filters: [...WHICH, 'sort', 'cidrs', 'focus'],
        needs: app => app.before },
    { name: 'exposure', label: 'New pods', sections: [exposureSection], beside: [], filters: [...WHICH, 'focus'] },
    { name: 'policies', label: 'Policies', sections: [policiesSection], beside: [], needs: () => page.explained },
    { name: 'unused', label: 'Unused rules', sections: [unusedSection], beside: [], filters: WORDS },
    { name: 'caveats', label: 'Caveats', sections: [caveatsSection], beside: [], filters: WORDS, needs: () => page.caveats.length },
];

// ---- The rules that decide nothing

function unusedSection() {
    const rules = page.unused.filter(rule => wordBits(makeFilter(app.state).words, rule) === makeFilter(app.state).full);
    return viewSection('unused', 'Unused rules', 'Rules that decide nothing',
        [told(count(rules.length, 'rule', 'rules')), copyButton('Copy', () => rules.map(rule => rule + '\n').join(''))],
        hint('Without all of them at once no verdict changes between the listed pods, or between them and an '
            + 'address. Places count from 0.'),
        codeLines(rules));
}

// ---- The top

function outsideCount() {
    const { table } = app;
    return table.names.filter((name, workload) => table.outside.of[workload] >= 0
        && (addressLevel(table, workload, 0) !== NONE || table.groups[table.groupOf[workload]].through)).length;
}

function fact(text, patch) {
    return patch ? element('a', { class: 'fact', href: writeState(Object.assign({}, START, patch)), click: event => {
        event.preventDefault();
        change(Object.assign({}, START, patch));
    } }, text) : element('span', { class: 'fact' }, text);
}

function facts() {
    const { table } = app;
    const namespaces = new Set(table.namespaces).size;
    const groups = table.groups.length, unknown = unknownReached().length;
    return element('p', { class: 'facts' },
        fact(count(table.names.length, 'workload', 'workloads') + ' in ' + count(namespaces, 'namespace', 'namespaces')
            + (groups < table.names.length ? ', ' + count(groups, 'kind', 'kinds') + ' of equal rows' : '')),
        fact('Reached from addresses or Ingresses: ' + count(outsideCount(), 'workload', 'workloads')
            + (unknown ? ', and ' + unknown + ' where it is not known' : ''), { view: 'list', sort: 'reach' }),
        fact(count(page.unused.length, 'rule decides', 'rules decide') + ' nothing', { view: 'unused' }),
        app.before && fact(changeCounts(app.changes), { view: 'changes' }),
        page.caveats.length > 0 && fact(count(page.caveats.length, 'caveat', 'caveats'), { view: 'caveats' }),
        page.controller && fact('Ingress controller: ' + page.controller),
        page.source !== page.title[0] && fact(page.source),
        fact('Made ' + page.made + ' by np ' + page.np));
}

function option(value, label) { return element('option', { value }, label); }

function control(name, made) {
    made.id = 'filter-' + name;
    made.addEventListener(made.tagName === 'INPUT' && made.type !== 'checkbox' ? 'input' : 'change', () => {
        app.listed = LIST_PART;
        change({ [name]: made.type === 'checkbox' ? made.checked : made.value });
    });
    return made;
}

function toolbar() {
    const namespaces = Array.from(new Set(app.table.namespaces)).sort();
    const labelled = (label, made) => element('label', { 'data-filter': made.id.slice(7) }, label + ' ', made);
    const search = element('input', { type: 'search', placeholder: 'name, port, address ( / )', autocomplete: 'off' });
    const options = names => names.map(name => option(name, name));
    const check = (name, label) => element('label', { class: 'check', 'data-filter': name },
        control(name, element('input', { type: 'checkbox' })), label);
    const reset = () => change(Object.assign({}, START, { view: app.state.view }));
    return element('form', { class: 'toolbar', role: 'search', submit: event => event.preventDefault() },
        labelled('Search', control('search', search)),
        labelled('Namespace', control('namespace', element('select', {}, option('', 'all'), ...options(namespaces)))),
        labelled('Rows', control('sort', element('select', {}, ...Object.keys(SORTS).map(name => option(name, SORTS[name].label))))),
        labelled('Protocol', control('protocol', element('select', {}, option('', 'any'), ...options(['TCP', 'UDP', 'SCTP'])))),
        labelled('Port', control('port', element('input', { type: 'number', min: 1, max: 65535 }))),
        check('passing', 'only what passes'),
        app.table.groups.length < app.table.names.length && check('joined', 'equal workloads as one line'),
        app.table.ranges.some(range => range.includes(',')) && check('cidrs', 'ranges as CIDRs'),
        element('span', { id: 'focused', 'data-filter': 'focus' }),
        element('button', { type: 'button', id: 'reset', click: reset }, 'Reset'),
        copyButton('Copy link', () => location.href));
}

// The controls have the values of the state, and only those that filter the view are there.
function showControls(filters) {
    for (const made of document.querySelectorAll('[data-filter]')) made.hidden = !filters.includes(made.dataset.filter);
    document.getElementById('reset').hidden = !filters.length;
    for (const name of EVERY) {
        const made = document.getElementById('filter-' + name);
        if (!made) continue;
        if (made.type === 'checkbox') made.checked = app.state[name];
        else if (made.value !== app.state[name]) made.value = app.state[name];
    }
    const focused = document.getElementById('focused');
    focused.replaceChildren(...app.state.focus ? [element('button', { type: 'button', class: 'chip', title: 'Show all workloads again',
        click: () => change({ focus: '' }) }, app.state.focus + ' ×')] : []);
}

function viewButtons() {
    const shown = VIEWS.filter(view => !view.needs || view.needs(app));
    const button = (view, place) => element('button', {
        type: 'button',
        class: 'view',
        'data-view': view.name,
        title: 'Key ' + (place + 1),
        click: () => change({ view: view.name }),
    }, view.label);
    return element('nav', { 'aria-label': 'Views' }, ...shown.map(button));
}

function keysHelp() {
    const keys = [['1 2 3 …', 'the views'], ['/', 'search'], ['arrows, Enter', 'move in the matrix or the list, open'],
        ['f', 'in a picture: the picture of that neighbour'], ['Esc', 'close what is open']];
    return element('details', { class: 'keys' }, element('summary', {}, 'Keys'), element('dl', {}, ...[].concat(...keys.map(([key, use]) =>
        [element('dt', {}, key), element('dd', {}, use)]))));
}

// ---- Drawing

// What is looked at is a place to which Back goes back. Each letter that is typed is none.
function keepState(names) {
    const typed = names.every(name => name === 'search' || name === 'port') && names.join();
    const link = writeState(app.state);
    const isSame = typed && typed === app.typed || link === location.hash;
    app.typed = typed;
    try { history[isSame ? 'replaceState' : 'pushState'](null, '', link); } catch (error) { location.hash = link; }
}

function change(patch) {
    const opened = Object.keys(patch).every(name => name === 'from' || name === 'to');
    app.state = Object.assign({}, app.state, patch);
    keepState(Object.keys(patch));
    if (opened) drawDetail();
    else draw();
}

function draw() {
    const view = VIEWS.find(one => one.name === app.state.view && (!one.needs || one.needs(app))) || VIEWS[0];
    const key = document.activeElement && document.activeElement.dataset.key;
    document.body.dataset.view = view.name;
    for (const button of document.querySelectorAll('button.view')) {
        button.setAttribute('aria-current', button.dataset.view === view.name ? 'page' : 'false');
    }
    showControls(view.filters || []);
    if (page.terminal) showTerminal(page.terminal(view.name, app.state));
    document.getElementById('view').replaceChildren(...view.sections.map(section => section(app)));
    document.getElementById('beside').replaceChildren(...view.beside.map(section => section(app)));
    drawDetail();
    // Who opened a line by a key is at that line afterwards.
    const again = key && Array.from(document.querySelectorAll('[data-key]')).find(made => made.dataset.key === key);
    if (again) again.focus();
}

// The command lines that give in a terminal what the view shows.
function showTerminal(lines) {
    document.getElementById('terminal').replaceChildren(...lines.map(line => element('div', { class: 'command' },
        element('code', {}, line), copyButton('Copy', line))));
}

function drawDetail() {
    const { from, to } = app.state;
    const detail = document.getElementById('detail');
    detail.replaceChildren();
    for (const made of document.querySelectorAll('.opened')) made.classList.remove('opened');
    detail.hidden = !(from && to);
    document.body.classList.toggle('has-detail', !detail.hidden);
    if (detail.hidden) return;
    const close = element('button', {
        type: 'button',
        'aria-label': 'Close',
        title: 'Esc',
        click: () => change({ from: '', to: '' }),
    }, '×');
    const heading = element('h2', {}, endShown(from) + ' → ' + endShown(to));
    detail.append(element('div', { class: 'bar' }, heading, close), detailOf(app, from, to));
    const cell = document.body.dataset.view === 'matrix' && openedCell(app, app.matrix);
    if (cell) cell.classList.add('opened');
    for (const made of document.querySelectorAll('[data-ends]')) {
        if (made.dataset.ends === endsKey(from, to)) made.classList.add('opened');
    }
}

function pressed(event) {
    if (event.ctrlKey || event.metaKey || event.altKey) return;
    if (event.key === 'Escape' && (app.state.from || app.state.to)) {
        change({ from: '', to: '' });
        return;
    }
    if (/^(INPUT|SELECT|TEXTAREA)$/.test(event.target.tagName)) return;
    const views = document.querySelectorAll('button.view');
    if (event.key === '/') {
        event.preventDefault();
        document.getElementById('filter-search').focus();
    } else if (/^[1-9]$/.test(event.key) && views[Number(event.key) - 1]) {
        views[Number(event.key) - 1].click();
    }
}

function makeApp() {
    const before = page.before && readTable(page.before);
    const table = readTable(page.table);
    const explained = readExplained(page.explained, table.names);
    return {
        table,
        before,
        changes: before ? changesBetween(before, table) : [],
        explained,
        isolation: readIsolation(explained),
        refused: page.refused.length ? 'np does not show what new pods would reach here: ' + page.refused.join(' ') : '',
        listed: LIST_PART,
        state: readState(location.hash),
        change,
        draw,
    };
}

function build() {
    document.title = page.title[0] + ' – np';
    document.getElementById('page').replaceChildren(
        element('header', {},
            element('h1', {}, page.title[0]),
            facts(), viewButtons(),
            page.terminal && element('div', { id: 'terminal', 'aria-label': 'In a terminal' }), toolbar(),
            ...page.notes.map(note => element('p', { class: 'note' }, note))),
        element('main', {},
            element('div', { id: 'view' }),
            element('aside', { id: 'side' },
                element('section', { id: 'detail', 'aria-label': 'What is open', hidden: true }),
                element('div', { id: 'beside' }))),
        element('footer', {},
            keysHelp(),
            element('p', {}, 'Every row, answer and list of this page is np’s. '
                + 'The page itself only lays out, filters and searches.')));
}

// A picture is as wide as the window, also when that gets another width.
function listenForWidth() {
    let width = innerWidth, waiting = 0;
    window.addEventListener('resize', () => {
        clearTimeout(waiting);
        waiting = setTimeout(() => {
            if (width !== innerWidth && document.querySelector('#view svg')) draw();
            width = innerWidth;
        }, 200);
    });
}

// Shows what np answered, in the place of what was shown.
function show(answered) {
    const isFirst = !page;
    page = answered;
    app = makeApp();
    build();
    if (isFirst) {
        document.addEventListener('keydown', pressed);
        listenForPrint();
        listenForWidth();
        window.addEventListener('hashchange', () => { app.state = readState(location.hash); app.typed = ''; draw(); });
    }
    draw();
}
