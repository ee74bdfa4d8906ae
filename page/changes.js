// What differs between two tables: the rows of both are laid side by side, and no row is worked out.

// Workloads that are equal in both tables are one end.
function changeEnds(before, after) {
    const ends = new Map();
    const names = Array.from(new Set(before.names.concat(after.names))).sort();
    for (const name of names) {
        const old = before.place.has(name) ? before.place.get(name) : -1;
        const now = after.place.has(name) ? after.place.get(name) : -1;
        const key = (old < 0 ? '' : before.groupOf[old]) + '/' + (now < 0 ? '' : after.groupOf[now]);
        if (!ends.has(key)) ends.set(key, { old: [], now: [], names: [] });
        const end = ends.get(key);
        end.names.push(name);
        if (old >= 0) end.old.push(old);
        if (now >= 0) end.now.push(now);
    }
    return Array.from(ends.values());
}

function changeEndText(end) {
    const first = end.names[0] + (end.old.length ? end.now.length ? '' : ' (gone)' : ' (new)');
    return end.names.length === 1 ? first : first + ' and ' + (end.names.length - 1).toLocaleString('en') + ' equal to it';
}

function sortOfChange(before, after) {
    if (before === NOTHING) return 'opened';
    return after === NOTHING ? 'closed' : 'changed';
}

function changesBetween(before, after) {
    const ends = changeEnds(before, after);
    const changes = [];
    // The texts of the ends are made where there is a change alone: there may be millions of pairs.
    const tell = (source, destination, old, now, row) => {
        if (old === now) return;
        changes.push(Object.assign({
            sort: sortOfChange(old, now),
            source: source(),
            destination: destination(),
            before: old,
            after: now,
        }, row));
    };
    for (const from of ends) for (const to of ends) tellPair(before, after, from, to, tell);
    for (const end of ends) tellOthers(before, after, end, tell);
    return changes;
}

function tellPair(before, after, from, to, tell) {
    const text = (table, places, others, index) => !places.length || others.length <= index ? NOTHING
        : table.joined[between(table, places[0], others[index])];
    const size = from.names.length;
    const row = count => ({ from: from.names, to: to.names, kind: 'pair', count });
    if (from !== to) {
        tell(() => changeEndText(from), () => changeEndText(to),
            text(before, from.old, to.old, 0), text(after, from.now, to.now, 0), row(size * to.names.length));
        return;
    }
    if (size > 1) {
        tell(() => changeEndText(from), () => 'each other',
            text(before, from.old, from.old, 1), text(after, from.now, from.now, 1), row(size * (size - 1)));
    }
    const itself = () => size > 1 ? 'each to itself' : changeEndText(from);
    tell(() => changeEndText(from), itself,
        text(before, from.old, from.old, 0), text(after, from.now, from.now, 0), row(size));
}

function tellOthers(before, after, end, tell) {
    const name = () => changeEndText(end);
    for (const side of [0, 1]) {
        for (const colon of [false, true]) {
            const inFamily = row => row.range.includes(':') === colon;
            const ranges = (table, places) => places.length ? addressRows(table, places[0], side).filter(inFamily) : [];
            tellRanges(name, end, side, ranges(before, end.old), ranges(after, end.now), tell);
        }
    }
    const through = (table, places) => places.length ? table.joined[table.groups[table.groupOf[places[0]]].through] : NOTHING;
    tell(() => CONTROLLER, name, through(before, end.old), through(after, end.now),
        { to: end.names, kind: 'through', count: end.names.length });
}

// Where both have the same ranges, or one has none, a row is compared with its own; else what passes in the family is told as a whole.
function tellRanges(name, end, side, old, now, tell) {
    const row = side === 0
        ? { to: end.names, kind: 'from', count: end.names.length }
        : { from: end.names, kind: 'to', count: end.names.length };
    const say = (range, was, is) => side === 0 ? tell(() => range, name, was, is, row) : tell(name, () => range, was, is, row);
    const same = old.length === now.length && old.every((range, place) => range.range === now[place].range);
    if (same) {
        old.forEach((range, place) => say(range.range, range.text, now[place].text));
        return;
    }
    if (!old.length || !now.length) {
        now.forEach(range => say(range.range, NOTHING, range.text));
        old.forEach(range => say(range.range, range.text, NOTHING));
        return;
    }
    const all = rows => rows.filter(range => range.text !== NOTHING).map(range => range.range + ' : ' + range.text).join('; ') || NOTHING;
    say(old[0].range.includes(':') ? 'addresses (IPv6)' : 'addresses (IPv4)', all(old), all(now));
}

const CHANGE_SIGNS = { opened: '+', closed: '−', changed: '≠' };
const CHANGE_WORDS = {
    opened: 'Opened: nothing passed before',
    closed: 'Closed: nothing passes now',
    changed: 'Changed: something else passes',
};

function changeKept(filter, change) {
    const spaces = (change.from || []).concat(change.to || []);
    if (filter.namespace && !spaces.some(name => namespaceOf(name) === filter.namespace)) return false;
    if (filter.focus && !spaces.includes(filter.focus)) return false;
    if (!filter.sort.holds(change) || !(filter.port(change.before) || filter.port(change.after))) return false;
    return spaces.slice(0, 1000).concat([change.source, change.destination, change.before, change.after])
        .reduce((bits, text) => bits | filter.bits(text), 0) === filter.full;
}

function changesSection(app) {
    const filter = makeFilter(app.state);
    const changes = app.changes.filter(change => changeKept(filter, change));
    const head = ['change', 'source', 'destination', 'before', 'after'];
    const texts = change => [change.sort, change.source, change.destination, change.before, change.after];
    return viewSection('changes', 'Changes', 'What changed',
        [told(changeCounts(changes)), copyButton('Copy as CSV', () => csvOf(head, changes.map(texts)))],
        !changes.length && hint(app.changes.length ? 'No change is kept by the filter.' : 'Both snapshots have the same rows.'),
        ...['opened', 'closed', 'changed'].map(sort => changesOfSort(app, sort, changes.filter(change => change.sort === sort))));
}

// How many pairs of ends changed in each way, each of equal workloads by itself.
function changeCounts(changes) {
    const total = sort => changes.reduce((sum, change) => change.sort === sort ? sum + change.count : sum, 0);
    return ['opened', 'closed', 'changed'].map(sort => total(sort).toLocaleString('en') + ' ' + sort).join(', ');
}

function changesOfSort(app, sort, changes) {
    if (!changes.length) return null;
    return element('div', {},
        element('h3', {}, CHANGE_WORDS[sort] + ' (' + count(changes.length, 'line', 'lines') + ')'),
        element('table', { class: 'rows-table', 'aria-label': CHANGE_WORDS[sort] }, rowsHead(['', 'From', 'To', 'Before', 'After']),
            element('tbody', {}, ...changes.slice(0, app.listed).map(change => changeRow(app, change)))),
        changes.length > app.listed && moreButton(app));
}

// A change of two workloads, or of a range, opens the row as it is now.
function changeRow(app, change) {
    const place = change.from && change.from === change.to && change.destination === 'each other' ? 1 : 0;
    const from = change.from ? change.from[0] : change.kind === 'through' ? CONTROLLER : 'addresses';
    const to = change.to ? change.to[place] : 'addresses';
    const sign = element('span', { class: 'sign change-' + change.sort, title: change.sort }, CHANGE_SIGNS[change.sort]);
    return openingRow(app, [from, to], [sign, change.source, change.destination, change.before, change.after]);
}
