// The rows of a table in np's order, by a filter.

// The number of bits of a filter's words that a text has.
function wordBits(words, text) {
    const small = text.toLowerCase();
    return words.reduce((bits, word, place) => small.includes(word) ? bits | 1 << place : bits, 0);
}

// Whether connections have the port, or any port, of the protocol, or of any.
function hasPort(text, protocol, port) {
    if (text === NOTHING) return !protocol && !port;
    if (text === EVERYTHING) return true;
    return text.split('; ').some(part => {
        const space = part.indexOf(' ');
        if (protocol && part.slice(0, space) !== protocol) return false;
        return !port || part.slice(space + 1).split(',').some(run => {
            const [low, high] = run.split('-').map(Number);
            return low <= port && port <= (high === undefined ? low : high);
        });
    });
}

// What each sort of row is called, and whether a row is of it.
const SORTS = {
    all: { label: 'All rows', holds: () => true },
    workloads: { label: 'Between workloads', holds: row => row.kind === 'pair' },
    reach: { label: 'From addresses and Ingresses', holds: row => row.kind === 'from' || row.kind === 'through' },
    fromAnywhere: { label: 'From anywhere', holds: row => row.kind === 'from' && isWhole(row.source) },
    addresses: { label: 'To addresses', holds: row => row.kind === 'to' },
    toAnywhere: { label: 'To anywhere', holds: row => row.kind === 'to' && isWhole(row.destination) },
};

// All addresses of a family.
function isWhole(range) { return range === '0.0.0.0/0' || range === '::/0'; }

function makeFilter(state) {
    const words = state.search.toLowerCase().split(' ').filter(Boolean).slice(0, 30);
    const full = (1 << words.length) - 1;
    const kept = new Map();
    const bits = text => {
        const isRange = text.includes('/') && text.includes(',');
        if (!kept.has(text)) kept.set(text, wordBits(words, isRange ? text + ' ' + rangeEnds(text) : text));
        return kept.get(text);
    };
    const ports = new Map();
    const port = text => {
        if (!ports.has(text)) ports.set(text, hasPort(text, state.protocol, Number(state.port)));
        return ports.get(text);
    };
    return { words, full, bits, port, namespace: state.namespace, focus: state.focus,
        sort: Object.prototype.hasOwnProperty.call(SORTS, state.sort) ? SORTS[state.sort] : SORTS.all,
        passing: state.passing, narrow: Boolean(words.length || state.namespace || state.protocol || state.port) };
}

function keepsText(filter, text, bits) {
    return filter.port(text) && (bits | filter.bits(text)) === filter.full && !(filter.passing && text === NOTHING);
}

// The ends of rows: each workload by itself, or each group of equal ones by its members.
function makeEnds(table, filter, joined) {
    const lists = joined ? [].concat(...table.groups.map(group => focusParts(table, filter.focus, group.members)))
        : table.names.map((name, place) => [place]);
    return lists.map(members => ({
        members,
        bits: members.reduce((bits, member) => bits | filter.bits(table.names[member]), 0),
        inNamespace: !filter.namespace || members.some(member => table.namespaces[member] === filter.namespace),
        inFocus: !filter.focus || members.some(member => table.names[member] === filter.focus),
        text: endText(table, members),
    }));
}

// A workload that is looked at stands by itself, whichever others are equal to it.
function focusParts(table, focus, members) {
    const place = table.place.get(focus);
    return members.length > 1 && members.includes(place) ? [[place], members.filter(member => member !== place)] : [members];
}

function endText(table, members) {
    const first = table.names[members[0]];
    return members.length === 1 ? first : first + ' and ' + (members.length - 1).toLocaleString('en') + ' equal to it';
}

// Calls visit with each row that the filter keeps: kind, source, destination, connections, the workloads that are its ends, and how many
// of np's rows it stands for.
function eachRow(table, filter, joined, visit) {
    const ends = makeEnds(table, filter, joined);
    // Pair rows are the many: what the filter says of their connections is looked up once.
    const kept = table.texts.map(texts => texts.filter(({ text }) => filter.port(text))
        .map(({ mark, text }) => ({ mark, text, bits: filter.bits(text) })));
    if (filter.sort.holds({ kind: 'pair' })) eachPair(table, filter, ends, kept, visit);
    for (const end of ends) eachAddressRow(table, filter, end, visit);
    for (const end of ends) eachIngressRow(table, filter, end, visit);
}

function eachPair(table, filter, ends, kept, visit) {
    for (const from of ends) {
        const row = table.groups[table.groupOf[from.members[0]]];
        for (const to of ends) {
            if (!(from.inNamespace || to.inNamespace) || !(from.inFocus || to.inFocus)) continue;
            const size = from.members.length;
            if (from !== to) {
                if (isShown(table, from.members[0], to.members[0])) {
                    visitPair(filter, kept[row.row[to.members[0]]], from, to, size * to.members.length, false, visit);
                }
                continue;
            }
            if (size > 1 && isShown(table, from.members[0], from.members[1])) {
                visitPair(filter, kept[row.inner], from, to, size * (size - 1), false, visit);
            }
            visitPair(filter, kept[row.own], from, to, size, true, visit);
        }
    }
}

function visitPair(filter, kept, from, to, count, own, visit) {
    for (const { mark, text, bits } of kept) {
        if ((bits | from.bits | to.bits) !== filter.full) continue;
        const destination = (own && from.members.length > 1 ? 'each to itself' : to.text) + mark;
        visit({ kind: 'pair', source: from.text, destination, connections: text, count, from: from.members, to: to.members, own });
    }
}

function visitOther(filter, end, row, visit) {
    if (!end.inNamespace || !end.inFocus || !filter.sort.holds(row)) return;
    if (!keepsText(filter, row.connections, end.bits | filter.bits(row.from ? row.destination : row.source))) return;
    visit(row);
}

function eachAddressRow(table, filter, end, visit) {
    const count = end.members.length;
    for (const { range, text } of addressRows(table, end.members[0], 0)) {
        visitOther(filter, end, { kind: 'from', source: range, destination: end.text, connections: text, count, to: end.members }, visit);
    }
    for (const { range, text } of addressRows(table, end.members[0], 1)) {
        visitOther(filter, end, { kind: 'to', source: end.text, destination: range, connections: text, count, from: end.members }, visit);
    }
}

function eachIngressRow(table, filter, end, visit) {
    const count = end.members.length;
    const through = table.groups[table.groupOf[end.members[0]]].through;
    for (const { text } of table.texts[through]) {
        const row = { kind: 'through', source: CONTROLLER, destination: end.text, connections: text, count, to: end.members };
        visitOther(filter, end, row, visit);
    }
}

// The first rows that the filter keeps, how many there are, and how many of np's they stand for.
function takeRows(table, filter, joined, most) {
    const rows = [];
    let lines = 0, total = 0;
    eachRow(table, filter, joined, row => {
        if (rows.length < most) rows.push(row);
        lines += 1;
        total += row.count;
    });
    return { rows, lines, total };
}

function csvField(text) { return /[",\r\n]/.test(text) ? '"' + text.replace(/"/g, '""') + '"' : text; }

// Rows as np list --format csv writes them.
function csvOf(header, rows) { return [header].concat(rows).map(fields => fields.map(csvField).join(',') + '\n').join(''); }
