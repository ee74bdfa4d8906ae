'use strict';
// The tables of the page as np gave them. Nothing here decides what passes: a row is looked up.

const EVERYTHING = 'All Connections';
const NOTHING = 'No Connections';
const CONTROLLER = '{ingress-controller}';
const NONE = 0, SOME = 1, ALL = 2;

// A list of values in order, written as the places where it changes, as "0:1 5:0".
function readChanges(text, length) {
    const values = new Uint16Array(length);
    let value = 0, place = 0;
    for (const change of text ? text.split(' ') : []) {
        const colon = change.indexOf(':');
        const next = Number(change.slice(0, colon));
        values.fill(value, place, next);
        place = next;
        value = Number(change.slice(colon + 1));
    }
    return values.fill(value, place);
}

function namespaceOf(name) { return name.slice(0, name.indexOf('/')); }

function readTable(raw) {
    const length = raw.names.length;
    const groups = raw.groups.map(([inner, own, through, changes]) =>
        ({ inner, own, through, row: readChanges(changes, length), members: [] }));
    raw.groupOf.forEach((group, workload) => groups[group].members.push(workload));
    const table = Object.assign({}, raw, {
        groups,
        place: new Map(raw.names.map((name, place) => [name, place])),
        namespaces: raw.names.map(namespaceOf),
    });
    table.texts = raw.connections.map(readConnections);
    table.joined = table.texts.map(joinedText);
    table.levels = table.texts.map(texts => levelOf(texts));
    return table;
}

// The connections of one row, or of two where IPv4 and IPv6 differ: the mark behind the destination, and the text.
function readConnections(connections) {
    if (connections === null) return [];
    if (typeof connections === 'string') return [{ mark: '', text: connections }];
    return ['IPv4', 'IPv6'].filter(family => family in connections)
        .map(family => ({ mark: ' (' + family + ')', text: connections[family] }));
}

function joinedText(texts) {
    if (!texts.length) return NOTHING;
    return texts.map(({ mark, text }) => (mark ? mark.trim() + ' ' : '') + text).join('; ');
}

function levelOf(texts) {
    if (!texts.length) return NONE;
    return texts.length === 1 && !texts[0].mark && texts[0].text === EVERYTHING ? ALL : SOME;
}

// The number of the connections that pass from one workload to another, or to itself.
function between(table, from, to) {
    const group = table.groups[table.groupOf[from]];
    return from === to ? group.own : group.row[to];
}

// Whether the page has the row: one of a single namespace has those with an end in it.
function isShown(table, from, to) {
    return !table.only || table.namespaces[from] === table.only || table.namespaces[to] === table.only;
}

function rangeText(table, connections) {
    return connections === 0 ? NOTHING : table.connections[connections];
}

// The rows with addresses of a workload: side 0 is what it is sent, side 1 what it sends.
function addressRows(table, workload, side) {
    const list = table.outside.of[workload];
    if (list < 0) return [];
    const flat = table.outside.lists[list][side];
    const rows = [];
    for (let i = 0; i < flat.length; i += 2) {
        rows.push({ range: table.ranges[flat[i]], connections: flat[i + 1], text: rangeText(table, flat[i + 1]) });
    }
    return rows;
}

// The exposure rows of a workload, of the same two sides.
function exposureRows(table, workload, side) {
    const list = table.exposure.of[workload];
    if (list < 0) return [];
    const flat = table.exposure.lists[list][side];
    const rows = [];
    for (let i = 0; i < flat.length; i += 2) rows.push({ end: table.ends[flat[i]], text: rangeText(table, flat[i + 1]) });
    return rows;
}

// What of all addresses passes: everything, something or nothing.
function addressLevel(table, workload, side) {
    const rows = addressRows(table, workload, side);
    if (rows.every(row => row.connections === 0)) return NONE;
    return rows.every(row => row.text === EVERYTHING) ? ALL : SOME;
}
