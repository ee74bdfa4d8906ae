// The table of a cluster, of the rows that np prints in JSON: the same that plugin/page makes for a page, and model.js reads.

const MARK = / \((IPv[46])\)$/;
const RECEIVED = 0, SENT = 1;

// Bytes that come in pieces, as lines.
function lineReader(see) {
    const decoder = new TextDecoder();
    let rest = '';
    return {
        take(bytes) {
            const text = rest + decoder.decode(bytes, { stream: true });
            let place = 0;
            for (let end; (end = text.indexOf('\n', place)) >= 0; place = end + 1) see(text.slice(place, end));
            rest = text.slice(place);
        },
        end() { if (rest + decoder.decode()) see(rest); },
    };
}

// The row of a line of a JSON report: its connections, destination and source. None where the line has no row, as of an empty report.
function rowOf(line) {
    const fields = line.split('"');
    if (fields.length === 13 && !line.includes('\\')) return { connections: fields[3], destination: fields[7], source: fields[11] };
    const text = line.replace(/^\[/, '').replace(/[,\]]$/, '');
    return text ? JSON.parse(text) : null;
}

// Texts by their numbers, in the order in which they came.
function numbered() {
    const texts = [], numbers = new Map();
    return {
        texts,
        get: text => numbers.get(text),
        of(text) {
            if (!numbers.has(text)) {
                numbers.set(text, texts.length);
                texts.push(text);
            }
            return numbers.get(text);
        },
    };
}

// Rows of workloads with ends that are no workloads: ranges of addresses, or pods that do not exist yet.
function otherEnds() {
    const ends = numbered(), rows = new Map();
    return {
        add(workload, side, end, connections) {
            if (!rows.has(workload)) rows.set(workload, [[], []]);
            rows.get(workload)[side].push(ends.of(end), connections);
        },
        // The distinct lists of rows, and of each workload the number of its list, or -1.
        made(count) {
            const lists = numbered();
            const of = new Array(count).fill(-1);
            const workloads = Array.from(rows.keys()).sort((a, b) => a - b);
            for (const workload of workloads) of[workload] = lists.of(JSON.stringify(rows.get(workload)));
            return { texts: ends.texts, lists: lists.texts.map(text => JSON.parse(text)), of };
        },
    };
}

// A table that is told the rows of `np exposure` or, where np refuses these, the names alone; and then those of `np list`.
function makeTable() {
    const workloads = numbered(), connections = numbered(), ranges = otherEnds(), exposure = otherEnds(), through = new Map();
    const families = new Map();
    let sent = null;
    // What the next line is where it says of the next workload what the last one said: most lines of a large table are such.
    let guess = { line: '', source: 0, destination: 0, value: 0, lead: '', trail: '' };
    const numberOf = value => value === 'No Connections' ? 0 : 1 + connections.of(JSON.stringify(value));

    function seeExposure(line) {
        const row = rowOf(line);
        if (!row) return;
        const isReceived = row.source.startsWith('{');
        const [name, end] = isReceived ? [row.destination, row.source] : [row.source, row.destination];
        exposure.add(workloads.of(name), isReceived ? RECEIVED : SENT, end, numberOf(row.connections));
    }

    // Every workload is the destination of exactly one row whose source is the range that begins with the least address.
    function seeName(line) {
        const row = line.includes('"source":"0.0.0.0/') ? rowOf(line) : null;
        if (row && !row.source.includes('[')) workloads.of(row.destination);
    }

    function seeRow(line) {
        if (line === guess.line) {
            put(guess.source, guess.destination, guess.value);
            guessNext();
            return;
        }
        const row = rowOf(line);
        if (!row) return;
        if (!sent) sent = new Uint16Array(workloads.texts.length ** 2);
        const source = workloads.get(row.source), destination = workloads.get(row.destination);
        const mark = source !== undefined && destination === undefined && MARK.exec(row.destination);
        if (source !== undefined && destination !== undefined) {
            put(source, destination, numberOf(row.connections));
            guess = {
                source,
                destination,
                value: numberOf(row.connections),
                lead: '{"connections":"' + row.connections + '","destination":"',
                trail: '","source":"' + row.source + '"},',
            };
            guessNext();
        } else if (mark) seeFamily(source, row.destination.slice(0, mark.index), mark[1], row.connections);
        else if (source !== undefined) ranges.add(source, SENT, row.destination, numberOf(row.connections));
        else if (row.source === '{ingress-controller}') through.set(destination, numberOf(row.connections));
        else ranges.add(destination, RECEIVED, row.source, numberOf(row.connections));
    }

    // A workload of one pod has no row with itself.
    function guessNext() {
        guess.destination += guess.destination + 1 === guess.source ? 2 : 1;
        const name = workloads.texts[guess.destination];
        guess.line = name === undefined ? '' : guess.lead + name + guess.trail;
    }

    // Of a pair whose families differ there may be a row for each: together they are one value.
    function seeFamily(source, name, family, text) {
        const destination = workloads.get(name), pair = source + ' ' + destination;
        families.set(pair, Object.assign(families.get(pair) || {}, { [family]: text }));
        put(source, destination, numberOf(families.get(pair)));
    }

    function put(source, destination, value) { sent[source * workloads.texts.length + destination] = value; }

    function made() {
        const count = workloads.texts.length;
        const outside = ranges.made(count), strangers = exposure.made(count);
        const values = sent || new Uint16Array(count * count);
        return Object.assign({
            only: '',
            names: workloads.texts,
            connections: [null].concat(connections.texts.map(text => JSON.parse(text))),
            ranges: outside.texts,
            outside: { lists: outside.lists, of: outside.of },
            ends: strangers.texts,
            exposure: { lists: strangers.lists, of: strangers.of },
        }, groupsOf(values, count, workload => [through.get(workload) || 0, outside.of[workload]]));
    }

    return { seeExposure, seeName, seeRow, made };
}

// ---- Workloads that are equal

// Two workloads are equal where they have the same rows with every third one, with themselves and with addresses, and the same row from
// one to the other as back: see plugin/page/matrix.py. Rows are compared by sums with random weights, of 128 bits in all.
function groupsOf(values, count, others) {
    const sums = pairSums(values, count);
    const leaders = Array.from({ length: count }, (_, place) => place), inner = new Array(count).fill(0);
    const joined = new Set();
    for (const value of valuesBetween(values, count)) {
        const first = new Map();
        for (let place = 0; place < count; place += 1) {
            if (joined.has(place) || !sums.sends(place, value)) continue;
            const key = [sums.with(place, value), values[place * count + place], ...others(place)].join(' ');
            if (!first.has(key)) {
                first.set(key, place);
                continue;
            }
            const leader = first.get(key);
            leaders[place] = leader;
            inner[leader] = value;
            joined.add(leader).add(place);
        }
    }
    return tellGroups(values, count, leaders, inner, others);
}

// The values between different workloads, in ascending order.
function valuesBetween(values, count) {
    const found = new Set([0]);
    values.forEach((value, pair) => { if (value && pair % (count + 1)) found.add(value); });
    return Array.from(found).sort((a, b) => a - b);
}

// The sums of what each workload sends and is sent, but for its own place, and which values it sends.
function pairSums(values, count) {
    const weights = crypto.getRandomValues(new Uint32Array(4 * Math.max(count, 1)).subarray(0, 4 * count));
    const sentSums = new Uint32Array(4 * count), receivedSums = new Uint32Array(4 * count);
    const sends = Array.from({ length: count }, () => new Set([0]));
    for (let from = 0; from < count; from += 1) {
        for (let to = 0; to < count; to += 1) {
            const value = values[from * count + to];
            if (!value || from === to) continue;
            sends[from].add(value);
            for (let k = 0; k < 4; k += 1) {
                sentSums[4 * from + k] += Math.imul(weights[4 * to + k], value);
                receivedSums[4 * to + k] += Math.imul(weights[4 * from + k], value);
            }
        }
    }
    // Both sums as a text, as if the workload had this value with itself.
    const withValue = (place, value) => [sentSums, receivedSums].map(sums => [0, 1, 2, 3]
        .map(k => (sums[4 * place + k] + Math.imul(weights[4 * place + k], value)) >>> 0).join(' ')).join(' ');
    return { sends: (place, value) => sends[place].has(value), with: withValue };
}

// Of each workload its group; of each group the value within it, the row with itself, what comes through Ingresses, and what it sends.
function tellGroups(values, count, leaders, inner, others) {
    const numbers = numbered();
    const groupOf = leaders.map(leader => numbers.of(leader));
    const groups = numbers.texts.map(leader => {
        const row = values.slice(leader * count, (leader + 1) * count);
        const own = row[leader];
        row[leader] = inner[leader];
        return [inner[leader], own, others(leader)[0], changesText(row)];
    });
    return { groupOf, groups };
}

// A list of numbers as the places where it changes: `0:1 5:0` is 1 from place 0 on, 0 from place 5 on.
function changesText(row) {
    const written = [];
    let last = 0;
    row.forEach((value, place) => {
        if (value !== last) written.push(place + ':' + value);
        last = value;
    });
    return written.join(' ');
}
