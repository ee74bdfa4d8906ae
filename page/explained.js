// What np explain answered, as it stands in the page, and what it says of one side whoever is at the other end.

// The answers by their ends: each the lines of np, in which marks stood for the ends.
function readExplained(raw, names) {
    const answers = new Map();
    if (!raw) return answers;
    const ends = names.concat(raw.addresses);
    for (let i = 0; i < raw.ends.length; i += 3) {
        const from = ends[raw.ends[i]], to = ends[raw.ends[i + 1]];
        const lines = raw.answers[raw.ends[i + 2]].split(' ').map(number => raw.lines[number]);
        answers.set(from + ' ' + to, lines.map(line => line.split('\u0002').join(to).split('\u0001').join(from)));
    }
    return answers;
}

// Calls visit with each part of an answer: its direction, the end that it is about, and its lines.
function eachSide(answer, visit) {
    let side = null;
    for (const line of answer) {
        const heading = /^(egress|ingress) of (\S+)/.exec(line);
        if (heading) {
            if (side) visit(side);
            side = { direction: heading[1], end: heading[2], lines: [] };
        } else if (side && / : (Allow|Deny) /.test(line)) side.lines.push(line);
    }
    if (side) visit(side);
}

// The policies that isolate each end, by 'ingress of NAME': they select its pods, so they are the same whoever is at the other end.
function readIsolation(answers) {
    const isolation = new Map();
    for (const answer of answers.values()) {
        eachSide(answer, ({ direction, end, lines }) => {
            for (const line of lines) {
                const policies = /Deny since isolated by NetworkPolicy (.*)$/.exec(line);
                if (policies) isolation.set(direction + ' of ' + end, policies[1].split(', '));
            }
        });
    }
    return isolation;
}
