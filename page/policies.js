// One policy: what it does, as far as the answers of np explain in the page name it.

const RULE_OF = /^(.*) : (Allow|Deny) by (NetworkPolicy|AdminNetworkPolicy|BaselineAdminNetworkPolicy) (\S+) ((?:ingress|egress)\[\d+\])/;

// What each policy decides, by its kind and name: the sides that it isolates, and the ports of the ends of each of its rules.
function readPolicies(app) {
    const policies = new Map();
    const policy = name => {
        if (!policies.has(name)) policies.set(name, { isolates: new Set(), rules: new Map() });
        return policies.get(name);
    };
    for (const [side, names] of app.isolation) for (const name of names) policy('NetworkPolicy ' + name).isolates.add(side);
    for (const [ends, answer] of app.explained) {
        eachSide(answer, ({ lines }) => {
            for (const line of lines) {
                const found = RULE_OF.exec(line);
                if (!found) continue;
                const { rules } = policy(found[3] + ' ' + found[4]);
                const rule = found[5] + ' ' + (found[2] === 'Allow' ? 'allows' : 'denies');
                if (!rules.has(rule)) rules.set(rule, []);
                rules.get(rule).push({ ends: ends.split(' '), text: found[1] });
            }
        });
    }
    for (const rule of page.unused) policy(rule.split(' ').slice(0, 2).join(' '));
    return new Map(Array.from(policies).sort(([one], [other]) => one < other ? -1 : 1));
}

// Whether the page has the answers about all pairs of workloads.
function hasAllPairs({ table, explained }) {
    const ends = table.names;
    return explained.size >= ends.length && ends.every(one => ends.every(other => one === other || explained.has(one + ' ' + other)));
}

function policiesSection(app) {
    const policies = readPolicies(app);
    const names = Array.from(policies.keys());
    const chosen = policies.has(app.state.policy) ? app.state.policy : names[0];
    const chooser = element('select', { id: 'policy', change: event => app.change({ policy: event.currentTarget.value }) },
        ...names.map(name => element('option', { value: name }, name)));
    if (chosen) chooser.value = chosen;
    const isPartial = !hasAllPairs(app);
    return viewSection('policies', 'One policy', 'What a policy does', [element('label', {}, 'Policy ', chooser)],
        isPartial && hint('Of the ' + count(app.explained.size, 'pair', 'pairs')
            + ' of ends whose answers this page has; it is too large to have them all.'),
        ...chosen ? policyParts(app, chosen, policies.get(chosen)) : [hint('No answer in this page names a policy.')]);
}

function policyParts(app, name, { isolates, rules }) {
    const unused = page.unused.filter(rule => rule.startsWith(name + ' '));
    return [
        name.startsWith('NetworkPolicy') && element('h3', {}, isolates.size
            ? 'It isolates: there, only what a rule allows passes' : 'It isolates no workload that these answers are about'),
        codeLines(Array.from(isolates).sort()),
        ...[].concat(...Array.from(rules).sort().map(([rule, rows]) => policyRule(app, name + ' ' + rule, rows))),
        unused.length > 0 && element('h3', {}, 'Rules of it that decide nothing'),
        codeLines(unused),
    ].filter(Boolean);
}

function policyRule(app, title, rows) {
    const kept = rows.slice(0, app.listed);
    return [element('h3', {}, title),
        element('table', { class: 'rows-table', 'aria-label': title }, rowsHead(['', 'From', 'To', 'Connections']),
            element('tbody', {}, ...kept.map(({ ends, text }) => {
                const shown = rowEnds(app.table, ends);
                return openingRow(app, shown, [levelSign(title.endsWith('denies') ? NOTHING : text), ...shown, text]);
            }))),
        rows.length > kept.length && moreButton(app)];
}

// The ends of a row of np: an answer was asked for about the first address of a range.
function rowEnds(table, ends) {
    return ends.map((end, side) => {
        if (table.place.has(end)) return end;
        const row = addressRows(table, table.place.get(ends[1 - side]), side).find(({ range }) => range.startsWith(end + '/'));
        return row ? row.range : 'addresses';
    });
}
