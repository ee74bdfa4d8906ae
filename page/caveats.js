// The caveats: what there is about this very list that a reader wants to know, as the plugin found it.

// What a caveat may name an end by: a workload goes by its owner, without the number that np gives one of several.
function caveatEnds(table, end) {
    if (end === CONTROLLER) return [CONTROLLER];
    return table.place.has(end) ? [end.replace(/#[0-9]+$/, ''), '{any pod}', '{anyone}'] : ['{anyone}'];
}

// The caveats that touch connections from one end to another. A list that would be long stands for everyone.
function caveatsBetween(table, from, to) {
    const senders = caveatEnds(table, from), receivers = caveatEnds(table, to);
    const meets = (names, ends) => !names.length || names.some(name => ends.includes(name));
    return page.caveats.filter(({ touched }) => touched.some(pair => meets(pair[0], senders) && meets(pair[1], receivers)));
}

// Ingresses lead to these workloads, which let in peers that they name: whether the controller is one is not known.
function unknownReached() { return page.caveats.filter(({ key }) => key === 'controller-not-named'); }

function caveatLines(caveats) { return codeLines(caveats.map(({ line }) => line)); }

function caveatPart(table, from, to) {
    const caveats = caveatsBetween(table, from, to);
    return caveats.length ? [element('h3', {}, 'Caveats'), caveatLines(caveats)] : [];
}

function caveatsSection(app) {
    const filter = makeFilter(app.state);
    const caveats = page.caveats.filter(({ line }) => wordBits(filter.words, line) === filter.full);
    return viewSection('caveats', 'Caveats', 'Caveats',
        [told(count(caveats.length, 'caveat', 'caveats')), copyButton('Copy', () => caveats.map(({ line }) => line + '\n').join(''))],
        hint('No row changes by them. They say where the list and the cluster may not be alike, or where a policy '
            + 'likely does not do what it was written for; kubectl np help KEY says what each means.'),
        caveatLines(caveats));
}
