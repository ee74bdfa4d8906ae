// The view in which np is asked: a form for each command, the answer, and the command line that gives the same answer in a terminal.

const asked = { command: 'evaluate', values: {}, made: null };
const TYPING_PAUSE = 300;

function offeredNames(offers) {
    if (offers === 'workloads') return app ? app.table.names : [];
    return offers === 'pods' ? podNames() : [];
}

function fieldInput(question, field, place) {
    const id = 'ask-' + question.command + '-' + place;
    const kept = asked.values[question.command + place];
    const value = kept !== undefined ? kept : field.value || field.text || '';
    const more = { id, placeholder: field.hint || false };
    if (field.choices) {
        const options = field.choices.map((choice, at) => element('option', { value: choice }, field.names ? field.names[at] : choice));
        return fill(element('select', more), {}, options);
    }
    if (field.text !== undefined) {
        const area = element('textarea', Object.assign(more, { rows: 6, spellcheck: 'false' }));
        area.value = value;
        return area;
    }
    const list = field.offers && { list: id + '-names' };
    const input = element('input', Object.assign(more, { type: field.type || 'text', autocomplete: 'off', spellcheck: 'false' }, list));
    input.value = value;
    return input;
}

function fieldOf(question, field, place) {
    const input = fieldInput(question, field, place);
    const names = field.offers ? offeredNames(field.offers).slice(0, 2000) : [];
    return {
        input,
        made: element('label', { class: field.text !== undefined ? 'field wide' : 'field' },
            element('span', {}, field.label + (field.optional && !field.choices ? ' (may stay empty)' : '')), input,
            field.offers && element('datalist', { id: input.id + '-names' }, ...names.map(name => element('option', { value: name })))),
    };
}

// The form of a question, whose answer is asked for when it is sent, and of statements while they are typed.
function askForm(question) {
    const fields = question.fields.map((field, place) => fieldOf(question, field, place));
    const answer = element('div', { class: 'answers', 'aria-live': 'polite' });
    let latest = 0, timer = 0;
    const ask = async () => {
        latest += 1;
        const number = latest;
        const values = fields.map(({ input }, place) => question.fields[place].text === undefined ? input.value.trim() : input.value);
        values.forEach((value, place) => { asked.values[question.command + place] = value; });
        const { words, files } = wordsOf(question, values);
        const isStale = () => number !== latest;
        const given = await runner.ask({ words, files: files.concat(filesOf('now')), most: memoryMost(), isStale });
        if (!isStale()) answer.replaceChildren(...answerParts(words, files, given));
    };
    const send = event => { event.preventDefault(); ask(); };
    const typed = () => { clearTimeout(timer); timer = setTimeout(ask, TYPING_PAUSE); };
    const form = element('form', { class: 'ask-form', submit: send }, ...fields.map(field => field.made),
        element('button', { type: 'submit', class: 'primary' }, 'Ask np'));
    fields.forEach(({ input }, place) => { if (question.fields[place].text !== undefined) input.addEventListener('input', typed); });
    return element('div', {}, hint(question.hint), form, answer);
}

// What np answered: its report, what it said, how it ended, and the command line.
function answerParts(words, files, given) {
    const saves = files.map(([name, bytes]) => saveButton('Save ' + name, name, () => bytes));
    return [
        commandPart(words, saves),
        given.report && element('pre', { class: 'answer report', tabindex: 0, 'aria-label': 'The report' },
            ...reportLines(given.report.replace(/\n$/, ''))),
        given.isCut && hint('The first ' + sizeText(given.report.length) + ' of ' + sizeText(given.length) + ' are shown.'),
        given.said && element('pre', { class: given.status ? 'answer fault' : 'answer said' }, given.said),
        element('p', { class: 'ended', 'data-status': given.status }, endingText(given)),
        given.report && element('p', { class: 'after' }, copyButton('Copy the report', () => given.report),
            saveButton('Save the report', 'np-' + words[0] + '.txt', () => new TextEncoder().encode(given.report))),
        ...given.status === 1 ? faultParts('now', given.said) : [],
    ].filter(Boolean);
}

const MOST_LINES_SHOWN = 2000;

function reportLines(report) {
    const lines = report.split('\n');
    const shown = lines.slice(0, MOST_LINES_SHOWN).map(line => element('span', { class: deciderClass(line) }, line + '\n'));
    const left = lines.length - MOST_LINES_SHOWN;
    return left > 0 ? shown.concat(['.. and ' + left + ' more lines: copy or save the report\n']) : shown;
}

function endingText(given) {
    if (given.isStopped) return 'The run was stopped.';
    const ending = ENDINGS[given.status];
    return (ending ? 'Status ' + given.status + ': ' + ending : 'The run did not end as np does')
        + ' (' + given.seconds.toFixed(2) + ' s, ' + sizeText(given.bytes) + ' of memory)';
}

function commandPart(words, saves) {
    const line = commandLine(words);
    return element('div', { class: 'command' }, element('code', { class: 'line' }, line), copyButton('Copy', line), ...saves || []);
}

// The objects that np refused, and what to do.
function faultParts(side, said) {
    const advice = adviceOf(said);
    return [
        advice && hint(advice),
        ...faultyObjects(side, said).map(({ number, name, object }) => element('details', { class: 'faulty', open: true },
            element('summary', {}, 'Object ' + number + ', ' + objectName(object) + ', of ' + name),
            element('pre', { class: 'answer', tabindex: 0 }, JSON.stringify(object, null, 2).slice(0, 20000)))),
    ].filter(Boolean);
}

function askTabs() {
    return element('nav', { class: 'commands', 'aria-label': 'Questions' }, ...QUESTIONS.map(question => element('button', {
        type: 'button',
        'data-command': question.command,
        'aria-pressed': question.command === asked.command ? 'true' : 'false',
        click: () => {
            asked.command = question.command;
            asked.made = null;
            draw();
            document.querySelector('button[data-command=' + question.command + ']').focus();
        },
    }, question.label)));
}

// The view is made once for a command, and kept: what was typed and answered stays while other views are looked at.
function askSection() {
    if (!asked.made) {
        const question = QUESTIONS.find(one => one.command === asked.command);
        asked.made = viewSection('ask', 'Ask np', 'Ask np', [], askTabs(), askForm(question));
    }
    return asked.made;
}

// What decides between two ends, asked when a cell or a row is opened.
function explainLive(from, to) {
    const words = ['explain', '--from', from, '--to', to].concat(namesOf('now'));
    const made = element('div', { class: 'live', 'aria-live': 'polite' }, hint('np explain is asked ..'));
    runner.ask({ words, files: filesOf('now'), most: memoryMost(), isStale: () => !made.isConnected }).then(given => {
        if (given.isStale) return;
        made.replaceChildren(given.status === 0
            ? element('pre', { class: 'answer' }, ...reportLines(given.report.replace(/\n$/, '')))
            : element('pre', { class: 'answer fault' }, given.said));
    });
    return made;
}
