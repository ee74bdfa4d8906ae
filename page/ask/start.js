// The page that asks: what stands at its top, how lists come to it, and the tables that np.wasm makes of them.

const DEFAULT_MEMORY = 2048;
const KUBECTL = 'kubectl get pods,namespaces,deployments,replicasets,statefulsets,daemonsets,replicationcontrollers,jobs,cronjobs,'
    + 'services,ingresses,networkpolicies,adminnetworkpolicies,baselineadminnetworkpolicies -A -o json >cluster.json';

const runner = makeRunner(tellRun);
let shows = 0;

VIEWS.push({ name: 'ask', label: 'Ask np', sections: [askSection], beside: [] });

function memoryMost() { return Math.max(1, Number(document.getElementById('memory').value) || DEFAULT_MEMORY) * 1e6; }

function controllerName() { return document.getElementById('controller').value.trim(); }

// ---- What runs

function tellRun(question, seconds) {
    const busy = document.getElementById('busy');
    busy.hidden = !question;
    if (!question) return;
    const what = question.kind === 'table' ? 'np list, np exposure and np unused' : commandLine(question.words.slice(0, 1));
    document.getElementById('busy-text').textContent = what + ' .. ' + seconds.toFixed(1) + ' s';
}

function busyLine() {
    return element('div', { id: 'busy', role: 'status', hidden: true },
        element('span', { class: 'turning', 'aria-hidden': 'true' }, '◐'), element('span', { id: 'busy-text' }),
        element('button', { type: 'button', id: 'stop', click: () => runner.stop() }, 'Stop'));
}

// ---- How lists come

function dropZone(side, label) {
    const chooser = element('input', { type: 'file', multiple: true, id: 'choose-' + side, accept: '.json,application/json' });
    chooser.addEventListener('change', async () => {
        await addFiles(side, chooser.files);
        chooser.value = '';
        given();
    });
    return element('div', { class: 'drop', 'data-side': side },
        element('label', { for: chooser.id }, label), chooser,
        element('ul', { class: 'inputs', id: 'inputs-' + side }));
}

function pasteBox() {
    const hint = '{ "apiVersion": "v1", "kind": "List", "items": [ ..';
    const area = element('textarea', { id: 'paste', rows: 3, spellcheck: 'false', placeholder: hint });
    const add = () => {
        if (!area.value.trim()) return;
        addInput('now', 'pasted.json', new TextEncoder().encode(area.value), true);
        area.value = '';
        given();
    };
    return element('div', { class: 'paste' }, element('label', { for: 'paste' }, 'Or paste what kubectl get -o json prints'), area,
        element('button', { type: 'button', id: 'add-pasted', click: add }, 'Add it'));
}

function inputItem(side, input, place) {
    const remove = () => { inputs[side].splice(place, 1); given(); };
    return element('li', {}, element('code', {}, input.name), ' ' + sizeText(input.bytes.length) + ' ',
        input.isPasted && saveButton('Save', input.name, () => input.bytes),
        element('button', { type: 'button', 'aria-label': 'Remove ' + input.name, click: remove }, '×'));
}

function example() {
    inputs.now.length = 0;
    addInput('now', 'shop.json', blockBytes('example'), true);
    given();
}

function loadPart() {
    const memory = element('input', { type: 'number', id: 'memory', min: 1, value: DEFAULT_MEMORY });
    const words = { id: 'controller', placeholder: 'not known', list: 'controllers', autocomplete: 'off' };
    const controller = element('input', Object.assign({ type: 'text' }, words));
    controller.addEventListener('change', given);
    return element('details', { id: 'load', open: true },
        element('summary', {}, 'Lists'),
        element('div', { class: 'load' },
            dropZone('now', 'Drop lists here, or choose files'),
            dropZone('before', 'An earlier state, to see what changed'),
            pasteBox(),
            element('div', { class: 'settings' },
                element('label', { class: 'field' }, element('span', {}, 'Ingress controller'), controller,
                    element('datalist', { id: 'controllers' })),
                element('label', { class: 'field' }, element('span', {}, 'Memory for np (MB)'), memory),
                element('button', { type: 'button', id: 'show-example', click: example }, 'Show an example'))),
        element('div', { class: 'command' }, element('code', {}, KUBECTL), copyButton('Copy', KUBECTL)));
}

// A list that is dropped anywhere is one of now, but on the zone of the earlier state.
function listenForFiles() {
    document.addEventListener('dragover', event => { event.preventDefault(); document.body.classList.add('dragging'); });
    document.addEventListener('dragleave', () => document.body.classList.remove('dragging'));
    document.addEventListener('drop', async event => {
        event.preventDefault();
        document.body.classList.remove('dragging');
        const zone = event.target.closest && event.target.closest('.drop');
        await addFiles(zone ? zone.dataset.side : 'now', event.dataTransfer.files);
        given();
    });
}

// ---- From lists to tables

function tableOf(side, wantsUnused) {
    const asked = { kind: 'table', words: namesOf(side), files: filesOf(side), controller: controllerName(), wantsUnused };
    return runner.ask(Object.assign(asked, { most: memoryMost() }));
}

// What was given changed: np is asked anew.
async function given() {
    shows += 1;
    const number = shows;
    for (const side of ['now', 'before']) {
        document.getElementById('inputs-' + side).replaceChildren(...inputs[side].map((input, place) => inputItem(side, input, place)));
    }
    asked.made = null;
    if (!inputs.now.length) { showNothing(); return; }
    document.body.classList.add('stale');
    const now = await tableOf('now', true);
    if (number !== shows) return;
    if (now.status) { showFault('now', now); return; }
    const before = inputs.before.length ? await tableOf('before', false) : null;
    if (number !== shows) return;
    if (before && before.status) { showFault('before', before); return; }
    showTables(now, before);
}

function showTables(now, before) {
    document.body.classList.remove('stale');
    const lines = text => text.split('\n').filter(Boolean);
    document.getElementById('fault').hidden = true;
    document.getElementById('load').open = false;
    document.getElementById('controllers').replaceChildren(...now.table.names.map(name => element('option', { value: name })));
    const files = namesOf('now').map(name => ' ' + shellWord(name)).join('');
    show({
        version: 1,
        title: [namesOf('now').join(', ') + (before ? ' (changes since ' + namesOf('before').join(', ') + ')' : '')],
        commands: ['np explain', files],
        notes: lines(now.notes),
        unused: now.unused.filter(Boolean),
        refused: lines(now.refused),
        explained: null,
        explain: explainLive,
        caveats: [],
        controller: controllerName(),
        source: files.trim(),
        made: new Date().toISOString().slice(0, 16).replace('T', ' ') + ' UTC',
        np: document.body.dataset.version,
        terminal: terminalLines,
        table: now.table,
        before: before && before.table,
    });
}

// The command lines that give in a terminal what a view shows.
function terminalLines(view, state) {
    const controller = controllerName() ? ['--controller', controllerName()] : [];
    const list = (side, ...more) => commandLine(['list', ...controller, ...more, ...namesOf(side)]);
    const lines = {
        graph: [list('now', ...state.focus ? ['--focus', state.focus] : [])],
        changes: [list('before'), list('now')],
        exposure: [commandLine(['exposure', ...namesOf('now')])],
        unused: [commandLine(['unused', ...namesOf('now')])],
        ask: [],
    };
    return lines[view] || [list('now')];
}

function showNothing() {
    document.body.classList.remove('stale');
    document.getElementById('fault').hidden = true;
    document.getElementById('load').open = true;
    document.getElementById('page').replaceChildren();
}

function showFault(side, answer) {
    showNothing();
    const words = ['list', ...controllerName() ? ['--controller', controllerName()] : [], ...namesOf(side)];
    const fault = document.getElementById('fault');
    fault.hidden = false;
    fault.replaceChildren(element('h2', {}, answer.isStopped ? 'Stopped' : 'np gives no answer'),
        element('pre', { class: 'answer fault' }, answer.said),
        element('p', { class: 'ended', 'data-status': answer.status }, endingText(answer)),
        ...faultParts(side, answer.said), commandPart(words));
}

async function begin() {
    document.getElementById('top').append(loadPart(), busyLine(), element('section', { id: 'fault', role: 'alert', hidden: true }));
    listenForFiles();
    try {
        await runner.compiled;
    } catch (error) {
        showFault('now', { said: String(error), status: -1, seconds: 0, bytes: 0 });
        document.getElementById('fault').prepend(element('p', {}, 'This browser does not run np.wasm, which is WebAssembly with a 64-bit '
            + 'memory: Chrome and Edge do from 133 on, Firefox from 134 on.'));
    }
    document.body.dataset.ready = 'yes';
}

begin();
