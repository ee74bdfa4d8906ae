// The worker: each message is a question, which np.wasm answers here, so that the page stays awake, and can end the run.

// What of a report is handed on. A longer one is for a terminal.
const MOST_TEXT = 16 << 20;

let module = null;

function joined(pieces) {
    const bytes = new Uint8Array(pieces.reduce((sum, piece) => sum + piece.length, 0));
    let place = 0;
    for (const piece of pieces) {
        bytes.set(piece, place);
        place += piece.length;
    }
    return bytes;
}

// Runs np on these words; `see` is told the bytes of the report. Answers the status, what was said on standard error, and the memory.
function runWords(question, words, see) {
    const said = [];
    const ended = runNp(module, {
        words: words.map(word => new TextEncoder().encode(word)),
        ...givenInputs(null, new Map(question.files)),
        most: question.most,
        take: (output, bytes) => output === 2 ? said.push(bytes.slice()) > 0 : see(bytes.slice()),
    });
    return { status: ended.status, bytes: ended.bytes, said: textOf.decode(joined(said)) };
}

// The report as a text. Where it is too long, its beginning.
function answerText(question) {
    const pieces = [];
    let length = 0;
    const ended = runWords(question, question.words, bytes => {
        if (length < MOST_TEXT) pieces.push(bytes);
        length += bytes.length;
        return true;
    });
    return Object.assign(ended, { report: textOf.decode(joined(pieces)), length, isCut: length > MOST_TEXT });
}

// Runs np and reads the report line by line. A run that np refuses ends the question.
function readLines(question, words, see, mayRefuse) {
    const lines = lineReader(see);
    const ended = runWords(question, words, bytes => { lines.take(bytes); });
    lines.end();
    question.told.bytes = Math.max(question.told.bytes, ended.bytes);
    if (ended.status && !(mayRefuse && ended.said.includes('error: TooManyPatterns '))) throw Object.assign(new Error(ended.said), ended);
    return ended;
}

// The table of the lists of the question, with what decides nothing, np's notes, and why there is no exposure, if there is none.
function answerTable(question) {
    question.told = { bytes: 0 };
    const table = makeTable(), unused = [];
    const names = question.words;
    const list = ['list', '--format', 'json', ...question.controller ? ['--controller', question.controller] : [], '--', ...names];
    try {
        const exposed = readLines(question, ['exposure', '--format', 'json', '--', ...names], table.seeExposure, true);
        if (exposed.status) readLines(question, list, table.seeName);
        const listed = readLines(question, list, table.seeRow);
        if (question.wantsUnused) readLines(question, ['unused', '--', ...names], line => { unused.push(line); });
        const refused = exposed.status ? exposed.said : '';
        return { status: 0, table: table.made(), unused, notes: listed.said, refused, bytes: question.told.bytes };
    } catch (error) {
        if (error.status === undefined) throw error;
        return { status: error.status, said: error.said, bytes: error.bytes };
    }
}

onmessage = event => {
    const question = event.data;
    const begun = performance.now();
    module = module || question.module;
    let answer;
    try {
        answer = question.kind === 'table' ? answerTable(question) : answerText(question);
    } catch (error) {
        answer = { status: -1, said: 'np.wasm stopped: ' + error.message, report: '', bytes: 0 };
    }
    postMessage(Object.assign(answer, { seconds: (performance.now() - begun) / 1000 }));
};
