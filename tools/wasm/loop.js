// A worker of the page that tools/wasm/compare.py has a browser open: takes runs from the server, one by one, and hands back what came of
// them. host.js and given.js stand before it.

const LIMIT = 4e9, PIECE = 32768;

function bytesOf(text) { return Uint8Array.from(atob(text), letter => letter.charCodeAt(0)); }

function codedOf(pieces) {
    let text = '';
    for (const piece of pieces) {
        for (let at = 0; at < piece.length; at += PIECE) text += String.fromCharCode(...piece.subarray(at, at + PIECE));
    }
    return btoa(text);
}

function made(module, run) {
    const taken = [[], []];
    const words = run.words.map(bytesOf);
    const files = new Map(Object.entries(run.files).map(([name, text]) => [name, bytesOf(text)]));
    const input = run.input === null ? null : bytesOf(run.input);
    const take = (output, bytes) => !run.full.includes(output) && taken[output - 1].push(bytes.slice()) > 0;
    try {
        const { status } = runNp(module, { words, ...givenInputs(input, files), most: run.most || LIMIT, take });
        return { status, out: codedOf(taken[0]), err: codedOf(taken[1]) };
    } catch (error) {
        return { status: 99, out: codedOf(taken[0]), err: btoa('np.wasm stopped: ' + error.message + '\n') };
    }
}

async function work() {
    const module = await WebAssembly.compile(await (await fetch('/np.wasm')).arrayBuffer());
    for (;;) {
        const run = await (await fetch('/next', { method: 'POST' })).json();
        if (run.number === undefined) continue;
        await fetch('/done/' + run.number, { method: 'POST', body: JSON.stringify(made(module, run)) });
    }
}

work();
