// Asks np.wasm, one question at a time, in a worker, which is ended and made anew where a run is stopped.

const ENDINGS = {
    0: 'the report is whole',
    1: 'np refused the objects, a statement or a name',
    2: 'the command line is wrong',
    3: 'an input could not be read',
    4: 'out of memory',
    5: 'a statement does not hold',
};

// The bytes of a data block of this page, which are written in base64.
function blockBytes(id) {
    const text = atob(document.getElementById(id).textContent.replace(/\s/g, ''));
    return Uint8Array.from(text, letter => letter.charCodeAt(0));
}

async function readModule() {
    const packed = new Blob([blockBytes('wasm')]).stream().pipeThrough(new DecompressionStream('gzip'));
    return WebAssembly.compile(await new Response(packed).arrayBuffer());
}

function makeRunner(tell) {
    const source = new Blob([document.getElementById('worker').textContent], { type: 'text/javascript' });
    const compiled = readModule();
    let worker = null, waiting = Promise.resolve(), stop = null;

    async function answer(question) {
        const module = await compiled;
        if (!worker) worker = new Worker(URL.createObjectURL(source));
        const begun = performance.now();
        const clock = setInterval(() => tell(question, (performance.now() - begun) / 1000), 200);
        try {
            return await new Promise((resolve, reject) => {
                stop = () => resolve({ status: -1, said: 'stopped', report: '', isStopped: true });
                worker.onmessage = event => resolve(event.data);
                worker.onerror = event => reject(new Error(event.message));
                worker.postMessage(Object.assign({ module }, question, { isStale: null }));
            });
        } finally {
            clearInterval(clock);
            stop = null;
            tell(null, 0);
        }
    }

    return {
        compiled,
        // Answers { status, report, said, seconds, bytes }. A question that is stale when its turn comes is not asked.
        ask(question) {
            const made = waiting.then(() => question.isStale && question.isStale() ? { status: -1, isStale: true } : answer(question));
            waiting = made.catch(() => null);
            return made;
        },
        stop() {
            if (worker) worker.terminate();
            worker = null;
            if (stop) stop();
        },
    };
}
