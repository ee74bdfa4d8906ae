// What runs np.wasm in Node: the words of the command line, files and standard input as they are read, and both outputs as bytes. host.js
// stands before it.

const ENDED = null;  // an input that was read to its end, and closed: there may be more inputs than a process may have open
const FIRST_WORD = 2, FAILED = 3;

// The words as bytes. Node hands them on as texts, in which bytes that are not UTF-8 are lost; Linux still has them.
function givenWords() {
    const texts = process.argv.slice(FIRST_WORD);
    if (process.platform !== 'linux' || !texts.some(text => text.includes('\ufffd'))) return texts.map(text => Buffer.from(text));
    const all = readFileSync('/proc/self/cmdline').toString('latin1').split('\0').slice(0, -1);
    return all.slice(all.length - texts.length).map(text => Buffer.from(text, 'latin1'));
}

function filesOfSystem() {
    const opened = new Map([[0, 0]]);
    const open = name => {
        try {
            const number = FIRST_FILE + opened.size;
            opened.set(number, openSync(Buffer.from(name)));
            return number;
        } catch (error) {
            return -1;
        }
    };
    const end = number => {
        if (number < FIRST_FILE) return;
        closeSync(opened.get(number));
        opened.set(number, ENDED);
    };
    const read = (number, into) => {
        if (opened.get(number) === ENDED) return 0;
        try {
            const count = readSync(opened.get(number), into);
            if (count === 0) end(number);
            return count;
        } catch (error) {
            return error.code === 'EOF' ? 0 : -1;  // so Windows tells the end of a pipe
        }
    };
    return { open, read };
}

function take(output, bytes) {
    try {
        for (let place = 0; place < bytes.length;) place += writeSync(output, bytes, place);
        return true;
    } catch (error) {
        return false;
    }
}

function say(text) { take(2, Buffer.from('np: ' + text + '\n')); }

function moduleBeside() {
    try {
        return new WebAssembly.Module(readFileSync(new URL('np.wasm', import.meta.url)));
    } catch (error) {
        say(error instanceof WebAssembly.CompileError
            ? 'Node ' + process.version + ' does not run np.wasm, whose memory is 64-bit: Node 24 does' : error.message);
        return null;
    }
}

function statusOfRun() {
    const module = moduleBeside();
    if (module === null) return FAILED;
    try {
        return runNp(module, { words: givenWords(), ...filesOfSystem(), most: Number.MAX_SAFE_INTEGER, take }).status;
    } catch (error) {
        say('np.wasm stopped: ' + error.message);
        return FAILED;
    }
}

process.exit(statusOfRun());
