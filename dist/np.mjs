// Made by tools/wasm/node_program.py of page/ask/host.js and tools/wasm/node.js.
import { closeSync, openSync, readFileSync, readSync, writeSync } from 'node:fs';
'use strict';
// The host of np.wasm: what the program asks of a system. Each run is one of a new instance.
//
// runNp(module, run) runs the program once and answers { status, bytes }: its exit status, and the bytes that its memory had at the end.
//
//   run.words    the words of the command line, each a Uint8Array, without the program's name
//   run.open     is called with the bytes of a name; answers the number of the input that has it, 3 or more, or -1 where there is none
//   run.read     is called with the number of an input, 0 being standard input, and a Uint8Array to fill; answers how many bytes came, 0 at
//                the end, or -1 where it cannot be read
//   run.most     how many bytes of memory the program may have
//   run.take     is called with 1 (standard output) or 2 (standard error) and a Uint8Array, which holds the bytes during the call alone;
//                false refuses them

const FIRST_FILE = 3;
const textOf = new TextDecoder();

function runNp(module, run) {
    const words = [new TextEncoder().encode('np')].concat(run.words);
    let memory;
    // Memory may grow, so that a view of it is made at each call. Places and lengths come as BigInt.
    const view = (place, length) => new Uint8Array(memory.buffer, Number(place), Number(length));

    const word = (number, into, room) => {
        const bytes = words[Number(number)];
        if (bytes === undefined) return -1n;
        view(into, room).set(bytes.subarray(0, Number(room)));
        return bytes.length > Number(room) ? -2n : BigInt(bytes.length);
    };
    const open = (name, length) => run.open(view(name, length).slice());
    const read = (number, into, room) => BigInt(run.read(number, view(into, room)));
    const write = (number, from, length) => run.take(number, view(from, length)) === false ? -1n : length;
    const grow = bytes => bytes <= BigInt(run.most) ? 1 : 0;

    const np = { word, open, read, write, may_grow: grow };
    const instance = new WebAssembly.Instance(module, { np });
    memory = instance.exports.memory;
    const status = instance.exports.run();
    return { status, bytes: memory.buffer.byteLength };
}
// What runs np.wasm in Node: the words of the command line, files and standard input as they are read, and both outputs as bytes. host.js
// stands before it.

const ENDED = null;  // an input that was read to its end, and closed: there may be more inputs than a process may have open
const FIRST_WORD = 2, FAILED = 3;

// The words as bytes. Node hands them on as texts, in which bytes that are not UTF-8 are lost; Linux still has them.
function givenWords() {
    const texts = process.argv.slice(FIRST_WORD);
    if (process.platform !== 'linux' || !texts.some(text => text.includes('\ufffd'))) return texts.map(text => Buffer.from(text));
    const all = readFileSync('/proc/self/cmdline').toString('latin1').split('\0').slice(0, -1);
    return all.slice(all.length - texts.length).map(text => Buffer.from(text, 'latin1'));
}

function filesOfSystem() {
    const opened = new Map([[0, 0]]);
    const open = name => {
        try {
            const number = FIRST_FILE + opened.size;
            opened.set(number, openSync(Buffer.from(name)));
            return number;
        } catch (error) {
            return -1;
        }
    };
    const end = number => {
        if (number < FIRST_FILE) return;
        closeSync(opened.get(number));
        opened.set(number, ENDED);
    };
    const read = (number, into) => {
        if (opened.get(number) === ENDED) return 0;
        try {
            const count = readSync(opened.get(number), into);
            if (count === 0) end(number);
            return count;
        } catch (error) {
            return error.code === 'EOF' ? 0 : -1;  // so Windows tells the end of a pipe
        }
    };
    return { open, read };
}

function take(output, bytes) {
    try {
        for (let place = 0; place < bytes.length;) place += writeSync(output, bytes, place);
        return true;
    } catch (error) {
        return false;
    }
}

function say(text) { take(2, Buffer.from('np: ' + text + '\n')); }

function moduleBeside() {
    try {
        return new WebAssembly.Module(readFileSync(new URL('np.wasm', import.meta.url)));
    } catch (error) {
        say(error instanceof WebAssembly.CompileError
            ? 'Node ' + process.version + ' does not run np.wasm, whose memory is 64-bit: Node 24 does' : error.message);
        return null;
    }
}

function statusOfRun() {
    const module = moduleBeside();
    if (module === null) return FAILED;
    try {
        return runNp(module, { words: givenWords(), ...filesOfSystem(), most: Number.MAX_SAFE_INTEGER, take }).status;
    } catch (error) {
        say('np.wasm stopped: ' + error.message);
        return FAILED;
    }
}

process.exit(statusOfRun());
