'use strict';
// The host of np.wasm: what the program asks of a system. Each run is one of a new instance.
//
// runNp(module, run) runs the program once and answers { status, bytes }: its exit status, and the bytes that its memory had at the end.
//
//   run.words    the words of the command line, each a Uint8Array, without the program's name
//   run.open     is called with the bytes of a name; answers the number of the input that has it, 3 or more, or -1 where there is none
//   run.read     is called with the number of an input, 0 being standard input, and a Uint8Array to fill; answers how many bytes came, 0 at
//                the end, or -1 where it cannot be read
//   run.most     how many bytes of memory the program may have
//   run.take     is called with 1 (standard output) or 2 (standard error) and a Uint8Array, which holds the bytes during the call alone;
//                false refuses them

const FIRST_FILE = 3;
const textOf = new TextDecoder();

function runNp(module, run) {
    const words = [new TextEncoder().encode('np')].concat(run.words);
    let memory;
    // Memory may grow, so that a view of it is made at each call. Places and lengths come as BigInt.
    const view = (place, length) => new Uint8Array(memory.buffer, Number(place), Number(length));

    const word = (number, into, room) => {
        const bytes = words[Number(number)];
        if (bytes === undefined) return -1n;
        view(into, room).set(bytes.subarray(0, Number(room)));
        return bytes.length > Number(room) ? -2n : BigInt(bytes.length);
    };
    const open = (name, length) => run.open(view(name, length).slice());
    const read = (number, into, room) => BigInt(run.read(number, view(into, room)));
    const write = (number, from, length) => run.take(number, view(from, length)) === false ? -1n : length;
    const grow = bytes => bytes <= BigInt(run.most) ? 1 : 0;

    const np = { word, open, read, write, may_grow: grow };
    const instance = new WebAssembly.Instance(module, { np });
    memory = instance.exports.memory;
    const status = instance.exports.run();
    return { status, bytes: memory.buffer.byteLength };
}
