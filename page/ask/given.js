// Inputs of np.wasm that are in memory: { open, read } for a run, of standard input, a Uint8Array or null where it cannot be read, and of
// the named inputs, a Map from name to Uint8Array.

function givenInputs(input, files) {
    const opened = new Map(input ? [[0, { bytes: input, place: 0 }]] : []);
    const open = name => {
        const bytes = files.get(textOf.decode(name));
        if (bytes === undefined) return -1;
        const number = FIRST_FILE + opened.size;
        opened.set(number, { bytes, place: 0 });
        return number;
    };
    const read = (number, into) => {
        const from = opened.get(number);
        if (from === undefined) return -1;
        const piece = from.bytes.subarray(from.place, from.place + into.length);
        into.set(piece);
        from.place += piece.length;
        return piece.length;
    };
    return { open, read };
}
