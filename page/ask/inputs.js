// The lists that were given to the page: dropped, chosen or pasted. They stay in its memory, and are handed to np.wasm as they are.

const inputs = { now: [], before: [] };
const textOf = new TextDecoder();

// A name that none of the others has, and that no command takes for an option or for standard input.
function freshName(name, taken) {
    const plain = name.replace(/^-+/, '') || 'list.json';
    for (let number = 1; ; number += 1) {
        const made = number === 1 ? plain : plain.replace(/(\.[^.]*)?$/, '-' + number + '$1');
        if (!taken.includes(made)) return made;
    }
}

// A pasted list is in no file yet, so that the page offers to save it.
function addInput(side, name, bytes, isPasted) {
    const taken = inputs.now.concat(inputs.before).map(input => input.name);
    inputs[side].push({ name: freshName(name, taken), bytes, isPasted });
}

async function addFiles(side, files) {
    for (const file of Array.from(files)) addInput(side, file.name, new Uint8Array(await file.arrayBuffer()));
}

function namesOf(side) { return inputs[side].map(input => input.name); }

function filesOf(side) { return inputs[side].map(input => [input.name, input.bytes]); }

function sizeText(bytes) {
    return bytes < 1e6 ? (bytes / 1e3).toFixed(1) + ' kB' : (bytes / 1e6).toFixed(1) + ' MB';
}

// The objects of the lists, numbered from 1 as np numbers them: for the names that a form offers, and to show the one that np refuses.
// Where a list is no JSON there are none of it: np says so itself.
function objectsOf(side) {
    return [].concat(...inputs[side].map(({ name, bytes }) => {
        let list;
        try { list = JSON.parse(textOf.decode(bytes)); } catch (error) { return []; }
        const isList = list && list.apiVersion === 'v1' && list.kind === 'List';
        return (isList ? list.items || [] : [list]).map(object => ({ name, object }));
    }));
}

function objectName(object) {
    const metadata = object && object.metadata || {};
    return [object && object.kind, [metadata.namespace, metadata.name].filter(Boolean).join('/')].filter(Boolean).join(' ');
}

function podNames() {
    return objectsOf('now').filter(({ object }) => object && object.kind === 'Pod' && object.metadata)
        .map(({ object }) => (object.metadata.namespace || 'default') + '/' + object.metadata.name);
}

// The objects that a fault of np names: `error: item 3: ..` or `error: items 1 and 2: ..`.
function faultyObjects(side, said) {
    const found = /error: items? (\d+)(?: and (\d+))?:/.exec(said);
    if (!found) return [];
    const objects = objectsOf(side);
    return found.slice(1).filter(Boolean).map(number => Object.assign({ number }, objects[Number(number) - 1])).filter(one => one.object);
}

// What to do about an input that is no JSON.
function adviceOf(said) {
    const read = 'np reads what kubectl get -o json prints';
    if (/: NotJson/.test(said)) return read + '. For YAML files, kubectl np -f FOLDER reads them in a terminal.';
    if (/: NotAList/.test(said)) return read + ': a v1 List, or one object.';
    const word = /error: (?:items? [^:]*: (?:\S+: )?|input \d+: )?([A-Z][A-Za-z]+)/.exec(said);
    return word ? 'kubectl np help ' + word[1] + ' says what to do.' : '';
}
