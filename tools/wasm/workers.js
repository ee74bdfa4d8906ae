// What tools/wasm/compare.py has one Node run: workers that do what those of its page do in a browser.
//
// node workers.js TOP COUNT: the server's address, and how many workers there are.

const { Worker } = require('node:worker_threads');

const [top, count] = process.argv.slice(2);
// The script asks the server by paths, of which Node does not know whose they are.
const FETCH = "'use strict'; const fetch = (path, how) => globalThis.fetch(" + JSON.stringify(top) + ' + path, how);\n';

async function start() {
    const script = FETCH + await (await fetch(top + '/worker.js')).text();
    for (let i = 0; i < Number(count); i += 1) new Worker(script, { eval: true });
}

start();
