// Runs the module of over_web.c by the page's host: node over_web.mjs MODULE.wasm WORD. Of the first write the host
// takes two bytes at most where that word is `streams`, and refuses the second one.
import { readFileSync, writeSync } from 'node:fs';
import { run } from '../web/host.mjs';

const NO_SPACE = 28;
const [path, word] = process.argv.slice(2);
let writes = 0;

/** Takes a write's bytes: answers how many, or an error's number below 0. */
function say(stream, bytes) {
    writes += word === 'streams';
    if (writes === 2) return -NO_SPACE;
    return writeSync(stream, writes === 1 ? bytes.subarray(0, 2) : bytes);
}

const files = new Map([['folder', null], ['folder/file', new Uint8Array(3)]]);
const module = await WebAssembly.compile(readFileSync(path));
process.exitCode = (await run(module, ['over_web', word], files, { say })).status;
