// Runs a program's WebAssembly module by the page's host, on the files below this folder:
// node node.mjs MODULE.wasm NAME WORDS
//
// The files are read first, and those that the program made, changed or took away are written when it has ended.
import { mkdirSync, readFileSync, readdirSync, rmSync, writeFileSync, writeSync } from 'node:fs';
import { constants } from 'node:os';
import { dirname } from 'node:path';
import { run } from './host.mjs';

const [path, name, ...words] = process.argv.slice(2);

/** The bytes of all files below a folder by their paths, null for a folder. */
function filesBelow(folder, front = '') {
    const found = new Map();
    for (const entry of readdirSync(folder, { withFileTypes: true })) {
        const own = front + entry.name;
        if (entry.isDirectory()) {
            found.set(own, null);
            for (const [below, bytes] of filesBelow(`${folder}/${entry.name}`, `${own}/`)) found.set(below, bytes);
        } else if (entry.isFile()) {
            found.set(own, new Uint8Array(readFileSync(`${folder}/${entry.name}`)));
        }
    }
    return found;
}

/** Writes bytes to a stream: answers how many, or an error's number below 0. */
function say(stream, bytes) {
    try {
        return writeSync(stream, bytes);
    } catch (error) {
        return -(constants.errno[error.code] ?? constants.errno.EIO);
    }
}

const module = await WebAssembly.compile(readFileSync(path));
const before = filesBelow('.');
const readsInput = words.includes('-');
const input = readsInput ? new Uint8Array(readFileSync(0)) : new Uint8Array(0);
const done = await run(module, [name, ...words], before, { variables: process.env, input, say });
for (const [file, bytes] of done.files) {
    if (bytes && Buffer.compare(bytes, before.get(file) ?? Buffer.alloc(0)) !== 0 || !before.has(file)) {
        mkdirSync(dirname(file), { recursive: true });
        writeFileSync(file, bytes);
    }
}
for (const file of before.keys()) if (!done.files.has(file)) rmSync(file);
process.exitCode = done.status;
