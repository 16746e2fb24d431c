// The page: files that are held in it, the words of a command, and what came of it.
import { run } from './host.mjs';

const at = id => document.getElementById(id);
const data = JSON.parse(at('data').textContent);
const files = new Map(); // bytes by names, in the order of the list
const programs = new Map(); // compiled modules by names
const lister = 'doslib'; // the program that links nothing
const urls = []; // of what was made, which are given back at the next run
const decoder = new TextDecoder();
let isByHand = false; // whether the words were changed by hand

/** The bytes of a text in base64. */
const bytesOf = text => Uint8Array.from(atob(text), letter => letter.charCodeAt(0));

/** An element with properties, and what is in it. */
function element(name, properties = {}, ...children) {
    const made = Object.assign(document.createElement(name), properties);
    made.append(...children);
    return made;
}

/** The compiled module of a program, which is unpacked at its first run. */
async function programOf(name) {
    if (!programs.has(name)) {
        const packed = new Blob([bytesOf(data.programs[name])]).stream().pipeThrough(new DecompressionStream('gzip'));
        programs.set(name, await WebAssembly.compile(await new Response(packed).arrayBuffer()));
    }
    return programs.get(name);
}

/** The words of a text: between spaces, or in quotes. */
function wordsOf(text) {
    return (text.match(/"[^"]*"|[^\s"]+/g) || []).map(word => word.replace(/^"(.*)"$/s, '$1'));
}

/** A word as it stands in a text. */
const quoted = word => (/^[^\s"]+$/.test(word) ? word : `"${word}"`);

const isProgram = name => /\.(exe|com|sys)$/i.test(name);

/** Writes the words that the form and the files mean, unless they were changed by hand. */
function writeWords() {
    if (isByHand) return;
    const name = at('program').value, out = at('out').value || 'OUT.EXE';
    const words = name === 'omf' ? ['omf', 'link'] : ['doslink', '-v'];
    if (at('case').checked) words.push('--ignore-case');
    words.push('-o', out);
    if (at('map').checked) words.push('-m', `${out.replace(/\.[^.]*$/, '')}.MAP`);
    words.push(...[...files.keys()].filter(file => !isProgram(file) && !/\.map$/i.test(file)));
    at('words').value = words.map(quoted).join(' ');
}

/** Moves a file of the list by a place. */
function move(name, by) {
    const names = [...files.keys()], place = names.indexOf(name), other = names[place + by];
    if (other === undefined) return;
    [names[place], names[place + by]] = [other, name];
    const kept = new Map(files);
    files.clear();
    for (const each of names) files.set(each, kept.get(each));
    showFiles();
}

/** A button of a file's line. */
function button(text, label, act) {
    return element('button', { type: 'button', textContent: text, ariaLabel: label, onclick: act });
}

/** Shows the list of files. A button of it that has the focus keeps it, or gives it to the one that takes its place. */
function showFiles() {
    const buttons = () => [...at('files').querySelectorAll('button')];
    const place = buttons().indexOf(document.activeElement), label = document.activeElement?.ariaLabel;
    at('files').replaceChildren(...[...files].map(([name, bytes]) => element(
        'li', {}, `${name} (${bytes.length.toLocaleString('en')} bytes) `,
        button('↑', `${name} further up`, () => move(name, -1)), ' ',
        button('↓', `${name} further down`, () => move(name, 1)), ' ',
        button('records', `the records of ${name}`, () => runWords(
            isProgram(name) ? ['omf', 'load', name, '1000'] : ['omf', 'show', name])), ' ',
        button('×', `take ${name} away`, () => {
            files.delete(name);
            showFiles();
        }))));
    if (place >= 0) {
        const same = buttons().find(each => each.ariaLabel === label);
        (same ?? buttons()[place] ?? buttons().at(-1) ?? at('clear')).focus();
    }
    at('none').hidden = files.size > 0;
    writeWords();
}

/** Takes files in, as they were dropped or chosen. */
async function take(list) {
    for (const file of list) files.set(file.name, new Uint8Array(await file.arrayBuffer()));
    showFiles();
}

/** What a line of a fault mostly comes from, as FAULTS.md says it. */
function causesOf(line) {
    return data.faults.filter(cause => new RegExp(cause.lines).test(line));
}

/** Shows the lines of the errors, each with its causes. */
function showFaults(text) {
    const lines = text.split('\n').filter(line => line !== '');
    const shown = new Set();
    at('faults').replaceChildren(...lines.map(line => {
        const box = element('div', { className: 'fault' }, element('p', { textContent: line }));
        for (const cause of causesOf(line)) {
            if (shown.has(cause)) continue;
            shown.add(cause);
            box.append(element('div', { innerHTML: cause.html })); // made of docs/FAULTS.md as the page was
        }
        return box;
    }));
}

/** Shows what a run wrote, to be kept, and a map to be read; and has the list of files as the run left them. */
function showMade(before, { files: after, written }) {
    urls.splice(0).forEach(url => URL.revokeObjectURL(url));
    const made = [...after].filter(([name]) => written.has(name));
    at('made').replaceChildren(...made.flatMap(([name, bytes]) => {
        const url = URL.createObjectURL(new Blob([bytes]));
        urls.push(url);
        const link = element('a', { href: url, download: name, textContent: `Keep ${name}` });
        const line = element('p', {}, link, ` (${bytes.length.toLocaleString('en')} bytes)`);
        const isText = /\.map$/i.test(name);
        return isText ? [line, element('pre', { tabIndex: 0, textContent: decoder.decode(bytes) })] : [line];
    }));
    for (const [name, bytes] of made) files.set(name, bytes);
    for (const name of before.keys()) if (!after.has(name)) files.delete(name);
}

/** Runs a program with these words, its name first, and shows what came of it. */
async function runWords([name, ...words]) {
    const program = ['omf', lister].includes(name) ? name : 'doslink';
    at('status').textContent = 'It runs.';
    at('result').hidden = false;
    let done;
    try {
        if (!data.programs[program]) throw new Error(`the page has no ${program}`);
        const before = new Map(files), start = performance.now();
        done = await run(await programOf(program), [name, ...words], before);
        const took = Math.round(performance.now() - start);
        at('status').textContent = `Status ${done.status}, after ${took.toLocaleString('en')} ms.`;
        showMade(before, done);
    } catch (problem) {
        at('status').textContent = `It ended before it was done: ${problem.message}`;
        at('made').replaceChildren();
        done = { output: new Uint8Array(0), errors: new Uint8Array(0) };
    }
    showFaults(decoder.decode(done.errors));
    const text = decoder.decode(done.output);
    at('said').replaceChildren(...(text ? [element('pre', { tabIndex: 0, textContent: text })] : []));
    showFiles();
    return done;
}

/** Puts an example's modules in the place of the files. */
function takeExample() {
    const example = data.examples[at('example').value];
    if (!example) return;
    files.clear();
    for (const [name, text] of Object.entries(example)) files.set(name, bytesOf(text));
    isByHand = false;
    at('anew').hidden = true;
    showFiles();
}

function start() {
    for (const name of Object.keys(data.examples)) at('example').append(element('option', { textContent: name }));
    const linkers = Object.keys(data.programs).filter(name => name !== lister);
    for (const name of linkers) at('program').append(element('option', { textContent: name }));
    at('choose').onchange = () => take(at('choose').files);
    at('example').onchange = takeExample;
    at('clear').onclick = () => {
        files.clear();
        showFiles();
    };
    for (const id of ['program', 'out', 'map', 'case']) at(id).oninput = writeWords;
    at('words').oninput = () => {
        isByHand = true;
        at('anew').hidden = false;
    };
    at('anew').onclick = () => {
        isByHand = false;
        at('words').focus(); // since this button goes
        at('anew').hidden = true;
        writeWords();
    };
    at('form').onsubmit = event => {
        event.preventDefault();
        runWords(wordsOf(at('words').value));
    };
    at('words').onkeydown = event => {
        if (event.key !== 'Enter' || event.shiftKey) return;
        event.preventDefault();
        at('form').requestSubmit();
    };
    for (const type of ['dragover', 'dragleave', 'drop']) {
        document.addEventListener(type, event => {
            event.preventDefault();
            at('drop').classList.toggle('over', type === 'dragover');
            if (type === 'drop') take(event.dataTransfer.files);
        });
    }
    showFiles();
    document.documentElement.dataset.ready = 'yes';
}

start();
