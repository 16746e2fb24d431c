// The host of a program's WebAssembly module: the files are held in memory, by their paths.
//
// Each function that the module calls answers a number, or an error's number below 0, as shims/web.c says.

const NOT_THERE = 2, NOT_OPEN = 9, IS_THERE = 17, NO_FOLDER = 20, IS_FOLDER = 21, NOT_EMPTY = 39;
const TO_WRITE = 1, TO_UPDATE = 2, MAY_MAKE = 0o100, MUST_MAKE = 0o200, TO_EMPTY = 0o1000, AT_END = 0o2000;
const PIPE = 0o010600, FOLDER = 0o040777, REGULAR = 0o100666;
const FIRST_FILE = 3; // 0, 1 and 2 are the standard streams

/** An error of the files, by its number. */
class Fault extends Error {
    constructor(number) {
        super(`error ${number}`);
        this.number = number;
    }
}

/** Bytes that grow; or a folder, where they are null. */
class Entry {
    constructor(number, bytes) {
        this.number = number;
        this.room = bytes;
        this.size = bytes ? bytes.length : 0;
        this.isWritten = false; // by the program, whether or not the same bytes stood there
    }

    get isFolder() {
        return this.room === null;
    }

    get bytes() {
        return this.room && this.room.subarray(0, this.size);
    }

    /** Puts bytes at a place. What is made longer has zeros between. */
    write(at, bytes) {
        const end = at + bytes.length;
        if (end > this.room.length) {
            const room = new Uint8Array(Math.max(end, 2 * this.room.length));
            room.set(this.bytes);
            this.room = room;
        }
        this.room.set(bytes, at);
        this.size = Math.max(this.size, end);
        this.isWritten = true;
    }

    /** Cuts the bytes, or adds zeros. */
    cut(size) {
        const room = new Uint8Array(size);
        room.set(this.bytes.subarray(0, size));
        this.room = room;
        this.size = size;
        this.isWritten = true;
    }
}

/** Files and folders by their paths. A relative path and an absolute one begin in the same folder. */
class Files {
    constructor(given) {
        this.count = 1;
        this.entries = new Map([['', new Entry(this.count, null)]]);
        for (const [path, bytes] of given) {
            const parts = path.split('/');
            for (let count = 1; count < parts.length; count++) this.add(parts.slice(0, count).join('/'), null);
            this.add(path, bytes && bytes.slice());
        }
    }

    /** The entry at a path, which is made where none is there. */
    add(path, bytes) {
        if (!this.entries.has(path)) this.entries.set(path, new Entry(++this.count, bytes));
        return this.entries.get(path);
    }

    /** What a path means, without `.` and `..`: all but its last part has to be folders. */
    resolve(path) {
        if (path === '') throw new Fault(NOT_THERE);
        const parts = path.split('/').filter(part => part !== '' && part !== '.');
        const mustBeFolder = /(^|\/)(\.\.?)?$/.test(path);
        let found = '';
        parts.forEach((part, i) => {
            if (part === '..') found = found.replace(/\/?[^/]*$/, '');
            else found += (found && '/') + part;
            const entry = this.entries.get(found);
            const isLast = i === parts.length - 1;
            if (!entry && !isLast) throw new Fault(NOT_THERE);
            if (entry && !entry.isFolder && (!isLast || mustBeFolder)) throw new Fault(NO_FOLDER);
        });
        return found;
    }

    /** The entry that a path leads to. */
    find(path) {
        const entry = this.entries.get(this.resolve(path));
        if (!entry) throw new Fault(NOT_THERE);
        return entry;
    }

    /** The entry that is opened by these flags. */
    open(path, flags) {
        const place = this.resolve(path);
        let entry = this.entries.get(place);
        if (entry && flags & MAY_MAKE && flags & MUST_MAKE) throw new Fault(IS_THERE);
        if (entry && entry.isFolder && flags & (TO_WRITE | TO_UPDATE)) throw new Fault(IS_FOLDER);
        if (!entry && (!(flags & MAY_MAKE) || path.endsWith('/'))) throw new Fault(NOT_THERE);
        const isNew = !entry;
        entry = entry || this.add(place, new Uint8Array(0));
        if (isNew || flags & TO_EMPTY) entry.cut(0);
        return entry;
    }

    /** Gives what stands at a path another one. */
    rename(from, to) {
        const entry = this.find(from), place = this.resolve(to), there = this.entries.get(place);
        if (there && there.isFolder) throw new Fault(entry.isFolder ? NOT_EMPTY : IS_FOLDER);
        this.entries.delete(this.resolve(from));
        this.entries.set(place, entry);
        entry.isWritten = true;
    }

    /** Takes a file away. */
    unlink(path) {
        if (this.find(path).isFolder) throw new Fault(IS_FOLDER);
        this.entries.delete(this.resolve(path));
    }

    /** The paths of the files that the program wrote. */
    written() {
        const isOne = ([, entry]) => entry.isWritten && !entry.isFolder;
        return new Set([...this.entries].filter(isOne).map(([path]) => path));
    }

    /** All but the folder that holds them: bytes by paths, and null for folders. */
    all() {
        return new Map([...this.entries].filter(([path]) => path !== '').map(([path, entry]) => [path, entry.bytes]));
    }
}

/**
 * The functions of the module `host`, over files, words, variables and streams. `say` takes bytes of the standard
 * output (1) or error (2), and answers how many, or an error's number below 0; `memory` answers the memory.
 */
function functions(files, words, variables, input, say, memory) {
    const utf8 = new TextEncoder(), text = new TextDecoder();
    const open = new Map();
    let next = FIRST_FILE, read = 0;
    const bytes = (at, size) => new Uint8Array(memory(), at >>> 0, size >>> 0);
    const name = (at, length) => text.decode(bytes(at, length).slice());
    // puts a text at an address: answers its length, -1 for none, or -2 where it doesn't fit
    const put = (value, to, size) => {
        if (value === undefined) return -1;
        const from = typeof value === 'string' ? utf8.encode(value) : value;
        bytes(to, size).set(from.subarray(0, size));
        return from.length > size ? -2 : from.length;
    };
    const opened = file => {
        if (!open.has(file)) throw new Fault(NOT_OPEN);
        return open.get(file);
    };
    const tell = (entry, to) => {
        const told = entry ? [entry.isFolder ? FOLDER : REGULAR, entry.number, entry.size] : [PIPE, 0, 0];
        bytes(to, 12).set(new Uint8Array(Uint32Array.from(told).buffer));
        return 0;
    };
    const host = {
        open(path, length, flags) {
            open.set(next, { entry: files.open(name(path, length), flags), at: 0, flags });
            return next++;
        },
        read(file, to, size) {
            if (file === 0) {
                const some = input.subarray(read, read + size);
                bytes(to, size).set(some);
                read += some.length;
                return some.length;
            }
            const it = opened(file);
            if (it.entry.isFolder) throw new Fault(IS_FOLDER);
            const some = it.entry.bytes.subarray(it.at, it.at + size);
            bytes(to, size).set(some);
            it.at += some.length;
            return some.length;
        },
        write(file, from, size) {
            const some = bytes(from, size);
            if (file === 1 || file === 2) return say(file, some);
            const it = opened(file);
            if (!(it.flags & (TO_WRITE | TO_UPDATE))) throw new Fault(NOT_OPEN);
            if (it.flags & AT_END) it.at = it.entry.size;
            it.entry.write(it.at, some);
            it.at += size;
            return size;
        },
        close(file) {
            opened(file);
            open.delete(file);
            return 0;
        },
        look(file, path, length, to) {
            if (file >= 0) return tell(file < FIRST_FILE ? null : opened(file).entry, to);
            const at = name(path, length);
            return tell(at === '/dev/stdin' ? null : files.find(at), to);
        },
        cut(file, size) {
            opened(file).entry.cut(size >>> 0);
            return 0;
        },
        rename(from, length, to, otherLength) {
            files.rename(name(from, length), name(to, otherLength));
            return 0;
        },
        unlink(path, length) {
            files.unlink(name(path, length));
            return 0;
        },
        resolve(path, length, to, size) {
            files.find(name(path, length));
            return put(`/${files.resolve(name(path, length))}`, to, size);
        },
        arg_count: () => words.length,
        arg: (i, to, size) => put(words[i], to, size),
        env: (at, length, to, size) => put(variables[name(at, length)], to, size),
    };
    const answering = act => (...given) => {
        try {
            return act(...given);
        } catch (fault) {
            if (fault instanceof Fault) return -fault.number;
            throw fault;
        }
    };
    return Object.fromEntries(Object.entries(host).map(([key, act]) => [key, answering(act)]));
}

/**
 * Runs a program's module. `words` are its name and its words, `given` the files: bytes by paths, null for a folder.
 * Answers its status, the bytes that it wrote on its two streams unless `say` takes them, the files then, and the paths
 * of those that it wrote.
 */
export async function run(module, words, given, { variables = {}, input = new Uint8Array(0), say = null } = {}) {
    const files = new Files(given);
    const said = [new Entry(0, new Uint8Array(0)), new Entry(0, new Uint8Array(0))];
    const keep = (stream, bytes) => {
        said[stream - 1].write(said[stream - 1].size, bytes);
        return bytes.length;
    };
    let instance = null;
    const host = functions(files, words, variables, input, say ?? keep, () => instance.exports.memory.buffer);
    instance = await WebAssembly.instantiate(module, { host });
    const status = instance.exports.run();
    return { status, output: said[0].bytes, errors: said[1].bytes, files: files.all(), written: files.written() };
}
