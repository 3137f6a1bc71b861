// The system as the program asks it (native/program.c), by what node, Deno and Bun have alike. A call that fails
// answers Linux's errno times -1, on any system. Not proved.

import * as fs from "node:fs";
import {isatty} from "node:tty";

// Linux's numbers of the errors that the program tells apart, and of some that it doesn't.
export const ERRNO = Object.freeze({
    EPERM: 1,
    ENOENT: 2,
    EINTR: 4,
    EIO: 5,
    EBADF: 9,
    EAGAIN: 11,
    ENOMEM: 12,
    EACCES: 13,
    EEXIST: 17,
    ENOTDIR: 20,
    EISDIR: 21,
    EINVAL: 22,
    EFBIG: 27,
    ENOSPC: 28,
    EROFS: 30,
    EPIPE: 32,
    ENAMETOOLONG: 36,
    ELOOP: 40,
});
// Linux's flags of open and statx.
const [O_WRONLY, O_CREAT, O_EXCL] = [0o1, 0o100, 0o200];
const [AT_SYMLINK_NOFOLLOW, AT_EMPTY_PATH] = [0x100, 0x1000];
// The program knows a terminal by a device of characters, and by this major number.
const [S_IFCHR, PSEUDO_TERMINALS] = [0o020000, 136];
const [NO_SUCH_WORD, NO_ROOM] = [-1, -2];

const text = new TextDecoder("utf-8", {fatal: true, ignoreBOM: true});
const clock = new Int32Array(new SharedArrayBuffer(4));

function failed(code) {
    return Object.assign(new Error(code), {code});
}

// (a pipe that doesn't wait says EAGAIN where one that does waits; Windows ends one by EOF)
function patiently(call) {
    for (;;) {
        try {
            return call();
        } catch (why) {
            if (why.code === "EOF") return 0;
            if (why.code !== "EAGAIN") throw why;
            Atomics.wait(clock, 0, 0, 5);
        }
    }
}

// The open files by the program's numbers of them. Node doesn't copy a descriptor, so two numbers may have one file,
// which is closed when both are.
class Files {
    #files = new Map([0, 1, 2].map((it) => [it, {descriptor: it, numbers: 1}]));
    #next = 3;

    #add(file) {
        this.#files.set(this.#next, file);
        return this.#next++;
    }

    #of(number) {
        const file = this.#files.get(number);
        if (file === undefined) throw failed("EBADF");
        return file;
    }

    descriptor(number) {
        return this.#of(number).descriptor;
    }

    open(path, flags, mode) {
        const isNew = (flags & O_CREAT) !== 0;
        // (the program makes new files, or reads)
        if (isNew ? (flags & O_EXCL) === 0 : (flags & O_WRONLY) !== 0) throw failed("EINVAL");
        return this.#add({descriptor: fs.openSync(path, isNew ? "wx" : "r", mode), numbers: 1});
    }

    again(number) {
        const file = this.#of(number);
        file.numbers += 1;
        return this.#add(file);
    }

    close(number) {
        const file = this.#of(number);
        this.#files.delete(number);
        file.numbers -= 1;
        if (file.numbers === 0) fs.closeSync(file.descriptor);
    }
}

// A word in UTF-8. One that wasn't in UTF-8, or not whole in UTF-16, is handed on as octets that no text has.
export function octetsOfWord(word) {
    return /[\p{Surrogate}\uFFFD]/u.test(word) ? Uint8Array.of(0xFF) : new TextEncoder().encode(word);
}

// Mode, owner, group, size, and of what isn't a file the major number of its device.
function stateOf(files, number, path, flags) {
    if (path === "/dev/stdout") return isatty(1) ? [S_IFCHR, 0, 0, 0, PSEUDO_TERMINALS] : [0, 0, 0, 0, 0];
    const found = (flags & AT_EMPTY_PATH) !== 0 ? fs.fstatSync(files.descriptor(number)) :
        (flags & AT_SYMLINK_NOFOLLOW) !== 0     ? fs.lstatSync(path) :
                                                  fs.statSync(path);
    return [found.mode, found.uid, found.gid, found.size, 0];
}

// What a module of the program imports, for a command line of these words. `memory` answers the module's memory.
export function systemOf(words, memory) {
    const files = new Files(), line = words.map(octetsOfWord);
    const octets = (at, size) => new Uint8Array(memory().buffer, at >>> 0, size);
    // (it ends in an octet 0)
    const path = (at) => {
        const from = octets(at);
        return text.decode(from.subarray(0, from.indexOf(0)));
    };
    const copied = (found, at, room) => {
        octets(at, room).set(found.subarray(0, room));
        return Math.min(found.length, room);
    };
    const calls = {
        read: (number, at, room) => patiently(() => fs.readSync(files.descriptor(number), octets(at, room))),
        write: (number, at, size) => patiently(() => fs.writeSync(files.descriptor(number), octets(at, size))),
        open: (at, flags, mode) => files.open(path(at), flags, mode),
        close: (number) => files.close(number),
        again: (number) => files.again(number),
        state: (number, at, flags, told) => {
            const found = stateOf(files, number, path(at), flags);
            new BigUint64Array(memory().buffer, told >>> 0, found.length).set(found.map(BigInt));
        },
        link: (at, to, room) => copied(new TextEncoder().encode(fs.readlinkSync(path(at))), to, room),
        own: (number, owner, group) => fs.fchownSync(files.descriptor(number), owner, group),
        allow: (number, mode) => fs.fchmodSync(files.descriptor(number), mode),
        sync: (number) => fs.fsyncSync(files.descriptor(number)),
        rename: (from, to) => fs.renameSync(path(from), path(to)),
        remove: (at) => fs.unlinkSync(path(at)),
    };
    const answering = (call) => (...given) => {
        try {
            return call(...given) ?? 0;
        } catch (why) {
            return -(ERRNO[why.code] ?? ERRNO.EIO);
        }
    };
    const word = (number, at, room) => {
        const found = line[number];
        if (found === undefined) return NO_SUCH_WORD;
        copied(found, at, room);
        return found.length > room ? NO_ROOM : found.length;
    };
    return {word, ...Object.fromEntries(Object.entries(calls).map(([name, call]) => [name, answering(call)]))};
}
