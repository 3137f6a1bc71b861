// The program as the package's command: what the tables of rows and tests/harness/files.py of the repository don't try.

import assert from "node:assert/strict";
import {spawnSync} from "node:child_process";
import {mkdtempSync, readFileSync, rmSync, symlinkSync, writeFileSync} from "node:fs";
import {tmpdir} from "node:os";
import {dirname, join} from "node:path";
import {fileURLToPath} from "node:url";

import {octetsOfWord} from "../node_modules/pkder/system.mjs";

const TOP = dirname(dirname(process.env.PKDER_HEADER));
const CLI = fileURLToPath(new URL("../node_modules/pkder/cli.mjs", import.meta.url));
const KEY = `${TOP}/examples/long-lengths.der`;

function ran(words, how = {}) {
    const {status, stdout, stderr} = spawnSync(process.execPath, [CLI, ...words], how);
    return [status, String(stdout), String(stderr)];
}

export function words() {
    assert.deepEqual(octetsOfWord("ä\u{1F511}"), Uint8Array.from(Buffer.from("ä\u{1F511}")));
    for (const notText of ["\uFFFD", "a\uD800b", "\uDC00"])
        assert.deepEqual(octetsOfWord(notText), Uint8Array.of(0xFF));
    const [status, , error] = ran(["check", "--kind", "key", "\uFFFD"]);
    assert.deepEqual([status, error.split("\n")[0]], [4, "error: the line is not UTF-8"]);
}

export function version() {
    const {version: due} = JSON.parse(readFileSync(new URL("../node_modules/pkder/package.json", import.meta.url)));
    const [status, said] = ran(["--version"]);
    assert.equal(status, 0);
    assert.ok(said.startsWith(`pkder ${due}, for logic `), said);
}

// As npx calls it: by a link of another name, in another folder.
export function byALink() {
    const folder = mkdtempSync(join(tmpdir(), "pkder"));
    try {
        symlinkSync(CLI, join(folder, "other"));
        writeFileSync(join(folder, "é.der"), readFileSync(KEY));
        const {status, stdout} = spawnSync(join(folder, "other"), ["check", "-k", "key", "é.der"], {cwd: folder});
        assert.deepEqual([status, String(stdout)], [1, "é.der: not DER at 1\n"]);
    } finally {
        rmSync(folder, {recursive: true});
    }
}

// Pipes on which reading and writing don't wait, as those that node makes are, and more than they hold at once.
export function pipes() {
    const long = Buffer.concat([Buffer.from("30830ffffb300506032a030403830fffef00", "hex"), Buffer.alloc(1048558)]);
    const [status, said] = ran(["check", "--kind", "public"], {input: long, maxBuffer: 2 ** 24});
    assert.deepEqual([status, said], [0, "DER\n"]);
    const {stdout} =
        spawnSync(process.execPath, [CLI, "normalise", "--kind", "public"], {input: long, maxBuffer: 2 ** 24});
    assert.ok(stdout.equals(long));
}

// Documents one behind another on a pipe, and their sum.
export function each() {
    const input = Buffer.concat(["smallest", "long-lengths"].map((it) => readFileSync(`${TOP}/examples/${it}.der`)));
    assert.deepEqual(
        ran(["check", "--any", "--each", "--sum"], {input}),
        [1, "1 at 0: key: DER\n2 at 48: key: not DER at 1\n", "sum: 2 documents: 1 DER (1 key), 1 not DER (1 key)\n"]);
}

// A program that breaks off says so, and nothing else: here its memory is refused.
export function brokenOff() {
    const folder = mkdtempSync(join(tmpdir(), "pkder"));
    try {
        for (const name of ["cli.mjs", "system.mjs"]) {
            writeFileSync(join(folder, name), readFileSync(join(dirname(CLI), name)));
        }
        // (a module with a memory, pkder_page_room, which answers 1, and main, which is unreachable)
        const trapping = "AGFzbQEAAAABCgJgAX4BfmAAAX8DAwIAAQUDAQABByMDBm1lbW9yeQIAD3BrZGVyX3BhZ2Vf" +
            "cm9vbQAABG1haW4AAQoKAgQAQgELAwAACw==";
        writeFileSync(join(folder, "program.wasm"), Buffer.from(trapping, "base64"));
        const {status, stdout, stderr} = spawnSync(process.execPath, [join(folder, "cli.mjs"), "--version"]);
        assert.deepEqual([status, String(stdout), String(stderr)], [3, "", "pkder broke off: unreachable\n"]);
    } finally {
        rmSync(folder, {recursive: true});
    }
}
