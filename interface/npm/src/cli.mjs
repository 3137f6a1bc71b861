#!/usr/bin/env node
// The program itself, as a module of WebAssembly: docs/manual.md of pkder's repository says what it does, and that is
// done here word for word. Not proved; what it runs is the proved program, by a way that isn't proved either.

import {readFileSync, writeSync} from "node:fs";

import {systemOf} from "./system.mjs";

// (as where reading and writing fail: nothing is known of any document)
const FAILED = 3;

function run(words) {
    let exports = null;
    const module = new WebAssembly.Module(readFileSync(new URL("./program.wasm", import.meta.url)));
    const system = systemOf(["pkder", ...words], () => exports.memory);
    ({exports} = new WebAssembly.Instance(module, {system}));
    try {
        // (an empty heap; main's two numbers, which it may or may not have, are of words that it asks for otherwise)
        exports.pkder_page_room(0n);
        return exports.main(0, 0n);
    } catch (why) {
        writeSync(2, `pkder broke off: ${why.message}\n`);
        return FAILED;
    } finally {
        new Uint8Array(exports.memory.buffer).fill(0);
    }
}

process.exitCode = run(process.argv.slice(2));
