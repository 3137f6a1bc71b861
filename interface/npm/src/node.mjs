// The same for node, whose fetch reads no files.

import {readFile} from "node:fs/promises";

import {load as loaded} from "./index.mjs";

export * from "./index.mjs";

export async function load(module = undefined) {
    return loaded(module ?? await readFile(new URL("./pkder.wasm", import.meta.url)));
}
