// The package's lists beside interface/pkder.h, which PKDER_HEADER names, and its types beside both.

import assert from "node:assert/strict";
import {readFileSync} from "node:fs";
import {constants} from "node:os";
import * as exported from "pkder";
import {KINDS, PARTS, Pkder, REASONS, USUAL} from "pkder";

import {FORMS, INTERFACE, STATUS} from "../node_modules/pkder/library.mjs";
import {ERRNO} from "../node_modules/pkder/system.mjs";

const header = readFileSync(process.env.PKDER_HEADER, "latin1");
const types = readFileSync(new URL("../node_modules/pkder/index.d.ts", import.meta.url), "utf8");
const numbers = (pattern) =>
    Object.fromEntries(Array.from(header.matchAll(pattern), ([, name, number]) => [name, Number(number)]));
const upper = (of) => Object.fromEntries(Object.entries(of).map(([name, it]) => [name.toUpperCase(), it]));

export function lists() {
    const all = numbers(/^#define PKDER_(\w+) (?:UINT64_C\()?([0-9]+)/gm);
    const {key, ...others} = PARTS;
    const mine = {
        ...upper(KINDS),
        ...upper(others),
        SUBJECT_KEY: key,
        ...STATUS,
        ...FORMS,
        INTERFACE,
        DEPTH: USUAL.depth,
        OCTETS: USUAL.octets
    };
    for (const [name, number] of Object.entries(mine)) assert.equal(number, all[name], name);
    const rest = Object.keys(all).filter((it) => !it.startsWith("REASON_") && !Object.hasOwn(mine, it));
    assert.deepEqual(rest.sort(), ["MOST_DEPTH", "MOST_OCTETS", "STACK"]);
}

export function greatestLimits(pkder) {
    const {MOST_DEPTH, MOST_OCTETS} = numbers(/^#define PKDER_(MOST_\w+) (?:UINT64_C\()?([0-9]+)/gm);
    const most = {depth: MOST_DEPTH, octets: MOST_OCTETS};
    assert.equal(pkder.field("key", new Uint8Array(), most), "OneAsymmetricKey");
    for (const name of ["depth", "octets"]) {
        for (const wrong of [0, -1, most[name] + 1, 1.5, NaN, "9", null, 9n]) {
            assert.throws(() => pkder.check("key", new Uint8Array(), {...most, [name]: wrong}), RangeError);
        }
    }
}

export function reasons() {
    const found = Object.entries(numbers(/^#define PKDER_REASON_(\w+) ([0-9]+)u/gm));
    assert.ok(found.length >= 27);
    const due = found.sort(([, one], [, other]) => one - other).map(([name]) => name.replaceAll("_", ""));
    assert.deepEqual(REASONS.map((it) => it.toUpperCase()), due);
}

// The types name the same kinds, parts and reasons, and what is exported.
export function typed() {
    const union = (name) => {
        const [, body] = new RegExp(`^export type ${name} =([^;]*);`, "m").exec(types);
        return Array.from(body.matchAll(/"(\w+)"/g), ([, it]) => it);
    };
    assert.deepEqual(union("Kind"), Object.keys(KINDS));
    assert.deepEqual(union("Part"), Object.keys(PARTS));
    assert.deepEqual(union("Reason"), REASONS);
    const names = Array.from(types.matchAll(/^export declare (?:class|const|function) (\w+)/gm), ([, name]) => name);
    assert.deepEqual(names.sort(), Object.keys(exported).sort());
    const [, calls] = /^export declare class Pkder \{([^}]*\n)\}/m.exec(types);
    const methods = Object.getOwnPropertyNames(Pkder.prototype).filter((it) => it !== "constructor");
    assert.deepEqual(Array.from(calls.matchAll(/^    (\w+)\(/gm), ([, name]) => name), methods);
}

// A method for each call of the header.
export function calledAsInTheHeader() {
    const names = Array.from(header.matchAll(/^pkder_outcome pkder_(\w+)\(/gm), ([, name]) => name);
    assert.ok(names.length >= 7);
    for (const name of names) assert.equal(typeof Pkder.prototype[name], "function", name);
}

// Node has the errors' numbers of its system: here those of Linux.
export function errors() {
    if (process.platform !== "linux") return;
    for (const [name, number] of Object.entries(ERRNO)) assert.equal(number, constants.errno[name], name);
}
