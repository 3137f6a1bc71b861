// What the calls take, answer and throw.

import assert from "node:assert/strict";
import {readFileSync} from "node:fs";
import {Fault, Form, KINDS, load, NotDer, PARTS, Refused, Report} from "pkder";

const octetsOf = (hex) => new Uint8Array(Buffer.from(hex.replaceAll(" ", ""), "hex"));
// An Ed25519 key in DER (RFC 8410), and with a length of five octets; a public key; the algorithm.
const KEY = octetsOf(`302e020100300506032b657004220420${"0102030405060708".repeat(4)}`);
const KEY_IN_BER = octetsOf(`308400 00002e${Buffer.from(KEY.subarray(2)).toString("hex")}`);
const ED25519 = octetsOf(`302a300506032b6570032100${"aa".repeat(32)}`);
const CUT = KEY.subarray(0, 20);

// What a call throws.
function thrown(call) {
    try {
        call();
    } catch (why) {
        return why;
    }
    return assert.fail("nothing is thrown");
}

export function checking(pkder) {
    const der = pkder.check("key", KEY), ber = pkder.check("key", KEY_IN_BER);
    assert.ok(der instanceof Form && ber instanceof Form);
    assert.deepEqual([der.isDer, der.differsAt, `${der}`], [true, null, "DER"]);
    assert.deepEqual([ber.isDer, ber.differsAt, `${ber}`], [false, 1, "not DER at 1"]);
}

export function requiring(pkder) {
    const given = KEY.slice(), judged = pkder.requireDer("key", given);
    assert.deepEqual(judged, KEY);
    given.fill(0);
    assert.deepEqual(judged, KEY);
    const why = thrown(() => pkder.requireDer("key", KEY_IN_BER));
    assert.ok(why instanceof NotDer && why instanceof Refused && !(why instanceof Fault));
    assert.deepEqual([why.name, why.at, why.message], ["NotDer", 1, "not DER at 1"]);
    assert.ok(thrown(() => pkder.requireDer("key", CUT)) instanceof Fault);
}

export function faults(pkder) {
    const why = thrown(() => pkder.normalise("key", CUT));
    assert.ok(why instanceof Fault && why instanceof Refused && why instanceof Error);
    assert.deepEqual({...why}, {name: "Fault", at: 20, reason: "Truncated", inside: null, which: 0});
    assert.equal(`${why}`, "Fault: fault at 20: Truncated");
    const inner = octetsOf(
        "302f020100300506032b657004230420" +
        "01".repeat(33));
    const {at, reason, inside, message} = thrown(() => pkder.check("key", inner));
    assert.deepEqual([at, reason, inside], [12, "Inner", {at: 34, reason: "Trailing"}]);
    assert.equal(message, "fault at 12: Inner inside at 34: Trailing");
    for (const kind of Object.keys(KINDS)) assert.throws(() => pkder.check(kind, new Uint8Array()), Fault);
}

export function comparing(pkder) {
    assert.equal(pkder.same("key", KEY, KEY_IN_BER), true);
    assert.equal(
        pkder.same("key", KEY, KEY.with?.(40, 0) ?? Uint8Array.from(KEY, (it, at) => at === 40 ? 0 : it)), false);
    for (const [first, second, which, line] of [[CUT, CUT, 1, "first: "], [KEY, CUT, 2, "second: "]]) {
        const why = thrown(() => pkder.same("key", first, second));
        assert.deepEqual([why.which, why.message], [which, `${line}fault at 20: Truncated`]);
    }
}

// Octets in whatever holds them, and nothing that has none.
export function documents(pkder) {
    const around = new Uint8Array(KEY.length + 8);
    around.set(KEY, 4);
    const shared = new Uint8Array(new SharedArrayBuffer(KEY.length));
    shared.set(KEY);
    const view = new DataView(around.buffer, 4, KEY.length);
    for (const document
             of [KEY, Buffer.from(KEY), KEY.slice().buffer, around.subarray(4, 4 + KEY.length), view, shared]) {
        assert.deepEqual(pkder.normalise("key", document), KEY);
        assert.deepEqual(pkder.requireDer("key", document), KEY);
        assert.equal(pkder.requireDer("key", document).buffer instanceof ArrayBuffer, true);
    }
    for (const none of ["", "MC4CAQAw", 48, null, undefined, Array.from(KEY), {length: 48}, new Blob([KEY])]) {
        assert.throws(() => pkder.check("key", none), TypeError);
        assert.throws(() => pkder.requireDer("key", none), TypeError);
        assert.throws(() => pkder.same("key", KEY, none), TypeError);
        assert.throws(() => pkder.explain("key", none), TypeError);
        assert.throws(() => pkder.field("key", none), TypeError);
    }
}

// (as a test's sandbox has other classes than the package)
export async function othersClasses(pkder) {
    const {runInNewContext} = await import("node:vm");
    for (const made of ["it => Uint8Array.from(it)", "it => Uint8Array.from(it).buffer"]) {
        const document = runInNewContext(made)(KEY);
        assert.ok(!(document instanceof Uint8Array || document instanceof ArrayBuffer));
        assert.deepEqual(pkder.normalise("key", document), KEY);
    }
}

export function names(pkder) {
    for (const none of ["", "Key", "constructor", "toString", 1, null, undefined, ["key"], {}]) {
        for (const call of ["check", "requireDer", "normalise", "show", "explain", "field", "holds"]) {
            assert.throws(() => pkder[call](none, KEY), TypeError, `${call} ${none}`);
        }
        assert.throws(() => pkder.same(none, KEY, KEY), TypeError);
        assert.throws(() => pkder.signed(none, KEY), TypeError);
    }
    assert.throws(() => pkder.signed("request", KEY), TypeError);
    for (const part of Object.keys(PARTS)) assert.throws(() => pkder.signed(part, KEY), Fault);
}

export function limits(pkder) {
    assert.equal(thrown(() => pkder.check("key", KEY, {octets: 47})).reason, "TooLong");
    assert.equal(thrown(() => pkder.check("key", KEY, {depth: 2})).reason, "TooDeep");
    assert.equal(pkder.check("key", KEY, {depth: 3, octets: 48}).isDer, true);
    assert.equal(pkder.check("key", KEY, {}).isDer, true);
    assert.equal(pkder.field("key", KEY, {octets: 47}), "OneAsymmetricKey");
    assert.equal(pkder.explain("key", KEY, {octets: 47, json: true}).fault.reason, "TooLong");
}

export function reports(pkder) {
    const sound = pkder.explain("key", KEY);
    assert.ok(sound instanceof Report && sound.text.startsWith("key, 48 octets\nDER\n"));
    assert.deepEqual([sound.isDer, sound.differsAt, sound.fault, `${sound}`], [true, null, null, sound.text]);
    const ber = pkder.explain("key", KEY_IN_BER), whole = pkder.explain("key", KEY_IN_BER, {all: true});
    assert.deepEqual([ber.isDer, ber.differsAt, ber.fault], [false, 1, null]);
    // (with all elements it lists privateKey too, at 16)
    assert.deepEqual([ber, whole].map((it) => /^16 /m.test(it.text)), [false, true]);
    const refused = pkder.explain("key", CUT);
    assert.ok(refused.fault instanceof Fault);
    assert.deepEqual([refused.isDer, refused.differsAt, refused.fault.at], [false, null, 20]);
    const notes = [false, true].map((tls) => pkder.explain("public", ED25519, {tls}).text.includes("key_algorithm"));
    assert.deepEqual(notes, [false, true]);
    const told = JSON.parse(pkder.explain("public", ED25519, {json: true, tls: true}).text);
    assert.deepEqual(told.notes.map((it) => it.what), ["key_algorithm"]);
    assert.equal(JSON.parse(pkder.explain("key", CUT, {json: true}).text).verdict, "refused");
}

// A report that takes more room than there is at first.
export function longReports(pkder) {
    const names = Buffer.concat(Array(400).fill(octetsOf("310b300906035504030c026161")));
    const start = octetsOf("30827fff30827ff0020100 3082");
    const size = Buffer.from([names.length >> 8, names.length & 255]);
    const request = Buffer.concat([start, size, names, octetsOf("302a300506032b6570")]);
    const {text, isDer} = pkder.explain("request", request, {all: true, json: true});
    assert.ok(text.length > 16384 && text.endsWith("}\n") && !isDer);
    assert.equal(JSON.parse(text).verdict, "refused");
}

export function fields(pkder) {
    const found = [KEY, KEY_IN_BER, CUT].map((it) => pkder.field("key", it));
    assert.deepEqual(found, ["", "OneAsymmetricKey", "privateKey"]);
}

// A module that is given, as octets, compiled, or promised; and what is none.
export async function loading() {
    const octets = readFileSync(new URL("../node_modules/pkder/pkder.wasm", import.meta.url));
    const compiled = new WebAssembly.Module(octets);
    for (const module of [octets, new Uint8Array(octets).buffer, compiled, Promise.resolve(octets)]) {
        assert.equal((await load(module)).check("key", KEY).isDer, true);
    }
    await assert.rejects(load(new Uint8Array(8)), WebAssembly.CompileError);
    await assert.rejects(load(Uint8Array.of(0, 97, 115, 109, 1, 0, 0, 0)), TypeError);
    const {load: fetching} = await import("../node_modules/pkder/index.mjs");
    const {fetch} = globalThis;
    try {
        globalThis.fetch = async (place) => new Response(place.pathname.endsWith("/pkder/pkder.wasm") ? octets : "");
        assert.equal((await fetching()).check("key", KEY).isDer, true);
        globalThis.fetch = async () => new Response("", {status: 404});
        await assert.rejects(fetching(), {message: "the module can't be read: 404"});
    } finally {
        globalThis.fetch = fetch;
    }
}
