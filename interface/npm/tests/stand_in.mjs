// What the package makes of answers that no document brings, told by a stand-in as that of interface/c/stand_in.c is:
// of three octets each call answers the status, the reason and the reason inside that they say, and writes nothing.

import assert from "node:assert/strict";
import {Fault, load, NotJudged, Refused} from "pkder";

import {INTERFACE} from "../node_modules/pkder/library.mjs";

const LATER = "Later";

// What an instance of the stand-in exports.
function standIn(interfaceNumber) {
    const memory = {buffer: new ArrayBuffer(65536)};
    const octets = (at, size) => new Uint8Array(memory.buffer, Number(at), Number(size));
    const answer = (outcome, from, size, which = 0) => {
        const [status, reason, inside] = octets(from, size);
        const view = new DataView(memory.buffer, Number(outcome), 48);
        [status, reason, inside, status === 1 ? which : 0].forEach((it, at) => view.setUint32(4 * at, it, true));
        [5n, 7n, 0n, 0n].forEach((it, at) => view.setBigUint64(16 + 8 * at, it, true));
    };
    const text = (outcome, what, depth, most, from, size) => answer(outcome, from, size);
    return {
        memory,
        pkder_interface: () => interfaceNumber,
        pkder_page_room: () => 64n,
        pkder_page_wipe: () => octets(0, 65536).fill(0),
        pkder_check: text,
        pkder_normalise: text,
        pkder_show: text,
        pkder_signed: text,
        pkder_field: text,
        pkder_explain: (outcome, what, depth, most, form, from, size) => answer(outcome, from, size),
        pkder_same: (outcome, what, depth, most, from, size) => answer(outcome, from, size, 2),
        pkder_reason_name: (reason, to) => {
            if (reason === 28) octets(to, LATER.length).set(Buffer.from(LATER));
            return BigInt(reason === 28 ? LATER.length : 0);
        },
    };
}

// The calls over a stand-in.
async function over(interfaceNumber = INTERFACE) {
    const {Instance} = WebAssembly;
    try {
        WebAssembly.Instance = class { exports = standIn(interfaceNumber); };
        return await load(Object.create(WebAssembly.Module.prototype));
    } finally {
        WebAssembly.Instance = Instance;
    }
}

const answers = (pkder, document) =>
    [() => pkder.check("key", document), () => pkder.requireDer("key", document),
     () => pkder.normalise("key", document), () => pkder.show("key", document), () => pkder.signed("info", document)];
const reports = (pkder, document) => [() => pkder.explain("key", document), () => pkder.field("key", document)];
const told = (pkder, document) => [() => pkder.asks(document), () => pkder.holds("key", document)];
const same = (pkder, document) => () => pkder.same("key", document, document);
const calls = (pkder, document) => [answers, reports, told].flatMap((it) => it(pkder, document));
const isNotJudged = (why) => why instanceof NotJudged && !(why instanceof Refused);

export async function refusals() {
    const pkder = await over();
    // (want of memory, a bad call, a status of a later library)
    for (const status of [3, 4, 9]) {
        const document = Uint8Array.of(status, 0, 0);
        for (const call of [...calls(pkder, document), same(pkder, document)]) assert.throws(call, isNotJudged);
    }
}

export async function laterFaults() {
    const pkder = await over();
    for (const [inside, line] of [[0, "fault at 5: Later"], [28, "fault at 5: Later inside at 7: Later"]]) {
        const fault = (which, message) => (why) =>
            why instanceof Fault && why.reason === LATER && why.which === which && why.message === message;
        const document = Uint8Array.of(1, 28, inside), report = Uint8Array.of(6, 28, inside);
        for (const call of answers(pkder, document)) assert.throws(call, fault(0, line));
        assert.throws(same(pkder, document), fault(2, `second: ${line}`));
        const {isDer, fault: said} = pkder.explain("key", report);
        assert.deepEqual([isDer, said.message], [false, line]);
        assert.equal(pkder.field("key", report), "");
        for (const call of told(pkder, report)) assert.throws(call, fault(0, line));
    }
}

// The statuses of reports are no answer of other calls, nor those of other calls of reports.
export async function othersStatuses() {
    const pkder = await over();
    for (const status of [6, 7]) {
        const document = Uint8Array.of(status, 0, 0);
        for (const call of [...answers(pkder, document), same(pkder, document)]) assert.throws(call, isNotJudged);
    }
    for (const status of [0, 1, 2, 5]) {
        const document = Uint8Array.of(status, 0, 0);
        for (const call of [...reports(pkder, document), ...told(pkder, document)]) assert.throws(call, isNotJudged);
    }
    for (const status of [2, 5]) assert.throws(same(pkder, Uint8Array.of(status, 0, 0)), isNotJudged);
    for (const call of calls(pkder, Uint8Array.of(8, 0, 0))) assert.throws(call, isNotJudged);
}

export async function twoDocuments() {
    const pkder = await over();
    assert.equal(pkder.same("key", Uint8Array.of(0, 0, 0), new Uint8Array()), true);
    assert.equal(pkder.same("key", Uint8Array.of(8, 0, 0), new Uint8Array()), false);
}

export async function anotherInterface() {
    await assert.rejects(over(INTERFACE + 1), {message: "another interface of the library"});
}
