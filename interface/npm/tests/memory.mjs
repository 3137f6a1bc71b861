// What stays in a module's memory after a call, and how much memory that is.

import assert from "node:assert/strict";
import {load, NotJudged} from "pkder";

const SECRET = "a1b2c3d4e5f60718";
const KEY = Buffer.from(`302e020100300506032b657004220420${SECRET.repeat(4)}`, "hex");

// Runs it with the calls of a module, and with what each of its instances exports, in whose place `changed` may put
// something else.
async function watched(run, changed = (exports) => exports) {
    const {Instance} = WebAssembly, made = [];
    WebAssembly.Instance = class {
        constructor(...given) {
            const {exports} = new Instance(...given);
            made.push(exports);
            this.exports = changed(exports);
        }
    };
    try {
        await run(await load(), made);
    } finally {
        WebAssembly.Instance = Instance;
    }
}

const octetsIn = ({memory}) => Buffer.from(memory.buffer);

// Each call, accepted or refused, leaves the memory as a call on no octets does; before it is wiped the key is in it.
export async function wiped() {
    const secret = Buffer.from(SECRET, "hex"), stood = [];
    const wipe = (exports) => {
        stood.push(octetsIn(exports).indexOf(secret) !== -1);
        exports.pkder_page_wipe();
    };
    await watched((pkder, made) => {
        const calls = [
            () => pkder.check("key", KEY),
            () => pkder.requireDer("key", KEY),
            () => pkder.normalise("key", KEY),
            () => pkder.show("key", KEY),
            () => pkder.field("key", KEY),
            () => pkder.same("key", KEY, KEY),
            () => pkder.explain("key", KEY, {all: true, json: true}),
            () => pkder.holds("key", KEY),
            () => assert.throws(() => pkder.check("ec", KEY)),
                               () => assert.throws(() => pkder.asks(KEY)),
                                                  () => assert.throws(() => pkder.same("key", KEY, KEY.subarray(1))),
                                                                     () =>
                                                                         assert.throws(() => pkder.signed("info", KEY)),
        ];
        assert.throws(() => pkder.check("key", new Uint8Array()));
        const due = Buffer.from(octetsIn(made[0]));
        stood.length = 0;
        for (const call of calls) {
            call();
            const found = octetsIn(made[0]);
            assert.equal(found.indexOf(secret), -1, String(call));
            assert.ok(found.subarray(0, due.length).equals(due), String(call));
            assert.ok(found.subarray(due.length).every((it) => it === 0), String(call));
        }
        assert.deepEqual(stood, calls.map(() => true));
        assert.equal(made.length, 1);
    }, (exports) => ({...exports, pkder_page_wipe: () => wipe(exports)}));
}

// An instance that has grown is left, wiped, and the next call has a new one.
export async function grown() {
    await watched((pkder, made) => {
        const long = new Uint8Array(24 * 1048576).fill(0xA5);
        assert.throws(() => pkder.check("key", long, {octets: 2147483647}));
        assert.equal(made.length, 2);
        assert.ok(octetsIn(made[0]).length > long.length && octetsIn(made[0]).indexOf(Buffer.alloc(64, 0xA5)) === -1);
        assert.ok(octetsIn(made[1]).length < 16 * 1048576);
        assert.equal(pkder.check("key", KEY).isDer, true);
    });
}

// Where memory is refused nothing is judged, and the next call is.
export async function wanting() {
    let isRefused = true;
    const isWant = (why) => why instanceof NotJudged && why.message === "memory ran out";
    await watched((pkder) => {
        for (const call of [() => pkder.check("key", KEY), () => pkder.explain("key", KEY)])
            assert.throws(call, isWant);
        isRefused = false;
        assert.equal(pkder.check("key", KEY).isDer, true);
    }, (exports) => ({...exports, pkder_page_room: (n) => isRefused ? 0n : exports.pkder_page_room(n)}));
}
