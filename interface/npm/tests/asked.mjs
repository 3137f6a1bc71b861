// What requests ask for and other documents hold, as `openssl req -text` and `openssl asn1parse` show it.

import assert from "node:assert/strict";
import {readFileSync} from "node:fs";
import {dirname} from "node:path";
import {Fault} from "pkder";

const TOP = dirname(dirname(process.env.PKDER_HEADER));
const octetsOf = (name) => readFileSync(`${TOP}/${name}.der`);
const asked = (pkder, name) => pkder.asks(octetsOf(`tests/pkder/explained/${name}`));
const lasting = (it) => [it.san, it.dns, it.keyUsage, it.extendedKeyUsage, it.isCa];

export function whole(pkder) {
    const found = asked(pkder, "extensions-sound");
    assert.deepEqual(found.subject, [[{identifier: "2.5.4.3", name: "commonName", text: "www.example.org"}]]);
    assert.deepEqual(
        [found.key, found.signature, found.attributes],
        [{algorithm: "Ed25519", octets: 32}, {algorithm: "Ed25519"}, []]);
    assert.deepEqual(lasting(found), [
        [{dns: "www.example.org"}, {ip: "192.0.2.17"}], ["www.example.org"], ["digitalSignature", "keyEncipherment"],
        ["id-kp-serverAuth"], false
    ]);
    assert.deepEqual(found.extensions.map(({identifier, name, critical, at}) => [identifier, name, critical, at]), [
        ["2.5.29.17", "subjectAltName", false, 101], ["2.5.29.15", "keyUsage", true, 135],
        ["2.5.29.37", "extKeyUsage", false, 151], ["2.5.29.19", "basicConstraints", true, 172]
    ]);
    assert.ok(found.extensions.every((it) => it.carries.verdict === "der"));
}

export function examples(pkder) {
    const found = pkder.asks(octetsOf("examples/request-p256"));
    assert.deepEqual(
        found.subject.map(([it]) => [it.name, it.text]),
        [["countryName", "US"], ["organizationName", "Example"], ["commonName", "www.example.com"]]);
    assert.deepEqual(found.key, {algorithm: "id-ecPublicKey", parameters: "P-256", octets: 65});
    assert.deepEqual(lasting(found).slice(1), [["www.example.com", "example.com"], [], [], false]);
    const ofRsa = pkder.asks(octetsOf("examples/request-rsa2048"));
    const {carries, ...key} = ofRsa.key;
    assert.deepEqual(key, {algorithm: "rsaEncryption", octets: 270, bits: 2048, exponent: "65537"});
    assert.equal(carries.verdict, "der");
    assert.deepEqual(lasting(ofRsa), [[], [], [], [], false]);
}

export function requestsInBer(pkder) {
    // (its strings are in segments, and the value of the subjectAltName, too)
    const found = pkder.asks(octetsOf("examples/request-indefinite"));
    assert.deepEqual(found.subject.flat().map((it) => it.text), [undefined, undefined, undefined]);
    assert.deepEqual(found.dns, ["www.example.com", "example.com"]);
    const other = asked(pkder, "critical-false");
    assert.equal(other.subject[1][0].text, "Müller und Söhne GmbH");
    assert.deepEqual(other.extensions.map((it) => it.critical), [true, true, false]);
    assert.deepEqual(other.attributes, ["challengePassword"]);
    assert.ok(!JSON.stringify(other).includes("secret password"));
}

export function untold(pkder) {
    for (const name of ["note-extension-length", "note-extension-text"]) {
        const found = asked(pkder, name);
        assert.deepEqual([found.san, found.dns, found.extensions[0].names], [null, null, []], name);
    }
    assert.equal(asked(pkder, "note-extension-empty").extendedKeyUsage, null);
    const twice = asked(pkder, "note-extension-twice");
    assert.deepEqual([twice.keyUsage, twice.dns], [null, ["a.example"]]);
}

export function authorities(pkder) {
    for (const name of ["note-extension-true", "note-extension-false"]) {
        assert.equal(asked(pkder, name).isCa, null, name);
    }
    // (its TRUE is another octet than FF)
    const request = octetsOf("tests/pkder/explained/note-extension-true");
    const at = request.indexOf(Buffer.from("3003010101", "hex"));
    request[at + 4] = 0xFF;
    assert.equal(pkder.asks(request).isCa, true);
}

export function refusedRequests(pkder) {
    for (const document
             of [Buffer.alloc(0), octetsOf("examples/p256"), octetsOf("examples/request-p256").subarray(1)]) {
        assert.throws(() => pkder.asks(document), Fault);
    }
    assert.throws(() => pkder.asks(octetsOf("examples/request-followed")), {message: "fault at 148: Trailing"});
    assert.throws(() => pkder.asks(octetsOf("examples/request-p256"), {depth: 65}), RangeError);
    assert.throws(() => pkder.asks(octetsOf("examples/request-p256"), {octets: 9}), Fault);
}

export function held(pkder) {
    for (const [name, kind, due] of [
             ["rsa2048", "key", {key: {algorithm: "rsaEncryption", bits: 2048, exponent: "65537"}}],
             ["p384", "key", {key: {algorithm: "id-ecPublicKey", parameters: "P-384"}}],
             ["public-p256", "public", {key: {algorithm: "id-ecPublicKey", parameters: "P-256", octets: 65}}],
             ["public-indefinite", "public", {key: {algorithm: "Ed25519"}}],
             ["k256-sec1", "ec", {curve: "secp256k1"}],
    ]) {
        assert.deepEqual(pkder.holds(kind, octetsOf(`examples/${name}`)), due, name);
    }
    const {algorithms, numbers} = pkder.holds("encrypted", octetsOf("examples/encrypted-keytool")).encryption;
    assert.deepEqual(algorithms, ["id-PBES2", "id-PBKDF2", "id-hmacWithSHA256", "aes256-CBC-PAD"]);
    assert.deepEqual(numbers, ["10000", "32"]);
    assert.throws(() => pkder.holds("key", new Uint8Array()), Fault);
    for (const kind of ["request", "package"]) {
        assert.throws(() => pkder.holds(kind, octetsOf("examples/request-p256")), TypeError);
    }
}
