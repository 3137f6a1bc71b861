// The rows of interface/calls.py and of interface/pairs.py, which PKDER_CALLS and PKDER_PAIRS name, by the package.

import assert from "node:assert/strict";
import {readFileSync} from "node:fs";
import {Fault} from "pkder";

const hexOf = (octets) => Buffer.from(octets).toString("hex");
const octetsOf = (hex) => new Uint8Array(Buffer.from(hex, "hex"));
const linesOf = (name) =>
    readFileSync(name, "latin1").split("\n").filter((it) => it !== "").map((it) => it.split("\t"));

// What a call answers, or the fault that it throws.
function told(call) {
    try {
        return call();
    } catch (why) {
        if (why instanceof Fault) return why;
        throw why;
    }
}

// Status, output in hex and line on standard error, as the program has them.
function ofCall(pkder, words, octets) {
    const [command, , what, , depth, , most, ...flags] = words.split(" ");
    const limits = {depth: Number(depth), octets: Number(most)};
    const form = {all: flags.includes("--all"), json: flags.includes("--json"), tls: flags.includes("--profile=tls")};
    const said = told(
        () => command === "explain" ? pkder.explain(what, octets, {...form, ...limits}) :
                                      pkder[command](what, octets, limits));
    if (said instanceof Fault) return `2  ${said.message}`;
    const status = (it) => it.fault ? 2 : it.isDer ? 0 : 1;
    switch (command) {
        case "check":
            return `${status(said)} ${hexOf(Buffer.from(`${said}\n`))} `;
        case "field": {
            // (its row has the status of the report)
            return `${status(pkder.explain(what, octets, limits))} ${hexOf(Buffer.from(said))} `;
        }
        case "explain":
            return `${status(said)} ${hexOf(Buffer.from(said.text))} `;
        default:
            return `0 ${hexOf(typeof said === "string" ? Buffer.from(said) : said)} `;
    }
}

function ofPair(pkder, kind, limits, first, second) {
    const said = told(() => pkder.same(kind, first, second, limits));
    if (!(said instanceof Fault)) return said ? "the same" : "another";
    assert.equal(said.message.startsWith(["", "first: ", "second: "][said.which]), true);
    return said.message;
}

// The rows that are answered otherwise than they say.
function wrongCalls(pkder, rows) {
    return rows.flatMap(([rule, words, given, status, output, error]) => {
        const found = ofCall(pkder, words, octetsOf(given));
        return found === `${status} ${output} ${error}` ? [] : [`${rule}: ${words}: ${found.slice(0, 200)}`];
    });
}

function wrongPairs(pkder, rows) {
    return rows.flatMap(([rule, kind, depth, octets, first, second, due]) => {
        const limits = {depth: Number(depth), octets: Number(octets)};
        const found = ofPair(pkder, kind, limits, octetsOf(first), octetsOf(second));
        return found === due ? [] : [`${rule}: ${kind}: ${found}`];
    });
}

export function calls(pkder) {
    const rows = linesOf(process.env.PKDER_CALLS);
    assert.ok(rows.length > 900);
    assert.deepEqual(wrongCalls(pkder, rows), []);
    // (a row that says something else is told)
    assert.equal(wrongCalls(pkder, [[...rows[0].slice(0, 5), "another"]]).length, 1);
}

export function pairs(pkder) {
    const rows = linesOf(process.env.PKDER_PAIRS);
    assert.ok(rows.length > 3000);
    assert.deepEqual(wrongPairs(pkder, rows), []);
    assert.equal(wrongPairs(pkder, [[...rows[0].slice(0, 6), "neither"]]).length, 1);
}
