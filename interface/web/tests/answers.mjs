// What the library answers to the rows of interface/calls.py and of interface/pairs.py, in the rows' terms, for node
// and for a browser alike.

import {FORMS, NotJudged, NUMBERS, PLACES, STATUS} from "../src/pkder.mjs";

const hexOf = (octets) => Array.from(octets, (it) => it.toString(16).padStart(2, "0")).join("");
export const octetsOf = (hex) => Uint8Array.from(hex.match(/../g) ?? [], (it) => parseInt(it, 16));

// What `answered` says, or why nothing is judged.
function answer(library, answered) {
    try {
        return answered();
    } catch (why) {
        if (!(why instanceof NotJudged)) throw why;
        return `not judged: ${why.message}`;
    } finally {
        library.wipe();
    }
}

function formOf(flags) {
    const numbers = {"--all": FORMS.ALL, "--json": FORMS.JSON, "--profile=tls": FORMS.TLS};
    return flags.reduce((form, flag) => form + numbers[flag], 0);
}

// Status, output in hex, and line on standard error, as the program would have them.
function ofCall(library, words, octets) {
    const [command, , what, , depth, , most, ...flags] = words.split(" ");
    const limits = {depth: Number(depth), octets: Number(most)};
    const said = library[command](what, octets, limits, formOf(flags));
    switch (said.status) {
        case STATUS.REPORTED:
            return `${said.reason !== 0 ? 2 : said.at !== 0 ? 1 : 0} ${hexOf(said.text)} `;
        case STATUS.FAULT:
            return `2  ${library.lineOf(said)}`;
        default: {
            const output = command === "check" ? new TextEncoder().encode(`${library.lineOf(said)}\n`) : said.text;
            return `${said.status === STATUS.NOT_DER ? 1 : 0} ${hexOf(output)} `;
        }
    }
}

// Whether two documents are the same, or which of them is refused, and why; and numbers that have to be 0 and aren't.
function ofPair(library, kind, limits, first, second) {
    const said = library.same(kind, first, second, limits);
    if (said.status === STATUS.FAULT) return `${["none", "first", "second"][said.which]}: ${library.lineOf(said)}`;
    const others = [...NUMBERS.slice(1), ...PLACES].filter((it) => said[it] !== 0);
    return [said.status === STATUS.ACCEPTED ? "the same" : "another", ...others].join(" ");
}

// The rows that are answered otherwise than they say, of the lines of a table of calls.
export function wrongCalls(library, lines) {
    return lines.flatMap((line) => {
        const [rule, words, given, status, output, error] = line.split("\t");
        const found = answer(library, () => ofCall(library, words, octetsOf(given)));
        return found === `${status} ${output} ${error}` ? [] : [`${rule}: ${words}: ${found.slice(0, 200)}`];
    });
}

// The same of the lines of a table of pairs.
export function wrongPairs(library, lines) {
    return lines.flatMap((line) => {
        const [rule, kind, depth, octets, first, second, due] = line.split("\t");
        const limits = {depth: Number(depth), octets: Number(octets)};
        const found = answer(library, () => ofPair(library, kind, limits, octetsOf(first), octetsOf(second)));
        return found === due ? [] : [`${rule}: ${kind}: ${found}`];
    });
}
