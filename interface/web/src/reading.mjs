// The octets that a text stands for: PEM (RFC 7468 section 3, lax, boundaries on lines of their own), base64 or hex. A
// text is what the octets of a file are in Latin-1. Not proved; tests/manual/spellings.tsv is tried on it.

import {KINDS, STATUS} from "./pkder.mjs";

// The labels of PEM, and the kind that each says.
export const LABELS = Object.freeze({
    "PRIVATE KEY": "key",
    "EC PRIVATE KEY": "ec",
    "CERTIFICATE REQUEST": "request",
    "NEW CERTIFICATE REQUEST": "request",
    "PUBLIC KEY": "public",
    "ENCRYPTED PRIVATE KEY": "encrypted",
});

const BLANKS = /[ \t\v\f]+/g;
const AROUND = /^[ \t\v\f]+|[ \t\v\f]+$/g;
// (a label has no two hyphens in a row)
const BOUNDARY = /^-----(BEGIN|END) ((?:[^-]|-(?!-))*)-----$/;
const LIKE_A_BOUNDARY = /-----(BEGIN|END) /;
const MARK = /^\xEF\xBB\xBF/;

// There are no octets in the text, or it can't be told which.
export class NoOctets extends Error {}

export function latin1(octets) {
    // (a call has room for some thousands of arguments)
    const pieces =
        Array.from({length: Math.ceil(octets.length / 8192)}, (_, at) => octets.subarray(8192 * at, 8192 * (at + 1)));
    return pieces.map((piece) => String.fromCharCode(...piece)).join("");
}

const linesOf = (text) => text.split(/\r\n|\r|\n/);
const octetsOf = (characters) => Uint8Array.from(characters, (it) => it.charCodeAt(0));

// All of it: padded, and without unused bits.
export function fromBase64(text) {
    const letters = linesOf(text).join("").replace(BLANKS, "");
    let characters = "";
    try {
        characters = atob(letters);
    } catch {
        throw new NoOctets("this isn't base64");
    }
    // (atob takes no padding, too, and unused bits)
    if (characters === "" || btoa(characters) !== letters) throw new NoOctets("this isn't base64 to its last bit");
    return octetsOf(characters);
}

// Pairs of hex digits, between which there may be blanks, colons and ends of lines.
export function fromHex(text) {
    const words = linesOf(text).join(" ").replace(/:/g, " ").split(/[ \t\v\f]+/).filter((it) => it !== "");
    if (words.length === 0 || !words.every((it) => /^([0-9A-Fa-f]{2})+$/.test(it)))
        throw new NoOctets("this isn't hex");
    return Uint8Array.from(words.join("").match(/../g), (pair) => parseInt(pair, 16));
}

// The blocks of a text: their labels and what is in them.
function blocksOf(lines) {
    const blocks = [];
    let label = null, body = "";
    for (const line of lines.map((it) => it.replace(AROUND, ""))) {
        const [, what, named] = BOUNDARY.exec(line) ?? [];
        if (what === undefined) {
            if (LIKE_A_BOUNDARY.test(line)) throw new NoOctets("a BEGIN or END of PEM isn't alone on its line");
            body += `${line}\n`;
        } else if (what === "BEGIN") {
            if (label !== null) throw new NoOctets("a PEM block begins in another one");
            [label, body] = [named, ""];
        } else if (named !== label) {
            throw new NoOctets("a PEM block has an END line without its BEGIN line");
        } else {
            blocks.push({label, body});
            label = null;
        }
    }
    if (label !== null) throw new NoOctets("a PEM block has no END line");
    return blocks;
}

// The octets of the one block of a label.
export function fromPem(label, text) {
    return onlyBlock(blocksOf(linesOf(text.replace(MARK, ""))).filter((it) => it.label === label), label);
}

function onlyBlock(found, what) {
    if (found.length !== 1) throw new NoOctets(`there are ${found.length} PEM blocks of ${what}, where one is due`);
    if (/^(Proc-Type|DEK-Info):/m.test(found[0].body)) {
        throw new NoOctets("this PEM block is encrypted in an old form, which OpenSSL has to decrypt first");
    }
    return fromBase64(found[0].body);
}

// The octets that a text stands for, what it is, and the kind that its label says, or null.
export function documentInText(octets) {
    const text = latin1(octets).replace(MARK, "");
    if (LIKE_A_BOUNDARY.test(text)) {
        const blocks = blocksOf(linesOf(text));
        const known = blocks.filter((it) => Object.hasOwn(LABELS, it.label));
        const others = known.length === 0 ? ` (there are: ${blocks.map((it) => it.label).join(", ")})` : "";
        const found = onlyBlock(known, `a kind that is read here${others}`);
        return {octets: found, cameAs: `PEM, ${known[0].label}`, kind: LABELS[known[0].label]};
    }
    for (const [read, cameAs] of [[fromHex, "hex"], [fromBase64, "base64"]]) {
        try {
            return {octets: read(text), cameAs, kind: null};
        } catch (why) {
            if (!(why instanceof NoOctets)) throw why;
        }
    }
    throw new NoOctets("this is neither PEM, base64 nor hex");
}

// The same of a file, which may be the document itself: each begins with the octet 30, and no text of one does.
export function documentInFile(octets) {
    const itself = {octets, cameAs: "as it is", kind: null};
    if (octets[0] === 0x30) return itself;
    try {
        return documentInText(octets);
    } catch (why) {
        if (!(why instanceof NoOctets) || LIKE_A_BOUNDARY.test(latin1(octets))) throw why;
        return itself;
    }
}

// The kind of a document: the one that accepts it, of which there is one at most; else what its label says; else the
// first whose first fault is another one than WrongTag.
export function kindOf(library, octets, said, limits) {
    let likely = null;
    for (const kind of Object.keys(KINDS)) {
        const {status, reason} = library.check(kind, octets, limits);
        if (status === STATUS.ACCEPTED || status === STATUS.NOT_DER) return kind;
        if (reason !== 0 && library.reasonName(reason) !== "WrongTag") likely ??= kind;
    }
    return said ?? likely ?? "key";
}
