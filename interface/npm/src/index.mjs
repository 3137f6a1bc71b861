// pkder for node, Deno, Bun, bundlers and browsers: the library as a module of WebAssembly (library.mjs), with what is
// refused as errors, and the module's memory wiped after each call. Not proved; what it calls is the proved library, by
// a way that isn't proved either.
//
//   import {load} from "pkder";
//   const pkder = await load();
//   pkder.requireDer("request", octets);

import {askedOf} from "./asks.mjs";
import {FORMS, KINDS, Library, NotJudged, PARTS, STATUS, USUAL} from "./library.mjs";

export {KINDS, NotJudged, PARTS, USUAL};

// The names of reasons, which faults have. A later module may answer others.
export const REASONS = Object.freeze([
    "Truncated", "TooLong", "BadTag",    "PastEnd",     "BadEnd",      "TooDeep",    "WrongTag",
    "Extra",     "LeftOut", "WrongForm", "BadLength",   "Missing",     "BadInteger", "BadBoolean",
    "BadNull",   "BadBits", "BadOid",    "BadText",     "EmptySet",    "Version",    "Parameters",
    "Inner",     "Curve",   "KeyLength", "VersionRule", "TextTooLong", "Trailing",
]);
const MOST = Object.freeze({depth: 64, octets: 2147483647});
// An instance whose memory has grown to more is left after the call, since memory doesn't shrink.
const KEPT = 16 * 1048576;

// A document is refused: a Fault, or of requireDer NotDer.
export class Refused extends Error {}

// A document is sound, and not in DER: `at` is the first place where it differs from its DER text.
export class NotDer extends Refused {
    constructor(at) {
        super(`not DER at ${at}`);
        this.name = "NotDer";
        this.at = at;
    }
}

// The first fault of a document: its place, the name of its reason, and `inside`, null or the place and the reason
// inside privateKey. Of same `which` is 1 or 2, the document that it is in, and else 0.
export class Fault extends Refused {
    constructor(line, at, reason, inside, which) {
        super(`${["", "first: ", "second: "][which]}${line}`);
        Object.assign(this, {name: "Fault", at, reason, inside, which});
    }
}

// Whether a sound document is in DER; else `differsAt` is the first place where it differs from its DER text.
export class Form {
    constructor(differsAt = null) {
        this.differsAt = differsAt;
    }

    get isDer() {
        return this.differsAt === null;
    }

    toString() {
        return this.isDer ? "DER" : `not DER at ${this.differsAt}`;
    }
}

// A report of any octets, and what check says of them: `fault` is why they are refused, and isn't thrown.
export class Report {
    constructor(text, differsAt, fault) {
        Object.assign(this, {text, differsAt, fault});
    }

    get isDer() {
        return this.fault === null && this.differsAt === null;
    }

    toString() {
        return this.text;
    }
}

// The library's calls, over a module that is compiled. None but these of a module is ever asked.
export class Pkder {
    #module;
    #library;

    constructor(module) {
        this.#module = module;
        this.#library = new Library(module);
    }

    check(kind, document, limits) {
        const said = this.#judged("check", kind, [document], limits);
        return new Form(said.status === STATUS.NOT_DER ? said.at : null);
    }

    requireDer(kind, document, limits) {
        // (a copy, which nothing changes after it is judged)
        const octets = octetsOf(document).slice();
        const {isDer, differsAt} = this.check(kind, octets, limits);
        if (!isDer) throw new NotDer(differsAt);
        return octets;
    }

    same(kind, first, second, limits) {
        return this.#judged("same", kind, [first, second], limits).status === STATUS.ACCEPTED;
    }

    normalise(kind, document, limits) {
        return this.#judged("normalise", kind, [document], limits).text;
    }

    show(kind, document, limits) {
        return textOf(this.#judged("show", kind, [document], limits));
    }

    signed(part, document, limits) {
        named("part", PARTS, part);
        return this.#answered("signed", part, [document], limits).text;
    }

    explain(kind, document, {all = false, json = false, tls = false, ...limits} = {}) {
        const form = (all ? FORMS.ALL : 0) + (json ? FORMS.JSON : 0) + (tls ? FORMS.TLS : 0);
        named("kind", KINDS, kind);
        return this.#asked(() => {
            const said = this.#library.explain(kind, octetsOf(document), limited(limits), form);
            const fault = said.reason === 0 ? null : this.#fault(said);
            return new Report(textOf(said), fault === null && said.at !== 0 ? said.at : null, fault);
        });
    }

    field(kind, document, limits) {
        named("kind", KINDS, kind);
        return this.#asked(() => textOf(this.#library.field(kind, octetsOf(document), limited(limits))));
    }

    asks(document, limits) {
        return askedOf(this.#told("asks", "request", document, limits));
    }

    holds(kind, document, limits) {
        if (kind === "request" || kind === "package")
            throw new TypeError("nothing is told of what such a document holds");
        return this.#told("holds", kind, document, limits);
    }

    // A member of the report of a document in JSON.
    #told(member, kind, document, limits) {
        const {text, fault} = this.explain(kind, document, {...limits, json: true});
        if (fault !== null) throw fault;
        const told = JSON.parse(text)[member];
        if (told === undefined) throw new NotJudged(`the library's report has no ${member}`);
        return told;
    }

    #judged(call, kind, documents, limits) {
        named("kind", KINDS, kind);
        return this.#answered(call, kind, documents, limits);
    }

    #answered(call, what, documents, limits) {
        return this.#asked(() => {
            const said = this.#library[call](what, ...documents.map(octetsOf), limited(limits));
            if (said.status === STATUS.FAULT) throw this.#fault(said);
            return said;
        });
    }

    #fault(said) {
        const {at, reason, insideAt, insideReason, which} = said;
        const inside = insideReason === 0 ? null : {at: insideAt, reason: this.#library.reasonName(insideReason)};
        const line = this.#library.lineOf({...said, status: STATUS.FAULT});
        return new Fault(line, at, this.#library.reasonName(reason), inside, which);
    }

    // What a call left in the module's memory is wiped.
    #asked(call) {
        try {
            return call();
        } finally {
            this.#library.wipe();
            if (this.#library.memory.length > KEPT) this.#library = new Library(this.#module);
        }
    }
}

// The calls, over the module that stands beside this file, or over one that is given: its octets, or compiled.
export async function load(module = undefined) {
    const given = await (module ?? fetched(new URL("./pkder.wasm", import.meta.url)));
    return new Pkder(given instanceof WebAssembly.Module ? given : await WebAssembly.compile(given));
}

async function fetched(place) {
    const said = await fetch(place);
    if (!said.ok) throw new NotJudged(`the module can't be read: ${said.status}`);
    return said.arrayBuffer();
}

function textOf({text}) {
    return new TextDecoder("utf-8", {fatal: true, ignoreBOM: true}).decode(text);
}

function named(what, names, name) {
    if (typeof name !== "string" || !Object.hasOwn(names, name)) {
        throw new TypeError(`a ${what} is ${Object.keys(names).join(", ")}`);
    }
}

// (by what it is and not by its class, of which a test's sandbox or a frame has another)
function octetsOf(document) {
    if (ArrayBuffer.isView(document)) return new Uint8Array(document.buffer, document.byteOffset, document.byteLength);
    if (Object.prototype.toString.call(document) === "[object ArrayBuffer]") return new Uint8Array(document);
    throw new TypeError("a document is octets, as a Uint8Array or an ArrayBuffer has them, and no text");
}

function limited(limits) {
    const {depth, octets} = {...USUAL, ...limits};
    for (const [name, it] of Object.entries({depth, octets})) {
        if (!Number.isInteger(it) || it < 1 || it > MOST[name]) {
            throw new RangeError(`the limit ${name} is 1 to ${MOST[name]}`);
        }
    }
    return {depth, octets};
}
