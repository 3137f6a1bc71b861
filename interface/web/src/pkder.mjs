// The library as a module of WebAssembly that imports nothing: kinds, parts and limits by the words of the program, and
// each call as it is in pkder.h. Not proved; what it calls is the proved library, by a way that isn't proved either.

export const KINDS = Object.freeze({key: 1, ec: 2, request: 3, public: 4, encrypted: 5, package: 6});
export const PARTS = Object.freeze({info: 1, algorithm: 2, key: 3, signature: 4, received: 5});
export const STATUS = Object.freeze({
    ACCEPTED: 0,
    FAULT: 1,
    NO_ROOM: 2,
    NO_MEMORY: 3,
    BAD_CALL: 4,
    NOT_DER: 5,
    REPORTED: 6,
    UNREPORTED: 7,
    ANOTHER: 8,
});
export const FORMS = Object.freeze({ALL: 1, JSON: 2, TLS: 4});
export const USUAL = Object.freeze({depth: 32, octets: 1048576});
export const INTERFACE = 1;

// The numbers of a pkder_outcome in their order: those of 32 bits, and after them those of 64.
export const NUMBERS = Object.freeze(["status", "reason", "insideReason", "which"]);
export const PLACES = Object.freeze(["at", "insideAt", "taken", "size"]);
const OUTCOME = 4 * NUMBERS.length + 8 * PLACES.length;

// Of each call the statuses that judge, the one under which it wrote, and the one that asks for more room.
const {ACCEPTED, FAULT, NO_ROOM, NO_MEMORY, BAD_CALL, NOT_DER, REPORTED, UNREPORTED, ANOTHER} = STATUS;
const A_TEXT = {
    judging: [ACCEPTED, FAULT],
    written: ACCEPTED,
    short: NO_ROOM
};
const A_REPORT = {
    judging: [REPORTED],
    written: REPORTED,
    short: UNREPORTED
};
const CALLS = {
    pkder_check: {judging: [ACCEPTED, FAULT, NOT_DER]},
    pkder_same: {judging: [ACCEPTED, FAULT, ANOTHER]},
    pkder_normalise: A_TEXT,
    pkder_show: A_TEXT,
    pkder_signed: A_TEXT,
    pkder_explain: A_REPORT,
    pkder_field: A_REPORT,
};
const REPORT_ROOM = 8192;
const WANTS = {
    [NO_MEMORY]: "memory ran out",
    [BAD_CALL]: "no kind, part or form has that name, or the limits are out of range"
};

// Nothing was judged: want of memory, a bad call, a library that broke off or answers what isn't known here.
export class NotJudged extends Error {}

// The library's calls. Each answers its outcome, and with it, as `text`, what it wrote.
export class Library {
    #module;
    #exports;

    constructor(module) {
        this.#module = module;
        this.#begin();
    }

    static async load(octets) {
        return new Library(await WebAssembly.compile(octets));
    }

    #begin() {
        this.#exports = new WebAssembly.Instance(this.#module, {}).exports;
        if (this.#exports.pkder_interface() !== INTERFACE) throw new NotJudged("another interface of the library");
    }

    check(kind, octets, limits = USUAL) {
        return this.#judged("pkder_check", [KINDS[kind]], limits, [octets]);
    }

    // What is refused is the first, or else the second, as `which` says by 1 or 2.
    same(kind, first, second, limits = USUAL) {
        return this.#judged("pkder_same", [KINDS[kind]], limits, [first, second]);
    }

    normalise(kind, octets, limits = USUAL) {
        return this.#judged("pkder_normalise", [KINDS[kind]], limits, [octets], octets.length);
    }

    show(kind, octets, limits = USUAL) {
        return this.#judged("pkder_show", [KINDS[kind]], limits, [octets], octets.length);
    }

    signed(part, octets, limits = USUAL) {
        return this.#judged("pkder_signed", [PARTS[part]], limits, [octets], octets.length);
    }

    // `form` is 0, or the sum of numbers of FORMS.
    explain(kind, octets, limits = USUAL, form = 0) {
        return this.#judged("pkder_explain", [KINDS[kind], form], limits, [octets], REPORT_ROOM);
    }

    field(kind, octets, limits = USUAL) {
        return this.#judged("pkder_field", [KINDS[kind]], limits, [octets], REPORT_ROOM);
    }

    // The line that the program's check prints, of what this check answers, or of a fault that another call tells.
    lineOf({status, reason, at, insideReason, insideAt}) {
        if (status === ACCEPTED) return "DER";
        if (status === NOT_DER) return `not DER at ${at}`;
        if (status !== FAULT) throw new NotJudged(`there is no line for the status ${status}`);
        const inside = insideReason === 0 ? "" : ` inside at ${insideAt}: ${this.reasonName(insideReason)}`;
        return `fault at ${at}: ${this.reasonName(reason)}${inside}`;
    }

    reasonName(reason) {
        const to = this.#room(16);
        const length = this.#exports.pkder_reason_name(reason, BigInt(to), 16n);
        return new TextDecoder("ascii").decode(this.#view(to, Number(length)));
    }

    // Wipes the memory that calls have used, what the caller put there, and what they wrote.
    wipe() {
        this.#exports.pkder_page_wipe();
    }

    // All of the module's memory, for the tests.
    get memory() {
        return new Uint8Array(this.#exports.memory.buffer);
    }

    // Asks with this room at first, and then with as much as the library asks for. A call that writes nothing has none.
    #judged(name, numbers, limits, documents, room = null) {
        const {judging, short} = CALLS[name];
        for (;;) {
            const said = this.#asked(name, numbers, limits, documents, room);
            if (judging.includes(said.status)) return said;
            if (said.status !== short || said.size <= room) {
                throw new NotJudged(WANTS[said.status] ?? "the library answers what this page doesn't know");
            }
            room = said.size;
        }
    }

    // One call; its numbers are the kind or part, and the form of a report. Addresses and sizes have 64 bits.
    #asked(name, [what, ...form], limits, documents, room) {
        const outcome = this.#room(documents.reduce((sum, it) => sum + it.length, OUTCOME + (room ?? 0)));
        let to = outcome + OUTCOME;
        const read = documents.flatMap((octets) => {
            const from = to;
            to += octets.length;
            this.#view(from, octets.length).set(octets);
            return [BigInt(from), BigInt(octets.length)];
        });
        const written = room === null ? [] : [BigInt(to), BigInt(room)];
        const numbers = [what, limits.depth, BigInt(limits.octets), ...form];
        this.#run(() => this.#exports[name](BigInt(outcome), ...numbers, ...read, ...written));
        const said = this.#outcome(outcome);
        return said.status === CALLS[name].written ? {...said, text: this.#view(to, said.size).slice()} : said;
    }

    // A trap (the stack used up) ends the instance, whose memory is wiped, and the next call has a new one.
    #run(call) {
        try {
            call();
        } catch {
            this.memory.fill(0);
            this.#begin();
            throw new NotJudged("the library broke off");
        }
    }

    #room(size) {
        const at = Number(this.#exports.pkder_page_room(BigInt(size)));
        if (at === 0) throw new NotJudged(WANTS[NO_MEMORY]);
        return at;
    }

    #view(at, length) {
        return new Uint8Array(this.#exports.memory.buffer, at, length);
    }

    #outcome(at) {
        const view = new DataView(this.#exports.memory.buffer, at, OUTCOME);
        const places = 4 * NUMBERS.length;
        return Object.fromEntries([
            ...NUMBERS.map((name, place) => [name, view.getUint32(4 * place, true)]),
            ...PLACES.map((name, place) => [name, Number(view.getBigUint64(places + 8 * place, true))]),
        ]);
    }
}
