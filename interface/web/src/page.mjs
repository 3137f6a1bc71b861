// The page: takes a file or a text, and shows the report of the document in it. Nothing of it is shown but the report,
// which holds no octets of private keys; a text is taken out of the box as soon as it is read. Not proved.

import {FORMS, Library, NotJudged, PARTS, STATUS, USUAL} from "./pkder.mjs";
import {documentInFile, documentInText, kindOf, NoOctets} from "./reading.mjs";

const VERDICTS = {
    [STATUS.ACCEPTED]: "der",
    [STATUS.NOT_DER]: "ber",
    [STATUS.FAULT]: "fault"
};
const element = (id) => document.getElementById(id);
let library = null;

// What the page holds of a document until it is forgotten: its octets, what they came as, and the kind of its label.
let given = null;
// How often something was given or forgotten: a file that is read by then may be one of before.
let turn = 0;

function limits() {
    return {depth: element("depth").valueAsNumber, octets: element("octets").valueAsNumber};
}

function say(how, line, cameAs = "") {
    element("verdict").className = how;
    element("verdict").textContent = line;
    element("came-as").textContent = cameAs;
}

function clear() {
    element("report").textContent = "";
    element("report").hidden = true;
    for (const id of ["save", "parts"]) element(id).hidden = true;
    element("forget").disabled = given === null;
}

function forget() {
    turn += 1;
    given?.octets.fill(0);
    given = null;
    element("text").value = "";
    element("file").value = "";
    library.wipe();
    clear();
    say("none", "No document yet.");
}

// Runs what may find that there is no document, or that none can be judged, and says so.
function attempt(run) {
    try {
        run();
    } catch (why) {
        clear();
        const isKnown = why instanceof NoOctets || why instanceof NotJudged;
        say("none", `Not judged: ${isKnown ? why.message : "the page has a mistake"}.`, given?.cameAs);
        if (!isKnown) throw why;
    } finally {
        library.wipe();
    }
}

function judge() {
    clear();
    if (given === null) return;
    if (!element("depth").validity.valid || !element("octets").validity.valid) {
        throw new NotJudged("the limits are out of range: a depth is 1 to 64, octets are 1 to 2147483647");
    }
    const kind = element("kind").value || kindOf(library, given.octets, given.kind, limits());
    const said = library.check(kind, given.octets, limits());
    say(VERDICTS[said.status], `${kind}: ${library.lineOf(said)}`,
        `${given.cameAs}, ${given.octets.length} octets (bytes)`);
    report(kind);
    if (said.status !== STATUS.FAULT) offer(kind);
}

function report(kind) {
    const form = (element("all").checked ? FORMS.ALL : 0) + (element("tls").checked ? FORMS.TLS : 0);
    const {text} = library.explain(kind, given.octets, limits(), form);
    element("report").textContent = new TextDecoder().decode(text);
    element("report").hidden = false;
}

// Shows what can be saved of a sound document.
function offer(kind) {
    element("save").hidden = false;
    element("save-der").onclick = () => save(`${kind}.der`, () => library.normalise(kind, given.octets, limits()));
    element("parts").hidden = kind !== "request";
    if (kind !== "request") return;
    for (const part of Object.keys(PARTS)) {
        const {size} = library.signed(part, given.octets, limits());
        element(`size-${part}`).textContent = `${size} octets`;
        element(`save-${part}`).onclick = () => save(`${part}.der`, () => library.signed(part, given.octets, limits()));
    }
}

// Hands what the call writes to the browser's own way of saving, and wipes it here.
function save(name, call) {
    attempt(() => {
        const {text} = call();
        const link = document.createElement("a");
        link.href = URL.createObjectURL(new Blob([text], {type: "application/octet-stream"}));
        link.download = name;
        link.click();
        setTimeout(() => URL.revokeObjectURL(link.href), 10000);
        text.fill(0);
    });
}

// Takes the document that `read` finds in these octets, which are wiped if they aren't the document themselves.
function take(octets, read) {
    attempt(() => {
        given = read(octets);
        judge();
    });
    if (given?.octets !== octets) octets.fill(0);
}

function takeText(text) {
    forget();
    take(new TextEncoder().encode(text), documentInText);
}

async function takeFile(file) {
    forget();
    const mine = turn;
    // (more is longer than the limit in each spelling)
    const most = 4 * (limits().octets || USUAL.octets) + 65536;
    const read = file.slice(0, most).arrayBuffer();
    const octets = await read.then((it) => new Uint8Array(it), () => null);
    if (mine !== turn) {
        octets?.fill(0);
        return;
    }
    take(octets ?? new Uint8Array(0), (it) => {
        if (octets === null) throw new NoOctets("the file can't be read");
        if (file.size > most) throw new NoOctets("the file is longer than the limit of octets");
        const found = documentInFile(it);
        return {...found, cameAs: `${file.name}: ${found.cameAs}`};
    });
}

function takeTransfer(data) {
    const {files} = data;
    if (files.length === 1) {
        takeFile(files[0]);
    } else if (files.length === 0) {
        takeText(data.getData("text/plain"));
    } else {
        forget();
        say("none", `Not judged: these are ${files.length} files, and one is read at a time.`);
    }
}

function listen() {
    element("form").addEventListener("submit", (event) => {
        event.preventDefault();
        takeText(element("text").value);
    });
    document.addEventListener("paste", (event) => {
        if (event.target.matches?.("input[type=number]")) return;
        event.preventDefault();
        takeTransfer(event.clipboardData);
    });
    document.addEventListener("dragover", (event) => event.preventDefault());
    document.addEventListener("drop", (event) => {
        event.preventDefault();
        takeTransfer(event.dataTransfer);
    });
    element("file").addEventListener("change", () => {
        const [file] = element("file").files;
        if (file) takeFile(file);
    });
    for (const id of ["kind", "all", "tls", "depth", "octets"]) {
        element(id).addEventListener("change", () => attempt(judge));
    }
    element("forget").addEventListener("click", () => {
        forget();
        element("text").focus();
    });
    window.addEventListener("pagehide", forget);
}

async function start() {
    const module = atob(element("module").textContent.trim());
    library = await Library.load(Uint8Array.from(module, (it) => it.charCodeAt(0)));
    forget();
    listen();
    // (for whoever opens the console, and for the tests)
    globalThis.pkder = library;
    document.documentElement.dataset.ready = "yes";
}

start().catch((why) => say("none", `This browser can't run the page: ${why.message}.`));
