// What tsc has to accept, and below each @ts-expect-error what it has to refuse.
import {Fault, type Form, type Kind, KINDS, load, NotDer, NotJudged, type Pkder, REASONS, Refused} from "pkder";

const pkder: Pkder = await load();
const kind: Kind = "request";
const octets = new Uint8Array([0x30, 0]);
const form: Form = pkder.check(kind, octets);
const place: number | null = form.differsAt;
try {
    const judged: Uint8Array = pkder.requireDer(kind, octets, {depth: 3, octets: 9});
    const same: boolean = pkder.same(kind, judged, new DataView(octets.buffer));
    const text: string = pkder.explain("key", octets.buffer, {all: true, json: true, tls: same}).text;
    const names: readonly string[] | null = pkder.asks(octets).dns;
    const bits: number | undefined = pkder.holds("public", octets).key?.bits;
    const number: number = KINDS.key + text.length + (names?.length ?? 0) + (bits ?? 0) + (place ?? 0);
    if (number < REASONS.length && pkder.asks(octets).isCa === false) pkder.signed("info", octets);
} catch (why) {
    if (why instanceof NotDer) place === why.at;
    if (why instanceof Fault && why.reason === "Trailing") why.inside?.at.toFixed();
    if (why instanceof Refused || why instanceof NotJudged) why.message.trim();
}
// @ts-expect-error there is no such kind
pkder.check("pem", octets);
// @ts-expect-error a text has no octets
pkder.check("key", "MC4CAQAw");
// @ts-expect-error a number of octets is no document
pkder.check("key", 48);
// @ts-expect-error a part is no kind
pkder.signed("request", octets);
// @ts-expect-error there is no such limit
pkder.check("key", octets, {length: 9});
// @ts-expect-error nothing is told of a request so
pkder.holds("request", octets);
// @ts-expect-error it may not be told
pkder.asks(octets).dns.length;
// @ts-expect-error what is judged isn't changed
pkder.check("key", octets).differsAt = 1;
// @ts-expect-error these are made by load
new Pkder();
await load(octets);
await load(new Promise<ArrayBuffer>((done) => done(octets.buffer as ArrayBuffer)));
// @ts-expect-error a name isn't a module
await load("pkder.wasm");
