/** What a document is. */
export type Kind = "key" | "ec" | "request" | "public" | "encrypted" | "package";

/** A part of a request; "info" is what its signature covers, "received" the same as it came, in DER or not. */
export type Part = "info" | "algorithm" | "key" | "signature" | "received";

/** The names of reasons. A later module may answer others. */
export type Reason =
    | "Truncated" | "TooLong" | "BadTag" | "PastEnd" | "BadEnd" | "TooDeep" | "WrongTag" | "Extra" | "LeftOut"
    | "WrongForm" | "BadLength" | "Missing" | "BadInteger" | "BadBoolean" | "BadNull" | "BadBits" | "BadOid"
    | "BadText" | "EmptySet" | "Version" | "Parameters" | "Inner" | "Curve" | "KeyLength" | "VersionRule"
    | "TextTooLong" | "Trailing";

/** The octets of one whole document, and not PEM. */
export type Octets = ArrayBufferView | ArrayBuffer;

export interface Limits {
    /** The greatest depth of nesting, 1 to 64; else 32. */
    depth?: number;
    /** The greatest number of octets of a document and of its DER text, 1 to 2147483647; else 1048576. */
    octets?: number;
}

export interface ReportForm extends Limits {
    /** Lists all elements. */
    all?: boolean;
    /** Is one object of JSON, as docs/report.schema.json of pkder's repository states it. */
    json?: boolean;
    /** Has the notes for TLS servers, too. */
    tls?: boolean;
}

export declare const KINDS: Readonly<Record<Kind, number>>;
export declare const PARTS: Readonly<Record<Part, number>>;
export declare const REASONS: readonly Reason[];
/** The limits unless said otherwise. */
export declare const USUAL: Readonly<Required<Limits>>;

/** Nothing was judged: memory ran out, the module broke off, or it answers what this package doesn't know. */
export declare class NotJudged extends Error {}

/** A document is refused: a Fault, or of requireDer NotDer. */
export declare class Refused extends Error {}

/** A document is sound, and not in DER. */
export declare class NotDer extends Refused {
    /** The first place where it differs from its DER text. */
    readonly at: number;
    private constructor();
}

/** The first fault of a document. Its message is the line that the program pkder prints. */
export declare class Fault extends Refused {
    /** Its place, in octets from the start of the document. */
    readonly at: number;
    readonly reason: Reason | (string & {});
    /** The place and the reason inside privateKey, or null. */
    readonly inside: {readonly at: number; readonly reason: Reason | (string & {})} | null;
    /** Of same the document that it is in; of all other calls 0. */
    readonly which: 0 | 1 | 2;
    private constructor();
}

/** Whether a sound document is in DER. It is an object, and so is true of BER, too: ask isDer. */
export declare class Form {
    readonly isDer: boolean;
    /** The first place where the document differs from its DER text; null where it is in DER. */
    readonly differsAt: number | null;
    private constructor();
    /** "DER", or "not DER at" and that place. */
    toString(): string;
}

/** A report of any octets, and what check says of them. */
export declare class Report {
    readonly text: string;
    readonly isDer: boolean;
    /** Of a sound document that isn't in DER the first place where it differs from its DER text; else null. */
    readonly differsAt: number | null;
    /** Why the document is refused; null of a sound one. */
    readonly fault: Fault | null;
    private constructor();
    toString(): string;
}

/** What an element says; what it doesn't say isn't there. */
export interface Value {
    readonly shown?: false;
    readonly octets?: number;
    readonly unused_bits?: number;
    readonly null?: true;
    readonly boolean?: boolean;
    readonly integer?: number;
    readonly identifier?: string;
    readonly name?: string;
    readonly characters?: string;
    readonly hexadecimal?: string;
}

/** A name, or a primitive element of what stands in an extension. Names may have any characters. */
export interface Fact {
    readonly dns?: string;
    readonly email?: string;
    readonly uri?: string;
    readonly ip?: string;
    readonly oid?: string;
    readonly field?: string;
    readonly text?: string;
    readonly value?: Value;
}

/** What the value of a known extension is, or a public key of RSA, as one element of its type. */
export interface Carried {
    readonly verdict: "der" | "not_der" | "refused";
    readonly at?: number;
    readonly reason?: string;
}

/** An algorithm by its usual name, else by its arcs, and so what its parameters name, as a curve. */
export interface Algorithm {
    readonly algorithm?: string;
    readonly parameters?: string;
}

/** A key by its algorithm; of a public one how many octets it has, and of one of RSA what it is, its bits, exponent. */
export interface Key extends Algorithm {
    readonly octets?: number;
    readonly carries?: Carried;
    readonly bits?: number;
    readonly exponent?: string;
}

export interface Extension {
    readonly identifier: string;
    readonly name?: string;
    readonly critical: boolean;
    readonly at: number;
    readonly carries?: Carried;
    /** Of a subjectAltName or an issuerAltName; [] where it isn't in DER, as the next two are. */
    readonly names?: readonly Fact[];
    /** Of a keyUsage: the names of the bits that are 1. */
    readonly bits?: readonly string[];
    /** Of any other: its primitive elements. */
    readonly values?: readonly Fact[];
}

export interface NameAttribute {
    readonly identifier: string;
    readonly name?: string;
    readonly text?: string;
    readonly value?: Value;
}

/**
 * What a request asks for; its signature isn't verified. The last five are null where it can't be told: the extension's
 * value isn't in DER, or there are two of it; where it isn't there they are empty, and isCa is false. Where no CA is
 * granted compare isCa with false, since null isn't false.
 */
export interface Asks {
    readonly subject?: readonly (readonly NameAttribute[])[];
    readonly key?: Key;
    readonly signature?: Algorithm;
    /** The names of attributes but extensionRequest; their values aren't told. */
    readonly attributes: readonly string[];
    readonly extensions: readonly Extension[];
    /** All names of the subjectAltName. */
    readonly san: readonly Fact[] | null;
    /** Of these the DNS names alone. */
    readonly dns: readonly string[] | null;
    readonly keyUsage: readonly string[] | null;
    /** Purposes by their usual names, else by their arcs. */
    readonly extendedKeyUsage: readonly string[] | null;
    readonly isCa: boolean | null;
}

/** What a document holds: of kinds "key" and "public" key, of kind "ec" curve, of kind "encrypted" encryption. */
export interface Holds {
    readonly key?: Key;
    readonly curve?: string;
    readonly encryption?: {readonly algorithms: readonly string[]; readonly numbers: readonly string[]};
}

/**
 * The library's calls. Each takes one whole document and throws Fault where that is refused, but explain and field,
 * which answer of any octets. All but requireDer take BER, too. TypeError and RangeError say that there is no such
 * kind, part or limit, or that a document has no octets; NotJudged that nothing is known of it.
 */
export declare class Pkder {
    private constructor();
    /** Whether the document is in DER, and else the first place where it differs from its DER text. */
    check(kind: Kind, document: Octets, limits?: Limits): Form;
    /** The octets that were judged, where the document is in DER; throws NotDer where it is sound and isn't. */
    requireDer(kind: Kind, document: Octets, limits?: Limits): Uint8Array;
    /** Whether two documents say the same, however they are laid out. */
    same(kind: Kind, first: Octets, second: Octets, limits?: Limits): boolean;
    /** The document's DER text: two documents say the same exactly where these are equal. */
    normalise(kind: Kind, document: Octets, limits?: Limits): Uint8Array;
    /** What the document says, a line for each part; of private keys the number of octets alone. */
    show(kind: Kind, document: Octets, limits?: Limits): string;
    /** A part of a request: DER texts, and the octets of "signature" and "received". */
    signed(part: Part, document: Octets, limits?: Limits): Uint8Array;
    /** A report for people, of any octets: no octets of private keys are in it. */
    explain(kind: Kind, document: Octets, form?: ReportForm): Report;
    /** The field that the report is about, as "privateKey.publicExponent"; "" of a document in DER. */
    field(kind: Kind, document: Octets, limits?: Limits): string;
    /** What a request asks for, as its report in JSON has it. */
    asks(document: Octets, limits?: Limits): Asks;
    /** What another document holds. */
    holds(kind: Exclude<Kind, "request" | "package">, document: Octets, limits?: Limits): Holds;
}

/** The calls, over the module of this package or over one that is given: its octets, or a WebAssembly.Module. */
export declare function load(module?: object | PromiseLike<object>): Promise<Pkder>;
