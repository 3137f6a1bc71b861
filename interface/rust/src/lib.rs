//! Private keys, public keys and certification requests (certificate signing requests, CSRs) in BER and DER: a safe
//! wrapper of libpkder, which is proved. Octets are bytes, and a DER text is a DER encoding.
//!
//! ```
//! use pkder::{check, normalise, require_der, Error, Form, Kind};
//!
//! // an Ed25519 public key whose outer length has two octets
//! let mut octets = vec![0x30, 0x81, 0x2A, 0x30, 0x05, 0x06, 0x03, 0x2B, 0x65, 0x70, 0x03, 0x21, 0x00];
//! octets.extend([7; 32]);
//! assert_eq!(require_der(Kind::Public, &octets), Err(Error::NotDer(1)));
//! let text = normalise(Kind::Public, &octets)?;
//! require_der(Kind::Public, &text)?;
//! assert_eq!(check(Kind::Public, &octets)?, Form::DiffersAt(1));
//! assert_eq!(normalise(Kind::Public, &octets[..20]).unwrap_err().to_string(), "fault at 20: Truncated");
//! # Ok::<(), pkder::Error>(())
//! ```
//!
//! Two documents are the same where they say the same, however they are laid out; one that is refused is the same as
//! none, and its error says which one it is:
//!
//! ```
//! use pkder::{same, Error, Kind};
//!
//! let key = [&[0x30, 0x2A, 0x30, 0x05, 0x06, 0x03, 0x2B, 0x65, 0x70, 0x03, 0x21, 0x00][..], &[7; 32]].concat();
//! // (its outer length has two octets)
//! let in_ber = [&[0x30, 0x81][..], &key[1..]].concat();
//! assert!(same(Kind::Public, &key, &in_ber)?);
//! match same(Kind::Public, &key, &key[..20]) {
//!     Err(Error::Fault(fault)) => assert_eq!((fault.which, fault.at), (2, 20)),
//!     other => panic!("{other:?}"),
//! }
//! # Ok::<(), pkder::Error>(())
//! ```
//!
//! Of any octets, a refused document's too, `explain` has a report for people, as text or as JSON, and `field` the field
//! that it is about:
//!
//! ```
//! use pkder::{explain, field, Kind, ReportForm};
//!
//! let report = explain(Kind::Public, &[0x30, 0x2A], ReportForm::default())?;
//! assert!(!report.is_der());
//! assert_eq!(report.verdict.unwrap_err().to_string(), "fault at 2: Truncated");
//! print!("{}", report.text);
//! // an INTEGER where the SEQUENCE of the algorithm is due
//! assert_eq!(field(Kind::Public, &[0x30, 0x03, 0x02, 0x01, 0x00])?, "algorithm");
//! # Ok::<(), pkder::Error>(())
//! ```
//!
//! What a request asks for, and what another document holds, are types:
//!
//! ```
//! use pkder::{holds, Kind};
//!
//! let key = [&[0x30, 0x2A, 0x30, 0x05, 0x06, 0x03, 0x2B, 0x65, 0x70, 0x03, 0x21, 0x00][..], &[7; 32]].concat();
//! let held = holds(Kind::Public, &key)?.key.expect("a public key");
//! assert_eq!((held.algorithm.as_str(), held.octets), ("Ed25519", Some(32)));
//! # Ok::<(), pkder::Error>(())
//! ```
//! ```no_run
//! use pkder::{asks, Name};
//!
//! let asked = asks(&std::fs::read("request.der")?)?;
//! for name in asked.san()? {
//!     match name {
//!         Name::Dns(host) => println!("host {host}"),
//!         other => println!("not served: {other}"),
//!     }
//! }
//! // (where that can't be told, as of a value in BER, it is an error)
//! assert!(!asked.is_ca()?);
//! # Ok::<(), Box<dyn std::error::Error>>(())
//! ```
//!
//! Each call takes a whole document, and all but `require_der` take BER, too. The library wipes nothing unless it is
//! built so, and neither does this crate: a text that is a private key is the caller's to wipe.
mod asks;
mod holds;
mod json;
mod raw;

pub use asks::{Asks, Extension, Name, NameAttribute, Value};
pub use holds::{Algorithm, Carried, Holds, Key};

use json::Json;
use raw::Outcome;
use std::fmt;

/// A choice by the numbers of pkder.h, which a later one may add to.
macro_rules! numbered {
    ($(#[$doc:meta])* $name:ident { $($(#[$of:meta])* $variant:ident = $number:literal,)* }) => {
        $(#[$doc])*
        #[derive(Clone, Copy, Debug, PartialEq, Eq, Hash)]
        #[non_exhaustive]
        pub enum $name {
            $($(#[$of])* $variant = $number,)*
        }
    };
}

numbered! {
    /// What a document is.
    Kind {
        /// OneAsymmetricKey, PKCS #8 (RFC 5958).
        Key = 1,
        /// ECPrivateKey (RFC 5915).
        Ec = 2,
        /// CertificationRequest, PKCS #10 (RFC 2986).
        Request = 3,
        /// SubjectPublicKeyInfo (RFC 5280).
        Public = 4,
        /// EncryptedPrivateKeyInfo (RFC 5958); nothing is decrypted.
        Encrypted = 5,
        /// AsymmetricKeyPackage (RFC 5958), a list of private keys.
        Package = 6,
    }
}

numbered! {
    /// A part of a request.
    Part {
        /// The DER text of what its signature covers.
        Info = 1,
        /// The DER text of the signature's algorithm.
        Algorithm = 2,
        /// The DER text of the public key.
        SubjectKey = 3,
        /// The octets of the signature.
        Signature = 4,
        /// The octets of what its signature covers as they came, in DER or not: some signers sign these instead.
        Received = 5,
    }
}

/// Whether a sound document is in DER. A line that doesn't look at it takes BER as good, which the compiler warns of:
///
/// ```compile_fail
/// #![deny(unused_must_use)]
/// fn accept(key: &[u8]) -> Result<(), pkder::Error> {
///     pkder::check(pkder::Kind::Key, key)?;
///     Ok(())
/// }
/// ```
/// ```
/// #![deny(unused_must_use)]
/// fn accept(key: &[u8]) -> Result<(), pkder::Error> {
///     pkder::require_der(pkder::Kind::Key, key)?;
///     Ok(())
/// }
/// ```
#[must_use = "a document in BER has a form, too: ask `is_der`, or call `require_der`"]
#[derive(Clone, Copy, Debug, PartialEq, Eq)]
pub enum Form {
    Der,
    /// It isn't, and this is the first place that is another one in its DER text.
    DiffersAt(u64),
}

impl Form {
    /// Whether the document is in DER.
    pub fn is_der(self) -> bool {
        self == Form::Der
    }
}

impl fmt::Display for Form {
    /// The line that the program prints.
    fn fmt(&self, f: &mut fmt::Formatter<'_>) -> fmt::Result {
        match self {
            Form::Der => f.write_str("DER"),
            Form::DiffersAt(place) => write!(f, "not DER at {place}"),
        }
    }
}

/// Why a document is refused.
#[derive(Clone, Copy, PartialEq, Eq, Hash)]
pub struct Reason(u32);

impl Reason {
    /// Its number, which never changes.
    pub fn number(self) -> u32 {
        self.0
    }
}

impl fmt::Display for Reason {
    /// Its name, as `Truncated`.
    fn fmt(&self, f: &mut fmt::Formatter<'_>) -> fmt::Result {
        let mut name = [0; 16];
        let len = raw::reason_name(self.0, &mut name);
        f.write_str(std::str::from_utf8(name.get(..len).unwrap_or_default()).unwrap_or_default())
    }
}

impl fmt::Debug for Reason {
    fn fmt(&self, f: &mut fmt::Formatter<'_>) -> fmt::Result {
        fmt::Display::fmt(self, f)
    }
}

/// The reasons by the numbers of pkder.h, which a later one may add to.
macro_rules! reasons {
    ($($name:ident = $number:literal,)*) => {
        /// The reasons, by the names that pkder.h has for them; it says what each means, and docs/manual.md what to do.
        impl Reason {
            $(pub const $name: Reason = Reason($number);)*
        }

        #[cfg(test)]
        const REASONS: &[(&str, Reason)] = &[$((stringify!($name), Reason::$name)),*];
    };
}

reasons! {
    TRUNCATED = 1,
    TOO_LONG = 2,
    BAD_TAG = 3,
    PAST_END = 4,
    BAD_END = 5,
    TOO_DEEP = 6,
    WRONG_TAG = 7,
    EXTRA = 8,
    LEFT_OUT = 9,
    WRONG_FORM = 10,
    BAD_LENGTH = 11,
    MISSING = 12,
    BAD_INTEGER = 13,
    BAD_BOOLEAN = 14,
    BAD_NULL = 15,
    BAD_BITS = 16,
    BAD_OID = 17,
    BAD_TEXT = 18,
    EMPTY_SET = 19,
    VERSION = 20,
    PARAMETERS = 21,
    INNER = 22,
    CURVE = 23,
    KEY_LENGTH = 24,
    VERSION_RULE = 25,
    TEXT_TOO_LONG = 26,
    TRAILING = 27,
}

/// The first fault of a document.
#[derive(Clone, Copy, Debug, PartialEq, Eq)]
pub struct Fault {
    /// Its place, in octets from the document's start.
    pub at: u64,
    pub reason: Reason,
    /// Its place and reason inside `privateKey`, where the reason is Inner.
    pub inside: Option<(u64, Reason)>,
    /// Of `same`, in which document it is, 1 or 2; of all other calls 0.
    pub which: u32,
}

impl fmt::Display for Fault {
    /// The line that the program prints; of `same` after the words `first: ` or `second: `.
    fn fmt(&self, f: &mut fmt::Formatter<'_>) -> fmt::Result {
        f.write_str(match self.which {
            1 => "first: ",
            2 => "second: ",
            _ => "",
        })?;
        write!(f, "fault at {}: {}", self.at, self.reason)?;
        match self.inside {
            Some((at, reason)) => write!(f, " inside at {at}: {reason}"),
            None => Ok(()),
        }
    }
}

/// How a report is written: as text with the elements that matter, or by these otherwise.
#[derive(Clone, Copy, Debug, Default, PartialEq, Eq)]
pub struct ReportForm {
    /// With all elements.
    pub all: bool,
    /// As one object of JSON, in a line.
    pub json: bool,
    /// With the notes for TLS servers, too.
    pub tls: bool,
}

impl ReportForm {
    /// Its number in pkder.h.
    fn number(self) -> u32 {
        u32::from(self.all) | u32::from(self.json) << 1 | u32::from(self.tls) << 2
    }
}

/// A report of a document, refused or not.
#[derive(Clone, Debug, PartialEq, Eq)]
pub struct Report {
    pub text: String,
    /// What `check` says of the document: its form where it is sound, and else its first fault.
    pub verdict: Result<Form, Fault>,
}

impl Report {
    /// Whether the document is in DER.
    pub fn is_der(&self) -> bool {
        self.verdict == Ok(Form::Der)
    }
}

/// Why a call has no answer.
#[derive(Clone, Copy, Debug, PartialEq, Eq)]
#[non_exhaustive]
pub enum Error {
    /// The document is refused.
    Fault(Fault),
    /// Of `require_der` alone: the document is sound, and not in DER; the first place that is another one in its DER
    /// text.
    NotDer(u64),
    /// Memory ran out: nothing is known of the document.
    Memory,
    /// The limits are out of range.
    Limits,
    /// Of `holds` alone: of a request and of a package it tells nothing.
    Kind,
    /// Of `asks` and `holds` alone: the library's report doesn't say what they tell.
    Report,
    /// Of the methods of `Asks` alone: the value of the extension isn't in DER, or the request has it twice.
    Untold,
    /// A status that this crate doesn't know, of a later library: the document isn't accepted.
    Unknown(u32),
}

impl fmt::Display for Error {
    /// Of a document, and of memory, the line that the program prints.
    fn fmt(&self, f: &mut fmt::Formatter<'_>) -> fmt::Result {
        match self {
            Error::Fault(fault) => fault.fmt(f),
            Error::NotDer(place) => Form::DiffersAt(*place).fmt(f),
            Error::Memory => f.write_str("out of memory"),
            Error::Limits => f.write_str("limits out of range"),
            Error::Kind => f.write_str("nothing is told of what documents of this kind hold"),
            Error::Report => f.write_str("the report of libpkder doesn't say what is asked of it"),
            Error::Untold => f.write_str("the value of the extension isn't in DER, or the request has it twice"),
            Error::Unknown(status) => write!(f, "libpkder answers the status {status}"),
        }
    }
}

impl std::error::Error for Error {}

/// The limits of what is read. `Limits::default()` has those of the free functions.
#[derive(Clone, Copy, Debug, PartialEq, Eq)]
pub struct Limits {
    /// The depth of nesting, 1 to 64; 32 unless said otherwise.
    pub depth: u32,
    /// The octets of a document, and of its DER text, 1 to 2147483647; 1048576 unless said otherwise.
    pub octets: u64,
}

impl Default for Limits {
    fn default() -> Limits {
        Limits { depth: 32, octets: 1 << 20 }
    }
}

impl Limits {
    /// As the free function of the name.
    pub fn require_der(self, kind: Kind, document: &[u8]) -> Result<(), Error> {
        match self.check(kind, document)? {
            Form::Der => Ok(()),
            Form::DiffersAt(place) => Err(Error::NotDer(place)),
        }
    }

    /// As the free function of the name.
    pub fn normalise(self, kind: Kind, document: &[u8]) -> Result<Vec<u8>, Error> {
        text_of(document, |room| raw::normalise(kind as u32, self, document, room))
    }

    /// As the free function of the name.
    pub fn check(self, kind: Kind, document: &[u8]) -> Result<Form, Error> {
        let outcome = raw::check(kind as u32, self, document);
        match outcome.status {
            raw::ACCEPTED => Ok(Form::Der),
            raw::NOT_DER => Ok(Form::DiffersAt(outcome.at)),
            _ => Err(error_of(&outcome)),
        }
    }

    /// As the free function of the name.
    #[must_use = "whether the documents are the same is what it answers"]
    pub fn same(self, kind: Kind, first: &[u8], second: &[u8]) -> Result<bool, Error> {
        let outcome = raw::same(kind as u32, self, first, second);
        match outcome.status {
            raw::ACCEPTED => Ok(true),
            raw::ANOTHER => Ok(false),
            _ => Err(error_of(&outcome)),
        }
    }

    /// As the free function of the name.
    pub fn signed(self, part: Part, request: &[u8]) -> Result<Vec<u8>, Error> {
        text_of(request, |room| raw::signed(part as u32, self, request, room))
    }

    /// As the free function of the name.
    pub fn show(self, kind: Kind, document: &[u8]) -> Result<String, Error> {
        let text = text_of(document, |room| raw::show(kind as u32, self, document, room))?;
        Ok(String::from_utf8_lossy(&text).into_owned())
    }

    /// As the free function of the name.
    pub fn explain(self, kind: Kind, document: &[u8], form: ReportForm) -> Result<Report, Error> {
        let statuses = (raw::REPORTED, raw::UNREPORTED);
        let call = |room: &mut [u8]| raw::explain(kind as u32, self, form, document, room);
        let (text, outcome) = written(REPORT, statuses, call)?;
        let verdict = match (outcome.reason, outcome.at) {
            (0, 0) => Ok(Form::Der),
            (0, at) => Ok(Form::DiffersAt(at)),
            _ => Err(fault_of(&outcome)),
        };
        Ok(Report { text: String::from_utf8_lossy(&text).into_owned(), verdict })
    }

    /// As the free function of the name.
    pub fn field(self, kind: Kind, document: &[u8]) -> Result<String, Error> {
        let call = |room: &mut [u8]| raw::field(kind as u32, self, document, room);
        let (path, _) = written(REPORT, (raw::REPORTED, raw::UNREPORTED), call)?;
        Ok(String::from_utf8_lossy(&path).into_owned())
    }

    /// As the free function of the name.
    pub fn asks(self, request: &[u8]) -> Result<Asks, Error> {
        self.told(Kind::Request, request, |it| it.member("asks", Asks::of))
    }

    /// As the free function of the name.
    pub fn holds(self, kind: Kind, document: &[u8]) -> Result<Holds, Error> {
        match kind {
            Kind::Request | Kind::Package => Err(Error::Kind),
            _ => self.told(kind, document, |it| it.member("holds", Holds::of)),
        }
    }

    /// What the report of a sound document tells.
    fn told<T>(self, kind: Kind, document: &[u8], of: fn(&Json<'_>) -> Option<T>) -> Result<T, Error> {
        let report = self.explain(kind, document, ReportForm { json: true, ..ReportForm::default() })?;
        match report.verdict {
            Ok(_) => Json::read(&report.text).as_ref().and_then(of).ok_or(Error::Report),
            Err(fault) => Err(Error::Fault(fault)),
        }
    }
}

/// Refuses a document that isn't in DER, as one that has a fault.
pub fn require_der(kind: Kind, document: &[u8]) -> Result<(), Error> {
    Limits::default().require_der(kind, document)
}

/// The document's DER text: two documents say the same exactly where these are equal.
pub fn normalise(kind: Kind, document: &[u8]) -> Result<Vec<u8>, Error> {
    Limits::default().normalise(kind, document)
}

/// Whether the document is in DER.
pub fn check(kind: Kind, document: &[u8]) -> Result<Form, Error> {
    Limits::default().check(kind, document)
}

/// Whether two documents are the same: whether they say the same, however they are laid out, which is whether their DER
/// texts are equal. A document that is refused is the same as none, and its fault says which one it is.
#[must_use = "whether the documents are the same is what it answers"]
pub fn same(kind: Kind, first: &[u8], second: &[u8]) -> Result<bool, Error> {
    Limits::default().same(kind, first, second)
}

/// A part of a request.
pub fn signed(part: Part, request: &[u8]) -> Result<Vec<u8>, Error> {
    Limits::default().signed(part, request)
}

/// What the document says, a line for each part; of private keys the number of octets alone.
pub fn show(kind: Kind, document: &[u8]) -> Result<String, Error> {
    Limits::default().show(kind, document)
}

/// A report of the octets, whether they are a document or not: its elements with their places, and of a refused one
/// which field is at fault, what is due there, the usual cause and what to do. No octets of private keys and no values
/// of attributes are in it, but the known extensions that an accepted request asks for.
pub fn explain(kind: Kind, document: &[u8], form: ReportForm) -> Result<Report, Error> {
    Limits::default().explain(kind, document, form)
}

/// The path of the field that the report is about, as `privateKey.publicExponent`: of a refused document the field that
/// is refused, or the name of the outermost type; of one in BER the first field that isn't in DER; empty of one in DER.
/// It reads the document again, as `explain` does.
pub fn field(kind: Kind, document: &[u8]) -> Result<String, Error> {
    Limits::default().field(kind, document)
}

/// What a request asks for, by the report that `explain` makes of it. Refused requests are refused; one in BER isn't.
pub fn asks(request: &[u8]) -> Result<Asks, Error> {
    Limits::default().asks(request)
}

/// What a document of `Kind::Key`, `Kind::Public`, `Kind::Ec` or `Kind::Encrypted` holds, by the report that `explain`
/// makes of it; of another kind `Error::Kind`. Refused documents are refused; one in BER isn't.
pub fn holds(kind: Kind, document: &[u8]) -> Result<Holds, Error> {
    Limits::default().holds(kind, document)
}

/// Room for a report or a field at first; reports of all elements may need more.
const REPORT: usize = 8192;

/// What the call writes of the document; nearly always the document's own size is enough.
fn text_of(document: &[u8], call: impl Fn(&mut [u8]) -> Outcome) -> Result<Vec<u8>, Error> {
    written(document.len(), (raw::ACCEPTED, raw::NO_ROOM), call).map(|(text, _)| text)
}

/// What the call writes, with this room at first and then with as much as it asks for, and its outcome. The statuses are
/// those of a call that wrote and of one with too little room.
fn written(
    mut room: usize,
    (done, short): (u32, u32),
    call: impl Fn(&mut [u8]) -> Outcome,
) -> Result<(Vec<u8>, Outcome), Error> {
    let mut text = Vec::new();
    loop {
        text.try_reserve_exact(room).map_err(|_| Error::Memory)?;
        text.resize(room, 0);
        let outcome = call(&mut text);
        let size = usize::try_from(outcome.size).map_err(|_| Error::Memory)?;
        if outcome.status == done {
            text.truncate(size);
            return Ok((text, outcome));
        }
        if outcome.status != short {
            return Err(error_of(&outcome));
        }
        // (nothing was written)
        text.clear();
        room = size;
    }
}

fn fault_of(outcome: &Outcome) -> Fault {
    let inside = (outcome.inside_reason != 0).then_some((outcome.inside_at, Reason(outcome.inside_reason)));
    Fault { at: outcome.at, reason: Reason(outcome.reason), inside, which: outcome.which }
}

fn error_of(outcome: &Outcome) -> Error {
    match outcome.status {
        raw::FAULT => Error::Fault(fault_of(outcome)),
        raw::NO_MEMORY => Error::Memory,
        raw::BAD_CALL => Error::Limits,
        status => Error::Unknown(status),
    }
}

#[cfg(test)]
mod tests {
    use super::REASONS;

    /// The names and numbers of reasons in pkder.h, which PKDER_HEADER names.
    #[test]
    fn reasons_are_those_of_the_header() {
        let name = std::env::var("PKDER_HEADER").expect("PKDER_HEADER names pkder.h");
        let header = std::fs::read_to_string(name).unwrap();
        let due: Vec<(&str, u32)> = header
            .lines()
            .filter_map(|line| line.strip_prefix("#define PKDER_REASON_"))
            .map(|rest| rest.split_whitespace().collect::<Vec<_>>())
            .map(|words| (words[0], words[1].trim_end_matches('u').parse().unwrap()))
            .collect();
        let found: Vec<(&str, u32)> = REASONS.iter().map(|(name, reason)| (*name, reason.number())).collect();
        assert!(due.len() >= 27);
        assert_eq!(found, due);
    }
}
