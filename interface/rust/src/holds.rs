//! What a document holds, as types.
use crate::json::{digits, Json};

/// What the octets of a known extension, or of a public key of RSA, are as a value of their type.
#[derive(Clone, Copy, Debug, PartialEq, Eq, Hash)]
pub enum Carried {
    /// A value in DER.
    Der,
    /// A value in another encoding.
    NotDer,
    /// None.
    Refused,
}

impl Carried {
    pub(crate) fn of(json: &Json<'_>) -> Option<Carried> {
        match json.member("verdict", Json::text)?.as_str() {
            "der" => Some(Carried::Der),
            "not_der" => Some(Carried::NotDer),
            "refused" => Some(Carried::Refused),
            _ => None,
        }
    }
}

/// An algorithm.
#[derive(Clone, Debug, PartialEq, Eq, Hash)]
#[non_exhaustive]
pub struct Algorithm {
    /// Its usual name, else its arcs.
    pub algorithm: String,
    /// What its parameters name, as a curve.
    pub parameters: Option<String>,
}

impl Algorithm {
    pub(crate) fn of(json: &Json<'_>) -> Option<Algorithm> {
        Some(Algorithm {
            algorithm: json.member("algorithm", Json::text)?,
            parameters: json.optional("parameters", Json::text)?,
        })
    }
}

/// A key by its algorithm.
#[derive(Clone, Debug, PartialEq, Eq, Hash)]
#[non_exhaustive]
pub struct Key {
    /// The usual name of its algorithm, else the arcs of that.
    pub algorithm: String,
    /// What the parameters of its algorithm name, as a curve.
    pub parameters: Option<String>,
    /// How many octets a public key has; `None` of one in segments (BER).
    pub octets: Option<u64>,
    /// What a public key of RSA is as an RSAPublicKey.
    pub verdict: Option<Carried>,
    /// Of a public key of RSA in DER, and of a private one, how many bits its modulus has; `None` where that is
    /// negative.
    pub bits: Option<u64>,
    /// Its exponent in decimal digits; of a public key from 2147483648 on, and below 0, by its first octets in
    /// hexadecimal ones, as `0x0100000001`, where a private one has `None`.
    pub exponent: Option<String>,
}

impl Key {
    pub(crate) fn of(json: &Json<'_>) -> Option<Key> {
        Some(Key {
            algorithm: json.member("algorithm", Json::text)?,
            parameters: json.optional("parameters", Json::text)?,
            octets: json.optional("octets", Json::number)?,
            verdict: json.optional("carries", Carried::of)?,
            bits: json.optional("bits", Json::number)?,
            exponent: json.optional("exponent", Json::text)?,
        })
    }
}

/// What a document holds; what one of its kind doesn't is `None` or empty.
#[derive(Clone, Debug, PartialEq, Eq, Hash)]
#[non_exhaustive]
pub struct Holds {
    /// Of `Kind::Key` and `Kind::Public`.
    pub key: Option<Key>,
    /// Of `Kind::Ec` the curve that it names, by its usual name, else by its arcs.
    pub curve: Option<String>,
    /// Of `Kind::Encrypted` what its algorithm and the parameters of that name.
    pub algorithms: Vec<String>,
    /// Of `Kind::Encrypted` the numbers from 0 to 2147483647 in the parameters, as how often a password is hashed.
    pub numbers: Vec<u64>,
}

impl Holds {
    /// Of the member `holds` of a report.
    pub(crate) fn of(json: &Json<'_>) -> Option<Holds> {
        let scheme = |it: &Json<'_>| {
            let numbers = it.member("numbers", |it| it.list(|it| digits(&it.text()?)))?;
            Some((it.member("algorithms", |it| it.list(Json::text))?, numbers))
        };
        let (algorithms, numbers) = json.optional("encryption", scheme)?.unwrap_or_default();
        let key = json.optional("key", Key::of)?;
        Some(Holds { key, curve: json.optional("curve", Json::text)?, algorithms, numbers })
    }
}
