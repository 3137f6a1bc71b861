// Rust's asn1, by types that are derived as the RFCs have them. (run.py says what a driver answers)
mod driver;

use asn1::{Asn1Read, Asn1Write, BitString, ObjectIdentifier, SequenceOf, SetOf, Tlv};

#[derive(Asn1Read, Asn1Write)]
struct Algorithm<'a>(ObjectIdentifier, Option<Tlv<'a>>);
#[derive(Asn1Read, Asn1Write)]
struct Attribute<'a>(ObjectIdentifier, SetOf<'a, Tlv<'a>>);
#[derive(Asn1Read, Asn1Write)]
struct Item<'a>(ObjectIdentifier, Tlv<'a>);
#[derive(Asn1Read, Asn1Write)]
pub struct Public<'a>(Algorithm<'a>, BitString<'a>);
#[derive(Asn1Read, Asn1Write)]
pub struct Encrypted<'a>(Algorithm<'a>, &'a [u8]);
#[derive(Asn1Read, Asn1Write)]
pub struct Key<'a>(
    u8,
    Algorithm<'a>,
    &'a [u8],
    #[implicit(0)] Option<SetOf<'a, Attribute<'a>>>,
    #[implicit(1)] Option<BitString<'a>>,
);
#[derive(Asn1Read, Asn1Write)]
pub struct Ec<'a>(u8, &'a [u8], #[explicit(0)] Option<ObjectIdentifier>, #[explicit(1)] Option<BitString<'a>>);
#[derive(Asn1Read, Asn1Write)]
struct Info<'a>(u8, SequenceOf<'a, SetOf<'a, Item<'a>>>, Public<'a>, #[implicit(0)] Option<SetOf<'a, Attribute<'a>>>);
#[derive(Asn1Read, Asn1Write)]
pub struct Request<'a>(Info<'a>, Algorithm<'a>, BitString<'a>);

/// Whether it takes a document.
fn is_taken(kind: &str, document: &[u8]) -> bool {
    match kind {
        "key" => asn1::parse_single::<Key>(document).is_ok(),
        "ec" => asn1::parse_single::<Ec>(document).is_ok(),
        "public" => asn1::parse_single::<Public>(document).is_ok(),
        "encrypted" => asn1::parse_single::<Encrypted>(document).is_ok(),
        _ => asn1::parse_single::<Request>(document).is_ok(),
    }
}

fn main() {
    let kinds = r#""key", "ec", "request", "public", "encrypted""#;
    driver::run("Rust's asn1", "parse_single of derived types", kinds, is_taken);
}
