// Rust's bcder, by its calls for the fields of a type, one after the other. (run.py says what a driver answers)
mod driver;

use bcder::decode::{Constructed, Source};
use bcder::{BitString, Mode, OctetString, Oid, Tag};

fn algorithm<S: Source>(it: &mut Constructed<S>) -> Result<(), S::Err> {
    it.take_sequence(|it| {
        Oid::take_from(it)?;
        it.skip_one().map(|_| ())
    })
}

fn attribute<S: Source>(it: &mut Constructed<S>) -> Result<Option<()>, S::Err> {
    it.take_opt_sequence(|it| {
        Oid::take_from(it)?;
        it.take_set(|it| it.skip_all())
    })
}

fn ec<S: Source>(it: &mut Constructed<S>) -> Result<(), S::Err> {
    it.take_u8()?;
    OctetString::take_from(it)?;
    it.take_opt_constructed_if(Tag::CTX_0, Oid::take_from)?;
    it.take_opt_constructed_if(Tag::CTX_1, BitString::take_from).map(|_| ())
}

fn key<S: Source>(it: &mut Constructed<S>) -> Result<(), S::Err> {
    it.take_u8()?;
    algorithm(it)?;
    OctetString::take_from(it)?;
    it.take_opt_constructed_if(Tag::CTX_0, |it| {
        while attribute(it)?.is_some() {}
        Ok(())
    })?;
    it.take_opt_value_if(Tag::CTX_1, BitString::from_content).map(|_| ())
}

/// Whether it takes a document.
fn is_taken(kind: &str, document: &[u8]) -> bool {
    let found = Mode::Der.decode(document, |all| {
        all.take_sequence(|it| match kind {
            "key" => key(it),
            "ec" => ec(it),
            "public" => algorithm(it).and_then(|_| BitString::take_from(it).map(|_| ())),
            _ => algorithm(it).and_then(|_| OctetString::take_from(it).map(|_| ())),
        })
    });
    found.is_ok()
}

fn main() {
    let kinds = r#""key", "ec", "public", "encrypted""#;
    driver::run("Rust's bcder", "take_.. of Constructed in Mode::Der, field by field", kinds, is_taken);
}
