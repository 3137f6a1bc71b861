//! asn1 KIND read|read-write TIMES: what Rust's asn1 does of a document on standard input, so many times, for whoever
//! counts instructions. Its types are those of peers/asn1.rs, derived as the RFCs have them: what is inside privateKey
//! stays octets, and so do the contents of a public key.
#[allow(dead_code)]
#[rustfmt::skip]
#[path = "../peers/asn1.rs"]
mod peer;

use asn1::{Asn1Readable, Asn1Writable, SequenceOf};
use peer::{Ec, Encrypted, Key, Public, Request};
use std::arch::asm;
use std::env::args;
use std::io::{Read, stdin};
use std::process::exit;

/// Has the compiler take it that the value is looked at, and may be another one afterwards (std::hint::black_box is of
/// later compilers than Debian's).
fn look_at<T>(value: &T) {
    // SAFETY: no instruction is there.
    unsafe { asm!("/* {0} */", in(reg) value as *const T, options(nostack, preserves_flags)) }
}

/// Reads a document as a value of a type, and writes that anew where it is asked to: whether it is taken.
fn is_taken<'a, T: Asn1Readable<'a> + Asn1Writable>(document: &'a [u8], writes: bool) -> bool {
    look_at(&document);
    let read = asn1::parse_single::<T>(document);
    look_at(&read);
    match read {
        Ok(value) if writes => {
            let written = asn1::write_single(&value);
            look_at(&written);
            written.is_ok()
        }
        read => read.is_ok(),
    }
}

fn call<'a>(kind: &str) -> fn(&'a [u8], bool) -> bool {
    match kind {
        "key" => is_taken::<Key>,
        "ec" => is_taken::<Ec>,
        "request" => is_taken::<Request>,
        "public" => is_taken::<Public>,
        "encrypted" => is_taken::<Encrypted>,
        "package" => is_taken::<SequenceOf<Key>>,
        _ => panic!("there is no such kind"),
    }
}

fn main() {
    let words: Vec<String> = args().skip(1).collect();
    let times: usize = words[2].parse().expect("TIMES is a number");
    let mut document = Vec::new();
    stdin().read_to_end(&mut document).expect("standard input is read");
    let (is_taken, writes) = (call(&words[0]), words[1] == "read-write");
    exit(if (0..times).all(|_| is_taken(&document, writes)) { 0 } else { 1 });
}
