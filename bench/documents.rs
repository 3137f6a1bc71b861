//! Documents of each kind: keys of many attribute values timed beside OpenSSL, and, for count_documents.py, documents
//! that grow and calls made so many times.
use crate::{Call, Shuffled, compare, element, openssl, openssl_copy, small_elements, small_members};
use std::hint::black_box;
use std::io::{Read, Write};

unsafe extern "C" {
    fn values_bench_read(kind: u32, src: *const u8, len: usize) -> u64;
    fn values_bench_write(kind: u32, times: u32, src: *const u8, len: usize, text: *mut u8, room: usize) -> u64;
    fn values_bench_normalise(kind: u32, src: *const u8, len: usize, text: *mut u8, room: usize) -> u64;
    fn values_bench_check(kind: u32, src: *const u8, len: usize) -> u64;
}

/// The kinds, the first one's number being 1.
const KINDS: [&str; 6] = ["key", "ec", "request", "public", "encrypted", "package"];
const KEY: u32 = 1;

unsafe extern "C" fn normalise_key(src: *const u8, len: usize, text: *mut u8, room: usize) -> u64 {
    unsafe { values_bench_normalise(KEY, src, len, text, room) }
}

/// An Ed25519 key with these attributes.
fn key_with(attributes: &[Vec<u8>]) -> Vec<u8> {
    let algorithm = element(0x30, &element(6, &[0x2B, 0x65, 0x70]));
    let private = element(4, &element(4, &[0x55; 32]));
    element(0x30, &[element(2, &[0]), algorithm, private, element(0xA0, &attributes.concat())].concat())
}

fn attribute(values: &[Vec<u8>]) -> Vec<u8> {
    element(0x30, &[element(6, &[0x2A, 3, 4]), element(0x31, &values.concat())].concat())
}

/// An Ed25519 request with this subject and these attributes.
fn request_with(subject: &[u8], attributes: &[u8]) -> Vec<u8> {
    let algorithm = element(0x30, &element(6, &[0x2B, 0x65, 0x70]));
    let bits = |octets: &[u8]| element(3, &[&[0][..], octets].concat());
    let public = element(0x30, &[algorithm.clone(), bits(&[0x55; 32])].concat());
    let subject = element(0x30, subject);
    let info = element(0x30, &[element(2, &[0]), subject, public, element(0xA0, attributes)].concat());
    element(0x30, &[info, algorithm, bits(&[0x55; 64])].concat())
}

/// Members that look shuffled, of as many octets by what makes them.
fn shuffled(count: usize, octets: usize, made: impl Fn(&[u8]) -> Vec<u8>) -> Vec<Vec<u8>> {
    let mut numbers = Shuffled(0x1234_5678_9ABC_DEF1);
    (0..count).map(|_| made(&numbers.octets(octets))).collect()
}

fn strings(count: usize) -> Vec<Vec<u8>> {
    shuffled(count, 43, |octets| element(4, octets))
}

/// SETs in each other, each before an INTEGER that has to stand before it.
fn sets_out_of_order(depth: usize, innermost: Vec<u8>) -> Vec<u8> {
    (0..depth).fold(innermost, |inside, _| element(0x31, &[inside, element(2, &[1])].concat()))
}

/// A key of one value: 60 SETs in each other, the attribute's among them, round strings.
fn sets_round_strings(count: usize) -> Vec<u8> {
    key_with(&[attribute(&[sets_out_of_order(58, element(0x31, &strings(count).concat()))])])
}

/// A key of values that are 59 SETs in each other.
fn nests_of_sets(count: usize) -> Vec<u8> {
    key_with(&[attribute(&shuffled(count, 4, |octets| sets_out_of_order(59, element(4, octets))))])
}

/// A key with a value of small elements.
fn elements_in_one_value(count: usize) -> Vec<u8> {
    key_with(&[attribute(&[element(0x30, &small_elements().repeat(count))])])
}

/// A key with a value of identifiers.
fn identifiers(count: usize) -> Vec<u8> {
    key_with(&[attribute(&[element(0x30, &[6, 2, 0x2A, 3].repeat(count))])])
}

/// A key with an attribute whose type has so many arcs and one more.
fn arcs(count: usize) -> Vec<u8> {
    key_with(&[element(0x30, &[element(6, &vec![0x2A; count]), element(0x31, &[5, 0])].concat())])
}

/// An encrypted key in segments of one octet.
fn segments(count: usize) -> Vec<u8> {
    let algorithm = element(0x30, &element(6, &[0x2A, 3, 4]));
    element(0x30, &[algorithm, element(0x24, &[4, 1, 9].repeat(count))].concat())
}

/// A request for extensions, each in a list of its own.
fn lists_of_one(count: usize) -> Vec<u8> {
    let list = |octets: &[u8]| {
        let extension = [element(6, &[0x55, 0x1D, 0x11]), element(4, octets)].concat();
        element(0x30, &element(0x30, &extension))
    };
    let extension_request = element(6, &[0x2A, 0x86, 0x48, 0x86, 0xF7, 0x0D, 1, 9, 14]);
    let values = element(0x31, &shuffled(count, 12, list).concat());
    request_with(&[], &element(0x30, &[extension_request, values].concat()))
}

fn name_items(count: usize) -> Vec<Vec<u8>> {
    let letters = |octets: &[u8]| octets.iter().map(|it| b'a' + it % 26).collect::<Vec<u8>>();
    let item = |octets: &[u8]| [element(6, &[0x55, 4, 3]), element(12, &letters(octets))].concat();
    shuffled(count, 12, |octets| element(0x30, &item(octets)))
}

/// A request by a name of items in one SET.
fn items_in_one_set(count: usize) -> Vec<u8> {
    request_with(&element(0x31, &name_items(count).concat()), &[])
}

/// A request by a name of items in a SET each.
fn items_in_a_set_each(count: usize) -> Vec<u8> {
    request_with(&name_items(count).iter().flat_map(|it| element(0x31, it)).collect::<Vec<u8>>(), &[])
}

/// Keys of one attribute with all values, and of one attribute for each value.
fn values_of_one_attribute(count: usize) -> Vec<u8> {
    key_with(&[attribute(&strings(count))])
}

fn one_each(values: &[Vec<u8>]) -> Vec<Vec<u8>> {
    values.chunks(1).map(attribute).collect()
}

fn attributes_of_one_value(count: usize) -> Vec<u8> {
    key_with(&one_each(&strings(count)))
}

fn nulls(count: usize) -> Vec<Vec<u8>> {
    vec![vec![5, 0]; count]
}

fn attributes_of_one_null(count: usize) -> Vec<u8> {
    key_with(&one_each(&nulls(count)))
}

type Make = fn(usize) -> Vec<u8>;

/// Documents that grow: their names, their kinds, and as many parts as a small one has.
const SHAPES: [(&str, &str, usize, Make); 12] = [
    ("values-of-one-attribute", "key", 5_000, values_of_one_attribute),
    ("attributes-of-one-value", "key", 5_000, attributes_of_one_value),
    ("attributes-of-one-null", "key", 10_000, attributes_of_one_null),
    ("sets-60-deep-round-strings", "key", 5_000, sets_round_strings),
    ("values-of-sets-59-deep", "key", 500, nests_of_sets),
    ("elements-in-one-value", "key", 5_000, elements_in_one_value),
    ("identifiers-in-one-value", "key", 50_000, identifiers),
    ("arcs-of-one-identifier", "key", 250_000, arcs),
    ("segments-of-one-octet", "encrypted", 50_000, segments),
    ("lists-of-one-extension", "request", 5_000, lists_of_one),
    ("name-items-in-one-set", "request", 5_000, items_in_one_set),
    ("name-items-in-a-set-each", "request", 5_000, items_in_a_set_each),
];

/// The document of this name that has so many parts.
fn made(name: &str, parts: usize) -> Vec<u8> {
    match SHAPES.iter().find(|it| it.0 == name) {
        Some((.., make)) => make(parts),
        None => {
            let members = small_members();
            let (_, member) = members.iter().find(|it| it.0 == name).expect("a shape");
            key_with(&[attribute(&[element(0x30, &member.repeat(parts))])])
        }
    }
}

/// Does what the words ask for, if they do:
///   shapes                            prints the kind and the parts of each document that grows, and its name
///   members                           prints the same of keys with a value of small elements
///   make SHAPE PARTS                  writes one that has so many parts
///   repeat KIND CALL TIMES < DOCUMENT makes a call so many times; of `write` that is writing alone
pub fn answered(words: &[String]) -> bool {
    let words: Vec<&str> = words.iter().map(String::as_str).collect();
    match words[..] {
        ["shapes"] => SHAPES.iter().for_each(|(name, kind, parts, _)| println!("{kind} {parts} {name}")),
        ["members"] => small_members().iter().for_each(|(name, it)| println!("key {} {name}", 100_000 / it.len())),
        ["make", name, parts] => std::io::stdout().write_all(&made(name, parts.parse().unwrap())).unwrap(),
        ["repeat", kind, call, times] => repeat(kind, call, times.parse().unwrap()),
        _ => return false,
    }
    true
}

fn repeat(kind: &str, call: &str, times: u32) {
    let kind = 1 + KINDS.iter().position(|it| *it == kind).expect("a kind") as u32;
    let mut given = Vec::new();
    std::io::stdin().read_to_end(&mut given).unwrap();
    let mut text = vec![0u8; 2 * given.len()];
    let (src, len, to, room) = (black_box(given.as_ptr()), given.len(), text.as_mut_ptr(), text.len());
    let once = || unsafe {
        match call {
            "read" => values_bench_read(kind, src, len),
            "write" => values_bench_write(kind, times, src, len, to, room),
            "normalise" => values_bench_normalise(kind, src, len, to, room),
            "check" => values_bench_check(kind, src, len),
            "openssl-read" => openssl_copy(kind, 0, src, len, to),
            "openssl-write" => openssl_copy(kind, times, src, len, to),
            _ => panic!("no such call"),
        }
    };
    let calls = if call.ends_with("write") { 1 } else { times };
    for _ in 0..calls {
        assert!(once() > 0, "refused");
    }
}

/// Keys of many attribute values, by OpenSSL and by pk_documents.
pub fn keys(wanted: impl Fn(&str) -> bool) {
    type Values = fn(usize) -> Vec<Vec<u8>>;
    type Attributes = fn(&[Vec<u8>]) -> Vec<Vec<u8>>;
    let shapes: [(&str, usize, Values, Attributes); 3] = [
        ("key: one attribute", 20_000, strings, |values| vec![attribute(values)]),
        ("key: attributes of one value", 20_000, strings, one_each),
        ("key: attributes of one NULL", 10_000, nulls, one_each),
    ];
    let sorted = |mut members: Vec<Vec<u8>>| {
        members.sort();
        members
    };
    for (name, most, made, attributes) in shapes {
        if wanted(name) {
            let calls: [(&str, Call); 2] = [("OpenSSL", openssl::<KEY>), ("normalise", normalise_key)];
            let [times, twice] = [most, 2 * most].map(|count| {
                let values = made(count);
                let given = key_with(&attributes(&values));
                let due = key_with(&sorted(attributes(&sorted(values))));
                compare(&format!("{name}, {count} values"), &given, &due, &calls)
            });
            println!("twice as much takes: OpenSSL {:.2}, normalise {:.2}", twice[0] / times[0], twice[1] / times[1]);
        }
    }
}
