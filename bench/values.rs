// Values of ASN.1's types and private keys read from octets in memory and their texts written: how long it takes, how that
// grows with the document, and how much memory is taken for each octet. Times are the least of many runs, in time of
// the processor, since machines are shared.
// `values` runs all; `values NAME` runs the rows whose name begins so, for a profiler. What documents.rs does with
// other words is for count_documents.py.
mod documents;

use std::hint::black_box;

unsafe extern "C" {
    fn values_bench_any(src: *const u8, len: usize, text: *mut u8, room: usize) -> u64;
    fn values_bench_set(src: *const u8, len: usize, text: *mut u8, room: usize) -> u64;
    fn values_bench_list(src: *const u8, len: usize, text: *mut u8, room: usize) -> u64;
    fn values_bench_open_set(src: *const u8, len: usize, text: *mut u8, room: usize) -> u64;
    fn openssl_copy(of: u32, times: u32, src: *const u8, len: usize, text: *mut u8) -> u64;
    fn count_memory();
    fn most_memory() -> usize;
    fn processor_seconds() -> f64;
}

type Call = unsafe extern "C" fn(*const u8, usize, *mut u8, usize) -> u64;

// Types of openssl.c, beside the kinds of documents.
const SET_OF_STRINGS: u32 = 7;
const SEQUENCE_OF_ANY: u32 = 8;

unsafe extern "C" fn openssl<const TYPE: u32>(src: *const u8, len: usize, text: *mut u8, _room: usize) -> u64 {
    unsafe { openssl_copy(TYPE, 1, src, len, text) }
}

const MIB: usize = 1 << 20;

fn element(tag: u8, contents: &[u8]) -> Vec<u8> {
    let mut out = vec![tag];
    let n = contents.len();
    if n < 128 {
        out.push(n as u8);
    } else {
        let octets: Vec<u8> = n.to_be_bytes().into_iter().skip_while(|octet| *octet == 0).collect();
        out.push(0x80 + octets.len() as u8);
        out.extend(octets);
    }
    out.extend_from_slice(contents);
    out
}

fn indefinite(tag: u8, contents: &[u8]) -> Vec<u8> {
    [&[tag, 0x80], contents, &[0, 0]].concat()
}

/// `depth` containers in each other, round these contents.
fn nested(depth: usize, tag: u8, wrap: fn(u8, &[u8]) -> Vec<u8>, contents: Vec<u8>) -> Vec<u8> {
    (0..depth).fold(contents, |inside, _| wrap(tag, &inside))
}

/// A container of copies of a member, of about so many octets.
fn filled(tag: u8, member: &[u8], octets: usize) -> Vec<u8> {
    element(tag, &member.repeat(octets / member.len()))
}

/// Numbers that look shuffled (xorshift).
struct Shuffled(u64);

impl Shuffled {
    fn octets(&mut self, n: usize) -> Vec<u8> {
        let mut next = || {
            self.0 ^= self.0 << 13;
            self.0 ^= self.0 >> 7;
            self.0 ^= self.0 << 17;
            (self.0 >> 32) as u8
        };
        (0..n).map(|_| next()).collect()
    }
}

/// The least time of a call in milliseconds, and the most memory that one takes, for each octet read.
fn measure(call: Call, given: &[u8], due: Option<&[u8]>) -> (f64, f64) {
    let mut text = vec![0u8; given.len() + 64];
    let mut run = || unsafe { call(black_box(given.as_ptr()), given.len(), text.as_mut_ptr(), text.len()) as usize };
    unsafe { count_memory() };
    let length = run();
    let memory = unsafe { most_memory() } as f64 / given.len() as f64;
    let seconds = || unsafe { processor_seconds() };
    let (mut least, begin) = (f64::MAX, seconds());
    for runs in 0..200 {
        if runs > 10 && seconds() - begin > 1.0 {
            break;
        }
        let start = seconds();
        black_box(run());
        least = least.min((seconds() - start) * 1e3);
    }
    match due {
        Some(due) => assert!(text[..length] == *due),
        None => assert!(length > 0),
    }
    (least, memory)
}

fn row(name: &str, call: Call, make: impl Fn(usize) -> Vec<u8>) {
    let (one, two) = (make(1), make(2));
    let ((time, memory), (twice, _)) = (measure(call, &one, None), measure(call, &two, None));
    println!(
        "| {name} | {} | {time:.2} ms | {:.0} MB/s | {:.2} | {memory:.1} |",
        one.len(),
        one.len() as f64 / time / 1e3,
        twice / time * one.len() as f64 * 2.0 / two.len() as f64
    );
}

/// Small elements of every kind, as they stand in certificates.
fn small_elements() -> Vec<u8> {
    let sha256_with_rsa = element(6, &[0x2A, 0x86, 0x48, 0x86, 0xF7, 0x0D, 1, 1, 11]);
    let algorithm = element(0x30, &[sha256_with_rsa, element(5, &[])].concat());
    let name = element(0x31, &element(0x30, &[element(6, &[0x55, 4, 3]), element(0x13, b"Test key")].concat()));
    let leaves = [element(2, &[1, 2, 3, 4]), element(4, &[0xAA; 8]), element(3, &[0, 1, 2]), element(1, &[255])];
    [algorithm, name, leaves.concat()].concat()
}

/// What documents of small elements repeat.
fn small_members() -> Vec<(&'static str, Vec<u8>)> {
    let integers = [1, 2, 3, 4].map(|octets| element(2, &[1, 2, 3, 4][..octets])).concat();
    let inner = element(0x31, &[element(4, &[9; 3]), element(2, &[7])].concat());
    let sets = element(0x31, &[inner, element(1, &[255])].concat());
    vec![
        ("small: of every kind, as in certificates", small_elements()),
        ("small: SEQUENCEs of INTEGERs of 1 to 4 octets", element(0x30, &integers)),
        ("small: INTEGERs of 1 to 4 octets", integers),
        ("small: OCTET STRINGs of 8 octets", element(4, &[0xAA; 8])),
        ("small: NULLs", vec![5, 0]),
        ("small: SETs in SETs", sets),
        ("small: OBJECT IDENTIFIERs of 3 arcs", vec![6, 2, 0x2A, 3]),
        ("small: BIT STRINGs of 2 octets", vec![3, 3, 0, 1, 2]),
        ("small: empty SEQUENCEs", vec![0x30, 0]),
    ]
}

fn any_of_small_elements(wanted: impl Fn(&str) -> bool) {
    for (name, member) in small_members() {
        if wanted(name) {
            row(name, values_bench_any, |n| filled(0x30, &member, n * MIB));
            // OpenSSL doesn't look into containers.
            if member[0] & 0x20 == 0 {
                let given = filled(0x30, &member, MIB);
                compare(name, &given, &given, &[("OpenSSL", openssl::<SEQUENCE_OF_ANY>), ("Any", values_bench_any)]);
            }
        }
    }
}

fn any_of_hostile_shapes(wanted: impl Fn(&str) -> bool) {
    type Make = Box<dyn Fn(usize) -> Vec<u8>>;
    let string = |n: usize| element(4, &vec![0x55; n * MIB]);
    let deep = |wrap, tag| nested(62, tag, wrap, vec![5, 0]);
    let rows: [(&str, Make); 12] = [
        ("deep: 63 SEQUENCEs round 1 MiB, definite", Box::new(move |n| nested(63, 0x30, element, string(n)))),
        ("deep: 63 SEQUENCEs round 1 MiB, indefinite", Box::new(move |n| nested(63, 0x30, indefinite, string(n)))),
        ("deep: 63 SETs round 1 MiB, definite", Box::new(move |n| nested(63, 0x31, element, string(n)))),
        ("deep: 63 SETs round 1 MiB, indefinite", Box::new(move |n| nested(63, 0x31, indefinite, string(n)))),
        ("deep: 63 SETs round 1 MiB of NULLs", Box::new(|n| nested(63, 0x31, indefinite, [5, 0].repeat(n * MIB / 2)))),
        ("repeated: 63 deep, definite", Box::new(move |n| filled(0x30, &deep(element, 0x30), n * MIB))),
        ("repeated: 63 deep, indefinite", Box::new(move |n| filled(0x30, &deep(indefinite, 0x30), n * MIB))),
        ("repeated: 63 SETs deep, indefinite", Box::new(move |n| filled(0x30, &deep(indefinite, 0x31), n * MIB))),
        ("segments of 1 octet", Box::new(|n| element(0x24, &[4, 1, 9].repeat(n * MIB / 3)))),
        ("segments of none", Box::new(|n| element(0x24, &[4, 0].repeat(n * MIB / 2)))),
        ("segments of BIT STRING of none", Box::new(|n| element(0x23, &[3, 1, 0].repeat(n * MIB / 3)))),
        ("one OBJECT IDENTIFIER of 1 MiB", Box::new(|n| element(6, &vec![0x2A; n * MIB]))),
    ];
    for (name, make) in rows {
        if wanted(name) {
            row(name, values_bench_any, make);
        }
    }
    if wanted("many: SET OF 300,000 NULLs") {
        row("many: SET OF 300,000 NULLs", values_bench_any, |n| filled(0x31, &[5, 0], n * 600_000));
    }
}

/// Members of one type, also hostile ones: what a list and a set hold for each. One more than a power of two is an
/// unlucky number, since a vector that grows has doubled.
fn members(wanted: impl Fn(&str) -> bool) {
    let rows: [(&str, Call, u8, &[u8], usize); 11] = [
        ("List of OCTET STRINGs of none", values_bench_list, 0x30, &[4, 0], MIB / 2),
        ("List of OCTET STRINGs of 1 octet", values_bench_list, 0x30, &[4, 1, 9], MIB / 3),
        ("SetOf of OCTET STRINGs of none", values_bench_set, 0x31, &[4, 0], MIB / 2),
        ("SetOf of 2^12 + 1 OCTET STRINGs of none", values_bench_set, 0x31, &[4, 0], (1 << 12) + 1),
        ("SetOf of 2^18 + 1 OCTET STRINGs of none", values_bench_set, 0x31, &[4, 0], (1 << 18) + 1),
        ("SetOf of OCTET STRINGs of 1 octet", values_bench_set, 0x31, &[4, 1, 9], MIB / 3),
        ("SetOf of 2^17 + 1 OCTET STRINGs of 1 octet", values_bench_set, 0x31, &[4, 1, 9], (1 << 17) + 1),
        ("SetOf of open NULLs", values_bench_open_set, 0x31, &[5, 0], MIB / 2),
        ("SetOf of 2^18 + 1 open NULLs", values_bench_open_set, 0x31, &[5, 0], (1 << 18) + 1),
        ("SetOf of open identifiers of 2 arcs", values_bench_open_set, 0x31, &[6, 1, 0x2A], MIB / 3),
        ("SetOf of 2^17 + 1 open identifiers of 2 arcs", values_bench_open_set, 0x31, &[6, 1, 0x2A], (1 << 17) + 1),
    ];
    for (name, call, tag, member, count) in rows {
        if wanted(name) {
            row(name, call, |n| element(tag, &member.repeat(n * count)));
        }
    }
}

/// The least times of these calls, which give the same text; the first is OpenSSL's.
fn compare(name: &str, given: &[u8], due: &[u8], calls: &[(&str, Call)]) -> Vec<f64> {
    // In turn, three times, so that what else runs slows all of them.
    let mut times = vec![f64::MAX; calls.len()];
    let mut memory = vec![0.0; calls.len()];
    for _ in 0..3 {
        for (i, (_, call)) in calls.iter().enumerate() {
            let (time, taken) = measure(*call, given, Some(due));
            times[i] = times[i].min(time);
            memory[i] = taken;
        }
    }
    for (i, (who, _)) in calls.iter().enumerate() {
        let compared = if i == 0 { String::new() } else { format!("{:.2} of OpenSSL's", times[i] / times[0]) };
        let memory = if i == 0 { String::new() } else { format!("{:.1}", memory[i]) };
        println!("| {name}: {who} | {} | {:.2} ms | {compared} | {memory} |", given.len(), times[i]);
    }
    times
}

/// A SET OF OCTET STRING by OpenSSL, as a `SetOf` and as an open value.
fn compare_sets(name: &str, members: &[Vec<u8>]) -> Vec<f64> {
    let mut sorted = members.to_vec();
    sorted.sort();
    let (given, due) = (element(0x31, &members.concat()), element(0x31, &sorted.concat()));
    compare(
        name,
        &given,
        &due,
        &[("OpenSSL", openssl::<SET_OF_STRINGS>), ("SetOf", values_bench_set), ("Any", values_bench_any)],
    )
}

fn sets(wanted: impl Fn(&str) -> bool) {
    let mut shuffled = Shuffled(0x1234_5678_9ABC_DEF1);
    let mut strings = |count: usize, alike: usize| -> Vec<Vec<u8>> {
        (0..count).map(|_| element(4, &[vec![0x55; alike], shuffled.octets(43 - alike)].concat())).collect()
    };
    let reversed = |mut members: Vec<Vec<u8>>| {
        members.sort();
        members.reverse();
        members
    };
    let two = |size: usize| {
        let long = vec![0x55; size];
        vec![element(4, &[&long[..], &[2]].concat()), element(4, &[&long[..], &[1]].concat())]
    };
    let pairs = [
        ("set: 20,000 shuffled", strings(20_000, 0), strings(40_000, 0)),
        ("set: 20,000 shuffled, 24 octets alike", strings(20_000, 24), strings(40_000, 24)),
        ("set: 50,000 in reverse order", reversed(strings(50_000, 0)), reversed(strings(100_000, 0))),
        ("set: two of 500,000 octets, alike", two(500_000), two(1_000_000)),
    ];
    for (name, one, more) in pairs {
        if wanted(name) {
            let (times, twice) = (compare_sets(name, &one), compare_sets(&format!("{name}, twice"), &more));
            let growth: Vec<String> = (0..3).map(|i| format!("{:.2}", twice[i] / times[i])).collect();
            println!("twice as much takes: OpenSSL {}, SetOf {}, Any {}", growth[0], growth[1], growth[2]);
        }
    }
}

fn main() {
    let words: Vec<String> = std::env::args().skip(1).collect();
    if documents::answered(&words) {
        return;
    }
    let chosen = words.first().map_or("", String::as_str);
    let wanted = |name: &str| name.starts_with(chosen);
    println!("| Document | octets | least time | rate | twice the size | memory for an octet |");
    any_of_small_elements(wanted);
    any_of_hostile_shapes(wanted);
    members(wanted);
    sets(wanted);
    documents::keys(wanted);
}
