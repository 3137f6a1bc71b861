// A pull reader over documents of 1 and 2 MiB in memory, beside a walk over the same octets in Rust that checks nothing
// but lengths. Figures are the least of many runs; the ratio of the sizes tells how time grows.
use std::hint::black_box;
use std::time::Instant;

unsafe extern "C" {
    fn ber_pull_bench_walk(src: *const u8, len: usize) -> u64;
    fn ber_pull_bench_headers(src: *const u8, len: usize) -> u64;
    fn ber_pull_bench_octets(src: *const u8, len: usize) -> u64;
}

type Call = unsafe extern "C" fn(*const u8, usize) -> u64;

fn called(call: Call, octets: &[u8]) -> u64 {
    unsafe { call(black_box(octets.as_ptr()), octets.len()) }
}

fn length(n: usize) -> Vec<u8> {
    if n < 128 {
        return vec![n as u8];
    }
    let octets: Vec<u8> = n.to_be_bytes().into_iter().skip_while(|octet| *octet == 0).collect();
    let mut out = vec![0x80 + octets.len() as u8];
    out.extend(octets);
    out
}

fn element(tag: u8, contents: &[u8]) -> Vec<u8> {
    let mut out = vec![tag];
    out.extend(length(contents.len()));
    out.extend_from_slice(contents);
    out
}

/// SEQUENCE OF of copies of a member, of about so many octets.
fn document(member: &[u8], octets: usize) -> Vec<u8> {
    element(0x30, &member.repeat(octets / member.len()))
}

/// How many elements stand in the octets, definite lengths of at most 127 and 82 xx xx to 84 taken for granted.
#[inline(never)]
fn count(mut octets: &[u8]) -> u64 {
    let mut elements = 0;
    while let [tag, first, rest @ ..] = octets {
        elements += 1;
        let (size, rest) = if *first < 128 {
            (usize::from(*first), rest)
        } else {
            let more = usize::from(*first - 128);
            (rest[..more].iter().fold(0, |n, octet| n * 256 + usize::from(*octet)), &rest[more..])
        };
        octets = if tag & 0x20 == 0 { &rest[size..] } else { rest };
    }
    elements
}

fn best(name: &str, octets: usize, mut run: impl FnMut() -> u64) -> f64 {
    let mut least = f64::MAX;
    for _ in 0..60 {
        let start = Instant::now();
        black_box(run());
        least = least.min(start.elapsed().as_secs_f64());
    }
    println!("{name:44} {:9.3} ms {:9.1} MB/s", least * 1e3, octets as f64 / least / 1e6);
    least
}

fn main() {
    let inner = [element(2, &[5]), element(4, &[0xAA; 8])].concat();
    let shapes = [
        ("empty sequences (headers alone)", vec![0x30, 0x00]),
        ("sequences of an integer and 8 octets", element(0x30, &inner)),
        ("booleans", vec![1, 1, 255]),
    ];
    for (name, member) in &shapes {
        let mut times = Vec::new();
        for size in [1 << 20, 2 << 20] {
            let given = document(member, size);
            let wanted = count(&given);
            assert_eq!(called(ber_pull_bench_walk, &given), wanted);
            let text = format!("{name}, {} MiB", size >> 20);
            times.push(best(&text, given.len(), || called(ber_pull_bench_walk, &given)));
            if size == 1 << 20 {
                best("  the same, lengths alone, in Rust", given.len(), || count(black_box(&given)));
            }
        }
        println!("  twice the size takes {:.2} times as long", times[1] / times[0]);
    }
    let headers = document(&vec![0x30, 0x00], 1 << 20);
    assert_eq!(called(ber_pull_bench_headers, &headers), count(&headers));
    best("headers, nothing allocated", headers.len(), || called(ber_pull_bench_headers, &headers));
    for size in [1 << 20, 2 << 20] {
        let string = element(4, &vec![0x55; size]);
        assert_eq!(called(ber_pull_bench_octets, &string), size as u64);
        let text = format!("a primitive string of {} MiB", size >> 20);
        best(&text, string.len(), || called(ber_pull_bench_octets, &string));
    }
    let segments = element(0x24, &element(4, &[0x55; 1000]).repeat(1040));
    assert_eq!(called(ber_pull_bench_octets, &segments), 1040 * 1000);
    best("a string in segments of 1000 octets", segments.len(), || called(ber_pull_bench_octets, &segments));
    let mut nested = vec![0x24, 0x80].repeat(30);
    nested.extend(element(4, &[0x55; 8]).repeat(100_000));
    nested.extend([0; 60]);
    assert_eq!(called(ber_pull_bench_octets, &nested), 800_000);
    best("a string 30 deep in segments of 8 octets", nested.len(), || called(ber_pull_bench_octets, &nested));
}
