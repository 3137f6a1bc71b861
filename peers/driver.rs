// What the drivers in Rust share. (run.py says what a driver answers)
use std::io::{stdin, BufRead};

/// Says what the driver is, its version being that of the library, and answers whether it takes each document.
pub fn run(name: &str, call: &str, kinds: &str, is_taken: impl Fn(&str, &[u8]) -> bool) {
    let version = env!("CARGO_PKG_VERSION");
    let about = format!(r#""name": "{name}", "version": "{version}", "call": "{call}", "kinds": [{kinds}]"#);
    println!(r#"{{{about}, "inside": false}}"#);
    for line in stdin().lock().lines().map_while(Result::ok) {
        let (kind, hex) = line.split_once(' ').unwrap_or_default();
        let octet = |at| u8::from_str_radix(&hex[at..at + 2], 16).unwrap_or_default();
        let document: Vec<u8> = (0..hex.len() / 2 * 2).step_by(2).map(octet).collect();
        println!("{}", if is_taken(kind, &document) { "+" } else { "-" });
    }
}
