#!/usr/bin/env python3
"""count_check.py LIBRARY [--write]: what a call of the library for C takes beside its peers, by valgrind's callgrind.

Of each document it prints the instructions of one call of `pkder_check`, `pkder_normalise` and `pkder_same` of LIBRARY
(interface/out/libpkder.a), of Rust's asn1 (bench/asn1.rs) and of OpenSSL (bench/openssl.c), and how often the library
asks for memory; then what isn't in DER at its beginning or at its end; and which bounds are met. What is counted is the
difference between so many calls in one process and twice as many. With --write all of this goes between the two marks
in bench/README.md, too. It takes cc and valgrind; a peer that the machine lacks (Debian: librust-asn1-dev with cargo,
libssl-dev) is left out, and said. By hand; the gate doesn't run it."""
import datetime
import os
import re
import subprocess
import sys
import tempfile
import textwrap
from concurrent.futures import ThreadPoolExecutor
from pathlib import Path

TOP = Path(__file__).resolve().parents[1]

# What each is called, its kind, and its file in examples/; without one it is made below.
IN_DER = [
    ("Ed25519 public key", "public", "public-ed25519"),
    ("P-256 public key", "public", "public-p256"),
    ("P-256 key of RFC 5915", "ec", "p256-sec1"),
    ("Ed25519 key", "key", "smallest"),
    ("P-256 key", "key", "p256"),
    ("2,048-bit RSA key", "key", "rsa2048"),
    ("RSA request", "request", "request-rsa2048"),
    ("P-256 request", "request", "request-p256"),
    ("P-256 request of a web server", "request", "request-web"),
    ("encrypted key", "encrypted", "encrypted"),
    ("package", "package", "package"),
    ("key with 10,000 attributes", "key", None),
    ("package of 1,000 keys", "package", None),
]
IN_BER = [
    ("Ed25519 key, a length of five octets", "key", "long-lengths"),
    ("Ed25519 public key in BER", "public", "public-indefinite"),
    ("secp256k1 key of RFC 5915 in BER", "ec", "k256-sec1-indefinite"),
    ("P-384 key in BER", "key", "p384-indefinite"),
    ("RSA key of three primes in BER", "key", "rsa-three-primes-indefinite"),
    ("P-256 request in BER", "request", "request-indefinite"),
    ("encrypted key in BER", "encrypted", "encrypted-indefinite"),
    ("package in BER", "package", "package-indefinite"),
]
# Bounds that the project set itself: instructions of check by document; what normalise may take more than check and
# the copy; and of check what same, and what isn't in DER, may take.
OF_CHECK = {"Ed25519 public key": 400, "P-256 key of RFC 5915": 600, "P-256 key": 1100, "2,048-bit RSA key": 1700,
            "RSA request": 5000, "key with 10,000 attributes": 4_000_000, "package of 1,000 keys": 1_100_000}
OF_NORMALISE, OF_SAME, OF_BER = 150, 2.2, 1.12
OURS = ("check", "normalise", "same")
# The calls on a document of at most so many octets, and on a greater one.
SMALL, TIMES, TIMES_OF_GREAT = 4096, 200, 1
# (callgrind counts each octet of an instruction that repeats, so the C library takes others)
PLAIN = "glibc.cpu.x86_rep_stosb_threshold=1000000:glibc.cpu.x86_rep_movsb_threshold=1000000"
# (over the crates of Debian)
CARGO = f"""[package]
name = "asn1_calls"
version = "0.0.0"
edition = "2021"

[dependencies]
asn1 = "0.12"

[[bin]]
name = "asn1_calls"
path = "{TOP}/bench/asn1.rs"
"""
BUILD = ["build", "--offline", "--release", "--config", 'source.crates-io.replace-with="debian"', "--config",
         'source.debian.directory="/usr/share/cargo/registry"']
PAGE = TOP / "bench" / "README.md"
FROM, TO = "<!-- count_check.py writes what follows -->", "<!-- count_check.py wrote this -->"


def element(tag, contents, more=0):
    """An element; with `more` its length has so many octets more than in DER."""
    size = len(contents)
    count = more + (0 if size < 128 else (size.bit_length() + 7) // 8)
    length = bytes([128 + count]) + size.to_bytes(count, "big") if count else bytes([size])
    return bytes([tag]) + length + contents


def elements(octets):
    """The elements that the octets are, each with its tag and contents; None where they are none."""
    found = []
    while octets:
        count = octets[1] - 128 if len(octets) > 1 and octets[1] > 128 else 0
        size = int.from_bytes(octets[2:2 + count], "big") if count else octets[1] if len(octets) > 1 else 0
        end = 2 + count + size
        if end > len(octets):
            return None
        found.append((octets[0], octets[2 + count:end]))
        octets = octets[end:]
    return found


def not_in_der_at_its_end(octets):
    """The element with a longer length of the last one in it, also of one in an OCTET STRING."""
    [(tag, contents)] = elements(octets)
    is_wrapped = tag == 4 and contents[:1] in (b"\x04", b"\x30") and len(elements(contents) or []) == 1
    if not (tag & 32 or is_wrapped):
        return element(tag, contents, more=1)
    last = len(element(*elements(contents)[-1]))
    return element(tag, contents[:-last] + not_in_der_at_its_end(contents[-last:]))


def not_in_der_at_its_beginning(octets):
    return element(*elements(octets)[0], more=1)


def of_file(name):
    return (TOP / "examples" / f"{name}.der").read_bytes()


def made(label):
    """The smallest key with attributes of one NULL, each under an identifier of its own; or many such keys."""
    key = of_file("smallest")
    if label.startswith("package"):
        return element(48, 1000 * key)
    identifiers = (bytes([6, 3, 0x2A, 0x81 + it // 127, it % 127]) for it in range(10_000))
    attributes = b"".join(element(48, it + element(49, bytes([5, 0]))) for it in identifiers)
    return element(48, elements(key)[0][1] + element(0xA0, attributes))


class Callers:
    """The programs that are counted, and the versions of the peers among them."""

    def __init__(self, library, folder):
        self.folder, self.versions = folder, []
        self.calls = [*OURS]
        source = [f"-I{TOP}/interface", f"-I{TOP}/interface/c", f"{TOP}/bench/calls.c"]
        flags = self.flags_of_openssl()
        subprocess.run(["cc", "-O2", *source, library, *flags, "-o", f"{folder}/calls"], check=True)
        wrapped = "-Wl,--wrap=malloc,--wrap=realloc"
        subprocess.run(["cc", "-O2", "-DCOUNTED", wrapped, *source, library, "-o", f"{folder}/counted"], check=True)
        self.look_for_asn1()

    def flags_of_openssl(self):
        asked = "#include <openssl/asn1t.h>\n#include <openssl/opensslv.h>\nOPENSSL_VERSION_STR"
        told = subprocess.run(["cc", "-E", "-P", "-"], input=asked, capture_output=True, text=True)
        if told.returncode:
            print("left out: OpenSSL (Debian: apt-get install libssl-dev)")
            return []
        self.versions.append(f"OpenSSL {told.stdout.split()[-1].strip(chr(34))}")
        self.calls += ["openssl-read", "openssl-read-write"]
        return ["-DOPENSSL", "-DPLAIN_MALLOC", f"{TOP}/bench/openssl.c", "-lcrypto"]

    def look_for_asn1(self):
        os.mkdir(f"{self.folder}/rust")
        Path(f"{self.folder}/rust/Cargo.toml").write_text(CARGO, "utf-8")
        try:
            subprocess.run(["cargo", *BUILD], cwd=f"{self.folder}/rust", stderr=subprocess.PIPE, text=True, check=True)
        except (FileNotFoundError, subprocess.CalledProcessError) as why:
            print("left out: asn1 (Debian: apt-get install librust-asn1-dev cargo)", getattr(why, "stderr", "")[-300:])
            return
        locked = Path(f"{self.folder}/rust/Cargo.lock").read_text("utf-8")
        version = re.search(r'name = "asn1"\nversion = "([^"]*)"', locked)
        rustc = subprocess.run(["rustc", "--version"], capture_output=True, text=True, check=True).stdout.split()[1]
        self.versions.append(f"asn1 {version[1]} by rustc {rustc}")
        self.calls[3:3] = ["asn1-read", "asn1-read-write"]

    def command(self, call, kind, file, times):
        if call.startswith("asn1-"):
            return [f"{self.folder}/rust/target/release/asn1_calls", kind, call.removeprefix("asn1-"), str(times)]
        return [f"{self.folder}/calls", kind, file, call, str(times)]

    def instructions(self, call, kind, file, times):
        """The instructions of a process that does the call so many times."""
        words = ["valgrind", "--tool=callgrind", "--callgrind-out-file=/dev/null"]
        with open(file, "rb") as document:
            ran = subprocess.run([*words, *self.command(call, kind, file, times)], stdin=document, capture_output=True,
                                 text=True, env={**os.environ, "GLIBC_TUNABLES": PLAIN}, check=True)
        return int(re.search(r"Collected : (\d+)", ran.stderr)[1])

    def of_one_call(self, call, kind, file):
        """The instructions of one call; None where a peer refuses the document."""
        times = TIMES if os.path.getsize(file) <= SMALL else TIMES_OF_GREAT
        try:
            once, twice = (self.instructions(call, kind, file, it) for it in (times, 2 * times))
        except subprocess.CalledProcessError:
            if call in (*OURS, "copy"):
                raise
            return None
        return (twice - once) / times

    def allocations(self, kind, file):
        """How often check, normalise and same ask for memory."""
        words = [f"{self.folder}/counted", kind, file, "allocations", "1"]
        return [int(it) for it in subprocess.run(words, capture_output=True, text=True, check=True).stdout.split()]


def figure(instructions):
    return "refused" if instructions is None else f"{instructions:,.0f}"


class Counts:
    """The figures of each document, all of them asked for at once."""

    def __init__(self, callers, pool):
        self.callers, self.pool = callers, pool
        self.asked = [self.row(*it) for it in [*IN_DER, *IN_BER]]
        self.ends = [self.row_of_ends(*it) for it in IN_DER]

    def file(self, octets):
        with tempfile.NamedTemporaryFile(dir=self.callers.folder, delete=False) as file:
            file.write(octets)
        return file.name

    def counted(self, call, kind, file):
        return self.pool.submit(self.callers.of_one_call, call, kind, file)

    def row(self, label, kind, name):
        octets = of_file(name) if name else made(label)
        file = self.file(octets)
        counts = {call: self.counted(call, kind, file) for call in [*self.callers.calls, "copy"]}
        return label, name, len(octets), counts, self.callers.allocations(kind, file)

    def row_of_ends(self, label, kind, name):
        octets = of_file(name) if name else made(label)
        spelled = not_in_der_at_its_beginning(octets), not_in_der_at_its_end(octets)
        return label, [self.counted("check", kind, self.file(it)) for it in spelled]

    def rows(self):
        for label, name, size, counts, allocations in self.asked:
            yield label, name, size, {call: it.result() for call, it in counts.items()}, allocations

    def rows_of_ends(self):
        for label, counts in self.ends:
            yield label, *(it.result() for it in counts)


HEADS = {"asn1-read": "`asn1` reads", "asn1-read-write": "reads and writes", "openssl-read": "OpenSSL reads",
         "openssl-read-write": "reads and writes", **{it: f"`{it}`" for it in OURS}}


def table(rows, calls):
    """The lines of the table of calls."""
    yield f"| Document | Octets | {' | '.join(HEADS[it] for it in calls)} | Allocations |"
    yield "|---" * (3 + len(calls)) + "|"
    for label, name, size, counts, allocations in rows:
        named = f"{label} (`{name}.der`)" if name else label
        figures = " | ".join(figure(counts[it]) for it in calls)
        yield f"| {named} | {size:,} | {figures} | {', '.join(map(str, allocations))} |"


def table_of_ends(ends):
    yield "| Document | `check`, the outermost length too long | the last length too long | of the first |"
    yield "|---|---|---|---|"
    for label, first, last in ends:
        yield f"| {label} | {first:,.0f} | {last:,.0f} | {last / first:.2f} |"


def judged(bound, worst, is_met):
    said = f"- {bound}: {worst}, " + ("which is met" if is_met else "**not met**")
    return textwrap.fill(said, 120, subsequent_indent="  ", break_on_hyphens=False)


def bounds(rows, ends):
    """A line for each bound: the figure that decides, and whether it is met."""
    of = {label: counts for label, _, _, counts, _ in rows}
    for label, most in OF_CHECK.items():
        yield judged(f"`check` of the {label} in {most:,}", figure(of[label]["check"]), of[label]["check"] <= most)
    in_der = [label for label, _, _ in IN_DER]
    more, label = max((of[it]["normalise"] - of[it]["check"] - of[it]["copy"], it) for it in in_der)
    met = sum(of[it]["normalise"] - of[it]["check"] - of[it]["copy"] <= OF_NORMALISE for it in in_der)
    yield judged(f"`normalise` of DER in {OF_NORMALISE} and the copy more than `check`",
                 f"met by {met} of {len(in_der)}, at most {more:,.0f} ({label})", met == len(in_der))
    most, label = max((of[it]["same"] / of[it]["check"], it) for it in in_der)
    met = sum(of[it]["same"] <= OF_SAME * of[it]["check"] for it in in_der)
    yield judged(f"`same` in {OF_SAME} times `check`",
                 f"met by {met} of {len(in_der)}, at most {most:.2f} ({label})", met == len(in_der))
    most, label = max((last / first, label) for label, first, last in ends)
    met = sum(last <= OF_BER * first for _, first, last in ends)
    yield judged(f"`check` of what isn't in DER in {OF_BER} times what it takes to be read",
                 f"met by {met} of {len(ends)}, at most {most:.2f} ({label})", met == len(ends))


def page(callers):
    """All that is printed, in lines."""
    with ThreadPoolExecutor(len(os.sched_getaffinity(0))) as pool:
        counts = Counts(callers, pool)
        rows, ends = [*counts.rows()], [*counts.rows_of_ends()]
    told = subprocess.run(["valgrind", "--version"], capture_output=True, text=True, check=True).stdout.strip()
    yield f"{datetime.date.today()}, {', '.join([*callers.versions, told])}:"
    yield ""
    yield from table(rows, callers.calls)
    yield ""
    yield from table_of_ends(ends)
    yield ""
    yield from bounds(rows, ends)


def main(words):
    if len(words) not in (1, 2) or words[1:] not in ([], ["--write"]):
        sys.exit(__doc__)
    with tempfile.TemporaryDirectory() as folder:
        text = "\n".join(page(Callers(os.path.abspath(words[0]), folder)))
    print(text)
    if words[1:]:
        before, rest = PAGE.read_text("utf-8").split(FROM)
        PAGE.write_text(f"{before}{FROM}\n\n{text}\n\n{TO}{rest.split(TO)[1]}", "utf-8")


if __name__ == "__main__":
    main(sys.argv[1:])
