#!/usr/bin/env python3
"""about.py: whether manifests, packages and pages say of pkder what tools/pages/about.toml and the version's source
say.

It builds nothing. The last line is 'about: N passed, M failed'."""
import re
import sys
from pathlib import Path

sys.path[0] = str(Path(__file__).resolve().parents[2])
from release.packing import ABOUT, NUMBER, text_of
from tools.gate.looks import counted
from vectors import VERSION
from vectors.check import KINDS

MANIFESTS = ("interface/pkder.pc.in", "interface/python/pyproject.toml", "interface/rust/Cargo.toml",
             "interface/npm/package.json")
PAGES = ("README.md", "docs/install.md", "interface/python/README.md", "interface/npm/README.md", "SECURITY.md",
         "docs/library.md")
# what a file says of itself, and how often
SAID = [
    *((name, ABOUT["summary"], 1) for name in MANIFESTS),
    ("debian/control", f"\nDescription: {ABOUT['summary']}", 6),
    *((name, ABOUT["licence"], 1) for name in ("README.md", "debian/copyright", "interface/go/go.mod",
                                               "interface/npm/README.md", *MANIFESTS[1:-1])),
    ("debian/control", f"Maintainer: {ABOUT['maintainer']}\n", 1),
    ("debian/changelog", f"\n -- {ABOUT['maintainer']}  ", 1),
]


def said_otherwise():
    """Each text that a file should have, and whether it has it."""
    for name, text, times in SAID:
        yield f"{name}: it has {times} times {text!r}", text_of(name).count(text) == times


def versions():
    """The versions that the lists of changes begin with, and those in the names of files on pages."""
    first = lambda pattern, name: re.search(pattern, text_of(name))[1]
    yield "CHANGELOG.md: the version", first(r"(?m)^## \[([0-9.]+)\]", "CHANGELOG.md") == NUMBER
    yield "debian/changelog: the version", first(r"^pkder \(([0-9.]+)-[0-9]+\)", "debian/changelog") == NUMBER
    for name in PAGES:
        found = re.findall(r"pkder(?:0|-dev)?[-_]([0-9]+\.[0-9]+\.[0-9]+)", text_of(name))
        yield f"{name}: the versions of files, {sorted({*found})}", {*found} <= {NUMBER}


def names():
    """The names of the library as Debian's packages have them, and as the library does."""
    due = re.findall(r"(?m)^ +(pkder_\w+);$", text_of("interface/pkder.map"))
    found = re.findall(r"(?m)^ (pkder_\w+)@PKDER_0 ", text_of("debian/libpkder0.symbols"))
    yield "debian/libpkder0.symbols: the names of interface/pkder.map", sorted(due) == sorted(found)


def needs():
    """What files need, as docs/install.md has it in its table."""
    found = dict(re.findall(r"(?m)^\| `([\w./-]+)`[^|]*\|[^|]*\| ([^|]+?) \|$", text_of("docs/install.md")))
    for name, need in ABOUT["lowest"].items():
        yield f"docs/install.md: {name} needs {need}, not {found.get(name)}", found.get(name) == need


def readers():
    """How many readers docs/peers.md has in its table, how many of them take an invalid document, and which vectors it
    is of; README says the number."""
    page, told = text_of("docs/peers.md"), re.search(r"Each of (\d+) other readers", text_of("README.md"))
    table = page.partition("| Reader |")[2].partition("\n\n")[0]
    taking = re.findall(r"(?m)^\| [^|]+ \| [^|]+ \| (\d+) of \d+ \|", table)
    rows = table.count("\n| ")
    yield f"docs/peers.md: {rows} readers, of which {len(taking)} were counted", rows == len(taking) > 0
    yield "docs/peers.md: a reader takes no invalid document", 0 not in map(int, taking)
    yield f"README.md: it has not {rows} other readers", bool(told) and int(told[1]) == rows
    yield f"CHANGELOG.md: it has not {rows} other readers", f"What {rows} other readers do" in text_of("CHANGELOG.md")
    yield f"docs/peers.md: the vectors are of version {VERSION}", f"\nVectors {VERSION}.\n" in page


def vectors():
    """The number of vectors, in hundreds."""
    numbers = [int(re.search(r'"numberOfTests": (\d+)', text_of(f"vectors/{kind}.json"))[1]) for kind in KINDS]
    told = f"{sum(numbers) // 100 * 100:,}"
    for name in ("CHANGELOG.md", "docs/decisions/tests.md"):
        yield f"{name}: it has not some {told} vectors", f"some {told} " in text_of(name)


def looks():
    return [*said_otherwise(), *versions(), *names(), *needs(), *readers(), *vectors()]


if __name__ == "__main__":
    sys.exit(counted("about", looks()))
