#!/usr/bin/env python3
"""build.py [--again]: proves every crate by `rt ci`, and makes the program and the library from what it proved.

It leaves the program crates/pkder/out/pkder, the library for C in interface/out, and beside the program PROVED-BY,
which says what proved these files. Where they stand as PROVED-BY has it, and are of this commit and this toolchain,
nothing is done; --again proves and makes them all the same. HEAP and CPU in the environment are as for
interface/build.sh.

Its last line is 'build: N passed, M failed': what `rt ci` counts, and the library."""
import functools
import hashlib
import os
import re
import shutil
import subprocess
import sys
import time
from pathlib import Path

TOP = sys.path[0] = str(Path(__file__).resolve().parents[1])
from tools.gate import logic

PROGRAM = "crates/pkder/out/pkder"
# the libraries: static, shared for glibc, shared for musl
LIBRARIES = ("libpkder.a", "libpkder.so.0", "musl/libpkder.so.0")
MADE = {PROGRAM: "pkder", **{f"interface/out/{it}": it for it in LIBRARIES}}
PROVED_BY = "crates/pkder/out/PROVED-BY"
CHANGED = ", with changes that are in no commit"
TRUSTED = """\
trusted: whoever can write to the folders that keep a proof until it is compiled, for one target after another \
(crate-checked=trusted, incremental=trusted)
"""
# The seconds of a processor that a proof takes, to say how long the others will, and what crates that aren't here take.
SECONDS = {"tlv_core": 120, "x690": 10, "x690_laws": 70, "pkix_definitions": 20, "pkix_shapes": 100,
           "ber_pull": 290, "asn_elements": 280, "ber_outline": 60, "asn_names": 300, "reports": 1100,
           "asn_fields": 280, "asn_lists": 240, "asn_open_values": 180, "asn_documents": 120,
           "pkix_values": 460, "pkcs10": 160, "private_keys": 190, "pkcs8": 370, "pk_documents": 320,
           "pk_show": 250, "explain": 900, "comparison": 330, "commands": 750, "pkder": 300, "pkder_c": 240,
           "rows": 400}
OTHERS, LIBRARY, FIRST = 250, 200, 300


def git(*words):
    """What git says, or nothing where there is no repository."""
    try:
        ran = subprocess.run(["git", *words], capture_output=True, text=True)
    except OSError:
        return ""
    return ran.stdout.strip() if ran.returncode == 0 else ""


def commit():
    """The commit that stands here, and whether files differ from it."""
    return (git("rev-parse", "HEAD") or "not known") + (CHANGED if git("status", "--porcelain") else "")


def sum_of(name):
    with open(name, "rb") as it:
        return hashlib.file_digest(it, "sha256").hexdigest()


def record(of_commit):
    """The text of PROVED-BY for the files that stand, of which each has a line as sha256sum writes it."""
    how = f"heap {os.environ.get('HEAP') or 'of the toolchain'}, processor {os.environ.get('CPU') or 'x86-64'}"
    sums = "".join(f"{sum_of(path)}  {name}\n" for path, name in MADE.items())
    return f"commit: {of_commit}\ntoolchain: {logic.toolchain()}\nlibrary: {how}\n{TRUSTED}{sums}"


def stands():
    """Whether program and library stand as this commit, toolchain, heap and processor gave them."""
    here = commit()
    if not all(map(os.path.isfile, (*MADE, PROVED_BY))) or not re.fullmatch("[0-9a-f]+", here):
        return False
    with open(PROVED_BY, encoding="utf-8") as it:
        return it.read() == record(here)


class Progress:
    """How far the proofs are, by what `rt ci` says of each crate, and how long the others will take."""

    def __init__(self):
        with open("crates.txt", encoding="utf-8") as it:
            rows = re.findall(r"(?m)^(\w+)[^:#\n]*:(.*)", it.read())
        self.below = {name: words.split() for name, words in rows}
        self.told, self.kept, self.began = set(), set(), time.monotonic()

    def seconds(self, without):
        """The seconds of the proofs without these, as far as they wait for each other or for a processor."""
        each = {it: 0 if it in without else SECONDS.get(it, OTHERS) for it in self.below}

        @functools.cache
        def until(name):
            return each[name] + max((until(it) for it in self.below[name] if it in each), default=0)

        return LIBRARY + max(sum(each.values()) / len(os.sched_getaffinity(0)), *map(until, each))

    def __str__(self):
        whole, left = self.seconds(self.kept), self.seconds(self.told)
        # (as many seconds as it should be, at first, so that one crate doesn't tell the pace)
        pace = (time.monotonic() - self.began + FIRST) / (whole - left + FIRST)
        return f"build: {len(self.told)} of {len(self.below)} crates, about {left * pace / 60:.0f} minutes left"

    def hear(self, line):
        """Says how far the proofs are, where the line is of a crate."""
        found = re.match(r"rt: (\w+) (proved|is kept|NOT PROVED)\b", line)
        if found and found[1] in self.below:
            self.told.add(found[1])
            self.kept |= {found[1]} if found[2] == "is kept" else set()
            print(self, flush=True)


def proofs():
    """Proves every crate, and returns how many tests of `rt ci` passed and failed."""
    # (`rt ci` gives back libraries of earlier checks at its end, and those that it proved are wanted; the library is
    # proved from nothing, and what is kept of that serves its other targets: interface/compile.sh)
    for name in os.listdir("crates"):
        for made in ("rlib", "kept"):
            shutil.rmtree(f"crates/{name}/out/{made}", ignore_errors=True)
    last, progress = "", Progress()
    print(progress, flush=True)
    with subprocess.Popen(["rt", "ci"], stdout=subprocess.PIPE, stderr=subprocess.STDOUT, errors="replace") as ran:
        for line in ran.stdout:
            print(line, end="", flush=True)
            progress.hear(line)
            last = line.strip() or last
    found = re.fullmatch(r"([0-9]+) passed, ([0-9]+) failed", last)
    passed, failed = (int(it) for it in found.groups()) if found else (0, 1)
    return passed, max(failed, 1) if ran.returncode or not passed else failed


def library():
    """Makes the library over the crates as `rt ci` left them, and returns how many passed and failed."""
    made = subprocess.run(["sh", "interface/build.sh"], env={**os.environ, "LIBRARIES": "proved"})
    return (0, 1) if made.returncode else (1, 0)


def build():
    """Proves and makes everything, and returns how many tests passed and failed."""
    if os.path.exists(PROVED_BY):
        os.remove(PROVED_BY)
    began, (passed, failed) = commit(), proofs()
    if not failed:
        more, failed = library()
        passed += more
    if not failed:
        with open(PROVED_BY, "w", encoding="utf-8") as it:
            it.write(record(began if commit() == began else began.removesuffix(CHANGED) + CHANGED))
    return passed, failed


def main(words):
    os.chdir(TOP)
    if {*words} - {"--again"}:
        print(__doc__)
        return 0 if words == ["--help"] else 1
    why = logic.of_toolchain()
    if why:
        sys.exit(f"{why}\nbuild: 0 passed, 1 failed")
    if stands() and not words:
        print(f"{PROGRAM} and interface/out stand as {PROVED_BY} says")
        return 0
    passed, failed = build()
    if not failed:
        print(f"{PROGRAM} and interface/out are made; {PROVED_BY} says what proved them")
    print(f"build: {passed} passed, {failed} failed", flush=True)
    return 1 if failed else 0


if __name__ == "__main__":
    sys.exit(main(sys.argv[1:]))
