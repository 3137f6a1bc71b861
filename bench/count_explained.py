#!/usr/bin/env python3
"""count_explained.py PROGRAM: what `pkder explain` takes of documents that grow.

Of documents with N, 2 N and 4 N parts it prints the instructions of a process for each octet, by valgrind's callgrind,
as text, as text with --all and as JSON with --all, and by how much they grow from one to the next; and the most memory
that a process has beyond one that explains no octets, for each octet, by time(1). Bounds: twice the parts take at most
2.1 times the instructions, and memory is at most 60 octets an octet. The status is 1 where one isn't met. By hand; the
gate doesn't run it."""
import os
import re
import subprocess
import sys
from concurrent.futures import ThreadPoolExecutor
from pathlib import Path

sys.path[0] = str(Path(__file__).resolve().parents[1])
from tests.oracle.reader import answer, base_128, oid
from tests.oracle.secret_documents import (
    ATTRIBUTES, ED25519, EXTENSION_REQUEST, IDENTIFIER, NAME_TYPE, OCTETS, PRINTABLE, SEQUENCE, SET, algorithm, bits,
    element, identifier, indefinite, number, public)

PARTS, MOST_GROWTH, MOST_MEMORY, AT_ONCE = 1500, 2.1, 60, 2
LIMITS = ["--octets", "2147483647"]
WAYS = {"text": [], "text, all": ["--all"], "JSON, all": ["--json", "--all"]}


def attributes(count, make=element, value=None):
    """So many attributes, each of a type of its own, in order."""
    kinds = (oid("1.3.6.1.4.1") + base_128(it + 16384) for it in range(count))
    value = value or element(PRINTABLE, public(b"a"))
    return make(ATTRIBUTES, *(make(SEQUENCE, identifier(it), make(SET, value)) for it in kinds))


def request(count, subject=None, given=None, make=element, after=True):
    """A request with so many attributes, or with this subject or these attributes; else it breaks off."""
    key = make(SEQUENCE, algorithm(ED25519), bits(32))
    given = attributes(count, make) if given is None else given
    info = make(SEQUENCE, number(0), subject or make(SEQUENCE), key, given)
    return make(SEQUENCE, info, *([algorithm(ED25519), bits(12)] if after else []))


def subject(count):
    item = element(SEQUENCE, identifier(NAME_TYPE), element(PRINTABLE, public(b"a name")))
    return element(SEQUENCE, *(element(SET, item) for _ in range(count)))


def extensions(count):
    one = element(SEQUENCE, identifier(oid("2.5.29.15")), element(OCTETS, public(b"\3\2\0\1")))
    asked = element(SET, element(SEQUENCE, *(one for _ in range(count))))
    return element(ATTRIBUTES, element(SEQUENCE, identifier(EXTENSION_REQUEST), asked))


def out_of_order(count):
    """Attributes in the reverse of their order."""
    whole = [*reversed(range(count))]
    kinds = (oid("1.3.6.1.4.1") + base_128(it + 16384) for it in whole)
    value = element(PRINTABLE, public(b"a"))
    return element(ATTRIBUTES, *(element(SEQUENCE, identifier(it), element(SET, value)) for it in kinds))


def key(count):
    inner = element(OCTETS, element(OCTETS, public(bytes(32))))
    return element(SEQUENCE, number(0), algorithm(ED25519), inner, attributes(count))


def package(count):
    return element(SEQUENCE, *(key(0) for _ in range(count)))


def in_segments(count):
    """A key whose octets are in segments of one octet."""
    cut = (element(OCTETS, public(b"\1")) for _ in range(count))
    return element(SEQUENCE, number(0), algorithm(oid("1.2.3")), element(OCTETS | 0x20, *cut))


SHAPES = {
    "request: attributes": ("request", request),
    "request: attributes, indefinite": ("request", lambda it: request(it, make=indefinite)),
    "request: attributes out of order": ("request", lambda it: request(0, given=out_of_order(it))),
    "request: attributes, and no signature": ("request", lambda it: request(it, after=False)),
    "request: names": ("request", lambda it: request(0, subject(it))),
    "request: extensions": ("request", lambda it: request(0, given=extensions(it))),
    "request: an identifier of arcs": ("request", lambda it: request(0, element(SEQUENCE, element(SET, element(
        SEQUENCE, element(IDENTIFIER, public(b"\x2a" + b"\1" * 8 * it)), element(PRINTABLE, public(b"a"))))))),
    "key: attributes": ("key", key),
    "key: segments of one octet": ("key", in_segments),
    "package: keys": ("package", package),
}


def run(program, kind, words, octets, before):
    """The standard error of a run."""
    words = [*before, program, "explain", "--kind", kind, *LIMITS, *words]
    ran = subprocess.run(words, input=octets, stdout=subprocess.DEVNULL, stderr=subprocess.PIPE)
    if ran.returncode not in (0, 1, 2):
        raise ValueError(f"status {ran.returncode}: {ran.stderr[:200]!r}")
    return ran.stderr.decode()


def instructions(program, kind, words, octets):
    said = run(program, kind, words, octets, ["valgrind", "--tool=callgrind", "--callgrind-out-file=/dev/null"])
    return int(re.search(r"Collected : (\d+)", said)[1])


def memory(program, kind, words, octets):
    """The most memory of a process, in octets."""
    # (what a process of Python waits for has as much as that process had, so time(1) stands between them)
    return 1024 * int(run(program, kind, words, octets, ["time", "-qf", "%M"]))


def counted(program, kind, words, documents):
    """The instructions of a process on each of the documents beyond those on no octets, and memory on the last."""
    empty, least = (count(program, kind, words, b"") for count in (instructions, memory))
    taken = [instructions(program, kind, words, it) - empty for it in documents]
    return taken, (memory(program, kind, words, documents[-1]) - least) / len(documents[-1])


def rows(program):
    """The lines of the table, each with whether the bounds are met."""
    with ThreadPoolExecutor(AT_ONCE) as pool:
        asked = []
        for name, (kind, make) in SHAPES.items():
            documents = [make(PARTS * it).octets for it in (1, 2, 4)]
            said = answer("check", kind, documents[0], limit=2**31 - 1)
            if said[0] == 2 and "Missing" not in said[2]:
                raise ValueError(f"{name}: {said[2]}")
            for way, words in WAYS.items():
                asked.append((name, way, documents, pool.submit(counted, program, kind, words, documents)))
        for name, way, documents, count in asked:
            taken, kept = count.result()
            growths = [more / less for less, more in zip(taken, taken[1:])]
            octets = ", ".join(f"{it / len(octets):.0f}" for it, octets in zip(taken, documents))
            grown = ", ".join(f"{it:.2f}" for it in growths)
            is_met = max(growths) <= MOST_GROWTH and kept <= MOST_MEMORY
            said = f"{kept:.0f} |" if is_met else f"{kept:.0f}, **not met** |"
            yield f"| {name} | {way} | {len(documents[-1]):,} | {octets} | {grown} | {said}", is_met


def main(words):
    if len(words) != 1:
        sys.exit(__doc__)
    print("| Document | As | Octets | Instructions an octet | Growth | Memory for an octet |")
    print("|---|---|---|---|---|---|")
    missed = 0
    for line, is_met in rows(os.path.abspath(words[0])):
        missed += not is_met
        print(line, flush=True)
    print(f"{missed} bounds not met")
    return 1 if missed else 0


if __name__ == "__main__":
    sys.exit(main(sys.argv[1:]))
