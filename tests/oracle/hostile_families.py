#!/usr/bin/env python3
"""hostile_families.py [--all] PROGRAM..: families of faulty documents, made from rows that are accepted.

Of each document of ROWS, in tests/pkder:
  every proper prefix is Truncated at its length, and `read failed` there where standard input fails after it, as it
  is after the whole document;
  a document that differs from it in one octet gets what tests/oracle/reader.py answers, whole and octet by octet:
  with --all each of the 255 others at each place, both ways, which takes long; else a few of them, each in one way,
  the same ones each time.

What differs is shown as a row, as tests/harness/rows.py reads it, with what the program says. The last line is
'families: N passed, M failed'."""
import os
import random
import sys
from collections import Counter
from itertools import cycle
from pathlib import Path

TOP = sys.path[0] = str(Path(__file__).resolve().parents[2])
from tests.harness.rows import rows_of
from tests.oracle.questions import FAILING, PIECES, Question

TABLES = f"{TOP}/tests/pkder"
# The rows, by what they show.
ROWS = {
    "keys.tsv": ["the smallest usual key", "attributes and public key of indefinite length"],
    "inner_keys.tsv": ["secp256r1, the same curve inside", "version 1, another prime"],
    "ec_keys.tsv": ["a key in segments, and indefinite tags"],
    "requests.tsv": ["critical by another octet than FF", "the request of indefinite length"],
    "public_keys.tsv": ["indefinite lengths, and a key in segments"],
    "encrypted_keys.tsv": ["parameters in any layout (X.690 10.1)"],
    "packages.tsv": ["a key of indefinite length with a public key"],
}
FEW = 2


def questions():
    """The questions of the rows."""
    for table, rules in ROWS.items():
        rows = {row.rule: row for _, row in rows_of(os.path.join(TABLES, table))}
        yield from (Question.of_row(rows[it]) for it in rules)


def prefixes(question):
    """The prefixes of a document, with what is due."""
    for length in range(len(question.octets)):
        prefix = question.octets[:length]
        yield question.about(f"the first {length} octets", prefix), (2, b"", f"fault at {length}: Truncated")
    for length in range(len(question.octets) + 1):
        prefix = question.octets[:length]
        asked = question.about(f"a read that fails after {length} octets", prefix, FAILING)
        yield asked, (3, b"", f"read failed at {length}")


def changes(question, is_all):
    """The documents that differ in one octet, with what is due, whole and in pieces."""
    devices = cycle(("", *PIECES))
    for place, octet in enumerate(question.octets):
        values = [it for it in range(256) if it != octet]
        if not is_all:
            values = random.Random(f"{question.name} {place}").sample(values, FEW)
        for value in values:
            octets = question.octets[:place] + bytes([value]) + question.octets[place + 1 :]
            for device in ("", *PIECES) if is_all else [next(devices)]:
                asked = question.about(f"{value:02x} at {place}", octets, device)
                yield asked, asked.due()


def main(words):
    programs, whole = [os.path.abspath(it) for it in words if it != "--all"], Counter()
    if not programs:
        sys.exit(__doc__)
    for question in questions():
        counts = Counter()
        for asked, due in [*prefixes(question), *changes(question, "--all" in words)]:
            counts[asked.is_answered(due, programs)] += 1
        print(f"{question.kind}, {question.name}: {counts[True]} passed, {counts[False]} failed", flush=True)
        whole += counts
    print(f"families: {whole[True]} passed, {whole[False]} failed", flush=True)
    return 1 if whole[False] else 0


if __name__ == "__main__":
    sys.exit(main(sys.argv[1:]))
