#!/usr/bin/env python3
"""noted.py PROGRAM..: the notes of `pkder explain` on extensions, algorithms, points and the subject, beside
tests/oracle/noted.py.

Of each document the codes and levels of such notes under --json are compared, in their order, but where a report has as
many notes as it may have. The documents are the files of examples/ and of tests/pkder/explained as each kind, those of
the tables in tests/pkder, requests and public keys that openssl makes, and random requests, keys and public keys
(tests/oracle/made_asking.py). The seed is told, and SEED in the environment is another one; COUNT is how many random
ones are made. Of all documents together each code has to come.

The last line is 'explained_noted: N passed, M failed', a document counting once."""
import json
import os
import sys
from collections import defaultdict
from pathlib import Path

sys.path[0] = str(Path(__file__).resolve().parents[2])
from tests.explained.asked_reports import Program
from tests.explained.asks import random_documents
from tests.explained.documents import Document, documents
from tests.oracle.noted import LEVELS, Noted
from tests.oracle.requests_of_tools import made_by_openssl, tools_that_lack
from tools.gate.looks import counted

COUNT = 2000
# How many documents a program is handed at once, and how many notes a report has at most.
AT_ONCE, MOST = 1000, 100


def due_of(document):
    """The codes that are due, with their levels; none of a document that is refused."""
    if not document.accepted():
        return []
    found = Noted(document.kind, document.octets, document.depth, document.limit).notes()
    return [(code, LEVELS[code]) for code, _ in found]


def batches(given):
    """Lists of documents with what is due of them, each of one kind and under the same limits."""
    found = defaultdict(list)
    for it in given:
        found[it.kind, it.depth, it.limit].append((it, due_of(it)))
    for cases in found.values():
        yield from (cases[at : at + AT_ONCE] for at in range(0, len(cases), AT_ONCE))


def looks_at(program, cases):
    """Each document of a list, with whether its notes are those that are due."""
    first = cases[0][0]
    with program.files([it.octets for it, _ in cases]) as folder:
        said = program.said(folder, first.kind, [*"explain --json".split(), *first.words("explain")[3:]], len(cases))
    for (it, due), text in zip(cases, said):
        notes = json.loads(text).get("notes", [])
        found = [(note["what"], note["level"]) for note in notes if note["what"] in LEVELS]
        is_right = found == due if len(notes) < MOST else found == due[: len(found)]
        yield f"{program.name}: {it.name}, {found}, and due are {due}\n  {it.octets.hex()[:600]}", is_right


def looks(programs, seed, count):
    """All that is looked at."""
    made = [Document(name, kind, octets) for name, kind, octets in made_by_openssl(seed)]
    found = [*batches([*documents("tests/pkder/explained"), *made, *random_documents(seed, count)])]
    come = {code for cases in found for _, due in cases for code, _ in due}
    yield from ((f"no document has {it}", False) for it in LEVELS if it not in come)
    for program in programs:
        for cases in found:
            yield from looks_at(program, cases)


def main(words):
    seed, count = os.environ.get("SEED", "noted"), int(os.environ.get("COUNT", COUNT))
    if not words:
        sys.exit(__doc__)
    print(f"seed {seed}", *(f"; left out: {it}" for it in tools_that_lack()), sep="")
    return counted("explained_noted", looks([Program(os.path.abspath(it)) for it in words], seed, count))


if __name__ == "__main__":
    sys.exit(main(sys.argv[1:]))
