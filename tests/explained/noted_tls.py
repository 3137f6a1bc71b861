#!/usr/bin/env python3
"""noted_tls.py PROGRAM..: what `explain --json --profile=tls` notes for TLS servers, beside tests/oracle/noted_tls.py.

Of each document the notes under the profile are those that it has without it, and after them those that are due: their
codes, levels, fields, places and numbers are compared, in their order, and where there are as many as are told at most,
the first ones. Whether the brief answer names notes goes by all of them; nothing else in the report is another. The
documents are the files of examples/ and of tests/pkder/explained as each kind, those of the tables in tests/pkder,
requests and public keys that openssl makes, and random ones (tests/oracle/made_tls.py), among them private keys of RSA.

The seed is told, and SEED in the environment is another one; COUNT is how many random ones are made. Where a thousand
or more are, all that may be noted has to come. The last line is 'explained_noted_tls: N passed, M failed', a document
counting once."""
import json
import os
import random
import sys
from collections import Counter, defaultdict
from pathlib import Path

sys.path[0] = str(Path(__file__).resolve().parents[2])
from tests.explained.asked_reports import Program
from tests.explained.documents import Document, documents
from tests.oracle.made_tls import TlsMaker
from tests.oracle.noted_tls import LEVELS, Served
from tests.oracle.reader import DEPTH
from tests.oracle.requests_of_tools import made_by_openssl, tools_that_lack
from tools.gate.looks import counted

COUNT, MANY = 3000, 1000
# How many documents a program is handed at once, and how many notes a report has at most.
AT_ONCE, MOST = 1000, 100
KINDS = ["request"] * 6 + ["public"] * 3 + ["key", "package"]
# What a program says of documents: without the profile, and under it.
COMMANDS = ("explain --json", "explain --json --profile=tls")
SAID_OF_NOTES = ("notes", "brief")
SEE_NOTES = "Other standards forbid what is in it"


def random_documents(seed, count):
    """Random documents, some under another limit on depth."""
    chance = random.Random(seed)
    for number in range(count):
        kind = chance.choice(KINDS)
        octets = TlsMaker(chance, chance.choice([0, 0, 0.1, 0.3])).document(kind)
        depth = chance.randint(8, 14) if chance.random() < 0.1 else DEPTH
        yield Document(f"random {kind} {number} of seed {seed}", kind, octets, depth)


def due_of(document):
    """The notes that are due of a document; None of one that is refused."""
    if not document.accepted():
        return None
    return Served(document.kind, document.octets, document.depth, document.limit).notes()


def batches(given):
    """Lists of documents with what is due of them, each of one kind and under the same limits."""
    found = defaultdict(list)
    for it in given:
        found[it.kind, it.depth, it.limit].append((it, due_of(it)))
    for cases in found.values():
        yield from (cases[at : at + AT_ONCE] for at in range(0, len(cases), AT_ONCE))


def wrong_in(general, under, due):
    """What is wrong with a report under the profile, beside the one without it."""
    notes, found = general.get("notes", []), under.get("notes", [])
    expected = (notes + (due or []))[:MOST]
    if found != expected:
        at = next((at for at, pair in enumerate(zip(found, expected)) if pair[0] != pair[1]), len(expected))
        yield f"{len(notes)} notes without the profile, then {found[at : at + 2]}, and due are {expected[at : at + 2]}"
    others = [{key: value for key, value in it.items() if key not in SAID_OF_NOTES} for it in (general, under)]
    if others[0] != others[1]:
        yield "something but the notes is another"
    if due is not None and (SEE_NOTES in under["brief"]) != any(it["level"] == "must" for it in found):
        yield f"brief: {under['brief']!r}"


def looks_at(program, cases):
    """Each document of a list, with whether its notes are those that are due."""
    first = cases[0][0]
    limits = first.words("explain")[3:]
    with program.files([it.octets for it, _ in cases]) as folder:
        said = [program.said(folder, first.kind, [*it.split(), *limits], len(cases)) for it in COMMANDS]
    for (it, due), *texts in zip(cases, *said):
        wrong = [*wrong_in(*map(json.loads, texts), due)]
        yield "\n  ".join([f"{program.name}: {it.name}", *wrong, it.octets.hex()[:600]]), not wrong


def told(cases):
    """How often each thing is due in these documents."""
    found = Counter()
    for _, due in cases:
        found.update(it["what"] for it in due or [])
        found["more notes than a report has"] += len(due or []) > MOST
        found["nothing"] += due == []
    return found


def looks(programs, seed, count):
    """All that is looked at."""
    made = [Document(name, kind, octets) for name, kind, octets in made_by_openssl(seed)]
    found = [*batches([*documents("tests/pkder/explained"), *made, *random_documents(seed, count)])]
    come = sum(map(told, found), Counter())
    lacking = [it for it in (*LEVELS, "more notes than a report has", "nothing") if not come[it]]
    yield from ((f"no document has {it}", False) for it in lacking if count >= MANY)
    for program in programs:
        for cases in found:
            yield from looks_at(program, cases)


def main(words):
    seed, count = os.environ.get("SEED", "tls"), int(os.environ.get("COUNT", COUNT))
    if not words:
        sys.exit(__doc__)
    print(f"seed {seed}", *(f"; left out: {it}" for it in tools_that_lack()), sep="")
    return counted("explained_noted_tls", looks([Program(os.path.abspath(it)) for it in words], seed, count))


if __name__ == "__main__":
    sys.exit(main(sys.argv[1:]))
