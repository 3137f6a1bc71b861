#!/usr/bin/env python3
"""noted_names.py [--seed WORD] [--count N] PROGRAM..: what `explain --json` notes on names, beside
tests/oracle/noted_names.py.

Of each request that is accepted, of examples/ and tests/pkder/explained, of the tables in tests/pkder, of those that
openssl makes, and of random ones whose names are on both sides of what is noted (tests/oracle/made_names.py), the codes
of the notes on names and their levels are compared, in their order; where there are as many notes as are shown at most,
those that are shown. The requests that openssl makes have no note on names that says `must`.

The random documents are the same in each run unless a seed is given. Where a thousand or more are made each code has to
come. The last line is 'explained_noted_names: N passed, M failed'."""
import argparse
import functools
import random
import sys
from collections import Counter
from pathlib import Path

sys.path[0] = str(Path(__file__).resolve().parents[2])
from tests.explained.documents import Document, answer, documents, objects_in, try_all
from tests.oracle.made_names import NamesMaker
from tests.oracle.noted_names import MUST, SHOULD, noted_names
from tests.oracle.reader import DEPTH
from tests.oracle.requests_of_tools import made_by_openssl

COUNT = 2000
MANY = 1000
MOST = 100
LEVELS = {**dict.fromkeys(MUST, "must"), **dict.fromkeys(SHOULD, "should")}


def random_documents(seed, count):
    """Random requests, some under another limit on depth."""
    chance = random.Random(seed)
    for number in range(count):
        octets = NamesMaker(chance, chance.choice([0, 0, 0.1, 0.3])).document("request")
        depth = chance.randint(8, 14) if chance.random() < 0.2 else DEPTH
        yield Document(f"random request {number} of seed {seed}", "request", octets, depth)


def cases(seed, count):
    """What looks at a program's report of each request that is accepted; at last what the requests lacked."""
    told = Counter()
    of_tools = [Document(*it) for it in made_by_openssl(seed)]
    for it in [*documents("tests/pkder/explained"), *of_tools, *random_documents(seed, count)]:
        if it.kind == "request" and it.accepted():
            due = noted_names(it.octets, it.depth, it.limit)
            told.update(due)
            yield it.name, functools.partial(wrong_in, it, due, it in of_tools)
    lacking = [f"there is none: {it}" for it in LEVELS if not told[it]] if count >= MANY else []
    yield "all requests", lambda _: lacking


def wrong_in(document, due, is_of_tool, program):
    """What is wrong with the notes of a request, of which these are due."""
    status, output, error = answer(program, document.words("explain", "--json"), document.octets)
    if status > 1 or error:
        return [f"status {status}, {error[:200]!r}"]
    notes = objects_in(output).get("notes", [])
    found = [(it["what"], it["level"]) for it in notes if it["what"] in LEVELS]
    expected = [(code, LEVELS[code]) for code in due]
    if found != (expected[: len(found)] if len(notes) == MOST else expected):
        return [f"{found}, and not {expected}\n  {document.octets.hex()[:2000]}"]
    return [f"a tool's request has {it}" for it in notes if is_of_tool and LEVELS.get(it["what"]) == "must"]


def main(words):
    parser = argparse.ArgumentParser(description=__doc__, formatter_class=argparse.RawDescriptionHelpFormatter)
    parser.add_argument("--seed", default="names")
    parser.add_argument("--count", type=int, default=COUNT)
    parser.add_argument("programs", nargs="*", metavar="PROGRAM")
    asked = parser.parse_args(words)
    look = lambda program, case: case(program)
    return try_all("explained_noted_names", __doc__, asked.programs, cases(asked.seed, asked.count), look)


if __name__ == "__main__":
    sys.exit(main(sys.argv[1:]))
