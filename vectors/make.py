#!/usr/bin/env python3
"""make.py [--check | --counts]: makes the files of vectors in this folder, of the rows, of examples/ and of documents
that are made; --check says whether they are as they would be made, and --counts what each of them has.

A document becomes a test where it shows something that no earlier one of its file showed. It fails where a reason or a
rule of docs/formats.md isn't shown (vectors/rules.py). The last line is 'vectors: N passed, M failed', a file counting
once, and a rule."""
import json
import sys
from collections import Counter
from pathlib import Path

TOP = sys.path[0] = str(Path(__file__).resolve().parents[1])
from tests.oracle.reader import DEPTH, KINDS, OCTETS
from vectors import VERSION, rules
from vectors.judging import Judged
from vectors.sources import all_of, type_name

FOLDER = f"{TOP}/vectors"
STANDARDS = {"key": "RFC 5958 section 2", "ec": "RFC 5915 section 3", "request": "RFC 2986 section 4",
             "public": "RFC 5280 section 4.1", "encrypted": "RFC 5958 section 3", "package": "RFC 5958 section 2"}
HEADER = ["Documents of one kind, each with what is due of it. vectors/README.md says how to use them.",
          "Made by vectors/make.py: do not edit. All keys are public: use none of them."]
NOTES = {
    "profile": "A choice of pkder, for which there is no clause, or which departs from the clauses that are named.",
    "limit": "The reason is a limit of depth or of octets, which the caller sets: it is that of the group.",
    "values": "The key isn't a real one, or a short one: a reader that looks at its values may refuse it.",
    "signature": "The signature isn't that of the key: a reader that verifies it may refuse the request.",
}
# The most octets of all files, and how many tests they may have.
MOST = 2_000_000
TESTS = range(2_000, 5_001)


class Chosen:
    """A test: a document that shows something new, with what that is."""

    def __init__(self, judged, new):
        self.judged, self.new = judged, new

    def comment(self):
        """Why it is there: what it shows that no test before it did; of several things one."""
        told = self.judged.told() if self.judged.fault else max(self.new, key=lambda it: (len(it), it))
        return f"{self.judged.asked.words}; new: {told}"

    def answer(self):
        """What is due."""
        judged = self.judged
        if judged.fault is None:
            found = {"der": judged.der.hex(), "taken": len(judged.asked.octets)}
            return found | ({} if judged.differs_at is None else {"notDerAt": judged.differs_at})
        found = {"reason": judged.fault.reason, "place": judged.fault.place}
        inside = judged.fault.inside
        return found | ({"inside": {"reason": inside.reason, "place": inside.place}} if inside else {})

    def test(self, number):
        judged = self.judged
        found = {"tcId": number, "comment": self.comment(), "flags": sorted(judged.flags),
                 "document": judged.asked.octets.hex(), "result": judged.result, **self.answer()}
        return found | ({"clauses": judged.clauses} if judged.clauses else {})


def chosen(kind):
    """The tests of a kind, in their order."""
    seen, found = set(), []
    for asked in all_of(kind):
        judged = Judged(asked)
        new = judged.shows - seen
        if new:
            seen |= new
            found.append(Chosen(judged, new))
    return found


def groups(tests):
    """The tests by the limits of the call, the usual ones first."""
    found = {(DEPTH, OCTETS): []}
    for it in tests:
        found.setdefault((it.judged.asked.depth, it.judged.asked.limit), []).append(it)
    return found


def text_of(kind, tests):
    """The text of a file: a line for each test."""
    head = {"algorithm": type_name(kind), "kind": kind, "standard": STANDARDS[kind], "schema": "schema.json",
            "generatorVersion": VERSION, "numberOfTests": len(tests), "header": HEADER, "notes": NOTES}
    number, parts = 0, []
    for (depth, octets), members in groups(tests).items():
        lines = []
        for it in members:
            number += 1
            lines.append(json.dumps(it.test(number), ensure_ascii=False))
        told = {"type": "DocumentTest", "depth": depth, "octets": octets}
        parts.append(f'{json.dumps(told)[:-1]}, "tests": [\n' + ",\n".join(lines) + "\n]}")
    return f'{json.dumps(head, indent=1)[:-2]},\n "testGroups": [\n' + ",\n".join(parts) + "\n]}\n"


def made():
    """The text of each file, and its tests, by the kinds."""
    for kind in KINDS:
        tests = chosen(kind)
        yield kind, tests, text_of(kind, tests)


def main(words):
    if words not in ([], ["--check"], ["--counts"]):
        sys.exit(__doc__)
    failed, size, all_tests, looked = [], 0, {}, len(rules.RULES) + len(KINDS)
    for kind, tests, text in made():
        name = f"{FOLDER}/{kind}.json"
        size, all_tests[kind] = size + len(text.encode()), [it.judged for it in tests]
        results = Counter(it.judged.result for it in tests)
        print(f"{kind}: {len(tests)} tests, {len(text.encode())} octets:", *(f"{results[it]} {it}" for it in results))
        if words == ["--check"] and (not Path(name).is_file() or Path(name).read_text(encoding="utf-8") != text):
            failed.append(f"{kind}.json isn't as it would be made: run vectors/make.py")
        elif not words:
            Path(name).write_text(text, encoding="utf-8")
    failed += rules.lacking(all_tests)
    if size > MOST:
        failed.append(f"all files have {size} octets, and may have {MOST}")
    number = sum(map(len, all_tests.values()))
    if number not in TESTS:
        failed.append(f"there are {number} tests, and there may be {TESTS[0]} to {TESTS[-1]}")
    print("\n".join([*failed, f"vectors: {max(0, looked - len(failed))} passed, {len(failed)} failed"]))
    return 1 if failed else 0


if __name__ == "__main__":
    sys.exit(main(sys.argv[1:]))
