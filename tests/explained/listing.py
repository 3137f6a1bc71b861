#!/usr/bin/env python3
"""listing.py [--seed WORD] [--count N] PROGRAM..: what `explain --json --all` tells of refused documents,
beside tests/oracle/report.py.

Of each document that is refused, of examples/ as each kind, of the tables in tests/pkder, of the files in
tests/pkder/explained, and of random ones, damaged or not, these are compared: the lines, each with its place, header,
length, end, depth, name, type, tag and value; the field; the class of what is found; the numbers; and what else the
file may be. The line of a fault's place alone has nothing but that place.

The random documents are the same in each run unless a seed is given. The last line is 'explained_listing: N passed, M
failed'."""
import argparse
import os
import random
import re
import sys
from pathlib import Path

TOP = sys.path[0] = str(Path(__file__).resolve().parents[2])
from tests.explained.documents import Document, answer, documents, objects_in, try_all
from tests.explained.reports import FOLDER, blocks
from tests.oracle.made_documents import Maker
from tests.oracle.reader import KINDS
from tests.oracle.report import CLASSES, report

COUNT = 3000
SHOWN = 4
COMPARED = ("file_at", "field", "missing", "over", "more", "looks_like")


def of_blocks():
    """The files of tests/pkder/explained."""
    for block in blocks():
        path = f"{FOLDER}/{block['document'][0].partition(': ')[0]}"
        with open(path, "rb") as it:
            yield Document(os.path.relpath(path, TOP), block["kind"][0], it.read())


def random_documents(seed, count):
    """Random documents, some damaged, some read as another kind."""
    chance = random.Random(seed)
    for number in range(count):
        kind, layouts = chance.choice([*KINDS]), chance.choice([0, 0, 0.3])
        maker = Maker(chance, layouts, chance.choice([0, 0.05]), chance.choice([0, 0.01]))
        octets = maker.document(kind)
        for _ in range(chance.choice([0, 1, 1, 2])):
            octets = maker.changed(octets)
        kind = chance.choice([*KINDS]) if chance.random() < 0.1 else kind
        depth = chance.randint(1, 9) if chance.random() < 0.05 else 32
        limit = max(1, len(octets) + chance.randint(-9, 1)) if chance.random() < 0.05 else 1048576
        yield Document(f"random document {number} of seed {seed}", kind, octets, depth, limit)


def cases(seed, count):
    """The documents that are refused, with what is due of each."""
    for it in [*documents(), *of_blocks(), *random_documents(seed, count)]:
        if due := report(it.octets, it.kind, it.depth, it.limit):
            yield it.name, (it, due.whole())


def wrong_in_lines(found, due):
    """What is wrong with the lines."""
    places = [it.get("at") for it in found], [it["at"] for it in due]
    if places[0] != places[1]:
        yield f"lines at {places[0]}, and not at {places[1]}"
        return
    for line, due_line in zip(found, due):
        if "depth" not in due_line:
            # (the line of a fault's place alone, which may be put at any depth)
            line = {key: it for key, it in line.items() if key != "depth"}
        if line != due_line:
            yield f"line {line}, and not {due_line}"


def wrong_in_class(found, due):
    """What is wrong with the class of what is found."""
    text, class_ = found.get("found", ""), due.get("class")
    if class_ and class_ not in text:
        yield f"found {text!r}, and not {class_}"
    others = [it for it in CLASSES.values() if it != class_ and re.search(rf"(^|\W){re.escape(it)}($|\W)", text)]
    is_told = any(it["at"] == due["at"] and "tag" in it for it in due["lines"])
    if others and not is_told and due["reason"] not in ("Missing", "Truncated", "Trailing"):
        yield f"found {text!r}, and not {class_}"
    numbers = re.sub(re.escape(class_ or "UTF8String"), "", text)
    if re.search(r"\d", numbers) and not (is_told or {"missing", "more"} & due.keys()) and not due["lines"]:
        yield f"found {text!r}, with a number"


def wrong(program, case):
    """What is wrong with what the program says of a document, of which this is due."""
    document, due = case
    found = objects_in(answer(program, document.words("explain", "--json", "--all"), document.octets)[1])
    said = [f"{key} {found.get(key)!r}, and not {due.get(key)!r}" for key in COMPARED if found.get(key) != due.get(key)]
    said += [*wrong_in_lines(found.get("lines", []), due["lines"]), *wrong_in_class(found, due)]
    if said:
        line = document.due()[1]
        yield f"{document.kind}, {line}\n  {document.octets.hex()[:600]}\n  " + "\n  ".join(said[:SHOWN])


def main(words):
    parser = argparse.ArgumentParser(description=__doc__, formatter_class=argparse.RawDescriptionHelpFormatter)
    parser.add_argument("--seed", default="listing")
    parser.add_argument("--count", type=int, default=COUNT)
    parser.add_argument("programs", nargs="*", metavar="PROGRAM")
    asked = parser.parse_args(words)
    return try_all("explained_listing", __doc__, asked.programs, cases(asked.seed, asked.count), wrong)


if __name__ == "__main__":
    sys.exit(main(sys.argv[1:]))
