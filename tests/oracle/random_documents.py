#!/usr/bin/env python3
"""random_documents.py [--seed N] [--count N] [--first N] [--whole] [--action A].. [PROGRAM..]: random documents, handed
to tests/oracle/reader.py and to each program: whether output, line and status agree.

The documents are those of tests/oracle/made_documents.py: of all kinds, in random layouts, some with mistakes, some
cut, changed or followed by further octets, under random limits, some with a standard input that fails after them or
comes in pieces; under --whole no input fails, for programs that read it to its end before they judge. A document is
made from the seed and its number alone: --first N --count 1 makes that one. Without a program the reader alone is
asked. The action is any of the four, or one of those that are named. What differs is shown as a row, as
tests/harness/rows.py reads it, with what the program says.

At the end stands how many documents were accepted and refused, and why. Each reason has to come where a thousand
documents or more are made; the last line is 'documents: N passed, M failed'."""
import argparse
import os
import random
import sys
import time
from collections import Counter
from pathlib import Path

sys.path[0] = str(Path(__file__).resolve().parents[2])
from tests.oracle.made_documents import Maker
from tests.oracle.parts import PARTS
from tests.oracle.questions import FAILING, PIECES, Question
from tests.oracle.reader import ACTIONS, DEPTH, KINDS, OCTETS, answer

REASONS = """Truncated TooLong BadTag PastEnd BadEnd TooDeep WrongTag Extra LeftOut WrongForm BadLength Missing
BadInteger BadBoolean BadNull BadBits BadOid BadText EmptySet Version Parameters Inner Curve KeyLength VersionRule
TextTooLong Trailing""".split()
MANY = 1000
# A terminal, which serves as a reader that fails, takes no more octets at once.
FAILING_OCTETS = 1000


def limit_near(chance, kind, octets):
    """A limit of octets near the lengths of the document and of its DER text, or any."""
    _, text, _ = answer("normalise", kind, octets)
    length, other = len(octets), len(text or octets)
    if length < other and chance.random() < 0.7:
        return chance.randint(length, other)
    near = chance.choice([length, other]) + chance.randint(-1, 1)
    return max(1, chance.choice([near, near, chance.randint(1, length + 1), 2**31 - 1]))


def made(seed, number, actions):
    """The question about the document of this number."""
    chance = random.Random(f"{seed} {number}")
    layouts = chance.choice([0, 0, 0.05, 0.3, 0.6])
    slips, layout_slips = chance.choice([(0, 0), (0, 0), (0.02, 0), (0.05, 0), (0.1, 0), (0.03, 0.005), (0, 0.01)])
    maker, kind = Maker(chance, layouts, slips, layout_slips), chance.choice([*KINDS])
    octets = maker.document(kind)
    if chance.random() < 0.2:
        octets = maker.changed(octets)
    if chance.random() < 0.03:
        kind = chance.choice([*KINDS])
    device = chance.choices(["", FAILING, *PIECES], [8, 1, 2])[0]
    if device == FAILING:
        octets = octets[: min(FAILING_OCTETS, chance.choice([len(octets), chance.randint(0, len(octets))]))]
    depth = chance.choice([chance.randint(1, 12), chance.randint(1, 64)]) if chance.random() < 0.12 else DEPTH
    limit = limit_near(chance, kind, octets) if chance.random() < 0.2 else OCTETS
    # (what is signed is a request)
    action, part = chance.choice(actions), chance.choice(PARTS)
    action = "normalise" if action == "signed" and kind != "request" else action
    return Question(f"document {number}", action, kind, octets, depth, limit, device, part)


def outcome(due):
    """What a document counts as: accepted, the name of its fault, or a read that failed."""
    status, _, error = due
    if status in (0, 1):
        return "accepted"
    return "read failed" if status == 3 else "Inner" if ": Inner inside" in error else error.rpartition(" ")[2]


def command_line(words):
    parser = argparse.ArgumentParser(description=__doc__, formatter_class=argparse.RawDescriptionHelpFormatter)
    parser.add_argument("--seed", default="1")
    parser.add_argument("--count", type=int, default=4000)
    parser.add_argument("--first", type=int, default=0)
    parser.add_argument("--whole", action="store_true", help="no input fails after the document")
    parser.add_argument("--action", choices=ACTIONS, action="append")
    parser.add_argument("programs", nargs="*", metavar="PROGRAM")
    return parser.parse_args(words)


def main(words):
    asked, began = command_line(words), time.monotonic()
    programs = [os.path.abspath(it) for it in asked.programs]
    outcomes, agreed = Counter(), Counter()
    for number in range(asked.first, asked.first + asked.count):
        question = made(asked.seed, number, asked.action or [*ACTIONS])
        if asked.whole and question.device == FAILING:
            question.device = ""
        due = question.due()
        outcomes[outcome(due)] += 1
        agreed[question.is_answered(due, programs)] += 1
    missed = [it for it in REASONS if not outcomes[it]] if asked.count >= MANY else []
    print(", ".join(f"{name} {count}" for name, count in outcomes.most_common()))
    seconds = time.monotonic() - began
    print(f"{asked.count} documents in {seconds:.0f} s", *(f"none was {it}" for it in missed), sep="; ")
    failed = agreed[False] + len(missed)
    print(f"documents: {agreed[True]} passed, {failed} failed", flush=True)
    return 1 if failed else 0


if __name__ == "__main__":
    sys.exit(main(sys.argv[1:]))
