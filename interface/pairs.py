#!/usr/bin/env python3
"""pairs.py CALLS.tsv PAIRS.tsv: pairs of documents, and whether they are the same, in one form for all callers.

Each line has seven cells between tabs: rule, kind, depth, octets, the first and the second document in hex, and the
answer: 'the same', 'another', or which of the two is refused and why, as 'second: fault at 20: Truncated'.

They are made of the rows of `normalise` in a table by calls.py, whose texts come from standards and other tools: a
document is the same as its text, and as another document just where their texts are equal; one that is refused is the
same as none, itself among them. So each is put beside the last document and the last refused one of its kind. And of
the rows of a table by hand, PAIRS.tsv: rule, kind, first, second, answer, which tests/harness/rows.py tells how to
write, with files of examples/. Pairs of documents are told both ways round."""
import sys
from pathlib import Path

TOP = sys.path[0] = str(Path(__file__).resolve().parents[1])
from interface.calls import USUAL
from tests.harness import rows

EXAMPLES = f"{TOP}/examples"
# Digits in hex.
LONG = 20000


def answer(first, second):
    """What is due of two documents, each by its text, or by None and its line."""
    for which, (text, line) in ("first", first), ("second", second):
        if text is None:
            return f"{which}: {line}"
    return "the same" if first[0] == second[0] else "another"


class Given:
    """Octets that are given, and what is due of them: their text, or None and a line."""

    def __init__(self, octets, text, line):
        self.octets, self.due = octets, (text, line)


def pairs_of(calls):
    """Pairs of the rows of `normalise`: rule, kind, limits, and the two."""
    last = {}
    for rule, words, given, _, output, error in (it.split("\t") for it in calls):
        command, _, kind, _, depth, _, octets = words.split(" ")[:7]
        if command != "normalise":
            continue
        it = Given(given, None if error else output, error)
        where = kind, depth, octets
        text = Given(output, output, "")
        before = [last[where, is_refused] for is_refused in (False, True) if (where, is_refused) in last]
        yield rule, where, it, it
        for other in [*([] if error else [text]), *before]:
            yield rule, where, it, other
            yield rule, where, other, it
        # (long ones stand beside their own texts alone, so that the table doesn't get long)
        if len(given) < LONG:
            last[where, bool(error)] = it


def lines_of(table):
    """The lines of pairs that are written by hand."""
    usual = USUAL["depth"], USUAL["octets"]
    with open(table, encoding="utf-8") as it:
        found = [line.split("\t") for line in it.read().splitlines() if not line.startswith("#")]
    for rule, kind, *given, due in found:
        first, second = (rows.octets_of(it, EXAMPLES).hex() for it in given)
        yield "\t".join([rule, kind, *usual, first, second, due])
        if due in ("the same", "another"):
            yield "\t".join([rule, kind, *usual, second, first, due])


def main(words):
    if len(words) != 2:
        sys.exit(__doc__)
    with open(words[0], encoding="utf-8") as it:
        calls = it.read().splitlines()
    made = ["\t".join([rule, *where, first.octets, second.octets, answer(first.due, second.due)])
            for rule, where, first, second in pairs_of(calls)]
    print("\n".join([*made, *lines_of(words[1])]))


if __name__ == "__main__":
    main(sys.argv[1:])
