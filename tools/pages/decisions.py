#!/usr/bin/env python3
"""decisions.py [--write]: the index of the decisions, docs/DECISIONS.md, compared with the files of docs/decisions.

An entry stands under a heading of a word and its number, as 'values 13', by which others cite it, and begins with what
was decided, in bold. The index has a line for each; --write writes it. The numbers of a word have no gap, so none is
lost. The last line is 'decisions: N passed, M failed'."""
import os
import re
import sys
from pathlib import Path

TOP = sys.path[0] = str(Path(__file__).resolve().parents[2])
from tools.gate.logic import text_of
from tools.gate.looks import counted

PAGE, FOLDER = "docs/DECISIONS.md", "docs/decisions"
ENTRY = re.compile(r"(?m)^## (\w+) ([0-9]+)\n\n\*\*(.+?)\*\*", re.DOTALL)


def entries():
    """Of each file its name, its title, its entries (word, number, what was decided), and how many headings it has."""
    for name in sorted(it for it in os.listdir(f"{TOP}/{FOLDER}") if it.endswith(".md")):
        text = text_of(f"{FOLDER}/{name}")
        found = [(word, int(number), " ".join(said.split()).rstrip(".")) for word, number, said in ENTRY.findall(text)]
        yield name, re.match(r"# Decisions: (.*)", text)[1], found, text.count("\n## ")


def index():
    """The lines of the index."""
    for name, title, found, _ in entries():
        yield f"\n## `decisions/{name}`: {title}\n"
        yield from (f"- [{word} {number}](decisions/{name}#{word}-{number}): {said}" for word, number, said in found)


def looks(page, due):
    """Each look at the files of entries, at the numbers of a word, and at the lines of the page and of the index."""
    numbers, lines = {}, page.split("\n")
    for name, _, found, headings in entries():
        what = "an entry has no heading of a word and a number, or doesn't begin in bold"
        yield f"{FOLDER}/{name}: {what}", len(found) == headings
        for word, number, _ in found:
            numbers.setdefault(word, []).append(number)
    for word, its in numbers.items():
        what = f"the numbers of '{word}' aren't 1 to {len(its)}, each once"
        yield f"{FOLDER}: {what}", sorted(its) == [*range(1, len(its) + 1)]
    yield from ((f"{PAGE} lacks: {it}", it.strip("\n") in lines) for it in due)
    yield from ((f"{PAGE} has: {it}", it in due) for it in lines if it.startswith("- ["))


def main(words):
    page, due = text_of(PAGE), [*index()]
    if words == ["--write"]:
        page = page.split("\n## ", 1)[0].rstrip("\n") + "\n" + "\n".join(due) + "\n"
        with open(f"{TOP}/{PAGE}", "w", encoding="utf-8") as it:
            it.write(page)
    return counted("decisions", looks(page, due))


if __name__ == "__main__":
    sys.exit(main(sys.argv[1:]))
