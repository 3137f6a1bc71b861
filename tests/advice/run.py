#!/usr/bin/env python3
"""python3 -m tests.advice.run PROGRAM [TOOL..]: what pkder says of files that tools make, done on these files.

Each tool (tools.py has all; those that are named, else each that the machine has) writes keys and requests in the forms
that its users have. PROGRAM explains each file as each kind that fits. Where it is refused or isn't in DER, the command
that `do` names is run on it, else the one that docs/manual.md names for it, and PROGRAM is asked about what that wrote,
until a document is accepted or nothing more is said. FILES keeps the files, and takes those that are there; it is a
temporary folder unless said otherwise.

By tool it prints the files; how many of them are in DER, not in DER, and refused, once PEM and other texts are decoded
as is said; and of the last two those that were mended, of these by the manual alone, those that weren't and could have
been, and those that can't be mended. WORDS=1 lists what was said, and how often it helped. Then come the files where it
didn't, and what would have. The last line is 'N of M that can be mended were'. It runs on one processor, for some ten
minutes where it makes the files."""
import collections
import os
import re
import shutil
import sys
import tempfile
from pathlib import Path

TOP = sys.path[0] = str(Path(__file__).resolve().parents[2])
from tests.advice import tools, walk

COLUMNS = ("files", "DER", "not DER", "refused", "mended", "by manual", "not mended", "can't be")
# As many files as are named of those where the same would have helped.
EXAMPLES = 3


def files_of(folder):
    """The files that somebody has for an end, which their names begin with."""
    return [f"{folder}/{it}" for it in sorted(os.listdir(folder)) if it.split("-")[0] in walk.other_ways.KINDS]


def outcomes(program, tool, folder):
    """What becomes of the files of a tool."""
    for path in files_of(folder):
        place = tempfile.mkdtemp()
        try:
            yield walk.outcome(program, place, tool.name, path)
        finally:
            shutil.rmtree(place)


def row(found):
    """The numbers of a tool."""
    is_changed = [it for it in found if it.came != walk.DER or not it.is_sound]
    count = collections.Counter(it.came for it in found)
    mended = [it for it in is_changed if it.is_sound]
    lost = [it for it in is_changed if not it.is_sound]
    return (len(found), count[walk.DER], count[walk.NOT_DER], count[walk.REFUSED], len(mended),
            sum(it.by == "manual" for it in mended), sum(bool(it.would) for it in lost),
            sum(not it.would for it in lost))


def without_numbers(text):
    """Words without what differs from file to file."""
    return re.sub(r"\b\d{2,}\b", "N", text)


def print_words(found):
    """What was said, how often it was done, and how often it helped."""
    count = collections.defaultdict(collections.Counter)
    for tried in (it for each in found for it in each.tried):
        words = tried.words if tried.source == "explain" else f"(the manual) {tried.command}"
        count[without_numbers(words)][tried.worked] += 1
    print("\nhelped, of so many times that it was done:")
    for words, each in sorted(count.items(), key=lambda it: -sum(it[1].values())):
        print(f"{each[True]:6} {sum(each.values()):6}  {words}")


def print_lost(title, found, says):
    """The files of a list, by what is to be said of them."""
    groups = collections.defaultdict(list)
    for it in found:
        tool, name = it.file.split("/")[-2:]
        groups[without_numbers(says(it))].append(f"{tool}/{name}")
    if groups:
        print(f"\n{title}:")
    for said, names in sorted(groups.items(), key=lambda it: -len(it[1])):
        print(f"{len(names):6}  {said}\n        {', '.join(names[:EXAMPLES])}")


def by_manual(outcome):
    """What explain said of a file, and what the manual did."""
    return next(f"{it.words}\n        {it.command}" for it in outcome.tried if it.worked and it.source == "manual")


def told(chosen, program, folder):
    """Prints the table, and gives all outcomes and the tools that failed."""
    print(f"{'tool':14}" + "".join(f"{it:>11}" for it in COLUMNS), flush=True)
    all_found, failed = [], []
    for tool in chosen:
        lack = tools.lacks(tool)
        if lack:
            print(f"{tool.name:14} left out: no {lack} (Debian: {tool.packages})", flush=True)
            continue
        status, said = tools.make(tool, f"{folder}/{tool.name}")
        if status:
            failed.append(tool.name)
            print(f"{tool.name:14} its maker failed: {said}", flush=True)
        found = [*outcomes(program, tool, f"{folder}/{tool.name}")]
        print(f"{tool.name:14}" + "".join(f"{it:11}" for it in row(found)), flush=True)
        all_found += found
    return all_found, failed


def main(words):
    names = words[1:]
    unknown = {*names} - {it.name for it in tools.TOOLS}
    if not words or unknown:
        sys.exit(f"{__doc__}\n{' '.join(it.name for it in tools.TOOLS)}")
    chosen = [it for it in tools.TOOLS if not names or it.name in names]
    kept = os.environ.get("FILES")
    folder = os.path.abspath(kept) if kept else tempfile.mkdtemp()
    try:
        found, failed = told(chosen, os.path.abspath(words[0]), folder)
    finally:
        if not kept:
            shutil.rmtree(folder)
    totals = row(found)
    print(f"{'all':14}" + "".join(f"{it:11}" for it in totals))
    if os.environ.get("WORDS"):
        print_words(found)
    lost = [it for it in found if not it.is_sound]
    print_lost("mended as the manual alone says", [it for it in found if it.is_sound and it.by == "manual"], by_manual)
    print_lost("not mended by what was said, and what would have", [it for it in lost if it.would],
               lambda it: f"{it.said}\n        {it.would}")
    print_lost("can't be mended", [it for it in lost if not it.would], lambda it: it.said)
    others = [it for it in found if it.is_same is False]
    print_lost("mended into another key", others, lambda it: it.said or "see what was done")
    print(f"\n{totals[4]} of {totals[4] + totals[6]} that can be mended were")
    return 1 if failed or others else 0


if __name__ == "__main__":
    sys.exit(main(sys.argv[1:]))
