#!/usr/bin/env python3
"""python3 -m tests.advice.intake PROGRAM LIBRARY [TOOL..]: pkder-intake, over this libpkder.so.0, on the files of
tests/advice/run.py.

Of each document that it finds in a file it says what PROGRAM says of the octets, and of everything else what it is. The
command that it names for what isn't ours is run, and it looks again. By tool it prints the files; the documents; those
that are judged otherwise than PROGRAM does; the files in which something isn't named; and of files without a document
of ours those that the command made one of, those that it didn't and another one does, and those of which none does.
The last line is 'N of M that can be mended were'. FILES is as it is for run.py."""
import collections
import os
import re
import shutil
import subprocess
import sys
import tempfile
from pathlib import Path

TOP = sys.path[0] = str(Path(__file__).resolve().parents[2])
from tests.advice import doing, other_ways, run, tools, walk

COLUMNS = ("files", "documents", "otherwise", "not named", "mended", "not mended", "can't be")
# What is said behind a command.
PROSE = re.compile(r",? (?:writes|which|of RSA|of an old one|of a set|then hand|none where)\b|;")
UNLOCKED = "cp FILE ONE; chmod 600 ONE; ssh-keygen -p -f ONE > SAID; from_openssh ONE"
RECIPE = re.compile(r"the manual's recipe (from_\w+ (?:< )?(?:FILE|NEW))")


def looked(octets):
    """What pkder.intake finds. (It is imported when the library is known.)"""
    from pkder.intake import find
    return find(octets)


def verdicts(program, documents):
    """What the program says of documents, by their places in the list."""
    said = {}
    with tempfile.TemporaryDirectory() as folder:
        by_kind = collections.defaultdict(list)
        for number, it in enumerate(documents):
            with open(f"{folder}/{number}", "wb") as file:
                file.write(it.octets)
            by_kind[it.kind.name.lower()].append(str(number))
        for kind, names in by_kind.items():
            ran = subprocess.run([program, "check", "--kind", kind, *names], cwd=folder, capture_output=True, text=True)
            for line in ran.stdout.splitlines():
                name, _, verdict = line.partition(": ")
                said[int(name)] = verdict
    return said


def steps_of(do):
    """The commands that are tried for what is said: one with what comes then, and what is said of other cases."""
    parts = [PROSE.split(it)[0] for it in do.split(", then ")]
    commands = [it for it in parts if doing.COMMAND.match(it) or it.startswith("gunzip")]
    if not commands:
        return
    first = doing.completed(commands[0].replace("gunzip FILE", "gunzip -c FILE"), b"")
    whole = "; ".join([first, *commands[1:]])
    yield whole
    option, recipe = re.search(r"of an old one with (-\w+)", do), RECIPE.search(do)
    if option:
        yield whole.replace(" -in", f" {option[1]} -in")
    if recipe:
        yield f"{first}; {recipe[1]}" if "NEW" in recipe[1] else recipe[1]
    if "with a password after ssh-keygen -p -f COPY" in do:
        yield UNLOCKED
    if "of a set after jq .keys[0]" in do:
        yield f"jq '.keys[0]' FILE > ONE; mv ONE FILE; {whole}"


def is_of(want, found):
    """Whether a document is taken that somebody has a use for."""
    return any(it.is_accepted and it.kind.name.lower() in other_ways.KINDS[want] for it in found)


def is_mended(path, want, found, folder, depth=0):
    """Whether what is said of a file leads to a document, on one way or the other; what comes of it may be something
    else, of which something is said."""
    commands = [command for it in found for command in steps_of(it.do or "")]
    for number, command in enumerate(commands):
        place = f"{folder}/{depth}-{number}"
        made, _ = doing.done(doing.Step(command=command), path, place, want == "encrypted")
        for each in {made, f"{place}/OUT"} if made else ():
            later = looked(doing.octets_of(each))
            if is_of(want, later):
                return True
            is_other = depth < 3 and {it.what for it in later} != {it.what for it in found}
            if is_other and is_mended(each, want, later, place, depth + 1):
                return True
    return False


def row(program, folder, lost):
    """The numbers of a tool; the files of which there is something to say are put into the list, with what is said."""
    files = run.files_of(folder)
    found = {it: looked(doing.octets_of(it)) for it in files}
    documents = [(path, it) for path, each in found.items() for it in each if it.octets is not None and it.kind]
    said = verdicts(program, [it for _, it in documents])
    otherwise = [path for number, (path, it) in enumerate(documents) if it.form != said[number]]
    unnamed = [path for path, each in found.items() if any(it.name == "none of these" for it in each)]
    counts = collections.Counter()
    for path, each in found.items():
        want = os.path.basename(path).split("-")[0]
        if is_of(want, each) or any(it.is_ours for it in each):
            continue
        with tempfile.TemporaryDirectory() as place:
            would = None
            if not is_mended(path, want, each, place):
                would = walk.helped(program, f"{place}/would", "", path, want) or ""
        counts["mended" if would is None else "not mended" if would else "can't be"] += 1
        if would is not None:
            lost.append((path, f"{each[0].name}: {each[0].said}\n        {would or 'nothing would have helped'}"))
    lost.extend((path, "judged otherwise") for path in otherwise)
    lost.extend((path, "not named") for path in unnamed)
    return (len(files), len(documents), len(otherwise), len(unnamed), *(counts[it] for it in COLUMNS[4:]))


def main(words):
    if len(words) < 2:
        sys.exit(__doc__)
    program, os.environ["PKDER_LIBRARY"] = map(os.path.abspath, words[:2])
    sys.path.append(f"{TOP}/interface/python/src")
    kept = os.environ.get("FILES")
    folder = os.path.abspath(kept) if kept else tempfile.mkdtemp()
    totals, lost = [0] * len(COLUMNS), []
    print(f"{'tool':14}" + "".join(f"{it:>12}" for it in COLUMNS), flush=True)
    for tool in tools.TOOLS:
        is_chosen = not words[2:] or tool.name in words[2:]
        if not is_chosen or tools.lacks(tool) or tools.make(tool, f"{folder}/{tool.name}")[0]:
            continue
        counts = row(program, f"{folder}/{tool.name}", lost)
        totals = [one + other for one, other in zip(totals, counts)]
        print(f"{tool.name:14}" + "".join(f"{it:12}" for it in counts), flush=True)
    if not kept:
        shutil.rmtree(folder)
    print(f"{'all':14}" + "".join(f"{it:12}" for it in totals))
    groups = collections.defaultdict(list)
    for path, said in lost:
        groups[said].append("/".join(path.split("/")[-2:]))
    for said, names in sorted(groups.items(), key=lambda it: -len(it[1])):
        print(f"{len(names):6}  {said}\n        {', '.join(names[:run.EXAMPLES])}")
    print(f"\n{totals[4]} of {totals[4] + totals[5]} that can be mended were")
    return 1 if totals[2] else 0


if __name__ == "__main__":
    sys.exit(main(sys.argv[1:]))
