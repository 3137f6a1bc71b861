#!/usr/bin/env python3
"""tried_rows.py [TABLE.tsv..]: a choice of rows (tests/harness/rows.py), on the program as it is made for a try,
unproved.

`rt try --cases` builds it once, which takes a minute or so, and then takes a second a row. So a row is chosen where it
shows what none before it did: a command on a kind or a part, a status, or a line on standard error but for its places.
Rows with a device, or with octets in their words that aren't letters, are left out, since a case can't have them; and
standard error is looked at only where something is due there, since `rt try` shows it in no other case.

The last line is 'tried: N passed, M failed', a row counting once."""
import glob
import itertools
import os
import re
import subprocess
import sys
import tempfile
from pathlib import Path

TOP = sys.path[0] = str(Path(__file__).resolve().parents[2])
from tests.harness import rows
from tools.gate.looks import counted

# `rt try` shows standard error where standard output isn't what is due, so where a line is due there, this is
NONE_SUCH = b"no such output"
ERROR = "the end of the program's standard error:"


def shows(row):
    """What a row shows: its command with its kind or part, its status, and its line but for places."""
    words = row.words.split()
    options = dict(zip(words, words[1:]))
    what = options.get("--kind") or options.get("--part")
    line = re.sub("[0-9]+", "N", row.error)
    return {(words[0] if words else "", what), (what, row.status), (what, line)}


def chosen(tables):
    """The rows that show what no row before them shows, by a name for each."""
    seen, found = set(), {}
    for table in tables:
        for number, row in rows.rows_of(table):
            if not row.device and "\\" not in row.words and shows(row) - seen:
                seen |= shows(row)
                found[f"{os.path.basename(table)[:-4]}-{number}"] = table, number, row
    return found


def write_case(folder, name, row):
    """Writes what `rt try --cases` reads of a row."""
    words = rows.words_of(row.words)
    due = NONE_SUCH if row.error else row.output
    for ending, octets in ("", row.input), (".args", "".join(f"{it}\n" for it in words).encode()), (".stdout", due):
        if octets is not None:
            with open(f"{folder}/{name}{ending}", "wb") as it:
                it.write(octets)


def errors_in(said):
    """The standard error that the lines on a case show."""
    start = said.index(ERROR) + 1 if ERROR in said else len(said)
    return "".join(f"{it[2:]}\n" for it in itertools.takewhile(lambda it: it.startswith("|"), said[start:]))


def is_due(row, said):
    """Whether the lines that `rt try` prints of a case, the last one its result, are what the row is to answer."""
    if f" run=ended status={row.status} " not in said[-1]:
        return False
    if row.error:
        shown = errors_in(said)
        is_line = bool(shown) if row.error == "*" else shown == (rows.lines_of(row.error) or f"{row.error}\n")
        return is_line and any(it.endswith(', found ""') for it in said)
    return row.output is None or " output=expected " in said[-1]


def answers(folder):
    """Runs the cases of the folder, and returns the lines that `rt try` prints of each."""
    ran = subprocess.run(["rt", "try", "--cases", folder], cwd="crates/pkder", capture_output=True)
    found, said, text = {}, [], ran.stderr.decode(errors="replace")
    for line in text.splitlines():
        said.append(line)
        if line.startswith("case="):
            found[line[5:].split()[0]], said = said, []
    if not found:
        print(text)
    return found


def main(tables):
    os.chdir(TOP)
    found = chosen(tables or [*sorted(glob.glob("tests/pkder/*.tsv")), "examples/answers.tsv"])
    print(f"{len(found)} rows, on a program that nothing proves; it takes some minutes to build and ask", flush=True)
    with tempfile.TemporaryDirectory() as folder:
        for name, (_, _, row) in found.items():
            write_case(folder, name, row)
        said = answers(folder)
    looks = []
    for name, (table, number, row) in found.items():
        lines = said.get(name, ["no answer"])
        looks.append(("\n    ".join([f"{table}:{number}: {row.rule}:", *lines]), is_due(row, lines)))
    return counted("tried", looks)


if __name__ == "__main__":
    sys.exit(main(sys.argv[1:]))
