#!/usr/bin/env python3
"""objects.py PROGRAM..: each object that the program writes under --json, held to docs/report.schema.json.

The documents are the files of examples/ and of tests/pkder/explained as each kind, and those of the tables in
tests/pkder. Each is a file of a folder, and what is asked of it is asked of standard input with the same octets too, of
a file that isn't there and of the folder:

- `check`, `explain` without and with --all: a report of each but the last two, and an error of these.
- `show`: the same, but of a document that is refused an error in the words of `check`; of standard input a line.
- `same`: a comparison with the last accepted document of the kind, in both orders, and with itself.

`same --key` takes no --json and writes no object (tests/pkder/lines.tsv). The last line is 'explained_objects: N
passed, M failed', a document counting once."""
import json
import os
import subprocess
import sys
import tempfile
from pathlib import Path

sys.path[0] = str(Path(__file__).resolve().parents[2])
from tests.explained.documents import SECONDS, Document, documents, try_all
from tools.pages.report_schema import known_schema, line_faults

SCHEMA = known_schema()
COMMANDS = ("check --json", "check --json --profile tls", "explain --json", "explain --json --all",
            "explain --json --profile tls", "show --json")
# What is asked of: the document, standard input with the same octets, and what can't be read, with the reason.
FILE, OTHER, INPUT = "document", "other", "-"
UNREAD = {"nothing": "no such file", ".": "is a directory"}
PAIRS = ((FILE, OTHER), (OTHER, FILE), (FILE, INPUT))
VERDICTS = ["same", "another", "refused"]


def run(program, folder, words, octets):
    """The status and the lines of standard output and of standard error."""
    ran = subprocess.run([program, *words], input=octets, capture_output=True, cwd=folder, timeout=SECONDS)
    return ran.returncode, ran.stdout.decode().splitlines(), ran.stderr.decode().splitlines()


def due_objects(document, command):
    """The objects that are due, each with its form and some of its members; None is a key that it hasn't."""
    status, line = document.due()
    if command.startswith("show") and status == 2:
        yield "error", {"file": FILE, "status": 2, "error": line}
    else:
        yield from (("report", {"file": it, "status": status}) for it in (FILE, None))
    yield from (("error", {"file": name, "status": 3, "error": why}) for name, why in UNREAD.items())


def wrong_in_objects(lines, due):
    """What is wrong with the objects on these lines."""
    if len(lines) != len(due):
        yield f"{len(lines)} objects, and not {len(due)}"
    for line, (form, members) in zip(lines, due):
        faults = line_faults(SCHEMA, line, form) or line_faults(SCHEMA, line)
        yield from (f"the {form} of {members['file']}: {it}" for it in faults)
        found = {} if faults else json.loads(line)
        yield from (f"the {form} of {members['file']}: its {key} is {found.get(key)!r}, and not {value!r}"
                    for key, value in members.items() if not faults and found.get(key) != value)


def wrong_in_command(program, folder, document, command):
    """What is wrong with what a command says of the document."""
    words = document.words(*command.split())
    status, lines, errors = run(program, folder, [*words, FILE, INPUT, *UNREAD], document.octets)
    due, line = document.due()
    due_errors = [line] if command.startswith("show") and due == 2 else []
    if (status, errors) != (3, due_errors):
        yield f"{command}: status {status}, {errors}"
    yield from (f"{command}: {it}" for it in wrong_in_objects(lines, [*due_objects(document, command)]))


def wrong_in_comparison(found, names, refused, status):
    """What is wrong with a comparison of these names, beyond its form; `refused` says which of the two is."""
    if found["status"] != status or found["verdict"] != VERDICTS[status] or (status == 2) != any(refused):
        yield f"status {status}, and in the object {found['status']}, {found['verdict']}"
    both = found["first"], found["second"]
    if [it["file"] for it in both] != [*names] or ["fault" in it for it in both] != refused:
        yield f"its documents are {both}"
    if ["differences" in found, "more" in found] != [status == 1] * 2 or found.get("differences") == []:
        yield f"differences {found.get('differences')}, and {found.get('more')} more"


def wrong_in_same(program, folder, document, other):
    """What is wrong with the comparisons of the document with another one and with itself."""
    is_refused = {FILE: not document.accepted(), OTHER: not other.accepted(), INPUT: not document.accepted()}
    for names in PAIRS:
        status, lines, errors = run(program, folder, [*document.words("same", "--json"), *names], document.octets)
        told = " ".join(("same --json", *names))
        if status > 2 or errors or len(lines) != 1:
            yield f"{told}: status {status}, {len(lines)} lines, {errors}"
            continue
        faults = line_faults(SCHEMA, lines[0], "comparison") or line_faults(SCHEMA, lines[0])
        refused = [is_refused[it] for it in names]
        wrong = faults or wrong_in_comparison(json.loads(lines[0]), names, refused, status)
        yield from (f"{told}: {it}" for it in wrong)


def wrong(program, case):
    """What is wrong with the objects that the program writes of a document, and of it and another one."""
    document, octets = case
    other = Document(OTHER, document.kind, octets, document.depth, document.limit)
    with tempfile.TemporaryDirectory() as folder:
        for name, it in ((FILE, document), (OTHER, other)):
            with open(os.path.join(folder, name), "wb") as file:
                file.write(it.octets)
        for command in COMMANDS:
            yield from wrong_in_command(program, folder, document, command)
        yield from wrong_in_same(program, folder, document, other)


def cases():
    """Each document, beside the last one of its kind before it that is accepted."""
    last = {}
    for it in documents("tests/pkder/explained"):
        yield it.name, (it, last.get(it.kind, it.octets))
        if it.accepted():
            last[it.kind] = it.octets


def main(words):
    return try_all("explained_objects", __doc__, words, cases(), wrong)


if __name__ == "__main__":
    sys.exit(main(sys.argv[1:]))
