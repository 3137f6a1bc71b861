#!/usr/bin/env python3
"""calls.py TABLE.tsv..: rows of the program's tables that a call of the library answers, in one form for all callers.

Each line has six cells between tabs: rule, words, input, status, output, error. The words are a command and its
options, none left out, as
  normalise --kind key --depth 32 --octets 1048576
(check and show the same; signed has --part in place of --kind; explain may have --all, --json and --profile=tls after
them). Input and output are in hex, and the error is a line. tests/harness/rows.py reads such a table too. Left out are
help and command lines that are refused, which no call has, rows whose reads or writes fail, and rows that state no
answer.

The program has no command `field`. A row of it stands after each row of explain, with what that says after `field`,
and after each row of check whose document is in DER, of which nothing is said. The last rows are of the documents that
tests/pkder/explained/reports.txt names one field of. Their status is that of explain."""
import json
import re
import sys
from pathlib import Path

sys.path[0] = str(Path(__file__).resolve().parents[1])
from tests.explained.reports import FOLDER, blocks
from tests.harness import rows

USUAL = {"depth": "32", "octets": "1048576"}
PROFILE = "--profile=tls"
FLAGS = ("--all", "--json", PROFILE)
# (a long line is broken at a blank, and goes on after 8 of them)
FIELD = re.compile(r"^field   (.*(?:\n {8}.*)*)", re.M)


def options_of(words):
    """The options by their names, or None where a word is none."""
    found, words = {}, list(words)
    while words:
        name, equals, value = words.pop(0).partition("=")
        if not name.startswith("--") or not (equals or words):
            return None
        found[name[2:]] = value if equals else words.pop(0)
    return found


def call_of(words):
    """The words of the call, none left out, or None where they are none."""
    if not words or words[0] not in ("check", "normalise", "show", "signed", "explain", "field"):
        return None
    what = "part" if words[0] == "signed" else "kind"
    flags = [it for it in FLAGS if it in words and words[0] == "explain"]
    options = options_of(it for it in words[1:] if it not in flags)
    if options is None:
        return None
    if words[0] == "explain" and options.get("profile") == "tls":
        del options["profile"]
        flags.append(PROFILE)
    options = {**({"part": "info"} if what == "part" else {}), **USUAL, **options}
    if {*options} != {what, *USUAL}:
        return None
    depth, octets = (str(int(options[it])) for it in USUAL)
    return " ".join([words[0], f"--{what}", options[what], "--depth", depth, "--octets", octets, *flags])


def field_of(call, status, output):
    """The field that the output of a call is about, or None where such a call tells none."""
    command = call.split()[0]
    if command in ("check", "explain") and status == 0:
        return ""
    if command != "explain":
        return None
    if "--json" in call:
        return json.loads(output)["field"]
    return FIELD.search(output.decode("ascii"))[1].replace("\n" + 8 * " ", " ")


def line(rule, call, octets, status, output, error=""):
    return "\t".join([rule, call, octets.hex(), str(status), output.hex(), error])


def lines_of(row):
    """The lines of a row, none where no call answers it."""
    is_stated = row.output is not None and row.error != "*"
    words = rows.words_of(row.words) if not row.device and row.status < 3 and is_stated else ()
    call = call_of(words)
    if call is None:
        return
    yield line(row.rule, call, row.input, row.status, row.output, row.error)
    field = field_of(call, row.status, row.output)
    if field is not None:
        yield line(row.rule, " ".join(["field", *call.split()[1:7]]), row.input, row.status, field.encode())


def lines_of_reports():
    """A line of each document whose report has to name one field, or none."""
    for block in blocks():
        name, _, rule = block["document"][0].partition(": ")
        status = {"DER": 0, "not": 1}.get(block["line"][0].partition(" ")[0], 2)
        field = block.get("field", [""])[0]
        if "|" not in field:
            with open(f"{FOLDER}/{name}", "rb") as it:
                octets = it.read()
            yield line(rule, call_of(["field", "--kind", block["kind"][0]]), octets, status, field.encode())


def main(tables):
    if not tables:
        sys.exit(__doc__)
    found = [it for table in tables for _, row in rows.rows_of(table) for it in lines_of(row)]
    print("\n".join([*found, *lines_of_reports()]))


if __name__ == "__main__":
    main(sys.argv[1:])
