#!/usr/bin/env python3
"""answers.py PROGRAM..: what `explain` has of `check`, and its JSON beside its text.

Of each file of examples/ as each kind, and of each document of the tables in tests/pkder: the status of `explain` is
that of `check` and of tests/oracle/reader.py; its first line has the kind and the number of octets, as far as they
are read; its second line is the line of `check`, word for word; a field is told of each document that is refused; and
nothing is on standard error. Under --json the same stands in one line, with the same status, kind, number of octets,
places and reasons; elements that aren't in DER are told of each document that isn't, but of one that has private values
of attributes, of which none is. The last line is 'explained_answers: N passed, M failed'."""
import re
import sys
from pathlib import Path

sys.path[0] = str(Path(__file__).resolve().parents[2])
from tests.explained.documents import answer, documents, objects_in, try_all
from tests.oracle.document_types import TYPES, Walk

LINE = re.compile(r"fault at (\d+): (\w+)(?: inside at (\d+): (\w+))?")
FIELD = re.compile(r"^field +(\S.*)$", re.M)
VERDICTS = {0: "der", 1: "not_der", 2: "refused"}


def checked(program, document):
    """The status and the line of the program's `check`."""
    status, output, error = answer(program, document.words("check"), document.octets)
    return status, (output + error).decode().removesuffix("\n")


def wrong_in_text(text, document, line):
    """What is wrong with the report as text."""
    first, second = (text.split("\n") + [""])[:2]
    octets = min(len(document.octets), document.limit + 1)
    if not re.fullmatch(rf"{document.kind}, {octets} octets?", first):
        yield f"its first line is {first!r}"
    if second != line:
        yield f"its second line is {second!r}, and check's is {line!r}"
    if not text.endswith("\n") or text.endswith("\n\n"):
        yield "it doesn't end with one end of a line"
    if line.startswith("fault ") and not FIELD.search(text):
        yield "no field"
    if any(it != it.rstrip() or not it.isprintable() for it in text.split("\n")):
        yield "blanks at the end of a line, or what isn't printed"


def due_in_object(document, status, line):
    """What is due of the JSON, by its keys."""
    octets = min(len(document.octets), document.limit + 1)
    due = {"form": 1, "kind": document.kind, "octets": octets, "status": status, "verdict": VERDICTS[status]}
    found = LINE.fullmatch(line)
    if found:
        inside = {"at": int(found[3]), "reason": found[4]} if found[3] else None
        return due | {"at": int(found[1]), "reason": found[2], "inside": inside}
    at = int(line.removeprefix("not DER at ")) if status == 1 else None
    return due | {"at": at, "reason": None, "inside": None}


def has_private_values(document):
    """Whether an accepted document has values of attributes that are private."""
    walk, is_any = Walk(document.octets, TYPES[document.kind], document.depth, document.limit), False
    while element := walk.next():
        is_any = is_any or element.is_private and ".values[" in element.path
    return is_any


def wrong_in_object(found, document, status, line, text):
    """What is wrong with the report as JSON."""
    for key, due in due_in_object(document, status, line).items():
        if found.get(key) != due:
            yield f"{key} is {found.get(key)!r}, and not {due!r}"
    if "file" in found or "lines" in found:
        yield "a file, or lines that weren't asked for"
    if status == 2:
        shown = FIELD.search(text)
        if not found.get("field") or not shown or found["field"] != shown[1]:
            yield f"its field is {found.get('field')!r}, and the text's {shown and shown[1]!r}"
        if not 0 <= found.get("file_at", 0) <= len(document.octets):
            yield f"file_at is {found['file_at']}"
    elif (status == 1) != bool(found.get("not_der")) and (status == 0 or not has_private_values(document)):
        yield f"not_der is {found.get('not_der')!r}"


def wrong(program, document):
    """What is wrong with what the program says of a document."""
    status, line = checked(program, document)
    if (status, line) != document.due():
        yield f"check: status {status}, {line!r}, and not {document.due()}"
    told, output, error = answer(program, document.words("explain"), document.octets)
    if (told, error) != (status, b""):
        yield f"explain: status {told}, {error[:200]!r}"
    text = output.decode("utf-8", "replace")
    yield from wrong_in_text(text, document, line)
    told, output, error = answer(program, document.words("explain", "--json"), document.octets)
    if (told, error) != (status, b""):
        yield f"explain --json: status {told}, {error[:200]!r}"
    try:
        found = objects_in(output)
    except ValueError as why:
        yield f"explain --json: {why}"
    else:
        yield from (f"explain --json: {it}" for it in wrong_in_object(found, document, status, line, text))


def main(words):
    return try_all("explained_answers", __doc__, words, ((it.name, it) for it in documents()), wrong)


if __name__ == "__main__":
    sys.exit(main(sys.argv[1:]))
