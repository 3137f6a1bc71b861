#!/usr/bin/env python3
"""reports.py PROGRAM..: reports of `pkder explain`, beside what is due of them.

In tests/pkder/explained/reports.txt a block tells a document, and what its report has to say; what is between bars has
to stand there each, in small or capital letters:
  document   the file, and what it shows
  kind       of the document
  profile    under which it is explained
  line       the line of `check`
  field      the path; any of those between bars; where the block has none, the report has none either
  due, found, likely, do   words that stand after this label
  note       the same; there are as many notes as such lines
  any        words that stand after some label
  untold     words that stand nowhere in the text
  number     a key of the JSON, and its number
  without    keys that the JSON hasn't, nor that of `check`
  looks      what `looks_like` is in the JSON
  brief      the sentences of `--brief`, whole, which the JSON of each document has as `brief`
  lists      the places of the lines that --all lists, each with its header in hexadecimal if that is told
  marked     the place of a line with carets under it
  asks       the lines of what a request asks for, in their order, without the blanks in front
  holds      the same of what a document of another kind holds
What is listed without --all is of these lines: at most the first 4, those round the fault, and the last 7, or the ways
to the elements that aren't in DER; none of a request in DER of which there is nothing to note. The last line is
'explained_reports: N passed, M failed'."""
import re
import sys
from pathlib import Path

TOP = sys.path[0] = str(Path(__file__).resolve().parents[2])
from tests.explained.documents import answer, objects_in, try_all

FOLDER = f"{TOP}/tests/pkder/explained"
LABELS = ("field", "due", "found", "likely", "do")
TOLD = (*LABELS[1:], "note")
LISTED = re.compile(r" *(\d+)  ((?:[0-9a-f]{2}(?: [0-9a-f]{2})*)?) +(\S.*)")
LEFT_OUT = re.compile(r" +\.\.\. +\((\d+) lines? left out; --all has (?:them|it)\)")
MOST = 100
BAD_LINE = 4


def blocks():
    """The blocks of the table: of each key the texts of its lines."""
    with open(f"{FOLDER}/reports.txt", encoding="utf-8") as it:
        text = it.read()
    for block in re.split(r"\n\n+", text):
        found = {}
        for line in block.splitlines():
            if not line.startswith("#"):
                key, _, value = line.partition(" ")
                found.setdefault(key, []).append(value.strip())
        if found:
            yield found


class Report:
    """A report as text, by its parts."""

    def __init__(self, text):
        self.first, _, rest = text.partition("\n")
        self.line, _, rest = rest.partition("\n")
        parts = re.split(r"\n\n+", rest.strip("\n"))
        self.asks, self.holds = (self.block(parts, head) for head in ("asks for\n", "holds\n"))
        is_listing = bool(parts) and not re.match(r"[a-z]+ ", parts[0])
        self.listing = parts[0].split("\n") if is_listing else []
        self.said = self.labels("\n".join(parts[is_listing:]))
        self.notes = re.findall(r"(?m)^note +(.*)", "\n".join(parts[is_listing:]))

    @staticmethod
    def block(parts, head):
        """The lines under a head, which are taken away where they are the first part."""
        is_there = bool(parts) and parts[0].startswith(head)
        return [it.strip() for it in parts.pop(0).split("\n")[1:]] if is_there else []

    @staticmethod
    def labels(text):
        """The text after each label, as one line."""
        found, label = {}, None
        for line in text.split("\n"):
            word, _, after = line.partition(" ")
            label = word or label
            found[label] = f"{found.get(label, '')} {after.strip()}".strip()
        return found

    def lines(self):
        """The place of each line of the listing, with its header."""
        matched = (LISTED.fullmatch(it) for it in self.listing)
        return [(int(it[1]), it[2].replace(" ", "")) for it in matched if it]

    def marked(self):
        """The places of the lines with carets under them."""
        pairs = zip(self.listing, self.listing[1:])
        return [int(LISTED.fullmatch(it)[1]) for it, under in pairs if re.match(r" +\^+( |$)", under)]

    def left_out(self):
        return sum(int(it[1]) for it in map(LEFT_OUT.fullmatch, self.listing) if it)


def missing_words(due, text):
    """The words that are due and don't stand in the text."""
    return [it for it in map(str.strip, due.split("|")) if it.lower() not in text.lower()]


def due_lines(texts):
    """The lines that are due, each with its place and its header."""
    parts = [it.strip().partition(" ") for text in texts for it in text.split(",")]
    return [(int(place), header) for place, _, header in parts]


def wrong_in_words(block, report):
    """What the parts with labels lack."""
    if block.get("field", [""])[0].split(" | ").count(report.said.get("field", "")) != 1:
        yield f"field: {report.said.get('field')!r}"
    if len(report.notes) != len(block.get("note", [])):
        yield f"notes: {report.notes}"
    for label in TOLD:
        for due in block.get(label, []):
            yield from (f"{label}: no {it!r} in {report.said.get(label)!r}"
                        for it in missing_words(due, report.said.get(label, "")))
    everything = " ".join(report.said.values()) + "\n".join(report.listing)
    for due in block.get("any", []):
        yield from (f"{it!r} isn't said" for it in missing_words(due, everything))
    for untold in block.get("untold", []):
        if untold.lower() in everything.lower():
            yield f"{untold!r} is said"


def wrong_in_lines(block, report, whole):
    """What is wrong with what is listed, without and with --all."""
    lines, marked = whole.lines(), [int(it) for it in block.get("marked", [])]
    if "lists" in block:
        due = due_lines(block["lists"])
        if lines != due:
            differ = [it for it in due if it not in lines], [it for it in lines if it not in due]
            yield f"lines: missing {differ[0]}, more {differ[1]}"
    for it in (report, whole):
        if "lists" in block and "marked" in block and it.marked() != marked:
            yield f"marked: {it.marked()}, and not {marked}"
    shown = report.lines()
    if report.line.startswith("not DER"):
        return
    if report.line == "DER" and report.asks and not report.notes:
        yield from [f"{len(shown)} lines are listed"] * bool(shown or report.left_out())
        return
    if [it for it in lines if it in shown] != shown or len(shown) + report.left_out() != len(lines):
        yield f"{len(shown)} lines and {report.left_out()} left out, of {len(lines)}"
    if len(lines) > 16 and not report.left_out() or whole.left_out() or len(shown) > MOST:
        yield f"{len(shown)} lines of {len(lines)} are listed"
    if report.line.startswith("fault") and shown[:4] != lines[:4]:
        yield "not the first 4 lines"


def wrong_in_asks(block, report, whole):
    """What is wrong with what a request asks for or a document holds, without and with --all."""
    for it in (report, whole):
        if it.asks != block.get("asks", it.asks) or it.holds != block.get("holds", it.holds):
            yield f"asks: {it.asks}, holds: {it.holds}"
    kind, is_accepted = block["kind"][0], not report.line.startswith("fault")
    if bool(report.asks) != (is_accepted and kind == "request"):
        yield f"{len(report.asks)} lines of what it asks for"
    if len(report.holds) != (is_accepted and kind not in ("request", "package")):
        yield f"{len(report.holds)} lines of what it holds"


def wrong_in_object(block, found, report):
    """What is wrong in the JSON."""
    for text in block.get("number", []):
        key, value = text.split()
        if found.get(key) != int(value):
            yield f"{key}: {found.get(key)}, and not {value}"
    for due in block.get("looks", []):
        if found.get("looks_like") != due:
            yield f"looks_like: {found.get('looks_like')!r}, and not {due!r}"
    yield from wrong_in_brief(block, found)
    yield from wrong_keys(block, found)
    for label in LABELS[1:] if report.line.startswith("fault") else []:
        if found.get(label, "") != report.said.get(label, ""):
            yield f"{label}: {found.get(label)!r} in JSON, {report.said.get(label)!r} in the text"


def wrong_in_brief(block, found):
    """What is wrong with the sentences for whoever sent the document: three at most, in a line, and none has a path."""
    brief, field = found.get("brief", ""), found.get("field", "")
    sentences = re.split(r"\. (?=[A-Z])", brief)
    if not re.fullmatch(r"[A-Z].*\.", brief) or len(sentences) > 3 or "." in field and field in brief:
        yield f"brief: {brief!r}"
    for due in block.get("brief", []):
        if brief != due:
            yield f"brief: {brief!r}, and not {due!r}"


def wrong_keys(block, found):
    """The keys that a JSON has and shouldn't have."""
    for text in block.get("without", []):
        yield from (f"{it}: {found[it]!r}" for it in map(str.strip, text.split("|")) if it in found)


def wrong(program, block):
    """What is wrong with the reports of a document."""
    with open(f"{FOLDER}/{block['document'][0].partition(': ')[0]}", "rb") as it:
        octets = it.read()
    kind, line = block["kind"][0], block["line"][0]
    words = ["explain", "--kind", kind, *(f"--profile={it}" for it in block.get("profile", []))]
    report, whole = (Report(answer(program, [*words, *more], octets)[1].decode()) for more in ([], ["--all"]))
    if (report.first, report.line) != (f"{kind}, {len(octets)} octets", line):
        yield f"{report.first!r}, {report.line!r}"
    yield from wrong_in_words(block, report)
    yield from wrong_in_lines(block, report, whole)
    yield from wrong_in_asks(block, report, whole)
    found = objects_in(answer(program, [*words, "--json"], octets)[1])
    yield from wrong_in_object(block, found, report)
    status, output, _ = answer(program, [*words, "--brief"], octets)
    # (callers of the library have the JSON alone, and refuse the flag; tests/pkder/briefs.tsv is of the program alone)
    if status != BAD_LINE and output.decode() != f"{found.get('brief')}\n":
        yield f"--brief: {output}"
    output = answer(program, ["check", "--json", "--kind", kind], octets)[1]
    # (callers of the library have `check` without reports, and its rows are of the program alone)
    if output.startswith(b"{"):
        yield from (f"check --json: {it}" for it in wrong_keys(block, objects_in(output)))


def said_of(program, block):
    """The same, also where the report isn't one at all."""
    try:
        return [*wrong(program, block)]
    except (ValueError, TypeError, AttributeError) as why:
        return [f"no report: {why!r}"]


def main(words):
    return try_all("explained_reports", __doc__, words, ((it["document"][0], it) for it in blocks()), said_of)


if __name__ == "__main__":
    sys.exit(main(sys.argv[1:]))
