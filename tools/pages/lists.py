#!/usr/bin/env python3
"""lists.py: whether each list that stands in many places is the same in all of them.

Lists are the kinds of documents, the parts of a request, the reasons of faults, the remarks of notes, and the statuses
of the library and of the program. Each has a source in crates/ (the table of kinds is crates/pk_documents/src/kind.rt);
tools/pages/lists.toml has the places that tell it, header, packages, man pages, pages, tests and tools among them. A
place that lacks an entry, or says something else of it, has a line with what to change there. Then each place is asked
for an entry that there isn't, and has to lack it.

The last line is 'lists: N passed, M failed', an entry counting once at each place."""
import glob
import re
import string
import sys
import tomllib
from pathlib import Path

TOP = sys.path[0] = str(Path(__file__).resolve().parents[2])
from tools.gate.logic import text_of
from tools.gate.looks import counted

KIND = re.compile(r"Kind::(\w+) => KindRow \{(.*?)\n            \}", re.S)
# What C calls a part beside its word: a kind is called so, too.
PART_NAMES = {"key": "SubjectKey"}
# What pages call a small number.
COUNTS = dict(enumerate("three four five six seven eight nine ten eleven twelve".split(), 3))


def upper(name):
    """A name of several words as constants have it."""
    return re.sub(r"(?<=[a-z])(?=[A-Z])", "_", name).upper()


def kinds():
    """The rows of the table of kinds."""
    for name, row in KIND.findall(text_of("crates/pk_documents/src/kind.rt")):
        found = {"name": name, "upper": upper(name)}
        for field, value in re.findall(r"(?m)^ +(\w+): (.*),$", row):
            texts = re.findall(r'"([^"]*)"', value)
            found[field] = texts if value.startswith("&") else texts[0] if texts else value
        found["rfc"] = " ".join(found["standard"].split()[:2])
        found["first_label"] = found["labels"][:1]
        yield found


def parts():
    """The parts of a request, by their numbers for C."""
    for number, name in re.findall(r"([0-9]+) => Some\(RequestPart::(?:Written\(Part::)?(\w+)\)",
                                   text_of("crates/pkder_c/src/numbers.rt")):
        camel = PART_NAMES.get(name.lower(), name)
        yield {"name": name, "word": name.lower(), "number": number, "camel": camel, "upper": upper(camel)}


def statuses():
    """The statuses of the library: the names of the header, and the numbers that outcomes have by definition."""
    header = text_of("interface/pkder.h").split("/* What comes of a call.", 1)[1].split("\n\n", 1)[0]
    names = dict((number, name) for name, number in re.findall(r"(?m)^#define PKDER_(\w+) ([0-9]+)u", header))
    defined = re.findall(r"status = ([0-9]+)", text_of("crates/pkder_c/specs/Outcomes.antt"))
    for number in sorted({*defined, *names}, key=int):
        yield {"number": number, "upper": names.get(number, f"(status {number}, which the header lacks)")}


def endings():
    """The statuses of the program: of outcomes, and of a line that is refused."""
    found = re.findall(r"(?m)^status_of .* = ([0-9]+)$", text_of("crates/commands/specs/Outcomes.antt"))
    refused = re.findall(r"ensures status { result ≡ ([0-9]+) }", text_of("crates/commands/src/closing.rt"))
    yield from ({"number": number} for number in sorted({*found, *refused}))


def reasons():
    """The reasons in the order of their numbers."""
    body = re.search(r"pub enum Reason \{(.*?)\n\}", text_of("crates/tlv_core/src/reason.rt"), re.S)[1]
    for number, name in enumerate(re.findall(r"(?m)^    (\w+),$", body), 1):
        yield {"name": name, "number": str(number), "upper": upper(name)}


def remarks():
    """The remarks of notes, by their codes and levels; under a profile a code may have another level."""
    text = text_of("crates/reports/specs/Remarks.antt")
    codes, levels = (re.findall(rf'(?m)^\w+_{word} \(?(\w+\.\w+)[^=]*= codes "(\w+)"$', text)
                     for word in ("code", "level"))
    several = dict.fromkeys((code, dict(levels)[variant]) for variant, code in codes)
    yield from ({"code": code, "level": level} for code, level in several)


LISTS = {it.__name__: it for it in (kinds, parts, statuses, endings, reasons, remarks)}


def texts_by(template, entry):
    """The texts that a template stands for: one, or one for each word of what is a list in the entry."""
    names = [name for _, name, _, _ in string.Formatter().parse(template) if name]
    several = [name for name in names if isinstance(entry[name], list)]
    if not several:
        return [template.format(**entry)]
    return [template.format(**entry | {several[0]: it}) for it in entry[several[0]]]


class Place:
    """A place that tells a list."""

    def __init__(self, told):
        self.file, self.key = told["file"], told.get("key")
        self.has, self.others = told.get("has", []), told.get("others", [])
        self.is_part = "from" in told or "row" in told
        names = sorted(glob.glob(self.file, root_dir=TOP))
        text = "".join(map(text_of, names))
        begin = text.find(told["from"]) if "from" in told else 0
        self.found = bool(names) and begin >= 0
        begin += len(told.get("from", ""))
        end = text.find(told["to"], begin) if "to" in told else len(text)
        self.found = self.found and end >= 0
        self.text = text[begin:end] if self.found else ""
        self.line = text.count("\n", 0, begin) + 1
        self.rows = [] if "row" not in told else [*re.finditer(told["row"], self.text, re.M)]

    def where(self, at):
        """The file, and the line of a place in the text, where that is a part of one file."""
        return f"{self.file}:{self.line + self.text.count(chr(10), 0, at)}" if self.is_part else self.file

    def lacks(self, entry):
        """What to change for an entry, a line each."""
        due = [text for it in self.has for text in texts_by(it, entry)]
        if not self.key:
            yield from (f"{self.where(len(self.text))}: {it!r} is to stand there" for it in due if it not in self.text)
            return
        key = self.key.format(**entry)
        rows = [it for it in self.rows if it["key"] == key]
        if not rows:
            last = self.rows[-1].end() if self.rows else 0
            more = f", with {', '.join(map(repr, due))}" if due else ""
            yield f"{self.where(last)}: {key} is to stand there{more}"
        for row in rows:
            said = " ".join(row[0].split())
            yield from (f"{self.where(row.start())}: after {key} {it!r} is to stand" for it in due
                        if it not in row[0] and it not in said)

    def strangers(self, entries):
        """The rows that are of no entry, a line each."""
        known = {self.key.format(**it) for it in entries} | {*self.others} if self.key else set()
        for row in self.rows:
            if row["key"] not in known:
                yield f"{self.where(row.start())}: {row['key']} is none of the list"


def trial(entry):
    """An entry that there isn't, made of one that there is."""
    return {name: [f"{it} of trial" for it in value] or ["of trial"] if isinstance(value, list) else f"{value}trial"
            for name, value in entry.items()}


def entries_of(name):
    """The entries of a list; each knows how many there are."""
    found = [*LISTS[name]()]
    count = COUNTS.get(len(found), str(len(found)))
    return [entry | {"count": count} for entry in found]


def looks_at(name, told):
    """The looks at a place of a list: at each entry, at what is of none, and at an entry that there isn't."""
    place, entries = Place(told), entries_of(name)
    if not place.found:
        yield f"{told['file']}: there is no {told.get('from')!r} with {told.get('to')!r} after it", False
        return
    for entry in entries:
        lacking = [f"{name}: {it}" for it in place.lacks(entry)]
        yield "\n".join(lacking), not lacking
    yield from ((f"{name}: {it}", False) for it in place.strangers(entries))
    yield f"{name}: NOT TOLD: {told['file']} lacks no entry, whatever it is", any(place.lacks(trial(entries[0])))


def looks():
    places = tomllib.loads(text_of("tools/pages/lists.toml"))
    for name in LISTS:
        for told in places[name]:
            yield from looks_at(name, told)


if __name__ == "__main__":
    sys.exit(counted("lists", looks()))
