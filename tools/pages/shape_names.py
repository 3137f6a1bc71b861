#!/usr/bin/env python3
"""shape_names.py: the types of crates/pkix_shapes, with the names of their fields, beside the ASN.1 of docs/formats.md.

No proof sees that a name is the one of the ASN.1. This writes each type that has a name there as ASN.1, and compares it
with the type of this name on the page, field by field in their order: names, types, tags, OPTIONAL, DEFAULT and sizes,
and of a CHOICE the names of its alternatives. `critical` of an Extension is OPTIONAL here, and which numbers an INTEGER
may be is no part of a type. Then it plants another name in the place of each one, and sees that this is told.

So are the extensions that are known: their identifiers, usual names and types, as the page's table has them. The arcs
are those of tests/oracle/extensions.py too.

Each difference has a line; the last line is 'names: N passed, M failed', a type, a row and a planted name counting
once."""
import functools
import re
import sys
from pathlib import Path

sys.path[0] = str(Path(__file__).resolve().parents[2])
from tests.oracle.extensions import TYPES
from tools.gate.logic import text_of
from tools.gate.looks import counted
from tools.pages.compare import compared
from tools.pages.identifier_names import contents_of, names_by_contents

PAGE = "docs/formats.md"
ORACLE = "tests/oracle/extensions.py"
FILES = ("universal", "shared", "keys", "public_keys", "requests", "extensions")
TABLES = [f"crates/pkix_shapes/src/{it}.rt" for it in FILES]
TOKEN = re.compile(r'\s+|//[^\n]*|("[^"]*"|[\w!]+(?:::\w+)*|[&(){}\[\],:=;])')
CONSTANT = re.compile(r"(?:const|static) (\w+): ([^=]*) = ([^;]*);")
LEAVES = {"Boolean": (1, "BOOLEAN"), "Integer": (2, "INTEGER"), "BitString": (3, "BIT STRING"),
          "OctetString": (4, "OCTET STRING"), "Null": (5, "NULL"), "ObjectIdentifier": (6, "OBJECT IDENTIFIER"),
          "Utf8String": (12, "UTF8String")}
# Strings whose characters aren't looked at: by their own tags, and what stands under implicit ones.
TEXTS = {19: "PrintableString", 20: "TeletexString", 22: "IA5String", 28: "UniversalString", 30: "BMPString"}
IMPLICIT_TEXT = 22
SEQUENCE, SET, OCTETS = 16, 17, 4
# The values of defaults by their contents.
DEFAULTS = {("BOOLEAN", "0"): "FALSE", ("INTEGER", "0"): "0"}
# What macros stand for, but for those with fields.
MACROS = {
    "string!": lambda name, tag: ("Named", name, ("Leaf", tag, "Text")),
    "octets!": lambda name, tag: ("Named", name, ("Leaf", tag, "OctetString")),
    "integer_under!": lambda number: ("Leaf", ("ShapeTag::Context", number), "Integer"),
    "list_of_some!": lambda name, tag, member: ("Named", name, ("ListOf", tag, "1", member)),
    "explicit!": lambda number, type_: ("Sequence", ("ShapeTag::Context", number), [("", "", type_)]),
    "choice!": lambda *types: functools.reduce(lambda after, it: ("Choice", it, after), reversed(types)),
}
# The chains of known extensions: the start of an identifier, the numbers after it, and what answers the type; and a
# row of the page's table.
START = re.compile(r"fn (is_\w+)\(identifier: [^{}]*\{ result [^{}]*\}\s*\{[^{}]*&\[((?:0x\w\w, )+)")
CHAIN = re.compile(r"(is_\w+)\(identifier, ([0-9, ]+)\) \{\s*Some\((\w+)\(\)\)")
ANSWER = re.compile(r"fn (\w+)\(\) -> &'static Shape\n(?:    ensures [^\n]*\n)*\{\n    &(\w+)\n\}")
ROW = re.compile(r"(?m)^\| (\w+) \| ([0-9.]+) \| `([^`]+)` \| [^|]+ \|$")


class Table:
    """The constants of the crate's tables, and the types among them by their names in ASN.1."""

    def __init__(self, text):
        found = CONSTANT.findall(text)
        self.constants = {name: [*filter(None, TOKEN.findall(body))] for name, _, body in found}
        self.named = {}
        for name in (name for name, type_, _ in found if type_ == "Shape"):
            self.alternatives(self.value(name))

    def value(self, name):
        """What a constant is: a name, text or number, a list, or a tuple of a name and what stands after it. A CHOICE
        is a type of the constant's name."""
        left = [*self.constants[name]]
        value = self.expression(left)
        if left:
            raise ValueError(f"{name} has more after it: {' '.join(left)}")
        return ("Named", name.title().replace("_", ""), value) if value[:1] == ("Choice",) else value

    def expression(self, left):
        head = left.pop(0)
        if head == "&":
            return self.expression(left)
        if head == "[":
            return self.listed(left, "]")
        if head == "fields!":
            left.pop(0)
            return self.fields(left, "}")
        if head == "sequence!":
            _, name, _ = left[:3]
            del left[:3]
            tag, _ = self.expression(left), left.pop(0)
            return ("Named", name, ("Sequence", tag, self.fields(left, ")")))
        if left and left[0] == "(":
            left.pop(0)
            parts = self.listed(left, ")")
            return MACROS[head](*parts) if head in MACROS else (head, *parts)
        if head in self.constants:
            return self.value(head)
        return head

    def listed(self, left, end):
        found = []
        while left[0] != end:
            found.append(self.expression(left))
            if left[0] == ",":
                left.pop(0)
        left.pop(0)
        return found

    def fields(self, left, end):
        """The fields of a SEQUENCE: whether they may be absent, or the contents of their default, their names and their
        types."""
        found = []
        while left[0] != end:
            absent = left.pop(0) if left[0] in ("optional", "default") else ""
            absent = self.expression(left) if absent == "default" else absent
            name, colon = left[:2]
            del left[:2]
            found.append((absent, name.strip('"'), self.expression(left)))
            if colon != ":" or left.pop(0) != ",":
                raise ValueError(f"no field: {name}")
        left.pop(0)
        return found

    def alternatives(self, type_):
        """The texts of a type in ASN.1, one of each that it may be by earlier fields; types with names are noted."""
        form, *parts = type_ if isinstance(type_, tuple) else (type_,)
        form = form.removeprefix("Shape::")
        if form == "Named":
            return [self.named_one(parts[0].strip('"'), one_of(self.alternatives(parts[1])))]
        if form == "Private":
            return self.alternatives(parts[0])
        if form == "Refused":
            return []
        if form in ("DefinedBy", "Choice"):
            return [*dict.fromkeys(self.alternatives(parts[-2]) + self.alternatives(parts[-1]))]
        if form == "Containing":
            self.alternatives(parts[1])
            return [tagged(parts[0], OCTETS, "OCTET STRING")]
        if form == "Leaf":
            return [tagged(parts[0], *leaf(parts[0], parts[1].removeprefix("Contents::")))]
        if form in ("ListOf", "SetOf"):
            number, word = (SEQUENCE, "SEQUENCE") if form == "ListOf" else (SET, "SET")
            size = {"0": "", "1": "SIZE (1..MAX) "}[parts[1]]
            return [tagged(parts[0], number, f"{word} {size}OF {it}") for it in self.alternatives(parts[2])]
        if form == "Sequence":
            return self.sequence(*parts)
        return ["ANY"] if form == "Open" else []

    def named_one(self, name, text):
        """What stands for a text by its name: an alternative of a CHOICE with that before it, or a type, which is noted
        without the tag that stands in place of its own."""
        if name[:1].islower():
            return f"{name} {text}"
        tag, own = re.fullmatch(r"(\[\d+\] IMPLICIT )?(.*)", text).groups("")
        if own != name:
            self.named.setdefault(name, set()).add(own)
        return f"{tag}{name}"

    def sequence(self, tag, fields):
        if [name for _, name, _ in fields] == [""] and tag[0] == "ShapeTag::Context":
            return [f"[{tag[1]}] EXPLICIT {it}" for it in self.alternatives(fields[0][2])]
        found = [""]
        for absent, name, type_ in fields:
            texts = [f"{name} {it}{absence(it, absent)}" for it in self.alternatives(type_)]
            found = [f"{before}, {it}".strip(", ") for before in found for it in texts]
        return [tagged(tag, SEQUENCE, f"SEQUENCE {{ {it} }}") for it in found]

    def types(self):
        """Each type's text by its name; an alternative that another type is stands there by that type's name."""
        for name, texts in self.named.items():
            if len(texts) != 1:
                raise ValueError(f"{name} is {' and '.join(sorted(texts))}")
        found = {name: min(texts) for name, texts in self.named.items()}
        names = {text: name for name, text in found.items()}
        return {name: " | ".join(names.get(it, it) for it in text.split(" | ")) if " | " in text else text
                for name, text in found.items()}


def one_of(texts):
    """The type that is one of these: a CHOICE where they have names."""
    are_named = len(texts) > 1 and all(it[0].islower() for it in texts)
    return f"CHOICE {{ {', '.join(texts)} }}" if are_named else " | ".join(texts)


def leaf(tag, contents):
    """The universal tag and the type of a leaf."""
    if contents != "Text":
        return LEAVES[contents]
    own = int(tag[1]) if tag[0] == "ShapeTag::Universal" else IMPLICIT_TEXT
    return own, TEXTS[own]


def absence(text, absent):
    """What says that a field of this type may be absent."""
    if isinstance(absent, list):
        return f" DEFAULT {DEFAULTS.get((text.split()[-1], *absent), absent)}"
    return " OPTIONAL" if absent else ""


def tagged(tag, own, text):
    """A type under its tag, which is its own one or stands in the place of that."""
    if tag == ("ShapeTag::Universal", str(own)):
        return text
    if tag[0] != "ShapeTag::Context":
        raise ValueError(f"{text} under {tag}")
    return f"[{tag[1]}] IMPLICIT {text}"


def types_of_page(text):
    """Each type's text by its name, of the blocks of a page and of what stands between backquotes."""
    blocks = [it for it in re.findall(r"(?ms)^```$\n(.*?)^```$", text) if "::=" in it]
    lines = re.sub(r" *--.*", "", "\n".join(blocks)) + "\n".join(re.findall(r"`(\w+ ::= [^`]*)`", text))
    found = {}
    for part in re.split(r"\n(?=\w+ *::=)", lines):
        name, _, type_ = part.partition("::=")
        type_ = re.sub(r"INTEGER [0-9]( or [0-9])?", "INTEGER", " ".join(type_.split()))
        found[name.strip()] = type_.replace("critical BOOLEAN DEFAULT FALSE", "critical BOOLEAN OPTIONAL")
    return found


def row_of(number, contents, name, type_):
    """A row of the table of extensions, by its number."""
    return f"extension {number}", f"{contents.hex(' ')}, {name}, {type_}"


def rows_of_page(text):
    """The arcs of the page's table of extensions, and its rows by their numbers."""
    found = ROW.findall(text)
    rows = (row_of(number, contents_of(arcs), name, type_) for number, (name, arcs, type_) in enumerate(found))
    return [arcs for _, arcs, _ in found], dict(rows)


def rows_of_code(table, text):
    """The rows of the known extensions by their numbers."""
    types = dict(ANSWER.findall(text))
    starts = {name: bytes.fromhex(re.sub("0x|[, ]", "", octets)) for name, octets in START.findall(text)}
    for number, (test, numbers, answer) in enumerate(CHAIN.findall(text)):
        contents = starts[test] + bytes(map(int, numbers.split(",")))
        type_ = one_of(table.alternatives(table.value(types[answer]))) if answer in types else answer
        yield row_of(number, contents, names_by_contents().get(contents), type_)


def told_by_code(text):
    """Each type's text by its name and the rows of extensions, and the places of what tells one from another."""
    try:
        table = Table(text)
        told = table.types() | dict(rows_of_code(table, text))
    except ValueError as why:
        told = {"the tables": str(why)}
    links = [link.span(group) for link in CHAIN.finditer(text) for group in (2, 3)]
    return told, [*(it.span(1) for it in re.finditer(r'"([\w-]+)"', text)), *links]


def looks():
    tables, page = "\n".join(map(text_of, TABLES)), text_of(PAGE)
    arcs, rows = rows_of_page(page)
    yield from compared(("crates/pkix_shapes", PAGE), told_by_code, tables, types_of_page(page) | rows)
    yield f"{PAGE} and {ORACLE} have other extensions: {arcs}, {[*TYPES]}", arcs == [*TYPES]


if __name__ == "__main__":
    sys.exit(counted("names", looks()))
