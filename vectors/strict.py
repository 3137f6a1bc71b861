"""What a standard forbids of a document that is taken: by the notes of docs/formats.md, which tests/oracle finds, and
by what that page marks as profile; of algorithms and keys by strict_algorithms.py."""
import functools
import re
from pathlib import Path

from tests.oracle.document_types import TYPES, Walk
from tests.oracle.extensions import carried
from tests.oracle.noted import LEVELS, Noted
from tests.oracle.noted_names import MUST, noted_names
from tests.oracle.parts import parts, with_first
from tests.oracle.reader import EC_PUBLIC_KEY, EXTENSION_REQUEST, oid
from vectors.strict_algorithms import on_algorithm, on_ec_key, on_point, on_private_key, on_public_key

TOP = str(Path(__file__).resolve().parents[1])
TAG_0, TAG_1, FALSE = 0xA0, 0x81, b"\1\1\0"
X25519, X448 = oid("1.3.101.110"), oid("1.3.101.111")
NO_LIMITS = 1 << 20, 1 << 40
CHALLENGE_PASSWORD = oid("1.2.840.113549.1.9.7")
SINGLE = {CHALLENGE_PASSWORD: "RFC 2985 section 5.4.1", EXTENSION_REQUEST: "RFC 2985 section 5.4.2"}
DIRECTORY_STRING, IA5_STRING = {0x0C, 0x13, 0x14, 0x1C, 0x1E}, 0x16
# Types of attributes whose values are a DirectoryString of a character at least, and the other strings that they may
# be; and where it is said.
TEXTS = {oid(f"2.5.4.{it}"): (DIRECTORY_STRING, "RFC 5280 section 4.1.2.4")
         for it in (3, 4, 7, 8, 10, 11, 12, 41, 42, 43, 44, 65)} | {
    CHALLENGE_PASSWORD: (DIRECTORY_STRING, "RFC 2985 section 5.4.1"),
    oid("1.2.840.113549.1.9.2"): ({IA5_STRING, *DIRECTORY_STRING}, "RFC 2985 section 5.2")}
NO_CLAUSE = ""
# What the octets of strings and times look like, by the number of their tag, and where that is said.
CHARACTERS = {
    18: (rb"[0-9 ]*", "X.680 41.2"),
    19: (rb"[A-Za-z0-9 '()+,./:=?-]*", "X.680 41.4"),
    22: (rb"[\0-\x7f]*", "X.680 41.1"),
    23: (rb"\d{12}Z", "X.690 11.8"),
    24: (rb"\d{14}(\.\d*[1-9])?Z", "X.690 11.7"),
    26: (rb"[ -~]*", "X.680 41.1"),
    28: (rb"(\0[\0-\x10][\0-\xff]{2})*", "X.690 8.23.7"),
    30: (rb"([\0-\xd7\xe0-\xff][\0-\xff])*", "X.690 8.23.8"),
}


@functools.cache
def noted_clauses():
    """The clause of each note, as docs/formats.md has it last in the note's row."""
    with open(f"{TOP}/docs/formats.md", encoding="utf-8") as page:
        rows = re.findall(r"(?m)^\| `(\w+)` \| must \| .*\(((?:RFC|X\.)[^()]*)\) \|$", page.read())
    return {code: clauses.split(",")[0] for code, clauses in rows}


def is_extensions(element):
    """Whether an open value is a list of extensions."""
    if element.first != 0x30:
        return False
    members = parts(element.contents)
    firsts = [[it.first for it in parts(member.contents)] for member in members if member.first == 0x30]
    return len(firsts) == len(members) and all(it in ([6, 4], [6, 1, 4]) for it in firsts)


def on_extensions(element):
    """A value of extensionRequest, which in a private key is any."""
    if not is_extensions(element):
        yield "RFC 2985 section 5.4.2"
        return
    found = [parts(it.contents) for it in parts(element.contents)]
    if not found:
        yield "RFC 5280 section 4.1"
    if len({it[0].contents for it in found}) < len(found):
        yield "RFC 5280 section 4.2"
    for identifier, *critical, value in found:
        if critical and critical[0].octets == FALSE:
            yield "X.690 11.5"
        verdict = carried(identifier.contents, value.contents)
        if verdict and verdict["verdict"] != "der":
            yield "RFC 5280 section 4.2"


def on_texts(identifier, values):
    """Values of an attribute whose type is known."""
    firsts, clause = TEXTS.get(identifier, ({}, ""))
    if clause and any(it.first not in firsts or not it.contents for it in values):
        yield clause


def on_subject(element):
    for name in parts(element.contents):
        for it in parts(name.contents):
            identifier, value = parts(it.contents)
            yield from on_texts(identifier.contents, [value])


def on_attributes(element):
    """Attributes, which may be absent. One type twice is told without a clause: none forbids it, and none says what it
    means."""
    found = [parts(it.contents) for it in parts(element.contents)] if element else []
    if len({it[0].contents for it in found}) < len(found):
        yield NO_CLAUSE
    for identifier, values in found:
        members = parts(values.contents)
        if len(members) > 1 and identifier.contents in SINGLE:
            yield SINGLE[identifier.contents]
        yield from on_texts(identifier.contents, members)
        if identifier.contents == EXTENSION_REQUEST:
            for it in members:
                yield from on_extensions(it)


def on_request(text):
    info, algorithm, _ = parts(parts(text)[0].contents)
    _, subject, key, *others = parts(info.contents)
    attributes = with_first(others, TAG_0)
    yield from on_subject(subject)
    if attributes is None:
        yield "RFC 2986 section 4.1"
    yield from on_public_key(key)
    yield from on_algorithm(algorithm, "signature")
    yield from on_attributes(attributes)
    if parts(parts(key.contents)[0].contents)[0].contents in (X25519, X448):
        # (they sign nothing)
        yield "RFC 2986 section 3"
    codes = [code for code, _ in Noted("request", text, *NO_LIMITS).notes() if LEVELS[code] == "must"]
    codes += [code for code in noted_names(text, *NO_LIMITS) if code in MUST]
    yield from (noted_clauses()[it] for it in codes if it in noted_clauses() and it != "attribute_twice")


def on_key(element):
    _, algorithm, key, *others = parts(element.contents)
    yield from on_private_key(algorithm, key)
    yield from on_attributes(with_first(others, TAG_0))
    identifier, *parameters = parts(algorithm.contents)
    if identifier.contents == EC_PUBLIC_KEY and (public := with_first(others, TAG_1)):
        yield from on_point(parameters[0].contents, public.contents)


def on_strings(kind, text):
    """Character strings and times among open values."""
    walk = Walk(text, TYPES[kind], *NO_LIMITS)
    while element := walk.next():
        contents = text[element.begin : element.end]
        pattern, clause = CHARACTERS.get(element.tag[1] if element.tag[0] == 0 else None, (None, None))
        if clause and not element.is_constructed and not re.fullmatch(pattern, contents, re.S):
            yield clause


def clauses_on(kind, text):
    top = parts(text)[0]
    yield from on_strings(kind, text)
    if kind == "request":
        yield from on_request(text)
    elif kind == "public":
        yield from on_public_key(top)
    elif kind == "key":
        yield from on_key(top)
    elif kind == "package":
        for it in parts(top.contents):
            yield from on_key(it)
    elif kind == "encrypted":
        yield from on_algorithm(parts(top.contents)[0], "encryption")
    else:
        yield from on_ec_key(top)


def forbidden(kind, text):
    """Whether a document of this DER encoding is none that the standards allow, and the clauses that say so."""
    found = {*clauses_on(kind, text)}
    return bool(found), sorted(found - {NO_CLAUSE})
