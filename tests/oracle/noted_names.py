"""What is noted on the names in an accepted certification request: the code of each note, in the order of the elements.

It is written from docs/formats.md, "What is noted", and from RFC 5280 sections 4.1.2.4 and 4.2.1.6 and its appendix
A.1; the document is gone through by tests/oracle/asked.py. Nothing is shared with the definitions and the code of pkder
but the table of usual names."""
import re
import unicodedata
from collections import namedtuple

from tests.oracle.asked import ANY, CHOICE, FIELDS, GENERAL_NAME, LEAF, OPEN, TYPES, Asked, tag_of
from tests.oracle.asked_words import characters_of, identifier
from tests.oracle.parts import parts
from tests.oracle.report import CHARACTERS

UTF8, PRINTABLE, TELETEX, IA5, UNIVERSAL, BMP = ((0, it) for it in (12, 19, 20, 22, 28, 30))
DIRECTORY_STRING = {UTF8, PRINTABLE, TELETEX, UNIVERSAL, BMP}
COUNTRY, EMAIL, SERIAL, DOMAIN = "2.5.4.6", "1.2.840.113549.1.9.1", "2.5.4.5", "0.9.2342.19200300.100.1.25"
# of commonName, localityName, stateOrProvinceName, organizationName, organizationalUnitName, title
BOUNDS = {"2.5.4.3": 64, "2.5.4.7": 128, "2.5.4.8": 128, "2.5.4.10": 64, "2.5.4.11": 64, "2.5.4.12": 64}
MOST = {**BOUNDS, SERIAL: 64, EMAIL: 255}
ALT_NAME = "2.5.29.17"
CONSTRUCTED = 32
# How many names before one are looked at.
BEFORE = 32
STRINGS = ("dNSName", "rfc822Name", "uniformResourceIdentifier")
LABEL = rb"(?!-)[A-Za-z0-9-]{1,63}(?<!-)"
HOST = re.compile(rb"(?=.{1,253}\Z)%s(\.%s)*" % (LABEL, LABEL), re.S)
MUST = """country email_type name_type name_long control_in_name printable_string san_dns_syntax san_mail_syntax
san_uri_syntax san_ip_length""".split()
SHOULD = "name_blank san_wildcard san_ip_as_dns san_twice".split()

# An element in an extension: its field, the name of its type, its tag, its contents, whether it is constructed, and
# whether its type is open.
Found = namedtuple("Found", "field name tag contents is_constructed is_open")


def elements_in(part, type_, field=""):
    """An element of the value of an extension, and all in it, in their order."""
    tag = tag_of(part)
    if type_.form == CHOICE:
        type_ = next(it for it in type_.parts if tag in it.tags)
    is_constructed = bool(part.first & CONSTRUCTED)
    read_by = type_.parts if type_.form == LEAF else tag
    yield Found(field, type_.name, read_by, part.contents, is_constructed, type_.form == OPEN)
    left = iter(type_.parts if type_.form == FIELDS else [])
    for it in parts(part.contents) if is_constructed else []:
        name, member = "", ANY if type_.form == OPEN else type_.parts
        if type_.form == FIELDS:
            name, member = next(pair for pair in left if pair[1].tags is None or tag_of(it) in pair[1].tags)
        yield from elements_in(it, member, name)


# The values of attributes


def is_hidden(tag, contents):
    """Whether a character of a string controls or formats text. In a UniversalString none is looked for."""
    return tag != UNIVERSAL and any(unicodedata.category(it) in ("Cc", "Cf") for it in characters_of(tag, contents))


def is_of_type(arcs, tag):
    """Whether a value has a type of its attribute, of which appendix A.1 names one or a choice."""
    own = {SERIAL: {PRINTABLE}, DOMAIN: {IA5}, **dict.fromkeys(BOUNDS, DIRECTORY_STRING)}
    return tag in own.get(arcs, {tag})


def many(tag, contents):
    """How many characters a string has."""
    return len(contents.decode("utf-8")) if tag == UTF8 else len(contents) // {BMP: 2, UNIVERSAL: 4}.get(tag, 1)


def noted_on_value(arcs, tag, contents, is_constructed):
    """The code of the note on the value of an attribute of a name; None where there is none."""
    is_string = tag in CHARACTERS and not is_constructed
    checks = {
        "control_in_name": is_string and is_hidden(tag, contents),
        "country": arcs == COUNTRY and (tag != PRINTABLE or is_string and len(contents) != 2),
        "email_type": arcs == EMAIL and tag != IA5,
        "name_type": not is_of_type(arcs, tag),
        "name_long": is_string and many(tag, contents) > MOST.get(arcs, many(tag, contents)),
        "printable_string": is_string and tag == PRINTABLE and bool(re.search(rb"[^A-Za-z0-9 '()+,./:=?-]", contents)),
        "name_blank": is_string and (not contents or tag not in (BMP, UNIVERSAL) and not contents.strip(b" ")),
    }
    return next((code for code, is_so in checks.items() if is_so), None)


# Names in subjectAltName


def is_host(name):
    return HOST.fullmatch(name) is not None


def noted_on_dns(name):
    rest = b"" if name == b"*" else name.removeprefix(b"*.")
    if b"*" in rest:
        return "san_wildcard"
    if not is_host(rest):
        return "san_dns_syntax"
    return "san_ip_as_dns" if re.fullmatch(rb"\d{1,3}(\.\d{1,3}){3}", name) else None


def noted_on_mail(name):
    local, _, domain = name.rpartition(b"@")
    is_local = local.startswith(b'"') or local and not re.search(b"[ <>]", local)
    return None if is_local and (domain.startswith(b"[") or is_host(domain)) else "san_mail_syntax"


def noted_on_uri(name):
    return None if re.match(rb"[A-Za-z][A-Za-z0-9+.-]*:.", name, re.S) else "san_uri_syntax"


def noted_on_address(address):
    return None if len(address) in (4, 16) else "san_ip_length"


SYNTAX = {"dNSName": noted_on_dns, "rfc822Name": noted_on_mail, "uniformResourceIdentifier": noted_on_uri,
          "iPAddress": noted_on_address}


def noted_on_name(found, is_alternative):
    """The code of the note on a name in an extension; None where there is none."""
    if found.name in STRINGS and is_hidden(IA5, found.contents):
        return "control_in_name"
    return SYNTAX[found.name](found.contents) if is_alternative and found.name in SYNTAX else None


# A request


def noted_in_extension(value, arcs):
    """The codes of what is in the value of an extension, which is in DER."""
    if arcs != ALT_NAME:
        yield from noted_inside(value, TYPES[arcs], False)
        return
    members = parts(value.contents)
    for at, it in enumerate(members):
        yield from noted_inside(it, GENERAL_NAME, True)
        is_there_before = it.octets in {before.octets for before in members[max(0, at - BEFORE) : at]}
        yield "san_twice" if is_there_before and not it.first & CONSTRUCTED else None


def noted_inside(part, type_, is_alternative):
    """The codes of an element in the value of an extension, and of all in it."""
    of_type = None
    for it in elements_in(part, type_):
        if it.field == "type":
            of_type = identifier(it.contents)["identifier"]
        if it.field == "value" and it.is_open:
            yield noted_on_value(of_type, it.tag, it.contents, it.is_constructed)
        yield noted_on_name(it, is_alternative)


def noted_names(octets, depth, limit):
    """The codes of all notes on names of an accepted request."""
    asked = Asked(octets, depth, limit)
    found = []
    for of_type, value in (pair for relative in asked.subject for pair in relative):
        arcs = identifier(asked.contents(of_type))["identifier"]
        found.append(noted_on_value(arcs, value.tag, asked.contents(value), value.is_constructed))
    for it in asked.others:
        carries = None if isinstance(it, str) else it.judged((depth, limit))[0]
        if carries and carries["verdict"] == "der":
            arcs = identifier(it.identifier)["identifier"]
            found += noted_in_extension(parts(b"".join(it.pieces))[0], arcs)
    return [it for it in found if it]
