#!/usr/bin/env python3
"""report.py --kind K [--depth N] [--octets N] < INPUT

What a report of a refused document tells, by docs/formats.md, "What a report tells", alone: an object of JSON with the
parts that aren't words. It is written over tests/oracle/reader.py, which finds the fault, and shares nothing with
the definitions and the code of pkder but the table of usual names. Of a document that is accepted nothing is said."""
import json
import re
import sys
from collections import namedtuple
from pathlib import Path

sys.path[0] = str(Path(__file__).resolve().parents[2])
from tests.oracle import reader
from tests.oracle.document_types import (
    BIT_STRING, BOOLEAN, EC, IDENTIFIER, INSIDE, INTEGER, NO_BOUND, NULL, OPEN, SEQUENCE, SET, TYPES, Walk, header_at,
    joined)
from tests.oracle.parts import Part, arcs
from tests.oracle.reader import DEPTH, ENUMERATED, OCTETS, OUTERMOST, Container, Reader, leaf
from tools.pages.identifier_names import names_by_contents

LINE = re.compile(r"fault at (\d+): (\w+)(?: inside at (\d+): (\w+))?")
Fault = namedtuple("Fault", "place reason inner_place inner_reason", defaults=(None, None))
CLASSES = {0x02: "INTEGER", 0x03: "BIT STRING", 0x04: "OCTET STRING", 0x05: "NULL", 0x06: "OBJECT IDENTIFIER",
           0x0C: "UTF8String", 0x30: "SEQUENCE", 0x31: "SET", 0xA0: "[0]", 0xA1: "[1]"}
TAG_CLASSES = ("universal", "application", "context", "private")
CHARACTERS = [(0, it) for it in (12, *range(18, 29), 30)]
CARRIED = ("subjectPublicKey", "extnValue", "signature")
SUBJECT, ATTRIBUTES = "certificationRequestInfo.subject", "certificationRequestInfo.attributes"
OF_NO_ELEMENT = ("Missing", "Truncated", "Trailing")
NEVER_NEAR = ("KeyLength", "VersionRule")
# The reasons of which it is looked what else the file may be.
LOOKED = ("WrongTag", "Version", "Missing", "PastEnd", "BadTag", "LeftOut", "Extra", "Truncated", "TooLong")
HEXADECIMAL, BASE_64 = rb"[0-9A-Fa-f: \t\r\n]+", rb"M[0-9A-Za-z+/=_ \t\r\n-]*"
# What begins so is this, whatever comes after it.
BEGINNINGS = {
    "utf16": rb"(?s)(?=.{8})(\xff\xfe(.\0){0,6}(.\0|.?\Z)|\xfe\xff(\0.){0,6}(\0.|\0?\Z))",
    "java_key_store": rb"\xfe\xed\xfe\xed|\xce\xce\xce\xce",
    "openssh_key": rb"openssh-key-v1",
    "ssh_public_key": rb"ssh-(rsa|dss|ed25519) AAAA|ecdsa-sha2-nistp",
    "recoded": rb"0\xc2[\x81-\x83]",
    "replaced": rb"0\xef\xbf\xbd",
}
LINES = {"putty_key": rb"PuTTY-User-Key-File-|---- BEGIN SSH2 ENCRYPTED PRIVATE KEY",
         "ssh2_public_key": rb"---- BEGIN SSH2 PUBLIC KEY", "dump": rb"00000000: "}
TEXTS = {"markup": rb"<[ -~\t\r\n]{0,15}", "json": rb"{[ -~\t\r\n]{0,15}"}
# A key in such a text: by this word, and private where it has the other one, too.
KEYS_IN_TEXTS = {"markup": (b"<RSAKey", b"<D>", "xml_private_key", "xml_key"),
                 "json": (b'"kty"', b'"d"', "jwk_private", "jwk")}
HEAD = 16384
# PEM, and that of a key or a request.
ANY_PEM = rb"(?:\A|[\r\n])[ \t]*(-----BEGIN )"
USED_PEM = ANY_PEM + (rb"(?:(?:NEW )?CERTIFICATE REQUEST|(?:RSA )?PUBLIC KEY|"
                      rb"(?:(?:ENCRYPTED|EC|RSA|DSA|OPENSSH|SM2) )?PRIVATE KEY)-----")
MOST_TOLD = 6


# The front


def is_usual(element, octets):
    """Whether what a primitive element says may be told of a refused document."""
    contents = octets[element.begin : element.end]
    if element.tag == INTEGER.tag:
        return element.name == "version" and contents in (b"\0", b"\1")
    if element.tag == IDENTIFIER.tag:
        return contents in names_by_contents()
    if element.tag == BOOLEAN.tag:
        return element.name == "critical" and contents in (b"\0", b"\xff")
    return element.tag == NULL.tag and not contents


def is_container(element):
    """Whether it is told as a container: of open values SEQUENCE and SET are, since others may be octets of a key."""
    return element.is_container() and (element.form != OPEN or element.tag in (SEQUENCE, SET))


def has_key_after(octets, at):
    """Whether a public key begins at a place, with lengths that are told, that of its identifier a single octet."""
    for _ in range(2):
        header = header_at(octets, at)
        if not header or octets[at] != 0x30 or header.begin - at > MOST_TOLD:
            return False
        at = header.begin
    is_told = octets[at : at + 1] == b"\x06" and at + 1 < len(octets)
    return is_told and octets[at + 2 : at + 2 + octets[at + 1]] in names_by_contents()


class Front:
    """Finds how many of the first octets of a refused document are usual."""

    def __init__(self, octets, kind, limits):
        self.octets, self.walk, self.size = octets, Walk(octets, TYPES[kind], *limits), 0
        self.is_of_request, self.subject_end = kind == "request", 0

    def take(self, element):
        """Takes an element; answers whether to go on after it."""
        is_last = element.type is None
        if is_last:
            pass
        elif self.is_of_request and element.path == SUBJECT:
            is_last = not self.take_subject(element)
        elif element.at < self.subject_end:
            is_sound = is_container(element) or element.is_of_segments() or not element.is_constructed
            is_last = not is_sound or element.is_too_long or not element.is_constructed and not element.is_whole
            self.size = element.begin if is_last or element.is_constructed else element.end
        elif is_container(element):
            is_last = element.is_too_long
            is_of_attributes = self.is_of_request and element.path == ATTRIBUTES
            self.size = element.at if is_of_attributes else self.size
        else:
            is_last = element.is_private or element.is_constructed or not self.take_leaf(element)
        return not is_last

    def take_subject(self, element):
        if not element.is_constructed or element.length is None or not has_key_after(self.octets, element.end):
            return False
        self.subject_end, self.size = element.end, element.begin
        return True

    def take_leaf(self, element):
        if not element.is_whole:
            return False
        if is_usual(element, self.octets):
            self.size = element.end
            return True
        return element.name in CARRIED

    def ends(self, fault):
        """Where it ends, for this fault: no later than the element that begins at its place, or else that place."""
        at_fault, goes_on = None, True
        while goes_on and (element := self.walk.next()):
            at_fault = element if element.at == fault.place else at_fault
            goes_on = self.take(element)
        if self.is_of_request and goes_on and self.walk.is_cut and self.walk.is_at_attributes():
            self.size = self.walk.at
        if goes_on and self.walk.is_complete():
            self.size = self.walk.outermost.end
        latest = at_fault.end if at_fault else fault.place
        return self.size if latest is None else min(self.size, latest)


# Lines


def value_of(element, octets):
    """What is told of the contents of a primitive element."""
    contents = octets[element.begin : element.end]
    if element.name.startswith("{"):
        return {"octets": len(contents)}
    if element.tag == BIT_STRING and contents and contents[0] < 8:
        return {"octets": len(contents) - 1, "unused_bits": contents[0]}
    if not is_sound(octets[element.at : element.end]):
        return {"octets": len(contents)}
    if element.tag == IDENTIFIER.tag:
        name = names_by_contents().get(contents)
        return {"identifier": arcs(Part(6, b"", contents))} | ({"name": name} if name else {})
    if element.tag == BOOLEAN.tag:
        return {"boolean": contents != b"\0"}
    if element.tag == NULL.tag:
        return {"null": True}
    if element.tag in (INTEGER.tag, ENUMERATED) and 0 < len(contents) <= 4 and contents < b"\x80":
        return {"integer": int.from_bytes(contents, "big")}
    if element.tag in CHARACTERS and element.name == "value":
        try:
            return {"characters": contents.decode("utf-8")}
        except UnicodeDecodeError:
            return {"hexadecimal": contents.hex()}
    return {"octets": len(contents)}


def is_sound(octets):
    """Whether the contents of a primitive element are as its type has them, but for a UTF8String."""
    alone = Reader(octets, DEPTH, len(octets))
    try:
        leaf(alone, alone.element(Container(OUTERMOST, None, 1)))
    except reader.Fault as fault:
        return fault.reason == "BadText"
    return True


def is_header_told(element):
    return element.begin - element.at <= MOST_TOLD


def line_of(element, octets):
    """The line of an element of the front."""
    found = {"at": element.at}
    if is_header_told(element):
        found |= {"header": element.begin - element.at, "length": element.length}
    is_end_told = is_header_told(element) or element.is_ended
    found |= {"depth": element.depth, "name": element.name or None, "type": element.type.name,
              "end": element.end if is_end_told else None,
              "tag": {"class": TAG_CLASSES[element.tag[0]], "number": element.tag[1]},
              "constructed": element.is_constructed}
    if not element.is_constructed and element.is_whole:
        found["value"] = value_of(element, octets)
    return {key: it for key, it in found.items() if it is not None}


# The field


def path_of(walk, fault):
    """The path of the field of a fault, by the elements up to its place."""
    before = None
    while walk.at < fault.place and (element := walk.next()):
        before = element
    if fault.reason == "Missing":
        lacking = [it for place, it in walk.ended if place == fault.place and it.lacks()]
        around = [*lacking, *walk.open[::-1]][:1]
        return around[0].element.path if around else ""
    if before and not before.is_constructed and (before.end or 0) > fault.place:
        return before.path
    element = walk.next() if walk.at == fault.place else None
    return element.path if element and element.type else path_around(walk, fault, element)


def path_around(walk, fault, outside):
    """The same where no element of a field with a whole header begins at the place: by the container there."""
    if not walk.open:
        return ""
    around = walk.open[-1]
    # (an element of no field was counted)
    around.count -= outside is not None
    field = None if outside or fault.reason == "TooDeep" else walk.field_ahead()
    if fault.reason == "WrongTag" and around.next():
        field = around.next()[-1]
    return joined(around.element.path, field.name) if field else around.element.path


def fields_alone(path):
    """A path without the numbers of members and segments."""
    return re.sub(r"\[\d+\]|\{\d+\}", "", path).lstrip(".")


def inside_of(octets, kind, place):
    """The octets of the document inside the privateKey at a place, whose segments are joined, and its type."""
    walk, algorithm, found = Walk(octets, TYPES[kind]), None, b""
    while (element := walk.next()).at < place:
        algorithm = element if element.name == "algorithm" else algorithm
    path = element.path
    while element and element.path.startswith(path):
        found += b"" if element.is_constructed else octets[element.begin : element.end]
        element = walk.next()
    return found, INSIDE[octets[algorithm.begin : algorithm.end]]


def field_of(octets, kind, fault, limits, is_near):
    """The field of a fault, which is near or not."""
    type_ = TYPES[kind]
    path = path_of(Walk(octets, type_, *limits), fault)
    if fault.inner_reason:
        octets, type_ = inside_of(octets, kind, fault.place)
        inner = Fault(fault.inner_place, fault.inner_reason)
        path = joined(path, path_of(Walk(octets, type_, *limits), inner))
    if type_ is EC and "KeyLength" in (fault.reason, fault.inner_reason):
        path = joined(path, "privateKey")
    return (path if is_near else fields_alone(path)) or TYPES[kind].name


# What else the file may be


def goes_on_as(kind, octets, limits):
    """Whether the octets go on as this kind has it, up to the field that decides, with a usual element before."""
    decides = {"request": "subjectPKInfo", "public": "subjectPublicKey", "encrypted": "encryptedData"}
    walk, is_any_usual = Walk(octets, TYPES[kind], *limits), False
    while (element := walk.next()) and element.type:
        if element.name == decides.get(kind, "privateKey"):
            return is_any_usual
        is_leaf = not element.is_constructed and element.is_whole
        is_any_usual = is_any_usual or is_leaf and is_usual(element, octets)
        if element.is_too_long:
            return False
    ahead = walk.field_ahead() if walk.open and walk.is_cut else None
    return bool(ahead) and ahead.name == decides.get(kind, "privateKey") and is_any_usual


def begins_as(octets, at, members):
    """Whether the members of the SEQUENCE at a place begin so: each a tag, and contents that it may have, or members of
    its own, or nothing."""
    header = header_at(octets, at)
    if not header or header.tag != SEQUENCE or not header.is_constructed:
        return False
    at, end = header.begin, header.begin + header.length if header.length is not None else NO_BOUND
    for tag, due in members:
        if tag is None:
            ends = at == end or end == NO_BOUND and octets[at : at + 2] == b"\0\0" if at is not None else False
            return ends and at <= len(octets)
        header = header_at(octets, at) if at is not None else None
        if not header or header.tag != tag or isinstance(due, list) and not begins_as(octets, at, due):
            return False
        at = None if header.length is None else header.begin + header.length
        if (at or 0) > end:
            return False
        if isinstance(due, tuple) and octets[header.begin : at] not in due:
            return False
    return True


NUMBER, EXPONENT = (INTEGER.tag, None), (INTEGER.tag, (b"\1\0\1", b"\3"))
OTHERS = {
    "rsa_private_key": [(INTEGER.tag, (b"\0",)), NUMBER, EXPONENT],
    "dsa_private_key": [(INTEGER.tag, (b"\0",)), *[NUMBER] * 5, (None, None)],
    "rsa_public_key": [NUMBER, EXPONENT],
    "certificate": [(SEQUENCE, [((2, 0), None)])],
    "pkcs12": [(INTEGER.tag, (b"\3",)), (SEQUENCE, [(IDENTIFIER.tag, None)])],
}


def pem_of(head):
    """What PEM there is: of several texts the first that is a key or a request, else the first."""
    if not (found := re.search(USED_PEM, head) or re.search(ANY_PEM, head)):
        return None
    if head[found.start(1) :].partition(b"\n")[2].startswith(b"Proc-Type:"):
        return "encrypted_pem"
    return "pem_behind" if found.start(1) else "pem"


def key_in(text, word):
    """What key a text is, by two words in it; else the text itself."""
    first, second, private, public = KEYS_IN_TEXTS[word]
    return (private if second in text else public) if first in text else word


def text_of(octets):
    """What text a file is."""
    text = re.sub(rb"\A(\xef\xbb\xbf)?[ \t\r\n]*", b"", octets)
    if found := pem_of(text[:HEAD]):
        return found
    if not octets:
        return "empty"
    for word, beginning in LINES.items():
        if re.match(beginning, octets):
            return word
    if re.fullmatch(HEXADECIMAL, octets[:16]):
        return "hexadecimal"
    if re.fullmatch(BASE_64, octets[:16]):
        return "base64"
    for word, beginning in BEGINNINGS.items():
        if re.match(beginning, octets[:16]):
            return word
    for word, whole in TEXTS.items():
        if re.fullmatch(whole, text[:16]):
            return key_in(text[:HEAD], word)
    return None


def look_of(octets, kind, fault, limits):
    """What else the file may be."""
    is_looked = not fault.inner_reason and fault.reason in LOOKED and fault.place < 64
    if is_looked and (found := text_of(octets)):
        return found
    if kind in ("request", "public") and octets.count(b"\n") == octets.count(b"\r\n") > 1:
        return "text_lines"
    if not is_looked:
        return None
    others = (it for it in TYPES if it != kind and goes_on_as(it, octets, limits))
    return next(others, None) or next((name for name, members in OTHERS.items() if begins_as(octets, 0, members)), None)


# The report


def fault_of(octets, kind, depth, limit):
    """The fault of a document, None where it's accepted."""
    found = LINE.fullmatch(reader.answer("check", kind, octets, depth, limit)[2])
    if not found:
        return None
    return Fault(int(found[1]), found[2], found[3] and int(found[3]), found[4])


class Report:
    """What is told of a refused document: the lines, the field, the class, the look, and the numbers."""

    def __init__(self, octets, kind, fault, limits):
        self.octets, self.kind, self.fault, self.limits = octets, kind, fault, limits
        self.front = Front(octets, kind, limits).ends(fault)
        walk, self.elements = Walk(octets[: self.front], TYPES[kind], *limits), []
        while element := walk.next():
            self.elements.append(element)
        self.at_fault = next((it for it in self.elements if it.at == fault.place), None)

    def lines(self):
        found = [line_of(it, self.octets[: self.front]) for it in self.elements]
        if self.at_fault or self.fault.reason in OF_NO_ELEMENT:
            return found
        return [*found, {"at": self.fault.place, "value": {"shown": False}}]

    def is_near(self):
        fault = self.fault
        return not fault.inner_reason and fault.reason not in NEVER_NEAR and fault.place <= self.front

    def class_(self):
        """The class of what stands at the fault's place, where that is all that is told of it."""
        fault = self.fault
        if self.at_fault or fault.inner_reason or fault.reason in OF_NO_ELEMENT or fault.place == len(self.octets):
            return None
        return CLASSES.get(self.octets[fault.place])

    def numbers(self):
        """How many octets are missing, too many or after."""
        fault, size = self.fault, len(self.octets)
        announced = self.elements[0].end if self.elements and is_header_told(self.elements[0]) else None
        found = {}
        if announced and announced > size and size <= self.limits[1]:
            found["missing"] = announced - size
        if fault.reason == "PastEnd" and self.at_fault and self.at_fault.over and is_header_told(self.at_fault):
            found["over"] = self.at_fault.over
        if fault.reason == "Trailing" or announced and announced < size:
            found["more"] = size - (fault.place if fault.reason == "Trailing" else announced)
        return found

    def whole(self):
        fault = self.fault
        inside = {"at": fault.inner_place, "reason": fault.inner_reason} if fault.inner_reason else None
        found = {"at": fault.place, "reason": fault.reason, "inside": inside,
                 "file_at": None if inside else fault.place,
                 "field": field_of(self.octets, self.kind, fault, self.limits, self.is_near()),
                 "class": self.class_(), **self.numbers(),
                 "looks_like": look_of(self.octets, self.kind, fault, self.limits), "lines": self.lines()}
        return {key: it for key, it in found.items() if it is not None}


def report(octets, kind, depth=DEPTH, limit=OCTETS):
    """What is told of a document, None where it's accepted."""
    octets = octets[: limit + 1]
    fault = fault_of(octets, kind, depth, limit)
    return fault and Report(octets, kind, fault, (depth, limit))


def main(words):
    asked = reader.command_line().parse_args(["check", *words])
    found = report(sys.stdin.buffer.read(), asked.kind, asked.depth, asked.octets)
    if found:
        print(json.dumps(found.whole(), ensure_ascii=False))
    return 2 if found else 0


if __name__ == "__main__":
    sys.exit(main(sys.argv[1:]))
