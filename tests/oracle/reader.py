#!/usr/bin/env python3
"""reader.py ACTION --kind K [--depth N] [--octets N] [--reading-fails] < INPUT
reader.py signed [--part P] [--depth N] [--octets N] [--reading-fails] < INPUT

What `pkder ACTION` has to answer, ACTION being show, check, normalise or signed: the same output, line and status. It
is written from docs/formats.md and the standards cited there alone, and shares nothing with the definitions and the
code of pkder, so that each may show a mistake of the other. With --reading-fails standard input fails where its octets
end."""
import argparse
import re
import sys
from collections import namedtuple
from pathlib import Path

sys.path[0] = str(Path(__file__).resolve().parents[2])
from tests.oracle.parts import PARTS, part_of, received, shown

# A tag is its class and its number (X.690 8.1.2.2).
UNIVERSAL, CONTEXT = 0, 2
BOOLEAN, INTEGER, BIT_STRING, OCTET_STRING, NULL, OBJECT_IDENTIFIER = ((UNIVERSAL, it) for it in range(1, 7))
ENUMERATED, UTF8_STRING, SEQUENCE, SET = ((UNIVERSAL, it) for it in (10, 12, 16, 17))
TAG_0, TAG_1 = (CONTEXT, 0), (CONTEXT, 1)
# The last row of the table of open values; 0 stands for every number after 30.
LEFT_OUT = (0, 8, 9, 11, 13, 14, 15, 29)

# A container has definite or indefinite length; the outermost element stands in neither.
OUTERMOST, DEFINITE, INDEFINITE = range(3)
Container = namedtuple("Container", "form end_in_force depth")
# An element whose identifier is read, and the container around it.
Element = namedtuple("Element", "place tag is_constructed around")
Algorithm = namedtuple("Algorithm", "oid parameters text")
EcKey = namedtuple("EcKey", "length curve text")


class Fault(Exception):
    """The first fault of a document: its place, its reason, and for Inner the fault inside."""

    def __init__(self, place, reason, inside=None):
        super().__init__(place, reason, inside)
        self.place, self.reason, self.inside = place, reason, inside

    def line(self):
        inside = f" inside at {self.inside.place}: {self.inside.reason}" if self.inside else ""
        return f"fault at {self.place}: {self.reason}{inside}"


class ReadFailed(Exception):
    """An octet was needed at this place, where the read failed."""

    def __init__(self, place):
        super().__init__(place)
        self.place = place


def base_128(number):
    """The octets of a number in base 128, bit 8 set on all but the last (X.690 8.1.2.4, 8.19.2)."""
    found = [number & 127]
    while number := number >> 7:
        found.insert(0, number & 127 | 128)
    return bytes(found)


def text_of(tag, contents, is_constructed=False):
    """The DER text of an element with these contents (X.690 8.1, 10.1)."""
    kind, number = tag
    first = kind << 6 | is_constructed << 5
    identifier = bytes([first | number]) if number < 31 else bytes([first | 31]) + base_128(number)
    length = len(contents)
    octets = length.to_bytes((length.bit_length() + 7) // 8, "big")
    header = bytes([length]) if length < 128 else bytes([128 + len(octets)]) + octets
    return identifier + header + contents


def sequence(*texts):
    """The DER text of a SEQUENCE of what has these texts, None standing for a field that is absent."""
    return text_of(SEQUENCE, b"".join(it for it in texts if it is not None), True)


def in_order(texts):
    """The texts of the members of a SET OF in their order: the shorter padded with octets 00 (X.690 11.6)."""
    longest = max(map(len, texts), default=0)
    return b"".join(sorted(texts, key=lambda it: it.ljust(longest, b"\0")))


def oid(arcs):
    """The contents of the OBJECT IDENTIFIER of these arcs (X.690 8.19)."""
    first, second, *others = map(int, arcs.split("."))
    return b"".join(map(base_128, [40 * first + second, *others]))


# The algorithms of RFC 8410, with the octets that their private and their public keys have.
RFC_8410 = {oid("1.3.101.110"): 32, oid("1.3.101.111"): 56, oid("1.3.101.112"): 32, oid("1.3.101.113"): 57}
EC_PUBLIC_KEY, RSA_ENCRYPTION = oid("1.2.840.10045.2.1"), oid("1.2.840.113549.1.1.1")
EXTENSION_REQUEST = oid("1.2.840.113549.1.9.14")
# The octets of the private keys of curves, by the texts of their identifiers.
CURVES = {
    text_of(OBJECT_IDENTIFIER, oid("1.3.132.0.33")): 28,
    text_of(OBJECT_IDENTIFIER, oid("1.2.840.10045.3.1.7")): 32,
    text_of(OBJECT_IDENTIFIER, oid("1.3.132.0.10")): 32,
    text_of(OBJECT_IDENTIFIER, oid("1.3.132.0.34")): 48,
    text_of(OBJECT_IDENTIFIER, oid("1.3.132.0.35")): 66,
}


class Reader:
    """Reads the elements of a document, in any layout, from the first octet on."""

    def __init__(self, octets, depth, limit, reading_fails=False):
        self.octets, self.depth, self.limit, self.reading_fails = octets, depth, limit, reading_fails
        self.at = 0

    def ended(self):
        """What it is that an octet is needed after the last one."""
        place = len(self.octets)
        return ReadFailed(place) if self.reading_fails else Fault(place, "Truncated")

    def header_octet(self, place, around):
        """Takes an octet of a header, or of end-of-contents octets, that belongs to the identifier at this place."""
        if around.end_in_force is not None and self.at >= around.end_in_force:
            raise Fault(place, "PastEnd")
        if self.at >= self.limit:
            raise Fault(place, "TooLong")
        if self.at >= len(self.octets):
            raise self.ended()
        self.at += 1
        return self.octets[self.at - 1]

    def element(self, around):
        """Reads the identifier of the next element of a container; answers None at the container's end."""
        place = self.at
        if around.form == DEFINITE and place == around.end_in_force:
            return None
        first = self.header_octet(place, around)
        if first == 0x00:
            if around.form != INDEFINITE or self.header_octet(place, around) != 0x00:
                raise Fault(place, "BadEnd")
            return None
        if first == 0x20:
            raise Fault(place, "BadTag")
        number = first & 31 if first & 31 < 31 else self.high_number(place, around)
        if around.depth > self.depth:
            raise Fault(place, "TooDeep")
        return Element(place, (first >> 6, number), bool(first & 0x20), around)

    def high_number(self, place, around):
        """Reads a tag number after the first octet of an identifier (X.690 8.1.2.4)."""
        number = 0
        for count in range(1, 5):
            octet = self.header_octet(place, around)
            number = number << 7 | octet & 127
            if count == 1 and octet == 0x80 or count == 4 and octet >= 0x80 or octet < 0x80 and number < 31:
                raise Fault(place, "BadTag")
            if octet < 0x80:
                break
        return number

    def length(self, element):
        """Reads the length of an element; None stands for the indefinite form (X.690 8.1.3)."""
        place, around = element.place, element.around
        length = self.header_octet(place, around)
        if length == 0xFF or length == 0x80 and not element.is_constructed:
            raise Fault(place, "BadLength")
        if length == 0x80:
            return None
        if length > 0x80:
            length = int.from_bytes([self.header_octet(place, around) for _ in range(length - 0x80)], "big")
        if around.end_in_force is not None and self.at + length > around.end_in_force:
            raise Fault(place, "PastEnd")
        if self.at + length > self.limit:
            raise Fault(place, "TooLong")
        return length

    def contents(self, element):
        """Takes the contents of a primitive element."""
        if element.is_constructed:
            raise Fault(element.place, "WrongForm")
        length = self.length(element)
        begin, self.at = self.at, self.at + length
        if self.at > len(self.octets):
            raise self.ended()
        return self.octets[begin : self.at]

    def enter(self, element):
        """Reads the length of a constructed element, and answers it as a container."""
        if not element.is_constructed:
            raise Fault(element.place, "WrongForm")
        length = self.length(element)
        if length is None:
            return Container(INDEFINITE, element.around.end_in_force, element.around.depth + 1)
        return Container(DEFINITE, self.at + length, element.around.depth + 1)

    def document(self, tag, read):
        """Reads the outermost element, which has this tag."""
        element = self.element(Container(OUTERMOST, None, 1))
        if element.tag != tag:
            raise Fault(element.place, "WrongTag")
        return read(self, element)

    def expect_end(self):
        """Looks whether an octet follows."""
        if self.at < len(self.octets):
            raise Fault(self.at, "Trailing")
        if self.reading_fails:
            raise ReadFailed(self.at)


class Fields:
    """The elements of a container, which are tried as fields in their order; each identifier is read once."""

    def __init__(self, reader, element):
        self.reader, self.container = reader, reader.enter(element)
        self.is_ahead, self.found, self.place = False, None, None

    def ahead(self):
        """The next element; None at the end."""
        if not self.is_ahead:
            self.place = self.reader.at
            self.found, self.is_ahead = self.reader.element(self.container), True
        return self.found

    def optional(self, tag=None):
        """The next element where it has this tag, or any if none is given; else None."""
        found = self.ahead()
        if found is None or tag not in (None, found.tag):
            return None
        self.is_ahead = False
        return found

    def due(self, tag=None):
        found = self.optional(tag)
        if found is None:
            raise Fault(self.place, "WrongTag" if self.found else "Missing")
        return found

    def end(self, refused=None):
        """Expects no further element; the version rules out one of the refused tag."""
        found = self.ahead()
        if found is not None:
            raise Fault(found.place, "VersionRule" if found.tag == refused else "Extra")


def list_of(reader, element, tag, read, is_due=False):
    """The texts of the members of a SEQUENCE OF or SET OF, or of a string's segments, which all have this tag."""
    fields, texts = Fields(reader, element), []
    while is_due and not texts or fields.ahead() is not None:
        texts.append(read(reader, fields.due(tag)))
    return texts


# Leaves. Each of these answers the contents of the DER text.


def boolean(reader, element):
    contents = reader.contents(element)
    if len(contents) != 1:
        raise Fault(element.place, "BadBoolean")
    return b"\0" if contents == b"\0" else b"\xff"


def integer(reader, element):
    """An INTEGER or ENUMERATED, whose first nine bits are not all alike (X.690 8.3.2)."""
    contents = reader.contents(element)
    if not contents or len(contents) > 1 and (contents[0], contents[1] >> 7) in ((0x00, 0), (0xFF, 1)):
        raise Fault(element.place, "BadInteger")
    return contents


def null(reader, element):
    if reader.contents(element):
        raise Fault(element.place, "BadNull")
    return b""


def is_subidentifier(octets):
    """Whether these octets, the last one alone having bit 8 clear, are a number below 2^128 in the fewest octets."""
    return octets[0] != 0x80 and (len(octets) < 19 or len(octets) == 19 and octets[0] <= 0x83)


def object_identifier(reader, element):
    contents = reader.contents(element)
    parts = re.findall(rb"[\x80-\xff]*[\x00-\x7f]", contents)
    if not parts or sum(map(len, parts)) != len(contents) or not all(map(is_subidentifier, parts)):
        raise Fault(element.place, "BadOid")
    return contents


def bit_string(reader, element):
    """A BIT STRING; its unused bits are written as 0 (X.690 8.6, 11.2.1)."""
    pieces = []

    def take(reader, segment):
        if segment.is_constructed:
            list_of(reader, segment, BIT_STRING, take)
            return
        contents = reader.contents(segment)
        is_after_unused = pieces and pieces[-1][0] > 0
        if is_after_unused or not contents or contents[0] > (7 if contents[1:] else 0):
            raise Fault(segment.place, "BadBits")
        pieces.append(contents)

    take(reader, element)
    unused, joined = pieces[-1][0] if pieces else 0, b"".join(it[1:] for it in pieces)
    last = joined[-1:] and bytes([joined[-1] >> unused << unused])
    return bytes([unused]) + joined[:-1] + last


def octet_string(reader, element):
    """An OCTET STRING, a character string or a time, whose segments are joined (X.690 8.7, 8.23)."""
    if element.is_constructed:
        return b"".join(list_of(reader, element, OCTET_STRING, octet_string))
    return reader.contents(element)


def utf8_string(reader, element):
    contents = octet_string(reader, element)
    try:
        contents.decode("utf-8")
    except UnicodeDecodeError:
        raise Fault(element.place, "BadText") from None
    return contents


LEAVES = {
    BOOLEAN: boolean,
    INTEGER: integer,
    BIT_STRING: bit_string,
    NULL: null,
    OBJECT_IDENTIFIER: object_identifier,
    ENUMERATED: integer,
    UTF8_STRING: utf8_string,
}


def open_value(reader, element):
    """The DER text of an element that is read by its tag alone."""
    tag, (kind, number) = element.tag, element.tag
    if kind == UNIVERSAL and (number if number < 31 else 0) in LEFT_OUT:
        raise Fault(element.place, "LeftOut")
    if tag in (SEQUENCE, SET) or kind != UNIVERSAL and element.is_constructed:
        texts = list_of(reader, element, None, open_value)
        return text_of(tag, in_order(texts) if tag == SET else b"".join(texts), True)
    return text_of(tag, LEAVES.get(tag, octet_string)(reader, element))


def fields_of(reader, element, *due):
    """What is read of fields that are all due and nothing else, each with its tag and what reads it."""
    fields = Fields(reader, element)
    found = [read(reader, fields.due(tag)) for tag, read in due]
    fields.end()
    return found


def leaf(reader, element):
    """The DER text of a leaf whose tag is its own."""
    return text_of(element.tag, LEAVES.get(element.tag, octet_string)(reader, element))


# Types. Each of these answers its DER text, where it says nothing else.


def version(reader, element, least, most):
    """The number of a version."""
    number = int.from_bytes(integer(reader, element), "big", signed=True)
    if not least <= number <= most:
        raise Fault(element.place, "Version")
    return number


def algorithm_identifier(reader, element):
    fields = Fields(reader, element)
    algorithm = object_identifier(reader, fields.due(OBJECT_IDENTIFIER))
    given = fields.optional()
    parameters = None if given is None else open_value(reader, given)
    fields.end()
    if algorithm in RFC_8410 and given:
        raise Fault(element.place, "Parameters")
    return Algorithm(algorithm, parameters, sequence(text_of(OBJECT_IDENTIFIER, algorithm), parameters))


def any_algorithm(reader, element):
    return algorithm_identifier(reader, element).text


def public_bits(reader, element, algorithm):
    """The bits of a public key, which have the length of their algorithm."""
    bits = bit_string(reader, element)
    if algorithm.oid in RFC_8410 and (bits[0] or len(bits) - 1 != RFC_8410[algorithm.oid]):
        raise Fault(element.place, "KeyLength")
    return text_of(element.tag, bits)


def public_key(reader, element):
    """SubjectPublicKeyInfo (RFC 5280 section 4.1)."""
    fields = Fields(reader, element)
    algorithm = algorithm_identifier(reader, fields.due(SEQUENCE))
    bits = public_bits(reader, fields.due(BIT_STRING), algorithm)
    fields.end()
    return sequence(algorithm.text, bits)


def set_of_some(reader, element, tag, read):
    """A SET OF that has at least one member."""
    texts = list_of(reader, element, tag, read)
    if not texts:
        raise Fault(element.place, "EmptySet")
    return text_of(SET, in_order(texts), True)


def explicit(reader, element, tag):
    """The leaf inside an explicit tag; None where the tag is absent."""
    return None if element is None else fields_of(reader, element, (tag, leaf))[0]


def ec_private_key(reader, element):
    """ECPrivateKey (RFC 5915 section 3): the octets of its key, the text of its curve's identifier, and its text."""
    fields = Fields(reader, element)
    version(reader, fields.due(INTEGER), 1, 1)
    key = octet_string(reader, fields.due(OCTET_STRING))
    curve = explicit(reader, fields.optional(TAG_0), OBJECT_IDENTIFIER)
    bits = explicit(reader, fields.optional(TAG_1), BIT_STRING)
    fields.end()
    if len(key) != CURVES.get(curve, len(key)):
        raise Fault(element.place, "KeyLength")
    tagged = [text_of(tag, it, True) for tag, it in ((TAG_0, curve), (TAG_1, bits)) if it]
    return EcKey(len(key), curve, sequence(text_of(INTEGER, b"\1"), text_of(OCTET_STRING, key), *tagged))


def rsa_private_key(reader, element):
    """RSAPrivateKey (RFC 8017 A.1.2)."""
    fields = Fields(reader, element)
    number = version(reader, fields.due(INTEGER), 0, 1)
    texts = [text_of(INTEGER, bytes([number])), *(leaf(reader, fields.due(INTEGER)) for _ in range(8))]
    infos = fields.optional(SEQUENCE) if number == 1 else None
    if infos:
        texts.append(sequence(*list_of(reader, infos, SEQUENCE, other_prime_info, is_due=True)))
    fields.end(refused=SEQUENCE if number == 0 else None)
    if number == 1 and not infos:
        raise Fault(element.place, "VersionRule")
    return sequence(*texts)


def other_prime_info(reader, element):
    return sequence(*fields_of(reader, element, (INTEGER, leaf), (INTEGER, leaf), (INTEGER, leaf)))


def inner_document(reader, element, octets, tag, read):
    """What the octets of privateKey contain: a document of its own, under the same limits."""
    inner = Reader(octets, reader.depth, reader.limit)
    try:
        found = inner.document(tag, read)
        inner.expect_end()
        return found
    except Fault as fault:
        raise Fault(element.place, "Inner", fault) from None


def private_key(reader, element, algorithm):
    """The octets of privateKey: in DER where the algorithm says what they contain."""
    octets = octet_string(reader, element)
    if algorithm.oid in RFC_8410:
        key = inner_document(reader, element, octets, OCTET_STRING, octet_string)
        if len(key) != RFC_8410[algorithm.oid]:
            raise Fault(element.place, "KeyLength")
        return text_of(OCTET_STRING, key)
    if algorithm.oid == EC_PUBLIC_KEY:
        key = inner_document(reader, element, octets, SEQUENCE, ec_private_key)
        if key.curve not in (None, algorithm.parameters):
            raise Fault(element.place, "Curve")
        if key.length != CURVES.get(algorithm.parameters, key.length):
            raise Fault(element.place, "KeyLength")
        return key.text
    if algorithm.oid == RSA_ENCRYPTION:
        return inner_document(reader, element, octets, SEQUENCE, rsa_private_key)
    return octets


def key_algorithm(reader, element):
    """The algorithm of a private key: an EC key's names its curve."""
    algorithm = algorithm_identifier(reader, element)
    names_curve = algorithm.parameters and algorithm.parameters[0] == OBJECT_IDENTIFIER[1]
    if algorithm.oid == EC_PUBLIC_KEY and not names_curve:
        raise Fault(element.place, "Parameters")
    return algorithm


def attributes(reader, element, read):
    """A SET OF attributes under the implicit tag [0]; None where it is absent."""
    return None if element is None else text_of(TAG_0, in_order(list_of(reader, element, SEQUENCE, read)), True)


def one_asymmetric_key(reader, element):
    """OneAsymmetricKey (RFC 5958 section 2)."""
    fields = Fields(reader, element)
    number = version(reader, fields.due(INTEGER), 0, 1)
    algorithm = key_algorithm(reader, fields.due(SEQUENCE))
    key = private_key(reader, fields.due(OCTET_STRING), algorithm)
    given = attributes(reader, fields.optional(TAG_0), attribute)
    public = fields.optional(TAG_1) if number == 1 else None
    bits = public and public_bits(reader, public, algorithm)
    fields.end(refused=TAG_1 if number == 0 else None)
    if number == 1 and not public:
        raise Fault(element.place, "VersionRule")
    return sequence(text_of(INTEGER, bytes([number])), algorithm.text, text_of(OCTET_STRING, key), given, bits)


def attribute(reader, element, is_of_request=False):
    """Attribute, or RequestAttribute (RFC 2986 section 4.1, RFC 2985 section 5.4.2)."""
    fields = Fields(reader, element)
    kind = object_identifier(reader, fields.due(OBJECT_IDENTIFIER))
    member = (SEQUENCE, extensions) if is_of_request and kind == EXTENSION_REQUEST else (None, open_value)
    values = set_of_some(reader, fields.due(SET), *member)
    fields.end()
    return sequence(text_of(OBJECT_IDENTIFIER, kind), values)


def request_attribute(reader, element):
    return attribute(reader, element, is_of_request=True)


def extensions(reader, element):
    return sequence(*list_of(reader, element, SEQUENCE, extension))


def extension(reader, element):
    """Extension (RFC 5280 section 4.1); `critical` is left out where it is FALSE (X.690 11.5)."""
    fields = Fields(reader, element)
    kind = leaf(reader, fields.due(OBJECT_IDENTIFIER))
    given = fields.optional(BOOLEAN)
    critical = given and boolean(reader, given)
    value = leaf(reader, fields.due(OCTET_STRING))
    fields.end()
    return sequence(kind, text_of(BOOLEAN, critical) if critical == b"\xff" else None, value)


def rdn(reader, element):
    return set_of_some(reader, element, SEQUENCE, name_item)


def name_item(reader, element):
    return sequence(*fields_of(reader, element, (OBJECT_IDENTIFIER, leaf), (None, open_value)))


def request_info(reader, element):
    fields = Fields(reader, element)
    version(reader, fields.due(INTEGER), 0, 0)
    subject = sequence(*list_of(reader, fields.due(SEQUENCE), SET, rdn))
    key = public_key(reader, fields.due(SEQUENCE))
    given = attributes(reader, fields.optional(TAG_0), request_attribute)
    fields.end()
    return sequence(text_of(INTEGER, b"\0"), subject, key, given)


def request(reader, element):
    """CertificationRequest (RFC 2986 section 4.2)."""
    due = (SEQUENCE, request_info), (SEQUENCE, any_algorithm), (BIT_STRING, leaf)
    return sequence(*fields_of(reader, element, *due))


def encrypted(reader, element):
    """EncryptedPrivateKeyInfo (RFC 5958 section 3)."""
    return sequence(*fields_of(reader, element, (SEQUENCE, any_algorithm), (OCTET_STRING, leaf)))


def ec(reader, element):
    return ec_private_key(reader, element).text


def package(reader, element):
    """AsymmetricKeyPackage (RFC 5958 section 2)."""
    return sequence(*list_of(reader, element, SEQUENCE, one_asymmetric_key, is_due=True))


KINDS = {
    "key": one_asymmetric_key,
    "ec": ec,
    "request": request,
    "public": public_key,
    "encrypted": encrypted,
    "package": package,
}
ACTIONS = ("show", "check", "normalise", "signed")
OTHER_NAMES = {"pkcs8": "key", "sec1": "ec", "csr": "request", "pkcs10": "request", "spki": "public"}
# The limits, unless said otherwise.
DEPTH, OCTETS = 32, 1048576


def compared(octets, text):
    """What `check` says of a document that has this DER text: the first place where the two differ."""
    place = next((it for it, both in enumerate(zip(octets, text)) if both[0] != both[1]), None)
    return (0, b"DER\n", "") if place is None else (1, b"not DER at %d\n" % place, "")


def answer(action, kind, octets, depth=DEPTH, limit=OCTETS, reading_fails=False, part=PARTS[0]):
    """Returns the status, standard output and the line on standard error, without its end."""
    as_it_came = action == "signed" and part == "received"
    if as_it_came and reading_fails and len(octets) <= limit:
        # (all of the input is read first, or one octet more than the limit)
        return 3, b"", f"read failed at {len(octets)}"
    reader = Reader(octets, depth, limit, reading_fails)
    try:
        text = reader.document(SEQUENCE, KINDS[kind])
        if len(text) > limit:
            raise Fault(0, "TextTooLong")
        reader.expect_end()
    except Fault as fault:
        return 2, b"", fault.line()
    except ReadFailed as failure:
        return 3, b"", f"read failed at {failure.place}"
    if action == "check":
        return compared(octets, text)
    if as_it_came:
        return 0, received(octets), ""
    written = {"show": lambda: shown(kind, text), "signed": lambda: part_of(text, part), "normalise": lambda: text}
    return 0, written[action](), ""


def extent(kind, octets, depth, limit, reading_fails):
    """How many octets the document has that begins these; all of them where none does."""
    reader = Reader(octets, depth, limit, reading_fails)
    try:
        return reader.at if len(reader.document(SEQUENCE, KINDS[kind])) <= limit else len(octets)
    except Fault:
        return len(octets)


def each_answer(action, kind, octets, depth=DEPTH, limit=OCTETS, reading_fails=False):
    """The same of documents one behind another, of which the first that is refused is the last one."""
    at, number, worst, said = 0, 0, 0, b""
    while at < len(octets) or reading_fails:
        try:
            count = extent(kind, octets[at:], depth, limit, reading_fails)
        except ReadFailed:
            return 3, said, "standard input: read failed"
        status, output, error = answer(action, kind, octets[at : at + count], depth, limit)
        number, worst = number + 1, max(worst, status)
        name = b"%d at %d:" % (number, at)
        said += name + (b" %s\n" % error.encode() if error else (b"\n" if action == "show" else b" ") + output)
        if status == 2:
            break
        at += count
    return worst, said, ""


def summed(action, status, error):
    """What standard error has by --sum after one document: the line, and what that counts as."""
    counts = ["shown" if action == "show" else "DER", "not DER", "", "unread"]
    # (after fault at PLACE: the reason, and one inside after that)
    counted = f"refused (1 {error.split()[3]})" if status == 2 else counts[status]
    return f"{error}\n" * bool(error) + f"sum: 1 document: 1 {counted}"


def has_part_in(words):
    """Whether the words are of a command that the reader has a part in, ask for no notes, and name the kind."""
    others = ("--notes", "--refuse", "--profile", "--any", "--json", "--quiet")
    asks_others = any(it.startswith(others) for it in words) or {"--sum", "--each"} <= set(words)
    return bool(words) and words[0] in ACTIONS and not asks_others


def command_line():
    parser = argparse.ArgumentParser(description=__doc__, formatter_class=argparse.RawDescriptionHelpFormatter)
    parser.add_argument("action", choices=ACTIONS)
    parser.add_argument("-k", "--kind", choices=KINDS, type=lambda name: OTHER_NAMES.get(name, name), default="request")
    parser.add_argument("--part", choices=PARTS, default=PARTS[0])
    parser.add_argument("--depth", type=int, choices=range(1, 65), default=DEPTH, metavar="N")
    parser.add_argument("--octets", type=int, choices=range(1, 1 << 31), default=OCTETS, metavar="N")
    parser.add_argument("--reading-fails", action="store_true")
    parser.add_argument("--sum", action="store_true")
    parser.add_argument("--each", action="store_true")
    return parser


def main(words):
    asked = command_line().parse_args(words)
    given = sys.stdin.buffer.read()
    limits = (asked.depth, asked.octets, asked.reading_fails)
    if asked.each:
        status, output, error = each_answer(asked.action, asked.kind, given, *limits)
    else:
        status, output, error = answer(asked.action, asked.kind, given, *limits, asked.part)
    error = summed(asked.action, status, error) if asked.sum else error
    sys.stdout.buffer.write(output)
    sys.stderr.write(f"{error}\n" if error else "")
    return status


if __name__ == "__main__":
    sys.exit(main(sys.argv[1:]))
