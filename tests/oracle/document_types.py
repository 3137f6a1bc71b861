"""The types of docs/formats.md, and the elements of a document gone through by its type.

They are written here anew, and share nothing with the definitions and the code of pkder. What is read is whatever
octets there are: an element that is of no field is the last, and what isn't whole is told."""
import re
from collections import namedtuple

from tests.oracle.reader import DEPTH, EC_PUBLIC_KEY, EXTENSION_REQUEST, OCTETS as LIMIT, RFC_8410, RSA_ENCRYPTION

LEAF, OPEN, FIELDS, MEMBERS = "leaf", "open", "fields", "members"
UNIVERSAL, CONTEXT = 0, 2
BIT_STRING, SEQUENCE, SET = ((UNIVERSAL, it) for it in (3, 16, 17))
STRINGS = [(UNIVERSAL, it) for it in (3, 4, 7, 12, *range(18, 29), 30)]

# `parts` are the fields, or the type of all members; `least` is how many members there have to be.
Type = namedtuple("Type", "tag form name parts least is_private", defaults=(None, (), 0, False))
Field = namedtuple("Field", "name type is_optional")
Header = namedtuple("Header", "tag is_constructed begin length")

BOOLEAN, INTEGER, BITS, OCTETS, NULL, IDENTIFIER = (Type((UNIVERSAL, it), LEAF) for it in range(1, 7))
ANY = Type(None, OPEN)
# (a segment is named whatever its tag is)
SEGMENT = Type(None, LEAF)
NO_BOUND = 1 << 64
# A length that no limit allows.
TOO_LONG = 1 << 32
HIGH_NUMBER = re.compile(rb"[\x81-\xff][\x80-\xff]{0,2}[\0-\x7f]|[\x1f-\x7f]")


def private(type_):
    return type_._replace(is_private=True)


def sequence(type_name, **fields):
    """The type of a SEQUENCE: a name that ends in _ is of a field that may be absent."""
    parts = [Field(name.rstrip("_"), type_, name.endswith("_")) for name, type_ in fields.items()]
    return Type(SEQUENCE, FIELDS, type_name, parts)


def list_of(member, tag=SEQUENCE, name=None, least=0):
    return Type(tag, MEMBERS, name, member, least)


def explicit(number, type_):
    return Type((CONTEXT, number), FIELDS, None, [Field("", type_, False)])


ALGORITHM = sequence("AlgorithmIdentifier", algorithm=IDENTIFIER, parameters_=ANY)
ATTRIBUTE = sequence("Attribute", type=IDENTIFIER, values=list_of(private(ANY), SET, least=1))
EXTENSION = sequence("Extension", extnID=IDENTIFIER, critical_=BOOLEAN, extnValue=OCTETS)
LISTS = list_of(list_of(EXTENSION, name="Extensions"), SET, least=1)
REQUESTED = sequence("RequestAttribute", type=IDENTIFIER, values=list_of(private(ANY), SET, least=1))
ITEM = sequence("AttributeTypeAndValue", type=IDENTIFIER, value=ANY)
NAME = list_of(list_of(ITEM, SET, "RelativeDistinguishedName", 1), name="Name")
PUBLIC = sequence("SubjectPublicKeyInfo", algorithm=ALGORITHM, subjectPublicKey=BITS)
INFO = sequence("CertificationRequestInfo", version=INTEGER, subject=NAME, subjectPKInfo=PUBLIC,
                attributes_=list_of(REQUESTED, (CONTEXT, 0)))
REQUEST = sequence("CertificationRequest", certificationRequestInfo=INFO, signatureAlgorithm=ALGORITHM, signature=BITS)
EC = sequence("ECPrivateKey", version=INTEGER, privateKey=private(OCTETS), parameters_=explicit(0, IDENTIFIER),
              publicKey_=explicit(1, BITS))
PRIME = sequence("OtherPrimeInfo", prime=private(INTEGER), exponent=private(INTEGER), coefficient=private(INTEGER))
NUMBERS = "privateExponent prime1 prime2 exponent1 exponent2 coefficient".split()
RSA = sequence("RSAPrivateKey", version=INTEGER, modulus=INTEGER, publicExponent=INTEGER,
               **{it: private(INTEGER) for it in NUMBERS}, otherPrimeInfos_=list_of(PRIME, least=1))
CURVE = private(OCTETS)._replace(name="CurvePrivateKey")
KEY = sequence("OneAsymmetricKey", version=INTEGER, privateKeyAlgorithm=ALGORITHM, privateKey=private(OCTETS),
               attributes_=list_of(ATTRIBUTE, (CONTEXT, 0)), publicKey_=Type((CONTEXT, 1), LEAF))
ENCRYPTED = sequence("EncryptedPrivateKeyInfo", encryptionAlgorithm=ALGORITHM, encryptedData=private(OCTETS))
PACKAGE = list_of(KEY, name="AsymmetricKeyPackage", least=1)
TYPES = {
    "key": KEY,
    "ec": EC,
    "request": REQUEST,
    "public": PUBLIC,
    "encrypted": ENCRYPTED,
    "package": PACKAGE,
}
# What privateKey of a key contains, by its algorithm.
INSIDE = {EC_PUBLIC_KEY: EC, RSA_ENCRYPTION: RSA} | {it: CURVE for it in RFC_8410}


def tag_at(octets, at, bound):
    """The tag of the identifier at a place; None where it isn't one, or isn't whole before the bound."""
    if at >= min(len(octets), bound):
        return None
    high = HIGH_NUMBER.match(octets, at + 1) if octets[at] & 31 == 31 else None
    end = high.end() if high else at + 1
    # (with a length after it that any identifier may have)
    header = header_at(octets[at:end] + b"\0", 0)
    return header.tag if header and end <= bound else None


def header_at(octets, at):
    """The header at a place; None where it isn't one, or isn't whole."""
    try:
        first, place = octets[at], at + 1
        number = first & 31
        if number == 31:
            found = HIGH_NUMBER.match(octets, place)
            number, place = sum((it & 127) << 7 * n for n, it in enumerate(reversed(found[0]))), found.end()
        length, place = octets[place], place + 1
        if length == 255:
            return None
        if length > 128:
            count = length - 128
            length, place = int.from_bytes(octets[place : place + count], "big"), place + count
        elif length == 128:
            length = None
    except (IndexError, TypeError):
        return None
    is_header = place <= len(octets) and first not in (0, 0x20) and (first & 31 < 31 or number > 30)
    is_header = is_header and (length or 0) < TOO_LONG
    return Header((first >> 6, number), bool(first & 32), place, length) if is_header else None


class Element:
    """An element with its field, which its type is None where it has none; `end` is None while it isn't known."""

    def __init__(self, at, header, around, field, octets, limit):
        name, type_ = (field.name, field.type) if field else ("", None)
        self.at, (self.tag, self.is_constructed, self.begin, self.length) = at, header
        self.name, self.type, self.depth = name, type_, around.element.depth + 1 if around else 0
        self.path = joined(around.element.path, name) if around else ""
        self.end = None if self.length is None else self.begin + self.length
        self.is_private = bool(type_ and type_.is_private or around and around.element.is_private)
        self.form = form_of(type_, self.tag, self.is_constructed) if type_ else None
        # by how many octets the contents end after the end in force, and whether all of them are there before that; a
        # container of indefinite length is taken for whole
        self.over = max(0, (self.end or 0) - (around.bound if around else NO_BOUND))
        self.is_too_long = self.over > 0 or (self.end or 0) > limit
        self.is_whole = not self.is_too_long and (self.end or 0) <= octets
        self.is_whole = self.is_whole and (self.is_constructed or self.end is not None)
        self.is_ended = not self.is_constructed and self.is_whole

    def is_container(self):
        return self.is_constructed and self.form in (OPEN, FIELDS, MEMBERS)

    def is_of_segments(self):
        """Whether it's a string in segments."""
        return self.is_constructed and (self.tag in STRINGS or self.type.tag == (CONTEXT, 1))


def joined(path, name):
    return path + name if not path or not name or name[0] in "[{" else f"{path}.{name}"


def form_of(type_, tag, is_constructed):
    """What an element of this tag has in it, where it is of the type."""
    if type_.form != OPEN:
        return type_.form
    return OPEN if tag in (SEQUENCE, SET) or tag[0] and is_constructed else LEAF


class Around:
    """A container or a string in segments that isn't ended: what may come next in it."""

    def __init__(self, element, bound):
        self.element, self.form, self.count, self.identifier = element, element.form, 0, None
        self.bound = bound if element.end is None else element.end
        self.left = [*element.type.parts] if self.form == FIELDS else []

    def next(self):
        """The fields that may come next."""
        if self.form == FIELDS:
            last = next((number for number, it in enumerate(self.left) if not it.is_optional), len(self.left))
            return self.left[: last + 1]
        if self.form == LEAF:
            return [Field(f"{{{self.count}}}", SEGMENT, True)]
        is_due = self.form == MEMBERS and self.count < self.element.type.least
        return [Field(f"[{self.count}]", self.element.type.parts if self.form == MEMBERS else self.any(), not is_due)]

    def any(self):
        return private(ANY) if self.element.is_private else ANY

    def lacks(self):
        return any(not it.is_optional for it in self.next())

    def take(self, tag):
        """The field of the next element of this tag; None where there is none."""
        found = next((it for it in self.next() if it.type.tag in (None, tag)), None)
        self.count += 1
        if found and self.form == FIELDS:
            del self.left[: self.left.index(found) + 1]
            if self.element.type is REQUESTED and self.identifier == EXTENSION_REQUEST:
                return found._replace(type=LISTS) if found.name == "values" else found
        return found


class Walk:
    """Goes through the elements of a document in the order of their octets, under limits; `open` are the containers at
    its place, and `ended` those that have ended, each with the place where nothing is left in it."""

    def __init__(self, octets, type_, depth=DEPTH, limit=LIMIT):
        self.octets, self.type, self.at, self.open, self.ended = octets, type_, 0, [], []
        self.depth, self.limit, self.outermost = depth, limit, None
        # (`is_cut` where the next element has no header that may be read)
        self.is_stopped, self.is_cut = False, False

    def bound(self):
        """The end in force."""
        return self.open[-1].bound if self.open else NO_BOUND

    def close(self):
        """Leaves the containers that end here."""
        while self.open:
            around, place = self.open[-1], self.at
            is_end = self.octets[self.at : self.at + 2] == b"\0\0" and self.at + 2 <= min(around.bound, self.limit)
            if around.element.end is None and is_end:
                self.at += 2
                around.element.end = self.at
            elif around.element.end is None or self.at < around.element.end:
                break
            around.element.is_ended = True
            self.ended.append((place, self.open.pop()))
            self.is_stopped = self.is_stopped or around.lacks()

    def next(self):
        """The next element; None where there is none, or none can be read."""
        if self.outermost and not self.open or self.is_stopped:
            return None
        around, header = (self.open[-1] if self.open else None), header_at(self.octets, self.at)
        if not header or len(self.open) >= self.depth or not tag_at(self.octets, self.at, self.bound()):
            self.is_stopped = self.is_cut = True
            return None
        field = around.take(header.tag) if around else Field("", self.type, False)
        if not around and header.tag != self.type.tag:
            field = None
        found = Element(self.at, header, around, field, len(self.octets), self.limit)
        self.outermost = self.outermost or found
        self.go_after(found, around)
        return found

    def go_after(self, found, around):
        """Goes to what is next after the header of an element."""
        if found.type is None or not found.is_constructed and found.end is None:
            self.is_stopped = True
        elif found.is_constructed:
            self.at = found.begin
            self.open.append(Around(found, self.bound()))
        else:
            self.at = found.end
            if around and around.form == FIELDS and found.tag == IDENTIFIER.tag:
                around.identifier = self.octets[found.begin : found.end]
        self.close()

    def is_complete(self):
        """Whether all elements were gone through, and none is missing."""
        return not (self.open or self.is_stopped or self.outermost is None)

    def is_at_attributes(self):
        """Whether the next element is of attributes in constructed form, whatever its length is."""
        field = self.field_ahead() if self.open else None
        return bool(field) and field.name == "attributes" and self.octets[self.at] & 32 > 0

    def field_ahead(self):
        """The field that the tag of the next element fits, whatever its length is; None where there is none."""
        tag = tag_at(self.octets, self.at, self.bound())
        return next((it for it in self.open[-1].next() if it.type.tag in (None, tag)), None) if tag else None
