"""What an accepted certification request asks for, as `pkder explain` says it: the lines under `asks for`, and the
object `asks` of JSON.

It is written from docs/formats.md, "What a request asks for" and "What stands in extensions", RFC 4514 and RFC 5280
section 4.2.1: the document is gone through by tests/oracle/document_types.py, what stands in an extension by the types
here, its verdict being that of tests/oracle/extensions.py, and a key by tests/oracle/held.py. Nothing is shared with
the definitions and the code of pkder but the table of usual names."""
import re
from collections import namedtuple

from tests.oracle.asked_words import address, characters_of, identifier, shown, sized, value_words
from tests.oracle.document_types import REQUEST, Walk
from tests.oracle.extensions import carried
from tests.oracle.held import NO_VALUE, Key
from tests.oracle.parts import parts
from tests.oracle.reader import EXTENSION_REQUEST
from tests.oracle.report import CHARACTERS, value_of

LEAF, OPEN, FIELDS, MEMBERS, CHOICE = "leaf", "open", "fields", "members", "choice"
CONTEXT = 2
BOOLEAN, INTEGER, BIT_STRING, OCTET_STRING, NULL, IDENTIFIER = ((0, it) for it in range(1, 7))
SEQUENCE, SET, IA5_STRING = ((0, it) for it in (16, 17, 22))
ENUMERATED = 0, 10

# A type: the tags that its elements may have, None standing for any; of a leaf `parts` is the tag that says how it is
# read; of fields these are pairs of a name and a type, and of a choice the types.
Type = namedtuple("Type", "tags form parts name", defaults=("",))
# What stands in an extension: a primitive element, or a container without contents, which `tag` is None of.
Fact = namedtuple("Fact", "field name tag contents")


# Types of extensions


def leaf(tag, name=""):
    return Type((tag,), LEAF, tag, name)


def implicit(number, type_, name=""):
    return type_._replace(tags=((CONTEXT, number),), name=name or type_.name)


def fields(name="", **types):
    """A SEQUENCE of fields, of which any may be absent."""
    return Type((SEQUENCE,), FIELDS, [(it.replace("_", "-"), type_) for it, type_ in types.items()], name)


def explicit(number, type_):
    return Type(((CONTEXT, number),), FIELDS, [("", type_)])


def members(type_, tag=SEQUENCE):
    return Type((tag,), MEMBERS, type_)


def choice(*types):
    return Type(tuple(tag for it in types for tag in it.tags), CHOICE, types)


ANY = Type(None, OPEN, None)
TRUTH, NUMBER, BITS, OCTETS, OID = map(leaf, (BOOLEAN, INTEGER, BIT_STRING, OCTET_STRING, IDENTIFIER))
IA5 = leaf(IA5_STRING)
DIRECTORY_STRING = choice(*(leaf((0, it)) for it in (12, 19, 20, 28, 30)))
RELATIVE_NAME = members(fields(type=OID, value=ANY), SET)
GENERAL_NAME = choice(
    implicit(0, fields(type_id=OID, value=explicit(0, ANY))),
    implicit(1, IA5, "rfc822Name"),
    implicit(2, IA5, "dNSName"),
    implicit(3, members(ANY)),
    explicit(4, members(RELATIVE_NAME)),
    implicit(5, fields(nameAssigner=explicit(0, DIRECTORY_STRING), partyName=explicit(1, DIRECTORY_STRING))),
    implicit(6, IA5, "uniformResourceIdentifier"),
    implicit(7, OCTETS, "iPAddress"),
    implicit(8, OID, "registeredID"),
)
NAMES = members(GENERAL_NAME)
SUBTREES = members(fields(base=GENERAL_NAME, minimum=implicit(0, NUMBER), maximum=implicit(1, NUMBER)))
POINT = fields(distributionPoint=explicit(0, choice(implicit(0, NAMES), implicit(1, RELATIVE_NAME))),
               reasons=implicit(1, BITS), cRLIssuer=implicit(2, NAMES))
QUALIFIER = fields(policyQualifierId=OID, qualifier=ANY)
POLICIES = members(fields(policyIdentifier=OID, policyQualifiers=members(QUALIFIER)))
ACCESSES = members(fields(accessMethod=OID, accessLocation=GENERAL_NAME))
TYPES = {
    "2.5.29.14": OCTETS,
    "2.5.29.15": leaf(BIT_STRING, "KeyUsage"),
    "2.5.29.17": NAMES,
    "2.5.29.18": NAMES,
    "2.5.29.19": fields("BasicConstraints", cA=TRUTH, pathLenConstraint=NUMBER),
    "2.5.29.30": fields(permittedSubtrees=implicit(0, SUBTREES), excludedSubtrees=implicit(1, SUBTREES)),
    "2.5.29.31": members(POINT),
    "2.5.29.32": POLICIES,
    "2.5.29.33": members(fields(issuerDomainPolicy=OID, subjectDomainPolicy=OID)),
    "2.5.29.35": fields(keyIdentifier=implicit(0, OCTETS), authorityCertIssuer=implicit(1, NAMES),
                        authorityCertSerialNumber=implicit(2, NUMBER)),
    "2.5.29.36": fields(requireExplicitPolicy=implicit(0, NUMBER), inhibitPolicyMapping=implicit(1, NUMBER)),
    "2.5.29.37": members(OID),
    "2.5.29.46": members(POINT),
    "2.5.29.54": NUMBER,
    "1.3.6.1.5.5.7.1.1": ACCESSES,
    "1.3.6.1.5.5.7.1.11": ACCESSES,
    "1.3.6.1.5.5.7.1.24": members(NUMBER),
    "1.3.6.1.4.1.311.20.2": DIRECTORY_STRING,
    "1.3.6.1.4.1.311.21.7": fields(templateID=OID, templateMajorVersion=NUMBER, templateMinorVersion=NUMBER),
    "1.3.6.1.4.1.311.21.10": POLICIES,
    "1.3.6.1.4.1.311.25.2": NAMES,
}
# The word for a name in the text, and its key in JSON.
WORDS = {"dNSName": ("DNS", "dns"), "rfc822Name": ("email", "email"), "uniformResourceIdentifier": ("URI", "uri"),
         "iPAddress": ("IP", "ip"), "registeredID": ("OID", "oid")}
# RFC 5280 section 4.2.1.3, by the numbers of the bits.
USAGES = """digitalSignature nonRepudiation keyEncipherment dataEncipherment keyAgreement keyCertSign cRLSign
encipherOnly decipherOnly""".split()
LISTS = {"2.5.29.15": "bits", "2.5.29.17": "names", "2.5.29.18": "names"}
# RFC 4514 section 3
SHORT_NAMES = {"2.5.4.3": "CN", "2.5.4.7": "L", "2.5.4.8": "ST", "2.5.4.10": "O", "2.5.4.11": "OU", "2.5.4.6": "C",
               "2.5.4.9": "STREET", "0.9.2342.19200300.100.1.25": "DC", "0.9.2342.19200300.100.1.1": "UID"}
SPECIAL = '"+,;<>'


# What stands in the value of an extension that is in DER


def tag_of(part):
    """A tag; a number after 30 counts for 31, of which no type has one."""
    return part.first >> 6, part.first & 31


def facts_in(part, type_, field=""):
    """What an element of the value says, and all in it, in their order."""
    tag = tag_of(part)
    if type_.form == CHOICE:
        type_ = next(it for it in type_.parts if tag in it.tags)
    if not part.first & 32:
        read_by = type_.parts if type_.form == LEAF else tag
        yield Fact(field, type_.name, read_by, part.contents)
        return
    inside = parts(part.contents)
    if not inside:
        yield Fact(field, type_.name, None, b"")
    left = iter(type_.parts if type_.form == FIELDS else [])
    for it in inside:
        name, member = "", ANY if type_.form == OPEN else type_.parts
        if type_.form == FIELDS:
            name, member = next(pair for pair in left if pair[1].tags is None or tag_of(it) in pair[1].tags)
        yield from facts_in(it, member, name)


def fact_value(fact):
    """What a primitive element says, as JSON has it where it isn't characters."""
    contents = fact.contents
    if fact.tag == BOOLEAN:
        return {"boolean": contents != b"\0"}
    if fact.tag in (INTEGER, ENUMERATED) and len(contents) <= 4 and contents < b"\x80":
        return {"integer": int.from_bytes(contents, "big")}
    if fact.tag == NULL:
        return {"null": True}
    if fact.tag == IDENTIFIER:
        return identifier(contents)
    return {"octets": len(contents), "hexadecimal": contents.hex()}


def usages(contents):
    """The names of the bits that are 1."""
    digits = "".join(f"{it:08b}" for it in contents[1:])
    return [name for name, digit in zip(USAGES, digits) if digit == "1"]


# Words


def fact_lines(fact):
    """The lines of what stands in an extension."""
    if fact.name == "KeyUsage":
        return usages(fact.contents)
    if fact.tag is None:
        return ["cA FALSE" if fact.name == "BasicConstraints" else "empty"]
    if fact.name == "iPAddress":
        said = address(fact.contents)
    elif fact.tag in CHARACTERS:
        said = shown(characters_of(fact.tag, fact.contents))
    else:
        said = value_words(fact_value(fact))
    word = WORDS[fact.name][0] if fact.name in WORDS else fact.field
    return [f"{word} {said}" if word else said]


def fact_items(fact):
    """The same in a list of JSON."""
    if fact.name == "KeyUsage":
        return usages(fact.contents)
    if fact.tag is None:
        return []
    if fact.name in WORDS:
        said = {"iPAddress": address, "registeredID": lambda octets: identifier(octets)["identifier"]}
        characters = lambda octets: characters_of(fact.tag, octets)
        return [{WORDS[fact.name][1]: said.get(fact.name, characters)(fact.contents)}]
    field = {"field": fact.field} if fact.field else {}
    if fact.tag in CHARACTERS:
        return [field | {"text": characters_of(fact.tag, fact.contents)}]
    return [field | {"value": fact_value(fact)}]


# The document


class Extension:
    """An extension of a request; `pieces` are the contents of `extnValue`, or of its segments."""

    def __init__(self, at):
        self.at, self.identifier, self.is_critical, self.is_in_segments, self.pieces = at, b"", False, False, []

    def judged(self, limits):
        """What it carries, as in JSON, and what stands in it; None and nothing where it isn't known."""
        octets = b"".join(self.pieces)
        found = carried(self.identifier, octets, *limits)
        if not found or found["verdict"] != "der":
            return found, []
        type_ = TYPES[identifier(self.identifier)["identifier"]]
        return found, [*facts_in(parts(octets)[0], type_)]

    def lines(self, limits):
        """Its lines in the text."""
        named, (found, facts) = identifier(self.identifier), self.judged(limits)
        yield f"  {value_words(named)}{', critical' if self.is_critical else ''}"
        said = [line for it in facts for line in fact_lines(it)]
        if not found:
            size = "constructed" if self.is_in_segments else sized(sum(map(len, self.pieces)))
            said = [f"{size}, not looked into"]
        elif found["verdict"] != "der":
            said = [NO_VALUE[found["verdict"]]]
        yield from (f"      {it}" for it in said)

    def object(self, limits):
        """Its object in JSON."""
        named, (found, facts) = identifier(self.identifier), self.judged(limits)
        items = [item for it in facts for item in fact_items(it)]
        members_ = named | {"critical": self.is_critical, "at": self.at} | ({"carries": found} if found else {})
        return members_ | {LISTS.get(named["identifier"], "values"): items}


INFO = r"certificationRequestInfo\."
FIELD = re.compile(rf"""{INFO}subject(?P<relative>\[\d+\])?(?P<item>\[\d+\])?(?P<of_item>\.(type|value))?
    |{INFO}subjectPKInfo\.algorithm\.(?P<named>algorithm|parameters)
    |signatureAlgorithm\.(?P<signature>algorithm|parameters)
    |{INFO}subjectPKInfo\.(?P<key>subjectPublicKey)(\{{\d+\}})*|{INFO}attributes\[\d+\]\.(?P<attribute>type)
    |{INFO}attributes\[\d+\]\.(?P<first>values\[0\])
    |{INFO}attributes\[\d+\]\.values\[\d+\](?P<extension>\[\d+\])(\.(?P<of_extension>\w+)(?P<segment>(\{{\d+\}})*))?""",
                   re.X)


class Asked:
    """What a request asks for, of whose attributes and extensions `others` are, in their order."""

    def __init__(self, octets, depth, limit):
        self.octets, self.limits = octets, (depth, limit)
        self.subject, self.key, self.signature, self.others, self.attribute = [], Key(octets), {}, [], None
        # (the first value of each other attribute)
        self.values = {}
        walk = Walk(octets, REQUEST, depth, limit)
        while element := walk.next():
            if found := FIELD.fullmatch(element.path):
                self.take(element, found)

    def contents(self, element):
        return b"" if element.is_constructed else self.octets[element.begin : element.end]

    def take(self, element, found):
        """Takes an element of these fields."""
        if found["of_item"] or found["item"] or found["relative"]:
            self.take_name(element, found)
        elif found["named"] or found["key"]:
            self.key.take(found["named"] or found["key"], element)
        elif found["signature"]:
            if element.tag == IDENTIFIER and not element.is_constructed:
                self.signature[found["signature"]] = value_words(identifier(self.contents(element)))
        elif found["attribute"]:
            self.attribute = self.contents(element)
            if self.attribute != EXTENSION_REQUEST:
                self.others.append(value_words(identifier(self.attribute)))
        elif found["first"] and self.attribute != EXTENSION_REQUEST:
            self.values[len(self.others) - 1] = element
        elif found["extension"] and self.attribute == EXTENSION_REQUEST:
            self.take_extension(element, found["of_extension"], found["segment"])

    def take_name(self, element, found):
        if found["of_item"]:
            self.subject[-1][-1].append(element)
        elif found["item"]:
            self.subject[-1].append([])
        else:
            self.subject.append([])

    def take_extension(self, element, field, segment):
        contents = self.contents(element)
        if not field:
            self.others.append(Extension(element.at))
        elif field == "extnID":
            self.others[-1].identifier = contents
        elif field == "critical":
            self.others[-1].is_critical = contents != b"\0"
        elif field == "extnValue":
            self.others[-1].pieces.append(contents)
            self.others[-1].is_in_segments |= not segment and element.is_constructed

    # As text

    def type_words(self, element):
        """The type of an attribute of the subject."""
        named = identifier(self.contents(element))
        return SHORT_NAMES.get(named["identifier"]) or value_words(named)

    def name_words(self, element):
        """The value of an attribute of the subject."""
        if element.is_constructed:
            return "constructed"
        if element.tag in CHARACTERS:
            return shown(characters_of(element.tag, self.contents(element)), SPECIAL)
        return value_words(value_of(element, self.octets))

    def subject_words(self):
        pairs = [[f"{self.type_words(type_)}={self.name_words(value)}" for type_, value in it] for it in self.subject]
        return ", ".join("+".join(it) for it in pairs) or "empty"

    def text(self):
        """The lines under `asks for`."""
        found = [f"  subject    {self.subject_words()}", f"  key        {self.key.words(self.limits)}",
                 f"  signature  {', '.join(self.signature.values())}, not verified"]
        for number, it in enumerate(self.others):
            if isinstance(it, Extension):
                found += it.lines(self.limits)
            else:
                found.append(f"  {it}{self.size_words(number)}, not shown")
        return "".join(f"{it}\n" for it in found)

    def size_words(self, number):
        """How many octets the first value of an attribute has."""
        value = self.values[number]
        # (two octets end contents of indefinite length)
        return f", {sized(value.end - value.begin - (2 if value.length is None else 0))}"

    # In JSON

    def name_object(self, type_, value):
        """An attribute of the subject."""
        named = identifier(self.contents(type_))
        if value.is_constructed:
            return named
        if value.tag in CHARACTERS:
            return named | {"text": characters_of(value.tag, self.contents(value))}
        return named | {"value": value_of(value, self.octets)}

    def object(self):
        """The object `asks`."""
        extensions = [it.object(self.limits) for it in self.others if isinstance(it, Extension)]
        return {
            "subject": [[self.name_object(*pair) for pair in it] for it in self.subject],
            "key": self.key.object(self.limits),
            "signature": self.signature,
            "attributes": [it for it in self.others if not isinstance(it, Extension)],
            "extensions": extensions,
        }
