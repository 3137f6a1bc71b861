"""What `extnValue` of a known extension of a certification request carries: a value of the extension's type, in DER or
in another encoding, or none, and by which fault.

The types are written from RFC 5280 section 4.2 and its appendix A.2, RFC 7633 and, for those of Microsoft, [MS-WCCE],
alone; elements are read by tests/oracle/reader.py. Nothing is shared with the definitions and the code of pkder."""
from collections import namedtuple

from tests.oracle.reader import (
    BIT_STRING, BOOLEAN, CONTEXT, DEPTH, INTEGER, LEAVES, OBJECT_IDENTIFIER, OCTET_STRING, OCTETS, OUTERMOST, SEQUENCE,
    SET, UNIVERSAL, UTF8_STRING, Container, Fault, Fields, Reader, in_order, list_of, name_item, octet_string,
    oid, open_value, rdn, sequence, text_of)

# The tags that an element of a type may have, None standing for any, and what reads it and answers its DER text, under
# the tag that it has.
Type = namedtuple("Type", "tags read")
# One that may be absent is left out of the DER text where it has the text of the default.
Field = namedtuple("Field", "type is_optional default", defaults=(False, None))


# Fields by the tags of their types


def taken(fields, type_):
    """The next element where its tag is one of the type's; else None."""
    ahead = fields.ahead()
    is_fitting = ahead is not None and (type_.tags is None or ahead.tag in type_.tags)
    return fields.optional() if is_fitting else None


def due(fields, type_):
    found = taken(fields, type_)
    if found is None:
        raise Fault(fields.place, "WrongTag" if fields.ahead() else "Missing")
    return found


# Makers of types


def leaf_of(tag):
    """A leaf, which is read by this tag, also where an implicit one stands in place of it."""
    contents_of = LEAVES.get(tag, octet_string)
    return Type((tag,), lambda reader, element: text_of(element.tag, contents_of(reader, element)))


def implicit(number, type_):
    return Type(((CONTEXT, number),), type_.read)


def explicit(number, type_):
    return Type(((CONTEXT, number),), fields_of(Field(type_)).read)


def choice(*types):
    readers = {tag: it.read for it in types for tag in it.tags}
    return Type((*readers,), lambda reader, element: readers[element.tag](reader, element))


def fields_of(*fields):
    """A SEQUENCE of these fields."""

    def read(reader, element):
        given, texts = Fields(reader, element), []
        for type_, is_optional, default in fields:
            found = taken(given, type_) if is_optional else due(given, type_)
            text = found and type_.read(reader, found)
            texts += [text] if found and text != default else []
        given.end()
        return text_of(element.tag, b"".join(texts), True)

    return Type((SEQUENCE,), read)


def members_of(type_, least=1):
    """A SEQUENCE OF members of this type, at least so many."""

    def read(reader, element):
        given, texts = Fields(reader, element), []
        while len(texts) < least or given.ahead():
            texts.append(type_.read(reader, due(given, type_)))
        return text_of(element.tag, b"".join(texts), True)

    return Type((SEQUENCE,), read)


def optional(type_, default=None):
    return Field(type_, True, default)


def of(*types):
    """A SEQUENCE of fields of these types, all of them due but those that are fields already."""
    return fields_of(*(it if isinstance(it, Field) else Field(it) for it in types))


# Types


def relative_name(reader, element):
    """RelativeDistinguishedName, also under a tag that isn't its own."""
    texts = list_of(reader, element, SEQUENCE, name_item)
    if not texts:
        raise Fault(element.place, "EmptySet")
    return text_of(element.tag, in_order(texts), True)


def name(reader, element):
    return sequence(*list_of(reader, element, SET, rdn))


ANY, NAME, RELATIVE_NAME = Type(None, open_value), Type((SEQUENCE,), name), Type((SET,), relative_name)
TRUTH, NUMBER, BITS = leaf_of(BOOLEAN), leaf_of(INTEGER), leaf_of(BIT_STRING)
STRING, IDENTIFIER = leaf_of(OCTET_STRING), leaf_of(OBJECT_IDENTIFIER)
# (of characters only those of a UTF8String are looked at)
IA5_STRING = STRING
DIRECTORY_STRING = choice(*(leaf_of(it) for it in (UTF8_STRING, *((UNIVERSAL, it) for it in (19, 20, 28, 30)))))

GENERAL_NAME = choice(
    implicit(0, of(IDENTIFIER, explicit(0, ANY))),
    implicit(1, IA5_STRING),
    implicit(2, IA5_STRING),
    # (ORAddress isn't looked into)
    implicit(3, members_of(ANY)),
    explicit(4, NAME),
    implicit(5, of(optional(explicit(0, DIRECTORY_STRING)), explicit(1, DIRECTORY_STRING))),
    implicit(6, IA5_STRING),
    implicit(7, STRING),
    implicit(8, IDENTIFIER),
)
GENERAL_NAMES = members_of(GENERAL_NAME)
BASIC_CONSTRAINTS = of(optional(TRUTH, text_of(BOOLEAN, b"\0")), optional(NUMBER))
SUBTREE = of(GENERAL_NAME, optional(implicit(0, NUMBER), text_of((CONTEXT, 0), b"\0")), optional(implicit(1, NUMBER)))
SUBTREES = members_of(SUBTREE)
NAME_CONSTRAINTS = of(optional(implicit(0, SUBTREES)), optional(implicit(1, SUBTREES)))
POINT_NAME = choice(implicit(0, GENERAL_NAMES), implicit(1, RELATIVE_NAME))
# (that the bits of a keyUsage and of `reasons` have names isn't looked at)
POINT = of(optional(explicit(0, POINT_NAME)), optional(implicit(1, BITS)), optional(implicit(2, GENERAL_NAMES)))
POINTS = members_of(POINT)
POLICIES = members_of(of(IDENTIFIER, optional(members_of(of(IDENTIFIER, ANY)))))
MAPPINGS = members_of(of(IDENTIFIER, IDENTIFIER))
AUTHORITY_KEY = of(optional(implicit(0, STRING)), optional(implicit(1, GENERAL_NAMES)), optional(implicit(2, NUMBER)))
POLICY_CONSTRAINTS = of(optional(implicit(0, NUMBER)), optional(implicit(1, NUMBER)))
PURPOSES = members_of(IDENTIFIER)
ACCESSES = members_of(of(IDENTIFIER, GENERAL_NAME))
FEATURES = members_of(NUMBER, least=0)
TEMPLATE = of(IDENTIFIER, NUMBER, optional(NUMBER))

TYPES = {
    "2.5.29.14": STRING,
    "2.5.29.15": BITS,
    "2.5.29.17": GENERAL_NAMES,
    "2.5.29.18": GENERAL_NAMES,
    "2.5.29.19": BASIC_CONSTRAINTS,
    "2.5.29.30": NAME_CONSTRAINTS,
    "2.5.29.31": POINTS,
    "2.5.29.32": POLICIES,
    "2.5.29.33": MAPPINGS,
    "2.5.29.35": AUTHORITY_KEY,
    "2.5.29.36": POLICY_CONSTRAINTS,
    "2.5.29.37": PURPOSES,
    "2.5.29.46": POINTS,
    "2.5.29.54": NUMBER,
    "1.3.6.1.5.5.7.1.1": ACCESSES,
    "1.3.6.1.5.5.7.1.11": ACCESSES,
    "1.3.6.1.5.5.7.1.24": FEATURES,
    "1.3.6.1.4.1.311.20.2": DIRECTORY_STRING,
    "1.3.6.1.4.1.311.21.7": TEMPLATE,
    "1.3.6.1.4.1.311.21.10": POLICIES,
    "1.3.6.1.4.1.311.25.2": GENERAL_NAMES,
}
BY_CONTENTS = {oid(arcs): type_ for arcs, type_ in TYPES.items()}


def judged(type_, octets, depth, limit):
    """What octets are as one value of a type and nothing else. The limits are those of the document; the outermost
    element is at depth 1."""
    reader = Reader(octets, depth, limit)
    try:
        element = reader.element(Container(OUTERMOST, None, 1))
        if element.tag not in type_.tags:
            raise Fault(element.place, "WrongTag")
        text = type_.read(reader, element)
        reader.expect_end()
    except Fault as fault:
        return {"verdict": "refused", "at": fault.place, "reason": fault.reason}
    return {"verdict": "der" if text == octets else "not_der"}


def carried(identifier, octets, depth=DEPTH, limit=OCTETS):
    """What the octets of `extnValue` are, as `carries` says it in JSON, by the contents of `extnID`; None where the
    extension isn't known."""
    type_ = BY_CONTENTS.get(identifier)
    return type_ and judged(type_, octets, depth, limit)
