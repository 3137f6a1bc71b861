"""What an accepted document shows: each element that is laid out otherwise than in DER, or has something that another
document needn't have; and what in it a standard forbids though it is taken."""
import re

from tests.oracle.document_types import EC, IDENTIFIER, INSIDE, TYPES, Walk
from tests.oracle.noted import Noted
from tests.oracle.reader import CURVES, DEPTH, EC_PUBLIC_KEY, OCTETS, RFC_8410, RSA_ENCRYPTION
from tools.pages.identifier_names import names_by_contents
from vectors import real, strict

BOOLEAN, INTEGER, BITS, SEQUENCE, SET = ((0, it) for it in (1, 2, 3, 16, 17))
# The algorithms and curves that have rules.
TOLD = {EC_PUBLIC_KEY, RSA_ENCRYPTION, *RFC_8410, *(it[2:] for it in CURVES)}
VERDICTS = {"der": "its value in DER", "not_der": "its value in BER", "refused": "its value of another type"}
EDGES = ("DER encoding longer than the document", "octets as many as the limit", "nested as deep as the limit")


def template(path):
    """A path, members and segments without their numbers, without those inside an open value, and with one name for the
    numbers of an RSA key."""
    path = re.sub(r"(publicE|privateE|e)xponent[12]?|prime[12]$", "number", path)
    path = re.sub(r"(\{\d+\})+", "{}", re.sub(r"\[\d+\]", "[]", path))
    return re.sub(r"(parameters|value|values\[\])(\[\])+", r"\1..", path)


def length_words(octets, element):
    """How the length of an element is laid out, where that shows something."""
    identifier = 1
    if octets[element.at] & 31 == 31:
        identifier += next(at for at, it in enumerate(octets[element.at + 1 :], 1) if it < 128)
        yield f"an identifier of {identifier} octets"
    count = element.begin - element.at - identifier - 1
    if element.length is None:
        yield "indefinite length at {}"
    elif count and (element.length < 128 or octets[element.at + identifier + 1] == 0):
        yield "a longer length than DER has at {}"
        yield "a length of more octets than nine" if count > 8 else f"a length of {count + 1} octets, more than DER has"
    elif count:
        yield f"a length of {count + 1} octets"


def leaf_words(octets, element):
    """What a primitive element has in it."""
    contents = octets[element.begin : element.end]
    if element.name.startswith("{"):
        yield f"a segment of {'no' if not contents else 'some'} octets at {{}}"
    elif element.tag == IDENTIFIER.tag:
        name = names_by_contents().get(contents)
        is_told = element.path.endswith(("algorithm", "parameters")) and contents in TOLD
        yield f"{name} at {{}}" if is_told else "another identifier"
        if re.search(rb"[\x80-\xff]{4}", contents):
            yield "a subidentifier of many octets"
    elif element.tag == BOOLEAN:
        yield f"a BOOLEAN of {contents.hex() if contents in (bytes(1), bytes([255])) else 'another octet'} at {{}}"
    elif element.tag == INTEGER:
        sign = "negative" if contents[0] > 127 else "0" if contents == b"\0" else "positive"
        size = ", of many octets" if len(contents) > 1 else ""
        yield f"an INTEGER, {sign}{size}" + (", at {}" if element.name == "version" else "")
    elif element.tag == BITS or element.type.tag == (2, 1):
        unused = contents[0]
        is_set = unused and len(contents) > 1 and contents[-1] & (1 << unused) - 1
        words = "no" if len(contents) == 1 else "set" if is_set else "unused" if unused else "all"
        yield f"a BIT STRING, {words} bits, at {{}}"
    else:
        yield f"{'no' if element.length == 0 else 'some'} contents of tag {element.tag[0]}.{min(element.tag[1], 31)}"


def members_of(elements, number):
    """The elements that stand directly in one."""
    around = elements[number]
    for it in elements[number + 1 :]:
        if it.at >= around.end:
            return
        if it.depth == around.depth + 1:
            yield it


def container_words(octets, elements, number):
    """What stands in a container."""
    element, members = elements[number], [*members_of(elements, number)]
    if element.form == "leaf" and element.is_of_segments():
        yield f"a string in {min(len(members), 3)} segments at {{}}"
        yield f"a string in {'nested ' if any(it.is_constructed for it in members) else ''}segments at {{}}"
        return
    names = [it.name for it in members]
    if any(it.startswith("[") for it in names) or not names:
        yield f"{('no', 'one', 'several')[min(len(names), 2)]} members at {{}}"
    else:
        yield f"the fields {', '.join(names)} at {{}}"
    if element.tag == SET or element.type.form == "members" and element.tag == (2, 0):
        texts = [octets[it.at : it.end] for it in members]
        yield "equal members" if len({*texts}) < len(texts) else "members that differ"
        longest = max(map(len, texts), default=0)
        is_sorted = texts == sorted(texts, key=lambda it: it.ljust(longest, b"\0"))
        yield f"members {'in their order' if is_sorted else 'out of order'} at {{}}"
    if element.form == "open":
        yield f"a container of tag {element.tag[0]}.{min(element.tag[1], 31)}"


def elements_shown(octets, type_, prefix=""):
    """What the elements of a document show, and the octets of each privateKey with what stands in it."""
    walk = Walk(octets, type_, 1 << 20, 1 << 40)
    elements = [*iter(walk.next, None)]
    for number, it in enumerate(elements):
        path = prefix + template(it.path) or "the document"
        words = [*length_words(octets, it)]
        words += container_words(octets, elements, number) if it.is_constructed else leaf_words(octets, it)
        yield from (word.format(path) for word in words)


def joined(octets, elements, number):
    """The contents of a string, those of its segments joined."""
    element = elements[number]
    if not element.is_constructed:
        return octets[element.begin : element.end]
    indices = {it.at: at for at, it in enumerate(elements)}
    return b"".join(joined(octets, elements, indices[it.at]) for it in members_of(elements, number))


def inner_documents(kind, octets):
    """The octets of each privateKey that is a document of its own, with the type of that."""
    walk = Walk(octets, TYPES[kind], 1 << 20, 1 << 40)
    elements, algorithm = [*iter(walk.next, None)], None
    for number, it in enumerate(elements):
        if it.name == "algorithm" and it.tag == IDENTIFIER.tag:
            algorithm = octets[it.begin : it.end]
        if it.name == "privateKey" and kind in ("key", "package") and algorithm in INSIDE:
            yield joined(octets, elements, number), INSIDE[algorithm]


def extensions_shown(text):
    """What the values of known extensions are, in a request."""
    for identifier, _, _, verdict in Noted("request", text, 1 << 20, 1 << 40).extensions():
        if verdict:
            yield f"{names_by_contents()[identifier]}, {VERDICTS[verdict['verdict']]}"


def edges(asked, text):
    """What it shows of the limits of a call."""
    octets, most = asked.octets, max(len(asked.octets), len(text))
    if len(text) > len(octets):
        yield EDGES[0]
    if most == asked.limit:
        yield EDGES[1]
    if asked.depth != DEPTH:
        yield EDGES[2]
    if asked.depth != DEPTH or asked.limit != OCTETS:
        yield f"limits that {'just ' if most == asked.limit else ''}allow it"


def shown_by(asked, text):
    """The clauses that a document doesn't keep though it is taken, flags, and what it shows."""
    shows = {*elements_shown(asked.octets, TYPES[asked.kind]), *edges(asked, text)}
    shows |= {*extensions_shown(text)} if asked.kind == "request" else set()
    for octets, type_ in inner_documents(asked.kind, asked.octets):
        of = "privateKey" if type_ is not EC else "privateKey of EC"
        shows |= {*elements_shown(octets, type_, f"{of}: ")}
    is_forbidden, clauses = strict.forbidden(asked.kind, text)
    flags = ["profile"] if is_forbidden else []
    lacks = real.lacks(asked.kind, text)
    if text == asked.octets and not is_forbidden:
        told = {f"{it}, in DER" for it in shows}
        # (what a real key shows was not shown by another)
        shows = told if lacks else told | {f"{it}, of a real key" for it in told}
    return clauses, flags + lacks, shows
