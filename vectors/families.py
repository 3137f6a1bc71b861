"""Families of documents: one element of a sound document is laid out anew, or has a fault. Each yields what is done to
an element, in words, and what does it."""
from vectors.trees import element, laid, length_of

END, NULL = b"\0\0", b"\5\0"
INDEFINITE = b"\x80"
# Identifiers of other elements, by what they are called.
TAGS = {b"\x02": "INTEGER", b"\x03": "BIT STRING", b"\x04": "OCTET STRING", b"\x05": "NULL",
        b"\x06": "OBJECT IDENTIFIER", b"\x30": "SEQUENCE", b"\x31": "SET", b"\xa0": "[0]", b"\xa1": "[1]",
        b"\xa2": "[2]", b"\x60": "[APPLICATION 0]", b"\x0a": "ENUMERATED"}
BAD_TAGS = {
    b"\x1f\x80\x01": "a tag number that begins with 80",
    b"\x1f\x1e": "a tag number of 30 in two octets",
    b"\x1f\x90\x80\x80\x80\0": "a tag number of 2^28 or more",
    b"\x20": "universal 0, constructed",
}
LEAVES = {
    1: {b"": "a BOOLEAN of no octets", b"\xff\xff": "a BOOLEAN of two octets", b"\1": "TRUE by the octet 01",
        b"\0": "FALSE"},
    2: {b"": "an INTEGER of no octets", b"\0\x7f": "nine bits of 0", b"\xff\x80": "nine bits of 1"},
    5: {b"\0": "a NULL with contents"},
    6: {b"": "no subidentifier", b"\x2a\x80\x01": "a subidentifier that begins with 80",
        b"\x2a\x81": "a subidentifier without its end", b"\x84" + b"\x80" * 17 + b"\0": "a subidentifier of 2^128",
        b"\x83" + b"\xff" * 17 + b"\x7f": "a subidentifier of 2^128 - 1"},
    12: {b"\xe9": "a letter of Latin-1", b"\xed\xa0\x80": "a surrogate", b"\xc0\x80": "an overlong form",
         b"\xf4\x90\x80\x80": "a character past 10FFFF", b"a\xc3": "half a character",
         b"\xf4\x8f\xbf\xbf": "the last character"},
}
LEAVES[10] = {contents: words.replace("INTEGER", "ENUMERATED") for contents, words in LEAVES[2].items()}


def indefinite(node, contents):
    return node.identifier + INDEFINITE + contents + END


def constructed(identifier):
    return bytes([identifier[0] | 32]) + identifier[1:]


def flipped(identifier):
    return bytes([identifier[0] ^ 32]) + identifier[1:]


def longer(octets):
    """A length of so many octets, the first of which counts them."""
    return lambda node, contents: element(node.identifier, contents, octets)


def layouts(node):
    """Other layouts of an element."""
    yield "a length of an octet more than in DER", longer(len(length_of(len(node.contents))))
    yield "a length of five octets", longer(4)
    yield "a length of ten octets", longer(9)
    yield "126 octets of length", longer(126)
    if node.is_constructed():
        yield "indefinite length", indefinite
    elif node.is_string():
        yield from segments(node)


def segments(node):
    """A string in segments: what each lays out of the contents of the string."""
    tag, front = (b"\x03", b"\0") if node.is_bits() else (b"\x04", b"")
    half = lambda it: len(it) // 2

    def whole(contents):
        return element(tag, contents)

    def first(contents, cut):
        return element(tag, front + contents[len(front) :][:cut])

    def rest(contents, cut):
        return element(tag, contents[: len(front)] + contents[len(front) :][cut:])

    forms = {
        "in one segment": whole,
        "in two segments": lambda it: first(it, half(it)) + rest(it, half(it)),
        "in three segments, the first of no octets": lambda it: first(it, 0) + first(it, 1) + rest(it, 1),
        "in segments in segments": lambda it: element(constructed(tag), first(it, 1)) + rest(it, 1),
        "in a segment, and a constructed one of none": lambda it: whole(it) + element(constructed(tag), b""),
        "in no segment": lambda it: b"",
    }
    for words, form in forms.items():
        yield words, lambda node, it, form=form: element(constructed(node.identifier), form(it))
    two = forms["in two segments"]
    yield ("in two segments, of indefinite length",
           lambda node, it: constructed(node.identifier) + b"\x80" + two(it) + END)
    yield from bad_segments(tag, front, first, rest)


def bad_segments(tag, front, first, rest):
    """Strings whose segments have faults."""
    other = b"\x04" if tag == b"\x03" else b"\x0c"
    forms = {
        "a segment of another tag": lambda it: element(other, it),
        "an INTEGER as second segment": lambda it: first(it, 1) + element(b"\x02", it[-1:]),
        "a segment of its own tag in the class of contexts": lambda it: element(bytes([0x80 | tag[0]]), it),
        "a segment whose length begins with FF": lambda it: tag + b"\xff" + it,
        "a segment of indefinite length in primitive form": lambda it: tag + b"\x80" + it,
        "a segment past the end of the string": lambda it: tag + length_of(len(it) + 1) + it,
        "end-of-contents octets after a segment": lambda it: element(tag, it) + END,
    }
    if front:
        forms["a segment after unused bits"] = lambda it: element(tag, b"\1\xfe") + rest(it, 1)
        forms["a segment of no octets, also not of unused bits"] = lambda it: tag + b"\0" + rest(it, 1)
        forms["a last segment with eight unused bits"] = lambda it: first(it, 1) + element(tag, b"\x08\0")
    for words, form in forms.items():
        yield words, lambda node, it, form=form: element(constructed(node.identifier), form(it))
    yield ("segments of indefinite length without their end",
           lambda node, it: constructed(node.identifier) + b"\x80" + element(tag, it))
    yield ("segments of indefinite length with half an end",
           lambda node, it: constructed(node.identifier) + b"\x80" + element(tag, it) + b"\0\1")


def headers(node):
    """Faults of a header."""
    yield "a length that begins with FF", lambda node, it: node.identifier + b"\xff" + it
    yield "a length of one more than the contents have", lambda node, it: node.identifier + length_of(len(it) + 1) + it
    if node.contents:
        yield "a length of one less", lambda node, it: node.identifier + length_of(len(it) - 1) + it
    yield "a length of 2^31 - 1", lambda node, it: node.identifier + b"\x84\x7f\xff\xff\xff" + it
    yield "a length of 2^32 more", lambda node, it: node.identifier + length_of(2**32 + len(it)) + it
    yield "a length of 2^64 more", lambda node, it: node.identifier + length_of(2**64 + len(it)) + it
    if not node.is_constructed():
        yield "an indefinite length in primitive form", lambda node, it: node.identifier + b"\x80" + it + END
    yield "the other form", lambda node, it: element(flipped(node.identifier), it)
    for identifier, name in TAGS.items():
        if identifier[0] != node.identifier[0]:
            yield f"{name} in its place", lambda node, it, tag=identifier: element(tag, it)
    for identifier, name in BAD_TAGS.items():
        yield name, lambda node, it, tag=identifier: element(tag, it)
    if node.identifier[0] < 64:
        yield "the same number in another class", lambda node, it: element(bytes([node.identifier[0] | 0x40]), it)


def places(node):
    """Elements that are missing, or too many, and ends that don't belong there."""
    yield "left out", lambda node, it: b""
    yield "twice", lambda node, it: 2 * element(node.identifier, it)
    yield "after end-of-contents octets", lambda node, it: END + element(node.identifier, it)
    yield "after half of end-of-contents octets", lambda node, it: b"\0\1" + element(node.identifier, it)
    yield "after a NULL", lambda node, it: NULL + element(node.identifier, it)
    if node.is_constructed():
        yield "a NULL more in it", lambda node, it: element(node.identifier, it + NULL)
        yield "a [2] more in it", lambda node, it: element(node.identifier, it + b"\x82\0")
        yield "end-of-contents octets in it", lambda node, it: element(node.identifier, it + END)
        yield "nothing in it", lambda node, it: element(node.identifier, b"")
        yield "nothing in it, indefinite length", lambda node, it: indefinite(node, b"")
        yield "indefinite length without an end", lambda node, it: node.identifier + b"\x80" + it
        yield "indefinite length with half an end", lambda node, it: node.identifier + b"\x80" + it + b"\0\1"
        yield "a NULL more in it, indefinite length", lambda node, it: indefinite(node, it + NULL)
        yield from shortened(node)


def shortened(node):
    """A container that ends within or after each of its members, of definite and of indefinite length."""
    for it in node.members:
        at = it.at - node.begin
        ends = {"before": at, "after the identifier of": at + 1, "after the header of": it.begin - node.begin,
                "an octet before the end of": it.end - node.begin - 1}
        for words, cut in ends.items():
            words = f"it ends {words} {it.name or 'a member'}"
            yield words, lambda node, all, cut=cut: element(node.identifier, all[:cut])
        yield f"it ends before {it.name or 'a member'}", lambda node, all, cut=at: indefinite(node, all[:cut])


def leaves(node):
    """Contents that a leaf of this type may not have, or that few have."""
    if node.is_constructed():
        return
    for contents, words in LEAVES.get(node.tag[1] if node.tag[0] == 0 else None, {}).items():
        yield words, lambda node, it, given=contents: element(node.identifier, given)
    if node.is_bits():
        yield "a BIT STRING of no octets", lambda node, it: element(node.identifier, b"")
        yield "eight unused bits", lambda node, it: element(node.identifier, b"\x08" + it[1:])
        yield "an unused bit of no octets", lambda node, it: element(node.identifier, b"\1")
        yield "an unused bit, set", lambda node, it: element(node.identifier, b"\1" + it[1:-1] + b"\xff")
        yield "an unused bit", lambda node, it: element(node.identifier, b"\1" + it[1:-1] + b"\xfe")
        yield "no bits", lambda node, it: element(node.identifier, b"\0")
        yield "an octet less", lambda node, it: element(node.identifier, it[:-1])
        yield "an octet more", lambda node, it: element(node.identifier, it + b"\0")
    elif node.is_string():
        yield "no octets", lambda node, it: element(node.identifier, b"")
        yield "an octet less", lambda node, it: element(node.identifier, it[:-1])
        yield "an octet more", lambda node, it: element(node.identifier, it + b"\0")
    if node.name == "version":
        for number in (b"\0", b"\1", b"\2", b"\3", b"\xff", b"\1\0"):
            yield f"the number {number.hex()}", lambda node, it, given=number: element(node.identifier, given)


FAMILIES = (leaves, layouts, headers, places)


def cuts(root, octets):
    """A document that ends within each element: it alone, or the one inside privateKey."""
    for node in root.all():
        if not node.is_inner:
            for at in {node.at, node.at + 1, node.begin, (node.begin + node.end) // 2}:
                yield f"{short(node)}: the octets end at {at}", octets[:at]
        elif node.around and node.around.wraps is node:
            for it in node.all():
                for at in {it.at, it.at + 1, it.begin, (it.begin + it.end) // 2}:
                    cut = {id(node.around): lambda around, all, at=at: element(around.identifier, all[:at])}
                    yield f"{it.path}: the octets inside end at {at}", laid(root, cut)


def short(node):
    """The path of an element as it is told."""
    return node.path.replace("certificationRequestInfo.", "") or "the document"


def changed(root):
    """Each element of a document changed in each way of the families; and the same in a container around it of
    indefinite length, where that matters."""
    for family in FAMILIES:
        for node in root.all():
            for words, change in family(node):
                words = f"{short(node)}: {words}"
                yield words, laid(root, {id(node): change})
                if family is places and node.around and node.around.is_constructed():
                    how = {id(node): change, id(node.around): indefinite}
                    yield f"{words}, in indefinite length", laid(root, how)


def all_at_once(root):
    """All elements laid out otherwise."""
    containers = [it for it in root.all() if it.is_constructed()]
    yield "all in indefinite length", laid(root, {id(it): indefinite for it in containers})
    yield "each length of five octets", laid(root, {id(it): longer(4) for it in root.all()})
    strings = [it for it in root.all() if it.is_string() and not it.is_constructed() and len(it.contents) > 1]
    two = {id(it): dict(segments(it))["in two segments, of indefinite length"] for it in strings}
    yield "all strings in segments", laid(root, two)
    yield "all in indefinite length and segments", laid(root, {id(it): indefinite for it in containers} | two)
