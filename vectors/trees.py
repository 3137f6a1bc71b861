"""Documents as trees, so that one element may be laid out anew and all lengths around it fit."""
import re

from tests.oracle.document_types import IDENTIFIER, INSIDE, TYPES, Walk
from tests.oracle.reader import CONTEXT, UNIVERSAL

NO_LIMITS = 1 << 20, 1 << 40


def length_of(count, octets=None):
    """The octets of a length, as few as may be unless said."""
    if octets is None and count < 128:
        return bytes([count])
    octets = octets or max(1, (count.bit_length() + 7) // 8)
    return bytes([128 + octets]) + count.to_bytes(octets, "big")


def element(identifier, contents, octets=None):
    """An element of definite length."""
    return identifier + length_of(len(contents), octets) + contents


class Node:
    """An element: its identifier, its contents or members, its path in the type, and where it stands in the document;
    `wraps` where its contents are the octets of a document of its own."""

    def __init__(self, octets, found, prefix=""):
        self.path = prefix + found.path
        self.tag, self.form, self.name, self.type = found.tag, found.form, found.name, found.type
        self.at, self.begin, self.end = found.at, found.begin, found.end
        self.identifier = re.match(rb"(?s).[\x80-\xff]*[\0-\x7f]" if octets[found.at] & 31 == 31 else rb"(?s).",
                                   octets[found.at :])[0]
        self.contents, self.members = octets[found.begin : found.end], [] if found.is_constructed else None
        self.wraps, self.is_inner, self.around = None, bool(prefix), None

    def is_constructed(self):
        return self.members is not None

    def is_string(self):
        """Whether it may stand in segments."""
        kind, number = self.tag
        strings = (3, 4, 7, 12, *range(18, 29), 30)
        return kind == UNIVERSAL and number in strings or self.type.tag == (CONTEXT, 1) and not self.is_constructed()

    def is_bits(self):
        return self.tag == (UNIVERSAL, 3) or self.type.tag == (CONTEXT, 1) and not self.is_constructed()

    def all(self):
        """It and all that stand in it."""
        yield self
        for it in self.members or ([self.wraps] if self.wraps else []):
            yield from it.all()


def tree_of(octets, type_, kind=None, prefix=""):
    """The tree of a document in DER."""
    walk, around, root, algorithm = Walk(octets, type_, *NO_LIMITS), [], None, None
    while found := walk.next():
        node = Node(octets, found, prefix)
        del around[found.depth :]
        if around:
            around[-1].members.append(node)
            node.around = around[-1]
        root = root or node
        around.append(node)
        if found.name == "algorithm" and found.tag == IDENTIFIER.tag:
            algorithm = node.contents
        if found.name == "privateKey" and kind in ("key", "package") and algorithm in INSIDE:
            node.wraps = tree_of(node.contents, INSIDE[algorithm], None, f"{node.path}: ")
            node.wraps.around = node
    return root


def document_tree(kind, octets):
    return tree_of(octets, TYPES[kind], kind)


def laid(node, how):
    """The octets of an element; `how` has what lays out some nodes anew, of the node and its contents."""
    contents = node.contents
    if node.wraps:
        contents = laid(node.wraps, how)
    elif node.members is not None:
        contents = b"".join(laid(it, how) for it in node.members)
    change = how.get(id(node))
    return change(node, contents) if change else element(node.identifier, contents)
