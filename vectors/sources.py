"""All documents that may become tests of a kind, in their order: the files of examples/, those that break a rule, open
values, the families, limits, random ones, and those of the rows."""
import random

from tests.explained.documents import files, of_tables
from tests.oracle import reader
from tests.oracle.document_types import TYPES
from tests.oracle.made_documents import Maker
from tests.oracle.reader import OCTETS
from vectors import bases, broken, families
from vectors.judging import Asked, fault_of
from vectors.trees import document_tree, element, laid

# No document here has more octets, but those that tools made.
MOST, MOST_RANDOM = 1200, 260
RANDOM = 80


def of_examples(kind):
    """The files of examples/, those of other kinds among them."""
    for it in files():
        if it.kind == kind:
            yield Asked(kind, it.octets, f"examples/{it.name.partition(',')[0]}")


def of_rows(kind):
    """The documents of the tables."""
    for it in of_tables():
        if it.kind == kind and len(it.octets) <= MOST:
            yield Asked(kind, it.octets, it.name.partition(": ")[2], it.depth, it.limit)


def of_families(kind):
    for words, octets in bases.BASES[kind].items():
        yield Asked(kind, octets, words)
        root = document_tree(kind, octets)
        for family in (families.changed(root), families.all_at_once(root), families.cuts(root, octets)):
            yield from (Asked(kind, made, words) for words, made in family)


def least_depth(kind, octets):
    """The least depth of nesting that accepts a sound document."""
    return next(it for it in range(1, 65) if not fault_of(kind, octets, it, OCTETS))


def of_depth(kind, words, octets):
    depth = least_depth(kind, octets)
    yield Asked(kind, octets, f"{words}, at the depth that it needs", depth)
    yield from (Asked(kind, octets, f"{words}, at a depth of {it}", it) for it in range(1, depth))


def of_size(kind, words, octets):
    """Limits at each place of a document and beside its DER encoding."""
    most = max(len(octets), len(reader.answer("normalise", kind, octets)[1]))
    yield Asked(kind, octets, f"{words}, of as many octets as the limit", limit=most)
    yield Asked(kind, octets, f"{words}, of an octet more than the limit", limit=most - 1)
    yield Asked(kind, octets + b"\0", f"{words}, as long as the limit, and an octet after it", limit=most)
    yield from (Asked(kind, octets, f"{words}, under a limit of {it} octets", limit=it) for it in range(1, most, 3))


def longer_in_der(kind):
    """A document whose DER encoding is longer: a BIT STRING in no segments (X.690 8.6.2, 8.6.4)."""
    empty = element(b"\x23", b"")
    named = bases.algorithm(bases.UNKNOWN, empty)
    return {
        "key": lambda: bases.key(named, b"\1"),
        "ec": lambda: bases.ec(b"\1")[:0] + element(b"\x30", b"\2\1\1\4\1\1" + element(b"\xa1", empty)),
        "request": lambda: element(b"\x30", bases.info() + bases.algorithm(bases.UNKNOWN) + empty),
        "public": lambda: element(b"\x30", bases.algorithm(bases.UNKNOWN) + empty),
        "encrypted": lambda: element(b"\x30", named + b"\4\1\1"),
        "package": lambda: element(b"\x30", bases.key(named, b"\1")),
    }[kind]()


def of_limits(kind):
    """The limits of a call, by documents in DER and in indefinite length."""
    words, octets = min(bases.BASES[kind].items(), key=lambda it: len(it[1]))
    root = document_tree(kind, octets)
    forms = {"": octets, ", all in indefinite length": dict(families.all_at_once(root))["all in indefinite length"]}
    for form, made in forms.items():
        yield from of_depth(kind, words + form, made)
        yield from of_size(kind, words + form, made)
    longer = longer_in_der(kind)
    yield from of_size(kind, "a document whose DER encoding is longer", longer)
    yield from deep(kind)


def deep(kind):
    """As deep as any limit, and deeper."""
    root = document_tree(kind, next(iter(bases.BASES[kind].values())))
    value, needed = b"\5\0", None
    for count in (24, 40, 64, 200):
        nested = value
        for _ in range(count):
            nested = element(b"\x30", nested)
        for node in root.all():
            if node.name == "parameters" and node.form == "open" or node.path.endswith("values[0]"):
                needed = node
        if needed:
            octets = laid(root, {id(needed): lambda node, it, nested=nested: nested})
            yield Asked(kind, octets, f"{needed.path}: {count} levels of SEQUENCE")
            yield Asked(kind, octets, f"{needed.path}: {count} levels of SEQUENCE, at a depth of 64", 64)


def of_chance(kind):
    """Random documents, as tests/oracle/made_documents.py makes them."""
    for number in range(RANDOM):
        chance = random.Random(f"vectors {kind} {number}")
        slips, layout_slips = chance.choice([(0, 0), (0.03, 0), (0.08, 0), (0.02, 0.01)])
        maker = Maker(chance, chance.choice([0, 0.1, 0.4]), slips, layout_slips)
        octets = maker.document(kind)
        if len(octets) <= MOST_RANDOM:
            yield Asked(kind, octets, f"random document {number}")


def all_of(kind):
    """All documents of a kind, each once; those of the rows are last, so that a new row changes no number before it."""
    seen = set()
    made = (Asked(kind, octets, words) for words, octets in [*broken.RULES[kind](), *bases.with_values(kind)])
    for asked in (*of_examples(kind), *made, *of_families(kind), *of_limits(kind), *of_chance(kind), *of_rows(kind)):
        key = asked.octets, asked.depth, asked.limit
        if key not in seen:
            seen.add(key)
            yield asked


def type_name(kind):
    return TYPES[kind].name
