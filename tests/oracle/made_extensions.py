"""Certification requests that are sound, and whose extensions carry anything: values of their types in DER and in any
layout that BER allows, such values with a rule broken or with damage, and other octets."""
from tests.oracle.made_documents import (
    BIT_STRING, BOOLEAN, CONTEXT, EXTENSION_REQUEST, INTEGER, OBJECT_IDENTIFIER, SEQUENCE, SET, TAG_0, TAG_1, TEXTS,
    UTF8_STRING, Maker, Node)
from tests.oracle.made_public_keys import PublicKeyMaker
from tests.oracle.reader import oid

DIRECTORY_STRINGS = [UTF8_STRING, UTF8_STRING, *((0, it) for it in (19, 20, 28, 30))]
PLAIN_TEXTS = [b"CA:TRUE", b"DNS:example.org", b"example.org", b"0\n", b"digitalSignature, keyEncipherment",
               b"WebServer", "\u00fc".encode(), bytes(20)]
# Extensions whose values aren't looked into, among them neighbours of those that are known.
OTHERS = ["2.5.29", "2.5.29.9", "2.5.29.16", "2.5.29.20", "2.5.29.38", "2.5.29.56", "2.5.29.14.0", "2.5.4.3",
          "1.3.6.1.5.5.7.1", "1.3.6.1.5.5.7.1.3", "1.3.6.1.4.1.311.20.2.1", "1.3.6.1.4.1.311.21.1"]
# How probable departures from the layout of DER, mistakes in values and mistakes in the layout are.
SOUND, OTHER_LAYOUTS = (0, 0, 0), (0.3, 0, 0)
CHANCES = [SOUND, SOUND, OTHER_LAYOUTS, (0.05, 0, 0), (0, 0.06, 0), (0, 0.03, 0), (0.2, 0.06, 0), (0, 0, 0.03),
           (0.3, 0.05, 0.02)]


def tagged(number, node):
    """This node under an implicit tag."""
    return Node((CONTEXT, number), node.contents, node.is_string, node.unused)


def explicit(number, node):
    return Node((CONTEXT, number), [node])


def bits_of(digits):
    """The octets of a BIT STRING of these digits, and how many bits of the last one are unused."""
    unused = -len(digits) % 8
    count = (len(digits) + unused) // 8
    return int(digits + "0" * unused or "0", 2).to_bytes(count, "big"), unused


class ValueMaker(Maker):
    """Makes values of the types of extensions."""

    def departs(self):
        """Whether to write what BER allows and DER doesn't."""
        return self.elsewise() or self.break_rule()

    def maybe(self, make):
        """A list of what is made, or of nothing."""
        return self.some(0, 1, make)

    def members(self, make, most=3):
        """A SEQUENCE OF members, one at least."""
        return Node(SEQUENCE, self.some(0 if self.break_rule() else 1, most, make))

    def any(self, deeper=2):
        return self.deep(self.random.randint(3, 40)) if self.random.random() < 0.02 else super().any(deeper)

    def rdn(self):
        """A relative name, most often in the order of DER."""
        found = super().rdn()
        if not self.departs():
            found.contents.sort(key=Maker(self.random).laid_out)
        return found

    def name(self):
        return Node(SEQUENCE, self.some(0, 2, self.rdn))

    def directory_string(self):
        found = self.text()
        found.tag = (0, self.random.randint(1, 31)) if self.break_rule() else self.one_of(*DIRECTORY_STRINGS)
        return found

    # General names

    def ia5_string(self):
        return self.string(self.one_of(b"", b"example.org", *(it.encode() for it in TEXTS), b"\xff"))

    def other_name(self):
        return Node(SEQUENCE, [self.identifier(), explicit(0, self.any())])

    def party_name(self):
        texts = [explicit(1, self.directory_string())]
        return Node(SEQUENCE, [*self.maybe(lambda: explicit(0, self.directory_string())), *texts])

    def address(self):
        return self.string(self.random.randbytes(self.one_of(0, 4, 8, 16, 32)))

    def general_name(self):
        if self.break_rule():
            wrong = (self.one_of(0, 1, CONTEXT, CONTEXT, 3), self.random.randint(1, 12))
            return Node(wrong, self.one_of(b"", b"a", [], [self.name()]))
        number = self.one_of(0, 1, 2, 2, 3, 4, 4, 5, 6, 6, 7, 8)
        if number == 4:
            return explicit(4, self.name())
        members = lambda: self.members(self.any)
        makers = {0: self.other_name, 3: members, 5: self.party_name, 7: self.address, 8: self.identifier}
        return tagged(number, makers.get(number, self.ia5_string)())

    def general_names(self):
        return self.members(self.general_name)

    # Types of extensions

    def key_usage(self):
        digits = self.one_of("", "1", "101", "00000001", "000000011", f"{self.random.getrandbits(9):09b}")
        digits = digits + self.one_of("", "0", "0" * 7, "0" * 8) if self.departs() else digits.rstrip("0")
        return Node(BIT_STRING, bits_of(digits)[0], True, bits_of(digits)[1])

    def basic_constraints(self):
        said = self.one_of(b"\0", b"\1", b"\xff") if self.departs() else b"\xff"
        is_authority = lambda: self.boolean() if self.slip() else Node(BOOLEAN, said)
        return Node(SEQUENCE, [*self.maybe(is_authority), *self.maybe(self.integer)])

    def distance(self, number, is_by_default=False):
        """The INTEGER of a subtree; 0 is left out where it is meant by default."""
        if is_by_default and self.departs():
            return Node((CONTEXT, number), b"\0")
        found = self.integer((CONTEXT, number))
        return Node((CONTEXT, number), b"\1") if found.contents == b"\0" else found

    def subtree(self):
        fields = [*self.maybe(lambda: self.distance(0, True)), *self.maybe(lambda: self.distance(1))]
        return Node(SEQUENCE, [self.general_name(), *fields])

    def name_constraints(self):
        subtrees = lambda number: self.maybe(lambda: tagged(number, self.members(self.subtree, 2)))
        return Node(SEQUENCE, [*subtrees(0), *subtrees(1)])

    def point(self):
        names = lambda: self.one_of(tagged(0, self.general_names()), tagged(1, self.rdn()))
        fields = [*self.maybe(lambda: explicit(0, self.directory_string() if self.break_rule() else names())),
                  *self.maybe(lambda: tagged(1, self.key_usage())),
                  *self.maybe(lambda: tagged(2, self.general_names()))]
        return Node(SEQUENCE, fields)

    def points(self):
        return self.members(self.point, 2)

    def policy(self):
        qualifier = lambda: Node(SEQUENCE, [self.identifier(), self.any()])
        return Node(SEQUENCE, [self.identifier(), *self.maybe(lambda: self.members(qualifier, 2))])

    def policies(self):
        return self.members(self.policy)

    def mappings(self):
        return self.members(lambda: Node(SEQUENCE, [self.identifier(), self.identifier()]))

    def authority_key(self):
        fields = [*self.maybe(lambda: tagged(0, self.string())), *self.maybe(lambda: tagged(1, self.general_names())),
                  *self.maybe(lambda: self.integer((CONTEXT, 2)))]
        return Node(SEQUENCE, fields)

    def policy_constraints(self):
        return Node(SEQUENCE, [it for tag in (TAG_0, TAG_1) for it in self.maybe(lambda: self.integer(tag))])

    def purposes(self):
        return self.members(self.identifier)

    def accesses(self):
        return self.members(lambda: Node(SEQUENCE, [self.identifier(), self.general_name()]))

    def features(self):
        return Node(SEQUENCE, self.some(0, 3, self.integer))

    def template(self):
        return Node(SEQUENCE, [self.identifier(), self.integer(), *self.maybe(self.integer)])

    def value(self, arcs):
        """A value of the type of the known extension that has these arcs."""
        return getattr(self, MAKERS[arcs])()


MAKERS = {
    "2.5.29.14": "string",
    "2.5.29.15": "key_usage",
    "2.5.29.17": "general_names",
    "2.5.29.18": "general_names",
    "2.5.29.19": "basic_constraints",
    "2.5.29.30": "name_constraints",
    "2.5.29.31": "points",
    "2.5.29.32": "policies",
    "2.5.29.33": "mappings",
    "2.5.29.35": "authority_key",
    "2.5.29.36": "policy_constraints",
    "2.5.29.37": "purposes",
    "2.5.29.46": "points",
    "2.5.29.54": "integer",
    "1.3.6.1.5.5.7.1.1": "accesses",
    "1.3.6.1.5.5.7.1.11": "accesses",
    "1.3.6.1.5.5.7.1.24": "features",
    "1.3.6.1.4.1.311.20.2": "directory_string",
    "1.3.6.1.4.1.311.21.7": "template",
    "1.3.6.1.4.1.311.21.10": "policies",
    "1.3.6.1.4.1.311.25.2": "general_names",
}


def of_no_value(chance, octets):
    """Octets that aren't those of a value of the type, whose octets are these."""
    inside = ValueMaker(chance)
    wrapped = inside.laid_out(inside.string(octets))
    other = inside.laid_out(inside.value(chance.choice([*MAKERS])))
    return chance.choice([b"", chance.choice(PLAIN_TEXTS), chance.randbytes(chance.randint(1, 30)), wrapped, other])


def contents_of(chance, arcs):
    """The octets in `extnValue` of a known extension, sound or not."""
    maker = ValueMaker(chance, *chance.choice(CHANCES))
    octets = maker.laid_out(maker.value(arcs))
    if chance.random() < 0.1:
        return of_no_value(chance, octets)
    for _ in range(chance.choice([0, 0, 0, 1, 2])):
        octets = maker.changed(octets)
    return octets


class RequestMaker(PublicKeyMaker):
    """Makes requests with extensions, most of them known, in any layout. What they and keys of RSA carry goes by chance
    alone."""

    def extension(self):
        is_known = self.random.random() < 0.9
        arcs = self.random.choice([*MAKERS] if is_known else OTHERS)
        octets = contents_of(self.random, arcs if is_known else self.random.choice([*MAKERS]))
        critical = self.maybe_critical()
        return Node(SEQUENCE, [Node(OBJECT_IDENTIFIER, oid(arcs)), *critical, self.string(octets)])

    def maybe_critical(self):
        said = self.one_of(b"\0", b"\1", b"\xff") if self.elsewise() else b"\xff"
        return [Node(BOOLEAN, said)] if self.random.random() < 0.5 else []

    def request_attribute(self):
        if self.random.random() < 0.2:
            return self.attribute()
        lists = self.some(1, 2, lambda: Node(SEQUENCE, self.some(0, 4, self.extension)))
        return Node(SEQUENCE, [self.identifier(EXTENSION_REQUEST), Node(SET, lists)])

    def request(self):
        """A request that has attributes."""
        key, bits = self.public_key(), self.bits()
        info = [Node(INTEGER, b"\0"), Node(SEQUENCE, self.some(0, 2, self.rdn)), key]
        info.append(Node(TAG_0, self.some(1, 3, self.request_attribute)))
        return Node(SEQUENCE, [Node(SEQUENCE, info), self.any_algorithm(), bits])
