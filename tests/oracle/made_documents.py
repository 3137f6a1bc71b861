"""Random documents of the six kinds: made from the grammar, laid out in any way that BER allows, some of them faulty.

A document is first a tree of nodes, which a Maker makes, and then octets, which it lays out. Each mistake that it may
make on the way has its place in the code, at `slip` and `slip_in_layout`; how probable they are is said once for a
document."""

UNIVERSAL, CONTEXT = 0, 2
BOOLEAN, INTEGER, BIT_STRING, OCTET_STRING, NULL, OBJECT_IDENTIFIER = ((UNIVERSAL, it) for it in range(1, 7))
ENUMERATED, UTF8_STRING, SEQUENCE, SET = ((UNIVERSAL, it) for it in (10, 12, 16, 17))
TAG_0, TAG_1 = (CONTEXT, 0), (CONTEXT, 1)
STRINGS = [(UNIVERSAL, it) for it in (4, 7, 12, *range(18, 29), 30)]
LEFT_OUT = [(UNIVERSAL, it) for it in (8, 9, 11, 13, 14, 15, 29, 31, 40, 16384)]

# The contents of OBJECT IDENTIFIERs, with the octets of private keys.
CURVE_KEYS = {"2b656e": 32, "2b656f": 56, "2b6570": 32, "2b6571": 57}
CURVES = {"2b81040021": 28, "2a8648ce3d030107": 32, "2b8104000a": 32, "2b81040022": 48, "2b81040023": 66}
OTHER_CURVES = ["2a8648ce3d030101", "2b6570", "2a03"]
EC_PUBLIC_KEY, RSA_ENCRYPTION, RSA_PSS = "2a8648ce3d0201", "2a864886f70d010101", "2a864886f70d01010a"
EXTENSION_REQUEST = "2a864886f70d01090e"
OTHER_TYPES = ["550403", "55040a", "2a864886f70d010907", "2a864886f70d010902", "2a03", "83" + "ff" * 17 + "7f"]
TEXTS = ["", "a", "two words", "\u00fc", "\u20ac", "z\ud7ff", "\U0010ffff"]
BAD_TEXTS = [b"\xe9", b"\xed\xa0\x80", b"\xc0\x80", b"\xf4\x90\x80\x80", b"a\xc3"]
# Numbers of octets near those at which a length needs an octet more, and at which pieces of 1,024 octets begin and end.
EDGES = [126, 127, 128, 255, 256, 1022, 1023, 1024, 1025, 2047, 2048, 2049, 3000, 65535, 65536]
# The most members of a list that is long.
MANY = 40


class Node:
    """An element that isn't laid out yet: its contents are octets or nodes; a string's may be cut into segments."""

    def __init__(self, tag, contents, is_string=False, unused=None):
        self.tag, self.contents, self.is_string, self.unused = tag, contents, is_string, unused

    def has_nodes(self):
        return isinstance(self.contents, list)


class Maker:
    """Makes documents.

    `layouts` is how probable each departure from the layout of DER is, `slips` each mistake in the values and
    `layout_slips` each one in the layout."""

    def __init__(self, random, layouts=0, slips=0, layout_slips=0):
        self.random, self.layouts, self.slips, self.layout_slips = random, layouts, slips, layout_slips

    def slip(self):
        return self.random.random() < self.slips

    def break_rule(self):
        """Whether to break a rule, of which a document has but a few."""
        return self.random.random() < 3 * self.slips

    def slip_in_layout(self):
        return self.random.random() < self.layout_slips

    def one_of(self, *these):
        return self.random.choice(these)

    def some(self, least, most, make):
        """A list of so many of what is made."""
        return [make() for _ in range(self.random.randint(least, most))]

    def octets(self, most=12):
        length = self.one_of(*EDGES) if self.random.random() < 0.01 else self.random.randint(0, most)
        return self.random.randbytes(length)

    # Leaves

    def boolean(self):
        return Node(BOOLEAN, b"" if self.slip() else self.random.randbytes(2 if self.slip() else 1))

    def integer(self, tag=INTEGER):
        if self.slip():
            return Node(tag, self.one_of(b"", b"\0\x7f", b"\xff\x80", b"\0\0", b"\xff\xff"))
        number = self.random.getrandbits(self.one_of(1, 7, 8, 9, 16, 64, 512))
        number = self.one_of(number, number, ~number)
        return Node(tag, number.to_bytes(max(number, ~number).bit_length() // 8 + 1, "big", signed=True))

    def number(self, value):
        """The INTEGER of a version, or another one."""
        if self.break_rule():
            return self.one_of(self.integer(), Node(INTEGER, self.one_of(b"\0", b"\1", b"\2", b"\1\0", b"\xff")))
        return Node(INTEGER, bytes([value]))

    def null(self):
        return Node(NULL, b"\0" if self.slip() else b"")

    def identifier(self, contents=None):
        """An OBJECT IDENTIFIER of these contents, in hex, or any."""
        if self.slip():
            return Node(OBJECT_IDENTIFIER, self.one_of(b"", b"\x2a\x80", b"\x80\x01", b"\x84" + b"\x80" * 17 + b"\0"))
        return Node(OBJECT_IDENTIFIER, bytes.fromhex(contents or self.one_of(*OTHER_TYPES)))

    def bits(self, octets=None, tag=BIT_STRING):
        """A BIT STRING of these octets, without unused bits, or of any."""
        if octets is not None:
            return Node(tag, octets, True, self.random.randint(1, 7) if octets and self.slip() else 0)
        octets = b"" if self.random.random() < 0.3 else self.octets()
        return Node(tag, octets, True, self.one_of(0, 0, 1, 4, 7) if octets else 0)

    def string(self, octets=None, tag=OCTET_STRING):
        return Node(tag, self.octets() if octets is None else octets, True)

    def text(self):
        """A character string, most often one of UTF-8."""
        text = self.one_of(*BAD_TEXTS) if self.slip() else self.one_of(*TEXTS).encode()
        return self.string(text, self.one_of(UTF8_STRING, UTF8_STRING, *STRINGS))

    # Open values

    def any(self, deeper=2):
        """An open value."""
        if self.slip():
            return Node(self.one_of(*LEFT_OUT), self.octets())
        leaves = [self.boolean, self.integer, self.null, self.identifier, self.bits, self.string, self.text]
        if deeper and self.random.random() < 0.4:
            number = self.one_of(0, 1, 5, 16, 17, 30, 31, 128, 2**21, 2**28 - 1)
            tag = self.one_of(SEQUENCE, SET, SET, (self.random.randint(1, 3), number))
            most = MANY if self.random.random() < 0.03 else 4
            return Node(tag, self.some(0, most, lambda: self.any(deeper - 1)))
        if self.random.random() < 0.15:
            return Node((self.random.randint(1, 3), self.one_of(0, 4, 17, 30, 31, 200)), self.octets())
        return self.integer(ENUMERATED) if self.random.random() < 0.1 else self.one_of(*leaves)()

    def deep(self, levels):
        """An open value with so many levels round a leaf, the leaf being one."""
        node = self.one_of(self.null(), Node(SEQUENCE, []))
        for _ in range(levels - 1):
            node = Node(self.one_of(SEQUENCE, SET, TAG_0), [node])
        return node

    def parameters(self):
        if self.random.random() < 0.06:
            return self.deep(self.random.randint(3, 45))
        return self.any()

    # Types that kinds share

    def algorithm(self, contents, *parameters):
        if contents in CURVE_KEYS and self.break_rule():
            parameters = [self.one_of(self.null(), self.any())]
        return Node(SEQUENCE, [self.identifier(contents), *parameters])

    def other_algorithm(self):
        return self.algorithm(self.one_of(*OTHER_TYPES, RSA_PSS), *self.some(0, 1, self.parameters))

    def any_algorithm(self):
        """An algorithm as it stands anywhere but in a private key."""
        if self.random.random() < 0.4:
            return self.algorithm(self.one_of(*CURVE_KEYS))
        return self.other_algorithm()

    def off(self, length):
        """This length, or another one."""
        return max(0, length + self.one_of(-1, 1, -length, 8)) if self.break_rule() else length

    def public_key(self):
        if self.random.random() < 0.5:
            algorithm = self.one_of(*CURVE_KEYS)
            bits = self.bits(self.random.randbytes(self.off(CURVE_KEYS[algorithm])))
            return Node(SEQUENCE, [self.algorithm(algorithm), bits])
        return Node(SEQUENCE, [self.other_algorithm(), self.bits()])

    def attribute(self):
        return Node(SEQUENCE, [self.identifier(), Node(SET, self.some(0 if self.break_rule() else 1, 4, self.any))])

    def request_attribute(self):
        if self.random.random() < 0.5:
            return self.attribute()
        lists = self.some(0 if self.break_rule() else 1, 2, lambda: Node(SEQUENCE, self.some(0, 3, self.extension)))
        return Node(SEQUENCE, [self.identifier(EXTENSION_REQUEST), Node(SET, lists)])

    def extension(self):
        critical = [Node(BOOLEAN, self.one_of(b"\0", b"\1", b"\xff"))] if self.random.random() < 0.5 else []
        return Node(SEQUENCE, [self.identifier(), *critical, self.string()])

    def rdn(self):
        value = lambda: self.any() if self.random.random() < 0.1 else self.text()
        item = lambda: Node(SEQUENCE, [self.identifier(), value()])
        return Node(SET, self.some(0 if self.break_rule() else 1, 3, item))

    # Kinds

    def ec(self, curve=None, container=None):
        """An ECPrivateKey that names this curve or none; in a container, of the length of its curve."""
        length = CURVES.get(curve or container, self.random.randint(0, 40))
        fields = [self.number(1), self.string(self.random.randbytes(self.off(length)))]
        if curve:
            fields.append(Node(TAG_0, [self.identifier(curve)]))
        if self.random.random() < 0.4:
            fields.append(Node(TAG_1, [self.bits()]))
        return Node(SEQUENCE, fields)

    def rsa(self):
        version = self.random.randint(0, 1)
        fields = [self.number(version), *(self.integer() for _ in range(7 if self.slip() else 8))]
        if self.break_rule() != (version == 1):
            info = lambda: Node(SEQUENCE, [self.integer() for _ in range(3)])
            fields.append(Node(SEQUENCE, self.some(0 if self.break_rule() else 1, 2, info)))
        return Node(SEQUENCE, fields)

    def contained(self):
        """An algorithm and the octets of the private key that goes with it."""
        which = self.random.randint(0, 3)
        if which == 0:
            algorithm = self.one_of(*CURVE_KEYS)
            inner = self.string(self.random.randbytes(self.off(CURVE_KEYS[algorithm])))
            return self.algorithm(algorithm), self.inner(inner)
        if which == 1:
            curve = self.one_of(*CURVES, *OTHER_CURVES)
            given = [self.any()] if self.slip() else [] if self.slip() else [self.identifier(curve)]
            named = self.one_of(*CURVES, *OTHER_CURVES) if self.break_rule() else self.one_of(None, curve)
            return self.algorithm(EC_PUBLIC_KEY, *given), self.inner(self.ec(named, curve))
        if which == 2:
            return self.algorithm(RSA_ENCRYPTION, *self.one_of([self.null()], [self.any()], [])), self.inner(self.rsa())
        return self.other_algorithm(), self.octets(40)

    def inner(self, node):
        octets = self.laid_out(node)
        if self.break_rule():
            return self.one_of(octets + self.one_of(b"\0", b"\0\0", b"\5\0"), octets[:-1], b"", self.changed(octets))
        return octets

    def key(self):
        version = self.random.randint(0, 1)
        algorithm, octets = self.contained()
        fields = [self.number(version), algorithm, self.string(octets)]
        if self.random.random() < 0.4:
            fields.append(Node(TAG_0, self.some(0, 3, self.attribute)))
        if self.break_rule() != (version == 1):
            name = algorithm.contents[0].contents.hex()
            length = CURVE_KEYS.get(name)
            bits = None if length is None else self.random.randbytes(self.off(length))
            fields.append(self.bits(bits, TAG_1))
        return Node(SEQUENCE, fields)

    def request(self):
        info = [self.number(0), Node(SEQUENCE, self.some(0, 3, self.rdn)), self.public_key()]
        if self.random.random() < 0.8:
            info.append(Node(TAG_0, self.some(0, 3, self.request_attribute)))
        return Node(SEQUENCE, [Node(SEQUENCE, info), self.any_algorithm(), self.bits()])

    def public(self):
        return self.public_key()

    def encrypted(self):
        return Node(SEQUENCE, [self.any_algorithm(), self.string()])

    def package(self):
        return Node(SEQUENCE, self.some(0 if self.break_rule() else 1, 3, self.key))

    def document(self, kind):
        """The octets of a document of this kind."""
        if kind == "ec":
            return self.laid_out(self.ec(self.one_of(None, *CURVES, *OTHER_CURVES)))
        return self.laid_out(getattr(self, kind)())

    # Layouts

    def elsewise(self):
        """Whether to depart from the layout that DER has."""
        return self.random.random() < self.layouts

    def laid_out(self, node):
        """The octets of an element."""
        if node.has_nodes():
            return self.element(node.tag, True, b"".join(map(self.laid_out, self.shuffled(node.contents))))
        if not node.is_string:
            return self.element(node.tag, False, node.contents)
        if node.unused is not None and not node.contents and self.random.random() < 0.3:
            # (the one element whose DER text is longer)
            return self.element(node.tag, True, b"")
        if self.elsewise():
            return self.in_segments(node)
        return self.element(node.tag, False, self.piece(node.contents, node.unused))

    def shuffled(self, nodes):
        """These nodes, or with one left out, doubled, replaced or put elsewhere."""
        nodes = list(nodes)
        if not self.slip():
            return nodes
        other = self.one_of(Node(TAG_0, []), Node(TAG_1, b"\0"), Node((CONTEXT, 2), b""), self.null(), self.any(0))
        place = self.random.randint(0, len(nodes))
        which = self.random.randint(0, 3)
        if which == 0 or not nodes:
            return nodes[:place] + [other] + nodes[place:]
        taken = nodes.pop(min(place, len(nodes) - 1))
        if which == 1:
            return nodes
        self.random.shuffle(nodes)
        return nodes + [taken, taken] if which == 2 else [taken] + nodes

    def piece(self, octets, unused):
        """The contents of a primitive string: of a BIT STRING the number of unused bits stands before its octets."""
        if unused is None:
            return octets
        if self.slip():
            return self.one_of(b"", b"\x01", bytes([self.random.randint(8, 255)])) + self.one_of(octets, b"")
        return bytes([unused]) + octets

    def in_segments(self, node, levels=3):
        """The octets of a string in segments, some of them in segments again."""
        tag = OCTET_STRING if node.unused is None else BIT_STRING
        cuts = sorted(self.random.randint(0, len(node.contents)) for _ in range(self.random.randint(0, 3)))
        places = [0, *cuts, len(node.contents)]
        pieces = [node.contents[begin:end] for begin, end in zip(places, places[1:])]
        found = b""
        for place, octets in enumerate(pieces):
            is_last = place == len(pieces) - 1
            unused = node.unused if is_last or node.unused is None or self.slip() else 0
            segment = Node(self.one_of(UTF8_STRING, node.tag) if self.slip() else tag, octets, True, unused)
            if levels and self.random.random() < 0.2:
                found += self.in_segments(segment, levels - 1)
            elif octets or self.random.random() < 0.5:
                found += self.element(segment.tag, False, self.piece(octets, unused if octets else unused and 0))
        if self.random.random() < 0.1:
            found += self.element(tag, True, b"")
        return self.element(node.tag, True, found)

    def element(self, tag, is_constructed, contents):
        """The octets of an element with these contents."""
        if self.slip_in_layout():
            is_constructed = not is_constructed
        if is_constructed and self.elsewise():
            end = self.one_of(b"", b"\0", b"\0\1", b"\0\0\0\0") if self.slip_in_layout() else b"\0\0"
            return self.tag(tag, True) + b"\x80" + contents + end
        if is_constructed and self.slip_in_layout():
            contents += b"\0\0"
        return self.tag(tag, is_constructed) + self.length(len(contents)) + contents

    def tag(self, tag, is_constructed):
        """The octets of an identifier."""
        if self.slip_in_layout():
            return self.one_of(b"\x20", b"\x3f\x80\x01", b"\x1f\x81\x80\x80\x80\0", b"\x3f\x1e", b"\x1f\x81\x80\x01")
        kind, number = tag
        first = kind << 6 | is_constructed << 5
        if number < 31 and not self.slip_in_layout():
            return bytes([first | number])
        parts = [number >> shift & 127 for shift in (21, 14, 7, 0)]
        while len(parts) > 1 and not parts[0]:
            parts.pop(0)
        return bytes([first | 31, *(it | 128 for it in parts[:-1]), parts[-1]])

    def length(self, length):
        """The octets of a definite length."""
        if self.slip_in_layout():
            if self.random.random() < 0.3:
                huge = self.one_of(b"\x84\x7f\xff\xff\xf0", b"\x88\x01" + b"\0" * 7, b"\xfe" + b"\1" * 126)
                return self.one_of(b"\xff", b"\x80", huge)
            length = max(0, length + self.one_of(-2, -1, 1, 2, 100))
        if length < 128 and not self.elsewise():
            return bytes([length])
        count = max(1, (length.bit_length() + 7) // 8) + (self.one_of(0, 1, 2, 3, 7) if self.elsewise() else 0)
        return bytes([128 + count]) + length.to_bytes(count, "big")

    # Octets

    def changed(self, octets):
        """These octets cut, or with a few changed, put in, taken out, or put after."""
        which, place = self.random.randint(0, 6), self.random.randint(0, max(0, len(octets) - 1))
        if which == 0:
            return octets[:place]
        if which == 1:
            return octets + self.one_of(b"\0", b"\0\0", b"\n", self.random.randbytes(3), octets)
        if which == 2:
            return octets[:place] + self.random.randbytes(1) + octets[place:]
        if which == 3:
            return octets[:place] + octets[place + 1 :]
        found = bytearray(octets)
        for _ in range(self.random.randint(1, 2)):
            place = self.random.randint(0, max(0, len(found) - 1))
            near = (found[place] + self.one_of(-1, 1)) % 256 if found else 0
            usual = self.one_of(0, 1, 2, 3, 4, 5, 6, 0x1F, 0x20, 0x30, 0x31, 0x80, 0x81, 0x84, 0xA0, 0xA1, 0xFF)
            found[place : place + 1] = [self.one_of(near, usual, self.random.randint(0, 255), near ^ 0x20)]
        return bytes(found)
