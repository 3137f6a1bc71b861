"""Documents of which `explain` says much: certification requests whose subjects have strings with characters of any
kind, whose extensions carry anything (tests/oracle/made_extensions.py), and whose attributes aren't looked into; and
encrypted keys whose parameters have names and numbers, and public keys of RSA that carry anything
(tests/oracle/made_public_keys.py)."""
import functools
import unicodedata

from tests.oracle.made_documents import (
    CURVES, EC_PUBLIC_KEY, INTEGER, OBJECT_IDENTIFIER, OTHER_CURVES, SEQUENCE, SET, TAG_0, Maker, Node)
from tests.oracle.made_extensions import RequestMaker
from tests.oracle.made_public_keys import PublicKeyMaker
from tests.oracle.reader import oid

UTF8_STRING, PRINTABLE_STRING, TELETEX_STRING, IA5_STRING, UNIVERSAL_STRING, BMP_STRING = (
    (0, it) for it in (12, 19, 20, 22, 28, 30))
# Strings whose octets may be any.
OF_OCTETS = [PRINTABLE_STRING, TELETEX_STRING, IA5_STRING, *((0, it) for it in (18, 23, 24, 25, 26, 27))]
# Types that have short names, that have others, and of which there is only a number.
NAME_TYPES = """2.5.4.3 2.5.4.6 2.5.4.7 2.5.4.8 2.5.4.9 2.5.4.10 2.5.4.11 0.9.2342.19200300.100.1.25
0.9.2342.19200300.100.1.1 2.5.4.5 2.5.4.12 2.5.4.42 2.5.4.97 1.2.840.113549.1.9.1 1.2.3.4 2.5.4.200""".split()
# challengePassword, unstructuredName, and others
ATTRIBUTE_TYPES = ["1.2.840.113549.1.9.7", "1.2.840.113549.1.9.2", "1.3.6.1.4.1.311.13.2.3", "1.2.3.4"]
# PBES2 and what stands in its parameters (RFC 8018), in PKCS #12, and others
SCHEMES = """1.2.840.113549.1.5.13 1.2.840.113549.1.5.12 1.2.840.113549.2.9 2.16.840.1.101.3.4.1.42
1.3.6.1.4.1.11591.4.11 1.2.840.113549.1.12.1.3 1.2.3.4 2.999""".split()
MARKED = '\\"+,;<># =\\\\'
UNSEEN = "\0\t\n\r\x1b\x7f\x80\x85\xa0\xad\u061c\u200b\u200e\u2028\u2029\u202e\u2066\ufeff\ue000\ufff9" \
    "\U000e0041\U0010fffd"
SEEN = "az09.-@/\u00fc\u00df\u0301\u0416\u05d0\u0639\u0e01\u4e2d\uac00\u20ac\u2160\u00bd\u3042\U0001f600\U00020000"


@functools.cache
def assigned():
    """The characters that are assigned in the Unicode that Python knows, halves of pairs apart."""
    return [chr(it) for it in range(0x110000) if unicodedata.category(chr(it)) not in ("Cn", "Cs")]


class AskingMaker(RequestMaker):
    """Makes requests that are sound."""

    def character(self):
        among = self.one_of(SEEN, SEEN, SEEN, MARKED, UNSEEN)
        return self.one_of(*among) if self.random.random() < 0.8 else self.random.choice(assigned())

    def characters(self):
        return "".join(self.some(0, 12, self.character))

    def name_string(self):
        """A string of any type; in a BMPString there are halves of pairs, and an octet too many, too."""
        text = self.characters()
        tag = self.one_of(UTF8_STRING, UTF8_STRING, BMP_STRING, UNIVERSAL_STRING, *OF_OCTETS)
        if tag == UTF8_STRING:
            return self.string(text.encode(), tag)
        if tag == BMP_STRING:
            return self.string(text.encode("utf-16-be") + b"\0" * (self.random.random() < 0.1), tag)
        if tag == UNIVERSAL_STRING:
            return self.string(text.encode("utf-32-be"), tag)
        return self.string(text.encode("latin-1", "ignore") + self.one_of(b"", b"", self.random.randbytes(6)), tag)

    def name_item(self):
        value = self.any() if self.random.random() < 0.1 else self.name_string()
        return Node(SEQUENCE, [Node(OBJECT_IDENTIFIER, oid(self.one_of(*NAME_TYPES))), value])

    def rdn(self):
        """A relative name, most often in the order of DER."""
        found = self.some(1, self.one_of(1, 1, 3), self.name_item)
        return Node(SET, found if self.elsewise() else sorted(found, key=Maker(self.random).laid_out))

    def other_attribute(self):
        arcs = self.one_of(*ATTRIBUTE_TYPES)
        return Node(SEQUENCE, [Node(OBJECT_IDENTIFIER, oid(arcs)), Node(SET, self.some(1, 2, self.name_string))])

    def request_attribute(self):
        return self.other_attribute() if self.random.random() < 0.3 else super().request_attribute()

    def request(self):
        """A request, of which one in eight has no attributes."""
        key, bits = self.public_key(), self.bits()
        info = [Node(INTEGER, b"\0"), Node(SEQUENCE, self.some(0, 4, self.rdn)), key]
        if self.random.random() < 0.875:
            info.append(Node(TAG_0, self.some(0, 3, self.request_attribute)))
        return Node(SEQUENCE, [Node(SEQUENCE, info), self.any_algorithm(), bits])


class HoldingMaker(PublicKeyMaker):
    """Makes documents of other kinds that are sound."""

    def any(self, deeper=2):
        """An open value, an identifier or a number more often than not."""
        number = self.one_of(b"\0", b"\1\0\1", b"\x7f\xff\xff\xff", b"\x10\0", b"\0\x80")
        makers = [lambda: Node(OBJECT_IDENTIFIER, oid(self.one_of(*SCHEMES))), lambda: Node(INTEGER, number),
                  self.number_of_rsa, lambda: super(HoldingMaker, self).any(deeper)]
        return self.random.choices(makers, [3, 1, 1, 5])[0]()

    def encrypted(self):
        scheme = Node(OBJECT_IDENTIFIER, oid(self.one_of(*SCHEMES)))
        return Node(SEQUENCE, [Node(SEQUENCE, [scheme, *self.some(0, 1, self.parameters)]), self.string()])

    def public_key(self):
        """A public key, in one of four with a curve that is named, written out or left out."""
        if self.random.random() < 0.75:
            return super().public_key()
        named = self.one_of(*CURVES, *OTHER_CURVES)
        curve = self.one_of([], [self.any()], [self.identifier(named)])
        return Node(SEQUENCE, [self.algorithm(EC_PUBLIC_KEY, *curve), self.point(CURVES.get(named, 32))])

    def point(self, size):
        """A BIT STRING, of the length of a point as often as not, with a first octet that may say its form."""
        if self.random.random() < 0.5:
            return self.bits()
        return self.bits(bytes([self.random.randint(1, 8)]) + self.random.randbytes(size * self.one_of(1, 2)))
