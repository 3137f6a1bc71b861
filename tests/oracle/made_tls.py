#!/usr/bin/env python3
"""made_tls.py FOLDER: writes the documents of tests/pkder/explained that have something to note for TLS servers, and
those beside them of which there is nothing; and a maker of random ones, on both sides of what is noted.

What each file shows is said in tests/pkder/explained/reports.txt. Moduli, points and signatures are octets that mean
nothing."""
import ipaddress
import sys
from pathlib import Path

TOP = sys.path[0] = str(Path(__file__).resolve().parents[2])
from tests.oracle.made_asking import (
    BMP_STRING, IA5_STRING, PRINTABLE_STRING, TELETEX_STRING, UNIVERSAL_STRING, UTF8_STRING)
from tests.oracle.made_documents import (
    BIT_STRING, BOOLEAN, INTEGER, NULL, OBJECT_IDENTIFIER, OCTET_STRING, SEQUENCE, SET, TAG_0, Node)
from tests.oracle.made_extensions import ValueMaker
from tests.oracle.made_names import ADDRESS, ALT_NAME, COMMON, DNS, MAIL, NamesMaker, element, item, name
from tests.oracle.noted_tls import BLOCKS, UNTOLD_BLOCKS
from tests.oracle.reader import oid

POLICIES, PURPOSES, SERVER, ANY_PURPOSE = "2.5.29.32", "2.5.29.37", "1.3.6.1.5.5.7.3.1", "2.5.29.37.0"
EXTENSION_REQUEST = "1.2.840.113549.1.9.14"
RSA, PSS, EC, EC_DH, DSA = ("1.2.840.113549.1.1.1", "1.2.840.113549.1.1.10", "1.2.840.10045.2.1", "1.3.132.1.12",
                            "1.2.840.10040.4.1")
ED25519, ED448, X25519, ML_DSA_44 = "1.3.101.112", "1.3.101.113", "1.3.101.110", "2.16.840.1.101.3.4.3.17"
P_256, P_384, P_521 = "1.2.840.10045.3.1.7", "1.3.132.0.34", "1.3.132.0.35"
# secp256k1, secp224r1, secp192r1, brainpoolP256r1, sect163k1, and what is no curve
OTHER_CURVES = ["1.3.132.0.10", "1.3.132.0.33", "1.2.840.10045.3.1.1", "1.3.36.3.3.2.8.1.1.7", "1.3.132.0.1", "1.2.3"]
# How many octets the field of a curve has.
FIELDS = {P_256: 32, P_384: 48, P_521: 66}
BITS = [0, 1, 8, 31, 512, 1024, 1536, 2040, 2047, 2048, 2048, 2048, 2049, 2052, 2055, 2056, 2057, 3072, 4095, 4096]
EXPONENTS = [0, 1, 2, 3, 17, 2**16 - 1, 2**16, 2**16 + 2, 2**31 - 1, 2**31, 2**32 + 1, 2**64 + 1, 2**255, 2**256 - 1,
             2**256, 2**256 + 1, 2**264 - 1, -1, -65537, -(2**255)]
# DNS names that may be in the public DNS, and some that aren't, by one label or by the last one.
OUTSIDE = [b"www.example.org", b"example.org", b"*.example.org", b"a.home.arpa", b"local.example.com", b"a.plan",
           b"b.tests", b"c.atest", b"d.corps", b"e.localhosts", b"f.lan1", b"test.invalid.com", b"xn--bcher-kva.de"]
INSIDE = [b"www", b"LOCALHOST", b"*", b"", b"a.localhost", b"b.Test", b"c.d.example", b"e.INVALID", b"f.local",
          b"*.local", b"g.intranet", b"h.internal", b"i.pRivate", b"j.corp", b"k.home", b"l.LAN"]
# Names with labels without a letter, addresses, and letters that aren't ASCII.
ODD = [b"localhost.", b"a.local.", b".", b".local", b"a..lan", b"192.168.0.1", b"10.0.0.1", b"a\0.local",
       b"a.l\xc3\xb6cal"]
# What isn't a DNS name, and may stand in a commonName.
NO_HOSTS = ["192.0.2.1", "999.1.2.3", "1.2.3", "1.2.3.4.5", "1234.1.1.1", "2001:db8::1", "https://www.example.org",
            "www.example.org:443", "Example GmbH", "WWW.EXAMPLE.ORG", "www.example.org ", "b\u00fccher.de", ""]
# The first address and the last one of each block that is looked for, and the ones beside them.
FIRST_AND_LAST = """0.0.0.0 0.255.255.255 10.0.0.0 10.255.255.255 100.64.0.0 100.127.255.255 127.0.0.0 127.255.255.255
169.254.0.0 169.254.255.255 172.16.0.0 172.31.255.255 192.0.2.0 192.0.2.255 192.168.0.0 192.168.255.255 198.18.0.0
198.19.255.255 198.51.100.0 198.51.100.255 203.0.113.0 203.0.113.255 240.0.0.0 255.255.255.255 :: ::1 2001:db8::
2001:db8:ffff:ffff:ffff:ffff:ffff:ffff fc00:: fdff:ffff:ffff:ffff:ffff:ffff:ffff:ffff fe80::
febf:ffff:ffff:ffff:ffff:ffff:ffff:ffff"""
BESIDE = """1.0.0.0 9.255.255.255 11.0.0.0 100.63.255.255 100.128.0.0 126.255.255.255 128.0.0.0 169.253.255.255
169.255.0.0 172.15.255.255 172.32.0.0 192.0.1.255 192.0.3.0 192.167.255.255 192.169.0.0 198.17.255.255 198.20.0.0
198.51.99.255 198.51.101.0 203.0.112.255 203.0.114.0 239.255.255.255 ::2 2001:db7:ffff:ffff:ffff:ffff:ffff:ffff
2001:db9:: fbff:ffff:ffff:ffff:ffff:ffff:ffff:ffff fe00:: fe7f:ffff:ffff:ffff:ffff:ffff:ffff:ffff fec0::"""
NAME_STRINGS = [PRINTABLE_STRING, IA5_STRING, TELETEX_STRING, BMP_STRING, UNIVERSAL_STRING]
# So many names have about as many notes as a report may have, or more.
MANY = (30, 60, 101)


def borders(block):
    """The addresses at the borders of a block, on both sides of each, and one in it."""
    least, most = int(block[0]), int(block[-1])
    size, end = block.max_prefixlen // 8, 1 << block.max_prefixlen
    near = (least - 1, least, (least + most) // 2, most, most + 1)
    return [(it % end).to_bytes(size, "big") for it in near]


ADDRESSES = [it for block in [*BLOCKS, *UNTOLD_BLOCKS] for it in borders(block)]


def integer(number):
    """The contents of an INTEGER (X.690 8.3)."""
    return number.to_bytes(max(number, ~number).bit_length() // 8 + 1, "big", signed=True)


def algorithm(arcs, *parameters):
    return Node(SEQUENCE, [Node(OBJECT_IDENTIFIER, oid(arcs)), *parameters])


def public_key(of_algorithm, octets):
    return Node(SEQUENCE, [of_algorithm, Node(BIT_STRING, b"\0" + octets)])


def rsa_key(bits, exponent=65537, arcs=RSA, parameters=(Node(NULL, b""),)):
    """A public key of RSA, whose modulus has the highest bit and the lowest."""
    modulus = 1 << bits - 1 | int.from_bytes(bytes(range(1, 100)), "big") << 1 | 1
    numbers = Node(SEQUENCE, [Node(INTEGER, integer(modulus)), Node(INTEGER, integer(exponent))])
    return public_key(algorithm(arcs, *parameters), element(numbers))


def curve_key(curve, size):
    """A key on a curve, whose point has so many octets for each of its numbers."""
    return public_key(algorithm(EC, Node(OBJECT_IDENTIFIER, oid(curve))), b"\4" + bytes(range(1, size + 1)) * 2)


def extension(arcs, value, *critical):
    return Node(SEQUENCE, [Node(OBJECT_IDENTIFIER, oid(arcs)), *critical, Node(OCTET_STRING, value)])


NO_CURVE = Node(OBJECT_IDENTIFIER, oid("1.2.3"))
CRITICAL, NOT_CRITICAL = Node(BOOLEAN, b"\xff"), Node(BOOLEAN, b"\0")
CURVE_KEY = curve_key(P_256, 32)


def alternatives(names, *critical):
    """A subjectAltName of these members."""
    return extension(ALT_NAME, element(Node(SEQUENCE, names)), *critical)


def dns(*names):
    return [Node(DNS, it) for it in names]


def addresses(words):
    return [Node(ADDRESS, ipaddress.ip_address(it).packed) for it in words.split()]


def purposes(*arcs):
    return extension(PURPOSES, element(Node(SEQUENCE, [Node(OBJECT_IDENTIFIER, oid(it)) for it in arcs])))


def request(subject, *extensions, key=CURVE_KEY):
    """The octets of a request for these extensions."""
    asked = [Node(SEQUENCE, [Node(OBJECT_IDENTIFIER, oid(EXTENSION_REQUEST)),
                             Node(SET, [Node(SEQUENCE, [*extensions])])])] * bool(extensions)
    info = Node(SEQUENCE, [Node(INTEGER, b"\0"), subject, key, Node(TAG_0, asked)])
    return element(Node(SEQUENCE, [info, algorithm("1.2.840.10045.4.3.2"), Node(BIT_STRING, bytes(65))]))


def common(text, tag=UTF8_STRING):
    return item(COMMON, text, tag)


WWW, NAME = b"www.example.org", name(common("www.example.org"))
EMPTY, NAMES = Node(SEQUENCE, []), alternatives(dns(WWW))
# A subjectAltName that is text, as an author of a configuration wrote it.
TEXT_NAMES = extension(ALT_NAME, b"DNS:www.example.org")


def of_keys():
    """Files of public keys, each with its octets."""
    yield "rsa-2052", rsa_key(2052)
    yield "rsa-2040", rsa_key(2040)
    yield "rsa-sound", rsa_key(2056)
    yield "exponent-low", rsa_key(2048, 65535)
    yield "exponent-high", rsa_key(2048, 2**256 + 1)
    yield "exponent-sound", rsa_key(2048, 2**256 - 1)
    yield "curve-k1", curve_key("1.3.132.0.10", 32)
    yield "curve-192", curve_key("1.2.840.10045.3.1.1", 24)
    yield "curve-sound", curve_key(P_384, 48)
    yield "curve-sound-521", curve_key(P_521, 66)
    yield "rsa-parameters", rsa_key(2048, parameters=(NO_CURVE,))
    yield "ed25519", public_key(algorithm(ED25519), bytes(range(32)))
    yield "pss", rsa_key(2048, arcs=PSS, parameters=())
    yield "ec-dh", public_key(algorithm(EC_DH, Node(OBJECT_IDENTIFIER, oid(P_256))), b"\4" + bytes(range(64)))


def of_subjects():
    """Files of requests that show what is noted of the subject, each with its octets."""
    hosts = alternatives(dns(b"example.org", WWW))
    yield "cn", request(name(common("a.example.org")), NAMES)
    yield "cn-letters", request(name(common("WWW.example.org")), NAMES)
    yield "cn-sound", request(NAME, hosts)
    yield "cn-bmp", request(name(common("www.example.org", BMP_STRING)), NAMES)
    yield "cn-first", request(name(common("a.example.org"), common("b.example.org")), NAMES)
    yield "cn-second", request(name(common("www.example.org"), common("b.example.org")), NAMES)
    yield "cn-address", request(name(common("8.8.8.8")), NAMES)
    yield "cn-text", request(name(common("a.example.org")), TEXT_NAMES)
    yield "cn-alone", request(name(common("a.example.org")), purposes(SERVER))
    yield "empty", request(EMPTY, NAMES)
    yield "empty-false", request(EMPTY, alternatives(dns(WWW), NOT_CRITICAL))
    yield "empty-sound", request(EMPTY, alternatives(dns(WWW), CRITICAL))


def of_extensions():
    """Files of requests that show what is noted of extensions, each with its octets."""
    yield "internal", request(NAME, alternatives(dns(WWW, *(it for it in INSIDE if len(it) > 1))))
    yield "internal-sound", request(NAME, alternatives(dns(WWW, *OUTSIDE[1:])))
    yield "addresses", request(NAME, alternatives(dns(WWW) + addresses(FIRST_AND_LAST)))
    yield "addresses-sound", request(NAME, alternatives(dns(WWW) + addresses(BESIDE)))
    yield "any-usage", request(NAME, NAMES, purposes(SERVER, ANY_PURPOSE))
    yield "any-usage-sound", request(NAME, NAMES, purposes(SERVER, "1.3.6.1.5.5.7.3.2"))


def files():
    """Each file with its octets."""
    yield from ((title, element(key)) for title, key in of_keys())
    yield from of_subjects()
    yield from of_extensions()


class NamesInside(ValueMaker):
    """Makes values of extensions of a request that has these names."""

    def __init__(self, names, random, *chances):
        super().__init__(random, *chances)
        self.names = names

    def general_name(self):
        which = self.random.random()
        if which < 0.2:
            return self.string(self.one_of(*ADDRESSES), ADDRESS)
        if which < 0.35:
            return super().general_name()
        names = [*self.names * 2, *OUTSIDE, *INSIDE, *ODD]
        return self.string(self.one_of(*names), MAIL if which < 0.45 else DNS)

    def general_names(self):
        if self.random.random() < 0.04:
            names = self.random.choices(INSIDE[:2] + ODD, [60, 60, *[1] * len(ODD)], k=self.one_of(*MANY))
            return Node(SEQUENCE, dns(*names))
        return self.members(self.general_name, self.one_of(2, 4, 8))

    def identifier(self, contents=None):
        """An object identifier of these contents, or any, more often than not anyExtendedKeyUsage or one near it."""
        if contents or self.random.random() < 0.3:
            return super().identifier(contents)
        return super().identifier(oid(self.one_of(ANY_PURPOSE, SERVER, "2.5.29.37", "2.5.29.37.0.1")).hex())


class TlsMaker(NamesMaker):
    """Makes requests and public keys of TLS servers, on both sides of what is noted."""

    def request(self):
        self.names = self.random.choices(OUTSIDE, k=3) + self.random.choices(INSIDE, k=1)
        found = super().request()
        if self.random.random() < 0.3:
            found.contents[0].contents[1] = Node(SEQUENCE, [])
        return found

    # Names

    def name_item(self):
        """An attribute of a name, a commonName more often than not."""
        if self.random.random() < 0.3:
            return super().name_item()
        text = self.one_of(*(it.decode() for it in self.names * 3), *NO_HOSTS)
        found = item(COMMON, text, self.one_of(*[UTF8_STRING] * 5, *NAME_STRINGS))
        found.contents[1].is_string = True
        return found

    def extension(self):
        if self.random.random() < 0.2:
            return super().extension()
        arcs = self.one_of(*[ALT_NAME] * 6, *[PURPOSES] * 3, POLICIES)
        inside = NamesInside(self.names, self.random, self.one_of(0, 0, 0, 0, 0.1))
        octets = inside.laid_out(inside.value(arcs))
        if self.random.random() < 0.05:
            octets = inside.changed(octets)
        return Node(SEQUENCE, [Node(OBJECT_IDENTIFIER, oid(arcs)), *self.maybe_critical(), self.string(octets)])

    # Keys

    def number_near(self, bits):
        """An odd number of so many bits, or of the bits of its octets where it has no octet for its sign."""
        number = self.random.getrandbits(bits) | 1 << bits >> 1 | (bits > 1)
        return number.to_bytes((bits + 7) // 8, "big") if bits and self.random.random() < 0.05 else integer(number)

    def rsa_public_key(self):
        exponent = integer(self.one_of(65537, 65537, *EXPONENTS))
        return Node(SEQUENCE, [Node(INTEGER, self.number_near(self.one_of(*BITS))), Node(INTEGER, exponent)])

    def rsa_key(self):
        inside = TlsMaker(self.random, self.one_of(0, 0, 0, 0, 0.1))
        octets = inside.laid_out(inside.rsa_public_key())
        if self.random.random() < 0.05:
            octets = inside.changed(octets)
        parameters = self.one_of(*[[self.null()]] * 4, [], [Node(SEQUENCE, [])], [NO_CURVE])
        found = self.algorithm(oid(self.one_of(RSA, RSA, RSA, PSS)).hex(), *parameters)
        return Node(SEQUENCE, [found, Node(BIT_STRING, octets, True, 0)])

    def curve_key(self):
        curve = self.one_of(*FIELDS, *OTHER_CURVES)
        octets = b"\4" + self.random.randbytes(2 * FIELDS.get(curve, 32))
        parameters = self.one_of(*[Node(OBJECT_IDENTIFIER, oid(curve))] * 6, self.null(), Node(SEQUENCE, []))
        return Node(SEQUENCE, [self.algorithm(oid(EC).hex(), parameters), self.bits(octets)])

    def other_key(self):
        """A key of another algorithm."""
        arcs = self.one_of(ED25519, ED448, X25519, ML_DSA_44, EC_DH, DSA, "1.2.3", "1.2.3.4")
        octets = self.random.randbytes({ED25519: 32, ED448: 57, X25519: 32}.get(arcs, 40))
        parameters = {DSA: Node(SEQUENCE, []), EC_DH: Node(OBJECT_IDENTIFIER, oid(P_256)), "1.2.3": NO_CURVE}
        parameters = [parameters[arcs]] if arcs in parameters else []
        return Node(SEQUENCE, [algorithm(arcs, *parameters), self.bits(octets)])

    def public_key(self):
        return self.random.choices([self.rsa_key, self.curve_key, self.other_key], [5, 3, 2])[0]()


def main(folder):
    for title, octets in files():
        (Path(folder) / f"note-tls-{title}.der").write_bytes(octets)


if __name__ == "__main__":
    sys.exit(main(*sys.argv[1:]) if len(sys.argv) == 2 else __doc__)
