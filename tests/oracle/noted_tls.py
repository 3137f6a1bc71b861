"""What is noted for TLS servers on an accepted document, under profile `tls`: each note as JSON has it, in the order of
the elements.

It is written from the Baseline Requirements of the CA/Browser Forum (sections 6.1.5, 6.1.6, 7.1.2.7.10, 7.1.2.7.12,
7.1.3.1 and 7.1.4.3), RFC 5280 section 4.2.1.6, RFC 6761 section 6, RFC 6762 section 3 and appendix G, and RFC 6890
sections 2.2.2 and 2.2.3; what is looked at, and of what nothing is said, is that of docs/formats.md, "What is noted for
TLS servers". The document is gone through by tests/oracle/document_types.py, and what values of extensions and public
keys are is said by tests/oracle/extensions.py and public_keys.py. Nothing is shared with the definitions and the code
of pkder."""
import ipaddress
import itertools
import re

from tests.oracle.asked_words import number_of
from tests.oracle.document_types import INSIDE, TYPES, Walk, joined
from tests.oracle.extensions import carried
from tests.oracle.parts import Part, arcs, parts
from tests.oracle.public_keys import carried_key
from tests.oracle.reader import DEPTH, OCTETS, RSA_ENCRYPTION, oid
from tests.oracle.report import CHARACTERS

LEVELS = dict.fromkeys("""rsa_size curve key_algorithm cn_not_in_san san_internal eku_any san_not_critical""".split(),
                       "must") | {"rsa_exponent": "should"}
COMMON_NAME, ALT_NAME, PURPOSES, ANY_PURPOSE = map(oid, ("2.5.4.3", "2.5.29.17", "2.5.29.37", "2.5.29.37.0"))
IDENTIFIER, WIDE = (0, 6), ((0, 28), (0, 30))
# The first octets of a dNSName and of an iPAddress, which are primitive in DER.
DNS_NAME, ADDRESS = 0x82, 0x87
EC_KEY = "1.2.840.10045.2.1"
# Section 7.1.3.1: rsaEncryption and id-ecPublicKey; section 6.1.5: P-256, P-384, P-521.
ALGORITHMS = {"1.2.840.113549.1.1.1", EC_KEY}
CURVES = {"1.2.840.10045.3.1.7", "1.3.132.0.34", "1.3.132.0.35"}
# Section 6.1.5, and section 6.1.6: from 2^16 + 1 up to 2^256 - 1.
LEAST_BITS, EXPONENTS = 2048, range(2**16 + 1, 2**256)
# Labels under which the public DNS has no names.
SPECIAL = b"test example invalid localhost local".split()
OF_OWN_NETWORKS = b"intranet internal private corp home lan".split()
# Blocks of special addresses that are looked for, and the rest of RFC 6890, of which nothing is said.
BLOCKS = [ipaddress.ip_network(it) for it in """0.0.0.0/8 10.0.0.0/8 100.64.0.0/10 127.0.0.0/8 169.254.0.0/16
172.16.0.0/12 192.0.2.0/24 192.168.0.0/16 198.18.0.0/15 198.51.100.0/24 203.0.113.0/24 240.0.0.0/4 255.255.255.255/32
::/128 ::1/128 2001:db8::/32 fc00::/7 fe80::/10""".split()]
UNTOLD_BLOCKS = [ipaddress.ip_network(it) for it in """192.0.0.0/24 192.0.0.0/29 192.88.99.0/24 64:ff9b::/96
::ffff:0:0/96 100::/64 2001::/23 2001::/32 2001:2::/48 2001:10::/28 2002::/16""".split()]
SUBJECT = "certificationRequestInfo.subject"
OF_SUBJECT = re.compile(re.escape(SUBJECT) + r"\[\d+\]\[\d+\]\.(type|value)")
OF_KEY = re.compile(r"(certificationRequestInfo\.subjectPKInfo\.)?algorithm\.(algorithm|parameters)")


# What is said of a value


def is_internal(name):
    """Whether a DNS name isn't in the public DNS. The top-level domains of the root aren't known here: so it is a name
    of one label, or one under a label that isn't among them by a standard."""
    *others, last = name.split(b".")
    return not others or last.lower() in SPECIAL + OF_OWN_NETWORKS


def is_reserved(octets):
    """Whether the octets are an address in one of the blocks."""
    return len(octets) in (4, 16) and any(ipaddress.ip_address(octets) in it for it in BLOCKS)


def on_name(part):
    """The code of a note on a name in subjectAltName."""
    is_outside = {DNS_NAME: is_internal, ADDRESS: is_reserved}.get(part.first, lambda _: False)
    return "san_internal" if is_outside(part.contents) else None


def on_purpose(part):
    """The code of a note on a purpose in extKeyUsage."""
    return "eku_any" if part.contents == ANY_PURPOSE else None


def is_like_address(text):
    """Whether a text has the form of an address: four decimal numbers, or hexadecimal ones with colons and dots."""
    return re.fullmatch(rb"[0-9]{1,3}(\.[0-9]{1,3}){3}|(?=.*:)[0-9A-Fa-f.:]*", text) is not None


def on_modulus(contents):
    """The code and the numbers of a note on a modulus; of one below 0 there is none."""
    bits = int.from_bytes(contents, "big").bit_length()
    return ("rsa_size", {"bits": bits}) if contents[0] < 128 and (bits < LEAST_BITS or bits % 8) else None


def on_exponent(contents):
    return None if int.from_bytes(contents, "big", signed=True) in EXPONENTS else "rsa_exponent"


ON_NUMBERS = {"modulus": on_modulus, "publicExponent": on_exponent}


# The document


class Extension:
    """An extension of a request: its identifier, and the value with the places of its octets."""

    def __init__(self, identifier, value, places, verdict):
        self.identifier, self.value, self.places, self.verdict = identifier, value, places, verdict

    def is_read(self):
        return bool(self.verdict) and self.verdict["verdict"] == "der"

    def members(self):
        """The members of a value that is a SEQUENCE OF, each with its number and its place."""
        if self.is_read():
            whole = parts(self.value)[0]
            at = len(whole.octets) - len(whole.contents)
            for number, it in enumerate(parts(whole.contents)):
                yield number, self.places[at], it
                at += len(it.octets)


class Served:
    """An accepted document, by its elements."""

    def __init__(self, kind, octets, depth=DEPTH, limit=OCTETS):
        self.octets, self.limits = octets, (depth, limit)
        self.elements = [*iter(Walk(octets, TYPES[kind], depth, limit).next, None)]
        self.extensions = dict(self.found_extensions())
        alternatives = [it for it in self.extensions.values() if it.identifier == ALT_NAME]
        # (the names that a commonName has to be among; none where what stands in a subjectAltName can't be read)
        self.names = [member.contents for it in alternatives for *_, member in it.members() if member.first == DNS_NAME]
        self.has_names = bool(alternatives) and all(it.is_read() for it in alternatives)
        subject = next((at for at, it in enumerate(self.elements) if it.path == SUBJECT), None)
        self.is_empty = subject is not None and self.elements[subject + 1].depth <= self.elements[subject].depth

    def pieces(self, number):
        """The places of the contents of a string, or of those of each segment."""
        element = self.elements[number]
        is_within = lambda it: it.path.startswith(element.path + "{")
        within = itertools.takewhile(is_within, self.elements[number + 1 :])
        return [range(it.begin, it.end) for it in [element, *within] if not it.is_constructed]

    def at(self, places):
        return bytes(self.octets[it] for it in places)

    def contents(self, number):
        return self.at(itertools.chain(*self.pieces(number)))

    def found_extensions(self):
        """The extensions by the numbers of the elements that are their identifiers and their values."""
        for number, it in enumerate(self.elements):
            if it.name == "extnID":
                identifier, named = self.contents(number), number
            if it.name == "extnValue":
                places = [*itertools.chain(*self.pieces(number))]
                value = self.at(places)
                found = Extension(identifier, value, places, carried(identifier, value, *self.limits))
                yield from ((named, found), (number, found))

    def is_critical(self, number):
        """Whether the extension with this identifier is: the field after it says so."""
        after = self.elements[number + 1]
        return after.name == "critical" and self.contents(number + 1) != b"\0"

    # What is noted of an element

    def on_key_algorithm(self, number, key):
        return None if key in ALGORITHMS else "key_algorithm"

    def on_parameters(self, number, key):
        """What is noted of a named curve."""
        is_curve = key == EC_KEY and self.elements[number].tag == IDENTIFIER
        return "curve" if is_curve and arcs(Part(6, b"", self.contents(number))) not in CURVES else None

    def on_common_name(self, number):
        """What is noted of the first commonName."""
        element, contents = self.elements[number], self.contents(number)
        if element.is_constructed or element.tag not in CHARACTERS or element.tag in WIDE or not self.has_names:
            return None
        return None if contents in self.names or is_like_address(contents) else "cn_not_in_san"

    def on_identifier(self, number):
        """What is noted of an extension by its identifier."""
        is_alternative = self.extensions[number].identifier == ALT_NAME
        return "san_not_critical" if is_alternative and self.is_empty and not self.is_critical(number) else None

    def inside_extension(self, number):
        """What is noted of the names and the usages in an extension."""
        extension = self.extensions[number]
        on_member = {ALT_NAME: on_name, PURPOSES: on_purpose}.get(extension.identifier)
        for index, at, it in extension.members() if on_member else []:
            yield self.note(on_member(it), f"{self.elements[number].path}[{index}]", at)

    def inside_public_key(self, number, key):
        """What is noted of the numbers of a public key of RSA that is in DER."""
        pieces = [self.at(it) for it in self.pieces(number)]
        carries = carried_key(oid(key), pieces, *self.limits)
        if carries and carries["verdict"] == "der":
            places = [place for it, octets in zip(self.pieces(number), pieces) if octets[0] == 0 for place in it[1:]]
            whole = parts(self.at(places))[0]
            at = len(whole.octets) - len(whole.contents)
            for name, it in zip(ON_NUMBERS, parts(whole.contents)):
                yield self.note(ON_NUMBERS[name](it.contents), joined(self.elements[number].path, name), places[at])
                at += len(it.octets)

    def inside_private_key(self, number):
        """What is noted of the numbers of a private key of RSA that are shown: those of up to four octets."""
        places = [*itertools.chain(*self.pieces(number))]
        inside = Walk(self.at(places), INSIDE[RSA_ENCRYPTION], *self.limits)
        for it in iter(inside.next, None):
            if it.name in ON_NUMBERS:
                contents = self.at(places[it.begin : it.end])
                noted = None if number_of(contents) is None else ON_NUMBERS[it.name](contents)
                yield self.note(noted, joined(self.elements[number].path, it.name), places[it.at])

    @staticmethod
    def note(noted, field, at):
        """A note as JSON has it; None where there is none."""
        code, numbers = noted if isinstance(noted, tuple) else (noted, {})
        return noted and {"field": field, "at": at, "what": code, "level": LEVELS[code]} | numbers

    def on_elements(self):
        """What is noted of each element and of what is in it, None where that is nothing."""
        key, attribute, has_common_name = None, None, False
        for number, it in enumerate(self.elements):
            of_key, of_subject, noted = OF_KEY.fullmatch(it.path), OF_SUBJECT.fullmatch(it.path), None
            if it.name == "algorithm" and it.tag == IDENTIFIER:
                key = arcs(Part(6, b"", self.contents(number)))
            if of_key:
                on_field = self.on_parameters if of_key[2] == "parameters" else self.on_key_algorithm
                noted = on_field(number, key)
            elif of_subject and of_subject[1] == "type":
                attribute = self.contents(number)
            elif of_subject and attribute == COMMON_NAME:
                noted = None if has_common_name else self.on_common_name(number)
                has_common_name = True
            elif it.name == "extnID":
                noted = self.on_identifier(number)
            yield self.note(noted, it.path, it.at)
            if it.name == "extnValue":
                yield from self.inside_extension(number)
            elif it.name == "subjectPublicKey":
                yield from self.inside_public_key(number, key)
            elif it.name == "privateKey" and key and oid(key) == RSA_ENCRYPTION:
                yield from self.inside_private_key(number)

    def notes(self):
        return [it for it in self.on_elements() if it]
