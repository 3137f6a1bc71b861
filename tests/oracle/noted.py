"""What `pkder explain` notes on the extensions, the algorithms, the points and the subject of an accepted document: the
codes of docs/formats.md, "What is noted", each with the path of its line inside the file.

It is written from RFC 5280 sections 4.1.2.6, 4.2.1.3 and 4.2.1.9, RFC 8017 appendix A, RFC 2985 section 5.4.2, RFC 2986
sections 3 and 4.1, RFC 5480 section 2, NIST SP 800-131A and RFC 6151: the document is gone through by
tests/oracle/document_types.py, and whether the value of an extension is in DER is said by tests/oracle/extensions.py.
Nothing is shared with the definitions and the code of pkder."""
import re

from tests.oracle.document_types import IDENTIFIER, NULL, TYPES, Walk
from tests.oracle.extensions import carried
from tests.oracle.parts import Part, arcs, parts, with_first
from tests.oracle.reader import DEPTH, OCTETS

LEVELS = dict.fromkeys("""ku_none certsign_without_ca pathlen_without_ca rsa_no_null algorithm_of_another_key
point_hybrid""".split(), "must")
LEVELS |= dict.fromkeys("sha1 md5 old_extension_request empty_subject no_attributes".split(), "should")
KEY_USAGE, ALT_NAME, CONSTRAINTS = (bytes([0x55, 0x1D, it]) for it in (15, 17, 19))
OLD_REQUEST = "1.3.6.1.4.1.311.2.1.14"
PKCS_1, X9_62, NIST = "1.2.840.113549.1.1.", "1.2.840.10045.", "2.16.840.1.101.3.4."
RSA = PKCS_1 + "1"
SHA_1, OLD_DIGESTS = {PKCS_1 + "5", X9_62 + "4.1", "1.2.840.10040.4.3"}, {PKCS_1 + it for it in "234"}
# Those whose identifier is that of the key and of the signature: Ed25519, Ed448, ML-DSA and SLH-DSA; and ML-KEM, which
# has no parameters either.
LONE = {"1.3.101.112", "1.3.101.113", *(f"{NIST}3.{it}" for it in range(17, 32))}
WITHOUT_PARAMETERS = {*(f"{NIST}3.{it}" for it in range(17, 32)), *(f"{NIST}4.{it}" for it in (1, 2, 3))}
# How many octets a coordinate has, on the curves of RFC 5480 section 2.1.1.1 that pkder knows and on secp256k1 (SEC 2
# section 2.4.1), and the algorithms whose keys are points: id-ecPublicKey, id-ecDH and id-ecMQV (RFC 5480 section 2.1).
COORDINATES = {"1.3.132.0.33": 28, X9_62 + "3.1.7": 32, "1.3.132.0.10": 32, "1.3.132.0.34": 48, "1.3.132.0.35": 66}
OF_POINTS = {X9_62 + "2.1", "1.3.132.1.12", "1.3.132.1.13"}
ATTRIBUTE_TYPE = re.compile(r"certificationRequestInfo\.attributes\[\d+\]\.type")


def family_of_key(identifier):
    """A name of the family of a key that signs; None where it isn't known."""
    named = {RSA: "RSA", PKCS_1 + "10": "RSA", X9_62 + "2.1": "ECDSA"}
    return named.get(identifier, identifier if identifier in LONE else None)


def family_of_signature(identifier):
    if identifier.startswith(PKCS_1) and identifier.removeprefix(PKCS_1) in "2 3 4 5 10 11 12 13 14 15 16".split():
        return "RSA"
    if identifier.startswith(X9_62 + "4."):
        return "ECDSA"
    return identifier if identifier in LONE else None


def on_signature(identifier, key):
    """What is noted on the algorithm of a signature, after that of a key."""
    families = family_of_key(key), family_of_signature(identifier)
    if None not in families and families[0] != families[1]:
        return "algorithm_of_another_key"
    if identifier in SHA_1:
        return "sha1"
    return "md5" if identifier in OLD_DIGESTS else None


def on_usage(contents, is_ca):
    """What is noted on a keyUsage; where it has zeros at its end, that is noted alone."""
    if not any(contents[1:]):
        return "ku_none"
    ends_in_one = contents[-1] >> contents[0] & 1
    return "certsign_without_ca" if ends_in_one and contents[1] & 4 and not is_ca else None


def on_point(contents, size):
    """What is noted on the first octet of a point of a curve, by the contents of the BIT STRING, where there are as
    many octets as a point has: 04 is of an uncompressed one, 02 and 03 of a compressed one (RFC 5480 section 2.2)."""
    due = {1 + size: (2, 3), 1 + 2 * size: (4,)}.get(len(contents) - 1)
    return "point_hybrid" if due and not contents[0] and contents[1] not in due else None


class Noted:
    """An accepted document, by its elements and the values of its extensions."""

    def __init__(self, kind, octets, depth=DEPTH, limit=OCTETS):
        self.octets, self.limits = octets, (depth, limit)
        walk = Walk(octets, TYPES[kind], depth, limit)
        self.elements = [*iter(walk.next, None)]
        self.values = [*self.extensions()]
        sound = [(it, value) for it, _, value, verdict in self.values if verdict and verdict["verdict"] == "der"]
        constraints = [parts(value)[0].contents for it, value in sound if it == CONSTRAINTS]
        is_hidden = any(verdict and verdict["verdict"] != "der" for *_, verdict in self.values)
        self.is_ca = is_hidden or any(with_first(parts(it), 1) is not None for it in constraints)
        self.has_names = any(it == ALT_NAME for it, *_ in self.values)

    def contents(self, number):
        """The contents of a string, those of its segments joined."""
        element = self.elements[number]
        if not element.is_constructed:
            return self.octets[element.begin : element.end]
        within = range(number + 1, len(self.elements))
        inner = (it for it in within if self.elements[it].depth == element.depth + 1)
        mine = (it for it in inner if self.elements[it].at < element.end)
        return b"".join(self.contents(it) for it in mine)

    def extensions(self):
        """The identifier of each extension, the path of its value, its octets, and what they are as one of its type."""
        identifier = None
        for number, it in enumerate(self.elements):
            if it.name == "extnID":
                identifier = self.contents(number)
            if it.name == "extnValue":
                value = self.contents(number)
                yield identifier, it.path, value, carried(identifier, value, *self.limits)

    def next(self, number):
        return self.elements[number + 1] if number + 1 < len(self.elements) else None

    def on_algorithm(self, number, key):
        element, after = self.elements[number], self.next(number)
        identifier = arcs(Part(6, b"", self.contents(number)))
        parameters = after if after and after.name == "parameters" else None
        if parameters and identifier in WITHOUT_PARAMETERS:
            return None
        if identifier == RSA and not (parameters and parameters.tag == NULL.tag):
            return "rsa_no_null"
        return on_signature(identifier, key) if element.path.startswith("signatureAlgorithm.") else None

    def size_on_curve(self, number, key):
        """How many octets a coordinate has, after the algorithm before this element; None where that isn't known."""
        before = self.elements[number - 1]
        is_named = key in OF_POINTS and before.name == "parameters" and before.tag == IDENTIFIER.tag
        return COORDINATES.get(arcs(Part(6, b"", self.contents(number - 1)))) if is_named else None

    def on_element(self, number, key):
        element, after = self.elements[number], self.next(number)
        if element.name == "algorithm" and element.tag == IDENTIFIER.tag:
            return self.on_algorithm(number, key)
        if element.name == "subjectPublicKey" and not element.is_constructed:
            size = self.size_on_curve(number, key)
            return on_point(self.contents(number), size) if size else None
        if element.path == "certificationRequestInfo":
            return None if any(it.path == f"{element.path}.attributes" for it in self.elements) else "no_attributes"
        if element.path == "certificationRequestInfo.subject":
            is_empty = after.depth <= element.depth
            return "empty_subject" if is_empty and not self.has_names else None
        if ATTRIBUTE_TYPE.fullmatch(element.path):
            identifier = arcs(Part(6, b"", self.contents(number)))
            return "old_extension_request" if identifier == OLD_REQUEST else None
        return None

    def on_value(self, identifier, value):
        """What is noted on a line inside the value of an extension, which is in DER."""
        whole = parts(value)[0]
        if identifier == KEY_USAGE:
            return on_usage(whole.contents, self.is_ca)
        is_path = identifier == CONSTRAINTS and with_first(parts(whole.contents), 2) is not None
        return "pathlen_without_ca" if is_path and not self.is_ca else None

    def notes(self):
        """The codes, each with the path of the element that it is about, or of the extension's value."""
        key, values = "", iter(self.values)
        for number, it in enumerate(self.elements):
            if code := self.on_element(number, key):
                yield code, it.path
            if it.name == "algorithm":
                key = arcs(Part(6, b"", self.contents(number)))
            if it.name == "extnValue":
                identifier, path, value, verdict = next(values)
                if verdict and verdict["verdict"] == "der" and (code := self.on_value(identifier, value)):
                    yield code, path
