"""What an accepted document says of its key, as `pkder explain` says it: the line `key` of a request, the lines under
`holds` of a document of another kind, and the objects `key` and `holds` of JSON.

It is written from docs/formats.md, "What a request asks for" and "What a document holds", and RFC 8017 appendix A.1.1:
the document is gone through by tests/oracle/document_types.py, and what a public key carries is said by
tests/oracle/public_keys.py. Nothing is shared with the definitions and the code of pkder but the table of usual
names."""
import re

from tests.oracle.asked_words import first_octets, identifier, number_of, sized, value_words
from tests.oracle.document_types import IDENTIFIER, INSIDE, INTEGER, TYPES, Walk
from tests.oracle.public_keys import carried_key, numbers_of
from tests.oracle.reader import RSA_ENCRYPTION

ENUMERATED = 0, 10
NO_VALUE = {"not_der": "not in DER", "refused": "not of its type"}
# The fields of a key and of one that is private, and the segments of a string.
KEY_FIELD = re.compile(r"(?:privateKeyAlgorithm|algorithm)\.(algorithm|parameters)|(subjectPublicKey)(?:\{\d+\})*")
PRIVATE_KEY = re.compile(r"privateKey(?:\{\d+\})*")
SCHEME = "encryptionAlgorithm."


def modulus_words(contents):
    """The modulus of a key by its bits."""
    number = int.from_bytes(contents, "big", signed=True)
    if number < 0:
        return "modulus below 0"
    return f"{number.bit_length()} bits"


def exponent_words(contents):
    number = number_of(contents)
    return f"0x{first_octets(contents)}" if number is None else str(number)


class Key:
    """A key: what its algorithm names, and the contents of its `subjectPublicKey` or of the segments of that."""

    def __init__(self, octets):
        self.octets, self.names, self.algorithm, self.pieces, self.is_in_segments = octets, {}, b"", None, False
        # (the octets of privateKey)
        self.private = b""

    def take(self, field, element):
        """Takes an element of the fields algorithm, parameters and subjectPublicKey, or a segment of this."""
        contents = b"" if element.is_constructed else self.octets[element.begin : element.end]
        if field == "subjectPublicKey":
            self.is_in_segments |= element.is_constructed
            self.pieces = [*(self.pieces or []), *([] if element.is_constructed else [contents])]
        elif element.tag == IDENTIFIER.tag and not element.is_constructed:
            self.names[field] = value_words(identifier(contents))
            self.algorithm = contents if field == "algorithm" else self.algorithm

    def carries(self, limits):
        return None if self.pieces is None else carried_key(self.algorithm, self.pieces, *limits)

    def parts(self, limits):
        """The parts of its line."""
        yield from self.names.values()
        found = self.carries(limits)
        if found and found["verdict"] == "der":
            modulus, exponent = numbers_of(self.pieces)
            yield from (modulus_words(modulus), f"exponent {exponent_words(exponent)}")
        elif self.pieces is not None:
            yield "constructed" if self.is_in_segments else sized(len(self.pieces[0]) - 1)
            yield from [NO_VALUE[found["verdict"]]] if found else []

    def size(self, limits):
        """How many bits the modulus of a private key of RSA has, and the exponent, or None where that isn't short."""
        found = {}
        if self.private and self.algorithm == RSA_ENCRYPTION:
            walk = Walk(self.private, INSIDE[self.algorithm], *limits)
            while element := walk.next():
                found[element.path] = self.private[element.begin : element.end]
        number = int.from_bytes(found.get("modulus", b"\xff"), "big", signed=True)
        return None if number < 0 else (number.bit_length(), number_of(found["publicExponent"]))

    def size_words(self, limits):
        bits, exponent = self.size(limits) or (None, None)
        yield from [] if bits is None else [f"{bits} bits"]
        yield from [] if exponent is None else [f"exponent {exponent}"]

    def words(self, limits):
        return ", ".join([*self.parts(limits), *self.size_words(limits)])

    def object(self, limits):
        """Its object in JSON."""
        found, is_whole = self.carries(limits), self.pieces is not None and not self.is_in_segments
        members = self.names | ({"octets": len(self.pieces[0]) - 1} if is_whole else {})
        if found:
            members |= {"carries": found}
        if found and found["verdict"] == "der":
            modulus, exponent = numbers_of(self.pieces)
            members |= modulus_members(modulus) | {"exponent": exponent_words(exponent)}
        bits, exponent = self.size(limits) or (None, None)
        members |= {} if bits is None else {"bits": bits}
        return members | ({} if exponent is None else {"exponent": str(exponent)})


def modulus_members(contents):
    number = int.from_bytes(contents, "big", signed=True)
    return {} if number < 0 else {"bits": number.bit_length()}


class Held:
    """What an accepted document of kind key, public, ec or encrypted holds."""

    def __init__(self, kind, octets, depth, limit):
        self.kind, self.octets, self.limits = kind, octets, (depth, limit)
        # (the names and the numbers of an encryption, each with its key in JSON)
        self.key, self.curve, self.scheme = Key(octets), None, []
        walk = Walk(octets, TYPES[kind], depth, limit)
        while element := walk.next():
            self.take(element)

    def take(self, element):
        contents = b"" if element.is_constructed else self.octets[element.begin : element.end]
        is_identifier = element.tag == IDENTIFIER.tag and not element.is_constructed
        if self.kind == "ec":
            if is_identifier and element.path == "parameters":
                self.curve = value_words(identifier(contents))
        elif self.kind == "encrypted":
            if element.path.startswith(SCHEME) and is_identifier:
                self.scheme.append(("algorithms", value_words(identifier(contents))))
            elif element.path.startswith(SCHEME) and element.tag in (INTEGER.tag, ENUMERATED):
                number = number_of(contents)
                self.scheme += [] if number is None else [("numbers", str(number))]
        elif found := KEY_FIELD.fullmatch(element.path):
            self.key.take(found[1] or found[2], element)
        elif PRIVATE_KEY.fullmatch(element.path):
            self.key.private += contents

    def text(self):
        """The line under `holds`."""
        if self.kind == "ec":
            return f"  curve      {self.curve or 'not named'}\n"
        if self.kind == "encrypted":
            return f"  encrypted  {', '.join(said for _, said in self.scheme)}\n"
        return f"  key        {self.key.words(self.limits)}\n"

    def object(self):
        """The object `holds`."""
        if self.kind == "ec":
            return {"curve": self.curve} if self.curve else {}
        if self.kind == "encrypted":
            lists = {key: [said for of, said in self.scheme if of == key] for key in ("algorithms", "numbers")}
            return {"encryption": lists}
        return {"key": self.key.object(self.limits)}
