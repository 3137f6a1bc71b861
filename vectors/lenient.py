"""The independent reader (tests/oracle/reader.py) without what docs/formats.md marks as profile: it refuses what a
clause of a standard forbids, and nothing because this project chose so."""
import contextlib
from unittest import mock

from tests.oracle import reader
from tests.oracle.reader import (
    INTEGER, OCTET_STRING, SEQUENCE, SET, TAG_0, TAG_1, Fault, Fields, list_of, object_identifier, octet_string,
    open_value, version)

# No document here is so deep or long.
NO_LIMIT = 1 << 1100
DEPTH = 1 << 20
# The types that are left out: EXTERNAL, REAL, EMBEDDED PDV, RELATIVE-OID, TIME, CHARACTER STRING, and those of dates
# and further identifiers; all others that aren't read are reserved (X.680 8.4).
LEFT_OUT = (8, 9, 11, 13, 14, 29, *range(31, 37))


class Reader(reader.Reader):
    """Takes tag numbers of any size."""

    def high_number(self, place, around):
        number = first = 0
        for count in range(32):
            octet = self.header_octet(place, around)
            first, number = first or octet, number << 7 | octet & 127
            if octet < 0x80:
                break
        if first == 0x80 or number < 31:
            raise Fault(place, "BadTag")
        return number


def is_subidentifier(octets):
    return octets[0] != 0x80


def any_value(taken):
    """An open value, of those that are left out any contents."""

    def read(given, element):
        kind, number = element.tag
        if kind or number not in LEFT_OUT:
            return taken(given, element)
        if element.is_constructed:
            return b"".join(list_of(given, element, None, read))
        return given.contents(element)

    return read


def attribute(taken):
    """An attribute, in a private key one without values, too."""

    def read(given, element, is_of_request=False):
        if is_of_request:
            return taken(given, element, True)
        fields = Fields(given, element)
        text = object_identifier(given, fields.due(reader.OBJECT_IDENTIFIER))
        list_of(given, fields.due(SET), None, reader.open_value)
        fields.end()
        return text

    return read


def private_key(taken):
    """privateKey, with any curve inside; its octets as they came."""

    def read(given, element, algorithm):
        at = given.at
        try:
            taken(given, element, algorithm)
        except Fault as fault:
            if fault.reason != "Curve":
                raise
        given.at = at
        return octet_string(given, element)

    return read


def one_asymmetric_key(given, element):
    """OneAsymmetricKey with its extension marks (RFC 5958 section 2): further elements may stand at its end."""
    fields = Fields(given, element)
    number = version(given, fields.due(INTEGER), 0, 1)
    algorithm = reader.algorithm_identifier(given, fields.due(SEQUENCE))
    reader.private_key(given, fields.due(OCTET_STRING), algorithm)
    reader.attributes(given, fields.optional(TAG_0), reader.attribute)
    public = fields.optional(TAG_1) if number == 1 else None
    if public:
        reader.public_bits(given, public, algorithm)
    while further := fields.optional():
        if further.tag == TAG_1 and number == 0:
            raise Fault(further.place, "VersionRule")
        if further.tag in (TAG_0, TAG_1):
            raise Fault(further.place, "Extra")
        reader.open_value(given, further)
    if number == 1 and not public:
        raise Fault(element.place, "VersionRule")
    return b""


@contextlib.contextmanager
def with_octets_of_keys():
    """Has the reader write what a privateKey contains as it came: that it is DER, too, is asked by pkder alone."""
    with mock.patch.object(reader, "private_key", private_key(reader.private_key)):
        yield


@contextlib.contextmanager
def without_profile():
    """Has the reader take what a profile alone refuses."""
    kinds = reader.KINDS | {"key": one_asymmetric_key}
    found = {"Reader": Reader, "is_subidentifier": is_subidentifier, "open_value": any_value(open_value),
             "attribute": attribute(reader.attribute), "private_key": private_key(reader.private_key),
             "one_asymmetric_key": one_asymmetric_key, "KINDS": kinds}
    with mock.patch.multiple(reader, **found):
        yield
