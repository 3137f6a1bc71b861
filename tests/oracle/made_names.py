#!/usr/bin/env python3
"""made_names.py FOLDER: writes the requests of tests/pkder/explained whose names have something to note, and those
beside them of which there is nothing; and a maker of random ones, whose names are on both sides of what is noted.

What each file shows is said in tests/pkder/explained/reports.txt."""
import sys
from pathlib import Path

TOP = sys.path[0] = str(Path(__file__).resolve().parents[2])
from tests.oracle.made_asking import (
    BMP_STRING, IA5_STRING, PRINTABLE_STRING, TELETEX_STRING, UNIVERSAL_STRING, UTF8_STRING, AskingMaker)
from tests.oracle.made_documents import CONTEXT, INTEGER, OBJECT_IDENTIFIER, OCTET_STRING, SEQUENCE, SET, TAG_0, Node
from tests.oracle.made_extensions import ValueMaker
from tests.oracle.reader import oid

COMMON, SERIAL, COUNTRY, LOCALITY, STATE, ORGANISATION, UNIT, TITLE = (
    f"2.5.4.{it}" for it in (3, 5, 6, 7, 8, 10, 11, 12))
EMAIL, DOMAIN, USER = "1.2.840.113549.1.9.1", "0.9.2342.19200300.100.1.25", "0.9.2342.19200300.100.1.1"
ALT_NAME = "2.5.29.17"
NOTED_TYPES = [COMMON, SERIAL, COUNTRY, LOCALITY, STATE, ORGANISATION, UNIT, TITLE, EMAIL, DOMAIN, USER, "1.2.3.4"]
OTHER_NAME, MAIL, DNS, DIRECTORY, URI, ADDRESS, IDENTIFIER = ((CONTEXT, it) for it in (0, 1, 2, 4, 6, 7, 8))
# Mailboxes, and what is none.
MAILS = [b"a@example.org", b'"a <b>"@example.org', b"a@b@example.org", b"a@[192.0.2.1]"]
NO_MAILS = [b"", b"a", b"@example.org", b"a@", b"a b@example.org", b"<a@example.org>", b"a@*.example.org",
            b"a@my_host.example.org", b"mailto:", b"A <a@example.org>"]
# URIs, and what is none.
URIS = [b"https://example.org/", b"urn:uuid:0", b"a:b", b"z39.50r+a-b:c"]
NO_URIS = [b"", b"www.example.org", b"//example.org/a", b"https:", b":a", b"1a:b", b"a b:c", b"a_b:c"]
# DNS names, and what is none or an address.
DNS_NAMES = [b"www.example.org", b"*.example.org", b"1.2.3", b"1.2.3.4.5", b"1.2.3.a", b"1234.1.1.1"]
OTHER_DNS_NAMES = [b"192.0.2.1", b"1.2.3.4", b"999.999.999.999", b"1.2.3.", b"1..2.3", b"*", b"a*.b", b"-a", b"a_b"]


def item(of_type, value, tag=UTF8_STRING):
    """An attribute of a name; a text is in the form of its type."""
    form = {UTF8_STRING: "utf-8", BMP_STRING: "utf-16-be", UNIVERSAL_STRING: "utf-32-be"}.get(tag, "latin-1")
    octets = value.encode(form) if isinstance(value, str) else value
    return Node(SEQUENCE, [Node(OBJECT_IDENTIFIER, oid(of_type)), Node(tag, octets)])


def name(*items):
    return Node(SEQUENCE, [Node(SET, [it]) for it in items])


def other_name(text):
    """An otherName, whose value has a type of its own, as one that Microsoft has: a name of a user."""
    value = Node(TAG_0, [Node(UTF8_STRING, text)])
    return Node(OTHER_NAME, [Node(OBJECT_IDENTIFIER, oid("1.3.6.1.4.1.311.20.2.3")), value])


def request(subject, *alternatives):
    """A request with this subject, and a subjectAltName of these names."""
    algorithm = Node(SEQUENCE, [Node(OBJECT_IDENTIFIER, oid("1.3.101.112"))])
    key = Node(SEQUENCE, [algorithm, Node((0, 3), b"\0" + bytes(range(32)))])
    names = element(Node(SEQUENCE, [*alternatives]))
    extension = Node(SEQUENCE, [Node(OBJECT_IDENTIFIER, oid(ALT_NAME)), Node(OCTET_STRING, names)])
    asked = Node(SEQUENCE, [Node(OBJECT_IDENTIFIER, oid("1.2.840.113549.1.9.14")),
                            Node(SET, [Node(SEQUENCE, [extension])])])
    info = Node(SEQUENCE, [Node(INTEGER, b"\0"), subject, key, Node(TAG_0, [asked] if alternatives else [])])
    return element(Node(SEQUENCE, [info, algorithm, Node((0, 3), bytes(65))]))


def element(node):
    """The DER text of a node (X.690 8.1), of a tag up to 30."""
    is_constructed = node.has_nodes()
    contents = b"".join(map(element, node.contents)) if is_constructed else node.contents
    size = len(contents).to_bytes((len(contents).bit_length() + 7) // 8, "big")
    length = bytes([len(contents)]) if len(contents) < 128 else bytes([128 + len(size)]) + size
    return bytes([node.tag[0] << 6 | is_constructed << 5 | node.tag[1]]) + length + contents


WWW = name(item(COMMON, "www.example.org"))


def alternatives(tag, *names):
    return request(WWW, *(Node(tag, it) for it in names))


def subject(*items):
    return request(name(*items))


def files():
    """Each file with its octets."""
    yield "country", subject(item(COUNTRY, "DE"), item(COUNTRY, "DEU", PRINTABLE_STRING),
                             item(COUNTRY, "", PRINTABLE_STRING))
    yield "country-sound", subject(item(COUNTRY, "DE", PRINTABLE_STRING))
    yield "name-long", subject(item(COMMON, "a" * 65), item(UNIT, "\u00fc" * 65, BMP_STRING),
                               item(STATE, "\u4e2d" * 129), item(SERIAL, "1" * 65, PRINTABLE_STRING),
                               item(EMAIL, "a@" + "b" * 254, IA5_STRING), item(TITLE, "t" * 65, UNIVERSAL_STRING))
    yield "name-long-sound", subject(
        item(COMMON, "a" * 64), item(UNIT, "\u00fc" * 64, BMP_STRING), item(STATE, "\u4e2d" * 128),
        item(ORGANISATION, "\u4e2d" * 64), item(LOCALITY, "a" * 128), item(SERIAL, "1" * 64, PRINTABLE_STRING),
        item(EMAIL, "a@" + "b" * 253, IA5_STRING), item(TITLE, "t" * 64, UNIVERSAL_STRING), item(USER, "u" * 300))
    yield "name-blank", subject(item(COMMON, ""), item(ORGANISATION, "   "), item(UNIT, "", BMP_STRING))
    yield "name-blank-sound", subject(item(COMMON, " a"), item(UNIT, "\u2020", BMP_STRING))
    yield "email-type", subject(item(EMAIL, "a@example.org"), item(EMAIL, "a@example.org", PRINTABLE_STRING))
    yield "email-type-sound", subject(item(EMAIL, "a@example.org", IA5_STRING))
    yield "name-type", subject(item(COMMON, "a", IA5_STRING), item(SERIAL, "1"), item(DOMAIN, "org"),
                               item(ORGANISATION, b"\1", INTEGER), item(TITLE, "t", (0, 26)))
    yield "name-type-sound", request(
        name(item(COMMON, "a", TELETEX_STRING), item(LOCALITY, "l", UNIVERSAL_STRING), item(STATE, "s", BMP_STRING),
             item(TITLE, "t", PRINTABLE_STRING), item(SERIAL, "1", PRINTABLE_STRING), item(DOMAIN, "org", IA5_STRING),
             item(USER, "u", IA5_STRING)),
        Node(DIRECTORY, [name(item(COMMON, "a"))]), other_name(b"a@example.org"))
    yield "mail-syntax", alternatives(MAIL, *NO_MAILS)
    yield "mail-syntax-sound", alternatives(MAIL, *MAILS)
    yield "uri-syntax", alternatives(URI, *NO_URIS)
    yield "uri-syntax-sound", alternatives(URI, *URIS)
    yield "ip-as-dns", alternatives(DNS, b"192.0.2.1", b"999.0.0.1")
    yield "ip-as-dns-sound", request(WWW, *(Node(DNS, it) for it in DNS_NAMES[2:]), Node(ADDRESS, b"\xc0\0\2\1"))
    names = [Node(DNS, b"a.example"), Node(ADDRESS, bytes(4)), Node(IDENTIFIER, oid("1.2.3"))]
    yield "san-twice", request(WWW, *names, *names, Node(DNS, b"*.a.example"), Node(DNS, b"a.example"))
    many = [Node(DNS, f"{it}.example".encode()) for it in range(32)]
    yield "san-twice-sound", request(WWW, Node(DNS, b"a.example"), *many, Node(DNS, b"a.example"),
                                     Node(MAIL, b"a@example.org"), Node(URI, b"a:b"), Node(DNS, b"A.example"))


class NamesInside(ValueMaker):
    """Makes values of subjectAltName."""

    def general_name(self):
        """A general name, of few so that one is there twice."""
        among = {MAIL: MAILS + NO_MAILS, URI: URIS + NO_URIS, DNS: DNS_NAMES + OTHER_DNS_NAMES}
        if self.random.random() < 0.3:
            return super().general_name()
        tag = self.one_of(*among)
        return self.string(self.one_of(*among[tag]), tag)

    def name_item(self):
        return near_item(self)

    def general_names(self):
        return self.members(self.general_name, self.one_of(3, 3, 3, 40))


class NamesMaker(AskingMaker):
    """Makes requests whose names are on both sides of what is noted."""

    def name_item(self):
        return near_item(self) if self.random.random() < 0.6 else super().name_item()

    def extension(self):
        if self.random.random() < 0.5:
            return super().extension()
        inside = NamesInside(self.random)
        octets = inside.laid_out(inside.general_names())
        return Node(SEQUENCE, [Node(OBJECT_IDENTIFIER, oid(ALT_NAME)), self.string(octets)])


def near_item(maker):
    """An attribute whose value is near a bound, or of a type near its own."""
    letter, count = maker.one_of("a", "\u00fc", " "), maker.one_of(0, 1, 2, 2, 3, 63, 64, 65, 127, 128, 129, 255, 256)
    tag = maker.one_of(UTF8_STRING, PRINTABLE_STRING, IA5_STRING, BMP_STRING, UNIVERSAL_STRING, TELETEX_STRING)
    found = item(maker.one_of(*NOTED_TYPES), letter * count, tag)
    found.contents[1].is_string = True
    return found


def main(folder):
    for title, octets in files():
        (Path(folder) / f"note-{title}.der").write_bytes(octets)


if __name__ == "__main__":
    sys.exit(main(*sys.argv[1:]) if len(sys.argv) == 2 else __doc__)
