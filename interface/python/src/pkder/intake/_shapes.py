"""What octets look like by the tags of their first elements: a guess, which decides what is asked first and what is
said of octets that no kind accepts, and never a verdict."""
from typing import List, NamedTuple, Optional

INTEGER, BITS, OCTETS, OID, UTC_TIME, TIME, IA5, SEQUENCE, TAG_0 = b"\x02\x03\x04\x06\x17\x18\x16\x30\xa0"
MOST = 10
# (contents of object identifiers: 1.2.840.113549.1.7, and 2.23.133.10.1)
PKCS_7, TPM = b"\x2a\x86\x48\x86\xf7\x0d\x01\x07", b"\x67\x81\x05\x0a\x01"


class Element(NamedTuple):
    """An element by its identifier octet and the places of its contents; without an end its length is indefinite."""

    tag: int
    begin: int
    end: Optional[int]


def element_at(octets: bytes, at: int) -> Optional[Element]:
    """The element whose header begins at a place, where there is a usual one."""
    if at + 2 > len(octets):
        return None
    tag, length = octets[at], octets[at + 1]
    begin = at + 2
    if length == 0x80:
        return Element(tag, begin, None)
    if length > 0x80:
        begin += length - 0x80
        if begin > len(octets):
            return None
        length = int.from_bytes(octets[at + 2 : begin], "big")
    return Element(tag, begin, begin + length)


def elements_in(octets: bytes, around: Optional[Element]) -> List[Element]:
    """The first elements in the contents of another one, as far as they can be told apart."""
    found: List[Element] = []
    at = around.begin if around else len(octets)
    while around and len(found) < MOST and (around.end is None or at < around.end):
        element = element_at(octets, at)
        if element is None or element.tag == 0:
            break
        found.append(element)
        if element.end is None:
            break
        at = element.end
    return found


def tags_of(elements: List[Element]) -> bytes:
    """The identifier octets of elements."""
    return bytes(it.tag for it in elements)


def contents_of(octets: bytes, element: Element) -> bytes:
    """The contents of an element that has a definite length."""
    return octets[element.begin : element.end]


def shape_of(octets: bytes) -> Optional[str]:
    """The word for what octets look like: a kind, or what isn't ours; None where nothing is known that begins so."""
    top = element_at(octets, 0)
    if top is None or top.tag != SEQUENCE:
        return None
    first = elements_in(octets, top)
    begins = {INTEGER: of_number, OID: of_identifier, SEQUENCE: of_sequence}
    return begins[first[0].tag](octets, first) if first and first[0].tag in begins else None


def of_number(octets: bytes, first: List[Element]) -> Optional[str]:
    """Of a SEQUENCE that begins with an INTEGER."""
    tags = tags_of(first)
    if tags.startswith(bytes([INTEGER, SEQUENCE, OCTETS])):
        return "key"
    if tags.startswith(bytes([INTEGER, OCTETS])):
        return "ec"
    if tags.startswith(bytes([INTEGER] * 9)):
        return "rsa_private_key"
    if tags == bytes([INTEGER] * 6):
        return "dsa_private_key"
    if tags == bytes([INTEGER] * 2):
        # (an ECDSA signature is two numbers, too, of one size)
        return "rsa_public_key" if len(contents_of(octets, first[0])) > 4 * len(contents_of(octets, first[1])) else None
    if tags.startswith(bytes([INTEGER, SEQUENCE])):
        is_third = contents_of(octets, first[0]) == b"\3"
        return "pkcs12" if is_third and tags_of(elements_in(octets, first[1]))[:1] == bytes([OID]) else "key"
    return None


def of_identifier(octets: bytes, first: List[Element]) -> Optional[str]:
    """Of a SEQUENCE that begins with an OBJECT IDENTIFIER."""
    name = contents_of(octets, first[0])
    if name.startswith(PKCS_7):
        return "pkcs7"
    return "tss2_private_key" if name.startswith(TPM) else None


def of_sequence(octets: bytes, first: List[Element]) -> Optional[str]:
    """Of a SEQUENCE that begins with another one."""
    inner = elements_in(octets, first[0])
    tags, around = tags_of(inner), tags_of(first)
    if tags[:1] == bytes([OID]):
        return {BITS: "public", OCTETS: "encrypted"}.get(around[1]) if len(around) > 1 else None
    if tags[:1] == bytes([TAG_0]):
        return "certificate"
    if tags[:2] == bytes([INTEGER, SEQUENCE]):
        is_algorithm = tags_of(elements_in(octets, inner[1]))[:1] == bytes([OID])
        return numbered(tags) if is_algorithm else "request"
    if tags[:2] == bytes([SEQUENCE, IA5]):
        return "spkac"
    if tags[:2] == bytes([SEQUENCE, OCTETS]):
        # (what is encrypted, and how its integrity is checked)
        is_store = around[:2] == bytes([SEQUENCE] * 2) and tags_of(elements_in(octets, inner[0]))[:1] == bytes([OID])
        return "bcfks" if is_store else None
    is_dated = len(tags) > 2 and tags[2] in (UTC_TIME, TIME)
    return "crl" if tags[:2] == bytes([SEQUENCE] * 2) and is_dated else None


def numbered(tags: bytes) -> Optional[str]:
    """Of a number and an algorithm in a SEQUENCE: what follows them decides."""
    if tags[2:3] == bytes([OCTETS]):
        return "package"
    if tags[2:3] == bytes([SEQUENCE]):
        return "crl" if len(tags) > 3 and tags[3] in (UTC_TIME, TIME) else "certificate"
    return None
