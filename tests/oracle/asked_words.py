"""Words in which `pkder explain` says what elements of an accepted document have: characters, octets, identifiers and
numbers, by docs/formats.md, "What a request asks for" and "What a report tells", and RFC 4514.

Nothing is shared with the definitions and the code of pkder but the table of usual names."""
import unicodedata

from tests.oracle.parts import Part, arcs
from tools.pages.identifier_names import names_by_contents

UTF8_STRING, BMP_STRING = (0, 12), (0, 30)
# How many octets are shown, and of an INTEGER make a number.
MOST, MOST_OF_NUMBER = 32, 4


def identifier(contents):
    """An object identifier by its arcs, and its usual name where it has one."""
    name = names_by_contents().get(contents)
    return {"identifier": arcs(Part(6, b"", contents))} | ({"name": name} if name else {})


def number_of(contents):
    """The number that an INTEGER is by its contents (X.690 8.3), where it has up to four octets and isn't negative."""
    number = int.from_bytes(contents, "big", signed=True)
    return number if 0 < len(contents) <= MOST_OF_NUMBER and number >= 0 else None


def letter(character, special):
    """A character as it is shown."""
    if character in "\\" + special:
        return "\\" + character
    if character == " " or unicodedata.category(character)[0] in "LMNPS":
        return character
    number = ord(character)
    return f"\\u{{{number:04x}}}" if number < 1 << 16 else f"\\u{{{number:06x}}}"


def shown(characters, special=""):
    return "".join(letter(it, special) for it in characters)


def characters_of(tag, octets):
    """The characters of a string. A BMPString isn't sound where an octet is left over, or has half of a pair, since it
    has none beyond the basic plane (X.680 41.15); then each octet is a character, as of any other string."""
    if tag == UTF8_STRING:
        return octets.decode("utf-8")
    units = [int.from_bytes(octets[at : at + 2], "big") for at in range(0, len(octets), 2)]
    if tag == BMP_STRING and len(octets) % 2 == 0 and not any(0xD800 <= it < 0xE000 for it in units):
        return "".join(map(chr, units))
    return octets.decode("latin-1")


def first_octets(octets):
    return octets[:MOST].hex() + ".." * (len(octets) > MOST)


def address(octets):
    """An address, and a mask after it (RFC 5280 section 4.2.1.10)."""
    if len(octets) in (4, 8):
        return "/".join(".".join(map(str, octets[at : at + 4])) for at in range(0, len(octets), 4))
    if len(octets) == 16:
        return ":".join(octets[at : at + 2].hex() for at in range(0, 16, 2))
    return first_octets(octets)


def sized(count):
    return f"{count} octet" if count == 1 else f"{count} octets"


def value_words(value):
    """What JSON says of a value, in words."""
    (key, said), *_ = value.items()
    if key == "identifier":
        return value.get("name", said)
    if key == "octets":
        return first_octets(bytes.fromhex(value["hexadecimal"])) if "hexadecimal" in value else sized(said)
    return {"boolean": "TRUE" if said is True else "FALSE", "integer": str(said), "null": "NULL"}[key]
