"""Octets written as hexadecimal: digits with colons and blanks, after 0x or \\x, in an array of C, in dumps of xxd,
hexdump and od."""
import re
from typing import Iterator, List, NamedTuple, Optional

from ._texts import MOST_DRESSED

# What begins so may be hexadecimal: digits, 0x, \x, or a string of these.
BEGINS = re.compile(rb"[ \t\r\n]{0,64}(?:b?[\"'])?(?:0[xX]|\\x|[xX]'|h')?[0-9A-Fa-f]{2}")
WHOLE = re.compile(rb"(?:0[xX]|\\x|([xX]'|h'))?([0-9A-Fa-f \t\r\n:;,.-]+)(')?")
EACH = re.compile(rb"(?:0[xX][0-9A-Fa-f]{2}[ \t\r\n:;,]*)+")
ESCAPED = re.compile(rb"(?:b?[\"'])?(?:\\x[0-9A-Fa-f]{2}|[\"'][ \t]*\\?[ \t\r\n]*b?[\"']|[ \t\r\n])+[\"']?;?")
OCTET = re.compile(rb"[xX]([0-9A-Fa-f]{2})")
ARRAY = re.compile(rb"\{((?:[ \t\r\n,]|0[xX][0-9A-Fa-f]{1,2}[uU]?)+)\}")
NUMBER = re.compile(rb"0[xX]([0-9A-Fa-f]{1,2})")
PAIR = rb"[0-9A-Fa-f]{2}"
# (what xxd shows as characters stands behind two blanks, and hexdump's between bars or behind three)
XXD = re.compile(rb"[ \t]*([0-9A-Fa-f]{4,16}):[ \t]((?:" + PAIR + rb"){1,16}(?: (?:" + PAIR + rb"){1,16})*)(?:  .*)?")
HEXDUMP = re.compile(rb"[ \t]*([0-9A-Fa-f]{4,16})[ \t]+(" + PAIR + rb"(?:  ?" + PAIR + rb")*)(?:[ \t]+\|.*| {3,}.*)?")
LAST = re.compile(rb"[ \t]*([0-9A-Fa-f]{4,16})")
BETWEEN = b" \t\r\n:;,.-"


class Octets(NamedTuple):
    """Octets, and the place in the text where they begin."""

    at: int
    octets: bytes


def is_at(digits: bytes, base: int, size: int) -> bool:
    """Whether digits in this base say so many octets."""
    try:
        return int(digits, base) == size
    except ValueError:
        return False


def of_dump(text: bytes) -> Optional[bytes]:
    """The octets of a dump, whose lines say right where each begins, in hexadecimal or as od does in octal."""
    first = text.lstrip(b"\r\n")[:256].splitlines()
    if not first or not (XXD.fullmatch(first[0].rstrip()) or HEXDUMP.fullmatch(first[0].rstrip())):
        return None
    lines = [it.rstrip() for it in text.splitlines() if it.strip()]
    found: List[bytes] = []
    size, bases = 0, [8, 16]
    for number, line in enumerate(lines):
        row = XXD.fullmatch(line) or HEXDUMP.fullmatch(line)
        end = LAST.fullmatch(line) if not row and number + 1 == len(lines) else None
        place = row or end
        bases = [it for it in bases if place and is_at(place[1], it, size)]
        if not place or not bases:
            return None
        octets = bytes.fromhex(row[2].decode("ascii")) if row else b""
        found.append(octets)
        size += len(octets)
    return b"".join(found)


def from_digits(digits: bytes) -> Optional[bytes]:
    """The octets of digits alone."""
    try:
        return bytes.fromhex(digits.decode("ascii"))
    except ValueError:
        return None


def of_digits(text: bytes) -> Optional[bytes]:
    """The octets of digits with what may stand between them."""
    found = text.strip()
    whole = WHOLE.fullmatch(found)
    if whole:
        return from_digits(whole[2].translate(None, BETWEEN)) if bool(whole[1]) == bool(whole[3]) else None
    if len(found) <= MOST_DRESSED and (EACH.fullmatch(found) or ESCAPED.fullmatch(found)):
        return from_digits(b"".join(OCTET.findall(found)))
    return None


def whole(text: bytes) -> Optional[bytes]:
    """The octets that a whole text stands for, at least one."""
    if not BEGINS.match(text):
        return None
    return of_dump(text) or of_digits(text) or None


def arrays(text: bytes) -> Iterator[Octets]:
    """The arrays of octets in a text, as xxd -i writes them."""
    for found in ARRAY.finditer(text):
        if len(found[1]) <= MOST_DRESSED:
            digits = (it.rjust(2, b"0") for it in NUMBER.findall(found[1]))
            yield Octets(found.start(), bytes.fromhex(b"".join(digits).decode("ascii")))
