"""Texts, an octet for each character, that know where in the input their characters stand."""
import array
import dataclasses
import sys
from typing import Optional

# What stands for a character that no octet is.
NO_OCTET = 0x1A
# As deep as texts may stand in texts: base64 of JSON in a string of JSON is three.
MOST_DEPTH = 8
# Longer texts are read only where no escapes are in them, which take many times their room while they are replaced.
MOST_DRESSED = 1 << 23
BLANKS = b" \t\v\f\r\n"


@dataclasses.dataclass(frozen=True)
class Text:
    """A text: its octets, the place of the first one in the input, how many octets of the input each stands for (none
    of a text that was decoded), how what is found in it came, with {} in the place of that, how many texts are around
    it, and whether it is all that was sent: an input, or a part of a message."""

    octets: bytes
    begin: int = 0
    width: int = 1
    came: str = "{}"
    depth: int = 0
    is_sent: bool = True

    def place(self, at: int) -> int:
        """The place in the input of the octet at this place in the text."""
        return self.begin + self.width * at

    def came_as(self, what: str) -> str:
        """How something in this text came."""
        came = self.came.replace("base64 of {}", "base64") if what == "octets" else self.came
        return came.format(what)

    def decoded(self, octets: bytes, came: str, at: int = 0) -> "Text":
        """A text that something at a place of this one stands for."""
        return Text(octets, self.place(at), 0, self.came_as(came), self.depth + 1, False)

    def part(self, begin: int, end: int, came: str = "{}") -> "Text":
        """The part of this text between two places."""
        return Text(self.octets[begin:end], self.place(begin), self.width, self.came_as(came), self.depth + 1, False)


def of_units(octets: bytes, begin: int, form: str, is_big: bool, name: str) -> Text:
    """The text of UTF-16 or UTF-32; what is no Latin-1 there is no octet of ours."""
    units = array.array(form)
    size = units.itemsize
    rest = (len(octets) - begin) % size
    units.frombytes(octets[begin : len(octets) - rest])
    if is_big != (sys.byteorder == "big"):
        units.byteswap()
    low = units.tobytes()[(size - 1 if sys.byteorder == "big" else 0) :: size]
    if max(units, default=0) > 0xFF:
        low = bytes(it if it <= 0xFF else NO_OCTET for it in units)
    return Text(low + bytes([NO_OCTET]) if rest else low, begin, size, f"{{}} in {name}")


class Lines:
    """The lines of an input, asked for by places that don't go back."""

    def __init__(self, octets: bytes):
        text = text_of(octets)
        self.octets, self.width = (text.octets, text.width) if text.width > 1 else (octets, 1)
        self.end = b"\n" if b"\n" in self.octets else b"\r"
        self.line, self.at = 1, 0

    def line_of(self, place: int) -> int:
        """The number of the line, from 1 on, in which a place of the input is."""
        at = max(place // self.width, self.at)
        self.line += self.octets.count(self.end, self.at, at)
        self.at = at
        return self.line


def zeros(octets: bytes) -> Optional[bool]:
    """Whether every second octet is 0, from the first one (big-endian) or the second one on; None where neither is."""
    head = octets[:64]
    if len(octets) < 4 or len(head) % 2:
        return None
    first, second = head[0::2], head[1::2]
    if not any(second) and all(first):
        return False
    return True if not any(first) and all(second) else None


def text_of(octets: bytes) -> Text:
    """The text that octets are, by their byte order mark or by every second octet being 0."""
    if octets.startswith((b"\xff\xfe\0\0", b"\0\0\xfe\xff")):
        return of_units(octets, 4, "I", octets[0] == 0, "UTF-32")
    if octets.startswith((b"\xff\xfe", b"\xfe\xff")):
        return of_units(octets, 2, "H", octets[0] == 0xFE, "UTF-16")
    if octets.startswith(b"\xef\xbb\xbf"):
        return Text(octets[3:], 3)
    is_big = zeros(octets)
    return Text(octets) if is_big is None else of_units(octets, 0, "H", is_big, "UTF-16")
