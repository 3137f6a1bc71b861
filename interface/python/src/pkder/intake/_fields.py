"""Fields of texts that are read by their lines: YAML's plain, quoted, folded and block scalars, TOML, .env, LDIF. What
isn't base64 is passed over; PEM in a field is found as PEM."""
import re
from typing import Iterator, List, NamedTuple, Optional

# (what ends in = or == alone is the last line of base64)
FIELD = re.compile(rb"([ \t]*)(?:- +)*[\"']?([A-Za-z](?:[A-Za-z0-9_. -]{0,62}[A-Za-z0-9_.-])?)[\"']?[ \t]*"
                   rb"(?::{1,2}|:=|=>?(?!=?[ \t]*\Z))[ \t]*(.*)")
BLOCK = re.compile(rb"(?:[|>][-+0-9]*)?[ \t]*(?:#.*)?")
QUOTES = (b'"""', b"'''", b'"', b"'", b"`")
TOKEN = re.compile(rb"(?:data:[a-z0-9/.+-]{1,64};base64,)?[A-Za-z0-9+/_-]+={0,2}|={1,2}")
LINE = re.compile(rb"([^\r\n]*)(?:\r\n|\r|\n|\Z)")
LEAST = 24


class Field(NamedTuple):
    """A field: where its value begins, its name, and the value, in whose lines nothing but base64 stands."""

    at: int
    name: bytes
    value: bytes


class Open:
    """A value whose lines are read: where it begins, its name and its indentation, and the quote that ends it."""

    def __init__(self, at: int, name: bytes, indent: int, quote: bytes):
        self.at, self.name, self.indent, self.quote = at, name, indent, quote
        self.is_ended = False
        self.lines: List[bytes] = []

    def takes(self, line: bytes) -> bool:
        """Takes a line, or what stands of the value in its first one; answers whether that is base64."""
        text = line.strip()
        if self.quote:
            text, end, _ = text.partition(self.quote)
            self.is_ended = bool(end)
            text = text.rstrip(b"\\").strip()
        else:
            text = text.partition(b" #")[0].rstrip(b",; \t")
        if text and not TOKEN.fullmatch(text):
            return False
        self.lines.append(text)
        return True

    def goes_on(self, line: bytes) -> bool:
        """Whether a line belongs to the value: its quote hasn't ended, or it is indented more than the name."""
        if self.quote:
            return not self.is_ended
        bare = line.lstrip(b" \t")
        is_inside = len(line[: len(line) - len(bare)].expandtabs()) > self.indent
        return (is_inside or not bare) and not FIELD.fullmatch(line)

    def fields(self) -> Iterator[Field]:
        """The field, where its value is long enough to be a document."""
        value = b"".join(self.lines)
        if len(value) >= LEAST:
            yield Field(self.at, self.name, value)


def opened(line: bytes, begin: int) -> Optional[Open]:
    """The value that begins in a line which begins at a place."""
    # (most lines have neither, as those of PEM, and this is the faster way to see it)
    found = FIELD.fullmatch(line) if b":" in line or b"=" in line else None
    if found is None:
        return None
    at, rest, indent = begin + found.start(3), found[3].strip(), len(found[1].expandtabs())
    if BLOCK.fullmatch(rest):
        return Open(at, found[2], indent, b"")
    quote = next((it for it in QUOTES if rest.startswith(it)), b"")
    value = Open(at + len(quote), found[2], indent, quote)
    return value if value.takes(rest[len(quote) :]) else None


def fields_of(text: bytes) -> Iterator[Field]:
    """The fields of a text whose values may be base64, in one pass."""
    value: Optional[Open] = None
    # (one line after the other: a list of all of them would take many times the memory of the text)
    for found in LINE.finditer(text):
        line = found[1]
        if not (value and value.goes_on(line) and value.takes(line)):
            if value:
                yield from value.fields()
            value = opened(line, found.start())
    if value:
        yield from value.fields()
