"""The strings of JSON (RFC 8259), each with the name of the member that it is of, in one pass."""
import json
import re
from typing import Iterator, List, NamedTuple, Optional

from ._texts import Text

STRING = rb'"[^"\\]*(?:\\.[^"\\]*)*"'
TOKEN = re.compile(rb"(?s)[ \t\r\n]*(?:(" + STRING + rb")|([{}\[\],:])|(?:-?[0-9][0-9.eE+-]*|true|false|null)|\Z)")
ALONE = re.compile(rb"(?s)[ \t\r\n]*" + STRING + rb"[ \t\r\n]*")
BEGINS = re.compile(rb"[ \t\r\n]*[{\[\"]")
MOST_DEPTH = 32
# Shorter ones are no document, as text or base64 of it.
LEAST = 24
PRIVATE_MEMBERS = (b"d", b"k")


class Value(NamedTuple):
    """A string or, where what is a word, an object that is known by its members: where it stands, and its name."""

    at: int
    name: bytes
    text: Optional[bytes] = None
    what: Optional[str] = None


class Level:
    """An object or array that is open: where it begins, the name of the member that is read, and all names."""

    def __init__(self, at: int, name: bytes, is_object: bool):
        self.at, self.name, self.is_object = at, name, is_object
        self.is_jwk = self.is_private = False

    def take_name(self, name: bytes) -> None:
        """Takes the name of a member."""
        self.name = name
        self.is_jwk = self.is_jwk or name == b"kty"
        self.is_private = self.is_private or name in PRIVATE_MEMBERS


def characters(token: bytes) -> Optional[bytes]:
    """The characters of a string between its quotes, in UTF-8; None where it is no string of JSON."""
    if b"\\" not in token:
        return token[1:-1]
    try:
        found: str = json.loads(token.decode("utf-8", "surrogateescape"), strict=False)
    except ValueError:
        return None
    return found.encode("utf-8", "replace")


def is_sound(octets: bytes) -> bool:
    """Whether a text is one string of JSON, or is made of its tokens alone, which begin and end and don't stand too
    deep; several values may follow one another."""
    if octets.lstrip()[:1] == b'"':
        return bool(ALONE.fullmatch(octets)) and characters(octets.strip()) is not None
    at, depth = 0, 0
    while at < len(octets):
        token = TOKEN.match(octets, at)
        if token is None:
            return False
        depth += {b"{": 1, b"[": 1, b"}": -1, b"]": -1}.get(token[2] or b"", 0)
        if not 0 <= depth <= MOST_DEPTH:
            return False
        at = token.end()
    return depth == 0


def values_of(text: Text) -> Iterator[Value]:
    """The strings of a sound text, and the keys that are written as objects (JWK, RFC 7517)."""
    octets, at = text.octets, 0
    levels: List[Level] = [Level(0, b"", False)]
    ahead: Optional[re.Match[bytes]] = None
    while at < len(octets):
        token = TOKEN.match(octets, at)
        if token is None:
            return
        at, sign = token.end(), token[2]
        if token[1]:
            ahead = token
        elif sign == b":" and ahead:
            levels[-1].take_name((characters(ahead[1]) or b"") if len(ahead[1]) < 99 else b"")
            ahead = None
        elif ahead and sign in (b",", b"}", b"]"):
            yield from value_of(ahead, levels[-1].name)
            ahead = None
        if sign in (b"{", b"["):
            levels.append(Level(at - 1, levels[-1].name, sign == b"{"))
        elif sign in (b"}", b"]") and len(levels) > 1:
            closed = levels.pop()
            if closed.is_jwk:
                yield Value(closed.at, closed.name, what="jwk_private" if closed.is_private else "jwk")
    if ahead:
        yield from value_of(ahead, b"")


def value_of(token: "re.Match[bytes]", name: bytes) -> Iterator[Value]:
    """The value that a string is, where it may hold a document."""
    if len(token[1]) >= LEAST:
        found = characters(token[1])
        if found:
            yield Value(token.start(1) + 1, name, found)
