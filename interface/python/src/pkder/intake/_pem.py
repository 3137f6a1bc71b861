"""Blocks of PEM (RFC 7468 section 3, lax), in whatever dress they stand: indented, quoted, behind a comment mark, in
strings of a program, with ends of lines written out, in markup, in quoted-printable. Each octet is looked at a few
times at most, however many BEGIN lines there are."""
import binascii
import html
import re
from typing import Callable, Iterator, List, Match, NamedTuple, Optional, Tuple

from ._base64 import ALPHABET, from_base64, without_blanks
from ._others import known_label, nearly_known
from ._pieces import Piece
from ._texts import MOST_DRESSED, Text

MARK = re.compile(rb"-----(BEGIN|END) ([^\r\n]{0,64}?)-----")
JOINED = re.compile(rb"-----END [^\r\n-]{0,64}-----\Z")
# As much before a mark as is looked at.
BEFORE = 80
IN_LINE = b" \t\v\f"
LINE_END = re.compile(rb"\r\n|\r|\n")
# What may stand before a boundary in its line: marks of quotes and comments, or the beginning of a value.
MARKS = re.compile(rb"[>#;*|%!/(){}<. \t\v\f\xa0\xc2\xef\xbb\xbf-]+")
OPENERS = (b'"', b"'", b"`", b">", b":", b"=", b",", b"(", b"[", b"{", b"|", b";", b"&", b"\\n", b"\\r", b"\\t")
# Where a string of a program ends and the next one begins.
JOINT = re.compile(rb"[\"'`][ \t]*[+.,\\&]?[ \t]*(?:\r\n|\r|\n)[ \t]*[+.,&]?[ \t]*[A-Za-z]{0,2}[\"'`]")
ESCAPE = re.compile(rb"\\+(?:[nrt]|u00([0-9A-Fa-f]{2})|x([0-9A-Fa-f]{2})|(/)|(?:\r\n|\r|\n))")
PERCENT = re.compile(rb"%([0-9A-Fa-f]{2})")
TAG = re.compile(rb"<[^<>]*>")
QUOTED = re.compile(rb"=(?:3D|0D|0A|20|2B|2F)")
ENCRYPTED = re.compile(rb"\s{0,8}Proc-Type:")
HEADER = re.compile(rb"\s{0,8}[A-Za-z][A-Za-z0-9-]{0,40}: ")
NESTED, NO_END = "a block begins in another one", "a block without its END line"
BLANK_LINE = re.compile(rb"(?:\r\n|\r(?!\n)|\n)[ \t\v\f]*(?=[\r\n])")
NO_BEGIN, OTHER_END = "an END line without its BEGIN line", "an END line of another label"


class Cut(Exception):
    """A block with one blank line among the others: OpenSSL's PEM_read_bio takes what stands before it for headers, and
    other readers don't."""


class Body(NamedTuple):
    """What stands between BEGIN and END, and the mark that stands before BEGIN in its line."""

    text: bytes
    mark: bytes


def before(octets: bytes, at: int) -> bytes:
    """What stands before a place in its line, its last octets."""
    begin = max(at - BEFORE, 0)
    line = max(octets.rfind(b"\n", begin, at), octets.rfind(b"\r", begin, at)) + 1
    return octets[max(line, begin) : at]


def is_joined(octets: bytes, mark: Match[bytes]) -> bool:
    """Whether END and BEGIN stand in one line, as where files without an end of line were put behind one another."""
    if mark[1] == b"END":
        return octets.startswith(b"-----BEGIN ", mark.end())
    return bool(JOINED.search(octets, max(mark.start() - BEFORE, 0), mark.start()))


def is_boundary(octets: bytes, mark: Match[bytes], begun: Optional[Match[bytes]]) -> bool:
    """Whether a mark is a boundary, and not one that prose speaks of: what stands beside it in its line decides, unless
    it ends the block that is begun."""
    after = octets[mark.end() : mark.end() + 1]
    if is_joined(octets, mark):
        return True
    if octets[mark.start() - 1 : mark.start()] == b"-" or after == b"-":
        return False
    if mark[1] == b"END" and after and after in ALPHABET:
        return False
    if mark[1] == b"END" and begun and begun[2] == mark[2]:
        return True
    found = before(octets, mark.start()).rstrip(IN_LINE)
    return not found or bool(MARKS.fullmatch(found)) or found.endswith(OPENERS)


def mark_before(octets: bytes, at: int) -> bytes:
    """The mark of a quote or of a comment before the block that begins at a place; of /* the lines after it have *."""
    found = before(octets, at).strip(IN_LINE)
    if not MARKS.fullmatch(found):
        return b""
    return b"*" if b"*" in found else found.replace(b"\xef\xbb\xbf", b"").strip(IN_LINE)


def undressed(lines: List[bytes], mark: bytes) -> Optional[List[bytes]]:
    """The lines without the mark, which all have or none, that of END among them; None where some have."""
    bare = [it.strip(IN_LINE) for it in lines]
    with_mark = [it.startswith(mark) for it in bare if it] + [bare[-1].startswith(mark)]
    if not mark or not any(with_mark):
        return bare
    return [it[len(mark) :].strip(IN_LINE) for it in bare] if all(with_mark) else None


def uncut(octets: Optional[bytes], lines: List[bytes]) -> Optional[bytes]:
    """The octets of a block of these lines; Cut is raised where one of them is blank, and isn't the first or the last
    one. (OpenSSL refuses a block with two, so there is nothing else that it reads.)"""
    blank = [at for at, it in enumerate(lines) if not it.strip(IN_LINE)] if octets else []
    if len(blank) == 1 and 0 < blank[0] < len(lines) - 1:
        raise Cut
    return octets


def plain(body: Body) -> Optional[bytes]:
    """The octets of a block whose boundaries have lines of their own, or stand in one line with blanks for ends."""
    end = LINE_END.search(body.text)
    if not end:
        is_apart = body.text[:1] in (b" ", b"\t") and body.text[-1:] in (b" ", b"\t")
        return from_base64(without_blanks(body.text)) if is_apart else None
    if body.text[: end.start()].strip(IN_LINE):
        return None
    if not body.mark:
        is_apart = body.text.rstrip(IN_LINE)[-1:] in (b"\r", b"\n")
        octets = from_base64(without_blanks(body.text)) if is_apart else None
        return uncut(octets, LINE_END.split(body.text)[1:-1]) if BLANK_LINE.search(body.text) else octets
    found = undressed(LINE_END.split(body.text[end.end() :]), body.mark)
    if found is None or found[-1]:
        return None
    return uncut(from_base64(b"".join(found).translate(None, IN_LINE)), found[:-1])


def unescaped(found: Match[bytes]) -> bytes:
    """What an escape stands for: ends of lines for \\n, \\r, \\t and a backslash at the end of its line."""
    if found[3]:
        return b"/"
    return bytes([int(found[1] or found[2], 16)]) if found[1] or found[2] else b"\n"


def of_strings(body: Body) -> Optional[bytes]:
    """The octets of a block in strings of a program, or with its ends of lines written out."""
    if b"\\" not in body.text and not JOINT.search(body.text):
        return None
    joined = JOINT.sub(b"\n", body.text.replace(b"\r\n", b"\n").replace(b"\r", b"\n"))
    return plain(Body(ESCAPE.sub(unescaped, joined), body.mark))


def of_percent(body: Body) -> Optional[bytes]:
    """The octets of a block that is percent-encoded but for its boundaries."""
    if b"%" not in body.text:
        return None
    return plain(Body(PERCENT.sub(lambda it: bytes([int(it[1], 16)]), body.text), body.mark))


def of_quoted(body: Body) -> Optional[bytes]:
    """The octets of a block in quoted-printable (RFC 2045 section 6.7), of which some escape tells."""
    return plain(Body(binascii.a2b_qp(body.text), body.mark)) if QUOTED.search(body.text) else None


def of_markup(body: Body) -> Optional[bytes]:
    """The octets of a block in HTML or XML, whose tags end lines."""
    if b"<" not in body.text and b"&" not in body.text:
        return None
    text = html.unescape(TAG.sub(b"\n", body.text).decode("latin-1")).replace("\xa0", " ")
    return plain(Body(text.encode("latin-1", "replace"), body.mark))


WAYS: List[Callable[[Body], Optional[bytes]]] = [plain, of_strings, of_quoted, of_percent, of_markup]


def octets_of(body: Body) -> Optional[bytes]:
    """The octets of a block, by the first way that gives some."""
    ways = WAYS if len(body.text) <= MOST_DRESSED else WAYS[:1]
    return next((octets for way in ways if (octets := way(body))), None)


def why_not(text: bytes) -> str:
    """Why a block has no octets."""
    if HEADER.match(text):
        return "headers in a block"
    bare = without_blanks(text)
    if not bare:
        return "an empty block"
    if not LINE_END.search(text):
        return "a block in one line"
    is_of_alphabet = not bare.translate(None, ALPHABET)
    return "not base64 to its last bit" if is_of_alphabet else "not base64: another character in a block"


def block(text: Text, begin: Match[bytes], end: int) -> Piece:
    """The piece between two boundaries of one label."""
    label, at = begin[2].decode("latin-1"), text.place(begin.start())
    body = Body(text.octets[begin.end() : end], mark_before(text.octets, begin.start()))
    came_as = text.came_as("PEM")
    if ENCRYPTED.match(body.text):
        return Piece(at, came_as, what="old_encrypted", label=label)
    meant = None if known_label(label) else nearly_known(label)
    if meant:
        return Piece(at, came_as, why=f"a label that isn't written {meant}", label=meant)
    try:
        octets = octets_of(body)
    except Cut:
        return Piece(at, came_as, why="a blank line in a block", label=label)
    return Piece(at, came_as, octets, None if octets else why_not(body.text), label=label)


def beside(octets: bytes) -> Iterator[Tuple[int, int]]:
    """Where what stands before, between and behind blocks begins and ends."""
    at = 0
    while at >= 0:
        begin = octets.find(b"-----BEGIN ", at)
        yield at, begin if begin >= 0 else len(octets)
        mark = octets.find(b"-----END ", begin) if begin >= 0 else -1
        end = octets.find(b"-----", mark + 9) if mark >= 0 else -1
        at = end + 5 if end >= 0 else -1


def fault(text: Text, mark: Match[bytes], why: str) -> Piece:
    """What is wrong with the boundary that stands there."""
    return Piece(text.place(mark.start()), text.came_as("PEM"), why=why, label=mark[2].decode("latin-1"))


def blocks(text: Text) -> Iterator[Piece]:
    """The blocks of a text, each judged by itself; where boundaries don't go together that is told once."""
    begun: Optional[Match[bytes]] = None
    is_nested = is_told = False
    for mark in MARK.finditer(text.octets):
        if not is_boundary(text.octets, mark, begun):
            continue
        if mark[1] == b"BEGIN":
            is_nested, begun = begun is not None, begun or mark
            continue
        if begun is None:
            if not is_told:
                yield fault(text, mark, NO_BEGIN)
            is_told = True
            continue
        if is_nested or begun[2] != mark[2]:
            yield fault(text, begun, NESTED if is_nested else OTHER_END)
        else:
            yield block(text, begun, mark.start())
        begun, is_nested, is_told = None, False, is_nested
    if begun is not None:
        yield fault(text, begun, NESTED if is_nested else NO_END)
