"""What may be a document in an input, whatever it came as: the ways through a text, in the order in which they are
tried. All of them together look at each octet a few times, as often as texts stand in texts."""
import dataclasses
import itertools
import re
from typing import Iterator, List, Optional

from . import _fields, _hexadecimal, _json, _mail, _markup, _others, _pem
from ._base64 import ALPHABET, from_base64url, from_either, without_blanks
from ._pieces import CLAIMS, Piece, claim_of
from ._texts import BLANKS, MOST_DEPTH, MOST_DRESSED, Text, text_of, zeros

# Shorter texts in other ones aren't looked at, and those below MANY alone that begin as documents do.
LEAST, MANY = 24, 200
BEGINS = re.compile(rb"[\s\"']{0,64}(?:M[A-P]|LS0t|30|0x|\\x|[xX]'|b[\"']|[{\[<]|eyJ|data:|[A-Za-z0-9_.-]{1,64}=)")
# An input has so many documents, at most.
MOST = 100_000
NOTHING, NO_DOCUMENT = "nothing in it", "no document in it"
DER = 0x30
BASE64 = ALPHABET + BLANKS
CONTROLS = bytes(it for it in range(32) if it not in b"\t\n\v\f\r\x1a\x1b")
DATA_URI = re.compile(rb"data:[a-z0-9/.+-]{1,64}(?:;[a-z0-9=.-]{1,64})*;base64,")
JWS = re.compile(rb"[A-Za-z0-9_-]{8,}\.([A-Za-z0-9_-]{24,})\.[A-Za-z0-9_-]*")
TOKEN = re.compile(rb"[^\s\"'<>]+")
DAMAGED = re.compile(rb"\s{0,9}(?:MI[A-P]|LS0tLS1CRUdJTi)[A-Za-z0-9+/_-]{32}")
STRING = re.compile(rb"\s{0,9}b?([\"'`])([^\"'`\\]+)\1\s{0,9}")
WORDS = re.compile(rb"[A-Za-z0-9+/=,.] +[A-Za-z0-9+/=]")
NEARLY = re.compile(rb"(?i)\bbegin[ \t]+((?:new[ \t]+)?certificate[ \t]+request|"
                    rb"(?:(?:ec|rsa|dsa|encrypted|openssh)[ \t]+)?private[ \t]+key|public[ \t]+key)\b")
BARE_LINES = re.compile(rb"(?m)^[> \t]{0,16}M[A-P][A-Za-z0-9+/]{38,74}[ \t]*\r?\n"
                        rb"[> \t]{0,16}[A-Za-z0-9+/]{4,76}=*[ \t]*\r?$")
ENCODED, PARTS = re.compile(rb"[%&?]"), re.compile(rb"[&?]")
VALUE = re.compile(rb"(?:([A-Za-z0-9_.-]{1,64})=)?(.*)", re.DOTALL)


def is_der(octets: bytes) -> bool:
    """Whether octets begin as a document does, and as no text does."""
    if octets[:1] != b"\x30" or len(octets) < 2 or zeros(octets) is not None:
        return False
    return octets[1] >= 0x80 or any(it in CONTROLS for it in octets[:64])


def pieces_of(octets: bytes) -> List[Piece]:
    """The pieces of an input, in the order of their places; at least one, which says that there is nothing."""
    is_blank = not octets.strip()
    found = [] if is_blank else [*itertools.islice(in_octets(Text(octets)), MOST + 1)]
    if not found:
        return [Piece(0, "text", why=NOTHING if is_blank else NO_DOCUMENT)]
    if len(found) > MOST:
        return [Piece(0, "text", why=f"more than {MOST} documents")]
    return sorted(found, key=lambda it: it.at)


def may_hold(text: Text) -> bool:
    """Whether a text may have a document in it, as far as a glance tells; of a whole input that isn't asked."""
    octets = text.octets
    if text.depth == 0 or len(octets) >= MANY:
        return text.depth <= MOST_DEPTH
    return len(octets) >= LEAST and (bool(BEGINS.match(octets)) or b"BEGIN" in octets) and text.depth <= MOST_DEPTH


def in_octets(text: Text) -> Iterator[Piece]:
    """The pieces of a whole input, or of a part of a message."""
    octets = text.octets
    word = _others.by_beginning(octets)
    if word:
        yield Piece(text.place(0), text.came_as("octets"), what=word)
        return
    if is_der(octets):
        yield Piece(text.place(0), text.came_as("octets"), octets)
        if b"-----BEGIN " not in octets:
            return
    inner = text_of(octets)
    if text.depth and inner.width > 1:
        yield from in_text(dataclasses.replace(text.decoded(inner.octets, inner.came), is_sent=True))
    else:
        yield from in_text(text if text.depth else inner)


def in_text(text: Text, name: Optional[bytes] = None) -> Iterator[Piece]:
    """The pieces of a text, which is the value of a field that has this name, or of none."""
    if not may_hold(text):
        return
    if _json.BEGINS.match(text.octets) and _json.is_sound(text.octets):
        yield from in_json(text)
    elif _mail.is_mail(text.octets):
        yield from in_mail(text)
    else:
        is_any = False
        for piece in in_plain(text, name):
            is_any = True
            yield piece
        if not is_any:
            yield from without_document(text, name)


def in_plain(text: Text, name: Optional[bytes]) -> Iterator[Piece]:
    """The pieces of a text that is neither JSON nor a mail."""
    is_any = False
    for block in _pem.blocks(text):
        is_any = True
        yield block
    whole = [] if is_any else [*as_whole(text, name)]
    yield from beside_blocks(text) if is_any else whole
    if whole:
        return
    if ENCODED.search(text.octets):
        yield from in_percent(text)
    for field in _fields.fields_of(text.octets):
        yield from in_value(text.decoded(field.value, "{}", field.at), field.name)
    if _markup.BEGINS.match(text.octets):
        for it in _markup.elements_of(text.octets):
            yield from in_value(text.decoded(it.text, "{}", it.at), it.name)
    for array in _hexadecimal.arrays(text.octets):
        is_long = len(array.octets) >= LEAST
        if is_long:
            yield Piece(text.place(array.at), text.came_as("hexadecimal"), array.octets, is_claimed=False)


def beside_blocks(text: Text) -> Iterator[Piece]:
    """The pieces that stand beside blocks of PEM, as a key that was put behind its request: a document in octets, JSON,
    base64 or hexadecimal that is one, and what else has private keys."""
    for begin, end in _pem.beside(text.octets):
        part = text.part(begin, end)
        bare = part.octets.lstrip(BLANKS)
        if not bare:
            continue
        at = end - len(bare)
        word = _others.by_beginning(bare) or _others.by_text(bare)
        if word and _others.OTHERS[word].is_private:
            yield Piece(text.place(at), text.came_as("text"), what=word)
        elif at and is_der(bare):
            # (what an input begins with is told of the whole input)
            yield Piece(text.place(at), text.came_as("octets"), bare)
        elif _json.BEGINS.match(bare) and _json.is_sound(bare):
            yield from in_json(part)
        else:
            yield from as_whole(part, None)


def in_value(text: Text, name: bytes) -> Iterator[Piece]:
    """The pieces of the value of a field that isn't PEM."""
    found = [*as_whole(text, name)]
    yield from found or without_document(text, name)


def without_document(text: Text, name: Optional[bytes]) -> Iterator[Piece]:
    """What a text is instead in which nothing was found: something that isn't ours, or base64 that is damaged."""
    word, claim = _others.by_text(text.octets), claim_of(name)
    if word:
        yield Piece(text.place(0), text.came_as("text"), what=word)
    elif (claim and DAMAGED.match(text.octets) or text.is_sent) and is_damaged(text.octets):
        kind = CLAIMS[claim] if claim else None
        yield Piece(text.place(0), text.came_as("base64"), why="not base64 to its last bit", kind=kind)
    elif text.is_sent:
        yield from nearly(text)


def nearly(text: Text) -> Iterator[Piece]:
    """What is nearly PEM or base64 in a text in which nothing was found: it is told, and not guessed at."""
    begin, lines = NEARLY.search(text.octets), BARE_LINES.search(text.octets)
    if begin:
        label = b" ".join(begin[1].upper().split()).decode("ascii")
        yield Piece(text.place(begin.start()), text.came_as("text"), label=label,
                    why="what is nearly a BEGIN line: -----BEGIN LABEL----- is due, in a line of its own")
    elif lines:
        yield Piece(text.place(lines.start()), text.came_as("text"),
                    why="base64 among other text, without BEGIN and END lines")


def in_json(text: Text) -> Iterator[Piece]:
    """The pieces of JSON: of its strings, of the payload of a JWS (RFC 7515), and keys that are objects."""
    for value in _json.values_of(text):
        if value.what:
            yield Piece(text.place(value.at), text.came_as("JSON"), what=value.what)
            continue
        octets = value.text or b""
        payload = from_base64url(octets) if value.name == b"payload" else None
        if payload and _json.BEGINS.match(payload):
            yield from in_text(text.decoded(payload, "{} in a JWS", value.at))
        else:
            yield from in_text(text.decoded(octets, "{} in JSON", value.at), value.name)


def in_mail(text: Text) -> Iterator[Piece]:
    """The pieces of a mail, part for part."""
    for part in _mail.parts_of(text.octets):
        if part.octets is None and part.is_claimed:
            yield Piece(text.place(part.at), text.came_as("a part of a message"),
                        why="a part that isn't coded as it says")
        elif part.octets is not None:
            inner = (text.decoded(part.octets, part.came, part.at) if part.is_coded
                     else text.part(part.at, part.at + len(part.octets), part.came))
            yield from in_octets(dataclasses.replace(inner, is_sent=True))


def in_percent(text: Text) -> Iterator[Piece]:
    """The pieces of what is percent-encoded, or of a form or a query: a whole text, or words that have a BEGIN line."""
    is_one = len(text.octets.split(None, 2)) == 1
    for token in TOKEN.finditer(text.octets):
        if not is_one and (b"%" not in token[0] or b"BEGIN" not in token[0]):
            continue
        at = token.start()
        for part in PARTS.split(token[0]):
            value = VALUE.fullmatch(part)
            if value and LEAST <= len(part) <= MOST_DRESSED:
                yield from in_encoded(text, at + value.start(2), value[2], value[1])
            at += len(part) + 1


def in_encoded(text: Text, at: int, value: bytes, name: Optional[bytes]) -> Iterator[Piece]:
    """The pieces of a percent-encoded value. Forms have + for a blank, and other readers keep it: where both find a
    document, and not the same octets, none is taken."""
    readings: List[List[Piece]] = []
    for it in (value.replace(b"+", b" "), value) if b"+" in value else (value,):
        octets = _pem.PERCENT.sub(lambda found: bytes([int(found[1], 16)]), it)
        if octets == text.octets:
            return
        came = "{}" if octets == value else "{}, percent-encoded"
        readings.append([*in_text(text.decoded(octets, came, at), name)])
    form, kept = readings[0], readings[-1]
    of_form, of_kept = ([it.octets for it in reading if it.octets] for reading in (form, kept))
    if of_form and of_kept and of_form != of_kept:
        yield Piece(text.place(at), text.came_as("percent-encoded"), why="a + that some readers take for a blank")
    else:
        yield from form if of_form or not of_kept else kept


def as_whole(text: Text, name: Optional[bytes]) -> Iterator[Piece]:
    """The piece that a whole text is: base64 or hexadecimal of a document, or base64 of a text that has some in it."""
    if not may_hold(text):
        return
    octets = text.octets
    at = text.place(len(octets) - len(octets.lstrip()))
    quoted = STRING.fullmatch(octets)
    octets = quoted[2] if quoted else octets
    uri = DATA_URI.match(octets)
    octets = octets[uri.end() :] if uri else octets
    claim = claim_of(name)
    kind = CLAIMS[claim] if claim else None
    jws = JWS.fullmatch(octets.strip()) if b"." in octets[:4096] else None
    if jws:
        payload = from_base64url(jws[1])
        if payload and _json.BEGINS.match(payload):
            yield from in_text(text.decoded(payload, "{} in a JWS"))
        return
    is_claimed = text.is_sent or claim is not None
    found, alphabet = from_either(octets)
    digits = _hexadecimal.whole(octets)
    # (a document in hexadecimal begins with 3, and one in base64 with M or, as PEM, with L: none is both)
    if digits and digits[0] == DER:
        yield Piece(at, text.came_as("hexadecimal"), digits, is_claimed=is_claimed, kind=kind)
    elif digits and b"BEGIN" in digits:
        yield from in_text(text.decoded(digits, "hexadecimal of {}"))
    elif found and found[0] == DER:
        yield Piece(at, text.came_as(alphabet), found, is_claimed=is_claimed, kind=kind)
    elif found:
        yield from in_base64(text, found)


def in_base64(text: Text, octets: bytes) -> Iterator[Piece]:
    """The pieces of a text in base64, or what isn't ours."""
    word = _others.by_beginning(octets)
    if word:
        yield Piece(text.place(0), text.came_as("base64"), what=word)
        return
    inner = text_of(octets)
    is_text = (b"BEGIN" in inner.octets or _json.BEGINS.match(inner.octets) or _others.by_text(inner.octets)
               or not inner.octets.translate(None, BASE64))
    if is_text:
        yield from in_text(text.decoded(inner.octets, f"base64 of {inner.came}"))


def is_damaged(text: bytes) -> bool:
    """Whether a text is what damaged base64 of a document looks like, or of PEM: one without words."""
    bare = without_blanks(text) if not WORDS.search(text) else b""
    is_begun = bare[:1] == b"M" or bare.startswith(b"LS0tLS1CRUdJTi")
    return is_begun and len(bare) > 4 and len(bare.translate(None, ALPHABET)) * 20 < len(bare)
