"""The parts of a mail, of a form or of a message of HTTP, by their headers (RFC 5322, RFC 2045, RFC 2046)."""
import binascii
import re
from typing import Dict, Iterator, List, NamedTuple, Optional, Tuple

from ._base64 import from_base64, without_blanks

HEADER = re.compile(rb"([!-9;-~]{1,64}):[ \t]*([^\r\n]*(?:\r?\n[ \t]+[^\r\n]*)*)\r?\n")
START = re.compile(rb"(?:(?:GET|POST|PUT|PATCH) [^\r\n]{1,4096} HTTP/[0-9.]+|HTTP/[0-9.]+ [0-9]{3}[^\r\n]{0,99}|"
                   rb"From [^\r\n]{1,256})\r?\n")
BLANK = re.compile(rb"\r?\n")
BOUNDARY = re.compile(rb"(?i)boundary=(?:\"([^\"\r\n]{1,70})\"|([^\s;\"]{1,70}))")
DELIMITER = re.compile(rb"(?m)^--([^\r\n]{1,90})\r?$")
MOST_HEADERS = 200
CLAIMING = (b"content-type", b"content-disposition")
TELLING = (b"content-type", b"content-transfer-encoding")
CLAIM = re.compile(rb"(?i)pkcs-?(?:8|10)|\bpem\b|x-pem-file|\.(?:csr|p10|req|pem|key|der|p8)\b")
PLAIN = (b"", b"7bit", b"8bit", b"binary")


class Part(NamedTuple):
    """A part: where its contents begin, how they came, and their octets; None where these can't be told."""

    at: int
    came: str
    octets: Optional[bytes]
    is_coded: bool
    # whether its headers say that there is a document in it
    is_claimed: bool


def headers_at(text: bytes, at: int) -> Tuple[Dict[bytes, bytes], int]:
    """The headers that begin at a place, and where what follows the blank line after them begins."""
    found: Dict[bytes, bytes] = {}
    start = START.match(text, at)
    at = start.end() if start else at
    header = HEADER.match(text, at)
    while header and len(found) < MOST_HEADERS:
        found.setdefault(header[1].lower(), header[2])
        at = header.end()
        header = HEADER.match(text, at)
    blank = BLANK.match(text, at)
    return (found, blank.end()) if blank else ({}, at)


def is_mail(text: bytes) -> bool:
    """Whether a text begins with headers that say what its contents are."""
    headers, _ = headers_at(text, 0)
    return any(it in headers for it in TELLING)


def bounds(text: bytes) -> List[Tuple[int, int]]:
    """Where each part begins and ends, its headers among it: at each delimiter of some boundary that the text names."""
    names = {it[1] or it[2] for it in BOUNDARY.finditer(text)}
    found, begin = [], 0
    for line in DELIMITER.finditer(text):
        name = line[1].rstrip(b" \t")
        if name in names or name.endswith(b"--") and name[:-2] in names:
            found.append((begin, line.start()))
            after = BLANK.match(text, line.end()) if text[line.end() : line.end() + 1] else None
            begin = after.end() if after else line.end()
    return [*found, (begin, len(text))]


def decoded(coding: bytes, octets: bytes) -> Optional[bytes]:
    """The octets that the contents of a part stand for; None where they can't be told."""
    if coding == b"base64":
        return from_base64(without_blanks(octets))
    if coding == b"quoted-printable":
        return binascii.a2b_qp(octets)
    return octets if coding in PLAIN else None


def parts_of(text: bytes) -> Iterator[Part]:
    """The parts of a mail that have contents, those of mails in it among them."""
    for begin, end in bounds(text):
        headers, at = headers_at(text, begin)
        while headers.get(b"content-type", b"").lower().startswith(b"message/rfc822") and at < end:
            headers, at = headers_at(text, at)
        if at >= end or not text[at:end].strip():
            continue
        # (the end of line before a delimiter belongs to that)
        contents = text[at:end] if end == len(text) else re.sub(rb"\r?\n\Z", b"", text[at:end])
        coding = headers.get(b"content-transfer-encoding", b"").strip().lower()
        came = {b"base64": "base64 of {}", b"quoted-printable": "{} in quoted-printable"}.get(coding, "{}")
        is_claimed = any(CLAIM.search(it) for name, it in headers.items() if name in CLAIMING)
        yield Part(at, f"{came} in a message", decoded(coding, contents), coding not in PLAIN, is_claimed)
