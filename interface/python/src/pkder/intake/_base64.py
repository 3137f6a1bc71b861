"""Base64 and base64url (RFC 4648) as they are read here: whole, padded rightly, without unused bits that aren't 0."""
import binascii
import re
from typing import Optional, Tuple

from ._texts import BLANKS

URL = re.compile(rb"[A-Za-z0-9_-]+={0,2}")
TO_STANDARD = bytes.maketrans(b"-_", b"+/")
# (what base64 may be made of, to tell damaged base64 from what never was any)
ALPHABET = b"ABCDEFGHIJKLMNOPQRSTUVWXYZabcdefghijklmnopqrstuvwxyz0123456789+/-_="


def from_base64(text: bytes) -> Optional[bytes]:
    """The octets of base64 without blanks; None where it isn't whole."""
    if not text or len(text) % 4:
        return None
    try:
        octets = binascii.a2b_base64(text)
    except ValueError:
        return None
    # (this also refuses all that the function above passes over)
    return octets if octets and binascii.b2a_base64(octets, newline=False) == text else None


def from_base64url(text: bytes) -> Optional[bytes]:
    """The octets of base64url, padded or not (RFC 7515 section 2)."""
    if not URL.fullmatch(text) or b"=" in text and len(text) % 4:
        return None
    return from_base64(text.translate(TO_STANDARD) + b"=" * (-len(text) % 4))


def without_blanks(text: bytes) -> bytes:
    """The text without blanks and ends of lines."""
    return text.translate(None, BLANKS)


def from_either(text: bytes) -> Tuple[Optional[bytes], str]:
    """The octets of a text in either alphabet, blanks left out, and the alphabet's name."""
    bare = without_blanks(text)
    octets = from_base64(bare)
    return (octets, "base64") if octets else (from_base64url(bare), "base64url")
