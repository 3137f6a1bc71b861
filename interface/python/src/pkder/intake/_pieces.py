"""Pieces: what may be a document, and where and how it stands in the input."""
import dataclasses
import re
from typing import Optional

from .. import Kind

# The names of fields that say what is in them, without what stands between their words.
CLAIMS = {"csr": Kind.REQUEST, "request": Kind.REQUEST, "certificaterequest": Kind.REQUEST, "privatekey": Kind.KEY,
          "key": Kind.KEY, "tlskey": Kind.KEY, "pem": None}
BETWEEN = re.compile(rb"[-_. \"']")


@dataclasses.dataclass(frozen=True)
class Piece:
    """What may be a document: its octets, or why there are none, or the word for what it is instead."""

    at: int
    came_as: str
    octets: Optional[bytes] = dataclasses.field(default=None, repr=False)
    why: Optional[str] = None
    what: Optional[str] = None
    # of PEM, as it stands there
    label: Optional[str] = dataclasses.field(default=None, repr=False)
    # whether the place where it stands says that it is a document, and of which kind
    is_claimed: bool = True
    kind: Optional[Kind] = None


def claim_of(name: Optional[bytes]) -> Optional[str]:
    """The claim that the name of a field makes, if it makes one."""
    # (as Go's encoding/json compares names, which takes U+017F for s)
    plain = BETWEEN.sub(b"", name or b"")[:32].decode("utf-8", "replace").casefold()
    return plain if plain in CLAIMS else None
