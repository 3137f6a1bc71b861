"""The contents of elements of XML and HTML, as far as a document may be in them."""
import html
import re
from typing import Iterator, NamedTuple

from ._texts import MOST_DRESSED

BEGINS = re.compile(rb"[ \t\r\n]*<[A-Za-z!?]")
ELEMENT = re.compile(rb"<([A-Za-z_][A-Za-z0-9_.:-]{0,99})(?=[\s/>])[^<>]*>(?:<!\[CDATA\[)?([^<>]{24,})")


class Element(NamedTuple):
    """An element: where its contents begin, its name without a prefix, and its contents."""

    at: int
    name: bytes
    text: bytes


def elements_of(text: bytes) -> Iterator[Element]:
    """The elements of a text that have characters in them, references in these replaced."""
    for found in ELEMENT.finditer(text):
        if len(found[2]) > MOST_DRESSED:
            continue
        contents = found[2].removesuffix(b"]]").decode("latin-1")
        plain = html.unescape(contents).encode("latin-1", "replace")
        yield Element(found.start(2), found[1].rpartition(b":")[2], plain)
