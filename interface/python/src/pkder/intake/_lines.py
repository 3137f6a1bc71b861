"""What is said of an input: lines of text, or objects of JSON, one a line, as docs/intake.schema.json states them."""
import hashlib
import json
import os
import re
import unicodedata
from typing import Any, Dict, Optional

from ._found import PRIVATE_KINDS, Found

ESCAPES = {"\t": "\\t", "\r": "\\r", "\n": "\\n", "'": "\\'", '"': '\\"', "\\": "\\\\"}
PLAIN = re.compile("[ -~]")
# (most names are such ones, which look like themselves)
UNQUOTED = re.compile(r"[ !#-\[\]-~]+")


def escaped(character: str, form: str) -> str:
    """A character as quoted names have it; the form is for what isn't printable ASCII."""
    if character in ESCAPES or PLAIN.fullmatch(character):
        return ESCAPES.get(character, character)
    return form.format(ord(character))


def of_octets(name: bytes) -> str:
    """A name that isn't UTF-8, in quotes and escaped."""
    return '"' + "".join(escaped(chr(it), "\\x{:02x}") for it in name) + '"'


def shown_name(name: str) -> str:
    """A name as lines say it and as the program pkder does: in quotes and escaped where it is empty, isn't UTF-8 or has
    a control character, " or a backslash."""
    if UNQUOTED.fullmatch(name):
        return name
    try:
        text = os.fsencode(name).decode("utf-8")
    except UnicodeDecodeError:
        return of_octets(os.fsencode(name))
    if text and not any(it in '"\\' or unicodedata.category(it) == "Cc" for it in text):
        return text
    return '"' + "".join(escaped(it, "\\u{{{:x}}}") for it in text) + '"'


def json_name(name: str) -> str:
    """A name as JSON has it, which escapes by itself."""
    try:
        return os.fsencode(name).decode("utf-8")
    except UnicodeDecodeError:
        return of_octets(os.fsencode(name))


def line_of(name: str, found: Found, is_several: bool, brief: bool) -> str:
    """The line of a document, or of an input without one."""
    shown = shown_name(name)
    if found.verdict == "none":
        return f"{shown}: {found.why}"
    number = f"[{found.document}]" if is_several else ""
    came_as = f"{found.came_as}, {found.label}" if found.label else found.came_as
    words = [f"{shown}{number}", came_as, found.name, found.said]
    answer = found.brief if brief else None
    return ": ".join([*words, answer] if answer else words)


def is_summed(found: Found) -> bool:
    """Whether the sum of its octets is told: of what is known to be no private key."""
    return found.octets is not None and found.kind is not None and found.kind not in PRIVATE_KINDS and (
        not found.is_private)


def object_of(name: str, found: Found, written: Optional[str]) -> Dict[str, Any]:
    """The object of a document, or of an input without one."""
    if found.verdict == "none":
        return {"file": json_name(name), "status": found.status, "verdict": "none", "why": found.why}
    inside = {"at": found.inside[0], "reason": found.inside[1]} if found.inside else None
    octets = found.octets or b""
    told = {
        "file": json_name(name), "document": found.document, "at": {"line": found.line, "octet": found.at},
        "came_as": found.came_as, "label": found.label, "kind": found.kind.name.lower() if found.kind else None,
        "what": found.what, "status": found.status, "verdict": found.verdict, "place": found.place,
        "reason": found.reason, "inside": inside, "field": found.field or None, "why": found.why, "do": found.do,
        "note": found.note, "with_private_key": found.with_private_key or None, "brief": found.brief,
        "sha256": hashlib.sha256(octets).hexdigest() if is_summed(found) else None,
        "written": json_name(written) if written else None,
    }
    return {key: it for key, it in told.items() if it is not None}


def error_line(name: str, why: str) -> str:
    """The line of an input that can't be read."""
    return f"{shown_name(name)}: {why}"


def error_object(name: str, status: int, why: str) -> Dict[str, Any]:
    """The object of an input that can't be read."""
    return {"file": json_name(name), "status": status, "error": why}


def json_line(told: Dict[str, Any]) -> str:
    """An object in one line, letters as they are."""
    return json.dumps(told, ensure_ascii=False)
