"""Files of what was judged, for the next program."""
import base64
import os
import re
from typing import NamedTuple, Optional

from .. import Kind, Part, normalise, signed
from ._found import PRIVATE_KINDS, Found
from ._inputs import words_of
from ._others import LABEL_OF
from ._shapes import element_at

OTHERS = re.compile(rb"[^A-Za-z0-9._-]")
SIGNED_AS_IT_CAME = "its signature may be over the octets that came"


class NotWritten(Exception):
    """Why a file isn't written."""


class Target(NamedTuple):
    """Where documents are written, and how: as PEM or DER, and whether as their DER encodings."""

    folder: str
    form: str = "pem"
    is_normalised: bool = False


def prepare(target: Target) -> None:
    """Makes the folder, where it isn't there, for its owner alone; raises OSError."""
    try:
        os.mkdir(target.folder, 0o700)
    except FileExistsError:
        if not os.path.isdir(target.folder):
            raise


def file_name(base: str, found: Found, form: str) -> str:
    """The name of the file of a document, from the path of its input below what was named."""
    plain = OTHERS.sub(b"_", os.fsencode(base)).decode("ascii")
    name = re.sub(r"\A\.", "_", plain) or "_"
    number = f".{found.document}" if found.document > 1 else ""
    kind = found.kind.name.lower() if found.kind else ""
    return f"{name}{number}.{kind}.{form}"


def is_info_in_der(octets: bytes) -> bool:
    """Whether what a request's signature covers stands in it as its DER encoding."""
    top = element_at(octets, 0)
    info = signed(Part.INFO, octets)
    return top is not None and octets[top.begin : top.begin + len(info)] == info


def note_of(target: Target, found: Found) -> Optional[str]:
    """What is to be said of a document that is written as its DER encoding."""
    if not target.is_normalised or found.kind != Kind.REQUEST or found.verdict != "not_der" or found.octets is None:
        return None
    return None if is_info_in_der(found.octets) else SIGNED_AS_IT_CAME


def pem(octets: bytes, label: str) -> bytes:
    """PEM as RFC 7468 has it generated."""
    text = base64.b64encode(octets).decode("ascii")
    lines = "".join(f"{text[at : at + 64]}\n" for at in range(0, len(text), 64))
    return f"-----BEGIN {label}-----\n{lines}-----END {label}-----\n".encode("ascii")


def put(folder: str, name: str, octets: bytes, is_private: bool) -> None:
    """Writes a file that is whole from the first moment on, and never in the place of another one."""
    new = os.path.join(folder, f".{os.urandom(8).hex()}.new")
    flags = os.O_WRONLY | os.O_CREAT | os.O_EXCL | os.O_CLOEXEC
    with open(os.open(new, flags, 0o600 if is_private else 0o666), "wb") as file:
        try:
            file.write(octets)
            file.flush()
            os.link(new, os.path.join(folder, name))
        finally:
            os.unlink(new)


def write(target: Target, base: str, found: Found) -> str:
    """Writes a document, and returns the file's name; NotWritten is raised where that isn't possible."""
    kind, octets = found.kind, found.octets
    assert kind is not None and octets is not None
    if target.is_normalised:
        octets = normalise(kind, octets, depth=found.depth, octets=found.limit)
    label = LABEL_OF.get(kind)
    form = target.form if label else "der"
    name = file_name(base, found, form)
    try:
        put(target.folder, name, pem(octets, label) if label and form == "pem" else octets, kind in PRIVATE_KINDS)
    except FileExistsError:
        raise NotWritten(f"{name} is there") from None
    except OSError as error:
        raise NotWritten(words_of(error)) from None
    return os.path.join(target.folder, name)
