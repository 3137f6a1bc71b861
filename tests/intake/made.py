"""What the tests of intake share: documents of examples/, what pkder says of them by examples/answers.tsv, and PEM and
base64 of them by Python's own module."""
import base64
import functools
import os
from pathlib import Path

TOP = str(Path(__file__).resolve().parents[2])
SENT = f"{TOP}/tests/intake/sent"
# A document in DER of each kind, and the label that RFC 7468 and RFC 5915 have for it.
KINDS = {"request": ("request-p256", "CERTIFICATE REQUEST"), "key": ("p256", "PRIVATE KEY"),
         "ec": ("k256-sec1", "EC PRIVATE KEY"), "public": ("public-p256", "PUBLIC KEY"),
         "encrypted": ("encrypted", "ENCRYPTED PRIVATE KEY"), "package": ("package", None)}
# Documents that aren't in DER, or are refused, with the line that examples/answers.tsv has for them.
OTHERS = {"request-indefinite": ("request", 1, "not DER at 1"),
          "request-version-1": ("request", 2, "fault at 5: Version"),
          "request-followed": ("request", 2, "fault at 148: Trailing"),
          "long-lengths": ("key", 1, "not DER at 1"), "cut-short": ("key", 2, "fault at 20: Truncated"),
          "inner-trailing": ("key", 2, "fault at 12: Inner inside at 34: Trailing")}
CERTIFICATE = bytes.fromhex("300d300ba003020102020101300000")


@functools.cache
def octets_of(name):
    """The octets of a file of examples/."""
    with open(f"{TOP}/examples/{name}.der", "rb") as file:
        return file.read()


def pem_of(octets, label="CERTIFICATE REQUEST"):
    """PEM as RFC 7468 has it generated."""
    text = base64.b64encode(octets).decode()
    lines = "".join(f"{text[at:at + 64]}\n" for at in range(0, len(text), 64))
    return f"-----BEGIN {label}-----\n{lines}-----END {label}-----\n".encode()


def url_of(octets):
    """Base64url without padding (RFC 7515 section 2)."""
    return base64.urlsafe_b64encode(octets).rstrip(b"=")


def sent(name):
    """The octets of a file as some program sends it."""
    with open(os.path.join(SENT, name), "rb") as file:
        return file.read()
