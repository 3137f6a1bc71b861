"""Documents in what people and programs send: PEM, base64, hexadecimal, JSON and what else texts are made of.

    pkder.intake.find(octets)                   what is in it, a list of Found, each judged by libpkder
    pkder.intake.find(octets, Rules(one=True))  the same, with what else is asked of the input

The texts are read by this package, which isn't proved; libpkder judges the octets that are found, and its answer is
that of `pkder.check`. `pkder-intake` is the command over it."""
from ._found import Found
from ._intake import INPUT_OCTETS, Rules, find

__all__ = ["INPUT_OCTETS", "Found", "Rules", "find"]
