"""Whether keys and signatures in an accepted document are real ones, so that a reader which looks at their values has
nothing against them: those of examples/ and of vectors/keys.py, which tools made, and those that are computed."""
import functools
import glob
from pathlib import Path

from tests.oracle import reader
from tests.oracle.parts import parts, with_first
from tests.oracle.reader import EC_PUBLIC_KEY, KINDS, RFC_8410, oid
from vectors import ed25519, keys

TOP = str(Path(__file__).resolve().parents[1])
X25519, X448, ED25519 = (oid(f"1.3.101.{it}") for it in (110, 111, 112))
PRIMITIVE_TAG_1, TAG_0, TAG_1 = 0x81, 0xA0, 0xA1


def algorithm_of(element):
    """The identifier of an algorithm, and its parameters."""
    identifier, *parameters = parts(element.contents)
    return identifier.contents, parameters[0].octets if parameters else b""


def of_public(identifier, parameters, bits):
    """A public key, unless any octets are one."""
    if identifier not in (X25519, X448):
        yield "public", identifier, parameters, bits


def of_ec(text, curve):
    """A private key with its public one, and the curve that is named outside or inside."""
    _, key, *others = parts(text.contents)
    named, public = with_first(others, TAG_0), with_first(others, TAG_1)
    curve = named.contents if named else curve
    yield "private", curve, key.contents
    if public:
        yield "pair", curve, key.contents, parts(public.contents)[0].contents


def of_key(text):
    _, algorithm, key, *others = parts(text.contents)
    identifier, parameters = algorithm_of(algorithm)
    public = with_first(others, PRIMITIVE_TAG_1)
    if identifier == EC_PUBLIC_KEY:
        yield from of_ec(parts(key.contents)[0], parameters)
    elif identifier not in RFC_8410:
        yield "private", identifier, key.contents
    elif public:
        yield "pair", identifier, parts(key.contents)[0].contents, public.contents
    if public:
        yield from of_public(identifier, parameters, public.contents)


def of_spki(text):
    algorithm, bits = parts(text.contents)
    yield from of_public(*algorithm_of(algorithm), bits.contents)


def material(kind, text):
    """The keys of a document that not all octets are."""
    top = parts(text)[0]
    if kind == "encrypted":
        yield "encrypted", text
    elif kind == "package":
        for it in parts(top.contents):
            yield from of_key(it)
    elif kind == "request":
        yield from of_spki(parts(parts(top.contents)[0].contents)[2])
    else:
        yield from {"key": of_key, "public": of_spki, "ec": lambda it: of_ec(it, b"")}[kind](top)


def documents():
    """The documents of examples/ and of the keys here, each as the kinds that accept it."""
    # (the password of keytool's isn't told)
    for path in sorted({*glob.glob(f"{TOP}/examples/*.der")} - {f"{TOP}/examples/encrypted-keytool.der"}):
        with open(path, "rb") as it:
            yield it.read()
    # (those of RSA are short, which many readers refuse)
    yield from (octets for name, octets in keys.DOCUMENTS.items() if "rsa" not in name)


@functools.cache
def known():
    """The keys that are real, and the requests that are signed."""
    found = set()
    for octets in documents():
        for kind in KINDS:
            status, text, _ = reader.answer("normalise", kind, octets)
            if status == 0:
                found |= {*material(kind, text)}
                found |= {text} if kind == "request" else set()
    return found


def is_known(key):
    if key in known():
        return True
    if key[0] == "public" and key[1] == ED25519:
        return ed25519.decoded(key[3][1:]) is not None
    if key[:2] == ("pair", ED25519):
        return key[3] == b"\0" + ed25519.public_key(key[2])
    # (of which no curve is named any octets are a key)
    return key[0] == "private" and not key[1]


def is_signed(text):
    """Whether the signature of a request holds, as far as that is known."""
    info, algorithm, signature = parts(parts(text)[0].contents)
    _, _, key, *_ = parts(info.contents)
    name, bits = parts(key.contents)
    if algorithm_of(name)[0] != ED25519 or algorithm_of(algorithm)[0] != ED25519:
        return text in known()
    return signature.contents[:1] == b"\0" and is_signed_by(bits.contents[1:], info.octets, signature.contents[1:])


@functools.cache
def is_signed_by(key, message, signature):
    return ed25519.is_signed(key, message, signature)


def lacks(kind, text):
    """The flags of a document whose values aren't real ones."""
    found = [] if all(map(is_known, material(kind, text))) else ["values"]
    if kind == "request" and not is_signed(text):
        found.append("signature")
    return found
