#!/usr/bin/env python3
"""made_usages.py [FOLDER]: writes the documents of tests/pkder/explained on whose extensions, algorithms or subject
there is a note, and those beside them on which there is none. Keys and signatures are octets that mean nothing, but
that those of RSA have the form and the modulus of note-rsa-sound.der."""
import sys
from pathlib import Path

TOP = str(Path(__file__).resolve().parents[2])
sys.path[0] = TOP
from tests.oracle.reader import oid

FOLDER = f"{TOP}/tests/pkder/explained"
BOOLEAN, INTEGER, BIT_STRING, OCTET_STRING, NULL, IDENTIFIER, UTF8_STRING = 1, 2, 3, 4, 5, 6, 12
SEQUENCE, SET, TAG_0, DNS_NAME = 0x30, 0x31, 0xA0, 0x82
X25519, ED25519, ED448 = "1.3.101.110", "1.3.101.112", "1.3.101.113"
EC, P_256, ECDSA_SHA1, ECDSA_SHA256 = (f"1.2.840.10045.{it}" for it in ("2.1", "3.1.7", "4.1", "4.3.2"))
RSA, RSA_MD2, RSA_MD5, RSA_SHA1, RSA_SHA256, PSS = (f"1.2.840.113549.1.1.{it}" for it in (1, 2, 4, 5, 11, 10))
DSA, DSA_SHA1 = "1.2.840.10040.4.1", "1.2.840.10040.4.3"
ML_DSA_44, ML_DSA_65 = "2.16.840.1.101.3.4.3.17", "2.16.840.1.101.3.4.3.18"
EXTENSION_REQUEST, OLD_REQUEST = "1.2.840.113549.1.9.14", "1.3.6.1.4.1.311.2.1.14"
KEY_USAGE, ALT_NAME, CONSTRAINTS = "2.5.29.15", "2.5.29.17", "2.5.29.19"


def element(tag, *contents):
    """An element in DER (X.690 8.1, 10.1)."""
    octets = b"".join(contents)
    count = len(octets)
    size = b"" if count < 128 else count.to_bytes((count.bit_length() + 7) // 8, "big")
    return bytes([tag, 0x80 | len(size) if size else count]) + size + octets


def identifier(arcs):
    return element(IDENTIFIER, oid(arcs))


def algorithm(arcs, *parameters):
    return element(SEQUENCE, identifier(arcs), *parameters)


def bits(octets, unused=0):
    return element(BIT_STRING, bytes([unused]), octets)


NO_PARAMETERS = element(NULL)


def public_key(arcs, octets, *parameters):
    return element(SEQUENCE, algorithm(arcs, *parameters), bits(octets))


def rsa_octets():
    """The RSAPublicKey of note-rsa-sound.der, which is the last 270 octets of it."""
    return Path(f"{FOLDER}/note-rsa-sound.der").read_bytes()[-270:]


ED25519_KEY, ED448_KEY = public_key(ED25519, bytes(range(32))), public_key(ED448, bytes(range(57)))
EC_KEY = public_key(EC, b"\4" + bytes(range(64)), identifier(P_256))
X25519_KEY, ML_DSA_KEY = public_key(X25519, bytes(range(32))), public_key(ML_DSA_44, bytes(1312))
RSA_KEY = public_key(RSA, rsa_octets(), NO_PARAMETERS)
DSA_KEY = public_key(DSA, element(INTEGER, b"\5"))
COMMON_NAME = element(SEQUENCE, identifier("2.5.4.3"), element(UTF8_STRING, b"www.example.org"))
NAME = element(SEQUENCE, element(SET, COMMON_NAME))
EMPTY = element(SEQUENCE)


def extension(arcs, value):
    return element(SEQUENCE, identifier(arcs), element(OCTET_STRING, value))


def attribute(arcs, *extensions):
    return element(SEQUENCE, identifier(arcs), element(SET, element(SEQUENCE, *extensions)))


def usage(octets, unused):
    return extension(KEY_USAGE, bits(octets, unused))


def constraints(*fields):
    return extension(CONSTRAINTS, element(SEQUENCE, *fields))


CA_TRUE, PATH_0 = element(BOOLEAN, b"\xff"), element(INTEGER, b"\0")
NAMES = extension(ALT_NAME, element(SEQUENCE, element(DNS_NAME, b"www.example.org")))
ED25519_SIGNS = algorithm(ED25519)
SIGN_CERTIFICATES = usage(b"\4", 2)


def request(*extensions, subject=NAME, key=ED25519_KEY, signed=ED25519_SIGNS, asked=EXTENSION_REQUEST):
    """A request for these extensions."""
    attributes = [attribute(asked, *extensions)] * bool(extensions)
    info = element(SEQUENCE, element(INTEGER, b"\0"), subject, key, element(TAG_0, *attributes))
    return element(SEQUENCE, info, signed, bits(bytes(64)))


def request_without_attributes(*fields):
    """A request that has these fields in place of attributes."""
    info = element(SEQUENCE, element(INTEGER, b"\0"), NAME, ED25519_KEY, *fields)
    return element(SEQUENCE, info, ED25519_SIGNS, bits(bytes(64)))


def documents():
    """The octets of each document, by the name of its file."""
    return {
        "usage-none": request(usage(b"", 0)),
        "usage-zero": request(usage(b"\0", 0)),
        "usage-one": request(usage(b"\x80", 7)),
        "sign-without-ca": request(SIGN_CERTIFICATES, constraints()),
        "sign-alone": request(usage(b"\x06", 1)),
        "sign-with-ca": request(SIGN_CERTIFICATES, constraints(CA_TRUE, PATH_0)),
        "sign-hidden-ca": request(SIGN_CERTIFICATES, constraints(element(BOOLEAN, b"\1"))),
        "path-without-ca": request(constraints(PATH_0)),
        "sha1-rsa": request(key=RSA_KEY, signed=algorithm(RSA_SHA1, NO_PARAMETERS)),
        "sha1-ecdsa": request(key=EC_KEY, signed=algorithm(ECDSA_SHA1)),
        "sha1-dsa": request(key=DSA_KEY, signed=algorithm(DSA_SHA1)),
        "sha256-ecdsa": request(key=EC_KEY, signed=algorithm(ECDSA_SHA256)),
        "md5": request(key=RSA_KEY, signed=algorithm(RSA_MD5, NO_PARAMETERS)),
        "md2": request(key=RSA_KEY, signed=algorithm(RSA_MD2, NO_PARAMETERS)),
        "sha256-rsa": request(key=RSA_KEY, signed=algorithm(RSA_SHA256, NO_PARAMETERS)),
        "rsa-absent": public_key(RSA, rsa_octets()),
        "rsa-other": public_key(RSA, rsa_octets(), element(SEQUENCE)),
        "old-request": request(usage(b"\x80", 7), asked=OLD_REQUEST),
        "empty-subject": request(usage(b"\x80", 7), subject=EMPTY),
        "empty-with-names": request(NAMES, subject=EMPTY),
        "no-attributes": request_without_attributes(),
        "no-attributes-sound": request_without_attributes(element(TAG_0)),
        "another-rsa": request(key=EC_KEY, signed=algorithm(RSA_SHA256, NO_PARAMETERS)),
        "another-ecdsa": request(signed=algorithm(ECDSA_SHA256)),
        "another-ed448": request(key=ED448_KEY),
        "another-ml-dsa": request(key=ML_DSA_KEY, signed=algorithm(ML_DSA_65)),
        "same-pss": request(key=RSA_KEY, signed=algorithm(PSS)),
        "same-ml-dsa": request(key=ML_DSA_KEY, signed=algorithm(ML_DSA_44)),
        "agreeing-key": request(key=X25519_KEY, signed=algorithm(RSA_SHA256, NO_PARAMETERS)),
    }


def main():
    folder = sys.argv[1] if sys.argv[1:] else FOLDER
    for name, octets in documents().items():
        Path(f"{folder}/note-{name}.der").write_bytes(octets)


if __name__ == "__main__":
    main()
