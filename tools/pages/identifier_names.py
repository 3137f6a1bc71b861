#!/usr/bin/env python3
"""identifier_names.py: the names of object identifiers in crates/pkix_shapes, beside what openssl knows by them.

Of each row of the table: its contents are those of its arcs (X.690 8.19), and openssl makes these octets of its name,
or of the name that openssl has for it; no contents, no arcs and no name stand there twice. Where the machine has no
openssl the names aren't compared, and that is said; so is which of the names of LATER its openssl hasn't yet. Those
that begin with NOT_THERE aren't compared. Each difference has a line; the last line is 'identifiers: N passed, M
failed'."""
import functools
import re
import shutil
import subprocess
import sys
from concurrent.futures import ThreadPoolExecutor
from pathlib import Path

sys.path[0] = str(Path(__file__).resolve().parents[2])
from tools.gate.logic import text_of
from tools.gate.looks import counted

TABLE = "crates/pkix_shapes/src/identifiers.rt"
ROW = re.compile(r'\$make!\(\s*"([^"]+)",\s*"([0-9.]+)",\s*"((?:RFC|PKCS #|MS-WCCE)[^"]*)",\s*\[([^\]]*)\]')
# What openssl calls those that it has under other names.
OPENSSL = {
    "id-RSASSA-PSS": "RSASSA-PSS", "id-RSAES-OAEP": "RSAES-OAEP", "id-dsa": "dsaEncryption",
    "Ed25519": "ED25519", "Ed448": "ED448",
    "P-192": "prime192v1", "P-224": "secp224r1", "P-256": "prime256v1", "P-384": "secp384r1", "P-521": "secp521r1",
    "id-dsa-with-sha1": "dsaWithSHA1",
    "id-dsa-with-sha224": "dsa_with_SHA224", "id-dsa-with-sha256": "dsa_with_SHA256",
    "id-sha1": "SHA1", "id-sha224": "SHA224", "id-sha256": "SHA256", "id-sha384": "SHA384", "id-sha512": "SHA512",
    "id-mgf1": "MGF1", "id-hmacWithSHA1": "hmacWithSHA1", "id-hmacWithSHA224": "hmacWithSHA224",
    "id-hmacWithSHA256": "hmacWithSHA256", "id-hmacWithSHA384": "hmacWithSHA384", "id-hmacWithSHA512": "hmacWithSHA512",
    "id-PBES2": "PBES2", "id-PBKDF2": "PBKDF2", "aes128-CBC-PAD": "AES-128-CBC", "aes192-CBC-PAD": "AES-192-CBC",
    "aes256-CBC-PAD": "AES-256-CBC", "des-EDE3-CBC": "DES-EDE3-CBC",
    "pbeWithSHAAnd3-KeyTripleDES-CBC": "pbeWithSHA1And3-KeyTripleDES-CBC",
    "street": "streetAddress", "uid": "userId", "extensionRequest": "extReq", "localKeyId": "localKeyID",
    "extKeyUsage": "extendedKeyUsage", "cRLDistributionPoints": "crlDistributionPoints",
    "id-kp-serverAuth": "serverAuth", "id-kp-clientAuth": "clientAuth", "id-kp-codeSigning": "codeSigning",
    "id-kp-emailProtection": "emailProtection", "id-kp-timeStamping": "timeStamping",
    "id-kp-OCSPSigning": "OCSPSigning", "id-ad-ocsp": "OCSP", "id-ad-caIssuers": "caIssuers"}
# What OpenSSL has since 3.5 only, by how the names begin.
LATER = ("id-ml-dsa-", "id-alg-ml-kem-", "id-slh-dsa-")
# Of Microsoft's extensions OpenSSL 3.0 has no names.
NOT_THERE = "szOID_"


def contents_of(arcs):
    """The contents octets of an object identifier."""
    first, second, *others = map(int, arcs.split("."))
    found = []
    for number in (40 * first + second, *others):
        digits = [number % 128]
        while number >= 128:
            number //= 128
            digits.insert(0, number % 128 + 128)
        found += digits
    return bytes(found)


def by_openssl(name):
    """The contents octets that openssl makes of a name."""
    words = ["openssl", "asn1parse", "-genstr", f"OID:{OPENSSL.get(name, name)}", "-noout", "-out", "/dev/stdout"]
    made = subprocess.run(words, capture_output=True).stdout
    return made[2:] if made[:1] == b"\6" else made


def wrong(row, compared):
    """What is wrong with a row of the table, whose names are compared or not."""
    name, arcs, _, octets = row
    contents = bytes(int(it, 16) for it in octets.split(","))
    if contents != contents_of(arcs):
        yield f"{name}: the contents of {arcs} are {contents_of(arcs).hex(' ')}, and not {contents.hex(' ')}"
    if name in compared and contents != by_openssl(name):
        yield f"{name}: openssl has {by_openssl(name).hex(' ')}, and not {contents.hex(' ')}"


@functools.cache
def table():
    """The text of the table, and its rows."""
    text = text_of(TABLE)
    return text, ROW.findall(text)


@functools.cache
def names_by_contents():
    """The name of the contents octets that have one."""
    return {contents_of(row[1]): row[0] for row in table()[1]}


def looks():
    """Each look at a row, and at the whole table."""
    (text, rows), has_openssl = table(), shutil.which("openssl") is not None
    if not has_openssl:
        print("left out: no openssl (Debian: openssl), so the names aren't compared")
    names = [row[0] for row in rows if not row[0].startswith(NOT_THERE)]
    later = [it for it in names if it.startswith(LATER)]
    with ThreadPoolExecutor() as side_by_side:
        if has_openssl and not any(side_by_side.map(by_openssl, later)):
            print(f"not compared, since this openssl knows none of them: {', '.join(later)}")
            names = [it for it in names if it not in later]
        compared = {*names} if has_openssl else set()
        found = [*side_by_side.map(lambda row: [*wrong(row, compared)], rows)]
    yield from (("\n".join(said), not said) for said in found)
    for column in (0, 1, 3):
        given = [row[column] for row in rows]
        twice = sorted(it for it in {*given} if given.count(it) > 1)
        yield f"{TABLE} has twice: {', '.join(twice)}", not twice
    yield f"{TABLE} has rows that this doesn't read", text.count("$make!(") == len(rows)


if __name__ == "__main__":
    sys.exit(counted("identifiers", looks()))
