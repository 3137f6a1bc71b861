"""pyca/cryptography, by the calls that load DER (run.py says what a driver answers)."""
import json
import sys

import cryptography
from cryptography import x509
from cryptography.hazmat.backends.openssl import backend
from cryptography.hazmat.primitives.serialization import (
    Encoding, NoEncryption, PrivateFormat, PublicFormat, load_der_private_key, load_der_public_key)


def private(form, password=None):
    """A private key, written as a document of its kind."""
    return lambda octets: load_der_private_key(octets, password).private_bytes(Encoding.DER, form, NoEncryption())


def encrypted(octets):
    load_der_private_key(octets, b"pkder")
    return b""


KINDS = {
    "key": private(PrivateFormat.PKCS8),
    "ec": private(PrivateFormat.TraditionalOpenSSL),
    "request": lambda octets: x509.load_der_x509_csr(octets).public_bytes(Encoding.DER),
    "public": lambda octets: load_der_public_key(octets).public_bytes(Encoding.DER, PublicFormat.SubjectPublicKeyInfo),
    "encrypted": encrypted,
}
version = f"{cryptography.__version__}, {' '.join(backend.openssl_version_text().split()[:2])}"
print(json.dumps({"name": "pyca/cryptography", "version": version, "kinds": [*KINDS],
                  "call": "load_der_private_key, load_der_public_key, load_der_x509_csr"}), flush=True)
for line in sys.stdin:
    kind, document = line.split()
    try:
        print("+" + KINDS[kind](bytes.fromhex(document.strip("-"))).hex(), flush=True)
    except Exception:
        print("-", flush=True)
