"""asn1crypto, by `load` of its types, all of whose values are looked at (run.py says what a driver answers)."""
import json
import sys

from asn1crypto import csr, keys, version

TYPES = {"key": keys.PrivateKeyInfo, "ec": keys.ECPrivateKey, "request": csr.CertificationRequest,
         "public": keys.PublicKeyInfo, "encrypted": keys.EncryptedPrivateKeyInfo}


def written(kind, octets):
    """The document as it is written anew."""
    found = TYPES[kind].load(octets, strict=True)
    # (what isn't looked at isn't read)
    found.native
    return found.dump(force=True)


print(json.dumps({"name": "asn1crypto", "version": version.__version__, "call": "load(strict=True), native, dump",
                  "kinds": [*TYPES]}), flush=True)
for line in sys.stdin:
    kind, document = line.split()
    try:
        print("+" + written(kind, bytes.fromhex(document.strip("-"))).hex(), flush=True)
    except Exception:
        print("-", flush=True)
