"""pyasn1 with the types of pyasn1_modules, by the decoder of DER, or, asked for `ber`, by that of BER (run.py says what
a driver answers)."""
import json
import sys

import pyasn1
from pyasn1.codec.ber import decoder as of_ber
from pyasn1.codec.der import decoder as of_der
from pyasn1.codec.der import encoder
from pyasn1_modules import rfc2986, rfc5280, rfc5915, rfc5958

TYPES = {"key": rfc5958.OneAsymmetricKey, "ec": rfc5915.ECPrivateKey, "request": rfc2986.CertificationRequest,
         "public": rfc5280.SubjectPublicKeyInfo, "encrypted": rfc5958.EncryptedPrivateKeyInfo,
         "package": rfc5958.AsymmetricKeyPackage}
IS_BER = sys.argv[1:] == ["ber"]


def written(kind, octets):
    """The document as it is written anew; what follows it isn't taken."""
    found, rest = (of_ber if IS_BER else of_der).decode(octets, asn1Spec=TYPES[kind]())
    if rest:
        raise ValueError("octets follow")
    return encoder.encode(found)


name = "pyasn1, its decoder of " + ("BER" if IS_BER else "DER")
print(json.dumps({"name": name, "version": pyasn1.__version__, "call": "decoder.decode, encoder.encode of DER",
                  "kinds": [*TYPES], "inside": False}), flush=True)
for line in sys.stdin:
    kind, document = line.split()
    try:
        print("+" + written(kind, bytes.fromhex(document.strip("-"))).hex(), flush=True)
    except Exception:
        print("-", flush=True)
