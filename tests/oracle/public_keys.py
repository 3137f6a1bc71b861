"""What `subjectPublicKey` of a public key carries, under the algorithms whose keys are values of ASN.1: a value of the
key's type, in DER or in another encoding, or none, and by which fault.

It is written from RFC 8017 appendix A.1.1, RFC 3279 section 2.3.1, RFC 4055 section 1.2 and X.690 section 8.6 alone;
elements are read by tests/oracle/reader.py, by the types of tests/oracle/extensions.py. Nothing is shared with the
definitions and the code of pkder."""
from tests.oracle.extensions import NUMBER, judged, of
from tests.oracle.parts import parts
from tests.oracle.reader import DEPTH, OCTETS, RSA_ENCRYPTION

# modulus, publicExponent
RSA_PUBLIC_KEY = of(NUMBER, NUMBER)
RSASSA_PSS = bytes.fromhex("2a864886f70d01010a")
TYPES = {RSA_ENCRYPTION: RSA_PUBLIC_KEY, RSASSA_PSS: RSA_PUBLIC_KEY}


def held(pieces):
    """The octets that a BIT STRING holds, by its contents, or by those of its segments: all but the first of these,
    which says how many bits are unused. Where there are such the bits of that piece are no octets."""
    return b"".join(it[1:] for it in pieces if it[:1] == b"\0")


def carried_key(algorithm, pieces, depth=DEPTH, limit=OCTETS):
    """What these pieces of `subjectPublicKey` are, as `carries` says it in JSON, by the contents of the identifier of
    the algorithm; None where keys of it aren't looked into."""
    type_ = TYPES.get(algorithm)
    return type_ and judged(type_, held(pieces), depth, limit)


def numbers_of(pieces):
    """The contents of the modulus and of the exponent of a key that is in DER."""
    return [it.contents for it in parts(parts(held(pieces))[0].contents)]
