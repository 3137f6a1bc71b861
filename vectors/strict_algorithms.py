"""What a standard forbids of an algorithm and of a key that goes with it, though it is taken: where an identifier may
stand, the parameters that it has, and what its keys are."""
from tests.oracle.parts import parts, with_first
from tests.oracle.public_keys import carried_key
from tests.oracle.reader import EC_PUBLIC_KEY, RFC_8410, RSA_ENCRYPTION, oid

IDENTIFIER, OCTETS, INTEGER, SEQUENCE, TAG_0, TAG_1 = 6, 4, 2, 0x30, 0xA0, 0xA1
NULL = b"\5\0"
ED25519, ED448, PSS, PBES2, PBKDF2 = map(oid, (
    "1.3.101.112", "1.3.101.113", "1.2.840.113549.1.1.10", "1.2.840.113549.1.5.13", "1.2.840.113549.1.5.12"))
# The functions of PBKDF2, whose parameters are NULL.
HMACS = {oid(f"1.2.840.113549.2.{it}") for it in range(7, 14)}
AES_CBC = {oid(f"2.16.840.1.101.3.4.1.{it}") for it in (2, 22, 42)}
# The octets of a coordinate of a point, by the contents of the identifier of its curve.
COORDINATES = {oid("1.3.132.0.33"): 28, oid("1.2.840.10045.3.1.7"): 32, oid("1.3.132.0.10"): 32,
               oid("1.3.132.0.34"): 48, oid("1.3.132.0.35"): 66}
# The octets of private keys of the curves of RFC 5639 section 3, and of P-192, whose length no rule of pkder has.
SCALARS = COORDINATES | {oid("1.2.840.10045.3.1.1"): 24} | {
    oid(f"1.3.36.3.3.2.8.1.1.{2 * at + twisted}"): size // 8
    for at, size in enumerate((160, 192, 224, 256, 320, 384, 512)) for twisted in (1, 2)}
NO_PARAMETERS = {oid(f"2.16.840.1.101.3.4.3.{it}"): "RFC 9881 section 2" for it in (17, 18, 19)} | {
    oid(f"2.16.840.1.101.3.4.4.{it}"): "RFC 9935 section 3" for it in (1, 2, 3)} | {
    oid(f"2.16.840.1.101.3.4.3.{it}"): "RFC 9909 section 3" for it in range(20, 32)}
# What the known identifiers are of, and the clauses that say what stands in a field.
ROLES = dict.fromkeys(COORDINATES, ("curve",)) | dict.fromkeys([*RFC_8410, EC_PUBLIC_KEY], ("private", "public")) | {
    ED25519: ("private", "public", "signature"), ED448: ("private", "public", "signature"),
    RSA_ENCRYPTION: ("private", "public", "encryption")}
FIELDS = {"private": "RFC 5958 section 2", "public": "RFC 5280 section 4.1.2.7", "signature": "RFC 2986 section 4.2",
          "encryption": "RFC 5958 section 3", "curve": "RFC 5480 section 2.1.1.1"}


def on_role(identifier, role):
    """An identifier that is known, and is of something else than what stands there."""
    if role not in ROLES.get(identifier, (role,)):
        yield FIELDS[role]


def on_algorithm(element, role):
    """An AlgorithmIdentifier anywhere."""
    identifier, *parameters = parts(element.contents)
    yield from on_role(identifier.contents, role)
    if identifier.contents == RSA_ENCRYPTION and (not parameters or parameters[0].octets != NULL):
        yield "RFC 8017 appendix A.1"
    if identifier.contents == PSS and parameters and parameters[0].first != SEQUENCE:
        yield "RFC 4055 section 3.1"
    if parameters and identifier.contents in NO_PARAMETERS:
        yield NO_PARAMETERS[identifier.contents]
    if role == "encryption" and identifier.contents == PBES2:
        yield from on_pbes2(parameters)


def is_algorithm(element):
    """Whether an open value is an AlgorithmIdentifier."""
    firsts = [it.first for it in parts(element.contents)] if element.first == SEQUENCE else []
    return firsts[:1] == [IDENTIFIER] and len(firsts) < 3


def on_pbes2(parameters):
    """The parameters of PBES2, and those of PBKDF2 and AES in them."""
    members = parts(parameters[0].contents) if parameters and parameters[0].first == SEQUENCE else []
    if len(members) != 2 or not all(map(is_algorithm, members)):
        yield "RFC 8018 appendix A.4"
        return
    (function, *given), (cipher, *iv) = (parts(it.contents) for it in members)
    if function.contents == PBKDF2 and not (given and is_of_pbkdf2(given[0])):
        yield "RFC 8018 appendix A.2"
    elif function.contents == PBKDF2 and not is_of_null(parts(given[0].contents)[-1]):
        yield "RFC 8018 appendix B.1"
    if cipher.contents in AES_CBC and not (iv and iv[0].first == OCTETS and len(iv[0].contents) == 16):
        yield "RFC 8018 appendix B.2.5"


def is_of_pbkdf2(element):
    """Whether an open value is of PBKDF2-params."""
    members = parts(element.contents) if element.first == SEQUENCE else []
    numbers = [it for it in members if it.first == INTEGER]
    salt, last = members[:1], members[1 + len(numbers) :]
    return (len(salt) == 1 and (salt[0].first == OCTETS or is_algorithm(salt[0])) and len(numbers) in (1, 2)
            and [it.first for it in members[1 : 1 + len(numbers)]] == [INTEGER] * len(numbers)
            and all(map(is_positive, numbers)) and len(last) < 2 and all(map(is_algorithm, last)))


def is_of_null(element):
    """Whether an element isn't one of these functions, or has NULL for its parameters."""
    identifier, *given = parts(element.contents) if is_algorithm(element) else [element]
    return identifier.contents not in HMACS or [it.octets for it in given] == [NULL]


def is_positive(number):
    return int.from_bytes(number.contents, "big", signed=True) > 0


def on_point(curve, bits):
    """A point by the contents of its curve's identifier, which may not be known, and of its BIT STRING."""
    size = COORDINATES.get(curve)
    sizes = {b"\4": 2 * (size or 0), b"\2": size, b"\3": size}
    is_point = bits[:1] == b"\0" and bits[1:2] in sizes and (not size or sizes[bits[1:2]] == len(bits) - 2)
    if not is_point:
        yield "RFC 5480 section 2.2"


def on_curve(parameters):
    """The parameters of id-ecPublicKey."""
    if not parameters or parameters[0].first != IDENTIFIER:
        yield "RFC 5480 section 2.1.1"
    else:
        yield from on_role(parameters[0].contents, "curve")


def on_public_key(element):
    """A SubjectPublicKeyInfo."""
    algorithm, key = parts(element.contents)
    identifier, *parameters = parts(algorithm.contents)
    yield from on_algorithm(algorithm, "public")
    if identifier.contents == EC_PUBLIC_KEY:
        yield from on_curve(parameters)
        yield from on_point(parameters[0].contents if parameters else b"", key.contents)
    found = carried_key(identifier.contents, [key.contents])
    if found and found["verdict"] != "der":
        yield "RFC 3279 section 2.3.1"


def on_ec_key(element, around=b""):
    """An ECPrivateKey, and the contents of the identifier of the curve that its container names."""
    _, key, *others = parts(element.contents)
    named, public = with_first(others, TAG_0), with_first(others, TAG_1)
    curve = parts(named.contents)[0].contents if named else around
    if not named or len(key.contents) != SCALARS.get(curve, len(key.contents)):
        yield "RFC 5915 section 3"
    yield from on_role(curve, "curve")
    if public:
        yield from on_point(curve, parts(public.contents)[0].contents)


def on_rsa_key(element):
    """An RSAPrivateKey, whose numbers are positive."""
    _, *numbers = parts(element.contents)
    infos = parts(numbers.pop().contents) if numbers[-1].first == SEQUENCE else []
    if not all(map(is_positive, [*numbers, *(number for it in infos for number in parts(it.contents))])):
        yield "RFC 8017 section 3.2"


def on_private_key(algorithm, key):
    """What privateKey contains, by its algorithm."""
    identifier, *parameters = parts(algorithm.contents)
    yield from on_algorithm(algorithm, "private")
    if identifier.contents == EC_PUBLIC_KEY:
        yield from on_curve(parameters)
        yield from on_ec_key(parts(key.contents)[0], parameters[0].contents)
    elif identifier.contents == RSA_ENCRYPTION:
        yield from on_rsa_key(parts(key.contents)[0])
