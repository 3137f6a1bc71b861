"""Ed25519 (RFC 8032 section 5.1): public keys and signatures, so that the requests here have sound ones. It is slow,
and hides nothing."""
import hashlib

P = 2**255 - 19
ORDER = 2**252 + 27742317777372353535851937790883648493
D = -121665 * pow(121666, P - 2, P) % P
ROOT = pow(2, (P - 1) // 4, P)
NEUTRAL = (0, 1, 1, 0)


def add(one, other):
    """The sum of two points in extended coordinates (RFC 8032 section 5.1.4)."""
    (x1, y1, z1, t1), (x2, y2, z2, t2) = one, other
    a, b = (y1 - x1) * (y2 - x2) % P, (y1 + x1) * (y2 + x2) % P
    c, d = 2 * t1 * t2 * D % P, 2 * z1 * z2 % P
    e, f, g, h = b - a, d - c, d + c, b + a
    return e * f % P, g * h % P, f * g % P, e * h % P


def times(number, point):
    found = NEUTRAL
    while number:
        if number & 1:
            found = add(found, point)
        point, number = add(point, point), number >> 1
    return found


def root_of(y, sign):
    """The x of a point by its y and its sign; None where there is none (RFC 8032 section 5.1.3)."""
    square = (y * y - 1) * pow(D * y * y + 1, P - 2, P) % P
    x = pow(square, (P + 3) // 8, P)
    x = x if (x * x - square) % P == 0 else x * ROOT % P
    if (x * x - square) % P or x == 0 and sign or y >= P:
        return None
    return P - x if x & 1 != sign else x


BASE_Y = 4 * pow(5, P - 2, P) % P
BASE_X = root_of(BASE_Y, 0)
BASE = (BASE_X, BASE_Y, 1, BASE_X * BASE_Y % P)


def encoded(point):
    x, y, z, _ = point
    inverse = pow(z, P - 2, P)
    return (y * inverse % P | (x * inverse % P & 1) << 255).to_bytes(32, "little")


def decoded(octets):
    """The point that these octets are; None where they are none."""
    number = int.from_bytes(octets, "little")
    y, sign = number & (1 << 255) - 1, number >> 255
    x = root_of(y, sign)
    return None if x is None else (x, y, 1, x * y % P)


def secret(seed):
    whole = hashlib.sha512(seed).digest()
    number = int.from_bytes(whole[:32], "little")
    return number & (1 << 254) - 8 | 1 << 254, whole[32:]


def public_key(seed):
    return encoded(times(secret(seed)[0], BASE))


def challenge(*parts):
    return int.from_bytes(hashlib.sha512(b"".join(parts)).digest(), "little") % ORDER


def sign(seed, message):
    number, prefix = secret(seed)
    nonce = challenge(prefix, message)
    point = encoded(times(nonce, BASE))
    proof = (nonce + challenge(point, public_key(seed), message) * number) % ORDER
    return point + proof.to_bytes(32, "little")


def is_signed(key, message, signature):
    """Whether a signature is that of a message by a key."""
    if len(signature) != 64 or None in (point := decoded(key), start := decoded(signature[:32])):
        return False
    proof = int.from_bytes(signature[32:], "little")
    right = add(start, times(challenge(signature[:32], key, message), point))
    return proof < ORDER and encoded(times(proof, BASE)) == encoded(right)
