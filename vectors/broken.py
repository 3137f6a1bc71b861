"""Documents that break a rule of a type, and others that keep it: versions, algorithms and their parameters, lengths of
keys, fields that are absent, lists that are empty, orders."""
from tests.oracle.parts import parts
from tests.oracle.reader import BOOLEAN, OBJECT_IDENTIFIER, SET, TAG_0, TAG_1, oid, sequence, text_of
from vectors.bases import (
    ASKED, CONSTRAINTS, CURVES, DOCUMENTS, EC, ED25519, ED25519_PUBLIC, EXTENSIONS, EXTENSION_VALUES, LENGTHS,
    NAMES, ORGANIZATION, OTHER_TYPE, PASSWORD, POINT, PSS, RSA, SCALAR, SEED, SUBJECT, UNKNOWN, USAGE, algorithm,
    attribute, attributes, bits, curve, ec, example, extension, info, key, number, octet_string, public,
    relative_name, rsa, signed, text)

NULL = b"\5\0"
OF_EXAMPLES = {identifier: example(name) for identifier, name in zip(LENGTHS, ("ed25519", "x25519", "ed448", "x448"))}
BOOL_FALSE, TRUE_BY_ONE = text_of(BOOLEAN, b"\0"), text_of(BOOLEAN, b"\1")


def off(length):
    """Lengths that aren't this one."""
    return (length - 1, length + 1, 0)


def private_of(identifier):
    """The octets of a key of RFC 8410 that a tool made."""
    return OF_EXAMPLES[identifier][-LENGTHS[identifier] :]


def keys_of_rfc_8410():
    for identifier, length in LENGTHS.items():
        inner, name = octet_string(private_of(identifier)), algorithm(identifier)
        yield "a key of RFC 8410", key(name, inner)
        yield "NULL beside the identifier", key(algorithm(identifier, NULL), inner)
        for it in off(length):
            yield f"a private key of {it} octets", key(name, octet_string(bytes(it)))
            yield f"a public key of {it} octets", key(name, inner, bits(bytes(it), TAG_1), version=1)
        yield "a public key beside it", key(name, inner, bits(bytes(length), TAG_1), version=1)
        unused = text_of(TAG_1, b"\1" + bytes(length))
        yield "a public key with an unused bit", key(name, inner, unused, version=1)


def with_curve(octets):
    """An EC key that names its curve inside, too."""
    _, name, held = parts(parts(octets)[0].contents)
    _, scalar, public = parts(parts(held.contents)[0].contents)
    curve = parts(name.contents)[1].octets
    return key(name.octets, ec(scalar.contents, curve, parts(public.contents)[0].contents[1:]))


def keys_of_curves():
    for arcs, length in CURVES.items():
        named = algorithm(EC, curve(arcs))
        yield "a key of this curve", key(named, ec(b"\1" * length))
        yield "the curve named inside, too", key(named, ec(b"\1" * length, curve(arcs)))
        for it in off(length):
            yield f"a private key of {it} octets", key(named, ec(b"\1" * it))
            yield f"a private key of {it} octets, the curve inside", key(named, ec(b"\1" * it, curve(arcs)))
    for name in ("p224", "k256", "p384", "p521"):
        yield "the curve named inside, too", with_curve(example(name))
    yield "another curve inside", key(algorithm(EC, curve()), ec(SCALAR, curve("1.3.132.0.10")))
    yield "no parameters", key(algorithm(EC), ec(SCALAR, curve()))
    yield "NULL for a curve", key(algorithm(EC, NULL), ec(SCALAR))
    yield "a curve that is written out", example("p256-explicit")
    yield "a public key inside", key(algorithm(EC, curve()), ec(SCALAR, None, POINT))
    yield "a public key in the container", key(algorithm(EC, curve()), ec(SCALAR), bits(POINT, TAG_1), version=1)


def keys_of_rsa():
    inner = rsa(0)
    named = algorithm(RSA, NULL)
    infos = [(3, 1, 2)]
    yield "two primes", key(named, inner)
    yield "three primes", key(named, rsa(1, *infos))
    yield "four primes", key(named, rsa(1, *infos, (3, 1, 2)))
    yield "version 0 with other primes", key(named, rsa(0, *infos))
    yield "version 1 without other primes", key(named, rsa(1))
    yield "no parameters", key(algorithm(RSA), inner)
    yield "a number as parameters", key(algorithm(RSA, number(1)), inner)
    yield "negative numbers", key(named, rsa(0, numbers=(255, 5, 5, 5, 7, 1, 5, 3)))
    empty = sequence(*map(number, (1, 35, 5, 5, 5, 7, 1, 5, 3)), sequence())
    yield "an empty list of other primes", key(named, empty)
    yield "an octet after it", key(named, inner + b"\0")
    yield "a further number", key(named, sequence(*map(number, (0, 35, 5, 5, 5, 7, 1, 5, 3, 1))))
    yield "a number too few", key(named, sequence(*map(number, (0, 35, 5, 5, 5, 7, 1, 5))))


def keys():
    yield from keys_of_rfc_8410()
    yield from keys_of_curves()
    yield from keys_of_rsa()
    inner, name = octet_string(SEED), algorithm(ED25519)
    yield "an octet after the inner key", key(name, inner + b"\0")
    yield "a bare seed, without its OCTET STRING", key(name, SEED)
    yield "nothing inside", key(name, b"")
    yield "a key of id-RSASSA-PSS, whose octets are carried", key(algorithm(PSS), b"\1\2")
    public_key = bits(ED25519_PUBLIC, TAG_1)
    yield "version 0 with a public key", key(name, inner, public_key)
    yield "version 0 with attributes and a public key", key(name, inner, attributes(), public_key)
    yield "version 1 without a public key", key(name, inner, version=1)
    yield "version 1 with attributes, without a public key", key(name, inner, attributes(), version=1)
    yield "no attributes in their tag", key(name, inner, attributes())
    yield "attributes after the public key", key(name, inner, public_key, attributes(), version=1)
    for version in (0, 1):
        more = [public_key] if version else []
        yield "a [2] at the end", key(name, inner, *more, b"\x82\0", version=version)
        yield "a NULL at the end", key(name, inner, *more, NULL, version=version)
    asked = sequence(text_of(OBJECT_IDENTIFIER, OTHER_TYPE), text_of(SET, b"", True))
    yield "an attribute without values", key(name, inner, text_of(TAG_0, asked, True))
    yield from orders(lambda held: key(name, inner, held))


def orders(make):
    """Attributes and their values in another order than DER has, or several times."""
    one, other = attribute(OTHER_TYPE, number(1)), attribute(OTHER_TYPE, number(2))
    longer = attribute(OTHER_TYPE, number(1), number(2))
    for words, texts in {"in order": one + other, "out of order": other + one, "twice": one + one,
                         "the longer one first": longer + one, "the longer one last": one + longer}.items():
        yield f"attributes {words}", make(text_of(TAG_0, texts, True))
    for words, values in {"out of order": number(2) + number(1), "twice": number(1) * 2,
                          "a longer one first": text("ab") + number(1), "of one octet more": number(1) + b"\2\2\1\0",
                          }.items():
        asked = sequence(text_of(OBJECT_IDENTIFIER, OTHER_TYPE), text_of(SET, values, True))
        yield f"values {words}", make(text_of(TAG_0, asked, True))


def ecs():
    for arcs, length in CURVES.items():
        yield "a key of this curve", ec(b"\1" * length, curve(arcs))
        for it in off(length):
            yield f"a key of {it} octets", ec(b"\1" * it, curve(arcs))
    yield "no curve, and any length", ec(b"\1\2")
    yield "no curve, and no octets", ec(b"")
    yield "a public key, and no curve", ec(SCALAR, None, POINT)
    explicit = example("p256-explicit")
    parameters = explicit[explicit.index(bytes.fromhex("3081f70201")) :][:250]
    yield "a curve that is written out", ec(SCALAR, parameters)
    yield "NULL for a curve", ec(SCALAR, NULL)
    yield "two curves", ec(SCALAR, curve() * 2)
    yield "a curve after the public key", sequence(
        number(1), octet_string(SCALAR), text_of(TAG_1, bits(POINT), True), text_of(TAG_0, curve(), True))


def publics():
    for identifier, length in LENGTHS.items():
        yield "a public key of RFC 8410", public(algorithm(identifier), bytes(length))
        yield "NULL beside the identifier", public(algorithm(identifier, NULL), bytes(length))
        for it in off(length):
            yield f"a public key of {it} octets", public(algorithm(identifier), bytes(it))
        yield "an unused bit", sequence(algorithm(identifier), text_of((0, 3), b"\1" + bytes(length)))
    for arcs in CURVES:
        yield "a point of this curve", public(algorithm(EC, curve(arcs)), POINT)
    yield "a point in compressed form", public(algorithm(EC, curve()), b"\2" + POINT[1:33])
    yield "a point in hybrid form", public(algorithm(EC, curve()), b"\6" + POINT[1:])
    yield "no parameters", public(algorithm(EC), POINT)
    yield "no parameters", public(algorithm(RSA), DOCUMENTS["public-rsa"][-74:])
    yield "a key of RSA that is none", public(algorithm(RSA, NULL), b"\1")
    yield "a key of no octets under another algorithm", public(algorithm(UNKNOWN), b"")


def encrypteds():
    for identifier in LENGTHS:
        yield "NULL beside the identifier", sequence(algorithm(identifier, NULL), octet_string(b"\1"))
        yield "an identifier of RFC 8410", sequence(algorithm(identifier), octet_string(b"\1"))
    yield "no parameters", sequence(algorithm(UNKNOWN), octet_string(b""))


def packages():
    yield "no key", sequence()
    yield "one key", sequence(DOCUMENTS["ed25519"])
    yield "the same key twice", sequence(DOCUMENTS["ed25519"], DOCUMENTS["ed25519"])
    for words, it in keys():
        yield f"a package of one: {words}", sequence(it)


def requests():
    for identifier, length in LENGTHS.items():
        spki = public(algorithm(identifier), bytes(length))
        yield "a key of RFC 8410", signed(info(spki=spki))
        for words, it in publics():
            if it[2:].startswith(algorithm(identifier)) or it[2:].startswith(algorithm(identifier, NULL)):
                yield words, signed(info(spki=it))
        for name in (algorithm(identifier), algorithm(identifier, NULL)):
            yield "the algorithm of the signature", sequence(info(), name, bits(bytes(64)))
    yield "no attributes field", signed(info(has_attributes=False))
    yield "an empty list of extensions", signed(info(more=[attribute(EXTENSIONS, sequence())]))
    usage, names = extension(USAGE, b"\3\2\7\x80", True), extension(NAMES, sequence(text_of((2, 2), b"a.test")))
    asked = {"two lists of extensions": [sequence(usage), sequence(names)],
             "an extension twice": [sequence(usage, usage)],
             "extensions in another order": [sequence(names, usage)]}
    for words, lists in asked.items():
        yield words, signed(info(more=[attribute(EXTENSIONS, *lists)]))
    yield "an extension that isn't of its type", signed(info(more=[attribute(EXTENSIONS, sequence(
        extension(USAGE, b"\5\0")))]))
    for words, truth in {"critical FALSE": BOOL_FALSE, "critical TRUE by the octet 01": TRUE_BY_ONE}.items():
        told = sequence(text_of(OBJECT_IDENTIFIER, USAGE), truth, octet_string(b"\3\2\7\x80"))
        yield words, signed(info(more=[attribute(EXTENSIONS, sequence(told))]))
    yield from empties()
    yield from orders(lambda held: signed(sequence(number(0), sequence(), DOCUMENTS["public-ed25519"], held)))
    yield "two passwords", signed(info(more=[attribute(PASSWORD, text("a"), text("b"))]))
    yield "a name with a country of three letters", signed(info([relative_name((b"\x55\4\6", text("abc")))]))
    items = [sequence(text_of(OBJECT_IDENTIFIER, ORGANIZATION), text(it)) for it in "ba"]
    yield "a relative name out of order", signed(info([text_of(SET, b"".join(items), True)]))
    yield "primitive attributes", signed(sequence(number(0), sequence(), DOCUMENTS["public-ed25519"], b"\x80\0"))
    yield "an element after the attributes", signed(sequence(
        number(0), sequence(), DOCUMENTS["public-ed25519"], attributes(), NULL))
    yield "attributes in [1]", signed(sequence(number(0), sequence(), DOCUMENTS["public-ed25519"], b"\xa1\0"))


# Extensions of an authority alone, and those that are critical (RFC 5280 section 4.2.1).
OF_CA = {"2.5.29.30", "2.5.29.33", "2.5.29.36", "2.5.29.54"}
CRITICAL = OF_CA | {"2.5.29.15", "2.5.29.17", "2.5.29.19"}


def extensions():
    """Each extension that is known, with a value of its type in DER and in BER, and with another."""
    for arcs, digits in EXTENSION_VALUES.items():
        value = bytes.fromhex(digits)
        forms = {"of its type": value, "in BER": value[:1] + b"\x81" + value[1:], "of another type": NULL}
        beside = extension(CONSTRAINTS, bytes.fromhex(EXTENSION_VALUES["2.5.29.19"]), True) if arcs in OF_CA else None
        for words, it in forms.items():
            asked = attribute(EXTENSIONS, sequence(beside, extension(oid(arcs), it, arcs in CRITICAL)))
            yield f"an extension {words}", signed(info(more=[asked]))


def empties():
    """Sets without members in a request."""
    yield "a relative name without items", signed(info([text_of(SET, b"", True)]))
    kinds = {"an attribute without values": OTHER_TYPE, "extensionRequest without lists": EXTENSIONS}
    for words, kind in kinds.items():
        asked = sequence(text_of(OBJECT_IDENTIFIER, kind), text_of(SET, b"", True))
        yield words, signed(info(more=[asked]))
    yield "a subject and extensions", signed(info(SUBJECT, [ASKED]))
    yield from extensions()


RULES = {"key": keys, "ec": ecs, "request": requests, "public": publics, "encrypted": encrypteds, "package": packages}
