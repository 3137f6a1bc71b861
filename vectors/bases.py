"""The sound documents that the families change, and those that break or keep a rule beside one another, a kind each."""
import functools
from pathlib import Path

from tests.oracle.parts import parts
from tests.oracle.reader import (
    BIT_STRING, BOOLEAN, INTEGER, NULL, OBJECT_IDENTIFIER, OCTET_STRING, SET, TAG_0, TAG_1, in_order, oid,
    sequence, text_of)
from vectors import ed25519
from vectors.keys import DOCUMENTS

TOP = str(Path(__file__).resolve().parents[1])
SEED = DOCUMENTS["ed25519"][-32:]
POINT = DOCUMENTS["public-p256"][-65:]
SCALAR = parts(parts(DOCUMENTS["p256-sec1"])[0].contents)[1].contents
ED25519, X25519, ED448, X448, EC, RSA, PSS, UNKNOWN = (oid(it) for it in (
    "1.3.101.112", "1.3.101.110", "1.3.101.113", "1.3.101.111", "1.2.840.10045.2.1", "1.2.840.113549.1.1.1",
    "1.2.840.113549.1.1.10", "1.2.3"))
LENGTHS = {ED25519: 32, X25519: 32, ED448: 57, X448: 56}
CURVES = {"1.3.132.0.33": 28, "1.2.840.10045.3.1.7": 32, "1.3.132.0.10": 32, "1.3.132.0.34": 48, "1.3.132.0.35": 66,
          "1.3.36.3.3.2.8.1.1.7": 32}
COMMON_NAME, ORGANIZATION, PASSWORD = oid("2.5.4.3"), oid("2.5.4.10"), oid("1.2.840.113549.1.9.7")
EXTENSIONS, USAGE, NAMES, CONSTRAINTS = (oid(it) for it in (
    "1.2.840.113549.1.9.14", "2.5.29.15", "2.5.29.17", "2.5.29.19"))
OTHER_TYPE = oid("1.2.3.4")
UTF8, PRINTABLE, IA5 = ((0, it) for it in (12, 19, 22))
# Open values, one of each type that is read, and of some that aren't: what they are, and their octets.
SOUND_VALUES = {
    "TRUE": "0101ff", "an INTEGER": "020105", "a negative INTEGER": "0201ff", "an ENUMERATED": "0a0101",
    "a BIT STRING with unused bits": "030204f0", "an OCTET STRING": "0401aa", "NULL": "0500",
    "an OBJECT IDENTIFIER": "06022a03", "a UTF8String": "0c02c3bc", "an ObjectDescriptor": "070161",
    "a NumericString": "120131", "a PrintableString": "130161", "a T61String": "140161", "a VideotexString": "150161",
    "an IA5String": "160161", "a UTCTime": "170d3230303130313030303030305a",
    "a GeneralizedTime": "180f32303230303130313030303030305a", "a GraphicString": "190161",
    "a VisibleString": "1a0161", "a GeneralString": "1b0161", "a UniversalString": "1c0400000061",
    "a BMPString": "1e020061", "a SEQUENCE": "3003020105", "an empty SEQUENCE": "3000", "a SET": "31060101ff020105",
    "an empty SET": "3100", "[0] with an element": "a003020105", "[0] of octets": "8001aa",
    "[APPLICATION 1] of octets": "4101aa", "[PRIVATE 30] of octets": "de01aa", "[31] of octets": "9f1f01aa",
    "[128] with an element": "bf8100020500", "the greatest tag number": "9fffffff7f00",
}
OTHER_VALUES = {
    "TRUE by 01": "010101", "a BIT STRING whose unused bits are set": "030204ff",
    "a SET out of order": "31060201050101ff",
    "a SET inside a SET out of order": "310831060201050101ff", "a set of equal members": "3106020105020105",
    "a SEQUENCE of indefinite length": "30800201050000", "a SET of indefinite length": "31800201050000",
    "[0] of indefinite length": "a0800201050000", "an OCTET STRING in segments": "24040402aabb",
    "a UTF8String in segments, cut in a character": "2c060401c30401bc", "a PrintableString in segments": "3303040161",
    "a BIT STRING in segments": "230403020 4f0", "an INTEGER with a length of two octets": "02810105",
    "NULL with a length of two octets": "058100", "an EXTERNAL": "28090 6022a03a003020105", "a REAL, 0": "0900",
    "an EMBEDDED PDV": "2b04800030 00", "a RELATIVE-OID": "0d0103", "a TIME": "0e0432303230",
    "a reserved type": "0f0100", "a CHARACTER STRING": "3d0480003000", "a DATE": "1f1f083230323030313031",
    "a reserved type, universal 37": "1f250100", "a tag number of 2^28": "9f81808080000 0",
    "an INTEGER of no octets": "0200", "an INTEGER, nine bits of 0": "0202007f",
    "an INTEGER, nine bits of 1": "0202ff80",
    "an ENUMERATED, nine bits of 0": "0a02007f", "a BOOLEAN of no octets": "0100", "a BOOLEAN of two": "0102ffff",
    "NULL with contents": "050100", "an empty OBJECT IDENTIFIER": "0600",
    "an OBJECT IDENTIFIER without end": "06022a83",
    "a BIT STRING of no octets": "0300", "eight unused bits": "030208ff", "unused bits of none": "030101",
    "a UTF8String in Latin-1": "0c01e9", "an overlong form of UTF-8": "0c02c080", "a surrogate in UTF-8": "0c03eda080",
    "a character past 10FFFF": "0c04f4908080", "half a character": "0c01c3", "a constructed INTEGER": "2203020105",
    "a constructed NULL": "2500", "a constructed BOOLEAN": "21030101ff",
    "a constructed OBJECT IDENTIFIER": "260406022a03",
    "a constructed ENUMERATED": "2a030a0101", "a primitive SEQUENCE": "1003020105", "a primitive SET": "1103020105",
    "a segment of its own tag": "3303130161", "a NULL as segment": "24020500", "[0] past its end": "a003020205",
    "an end in a SET": "310500000201 05", "[1] of indefinite length without an end": "a180020105",
    "a PrintableString with an underscore": "13015f", "an IA5String of an octet past 7F": "160180",
    "a NumericString with a letter": "120161", "a UTCTime without seconds": "170b323030313031303030305a",
    "a GeneralizedTime with a fraction that ends in 0": "181132303230303130313030303030302e305a",
    "a BMPString of an odd number of octets": "1e0161", "a UniversalString of three octets": "1c03000061",
}


# A value of each extension that is known, in DER.
EXTENSION_VALUES = {
    "2.5.29.14": "0402aabb", "2.5.29.15": "03020780", "2.5.29.17": "30088206612e74657374",
    "2.5.29.18": "30088206612e74657374", "2.5.29.19": "30030101ff", "2.5.29.30": "3007a0053003820161",
    "2.5.29.31": "300b3009a007a0058603613a62", "2.5.29.32": "3006300406022a03", "2.5.29.33": "300a300806022a0306022a04",
    "2.5.29.35": "30048002aabb", "2.5.29.36": "3003800100", "2.5.29.37": "300a06082b06010505070301",
    "2.5.29.46": "300b3009a007a0058603613a62", "2.5.29.54": "020100",
    "1.3.6.1.5.5.7.1.1": "3011300f06082b060105050730018603613a62",
    "1.3.6.1.5.5.7.1.11": "3011300f06082b060105050730058603613a62", "1.3.6.1.5.5.7.1.24": "3003020105",
    "1.3.6.1.4.1.311.20.2": "1e020061", "1.3.6.1.4.1.311.21.7": "300706022a03020101",
    "1.3.6.1.4.1.311.21.10": "3006300406022a03", "1.3.6.1.4.1.311.25.2": "300ca00a06022a03a0040402aabb",
}


def given(values):
    return {words: bytes.fromhex("".join(it.split())) for words, it in values.items()}


VALUES = given(SOUND_VALUES) | given(OTHER_VALUES)


def number(value):
    return text_of(INTEGER, bytes([value]))


def algorithm(identifier, parameters=None):
    return sequence(text_of(OBJECT_IDENTIFIER, identifier), parameters)


def curve(arcs="1.2.840.10045.3.1.7"):
    return text_of(OBJECT_IDENTIFIER, oid(arcs))


def bits(octets, tag=BIT_STRING):
    return text_of(tag, b"\0" + octets)


def octet_string(octets):
    return text_of(OCTET_STRING, octets)


def attribute(kind, *values):
    return sequence(text_of(OBJECT_IDENTIFIER, kind), text_of(SET, in_order(values), True))


def attributes(*texts):
    return text_of(TAG_0, in_order(texts), True)


def extension(kind, value, is_critical=False):
    critical = text_of(BOOLEAN, b"\xff") if is_critical else None
    return sequence(text_of(OBJECT_IDENTIFIER, kind), critical, octet_string(value))


def key(name, contents, *more, version=0):
    """A OneAsymmetricKey."""
    return sequence(number(version), name, octet_string(contents), *more)


def ec(scalar, named=None, point=None):
    """An ECPrivateKey."""
    named = named and text_of(TAG_0, named, True)
    return sequence(number(1), octet_string(scalar), named, point and text_of(TAG_1, bits(point), True))


def public(name, octets):
    return sequence(name, bits(octets))


def rsa(version, *infos, numbers=(35, 5, 5, 5, 7, 1, 5, 3)):
    """An RSAPrivateKey of small numbers."""
    told = [sequence(*map(number, it)) for it in infos]
    return sequence(number(version), *map(number, numbers), sequence(*told) if told else None)


@functools.cache
def signed(info):
    """A request with this information, signed by the key here."""
    return sequence(info, algorithm(ED25519), bits(ed25519.sign(SEED, info)))


def relative_name(*items):
    return text_of(SET, in_order([sequence(text_of(OBJECT_IDENTIFIER, it), value) for it, value in items]), True)


def info(subject=(), more=(), has_attributes=True, spki=DOCUMENTS["public-ed25519"]):
    """A CertificationRequestInfo."""
    return sequence(number(0), sequence(*subject), spki, attributes(*more) if has_attributes else None)


def text(characters, tag=UTF8):
    return text_of(tag, characters.encode())


def example(name):
    with open(f"{TOP}/examples/{name}.der", "rb") as it:
        return it.read()


SUBJECT = (relative_name((COMMON_NAME, text("a"))),
           relative_name((ORGANIZATION, text("\u00fc")), (oid("2.5.4.11"), text("b", PRINTABLE))))
ASKED = attribute(EXTENSIONS, sequence(
    extension(USAGE, b"\3\2\7\x80", True), extension(NAMES, sequence(text_of((2, 2), b"a")))))
ED25519_PUBLIC = DOCUMENTS["public-ed25519"][-32:]
FULL_KEY = key(algorithm(ED25519), octet_string(SEED), attributes(
    attribute(OTHER_TYPE, number(1), text("a")), attribute(oid("1.2.3.5"), text_of(NULL, b""))),
    bits(ED25519_PUBLIC, TAG_1), version=1)
EC_KEY = key(algorithm(EC, curve()), ec(SCALAR, curve(), POINT))
TOY_RSA = key(algorithm(RSA, b"\5\0"), rsa(1, (3, 1, 2)))
BASES = {
    "key": {"a key with all fields": FULL_KEY, "an EC key": EC_KEY, "an RSA key": DOCUMENTS["rsa"],
            "an RSA key of three primes, of small numbers": TOY_RSA,
            "a key of another algorithm": key(algorithm(UNKNOWN, sequence(number(1))), b"\1\2\3")},
    "ec": {"a key with all fields": DOCUMENTS["p256-sec1"]},
    "request": {"a request with a name and extensions": signed(info(SUBJECT, [ASKED, attribute(PASSWORD, text("a"))])),
                "the smallest request": signed(info())},
    "public": {"an Ed25519 key": DOCUMENTS["public-ed25519"], "a P-256 key": DOCUMENTS["public-p256"],
               "an RSA key": DOCUMENTS["public-rsa"]},
    "encrypted": {"an encrypted key": DOCUMENTS["encrypted"]},
    "package": {"two keys": sequence(
        key(algorithm(ED25519), octet_string(SEED), attributes(), bits(ED25519_PUBLIC, TAG_1), version=1),
        key(algorithm(EC, curve()), ec(SCALAR)))},
}


def with_values(kind):
    """Documents of a kind, for each place where a value is open, and what stands there."""
    for words, value in VALUES.items():
        several = text_of(SET, value, True)
        asked = sequence(text_of(OBJECT_IDENTIFIER, OTHER_TYPE), several)
        held = text_of(TAG_0, asked, True)
        named = algorithm(UNKNOWN, value)
        item = text_of(SET, sequence(text_of(OBJECT_IDENTIFIER, OTHER_TYPE), value), True)
        made = {
            "key": [key(algorithm(UNKNOWN), b"\1", held), key(named, b"\1"), key(algorithm(EC, value), ec(SCALAR))],
            "ec": [sequence(number(1), octet_string(SCALAR), text_of(TAG_0, value, True))],
            "request": [signed(sequence(number(0), sequence(), DOCUMENTS["public-ed25519"], held)),
                        signed(sequence(number(0), sequence(item), DOCUMENTS["public-ed25519"], attributes()))],
            "public": [public(named, b"\1"), public(algorithm(EC, value), POINT)],
            "encrypted": [sequence(named, octet_string(b"\1"))],
            "package": [sequence(key(named, b"\1"))],
        }
        yield from ((f"an open value: {words}", it) for it in made[kind])
