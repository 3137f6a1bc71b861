"""What `pkder show` and `pkder signed` write, by docs/formats.md alone: functions of the DER text of a document, which
tests/oracle/reader.py finds, and of the octets of a request where these are written as they came."""
from collections import namedtuple

PARTS = ("info", "algorithm", "key", "signature", "received")
# The first octets of elements.
BOOLEAN, SEQUENCE, TAG_0, PRIMITIVE_TAG_1, CONSTRUCTED_TAG_1 = 0x01, 0x30, 0xA0, 0x81, 0xA1
RFC_8410 = ("1.3.101.110", "1.3.101.111", "1.3.101.112", "1.3.101.113")
EC_PUBLIC_KEY, RSA_ENCRYPTION = "1.2.840.10045.2.1", "1.2.840.113549.1.1.1"
EXTENSION_REQUEST = "1.2.840.113549.1.9.14"

# An element: its first octet, all of its octets, and those of its contents.
Part = namedtuple("Part", "first octets contents")


def header(octets, at):
    """Where the contents of an element begin, and their number, None of the indefinite form (X.690 8.1)."""
    first = octets[at]
    at += 1
    if first & 31 == 31:
        while octets[at] & 128:
            at += 1
        at += 1
    length = octets[at]
    at += 1
    if length == 128:
        return at, None
    if length > 127:
        count = length - 128
        length = int.from_bytes(octets[at : at + count], "big")
        at += count
    return at, length


def parts(octets):
    """The elements that stand after one another in octets that are DER (X.690 8.1, 10.1)."""
    found, at = [], 0
    while at < len(octets):
        begin, first = at, octets[at]
        at, length = header(octets, begin)
        found.append(Part(first, octets[begin : at + length], octets[at : at + length]))
        at += length
    return found


def end_of(octets, at):
    """Where an element of whatever form ends."""
    at, length = header(octets, at)
    if length is not None:
        return at + length
    while octets[at : at + 2] != bytes(2):
        at = end_of(octets, at)
    return at + 2


def received(octets):
    """The first member of a request as it came."""
    begin, _ = header(octets, 0)
    return octets[begin : end_of(octets, begin)]


def part_of(text, part):
    """A part of a request; of the signature its octets, without the number of unused bits (X.690 8.6.2)."""
    info, algorithm, signature = parts(parts(text)[0].contents)
    key = parts(info.contents)[2]
    chosen = {"info": info.octets, "algorithm": algorithm.octets, "key": key.octets}
    return chosen.get(part, signature.contents[1:])


def arcs(oid):
    """An object identifier as its arcs (X.690 8.19)."""
    numbers, number = [], 0
    for octet in oid.contents:
        number = number << 7 | octet & 127
        if octet < 128:
            numbers.append(number)
            number = 0
    first = min(numbers[0] // 40, 2)
    return ".".join(map(str, [first, numbers[0] - 40 * first, *numbers[1:]]))


def digits(octets):
    return octets.hex() or "-"


def bits(element):
    return f"{digits(element.contents[1:])} ({element.contents[0]} unused)"


def with_first(elements, first):
    """The element that begins so, or None."""
    return next((it for it in elements if it.first == first), None)


def algorithm_lines(element, of=""):
    oid, *parameters = parts(element.contents)
    given = parameters[0].octets.hex() if parameters else "none"
    return [f"{of}algorithm: {arcs(oid)}", f"{of}parameters: {given}"]


def curve_and_key(fields):
    """The curve and the public key that an ECPrivateKey names."""
    curve, key = with_first(fields, TAG_0), with_first(fields, CONSTRUCTED_TAG_1)
    named = arcs(parts(curve.contents)[0]) if curve else "absent"
    return named, bits(parts(key.contents)[0]) if key else "absent"


def ec_lines(text):
    _, key, *others = parts(text.contents)
    curve, public = curve_and_key(others)
    return [f"private key: {len(key.contents)} octets", f"curve: {curve}", f"public key: {public}"]


def private_key_lines(algorithm, element):
    oid = arcs(parts(algorithm.contents)[0])
    if oid == EC_PUBLIC_KEY:
        _, key, *others = parts(parts(element.contents)[0].contents)
        curve, public = curve_and_key(others)
        length = len(key.contents)
        return [f"private key: ec, {length} octets", f"inner curve: {curve}", f"inner public key: {public}"]
    if oid in RFC_8410:
        return [f"private key: curve, {len(parts(element.contents)[0].contents)} octets"]
    return [f"private key: {'rsa' if oid == RSA_ENCRYPTION else 'carried'}, {len(element.contents)} octets"]


def attribute_lines(element, is_of_request=False):
    """The lines of attributes, which may be absent."""
    if element is None:
        return ["attributes: absent"]
    attributes = [parts(it.contents) for it in parts(element.contents)]
    lines = [f"attributes: {len(attributes)}"]
    for oid, values in attributes:
        members = parts(values.contents)
        lines.append(f"attribute {arcs(oid)}: {len(members)}")
        for it in members:
            is_list = is_of_request and arcs(oid) == EXTENSION_REQUEST
            lines += extension_lines(it) if is_list else [f"  value {it.octets.hex()}"]
    return lines


def extension_lines(element):
    extensions = [parts(it.contents) for it in parts(element.contents)]
    lines = [f"  extensions: {len(extensions)}"]
    for oid, *critical, value in extensions:
        lines.append(f"    {arcs(oid)}{', critical' if critical else ''}: {digits(value.contents)}")
    return lines


def key_lines(text):
    version, algorithm, key, *others = parts(text.contents)
    lines = [f"version: {version.contents[0]}", *algorithm_lines(algorithm), *private_key_lines(algorithm, key)]
    public = with_first(others, PRIMITIVE_TAG_1)
    return [
        *lines,
        *attribute_lines(with_first(others, TAG_0)),
        f"public key: {bits(public) if public else 'absent'}",
    ]


def package_lines(text):
    keys = parts(text.contents)
    return [f"keys: {len(keys)}", *(line for it in keys for line in key_lines(it))]


def public_lines(text, of=""):
    algorithm, key = parts(text.contents)
    return [*algorithm_lines(algorithm, of), f"public key: {bits(key)}"]


def encrypted_lines(text):
    algorithm, data = parts(text.contents)
    return [*algorithm_lines(algorithm), f"encrypted key: {len(data.contents)} octets"]


def subject_lines(element):
    names = [[parts(it.contents) for it in parts(rdn.contents)] for rdn in parts(element.contents)]
    lines = [f"subject: {len(names)}"]
    for items in names:
        lines += [f"  rdn: {len(items)}", *(f"    {arcs(oid)}: {value.octets.hex()}" for oid, value in items)]
    return lines


def request_lines(text):
    info, algorithm, signature = parts(text.contents)
    _, subject, key, *others = parts(info.contents)
    return [
        *subject_lines(subject),
        *public_lines(key, "key "),
        *attribute_lines(with_first(others, TAG_0), is_of_request=True),
        *algorithm_lines(algorithm, "signature "),
        f"signature: {bits(signature)}",
    ]


LINES = {
    "key": key_lines,
    "ec": ec_lines,
    "request": request_lines,
    "public": public_lines,
    "encrypted": encrypted_lines,
    "package": package_lines,
}


def shown(kind, text):
    """The lines of a document that has this DER text."""
    lines = [f"kind: {kind}", *LINES[kind](parts(text)[0])]
    return "".join(f"{it}\n" for it in lines).encode()
