#!/usr/bin/env python3
"""places.py PROGRAM..: the lines that `explain --json --all` lists, beside those of `openssl asn1parse`.

Of each document that is accepted, of examples/ and of the tables in tests/pkder, each line's place, size of header,
length, end, depth, form and tag are compared with openssl's. What is inside `privateKey`, in the value of a known
extension that is in DER by tests/oracle/extensions.py, and in a public key of RSA that is in DER by
tests/oracle/public_keys.py, openssl lists by itself, of the octets of its segments joined, and its places are made
places in the file. Nothing inside a private element has a line; which elements are private is said here anew, by the
types of docs/formats.md. Else no line may be missing, and none may be there that openssl hasn't.

Documents that openssl can't list are counted. The last line is 'explained_places: N passed, M failed'; where there is
no openssl, that is said and nothing fails."""
import re
import shutil
import subprocess
import sys
from pathlib import Path

sys.path[0] = str(Path(__file__).resolve().parents[2])
from tests.explained.documents import answer, documents, objects_in, try_all
from tests.oracle.extensions import carried
from tests.oracle.public_keys import carried_key
from tests.oracle.reader import EC_PUBLIC_KEY, EXTENSION_REQUEST, RFC_8410, RSA_ENCRYPTION

LISTED = re.compile(r" *(\d+):d=(\d+) +hl=(\d+) l= *(\d+|inf) +(cons|prim): (\S.{17}|\S.*)")
# openssl's names of the universal tags, from 0 on
TAGS = """EOC,BOOLEAN,INTEGER,BIT STRING,OCTET STRING,NULL,OBJECT,OBJECT DESCRIPTOR,EXTERNAL,REAL,ENUMERATED,<ASN1 11>,
UTF8STRING,<ASN1 13>,<ASN1 14>,<ASN1 15>,SEQUENCE,SET,NUMERICSTRING,PRINTABLESTRING,T61STRING,VIDEOTEXSTRING,IA5STRING,
UTCTIME,GENERALIZEDTIME,GRAPHICSTRING,VISIBLESTRING,GENERALSTRING,UNIVERSALSTRING,<ASN1 29>,BMPSTRING"""
UNIVERSAL = {it.strip(): number for number, it in enumerate(TAGS.split(","))}
BIT_STRING, OCTET_STRING = "universal 3", "universal 4"
CLASSES = {"appl": "application", "cont": "context", "priv": "private"}
SHOWN = 3
MOST_TOLD = 6


class Element:
    """An element as openssl lists it, with those in it."""

    def __init__(self, found):
        self.at, self.depth, self.header = int(found[1]), int(found[2]), int(found[3])
        self.length = None if found[4] == "inf" else int(found[4])
        self.constructed, self.tag = found[5] == "cons", tag_of(found[6].strip())
        self.end = None if self.length is None else self.at + self.header + self.length
        self.members = []

    def all(self):
        """It and the elements in it, in the order of their octets."""
        return [self] + [it for member in self.members for it in member.all()]

    def pieces(self):
        """The places of the contents of a primitive string, or of each segment of one."""
        if self.constructed:
            return [it for member in self.members for it in member.pieces()]
        return [range(self.at + self.header, self.end)]

    def held(self, octets):
        """The places of the octets that the string holds: of a BIT STRING without unused bits all but the first of each
        piece."""
        if self.tag != BIT_STRING:
            return [place for it in self.pieces() for place in it]
        return [place for it in self.pieces() if octets[it[0]] == 0 for place in it[1:]]


def tag_of(name):
    """A tag by its class and number, as openssl names it."""
    found = re.match(r"(appl|cont|priv) \[ (\d+) \]", name)
    if found:
        return f"{CLASSES[found[1]]} {found[2]}"
    number = UNIVERSAL.get(name)
    return f"universal {re.match('<ASN1 ([0-9]+)>', name)[1] if number is None else number}"


def listed_by_openssl(octets):
    """The outermost element; None where openssl can't list it to its end."""
    ran = subprocess.run(["openssl", "asn1parse", "-inform", "DER"], input=octets, capture_output=True)
    if ran.returncode:
        return None
    root, around = None, []
    for line in ran.stdout.decode("latin-1").split("\n"):
        found = LISTED.match(line)
        if not found:
            continue
        element = Element(found)
        del around[element.depth :]
        if found[6].startswith("EOC"):
            around[-1].end = element.at + 2
            continue
        if around:
            around[-1].members.append(element)
        root = root or element
        around.append(element)
    return root


def algorithm_of(key, octets):
    """The contents of the identifier of a key's algorithm."""
    oid = key.members[1].members[0]
    return octets[oid.at + oid.header : oid.end]


def private_values(attributes, octets, is_of_request=False):
    """The values of attributes but for lists of extensions that are asked for."""
    for oid, values in (it.members for it in attributes.members):
        if not is_of_request or octets[oid.at + oid.header : oid.end] != EXTENSION_REQUEST:
            yield from values.members


def private_elements(kind, root, octets):
    """The private elements of a document, by the types of docs/formats.md; of a key not those inside privateKey."""
    if kind == "package":
        return [it for key in root.members for it in private_elements("key", key, octets)]
    if kind in ("ec", "encrypted"):
        return [root.members[1]]
    if kind == "key":
        found = [] if inside_of(algorithm_of(root, octets)) else [root.members[2]]
        return found + [it for last in root.members[3:] if last.tag == "context 0"
                        for it in private_values(last, octets)]
    if kind == "request":
        return [it for last in root.members[0].members[3:] for it in private_values(last, octets, True)]
    return []


def inside_of(algorithm):
    """What says which elements are private of what the privateKey of a key of this algorithm contains, if anything."""
    if algorithm in RFC_8410:
        return lambda root: [root]
    if algorithm == EC_PUBLIC_KEY:
        return lambda root: [root.members[1]]
    if algorithm == RSA_ENCRYPTION:
        return lambda root: root.members[3:9] + [it for infos in root.members[9:] for info in infos.members
                                                 for it in info.members]
    return None


def told(root, private):
    """The elements that have lines: all but those inside a private one."""
    hidden = {id(it) for element in private for it in element.all()[1:]}
    return [it for it in root.all() if id(it) not in hidden]


def line_of(element, places=None, depth=0):
    """What is compared of an element; of one inside privateKey by the places of its octets in the file. The length of a
    header of more than MOST_TOLD octets isn't told."""
    at, end = element.at, element.end
    if places:
        at, end = places[at], places[end - 1] + 1
    size = (element.header, element.length) if element.header <= MOST_TOLD else (None, None)
    return at, *size, end, element.depth + depth, element.constructed, element.tag


def lines_inside(element, octets, privates=lambda root: []):
    """The lines of what a string contains, of which these are private; None where openssl can't list it."""
    places = element.held(octets)
    root = listed_by_openssl(bytes(octets[it] for it in places))
    if root is None:
        return None
    return [line_of(it, places, element.depth + 1) for it in told(root, privates(root))]


def lines_in_key(key, octets):
    """The lines of what a key's privateKey contains; None where openssl can't list it."""
    privates = inside_of(algorithm_of(key, octets))
    return lines_inside(key.members[2], octets, privates) if privates else []


def values_in_der(root, document):
    """The values of the known extensions of a request that are in DER."""
    octets, limits = document.octets, (document.depth, document.limit)
    contents = lambda element: bytes(octets[it] for it in element.held(octets))
    for attribute in (it for last in root.members[0].members[3:] for it in last.members):
        if contents(attribute.members[0]) == EXTENSION_REQUEST:
            for extension in (it for asked in attribute.members[1].members for it in asked.members):
                identifier, value = contents(extension.members[0]), extension.members[-1]
                if (carried(identifier, contents(value), *limits) or {}).get("verdict") == "der":
                    yield value


def public_keys_in_der(root, document):
    """The public keys of a request or of a public key whose algorithms say what they are, and that are so in DER."""
    octets, limits = document.octets, (document.depth, document.limit)
    algorithm, key = (root.members[0].members[2] if document.kind == "request" else root).members
    identifier = bytes(octets[it] for it in algorithm.members[0].held(octets))
    pieces = [octets[it.start : it.stop] for it in key.pieces()]
    return [key] if (carried_key(identifier, pieces, *limits) or {}).get("verdict") == "der" else []


def carrying(root, document):
    """The elements of a document that contain others, as openssl doesn't list them, but for keys."""
    values = values_in_der(root, document) if document.kind == "request" else []
    return [*values, *(public_keys_in_der(root, document) if document.kind in ("request", "public") else [])]


def due_lines(document):
    """The lines that are due by openssl, in their order but for those inside strings; None where it can't list."""
    root = listed_by_openssl(document.octets)
    if root is None:
        return None
    octets, kind = document.octets, document.kind
    lines = [line_of(it) for it in told(root, private_elements(kind, root, octets))]
    insides = [lines_in_key(it, octets) for it in {"key": [root], "package": root.members}.get(kind, [])]
    insides += [lines_inside(it, octets) for it in carrying(root, document)]
    return None if None in insides else lines + [it for inside in insides for it in inside]


def found_lines(program, document):
    """The lines that the program lists. Raises ValueError or KeyError where they aren't as they should be."""
    status, output, error = answer(program, document.words("explain", "--json", "--all"), document.octets)
    if status > 1 or error:
        raise ValueError(f"status {status}, {error[:200]!r}")
    names = "at", "header", "length", "end", "depth", "constructed"
    tag = lambda line: f"{line['tag']['class']} {line['tag']['number']}"
    return [(*(line.get(it) for it in names), tag(line)) for line in objects_in(output)["lines"]]


def differences(program, document, due):
    """What differs, in words."""
    try:
        found = found_lines(program, document)
    except (ValueError, KeyError) as why:
        return [f"no lines: {why!r}"]
    missing, more = [it for it in due if it not in found], [it for it in found if it not in due]
    said = [f"missing: {it}" for it in missing] + [f"more: {it}" for it in more]
    if not said and len(found) != len(due):
        return ["a line stands twice"]
    # (the lines of what is inside segments stand after those)
    in_segments = any(it[5:] in ((True, BIT_STRING), (True, OCTET_STRING)) for it in due)
    if not said and not in_segments and [it[0] for it in found] != sorted(it[0] for it in due):
        return ["not in the order of the octets"]
    return said


def wrong(program, case):
    """The first differences of a document, whose lines are due so."""
    return differences(program, *case)[:SHOWN]


def main(words):
    if not shutil.which("openssl"):
        print("left out: no openssl (Debian: openssl)\nexplained_places: 1 passed, 0 failed")
        return 0
    listed = [(it, due_lines(it)) for it in documents() if it.accepted()]
    lines = sum(len(due) for _, due in listed if due)
    print(f"{lines} lines; {sum(due is None for _, due in listed)} documents that openssl can't list")
    cases = ((it.name, (it, due)) for it, due in listed if due)
    return try_all("explained_places", __doc__, words, cases, wrong)


if __name__ == "__main__":
    sys.exit(main(sys.argv[1:]))
