#!/usr/bin/env python3
"""extensions.py [--seed WORD] [--count N] PROGRAM..: what `explain --json --all` tells of the contents of extensions
and of public keys, beside tests/oracle/extensions.py and tests/oracle/public_keys.py.

Of each document that is accepted, of examples/ as each kind, of the tables in tests/pkder, and of random requests and
public keys whose extensions and BIT STRINGs carry anything, the member `carries` of each line is compared: of an
`extnValue` of a known extension and of a `subjectPublicKey` of RSA it says what the contents are, and no other line has
it. The lines inside such a `subjectPublicKey` are compared too, by their fields, places and numbers: there are those of
an RSAPublicKey where it is in DER, and none elsewhere.

The random documents are the same in each run unless a seed is given. Where a thousand or more are made each known
extension and a key have to come with each verdict, and each reason that contents may have has to come too. The last
line is 'explained_extensions: N passed, M failed'."""
import argparse
import functools
import random
import sys
from collections import Counter
from pathlib import Path

sys.path[0] = str(Path(__file__).resolve().parents[2])
from tests.explained.documents import Document, answer, documents, objects_in, try_all
from tests.oracle.document_types import TYPES as KINDS, Walk
from tests.oracle.extensions import TYPES, carried
from tests.oracle.made_extensions import RequestMaker
from tests.oracle.made_public_keys import PublicKeyMaker
from tests.oracle.parts import parts
from tests.oracle.public_keys import TYPES as KEY_TYPES, carried_key, held
from tests.oracle.reader import DEPTH, OCTETS, oid

COUNT = 3000
MANY = 1000
SHOWN = 4
VERDICTS = ("der", "not_der", "refused")
REASONS = """Truncated TooLong BadTag PastEnd BadEnd TooDeep WrongTag Extra LeftOut WrongForm BadLength Missing
BadInteger BadBoolean BadNull BadBits BadOid BadText EmptySet Trailing""".split()
# What has to come of keys that are looked into.
KEY, PUBLIC_KEY = "a public key", "subjectPublicKey"
NUMBERS = ("modulus", "publicExponent")
KEY_REASONS = """Truncated TooLong BadTag PastEnd BadEnd WrongTag Extra WrongForm BadLength Missing BadInteger
Trailing""".split()
IN_KEYS = ("unused bits", "in segments", "in segments with unused bits", "in segments, der")


def random_documents(seed, count):
    """Random requests and public keys, some under other limits."""
    chance = random.Random(seed)
    for number in range(count):
        layouts, is_request = chance.choice([0, 0, 0.1, 0.3]), number % 4 > 0
        maker = (RequestMaker if is_request else PublicKeyMaker)(chance, layouts)
        kind = "request" if is_request else "public"
        octets = maker.document(kind)
        depth = chance.randint(8, 14) if chance.random() < 0.2 else DEPTH
        limit = len(octets) + chance.randint(0, 9) if chance.random() < 0.1 else OCTETS
        yield Document(f"random document {number} of seed {seed}", kind, octets, depth, limit)


class Carrying:
    """An `extnValue` or a `subjectPublicKey`: its place and depth, the contents of the identifier before it, and the
    contents of it or of its segments with the places of these."""

    def __init__(self, element, identifier):
        self.at, self.depth, self.path, self.identifier = element.at, element.depth, element.path, identifier
        self.is_key, self.is_in_segments, self.pieces = element.name == PUBLIC_KEY, element.is_constructed, []

    def take(self, element, octets):
        """Takes the contents of it, or of one of its segments."""
        if not element.is_constructed:
            self.pieces.append((element.begin, octets[element.begin : element.end]))

    def contents(self):
        return [octets for _, octets in self.pieces]

    def known(self):
        """What it is a value of, where that is known."""
        arcs = {oid(it): it for it in TYPES}
        return dict.fromkeys(KEY_TYPES, KEY).get(self.identifier) if self.is_key else arcs.get(self.identifier)

    def due(self, limits):
        """What `carries` is due."""
        carries = carried_key if self.is_key else lambda it, pieces, *limits: carried(it, b"".join(pieces), *limits)
        return carries(self.identifier, self.contents(), *limits)

    def lines_inside(self):
        """The lines inside a key that is in DER: each by its place, depth, name and type, and what it says."""
        places = [begin + it for begin, octets in self.pieces if octets[0] == 0 for it in range(1, len(octets))]
        whole = parts(held(self.contents()))[0]
        yield places[0], self.depth + 1, None, "RSAPublicKey", None
        at = len(whole.octets) - len(whole.contents)
        for name, it in zip(NUMBERS, parts(whole.contents)):
            yield places[at], self.depth + 2, name, None, said_of(it.contents)
            at += len(it.octets)


def said_of(contents):
    """What the line of an INTEGER has as its value."""
    number = int.from_bytes(contents, "big", signed=True)
    if len(contents) <= 4 and number >= 0:
        return {"integer": number}
    return {"octets": len(contents), "hexadecimal": contents.hex()}


def carrying_of(document):
    """Each `extnValue` and `subjectPublicKey` of a document that is accepted."""
    octets, found, identifier = document.octets, [], None
    walk = Walk(octets, KINDS[document.kind], document.depth, document.limit)
    while element := walk.next():
        if element.name in ("extnID", "algorithm") and not element.is_constructed:
            identifier = octets[element.begin : element.end]
        elif element.name in ("extnValue", PUBLIC_KEY):
            found.append(Carrying(element, identifier))
            found[-1].take(element, octets)
        elif found and element.path.startswith(found[-1].path + "{"):
            # (a segment)
            found[-1].take(element, octets)
    return found


def dues_of(document):
    """What is due of each extnValue of a known extension and of each key that is looked into, by its place: what it is
    of, and `carries`; and the lines inside the key."""
    limits = document.depth, document.limit
    known = [it for it in carrying_of(document) if it.known()]
    dues = {it.at: (it.known(), it.due(limits)) for it in known}
    inside = [line for it in known if it.is_key and dues[it.at][1]["verdict"] == "der" for line in it.lines_inside()]
    return dues, inside, [it for it in known if it.is_key]


def cases(seed, count):
    """What looks at a program's report of each document that is accepted; at last what the documents lacked."""
    told = Counter()
    for it in [*documents(), *random_documents(seed, count)]:
        if it.accepted():
            dues, inside, keys = dues_of(it)
            told.update(said for due in dues.values() for said in counted_of(due))
            told.update(said for key in keys for said in counted_of_key(key, dues[key.at][1]))
            yield it.name, functools.partial(wrong_in, it, dues, inside)
    lacking = [f"there is none: {it}" for it in due_to_come() if not told[it]] if count >= MANY else []
    yield "all documents", lambda _: lacking


def counted_of(due):
    """What is counted of what carries something: what it is of with the verdict, and the reason."""
    of, said = due
    return [f"{of}, {said['verdict']}", *([said["reason"]] if "reason" in said else [])]


def counted_of_key(key, said):
    """What more is counted of a key."""
    is_unused = any(it[:1] > b"\0" for it in key.contents())
    words = {"unused bits": is_unused, "in segments": key.is_in_segments,
             "in segments with unused bits": is_unused and key.is_in_segments,
             "in segments, der": key.is_in_segments and said["verdict"] == "der"}
    return [f"{KEY}, {said.get('reason')}", *(f"{KEY}, {it}" for it, is_so in words.items() if is_so)]


def due_to_come():
    """What has to be counted in many documents."""
    of_keys = [*VERDICTS, *KEY_REASONS, *IN_KEYS]
    return [*(f"{arcs}, {verdict}" for arcs in TYPES for verdict in VERDICTS), *REASONS,
            *(f"{KEY}, {it}" for it in of_keys)]


def wrong_in(document, dues, inside, program):
    """What is wrong with what the program says of a document, of which this is due."""
    status, output, error = answer(program, document.words("explain", "--json", "--all"), document.octets)
    if status > 1 or error:
        return [f"{document.kind}: status {status}, {error[:200]!r}"]
    lines = objects_in(output).get("lines", [])
    found = {it.get("at"): it["carries"] for it in lines if "carries" in it}
    said = [*differences(found, dues), *wrong_inside(document, lines, inside)]
    return [f"{document.kind}\n  {document.octets.hex()[:600]}\n  " + "\n  ".join(said[:SHOWN])] if said else []


def wrong_inside(document, lines, due):
    """What is wrong with the lines inside a key: those of an RSAPublicKey, with its two fields, and of no other one."""
    begins = [number for number, it in enumerate(lines) if it.get("type") == "RSAPublicKey"]
    found = [(it["at"], it["depth"], it.get("name"), it.get("type"), it.get("value"))
             for begin in begins for it in lines[begin : begin + 3]]
    fields = [it["name"] for it in lines if it.get("name") in NUMBERS]
    if found != due:
        yield f"inside a key: {found}, and not {due}"
    elif document.kind in ("request", "public") and fields != [*NUMBERS] * bool(due):
        yield f"{fields} have lines"


def differences(found, dues):
    """What differs between what is said at some places and what is due there."""
    for at in sorted({*found, *dues}):
        arcs, due = dues.get(at, ("of no known extension", None))
        if found.get(at) != due:
            yield f"at {at}, {arcs}: {found.get(at)}, and not {due}"


def main(words):
    parser = argparse.ArgumentParser(description=__doc__, formatter_class=argparse.RawDescriptionHelpFormatter)
    parser.add_argument("--seed", default="extensions")
    parser.add_argument("--count", type=int, default=COUNT)
    parser.add_argument("programs", nargs="*", metavar="PROGRAM")
    asked = parser.parse_args(words)
    look = lambda program, case: case(program)
    return try_all("explained_extensions", __doc__, asked.programs, cases(asked.seed, asked.count), look)


if __name__ == "__main__":
    sys.exit(main(sys.argv[1:]))
