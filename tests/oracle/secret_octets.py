"""Octets for the secrets of a document of tests/oracle/secret_documents.py, which say nothing by themselves or look
like headers; and damage, done to several fillings alike."""
import functools
import re

from tests.oracle.secret_documents import HEADER, SECRETS, Text

# Runs of marks.
IS_HEADER = re.compile(bytes([HEADER]))
PRIVATE = re.compile(b"[\\x%02x-\\xff]+" % SECRETS)
RUN_OF_SECRET = re.compile(b"([\\x%02x-\\xff])\\1*" % SECRETS, re.S)

# Octets that tell readers much.
TELLING = bytes.fromhex("30020405068081828384a0a131191fff0001240c1303")
TAGS = bytes.fromhex("3004020606313003 a0a12405010c130581")


def like_headers(chance, count):
    """So many octets that read as elements, one in another, whose ends may fall together with that of the secret."""
    found = b""
    while len(found) < count:
        left = count - len(found) - 2
        which = chance.randrange(12)
        if which < 6:
            length = max(0, left + chance.choice((0, 0, 0, 0, -1, 1, -2)))
            found += bytes([chance.choice(TAGS), min(length, 255)])
        elif which == 6:
            found += bytes([2, 1, chance.choice((0, 1, 1, 2, 5, 66, chance.randrange(256)))])
        elif which == 7:
            found += bytes([chance.choice(TAGS), chance.choice((0, 1, 2, 3, 4, 8, 0x80, 0x81, 0x82, 0x84, 0x89, 0xFF))])
        elif which == 8:
            found += chance.choice((b"\0\0", b"\0", b"\5\0", b"\6\3\x2b\x65\x70", b"\x30\x80", b"\x24\x80\4\4"))
        elif which == 9:
            found += bytes([chance.choice(TAGS), 0x81, max(0, left - 1)])
        else:
            found += bytes(left + 2) if which == 10 else chance.randbytes(left + 2)
    return found[:count]


def octets_of(chance, what, count):
    """Octets for a secret of so many."""
    if what == "boolean":
        return bytes([chance.choice((255, 255, 1, 0))])
    if what == "characters" and chance.random() < 0.7:
        return bytes(chance.choices(b"ABCDEFGHIJKLMNOPQRSTUVWXYZabcdefghijklmnopqrstuvwxyz0123456789", k=count))
    found = bytearray(like_headers(chance, count) if chance.random() < 0.5 else chance.randbytes(count))
    if count and what == "integer" and chance.random() < 0.9:
        found[0] = found[0] & 0x3F | 0x40
    elif count and what == "bits" and chance.random() < 0.9:
        found[0] &= 7
    elif what == "arcs" and chance.random() < 0.9:
        found = bytearray(it & 0x7F for it in found)
    return bytes(found)


class Filling:
    """Three ways to fill a document, of one length: two that are compared, and a third that both are held against. Some
    secrets are the same in all three, others differ in few octets."""

    def __init__(self, chance, document, part_of_known=0.0):
        marks = document.text.marks
        rooms = [bytearray(document.text.octets) for _ in range(3)]
        part_of_known = part_of_known or (0.4 if chance.random() < 0.3 else 0)
        runs = {}
        for it in RUN_OF_SECRET.finditer(marks):
            runs.setdefault(marks[it.start()], []).append(it.span())
        for number, spans in runs.items():
            count = sum(end - begin for begin, end in spans)
            values = values_of(chance, document.secrets[number - SECRETS], count, part_of_known)
            for room, value in zip(rooms, values):
                at = 0
                for begin, end in spans:
                    room[begin:end] = value[at : at + end - begin]
                    at += end - begin
        texts = [Text(it, marks) for it in rooms]
        self.texts = [document.write(it) for it in texts] if document.write else texts

    def differ(self):
        return self.texts[0].octets != self.texts[1].octets


def values_of(chance, what, count, part_of_known):
    """Three values of a secret."""
    one, other, third = (octets_of(chance, what, count) for _ in range(3))
    way = chance.random()
    if way < part_of_known:
        return one, one, one
    if way > 0.8:
        few = chance.randint(1, 4)
        other = other[:few] + one[few:]
    return one, other, third


@functools.lru_cache(64)
def telling_places(marks):
    """The places of headers, and those just before private octets and where these begin."""
    return [it.start() for it in IS_HEADER.finditer(marks)], [it.start() for it in PRIVATE.finditer(marks)]


def chosen_place(chance, marks):
    """A place in a document, most often one of a header or near where private octets begin."""
    headers, begins = telling_places(marks)
    way = chance.random()
    if headers and way < 0.6:
        # (those in front stand before most of what is private)
        return chance.choice(headers[:8] if way < 0.25 else headers)
    if begins and way < 0.8:
        return min(len(marks) - 1, max(0, chance.choice(begins) + chance.randint(-4, 2)))
    return chance.randrange(len(marks))


def telling_octet(chance):
    return chance.choice(TELLING) if chance.random() < 0.7 else chance.randrange(256)


def step(chance, marks):
    """A step of damage, as a function of octets and of whether they are marks."""
    if not marks:
        return put_in(0, bytes([telling_octet(chance)]))
    at, way = chosen_place(chance, marks), chance.random()
    if way < 0.17:
        return flipped(at, 1 << chance.randrange(8))
    if way < 0.24:
        return added(at, chance.choice((1, 1, -1, 2, -2, chance.randrange(3, 100))))
    if way < 0.42:
        return put_over(at, bytes([telling_octet(chance)]))
    if way < 0.52:
        return put_over(at, bytes([telling_octet(chance), telling_octet(chance)]))
    if way < 0.70:
        return taken_out(at, chance.choice((1, 1, 1, 2, 2, 3)))
    if way < 0.82:
        return put_in(at, bytes(telling_octet(chance) for _ in range(chance.choice((1, 1, 2, 3)))))
    if way < 0.91:
        to, count = chosen_place(chance, marks), chance.choice((1, 2, 2, 4, 8, 33))
        return copied(at, to, count) if way < 0.865 else moved(at, to, count)
    if way < 0.94:
        return taken_out(at, len(marks))
    if way < 0.98:
        return taken_out(0, min(at, len(marks)) if chance.random() < 0.6 else chance.choice((1, 2, 3, 4, 7, 12, 48)))
    return put_in(len(marks), bytes(telling_octet(chance) for _ in range(chance.choice((1, 2, 4)))))


def flipped(at, bits):
    return lambda it, is_marks: it if is_marks else it[:at] + bytes([it[at] ^ bits]) + it[at + 1 :]


def added(at, number):
    return lambda it, is_marks: it if is_marks else it[:at] + bytes([it[at] + number & 255]) + it[at + 1 :]


def put_over(at, octets):
    return lambda it, is_marks: it[:at] + (bytes(len(octets)) if is_marks else octets) + it[at + len(octets) :]


def taken_out(at, count):
    return lambda it, _: it[:at] + it[at + count :]


def put_in(at, octets):
    return lambda it, is_marks: it[:at] + (bytes(len(octets)) if is_marks else octets) + it[at:]


def copied(at, to, count):
    return lambda it, _: it[:to] + it[at : at + count] + it[to:]


def moved(at, to, count):
    def move(it, _):
        rest = it[:at] + it[at + count :]
        return rest[:to] + it[at : at + count] + rest[to:]
    return move


def damaged(chance, marks, texts):
    """The marks and the octets of texts after none to three steps of damage, and how many these were."""
    steps = chance.choices((0, 1, 2, 3), (6, 60, 22, 12))[0]
    for _ in range(steps):
        do = step(chance, marks)
        marks, texts = do(marks, True), [do(it, False) for it in texts]
    return steps, marks, texts
