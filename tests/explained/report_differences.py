"""What the reports of two documents may differ in, which one line of `check` has and which differ in private octets.

Of an accepted document nothing may. Of a refused one: the path of the field, but for numbers in it, and so how deep the
line of the fault's place is; the class of what is found, which is one of few and has no size; what the file looks like,
where private octets are among the first LOOKED_AT of the file, anywhere in a damaged one, or letters of a text; and
with each of these `likely` and `do`; of octets after the document `likely` and the brief answer, by whether these are a
line feed, an end of line or zeros."""
import json
import re
from itertools import groupby

from tests.oracle.parts import Part, arcs
from tests.oracle.reader import base_128
from tests.oracle.secret_documents import SECRETS
from tests.oracle.secret_octets import TELLING

LOOKED_AT = 6
# Octets of headers, which small numbers of a report may be, too.
USUAL = {*TELLING, *range(16)}
TOLD = re.compile(r"^(field|found|likely|do) +(.*(?:\n {8}.*)*)\n", re.M)
LOOKS = ("looks_like", "likely", "do", "brief")
TOLD_KEYS = ("field", "found", *LOOKS)
# The classes of elements that a report tells.
CLASSES = {"INTEGER", "BIT STRING", "OCTET STRING", "NULL", "OBJECT IDENTIFIER", "UTF8String", "SEQUENCE", "SET", "[0]",
           "[1]"}
PLACE = re.compile(r"^( *[0-9]+) +\(not shown\)", re.M)
INDEX = re.compile(r"[\[{]([0-9]+)[\]}]")
# (a place and a reason inside privateKey come first in their object)
TRAILING = re.compile(r'^fault at [0-9]+: Trailing$|,"at":[0-9]+,"reason":"Trailing"', re.M)
RUN, MORE = 4, 6
HEXADECIMAL = re.compile(r"[0-9A-Fa-f]{2}(?:[ :]?[0-9A-Fa-f]{2}){3,}")
NUMBERS = re.compile(r"[0-9]+(?:[., ]+[0-9]+)*")
ESCAPED = re.compile(r"\\+(?:x|u00)([0-9A-Fa-f]{2})")


def parted(text):
    """What a report tells on purpose, and the rest of it: as text, as JSON or as the path of a field alone."""
    if text.startswith("{"):
        rest = json.loads(text)
        return {it: rest.pop(it) for it in TOLD_KEYS if it in rest}, rest
    if "\n" not in text:
        return {"field": text}, ""
    return dict(TOLD.findall(text)), TOLD.sub("", text)


def first_difference(one, other, way=""):
    """The way to the first difference of two values of JSON, without numbers of members."""
    if isinstance(one, dict) and isinstance(other, dict):
        for key in [*one, *other]:
            if one.get(key) != other.get(key):
                return first_difference(one.get(key), other.get(key), f"{way}.{key}".strip("."))
    if isinstance(one, list) and isinstance(other, list):
        for mine, others in zip(one, other):
            if mine != others:
                return first_difference(mine, others, way)
        return f"{way}, how many"
    return way if one is not None and other is not None else f"{way}, whether it is told"


def after_class(found):
    """What is found beside the class of an element."""
    words = " ".join((found or "").split())
    first, _, after = words.partition("; ")
    return after if first in CLASSES else words


def without_depth(rest):
    """The rest of a report, but for how deep the line of the fault's place is."""
    if isinstance(rest, str):
        return PLACE.sub(r"\1 (not shown)", rest)
    lines = [it if it.get("value", {}).get("shown", True) else {**it, "depth": None} for it in rest.get("lines", [])]
    return {**rest, "lines": lines} if lines else rest


def is_told_on_purpose(key, one, other, is_looked_at):
    """Whether a report may tell this of two documents."""
    if key in LOOKS:
        return is_looked_at
    if key == "found":
        return after_class(one) == after_class(other)
    numbers = [INDEX.findall(it or "") for it in (one, other)]
    return all(mine == others for mine, others in zip(*numbers))


def differences(one, other, is_accepted, is_looked_at):
    """In what two texts differ: what they may, and what they may not."""
    if one == other:
        return [], []
    (told, rest), (other_told, other_rest) = parted(one), parted(other)
    keys = [it for it in TOLD_KEYS if told.get(it) != other_told.get(it)]
    allowed = [] if is_accepted else [
        it for it in keys if is_told_on_purpose(it, told.get(it), other_told.get(it), is_looked_at)]
    if {"field", "found"} & {*allowed}:
        # (words on where the fault is, and on what stands there)
        allowed += [it for it in ("likely", "do", "brief") if it in keys and it not in allowed]
    if TRAILING.search(one):
        allowed += [it for it in ("likely", "brief") if it in keys and it not in allowed]
    wrong = [it for it in keys if it not in allowed]
    if "field" in allowed:
        rest, other_rest = without_depth(rest), without_depth(other_rest)
    if rest != other_rest:
        wrong.append(first_difference(rest, other_rest) if isinstance(rest, dict) else "text")
    return allowed, wrong


def rules_that_fail():
    """Cases of the rules above that aren't judged as they should be: two texts, and what may not differ in them."""
    report = "key, 9 octets\nfault at 0: WrongTag\n\nfield   {}\nfound   {}\nlikely  {}\n"
    one = report.format("privateKey", "INTEGER", "one")
    other = report.format("version", "[1]", "two,\n        or three")
    told = '{{"at":0,"field":"attributes[{}].values[0]","lines":[{{"at":{}}}]}}'
    cases = [
        (one, one, []), (one, other, []), (one, report.format("privateKey", "SET of 9 octets", "one"), ["found"]),
        (one, report.format("privateKey", "[24]", "one"), ["found"]), (one, report.format("x", "INTEGER", "one"), []),
        (report.format("x", "SET; 9 octets", "one"), report.format("x", "9\n        octets", "one"), []),
        (one, report.format("privateKey", "INTEGER; 9 octets", "one"), ["found"]),
        (one, report.format("privateKey", "INTEGER", "two"), ["likely"]), (one, one.replace("9", "8"), ["text"]),
        (told.format(0, 1), told.format(1, 1), ["field"]), (told.format(0, 1), told.format(0, 2), ["lines.at"]),
    ]
    deep = "fault at 9: Extra\n\n9  {}(not shown)\n\nfield   {}\n"
    cases += [(deep.format("", "privateKey"), deep.format("  ", "version"), []),
              (deep.format("", "privateKey"), deep.format("  ", "privateKey"), ["text"])]
    followed = "key, 9 octets\nfault at 8: Trailing\n\nlikely  {}\ndo      {}\n"
    cases += [(followed.format("one", "it"), followed.format("two", "it"), []),
              (followed.format("one", "it"), followed.format("one", "that"), ["do"])]
    of_sound = [(one, report.format("version", "INTEGER", "one"), ["field"])]
    return [f"{mine!r} and {others!r} aren't judged as {due}" for is_sound, those in ((False, cases), (True, of_sound))
            for mine, others, due in those if differences(mine, others, is_sound, False)[1] != due]


def runs_in(octets):
    """The runs of RUN octets, and of more where they are letters and figures, which words have too."""
    few = {octets[at : at + RUN] for at in range(len(octets) - RUN + 1)}
    return {it for it in few if not it.isalnum()} | {octets[at : at + MORE] for at in range(len(octets) - MORE + 1)}


def octets_told(text):
    """What octets a text may tell: as characters, escaped or not, in hexadecimal, as numbers and as arcs."""
    yield ESCAPED.sub(lambda it: chr(int(it[1], 16)), text).encode("latin-1", "replace")
    for found in HEXADECIMAL.findall(text):
        digits = re.sub("[ :]", "", found)
        yield bytes.fromhex(digits)
        yield bytes.fromhex(digits[1:-1])
    for found in NUMBERS.findall(text):
        numbers = [*map(int, re.findall("[0-9]+", found))]
        yield from (bytes(those) for are_octets, those in groupby(numbers, lambda it: it < 256) if are_octets)
        yield b"".join(map(base_128, numbers))
        if len(numbers) > 1:
            yield b"".join(map(base_128, [40 * numbers[0] + numbers[1], *numbers[2:]]))
        for it in numbers:
            yield it.to_bytes(it.bit_length() // 8 + 1, "big")


def runs_told(text):
    return {run for octets in octets_told(text) for run in runs_in(octets)}


def runs_told_alone(text, other):
    """The runs of octets that a text tells in pieces which another hasn't."""
    cut = re.compile(r"\n|(?<=\}),|(?<=,)(?=\")")
    others = {*cut.split(other)}
    return {run for it in cut.split(text) if it not in others for run in runs_told(it)}


def untold_forms(octets):
    """The forms in which octets may be told and aren't seen to be; as arcs those of an object identifier, whose last
    subidentifier ends, and of which none begins with 80 (X.690 8.19.2)."""
    identifier = octets[:-1].replace(b"\x80", b"\x81") + bytes([octets[-1] & 0x7F])
    forms = {
        "hexadecimal": octets.hex(), "capitals": octets.hex().upper(), "spaces": octets.hex(" "),
        "colons": octets.hex(":"), "a number": str(int.from_bytes(octets, "big")), "octets": str([*octets])[1:-1],
        "an odd place": f"a{octets.hex()}", "arcs of octets": ".".join(map(str, octets)),
        "escapes": "".join(f"\\x{it:02x}" for it in octets), "characters": octets.decode("latin-1"),
        "escapes of JSON": "".join(f"\\u00{it:02x}" for it in octets), "arcs": arcs(Part(6, b"", identifier)),
    }
    seen = {name: runs_in(identifier if name == "arcs" else octets) for name in forms}
    return [name for name, text in forms.items() if not seen[name] & runs_told(f"value {text} of it")]


def private_runs(octets, marks):
    """The runs of private octets of a document that don't stand among its public ones too, nor are usual ones."""
    public, secrets = bytearray(), {}
    for octet, mark in zip(octets, marks):
        if mark >= SECRETS:
            secrets.setdefault(mark, bytearray()).append(octet)
        else:
            public.append(octet)
    found = {run for it in secrets.values() for run in runs_in(bytes(it))} - runs_in(bytes(public))
    return {it for it in found if len({*it} - USUAL) > 2}
