#!/usr/bin/env python3
"""asks.py PROGRAM..: what `pkder explain` says that a request asks for, and what a document of another kind holds,
beside tests/oracle/asked.py and tests/oracle/held.py, and beside what other tools read of the same document.

Of each document the lines under `asks for` and `holds` of `explain` and of `explain --all`, and the objects `asks` and
`holds` of both under --json, with the order of their members, are compared whole. The documents are:

- the files of examples/ and of tests/pkder/explained as each kind, and the documents of the tables in tests/pkder. Of
  one that is refused, and of a package, there are no such lines and no such object, and of any other one of the two;
- random requests, keys, public keys, EC keys and encrypted keys (tests/oracle/made_asking.py), some under another limit
  on depth. The seed is told, and SEED in the environment is another one; COUNT is how many are made. Where a thousand
  or more are, all that the lines may say has to come;
- requests and public keys that openssl makes. Of each name, usage and purpose and of each size and exponent of an RSA
  key that openssl and `cryptography` (pyca) read in these there has to be a line, and none else of such kinds;
  addresses are compared by the standard library. A tool that isn't there is told;
- of these and of the first all that have a `holds`: its identifiers and numbers are those that openssl lists, of a
  private key of RSA also how long the modulus is, and the exponent.

The last line is 'explained_asks: N passed, M failed', a document counting once for each of these."""
import json
import os
import random
import re
import sys
from collections import defaultdict
from pathlib import Path

sys.path[0] = str(Path(__file__).resolve().parents[2])
from tests.explained.asked_reports import Program
from tests.explained.documents import Document, documents
from tests.explained.places import listed_by_openssl
from tests.oracle.asked import USAGES, Asked
from tests.oracle.asked_words import identifier, value_words
from tests.oracle.held import Held
from tests.oracle.made_asking import AskingMaker, HoldingMaker
from tests.oracle.reader import DEPTH
from tests.oracle.requests_of_tools import READERS, made_by_openssl, read_in_lines, tools_that_lack
from tools.gate.looks import counted

COUNT = 4000
MANY = 1000
# How many documents a program is handed at once.
AT_ONCE = 1000
COMMANDS = ("explain", "explain --all", "explain --json", "explain --json --all")
ASKS, HOLDS = "asks for", "holds"
KEYS = {ASKS: "asks", HOLDS: "holds"}
HOLDING = ("key", "ec", "public", "encrypted")
BLOCK = re.compile(rf"(?m)^({ASKS}|{HOLDS})\n((?:.+(?:\n|\Z))*)")
# What has to come in the lines of many requests, and in those of many documents of other kinds.
OF_KEYS = [" bits, exponent ", ", modulus below 0", ", exponent 0x", ", exponent 65537",
           "octets, not in DER", "octets, not of its type"]
TO_COME = {
    ASKS: ["constructed", "not in DER", "not of its type", "octets, not looked into", "constructed, not looked into",
           "empty", "  subject    empty\n", "cA FALSE", "cA TRUE", "..", ", critical", ", not shown", "\\u{202e}",
           "\\u{00a0}", "\\u{0000}", "\\\\", "\\,", "\\+", "NULL", *OF_KEYS,
           "constructed, not in DER", "constructed, not of its type",
           *(f"      {it} " for it in ("DNS", "email", "URI", "IP", "OID")),
           *(f"      {it}\n" for it in USAGES), *(f"{it}=" for it in "C CN DC L O OU ST STREET UID".split())],
    HOLDS: [*OF_KEYS, *(f"  curve      {it}\n" for it in ("not named", "P-256", "1.2.3")), "  encrypted  id-PBES2, ",
            ", 65537", ", 2147483647", *(f"  key        {it}\n" for it in ("rsaEncryption", "X448"))],
}


def random_documents(seed, count):
    """Random documents, every other one a request, some under another limit on depth."""
    chance = random.Random(seed)
    for number in range(count):
        layouts, kind = chance.choice([0, 0, 0.1, 0.3]), chance.choice(["request"] * 5 + [*HOLDING, "public"])
        octets = (AskingMaker if kind == "request" else HoldingMaker)(chance, layouts).document(kind)
        depth = chance.randint(8, 14) if chance.random() < 0.2 else DEPTH
        yield Document(f"random {kind} {number} of seed {seed}", kind, octets, depth)


def due_of(document):
    """The head, the lines and the object that are due; None where there are none."""
    if document.kind not in ("request", *HOLDING) or not document.accepted():
        return None
    given = document.octets, document.depth, document.limit
    if document.kind == "request":
        asked = Asked(*given)
        return ASKS, asked.text(), asked.object()
    held = Held(document.kind, *given)
    return HOLDS, held.text(), held.object()


def batches(given):
    """Lists of documents with what is due of them, each of one kind and under the same limits."""
    found = defaultdict(list)
    for it in given:
        found[it.kind, it.depth, it.limit].append((it, due_of(it)))
    for cases in found.values():
        yield from (cases[at : at + AT_ONCE] for at in range(0, len(cases), AT_ONCE))


def said_of(program, cases):
    """What the program says of each document: a text for each command."""
    first = cases[0][0]
    limits = first.words("explain")[3:]
    with program.files([it.octets for it, _ in cases]) as folder:
        said = [program.said(folder, first.kind, [*it.split(), *limits], len(cases)) for it in COMMANDS]
    return zip(*said)


def wrong_in_text(text, due):
    """What is wrong with the lines of a text."""
    found = BLOCK.findall(text)
    heads = [head for head, _ in found]
    if heads != ([due[0]] if due else []):
        yield f"the heads are {heads}"
    elif due and text.split("\n")[2:4] != ["", due[0]]:
        yield f"{due[0]!r} doesn't stand after the answer"
    elif due and found[0][1] != due[1]:
        pairs = enumerate(zip([*found[0][1].split("\n"), None], [*due[1].split("\n"), None]))
        number, (line, due_line) = next((it for it in pairs if it[1][0] != it[1][1]), (0, ("?", "?")))
        yield f"line {number + 1} under {due[0]!r} is {line!r}, and not {due_line!r}"


def wrong_in_object(found, due, at):
    """What is wrong with an object, the order of its members too: the first place where it differs."""
    if isinstance(found, dict) and isinstance(due, dict) and [*found] == [*due]:
        return next(filter(None, (wrong_in_object(found[key], due[key], f"{at}.{key}") for key in due)), None)
    if isinstance(found, list) and isinstance(due, list) and len(found) == len(due):
        pairs = enumerate(zip(found, due))
        return next(filter(None, (wrong_in_object(*both, f"{at}[{number}]") for number, both in pairs)), None)
    texts = json.dumps(found), json.dumps(due)
    return None if texts[0] == texts[1] else f"{at} is {texts[0][:300]}, and not {texts[1][:300]}"


def wrong_in(said, due):
    """What is wrong with what each command says of a document."""
    for command, output in zip(COMMANDS, said):
        text = output.decode()
        if "--json" in command:
            whole = json.loads(text)
            dues = {head: due[2] if due and due[0] == head else None for head in KEYS}
            whys = (wrong_in_object(whole.get(key), dues[head], key) for head, key in KEYS.items())
            yield from (f"{command}: {it}" for it in whys if it)
        else:
            yield from (f"{command}: {it}" for it in wrong_in_text(text, due))


def looks_at(program, cases):
    """Each document of a batch with what is wrong, and whether nothing is."""
    for (document, due), said in zip(cases, said_of(program, cases)):
        why = [*wrong_in(said, due)]
        told = f"{program.name}: {document.name}\n  {document.octets.hex()[:600]}\n  " + "\n  ".join(why)
        yield told, not why


def blocks_of(program, kind, given):
    """The lines under the head that the program has of each document."""
    with program.files([it.octets for it in given]) as folder:
        said = program.said(folder, kind, ["explain"], len(given))
    return [(BLOCK.findall(it.decode()) or [("", "")])[0][1] for it in said]


def looks_by_tools(program, made):
    """The same of requests and public keys that openssl made, by what other tools read in them."""
    for kind in ("request", "public"):
        of_kind = [it for it in made if it.kind == kind]
        for it, block in zip(of_kind, blocks_of(program, kind, of_kind) if of_kind else []):
            for tool, read in READERS.items():
                found, due = read_in_lines(block), read(kind, it.octets)
                differ = [f"only by {tool} {sorted(due - found)}", f"only here {sorted(found - due)}"]
                yield f"{program.name}: {it.name}, {', '.join(differ)}\n  {it.octets.hex()[:600]}", found == due


def words_listed(kind, octets):
    """The identifiers and numbers of a document that has `holds`, but for those in a public key, by the elements that
    openssl lists; None where it can't list them."""
    root = listed_by_openssl(octets)
    if root is None:
        return None
    if kind == "ec":
        among = [it for last in root.members[2:] if last.tag == "context 0" for it in last.members]
    elif kind == "encrypted":
        among = root.members[0].all()
    else:
        among = root.members[1 if kind == "key" else 0].members
    found = []
    for it in (it for it in among if not it.constructed):
        contents = octets[it.at + it.header : it.end]
        number = int.from_bytes(contents, "big", signed=True)
        if it.tag == "universal 6":
            found.append(value_words(identifier(contents)))
        elif it.tag in ("universal 2", "universal 10") and kind == "encrypted" and 0 <= number < 1 << 31:
            found.append(str(number))
    size = rsa_size_listed(root.members[2], octets) if kind == "key" and found[0] == "rsaEncryption" else []
    return [*found, *size] or ["not named"]


def rsa_size_listed(private, octets):
    """The size of the modulus and the exponent that openssl lists inside `privateKey`, which may be in segments."""
    inside = b"".join(octets[it.at + it.header : it.end] for it in private.all() if not it.constructed)
    numbers = listed_by_openssl(inside).members[1:3]
    modulus, exponent = (int.from_bytes(inside[it.at + it.header : it.end], "big", signed=True) for it in numbers)
    if modulus < 0:
        return []
    return [f"{modulus.bit_length()} bits", *([f"exponent {exponent}"] if 0 <= exponent < 1 << 31 else [])]


def looks_by_listing(program, given):
    """The same of documents that have `holds`, by the elements that openssl lists: their identifiers and numbers."""
    for kind in HOLDING:
        of_kind = [it for it in given if it.kind == kind and it.accepted()]
        for it, block in zip(of_kind, blocks_of(program, kind, of_kind) if of_kind else []):
            due, found = words_listed(kind, it.octets), block.split(maxsplit=1)[1].strip().split(", ")
            # (after these stands what is said of a public key)
            found = found[: len(due)] if due and kind == "public" else found
            yield f"{program.name}: {it.name}, {found}, and openssl lists {due}", due is None or found == due


def lacking(cases, count):
    """What no line of the random documents says."""
    for head, words in TO_COME.items() if count >= MANY else []:
        texts = "\n".join(due[1] for it, due in cases if due and due[0] == head and it.name.startswith("random"))
        yield from (f"{head}: {it!r}" for it in words if it not in texts)


def looks(programs, seed, count):
    """All that is looked at."""
    made = [Document(name, kind, octets) for name, kind, octets in made_by_openssl(seed)]
    known = [*documents("tests/pkder/explained"), *made]
    found = [*batches([*known, *random_documents(seed, count)])]
    yield from ((f"none has {it}", False) for it in lacking([case for cases in found for case in cases], count))
    for program in programs:
        for cases in found:
            yield from looks_at(program, cases)
        yield from looks_by_tools(program, made)
        # (where openssl is, requests were made)
        yield from looks_by_listing(program, known if made else [])


def main(words):
    seed, count = os.environ.get("SEED", "asks"), int(os.environ.get("COUNT", COUNT))
    if not words:
        sys.exit(__doc__)
    print(f"seed {seed}", *(f"; left out: {it}" for it in tools_that_lack()), sep="")
    return counted("explained_asks", looks([Program(os.path.abspath(it)) for it in words], seed, count))


if __name__ == "__main__":
    sys.exit(main(sys.argv[1:]))
