#!/usr/bin/env python3
"""run.py [--root DIR] [--again] [--write] [PEER..]: the vectors handed to other readers that Debian has, and what each
does.

It is run by hand. Each peer is a driver in this folder, of some 40 lines: its first line on standard output is what it
is, in JSON, and then for each line KIND HEX of standard input it answers `-` where it refuses the document, `+` and
what it writes of it in hex where it takes it. A driver is asked through the call that users of its library make, for
the kinds that it claims, and counts as crashed where it dies or says nothing for ten seconds. With --root the packages
are those that are unpacked in DIR (`dpkg -x`), beside the ones that are installed; what can't be built or started is
left out, and said. --write writes docs/peers.md, between its marks; with --again it does so of the answers of the run
before, and asks nobody. Not counted are tests under other limits than the usual ones, and those with a flag: pkder's
own choices, keys that aren't real, signatures that aren't the key's."""
import json
import os
import re
import select
import subprocess
import sys
from collections import Counter, defaultdict
from functools import lru_cache
from pathlib import Path

TOP = sys.path[0] = str(Path(__file__).resolve().parents[1])
from peers import page, started
from peers.matters import MATTERS
from tests.oracle.reader import DEPTH, OCTETS, Fault
from vectors.judging import read

KINDS = ("key", "ec", "request", "public", "encrypted", "package")
KEPT = f"{started.OUT}/answers.json"
SECONDS = 10
CRASHED, REFUSED = "!", "-"
# RFC 8410's, those of curves and of any EC key, of RSA, DSA and PBES2, as they stand in documents.
ALGORITHMS = """
06032b656e 06032b656f 06032b6570 06032b6571 06052b81040021 06082a8648ce3d030107 06052b8104000a 06052b81040022
06052b81040023 06072a8648ce3d0201 06092a864886f70d010101 06092a864886f70d01010a 06072a8648ce380401
06092a864886f70d01050d""".split()


def is_asked(test):
    """Whether a test is handed to readers: one that is counted, or a choice that is among those that matter most."""
    is_listed = any(re.search(it.pattern, test["comment"]) for it in MATTERS)
    return not test["flags"] or test["flags"] == ["profile"] and "reason" in test and is_listed


def tests():
    """The tests that are asked, by their kind and number."""
    found = {}
    for kind in KINDS:
        with open(f"{TOP}/vectors/{kind}.json", encoding="utf-8") as file:
            groups = json.load(file)["testGroups"]
        found |= {(kind, it["tcId"]): it | {"kind": kind} for it in groups[0]["tests"] if is_asked(it)}
    return found


def algorithm_of(document):
    """The algorithm of the key in a document, and its curve, by their identifiers in hex."""
    found = [it for it in ALGORITHMS if it in document]
    return found[0] if found else None


class Peer:
    """A driver that runs."""

    def __init__(self, words, told):
        self.words, self.told, self.process = words, told, None
        self.about = self.start()

    def start(self):
        """Starts the driver, and returns what it says of itself."""
        how = {"stdin": subprocess.PIPE, "stdout": subprocess.PIPE, "stderr": subprocess.DEVNULL}
        self.process, self.left = subprocess.Popen(self.words, env=self.told, **how), b""
        return json.loads(self.line(60))

    def line(self, seconds=SECONDS):
        """The next line of the driver; nothing where it ended or takes too long."""
        while b"\n" not in self.left:
            if not select.select([self.process.stdout], [], [], seconds)[0]:
                return ""
            part = os.read(self.process.stdout.fileno(), 1 << 16)
            if not part:
                return ""
            self.left += part
        line, _, self.left = self.left.partition(b"\n")
        return line.decode()

    def answer(self, kind, document):
        """What it answers of a document; one that it dies of is a crash, and it is started again."""
        try:
            self.process.stdin.write(f"{kind} {document or '-'}\n".encode())
            self.process.stdin.flush()
        except BrokenPipeError:
            pass
        found = self.line()
        if not found:
            self.end()
            self.start()
        return found or CRASHED

    def end(self):
        self.process.kill()
        self.process.wait()
        self.process.stdin.close()
        self.process.stdout.close()


def answers(peer, given):
    """What a peer answers of the tests of the kinds that it claims; of faults inside privateKey nothing is asked of one
    that doesn't read what is in there."""
    asked = {key: it for key, it in given.items() if key[0] in peer.about["kinds"]}
    if not peer.about.get("inside", True):
        asked = {key: it for key, it in asked.items() if it.get("reason") != "Inner"}
    return {key: peer.answer(key[0], it["document"]) for key, it in asked.items()}


@lru_cache(None)
def value_of(kind, digits):
    """The DER encoding of a document that a reader wrote; None where it isn't one of this kind."""
    try:
        return read(kind, bytes.fromhex(digits), DEPTH, OCTETS).hex()
    except Fault:
        return None


def outcome_of_written(test, written):
    """What a reader makes of a document that it may take, by what it writes of it."""
    if not written or "der" not in test:
        return "taken"
    if written == test["der"]:
        return "as DER"
    return "in BER" if value_of(test["kind"], written) == test["der"] else "as another value"


def outcome(test, found):
    """What an answer is, by what is due."""
    if found == CRASHED:
        return "crashed"
    is_taken, result = found != REFUSED, test["result"]
    if result == "acceptable":
        return outcome_of_written(test, found[1:]) if is_taken else "refused"
    return "right" if is_taken == (result == "valid") else "wrong"


def claimed(given, found):
    """The answers of a peer on kinds and algorithms of which it takes a valid document, and those on which it
    crashed: what it doesn't know it refuses for that alone."""
    taken = {(key[0], algorithm_of(given[key]["document"])) for key, answer in found.items()
             if given[key]["result"] == "valid" and answer.startswith("+")}
    return {key: answer for key, answer in found.items()
            if answer == CRASHED or (key[0], algorithm_of(given[key]["document"])) in taken}


def counted(given, found):
    """How often each outcome came of each result; choices aren't counted."""
    counts = defaultdict(Counter)
    for key, answer in found.items():
        if not given[key]["flags"]:
            counts[given[key]["result"]][outcome(given[key], answer)] += 1
    return counts


def told_by(about, counts):
    rows = (f"{sum(it.values())} {result}: {dict(it)}" for result, it in counts.items())
    return f"{about['name']} {about['version']}: {'; '.join(rows)}"


def asked(root, names, given):
    """Asks the readers of these names, or all: what each says of itself, and its answers."""
    for name, command, environment in started.drivers(root, names):
        try:
            peer = Peer(command, environment)
        except (OSError, ValueError) as error:
            print(f"left out: {name}: {error}")
            continue
        found = claimed(given, answers(peer, given))
        peer.end()
        print(told_by(peer.about, counted(given, found)), flush=True)
        yield peer.about, found


def main(words):
    root = words[words.index("--root") + 1] if "--root" in words else "/"
    names = [it for it in words if not it.startswith("--") and it != root]
    given = tests()
    if "--again" in words:
        with open(KEPT, encoding="utf-8") as file:
            kept = json.load(file)
        all_found = [(about, {(kind, number): it for kind, number, it in found}) for about, found in kept]
    else:
        all_found = [*asked(root, names, given)]
        with open(KEPT, "w", encoding="utf-8") as file:
            json.dump([(about, [(*key, it) for key, it in found.items()]) for about, found in all_found], file)
    if "--write" in words:
        page.write(given, all_found, outcome, counted)
    return 0


if __name__ == "__main__":
    sys.exit(main(sys.argv[1:]))
