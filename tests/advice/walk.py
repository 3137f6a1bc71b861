"""A file, taken to where the words lead: pkder is asked, what it says is done, and pkder is asked again."""
import json
import os
import re
import subprocess
from typing import List, NamedTuple, Optional

from tests.advice import doing, other_ways

DEPTH = 6
# Commands that only read a form of text: what they write is what was there.
READING = re.compile(r"(?:pem|from_base64|from_base64url|from_hex|xxd|tr|iconv|jq|awk) ")
DER, NOT_DER, REFUSED = "DER", "not DER", "refused"


class Tried(NamedTuple):
    """A step that was tried: who said it, in which words, what was run, and whether it led to a sound document."""

    source: str
    words: str
    command: str
    worked: bool


class Way(NamedTuple):
    """Where a file led to: whether to a document that is accepted, of this kind; what it was before anything was done
    to it; what was tried; and what was said where nothing helped."""

    end: Optional[str]
    kind: str
    came: str
    tried: List[Tried]
    said: str = ""


class Walker:
    """Asks a program, with a folder for what is written on the way."""

    def __init__(self, program, folder, tool, want):
        self.program, self.folder, self.tool, self.due = program, folder, tool, other_ways.KINDS[want]
        self.is_locked = want == "encrypted"
        self.seen, self.written = set(), 0
        os.makedirs(folder, exist_ok=True)

    def asked(self, kind, path):
        """What explain says."""
        ran = subprocess.run([self.program, "explain", "--json", "--kind", kind, path], capture_output=True)
        return json.loads(ran.stdout)

    def follow(self, kind, path, ran=()):
        """The way of a file that is taken for this kind, and that these commands led to."""
        told = self.asked(kind, path)
        if told["status"] == 0:
            return Way(path if kind in self.due else None, kind, DER, [], f"it is of kind {kind}")
        if told["status"] == 1:
            return self.normalised(kind, path, told)
        return self.refused(kind, path, told, ran)

    def normalised(self, kind, path, told):
        """What is sound, and not in DER: what normalise writes is kept, and of a request the signature is good."""
        made = self.place()
        ran = subprocess.run([self.program, "normalise", "--kind", kind, "--to", made, path], capture_output=True)
        is_good = not ran.returncode and self.asked(kind, made)["status"] == 0
        if is_good and kind == "request":
            is_good = verified(path) or verified(made)
        tried = Tried("explain", told["do"], "pkder normalise", is_good)
        return Way(made if is_good else None, kind, NOT_DER, [tried], told["do"])

    def place(self):
        """A path that nothing has."""
        self.written += 1
        return f"{self.folder}/{self.written}"

    def steps(self, kind, told, octets):
        """What is said, by explain and then by the manual."""
        words = told.get("do") or ""
        for step in doing.of_words(kind, told):
            yield "explain", words, step
        for step in doing.of_formats(kind, octets, self.due):
            yield "manual", words, step
        for step in doing.of_refused(kind, self.tool, told, octets):
            yield "manual", words, step

    def refused(self, kind, path, told, ran):
        """What becomes of a refused file as one does what is said."""
        tried: List[Tried] = []
        octets = doing.octets_of(path)
        if len(ran) >= DEPTH or (kind, octets) in self.seen:
            return Way(None, kind, REFUSED, tried, told.get("do") or "")
        self.seen.add((kind, octets))
        came, said = REFUSED, told.get("do") or ""
        for source, words, step in self.steps(kind, told, octets):
            # (what was done once isn't done again to what came of it)
            if step.command and step.command in ran:
                continue
            found, _ = doing.done(step, path, self.place(), self.is_locked)
            way = self.follow(step.kind, found, (*ran, step.command)) if found else None
            tried.append(Tried(source, words, step.command or f"--kind {step.kind}", bool(way and way.end)))
            if way and is_reading(step):
                came, said = way.came, way.said or said
            if way and way.end:
                return Way(way.end, way.kind, came, tried + way.tried)
            tried += way.tried if way else []
        return Way(None, kind, came, tried, said)


def is_reading(step):
    """Whether a step only reads a form of text, or as another kind."""
    return step.command is None or bool(READING.match(step.command))


def verified(path):
    """Whether the signature of a request is good, by openssl."""
    words = ["openssl", "req", "-inform", "DER", "-in", path, "-noout", "-verify"]
    ran = subprocess.run(words, capture_output=True, text=True, errors="replace")
    return not ran.returncode and "verify OK" in ran.stderr


# The public key


PUBLIC = {
    "key": (["pkey"],), "ec": (["pkey"],), "encrypted": (["pkey"],), "public": (["pkey", "-pubin"],),
    "request": (["req", "-pubkey"],),
}


def public_key(path, kind, forms=("DER",)):
    """The modulus or the point of the public key of a file as openssl reads it, or None where it doesn't."""
    for words in PUBLIC.get(kind, ()):
        for form in forms:
            locked = ["-passin", f"pass:{doing.SECRET}"] if kind != "public" else []
            shown = ["-noout"] + (["-text_pub"] if words[0] == "pkey" else [])
            words_of_form = ["openssl", *words, "-inform", form, "-in", path, *locked, *shown]
            # (without a terminal of its own it asks for nothing)
            ran = subprocess.run(words_of_form, capture_output=True, stdin=subprocess.DEVNULL, start_new_session=True)
            text = ran.stdout
            if words[0] == "req" and not ran.returncode:
                text = subprocess.run(["openssl", "pkey", "-pubin", "-noout", "-text_pub"], input=text,
                                      capture_output=True).stdout
            found = re.search(rb"(?:Modulus|pub):\s*((?:[0-9a-f]{2}:?\s*)+)", text)
            if found:
                return found[1].translate(None, b": \n")
    return None


def is_same_key(came, kind, way):
    """Whether what a file led to has its public key; None where openssl can't tell."""
    before, after = public_key(came, kind, ("PEM", "DER")), public_key(way.end, way.kind)
    return before == after if before and after else None


# A file


class Outcome(NamedTuple):
    """What became of a file that somebody has for an end: what it was, whether it led anywhere, by whom, and what
    would have helped where nothing that was said did."""

    file: str
    want: str
    came: str
    is_sound: bool
    by: str
    tried: List[Tried]
    said: str
    would: Optional[str] = None
    is_same: Optional[bool] = None


def kinds_of(want, path, way):
    """The kinds that fit a file, beside the first one."""
    is_ec = want == "private" and (way.kind == "ec" or b"EC PRIVATE KEY" in doing.octets_of(path))
    return ("ec",) if is_ec else ("key",) if want == "encrypted" else ()


def outcome(program, folder, tool, path):
    """What becomes of a file, asked for as each kind that fits: the worst counts."""
    want = os.path.basename(path).split("-")[0]
    first = other_ways.KINDS[want][0]
    ways = [(first, walk(program, f"{folder}/first", tool, path, first))]
    for kind in kinds_of(want, path, ways[0][1]):
        ways.append((kind, walk(program, f"{folder}/{kind}", tool, path, kind)))
    kind, worst = min(ways, key=lambda it: bool(it[1].end))
    tried = [it for _, way in ways for it in way.tried]
    by = "manual" if any(it.worked and it.source == "manual" for it in tried) else "explain"
    would = None if worst.end else helped(program, folder, tool, path, want)
    # (of several keys another one than openssl's first may be taken)
    is_one = not any(it.command.startswith("awk") for it in worst.tried)
    is_same = is_same_key(path, kind, worst) if worst.end and worst.tried and is_one else None
    return Outcome(path, want, worst.came, bool(worst.end), by, tried, worst.said, would, is_same)


def walk(program, folder, tool, path, kind):
    """The way of a file."""
    return Walker(program, folder, tool, os.path.basename(path).split("-")[0]).follow(kind, path)


def helped(program, folder, tool, path, want):
    """The command that helps with a file where nothing that was said did, or None."""
    for step in other_ways.ways_of(want, doing.octets_of(path)):
        walker = Walker(program, f"{folder}/others", tool, want)
        found, _ = doing.done(step, path, walker.place(), walker.is_locked)
        if found and any(walker.follow(kind, found).end for kind in other_ways.KINDS[want]):
            return step.command
    return None
