#!/usr/bin/env python3
"""pairs.py [LIBRARY] PROGRAM..: reports say nothing of private octets beyond the line of `check`.

A pair is a document of tests/oracle/secret_documents.py whose private octets are filled in two ways, both damaged
alike, in none to three steps, and read alike, some under another kind. Wherever `check` has one line of both, all
reports of the two have to be one text, but for what tests/explained/report_differences.py lets them tell of a refused
document; and so what `same` says of each and a third filling. Where the lines differ, no four private octets stand in a
row in any text, but among words that it also has of other octets.

The pairs are new ones in each run: the first line has the seed. SEED=N in the environment takes that one, PAIRS=N tries
so many, and JOBS=N does so in so many processes. LIBRARY is a libpkder.so.0, which makes most of the reports where it
is given; each PROGRAM makes those of some pairs, of each command that tells of documents.

The last line is 'explained_pairs: N passed, M failed'."""
import contextlib
import json
import os
import random
import sys
import time
from collections import Counter
from multiprocessing import Pool
from pathlib import Path

sys.path[0] = str(Path(__file__).resolve().parents[2])
from tests.explained.asked_reports import WHOLE, Library, Program
from tests.explained.chance import are_in_words, chances_that_fail, is_by_chance
from tests.explained.report_differences import (
    LOOKED_AT, differences, private_runs, rules_that_fail, runs_told_alone, untold_forms)
from tests.oracle import reader
from tests.oracle.private_places import (
    differ_in_private, name_and_key_begin_of, part_at, private_places, subject_of)
from tests.oracle.secret_documents import CONTENTS, KINDS, SECRETS, Grammar
from tests.oracle.secret_octets import Filling, damaged

# A unit of pairs: documents, ways to fill each, damages of each of these.
DOCUMENTS, FILLINGS, DAMAGES = 8, 4, 9
UNIT = DOCUMENTS * FILLINGS * DAMAGES
PAIRS, PAIRS_BY_PROGRAM = 40000, 5000
# One of so many units goes to the programs too, and so many of its pairs to `same`; one of so many pairs of two lines
# is looked through for octets.
BY_PROGRAM, BY_SAME, LOOKED_THROUGH = 20, 4, 8
SHOWN = 15


class Pair:
    """Two documents and a third, which differ in private octets; how they are read."""

    def __init__(self, kind, name, document, marks, texts):
        self.kind, self.name, self.marks, self.texts = kind, name, marks, texts
        self.is_text = document.write is not None
        # (two octets may be one BOOLEAN, and unused bits are none)
        self.are_exact = not {"boolean", "bits"} & {*document.secrets}

    def is_looked_at(self):
        """Whether what the file looks like may depend on private octets."""
        marks = self.marks if " steps" in self.name else self.marks[:LOOKED_AT]
        return self.is_text or any(it >= SECRETS for it in marks)

    def spells_an_end(self):
        """Whether private octets of one of a public key's documents alone are end-of-contents octets (X.690 8.1.5)."""
        ends = [{at for at in range(len(self.marks) - 1) if self.marks[at] >= SECRETS and text[at : at + 2] == b"\0\0"}
                for text in self.texts[:2]]
        return self.kind == "public" and ends[0] != ends[1]

    def has_private_header(self, report):
        """Whether private octets are in the header of a container that is listed, with its first member after it."""
        lines = json.loads(report).get("lines", [])
        return any(it.get("constructed") and after["at"] == it["at"] + it["header"] and "header" in after
                   and any(mark >= SECRETS for mark in self.marks[it["at"] : after["at"]])
                   for it, after in zip(lines, lines[1:]) if "header" in it)

    def has_private_name(self):
        """Whether the damage put private octets into a request's subject, or into what says that its public key
        follows."""
        return self.kind == "request" and any(self.marks[at] >= SECRETS
                                              for it in self.texts[:2] for at in name_and_key_begin_of(it))

    def made_public(self, asked, texts, is_looked_at):
        """What the damage made of private octets of a refused document that a report may tell of them, if anything."""
        if is_by_chance(asked, self.kind, self.texts[:2], is_looked_at):
            return "they happen to be what is usual there"
        if any(self.has_private_header(it[WHOLE]) for it in texts):
            return "they are in the header of a usual container"
        if self.spells_an_end():
            return "they end a public key's contents"
        return "they stand in a subject" if self.has_private_name() else ""

    def marks_of(self, at):
        """The marks of one of the documents, which is sound, by reading it."""
        private = private_places(self.kind, self.texts[at])
        return [SECRETS if it in private else CONTENTS for it in range(len(self.texts[at]))]

    def are_private(self):
        """Whether the two, which are sound, differ in nothing that their damage left public."""
        return differ_in_private(self.kind, *self.texts[:2])

    def are_apart_alike(self):
        """Whether of the secrets of the third those are the same as of the first that are the same as of the second."""
        if not self.are_exact:
            return False
        one, other, third = ([*secrets_of(it, self.marks).values()] for it in self.texts)
        return [[it == mine for mine in third] for it in one] == [[it == mine for mine in third] for it in other]


def secrets_of(octets, marks):
    found = {}
    for octet, mark in zip(octets, marks):
        if mark >= SECRETS:
            found.setdefault(mark, bytearray()).append(octet)
    return found


def pairs(chance):
    """The pairs of a unit."""
    for _ in range(DOCUMENTS):
        document = Grammar(chance).document()
        for _ in range(FILLINGS):
            filling = Filling(chance, document)
            if not filling.differ():
                continue
            marks, texts = filling.texts[0].marks, [it.octets for it in filling.texts]
            for _ in range(DAMAGES):
                steps, left, found = damaged(chance, marks, texts)
                kind = document.kind if chance.random() < 0.85 else chance.choice(KINDS)
                if found[0] != found[1]:
                    name = f"{document.kind}, {document.name}, {steps} steps, read as {kind}"
                    yield Pair(kind, name, document, left, found)


def pairs_of_some_values(chance, count):
    """Pairs of sound documents with attributes, some of whose secrets are those of the third file."""
    for _ in range(count):
        document = Grammar(chance).document_with_values()
        filling = Filling(chance, document, 0.5)
        if filling.differ():
            texts = [it.octets for it in filling.texts]
            yield Pair(document.kind, f"{document.kind}, {document.name}", document, filling.texts[0].marks, texts)


class Found:
    """What was found of some pairs."""

    def __init__(self):
        self.count, self.failed, self.first = Counter(), Counter(), {}

    def wrong(self, what, pair, how):
        """Counts what is wrong, and keeps the first pair of each."""
        self.failed[what] += 1
        octets = "".join(f"\n  {it.hex()}" for it in pair.texts[: 3 if "same" in what else 2])
        self.first.setdefault(what, f"{what}: {pair.name}{octets}\n  {how}")

    def add(self, more):
        self.count += more.count
        self.failed += more.failed
        for what, how in more.first.items():
            self.first.setdefault(what, f"{how}\n  (after {self.count['pairs']} pairs)")


def difference_of(one, other):
    """Where two texts begin to differ."""
    at = next((it for it, both in enumerate(zip(one, other)) if both[0] != both[1]), min(len(one), len(other)))
    begin = max(0, at - 50)
    return f"{one[begin : at + 40]!r} and {other[begin : at + 40]!r}"


def compare(found, asked, pair, texts, is_accepted):
    """Compares all reports of a pair."""
    is_looked_at, wrong = pair.is_looked_at(), {}
    for name, one in texts[0].items():
        other = texts[1][name]
        if one == other or name == "show" and b"\nattribute " in one:
            # (which shows values of attributes as they are)
            continue
        one, other = one.decode(), other.decode()
        allowed, apart = differences(one, other, is_accepted, is_looked_at)
        found.count.update(f"{it} of a refused document" for it in allowed if "--json --all" in name)
        for it in apart:
            wrong.setdefault(it, f"{name}: {difference_of(one, other)}")
    made = wrong and not is_accepted and pair.made_public(asked, texts, is_looked_at)
    if made:
        found.count[f"refused, and left apart: {made}"] += 1
    elif wrong and (not is_accepted or pair.are_private()):
        for it, how in wrong.items():
            found.wrong(f"{'accepted' if is_accepted else 'refused'}, {pair.kind}: {it}", pair, how)
        return False
    return True


def look_through(found, asked, pair, texts, are_accepted):
    """Whether no text has private octets in a row, in pieces that the other one hasn't, but among its words."""
    for at, is_accepted in enumerate(are_accepted):
        runs = private_runs(pair.texts[at], pair.marks_of(at) if is_accepted else pair.marks)
        for name in ("explain --all", "explain --json --all"):
            told = runs & runs_told_alone(texts[at][name].decode(), texts[1 - at][name].decode())
            told = {it for it in told if not are_in_words(asked, pair.kind, pair.texts[at], it, name)}
            if told:
                found.wrong(f"octets in a row, {pair.kind}", pair, f"{name} has {min(told).hex(' ')}")
                return False
    return True


def chosen(pairs, lines):
    """Those pairs that have one line, and some that have two, each with its lines."""
    both = [(it, (lines[at], lines[at + len(pairs)])) for at, it in enumerate(pairs)]
    likes = [it for it in both if it[1][0] == it[1][1]]
    return likes, [it for it in both if it[1][0] != it[1][1]][::LOOKED_THROUGH]


def try_kind(found, asked, kind, pairs):
    """Tries pairs that are read as one kind, and returns those that are accepted and have one line."""
    if not pairs:
        return []
    likes, apart = chosen(pairs, asked.lines(kind, [it.texts[at] for at in (0, 1) for it in pairs]))
    texts = iter(asked.texts(kind, [it.texts[at] for it, _ in likes + apart for at in (0, 1)]))
    accepted = []
    for pair, lines in likes:
        is_accepted = asked.is_accepted(lines[0])
        if is_accepted:
            accepted.append(pair)
        found.count["failed"] += not compare(found, asked, pair, [next(texts), next(texts)], is_accepted)
    for pair, lines in apart:
        are_accepted = [*map(asked.is_accepted, lines)]
        found.count["failed"] += not look_through(found, asked, pair, [next(texts), next(texts)], are_accepted)
    found.count["pairs"] += len(pairs)
    found.count["pairs of one line"] += len(likes)
    found.count["accepted pairs of one line"] += len(accepted)
    return accepted


def try_same(found, asked, pairs):
    """Tries what `same` says of each document of a pair and of the third."""
    for pair in pairs:
        if not all(map(asked.is_accepted, asked.lines(pair.kind, pair.texts))):
            continue
        if not pair.are_apart_alike() or not pair.are_private():
            continue
        one, other = (asked.same_texts(pair.kind, it, pair.texts[2]) for it in pair.texts[:2])
        found.count["pairs held against a third"] += 1
        wrong = [name for name in one if one[name] != other[name]]
        if wrong:
            found.count["failed"] += 1
            found.wrong(f"same, {pair.kind}", pair, difference_of(one[wrong[0]].decode(), other[wrong[0]].decode()))


def try_unit(given):
    """What is found of a unit of pairs."""
    seed, number, library, programs = given
    chance, found = random.Random(f"{seed} {number}"), Found()
    tried, some = [*pairs(chance)], [*pairs_of_some_values(chance, BY_SAME)]
    asked = [Library(library)] if library else []
    if not library or number % BY_PROGRAM == 0:
        asked += map(Program, programs)
    for it in asked:
        accepted = []
        for kind in KINDS:
            accepted += try_kind(found, it, kind, [pair for pair in tried if pair.kind == kind])
        try_same(found, it, some + chance.sample(accepted, min(BY_SAME, len(accepted))))
    return found


def grammar_is_wrong(seed):
    """Where making and reading documents don't agree on what is private, of sound ones."""
    chance, count, subjects = random.Random(f"grammar {seed}"), 0, 0
    for _ in range(400):
        document = Grammar(chance).document()
        filling = Filling(chance, document)
        text = filling.texts[0]
        # (where fields are amiss a private number may stand in the place of a public one, or a bare key be an element)
        is_amiss = document.write or "amiss" in document.name or "bare" in document.name
        if is_amiss or reader.answer("check", document.kind, text.octets)[0] > 1:
            continue
        count += 1
        if document.kind == "request" and subject_of(text.octets):
            subjects += 1
            if subject_is_wrong(text.octets):
                yield f"the subject isn't found where it stands: {text.octets.hex()}"
        marked = {at for at, mark in enumerate(text.marks) if mark >= SECRETS}
        if marked != private_places(document.kind, text.octets):
            yield f"{document.kind}, {document.name}: {text.octets.hex()}"
    if count < 100 or subjects < 10:
        yield f"only {count} documents of 400 are sound, with {subjects} subjects"


def subject_is_wrong(octets):
    """Whether what is taken for a sound subject ends elsewhere, or is one still where it says that it is longer."""
    end = part_at(octets, range(len(octets)), 0).members[0].members[1].end
    begin = subject_of(octets).start
    longer = octets[: begin - 1] + bytes([octets[begin - 1] + 1 & 255]) + octets[begin:]
    return subject_of(octets).stop != end or len(subject_of(longer)) > 0


def main(words):
    library = next((os.path.abspath(it) for it in words if ".so" in os.path.basename(it)), None)
    programs = [os.path.abspath(it) for it in words if ".so" not in os.path.basename(it)]
    if not programs and not library:
        sys.exit(__doc__)
    seed = os.environ.get("SEED") or str(random.SystemRandom().randrange(10**9))
    count = int(os.environ.get("PAIRS") or (PAIRS if library else PAIRS_BY_PROGRAM))
    jobs = int(os.environ.get("JOBS", "1"))
    print(f"SEED={seed}", flush=True)
    began, whole = time.monotonic(), Found()
    untold = untold_forms(random.Random(seed).randbytes(7))
    wrong = [f"private octets that are told as {it} aren't seen" for it in untold]
    wrong += [*rules_that_fail(), *chances_that_fail(), *grammar_is_wrong(seed)]
    units = ((seed, number, library, programs) for number in range(-(-count // UNIT)))
    with Pool(jobs) if jobs > 1 else contextlib.nullcontext() as pool:
        for found in pool.imap(try_unit, units) if pool else map(try_unit, units):
            whole.add(found)
    if whole.count["pairs of one line"] < whole.count["pairs"] / 2:
        wrong.append("too few pairs have one line")
    return end(whole, wrong, time.monotonic() - began)


def end(found, wrong, seconds):
    """Says what was found, and answers the status."""
    for what, how in [*found.first.items()][:SHOWN]:
        print(f"{how}\n  {found.failed[what]} times")
    print("".join(f"{it}\n" for it in wrong), end="")
    for name, count in sorted(found.count.items()):
        print(f"{count:9} {name}")
    print(f"{found.count['pairs'] / seconds:9.0f} pairs a second")
    failed = found.count["failed"] + len(wrong)
    passed = found.count["pairs"] + found.count["pairs held against a third"] - found.count["failed"]
    print(f"explained_pairs: {passed} passed, {failed} failed", flush=True)
    return 1 if failed else 0


if __name__ == "__main__":
    sys.exit(main(sys.argv[1:]))
