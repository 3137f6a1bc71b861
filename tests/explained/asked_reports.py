"""The reports of many documents: by the library, in this process, or by a program that reads them from files."""
import contextlib
import ctypes
import os
import re
import shutil
import subprocess
import tempfile

from tests.oracle.secret_documents import KINDS

DEPTH, OCTETS = 32, 1048576
# Reports as the library makes them: their names, and the numbers of their forms.
FORMS = {"explain": 0, "explain --all": 1, "explain --json": 2, "explain --json --all": 3,
         "explain --json --profile tls": 6}
WHOLE = "explain --json --all"
ACCEPTED, NOT_DER = 0, 5
# What the program is asked for beside its line.
COMMANDS = ("explain", "explain --all", "explain --json", "explain --json --all", "explain --places 1",
            "explain --json --places 2", "explain --json --profile tls", "check --json", "check --json --places 1",
            "check --json --profile tls", "show --json")
# What `same` is asked for of two files; the last of keys alone.
SAME = ("@00000 @00001", "@00001 @00000", "--json @00000 @00001", "--json @00001 @00000", "--key @00000 @00001")
ROOM = 1 << 20
NAME = re.compile(rb"^@([0-9]{5}):[ \n]", re.M)
FILE = re.compile(rb'"file":"@[0-9]{5}",')
MEMORY = "/dev/shm"


class Outcome(ctypes.Structure):
    """pkder_outcome."""

    _fields_ = [(name, ctypes.c_uint32) for name in ("status", "reason", "inside_reason", "which")] + [
        (name, ctypes.c_uint64) for name in ("at", "inside_at", "taken", "size")]

    def line(self):
        """What the line of `check` tells, as numbers."""
        return self.status, self.reason, self.inside_reason, self.which, self.at, self.inside_at


class Library:
    """A libpkder.so.0."""

    def __init__(self, path):
        self.name, self.room = path, ctypes.create_string_buffer(ROOM)
        library = ctypes.CDLL(path)
        number, numbers = ctypes.c_uint32, [ctypes.c_uint32, ctypes.c_uint32, ctypes.c_uint64]
        octets, room = [ctypes.c_char_p, ctypes.c_size_t], [ctypes.c_void_p, ctypes.c_size_t]
        calls = {"check": numbers + octets, "same": numbers + octets + octets, "show": numbers + octets + room,
                 "field": numbers + octets + room, "explain": [*numbers, number, *octets, *room]}
        for name, takes in calls.items():
            function = getattr(library, f"pkder_{name}")
            function.argtypes, function.restype = takes, Outcome
            setattr(self, name, function)

    def written(self, outcome):
        """What a call wrote."""
        if outcome.size > ROOM:
            raise ValueError("a report of more than a mebibyte")
        return ctypes.string_at(self.room, outcome.size)

    def lines(self, kind, documents):
        """What `check` says of each."""
        number = KINDS.index(kind) + 1
        return [self.check(number, DEPTH, OCTETS, it, len(it)).line() for it in documents]

    @staticmethod
    def is_accepted(line):
        return line[0] in (ACCEPTED, NOT_DER)

    def texts(self, kind, documents):
        """All that is said of each, by names."""
        number = KINDS.index(kind) + 1
        for it in documents:
            given = it, len(it)
            found = {name: self.written(self.explain(number, DEPTH, OCTETS, form, *given, self.room, ROOM))
                     for name, form in FORMS.items()}
            found["field"] = self.written(self.field(number, DEPTH, OCTETS, *given, self.room, ROOM))
            found["show"] = self.written(self.show(number, DEPTH, OCTETS, *given, self.room, ROOM))
            yield found

    def listings(self, kind, documents):
        """The whole report of each, as JSON."""
        number = KINDS.index(kind) + 1
        return [self.written(self.explain(number, DEPTH, OCTETS, FORMS[WHOLE], it, len(it), self.room, ROOM))
                for it in documents]

    def same_texts(self, kind, document, third):
        """What it says of two documents, in both orders."""
        number, one, other = KINDS.index(kind) + 1, (document, len(document)), (third, len(third))
        return {name: str(self.same(number, DEPTH, OCTETS, *two).line()).encode()
                for name, two in (("same", one + other), ("same, the other way round", other + one))}


class Program:
    """The program pkder, which is handed files of a folder in memory."""

    def __init__(self, path):
        self.name = path

    def run(self, folder, words, names=""):
        how = {"input": names.encode(), "capture_output": True, "cwd": folder}
        return subprocess.run([self.name, *words], **how)

    @contextlib.contextmanager
    def files(self, documents):
        """A folder with a file of each document."""
        folder = tempfile.mkdtemp(dir=MEMORY if os.path.isdir(MEMORY) else None)
        try:
            for at, octets in enumerate(documents):
                with open(f"{folder}/@{at:05}", "wb") as it:
                    it.write(octets)
            yield folder
        finally:
            shutil.rmtree(folder)

    def said(self, folder, kind, words, count):
        """What a command says of each of so many files of a folder."""
        names = "".join(f"@{at:05}\0" for at in range(count))
        ran = self.run(folder, [*words, "--kind", kind, "--files0-from", "-"], names)
        if "--json" in words:
            found = [FILE.sub(b"", it, count=1) for it in ran.stdout.splitlines(keepends=True)]
        else:
            found = NAME.split(ran.stdout)[2::2]
        if len(found) != count or ran.stderr or ran.returncode > 2:
            raise ValueError(f"{self.name}, {words}: {len(found)} answers of {count}, {ran.stderr[:200]!r}")
        return found

    def lines(self, kind, documents):
        with self.files(documents) as folder:
            return self.said(folder, kind, ["check"], len(documents))

    @staticmethod
    def is_accepted(line):
        return not line.startswith(b"fault")

    def texts(self, kind, documents):
        with self.files(documents) as folder:
            said = [self.said(folder, kind, it.split(), len(documents)) for it in COMMANDS]
        return [dict(zip(COMMANDS, it)) for it in zip(*said)]

    def listings(self, kind, documents):
        with self.files(documents) as folder:
            return self.said(folder, kind, WHOLE.split(), len(documents))

    def same_texts(self, kind, document, third):
        found = {}
        with self.files([document, third]) as folder:
            for words in SAME[: len(SAME) if kind in ("key", "ec") else -1]:
                ran = self.run(folder, ["same", "--kind", kind, *words.split()])
                found[f"same {words}"] = ran.stdout + ran.stderr
        return found
