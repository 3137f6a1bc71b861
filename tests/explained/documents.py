"""Reports of `pkder explain`, and the documents that they are asked of."""
import glob
import json
import os
import shlex
import subprocess
import sys
from pathlib import Path

from tests.harness.rows import rows_of
from tests.oracle import reader
from tests.oracle.reader import DEPTH, KINDS, OCTETS
from tools.gate.looks import counted

TOP = str(Path(__file__).resolve().parents[2])
SECONDS = 60
HELP = {"--help", "-h"}


class Document:
    """Octets that are taken for a document of a kind, under limits."""

    def __init__(self, name, kind, octets, depth=DEPTH, limit=OCTETS):
        self.name, self.kind, self.octets, self.depth, self.limit = name, kind, octets, depth, limit

    def key(self):
        return self.kind, self.octets, self.depth, self.limit

    def words(self, action, *more):
        """The arguments of the program."""
        limits = [f"--depth={self.depth}"] * (self.depth != DEPTH) + [f"--octets={self.limit}"] * (self.limit != OCTETS)
        return [action, "--kind", self.kind, *limits, *more]

    def due(self):
        """The status and the line of `check`, as tests/oracle/reader.py has them."""
        status, output, error = reader.answer("check", self.kind, self.octets, self.depth, self.limit)
        return status, error or output.decode().removesuffix("\n")

    def accepted(self):
        return self.due()[0] < 2


def files(folder="examples"):
    """Each file of a folder, as a document of each kind."""
    for path in sorted(glob.glob(f"{TOP}/{folder}/*.der")):
        with open(path, "rb") as it:
            octets = it.read()
        for kind in KINDS:
            yield Document(f"{os.path.basename(path)}, kind {kind}", kind, octets)


def of_tables():
    """The documents of the tables for pkder, of the kinds and limits of their rows."""
    for path in [*sorted(glob.glob(f"{TOP}/tests/pkder/*.tsv")), f"{TOP}/examples/answers.tsv"]:
        for number, row in rows_of(path):
            words = row.words.split()
            if reader.has_part_in(words) and row.status < 3 and not row.device and not HELP & {*words}:
                asked = reader.command_line().parse_args(shlex.split(row.words))
                name = f"{os.path.relpath(path, TOP)}:{number}: {row.rule}"
                yield Document(name, asked.kind, row.input, asked.depth, asked.octets)


def documents(*folders):
    """The files of examples/ and of these folders and the documents of the tables, each once."""
    seen = set()
    for it in [*files(), *of_tables(), *(it for folder in folders for it in files(folder))]:
        if it.key() not in seen:
            seen.add(it.key())
            yield it


def answer(program, words, octets):
    """The status, standard output and standard error of a run."""
    how = {"capture_output": True, "timeout": SECONDS, "close_fds": False}
    ran = subprocess.run([program, *words], input=octets, **how)
    return ran.returncode, ran.stdout, ran.stderr


def objects_in(output):
    """The object of a line of JSON, which is all that there is. Raises ValueError where it isn't."""
    text = output.decode("utf-8")
    if text.count("\n") != 1 or not text.endswith("\n"):
        raise ValueError("not one line")
    found = json.loads(text)
    if not isinstance(found, dict):
        raise ValueError("no object")
    return found


def try_all(name, doc, words, cases, wrong):
    """Tries each case, which has a title, with each program that the words name, and answers the status of the test:
    what `wrong` says of a program and a case is told, and last of all 'NAME: N passed, M failed'."""
    programs = [os.path.abspath(it) for it in words]
    if not programs:
        sys.exit(doc)
    said = ([f"{title}: {it}: {why}" for it in programs for why in wrong(it, case)] for title, case in cases)
    return counted(name, (("\n".join(it), not it) for it in said))
