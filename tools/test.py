#!/usr/bin/env python3
"""test.py [PART..] | quick [PROGRAM]: every test of the repository, or of these parts, and what each part took.

Each part ends with a line "N passed, M failed", a word with a colon before it or not. One that doesn't, or whose
status is not 0, has failed. The last line counts over all parts. Those before the proofs take seconds; where one of
them fails, or the proofs do, nothing after it is begun. The edits of a crate are tried beside the proofs, over the
libraries that they leave; the parts after the proofs run the programs that they built.

'quick' proves nothing and tries no edits. Over the program that it is given, or that tools/build.py made of this very
commit, it runs all other parts; where there is none, some rows on a program that is made for a try."""
import contextlib
import functools
import glob
import os
import re
import shutil
import subprocess
import sys
import time
from concurrent.futures import ThreadPoolExecutor
from pathlib import Path

TOP = sys.path[0] = str(Path(__file__).resolve().parents[1])
from tools import build

FIRST = ("logic", "gate", "pages", "lint", "proofs")
ROWS = ["python3", "tests/harness/rows.py"]
GROWTHS = ["python3", "tests/harness/growths.py"]
TRANSCRIPTS = ["python3", "tests/harness/transcripts.py", "README.md", "docs/manual.md"]
PAGES = ("about", "advice_words", "decisions", "identifier_names", "lists", "report_schema", "shape_names")
EXPLAINED = ("answers", "asks", "extensions", "listing", "noted", "noted_names", "noted_tls", "objects", "places",
             "reports")
ALLOCATIONS = ["sh", "tests/harness/allocations.sh"]
# `rt ci` (every crate, a few edits by the toolchain's own means, each program's stored run), and the library
PROOFS = ["python3", "tools/build.py", "--again"]
EDITS = ["env", "LIBRARIES=proved", "nice", "-n", "19", "python3", "tools/edits.py", "--quarter"]


def built(name):
    """The program of this name."""
    return f"crates/{name}/out/{name}"


@functools.cache
def builds(program):
    """The program as the toolchain's compiler makes it, and as its second one does, where there is that."""
    second = f"{program}.by-rattle"
    if os.path.isfile(second):
        return [program, second]
    print(f"left out: there is no {second}, which the toolchain's second compiler makes", flush=True)
    return [program]


def library_of(program):
    """The library that was built with the program; of one from elsewhere none is known."""
    return [it for it, name in build.MADE.items() if name == "libpkder.so.0" and program == build.PROGRAM]


def tables(name):
    """The tables for the program of this name."""
    return sorted(glob.glob(f"tests/{name}/*.tsv"))


def rows_of(name, program):
    """Hands the tables for the program of this name to both builds of it."""
    if name == "pkder":
        return [*ROWS, *tables(name), "examples/answers.tsv", *builds(program)]
    return [*ROWS, "--line", *tables(name), *builds(built(name))]


def allocating():
    """A file and the words that read it, for each command and kind."""
    kinds = ("key p256", "ec k256-sec1-indefinite", "request request-indefinite", "public public-indefinite",
             "encrypted encrypted-indefinite", "package package-indefinite")
    for kind, name in map(str.split, kinds):
        for command in ("show", "check", "explain", "normalise"):
            yield f"examples/{name}.der", command, "--kind", kind
    for part in ("info", "algorithm", "key", "signature", "received"):
        yield "examples/request-indefinite.der", "signed", "--part", part
    yield "examples/p256.der", "same", "--kind", "key", "-", "examples/rfc8410-indefinite.der"
    yield "examples/p256.der", "same", "--key", "--kind", "key", "--kind", "ec", "-", "examples/p256-sec1.der"
    yield "examples/request-p256.der", "same", "--kind", "request", "--json", "-", "examples/request-rsa2048.der"
    yield "tests/pkder/explained/note-no-curve.der", "check", "--kind", "public", "--refuse", "must"
    yield "examples/request-web.der", "check", "--kind", "request", "--refuse", "tls"


def parts(program=build.PROGRAM):
    """The parts by their names and in their order, each with what says its commands once it is its turn."""
    return {
        "logic": lambda: [["python3", "tools/gate/logic.py"]],
        "gate": lambda: [["python3", "tools/gate/try_edits.py"], ["python3", "tools/gate/structure.py"]],
        "pages": lambda: [["python3", "tools/pages/what_to_read.py", "--check"],
                          *(["python3", f"tools/pages/{it}.py"] for it in PAGES)],
        "lint": lambda: [["python3", "tools/gate/lint.py"]],
        "proofs": lambda: [PROOFS],
        "edits": lambda: [EDITS],
        "interface": lambda: [["sh", "interface/test.sh"]],
        # (a folder of tests/ is of the program whose crate has its name, or else of what reads it below)
        "rows": lambda: [rows_of(it, program) for it in sorted(os.listdir("tests")) if os.path.isdir(f"crates/{it}")],
        "transcripts": lambda: [[*TRANSCRIPTS, *builds(program)]],
        "spellings": lambda: [["python3", "tests/harness/spellings.py", "tests/manual/spellings.tsv"]],
        "vectors": lambda: [
            ["python3", "vectors/make.py", "--check"],
            ["python3", "vectors/check.py", *builds(program)],
            ["python3", "vectors/try_check.py", program],
            *(["python3", "vectors/check.py", "--library", it] for it in library_of(program)),
            ["python3", "vectors/try_readme.py"],
        ],
        "intake": lambda: [["python3", "tests/intake/run.py", *library_of(program)]],
        "completions": lambda: [["python3", "tests/harness/completions.py", program]],
        "files": lambda: [["python3", "tests/harness/files.py", *builds(program)]],
        "allocations": lambda: [
            *([*ALLOCATIONS, program, *words] for words in allocating()),
            ["python3", "tests/harness/longer.py", program],
        ],
        "reader": lambda: [
            ["python3", "tests/oracle/try_reader.py", *tables("pkder"), "examples/answers.tsv"],
            ["python3", "tests/oracle/random_documents.py", *builds(program)],
            ["python3", "tests/oracle/hostile_families.py", *builds(program)],
        ],
        "explained": lambda: [
            *(["python3", f"tests/explained/{it}.py", *builds(program)] for it in EXPLAINED),
            # (new pairs in each run; by hand PAIRS=10000000 JOBS=4 before each landing that touches reports)
            ["python3", "tests/explained/pairs.py", *library_of(program), *builds(program)],
        ],
        "growths": lambda: [[*GROWTHS, built("rows"), *tables("rows")]],
        # (what needs packagers' tools is tried by hand: tools/release.py --try)
        "release": lambda: [["python3", "release/checks.py"]],
    }


def quick_parts(program):
    """The parts of a quick look, at this program or at the one that stands, or else at one that is made for a try."""
    if not program and not build.stands():
        print("Nothing is proved here: rows of each command, kind and reason, on a program made for a try.", flush=True)
        found = parts() | {"tried": lambda: [["python3", "tests/harness/tried_rows.py"]]}
        return {it: found[it] for it in ("logic", "gate", "pages", "lint", "tried")}
    print(f"Nothing is proved here: the parts that try {program or build.PROGRAM}.", flush=True)
    found, left_out = parts(program or build.PROGRAM), ["proofs", "edits"]
    if program:
        # (what else stands here need not be of one build with it)
        found["rows"] = lambda: [rows_of("pkder", program)]
        left_out += ["interface", "intake", "growths", "release", "rows of other programs"]
    if not shutil.which("rt"):
        left_out += ["logic"]
    print(f"left out: {', '.join(left_out)}", flush=True)
    os.environ["LIBRARY"] = "built"
    return {it: commands for it, commands in found.items() if it not in left_out}


class Count:
    """How many tests of a part passed and failed, and the seconds that it took by the clock and of processors."""

    def __init__(self, passed=0, failed=0, clock=0.0, processors=0.0):
        self.passed, self.failed, self.clock, self.processors = passed, failed, clock, processors

    def __add__(self, other):
        both = zip(vars(self).values(), vars(other).values())
        return Count(*(one + more for one, more in both))


def run(words, given=subprocess.DEVNULL, hear=lambda line: None):
    """Runs a command, shows what it says, and counts its tests."""
    began, last = time.monotonic(), ""
    how = {"stdin": given, "stdout": subprocess.PIPE, "stderr": subprocess.STDOUT, "errors": "replace"}
    ran = subprocess.Popen(words, **how)
    for line in ran.stdout:
        print(line, end="", flush=True)
        hear(line)
        last = line.strip() or last
    _, status, used = os.wait4(ran.pid, 0)
    ran.returncode = os.waitstatus_to_exitcode(status)
    found = re.fullmatch(r"(?:\w+: )?([0-9]+) passed, ([0-9]+) failed", last)
    passed, failed = (int(it) for it in found.groups()) if found else (0, 1)
    failed = max(failed, 1) if ran.returncode or not passed else failed
    return Count(passed, failed, time.monotonic() - began, used.ru_utime + used.ru_stime)


def run_part(commands):
    """Runs a part's commands, and counts its tests."""
    return sum(map(run, commands()), Count())


def prove_and_edit(pool):
    """Runs the proofs, and beside them the edits, which are told each crate that is proved. Returns what the proofs
    counted, and what will say it of the edits."""
    told, teller = os.pipe()
    with open(teller, "w", encoding="utf-8") as names:
        edits = pool.submit(run, [*EDITS, "--beside"], told)

        def tell(name):
            with contextlib.suppress(BrokenPipeError):
                print(name, file=names, flush=True)

        def hear(line):
            # (a toolchain that says nothing of this has them tried when all is proved)
            found = re.fullmatch(r"rt: (\w+) (?:proved|is kept: .*)", line.strip())
            if found:
                tell(found[1])

        proofs = run(PROOFS, hear=hear)
        if not proofs.failed:
            tell("all")
    os.close(told)
    return proofs, edits


def run_all(given, at_once):
    """Runs these parts, so many at once of those after the first ones, and returns what each counted."""
    counts, later = {}, {}
    with ThreadPoolExecutor(at_once) as pool:
        for name, commands in given.items():
            if name not in FIRST and name not in later:
                later[name] = pool.submit(run_part, commands)
            if name not in FIRST:
                continue
            if name == "proofs" and "edits" in given:
                counts[name], later["edits"] = prove_and_edit(pool)
            else:
                counts[name] = run_part(commands)
            if counts[name].failed:
                print(f"{name}: failed, so nothing after it is begun")
                break
            if name == "proofs":
                os.environ["LIBRARY"] = "built"
    return counts | {name: it.result() for name, it in later.items()}


def main(words):
    program = os.path.abspath(words[1]) if words[:1] == ["quick"] and len(words) == 2 else None
    os.chdir(TOP)
    known = parts()
    if program and os.path.isfile(program) or words == ["quick"]:
        counts = run_all(quick_parts(program), 4)
    elif {*words} <= {*known}:
        # (the edits, which are patient, and as many others as there are processors)
        asked = {"logic", *words} if words else known
        at_once = 1 + len(os.sched_getaffinity(0))
        counts = run_all({it: commands for it, commands in known.items() if it in asked}, at_once)
    else:
        print(f"{__doc__}\n\nThe parts are {', '.join(known)}.")
        return 0 if words == ["--help"] else 1
    print("by the clock, of processors, part:")
    for name, it in counts.items():
        print(f"{it.clock:7.0f} s {it.processors:7.0f} s  {name}: {it.passed} passed, {it.failed} failed")
    whole = sum(counts.values(), Count())
    print(f"{whole.passed} passed, {whole.failed} failed", flush=True)
    return 1 if whole.failed else 0


if __name__ == "__main__":
    sys.exit(main(sys.argv[1:]))
