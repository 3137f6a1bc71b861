#!/usr/bin/env python3
"""longer.py PROGRAM: a key of eight times as many attributes takes about eight times as many allocations.

Who reads a document of a stream (`--each`) again with each block that comes takes thirty times as many and more. The
keys are in DER, and in the indefinite form, whose end only headers show. The last line is
'longer: N passed, M failed'."""
import os
import re
import subprocess
import sys
import tempfile
from pathlib import Path

TOP = sys.path[0] = str(Path(__file__).resolve().parents[2])
from tests.harness.files import DER, element
from tools.gate.looks import counted

FEW, TIMES, MOST = 2000, 8, 10
SECONDS = 60


def key(count):
    """The contents of a key with so many attributes, each of a type of its own (1.2.129 ..) and one NULL."""
    numbers = range(1 << 14, (1 << 14) + count)
    types = (b"\x2a\x81" + bytes([0x80 | it >> 14, 0x80 | it >> 7 & 0x7f, it & 0x7f]) for it in numbers)
    return DER[2:] + element(0xa0, *(element(0x30, element(6, it), element(0x31, b"\5\0")) for it in types))


def allocations(program, library, words, octets):
    """How many a run takes, and its status."""
    told = {"FAIL_ALLOC_COUNTS": "1", "LD_PRELOAD": library}
    ran = subprocess.run([program, *words], input=octets, capture_output=True, env={**os.environ, **told},
                         timeout=SECONDS)
    return int(re.fullmatch(rb"(\d+) allocations\n", ran.stderr)[1]), ran.returncode


def looks(program):
    with tempfile.TemporaryDirectory() as folder:
        library = f"{folder}/failalloc.so"
        subprocess.run(["cc", "-shared", "-fPIC", "-O2", "-o", library, f"{TOP}/tests/harness/failalloc.c", "-ldl"],
                       check=True)
        forms = {"in DER": (0, lambda it: element(0x30, it)), "indefinite": (1, lambda it: b"\x30\x80" + it + b"\0\0")}
        for words in (("check",), ("check", "--each"), ("explain", "--each", "--brief")):
            for form, (status, made) in forms.items():
                asked = program, library, (*words, "--kind", "key")
                (few, one), (many, other) = (allocations(*asked, made(key(it))) for it in (FEW, FEW * TIMES))
                yield (f"{' '.join(words)}, {form}: {few} and {many} allocations, status {one} and {other}",
                       FEW < few < many < MOST * few and one == other == status)


if __name__ == "__main__":
    if len(sys.argv) != 2:
        sys.exit(__doc__)
    sys.exit(counted("longer", looks(os.path.abspath(sys.argv[1]))))
