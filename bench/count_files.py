#!/usr/bin/env python3
"""count_files.py PROGRAM LIBRARY: what `pkder check` takes of many named files.

Of each of some examples it prints the instructions that one file more takes, by valgrind's callgrind; those of one call
more of `pkder_check` of LIBRARY (interface/out/libpkder.a); and the most memory of a process over 250 files and over
2,000, in kilobytes, by time(1). It takes cc, valgrind and time. By hand; the gate doesn't run it."""
import os
import re
import shutil
import subprocess
import sys
import tempfile
from pathlib import Path

TOP = str(Path(__file__).resolve().parents[1])
FILES = (("key", "smallest"), ("key", "p256"), ("key", "rsa2048"), ("request", "request-rsa2048"))
CALLS = r"""
#include <pkder.h>
#include <stdio.h>
#include <stdlib.h>

int main(int argc, char **argv) {
    static unsigned char octets[65536];
    FILE *file = argc == 4 ? fopen(argv[3], "rb") : NULL;
    size_t count = file ? fread(octets, 1, sizeof octets, file) : 0;
    for (int left = file ? atoi(argv[1]) : 0; left > 0; left--)
        if (pkder_check(atoi(argv[2]), PKDER_DEPTH, PKDER_OCTETS, octets, count).status != PKDER_ACCEPTED) return 1;
    return 0;
}
"""
NUMBERS = {"key": 1, "request": 3}
# (callgrind counts each octet of an instruction that repeats, so the C library takes others)
PLAIN = "glibc.cpu.x86_rep_stosb_threshold=1000000:glibc.cpu.x86_rep_movsb_threshold=1000000"


def instructions(*words):
    words = ["valgrind", "--tool=callgrind", "--callgrind-out-file=/dev/null", *words]
    ran = subprocess.run(words, capture_output=True, text=True, env={**os.environ, "GLIBC_TUNABLES": PLAIN}, check=True)
    return int(re.search(r"Collected : (\d+)", ran.stderr)[1])


def check(program, kind, folder, count):
    """The words that check so many files."""
    names = b"".join(b"%s/%d\0" % (os.fsencode(folder), it) for it in range(count))
    with open(f"{folder}/names", "wb") as file:
        file.write(names)
    return program, "check", "--kind", kind, "--files0-from", f"{folder}/names"


def row(program, calls, kind, name):
    """The instructions of a file and of a call, and the memory over few files and over many."""
    example = f"{TOP}/examples/{name}.der"
    with tempfile.TemporaryDirectory() as folder:
        for number in range(2000):
            shutil.copy(example, f"{folder}/{number}")
        few, many = (instructions(*check(program, kind, folder, it)) for it in (250, 500))
        once, twice = (instructions(calls, str(it), str(NUMBERS[kind]), example) for it in (1000, 2000))
        sizes = []
        for count in (250, 2000):
            words = ["time", "-f", "%M", *check(program, kind, folder, count)]
            sizes.append(subprocess.run(words, capture_output=True, text=True, check=True).stderr.strip())
    return [(many - few) // 250, (twice - once) // 1000, *sizes]


def main(words):
    if len(words) != 2:
        sys.exit(__doc__)
    with tempfile.TemporaryDirectory() as folder:
        with open(f"{folder}/calls.c", "w", encoding="utf-8") as file:
            file.write(CALLS)
        calls = f"{folder}/calls"
        subprocess.run(["cc", "-O2", f"-I{TOP}/interface", f"{folder}/calls.c", words[1], "-o", calls], check=True)
        print("| File | Instructions a file | a call | Memory over 250 | over 2,000 |\n|---|---|---|---|---|")
        for kind, name in FILES:
            print("|", " | ".join(map(str, [f"`{name}.der`", *row(os.path.abspath(words[0]), calls, kind, name)])), "|")


if __name__ == "__main__":
    main(sys.argv[1:])
