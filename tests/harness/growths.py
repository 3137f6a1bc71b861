#!/usr/bin/env python3
"""growths.py PROGRAM TABLE..: each growth of memory refused in turn where values are read and made.

PROGRAM is that of crates/rows. Each row of the tables whose words begin with one of TASKS is done once for each growth
that is refused, until none is met. A run that met a refusal answers want of memory, or what the row says; the one that
met none answers that. Where a reader wanted memory it is asked further in another run, answers the same, and takes no
octet more. A row that gives a text meets a refusal, since memory for the text is asked for.

The last line is 'growths: N passed, M failed', over the rows."""
import os
import subprocess
import sys
import tempfile
from pathlib import Path

sys.path[0] = str(Path(__file__).resolve().parents[2])
from tests.harness.rows import rows_of

TASKS = ("read", "element", "document", "normalise", "check", "whole", "normalise-whole", "make")
TOLD = b"refused\n"
WANTED = b"out of memory\n"
SECONDS = 60
HERE = os.path.dirname(os.path.realpath(__file__))


class Program:
    """The program, with a library before it that refuses one growth."""

    def __init__(self, path, folder):
        self.path, self.library = path, f"{folder}/failalloc.so"
        subprocess.run(["cc", "-shared", "-fPIC", "-O2", "-o", self.library, f"{HERE}/failalloc.c", "-ldl"], check=True)

    def run(self, words, octets, number):
        """Returns whether the growth of this number was met, and the answer: status, standard output and error."""
        told = {"FAIL_ALLOC": str(number), "FAIL_ALLOC_TELLS": "1", "LD_PRELOAD": self.library}
        given = f"{words}\n".encode() + octets
        ran = subprocess.run([self.path], input=given, capture_output=True, env={**os.environ, **told}, timeout=SECONDS)
        met = ran.stderr.startswith(TOLD)
        return met, (ran.returncode, ran.stdout, ran.stderr[len(TOLD) if met else 0 :])


class Tried:
    """One row, with each of its growths refused in turn."""

    def __init__(self, program, row):
        self.refused, self.wanted, self.wrong = 0, 0, None
        due = (row.status, row.output, f"{row.error}\n".encode() if row.error else b"")
        met = True
        while met and self.wrong is None:
            number = self.refused + 1
            met, answer = program.run(f"once {row.words}", row.input, number)
            self.refused += met
            if met and answer[0] == 3 and answer[2] == WANTED:
                self.wanted += 1
                again = program.run(f"again {row.words}", row.input, number)
                self.wrong = None if again == (met, answer) else f"growth {number} refused, and asked further: {again}"
            elif answer != due:
                self.wrong = f"growth {number} {'refused' if met else 'not met'}: {answer}"
        if self.wrong is None and row.status == 0 and not self.refused:
            self.wrong = "no growth was met"


def main(words):
    path, *tables = words
    rows = [(table, *row) for table in tables for row in rows_of(table) if row[1].words.startswith(TASKS)]
    passed, failed, refused, wanted = 0, 0, 0, 0
    with tempfile.TemporaryDirectory() as folder:
        program = Program(path, folder)
        for table, number, row in rows:
            tried = Tried(program, row)
            if tried.wrong:
                print(f"{table}:{number}: {row.rule}: {tried.wrong[:300]}")
            passed, failed = passed + (not tried.wrong), failed + bool(tried.wrong)
            refused, wanted = refused + tried.refused, wanted + tried.wanted
    print(f"growths: {refused} refused in turn, {wanted} answered as want of memory, the others as due")
    if wanted <= passed or passed + failed != len(rows):
        print("growths: fewer were wanted than rows tried, or not each row was tried")
        failed += 1
    print(f"growths: {passed} passed, {failed} failed", flush=True)
    return 1 if failed else 0


if __name__ == "__main__":
    sys.exit(main(sys.argv[1:]))
