#!/usr/bin/env python3
"""run.py [LIBRARY]: pkder.intake and the command pkder-intake, over this libpkder.so.0, or over the one that is found.

INPUTS is how many random inputs there are (20,000 unless said otherwise). The last line is
'intake: N passed, M failed'; a subtest counts with its test."""
import os
import sys
import unittest
from pathlib import Path

TOP = Path(__file__).resolve().parents[2]
PARTS = ("forms", "spellings", "senders", "other_things", "rules", "lines", "command", "progress", "random_inputs")


def main(words):
    if len(words) > 1:
        sys.exit(__doc__)
    if words:
        os.environ["PKDER_LIBRARY"] = os.path.abspath(words[0])
    # (what is imported from the repository puts its top in the first place, over whatever stands there)
    sys.path[:0] = [str(TOP)]
    sys.path.append(str(TOP / "interface/python/src"))
    suite = unittest.defaultTestLoader.loadTestsFromNames(PARTS)
    ran = unittest.TextTestRunner(verbosity=0).run(suite)
    failed = len({getattr(it, "test_case", it) for it, _ in ran.failures + ran.errors})
    print(f"intake: {ran.testsRun - failed} passed, {failed} failed", flush=True)
    return 1 if failed or not ran.testsRun else 0


if __name__ == "__main__":
    sys.exit(main(sys.argv[1:]))
