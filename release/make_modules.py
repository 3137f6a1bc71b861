#!/usr/bin/env python3
"""make_modules.py [--stand]: makes what the page and the package for npm are made of, where it doesn't stand as these
sources gave it, in minutes where the proofs are kept, and in up to twenty of a processor where they aren't; or says by
its status whether it stands."""
import os
import sys
from pathlib import Path

TOP = sys.path[0] = str(Path(__file__).resolve().parents[1])
from release.modules import PARTS


def main(words):
    os.chdir(TOP)
    if words == ["--stand"]:
        return 0 if all(it.stands() for it in PARTS) else 1
    if words:
        print(__doc__)
        return 0 if words == ["--help"] else 1
    for part in PARTS:
        part.make()
    return 0


if __name__ == "__main__":
    sys.exit(main(sys.argv[1:]))
