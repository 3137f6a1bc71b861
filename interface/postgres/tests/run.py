#!/usr/bin/env python3
"""run.py TREE CALLS.tsv PAIRS.tsv STAND_IN.so OTHER.so NAIVE.so: the extension in a real server.

TREE is where 'make install DESTDIR=TREE' put it. The tables are those of interface/calls.py and interface/pairs.py.
STAND_IN.so is the module over interface/c/stand_in.c, OTHER.so that file as a module, and NAIVE.so the module as it
would be if its names were seen outside. The last line is 'postgres: N passed, M failed'."""
import sys
from pathlib import Path

TOP = sys.path[0] = str(Path(__file__).resolve().parents[3])
from interface.postgres.tests import extension, many, memory, modules, page, rows, secrets, server
from tools.gate.looks import counted


def looks(tree, calls, pairs, *others):
    with server.Server(tree) as it:
        yield from rows.looks(it, calls, pairs)
        yield from page.looks(it)
        yield from secrets.looks(it)
        yield from extension.looks(it)
        yield from many.looks(it)
        yield from memory.looks(it)
        yield from modules.looks(it, *others)


if __name__ == "__main__":
    if len(sys.argv) != 7:
        sys.exit(__doc__)
    sys.exit(counted("postgres", looks(*sys.argv[1:])))
