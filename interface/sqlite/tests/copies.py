"""copies.py functions | none: asks of a private key, whose 32 octets COPIES_SECRET has in hex, each function, or in its
place one of SQLite's own that looks at no octet. With interface/java/tests/freed.c before it the process says at its
end how many blocks it freed that held octets of the key. Those of Python and of SQLite do: so where the functions leave
none, it is the same number both times."""
import contextlib
import os
import sqlite3
import sys

from opened import opened

CALLS = ("pkder_check('key', ?1)", "pkder_is_der('key', ?1)", "pkder_require_der('key', ?1)",
         "pkder_same('key', ?1, ?1)", "pkder_normalise('key', ?1)", "pkder_show('key', ?1)", "pkder_field('key', ?1)",
         "pkder_explain('key', ?1)", "pkder_explain('key', ?1, 'all json tls')", "pkder_check('request', ?1)")
# (which are refused)
REFUSED = ("pkder_normalise('request', ?1)", "pkder_require_der('ec', ?1)", "pkder_signed('info', ?1)")


def main(words):
    key = bytes.fromhex("302e020100300506032b657004220420" + os.environ["COPIES_SECRET"])
    with contextlib.closing(opened()) as database:
        for at, call in enumerate((*CALLS, *REFUSED)):
            told = call if words == ["functions"] else f"'{at}'"
            with contextlib.suppress(sqlite3.OperationalError):
                database.execute(f"select length({told}), length(?1)", (key,)).fetchall()


if __name__ == "__main__":
    main(sys.argv[1:])
