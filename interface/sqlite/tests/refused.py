"""Want of memory: of the extension, whose block of as many octets as the document has is refused by
interface/java/tests/refusing.c, which is loaded before this; and of SQLite, for a document that it has to lay out."""
import contextlib
import unittest

from opened import ask, example, opened

# (that refusing.c refuses)
OCTETS = 234567


class Refused(unittest.TestCase):
    def test_want_of_memory(self):
        with contextlib.closing(opened()) as database:
            for function, what in ("normalise", "key"), ("show", "key"), ("signed", "info"):
                with self.subTest(function=function), self.assertRaises(MemoryError):
                    ask(database, f"pkder_{function}", what, bytes(OCTETS))
            # (which take no such block)
            self.assertEqual(ask(database, "pkder_check", "key", bytes(OCTETS)), "fault at 0: BadEnd")
            self.assertEqual(ask(database, "pkder_field", "key", bytes(OCTETS)), "OneAsymmetricKey")

    def test_want_of_sqlite(self):
        # (the limit is that of the process)
        with contextlib.closing(opened()) as database:
            database.execute("pragma hard_heap_limit = 10000000").fetchall()
            for call in ("pkder_check('key', zeroblob(100000000))", "pkder_same('key', ?1, zeroblob(100000000))"):
                with self.subTest(call=call), self.assertRaises(MemoryError):
                    database.execute(f"select {call}, ?1", (example("smallest"),)).fetchall()


if __name__ == "__main__":
    unittest.main()
