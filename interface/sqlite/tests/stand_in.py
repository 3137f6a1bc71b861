"""What the functions make of answers that no document brings, told by the stand-in of interface/c/stand_in.c, over
which the extension that PKDER_SQLITE names is built: python3 tests/stand_in.py."""
import contextlib
import sqlite3
import unittest

from opened import ask, opened

MEMORY, BAD_CALL, LATER = b"\3\0\0", b"\4\0\0", b"\11\0\0"
# (of pkder_same, which is the second document)
FAULTS = {b"\1\x1c\0": "fault at 5: Later", b"\1\x1c\x1c": "fault at 5: Later inside at 7: Later"}
# the functions of one document by what they tell of it: its form, its octets or a text of it, and what a report tells
FORMS, TEXTS, REPORTS = ("check", "is_der", "require_der"), ("normalise", "show", "signed"), ("explain", "field")


class Answers(unittest.TestCase):
    def setUp(self):
        self.database = opened()
        self.addCleanup(self.database.close)

    def told(self, name, document):
        """What a function answers of a document, and of it twice, if it is pkder_same; or the error's type and line."""
        documents = (document,) * (2 if name == "same" else 1)
        try:
            return ask(self.database, f"pkder_{name}", "info" if name == "signed" else "key", *documents)
        except (sqlite3.Error, MemoryError) as why:
            return type(why), str(why)

    def refused(self, document, line, *names):
        for name in names:
            with self.subTest(name=name, document=document):
                self.assertEqual(self.told(name, document), (sqlite3.OperationalError, line))

    def test_want_of_memory(self):
        for name in *FORMS, *TEXTS, *REPORTS, "same":
            with self.subTest(name=name):
                self.assertIs(self.told(name, MEMORY)[0], MemoryError)

    def test_other_statuses(self):
        for document in BAD_CALL, LATER, b"\xff\0\0":
            line = f"pkder: libpkder answers the status {document[0]}"
            self.refused(document, line, *FORMS, *TEXTS, *REPORTS, "same")

    def test_faults_of_a_later_library(self):
        for document, line in FAULTS.items():
            self.refused(document, line, "require_der", *TEXTS)
            self.refused(document, f"second: {line}", "same")
            self.assertEqual(self.told("check", document), line)
            self.assertEqual(self.told("is_der", document), 0)

    def test_statuses_of_reports(self):
        for name in REPORTS:
            self.assertEqual(self.told(name, b"\6\x1c\0"), "")
        for document in b"\6\0\0", b"\7\0\0":
            line = f"pkder: libpkder answers the status {document[0]}"
            self.refused(document, line, *FORMS, *TEXTS, "same")
        # (of an answer that wants no more room than it had)
        self.refused(b"\7\0\0", "pkder: libpkder answers the status 7", *REPORTS)

    def test_statuses_of_other_calls(self):
        self.assertEqual([self.told(it, b"\0\0\0") for it in TEXTS], [b"", "", b""])
        self.assertEqual([self.told(it, b"\0\0\0") for it in ("check", "is_der", "require_der")], ["DER", 1, 1])
        self.assertEqual([self.told(it, b"\5\0\0") for it in ("check", "is_der")], ["not DER at 5", 0])
        self.refused(b"\5\0\0", "not DER at 5", "require_der")
        for document in b"\0\0\0", b"\2\0\0", b"\5\0\0":
            self.refused(document, f"pkder: libpkder answers the status {document[0]}", *REPORTS)
        for document in b"\2\0\0", b"\5\0\0":
            self.refused(document, f"pkder: libpkder answers the status {document[0]}", *TEXTS, "same")
        self.refused(b"\2\0\0", "pkder: libpkder answers the status 2", *FORMS)

    def test_two_documents(self):
        self.assertEqual([self.told("same", it) for it in (b"\0\0\0", b"\10\0\0")], [1, 0])
        self.refused(b"\10\0\0", "pkder: libpkder answers the status 8", *FORMS, *TEXTS, *REPORTS)

    def test_checked_columns(self):
        with contextlib.closing(self.database.cursor()) as cursor:
            cursor.execute("create table plain(document blob not null check (pkder_is_der('key', document)))")
            for document in MEMORY, BAD_CALL, LATER, *FAULTS, b"\5\0\0":
                with self.subTest(document=document), self.assertRaises((sqlite3.Error, MemoryError)):
                    cursor.execute("insert into plain values (?)", (document,))
            self.assertEqual(cursor.execute("select count(*) from plain").fetchone(), (0,))


if __name__ == "__main__":
    unittest.main()
