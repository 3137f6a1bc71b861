"""What the package makes of answers that no document brings, told by the stand-in of interface/c/stand_in.c, which
PKDER_LIBRARY names: python3 tests/stand_in.py."""
import os
import subprocess
import sys
import unittest

import pkder

MEMORY, BAD_CALL, LATER = b"\3\0\0", b"\4\0\0", b"\11\0\0"
# (of same, which is the second document)
FAULTS = {b"\1\x1c\0": "fault at 5: Later", b"\1\x1c\x1c": "fault at 5: Later inside at 7: Later"}


def answers(document):
    """The calls on the document that refuse some."""
    yield lambda: pkder.check(pkder.Kind.KEY, document)
    yield lambda: pkder.require_der(pkder.Kind.KEY, document)
    yield lambda: pkder.normalise(pkder.Kind.KEY, document)
    yield lambda: pkder.show(pkder.Kind.KEY, document)
    yield lambda: pkder.signed(pkder.Part.INFO, document)


def reports(document):
    """Those that tell of any octets."""
    yield lambda: pkder.explain(pkder.Kind.KEY, document)
    yield lambda: pkder.field(pkder.Kind.KEY, document)


def told(document):
    """Those that raise what a report tells."""
    yield lambda: pkder.asks(document)
    yield lambda: pkder.holds(pkder.Kind.KEY, document)


def calls(document):
    """Each call on the document."""
    yield from answers(document)
    yield from reports(document)
    yield from told(document)


def same(document):
    """Whether the document is the same as itself."""
    return pkder.same(pkder.Kind.KEY, document, document)


class Answers(unittest.TestCase):
    def test_refusals(self):
        for document, error in (MEMORY, MemoryError), (BAD_CALL, ValueError), (LATER, RuntimeError):
            for call in [*calls(document), lambda document=document: same(document)]:
                with self.subTest(error=error), self.assertRaises(error) as raised:
                    call()
                self.assertNotIsInstance(raised.exception, pkder.Refused)

    def test_faults_of_a_later_library(self):
        for document, line in FAULTS.items():
            for call in calls(document):
                with self.subTest(line=line), self.assertRaises(pkder.Fault) as raised:
                    call()
                self.assertEqual(str(raised.exception), line)
            with self.subTest(line=line), self.assertRaises(pkder.Fault) as raised:
                same(document)
            self.assertEqual((raised.exception.which, str(raised.exception)), (2, f"second: {line}"))

    def test_reports_of_a_later_library(self):
        lines = {b"\6\x1c\0": "fault at 5: Later", b"\6\x1c\x1c": "fault at 5: Later inside at 7: Later"}
        for document, line in lines.items():
            report = pkder.explain(pkder.Kind.KEY, document)
            with self.subTest(line=line):
                self.assertEqual((report.is_der, str(report.fault)), (False, line))
                self.assertEqual(pkder.field(pkder.Kind.KEY, document), "")
            for call in told(document):
                with self.subTest(line=line), self.assertRaises(pkder.Fault) as raised:
                    call()
                self.assertEqual(str(raised.exception), line)

    def test_statuses_of_reports_are_no_answer_of_other_calls(self):
        for document in b"\6\0\0", b"\7\0\0":
            for call in [*answers(document), lambda document=document: same(document)]:
                with self.subTest(document=document), self.assertRaises(RuntimeError):
                    call()

    def test_statuses_of_other_calls_are_no_answer_of_reports(self):
        for document in b"\0\0\0", b"\2\0\0", b"\5\0\0":
            for call in [*reports(document), *told(document)]:
                with self.subTest(document=document), self.assertRaises(RuntimeError):
                    call()

    def test_two_documents(self):
        self.assertIs(same(b"\0\0\0"), True)
        self.assertIs(same(b"\10\0\0"), False)
        for call in calls(b"\10\0\0"):
            with self.assertRaises(RuntimeError):
                call()
        for document in b"\2\0\0", b"\5\0\0":
            with self.subTest(document=document), self.assertRaises(RuntimeError):
                same(document)

    def test_libraries_that_are_none(self):
        for name in ("no-such-file", "libc.so.6"):
            told = {**os.environ, "PKDER_LIBRARY": name}
            ran = subprocess.run([sys.executable, "-c", "import pkder"], env=told, capture_output=True, text=True)
            with self.subTest(name=name):
                self.assertRegex(ran.stderr.splitlines()[-1], f"^ImportError: {name} ")


if __name__ == "__main__":
    unittest.main()
