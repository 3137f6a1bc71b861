"""How many inputs are done, as pkder-intake --progress tells it: by a clock that goes on at each look, in a pipe and on
a terminal."""
import io
import os
import subprocess
import sys
import tempfile
import threading
import unittest

from command import PLACE
from made import TOP, octets_of, pem_of
from pkder.intake import _progress
from pkder.intake._command import parser

LINE = "PEM, CERTIFICATE REQUEST: request: DER"
# (the command with a clock of its own)
CODE = ("import itertools, sys, pkder_intake, pkder.intake._progress as it; "
        "it.clock = itertools.count(0, float(sys.argv.pop(1))).__next__; sys.exit(pkder_intake.main())")


def rows_of(octets):
    """What a terminal shows of them: rows, without blanks at their ends."""
    rows, column = [""], 0
    for it in octets.decode():
        if it == "\n":
            rows.append("")
        elif it == "\r":
            column = 0
        else:
            rows[-1] = rows[-1][:column] + it + rows[-1][column + 1:]
            column += 1
    return [it.rstrip() for it in rows]


class Terminal:
    """A pseudo terminal, and what was written to it."""

    def __enter__(self):
        self.ours, self.theirs = os.openpty()
        self.octets = b""
        self.reader = threading.Thread(target=self.read)
        self.reader.start()
        return self

    def read(self):
        try:
            while came := os.read(self.ours, 65536):
                self.octets += came
        except OSError:
            # (its other end is closed)
            pass

    def __exit__(self, *_):
        os.close(self.theirs)
        self.reader.join()
        os.close(self.ours)


class Told(unittest.TestCase):
    def setUp(self):
        folder = tempfile.TemporaryDirectory()
        self.addCleanup(folder.cleanup)
        self.folder = folder.name
        for name in ("1", "2", "3", "4", "5", "d/1", "d/2"):
            os.makedirs(os.path.dirname(f"{self.folder}/{name}"), exist_ok=True)
            with open(f"{self.folder}/{name}", "wb") as file:
                file.write(pem_of(octets_of("request-p256")))

    def run_with(self, step, *words, **streams):
        """Runs the command, its clock going this far at each look."""
        told = {**os.environ, "PYTHONPATH": PLACE, "PYTHONUNBUFFERED": ""}
        streams = {"stdin": subprocess.DEVNULL, "stdout": subprocess.PIPE, "stderr": subprocess.PIPE, **streams}
        return subprocess.run([sys.executable, "-c", CODE, str(step), *words], cwd=self.folder, env=told, **streams)

    def piped(self, step, *words, status=0):
        """The lines on standard error, a pipe; those on standard output are as ever."""
        ran = self.run_with(step, *words)
        self.assertEqual(ran.returncode, status)
        self.assertEqual(ran.stdout, self.run_with(step, *(it for it in words if it != "--progress")).stdout)
        return ran.stderr.decode().splitlines()

    def on_terminal(self, step, *words):
        """What standard error, a terminal, is written."""
        with Terminal() as it:
            ran = self.run_with(step, *words, stderr=it.theirs)
        self.assertEqual(ran.stdout.decode().splitlines(), [f"{name}: {LINE}" for name in words if name.isdigit()])
        return it.octets


class InPipes(Told):
    def test_a_line_each(self):
        due = [f"{it} of 5" for it in range(6)]
        self.assertEqual(self.piped(1, "--progress", *"12345"), due)
        self.assertEqual(self.piped(1, "--progress", "--json", *"12345"), due)

    def test_at_most_every_half_second(self):
        # (a number takes two looks at the clock)
        self.assertEqual(self.piped(0.25, "--progress", *"12345"), ["0 of 5", "2 of 5", "4 of 5", "5 of 5"])
        self.assertEqual(self.piped(0, "--progress", *"12345"), ["0 of 5", "5 of 5"])

    def test_without_a_number_of_all(self):
        self.assertEqual(self.piped(1, "--progress", "1", "d"), ["0 done", "1 done", "2 done", "3 done"])

    def test_names_of_a_list(self):
        with open(f"{self.folder}/list", "wb") as file:
            file.write(b"1\0" * 1001)
        told = self.piped(1, "--progress", "--files0-from", "list")
        self.assertEqual(told[:2] + told[999:], ["0 of 1,001", "1 of 1,001", "999 of 1,001", "1,000 of 1,001",
                                                 "1,001 of 1,001"])

    def test_standard_input_is_no_folder(self):
        os.mkdir(f"{self.folder}/-")
        self.assertEqual(self.piped(1, "--progress", status=2), ["0 of 1", "1 of 1"])

    def test_what_is_not_read_is_done(self):
        self.assertEqual(self.piped(1, "--progress", "nothing", "1", status=3), ["0 of 2", "1 of 2", "2 of 2"])

    def test_none_without_being_asked(self):
        self.assertEqual(self.piped(100, *"12345"), [])

    def test_a_command_line_that_is_refused(self):
        ran = self.run_with(1, "--progress", "--kind", "rsa", "1")
        self.assertEqual((ran.returncode, ran.stdout), (4, b""))
        self.assertNotIn(b" of ", ran.stderr)


class OnTerminals(Told):
    def test_in_place(self):
        due = b"\r0 of 5\r1 of 5\r2 of 5\r3 of 5\r4 of 5\r5 of 5\r\n"
        self.assertEqual(self.on_terminal(1, "--progress", *"12345"), due)

    def test_by_itself_after_two_seconds(self):
        # (the first look is at 1, and three inputs later it is 4)
        self.assertEqual(self.on_terminal(1, *"12345"), b"\r1 of 5\r2 of 5\r3 of 5\r4 of 5\r5 of 5\r\n")
        self.assertEqual(self.on_terminal(0.5, *"12345"), b"\r3 of 5\r4 of 5\r5 of 5\r\n")
        # (at the last input it is 1.8)
        self.assertEqual(self.on_terminal(0.3, *"12345"), b"")
        # (what is done when it is due needs none)
        self.assertEqual(self.on_terminal(1, "1"), b"")

    def test_beside_lines(self):
        for step in (1, 0.3, 0):
            with self.subTest(step=step), Terminal() as it:
                self.run_with(step, "--progress", *"12345", stdout=it.theirs, stderr=it.theirs)
            self.assertEqual(rows_of(it.octets), [*(f"{name}: {LINE}" for name in "12345"), "5 of 5", ""])
            # (a line comes before the number that it is counted in)
            self.assertNotIn("1 of 5", it.octets.decode().partition("1: PEM")[0])

    def test_room_for_a_line(self):
        with Terminal() as it, os.fdopen(os.dup(it.theirs), "wb", 0) as target:
            with _progress.Progress(["/"], True, target, io.BytesIO()) as told:
                told.make_room()
                told.make_room()
        self.assertEqual(it.octets, b"\r0 done\r      \r\r0 done\r\n")

    def test_lines_that_are_many(self):
        # (more octets than are kept back)
        names = ["1", "2"] * 500
        with Terminal() as it:
            self.run_with(0.2, "--progress", *names, stdout=it.theirs, stderr=it.theirs)
        self.assertEqual(rows_of(it.octets), [*(f"{name}: {LINE}" for name in names), "1,000 of 1,000", ""])
        self.assertGreater(it.octets.count(b" of 1,000\r"), 100)


class Failures(Told):
    def test_nobody_who_reads(self):
        with open("/dev/full", "wb") as full:
            ran = self.run_with(1, "--progress", *"12", stderr=full)
        self.assertEqual((ran.returncode, len(ran.stdout.splitlines())), (0, 2))
        ran = self.run_with(1, "--progress", *"12", preexec_fn=lambda: os.close(2), stderr=None)
        self.assertEqual((ran.returncode, len(ran.stdout.splitlines())), (0, 2))

    def test_a_run_that_ends_early(self):
        with Terminal() as it, open("/dev/full", "wb") as full:
            ran = self.run_with(1, "--progress", *"12", stdout=full, stderr=it.theirs)
        self.assertEqual((ran.returncode, rows_of(it.octets)), (3, ["2 of 2", "pkder-intake: write failed", ""]))
        with Terminal() as it, os.fdopen(os.dup(it.theirs), "wb", 0) as target:
            with self.assertRaises(KeyboardInterrupt), _progress.Progress(["1", "2"], True, target, None) as told:
                told.step()
                raise KeyboardInterrupt
        self.assertEqual(rows_of(it.octets), ["1 of 2", ""])


class Page(unittest.TestCase):
    def test_the_man_page_has_each_option(self):
        with open(f"{TOP}/docs/pkder-intake.1", encoding="ascii") as page:
            text = page.read()
        # (in the synopsis, and in the list)
        for option in (it for action in parser()._actions for it in action.option_strings if it.startswith("--")):
            name = option[1:]
            if name not in ("-help", "-version", "-kind"):
                self.assertRegex(text, rf"(?m)^\.Op Fl (?:-der \| )?{name}\b")
            self.assertRegex(text, rf"(?m)^\.It (?:Fl k Ar kind , |Fl -help , )?(?:Fl )?{name}\b")
