"""The command pkder-intake, as a program of its own: names, folders, lists, what it writes, statuses."""
import json
import os
import socket
import stat
import subprocess
import sys
import tempfile
import unittest

import pkder
import pkder_intake
from made import KINDS, octets_of, pem_of
from pkder.intake import find

# (the package and the command beside it)
PLACE = os.pathsep.join(os.path.dirname(os.path.abspath(it)) for it in (os.path.dirname(pkder.__file__),
                                                                        pkder_intake.__file__))
REQUEST, KEY = pem_of(octets_of("request-p256")), pem_of(octets_of("p256"), "PRIVATE KEY")


class Command(unittest.TestCase):
    def setUp(self):
        folder = tempfile.TemporaryDirectory()
        self.addCleanup(folder.cleanup)
        self.folder = folder.name

    def put(self, name, octets):
        path = os.path.join(self.folder, name)
        os.makedirs(os.path.dirname(path), exist_ok=True)
        with open(path, "wb") as file:
            file.write(octets)

    def octets(self, name):
        with open(os.path.join(self.folder, name), "rb") as file:
            return file.read()

    def ran(self, *words, given=b"", status=0):
        """The lines that it writes, with this status and nothing on standard error."""
        told = {**os.environ, "PYTHONPATH": PLACE}
        ran = subprocess.run([sys.executable, "-m", "pkder_intake", *words], cwd=self.folder, env=told, input=given,
                             capture_output=True)
        self.assertEqual((ran.returncode, ran.stderr), (status, b""), (words, ran.stdout))
        return ran.stdout.decode().splitlines()

    def refused(self, *words):
        """The line on standard error of a command line that is refused."""
        told = {**os.environ, "PYTHONPATH": PLACE}
        ran = subprocess.run([sys.executable, "-m", "pkder_intake", *words], cwd=self.folder, env=told, input=b"",
                             capture_output=True)
        self.assertEqual((ran.returncode, ran.stdout), (4, b""), words)
        return ran.stderr.decode()


class Inputs(Command):
    def test_standard_input(self):
        for words in ((), ("-",)):
            self.assertEqual(self.ran(*words, given=REQUEST), ["-: PEM, CERTIFICATE REQUEST: request: DER"])
        told = json.loads(self.ran("--json", given=REQUEST)[0])
        self.assertEqual((told["file"], told["status"]), ("-", 0))
        self.assertEqual(self.ran(given=b"", status=2), ["-: nothing in it"])

    def test_the_status_is_the_greatest(self):
        for name, octets in (("0", REQUEST), ("1", octets_of("request-indefinite")), ("2", b"text")):
            self.put(name, octets)
        for names, status in (("0", 0), ("01", 1), ("012", 2), ("0123", 3), ("03", 3), ("10", 1)):
            lines = self.ran(*names, status=status)
            self.assertEqual([it[0] for it in lines], [*names])

    def test_what_is_not_opened(self):
        os.mkfifo(f"{self.folder}/fifo")
        with socket.socket(socket.AF_UNIX) as it:
            it.bind(f"{self.folder}/socket")
            due = [f"{name}: is {what}, which isn't opened" for name, what in
                   (("fifo", "a FIFO"), ("socket", "a socket"), ("/dev/null", "a device"))]
            self.assertEqual(self.ran("fifo", "socket", "/dev/null", status=3), due)
            self.put("x", REQUEST)
            due = [*(f"./{it}" for it in due[:2]), "./x: PEM, CERTIFICATE REQUEST: request: DER"]
            self.assertEqual(sorted(self.ran(".", status=3)), due)

    def test_names_that_are_not_there(self):
        self.put("closed", REQUEST)
        os.chmod(f"{self.folder}/closed", 0)
        self.assertEqual(self.ran("nothing", "closed/x", status=3), ["nothing: no such file", "closed/x: no such file"])
        if os.geteuid():
            self.assertEqual(self.ran("closed", status=3), ["closed: permission denied"])
        self.assertEqual([json.loads(it) for it in self.ran("--json", "nothing", status=3)],
                         [{"file": "nothing", "status": 3, "error": "no such file"}])

    def test_folders_in_order_of_names_without_links(self):
        for name in ("d/b", "d/a", "d/c/x", "d/B", "e"):
            self.put(name, REQUEST)
        os.symlink("b", f"{self.folder}/d/link")
        os.symlink("c", f"{self.folder}/d/folder")
        os.symlink("nothing", f"{self.folder}/d/gone")
        names = [it.partition(":")[0] for it in self.ran("e", "d")]
        self.assertEqual(names, ["e", "d/B", "d/a", "d/b", "d/c/x"])
        self.assertEqual([it.partition(":")[0] for it in self.ran("d/link")], ["d/link"])

    def test_deep_folders(self):
        # (deeper than calls may be nested in Python where each folder took a few)
        self.put("/".join(["d"] * 400) + "/x", REQUEST)
        self.assertEqual(len(self.ran("d")), 1)

    def test_lists(self):
        self.put("a\nb", REQUEST)
        self.put(os.fsdecode(b"\xff"), REQUEST)
        self.put("list", b"a\nb\0\xff\0\0nothing")
        due = ['"a\\nb": PEM, CERTIFICATE REQUEST: request: DER', '"\\xff": PEM, CERTIFICATE REQUEST: request: DER',
               '"": no such file', "nothing: no such file"]
        self.assertEqual(self.ran("--files0-from", "list", status=3), due)
        self.assertEqual(self.ran("--files0-from", "-", given=self.octets("list"), status=3), due)
        self.assertEqual(self.ran("--files0-from", "-", given=b""), [])
        # (a list may be a pipe)
        self.assertEqual(self.ran("--files0-from", "/dev/stdin", given=self.octets("list"), status=3), due)

    def test_limits(self):
        self.put("x", REQUEST)
        self.assertEqual(self.ran("--input-octets", "9", "x", status=2), ["x: more than 9 octets"])
        self.assertEqual(self.ran("--input-octets", "9", given=REQUEST, status=2), ["-: more than 9 octets"])
        line = "x: PEM, CERTIFICATE REQUEST: request: fault at "
        self.assertEqual(self.ran("--octets", "9", "x", status=2), [f"{line}0: TooLong"])
        self.assertTrue(self.ran("--depth", "2", "x", status=2)[0].endswith(": TooDeep"))

    def test_what_fails_is_never_taken(self):
        # (Python's own status for a failure is 1, which says that a document is sound)
        words = [sys.executable, "-m", "pkder_intake", "-"]
        told = {**os.environ, "PYTHONPATH": os.path.dirname(os.path.abspath(pkder_intake.__file__)),
                "PKDER_LIBRARY": "/no/such/library"}
        ran = subprocess.run(words, env=told, input=REQUEST, capture_output=True, text=False)
        self.assertEqual((ran.returncode, ran.stdout), (3, b""))
        self.assertRegex(ran.stderr, rb"^pkder-intake: /no/such/library isn't found: .*\n$")
        with open("/dev/full", "wb") as full:
            ran = subprocess.run(words, env={**os.environ, "PYTHONPATH": PLACE}, input=REQUEST, stdout=full,
                                 stderr=subprocess.PIPE)
        self.assertEqual((ran.returncode, ran.stderr), (3, b"pkder-intake: write failed\n"))
        code = "import pkder_intake, sys, pkder.intake._command as it; it.main = lambda: 1 // 0; "
        ran = subprocess.run([sys.executable, "-c", f"{code}sys.exit(pkder_intake.main())"],
                             env={**os.environ, "PYTHONPATH": PLACE}, capture_output=True)
        self.assertEqual((ran.returncode, ran.stderr), (3, b"pkder-intake: failed: ZeroDivisionError\n"))

    def test_a_reader_that_goes_away(self):
        told = {**os.environ, "PYTHONPATH": PLACE}
        self.put("x", REQUEST)
        words = [sys.executable, "-m", "pkder_intake", *["x"] * 3000]
        with subprocess.Popen(words, cwd=self.folder, env=told, stdout=subprocess.PIPE, stderr=subprocess.PIPE) as ran:
            ran.stdout.close()
            self.assertEqual((ran.stderr.read(), ran.wait()), (b"", 3))


class Options(Command):
    def test_lines_that_are_refused(self):
        for words in (("--kind", "rsa"), ("--form", "pem"), ("--normalise",), ("--der", "--ber"), ("--depth", "65"),
                      ("--octets", "0"), ("--octets", "1e3"), ("--unknown",), ("--out",), ("--files0-from", "-", "x"),
                      ("--files0-from", "nothing"), ("--form", "xml", "--out", "o"), ("--js",)):
            with self.subTest(words=words):
                self.assertIn("pkder-intake: ", self.refused(*words))

    def test_help_and_version(self):
        self.assertTrue(self.ran("--help")[0].startswith("usage: pkder-intake "))
        self.assertEqual(self.ran("--version"), [f"pkder-intake {pkder.__version__}"])

    def test_what_is_taken(self):
        self.put("both", REQUEST + KEY)
        self.put("two", REQUEST + pem_of(octets_of("request-ed25519")))
        self.put("ber", octets_of("request-indefinite"))
        for words, status in ((("both",), 2), (("--with-keys", "both"), 0), (("--one", "two"), 2), (("two",), 0),
                              (("ber",), 1), (("--ber", "ber"), 0), (("--der", "ber"), 2), (("-k", "csr", "two"), 0),
                              (("-k", "key", "two"), 2), (("-k", "key", "--kind", "request", "two"), 0)):
            with self.subTest(words=words):
                self.ran(*words, status=status)

    def test_the_answer_for_whoever_sent_it(self):
        brief = find(REQUEST)[0].brief
        self.assertEqual(self.ran("--brief", given=REQUEST), [f"-: PEM, CERTIFICATE REQUEST: request: DER: {brief}"])


class Written(Command):
    def files(self, folder="out"):
        return sorted(os.listdir(os.path.join(self.folder, folder)))

    def test_each_kind_whole_and_for_its_owner(self):
        for kind, (name, _) in KINDS.items():
            self.put(f"in/{kind}", octets_of(name))
        lines = self.ran("--out", "out", "in")
        self.assertEqual(len(lines), len(KINDS))
        self.assertEqual(stat.S_IMODE(os.stat(f"{self.folder}/out").st_mode), 0o700)
        forms = {kind: "pem" if label else "der" for kind, (_, label) in KINDS.items()}
        self.assertEqual(self.files(), sorted(f"{it}.{it}.{form}" for it, form in forms.items()))
        for kind, (name, label) in KINDS.items():
            path = f"out/{kind}.{kind}.{forms[kind]}"
            due = pem_of(octets_of(name), label) if label else octets_of(name)
            self.assertEqual(self.octets(path), due)
            mode = stat.S_IMODE(os.stat(os.path.join(self.folder, path)).st_mode)
            self.assertEqual(mode & 0o77 == 0, kind not in ("request", "public"), kind)

    def test_der(self):
        self.put("x.pem", REQUEST)
        told = json.loads(self.ran("--json", "--out", "out", "--form", "der", "x.pem")[0])
        self.assertEqual(told["written"], "out/x.pem.request.der")
        self.assertEqual(self.octets("out/x.pem.request.der"), octets_of("request-p256"))

    def test_names(self):
        for name in ("d/.hidden", "d/a b/ü", "d/sub/x", "d/-x"):
            self.put(name, REQUEST)
        self.ran("--out", "out", "d")
        self.assertEqual(self.files(), sorted(["_hidden.request.pem", "a_b___.request.pem", "sub_x.request.pem",
                                               "-x.request.pem"]))
        self.ran("--out", "other", "d/sub/x", "-", given=REQUEST)
        self.assertEqual(self.files("other"), ["stdin.request.pem", "x.request.pem"])

    def test_several_of_an_input(self):
        self.put("x", REQUEST + b"-----BEGIN PUBLIC KEY-----\n" + pem_of(octets_of("public-p256"), "PUBLIC KEY"))
        self.put("y", pem_of(octets_of("public-p256"), "PUBLIC KEY") + REQUEST)
        self.put("z", REQUEST + pem_of(octets_of("request-version-1")) + pem_of(octets_of("request-ed25519")))
        self.ran("--out", "out", "x", "y", "z", status=2)
        self.assertEqual(self.files(), ["x.request.pem", "y.2.request.pem", "y.public.pem", "z.3.request.pem",
                                        "z.request.pem"])

    def test_nothing_of_a_request_that_a_private_key_came_with(self):
        self.put("x", REQUEST + KEY + pem_of(octets_of("public-p256"), "PUBLIC KEY"))
        self.ran("--out", "out", "x", status=2)
        self.assertEqual(self.files(), [])
        self.ran("--out", "out", "--with-keys", "x")
        self.assertEqual(self.files(), ["x.2.key.pem", "x.3.public.pem", "x.request.pem"])

    def test_nothing_that_is_refused(self):
        refused = octets_of("request-version-1"), pem_of(octets_of("p256")), b"text", REQUEST[:99]
        for number, came in enumerate(refused):
            self.put(f"in/{number}", came)
        self.ran("--out", "out", "in", status=2)
        self.assertEqual(self.files(), [])
        self.put("ber", octets_of("request-indefinite"))
        self.ran("--out", "out", "--der", "ber", status=2)
        self.assertEqual(self.files(), [])

    def test_over_no_file(self):
        for name in ("d/a/b", "d/a_b", "x"):
            self.put(name, REQUEST if name != "d/a_b" else pem_of(octets_of("request-ed25519")))
        lines = self.ran("--out", "out", "d", status=3)
        self.assertEqual([it.partition(": ")[2].rpartition("request: ")[2] for it in lines],
                         ["DER", "DER, and not written: a_b.request.pem is there"])
        self.assertEqual(self.octets("out/a_b.request.pem"), REQUEST)
        self.put("out/x.request.pem", b"mine")
        told = json.loads(self.ran("--json", "--out", "out", "x", status=3)[0])
        self.assertEqual((told["status"], told["why"], "written" in told), (3, "x.request.pem is there", False))
        self.assertEqual(self.octets("out/x.request.pem"), b"mine")
        self.assertEqual(self.files(), ["a_b.request.pem", "x.request.pem"])

    def test_as_they_came_or_normalised(self):
        octets = octets_of("request-indefinite")
        self.put("x", octets)
        self.assertEqual(self.ran("--out", "out", "--form", "der", "x", status=1), ["x: octets: request: not DER at 1"])
        self.assertEqual(self.octets("out/x.request.der"), octets)
        lines = self.ran("--out", "new", "--form", "der", "--normalise", "x", status=1)
        self.assertEqual(lines, ["x: octets: request: not DER at 1; its signature may be over the octets that came"])
        self.assertEqual(self.octets("new/x.request.der"), octets_of("request-p256"))
        # (a request whose outermost length alone is written otherwise: what was signed is in DER)
        text = octets_of("request-p256")
        self.assertEqual(text[:4].hex(), "3082013c")
        self.put("y", b"\x30\x83\0" + text[2:])
        told = json.loads(self.ran("--json", "--out", "new", "--normalise", "y", status=1)[0])
        self.assertNotIn("note", told)
        self.put("key", octets_of("long-lengths"))
        self.assertEqual(self.ran("--out", "new", "--normalise", "key", status=1), ["key: octets: key: not DER at 1"])

    def test_a_folder_that_cannot_be_made(self):
        self.put("file", b"")
        for name in ("file", "no/such/folder"):
            self.assertIn("can't be made, or is no folder", self.refused("--out", name))
