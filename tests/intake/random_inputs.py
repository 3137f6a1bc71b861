"""Random inputs: no exception, no octet of a private key in what is said, what is taken is what pkder accepts; and
octets as Python's base64 and openssl have them. Hostile ones take a time that grows as they do."""
import base64
import os
import random
import shutil
import subprocess
import tempfile
import textwrap
import time
import unittest

import pkder
import spelled
from lines import SCHEMA
from made import KINDS, SENT, octets_of, pem_of, sent, url_of
from pkder.intake import Rules, find
from pkder.intake import _lines
from pkder.intake._layers import pieces_of
from tools.pages import report_schema

COUNT = int(os.environ.get("INPUTS", "20000"))
SEED = os.environ.get("SEED", str(time.time_ns()))
PRIVATE = {it: KINDS[it] for it in ("key", "ec", "encrypted")}
SMALL = ("-----BEGIN ", "-----END ", "-----", "\n", "\r\n", "\\n", "%0A", "%2B", "=", '"', "{", "}", "[", "]", ":", ",",
         "csr: ", "PRIVATE KEY", "CERTIFICATE REQUEST", "&#10;", "<br>", "> ", "# ", "\0", "\xff", "\xfe\xff", "0x",
         "\\x", "\\u00", "Content-Type: multipart/mixed; boundary=x\n", "--x\n",
         "Content-Transfer-Encoding: base64\n\n",
         "payload", "eyJ", "data:;base64,", "LS0tLS1CRUdJTi", "MII", "Proc-Type: 4,ENCRYPTED",
         "0\x82\x01\x00", "PK\3\4", "00000000: 3082")


def bases():
    """Inputs to be changed: what programs send, forms, documents."""
    found = [sent(it) for it in sorted(os.listdir(SENT))]
    for kind, (name, label) in KINDS.items():
        for _, make, _ in spelled.PEM_FORMS + spelled.CONTAINED + spelled.BARE_FORMS + spelled.URL_FORMS:
            found.append(make(octets_of(name), label or "PRIVATE KEY"))
    return found


def changed(chance, octets):
    """The octets with a few changes."""
    made = bytearray(octets)
    for _ in range(chance.choice((1, 1, 2, 3, 8))):
        at = chance.randrange(len(made) + 1)
        to = min(len(made), at + chance.choice((1, 1, 2, 9, 64, 500)))
        way = chance.randrange(6)
        if way == 0:
            made[at:to] = b""
        elif way == 1:
            made[at:at] = chance.choice(SMALL).encode("latin-1")
        elif way == 2:
            made[at:at] = made[at:to] * chance.choice((1, 2, 5))
        elif way == 3 and made:
            made[at % len(made)] = chance.randrange(256)
        elif way == 4:
            made[at:to] = made[at:to][::-1]
        else:
            del made[to:]
    return bytes(made)


def random_input(chance, found):
    """An input of some sort."""
    way = chance.randrange(8)
    if way == 0:
        return chance.randbytes(chance.randrange(300))
    if way == 1:
        return "".join(chance.choices(SMALL, k=chance.randrange(1, 40))).encode("latin-1")
    if way == 2:
        return changed(chance, chance.choice(found) + chance.choice(found))
    if way == 3:
        return base64.b64encode(changed(chance, chance.choice(found)))
    return changed(chance, chance.choice(found))


class Inputs(unittest.TestCase):
    def test_no_exception_and_sound_answers(self):
        chance, found = random.Random(SEED), bases()
        for number in range(COUNT):
            came = random_input(chance, found)
            rules = Rules(one=number % 7 == 0, with_keys=number % 5 == 0, ber=(None, True, False)[number % 3])
            told = find(came, rules)
            with self.subTest(seed=SEED, number=number):
                self.assertTrue(told)
                for it in told:
                    self.assertIn(it.status, (0, 1, 2))
                    self.assertTrue(_lines.line_of("x", it, len(told) > 1, False))
                    if it.is_accepted:
                        self.assertIsNotNone(pkder.check(it.kind, it.octets))
                if number % 20 == 0:
                    lines = [_lines.json_line(_lines.object_of("x", it, None)) for it in told]
                    self.assertEqual([report_schema.line_faults(SCHEMA, it) for it in lines], [[]] * len(lines))

    def test_no_octet_of_a_private_key_is_said(self):
        chance = random.Random(SEED)
        for number in range(COUNT // 20):
            name, label = chance.choice([*PRIVATE.values()])
            octets = octets_of(name)
            forms = spelled.PEM_FORMS + spelled.CONTAINED + spelled.BARE_FORMS
            came = chance.choice(forms)[1](octets, chance.choice((label, "CERTIFICATE REQUEST", "X Y")))
            came = changed(chance, came) if number % 2 else came
            told = find(came)
            said = "".join([repr(told), *(_lines.line_of("x", it, True, True) for it in told),
                            *(_lines.json_line(_lines.object_of("x", it, None)) for it in told)])
            # (the private octets stand from the middle of each of these on)
            texts = (octets.hex(), base64.b64encode(octets).decode())
            for text in texts:
                windows = (text[at : at + 8] for at in range(len(text) // 3, len(text) - 8))
                with self.subTest(seed=SEED, number=number):
                    self.assertFalse([it for it in windows if it in said])

    def test_octets_as_python_has_them(self):
        chance = random.Random(SEED)
        for number in range(max(COUNT // 20, 200)):
            octets = b"\x30" + chance.randbytes(chance.randrange(30, 200))
            width, end = chance.randrange(4, 90), chance.choice(("\n", "\r\n", "\r"))
            text = end.join(textwrap.wrap(base64.b64encode(octets).decode(), width))
            came = {"PEM": f"-----BEGIN PUBLIC KEY-----{end}{text}{end}-----END PUBLIC KEY-----{end}".encode(),
                    "base64": text.encode(), "hexadecimal": octets.hex(chance.choice(":- ")).encode()}
            if base64.b64encode(octets).translate(None, b"+/=") != base64.b64encode(octets):
                came["base64url"] = url_of(octets)
            for form, each in came.items():
                with self.subTest(seed=SEED, number=number, form=form):
                    self.assertEqual([(it.came_as, it.octets) for it in pieces_of(each)], [(form, octets)])

    def test_octets_as_openssl_has_them(self):
        if not shutil.which("openssl"):
            self.skipTest("no openssl")
        chance, whole = random.Random(SEED), pem_of(octets_of("request-p256"))
        with tempfile.TemporaryDirectory() as folder:
            for number in range(100):
                came = changed(chance, whole)
                with open(f"{folder}/came", "wb") as file:
                    file.write(came)
                words = "openssl asn1parse -inform PEM -strictpem -in came -noout -out octets".split()
                ran = subprocess.run(words, cwd=folder, capture_output=True)
                taken = [it.octets for it in find(came) if it.is_accepted and it.came_as == "PEM"]
                if not ran.returncode and taken:
                    with open(f"{folder}/octets", "rb") as file, self.subTest(seed=SEED, number=number):
                        self.assertEqual(file.read(), taken[0])


def hostile(size):
    """Inputs of about this size that a careless reader takes long for."""
    line = b"-----BEGIN CERTIFICATE REQUEST-----"
    whole = {"BEGIN lines": line + b"\n", "BEGIN in one line": line, "END lines": b"-----END X-----\n",
             "BEGIN without an end": b"-----BEGIN ", "hyphens": b"-", "quotes": b'"\n', "brackets": b"[",
             "braces": b'{"a":',
             "blanks": b" ", "ends of lines": b"\n", "names": b"a" + b" " * 60 + b"\n", "colons": b"a:\n",
             "fields": b"csr: MIIAAAAAAAAAAAAAAAAAAAAAAAAAA\n", "tags": b"<a ",
             "elements": b"<a>" + b"M" * 30 + b"</a>",
             "percents": b"%41", "delimiters": b"--x\nA: b\n\nc\n", "headers": b"A: b\n", "spaced": b"0x30  ",
             "dashes": b"-- " + b" " * 80 + b"x\n", "names of tags": b"<" + b"a" * 99 + b" ", "encoded": b"%2525",
             "backslashes": b"\\", "base64 beside": b"-----BEGIN X-----\n-----END X-----\n" + b"MIIB" * 20 + b"\n",
             "octets beside": b"-----BEGIN X-----\n-----END X-----\n0\x82\1\0",
             "0x": b"0x30, ", "pairs": b"30:", "arrays": b"{0x30,", "dots": b"aaaaaaaaa.", "references": b"&#10;"}
    first = {"names": b"<x>\n", "percents": b"a=", "delimiters": b"Content-Type: x; boundary=x\n\n", "tags": b"<a>",
             "headers": b"Content-Type: x\n", "spaced": b"{", "dashes": b"Content-Type: x; boundary=x\n\n",
             "names of tags": b"<a>", "encoded": b"a=+", "quotes": line + b'\\n"', "references": line,
             "backslashes": line + b"\\n"}
    last = {"quotes": b"-----END CERTIFICATE REQUEST-----", "backslashes": b"\n-----END CERTIFICATE REQUEST-----\n",
            "references": b"-----END CERTIFICATE REQUEST-----"}
    return {it: first.get(it, b"") + each * (size // len(each)) + last.get(it, b"") for it, each in whole.items()}


def taken(octets):
    """The seconds of the processor that an input takes, the least of a few times."""
    seconds = []
    for _ in range(3):
        began = time.process_time()
        find(octets)
        seconds.append(time.process_time() - began)
    return min(seconds)


class Times(unittest.TestCase):
    def test_time_grows_as_the_input(self):
        small, large = hostile(40_000), hostile(320_000)
        for name, octets in large.items():
            with self.subTest(name=name):
                self.assertLess(taken(octets), 24 * taken(small[name]) + 0.05)

    def test_begin_lines(self):
        self.assertLess(taken(hostile(1_800_000)["BEGIN lines"]), 1)
