"""The spellings of tests/manual/spellings.tsv, on which the manual's recipes are tried, as intake reads them: the same
octets, or a refusal. What is read more freely here is said by its rule."""
import base64
import json
import unittest

from made import CERTIFICATE, TOP, octets_of, pem_of
from pkder.intake import Rules, find
from pkder.intake._layers import pieces_of
from tests.harness import spellings

TABLE = f"{TOP}/tests/manual/spellings.tsv"
LABEL = "pem 'CERTIFICATE REQUEST'"
# Each block is judged by itself, and equal ones are one document; octets alone need no boundaries. These are refused by
# a recipe that is told what it reads, and are other forms here.
OF_OTHER_FORMS = ("base64 alone", "a second block", "the same block twice", "another label", "PEM where base64 is due",
                  "base64url where base64 is due", "base64 without its padding", "base64url with padding",
                  "base64 where base64url is due", "a plus where base64url is due", "hexadecimal after 0x")

# RFC 7468 reads it, and OpenSSL what stands behind the blank line alone: two readers have other octets.
OF_TWO_READERS = ("a line without anything in mid-block",)
# What these recipes read isn't ours, and is named.
OF_OTHERS = {"from_ssh": "ssh_public_key", "from_openssh": "openssh_key"}


def with_blank_line(text, at=3):
    """A text with a blank line before this one of its lines, counted from 0."""
    lines = text.splitlines(True)
    return b"".join([*lines[:at], b"\n", *lines[at:]])


class Spellings(unittest.TestCase):
    def rows(self, recipe):
        found = [it for it in spellings.rows_of(TABLE) if it.recipe.startswith(recipe)]
        return [it for it in found if it.rule not in OF_OTHER_FORMS and it.recipe not in OF_OTHERS]

    def assert_read(self, row):
        """That it is read as the row says, or refused."""
        of_label = ("CERTIFICATE REQUEST", "NEW CERTIFICATE REQUEST", None)
        read = [it for it in pieces_of(row.text) if it.label in of_label or not row.octets]
        octets = [it.octets for it in read if it.octets]
        if row.rule in OF_TWO_READERS:
            self.assertEqual((octets, [it.why for it in read]), ([], ["a blank line in a block"]))
        elif row.octets:
            self.assertEqual((octets, [it.why for it in read]), ([row.octets], [None]))
        else:
            self.assertTrue(any(it.why or it.what for it in read), read)
            self.assertNotIn(0, [it.status for it in find(row.text)])

    def test_pem(self):
        rows = self.rows(LABEL)
        self.assertGreater(len(rows), 60)
        for row in rows:
            with self.subTest(rule=row.rule):
                self.assert_read(row)

    def test_base64_in_either_alphabet_and_hexadecimal(self):
        rows = self.rows("from_")
        self.assertGreater(len(rows), 20)
        for row in rows:
            with self.subTest(rule=row.rule):
                self.assert_read(row)

    def test_keys_of_ssh_are_named(self):
        rows = [it for it in spellings.rows_of(TABLE) if it.recipe in OF_OTHERS and it.octets]
        self.assertGreater(len(rows), 4)
        for row in rows:
            with self.subTest(rule=row.rule):
                self.assertEqual([it.what for it in find(row.text)], [OF_OTHERS[row.recipe]])

    def test_what_is_neither(self):
        for came in (b"MAMCAQU=MAMCAQU=", b"MAMCAQV=", b"MAMC*QU=", b"MAQEAvv_=", b"MA+_", b"MAMCA", b"", b"\n",
                     b"a note!", b"\xef\xbb\xbf", "MAMCAQU=".encode("utf-16")[:-3]):
            with self.subTest(came=came):
                self.assertEqual([it.octets for it in pieces_of(came)], [None])

    def test_a_block_that_is_damaged_keeps_no_other_from_being_judged(self):
        octets = octets_of("request-p256")
        good, bad = pem_of(octets), pem_of(octets).replace(b"MII", b"M*I")
        for came, due in ((bad + good, [2, 0]), (good + bad, [0, 2]), (good + good[:99], [0, 2]),
                          (good + b"-----END CERTIFICATE REQUEST-----\n", [0, 2])):
            with self.subTest(due=due):
                self.assertEqual([it.status for it in find(came)], due)

    def test_one_document_where_one_is_due(self):
        octets = octets_of("request-p256")
        two = pem_of(octets) + pem_of(octets_of("request-ed25519"))
        self.assertEqual([it.status for it in find(two)], [0, 0])
        self.assertEqual([(it.status, it.why) for it in find(two, Rules(one=True))],
                         [(2, "2 documents, where one is due")] * 2)
        for came in (pem_of(octets), pem_of(octets) * 2, pem_of(octets) + pem_of(CERTIFICATE, "CERTIFICATE")):
            self.assertEqual({it.status for it in find(came, Rules(one=True))}, {0})

    def test_labels_that_are_nearly_known(self):
        for label in ("certificate request", "CERTIFICATE  REQUEST", "Private Key"):
            came = pem_of(octets_of("request-p256"), label)
            self.assertEqual([(it.status, it.why[:13]) for it in find(came)], [(2, "a label that ")])

    def test_six_hyphens_and_marks_on_some_lines(self):
        good = pem_of(octets_of("request-p256"))
        marked = b"".join(b"# " + it for it in good.splitlines(keepends=True))
        self.assertEqual([it.status for it in find(marked)], [0])
        for came in (good.replace(b"-----BEGIN", b"------BEGIN"), good.replace(b"REQUEST-----\nM", b"REQUEST------\nM"),
                     good.replace(b"-----END", b"------END"), good[:-1] + b"-\n", marked.replace(b"\n# M", b"\nM"),
                     good.replace(b"\nM", b"\n# M"), marked.replace(b"# -----END", b"-----END")):
            with self.subTest(came=came[:50]):
                self.assertNotIn(0, [it.status for it in find(came)])

    def test_what_is_nearly_a_form_is_told(self):
        text = pem_of(octets_of("request-p256")).decode()
        nearly = ("what is nearly a BEGIN line: -----BEGIN LABEL----- is due, in a line of its own", "request")
        alone = ("base64 among other text, without BEGIN and END lines", "none of these")
        lines = base64.encodebytes(octets_of("request-p256")).decode()
        for came, due in (
            (text.replace("-----", "\u2013\u2013\u2013"), nearly), (text.replace("-----", "\u2014\u2014-"), nearly),
            (text.replace("BEGIN", "Begin").replace("END", "End"), nearly), (text.replace("-----", "----"), nearly),
            ("".join(f"+{it}\n" for it in text.splitlines()), nearly), (text.replace("-----", "------"), nearly),
            ("".join(f"{at}  {it}\n" for at, it in enumerate(text.splitlines())), nearly),
            (f"Here it is:\n\n{lines}\nKind regards\n", alone), ("Hello,\n" + lines.replace("M", "> M", 1), alone),
        ):
            with self.subTest(came=came[:40]):
                self.assertEqual([(it.status, it.why, it.name) for it in find(came.encode())], [(2, *due)])
        for came in (b"the lines between BEGIN and END\n", b"M\n" * 99, b"M" * 60 + b"\n\nM\n"):
            self.assertNotIn("nearly", find(came)[0].why)

    def test_blank_lines_that_no_reader_takes_for_the_end_of_headers(self):
        good = pem_of(octets_of("request-p256"))
        lines = good.splitlines(True)
        for came in (lines[0] + b"\n" + b"".join(lines[1:]), b"".join(lines[:-1]) + b"\n" + lines[-1],
                     b"".join(lines[:3]) + b"\n\n" + b"".join(lines[3:]), with_blank_line(good, 1) + b"\n",
                     with_blank_line(with_blank_line(good), 5)):
            self.assertEqual([(it.status, it.octets) for it in find(came)], [(0, octets_of("request-p256"))], came)
        # (it is still known as what it isn't)
        found = find(good + with_blank_line(pem_of(b"0" * 99, "CERTIFICATE"), 2))
        self.assertEqual([(it.status, it.what) for it in found], [(0, None), (0, "certificate")])

    def test_why_there_are_no_octets(self):
        good = pem_of(octets_of("request-p256"))
        label = b"-----BEGIN CERTIFICATE REQUEST-----\n"
        for came, why in ((label * 2 + good, "a block begins in another one"),
                          (good[:99], "a block without its END line"),
                          (good.partition(b"\n")[2], "an END line without its BEGIN line"),
                          (good.replace(b"END C", b"END NEW C"), "an END line of another label"),
                          (good.replace(b"-----\nM", b"-----\nComment: x\n\nM"), "headers in a block"),
                          (with_blank_line(good), "a blank line in a block"),
                          (with_blank_line(good).replace(b"\n", b"  \r\n"), "a blank line in a block"),
                          (b"> " + with_blank_line(good).replace(b"\n", b"\n> "), "a blank line in a block"),
                          (json.dumps({"csr": with_blank_line(good).decode()}).encode(), "a blank line in a block"),
                          (b'CSR="%s"' % with_blank_line(good).replace(b"\n", b"\\n"), "a blank line in a block"),
                          (good.replace(b"M", b"*", 1), "not base64: another character in a block"),
                          (label + label.replace(b"BEGIN", b"END"), "an empty block"),
                          (good.replace(b"\n", b""), "a block in one line"),
                          (base64.b64encode(octets_of("request-p256"))[:-1] + b"*", "not base64 to its last bit")):
            with self.subTest(why=why):
                self.assertEqual([(it.status, it.why) for it in find(came)], [(2, why)])
