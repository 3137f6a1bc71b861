"""The lines and the objects of what was found, these held against docs/intake.schema.json; and names as they are
shown."""
import hashlib
import json
import os
import unittest

import spelled
from made import KINDS, OTHERS, SENT, TOP, octets_of, pem_of, sent
from other_things import MADE
from pkder.intake import Rules, find
from pkder.intake import _lines
from pkder.intake._others import OTHERS as WORDS
from tools.pages import report_schema

with open(f"{TOP}/docs/intake.schema.json", encoding="utf-8") as page:
    SCHEMA = report_schema.Schema(json.load(page))


def inputs():
    """Inputs of all sorts."""
    yield from (octets_of(it) for it in [*OTHERS, *(name for name, _ in KINDS.values())])
    yield from (sent(it) for it in sorted(os.listdir(SENT)))
    yield from (came for came, _ in MADE)
    for kind, (name, label) in KINDS.items():
        for _, make, _ in spelled.PEM_FORMS + spelled.CONTAINED + spelled.BARE_FORMS:
            yield make(octets_of(name), label or "PRIVATE KEY")
    yield from (pem_of(octets_of(it), "PRIVATE KEY") + pem_of(octets_of("request-p256"))[:-9] for it in OTHERS)
    yield from (b"", b"text", b"-----BEGIN X-----\n", pem_of(octets_of("p256"), "RSA PRIVATE KEY"))


class Objects(unittest.TestCase):
    def test_each_is_of_the_schema(self):
        forms = set()
        for came in inputs():
            for rules in (Rules(), Rules(one=True, ber=False, with_keys=True)):
                for it in find(came, rules):
                    told = _lines.object_of("name", it, "out/name.key.pem" if it.is_accepted else None)
                    forms |= told.keys()
                    self.assertEqual(report_schema.line_faults(SCHEMA, _lines.json_line(told)), [])
        error = _lines.error_object("name", 3, "no such file")
        self.assertEqual(report_schema.line_faults(SCHEMA, _lines.json_line(error)), [])
        due = {*SCHEMA.whole["$defs"]["document"]["properties"]} - {"note"}
        self.assertEqual(forms, due)

    def test_the_schema_has_each_word(self):
        self.assertEqual(SCHEMA.whole["$defs"]["document"]["properties"]["what"]["enum"], [*WORDS])

    def test_the_schema_refuses_others(self):
        found = find(pem_of(octets_of("request-p256")))[0]
        told = _lines.object_of("name", found, None)
        for change in ({"status": 4}, {"kind": "rsa"}, {"what": "x"}, {"more": 1}, {"at": 7}, {"document": 0}):
            line = _lines.json_line({**told, **change})
            self.assertNotEqual(report_schema.line_faults(SCHEMA, line), [], change)

    def test_a_whole_object(self):
        octets = octets_of("request-p256")
        told = _lines.object_of("a/b.csr", find(b"\n" + pem_of(octets))[0], "out/b.csr.request.pem")
        brief = told.pop("brief")
        self.assertTrue(brief)
        due = {"file": "a/b.csr", "document": 1, "at": {"line": 2, "octet": 1}, "came_as": "PEM",
               "label": "CERTIFICATE REQUEST", "kind": "request", "status": 0, "verdict": "der",
               "sha256": hashlib.sha256(octets).hexdigest(), "written": "out/b.csr.request.pem"}
        self.assertEqual((told, [*told]), (due, [*due]))

    def test_faults(self):
        told = _lines.object_of("x", find(octets_of("inner-trailing"))[0], None)
        due = (12, "Inner", {"at": 34, "reason": "Trailing"})
        self.assertEqual((told["place"], told["reason"], told["inside"]), due)
        told = _lines.object_of("x", find(octets_of("request-version-1"))[0], None)
        due = (5, "Version", "certificationRequestInfo.version")
        self.assertEqual((told["place"], told["reason"], told["field"]), due)

    def test_sums_are_of_what_is_public(self):
        for kind, (name, label) in KINDS.items():
            told = _lines.object_of("x", find(octets_of(name))[0], None)
            self.assertEqual("sha256" in told, kind in ("request", "public"))
        told = _lines.object_of("x", find(octets_of("request-p256") + octets_of("p256"))[0], None)
        self.assertNotIn("sha256", told)


class Lines(unittest.TestCase):
    def line(self, came, name="x", brief=False):
        found = find(came)
        return [_lines.line_of(name, it, len(found) > 1, brief) for it in found]

    def test_lines(self):
        request, key = pem_of(octets_of("request-p256")), pem_of(octets_of("p256"), "PRIVATE KEY")
        for came, due in (
            (request, ["x: PEM, CERTIFICATE REQUEST: request: DER"]),
            (octets_of("request-indefinite"), ["x: octets: request: not DER at 1"]),
            (octets_of("request-version-1"), ["x: octets: request: fault at 5: Version"]),
            (request + key, ["x[1]: PEM, CERTIFICATE REQUEST: request: DER, and refused: a private key came with it",
                             "x[2]: PEM, PRIVATE KEY: key: DER"]),
            (pem_of(octets_of("p256"), "RSA PRIVATE KEY"),
             ["x: PEM, RSA PRIVATE KEY: key: DER, and refused: labelled RSA PRIVATE KEY; label it PRIVATE KEY"]),
            (request[:99], ["x: PEM, CERTIFICATE REQUEST: request: refused: a block without its END line"]),
            (b"\xfe\xed\xfe\xed\0\0\0\2", ["x: octets: key store of Java (JKS): not ours: keytool -importkeystore "
                                           "-srckeystore FILE -destkeystore NEW -deststoretype PKCS12, then "
                                           "openssl pkcs12 -nodes -nocerts -in NEW"]),
            (b"", ["x: nothing in it"]), (b"a note", ["x: no document in it"]),
            (b"MAMCAQU=", ["x: base64: none of these: refused: no document in it"]),
        ):
            with self.subTest(due=due):
                self.assertEqual(self.line(came), due)

    def test_the_answer_for_whoever_sent_it(self):
        found = find(pem_of(octets_of("request-p256")))
        self.assertEqual(self.line(pem_of(octets_of("request-p256")), brief=True),
                         [f"x: PEM, CERTIFICATE REQUEST: request: DER: {found[0].brief}"])
        self.assertEqual(self.line(b"", brief=True), ["x: nothing in it"])

    def test_names(self):
        # (as docs/manual.md, "Files", has it: quotes and escapes for what is no plain name)
        for name, shown, in_json in ((b"a b.csr", "a b.csr", "a b.csr"), (b"a\nb", '"a\\nb"', "a\nb"), (b"", '""', ""),
                                     (b'a"', '"a\\""', 'a"'), (b"a\\", '"a\\\\"', "a\\"),
                                     (b"\xff'", '"\\xff\\\'"', '"\\xff\\\'"'),
                                     ("ü".encode(), "ü", "ü"), ("ü\n".encode(), '"\\u{fc}\\n"', "ü\n"),
                                     (b"\x7f", '"\\u{7f}"', "\x7f"), (b"\xc2\x85", '"\\u{85}"', "\x85")):
            with self.subTest(name=name):
                text = os.fsdecode(name)
                self.assertEqual((_lines.shown_name(text), _lines.json_name(text)), (shown, in_json))
