"""The rows that PKDER_CALLS names (interface/calls.py makes them), the pairs of documents that PKDER_PAIRS names
(interface/pairs.py), the reasons of pkder.h, which PKDER_HEADER names, reports, calls that are wrong or careless, and
threads; and what requests of tests/ and examples/ ask for, which stand beside the folder of that header.

python3 -m unittest discover -s tests, with PKDER_LIBRARY where the library isn't installed."""
import json
import os
import pickle
import re
import threading
import unittest

import pkder

# by the program's words
PARTS = dict(zip(("info", "algorithm", "key", "signature", "received"), pkder.Part))
KEY = bytes.fromhex("302e020100300506032b657004220420") + bytes(range(32))
# (its outer length has two octets)
KEY_IN_BER = b"\x30\x81" + KEY[1:]
# a public key of an algorithm that no certificate of a TLS server has
ED25519 = bytes.fromhex("302a300506032b6570032100") + bytes(range(32))
# the first octets of a public key, with its algorithm
ALGORITHM = bytes.fromhex("302a300506032b6570")


def said(words, document):
    """Status, output and line of the call that the words ask for."""
    command, options = words[0], dict(zip(words[1::2], words[2::2]))
    limits = {"depth": int(options["--depth"]), "octets": int(options["--octets"])}
    try:
        if command == "signed":
            return 0, pkder.signed(PARTS[options["--part"]], document, **limits), ""
        kind = pkder.Kind[options["--kind"].upper()]
        if command == "normalise":
            return 0, pkder.normalise(kind, document, **limits), ""
        if command == "show":
            return 0, pkder.show(kind, document, **limits).encode(), ""
        if command in ("explain", "field"):
            form = {"all": "--all" in words, "json": "--json" in words, "tls": "--profile=tls" in words}
            report = pkder.explain(kind, document, **form, **limits)
            text = report.text if command == "explain" else pkder.field(kind, document, **limits)
            return 0 if report.is_der else 2 if report.fault else 1, text.encode(), ""
        form = pkder.check(kind, document, **limits)
        return 0 if form.is_der else 1, f"{form}\n".encode(), ""
    except pkder.Fault as fault:
        return 2, b"", str(fault)


def refusal(words, document):
    """Status and line by which require_der answers what check is asked for."""
    options = dict(zip(words[1::2], words[2::2]))
    limits = {"depth": int(options["--depth"]), "octets": int(options["--octets"])}
    try:
        judged = pkder.require_der(pkder.Kind[options["--kind"].upper()], document, **limits)
        return (0, "DER") if judged == document else (0, judged)
    except pkder.NotDer as why:
        return 1, str(why)
    except pkder.Refused as why:
        return 2, str(why)


def reported(words, document):
    """The line of check in the report that explain makes of what check is asked for, and in its JSON, and the line of
    the report's numbers."""
    options = dict(zip(words[1::2], words[2::2]))
    kind = pkder.Kind[options["--kind"].upper()]
    limits = {"depth": int(options["--depth"]), "octets": int(options["--octets"])}
    report = pkder.explain(kind, document, **limits)
    told = json.loads(pkder.explain(kind, document, json=True, **limits).text)
    return report.text.splitlines()[1], line_of(told), str(report.fault or pkder.Form(report.differs_at))


def line_of(told):
    """The line of check that a report in JSON tells."""
    if told["verdict"] == "der":
        return str(pkder.Form())
    if told["verdict"] == "not_der":
        return str(pkder.Form(told["at"]))
    inside = told.get("inside")
    return str(pkder.Fault(told["at"], told["reason"], inside and (inside["at"], inside["reason"])))


class Rows(unittest.TestCase):
    def test_rows(self):
        with open(os.environ["PKDER_CALLS"], encoding="utf-8") as it:
            rows = [line.split("\t") for line in it.read().splitlines()]
        self.assertGreater(len(rows), 800)
        for rule, words, given, status, output, error in rows:
            with self.subTest(rule=rule, words=words):
                due = int(status), bytes.fromhex(output), error
                self.assertEqual(said(words.split(), bytes.fromhex(given)), due)
                if words.startswith("check"):
                    line = error or bytes.fromhex(output).decode().rstrip("\n")
                    self.assertEqual(refusal(words.split(), bytes.fromhex(given)), (int(status), line))
                    self.assertEqual(reported(words.split(), bytes.fromhex(given)), (line, line, line))


def compared(kind, depth, octets, first, second):
    """The answer of same in the words of the table of pairs."""
    kind, limits = pkder.Kind[kind.upper()], {"depth": int(depth), "octets": int(octets)}
    try:
        return {True: "the same", False: "another"}[pkder.same(kind, first, second, **limits)]
    except pkder.Fault as fault:
        return str(fault)


class Pairs(unittest.TestCase):
    def test_pairs(self):
        with open(os.environ["PKDER_PAIRS"], encoding="utf-8") as it:
            rows = [line.split("\t") for line in it.read().splitlines()]
        self.assertGreater(len(rows), 1000)
        for rule, kind, depth, octets, *given, due in rows:
            first, second = (bytes.fromhex(it) for it in given)
            with self.subTest(rule=rule, kind=kind):
                self.assertEqual(compared(kind, depth, octets, first, second), due)

    def test_which_document_is_refused(self):
        for which, pair in enumerate([(KEY[:20], KEY), (KEY_IN_BER, KEY[:20])], 1):
            with self.assertRaises(pkder.Fault) as raised:
                pkder.same(pkder.Kind.KEY, *pair)
            fault = raised.exception
            self.assertEqual((fault.which, fault.at, fault.reason), (which, 20, pkder.Reason.TRUNCATED))
            self.assertEqual(str(pickle.loads(pickle.dumps(fault))), str(fault))
        for call in pkder.normalise, pkder.check, pkder.require_der, pkder.show:
            with self.assertRaises(pkder.Fault) as raised:
                call(pkder.Kind.KEY, KEY[:20])
            self.assertEqual((raised.exception.which, str(raised.exception)), (0, "fault at 20: Truncated"))

    def test_octets_of_any_type(self):
        for first in KEY, bytearray(KEY), memoryview(KEY):
            for second in KEY_IN_BER, bytearray(KEY_IN_BER), memoryview(KEY_IN_BER):
                self.assertIs(pkder.same(pkder.Kind.KEY, first, second), True)

    def test_bad_calls(self):
        for kind, depth, octets in (1, 0, 9), (1, 65, 9), (1, 2**32 + 1, 9), (1, 1, 0), (1, 1, 2**31), (7, 1, 9):
            with self.subTest(kind=kind, depth=depth, octets=octets), self.assertRaises(ValueError) as raised:
                pkder.same(kind, KEY, KEY, depth=depth, octets=octets)
            self.assertNotIsInstance(raised.exception, pkder.Fault)


class Careless(unittest.TestCase):
    """Lines that look at no more than a call's name, of a document in BER."""

    def test_require_der(self):
        with self.assertRaises(pkder.NotDer) as raised:
            pkder.require_der(pkder.Kind.KEY, KEY_IN_BER)
        self.assertEqual((raised.exception.at, str(raised.exception)), (1, "not DER at 1"))
        self.assertIsInstance(raised.exception, ValueError)

    def test_a_form_is_no_truth_value(self):
        for document in KEY, KEY_IN_BER:
            with self.subTest(document=document.hex()), self.assertRaisesRegex(TypeError, "is_der.*require_der"):
                if pkder.check(pkder.Kind.KEY, document):
                    pass
            with self.subTest(document=document.hex()), self.assertRaisesRegex(TypeError, "is_der.*require_der"):
                self.assertTrue(not pkder.check(pkder.Kind.KEY, document))

    def test_a_form_is_compared_whole(self):
        self.assertEqual(pkder.check(pkder.Kind.KEY, KEY), pkder.Form())
        self.assertEqual(pkder.check(pkder.Kind.KEY, KEY_IN_BER), pkder.Form(1))
        self.assertNotEqual(pkder.Form(), None)

    def test_refused_documents_are_not_the_same(self):
        with self.assertRaises(pkder.Fault):
            if pkder.same(pkder.Kind.KEY, KEY[:20], KEY[:20]):
                self.fail("two refused documents are the same")

    def test_octets_that_change_later(self):
        document = bytearray(KEY)
        judged = pkder.require_der(pkder.Kind.KEY, document)
        document[:] = KEY_IN_BER
        self.assertEqual(judged, KEY)


class Reports(unittest.TestCase):
    def test_a_sound_document(self):
        report = pkder.explain(pkder.Kind.KEY, KEY)
        self.assertEqual((report.is_der, report.differs_at, report.fault), (True, None, None))
        self.assertTrue(report.text.startswith("key, 48 octets\nDER\n"))

    def test_a_document_in_ber(self):
        report = pkder.explain(pkder.Kind.KEY, KEY_IN_BER)
        self.assertEqual((report.is_der, report.differs_at, report.fault), (False, 1, None))
        # (with all elements it lists privateKey too, at 13)
        whole = pkder.explain(pkder.Kind.KEY, KEY_IN_BER, all=True)
        self.assertEqual([bool(re.search("^13 ", it.text, re.M)) for it in (report, whole)], [False, True])

    def test_notes_for_tls_servers(self):
        texts = [pkder.explain(pkder.Kind.PUBLIC, ED25519, tls=tls).text for tls in (False, True)]
        self.assertEqual([it.count("key_algorithm") for it in texts], [0, 1])
        told = json.loads(pkder.explain(pkder.Kind.PUBLIC, ED25519, json=True, tls=True).text)
        self.assertEqual([it["what"] for it in told["notes"]], ["key_algorithm"])

    def test_a_refused_document_does_not_raise(self):
        report = pkder.explain(pkder.Kind.KEY, KEY[:20])
        self.assertEqual((report.is_der, report.differs_at, report.fault.at), (False, None, 20))
        self.assertEqual(report.fault.reason, pkder.Reason.TRUNCATED)

    def test_more_room_than_there_was_at_first(self):
        names = bytes.fromhex("31 0b 30 09 06 03 55 04 03 0c 02 61 61") * 400
        # (the octets end after the algorithm of the public key, without which no subject is listed)
        start = bytes.fromhex("30 82 7f ff 30 82 7f f0 02 01 00 30 82") + len(names).to_bytes(2, "big")
        request = start + names + ALGORITHM
        report = pkder.explain(pkder.Kind.REQUEST, request, all=True, json=True)
        self.assertGreater(len(report.text), 2 * pkder._REPORT)
        self.assertEqual(json.loads(report.text)["verdict"], "refused")
        self.assertTrue(report.text.endswith("}\n"))

    def test_json_with_a_name_that_is_not_ascii(self):
        name = bytes.fromhex("31 0e 30 0c 06 03 55 04 03 0c 05") + "Zoë-".encode()
        request = bytes.fromhex("30 7f 30 7d 02 01 00 30") + bytes([len(name)]) + name + ALGORITHM
        lines = json.loads(pkder.explain(pkder.Kind.REQUEST, request, all=True, json=True).text)["lines"]
        values = [it["value"] for it in lines if it.get("name") == "value"]
        self.assertEqual(values, [{"characters": "Zoë-"}])

    def test_the_field(self):
        self.assertEqual(pkder.field(pkder.Kind.KEY, KEY), "")
        self.assertEqual(pkder.field(pkder.Kind.KEY, KEY_IN_BER), "OneAsymmetricKey")
        for document in KEY[:20], bytearray(KEY[:20]), memoryview(KEY[:20]):
            self.assertEqual(pkder.field(pkder.Kind.KEY, document), "privateKey")
        # (with 47 octets at most it is too long from its first octet on)
        self.assertEqual(pkder.field(pkder.Kind.KEY, KEY, octets=47), "OneAsymmetricKey")

    def test_a_report_is_no_truth_value(self):
        for document in KEY, KEY_IN_BER, KEY[:20]:
            with self.subTest(document=document.hex()), self.assertRaisesRegex(TypeError, "is_der.*require_der"):
                if pkder.explain(pkder.Kind.KEY, document):
                    pass


def request_of(name):
    """The octets of a request of the repository."""
    top = os.path.dirname(os.path.dirname(os.path.abspath(os.environ["PKDER_HEADER"])))
    with open(f"{top}/{name}.der", "rb") as it:
        return it.read()


def explained(name):
    """What a request of tests/pkder/explained asks for."""
    return pkder.asks(request_of(f"tests/pkder/explained/{name}"))


class Asked(unittest.TestCase):
    """What requests ask for, as `openssl req -text` and `openssl asn1parse` show it."""

    def test_whole(self):
        found = explained("extensions-sound")
        self.assertEqual(found.subject, ((pkder.NameAttribute("2.5.4.3", "commonName", "www.example.org"),),))
        self.assertEqual(found.key, pkder.Key("Ed25519", octets=32))
        self.assertEqual((found.signature, found.attributes), (pkder.Algorithm("Ed25519"), ()))
        self.assertEqual(found.san, (pkder.Name("dns", "www.example.org"), pkder.Name("ip", "192.0.2.17")))
        self.assertEqual((found.dns, found.is_ca), (("www.example.org",), False))
        self.assertEqual(found.key_usage, ("digitalSignature", "keyEncipherment"))
        self.assertEqual(found.extended_key_usage, ("id-kp-serverAuth",))
        told = [(it.identifier, it.name, it.critical, it.at, it.verdict) for it in found.extensions]
        self.assertEqual(told, [("2.5.29.17", "subjectAltName", False, 101, "der"),
                                ("2.5.29.15", "keyUsage", True, 135, "der"),
                                ("2.5.29.37", "extKeyUsage", False, 151, "der"),
                                ("2.5.29.19", "basicConstraints", True, 172, "der")])
        purpose = pkder.Value(identifier="1.3.6.1.5.5.7.3.1", name="id-kp-serverAuth")
        self.assertEqual([it.values for it in found.extensions], [(), (), (purpose,), ()])
        self.assertEqual(hash(found), hash(pickle.loads(pickle.dumps(found))))

    def test_examples(self):
        found = pkder.asks(request_of("examples/request-p256"))
        names = [[(it.name, it.text, it.value) for it in relative] for relative in found.subject]
        self.assertEqual(names, [[("countryName", "US", None)], [("organizationName", "Example", None)],
                                 [("commonName", "www.example.com", None)]])
        self.assertEqual(found.key, pkder.Key("id-ecPublicKey", "P-256", 65))
        self.assertEqual(found.signature, pkder.Algorithm("ecdsa-with-SHA256"))
        self.assertEqual((found.dns, found.is_ca), (("www.example.com", "example.com"), False))
        self.assertEqual((found.key_usage, found.extended_key_usage), ((), ()))
        found = pkder.asks(request_of("examples/request-rsa2048"))
        self.assertEqual(found.key, pkder.Key("rsaEncryption", None, 270, "der", 2048, "65537"))
        self.assertEqual(found.signature, pkder.Algorithm("sha256WithRSAEncryption"))
        self.assertEqual((found.extensions, found.san, found.dns, found.is_ca), ((), (), (), False))

    def test_requests_in_ber(self):
        # (its strings are in segments, and the value of the subjectAltName, too)
        found = pkder.asks(bytearray(request_of("examples/request-indefinite")))
        self.assertEqual([it.text for relative in found.subject for it in relative], [None, None, None])
        self.assertEqual(found.key, pkder.Key("id-ecPublicKey", "P-256"))
        self.assertEqual(found.dns, ("www.example.com", "example.com"))
        found = explained("critical-false")
        self.assertEqual(found.subject[1][0].text, "Müller und Söhne GmbH")
        self.assertEqual([it.critical for it in found.extensions], [True, True, False])
        self.assertEqual((found.dns, found.key_usage), (("www.example.com", "example.com"), ("digitalSignature",)))

    def test_attributes_have_names_alone(self):
        found = explained("critical-false")
        self.assertEqual(found.attributes, ("challengePassword",))
        self.assertNotIn("secret password", repr(found))

    def test_what_cannot_be_told(self):
        for name in "note-extension-length", "note-extension-text":
            found = explained(name)
            with self.subTest(name=name):
                self.assertEqual((found.san, found.dns, found.extensions[0].names), (None, None, ()))
        verdicts = [explained(name).extensions[0].verdict for name in ("note-extension-length", "note-extension-text")]
        self.assertEqual(verdicts, ["not_der", "refused"])
        self.assertIsNone(explained("note-extension-empty").extended_key_usage)
        found = explained("note-extension-twice")
        self.assertEqual((found.key_usage, found.dns), (None, ("a.example",)))

    def test_authorities(self):
        for name in "note-extension-true", "note-extension-false":
            self.assertIsNone(explained(name).is_ca)
        # (its TRUE is another octet than FF)
        request = request_of("tests/pkder/explained/note-extension-true")
        in_der = request.replace(bytes.fromhex("3003010101"), bytes.fromhex("30030101ff"))
        self.assertIs(pkder.asks(in_der).is_ca, True)
        self.assertEqual(pkder.asks(in_der).extensions[0].values, (pkder.Value(field="cA", boolean=True),))

    def test_refused_requests(self):
        for document in KEY, b"", request_of("examples/request-p256")[:-1]:
            with self.subTest(document=document.hex()), self.assertRaises(pkder.Fault):
                pkder.asks(document)
        with self.assertRaises(pkder.Fault) as raised:
            pkder.asks(request_of("examples/request-followed"))
        self.assertEqual(str(raised.exception), "fault at 148: Trailing")
        for limits in {"depth": 0}, {"depth": 65}, {"octets": 0}, {"octets": 2**31}:
            with self.subTest(limits=limits), self.assertRaises(ValueError) as raised:
                pkder.asks(KEY, **limits)
            self.assertNotIsInstance(raised.exception, pkder.Fault)


def rsa_key(contents):
    """A public key of RSA whose BIT STRING has these contents, in hexadecimal digits."""
    octets = bytes.fromhex(contents)
    algorithm = bytes.fromhex("300d06092a864886f70d0101010500")
    key = algorithm + bytes([3, len(octets)]) + octets
    return bytes([0x30, len(key)]) + key


class Held(unittest.TestCase):
    """What documents hold, as `openssl asn1parse` shows it, and by X.690 8.3."""

    def test_examples(self):
        of_rsa = pkder.Key("rsaEncryption", None, 270, "der", 2048, "65537")
        for name, kind, due in (
            ("rsa2048", pkder.Kind.KEY, pkder.Holds(pkder.Key("rsaEncryption", bits=2048, exponent="65537"))),
            ("p384", pkder.Kind.KEY, pkder.Holds(pkder.Key("id-ecPublicKey", "P-384"))),
            ("public-rsa2048", pkder.Kind.PUBLIC, pkder.Holds(of_rsa)),
            ("public-p256", pkder.Kind.PUBLIC, pkder.Holds(pkder.Key("id-ecPublicKey", "P-256", 65))),
            ("public-indefinite", pkder.Kind.PUBLIC, pkder.Holds(pkder.Key("Ed25519"))),
            ("k256-sec1", pkder.Kind.EC, pkder.Holds(curve="secp256k1")),
            ("encrypted-keytool", pkder.Kind.ENCRYPTED, pkder.Holds(
                algorithms=("id-PBES2", "id-PBKDF2", "id-hmacWithSHA256", "aes256-CBC-PAD"), numbers=(10000, 32))),
        ):
            with self.subTest(name=name):
                self.assertEqual(pkder.holds(kind, request_of(f"examples/{name}")), due)
        # (an EC key without parameters)
        self.assertEqual(pkder.holds(pkder.Kind.EC, bytes.fromhex("302502010104 20" + "11" * 32)), pkder.Holds())

    def test_keys_of_rsa(self):
        for contents, due in (
            ("003006020121020103", ("der", 6, "3")),
            ("0030090202ff7f0203010001", ("der", None, "65537")),
            ("00300d0206008000000000020300ffff", ("der", 40, "65535")),
            ("00300b02020101020500ffffffff", ("der", 9, "0x00ffffffff")),
            ("0030060201210201ff", ("der", 6, "0xff")),
            ("00308106020121020103", ("not_der", None, None)),
            ("003003020121", ("refused", None, None)),
            ("013006020121020102", ("refused", None, None)),
        ):
            found = pkder.holds(pkder.Kind.PUBLIC, rsa_key(contents)).key
            with self.subTest(contents=contents):
                self.assertEqual((found.verdict, found.bits, found.exponent), due)
                self.assertEqual(found.octets, len(contents) // 2 - 1)

    def test_refused_documents(self):
        with self.assertRaises(pkder.Fault):
            pkder.holds(pkder.Kind.KEY, b"")
        for kind in pkder.Kind.REQUEST, pkder.Kind.PACKAGE, 3, 6, 0, 7:
            with self.subTest(kind=kind), self.assertRaises(ValueError) as raised:
                pkder.holds(kind, b"")
            self.assertNotIsInstance(raised.exception, pkder.Fault)


class Module(unittest.TestCase):
    def test_names(self):
        self.assertEqual([it for it in dir(pkder) if not it.startswith("__")], sorted(pkder.__all__))
        self.assertRegex(pkder.__version__, r"^[0-9]+\.[0-9]+\.[0-9]+$")
        self.assertIn("__version__", dir(pkder))


class Header(unittest.TestCase):
    def test_reasons(self):
        with open(os.environ["PKDER_HEADER"], encoding="utf-8") as it:
            found = re.findall(r"#define PKDER_REASON_(\w+) ([0-9]+)u", it.read())
        self.assertGreaterEqual(len(found), 27)
        due = {name: pkder._name(int(number)) for name, number in found}
        self.assertEqual({it.name: it.value for it in pkder.Reason}, due)
        self.assertEqual({it.name: f"{it}" for it in pkder.Reason}, due)


class Calls(unittest.TestCase):
    def test_fault(self):
        with self.assertRaises(pkder.Fault) as raised:
            pkder.normalise(pkder.Kind.KEY, KEY[:20])
        fault = raised.exception
        self.assertEqual((fault.at, fault.reason, fault.inside), (20, "Truncated", None))
        self.assertEqual(fault.reason, pkder.Reason.TRUNCATED)
        self.assertIsInstance(fault, ValueError)

    def test_no_octets(self):
        for kind in pkder.Kind:
            with self.assertRaises(pkder.Fault):
                pkder.check(kind, b"")

    def test_octets_of_any_type(self):
        for document in (KEY, bytearray(KEY), memoryview(KEY)):
            self.assertEqual(pkder.normalise(pkder.Kind.KEY, document), KEY)

    def test_bad_calls(self):
        for kind, depth, octets in ((1, 0, 9), (1, 65, 9), (1, 2**32 + 1, 9), (1, -1, 9), (1, 1, 0), (1, 1, 2**31),
                                    (1, 1, 2**64 + 9), (0, 1, 9), (7, 1, 9), (2**32 + 1, 1, 9)):
            with self.subTest(kind=kind, depth=depth, octets=octets), self.assertRaises(ValueError) as raised:
                pkder.check(kind, b"", depth=depth, octets=octets)
            self.assertNotIsInstance(raised.exception, pkder.Fault)
            for call in pkder.explain, pkder.field:
                with self.subTest(kind=kind, depth=depth, octets=octets), self.assertRaises(ValueError):
                    call(kind, b"", depth=depth, octets=octets)

    def test_threads(self):
        wrong = []

        report = pkder.explain(pkder.Kind.KEY, KEY)

        def call():
            for _ in range(2000):
                if pkder.normalise(pkder.Kind.KEY, KEY) != KEY or pkder.explain(pkder.Kind.KEY, KEY) != report:
                    wrong.append(1)
                if not pkder.same(pkder.Kind.KEY, KEY, KEY_IN_BER) or pkder.field(pkder.Kind.KEY, KEY):
                    wrong.append(2)

        threads = [threading.Thread(target=call) for _ in range(4)]
        for it in threads:
            it.start()
        for it in threads:
            it.join()
        self.assertEqual(wrong, [])


if __name__ == "__main__":
    unittest.main()
