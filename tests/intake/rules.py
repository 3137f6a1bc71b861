"""What follows of one document for the others, and what is asked of an input beside what pkder says: private keys
beside requests, labels, BER, kinds, limits."""
import base64
import json
import unittest

import pkder
from made import CERTIFICATE, KINDS, OTHERS, octets_of, pem_of
from pkder import Kind
from pkder.intake import Rules, find

REQUEST = octets_of("request-p256")
PEM = pem_of(REQUEST)
PRIVATE = [it for it in KINDS if it in ("key", "ec", "encrypted")]


class Verdicts(unittest.TestCase):
    def test_as_pkder_says(self):
        for name, (kind, status, line) in OTHERS.items():
            octets = octets_of(name)
            label = KINDS[kind][1]
            for came in (octets, pem_of(octets, label), base64.b64encode(pem_of(octets, label)),
                         json.dumps({"pem": pem_of(octets, label).decode()}).encode()):
                with self.subTest(name=name):
                    told = [(it.kind.name.lower(), it.status, it.form) for it in find(came)]
                    self.assertEqual(told, [(kind, status, line)])

    def test_ber(self):
        octets = octets_of("request-indefinite")
        for ber, status in ((None, 1), (True, 0), (False, 2)):
            found = find(pem_of(octets), Rules(ber=ber))
            self.assertEqual([(it.status, it.form, it.octets) for it in found], [(status, "not DER at 1", octets)])
        self.assertEqual([it.status for it in find(PEM, Rules(ber=False))], [0])

    def test_limits(self):
        self.assertEqual([it.form for it in find(PEM, Rules(octets=319))], ["fault at 0: TooLong"])
        self.assertEqual([it.form for it in find(PEM, Rules(octets=320))], ["DER"])
        self.assertEqual([it.reason for it in find(PEM, Rules(depth=2))], ["TooDeep"])
        self.assertEqual([(it.status, it.why) for it in find(PEM, Rules(input_octets=len(PEM) - 1))],
                         [(2, f"more than {len(PEM) - 1} octets")])
        self.assertEqual([it.status for it in find(PEM, Rules(input_octets=len(PEM)))], [0])

    def test_more_documents_than_may_be(self):
        found = find(b"-----BEGIN X-----\n-----END X-----\n" * 100_001)
        self.assertEqual([(it.status, it.why) for it in found], [(2, "more than 100000 documents")])

    def test_kinds_that_are_asked_for(self):
        key = pem_of(octets_of("p256"), "PRIVATE KEY")
        for rules, due in ((Rules(kinds={Kind.REQUEST}), [2]), (Rules(kinds={Kind.KEY, Kind.EC}), [0]), (Rules(), [0])):
            self.assertEqual([it.status for it in find(key, rules)], due)
        found = find(octets_of("public-p256"), Rules(kinds={Kind.REQUEST}))
        self.assertEqual([(it.status, it.why, it.is_accepted) for it in found], [(2, "not of kind request", False)])

    def test_nothing_and_no_document(self):
        for came, why in ((b"", "nothing in it"), (b" \r\n\t", "nothing in it"), (b"hello", "no document in it"),
                          (b"{}", "no document in it"), (b"\0" * 99, "no document in it"),
                          (b"[1, 2]", "no document in it"), (b"name: value\n", "no document in it"),
                          (bytes(range(256)), "no document in it")):
            with self.subTest(came=came[:20]):
                self.assertEqual([(it.status, it.verdict, it.why) for it in find(came)], [(2, "none", why)])

    def test_a_field_that_claims_and_one_that_does_not(self):
        octets = base64.b64encode(octets_of("request-version-1")).decode()
        self.assertEqual([it.form for it in find(json.dumps({"csr": octets}).encode())], ["fault at 5: Version"])
        # (Go's encoding/json takes the last two for csr and key)
        for name in ("CSR", "certificateRequest", "certificate-request", "tls.key", "pem", "c\u017fr", "\u212aey"):
            self.assertEqual([it.status for it in find(json.dumps({name: octets}).encode())], [2])
        self.assertEqual([it.verdict for it in find(json.dumps({"x": octets}).encode())], ["none"])

    def test_parts_of_messages_are_claimed_by_themselves(self):
        head = b"Content-Type: application/pkcs10\r\n"
        faulty = base64.encodebytes(octets_of("request-version-1"))
        for coding in (b"", b"Content-Transfer-Encoding: base64\r\n", b"Content-Transfer-Encoding: binary\r\n"):
            found = find(head + coding + b"\r\n" + faulty)
            self.assertEqual([it.form for it in found], ["fault at 5: Version"], coding)
        broken = b"Content-Type: %s\r\nContent-Transfer-Encoding: base64\r\n\r\nAAA*AAAA\r\n"
        why = "a part that isn't coded as it says"
        self.assertEqual([it.why for it in find(broken % b"application/pkcs10")], [why])
        self.assertEqual([it.why for it in find(broken % b"image/gif")], ["no document in it"])

    def test_hexadecimal_is_no_base64(self):
        # (hexadecimal of a SEQUENCE begins with 3, base64 of one with M, base64 of PEM with L: no text is two of them)
        for octets in (REQUEST, PEM):
            text = octets.hex().encode()
            self.assertNotEqual(base64.b64decode(text + b"=" * (-len(text) % 4))[:1], b"\x30")

    def test_a_plus_that_two_readers_read_otherwise(self):
        octets = octets_of("public-p256")
        # (whoever takes + for a blank has fewer characters: no whole base64, but where four of them are left out)
        one, four = (octets[:81] + base64.b64decode(it) + octets[84:] for it in ("+aaa", "++++"))
        for each, due in ((one, [(0, None, one)]), (four, [(2, "a + that some readers take for a blank", None)])):
            came = pem_of(each, "PUBLIC KEY")
            self.assertEqual(came.count(b"+") % 4, 1 if each == one else 0)
            came = came.replace(b" ", b"%20").replace(b"\n", b"%0A")
            self.assertEqual([(it.status, it.why, it.octets) for it in find(came)], due)
            came = came.replace(b"+", b"%2B")
            self.assertEqual([(it.status, it.octets) for it in find(came)], [(0, each)])


class Answers(unittest.TestCase):
    """The answers for whoever sent an input: those of pkder, but where intake alone refuses it."""

    def assert_answers(self, came, rules, *due):
        self.assertEqual([it.brief for it in find(came, rules)], [*due])

    def test_of_pkder(self):
        def said(kind, octets):
            return json.loads(pkder.explain(kind, octets, json=True).text)["brief"]

        faulty, public = octets_of("request-version-1"), octets_of("public-p256")
        self.assert_answers(PEM, Rules(), said(Kind.REQUEST, REQUEST))
        self.assert_answers(pem_of(faulty), Rules(), said(Kind.REQUEST, faulty))
        self.assert_answers(pem_of(public, "PUBLIC KEY"), Rules(kinds={Kind.REQUEST}), said(Kind.REQUEST, public))
        self.assert_answers(pem_of(octets_of("p256")), Rules(), said(Kind.REQUEST, octets_of("p256")))
        self.assert_answers(b"", Rules(), None)

    def test_of_intake(self):
        key = pem_of(octets_of("p256"), "PRIVATE KEY")
        sent = ("A private key came with this request. A key that was sent counts as lost: make a new one, and send "
                "its request alone.")
        self.assertEqual(find(PEM + key)[0].brief, sent)
        two = PEM + pem_of(octets_of("request-ed25519"))
        one = "Several documents came where one is due: send it alone."
        self.assert_answers(two, Rules(one=True), one, one)
        self.assert_answers(pem_of(octets_of("p256"), "RSA PRIVATE KEY"), Rules(),
                            "Its label, RSA PRIVATE KEY, is wrong: it should be PRIVATE KEY.")


class PrivateKeys(unittest.TestCase):
    def test_beside_a_request(self):
        for kind in PRIVATE:
            name, label = KINDS[kind]
            key = pem_of(octets_of(name), label)
            for came in (PEM + key, key + PEM, json.dumps({"a": PEM.decode(), "b": key.decode()}).encode(),
                         (key + PEM).decode().encode("utf-16")):
                with self.subTest(kind=kind):
                    found = {it.name: it for it in find(came)}
                    self.assertEqual({it: each.status for it, each in found.items()}, {"request": 2, kind: 0})
                    self.assertIs(found["request"].with_private_key, True)
                    self.assertIn("a private key came with it", found["request"].said)
                    self.assertFalse(found["request"].is_accepted)
                    self.assertEqual({it.status for it in find(came, Rules(with_keys=True))}, {0})

    def test_that_is_damaged_or_in_another_dress(self):
        key = pem_of(octets_of("p256"), "PRIVATE KEY")
        for came in (key[:80], key.replace(b"M", b"*"), key.replace(b"-----BEGIN", b"----BEGIN"), b"the " + key[:40],
                     key.replace(b"\n", b"\\n"), b"PuTTY-User-Key-File-3: ssh-rsa\n", key.replace(b" ", b"%20"),
                     key.decode().replace("PRIVATE", "RSA PRIVATE").encode()):
            with self.subTest(came=came[:30]):
                for each in (PEM + came + b"\n", (PEM + came + b"\n").decode().encode("utf-16")):
                    found = [it for it in find(each) if it.name == "request"]
                    self.assertEqual([(it.with_private_key, it.status) for it in found], [(True, 2)])

    def test_beside_pem_in_octets_base64_or_hexadecimal(self):
        for kind in PRIVATE:
            key = octets_of(KINDS[kind][0])
            text, digits = base64.encodebytes(key), key.hex().encode()
            for came, form in ((PEM + key, "octets"), (PEM + b"\r\n" + key + b"\n", "octets"), (PEM + text, "base64"),
                               (text + PEM, "base64"), (PEM + text + PEM, "base64"), (PEM + digits, "hexadecimal"),
                               (digits + b"\n" + PEM, "hexadecimal")):
                with self.subTest(kind=kind, came=came[:30]):
                    found = {it.came_as: it for it in find(came)}
                    self.assertEqual({*found}, {"PEM", form})
                    self.assertEqual((found["PEM"].status, found["PEM"].with_private_key), (2, True))
                    self.assertEqual((found[form].name, found[form].octets[: len(key)]), (kind, key))

    def test_beside_pem_in_other_formats(self):
        member, number = b"A" * 43, b"AQAB" * 9
        jwk = b'{"kty":"EC","crv":"P-256","x":"%s","y":"%s","d":"%s"}' % (member, member, member)
        xml = b"<RSAKeyValue><Modulus>%s</Modulus><D>%s</D></RSAKeyValue>" % (number, number)
        for key, name in ((jwk, "jwk_private"), (xml, "xml_private_key"), (b"\xfe\xed\xfe\xed\0\0\0\2", "jks"),
                          (json.dumps({"x": base64.b64encode(octets_of("p256")).decode()}).encode(), None),
                          (bytes.fromhex("3016020103301106092a864886f70d010701a0040402fefe"), "pkcs12")):
            for came in (PEM + key, PEM + b"\n" + key + b"\n", key + b"\n" + PEM):
                with self.subTest(name=name, came=came[:30]):
                    found = find(came)
                    self.assertIn(name, [it.what for it in found])
                    # (an input that begins as a key store does is told as that, whatever follows)
                    is_all = name == "jks" and came.startswith(key)
                    self.assertEqual([(it.status, it.with_private_key) for it in found if it.kind == Kind.REQUEST],
                                     [] if is_all else [(2, True)])
                    self.assertEqual(max(it.status for it in found), 2)

    def test_what_is_no_document_beside_pem(self):
        for came in (PEM + b"text", b"text\n" + PEM, PEM + b"AAAA" * 20, PEM + b"00:11\n", b"0\n" + PEM + b"0"):
            self.assertEqual([(it.name, it.status) for it in find(came, Rules(one=True))], [("request", 0)], came)

    def test_a_label_alone(self):
        for label in ("PRIVATE KEY", "RSA PRIVATE KEY", "OPENSSH PRIVATE KEY", "ANY PRIVATE KEY"):
            self.assertEqual([it.is_private for it in find(f"-----BEGIN {label}-----\n".encode())], [True])

    def test_behind_a_request_in_der(self):
        for name in ("p256", "k256-sec1", "encrypted", "package", "rsa1024-pkcs1"):
            for between in (b"", b"\n", b"\0\0", b"\r\n"):
                found = find(REQUEST + between + octets_of(name))
                self.assertEqual([(it.form, it.with_private_key) for it in found], [("fault at 320: Trailing", True)])
        self.assertEqual([it.with_private_key for it in find(REQUEST + b"\n")], [False])
        self.assertEqual([it.with_private_key for it in find(REQUEST + octets_of("public-p256"))], [False])

    def test_beside_what_is_no_request(self):
        came = pem_of(octets_of("p256"), "PRIVATE KEY")
        for other, label in ((octets_of("public-p256"), "PUBLIC KEY"), (CERTIFICATE, "CERTIFICATE")):
            self.assertEqual({it.status for it in find(came + pem_of(other, label))}, {0})


class Labels(unittest.TestCase):
    def test_that_claim_another_kind(self):
        for kind, (name, label) in KINDS.items():
            for other in ("CERTIFICATE REQUEST", "PRIVATE KEY", "EC PRIVATE KEY", "PUBLIC KEY", "RSA PRIVATE KEY",
                          "ENCRYPTED PRIVATE KEY", "CERTIFICATE"):
                if other != label:
                    with self.subTest(kind=kind, other=other):
                        found = find(pem_of(octets_of(name), other))
                        self.assertEqual([(it.name, it.status, it.form, it.why) for it in found],
                                         [(kind, 2, "DER", f"labelled {other}")])
                        self.assertFalse(found[0].is_accepted)

    def test_what_to_do_about_it(self):
        key = octets_of("p256")
        self.assertEqual([it.do for it in find(pem_of(key, "RSA PRIVATE KEY"))], ["label it PRIVATE KEY"])
        for label in ("CERTIFICATE REQUEST", "PUBLIC KEY"):
            self.assertEqual([it.do for it in find(pem_of(key, label))],
                             ["a private key that was sent counts as lost: make a new one"])
        self.assertEqual([it.do for it in find(pem_of(octets_of("package"), "PRIVATE KEY"))], ["hand in its octets"])

    def test_what_is_not_ours_under_a_label_of_ours(self):
        found = find(pem_of(CERTIFICATE))
        self.assertEqual([(it.what, it.status, it.verdict, it.why) for it in found],
                         [("certificate", 2, "refused", "labelled CERTIFICATE REQUEST")])
        found = find(pem_of(octets_of("rsa1024-pkcs1"), "PRIVATE KEY"))
        self.assertEqual([(it.what, it.status, it.is_private) for it in found], [("rsa_private_key", 2, True)])

    def test_unknown_ones_claim_nothing_and_are_not_repeated(self):
        for label in ("PKCS10", "X", "MY SECRET WORD"):
            found = find(pem_of(REQUEST, label))
            self.assertEqual([(it.status, it.label, it.name) for it in found], [(0, None, "request")])
            self.assertNotIn(label, repr(found))
