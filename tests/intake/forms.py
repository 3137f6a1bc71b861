"""Forms: each of them, of each kind that it goes with, gives the octets of the document, and the kind."""
import unittest

import spelled
from made import CERTIFICATE, KINDS, octets_of, pem_of, url_of
from pkder import Kind
from pkder.intake import find

LABELLED = [it for it, (_, label) in KINDS.items() if label]
HAS_OTHERS = {it: url_of(octets_of(name)).translate(None, b"-_") != url_of(octets_of(name)) or len(octets_of(name)) % 3
              for it, (name, _) in KINDS.items()}


class Forms(unittest.TestCase):
    def assert_found(self, came, kind, came_as, label=None):
        """That the one document is found, accepted, as this came."""
        found = [it for it in find(came) if it.what is None]
        told = [(it.came_as, it.name, it.status, it.form) for it in found]
        self.assertEqual(told, [(came_as, kind, 0, "DER")])
        self.assertEqual((found[0].octets, found[0].kind), (octets_of(KINDS[kind][0]), Kind[kind.upper()]))
        if "PEM" in came_as:
            self.assertEqual(found[0].label, label)

    def of_pem(self, forms):
        for kind in LABELLED:
            name, label = KINDS[kind]
            for rule, make, came_as in forms:
                with self.subTest(rule=rule, kind=kind):
                    self.assert_found(make(octets_of(name), label), kind, came_as, label)

    def test_pem(self):
        self.of_pem(spelled.PEM_FORMS)

    def test_pem_in_something(self):
        self.of_pem(spelled.CONTAINED)

    def test_octets(self):
        for kind, (name, label) in KINDS.items():
            for rule, make, came_as in spelled.BARE_FORMS:
                with self.subTest(rule=rule, kind=kind):
                    self.assert_found(make(octets_of(name), label), kind, came_as)

    def test_base64url(self):
        for kind in (it for it, has in HAS_OTHERS.items() if has):
            for rule, make, came_as in spelled.URL_FORMS:
                with self.subTest(rule=rule, kind=kind):
                    self.assert_found(make(octets_of(KINDS[kind][0])), kind, came_as)

    def test_where_it_begins(self):
        octets = pem_of(octets_of("request-p256"))
        for before, line, at in ((b"", 1, 0), (b"a note\n\n", 3, 8), (b"\xef\xbb\xbf", 1, 3), (b"a\r\nb\r\n", 3, 6)):
            with self.subTest(before=before):
                self.assertEqual([(it.line, it.at) for it in find(before + octets)], [(line, at)])
        wide = ("a\n\n" + octets.decode()).encode("utf-16")
        self.assertEqual([(it.line, it.at) for it in find(wide)], [(3, 8)])
        second = find(octets + b"\n" + pem_of(octets_of("public-p256"), "PUBLIC KEY"))[1]
        self.assertEqual((second.line, second.at, second.document), (octets.count(b"\n") + 2, len(octets) + 1, 2))

    def test_several_stand_in_their_order(self):
        names = ("request-p256", "CERTIFICATE REQUEST"), ("public-p256", "PUBLIC KEY")
        came = b"".join(pem_of(octets_of(name), label) for name, label in names) + pem_of(CERTIFICATE, "CERTIFICATE")
        self.assertEqual([(it.document, it.name, it.status) for it in find(came)],
                         [(1, "request", 0), (2, "public", 0), (3, "certificate", 0)])

    def test_equal_octets_are_one_document(self):
        octets = octets_of("request-p256")
        for came in (pem_of(octets) * 2, pem_of(octets) + pem_of(octets, "NEW CERTIFICATE REQUEST")):
            self.assertEqual([(it.document, it.line, it.octets) for it in find(came)], [(1, 1, octets)])

    def test_other_octets_than_bytes(self):
        came = pem_of(octets_of("request-p256"))
        for given in (bytearray(came), memoryview(came)):
            self.assertEqual([it.octets for it in find(given)], [octets_of("request-p256")])
        for given in ("text", 7, None):
            with self.assertRaises(TypeError):
                find(given)
