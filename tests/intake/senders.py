"""Files as ACME clients, EST, CA programs and others send them (tests/intake/sent, which are written by hand from their
documents): what stands in sent.tsv is found in each."""
import os
import unittest

from made import SENT, TOP, octets_of, sent
from pkder.intake import Rules, find


def rows():
    """The rows of sent.tsv: a file, and what is in it."""
    with open(f"{TOP}/tests/intake/sent.tsv", encoding="ascii") as table:
        lines = [it.split("\t") for it in table.read().splitlines() if not it.startswith("#")]
    return [(name, [it.split("/") for it in documents.split(", ")] if "PEM, " not in documents
             else [documents.split("/")], by) for name, documents, by in lines]


class Senders(unittest.TestCase):
    def test_each_file(self):
        for name, due, by in rows():
            with self.subTest(name=name, by=by):
                found = find(sent(name))
                told = [[it.came_as, it.kind.name.lower() if it.kind else it.what, str(it.status)] for it in found]
                self.assertEqual(told, [it[:3] for it in due])
                for it, (*_, octets) in zip(found, due):
                    if octets:
                        self.assertEqual(it.octets, octets_of(octets))

    def test_each_file_has_a_row(self):
        self.assertEqual(sorted(name for name, *_ in rows()), sorted({*os.listdir(SENT)} - {"README.md"}))

    def test_whoever_made_both_takes_both(self):
        for name in "cfssl-genkey.json", "vault-exported.json":
            self.assertEqual([it.status for it in find(sent(name), Rules(with_keys=True))], [0, 0])
