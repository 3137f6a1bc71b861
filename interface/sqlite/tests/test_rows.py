"""The rows that PKDER_CALLS names (interface/calls.py makes them) and the pairs of documents that PKDER_PAIRS names
(interface/pairs.py), asked of the functions, of CHECK and of UNIQUE."""
import sqlite3
import unittest

from opened import ask, lines_of, opened

USUAL = (32, 1048576)


def call_of(words):
    """Command, kind or part, limits and form, of a row's words."""
    found = words.split()
    options = dict(zip(found[1:7:2], found[2:7:2]))
    what = options["--part" if found[0] == "signed" else "--kind"]
    form = " ".join(it.rpartition("=")[2].lstrip("-") for it in found[7:])
    return found[0], what, (int(options["--depth"]), int(options["--octets"])), form


def octets_of(value):
    return value.encode() if isinstance(value, str) else value


def status_of(line):
    """The status that the program has for a line of check."""
    return 0 if line == "DER" else 1 if line.startswith("not DER at ") else 2


def said(database, call, document):
    """Status, output and line of a call."""
    command, what, limits, form = call
    told = (form, *limits) if command == "explain" else limits
    try:
        found = ask(database, f"pkder_{command}", what, document, *told)
    except sqlite3.OperationalError as why:
        return 2, b"", str(why)
    if command in ("explain", "field"):
        return status_of(ask(database, "pkder_check", what, document, *limits)), octets_of(found), ""
    if command == "check":
        status = status_of(found)
        return (status, b"", found) if status == 2 else (status, f"{found}\n".encode(), "")
    return 0, octets_of(found), ""


def as_usual(database, call, document):
    """The same of a call with the usual limits, which are left out, and so is a form that says nothing."""
    command, what, _, form = call
    told = (form,) if form else ()
    try:
        return octets_of(ask(database, f"pkder_{command}", what, document, *told))
    except sqlite3.OperationalError as why:
        return str(why)


class Rows(unittest.TestCase):
    def setUp(self):
        self.database = opened()
        self.addCleanup(self.database.close)
        found = lines_of("PKDER_CALLS")
        self.assertGreater(len(found), 800)
        self.rows = [(rule, call_of(words), bytes.fromhex(given), (int(status), bytes.fromhex(output), error))
                     for rule, words, given, status, output, error in found]

    def test_rows(self):
        for rule, call, document, due in self.rows:
            with self.subTest(rule=rule, call=call):
                self.assertEqual(said(self.database, call, document), due)

    def test_rows_with_the_usual_limits(self):
        usual = [it for it in self.rows if it[1][2] == USUAL]
        self.assertGreater(len(usual), 800)
        for rule, call, document, (_, output, error) in usual:
            due = error or output
            if call[0] == "check":
                due = error.encode() or output.rstrip(b"\n")
            with self.subTest(rule=rule, call=call):
                self.assertEqual(as_usual(self.database, call, document), due)

    def test_whether_in_der(self):
        for rule, (command, kind, limits, _), document, (status, output, error) in self.rows:
            if command != "check":
                continue
            with self.subTest(rule=rule, kind=kind):
                self.assertEqual(ask(self.database, "pkder_is_der", kind, document, *limits), int(status == 0))
                if status == 0:
                    self.assertEqual(ask(self.database, "pkder_require_der", kind, document, *limits), 1)
                    continue
                with self.assertRaises(sqlite3.OperationalError) as raised:
                    ask(self.database, "pkder_require_der", kind, document, *limits)
                self.assertEqual(str(raised.exception), error or output.decode().rstrip("\n"))

    def test_checked_columns(self):
        checked = "create table checked_{0}(document blob not null check (pkder_require_der('{0}', document)))"
        for kind in {call[1] for _, call, *_ in self.rows if call[0] == "check"}:
            self.database.execute(checked.format(kind))
        for rule, (command, kind, limits, _), document, (status, output, error) in self.rows:
            if command != "check" or limits != USUAL:
                continue
            insert = f"insert into checked_{kind} values (?)"
            with self.subTest(rule=rule, kind=kind):
                if status == 0:
                    self.database.execute(insert, (document,))
                    continue
                with self.assertRaises(sqlite3.OperationalError) as raised:
                    self.database.execute(insert, (document,))
                self.assertEqual(str(raised.exception), error or output.decode().rstrip("\n"))


class Pairs(unittest.TestCase):
    def setUp(self):
        self.database = opened()
        self.addCleanup(self.database.close)
        found = lines_of("PKDER_PAIRS")
        self.assertGreater(len(found), 1000)
        self.pairs = [(rule, kind, (int(depth), int(octets)), bytes.fromhex(first), bytes.fromhex(second), due)
                      for rule, kind, depth, octets, first, second, due in found]

    def test_pairs(self):
        for rule, kind, limits, first, second, due in self.pairs:
            with self.subTest(rule=rule, kind=kind):
                if due in ("the same", "another"):
                    found = ask(self.database, "pkder_same", kind, first, second, *limits)
                    self.assertEqual(found, int(due == "the same"))
                    continue
                with self.assertRaises(sqlite3.OperationalError) as raised:
                    ask(self.database, "pkder_same", kind, first, second, *limits)
                self.assertEqual(str(raised.exception), due)

    def test_unique_by_meaning(self):
        for kind in {it[1] for it in self.pairs}:
            self.database.execute(f"create table one_{kind}(document blob not null)")
            self.database.execute(f"create unique index by_{kind} on one_{kind}(pkder_normalise('{kind}', document))")
        for rule, kind, limits, first, second, due in self.pairs:
            if limits != USUAL:
                continue
            self.database.execute(f"delete from one_{kind}")
            found = "another"
            try:
                for which, document in ("first", first), ("second", second):
                    self.database.execute(f"insert into one_{kind} values (?)", (document,))
            except sqlite3.IntegrityError as why:
                self.assertEqual(str(why), f"UNIQUE constraint failed: index 'by_{kind}'")
                found = "the same"
            except sqlite3.OperationalError as why:
                found = f"{which}: {why}"
            with self.subTest(rule=rule, kind=kind):
                self.assertEqual(found, due)


if __name__ == "__main__":
    unittest.main()
