"""Columns, indexes and views with the functions: what a table refuses, one row for one document, dumps and copies, and
a database that is opened without the extension. Files are those of examples/, and what is due of them stands in
examples/answers.tsv and interface/pairs.tsv."""
import contextlib
import sqlite3
import tempfile
import unittest

from opened import closing, example, opened, refusal

REQUESTS = """
create table requests(
    id integer primary key,
    document blob not null check (pkder_require_der('request', document)),
    public_key blob as (pkder_signed('key', document)) stored);
create unique index one_request on requests(document);
create index by_key on requests(public_key);
create view shown as select id, pkder_show('request', document) as text from requests;
"""
# (of what may be in BER)
KEYS = """
create table keys(document blob not null, field text as (pkder_field('key', document)) virtual);
create unique index one_key on keys(pkder_normalise('key', document));
"""
REFUSED = "create table refused(document blob, line text as (pkder_check('request', document)) stored)"
P256, ED25519, IN_BER = example("request-p256"), example("request-ed25519"), example("request-indefinite")
FOLLOWED, KEY, KEY_IN_BER, CUT = (example(it) for it in ("request-followed", "smallest", "long-lengths", "cut-short"))


class Tables(unittest.TestCase):
    def setUp(self):
        self.database = opened()
        self.addCleanup(self.database.close)
        self.database.executescript(REQUESTS + KEYS + REFUSED)

    def test_what_a_check_says(self):
        insert = "insert into requests(document) values (?)"
        self.database.execute(insert, (P256,))
        self.assertEqual(refusal(self.database, insert, IN_BER), "not DER at 1")
        self.assertEqual(refusal(self.database, insert, FOLLOWED), "fault at 148: Trailing")
        self.assertEqual(refusal(self.database, insert, None), "NOT NULL constraint failed: requests.document")
        self.assertEqual(refusal(self.database, "update requests set document = ?", IN_BER), "not DER at 1")
        self.assertEqual(self.database.execute("select document from requests").fetchall(), [(P256,)])

    def test_a_check_without_a_line(self):
        self.database.execute("create table plain(document blob not null check (pkder_is_der('key', document)))")
        insert = "insert into plain values (?)"
        self.assertEqual(refusal(self.database, insert, KEY_IN_BER),
                         "CHECK constraint failed: pkder_is_der('key', document)")
        # (of two rows the one that is refused is left out, as a line that is raised can't be)
        self.database.executemany("insert or ignore into plain values (?)", [(KEY_IN_BER,), (KEY,), (CUT,)])
        self.assertEqual(self.database.execute("select document from plain").fetchall(), [(KEY,)])
        ignore = "insert or ignore into requests(document) values (?)"
        self.assertEqual(refusal(self.database, ignore, FOLLOWED), "fault at 148: Trailing")

    def test_rows_that_came_past_a_check(self):
        self.database.execute("create table plain(document blob not null check (pkder_is_der('request', document)))")
        self.database.execute("pragma ignore_check_constraints = on")
        for table in "requests", "plain":
            self.database.execute(f"insert into {table}(document) values (?)", (IN_BER,))
        self.database.execute("pragma ignore_check_constraints = off")
        found = self.database.execute("pragma integrity_check(plain)").fetchall()
        self.assertEqual(found, [("CHECK constraint failed in plain",)])
        self.assertEqual(refusal(self.database, "pragma integrity_check(requests)"), "not DER at 1")

    def test_null_passes_a_check(self):
        self.database.execute("create table open(document blob check (pkder_require_der('key', document)))")
        self.database.execute("insert into open values (null)")

    def test_uniqueness(self):
        self.database.execute("insert into requests(document) values (?), (?)", (P256, ED25519))
        self.assertEqual(refusal(self.database, "insert into requests(document) values (?)", P256),
                         "UNIQUE constraint failed: requests.document")
        self.database.execute("insert into keys(document) values (?)", (KEY,))
        self.assertEqual(refusal(self.database, "insert into keys(document) values (?)", KEY_IN_BER),
                         "UNIQUE constraint failed: index 'one_key'")
        self.assertEqual(refusal(self.database, "insert into keys(document) values (?)", CUT),
                         "fault at 20: Truncated")
        upsert = "insert into keys(document) values (?) on conflict do nothing"
        self.assertEqual(self.database.execute(upsert, (KEY_IN_BER,)).rowcount, 0)

    def test_the_index_is_used(self):
        self.database.execute("insert into keys(document) values (?)", (KEY_IN_BER,))
        select = "select document from keys where pkder_normalise('key', document) = pkder_normalise('key', ?)"
        self.assertEqual(self.database.execute(select, (KEY,)).fetchall(), [(KEY_IN_BER,)])
        plan = self.database.execute(f"explain query plan {select}", (KEY,)).fetchone()[-1]
        self.assertIn("USING INDEX one_key", plan)

    def test_generated_columns(self):
        self.database.execute("insert into keys(document) values (?)", (KEY_IN_BER,))
        self.assertEqual(self.database.execute("select field from keys").fetchall(), [("OneAsymmetricKey",)])
        self.database.execute("insert into refused(document) values (?), (?), (null)", (FOLLOWED, IN_BER))
        self.assertEqual(self.database.execute("select line from refused").fetchall(),
                         [("fault at 148: Trailing",), ("not DER at 1",), (None,)])

    def test_what_no_index_may_have(self):
        index = "create index by_words on keys(pkder_explain('key', document))"
        self.assertEqual(refusal(self.database, index), "non-deterministic functions prohibited in index expressions")
        column = "create table told(document blob, report as (pkder_explain('key', document)))"
        self.assertEqual(refusal(self.database, column), "non-deterministic functions prohibited in generated columns")

    def test_schemas_that_are_not_trusted(self):
        self.database.execute("create view told as select pkder_explain('request', document) as text from requests")
        self.database.execute("pragma trusted_schema = off")
        self.database.execute("insert into requests(document) values (?)", (P256,))
        self.assertEqual(refusal(self.database, "insert into requests(document) values (?)", IN_BER), "not DER at 1")
        self.database.execute("insert into keys(document) values (?)", (KEY,))
        self.assertEqual(self.database.execute("select count(text) from shown").fetchall(), [(1,)])
        self.assertEqual(self.database.execute("select text like 'request, %' from told").fetchall(), [(1,)])

    def test_rows_of_all_sorts(self):
        """A query over rows of which some are refused."""
        self.database.execute("insert into refused(document) values (?), (?), (?)", (FOLLOWED, IN_BER, P256))
        texts = "select pkder_normalise('request', document) from refused where line not like 'fault %'"
        self.assertEqual(self.database.execute(texts).fetchall(), [(P256,), (P256,)])
        self.assertEqual(refusal(self.database, "select pkder_normalise('request', document) from refused"),
                         "fault at 148: Trailing")


class Copies(unittest.TestCase):
    def setUp(self):
        folder = tempfile.TemporaryDirectory()
        self.addCleanup(folder.cleanup)
        self.first, self.other = (f"{folder.name}/{it}" for it in ("first", "other"))
        with closing(self.first) as (database,):
            database.executescript(REQUESTS + KEYS)
            database.execute("insert into requests(document) values (?), (?)", (P256, ED25519))
            database.execute("insert into keys(document) values (?)", (KEY_IN_BER,))

    def rows(self, database):
        self.assertEqual(database.execute("pragma integrity_check").fetchall(), [("ok",)])
        return [database.execute(f"select * from {it}").fetchall() for it in ("requests", "keys", "shown")]

    def dump(self):
        """The database as SQL, which is written without the extension, too."""
        with contextlib.closing(sqlite3.connect(self.first)) as database, closing(self.first) as (other,):
            lines = [*database.iterdump()]
            self.assertEqual([*other.iterdump()], lines)
        return "\n".join(lines)

    def test_dump_and_restore(self):
        dump = self.dump()
        with closing(self.first, self.other) as (first, other):
            other.executescript(dump)
            self.assertEqual(self.rows(other), self.rows(first))
            self.assertEqual(refusal(other, "insert into keys(document) values (?)", KEY),
                             "UNIQUE constraint failed: index 'one_key'")

    def test_a_dump_that_was_changed(self):
        dump = self.dump()
        changed = dump.replace(P256.hex().upper(), IN_BER.hex().upper())
        self.assertNotEqual(changed, dump)
        with closing(self.other) as (other,):
            with self.assertRaises(sqlite3.OperationalError) as raised:
                other.executescript(changed)
            self.assertEqual(str(raised.exception), "not DER at 1")

    def test_other_copies(self):
        with closing(self.first, ":memory:") as (first, other):
            due = self.rows(first)
            first.backup(other)
            self.assertEqual(self.rows(other), due)
            first.execute("vacuum into ?", (self.other,))
            first.execute("vacuum")
            first.execute("reindex")
            self.assertEqual(self.rows(first), due)
        with closing(self.other) as (other,):
            self.assertEqual(self.rows(other), due)

    def test_without_the_extension(self):
        with contextlib.closing(sqlite3.connect(self.first, isolation_level=None)) as database:
            self.assertEqual(database.execute("select document from requests order by id").fetchall(),
                             [(P256,), (ED25519,)])
            self.assertEqual(len(database.execute("select public_key from requests").fetchall()), 2)
            for statement in ("insert into requests(document) select document from requests", "select * from shown",
                              "select field from keys", "vacuum", "reindex", "pragma integrity_check"):
                with self.subTest(statement=statement):
                    self.assertRegex(refusal(database, statement), "^(no such|unknown) function: pkder_")


if __name__ == "__main__":
    unittest.main()
