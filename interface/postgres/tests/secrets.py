"""Errors of the extension have no octet of a document, for the client and in the server's log, whichever way the
document came; and what the server itself shows of documents, which interface/postgres/README.md warns of."""
import os

from interface.postgres.tests.server import TOP, hex_of

# what is refused, and why, as examples/answers.tsv and README have it; the first two are private keys
LINES = {"long-lengths": "not DER at 1", "cut-short": "fault at 20: Truncated",
         "request-version-1": "fault at 5: Version"}

TABLES = r"""
CREATE TABLE keys (der der_key);
INSERT INTO keys SELECT pkder_normalise('key', '{long}');
CREATE FUNCTION stored(der der_key) RETURNS void LANGUAGE sql AS 'INSERT INTO keys VALUES (der)';
CREATE FUNCTION passed(octets bytea) RETURNS void LANGUAGE plpgsql AS $$
BEGIN
    EXECUTE format('INSERT INTO keys VALUES (%L)', octets);
END $$;
CREATE TABLE checked (der bytea CHECK (pkder_is_der('key', der)));
CREATE TABLE required (der bytea CHECK (pkder_require_der('key', der)));
CREATE TABLE by_column (der der_key UNIQUE);
INSERT INTO by_column TABLE keys;
CREATE TABLE by_text (der bytea);
CREATE UNIQUE INDEX ON by_text (pkder_normalise('key', der));
CREATE TABLE by_hash (der bytea);
CREATE UNIQUE INDEX ON by_hash (sha256(pkder_normalise('key', der)));
INSERT INTO by_text VALUES ('{long}');
INSERT INTO by_hash VALUES ('{long}');
-- (a trigger has COPY store each row by itself)
CREATE TABLE with_trigger (LIKE by_hash INCLUDING INDEXES);
INSERT INTO with_trigger VALUES ('{long}');
CREATE TRIGGER it BEFORE UPDATE OR INSERT ON with_trigger FOR EACH ROW
    EXECUTE FUNCTION suppress_redundant_updates_trigger();
CREATE TABLE by_bind (der bytea);
"""

# how a key that isn't in DER comes to a domain
WAYS = [
    "INSERT INTO keys VALUES ('{long}')",
    "INSERT INTO keys SELECT * FROM (VALUES ('{long}'::bytea), (NULL)) AS it",
    "UPDATE keys SET der = '{long}'",
    "COPY keys FROM STDIN;\n\\{long}\n\\.\n",
    "COPY keys FROM STDIN (FORMAT csv);\n{long}\n\\.\n",
    "COPY keys FROM '{file}' (FORMAT binary)",
    "INSERT INTO required VALUES ('{long}')",
    "COPY required FROM STDIN;\n\\{long}\n\\.\n",
    "SELECT '{long}'::der_key",
    "SELECT ARRAY['{long}'::bytea]::der_key[]",
    "SELECT stored('{long}')",
    "SELECT passed('{long}')",
    "SELECT json_populate_record(NULL::keys, '{{\"der\": \"\\{long}\"}}')",
    "PREPARE it(bytea) AS INSERT INTO keys VALUES ($1);\nEXECUTE it('{long}')",
    "DO $$ BEGIN EXECUTE 'INSERT INTO keys VALUES (''{long}'')'; END $$",
    "SELECT pkder_require_der('key', '{long}')",
]
NO_KIND = "pkder: no such kind"
NO_LIMITS = "pkder: no such limits"
# other calls that are refused: the SQLSTATE, the message, the statement
REFUSED = [
    ("22P03", "key: {cut_line}", "SELECT pkder_normalise('key', '{cut}')"),
    ("22P03", "key: {cut_line}", "SELECT pkder_show('key', '{cut}')"),
    ("22P03", "key: first: {cut_line}", "SELECT pkder_same('key', '{cut}', '{long}')"),
    ("22P03", "key: second: {cut_line}", "SELECT pkder_same('key', '{long}', '{cut}')"),
    ("22P03", "request: {version_line}", "SELECT pkder_signed('info', '{version}')"),
    ("23514", "key: {cut_line}", "SELECT pkder_require_der('key', '{cut}')"),
    *(("22023", NO_KIND, f"SELECT {call}") for call in (
        "pkder_check('pkcs8', '{long}')", "pkder_is_der('KEY', '{long}')", "pkder_require_der('', '{long}')",
        "pkder_normalise('key ', '{long}')", "pkder_show('info', '{long}')", "pkder_explain('ke', '{long}')",
        "pkder_field('keys', '{long}')", "pkder_same('csr', '{long}', '{cut}')",
        # (interchanged)
        "pkder_check('{long}', 'key')", "pkder_explain('{long}', 'key')", "pkder_same('{long}', 'key', 'key')")),
    *(("22023", "pkder: no such part", f"SELECT pkder_signed('{it}', '{{version}}')") for it in (
        "request", "", "INFO")),
    *(("22023", "pkder: no such form", f"SELECT pkder_explain('key', '{{long}}', '{it}')") for it in (
        "text", "json json", "all  json", " all", "json,all")),
    *(("22023", NO_LIMITS, f"SELECT pkder_check('key', '{{long}}', {it})") for it in (
        "0", "65", "-1", "32, 0", "32, -1", "32, 2147483648", "2147483647", "octets => 9223372036854775807")),
    *(("22023", NO_LIMITS, f"SELECT {call}") for call in (
        "pkder_is_der('key', '{long}', depth => 0)", "pkder_require_der('key', '{long}', depth => 65)",
        "pkder_normalise('key', '{long}', octets => 0)", "pkder_show('key', '{long}', depth => 0)",
        "pkder_signed('info', '{version}', octets => 0)", "pkder_same('key', '{long}', '{cut}', octets => 0)",
        "pkder_explain('key', '{long}', depth => 65)", "pkder_field('key', '{long}', octets => -1)")),
]


def examples():
    """The documents of LINES by their names."""
    found = {}
    for name in LINES:
        with open(f"{TOP}/examples/{name}.der", "rb") as file:
            found[name] = file.read()
    return found


def is_shown(document, text):
    """Whether four octets of the document in a row stand in the text, as SQL writes them."""
    text = text.lower()
    for at in range(len(document) - 3):
        four = document[at : at + 4]
        if four.hex() in text or "".join(f"\\{it:03o}" for it in four) in text:
            return True
    return False


class Watched:
    """What the log gets while something is tried."""

    def __init__(self, server):
        self.server = server
        self.before = len(server.log())

    def text(self):
        return self.server.log()[self.before :]


def hidden(server, database, state, due, statement):
    """Whether a statement is refused as is due, and shows nothing of any document to its client and in the log."""
    watched = Watched(server)
    answer = server.psql(statement, database)
    log = watched.text()
    yield f"{statement[:60]}: {answer.error}", answer.status == 3 and f"ERROR:  {state}: {due}\n" in answer.error
    shows = [it for it in examples().values() if is_shown(it, answer.error) or is_shown(it, log)]
    yield f"{statement[:60]}: shown: {answer.error}{log}", not shows
    yield f"{statement[:60]}: in the log: {log}", f" {state}: {due}\n" in log and "STATEMENT:" not in log


def own_errors(server, database, words):
    """The errors of the extension."""
    for way in WAYS:
        yield from hidden(server, database, "23514", "key: not DER at 1", way.format(**words))
    for state, due, statement in REFUSED:
        yield from hidden(server, database, state, due.format(**words), statement.format(**words))
    count = server.value("SELECT count(*), min(pkder_check('key', der)) FROM keys", database)
    yield f"what is refused isn't stored: {count}", count == "1|DER"


def seen(server, database, due, what, answer, watched, document):
    """Whether an error came, and whether the document is shown to the client, and in the log, as is due."""
    found = is_shown(document, answer.error), is_shown(document, watched.text())
    yield f"{what}: {answer.error}", "ERROR:" in answer.error
    yield f"{what}: shown to the client, in the log: {found}: {answer.error}{watched.text()}", found == due


def server_errors(server, database, words, document):
    """Errors of the server's own: by statements with the key in them, the statement being in the log; and bound."""
    copied = "COPY {} FROM STDIN;\n\\" + words["long"] + "\n\\.\n"
    in_binary = f"COPY {{}} FROM '{words['file']}' (FORMAT binary)"
    for due, what, statement in (
        ((True, True), "a CHECK of the table", f"INSERT INTO checked VALUES ('{words['long']}')"),
        ((True, True), "a unique index by the text", f"INSERT INTO by_text VALUES ('{words['long']}')"),
        ((True, True), "UNIQUE", "INSERT INTO by_column TABLE keys"),
        ((False, True), "a unique index by the hash", f"INSERT INTO by_hash VALUES ('{words['long']}')"),
        ((False, False), "COPY into that", copied.format("by_hash")),
        ((True, True), "COPY into one with a trigger", copied.format("with_trigger")),
        ((False, False), "COPY in binary into that", in_binary.format("with_trigger")),
        ((True, True), "COPY in binary, by the text", in_binary.format("by_text")),
    ):
        watched = Watched(server)
        yield from seen(server, database, due, what, server.psql(statement, database), watched, document)
    for due, table, settings in (
        ((True, True), "checked", {"log_parameter_max_length_on_error": 0}),
        ((True, True), "by_text", {"log_parameter_max_length_on_error": 0}),
        ((False, False), "by_hash", {"log_parameter_max_length_on_error": 0}),
        ((True, True), "by_hash", {"log_parameter_max_length_on_error": -1}),
        ((False, False), "keys", {"log_parameter_max_length_on_error": -1}),
    ):
        watched = Watched(server)
        answer = server.bound(f"INSERT INTO {table} VALUES (:document)", document, database, **settings)
        yield from seen(server, database, due, f"bound for {table}, {settings}", answer, watched, document)


def logged(server, database, document):
    """What is logged of statements that are done, whose documents are bound."""
    explained = {"session_preload_libraries": "auto_explain", "auto_explain__log_min_duration": 0,
                 "log_parameter_max_length_on_error": 0}
    insert = "INSERT INTO by_bind VALUES (:document)"
    found = "SELECT FROM by_bind WHERE der = :document"
    by_hash = "SELECT FROM by_bind WHERE sha256(der) = sha256(:document)"
    for is_due, query, settings in (
        (False, insert, {}),
        (True, insert, {"log_statement": "all"}),
        (False, insert, {"log_statement": "all", "log_parameter_max_length": 0}),
        (True, insert, {"log_min_duration_statement": 0}),
        (False, insert, {"log_min_duration_statement": 0, "log_parameter_max_length": 0}),
        (False, insert, explained),
        (True, insert, {**explained, "log_parameter_max_length_on_error": -1}),
        (True, insert, {**explained, "auto_explain__log_verbose": "on"}),
        (True, found, explained),
        (False, by_hash, explained),
    ):
        watched = Watched(server)
        answer = server.bound(query, document, database, **settings)
        log = watched.text()
        yield f"{query}, {settings}: {answer.error}", answer.status == 0 and "ERROR" not in answer.error
        yield f"{query}, {settings}: logged: {log}", ("LOG:" in log) == bool(settings)
        yield f"{query}, {settings}: shown: {log}", is_shown(document, log) == is_due


def looks(server):
    """All of it, in a database of its own."""
    database = server.database("secrets")
    found = examples()
    long = found["long-lengths"]
    words = {"long": hex_of(long), "cut": hex_of(found["cut-short"]), "version": hex_of(found["request-version-1"]),
             "cut_line": LINES["cut-short"], "version_line": LINES["request-version-1"],
             "file": f"{server.folder}/copied"}
    # (the form of COPY in binary: one row of one column)
    with open(words["file"], "wb") as file:
        file.write(b"PGCOPY\n\xff\r\n\0" + bytes(8) + b"\0\1" + len(long).to_bytes(4, "big") + long + b"\xff\xff")
    os.chmod(words["file"], 0o644)
    made = server.psql(TABLES.format(**words), database)
    yield f"tables: {made.error}", made.status == 0
    yield from own_errors(server, database, words)
    yield from server_errors(server, database, words, long)
    yield from logged(server, database, long)
