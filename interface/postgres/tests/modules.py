"""The module beside others: over the stand-in for the library, which answers what no document brings, and in a session
that has loaded a module with the library's names before."""
import re
import shutil
from itertools import product

from interface.postgres.tests.server import Session, said

ACCEPTED, FAULT, MEMORY, BAD_CALL, NOT_DER, REPORTED, ANOTHER = 0, 1, 3, 4, 5, 6, 8
STATUSES = range(10)
TRIED = """CREATE FUNCTION tried(query text) RETURNS text LANGUAGE plpgsql AS $$
DECLARE
    answer text;
BEGIN
    EXECUTE query INTO answer;
    RETURN answer;
EXCEPTION WHEN OTHERS THEN
    RETURN SQLSTATE || ': ' || SQLERRM;
END $$;"""
LATER = {0: "fault at 5: Later", 28: "fault at 5: Later inside at 7: Later"}
# what each call answers by the status, but for what all answer alike
ANSWERS = {
    "check": {ACCEPTED: "DER", FAULT: "{line}", NOT_DER: "not DER at 5"},
    "is_der": {ACCEPTED: "true", FAULT: "false", NOT_DER: "false"},
    "require_der": {ACCEPTED: "true", FAULT: "23514: key: {line}", NOT_DER: "23514: key: not DER at 5"},
    "normalise": {ACCEPTED: "\\x", FAULT: "22P03: key: {line}"},
    "show": {ACCEPTED: "", FAULT: "22P03: key: {line}"},
    "signed": {ACCEPTED: "\\x", FAULT: "22P03: request: {line}"},
    "explain": {REPORTED: ""},
    "field": {REPORTED: ""},
    "same": {ACCEPTED: "true", ANOTHER: "false", FAULT: "22P03: key: second: {line}"},
}
ALIKE = {MEMORY: "53200: pkder: out of memory", BAD_CALL: "22023: pkder: no such limits"}


def database_over(server, name, module):
    """A database with the functions of a module that is no extension."""
    shutil.copy(module, f"{server.lib}/{name}.so")
    with open(f"{server.share}/extension/pkder--1.0.sql", encoding="utf-8") as file:
        script = re.sub(r"(?m)^\\echo.*$", "", file.read()).replace("MODULE_PATHNAME", f"$libdir/{name}")
    made = server.psql(f"CREATE DATABASE {name};\n\\c {name}\n{script}{TRIED}")
    if made.status:
        raise RuntimeError(made.error)
    return name


def stand_in(server, module):
    """What each call makes of each status."""
    database = database_over(server, "stand_in", module)
    queries, dues = [], []
    for call, status, inside in product(ANSWERS, STATUSES, LATER):
        word, octets = "info" if call == "signed" else "key", f"\\x{status:02x}1c{inside:02x}"
        second = ", ''" if call == "same" else ""
        queries.append(f"tried($it$SELECT pkder_{call}('{word}', '{octets}'{second})::text$it$)")
        due = (ALIKE | ANSWERS[call]).get(status, f"XX000: pkder: libpkder answers the status {status}")
        dues.append(due.format(line=LATER[inside]))
    found = server.psql("".join(f"SELECT {it};\n" for it in queries), database)
    answers = found.text.split("\n")
    yield f"stand-in: {found.error}", len(answers) == len(dues)
    for query, due, answer in zip(queries, dues, answers):
        yield f"{query}: {answer}", answer == due


def names(server):
    """The names that the module shows outside are its functions'."""
    shown = {it.split()[-1] for it in said("nm", "-D", "--defined-only", f"{server.lib}/pkder.so").splitlines()}
    due = {f"{start}pkder_sql_{it}" for start in ("", "pg_finfo_") for it in ANSWERS} | {"Pg_magic_func"}
    yield f"names: {sorted(shown ^ due)}", shown == due


def beside(server, other, naive):
    """A module with the library's names is loaded first: its answers aren't ours, but those of a module that shows the
    names of its library."""
    shutil.copy(other, f"{server.lib}/other.so")
    server.database("beside")
    database_over(server, "naive", naive)
    for database, due in ("beside", "fault at 0: WrongTag"), ("naive", "pkder: out of memory"):
        with Session(server, database) as session:
            found = session.ask("LOAD '$libdir/other'")
            yield f"loaded: {found}", found == ""
            # (of these octets the stand-in says that memory ran out)
            found = session.ask("SELECT pkder_check('key', '\\x030000')")
            yield f"{database}: {found}", due in found


def looks(server, module, other, naive):
    yield from stand_in(server, module)
    yield from names(server)
    yield from beside(server, other, naive)
