"""What the extension is in a database: how its functions are declared, domains, documents as the server keeps them,
indexes, encodings, deep stacks, and dumps."""
import hashlib

from interface.postgres.tests.server import TOP, hex_of

FUNCTIONS = ("check", "explain", "field", "is_der", "normalise", "require_der", "same", "show", "signed")
KINDS = ("key", "ec", "request", "public", "encrypted", "package")
# the octets of a key of Ed25519 in front of its 32 (RFC 8410), and the same with an outer length of two octets
ED25519, IN_BER = "302e020100300506032b657004220420", "30812e020100300506032b657004220420"
# one request in two layouts, by interface/pairs.tsv
REQUEST, LAYOUT = "request-p256", "request-indefinite"


def octets_of(name):
    with open(f"{TOP}/examples/{name}.der", "rb") as file:
        return file.read()


def element(tag, contents):
    """An element in DER (X.690 8.1.3, 10.1)."""
    size = len(contents)
    octets = size.to_bytes((size.bit_length() + 7) // 8, "big")
    return bytes([tag]) + (bytes([size]) if size < 128 else bytes([0x80 + len(octets)]) + octets) + contents


def long_key(contents):
    """A key of an algorithm that isn't known, whose octets are kept as they are (RFC 5958 section 2)."""
    return element(0x30, b"\2\1\0" + element(0x30, element(6, b"\x2a\3\4")) + element(4, contents))


def mixed(count):
    """Octets that can't be compressed."""
    return b"".join(hashlib.sha256(at.to_bytes(4, "big")).digest() for at in range(count // 32))


def declared(server, database):
    """How functions and domains are declared."""
    found = server.psql("""SELECT proname, provolatile, proisstrict, proparallel, procost >= 100, proleakproof
        FROM pg_proc JOIN pg_depend d ON d.objid = pg_proc.oid JOIN pg_extension e ON e.oid = d.refobjid
        WHERE extname = 'pkder' AND deptype = 'e' AND d.classid = 'pg_proc'::regclass ORDER BY proname""", database)
    due = [[f"pkder_{it}", "i", "t", "s", "t", "f"] for it in FUNCTIONS]
    yield f"functions: {found.text}{found.error}", found.rows == due
    found = server.value("""SELECT string_agg(typname || ' ' || typbasetype::regtype, ',' ORDER BY typname) FROM pg_type
        WHERE typtype = 'd' AND typname LIKE 'der\\_%'""", database)
    yield f"domains: {found}", found == ",".join(f"der_{it} bytea" for it in sorted(KINDS))
    calls = [f"pkder_{it}('key', NULL)" for it in FUNCTIONS if it not in ("same", "signed")]
    calls += ["pkder_signed('info', NULL)", "pkder_same('key', NULL, '')", *(f"NULL::der_{it}" for it in KINDS)]
    found = server.value(f"SELECT num_nonnulls({', '.join(calls)})", database)
    yield f"NULL of NULL: {found}", found == "0"
    found = server.psql("CREATE TABLE held (der der_key); DROP EXTENSION pkder", database)
    yield f"a column keeps the extension: {found.error}", "2BP01" in found.error
    found = server.value("""CREATE SCHEMA apart; CREATE DATABASE moved; \\c moved
        CREATE SCHEMA apart; CREATE EXTENSION pkder SCHEMA apart; ALTER EXTENSION pkder SET SCHEMA public;
        ALTER EXTENSION pkder SET SCHEMA apart; SELECT apart.pkder_is_der('key', octets), octets::apart.der_key = octets
        FROM decode('""" + ED25519 + "00" * 32 + "', 'hex') octets", database)
    yield f"in a schema of its own: {found}", found == "t|t"
    found = server.value("CREATE TABLE no_rows (der bytea); SELECT count(pkder_check('no kind', der)) FROM no_rows",
                         database)
    yield f"a wrong kind is found when a row comes: {found}", found == "0"


def kept(server, database):
    """Documents that are compressed, apart, both, or with a header of one octet."""
    zeros, other = long_key(bytes(300000)), long_key(mixed(300000))
    made = server.psql(f"""CREATE TABLE kept (name text, der bytea);
        CREATE TABLE in_main (name text, der bytea); ALTER TABLE in_main ALTER der SET STORAGE MAIN;
        CREATE TABLE outside (name text, der der_key); ALTER TABLE outside ALTER der SET STORAGE EXTERNAL;
        INSERT INTO kept VALUES ('zeros', '{hex_of(zeros)}'), ('other', '{hex_of(other)}'),
            ('short', '\\x{ED25519}{"07" * 32}');
        INSERT INTO in_main SELECT * FROM kept WHERE name <> 'other';
        INSERT INTO outside SELECT name, der || '' FROM kept;""", database)
    yield f"kept: {made.error}", made.status == 0
    tables = {"kept": "ftf", "in_main": "tf", "outside": "ftf"}
    for table in tables:
        found = server.psql(f"""SELECT name, pkder_is_der('key', der), pkder_require_der('key', der),
            pkder_check('key', der), pkder_normalise('key', der) = der, pkder_same('key', der, der),
            pkder_field('key', der) = '', left(pkder_show('key', der), 9),
            split_part(pkder_explain('key', der), E'\\n', 2), pkder_check('key', substr(der, 1, octet_length(der) - 1))
            FROM {table} ORDER BY name""", database)
        sizes = {"other": len(other), "short": 48, "zeros": len(zeros)}
        due = [[it, "t", "t", "DER", "t", "t", "t", "kind: key", "DER", f"fault at {sizes[it] - 1}: Truncated"]
               for it in sizes if table != "in_main" or it != "other"]
        yield f"{table}: {found.text}{found.error}", found.rows == due
    found = server.value("""SELECT string_agg(name || ' ' || (pg_column_size(der) < octet_length(der))::text, ', '
        ORDER BY name) FROM (SELECT * FROM kept UNION ALL SELECT 'main ' || name, der FROM in_main WHERE name = 'zeros'
        UNION ALL SELECT 'outside ' || name, der FROM outside WHERE name = 'zeros') it""", database)
    yield f"compressed: {found}", found == "main zeros true, other false, outside zeros false, short false, zeros true"


def indexes(server, database):
    """Documents that are the same are refused by an index of a hash, and long ones aren't."""
    made = server.psql("""CREATE TABLE by_text (der bytea); CREATE TABLE by_hash (der bytea);
        CREATE TABLE by_octets (der der_request UNIQUE);
        CREATE UNIQUE INDEX ON by_text (pkder_normalise('key', der));
        CREATE UNIQUE INDEX ON by_hash (sha256(pkder_normalise('key', der)));
        CREATE TABLE requests (csr bytea); CREATE UNIQUE INDEX one_request
            ON requests (sha256(pkder_normalise('request', csr)));""", database)
    yield f"indexes: {made.error}", made.status == 0
    for size in 2720, 300000:
        long = hex_of(long_key(mixed(size)))
        found = server.psql(f"INSERT INTO by_text VALUES ('{long}')", database)
        yield f"an index row that is too large: {found.error[:300]}", "ERROR:  54000: index row " in found.error
        found = server.psql(f"INSERT INTO by_hash VALUES ('{long}')", database)
        yield f"its hash: {found.error[:300]}", found.status == 0
    request, layout = (hex_of(octets_of(it)) for it in (REQUEST, LAYOUT))
    both = "INSERT INTO {0} VALUES ('" + request + "'); INSERT INTO {0} VALUES ('" + layout + "')"
    found = server.psql(both.format("requests"), database)
    yield f"the same request: {found.error}", "23505" in found.error and "one_request" in found.error
    found = server.psql(both.format("by_octets"), database)
    yield f"in another layout: {found.error}", "23514: request: not DER at 1\n" in found.error
    found = server.psql(f"SET enable_seqscan = off; EXPLAIN SELECT FROM requests WHERE "
                        f"sha256(pkder_normalise('request', csr)) = sha256('{request}')", database)
    yield f"the index is used: {found.text}", "one_request" in found.text


def encodings(server):
    """Reports have letters, which are the database's."""
    web = hex_of(octets_of("request-web"))
    for encoding in ("UTF8", "LATIN1", "SQL_ASCII"):
        more = f"TEMPLATE template0 ENCODING '{encoding}' LC_COLLATE 'C' LC_CTYPE 'C'"
        database = server.database(f"in_{encoding.lower()}", more)
        # (of the text, as octets in its database's encoding)
        due = "München".encode("latin-1" if encoding == "LATIN1" else "utf-8").hex()
        for form in "", "json":
            report = f"pkder_explain('request', '{web}', '{form}')"
            found = server.value(f"SELECT encode(convert_to({report}, '{encoding}'), 'hex')", database)
            yield f"{encoding} {form}: {found}", due in found
    found = server.value(f"SELECT pkder_explain('request', '{web}', 'json')::jsonb #>> '{{asks,subject}}'", "in_utf8")
    yield f"the report as JSON: {found}", "München" in found


def deep(server, database):
    """A call from a deep stack is refused before it begins."""
    made = server.psql("""CREATE FUNCTION deep(octets bytea) RETURNS text LANGUAGE plpgsql AS $$
        BEGIN
            RETURN pkder_check('request', octets, 64) || deep(octets);
        END $$""", database)
    yield f"a function: {made.error}", made.status == 0
    nested = b"\x30\x80" * 63
    found = server.psql(f"SELECT deep('{hex_of(nested)}')", database, max_stack_depth="7MB")
    yield f"a deep stack: {found.error[:300]}", "54001" in found.error
    yield "the server goes on", server.value("SELECT pkder_check('key', '')", database) == "fault at 0: Truncated"


def dumped(server, database):
    """A dump of the database is restored, in both forms, with all that stands on the extension."""
    request, layout = (hex_of(octets_of(it)) for it in (REQUEST, LAYOUT))
    plain, custom = f"{server.folder}/dump.sql", f"{server.folder}/dump"
    for words in (("-f", plain), ("-Fc", "-f", custom)):
        ran = server.client("pg_dump", *words, database)
        yield f"pg_dump: {ran.error}", ran.status == 0
    with open(plain, encoding="utf-8") as file:
        text = file.read()
    yield "the dump makes the extension", "CREATE EXTENSION IF NOT EXISTS pkder" in text
    yield "and not what is in it", "CREATE DOMAIN" not in text and "pkder_sql_" not in text
    look = """SELECT count(*), md5(string_agg(name || der::text, ',' ORDER BY name))
        FROM (TABLE kept UNION ALL TABLE outside) it"""
    before = server.value(look, database)
    server.psql("CREATE DATABASE of_plain; CREATE DATABASE of_custom")
    restored = {"of_plain": server.client("psql", "-Xq", "-v", "ON_ERROR_STOP=1", "-f", plain, "of_plain"),
                "of_custom": server.client("pg_restore", "-j", "2", "-e", "-d", "of_custom", custom)}
    for name, ran in restored.items():
        yield f"{name}: {ran.error}", ran.status == 0
        found = server.value(look, name)
        yield f"{name}: {found}", found == before and found.startswith("6|")
        for statement, state in (
            (f"INSERT INTO outside VALUES ('', '\\x{IN_BER}{'07' * 32}')", "23514: key: not DER at 1"),
            (f"INSERT INTO requests VALUES ('{request}'); INSERT INTO requests VALUES ('{layout}')", "23505"),
        ):
            found = server.psql(statement, name)
            yield f"{name}: {found.error}", f"ERROR:  {state}" in found.error


def looks(server):
    """All of it, in a database of its own."""
    database = server.database("extension")
    yield from declared(server, database)
    yield from kept(server, database)
    yield from indexes(server, database)
    yield from encodings(server)
    yield from deep(server, database)
    yield from dumped(server, database)
