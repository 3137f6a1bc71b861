"""The tables that all callers of the library run, in a database: each row is a row there, too, and is answered by a
function in PL/pgSQL, which catches what is refused."""

CALLS = """
CREATE TABLE calls (rule text, words text, document text, status integer, output text, error text);
CREATE TABLE pairs (rule text, kind text, depth integer, octets bigint, first text, second text, answer text);

-- The status, the output in hex and the line of a call that the words ask for, as the program's would be.
CREATE FUNCTION answered(words text[], document bytea, OUT status integer, OUT output text, OUT error text)
LANGUAGE plpgsql AS $$
DECLARE
    line text;
    what text := words[3];
    depth integer := words[5];
    octets bigint := words[7];
    form text := regexp_replace(array_to_string(words[8:], ' '), '--(profile=)?', '', 'g');
BEGIN
    IF words[1] = 'normalise' THEN
        output := encode(pkder_normalise(what, document, depth, octets), 'hex');
    ELSIF words[1] = 'signed' THEN
        output := encode(pkder_signed(what, document, depth, octets), 'hex');
    ELSIF words[1] = 'show' THEN
        output := encode(convert_to(pkder_show(what, document, depth, octets), 'UTF8'), 'hex');
    END IF;
    IF output IS NOT NULL THEN
        status := 0;
        error := '';
        RETURN;
    END IF;
    line := pkder_check(what, document, depth, octets);
    status := CASE WHEN line = 'DER' THEN 0 WHEN line LIKE 'not DER at %' THEN 1 ELSE 2 END;
    error := CASE WHEN status = 2 AND words[1] = 'check' THEN line ELSE '' END;
    output := encode(convert_to(CASE words[1]
        WHEN 'explain' THEN pkder_explain(what, document, form, depth, octets)
        WHEN 'field' THEN pkder_field(what, document, depth, octets)
        WHEN 'check' THEN CASE WHEN status = 2 THEN '' ELSE line || E'\\n' END END, 'UTF8'), 'hex');
EXCEPTION WHEN invalid_binary_representation THEN
    status := 2;
    output := '';
    error := regexp_replace(SQLERRM, '^[a-z]+: ', '');
END $$;

-- The line by which pkder_require_der refuses a document, or DER.
CREATE FUNCTION required(kind text, document bytea, depth integer, octets bigint) RETURNS text
LANGUAGE plpgsql AS $$
BEGIN
    RETURN CASE WHEN pkder_require_der(kind, document, depth, octets) THEN 'DER' END;
EXCEPTION WHEN check_violation THEN
    RETURN substr(SQLERRM, length(kind) + 3);
END $$;

-- The line by which the domain of a kind refuses it, or DER.
CREATE FUNCTION taken(kind text, document bytea) RETURNS text
LANGUAGE plpgsql AS $$
DECLARE
    stored bytea;
BEGIN
    EXECUTE format('SELECT $1::der_%s', kind) INTO stored USING document;
    RETURN CASE WHEN stored = document THEN 'DER' END;
EXCEPTION WHEN check_violation THEN
    RETURN substr(SQLERRM, length(kind) + 3);
END $$;

-- Whether two documents are the same, or which of them is refused.
CREATE FUNCTION compared(kind text, first bytea, second bytea, depth integer, octets bigint) RETURNS text
LANGUAGE plpgsql AS $$
BEGIN
    RETURN CASE WHEN pkder_same(kind, first, second, depth, octets) THEN 'the same' ELSE 'another' END;
EXCEPTION WHEN invalid_binary_representation THEN
    RETURN substr(SQLERRM, length(kind) + 3);
END $$;
"""

# each query answers the rows that aren't as they should be
WRONG = {
    "calls": """SELECT rule, words, it.* FROM calls c, answered(string_to_array(words, ' '), decode(document, 'hex')) it
        WHERE (it.status, it.output, it.error) IS DISTINCT FROM (c.status, c.output, c.error)""",
    "pairs": """SELECT rule, kind, it FROM pairs,
        compared(kind, decode(first, 'hex'), decode(second, 'hex'), depth, octets) it
        WHERE it IS DISTINCT FROM answer""",
    "is_der, require_der and domains": """
        WITH checks AS (SELECT rule, string_to_array(words, ' ') w, decode(document, 'hex') d,
            CASE WHEN error <> '' THEN error ELSE rtrim(convert_from(decode(output, 'hex'), 'UTF8'), E'\\n') END line
            FROM calls WHERE words LIKE 'check %'),
        judged AS (SELECT rule, w, line, pkder_is_der(w[3], d, w[5]::integer, w[7]::bigint) is_der,
            required(w[3], d, w[5]::integer, w[7]::bigint) required,
            CASE WHEN w[5] = '32' AND w[7] = '1048576' THEN taken(w[3], d) END taken FROM checks)
        SELECT * FROM judged WHERE is_der IS DISTINCT FROM (line = 'DER') OR required IS DISTINCT FROM line
            OR taken IS DISTINCT FROM line AND taken IS NOT NULL""",
}


def looks(server, calls, pairs):
    """Whether each table is answered as it says."""
    database = server.database("rows")
    script = [CALLS]
    for name, table in ("calls", calls), ("pairs", pairs):
        with open(table, encoding="utf-8") as file:
            script.append(f"COPY {name} FROM STDIN;\n{file.read()}\\.\n")
    made = server.psql("".join(script), database)
    yield f"tables: {made.error}", made.status == 0
    for name, least in ("calls", 1200), ("pairs", 3000):
        count = server.value(f"SELECT count(*) FROM {name}", database)
        yield f"{name}: {count} rows", count.isdecimal() and int(count) >= least
    count = server.value("SELECT count(*) FROM calls WHERE words LIKE 'check %'", database)
    yield f"checks: {count} rows", int(count) >= 100
    for name, query in WRONG.items():
        answer = server.psql(query, database)
        yield f"{name}: {answer.text[:2000]}{answer.error[:2000]}", (answer.status, answer.text) == (0, "")
