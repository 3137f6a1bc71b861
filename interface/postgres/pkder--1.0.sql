-- What the extension has. kind is key, ec, request, public, encrypted or package; document its octets and no PEM; depth
-- and octets are the limits, as the program has them. COST is by what a call takes beside an operator (1): so a scan is
-- shared among workers early.
\echo Use "CREATE EXTENSION pkder" to load this file. \quit

CREATE FUNCTION pkder_check(kind text, document bytea, depth integer DEFAULT 32, octets bigint DEFAULT 1048576)
    RETURNS text LANGUAGE C IMMUTABLE STRICT PARALLEL SAFE COST 100 AS 'MODULE_PATHNAME', 'pkder_sql_check';
COMMENT ON FUNCTION pkder_check IS 'the program''s line: DER, not DER at PLACE, or fault at PLACE: REASON';

CREATE FUNCTION pkder_is_der(kind text, document bytea, depth integer DEFAULT 32, octets bigint DEFAULT 1048576)
    RETURNS boolean LANGUAGE C IMMUTABLE STRICT PARALLEL SAFE COST 100 AS 'MODULE_PATHNAME', 'pkder_sql_is_der';
COMMENT ON FUNCTION pkder_is_der IS 'whether the octets are a document of the kind, in DER';

CREATE FUNCTION pkder_require_der(kind text, document bytea, depth integer DEFAULT 32, octets bigint DEFAULT 1048576)
    RETURNS boolean LANGUAGE C IMMUTABLE STRICT PARALLEL SAFE COST 100 AS 'MODULE_PATHNAME', 'pkder_sql_require_der';
COMMENT ON FUNCTION pkder_require_der IS 'true, or an error with the line of pkder_check';

CREATE FUNCTION pkder_normalise(kind text, document bytea, depth integer DEFAULT 32, octets bigint DEFAULT 1048576)
    RETURNS bytea LANGUAGE C IMMUTABLE STRICT PARALLEL SAFE COST 100 AS 'MODULE_PATHNAME', 'pkder_sql_normalise';
COMMENT ON FUNCTION pkder_normalise IS 'the DER text of a document; of what is refused an error';

CREATE FUNCTION pkder_same(kind text, first bytea, second bytea, depth integer DEFAULT 32,
        octets bigint DEFAULT 1048576)
    RETURNS boolean LANGUAGE C IMMUTABLE STRICT PARALLEL SAFE COST 200 AS 'MODULE_PATHNAME', 'pkder_sql_same';
COMMENT ON FUNCTION pkder_same IS 'whether two documents say the same; of what is refused an error';

CREATE FUNCTION pkder_show(kind text, document bytea, depth integer DEFAULT 32, octets bigint DEFAULT 1048576)
    RETURNS text LANGUAGE C IMMUTABLE STRICT PARALLEL SAFE COST 100 AS 'MODULE_PATHNAME', 'pkder_sql_show';
COMMENT ON FUNCTION pkder_show IS 'what a document says, in lines; of what is refused an error';

CREATE FUNCTION pkder_signed(part text, document bytea, depth integer DEFAULT 32, octets bigint DEFAULT 1048576)
    RETURNS bytea LANGUAGE C IMMUTABLE STRICT PARALLEL SAFE COST 100 AS 'MODULE_PATHNAME', 'pkder_sql_signed';
COMMENT ON FUNCTION pkder_signed IS
    'a part of a certification request: info, algorithm, key, signature or received; of what is refused an error';

CREATE FUNCTION pkder_explain(kind text, document bytea, form text DEFAULT '', depth integer DEFAULT 32,
        octets bigint DEFAULT 1048576)
    RETURNS text LANGUAGE C IMMUTABLE STRICT PARALLEL SAFE COST 1000 AS 'MODULE_PATHNAME', 'pkder_sql_explain';
COMMENT ON FUNCTION pkder_explain IS
    'the report of any octets; form is a text of the words all, json and tls, a blank between';

CREATE FUNCTION pkder_field(kind text, document bytea, depth integer DEFAULT 32, octets bigint DEFAULT 1048576)
    RETURNS text LANGUAGE C IMMUTABLE STRICT PARALLEL SAFE COST 1000 AS 'MODULE_PATHNAME', 'pkder_sql_field';
COMMENT ON FUNCTION pkder_field IS 'the field that the report is about; of a document in DER an empty text';

-- Documents of a kind, in DER; what isn't is refused where it would be stored. NULL is taken, as by all domains.
CREATE DOMAIN der_key AS bytea CHECK (pkder_require_der('key', VALUE));
CREATE DOMAIN der_ec AS bytea CHECK (pkder_require_der('ec', VALUE));
CREATE DOMAIN der_request AS bytea CHECK (pkder_require_der('request', VALUE));
CREATE DOMAIN der_public AS bytea CHECK (pkder_require_der('public', VALUE));
CREATE DOMAIN der_encrypted AS bytea CHECK (pkder_require_der('encrypted', VALUE));
CREATE DOMAIN der_package AS bytea CHECK (pkder_require_der('package', VALUE));
-- end of the domains
