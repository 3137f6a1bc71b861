"""100,000 keys, judged by parallel workers, and what comes of one that is refused there."""
from interface.postgres.tests.extension import ED25519, IN_BER
from interface.postgres.tests.secrets import Watched, is_shown
from interface.postgres.tests.server import hex_of

COUNT = 100000
# each tenth has an outer length of two octets
MADE = f"""CREATE TABLE many AS SELECT decode(CASE WHEN at % 10 = 0 THEN '{IN_BER}' ELSE '{ED25519}' END, 'hex')
    || sha256(at::text::bytea) AS der FROM generate_series(1, {COUNT}) at;
CREATE TABLE taken (der der_key);
INSERT INTO taken SELECT der FROM many WHERE pkder_is_der('key', der);
ANALYZE many;"""
# (the leader has no part in it, so that what is raised comes from a worker)
PARALLEL = {"max_parallel_workers_per_gather": 2, "parallel_leader_participation": "off", "parallel_setup_cost": 0,
            "parallel_tuple_cost": 0, "min_parallel_table_scan_size": 0}
COUNTED = """SELECT count(*) FILTER (WHERE pkder_is_der('key', der)),
    count(*) FILTER (WHERE pkder_check('key', der) = 'not DER at 1'),
    count(*) FILTER (WHERE get_byte(pkder_normalise('key', der), 1) = 46),
    count(*) FILTER (WHERE pkder_same('key', der, pkder_normalise('key', der))) FROM many"""


def looks(server):
    database = server.database("many")
    made = server.psql(MADE, database)
    yield f"made: {made.error}", made.status == 0
    due = f"{COUNT - COUNT // 10}|{COUNT // 10}|{COUNT}|{COUNT}"
    found = server.value(COUNTED, database, **PARALLEL)
    yield f"counted: {found}", found == due
    plan = server.value(f"EXPLAIN (ANALYZE, COSTS off, TIMING off) {COUNTED}", database, **PARALLEL)
    yield f"by workers: {plan}", "Workers Launched: 2" in plan and "Parallel Seq Scan on many" in plan
    plan = server.value("EXPLAIN SELECT FROM many WHERE NOT pkder_is_der('key', der)", database)
    yield f"by itself: {plan}", "Parallel Seq Scan on many" in plan
    found = server.value("SELECT count(*) FROM taken", database)
    yield f"taken by the domain: {found}", found == str(COUNT - COUNT // 10)
    # (each key, refused by a worker)
    watched = Watched(server)
    answer = server.psql("SELECT count(pkder_require_der('key', der)) FROM many WHERE octet_length(der) = 49", database,
                         **PARALLEL)
    yield f"raised by a worker: {answer.error}", ("ERROR:  23514: key: not DER at 1\n" in answer.error
                                                  and "parallel worker" in answer.error)
    start = bytes.fromhex(IN_BER)
    yield "not shown", not is_shown(start, answer.error) and not is_shown(start, watched.text())
    yield from raised_again(server, database)


def raised_again(server, database):
    """What a worker raises is raised anew by the leader, by the server's means: with the statement, and parameters."""
    cut = bytes.fromhex(ED25519) + bytes(range(31))
    query = "SELECT count(pkder_same('key', der, {})) FROM many"
    for is_due, settings in (False, {}), (True, {"log_parameter_max_length_on_error": -1}):
        watched = Watched(server)
        settings = {"log_parameter_max_length_on_error": 0, **PARALLEL, **settings}
        answer = server.bound(query.format(":document"), cut, database, **settings)
        yield f"bound: {answer.error}", "key: second: fault at 47: Truncated" in answer.error
        yield f"{settings}: {watched.text()}", is_shown(cut, answer.error + watched.text()) == is_due
    watched = Watched(server)
    answer = server.psql(query.format(f"'{hex_of(cut)}'"), database, **PARALLEL)
    yield f"written: {answer.error}", "key: second: fault at 47: Truncated" in answer.error
    yield "not shown to the client", not is_shown(cut, answer.error)
    yield "in the log", is_shown(cut, watched.text())
