"""No copy of a key stays in the memory that is a session's own: what is made of a value that stands apart, for a call,
is wiped, and so is what the library frees. (What is shared among sessions holds the table.)"""
from interface.postgres.tests.extension import long_key, mixed
from interface.postgres.tests.server import Session, hex_of

SECRET = mixed(6400)
CALLS = ("check('key', der)", "is_der('key', der)", "require_der('key', der)", "same('key', der, der)",
         "show('key', der)", "field('key', der)", "explain('key', der, 'all json')")
# of a key that an octet follows
REFUSALS = ("normalise('key', more)", "show('key', more)", "same('key', der, more)", "require_der('key', more)")


def own_memory(process):
    """What a process may write and has by itself, but for its stack."""
    with open(f"/proc/{process}/maps", encoding="utf-8") as maps, open(f"/proc/{process}/mem", "rb", 0) as memory:
        for line in maps:
            place, rights, *_ = line.split()
            if rights.startswith("rw-p") and "[stack]" not in line:
                start, end = (int(it, 16) for it in place.split("-"))
                memory.seek(start)
                yield memory.read(end - start)


def pieces(process):
    """How many pieces of the secret, of 16 octets each, stand in the process's own memory."""
    held = b"".join(own_memory(process))
    return sum(SECRET[at : at + 16] in held for at in range(0, len(SECRET), 16))


def looks(server):
    database = server.database("memory")
    key = hex_of(long_key(SECRET))
    made = server.psql(f"""CREATE TABLE held (der bytea, more bytea);
        ALTER TABLE held ALTER der SET STORAGE EXTERNAL, ALTER more SET STORAGE EXTERNAL;
        INSERT INTO held SELECT it, it || '\\x00' FROM (VALUES ('{key}'::bytea)) AS made(it)""", database)
    yield f"a key that stands apart: {made.error}", made.status == 0
    with Session(server, database) as session:
        process = session.ask("SELECT pg_backend_pid()")
        try:
            found = pieces(process)
        except PermissionError:
            print("left out: the memory of a session can't be read")
            return
        yield f"pieces before: {found}", found == 0
        for call in CALLS:
            said = session.ask(f"SELECT length(pkder_{call}::text) > 0 FROM held")
            found = pieces(process)
            yield f"pieces after pkder_{call}: {found}; {said[:300]}", found == 0 and said in ("t", "f")
        for call in REFUSALS:
            said = session.ask(f"SELECT pkder_{call} FROM held")
            found = pieces(process)
            yield f"pieces after pkder_{call}: {found}; {said[:300]}", found == 0 and "Trailing" in said
        # (a function that doesn't wipe: so pieces are found where there are some)
        session.ask("SELECT sha256(der) FROM held")
        found = pieces(process)
        yield f"pieces after sha256: {found}", found > 0
