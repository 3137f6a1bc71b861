"""The statements of interface/postgres/README.md, as they stand there: what is due of one stands in lines after it that
begin with -->, rows in any order, or the first line of an error."""
import re

from interface.postgres.tests.server import TOP, Session, hex_of

PAGE = "interface/postgres/README.md"
BLOCK = re.compile(r"(?ms)^```sql\n(.*?)^```$")
STATEMENT = re.compile(r"(?s)(.*?;)\n((?:--> [^\n]*\n)*)")


def parameters(text):
    """The text with the octets of files of examples/ in the places of parameters."""

    def octets(found):
        with open(f"{TOP}/examples/{found[1].replace('_', '-')}.der", "rb") as file:
            return f"'{hex_of(file.read())}'"

    return re.sub(r"(?<!:):([a-z]\w+)", octets, text)


def looks(server):
    server.psql("CREATE DATABASE page")
    with open(f"{TOP}/{PAGE}", encoding="utf-8") as file:
        blocks = BLOCK.findall(file.read())
    with Session(server, "page") as session:
        for statement, due in (it for block in blocks for it in STATEMENT.findall(block)):
            said = session.ask(parameters(statement)).splitlines()
            if said and said[0].startswith("ERROR:"):
                said = [re.sub(r"^ERROR:  \w{5}: ", "ERROR:  ", said[0])]
            due = [line.removeprefix("--> ") for line in due.splitlines()]
            yield f"{PAGE}: {statement}: {said}", sorted(said) == sorted(due)
