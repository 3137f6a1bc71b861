"""Databases with the extension that PKDER_SQLITE names, questions to its functions, and files of the repository."""
import contextlib
import os
import sqlite3
from pathlib import Path

TOP = str(Path(__file__).resolve().parents[3])


def opened(name=":memory:"):
    """A database with the extension."""
    database = sqlite3.connect(name, isolation_level=None)
    database.enable_load_extension(True)
    database.load_extension(os.environ["PKDER_SQLITE"])
    database.enable_load_extension(False)
    return database


def ask(database, function, *arguments):
    """What a function answers."""
    marks = ", ".join("?" * len(arguments))
    return database.execute(f"select {function}({marks})", arguments).fetchone()[0]


def refusal(database, sql, *arguments):
    """What a statement is refused by, which has to be: the line."""
    try:
        database.execute(sql, arguments).fetchall()
    except sqlite3.Error as why:
        return str(why)
    raise AssertionError(f"not refused: {sql}")


def example(name):
    """The octets of a file of examples/."""
    with open(f"{TOP}/examples/{name}.der", "rb") as file:
        return file.read()


def lines_of(variable):
    """The cells of each line of the table that a variable of the environment names."""
    with open(os.environ[variable], encoding="utf-8") as table:
        return [line.split("\t") for line in table.read().splitlines()]


@contextlib.contextmanager
def closing(*names):
    """The same, of several databases, closed at the end."""
    with contextlib.ExitStack() as stack:
        yield [stack.enter_context(contextlib.closing(opened(name))) for name in names]
