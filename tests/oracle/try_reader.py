#!/usr/bin/env python3
"""try_reader.py TABLE.tsv..: what tests/oracle/reader.py answers to each row of the tables, compared with the row.

tests/harness/rows.py tells what a row is. Rows of what the reader has no part in are left out: command lines that are
refused, help, notes, and actions that it hasn't. The last line is 'reader: N passed, M failed'."""
import sys
from pathlib import Path

sys.path[0] = str(Path(__file__).resolve().parents[2])
from tests.harness.rows import lines_of, rows_of
from tests.oracle.questions import Question
from tests.oracle.reader import has_part_in
from tools.gate.looks import counted

REFUSED_LINE = 4


def is_answered(row):
    """Whether the row asks what the reader answers."""
    return row.status != REFUSED_LINE and has_part_in(row.words.split()) and row.output is not None


def answer_to(row):
    """The answer to a row: status, output and line."""
    status, output, error = Question.of_row(row).due()
    device, _, room = row.device.partition(" ")
    if device == "room" and int(room) < len(output):
        return 3, output[: int(room)], f"write failed after {room}"
    return status, output, error


def looks(table):
    """Each row that the reader answers, and whether its answer is the row's."""
    for number, row in rows_of(table):
        if is_answered(row):
            status, output, error = answer_to(row)
            lines = (lines_of(row.error) or row.error).removesuffix("\n")
            said = f"{table}:{number}: {row.rule}: status {status}, {output[:200].hex()!r}, {error!r}"
            yield said, (status, output, error) == (row.status, row.output, lines)


if __name__ == "__main__":
    sys.exit(counted("reader", (it for table in sys.argv[1:] for it in looks(table))))
