#!/usr/bin/env python3
"""rows.py [--line] TABLE.tsv.. PROGRAM..: each row of the tables handed to each program, and its answer compared.

A row is a line of cells between tabs; cells left out are empty, and a line that begins with # is a title:
  rule      what the row shows
  words     the arguments, \\xNN being the octet NN; under --line the first line of standard input, for programs that
            test libraries
  input     standard input
  status    the exit status, 0 if left out
  output    standard output; = for the input, "TEXT" for lines of text, \\n between them, * for any that isn't empty
  error     the line on standard error, "TEXT" and * as for the output
  device    'reading fails': standard input fails after its octets; 'pieces N': each read gives N octets of it, and
            what it has no room for is lost, so that N is 1 where a program may ask for one octet;
            'room N': the output takes N octets and fails
Octets are in hex with spaces as one likes, 00*3000 is 3,000 of them, and @FILE those of a file in the table's folder.
Each table has a line, and the last line is 'rows: N passed, M failed', a row counting once for all programs."""
import os
import re
import resource
import shlex
import signal
import socket
import subprocess
import sys
import tempfile
import tty
from contextlib import suppress
from threading import Thread

SECONDS = 60
CELLS = 7


def words_of(text):
    """The arguments that are written so; one of an octet that isn't ASCII is handed on as that octet."""
    octet = lambda it: chr(int(it[1], 16) + (0xDC00 if int(it[1], 16) > 127 else 0))
    return [re.sub(r"\x00([0-9a-f]{2})", octet, it) for it in shlex.split(text.replace("\\x", "\x00"))]


def lines_of(cell):
    """The lines that a quoted cell says, or None where it isn't quoted."""
    quoted = re.fullmatch(r'"(.*)"', cell)
    return quoted and quoted[1].replace("\\n", "\n") + "\n"


def octets_of(text, folder):
    """The octets that are written so."""
    found = b""
    for word in text.split():
        if word.startswith("@"):
            with open(f"{folder}/{word[1:]}", "rb") as it:
                found += it.read()
        else:
            octets, _, count = word.partition("*")
            found += bytes.fromhex(octets) * int(count or "1")
    return found


def reader_that_fails(octets):
    """Returns a terminal's end that gives the octets and then fails, since its other end is closed."""
    reader, writer = os.openpty()
    tty.setraw(writer)
    if os.write(writer, octets) != len(octets):
        raise ValueError("a reader that fails gives few octets")
    os.close(writer)
    return reader


def reader_of_pieces(octets, size):
    """Returns a socket's end that gives pieces of this size, one a read, each a packet."""
    reader, writer = socket.socketpair(socket.AF_UNIX, socket.SOCK_SEQPACKET)

    def give():
        # (a program that ends before it has read all of them resets the connection)
        with writer, suppress(ConnectionError):
            for place in range(0, len(octets), size):
                writer.send(octets[place : place + size])

    Thread(target=give, daemon=True).start()
    return reader.detach()


def limit_files(room):
    """Has the process's files take so many octets, a write past them failing."""
    signal.signal(signal.SIGXFSZ, signal.SIG_IGN)
    resource.setrlimit(resource.RLIMIT_FSIZE, (room, room))


def answer(words, given, device):
    """Returns the status, standard output and standard error of a run."""
    kind, _, number = device.partition(" ")
    is_given = kind in ("reading", "pieces")
    with tempfile.TemporaryFile() as taken:
        how = {"stdin": subprocess.PIPE, "stdout": subprocess.PIPE, "stderr": subprocess.PIPE}
        if kind == "reading":
            how["stdin"] = reader_that_fails(given)
        elif kind == "pieces":
            how["stdin"] = reader_of_pieces(given, int(number))
        elif kind == "room":
            how |= {"stdout": taken, "preexec_fn": lambda: limit_files(int(number))}
        elif kind:
            raise ValueError(f"there is no device {device}")
        started = subprocess.Popen(words, **how)
        try:
            output, error = started.communicate(None if is_given else given, timeout=SECONDS)
        except subprocess.TimeoutExpired:
            started.kill()
            output, error = started.communicate()
            error += f"not ended after {SECONDS} seconds\n".encode()
        if is_given:
            os.close(how["stdin"])
        if kind == "room":
            taken.seek(0)
            output = taken.read()
        return started.returncode, output, error.decode(errors="replace")


class Row:
    """A row of a table."""

    def __init__(self, line, folder):
        cells = line.split("\t")
        if len(cells) > CELLS:
            raise ValueError(f"a row has at most {CELLS} cells")
        self.rule, self.words, given, status, self.due, self.error, self.device = cells + [""] * (CELLS - len(cells))
        self.input, self.status = octets_of(given, folder), int(status or "0")
        text = lines_of(self.due)
        self.output = self.input if self.due == "=" else text.encode() if text else None
        if self.output is None and self.due != "*":
            self.output = octets_of(self.due, folder)

    def wrong(self, program, takes_line):
        """Returns what is wrong with the program's answer, if anything is."""
        words, given = words_of(self.words), self.input
        if takes_line:
            words, given = [], f"{self.words}\n".encode() + given
        status, output, error = answer([program, *words], given, self.device)
        is_output = bool(output) if self.output is None else output == self.output
        line = f"{self.error}\n" if self.error else ""
        is_error = bool(error) if self.error == "*" else error == (lines_of(self.error) or line)
        if status == self.status and is_output and is_error:
            return None
        return f"status {status}, {output[:200].hex()!r}, {error.strip()[:200]!r}"


def rows_of(table):
    with open(table, encoding="utf-8") as it:
        lines = [(number, line) for number, line in enumerate(it.read().split("\n"), 1) if line]
    folder = os.path.dirname(os.path.abspath(table))
    return [(number, Row(line, folder)) for number, line in lines if not line.startswith("#")]


def tried(table, programs, takes_line):
    """Returns how many rows of the table passed and failed."""
    rows, count = rows_of(table), {True: 0, False: 0}
    for number, row in rows:
        wrong = [f"{it}: {why}" for it in programs if (why := row.wrong(os.path.abspath(it), takes_line))]
        for why in wrong:
            print(f"{table}:{number}: {row.rule}: {why}")
        count[not wrong] += 1
    print(f"{table}: {count[True]} rows passed, {count[False]} failed", flush=True)
    is_whole = rows and sum(count.values()) == len(rows)
    return count[True], count[False] + (not is_whole)


def main(words):
    tables = [it for it in words if it.endswith(".tsv")]
    programs = [it for it in words if it not in tables and it != "--line"]
    if not tables or not programs:
        sys.exit(__doc__)
    passed, failed = (sum(it) for it in zip(*(tried(it, programs, "--line" in words) for it in tables)))
    print(f"rows: {passed} passed, {failed} failed", flush=True)
    return 1 if failed else 0


if __name__ == "__main__":
    sys.exit(main(sys.argv[1:]))
