#!/usr/bin/env python3
"""spellings.py TABLE.tsv: spellings of octets as text, handed to the recipes of docs/manual.md that read them.

A row is a line of cells between tabs, and a line that begins with # is a title:
  rule     what the row shows
  recipe   the words of the recipe; pem and from_openssh are handed the text as a file, others as standard input
  text     the spelling: \\n, \\r, \\t and \\xNN, the octet NN, are written so
  octets   what it stands for, in hex; none where it is refused
  by       whose reading that is: a clause of a standard; openssl, which is asked, too, where the machine has it; or the
           manual, where it states a rule of its own

What is refused gives no octets, a status that isn't 0 and one line on standard error. Each recipe is tried with each
shell and each awk that the machine has. The last line is 'spellings: N passed, M failed', a row counting once."""
import os
import shutil
import subprocess
import sys
import tempfile
from concurrent.futures import ThreadPoolExecutor
from pathlib import Path

TOP = sys.path[0] = str(Path(__file__).resolve().parents[2])
from tests.harness import transcripts
from tools.gate.looks import counted

MANUAL, SECTION = f"{TOP}/docs/manual.md", "pem() ("
# (with the words that make them a POSIX shell)
SHELLS = (("dash",), ("bash",), ("busybox", "sh"), ("zsh", "--emulate", "sh"))
# Recipes that call xxd.
BY_XXD = ("from_hex", "from_ssh", "from_openssh")
AWKS = ("mawk", "gawk", "original-awk", "busybox")


class Row:
    """A row of the table."""

    def __init__(self, line):
        self.rule, self.recipe, text, octets, self.by = line.split("\t")
        escaped = text.encode("ascii").decode("unicode_escape")
        self.text, self.octets = escaped.encode("latin-1"), bytes.fromhex(octets)


def rows_of(table):
    """The rows of the table."""
    with open(table, encoding="ascii") as file:
        return [Row(line) for line in file.read().splitlines() if not line.startswith("#")]


def recipes():
    """The recipes of the section that has the one for PEM."""
    with open(MANUAL, encoding="utf-8") as file:
        sections = transcripts.sections_of(file.read())
    for steps in sections:
        found = [it.text for it in steps if it.shell]
        if any(SECTION in it for it in found):
            return "\n".join(found)
    raise ValueError(f"{MANUAL} has no recipe {SECTION}")


def has_tool(row):
    """Whether the machine has the tool that the row's recipe needs, beside those of every POSIX system and base64."""
    needed = "xxd" if row.recipe in BY_XXD else "base64"
    if not shutil.which(needed):
        print(f"left out: {row.rule}: no {needed}")
    return shutil.which(needed)


def ways(folder):
    """The shells and awks of the machine, each once, by a name: the shell's words, and the PATH that has the awk."""
    path, seen = os.environ["PATH"], {os.path.realpath(shutil.which(it)) for it in ("sh", "awk")}
    yield "sh", ["sh"], path
    for name, *words in SHELLS:
        if shutil.which(name) and os.path.realpath(shutil.which(name)) not in seen:
            yield name, [name, *words], path
    for name in AWKS:
        if shutil.which(name) and os.path.realpath(shutil.which(name)) not in seen:
            os.makedirs(f"{folder}/{name}")
            os.symlink(shutil.which(name), f"{folder}/{name}/awk")
            yield f"awk of {name}", ["sh"], f"{folder}/{name}:{path}"


def wrong(row, shell, path, script):
    """What is wrong with the recipe's answer, if anything is."""
    with tempfile.TemporaryDirectory() as folder:
        with open(f"{folder}/came", "wb") as file:
            file.write(row.text)
        given = "came" if row.recipe.startswith(("pem ", "from_openssh")) else "< came"
        words = [*shell, "-c", f"{script}\n{row.recipe} {given}"]
        ran = subprocess.run(words, cwd=folder, env={**os.environ, "PATH": path}, capture_output=True)
    lines = ran.stderr.decode(errors="replace").splitlines()
    if row.octets and (ran.returncode, ran.stdout, lines) == (0, row.octets, []):
        return None
    if not row.octets and ran.returncode and not ran.stdout and len(lines) == 1:
        return None
    return f"status {ran.returncode}, {ran.stdout.hex()!r}, {lines}"


def wrong_by_openssl(row):
    """What is wrong with the row by OpenSSL's reading of the first block in it, if anything is."""
    with tempfile.TemporaryDirectory() as folder:
        with open(f"{folder}/came", "wb") as file:
            file.write(row.text)
        words = "openssl asn1parse -inform PEM -strictpem -in came -noout -out octets".split()
        ran = subprocess.run(words, cwd=folder, capture_output=True)
        found = b""
        if not ran.returncode:
            with open(f"{folder}/octets", "rb") as file:
                found = file.read()
    return None if found == row.octets else f"openssl: status {ran.returncode}, {found.hex()!r}"


def whys_of(row, found, script, asks):
    """What is wrong with the answers to a row, in each of the ways that were found, and by OpenSSL if that is asked."""
    said = [f"{name}: {why}" for name, shell, path in found if (why := wrong(row, shell, path, script))]
    by_openssl = wrong_by_openssl(row) if asks and row.by == "openssl" else None
    return said + ([by_openssl] if by_openssl else [])


def has_openssl():
    """Whether the machine has the OpenSSL that the manual speaks of."""
    if not shutil.which("openssl"):
        return False
    return subprocess.run(["openssl", "version"], capture_output=True, text=True).stdout.startswith("OpenSSL 3.0")


def main(words):
    if len(words) != 1:
        sys.exit(__doc__)
    script, asks = recipes(), has_openssl()
    if not asks:
        print("left out: no OpenSSL 3.0 beside the rows that name it")
    with tempfile.TemporaryDirectory() as folder, ThreadPoolExecutor(4) as at_once:
        rows, found = [it for it in rows_of(words[0]) if has_tool(it)], [*ways(folder)]
        said = [*at_once.map(lambda it: whys_of(it, found, script, asks), rows)]
    print(f"with {', '.join(name for name, *_ in found)}")
    looks = (("\n".join(f"{row.rule}: {why}" for why in whys), not whys) for row, whys in zip(rows, said))
    return counted("spellings", looks)


if __name__ == "__main__":
    sys.exit(main(sys.argv[1:]))
