#!/usr/bin/env python3
"""lint.py: what is written in Python, shell, C, Java, JavaScript, Rust, Go and for man pages, looked at by the usual
tool of each.

A tool that the machine lacks is left out, and said. In pages no row of a table has more than 200 columns, since
a change in a longer one can't be read. The last line is 'lint: N passed, M failed', a tool counting once, and the rows.
How each is to look stands in .flake8, .shellcheckrc, .clang-format and interface/rust/rustfmt.toml."""
import fnmatch
import os
import shutil
import subprocess
import sys
from concurrent.futures import ThreadPoolExecutor
from pathlib import Path

TOP = str(Path(__file__).resolve().parents[2])
PARSED = "import ast, sys; [ast.parse(open(it).read(), it) for it in sys.argv[1:]]"
RUSTFMT = ("rustfmt", "--config-path", "interface/rust", "--check", "--color", "never", "--edition")
SHELL = tuple(f"debian/tests/{it}" for it in ("completions", "library", "postgres", "program", "sqlite"))
# the files, the command, and the package of Debian that has it
LOOKS = [
    (("*.py", "debian/tests/python"), ("python3", "-c", PARSED), "python3"),
    (("*.py", "debian/tests/python"), ("flake8",), "flake8"),
    (("*.sh", "*.bash", ".ci/run", *SHELL), ("shellcheck",), "shellcheck"),
    (("*.c", "*.h", "*.java", "*.mjs"), ("clang-format", "--dry-run", "-Werror"), "clang-format"),
    (("interface/rust/*.rs",), (*RUSTFMT, "2021"), "rustfmt"),
    (("bench/*.rs",), (*RUSTFMT, "2024"), "none; rustup has a later rustfmt"),
    (("*.go",), ("gofmt", "-d"), "golang-go"),
    (("*.1", "*.3"), ("mandoc", "-T", "lint"), "mandoc"),
]
# of a row of a table in a page, at most
COLUMNS = 200


def can_run(command):
    """Whether the machine has the tool, and the tool knows the edition."""
    if not shutil.which(command[0]):
        return False
    return command[0] != "rustfmt" or not subprocess.run([*command, "--version"], capture_output=True).returncode


def looked(files, patterns, command):
    """What the command says of these files, nothing where all is well, and None where it can't be run."""
    if not can_run(command):
        return None
    found = [it for it in files if any(fnmatch.fnmatch(it, pattern) for pattern in patterns)]
    if not found:
        return f"there are no files {' '.join(patterns)}"
    ran = subprocess.run([*command, *found], capture_output=True, text=True, errors="replace")
    # (mandoc's standard error is of the machine's other pages)
    if ran.returncode or ran.stdout:
        return f"{ran.stdout}{ran.stderr}status {ran.returncode}, {len(found)} files"
    return ""


def long_rows(files):
    """The rows of tables in pages that are too long, a line each."""
    for name in fnmatch.filter(files, "*.md"):
        with open(name, encoding="utf-8") as page:
            for number, row in enumerate(page.read().splitlines(), 1):
                if row.lstrip().startswith("|") and len(row) > COLUMNS:
                    yield f"{name}:{number}: a row of {len(row)} columns, at most {COLUMNS}: make it a list, or two\n"


def main():
    os.chdir(TOP)
    listed = subprocess.run(["git", "ls-files", "-co", "--exclude-standard"], capture_output=True, text=True)
    files = [it for it in listed.stdout.splitlines() if os.path.isfile(it)]
    with ThreadPoolExecutor() as side_by_side:
        said = [*side_by_side.map(lambda it: looked(files, *it[:2]), LOOKS)]
    for (_, command, package), text in zip(LOOKS, said):
        if text is None:
            print(f"left out: no {' '.join(command)} (Debian: {package})")
        elif text:
            print(f"{command[0]}:\n{text}")
    said.append("".join(long_rows(files)))
    print(said[-1], end="")
    passed, failed = sum(it == "" for it in said), sum(bool(it) for it in said)
    print(f"lint: {passed} passed, {failed} failed")
    return 1 if failed else 0


if __name__ == "__main__":
    sys.exit(main())
