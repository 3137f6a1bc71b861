#!/usr/bin/env python3
"""transcripts.py TEXT.md.. PROGRAM..: the transcripts and recipes of texts, tried on each program.

A block whose first line begins with '$ ' is a transcript. Its lines that begin so are commands, a backslash at their
end taking the next line with them, and the lines after a command are what it prints, on both outputs; a line of three
dots stands for any lines, and three dots in a line for any text. A block marked sh or bash is a recipe: functions that
transcripts after it call. It ends with status 0 and prints nothing. A block marked with a language and a name is a
file of that name. Other blocks are left alone.

The blocks of a section run in one shell, bash where one is marked so, in a folder of their own with the program as
pkder, pkder-intake over the library that was built or that PKDER_LIBRARY names, the package for npm that PKDER_PACKAGE
names, the files of examples/, and examples/, crates/, docs/ and tools/ themselves, interface/ as a copy. From where a
tool is named that isn't installed a section is left out, which is told. Each text has a line for each program, and the
last line is 'transcripts: N passed, M failed', a command, a recipe and a file counting once for each program."""
import importlib.util
import os
import re
import shlex
import shutil
import subprocess
import sys
import tempfile
from pathlib import Path

TOP = str(Path(__file__).resolve().parents[2])
SECONDS = 120
# what a POSIX system may lack, and what pip builds with
TOOLS = ("openssl", "xxd", "jq", "mandoc", "cc", "pkg-config", "cargo", "go", "javac", "pip", "sqlite3", "node", "npm",
         "pv")
BUILT_WITH = {"pip": ("setuptools", "wheel")}
# (a section that has SQLite builds what it loads)
HEADERS = {"sqlite3": "/usr/include/sqlite3ext.h"}
MARK = "-- step"
PROVED_BY = "crates/pkder/out/PROVED-BY"
PACKAGE = os.environ.get("PKDER_PACKAGE", "")
LIBRARY = os.environ.get("PKDER_LIBRARY", f"{TOP}/interface/out/libpkder.so.0")
INTAKE = f"""#!/bin/sh
PYTHONPATH='{TOP}/interface/python/src' PKDER_LIBRARY='{LIBRARY}' exec '{sys.executable}' -m pkder_intake "$@"
"""


class Step:
    """A command of a transcript with the lines that are due, or a recipe with its shell."""

    def __init__(self, number, text, shell=None):
        self.number, self.text, self.shell, self.due = number, text, shell, []

    def lacks(self):
        """The first tool that it names and that isn't installed, or what an installation is of."""
        if "tools/install.sh" in self.text and not os.path.isfile(f"{TOP}/{PROVED_BY}"):
            return PROVED_BY
        if re.search(r"\bpkder-intake\b", self.text) and not os.path.isfile(LIBRARY):
            return LIBRARY
        if ".tgz" in self.text and not os.path.isfile(PACKAGE):
            return "package for npm"
        return next((it for it in TOOLS if re.search(rf"\b{it}\b", self.text) and not is_installed(it)), None)


def is_installed(tool):
    has_header = tool not in HEADERS or os.path.isfile(HEADERS[tool])
    return shutil.which(tool) and has_header and all(map(importlib.util.find_spec, BUILT_WITH.get(tool, ())))


def steps_of(number, language, lines):
    """The steps of a block that begins after the line of this number."""
    if language in ("sh", "bash"):
        return [Step(number + 1, "\n".join(lines), language)]
    if " " in language:
        name = shlex.quote(language.split()[1])
        return [Step(number + 1, "\n".join([f"cat > {name} << '{MARK}'", *lines, MARK]))]
    steps, goes_on = [], False
    if not lines or not lines[0].startswith("$ "):
        return steps
    for at, line in enumerate(lines, number + 1):
        if goes_on:
            steps[-1].text += "\n" + line
        elif line.startswith("$ "):
            steps.append(Step(at, line[2:]))
        else:
            steps[-1].due.append(line)
            continue
        goes_on = line.endswith("\\")
    return steps


def sections_of(text):
    """The steps of each section, a heading of the first or second level beginning one."""
    sections, block, language, began = [[]], None, "", 0
    for number, line in enumerate(text.split("\n"), 1):
        if line.startswith("```"):
            if block is None:
                block, language, began = [], line[3:].strip(), number
            else:
                sections[-1] += steps_of(began, language, block)
                block = None
        elif block is not None:
            block.append(line)
        elif re.match("##? ", line):
            sections.append([])
    if block is not None:
        raise ValueError(f"the block at line {began} has no end")
    return [it for it in sections if it]


def folder_with(folder, program):
    """Puts the files and the program that a section finds into the folder, and returns where it runs."""
    place = f"{folder}/place"
    shutil.copytree(f"{TOP}/examples", place)
    for name in ("examples", "crates", "docs", "tools"):
        os.symlink(f"{TOP}/{name}", f"{place}/{name}")
    # (pip builds in it)
    shutil.copytree(f"{TOP}/interface", f"{place}/interface", ignore=shutil.ignore_patterns("out", "build", "target"))
    if PACKAGE:
        os.symlink(PACKAGE, f"{place}/{os.path.basename(PACKAGE)}")
    os.mkdir(f"{folder}/bin")
    os.symlink(os.path.abspath(program), f"{folder}/bin/pkder")
    with open(os.open(f"{folder}/bin/pkder-intake", os.O_WRONLY | os.O_CREAT, 0o755), "w", encoding="utf-8") as file:
        file.write(INTAKE)
    return place


def script_of(steps):
    """The script that runs the steps, and prints after each its status."""
    script = "exec 2>&1 < /dev/null\n"
    for at, step in enumerate(steps):
        script += f"{{\n{step.text}\n}}\nprintf '\\n{MARK} {at} %s\\n' $?\n"
    return script


def answers_in(said):
    """What each step printed and its status, of what the script printed."""
    parts = re.split(rf"\n{MARK} [0-9]+ ([0-9]+)\n", said)
    return list(zip(parts[0::2], map(int, parts[1::2])))


def outputs(steps, program):
    """What each step printed and its status, as far as the shell came."""
    shell = "bash" if any(it.shell == "bash" for it in steps) else "sh"
    with tempfile.TemporaryDirectory() as folder:
        place = folder_with(folder, program)
        path = f"{folder}/bin:{os.environ['PATH']}"
        told = {**os.environ, "PATH": path, "LC_ALL": "C.UTF-8", "HOME": place, "TMPDIR": folder}
        with open(f"{folder}/script", "w", encoding="utf-8") as it:
            it.write(script_of(steps))
        try:
            ran = subprocess.run([shell, f"{folder}/script"], cwd=place, env=told, capture_output=True, timeout=SECONDS)
            said = ran.stdout
        except subprocess.TimeoutExpired as late:
            said = late.stdout or b""
    return answers_in(said.decode(errors="replace"))


def is_like(lines, due):
    """Whether the lines are those that are due, three dots standing for any lines, or in a line for any text."""
    if not due:
        return not lines
    if due[0] == "...":
        return any(is_like(lines[at:], due[1:]) for at in range(len(lines) + 1))
    pattern = ".*".join(map(re.escape, due[0].split("...")))
    return bool(lines) and bool(re.fullmatch(pattern, lines[0])) and is_like(lines[1:], due[1:])


def lines_of(text):
    """The lines of a text, without spaces at their ends."""
    found = [it.rstrip() for it in text.split("\n")]
    while found and not found[-1]:
        found.pop()
    return found


def wrong(step, answer):
    """What is wrong with a step's answer, if anything is."""
    if answer is None:
        return "the shell had ended, or didn't end"
    said, status = answer
    lines, due = lines_of(said), lines_of("\n".join(step.due))
    if is_like(lines, due) and not (step.shell and status):
        return None
    return "\n    ".join([f"status {status}, printed:", *lines[:20]])


def tried(name, program):
    """Returns how many steps of the text passed and failed."""
    with open(name, encoding="utf-8") as it:
        sections = sections_of(it.read())
    passed = failed = 0
    for steps in sections:
        lacking = next(((at, tool) for at, it in enumerate(steps) if (tool := it.lacks())), None)
        if lacking:
            print(f"{name}:{steps[lacking[0]].number}: left out from here to the section's end: no {lacking[1]}")
            steps = steps[: lacking[0]]
        answers = outputs(steps, program) if steps else []
        for at, step in enumerate(steps):
            why = wrong(step, answers[at] if at < len(answers) else None)
            if why:
                print(f"{name}:{step.number}: {program}: {why}")
            passed, failed = passed + (not why), failed + bool(why)
    print(f"{name}: {program}: {passed} passed, {failed} failed", flush=True)
    return passed, failed


def main(words):
    texts = [it for it in words if it.endswith(".md")]
    programs = [it for it in words if it not in texts]
    if not texts or not programs:
        sys.exit(__doc__)
    passed, failed = (sum(it) for it in zip(*(tried(text, it) for text in texts for it in programs)))
    print(f"transcripts: {passed} passed, {failed} failed", flush=True)
    return 1 if failed else 0


if __name__ == "__main__":
    sys.exit(main(sys.argv[1:]))
