#!/usr/bin/env python3
"""logic.py: whether the toolchain at hand has the logic that the proofs are for, and the version stands everywhere.

VERSION in crates/explain/src/version.rt has both, the number and the logic. It takes a second and proves nothing.
The last line is 'logic: N passed, M failed'."""
import re
import subprocess
import sys
from pathlib import Path

TOP = str(Path(__file__).resolve().parents[2])
SOURCE = "crates/explain/src/version.rt"
NUMBERED = ("interface/pkder.pc.in", "interface/python/src/pkder/__init__.py", "interface/rust/Cargo.toml",
            "interface/rust/Cargo.lock", "interface/npm/package.json")
ANOTHER = """\
`rt version` prints '{at_hand}', and all proofs here are for logic {logic}.
So nothing is begun. Either put a toolchain of that logic on the PATH, or move to this one: put its logic in VERSION of
{source}, in README.md, and in the rows of tests/pkder/lines.tsv that ask for the version; then
`python3 tools/test.py proofs` proves every crate anew, and `python3 tools/edits.py --all` tries all edits."""


def text_of(name):
    with open(f"{TOP}/{name}", encoding="utf-8") as it:
        return it.read()


def version():
    """The number of the version, and the logic that it names."""
    found = re.search(r'VERSION: &str = "([0-9.]+), for logic ([0-9a-f]+)";', text_of(SOURCE))
    if not found:
        sys.exit(f"{SOURCE} has no VERSION of the form 'NUMBER, for logic LOGIC'\nlogic: 0 passed, 1 failed")
    return found.groups()


def toolchain():
    """What `rt version` prints: the toolchain and its logic."""
    try:
        return subprocess.run(["rt", "version"], capture_output=True, text=True).stdout.strip()
    except OSError:
        return "nothing: there is no rt on the PATH"


def of_toolchain():
    """What is wrong with the toolchain, if anything is."""
    at_hand, (_, logic) = toolchain(), version()
    if at_hand.endswith(f" logic {logic}"):
        return None
    return ANOTHER.format(at_hand=at_hand, logic=logic, source=SOURCE)


def of_file(name, due):
    """What is wrong with the version in a file, if anything is."""
    numbered = r'(?m)^(?:[Vv]ersion|__version__|  "version")(?:: "?| = ")([^"\n]+)'
    pattern = r"\blogic ([0-9a-f]{16})\b" if name == "README.md" else numbered
    found = set(re.findall(pattern, text_of(name)))
    return None if found == {due} else f"{name}: the version is {due} in {SOURCE}, and here {sorted(found)}"


def main():
    number, logic = version()
    said = [of_toolchain(), of_file("README.md", logic), *(of_file(it, number) for it in NUMBERED)]
    wrong = [it for it in said if it]
    print(*wrong, f"logic: {len(said) - len(wrong)} passed, {len(wrong)} failed", sep="\n")
    return 1 if wrong else 0


if __name__ == "__main__":
    sys.exit(main())
