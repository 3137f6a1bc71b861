#!/usr/bin/env python3
"""structure.py [NAME | lines | rooms | --write]: how much only hands on, says the same again, or shares its name.

Each count has a limit; one above it fails. A limit goes down with its count, and never up. With a NAME it lists what
that count counts. The last line is 'structure: N passed, M failed'.

The list of crates in docs/structure.md, with their subjects and files, is compared with the code; --write writes it.
'lines' draws fifteen lines of the product, always the same of the same code, each with the name of its file, and
'rooms' says in which crates they stand: whoever has read the page should know that of fourteen."""
import collections
import glob
import os
import random
import re
import sys
import textwrap
from pathlib import Path

TOP = sys.path[0] = str(Path(__file__).resolve().parents[2])
from tools.pages import what_to_read

PAGE = f"{TOP}/docs/structure.md"
FRAME = ("same_source", "keeps", "read", "onward")
# A function from its name to its body, or to its end where it has none.
SIGNATURE = re.compile(r"(?ms)^ *(?:pub(?:\(crate\))? )?fn (\w+)(?:(?!\bfn ).)*?(?=\n *\{\n|;\n)")
# What is no part of the product: it answers rows of tests.
OTHERS = ("rows",)
# A match that hands an error back as it is, and what is read and then put into a type.
MATCHED = re.compile(r"match ((?:(?! match ).)*?) \{ Ok\((\w+)\) => \2, Err\((\w+)\) => return Err\(\3\), \}")
WRAPPED = re.compile(r"let (\w+) = ([^;]*)\?; Ok\(\w+(?:\(\1\)| \{ \1 \})\)")
# Each type of fields calls their list so, in its own file alone.
OWN_NAMES = ("Listed",)
# As many of each count as there may be.
LIMITS = {"handing": 49, "handing_lines": 799, "wrapping": 55, "wrapping_lines": 909, "same": 2, "frames": 0,
          "request": 168, "key": 719, "newtypes": 3, "forms": 0, "crates": 25, "names": 0,
          "types": 0, "equal": 0, "parameters": 0, "tools": 8, "identifiers": 0, "retold": 37, "columns": 4}
# A function has so many parameters, at most; a line so many columns.
PARAMETERS, COLUMNS = 6, 120
# The table of the names of object identifiers, by their contents.
NAMES = "crates/pkix_shapes/src/identifiers.rt"


def crates():
    """The crates of the product."""
    with open(f"{TOP}/crates.txt", encoding="utf-8") as it:
        return [name for name in re.findall(r"(?m)^(\w+)", it.read()) if name not in OTHERS]


def sources(crate):
    """The sources of a crate by their paths, those of its tests left out."""
    for path in sorted(glob.glob(f"{TOP}/crates/{crate}/src/**/*.rt", recursive=True)):
        if not re.search(r"/tests(\.rt$|/)", path):
            with open(path, encoding="utf-8") as it:
                yield os.path.relpath(path, TOP), it.read()


def block_at(text, place):
    """The text between the brace that opens at or after a place and the one that closes it."""
    begin = text.index("{", place)
    depth = 0
    for at in range(begin, len(text)):
        depth += {"{": 1, "}": -1}.get(text[at], 0)
        if depth == 0:
            return text[begin + 1 : at]
    return text[begin + 1 :]


def functions_in(block):
    """The functions of a block: the name of each and its body. Clauses in braces stand before the body."""
    for found in re.finditer(r"(?m)^    (?:pub(?:\(crate\))? )?fn (\w+)", block):
        end = re.compile(r"(?m)^    \}$|^    .*\}$").search(block, found.start())
        lines = block[found.start() : end.end() if end else len(block)].split("\n")
        bodies = [at for at, line in enumerate(lines) if line.endswith("{") and not line.lstrip().startswith("ensures")]
        if bodies:
            yield found[1], " ".join(it.strip() for it in lines[bodies[0] + 1 : -1])


def hands_on(name, body):
    """Whether a body is one expression, which calls the function of the same name of something else."""
    return ";" not in body and bool(re.search(rf"(?:\.|::){name}\(", body))


def wraps(name, body):
    """The same, or it puts what that function gives into a type, and hands its error back."""
    return hands_on(name, WRAPPED.sub(r"\2", MATCHED.sub(r"\1?", body)))


def handing(is_handed):
    """The impls of traits whose functions only hand on, with their lines."""
    for crate in crates():
        for path, text in sources(crate):
            for found in re.finditer(r"(?m)^impl\b[^{;]*\bfor\b[^{;]*\{", text):
                block = block_at(text, found.end() - 1)
                own = list(functions_in(block))
                if own and all(is_handed(*it) for it in own):
                    yield f"{path}: {' '.join(found[0][:-1].split())}", block.count("\n") + 1


def same_by_hand():
    """The functions `same` that have a body of their own."""
    for crate in crates():
        for path, text in sources(crate):
            for found in re.finditer(r"(?m)^    (?:pub )?fn same\(&self[^;{]*", text):
                yield f"{path}:{text.count(chr(10), 0, found.start()) + 1}"


def frames():
    """The functions that have each clause of the frame beside the others."""
    for crate in crates():
        for path, text in sources(crate):
            for found in SIGNATURE.finditer(text):
                if {*FRAME} <= {*re.findall(r"\bensures (\w+) \{", found[0])}:
                    yield f"{path}: {found[1]}"


def lines_of(crate, *names):
    """The lines of these files, a number each."""
    for name in names:
        with open(f"{TOP}/crates/{crate}/src/{name}.rt", encoding="utf-8") as it:
            yield f"crates/{crate}/src/{name}.rt", len(it.read().splitlines())


def matching(pattern):
    for crate in crates():
        for path, text in sources(crate):
            yield from (f"{path}: {it[0]}" for it in re.finditer(pattern, text))


def shared_names(visible):
    """The types and traits that are so visible, and whose name another one has."""
    places = collections.defaultdict(list)
    for crate in crates():
        for path, text in sources(crate):
            for name in re.findall(rf"(?m)^{visible}(?:struct|enum|trait|type) (\w+)", text):
                places[name].append(path)
    return [f"{name}: {', '.join(found)}" for name, found in sorted(places.items())
            if len(found) > 1 and name not in OWN_NAMES]


def equal_functions():
    """The functions of no type that stand in two crates to the letter, with name and clauses."""
    places = collections.defaultdict(dict)
    for crate in crates():
        for path, text in sources(crate):
            for found in re.finditer(r"(?ms)^(?:pub(?:\(crate\))? )?(fn (\w+).*?)(?:^\}|\{\})$", text):
                places[" ".join(found[1].split())][crate] = f"{path}: {found[2]}"
    return [", ".join(found.values()) for found in places.values() if len(found) > 1]


def many_parameters():
    """The functions with more parameters than that. Those of C's interface, which stay as they are, aren't counted."""
    for crate in crates():
        for path, text in sources(crate):
            for found in re.finditer(r"(?ms)^ *(?:pub(?:\(crate\))? )?fn (\w+)[^(]*\((.*?)\)(?= ->|\n| \{|;)", text):
                if found[2].count(": ") + bool(re.match(r"\s*(?:mut |&.*?)?self\b", found[2])) > PARAMETERS:
                    yield f"{path}: {found[1]}"


def repeated_identifiers():
    """The contents of object identifiers that stand in several places beside the table of their names."""
    places = collections.defaultdict(list)
    for crate in crates():
        for path, text in sources(crate):
            for found in re.findall(r"\[(0x[0-9A-F]{2}(?:, 0x[0-9A-F]{2}){2,})\]", text) if path != NAMES else ():
                places[found].append(path)
    return [f"{found}: {', '.join(those)}" for found, those in places.items() if len(those) > 1]


def retelling():
    """The functions that answer what a definition of their name says which the promise of `run` stands on."""
    promises = what_to_read.promised("run", what_to_read.CALLS["run"])
    named = {(module, name) for module, parts in promises.items()
             for _, lines in parts.values() for name in what_to_read.defined_by(lines)}
    for crate in crates():
        for path, text in sources(crate):
            seen = what_to_read.imported(text)
            for found in SIGNATURE.finditer(text):
                if seen.get(found[1]) in named and re.search(rf"≡ {found[1]}\b", found[0]):
                    yield f"{path}: {found[1]}"


def long_lines():
    """The lines with more columns than that."""
    for crate in crates():
        for path, text in sources(crate):
            for number, line in enumerate(text.splitlines(), 1):
                if len(line) > COLUMNS:
                    yield f"{path}:{number}"


def drawn():
    """Fifteen lines that say something: the crate, the file and the line of each."""
    said = [(crate, os.path.basename(path), line.strip()) for crate in crates() for path, text in sources(crate)
            for line in text.splitlines() if len(line.strip()) > 30 and not re.match(r" *(//|ghost use|use )", line)]
    return random.Random(15).sample(said, 15)


def subject(crate):
    """What a crate is, by the first sentence of its documentation."""
    with open(next(path for name in ("lib", "main") if os.path.exists(path := f"{TOP}/crates/{crate}/src/{name}.rt")),
              encoding="utf-8") as it:
        words = " ".join(line[3:].strip() for line in re.match(r"(?://!.*\n)+", it.read())[0].splitlines())
    return re.match(r".*?[.:](?= [^a-z(]|$)", words)[0].rstrip(".:")


def listed():
    """The list of crates of docs/structure.md."""
    for crate in crates():
        names = [os.path.relpath(path, f"crates/{crate}/src")[:-3] for path, _ in sources(crate)]
        files = ", ".join(name for name in names if name not in ("lib", "main"))
        yield f"- **`{crate}`**: {subject(crate)}."
        yield from [f"  Files: {files}."] if files else []


def table():
    """The same as the page has it."""
    return "".join(f"{textwrap.fill(it, 120, subsequent_indent='  ')}\n" for it in listed())


def page(write):
    """Whether the page has the list as it is; where it is to be written, it has it then."""
    with open(PAGE, encoding="utf-8") as it:
        text = it.read()
    begin = text.index("- **`")
    found = text[begin : text.index("\n\n", begin) + 1]
    if write and found != table():
        with open(PAGE, "w", encoding="utf-8") as it:
            it.write(text.replace(found, table()))
    return write or found == table()


def counts():
    """What each count counts, and how many that are."""
    hands, wrapping = list(handing(hands_on)), list(handing(wraps))
    request = list(lines_of("pkcs10", "request", "info"))
    key = list(lines_of("pkcs8", "one_asymmetric_key", "key_head", "private_key", "public_key"))
    told = {"handing": hands, "wrapping": wrapping, "same": list(same_by_hand()), "frames": list(frames()),
            "crates": crates(),
            "newtypes": list(matching(r"(?m)^pub struct \w+(?:<.*>)?\((?:Ruled)?(?:Sequence)?<.*")),
            "forms": list(matching(r"(?m)^impl Form for .*")), "names": shared_names("pub "),
            "types": shared_names(r"(?:pub(?:\(crate\))? )?"), "equal": equal_functions(),
            "parameters": list(many_parameters()),
            "tools": sorted({*os.listdir(f"{TOP}/tools")} - {"__pycache__"}),
            "identifiers": repeated_identifiers(), "retold": list(retelling()), "columns": list(long_lines())}
    found = {name: (len(it), [str(one) for one in it]) for name, it in told.items()}
    for name, it in {"handing_lines": hands, "wrapping_lines": wrapping, "request": request, "key": key}.items():
        found[name] = sum(lines for _, lines in it), [f"{lines} {what}" for what, lines in it]
    return found


def main(words):
    if words and words[0] in ("lines", "rooms"):
        for number, (crate, name, line) in enumerate(drawn(), 1):
            print(f"{number}. {name}: {line}" if words[0] == "lines" else f"{number}. {crate}")
        return 0
    found = counts()
    if words and words[0] != "--write":
        print("\n".join(found[words[0]][1]))
        return 0
    failed = 0
    for name, limit in LIMITS.items():
        failed += found[name][0] > limit
        print(f"{name}: {found[name][0]}, at most {limit}")
    if not page(words):
        print("the list of crates in docs/structure.md isn't that of the code: tools/gate/structure.py --write")
        failed += 1
    print(f"structure: {len(LIMITS) + 1 - failed} passed, {failed} failed")
    return 1 if failed else 0


if __name__ == "__main__":
    sys.exit(main(sys.argv[1:]))
