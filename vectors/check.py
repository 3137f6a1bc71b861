#!/usr/bin/env python3
"""check.py PROGRAM.. | check.py --library [FILE] | check.py --rows: the vectors of this folder, handed to each program,
or to the library by the package for Python; FILE is the library, where it isn't the one that the package finds.

Of each test the line of `check` is compared, and of a sound document what `normalise` writes. Before that the files are
held to schema.json, where the machine has python3-jsonschema, and their numbers are looked at. The last line is
'vectors: N passed, M failed'. With --rows all of it is written as rows, as interface/calls.py writes those of the
program's tables: interface/test.sh hands them to the library from each language."""
import json
import os
import subprocess
import sys
import tempfile
from pathlib import Path

TOP = sys.path[0] = str(Path(__file__).resolve().parents[1])
from tools.gate.looks import counted

FOLDER = f"{TOP}/vectors"
KINDS = ("key", "ec", "request", "public", "encrypted", "package")
MOST = 2_000_000
USUAL = 32, 1 << 20


def text_of(name):
    with open(f"{FOLDER}/{name}", encoding="utf-8") as file:
        return file.read()


def line_due(test):
    """What `check` says of a test."""
    if "der" in test:
        return f"not DER at {test['notDerAt']}" if "notDerAt" in test else "DER"
    inside = f" inside at {test['inside']['place']}: {test['inside']['reason']}" if "inside" in test else ""
    return f"fault at {test['place']}: {test['reason']}{inside}"


def of_files():
    """Looks at the files themselves."""
    schema = text_of("schema.json")
    try:
        import jsonschema
    except ImportError:
        jsonschema = None
        print("left out: the schema (Debian: python3-jsonschema)")
    texts = {kind: text_of(f"{kind}.json") for kind in KINDS}
    yield "the files have too many octets", sum(len(it.encode()) for it in [*texts.values(), schema]) <= MOST
    for kind, text in texts.items():
        found = json.loads(text)
        if jsonschema:
            errors = jsonschema.Draft7Validator(json.loads(schema)).iter_errors(found)
            yield from ((f"{kind}.json: {it.message[:200]}", False) for it in errors)
            yield f"{kind}.json is of the schema", True
        numbers = [test["tcId"] for group in found["testGroups"] for test in group["tests"]]
        yield f"{kind}.json: the numbers of its tests", numbers == [*range(1, found["numberOfTests"] + 1)]
        documents = [(group["depth"], group["octets"], test["document"]) for group in found["testGroups"]
                     for test in group["tests"]]
        yield f"{kind}.json: a document stands there twice", len({*documents}) == len(documents)
        limits = [(group["depth"], group["octets"]) for group in found["testGroups"]]
        yield f"{kind}.json: the usual limits are those of the first group alone", limits.index(USUAL) == 0
        yield f"{kind}.json: two groups of the same limits", len({*limits}) == len(limits)
        for test in (test for group in found["testGroups"] for test in group["tests"]):
            yield f"{kind} {test['tcId']}: the result", test["result"] == result_due(test)
            is_whole = "der" not in test or test["taken"] == len(test["document"]) // 2
            yield f"{kind} {test['tcId']}: the octets that are taken", is_whole


def result_due(test):
    """Whether a reader has to take the document, may, or mustn't, by what else the test says."""
    if "reason" in test:
        return "acceptable" if "profile" in test["flags"] else "invalid"
    return "acceptable" if "profile" in test["flags"] or "notDerAt" in test else "valid"


def groups():
    """Each group of tests, with its kind."""
    for kind in KINDS:
        for group in json.loads(text_of(f"{kind}.json"))["testGroups"]:
            yield kind, group


def words_of(action, kind, group):
    return [action, "--kind", kind, "--depth", str(group["depth"]), "--octets", str(group["octets"])]


def of_program(program, kind, group):
    """Looks at what a program says of a group."""
    with tempfile.TemporaryDirectory() as folder:
        names = [f"{folder}/{test['tcId']}" for test in group["tests"]]
        for name, test in zip(names, group["tests"]):
            Path(name).write_bytes(bytes.fromhex(test["document"]))
        ran = subprocess.run([program, *words_of("check", kind, group), "--files0-from", "-"],
                             input="\0".join([*names, ""]).encode(), capture_output=True)
        found = dict(it.rpartition(f"{folder}/")[2].partition(": ")[::2] for it in ran.stdout.decode().splitlines())
        for name, test in zip(names, group["tests"]):
            said, due = found.get(str(test["tcId"])), line_due(test)
            yield f"{program}: {kind} {test['tcId']}: {said}, and due is {due}", said == due
            if "der" in test:
                ran = subprocess.run([program, *words_of("normalise", kind, group), name], capture_output=True)
                is_right = ran.stdout.hex() == test["der"] and ran.returncode == 0
                yield f"{program}: {kind} {test['tcId']}: another DER encoding", is_right


def of_library(kind, group):
    """Looks at what the package for Python says of a group."""
    import pkder

    for test in group["tests"]:
        document, limits = bytes.fromhex(test["document"]), {"depth": group["depth"], "octets": group["octets"]}
        try:
            said = str(pkder.check(pkder.Kind[kind.upper()], document, **limits))
            if pkder.normalise(pkder.Kind[kind.upper()], document, **limits).hex() != test.get("der"):
                said += ", another DER encoding"
        except pkder.Fault as fault:
            said = str(fault)
        yield f"the library: {kind} {test['tcId']}: {said}, and due is {line_due(test)}", said == line_due(test)


def rows():
    """A row for each call, as interface/calls.py has them: rule, words, input, status, output, error."""
    for kind, group in groups():
        for test in group["tests"]:
            line, rule = line_due(test), f"vectors/{kind}.json {test['tcId']}"
            status = 2 if "reason" in test else 1 if "notDerAt" in test else 0
            refused = line if status == 2 else ""
            for action, output in (("check", f"{line}\n".encode().hex()), ("normalise", test.get("der"))):
                told = ["2", "", refused] if refused else [str(status if action == "check" else 0), output, ""]
                yield "\t".join([rule, " ".join(words_of(action, kind, group)), test["document"], *told])


def looks(programs, with_library):
    yield from of_files()
    for kind, group in groups():
        for program in programs:
            yield from of_program(program, kind, group)
        if with_library:
            yield from of_library(kind, group)


def main(words):
    if words == ["--rows"]:
        print("\n".join(rows()))
        return 0
    with_library, programs = "--library" in words, [os.path.abspath(it) for it in words if it != "--library"]
    if not words or any(it.startswith("-") for it in words if it != "--library"):
        sys.exit(__doc__)
    if with_library:
        sys.path.insert(1, f"{TOP}/interface/python/src")
        os.environ.update({"PKDER_LIBRARY": programs[0]} if programs else {})
        programs = []
    return counted("vectors", looks(programs, with_library))


if __name__ == "__main__":
    sys.exit(main(sys.argv[1:]))
