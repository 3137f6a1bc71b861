#!/usr/bin/env python3
"""try_check.py PROGRAM: whether check.py tells each answer that is changed in a copy of the files, of a few tests each.

The last line is 'vectors: N passed, M failed'."""
import json
import os
import sys
import tempfile
from copy import deepcopy
from pathlib import Path
from unittest import mock

TOP = sys.path[0] = str(Path(__file__).resolve().parents[1])
from tools.gate.looks import counted
from vectors import check


def of_sort(tests):
    """A test of each sort, by the words for it."""
    sorts = {"valid": lambda it: it["result"] == "valid", "BER": lambda it: "notDerAt" in it and not it["flags"],
             "taken by choice": lambda it: "clauses" in it and "der" in it,
             "refused by choice": lambda it: it["flags"] == ["profile"] and "reason" in it,
             "refused": lambda it: it["result"] == "invalid" and "inside" not in it,
             "refused inside": lambda it: it["result"] == "invalid" and "inside" in it}
    return {words: next((it for it in tests if is_of(it)), None) for words, is_of in sorts.items()}


def small(kind):
    """A file of few tests, all of the usual limits but one."""
    found = json.loads(check.text_of(f"{kind}.json"))
    first, second = deepcopy(found["testGroups"][:2])
    first["tests"] = [*filter(None, of_sort(first["tests"]).values())]
    second["tests"] = second["tests"][:1]
    for number, test in enumerate([*first["tests"], *second["tests"]], 1):
        test["tcId"] = number
    return found | {"testGroups": [first, second], "numberOfTests": number}


def other(digits):
    """Other octets of the same number."""
    return digits[:-2] + ("00" if digits[-2:] != "00" else "01")


# What is changed in a test of a sort, in words, and what changes it.
CHANGES = [
    *((f"{sort}: the result is {result}", sort, lambda it, given=result: it.update(result=given))
      for sort, own in {"valid": "valid", "BER": "acceptable", "taken by choice": "acceptable",
                        "refused by choice": "acceptable", "refused": "invalid", "refused inside": "invalid"}.items()
      for result in ("valid", "acceptable", "invalid") if result != own),
    *((f"{sort}: another DER encoding", sort, lambda it: it.update(der=other(it["der"])))
      for sort in ("valid", "BER", "taken by choice")),
    ("BER: another place that isn't DER", "BER", lambda it: it.update(notDerAt=it["notDerAt"] + 1)),
    ("BER: no place that isn't DER", "BER", lambda it: it.pop("notDerAt")),
    ("valid: a place that isn't DER", "valid", lambda it: it.update(notDerAt=1)),
    ("valid: other octets that are taken", "valid", lambda it: it.update(taken=it["taken"] - 1)),
    ("valid: another document", "valid", lambda it: it.update(document=other(it["document"]))),
    ("refused: another document", "refused", lambda it: it.update(document="3000")),
    ("refused: another place", "refused", lambda it: it.update(place=it["place"] + 1)),
    ("refused: another reason", "refused", lambda it: it.update(reason="BadNull")),
    ("refused: no clause", "refused", lambda it: it.pop("clauses")),
    ("refused: a choice", "refused", lambda it: it["flags"].append("profile")),
    ("refused: nothing that is new", "refused", lambda it: it.update(comment="a document")),
    ("refused by choice: no choice", "refused by choice", lambda it: it["flags"].clear()),
    ("refused inside: another place", "refused inside", lambda it: it["inside"].update(place=it["place"] + 99)),
    ("refused inside: another reason", "refused inside", lambda it: it["inside"].update(reason="BadNull")),
    ("refused inside: nothing inside", "refused inside", lambda it: it.pop("inside")),
    ("refused: another number", "refused", lambda it: it.update(tcId=99)),
]
# What python3-jsonschema alone tells.
OF_SCHEMA = {"refused: no clause", "refused: nothing that is new", "refused inside: nothing inside"}


def has_schemas():
    try:
        import jsonschema  # noqa: F401
    except ImportError:
        return False
    return True


def failures(program, files):
    """Those of check.py's looks at these files that fail."""
    with tempfile.TemporaryDirectory() as folder, mock.patch.multiple(check, FOLDER=folder, KINDS=(*files,)):
        Path(folder, "schema.json").write_bytes(Path(TOP, "vectors/schema.json").read_bytes())
        for kind, found in files.items():
            Path(folder, f"{kind}.json").write_text(json.dumps(found), encoding="utf-8")
        return [words for words, is_right in check.looks([program], False) if not is_right]


def looks(program):
    files = {kind: small(kind) for kind in check.KINDS}
    found = failures(program, files)
    yield f"the copies as they are: {found}", not found
    files = {"key": files["key"]}
    for words, sort, change in CHANGES:
        if words in OF_SCHEMA and not has_schemas():
            print(f"left out: {words} (Debian: python3-jsonschema)")
            continue
        changed = deepcopy(files)
        test = of_sort(changed["key"]["testGroups"][0]["tests"])[sort]
        change(test)
        yield f"{words}: it isn't told", bool(failures(program, changed))
    changed = deepcopy(files)
    changed["key"]["testGroups"][1].update(depth=32, octets=1 << 20)
    yield "other limits: they aren't told", bool(failures(program, changed))


if __name__ == "__main__":
    if len(sys.argv) != 2:
        sys.exit(__doc__)
    sys.exit(counted("vectors", looks(os.path.abspath(sys.argv[1]))))
