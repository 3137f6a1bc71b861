#!/usr/bin/env python3
"""A stand-in for `rt` and for the kit's `rattle`, for tools/gate/try_edits.py: a function isn't proved where BUG stands
in it, NAME in it fails by a name, UNREADABLE makes its file so, and a function that calls one without a proof waits."""
import os
import re
import sys

FAILS = "note: src/{}:1:1: it is not proved that what the function ensures holds"
LACKS = "./proofs/{}/Answers.antt:1:1: error: `x`: record `R` has no field `n`"


def functions_in(file):
    """The functions of a file by their paths, each with its lines."""
    found, owner, path, module = {}, "", None, file.removesuffix(".rt").replace("lib", "")
    with open(f"src/{file}", encoding="utf-8") as it:
        for line in it.read().split("\n"):
            impl, head = re.match(r"impl (\w+)", line), re.match(r" *(?:pub )?fn (\w+)", line)
            owner = impl[1] if impl else "" if line == "}" else owner
            if head:
                path = "::".join(filter(None, (module, owner if line.startswith(" ") else "", head[1])))
                found[path] = ""
            elif path:
                found[path] += line
    return found


def check(crate, only):
    """Prints what a check prints, and returns its status."""
    files = {it: functions_in(it) for it in sorted(os.listdir("src"))}
    bodies = {path: (file, body) for file, of_file in files.items() for path, body in of_file.items()}
    for file, of_file in files.items():
        if "UNREADABLE" in "".join(of_file.values()):
            print(f"error[parse]: src/{file}")
            return 1
    failed = {path for path, (_, body) in bodies.items() if "BUG" in body or "NAME" in body}
    waits = {path for path, (_, body) in bodies.items() if any(f"{it.split('::')[-1]}(" in body for it in failed)}
    for path in only if only else bodies:
        file, body = bodies[path]
        if path in failed:
            print((LACKS if "NAME" in body else FAILS).format(path.replace("::", "/") if "NAME" in body else file))
        verdict = "not proved" if path in failed else "not proved: it calls one that has no proof" * (path in waits)
        print(f"fn {crate}::{path}: {verdict or 'proved'}")
    is_proved = not (failed | waits) & set(only or bodies)
    print(f"only={len(only)} proved=0" if only is not None else f"logic={'proved' if is_proved else 'not-proved'}")
    return 0 if is_proved else 1


def main(words):
    if words[0] == "version":
        kit, logic = os.environ.get("STAND_IN_KIT", "one"), os.environ.get("STAND_IN_LOGIC", "0123456789abcdef")
        print(f"kit-{kit} logic {logic}")
        return 0
    if words[0] == "doc":
        print(os.environ["STAND_IN_PAGE"])
        return 0
    with open(os.environ["STAND_IN_LOG"], "a", encoding="utf-8") as log:
        print(os.path.basename(sys.argv[0]), os.path.basename(os.getcwd()), *words, file=log)
    if os.path.basename(sys.argv[0]) == "rattle" and "STAND_IN_REFUSES" in os.environ:
        return 2
    only = [words[i + 1] for i, it in enumerate(words) if it == "--only"] if "--only" in words else None
    return check(os.path.basename(os.getcwd()), list(filter(None, only)) if only is not None else None)


if __name__ == "__main__":
    sys.exit(main(sys.argv[1:]))
