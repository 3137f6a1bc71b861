#!/usr/bin/env python3
"""what_to_read.py [--check|--write|[--text] CALL]: which definitions the contracts of the public calls stand on.

From the names in a call's clauses it follows definition by definition, through the imports of the files in specs/, and
counts the lines of what it reaches, without comments, imports and empty lines: what an auditor of the call has to read.
With a CALL it lists the files, with their lines and the names that are reached; with --text it prints these definitions
as one text, with their comments, those of a file after those of the files that it imports. How a report is worded comes
after what is promised, and is counted apart: without it the promises stand as they are, and say less. It doesn't follow
into std and clap, which are trusted, into the plain reading, which laws tie to the rest, nor into src/: types that are
declared there, and what a type stands for (`ghost value`).

--check compares the table with the one in docs/definitions.md and ends in 'definitions: N passed, M failed', a line of
the table counting once; --write puts it there."""
import functools
import os
import re
import sys
from pathlib import Path

TOP = sys.path[0] = str(Path(__file__).resolve().parents[2])
from tools.gate.looks import counted

PAGE = f"{TOP}/docs/definitions.md"
OF_C = ("normalise", "check", "same", "signed", "show", "explain", "field", "reason_name", "interface")
CALLS = {"run": "commands/src/run.rt", "run_files": "commands/src/files.rt", "invocation_of": "pkder/src/line.rt",
         "compare": "commands/src/compare.rt", "show_text": "pk_show/src/lib.rt", "respond": "pkder/src/respond.rt"}
CALLS |= {f"pkder_{it}": "pkder_c/src/lib.rt" for it in OF_C}
PLAIN_READING = {f"x690.{it}" for it in ("Reading", "ReadHeaders", "ReadContents", "ReadTypes")}
# how a report is worded, which its promises do without: a module and a crate
WORDING = {"explain.Wordings", "reports"}
# what the plain reading answers, and the relation by which the law `answers::there_is_one_answer` says the same
TIED = {"answer": "IsAnswer"}
HEAD = "| Call | Files | Lines | With words of reports |"


def imported(text):
    """The names that a text imports, each with its module and its name there; of a whole module without one."""
    found = {}
    for crate, module, names in re.findall(r"use Rattle\.(\w+)\.specs\.(\w+)\.\{([^}]*)\}", text):
        for one in names.split(","):
            name, _, alias = one.strip().partition(" as ")
            found[(alias or name).strip("◌")] = (f"{crate}.{module}", name.strip("◌"))
    for crate, module, alias in re.findall(r"use Rattle\.(\w+)\.specs\.(\w+) as (\w+)", text):
        found[alias] = (f"{crate}.{module}", None)
    return found


def defined_by(lines):
    """The names that lines define: of data the constructors too, of a record not its fields."""
    found, is_record = set(), False
    for line in lines:
        declared = re.match(r"\s*(?:pub )?(record|data) (\S+)", line)
        typed = re.match(r"\s*(?:(?:abbrev|unfoldable) )?(?:pub )?((?:[^\s:(){}=]+ )+): ", line)
        if declared:
            is_record = declared[1] == "record"
            found.add(declared[2].strip("◌"))
        elif typed and not (is_record and line.startswith(" ")):
            found |= {it.strip("◌") for it in typed[1].split()}
            is_record = False
    return found


class Module:
    """A file of definitions: which lines define a name, and where the names that they use come from."""

    def __init__(self, name):
        crate, _, file = name.partition(".")
        with open(f"{TOP}/crates/{crate}/specs/{file}.antt", encoding="utf-8") as it:
            text = it.read()
        parts, self.texts = [], []
        for chunk in text.split("\n\n"):
            lines = [re.sub(r" -- .*", "", it) for it in chunk.split("\n")]
            lines = [it for it in lines if it.strip() and not re.match(r"\s*--|(pub )?(use|mod) ", it)]
            if lines and lines[0].startswith(" ") and parts:
                parts[-1] += lines
                self.texts[-1] += f"\n\n{chunk.rstrip()}"
            elif lines:
                parts.append(lines)
                self.texts.append(chunk.strip("\n"))
        self.defines = {it: (at, lines) for at, lines in enumerate(parts) for it in defined_by(lines)}
        self.seen = {**imported(text), **{it: (name, it) for it in self.defines}}


module_of = functools.cache(Module)


def is_followed(module):
    return module and module not in PLAIN_READING and os.path.isdir(f"{TOP}/crates/{module.split('.')[0]}")


def is_wording(module):
    return module in WORDING or module.split(".")[0] in WORDING


def names_in(lines):
    """The names that lines use, each with what stands after a full stop."""
    return re.findall(r"(?<![\w.])([^\s(){}\[\],;.]+)(?:\.([^\s(){}\[\],;.]+))?", "\n".join(lines))


def reached(function, file, follows=is_followed):
    """The definitions that a function's clauses stand on: of each module their lines, by their place, with a name."""
    with open(f"{TOP}/crates/{file}", encoding="utf-8") as it:
        text = it.read()
    clauses = re.search(rf"fn {function}\b.*?\n\s*\{{", text, re.DOTALL)[0].split("\n")
    found, left = {}, [(imported(text), clauses)]
    while left:
        seen, lines = left.pop()
        for head, after in names_in(lines):
            module, name = seen.get(head, ("", None))
            name = name or after
            if not follows(module):
                continue
            place, defined = module_of(module).defines.get(name, (None, [name]))
            if place in found.setdefault(module, {}):
                continue
            # (a name that the module only passes on has no place)
            if place is not None:
                found[module][place] = (name, defined)
            left.append((module_of(module).seen, [*defined, TIED.get(name, "")]))
    return {module: parts for module, parts in found.items() if parts}


def promised(function, file):
    """The same without how reports are worded."""
    return reached(function, file, lambda module: is_followed(module) and not is_wording(module))


def without(modules, others):
    """What of these definitions isn't among the others."""
    left = {name: {at: it for at, it in parts.items() if at not in others.get(name, {})}
            for name, parts in modules.items()}
    return {name: parts for name, parts in left.items() if parts}


def in_order(modules):
    """The modules, each after those that it imports."""
    found = []

    def visit(module):
        if module in modules and module not in found:
            for below in sorted({it for it, _ in module_of(module).seen.values()} - {module}):
                visit(below)
            found.append(module)

    for module in sorted(modules):
        visit(module)
    return found


def parts_of(call):
    """The definitions that a call stands on: what is promised, and how reports are worded."""
    promises = promised(call, CALLS[call])
    return promises, without(reached(call, CALLS[call]), promises)


def text_of(call):
    """The definitions that a call stands on, as one text."""
    for modules, what in zip(parts_of(call), ("", "worded: ")):
        for module in in_order(modules):
            yield f"-- ======== {what}crates/{module.replace('.', '/specs/')}.antt"
            yield from (module_of(module).texts[place] for place in sorted(modules[module]))


def count(parts):
    return sum(len(lines) for _, lines in parts.values())


def lines_in(modules):
    return sum(map(count, modules.values()))


def joined(all_modules):
    """The definitions of any of these."""
    whole = {}
    for modules in all_modules:
        for module, parts in modules.items():
            whole.setdefault(module, {}).update(parts)
    return whole


def table():
    """The lines of the table: a call's files and lines, and those with how reports are worded; and of all together."""
    calls = {f"`{name}`": (promised(name, file), reached(name, file)) for name, file in CALLS.items()}
    calls["all of these"] = [joined(it) for it in zip(*calls.values())]
    return [HEAD, "|---|---|---|---|", *(
        f"| {name} | {len(promises)} | {lines_in(promises)} | {lines_in(whole)} |"
        for name, (promises, whole) in calls.items())]


def main(words):
    if words and words[0] in CALLS:
        for modules, what in zip(parts_of(words[0]), ("promised", "how reports are worded")):
            print(f"{lines_in(modules):5} {what}")
            for module, parts in sorted(modules.items()):
                names = ", ".join(name for name, _ in parts.values())
                print(f"{count(parts):5} crates/{module.replace('.', '/specs/')}.antt: {names}")
        return 0
    if words[:1] == ["--text"] and words[1:] and words[1] in CALLS:
        print("\n\n".join(text_of(words[1])))
        return 0
    rows = table()
    with open(PAGE, encoding="utf-8") as it:
        page = it.read()
    old = page[page.index(HEAD) :].split("\n\n")[0].split("\n")
    if words == ["--write"]:
        with open(PAGE, "w", encoding="utf-8") as it:
            it.write(page.replace("\n".join(old), "\n".join(rows)))
    elif words == ["--check"]:
        looks = ((f"docs/definitions.md {'has' if it in old else 'lacks'}: {it}", it in rows and it in old)
                 for it in {*rows, *old})
        return counted("definitions", looks)
    else:
        print("\n".join(rows))
    return 0


if __name__ == "__main__":
    sys.exit(main(sys.argv[1:]))
