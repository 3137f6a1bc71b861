"""What the proof of a function rests on in its own crate, by files.

It rests on the function's own code and answers, on the contracts of what it calls, and on the definitions and lemmas
that those name: so on its file of src/ with the folder of proofs/ that belongs to it, and on all that imports lead to
from there. Of the other files of src/ only what stands outside the bodies of functions counts. Always among them are
the top of the crate, whose attributes hold for all files, and each file with an impl for another file's type that isn't
of a trait of its own, since no import leads to it. Which modules a file has doesn't count: an import leads to those
that do."""
import functools
import os
import re

PARTS = ("src", "specs", "proofs")
FUNCTION = re.compile(r"( *)(?:pub(?:\([^)]*\))? )?(?:(?:final|const|unsafe|extern \"C\") )*fn ")
IMPL = re.compile(r"^impl\b(.*?)\{", re.M | re.S)
COMMENT = {".rt": re.compile(r"(?m)^ *//.*\n?"), ".antt": re.compile(r"(?m)^ *--.*\n?")}
MODULE = re.compile(r"(?m)^(?:pub(?:\([^)]*\))? )?mod \w+;\n")
IMPORT = re.compile(r"(?m)^( *(?:ghost )?use [\w.:]+[.:])\{([^{}]*)\};?\n")


def text_of(file):
    with open(file, encoding="utf-8") as it:
        return it.read()


def bare(file, text):
    """A file without what no proof rests on: lines of comments, those that name its modules, and how imports are laid
    out, each of which has a line of its own."""
    for ending, comment in COMMENT.items():
        text = comment.sub("", text) if file.endswith(ending) else text
    text = MODULE.sub("", text) if file.endswith(".rt") else text
    names = lambda it: [name.strip() for name in it[2].split(",") if name.strip()]
    return IMPORT.sub(lambda it: "".join(f"{it[1]}{name}\n" for name in names(it)), text)


def without_bodies(text):
    """A file of src/ without the bodies of its functions, as `rt fmt` lays them out; functions of a cycle keep theirs,
    since they have one proof."""
    kept, indent, is_body, is_cycle = [], None, False, False
    for line in text.split("\n"):
        if is_body:
            is_body = not line.startswith(f"{indent}}}")
            continue
        kept.append(line)
        found = FUNCTION.match(line)
        indent = found[1] if found else indent
        is_cycle = line.lstrip().startswith("#[cycle(") or is_cycle
        # (a body begins where the function's own line ends, the list of its parameters, or after its clauses)
        if indent is not None and line.endswith("{") and re.match(rf"{indent}(?:[)>]|\{{$|\w.*\bfn )", line):
            is_body, is_cycle = not is_cycle, False
    return "\n".join(kept)


def without_generics(head):
    """The head of an impl without what stands in angle brackets."""
    head, inner = head.replace("->", ""), None
    while inner != head:
        inner, head = head, re.sub(r"<[^<>]*>", "", head)
    return head


class Reach:
    """The files of a crate, and which of them the proofs of a file's functions rest on."""

    def __init__(self, folder, name):
        walked = (found for part in PARTS for found in os.walk(f"{folder}/{part}"))
        paths = sorted(f"{at}/{it}" for at, _, names in walked for it in names)
        self.name, self.texts = name, {os.path.relpath(it, folder): text_of(it) for it in paths}
        self.modules = {it[len("src/") : -len(".rt")]: it for it in self.texts if it.endswith(".rt")}
        self.top = "src/main.rt" if "src/main.rt" in self.texts else "src/lib.rt"

    def module(self, words):
        """The file of src/ which the start of a path names."""
        starts = ("/".join(words[:count]) for count in range(len(words), 0, -1))
        return next((self.modules[it] for it in starts if it in self.modules), self.top)

    def answers(self, source):
        """The files of proofs/ in the folder that belongs to a file of src/."""
        folders = ((it, it.split("/")[1:-1]) for it in self.texts if it.startswith("proofs/"))
        return [it for it, words in folders if words and self.module(words) == source]

    def named(self, part, words):
        """The file that a path into specs/ or proofs/ names: what is generated there is of a file of src/."""
        starts = (f"{part}/{'/'.join(words[:count])}.antt" for count in range(len(words), 0, -1))
        of_source = words[words[0] in ("declared", "contracts") :]
        return next((it for it in starts if it in self.texts), None) or self.module(of_source)

    @functools.cache
    def imports(self, file):
        """The files that a file names."""
        text = self.texts[file]
        if file == self.top:
            text = re.sub(rf"^use ({'|'.join(self.modules)})\b", r"use crate::\1", text, flags=re.M)
        # (of an import of several names each)
        text = re.sub(r"\bcrate::\{([^}]*)", lambda it: re.sub(r"(?:^|,)\s*", " crate::", it[1]), text)
        paths = re.findall(rf"\bRattle\.{self.name}((?:\.[\w+]+)+)|\bcrate((?:::\w+)+)", text)
        paths = [(dotted.split(".") if dotted else colons.split("::"))[1:] for dotted, colons in paths]
        found = {self.named(it[0], it[1:]) if it[0] in PARTS and it[1:] else self.module(it) for it in paths}
        return {*found, *self.modules.values()} if re.search(r"\b(?:super|self)::|\bcrate::\*", text) else found

    @functools.cache
    def contracts(self, file):
        return without_bodies(self.texts[file])

    @functools.cache
    def unnamed(self):
        """The files that no import has to name, but for the top."""
        found = set()
        for file in self.modules.values():
            known = {*re.findall(r"\b(?:struct|enum|trait|type) (\w+)", self.texts[file])}
            heads = (without_generics(it).partition("where")[0] for it in IMPL.findall(self.texts[file]))
            if any(not known & {*re.findall(r"\w+", it)} for it in heads):
                found.add(file)
        return found

    def of(self, sources):
        """What the functions of these files rest on: each file with its text."""
        own = {it for source in sources for it in [source, *self.answers(source)]}
        found, left = set(), [*own, *self.unnamed()]
        while left:
            file = left.pop()
            left += [it for it in self.imports(file) if it not in found] if file not in found else []
            found.add(file)
        found.add(self.top)
        cut = {it for it in found - own if it.startswith("src/")}
        return {it: self.contracts(it) if it in cut else self.texts[it] for it in sorted(found)}
