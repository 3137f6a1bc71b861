#!/usr/bin/env python3
"""bom.py [--licences FOLDER] FILE..: what these programs and libraries are made of, as CycloneDX 1.5; or copies of the
licences of what the toolchain's libraries brought into them, a folder for each.

Components are the crates of the repository and of the toolchain that program and library stand on, by crates.txt and by
what each of the toolchain's libraries says of those below it; the toolchain, its clang; and the C library."""
import datetime
import glob
import gzip
import json
import os
import re
import shutil
import sys
import uuid
from pathlib import Path

TOP = sys.path[0] = str(Path(__file__).resolve().parents[1])
from release import lowest, packing
from release.packing import NUMBER, said
from tools import build

KIT = os.path.dirname(said("rt", "doc"))
PORT = re.compile(r"Rust crate `([\w-]+)` ([0-9]+\.[0-9]+\.[0-9]+)")
LICENCE = re.compile(r"\((MIT or Apache[- ]2\.0|MIT|Apache[- ]2\.0)\b")
# what the program and the library begin with
ROOTS = {"pkder": "pkder", "libpkder.so.0": "pkder_c", "libpkder.a": "pkder_c", "mod_pkder.so": "pkder_c"}


def text_of(name):
    with open(name, encoding="utf-8") as file:
        return file.read()


def packed_in(folder):
    """The programs and libraries of an archive that lies in the folder."""
    names = ("bin/pkder", *(f"lib/{it}" for it in build.LIBRARIES), "lib/mod_pkder.so")
    return [it for it in names if os.path.isfile(f"{folder}/{it}")]


def told_by(name):
    """The file in which a library of the toolchain names the crates that it uses."""
    return f"{KIT}/rlibs/{name}.rlib/format"


def own_crates():
    """The crates of the repository, each with the names of those that it names."""
    rows = re.findall(r"(?m)^(\w+)[^:#\n]*:(.*)", text_of(f"{TOP}/crates.txt"))
    return {name: words.split() for name, words in rows}


def below(name, own):
    """The crates that a crate stands on."""
    if name in own:
        return sorted({*own[name], "std"})
    if not os.path.isfile(told_by(name)):
        print(f"left out of the bill: what {name} stands on, for want of {told_by(name)}", file=sys.stderr)
        return []
    return sorted(re.findall(r"(?m)^dep (\w+)$", text_of(told_by(name))))


def reached(files):
    """Each crate that one of these files is made of, with the names of those that it stands on itself."""
    own, found, todo = own_crates(), {}, sorted({ROOTS[os.path.basename(it)] for it in files})
    while todo:
        name = todo.pop()
        if name not in found:
            found[name] = below(name, own)
            todo += found[name]
    return dict(sorted(found.items()))


def licence_files(name):
    """The licences that the toolchain has beside a library of its own."""
    return sorted(glob.glob(f"{KIT}/rattle/{name}/LICEN*"))


def licence_of(name):
    """The SPDX expression of a library of the toolchain, where the toolchain names one."""
    readme = f"{KIT}/rattle/{name}/README.md"
    found = LICENCE.search(text_of(readme)[:1000]) if os.path.isfile(readme) else None
    if found:
        return found[1].replace(" or ", " OR ").replace("Apache 2.0", "Apache-2.0")
    kinds = [os.path.basename(it) for it in licence_files(name)]
    return "MIT OR Apache-2.0" if kinds == ["LICENSE-APACHE", "LICENSE-MIT"] else None


def own_component(name):
    """A crate of the repository."""
    return {"type": "library", "bom-ref": name, "group": "pkder", "name": name, "version": NUMBER,
            "licenses": [{"license": {"name": packing.ABOUT["licence"]}}],
            "properties": [{"name": "git:commit", "value": packing.commit()}]}


def kit_component(name):
    """A library of the toolchain; many are ports of a Rust crate."""
    readme = f"{KIT}/rattle/{name}/README.md"
    port = PORT.search(text_of(readme)[:1000]) if os.path.isfile(readme) else None
    it = {"type": "library", "bom-ref": name, "group": "rattle", "name": name,
          "version": port[2] if port else said("rt", "version").split()[0]}
    if os.path.isfile(told_by(name)):
        it["hashes"] = [{"alg": "SHA-256", "content": packing.sum_of(told_by(name))}]
    if port:
        it["description"] = f"after the Rust crate {port[1]} {port[2]}"
    if licence_of(name):
        it["licenses"] = [{"expression": licence_of(name)}]
    return it


def tools():
    """The toolchain, and the clang in it."""
    toolchain, logic = said("rt", "version").split(" logic ")
    clang = f"{KIT}/toolchain/bin/clang"
    return [{"type": "application", "name": toolchain, "properties": [{"name": "rattle:logic", "value": logic}]},
            {"type": "application", "name": "clang", "version": said(clang, "--version").split("\n")[0].split()[-1],
             "hashes": [{"alg": "SHA-256", "content": packing.sum_of(os.path.realpath(clang))}]}]


def c_library(files):
    """The C library: the one that the files ask for, and musl, where a program has it inside."""
    found = []
    glibc = lowest.c_library([it for it in files if lowest.is_dynamic(it)])
    if glibc:
        found.append({"type": "library", "bom-ref": "glibc", "name": "glibc", "version": f">= {glibc}",
                      "scope": "required", "licenses": [{"expression": "LGPL-2.1-or-later"}]})
    if any(lowest.is_static_program(it) for it in files):
        found.append({"type": "library", "bom-ref": "musl", "name": "musl", "version": musl_version(files),
                      "licenses": [{"expression": "MIT"}]})
    return found


def musl_file(files, name):
    """A file of the documentation of the musl that is in one of these programs."""
    program = next(filter(lowest.is_static_program, files))
    folder = "" if lowest.machine(program)[0] == "x86-64" else f"{TOP}/release/out/arm64/debian"
    return f"{folder}/usr/share/doc/musl-dev/{name}"


def musl_version(files):
    """The version of that musl, which its list of changes begins with."""
    with gzip.open(musl_file(files, "changelog.Debian.gz"), "rt", encoding="utf-8") as file:
        return re.match(r"musl \(([^)]+)\)", file.readline())[1]


def label(name):
    """The name of a program or library that is handed out."""
    return "/".join(name.split("/")[-2:]) if "/musl/" in name else os.path.basename(name)


def file_component(name):
    """A program or library that is handed out."""
    return {"type": "file", "bom-ref": f"file/{label(name)}", "name": label(name),
            "hashes": [{"alg": "SHA-256", "content": packing.sum_of(name)}]}


def stands_on(name):
    """What a file is made of."""
    c_libraries = ["musl"] if lowest.is_static_program(name) else ["glibc"] if lowest.is_dynamic(name) else []
    return [*c_libraries, ROOTS[os.path.basename(name)]]


def bill(files):
    """The bill of materials of these files."""
    crates, own = reached(files), own_crates()
    when = datetime.datetime.fromtimestamp(packing.epoch(), datetime.timezone.utc)
    components = [own_component(it) if it in own else kit_component(it) for it in crates]
    graph = [{"ref": it, "dependsOn": names} for it, names in crates.items()]
    graph += [{"ref": f"file/{label(it)}", "dependsOn": stands_on(it)} for it in files]
    sums = " ".join(map(packing.sum_of, files))
    return {"bomFormat": "CycloneDX", "specVersion": "1.5", "version": 1,
            "serialNumber": f"urn:uuid:{uuid.uuid5(uuid.NAMESPACE_URL, f'{packing.commit()} {sums}')}",
            "metadata": {"timestamp": when.strftime("%Y-%m-%dT%H:%M:%SZ"), "tools": {"components": tools()},
                         "component": {"type": "application", "bom-ref": "release", "name": "pkder", "version": NUMBER,
                                       "description": packing.ABOUT["summary"]}},
            "components": components + c_library(files) + [*map(file_component, files)],
            "dependencies": graph}


def text(files):
    """The bill of materials as a text."""
    return json.dumps(bill(files), indent=1) + "\n"


def licences(files):
    """The licences of what the toolchain's libraries, and musl, brought into these files, by a name for each."""
    found = {f"{name}/{os.path.basename(file)}": file for name in reached(files) for file in licence_files(name)}
    if any(map(lowest.is_static_program, files)):
        found["musl/copyright"] = musl_file(files, "copyright")
    return found


def copy_licences(folder, files):
    """Copies these licences into the folder."""
    for name, file in licences(files).items():
        os.makedirs(os.path.dirname(f"{folder}/{name}"), exist_ok=True)
        shutil.copyfile(file, f"{folder}/{name}")


def main(words):
    if not words or words == ["--help"]:
        print(__doc__)
        return 0 if words else 1
    if words[0] == "--licences":
        copy_licences(words[1], words[2:])
    else:
        print(text(words), end="")
    return 0


if __name__ == "__main__":
    sys.exit(main(sys.argv[1:]))
