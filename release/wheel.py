#!/usr/bin/env python3
"""wheel.py --unpacked FOLDER PREFIX: the package for Python with what pip is told of it, as Debian has it in the
folder, and below PREFIX its command with its man page and its page.

tools/release.py makes the wheel by this, which has the library inside, and the source archive, which has none."""
import base64
import hashlib
import os
import shutil
import sys
import tempfile
import time
import tomllib
import zipfile
from pathlib import Path

TOP = sys.path[0] = str(Path(__file__).resolve().parents[1])
from release import lowest, packing
from release.packing import NUMBER

PYTHON = "interface/python"
SOURCES = f"{PYTHON}/src"
# of what asks for names that each C library has; with musl 1.2 it was tried
MUSL = "musllinux_1_2"
MACHINES = {"x86-64": "x86_64", "ARMv8-A": "aarch64"}
INFO = f"pkder-{NUMBER}.dist-info"
COMMAND = """#!/usr/bin/python3
import sys

from {module} import {function}

sys.exit({function}())
"""


def metadata():
    """What pip is told of the package, made from its manifest."""
    project = tomllib.loads(packing.text_of(f"{PYTHON}/pyproject.toml"))["project"]
    said = {"Metadata-Version": "2.1", "Name": project["name"], "Version": NUMBER,
            "Summary": project["description"], "License": project["license"]["text"],
            "Requires-Python": project["requires-python"], "Description-Content-Type": "text/markdown"}
    head = "".join(f"{name}: {text}\n" for name, text in said.items())
    return f"{head}\n{packing.text_of(f'{PYTHON}/README.md')}"


def entry_points():
    """The commands of the package, as pip is told of them (its entry points specification)."""
    scripts = tomllib.loads(packing.text_of(f"{PYTHON}/pyproject.toml"))["project"]["scripts"]
    return "[console_scripts]\n" + "".join(f"{name} = {call}\n" for name, call in scripts.items())


def package_files():
    """The files of the package by their names in it."""
    folder = f"{TOP}/{SOURCES}"
    return {it: f"{folder}/{it}" for it in packing.files_below(folder) if it.endswith((".py", "/py.typed"))}


def tag(library):
    """The tag of a wheel with this library, by its processor and the lowest C library that has what it asks for (PEP
    600, PEP 656)."""
    glibc = lowest.c_library([library])
    c_library = f"manylinux_{glibc.replace('.', '_')}" if glibc else MUSL
    return f"py3-none-{c_library}_{MACHINES[lowest.machine(library)[0]]}"


def row(name, octets):
    """The line of a file in RECORD (PEP 376)."""
    told = base64.urlsafe_b64encode(hashlib.sha256(octets).digest()).decode().rstrip("=")
    return f"{name},sha256={told},{len(octets)}\n"


def wheel_contents(library, more):
    """The octets of each file of the wheel, by its name."""
    files = {**package_files(), "pkder/libpkder.so.0": library,
             **{f"{INFO}/licenses/{name}": path for name, path in more.items()}}
    contents = {}
    for name, path in files.items():
        with open(path, "rb") as file:
            contents[name] = file.read()
    lines = ["Wheel-Version: 1.0", "Generator: release/wheel.py", "Root-Is-Purelib: false", f"Tag: {tag(library)}"]
    contents[f"{INFO}/METADATA"] = metadata().encode()
    contents[f"{INFO}/entry_points.txt"] = entry_points().encode()
    contents[f"{INFO}/WHEEL"] = "".join(f"{it}\n" for it in lines).encode()
    record = "".join(row(*it) for it in sorted(contents.items())) + f"{INFO}/RECORD,,\n"
    # (RECORD is last, as PEP 427 has it)
    return {**dict(sorted(contents.items())), f"{INFO}/RECORD": record.encode()}


def write_wheel(out, library, more):
    """Writes the wheel into the folder, with the library and these further files in it, and returns its name."""
    name = f"{out}/pkder-{NUMBER}-{tag(library)}.whl"
    when = time.gmtime(packing.epoch())[:6]
    with zipfile.ZipFile(name, "w", zipfile.ZIP_DEFLATED, compresslevel=9) as archive:
        for each, octets in wheel_contents(library, more).items():
            it = zipfile.ZipInfo(each, when)
            it.create_system, it.compress_type = 3, zipfile.ZIP_DEFLATED
            it.external_attr = (0o100755 if each.endswith(".so.0") else 0o100644) << 16
            archive.writestr(it, octets)
    return name


def write_sources(out):
    """Writes the source archive of the package into the folder, and returns its name."""
    name = f"{out}/pkder-{NUMBER}.tar.gz"
    with tempfile.TemporaryDirectory() as work:
        for each in packing.tracked(PYTHON):
            to = f"{work}/{os.path.relpath(each, PYTHON)}"
            os.makedirs(os.path.dirname(to), exist_ok=True)
            shutil.copy(f"{TOP}/{each}", to)
        packing.write(f"{work}/PKG-INFO", metadata())
        packing.write_archive(work, f"pkder-{NUMBER}", name)
    return name


def write_unpacked(folder):
    """Writes the package into the folder, as a packager of a system has it."""
    for name, path in package_files().items():
        os.makedirs(os.path.dirname(f"{folder}/{name}"), exist_ok=True)
        shutil.copy(path, f"{folder}/{name}")
    packing.write(f"{folder}/{INFO}/METADATA", metadata())
    packing.write(f"{folder}/{INFO}/entry_points.txt", entry_points())


def write_commands(prefix):
    """Writes the commands of the package below the folder, with their pages, as a packager of a system has them."""
    for line in entry_points().splitlines()[1:]:
        name, call = line.split(" = ")
        module, function = call.split(":")
        packing.write(f"{prefix}/bin/{name}", COMMAND.format(module=module, function=function))
        os.chmod(f"{prefix}/bin/{name}", 0o755)
        packing.write(f"{prefix}/share/man/man1/{name}.1", packing.text_of(f"docs/{name}.1"))
    packing.write(f"{prefix}/share/doc/python3-pkder/intake.md", packing.text_of("docs/intake.md"))


def main(words):
    if len(words) != 3 or words[0] != "--unpacked":
        print(__doc__)
        return 0 if words == ["--help"] else 1
    write_unpacked(words[1])
    write_commands(words[2])
    return 0


if __name__ == "__main__":
    sys.exit(main(sys.argv[1:]))
