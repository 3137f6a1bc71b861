#!/usr/bin/env python3
"""checks.py: what tools/release.py makes, of the build that stands, as far as it needs no tools of packagers.

The archive, with the program as it stands, the test vectors, the wheels and the source archive for Python, and where
their modules stand the package for npm and the page, are made twice and compared, opened, and used; the lowest C
library and processor are measured; Debian's lists of files are held to what is installed. Where Debian's compilers for
ARM64 and QEMU are, what is for that is made, too, and answers a hundred rows. By hand, tools/release.py makes the
packages too, and tries all of it where it is to be used (--try). The last line is 'release: N passed, M failed'."""
import base64
import glob
import json
import os
import re
import shutil
import subprocess
import sys
import tarfile
import tempfile
import zipfile
from pathlib import Path

TOP = sys.path[0] = str(Path(__file__).resolve().parents[1])
from release import bom, lowest, making, modules, packing, wheel
from release.packing import ABOUT, NUMBER
from release.targets import ARM64, X86_64
from release.try_arm64 import by_qemu, write_said
from tests.harness import rows
from tools import build
from tools.gate.looks import counted

PROGRAM, LIBRARY = f"{TOP}/{build.PROGRAM}", X86_64.library
KEY = f"{TOP}/examples/long-lengths.der"
# what makes files for ARM64 and runs them here, with Debian's packages, and the C library that they run with
ARM64_TOOLS = {"aarch64-linux-gnu-gcc": "gcc-aarch64-linux-gnu", "qemu-aarch64": "qemu-user"}
ARM64_ROOT = "/usr/aarch64-linux-gnu"
# What release/static_program.sh links.
MUSL = "/usr/lib/x86_64-linux-musl/libc.a"
IN_PYTHON = """import sys, pkder
print(pkder._library._name)
print(pkder.check(pkder.Kind.KEY, open(sys.argv[1], "rb").read()))"""
IN_NODE = """import("pkder").then(async ({load}) =>
    console.log(`${(await load()).check("key", require("node:fs").readFileSync(process.argv[1]))}`))"""
# (npm asks no network, and has a folder of its own)
OF_NPM = {"npm_config_offline": "true", "npm_config_audit": "false", "npm_config_fund": "false",
          "npm_config_update_notifier": "false"}


def octets_of(name):
    with open(name, "rb") as file:
        return file.read()


def program_of(target):
    """The program that the archive of this processor gets here: of x86-64 the build's own."""
    return PROGRAM if target is X86_64 else target.static


def made(work, number, targets):
    """Makes what needs no packager's tools in a folder of its own, and returns the names of the files."""
    out = f"{work}/out{number}"
    os.makedirs(out)
    with tempfile.TemporaryDirectory() as place:
        for target in targets:
            dict(making.wheels(out, target))
            if os.path.isfile(program_of(target)):
                making.archive(place, out, target, program_of(target), False)
        making.test_vectors(place, out)
        if modules.are_there():
            modules.write_package(place, out)
            modules.write_page(out)
    wheel.write_sources(out)
    return sorted(glob.glob(f"{out}/*"))


def are_same(first, second, targets):
    """Whether two runs made the same: for each processor two wheels and, of a program, an archive; and what is for
    all."""
    archives = sum(os.path.isfile(program_of(it)) for it in targets)
    due = archives + 2 * len(targets) + (4 if modules.are_there() else 2)
    yield f"there are {due} files", len(first) == due
    for one, other in zip(first, second):
        yield f"{os.path.basename(one)}: the same bytes twice", octets_of(one) == octets_of(other)


def of_no_owner(name):
    """Whether an archive has files in their order, of the commit's time, and no owner's name."""
    with tarfile.open(name) as archive:
        found = archive.getmembers()
    told = {(it.uid, it.gid, it.uname, it.gname, it.mtime) for it in found}
    yield f"{os.path.basename(name)}: no owner, and the commit's time", told == {(0, 0, "", "", packing.epoch())}
    names = [it.name for it in found]
    yield f"{os.path.basename(name)}: in order", names == sorted(names)


def opened_archive(name, work, target):
    """Opens the archive as a user does, and looks at its sums and papers, and, where it is for this processor, at its
    program and library."""
    subprocess.run(["tar", "-xf", name, "-C", work], check=True)
    folder = f"{work}/{target.archive}"
    ran = subprocess.run(["sha256sum", "--check", "--quiet", "SHA256SUMS"], cwd=folder)
    yield "SHA256SUMS", not ran.returncode
    listed = {it.split("  ")[1] for it in octets_of(f"{folder}/SHA256SUMS").decode().splitlines()}
    files = {it for it in packing.files_below(folder) if not os.path.islink(f"{folder}/{it}")}
    yield "SHA256SUMS has each file", listed == files - {"SHA256SUMS"}
    sums = f"{packing.sum_of(f'{folder}/bin/pkder')}  pkder\n"
    sums += "".join(f"{packing.sum_of(f'{folder}/lib/{it}')}  {it}\n" for it in build.LIBRARIES)
    yield "PROVED-BY has the sums", sums in octets_of(f"{folder}/PROVED-BY").decode()
    yield from of_bill(f"{folder}/sbom.cdx.json", folder)
    extension = f"{folder}/lib/mod_pkder.so"
    if os.path.isfile(extension):
        due, found = target.due("mod_pkder.so"), lowest.needs(extension)
        yield f"mod_pkder.so needs {found}, and should need {due}", found == due
    if target is X86_64:
        with open(KEY, "rb") as key:
            ran = subprocess.run([f"{folder}/bin/pkder", "check", "--kind", "key"], stdin=key, capture_output=True)
        yield "the program", (ran.returncode, ran.stdout) == (1, b"not DER at 1\n")
        yield from by_pkg_config(folder)
        yield from in_sqlite(extension)


def by_pkg_config(folder):
    """Whether pkg-config finds the library where the archive was opened."""
    if shutil.which("pkg-config"):
        told = {**os.environ, "PKG_CONFIG_PATH": f"{folder}/lib/pkgconfig"}
        flags = packing.said("pkg-config", "--cflags", "--libs", "pkder", env=told).split()
        due = [f"{os.path.realpath(folder)}/{it}" for it in ("include", "lib")]
        yield "pkder.pc, wherever it stands", [os.path.realpath(it[2:]) for it in flags[:2]] == due
    else:
        print("left out: no pkg-config (Debian: pkg-config)")


def in_sqlite(extension):
    """Whether the extension for SQLite answers."""
    if not os.path.isfile(extension):
        return
    if not shutil.which("sqlite3"):
        print("left out: no sqlite3 (Debian: sqlite3)")
        return
    ask = f"select pkder_check('key', readfile('{KEY}'))"
    ran = subprocess.run(["sqlite3", "-cmd", f".load {extension.removesuffix('.so')}", ":memory:", ask],
                         capture_output=True, text=True)
    yield f"the extension for SQLite: {ran.stdout}{ran.stderr}", ran.stdout == "not DER at 1\n"


def of_bill(name, folder):
    """Whether the bill of materials is whole: each part is there once, and all that is named is a part."""
    bill = json.loads(octets_of(name))
    refs = [it["bom-ref"] for it in bill["components"]]
    yield "the bill has each part once", len(refs) == len({*refs}) > 20
    named = {it for row in bill["dependencies"] for it in [row["ref"], *row["dependsOn"]]}
    yield "the bill has what it names, and no other part", named == {*refs}
    sums = {it["name"]: it["hashes"][0]["content"] for it in bill["components"] if it["type"] == "file"}
    due = {name: packing.sum_of(f"{folder}/{name}") for name in bom.packed_in(folder)}
    yield "the bill has the files", sums == {bom.label(f"{folder}/{it}"): total for it, total in due.items()}
    crates = {it for it in bom.own_crates() if it != "rows"}
    yield "the bill has the crates", crates - {*refs} <= {"x690_laws"}


def opened_wheel(name, work):
    """Opens a wheel, holds it to its RECORD, and has a document judged by the library in it, where that is for this
    processor: that for musl takes any C library."""
    place = f"{work}/{os.path.basename(name)}.d"
    with zipfile.ZipFile(name) as archive:
        archive.extractall(place)
        names = archive.namelist()
    record = [it.split(",") for it in octets_of(f"{place}/{wheel.INFO}/RECORD").decode().splitlines()]
    yield "RECORD has each file of the wheel", sorted(it[0] for it in record) == sorted(names)
    yield "RECORD has the sums", all(wheel.row(it[0], octets_of(f"{place}/{it[0]}")) == ",".join(it) + "\n"
                                     for it in record if it[1])
    tag = f"\nTag: {os.path.basename(name).removesuffix('.whl').split('-', 2)[2]}\n"
    yield "WHEEL has the tag", tag in octets_of(f"{place}/{wheel.INFO}/WHEEL").decode()
    # (its library has nothing of musl inside, for musl neither)
    yield "the wheel has no licence of musl", not any("/musl/" in it for it in names)
    if not name.endswith(f"{X86_64.machine}.whl"):
        return
    told = {it: text for it, text in os.environ.items() if it != "PKDER_LIBRARY"} | {"PYTHONPATH": place}
    ran = subprocess.run([sys.executable, "-c", IN_PYTHON, KEY], env=told, capture_output=True, text=True)
    due = f"{place}/pkder/libpkder.so.0\nnot DER at 1\n"
    yield f"the wheel's library: {ran.stdout}{ran.stderr}", ran.stdout == due
    yield "the wheel has the type marker", "pkder/py.typed" in names
    ran = subprocess.run([sys.executable, "-m", "pkder_intake", KEY], env=told, capture_output=True, text=True)
    yield f"the wheel's command: {ran.stdout}{ran.stderr}", ran.stdout == f"{KEY}: octets: key: not DER at 1\n"
    scripts = octets_of(f"{place}/{wheel.INFO}/entry_points.txt").decode()
    yield "the wheel has the command", "\npkder-intake = pkder_intake:main\n" in scripts


def opened_sources(name):
    """Whether the source archive has the package's files, what pip is told of it, and no library."""
    with tarfile.open(name) as archive:
        found = {it.name.partition("/")[2] for it in archive.getmembers()}
        info = archive.extractfile(f"pkder-{NUMBER}/PKG-INFO").read().decode()
    due = {os.path.relpath(it, wheel.PYTHON) for it in packing.tracked(wheel.PYTHON)}
    yield "the source archive has the package's files and no other", found == due | {"PKG-INFO"}
    yield "PKG-INFO", f"\nVersion: {NUMBER}\n" in info and f"\nSummary: {ABOUT['summary']}" in info


def opened_vectors(name):
    """Whether the archive of the test vectors has each kind, their schema and their page."""
    with tarfile.open(name) as archive:
        found = {it.name.partition("/")[2] for it in archive.getmembers()}
    due = {os.path.basename(it) for it in glob.glob(f"{TOP}/vectors/*.json")} | {"README.md"}
    yield "the archive of test vectors has all of them, schema and page", found == due and len(due) == 8


def of_page(name):
    """Whether the page has the library's module in it, and the module is that of the package."""
    found = re.search('id="module">(.*?)</script>', octets_of(name).decode(), re.S)
    yield "the page has the module", found and base64.b64decode(found[1]) == octets_of(modules.LIBRARY)


def opened_package(name, work):
    """Whether the package for npm has the files of its sources, and what it says of its modules."""
    place = f"{work}/npm"
    os.makedirs(place)
    subprocess.run(["tar", "-xf", name, "-C", place], check=True)
    folder = f"{place}/package"
    found = {*packing.files_below(folder)}
    told = json.loads(octets_of(f"{folder}/package.json"))
    sources = {os.path.basename(it) for it in packing.tracked("interface/npm/src", "interface/npm/*.json")}
    due = sources | {"README.md", "PROVED-BY", "library.mjs", "pkder.wasm", "program.wasm"}
    licences = {it for it in found if it.startswith("licences/")}
    yield f"the package for npm has its files, but not so {(found - licences) ^ due}", found - licences == due
    yield "the package for npm has licences", bool(licences)
    named = {*told["bin"].values(), *told["exports"]["."].values(), told["types"]}
    yield "the package for npm has what it names", {it.removeprefix("./") for it in named} <= found
    sums = "".join(f"{packing.sum_of(f'{folder}/{it}')}  {it}\n" for it in ("pkder.wasm", "program.wasm"))
    yield "the package's PROVED-BY has the sums", octets_of(f"{folder}/PROVED-BY").decode().endswith(sums)
    yield from installed_package(name, f"{work}/of-npm")


def installed_package(name, place):
    """Whether the package for npm is installed in an empty folder, and answers there."""
    if not shutil.which("node") or not shutil.which("npm"):
        print("left out: no node and npm (Debian: nodejs npm)")
        return
    os.makedirs(place)
    env = {**os.environ, **OF_NPM, "npm_config_cache": f"{place}-cache", "HOME": place}
    for words, out in (
        (["npm", "install", "--silent", name], None),
        (["node", "-e", IN_NODE, KEY], "not DER at 1\n"),
        (["npx", "pkder", "check", "--kind", "key", KEY], f"{KEY}: not DER at 1\n"),
    ):
        ran = subprocess.run(words, cwd=place, env=env, capture_output=True, text=True)
        yield f"{words[0]}: {ran.stdout}{ran.stderr}", ran.stdout == out or (out is None and not ran.returncode)


def measured(targets):
    """Whether the files need what tools/pages/about.toml says of them."""
    found = [("pkder", lowest.needs(PROGRAM), ABOUT["lowest"]["pkder"])]
    for name, need, due in [*found, *(it for target in targets for it in target.needs())]:
        yield f"{name} needs {need}, and should need {due}", need == due


def names_in(file, *flags):
    """The names that nm tells of a file, those that a linker may pass over left out."""
    told = subprocess.run(["nm", *flags, file], capture_output=True, text=True, check=True).stdout
    return set(re.findall(r"(?m) [^w\W] (\w+)(?:@.*)?$", told))


def of_musl(work):
    """Whether musl, with release/for_musl.c, has the calls that the program asks of the C library: else the archive's
    program can't be linked. (What begins with two underscores is between glibc and itself.)"""
    if not shutil.which("musl-gcc") or not os.path.isfile(MUSL):
        print("left out: no musl (Debian: musl-tools)")
        return
    own = f"{work}/for_musl.o"
    subprocess.run(["musl-gcc", "-std=c11", "-c", "-o", own, "release/for_musl.c"], check=True)
    there = names_in(own, "--defined-only") | names_in(MUSL, "--defined-only")
    asked = {it for it in names_in(PROGRAM, "-D", "--undefined-only") if not it.startswith("__")}
    yield f"musl has all that the program asks for, but not {sorted(asked - there)}", asked and asked <= there


def of_debian(work):
    """Whether Debian's lists have what tools/install.sh puts in place: each file in one, and no other."""
    root = f"{work}/root"
    told = {**os.environ, "DESTDIR": root, "PREFIX": "/usr", "LIBDIR": "/usr/lib/x86_64-linux-gnu"}
    what = ["program", "library"]
    if making.has_sqlite():
        making.make_sqlite(TOP)
        what.append("sqlite")
    else:
        packing.write(f"{root}/usr/lib/x86_64-linux-gnu/mod_pkder.so", "")
        packing.write(f"{root}/usr/share/doc/pkder/sqlite.md", "")
    subprocess.run(["sh", f"{TOP}/tools/install.sh", *what], env=told, check=True)
    wheel.write_unpacked(f"{root}/usr/lib/python3/dist-packages")
    wheel.write_commands(f"{root}/usr")
    for name in ("pkder", "libpkder0", "libsqlite3-mod-pkder", "postgresql-15-pkder"):
        packing.write(f"{root}/usr/share/doc/{name}/licences/one", "")
    # (what 'make install' of interface/postgres puts in place)
    packing.write(f"{root}/usr/lib/postgresql/15/lib/pkder.so", "")
    for name in ("pkder.control", "pkder--1.0.sql"):
        packing.write(f"{root}/usr/share/postgresql/15/extension/{name}", "")
    taken = set()
    for name in sorted(glob.glob(f"{TOP}/debian/*.install") + glob.glob(f"{TOP}/debian/*.manpages")):
        for line in octets_of(name).decode().splitlines():
            at = glob.glob(f"{root}/{line.split()[0].removeprefix('debian/tmp/')}")
            yield f"{os.path.basename(name)}: {line}", bool(at)
            taken |= {*at}
    left = [it for it in packing.files_below(root) if not any(f"{root}/{it}".startswith(at) for at in taken)]
    yield f"Debian's packages have all that is installed, but not {left}", not left


def on_first_processor():
    """Whether the library runs on the first x86-64, and the program says what it lacks there."""
    if not shutil.which("qemu-x86_64"):
        print("left out: no qemu-x86_64 (Debian: qemu-user)")
        return
    # (an emulator may take whatever memory there is)
    run = ["sh", "-c", "ulimit -v 8000000; exec qemu-x86_64 -cpu qemu64 \"$@\"", "-"]
    if ABOUT["lowest"]["pkder"].endswith("x86-64-v2"):
        ran = subprocess.run([*run, PROGRAM, "--version"], capture_output=True, text=True)
        yield "the program says what it lacks", ran.returncode == 127 and "x86-64-v2" in ran.stderr
    told = {**os.environ, "PYTHONPATH": f"{TOP}/{wheel.SOURCES}", "PKDER_LIBRARY": LIBRARY}
    ran = subprocess.run([*run, os.path.realpath(sys.executable), "-c", IN_PYTHON, KEY], env=told, capture_output=True,
                         text=True)
    yield f"the library on the first x86-64: {ran.stderr}", ran.stdout == f"{LIBRARY}\nnot DER at 1\n"


def has_arm64():
    """Whether the machine has what makes files for ARM64 and runs them; then the library for it stands."""
    lacking = {tool: package for tool, package in ARM64_TOOLS.items() if not shutil.which(tool)}
    lacking |= {} if os.path.isdir(f"{ARM64_ROOT}/include") else {ARM64_ROOT: "libc6-dev-arm64-cross"}
    if lacking:
        print(f"left out: ARM64, for want of {', '.join(lacking)} (Debian: {' '.join(lacking.values())})")
        return False
    library, program = ARM64.parts
    library.make()
    if not program.is_there():
        print(f"left out: the program for ARM64 (sh {' '.join(program.words)}, which wants a network)")
    return True


def wrong_rows(program, tables):
    """What is wrong with the program's answers to a hundred rows, from all parts of the tables."""
    found = [row for table in tables for _, row in rows.rows_of(table)]
    chosen = found[:: max(len(found) // 100, 1)][:100]
    return [f"{row.rule}: {why}" for row in chosen if (why := row.wrong(program, False))]


def on_arm64(work):
    """Whether the library for ARM64 answers rows as they should be, called from C, and the program, where it is."""
    tables = [*sorted(glob.glob("tests/pkder/*.tsv")), "examples/answers.tsv"]
    write_said(f"{work}/calls.tsv", "python3", "interface/calls.py", *tables)
    caller = f"{work}/filter.arm64"
    subprocess.run([f"{ARM64.tools}gcc", "-std=c11", "-O2", "-Iinterface", "-o", caller, "interface/c/filter.c",
                    ARM64.libraries["libpkder.a"]], check=True)
    wrong = wrong_rows(by_qemu(f"{caller}.run", ARM64_ROOT, caller), [f"{work}/calls.tsv"])
    yield f"a hundred rows in C on ARM64: {wrong}", not wrong
    for name, program in (("for musl", ARM64.static), ("for glibc", ARM64.dynamic)):
        if os.path.isfile(program):
            wrong = wrong_rows(by_qemu(f"{work}/pkder.run", ARM64_ROOT, program), tables)
            yield f"a hundred rows of the program {name} on ARM64: {wrong}", not wrong


def looks(work):
    """Each look at what is made: what is looked at, and whether it is as it should be."""
    targets = [X86_64, *([ARM64] if has_arm64() else [])]
    first, second = made(work, 1, targets), made(work, 2, targets)
    yield from are_same(first, second, targets)
    archives = {it: name for it in targets for name in first if name.endswith(f"/{it.archive}.tar.gz")}
    sources = next(it for it in first if re.search(r"pkder-[0-9.]+\.tar\.gz$", it))
    tests = next(it for it in first if "vectors" in os.path.basename(it))
    for name in (it for it in first if it.endswith("gz")):
        yield from of_no_owner(name)
    for target, name in archives.items():
        yield from opened_archive(name, work, target)
    for name in filter(lambda it: it.endswith(".whl"), first):
        yield from opened_wheel(name, work)
    yield from opened_sources(sources)
    yield from opened_vectors(tests)
    if modules.are_there():
        yield from opened_package(next(it for it in first if it.endswith(".tgz")), work)
        yield from of_page(next(it for it in first if it.endswith(".html")))
    else:
        print("left out: the package for npm and the page (python3 release/make_modules.py)")
    yield from measured(targets)
    yield from of_musl(work)
    yield from of_debian(work)
    yield from on_first_processor()
    if ARM64 in targets:
        yield from on_arm64(work)


def main():
    os.chdir(TOP)
    with tempfile.TemporaryDirectory() as work:
        return counted("release", ((f"not so: {what}", is_right) for what, is_right in looks(work)))


if __name__ == "__main__":
    sys.exit(main())
