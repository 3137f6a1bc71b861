"""What tools/release.py makes: archives, packages for Debian, Python, Java and npm, the page, the test vectors, and
their sums."""
import glob
import os
import shutil
import subprocess
import sys
import tempfile

import vectors
from release import bom, modules, packing, wheel
from release.packing import NUMBER, TOP
from release.targets import ARM64, TARGETS, X86_64
from tools import build

# what packing needs, and the package of Debian that has it
TOOLS = {"musl-gcc": "musl-tools", "objcopy": "binutils", "cc": "gcc", "dpkg-buildpackage": "dpkg-dev",
         "dh": "debhelper", "dh_python3": "dh-python", "wasm-opt": "binaryen",
         "aarch64-linux-gnu-gcc": "gcc-aarch64-linux-gnu"}
# the same of files that a package has and that are no tools
FILES = {"/usr/include/postgresql/15/server/postgres.h": "postgresql-server-dev-15",
         "/usr/aarch64-linux-gnu/include/stdlib.h": "libc6-dev-arm64-cross"}
JAVA = f"{TOP}/interface/java/build.sh"
if os.path.isfile(JAVA):
    TOOLS["javac"] = "default-jdk-headless"
SQLITE = "interface/sqlite/build.sh"
SQLITE_HEADER = "/usr/include/sqlite3ext.h"
# what of the repository a packager's tree has
TREE = ("CHANGELOG.md", "README.md", "SECURITY.md", "crates.txt", build.logic.SOURCE, "debian", "docs", "examples",
        "interface", "release", "tests/harness", "tools")
PROVED = """\
proved: each function of the program and of the library meets its contract; docs/proved.md says what these promise
not proved: what compiles, links and packs them, C libraries, release/*.c, pkder.h, other languages, time, stack
""" + build.TRUSTED
TRIAL = "trial: nothing says what proved these files\n"


def missing():
    """How Debian's packages of the tools that aren't there are got, or nothing."""
    lacking = {package for tool, package in TOOLS.items() if not shutil.which(tool)}
    lacking |= {package for file, package in FILES.items() if not os.path.isfile(file)}
    lacking = sorted(lacking | (set() if has_sqlite() else {"libsqlite3-dev"}))
    return f"apt-get install {' '.join(lacking)}" if lacking else None


def has_sqlite():
    """Whether the machine has what the extension for SQLite is compiled with."""
    return os.path.isfile(SQLITE_HEADER)


def make_sqlite(tree, target=X86_64):
    """Makes the extension for SQLite in a tree that has the libraries, where install.sh takes it."""
    told = {**os.environ, "CC": f"{target.tools}gcc"}
    words = ["sh", f"{tree}/{SQLITE}", f"{tree}/interface/out"]
    subprocess.run(words, env=told, check=True, stdout=subprocess.DEVNULL)


def measured():
    """Ends where a program or library needs something else than tools/pages/about.toml says."""
    for name, found, due in (it for target in TARGETS for it in target.needs()):
        if found != due:
            sys.exit(f"release: {name} needs {found}, and tools/pages/about.toml says {due}")


def proved_by(target, program, is_trial):
    """The text of PROVED-BY for the program and the libraries, as they are packed."""
    how = "glibc" if bom.lowest.is_dynamic(program) else "musl, which is in it"
    head = build.record(packing.commit()).splitlines(keepends=True)[:3]
    if target is not X86_64:
        head[2] = f"library: heap of release/under_linux.c, processor {bom.lowest.processor(target.library)}\n"
    sums = {"pkder": program, **target.libraries}
    rows = "".join(f"{packing.sum_of(path)}  {name}\n" for name, path in sums.items())
    linked = f"program: {bom.lowest.needs(program)}, linked with {how}\n"
    return f"{''.join(head)}{linked}{TRIAL if is_trial else PROVED}{rows}"


def stage(tree, target, program, is_trial):
    """Lays out the files of the repository that a packager needs, with this program and the libraries as built ones."""
    for name in packing.tracked(*TREE):
        os.makedirs(os.path.dirname(f"{tree}/{name}"), exist_ok=True)
        shutil.copy(f"{TOP}/{name}", f"{tree}/{name}")
    for to, name in build.MADE.items():
        os.makedirs(os.path.dirname(f"{tree}/{to}"), exist_ok=True)
        shutil.copy(program if to == build.PROGRAM else target.libraries[name], f"{tree}/{to}")
    packing.write(f"{tree}/{build.PROVED_BY}", proved_by(target, program, is_trial))


def write_pc(folder):
    """Has pkg-config find the library by the place of pkder.pc, wherever the folder is put."""
    name = f"{folder}/lib/pkgconfig/pkder.pc"
    with open(name, encoding="utf-8") as file:
        lines = file.read().splitlines()
    packing.write(name, "\n".join(["prefix=${pcfiledir}/../..", *lines[1:]]) + "\n")


def write_sums(folder):
    """Writes SHA256SUMS of all files below the folder."""
    names = [it for it in packing.files_below(folder) if not os.path.islink(f"{folder}/{it}")]
    rows = "".join(f"{packing.sum_of(f'{folder}/{it}')}  {it}\n" for it in names)
    packing.write(f"{folder}/SHA256SUMS", rows)


def archive(work, out, target, program, is_trial):
    """Writes the archive of program, library, pages and papers, and returns its name."""
    tree = f"{work}/of-archive-{target.machine}"
    stage(tree, target, program, is_trial)
    told = {**os.environ, "DESTDIR": work, "PREFIX": f"/{target.archive}"}
    what = ["program", "library"]
    if has_sqlite():
        make_sqlite(tree, target)
        what.append("sqlite")
    else:
        print("left out of the archive: mod_pkder.so (Debian: libsqlite3-dev)")
    subprocess.run(["sh", f"{tree}/tools/install.sh", *what], env=told, check=True)
    folder = f"{work}/{target.archive}"
    os.makedirs(f"{folder}/lib/musl")
    shutil.copy(target.for_musl, f"{folder}/lib/musl/libpkder.so.0")
    write_pc(folder)
    for name in ("CHANGELOG.md", "SECURITY.md", "docs/install.md"):
        shutil.copy(f"{TOP}/{name}", folder)
    shutil.move(f"{folder}/share/doc/pkder/PROVED-BY", folder)
    packed = [f"{folder}/{it}" for it in bom.packed_in(folder)]
    packing.write(f"{folder}/sbom.cdx.json", bom.text(packed))
    bom.copy_licences(f"{folder}/licences", packed)
    write_sums(folder)
    name = f"{out}/{target.archive}.tar.gz"
    packing.write_archive(folder, target.archive, name)
    return name


def debian(work, out, target, program, is_trial):
    """Makes the packages for Debian, and returns their names: for another processor than this machine's those that
    differ by it."""
    tree = f"{work}/of-debian-{target.debian}/pkder-{NUMBER}"
    stage(tree, target, program, is_trial)
    told = {**os.environ, "SOURCE_DATE_EPOCH": str(packing.epoch()), "LC_ALL": "C.UTF-8", "TZ": "UTC"}
    # (-d: what it is built with is this machine's)
    which = ["-b"] if target is X86_64 else ["-B", "-d", f"-a{target.debian}"]
    words = ["dpkg-buildpackage", *which, "-us", "-uc"]
    ran = subprocess.run(words, cwd=tree, env=told, stdout=subprocess.PIPE, stderr=subprocess.STDOUT, text=True)
    if ran.returncode:
        sys.exit(f"{ran.stdout}\nrelease: dpkg-buildpackage ends with status {ran.returncode}")
    return [shutil.copy(it, out) for it in sorted(glob.glob(f"{os.path.dirname(tree)}/*.deb"))]


def wheels(out, target):
    """Writes the wheels of this processor, for glibc and for musl, and returns what each is by its name."""
    for library, c_library in ((target.library, "glibc"), (target.for_musl, "musl")):
        name = wheel.write_wheel(out, library, bom.licences([library]))
        yield name, f"Python, with the library, {target.machine}, {c_library}"


def java(work, out):
    """Makes the jar, where this checkout has the package for Java, and returns its name in a list."""
    if not os.path.isfile(JAVA):
        return []
    told = {**os.environ, "ARM64": ARM64.folder if ARM64.is_there() else ""}
    words = ["sh", JAVA, X86_64.folder, f"{work}/of-java"]
    subprocess.run(words, env=told, check=True, stdout=subprocess.DEVNULL)
    return [shutil.copy(f"{work}/of-java/pkder.jar", f"{out}/pkder-{NUMBER}.jar")]


def test_vectors(work, out):
    """Writes the archive of the test vectors, and returns its name."""
    name = f"pkder-vectors-{vectors.VERSION}"
    os.makedirs(f"{work}/{name}")
    for file in packing.tracked("vectors/*.json", "vectors/README.md"):
        shutil.copy(f"{TOP}/{file}", f"{work}/{name}")
    packing.write_archive(f"{work}/{name}", name, f"{out}/{name}.tar.gz")
    return f"{out}/{name}.tar.gz"


def web(work, out, is_trial):
    """Writes the page and the package for npm, where there is what they are made of, and returns what each is."""
    if not modules.are_there():
        print("left out: the page and the package for npm, for want of what release/make_modules.py makes")
        return {}
    return {modules.write_page(out): "a page for browsers, with the library",
            modules.write_package(work, out, TRIAL if is_trial else ""): "node, Deno, Bun, bundlers, browsers"}


def made(out, work, target, static, dynamic, is_trial):
    """Makes all files of a processor, and returns what each is by its name."""
    debs = {"pkder_": "the program", "libpkder0_": "the shared library", "python3-pkder_": "for Python",
            "libpkder-dev_": "header, static library, pages", "libsqlite3-mod-pkder_": "for SQLite",
            "postgresql-15-pkder_": "for PostgreSQL 15"}
    found = {archive(work, out, target, static, is_trial):
             f"{target.machine}: program, libraries, header, for SQLite, pages, completions, papers"}
    for name in debian(work, out, target, dynamic, is_trial):
        what = next(what for begin, what in debs.items() if os.path.basename(name).startswith(begin))
        found[name] = f"Debian, {target.debian}: {what}"
    return found | dict(wheels(out, target))


def release(out, is_trial):
    """Makes everything in the folder, and says what each file is."""
    os.makedirs(out, exist_ok=True)
    found = {}
    with tempfile.TemporaryDirectory() as work:
        for target in TARGETS:
            if is_trial and target is not X86_64 and not target.is_there():
                print(f"left out: what is for {target.machine}, for want of what its scripts make")
                continue
            is_own = is_trial and target is X86_64
            programs = (f"{TOP}/{build.PROGRAM}",) * 2 if is_own else (target.static, target.dynamic)
            found |= made(out, work, target, *programs, is_trial)
        found |= {it: "Java, with the libraries" for it in java(work, out)}
        found |= web(work, out, is_trial)
        found[test_vectors(work, out)] = "test vectors for any reader"
    found[wheel.write_sources(out)] = "Python, for a library of the system"
    rows = [(packing.sum_of(path), os.path.basename(path), what) for path, what in sorted(found.items())]
    packing.write(f"{out}/SHA256SUMS", "".join(f"{total}  {name}\n" for total, name, _ in rows))
    for total, name, what in rows:
        print(f"{name}: {os.path.getsize(f'{out}/{name}')} octets: {what}\n    {total}")
