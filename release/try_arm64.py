"""What tools/release.py made for ARM64, tried by hand by QEMU (tools/release.py --try OUT): the programs, the library
with glibc and with musl, the wheel and the jar, on all rows that those for x86-64 are tried on; the extension for
SQLite, on a few calls.

No processor of that kind is at hand. So this says what the instructions mean to QEMU, and nothing of how a machine, its
caches and its kernel take them. Debian's Python, Java and C libraries for ARM64 are unpacked beside it."""
import glob
import hashlib
import os
import subprocess
import zipfile

from release import packing
from release.packing import NUMBER, TOP
from release.targets import ARM64

# ARMv8.0-A, the first
PROCESSOR = "cortex-a53"
ROWS = f"{TOP}/tests/harness/rows.py"
C = f"{TOP}/interface/c"
# what tries it, with Debian's packages
NEEDS = {"qemu-aarch64": "qemu-user", "aarch64-linux-gnu-gcc": "gcc-aarch64-linux-gnu", "javac": "default-jdk-headless"}
# what is unpacked for it: Debian's, for ARM64
PACKAGES = ("python3", "openjdk-17-jre-headless", "musl-dev", "sqlite3")


def ran(*words, **how):
    """What a command printed on both outputs, and its status."""
    done = subprocess.run(words, stdout=subprocess.PIPE, stderr=subprocess.STDOUT, stdin=subprocess.DEVNULL, text=True,
                          errors="replace", **how)
    return done.stdout, done.returncode


def last(said):
    """The last line of what was printed."""
    return said.strip().rpartition("\n")[2]


def write_said(name, *words):
    """Writes what a command says into a file."""
    with open(name, "w", encoding="utf-8") as file:
        subprocess.run(words, stdout=file, check=True)


def by_qemu(name, root, *words):
    """Writes a program of this machine's that runs those words on ARM64, with the C libraries of the root."""
    packing.write(name, f"#!/bin/sh\nexec qemu-aarch64 -cpu {PROCESSOR} -L {root} {' '.join(words)} \"$@\"\n")
    os.chmod(name, 0o755)
    return name


def keep_links(folder, root):
    """Has links below the folder to places of the system lead to those of the root, and not to this machine's."""
    for place, folders, names in os.walk(folder):
        for name in filter(os.path.islink, (f"{place}/{it}" for it in [*folders, *names])):
            to = os.readlink(name)
            if to.startswith("/"):
                os.remove(name)
                os.symlink(f"{root}{to}", name)


class Room:
    """A folder with all that is tried: what was made, opened, and Debian for ARM64."""

    def __init__(self, work, out):
        self.work, self.root = f"{work}/arm64", f"{work}/arm64/debian"
        os.makedirs(self.work)
        subprocess.run(["tar", "-xf", f"{out}/{ARM64.archive}.tar.gz", "-C", self.work], check=True)
        self.archive = f"{self.work}/{ARM64.archive}"
        for name in glob.glob(f"{out}/*_arm64.deb"):
            subprocess.run(["dpkg", "-x", name, f"{self.work}/installed"], check=True)
        subprocess.run(["sh", f"{TOP}/release/unpacked_debs.sh", "arm64", self.root, *PACKAGES], check=True)
        keep_links(f"{self.root}/usr/lib/jvm", self.root)
        tables = sorted(glob.glob(f"{TOP}/tests/pkder/*.tsv"))
        self.tables = [*tables, f"{TOP}/examples/answers.tsv"]
        self.calls, self.pairs = f"{self.work}/calls.tsv", f"{self.work}/pairs.tsv"
        write_said(self.calls, "python3", f"{TOP}/interface/calls.py", *self.tables)
        write_said(self.pairs, "python3", f"{TOP}/interface/pairs.py", self.calls, f"{TOP}/interface/pairs.tsv")
        self.told = {**os.environ, "PKDER_CALLS": self.calls, "PKDER_PAIRS": self.pairs,
                     "PKDER_HEADER": f"{TOP}/interface/pkder.h"}


def same_libraries(room, out):
    """Whether the packages and the wheels have the libraries of the archive, which are tried below."""
    inside = {}
    for name in sorted(glob.glob(f"{out}/pkder-{NUMBER}-py3-none-*_{ARM64.machine}.whl")):
        with zipfile.ZipFile(name) as archive:
            inside[os.path.basename(name)] = hashlib.sha256(archive.read("pkder/libpkder.so.0")).hexdigest()
    installed = f"{room.work}/installed/usr/lib/{ARM64.tools.removesuffix('-')}"
    inside |= {it: packing.sum_of(f"{installed}/{it}") for it in ("libpkder.so.0", "libpkder.a")}
    for name, total in inside.items():
        musl = "musl/" if "musl" in name else ""
        file = f"{room.archive}/lib/{musl}{'libpkder.a' if name.endswith('.a') else 'libpkder.so.0'}"
        yield f"{name}: the library of the archive", total == packing.sum_of(file)


def programs(room):
    """The programs of the archive and of Debian's package, on all rows of the program's tables."""
    for what, file in (("archive", f"{room.archive}/bin/pkder"), ("package", f"{room.work}/installed/usr/bin/pkder")):
        program = by_qemu(f"{room.work}/pkder-{what}", room.root, file)
        said, status = ran("python3", ROWS, *room.tables, program)
        yield f"the program of the {what} on ARM64: {last(said)}", status == 0


def compiled(room, source, *words):
    """A caller in C, by Debian's compiler for ARM64, and what runs it."""
    name = f"{room.work}/{source}-{len(os.listdir(room.work))}"
    subprocess.run([f"{ARM64.tools}gcc", "-std=c11", "-O2", f"-I{room.archive}/include", "-o", name, f"{C}/{source}.c",
                    *words, "-lpthread"], check=True)
    return by_qemu(f"{name}.run", room.root, name)


def with_musl(room, source):
    """A caller in C over the shared library for musl, which musl's loader loads, and what runs it."""
    libgcc = packing.said(f"{ARM64.tools}gcc", "-print-libgcc-file-name")
    place, loaded = f"{room.root}/usr/lib/aarch64-linux-musl", f"{room.root}/lib/aarch64-linux-musl/libc.so"
    name = f"{room.work}/{source}-musl"
    subprocess.run([f"{ARM64.tools}gcc", "-std=c11", "-O2", "-fPIE", "-nostdinc", "-isystem",
                    f"{room.root}/usr/include/aarch64-linux-musl", "-isystem", f"{os.path.dirname(libgcc)}/include",
                    f"-I{room.archive}/include", "-c", "-o", f"{name}.o", f"{C}/{source}.c"], check=True)
    subprocess.run([f"{ARM64.tools}ld", "-pie", "--dynamic-linker", "/lib/ld-musl-aarch64.so.1", "-o", name,
                    f"{place}/Scrt1.o", f"{place}/crti.o", f"{name}.o", f"{room.archive}/lib/musl/libpkder.so.0",
                    loaded, libgcc, f"{place}/crtn.o"], check=True)
    # (its loader, named, runs the program, so that no place of the root has to be right)
    return by_qemu(f"{name}.run", room.root, loaded, "--library-path", f"{room.archive}/lib/musl", name)


def library(room):
    """The library from C, with glibc and with musl, and the stack that calls take."""
    static = f"{room.archive}/lib/libpkder.a"
    for what, filter_ in (("glibc", compiled(room, "filter", static)), ("musl", with_musl(room, "filter"))):
        said, status = ran("python3", ROWS, room.calls, filter_)
        yield f"rows in C on ARM64, {what}: {last(said)}", status == 0
    with open(room.pairs, encoding="utf-8") as file:
        due = [it.rpartition("\t")[2] for it in file.read().splitlines()]
    for what, pairs in (("glibc", compiled(room, "pairs", static)), ("musl", with_musl(room, "pairs"))):
        said, _ = ran(pairs, room.pairs)
        yield f"pairs in C on ARM64, {what}: {len(due)}", said.splitlines() == due
    said, status = ran(compiled(room, "stack", static))
    yield f"stack on ARM64: {' '.join(said.split())}", status == 0


def python(room, out):
    """The wheel for glibc, in Debian's Python."""
    place = f"{room.work}/wheel"
    with zipfile.ZipFile(*glob.glob(f"{out}/pkder-{NUMBER}-py3-none-manylinux_*_{ARM64.machine}.whl")) as archive:
        archive.extractall(place)
    # (this Python calls itself by the name of what runs it, since no kernel here runs its own file)
    name = f"{room.root}/usr/bin/python3.run"
    python3 = by_qemu(name, room.root, "-0", name, f"{room.root}/usr/bin/python3")
    told = {**room.told, "PYTHONPATH": place}
    said, status = ran(python3, "-m", "unittest", "discover", "-s", f"{TOP}/interface/python/tests", env=told)
    yield f"rows in Python on ARM64: {last(said)}", status == 0


def java(room, out):
    """The jar, in Debian's Java."""
    jar, tests = f"{out}/pkder-{NUMBER}.jar", f"{room.work}/java"
    sources = glob.glob(f"{TOP}/interface/java/tests/*.java")
    subprocess.run(["javac", "--release", "17", "-cp", jar, "-d", tests, *sources], check=True)
    jvm = glob.glob(f"{room.root}/usr/lib/jvm/java-17-openjdk-arm64/bin/java")
    run = by_qemu(f"{room.work}/jvm", room.root, *jvm)
    said, status = ran(run, "-cp", f"{jar}:{tests}", "Tests", env=room.told)
    yield f"rows in Java on ARM64: {last(said)}", status == 0


def sqlite(room):
    """The extension for SQLite, of the archive and of the package, in Debian's SQLite."""
    run = by_qemu(f"{room.work}/sqlite3", room.root, f"{room.root}/usr/bin/sqlite3")
    installed = f"{room.work}/installed/usr/lib/{ARM64.tools.removesuffix('-')}"
    ask = f"select pkder_check('key', readfile('{TOP}/examples/long-lengths.der')), pkder_is_der('key', x'')"
    for what, folder in (("archive", f"{room.archive}/lib"), ("package", installed)):
        said, _ = ran(run, "-cmd", f".load {folder}/mod_pkder", ":memory:", ask)
        yield f"SQLite on ARM64, {what}: {said.strip()}", said == "not DER at 1|0\n"


def looks(work, out):
    """Each trial: what is tried, and whether it went well."""
    room = Room(work, out)
    yield from same_libraries(room, out)
    yield from programs(room)
    yield from library(room)
    yield from python(room, out)
    yield from java(room, out)
    yield from sqlite(room)
