"""targets.py: the processors that files are made for, where what is made for each stands, and how it is made."""
import hashlib
import os
import shutil
import subprocess

from release import lowest, packing
from release.packing import ABOUT, NUMBER, TOP
from tools import build

OUT = f"{TOP}/release/out"
# what all that is made of the crates is made of
SOURCES = ("crates", "crates.txt", "interface/compile.sh")


def sum_of_files(*below):
    """A sum of the repository's files below these folders, as they stand here."""
    listed = packing.said("git", "-C", TOP, "ls-files", "-co", "--exclude-standard", "--", *below).splitlines()
    rows = "".join(f"{packing.sum_of(f'{TOP}/{it}')}  {it}\n" for it in listed if os.path.isfile(f"{TOP}/{it}"))
    return hashlib.sha256(rows.encode()).hexdigest()


class Part:
    """What a script makes of the crates, beside what tools/build.py makes of them; a text beside it says of what, and
    what these commands say of the tools that it takes. `told` gives what it finds in its environment."""

    def __init__(self, words, folder, files, sources, tools=(), told=dict):
        self.words, self.sources, self.tools, self.told = words, (words[0], *sources), tools, told
        self.made_by = f"{folder}/MADE-BY-{files[0]}"
        self.files = [f"{folder}/{it}" for it in files]

    def text(self):
        """What the files that stand were made of, by what, and their sums."""
        made_of = f"sources: {sum_of_files(*SOURCES, *self.sources)}\ntoolchain: {build.logic.toolchain()}\n"
        tools = "".join(f"{packing.said(*it)}\n" for it in self.tools)
        sums = "".join(f"{packing.sum_of(it)}  {os.path.basename(it)}\n" for it in self.files)
        return f"{made_of}{tools}{sums}"

    def is_there(self):
        """Whether the files are there, of whatever sources."""
        return all(map(os.path.isfile, self.files))

    def stands(self):
        """Whether the files stand as these sources and these tools gave them."""
        has_tools = all(shutil.which(it[0]) for it in self.tools)
        if not has_tools or not self.is_there() or not os.path.isfile(self.made_by):
            return False
        with open(self.made_by, encoding="utf-8") as file:
            return file.read() == self.text()

    def make(self):
        """Makes the files, where they don't stand."""
        if self.stands():
            return
        print(f"release: {' '.join(self.words)}: a minute or two, or ten where no proof is kept", flush=True)
        words = ["sh", *(f"{TOP}/{it}" for it in self.words[:1]), *self.words[1:]]
        subprocess.run(words, env={**os.environ, **self.told()}, check=True)
        packing.write(self.made_by, self.text())


class Target:
    """A processor, by its name in archives and wheels, in Debian, and in front of its compiler's tools."""

    def __init__(self, machine, debian, tools, programs, libraries, parts):
        self.machine, self.debian, self.tools, self.parts = machine, debian, tools, parts
        self.static, self.dynamic = (f"{programs}/{it}" for it in ("pkder-static", "pkder-glibc"))
        self.folder = libraries
        self.archive = f"pkder-{NUMBER}-{machine}-linux"

    @property
    def libraries(self):
        """The libraries by their names in the folder that they stand in."""
        return {it: f"{self.folder}/{it}" for it in build.LIBRARIES}

    @property
    def library(self):
        """The shared library for glibc."""
        return f"{self.folder}/libpkder.so.0"

    @property
    def for_musl(self):
        """The shared library for musl."""
        return f"{self.folder}/musl/libpkder.so.0"

    def due(self, name):
        """What a file of this target should need."""
        return ABOUT["lowest"][name if self is X86_64 else f"{self.debian}/{name}"]

    def needs(self):
        """Of each program and shared library its name, what it needs, and what it should need."""
        files = {"pkder-static": self.static, "pkder-glibc": self.dynamic, "libpkder.so.0": self.library,
                 "musl/libpkder.so.0": self.for_musl}
        for name, file in files.items():
            if os.path.isfile(file):
                yield f"{self.debian}: {name}", lowest.needs(file), self.due(name)

    def is_there(self):
        """Whether all that its scripts make is there, of whatever sources."""
        return all(it.is_there() for it in self.parts)

    def make(self):
        """Makes all that tools/build.py doesn't."""
        for part in self.parts:
            part.make()


PROGRAMS = ("pkder-static", "pkder-glibc")
# (what the compiler handed to clang for the program stays, too: release/modules.py)
X86_64 = Target("x86_64", "amd64", "", OUT, f"{TOP}/interface/out",
                [Part(["release/static_program.sh"], OUT, (*PROGRAMS, "program.bc"), ["release/for_musl.c"],
                      [["dpkg-query", "--show", "musl-dev"]])])
IN_ARM64 = f"{OUT}/arm64"
# (of the program's musl the archive has the licence, too)
MUSL = ("debian/usr/lib/aarch64-linux-musl/libc.a", "debian/usr/share/doc/musl-dev/copyright",
        "debian/usr/share/doc/musl-dev/changelog.Debian.gz")
ARM64_SOURCES = ("interface/pkder.map", "release/for_musl.c", "release/under_linux.c", "release/unpacked_debs.sh")
ARM64_TOOLS = [["aarch64-linux-gnu-gcc", "--version"], ["dpkg-query", "--show", "libc6-dev-arm64-cross"]]
ARM64 = Target("aarch64", "arm64", "aarch64-linux-gnu-", IN_ARM64, IN_ARM64,
               [Part(["release/arm64.sh", "library"], IN_ARM64, build.LIBRARIES, ARM64_SOURCES, ARM64_TOOLS),
                Part(["release/arm64.sh", "program"], IN_ARM64, (*PROGRAMS, *MUSL), ARM64_SOURCES, ARM64_TOOLS)])
TARGETS = (X86_64, ARM64)
