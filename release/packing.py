"""packing.py: what all that packs pkder shares: the description, the time, and archives that are the same bytes from
the same files, wherever and whenever they are made."""
import functools
import gzip
import hashlib
import io
import os
import subprocess
import tarfile
import tomllib

from tools.gate.logic import TOP, text_of, version

NUMBER, LOGIC = version()
ABOUT = tomllib.loads(text_of("tools/pages/about.toml"))


def said(*words, **how):
    """What a command prints, which has to end with status 0."""
    return subprocess.run(words, capture_output=True, text=True, check=True, **how).stdout.strip()


@functools.cache
def commit():
    """The commit that stands here."""
    return said("git", "-C", TOP, "rev-parse", "HEAD")


@functools.cache
def epoch():
    """The time of all files: that of the commit, in seconds."""
    return int(said("git", "-C", TOP, "log", "-1", "--format=%ct"))


def tracked(*below):
    """The names of the repository's files, or of those below these folders."""
    return said("git", "-C", TOP, "ls-files", "--", *below).splitlines()


def sum_of(name):
    """The SHA-256 sum of a file."""
    with open(name, "rb") as file:
        return hashlib.file_digest(file, "sha256").hexdigest()


def write(name, text):
    """Writes a text file, and the folders above it."""
    os.makedirs(os.path.dirname(name), exist_ok=True)
    with open(name, "w", encoding="utf-8") as file:
        file.write(text)


def files_below(folder):
    """The names of all files and links below a folder, in their order, from it on."""
    found = []
    for place, _, names in os.walk(folder):
        found += [os.path.relpath(f"{place}/{name}", folder) for name in names]
    return sorted(found)


def member(folder, name, above):
    """A file or link as an archive has it: of no owner, of the commit's time, readable by all."""
    it = tarfile.TarInfo(f"{above}/{name}")
    it.mtime = epoch()
    path = f"{folder}/{name}"
    if os.path.islink(path):
        it.type, it.linkname, it.mode = tarfile.SYMTYPE, os.readlink(path), 0o777
    else:
        it.size, it.mode = os.path.getsize(path), 0o755 if os.access(path, os.X_OK) else 0o644
    return it


def write_archive(folder, above, name):
    """Writes the .tar.gz of this name, of all files below the folder, which stand below `above` in it."""
    held = io.BytesIO()
    with tarfile.open(fileobj=held, mode="w", format=tarfile.GNU_FORMAT) as archive:
        for each in files_below(folder):
            it = member(folder, each, above)
            if it.issym():
                archive.addfile(it)
                continue
            with open(f"{folder}/{each}", "rb") as file:
                archive.addfile(it, file)
    with open(name, "wb") as file:
        file.write(gzip.compress(held.getvalue(), 9, mtime=0))
