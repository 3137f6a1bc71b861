"""The inputs that names stand for: files, what is below folders, standard input; and their octets."""
import errno
import os
import stat
import sys
from typing import Dict, Iterator, List, NamedTuple

STANDARD_INPUT = "-"
# (FIFOs would wait for a writer for ever, and devices may do anything when they are opened)
NOT_OPENED = ((stat.S_ISFIFO, "a FIFO"), (stat.S_ISSOCK, "a socket"), (stat.S_ISCHR, "a device"),
              (stat.S_ISBLK, "a device"))
WORDS: Dict[int, str] = {errno.ENOENT: "no such file", errno.ENOTDIR: "no such file", errno.EACCES: "permission denied",
                         errno.EPERM: "permission denied", errno.EISDIR: "is a directory", errno.ELOOP: "is a link"}


class Unread(Exception):
    """Why an input can't be read."""


class Input(NamedTuple):
    """An input: its name, and its path below what was named."""

    name: str
    base: str


def words_of(error: OSError) -> str:
    """Why something can't be read or written, in words that have nothing of it."""
    return WORDS.get(error.errno or 0, os.strerror(error.errno) if error.errno else "can't be read")


def names_in(octets: bytes) -> List[str]:
    """The names of a list in which each ends in an octet 0."""
    names = octets.split(b"\0")
    return [os.fsdecode(it) for it in (names if names[-1] else names[:-1])]


def below(folder: str) -> Iterator[Input]:
    """The files below a folder in the order of their names. Links aren't followed."""
    waiting = [Input(folder, "")]
    while waiting:
        it = waiting.pop()
        if it.base and not os.path.isdir(it.name):
            yield it
            continue
        try:
            with os.scandir(it.name) as entries:
                found = sorted((os.fsencode(each.name) for each in entries if not each.is_symlink()), reverse=True)
        except OSError:
            yield it
            continue
        for name in map(os.fsdecode, found):
            waiting.append(Input(os.path.join(it.name, name), f"{it.base}/{name}" if it.base else name))


def inputs_of(names: List[str]) -> Iterator[Input]:
    """The inputs that these names stand for."""
    for name in names:
        if name != STANDARD_INPUT and os.path.isdir(name):
            yield from below(name)
        else:
            yield Input(name, os.path.basename(name))


def expect_file(looks: os.stat_result) -> None:
    """Raises Unread of what isn't to be opened."""
    for is_so, what in NOT_OPENED:
        if is_so(looks.st_mode):
            raise Unread(f"is {what}, which isn't opened")


def list_of(path: str) -> bytes:
    """The octets of a list of names, which may be a pipe; Unread is raised where it can't be read."""
    try:
        if path == STANDARD_INPUT:
            return sys.stdin.buffer.read()
        with open(path, "rb") as file:
            return file.read()
    except OSError as error:
        raise Unread(words_of(error)) from None
    except ValueError:
        raise Unread("no such file") from None


def octets_of(path: str, most: int) -> bytes:
    """The octets of an input, one more than the most at most; Unread is raised where it can't be read."""
    try:
        if path == STANDARD_INPUT:
            return sys.stdin.buffer.read(most + 1)
        expect_file(os.stat(path))
        with open(os.open(path, os.O_RDONLY | os.O_NONBLOCK | os.O_NOCTTY | os.O_CLOEXEC), "rb") as file:
            # (it may be another one since)
            looks = os.fstat(file.fileno())
            expect_file(looks)
            size = min(looks.st_size, most)
            found = file.read(size + 1)
            # (a file of the system may say that it is empty, and one may grow)
            return found if len(found) <= size else found + file.read(most - size)
    except OSError as error:
        raise Unread(words_of(error)) from None
    except ValueError:
        raise Unread("no such file") from None
