"""How many of the inputs of a command are done, on standard error."""
import os
import sys
import time
from typing import Any, BinaryIO, Callable, List, Optional

from ._inputs import STANDARD_INPUT

# In seconds: between two numbers, and before the first one where they aren't asked for.
BETWEEN = 0.5
BEFORE = 2.0
clock: Callable[[], float] = time.monotonic


def standard_error() -> Optional[BinaryIO]:
    """Standard error, of which nothing is kept back: what fails to be written is gone, and changes no status."""
    try:
        return open(sys.stderr.fileno(), "wb", buffering=0, closefd=False)
    except (AttributeError, OSError, ValueError):
        return None


def shared_lines() -> Optional[BinaryIO]:
    """Standard output where it is a terminal, which may be that of standard error."""
    return sys.stdout.buffer if sys.stdout and sys.stdout.isatty() else None


def inputs_in(names: List[str]) -> Optional[int]:
    """How many inputs these names stand for: None where a folder is among them, which is walked as it is read."""
    return None if any(it != STANDARD_INPUT and os.path.isdir(it) for it in names) else len(names)


class Progress:
    """Tells how many inputs are done, and of how many where that is known: on a terminal in the place of the number
    before, elsewhere in a line, and without being asked on a terminal alone. Lines that may go to the same terminal are
    flushed before a number, and `make_room` is called before each of them."""

    def __init__(self, names: List[str], is_asked: bool, target: Optional[BinaryIO], lines: Optional[BinaryIO]):
        self.is_terminal = target is not None and target.isatty()
        self.target = target if is_asked or self.is_terminal else None
        self.lines = lines
        self.given = inputs_in(names) if self.target else None
        self.done = 0
        self.due = clock() + (0 if is_asked else BEFORE)
        # (the number that stands in the terminal's last line, or was told in one)
        self.shown, self.is_begun = b"", False

    def __enter__(self) -> "Progress":
        self.look()
        return self

    def __exit__(self, *_: Any) -> None:
        if self.is_begun:
            self.show()
            self.write(b"\n" if self.is_terminal else b"")

    def step(self) -> None:
        """One more input is done. (The last number is told at the end.)"""
        self.done += 1
        if self.done != self.given:
            self.look()

    def look(self) -> None:
        """Tells the number where that is due."""
        if self.target and clock() >= self.due:
            if self.lines:
                self.lines.flush()
            self.is_begun = True
            self.show()
            self.due = clock() + BETWEEN

    def show(self) -> None:
        """Tells the number, unless it stands there."""
        text = f"{self.done:,} done" if self.given is None else f"{self.done:,} of {self.given:,}"
        number = text.encode("ascii")
        if number != self.shown:
            self.write(b"\r" + number if self.is_terminal else number + b"\n")
            self.shown = number

    def make_room(self) -> None:
        """Takes the number away for a line that goes to the same terminal."""
        if self.lines and self.is_terminal and self.shown:
            self.write(b"\r" + b" " * len(self.shown) + b"\r")
            self.shown = b""

    def write(self, octets: bytes) -> None:
        """Writes it where there is still somebody who reads."""
        try:
            if self.target:
                self.target.write(octets)
        except OSError:
            self.target = None
