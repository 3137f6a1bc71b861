"""The command pkder-intake."""
import argparse
import dataclasses
import os
import sys
from typing import Any, Dict, List, NoReturn, Optional

from .. import DEPTH, OCTETS, Kind, __version__
from . import _lines
from ._found import NOT_JUDGED, Found
from ._inputs import STANDARD_INPUT, Input, Unread, inputs_of, list_of, names_in, octets_of
from ._intake import INPUT_OCTETS, Rules, find
from ._progress import Progress, shared_lines, standard_error
from ._writing import NotWritten, Target, note_of, prepare, write

WRONGLY_CALLED = 4
KINDS = {it.name.lower(): it for it in Kind}
KINDS.update(pkcs8=Kind.KEY, sec1=Kind.EC, csr=Kind.REQUEST, pkcs10=Kind.REQUEST, spki=Kind.PUBLIC)
ABOUT = """\
Finds private keys, public keys and certification requests (CSRs) in what people and programs send, has libpkder judge
each, and writes a line for each: FILE[N]: WHAT IT CAME AS: KIND: VERDICT. Read are PEM, base64, base64url, hexadecimal
and the octets themselves, in UTF-16, in JSON, YAML, mails, forms, XML, HTML and strings of programs."""
ENDS = """\
The status is the greatest of all documents and inputs: 0 taken, 1 sound and not in DER, 2 refused, or nothing is there,
3 not read or not written, 4 the command line is refused. The reading of texts isn't proved; the verdict is that of
pkder check on the octets that were found."""


class Parser(argparse.ArgumentParser):
    """A parser that ends as pkder does where it is called wrongly."""

    def error(self, message: str) -> NoReturn:
        self.exit(WRONGLY_CALLED, f"pkder-intake: {message}\nTry 'pkder-intake --help'.\n")


def between(least: int, most: int) -> Any:
    """What reads a number in this range."""

    def number(text: str) -> int:
        if not text.isascii() or not text.isdigit() or not least <= int(text[:12]) <= most:
            raise argparse.ArgumentTypeError(f"a number from {least} to {most} is due")
        return int(text)

    return number


def parser() -> Parser:
    """The command line."""
    found = Parser("pkder-intake", description=ABOUT, epilog=ENDS, allow_abbrev=False,
                   formatter_class=argparse.RawDescriptionHelpFormatter)
    found.add_argument("--version", action="version", version=f"pkder-intake {__version__}")
    said = found.add_argument_group("what is said")
    said.add_argument("--json", action="store_true", help="an object of JSON for each document, one a line")
    said.add_argument("--brief", action="store_true", help="the answer for whoever sent it, at the end of the line")
    said.add_argument("--progress", action="store_true", help="how many inputs are done, on standard error")
    taken = found.add_argument_group("what is taken")
    taken.add_argument("-k", "--kind", action="append", choices=[*KINDS], metavar="KIND", default=[],
                       help="documents of this kind alone, or of these: key, ec, request, public, encrypted, package")
    taken.add_argument("--one", action="store_true", help="refuse an input without exactly one document")
    taken.add_argument("--with-keys", action="store_true", help="take a request beside a private key")
    form = taken.add_mutually_exclusive_group()
    form.add_argument("--der", action="store_true", help="refuse what isn't in DER")
    form.add_argument("--ber", action="store_true", help="take it with status 0")
    limits = found.add_argument_group("limits")
    limits.add_argument("--depth", type=between(1, 64), default=DEPTH, metavar="N", help="depth of nesting (32)")
    limits.add_argument("--octets", type=between(1, 2**31 - 1), default=OCTETS, metavar="N",
                        help="octets of a document (1048576)")
    limits.add_argument("--input-octets", type=between(1, 2**31 - 1), default=INPUT_OCTETS, metavar="N",
                        help="octets of an input (67108864)")
    return with_files(found)


def with_files(found: Parser) -> Parser:
    """The same with the options on what is written, and with names."""
    written = found.add_argument_group("what is written")
    written.add_argument("--out", metavar="FOLDER", help="write what is taken into this folder, over no file")
    written.add_argument("--form", choices=["pem", "der"], help="as PEM, unless said otherwise, or DER")
    written.add_argument("--normalise", action="store_true", help="as the DER encoding, and not as it came")
    found.add_argument("--files0-from", metavar="LIST", help="read names that end in an octet 0 from this file")
    found.add_argument("files", nargs="*", metavar="FILE", help="a file, a folder, or - for standard input")
    return found


def names_of(asked: argparse.Namespace, told: Parser) -> List[str]:
    """The names that are asked for."""
    if asked.files0_from is None:
        return asked.files or [STANDARD_INPUT]
    if asked.files:
        told.error("names stand beside --files0-from")
    try:
        return names_in(list_of(asked.files0_from))
    except Unread as why:
        told.error(f"{_lines.shown_name(asked.files0_from)}: {why}")


def rules_of(asked: argparse.Namespace) -> Rules:
    """The rules that are asked for."""
    ber = True if asked.ber else False if asked.der else None
    kinds = frozenset(KINDS[it] for it in asked.kind) or None
    return Rules(asked.depth, asked.octets, asked.input_octets, ber, asked.one, asked.with_keys, kinds)


class Intake:
    """Takes in inputs, and says what came of each."""

    def __init__(self, asked: argparse.Namespace, rules: Rules, target: Optional[Target], progress: Progress):
        self.rules, self.target, self.is_json, self.is_brief = rules, target, asked.json, asked.brief
        self.progress, self.status = progress, 0

    def say(self, line: str, told: Dict[str, Any]) -> None:
        """Says the line or the object, and counts the status of that."""
        self.status = max(self.status, told["status"])
        text = _lines.json_line(told) if self.is_json else line
        self.progress.make_room()
        sys.stdout.buffer.write(f"{text}\n".encode("utf-8", "backslashreplace"))

    def take(self, it: Input) -> None:
        """Takes in an input."""
        try:
            found = find(octets_of(it.name, self.rules.input_octets), self.rules)
        except Unread as why:
            self.fail(it.name, str(why))
        except MemoryError:
            self.fail(it.name, "out of memory")
        except RuntimeError:
            # (a later library's answer, which this package doesn't know)
            self.fail(it.name, "not judged")
        else:
            self.tell(it, found)

    def fail(self, name: str, why: str) -> None:
        """Says why an input isn't judged."""
        self.say(_lines.error_line(name, why), _lines.error_object(name, NOT_JUDGED, why))

    def tell(self, it: Input, found: List[Found]) -> None:
        """Writes what is taken of an input, unless a private key came with a request, and says what was found."""
        is_kept = any(each.with_private_key for each in found)
        base = it.base if it.name != STANDARD_INPUT else "stdin"
        for each in found:
            written = None
            if self.target and each.is_accepted and not is_kept:
                each, written = self.write(self.target, base, each)
            line = "" if self.is_json else _lines.line_of(it.name, each, len(found) > 1, self.is_brief)
            told = _lines.object_of(it.name, each, written) if self.is_json else {"status": each.status}
            self.say(line, told)

    @staticmethod
    def write(target: Target, base: str, found: Found) -> Any:
        """Writes a document; returns what is said of it then, and the file's name."""
        try:
            name = write(target, base, found)
        except NotWritten as why:
            return dataclasses.replace(found, status=NOT_JUDGED, why=str(why)), None
        return dataclasses.replace(found, note=note_of(target, found)), name


def target_of(asked: argparse.Namespace, told: Parser) -> Optional[Target]:
    """The folder that is asked for, made where it isn't there."""
    if asked.out is None:
        if asked.form or asked.normalise:
            told.error("--form and --normalise go with --out")
        return None
    target = Target(asked.out, asked.form or "pem", asked.normalise)
    try:
        prepare(target)
    except OSError:
        told.error(f"{_lines.shown_name(asked.out)} can't be made, or is no folder")
    return target


def main(words: Optional[List[str]] = None) -> int:
    """The command: returns its status."""
    told = parser()
    asked = told.parse_args(words)
    names = names_of(asked, told)
    progress = Progress(names, asked.progress, standard_error(), shared_lines())
    intake = Intake(asked, rules_of(asked), target_of(asked, told), progress)
    try:
        with progress:
            for it in inputs_of(names):
                intake.take(it)
                progress.step()
            sys.stdout.buffer.flush()
    except OSError as error:
        if not isinstance(error, BrokenPipeError):
            print("pkder-intake: write failed", file=sys.stderr)
        # (so that the flush at the end says nothing)
        os.dup2(os.open(os.devnull, os.O_WRONLY), sys.stdout.fileno())
        return NOT_JUDGED
    return intake.status
