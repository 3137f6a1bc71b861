#!/usr/bin/env python3
"""files.py PROGRAM..: documents that are named on the line or by a list, and new files, by each program.

Each run is in a folder of its own, which has files with names that hold spaces, quotes, line feeds and octets that
aren't UTF-8, a folder, a dangling link, a file that nobody may read, and devices. What is due is written here by hand:
an Ed25519 key in DER (RFC 8410), the same with its outer length in two octets where one will do, and the first 20
octets of it. Nobody runs it, or whoever runs this. The last line is 'files: N passed, M failed'."""
import json
import os
import pty
import re
import select
import shutil
import socket
import stat
import subprocess
import sys
import tempfile
import time
from pathlib import Path

TOP = sys.path[0] = str(Path(__file__).resolve().parents[2])
from tools.gate.looks import counted

SECONDS = 60
EXAMPLES = f"{TOP}/examples"
DER = bytes.fromhex("302e020100300506032b657004220420") + bytes(range(32))
BER = b"\x30\x81" + DER[1:]
CUT = DER[:20]
# a public key with two lengths in more octets than they need
TWO_LONG = bytes.fromhex("30812b30810506032b6570032100") + b"\xaa" * 32
# a DSA key (1.2.840.10040.4.1) without parameters, whose octets are carried, and one with an octet less
CARRIED = bytes.fromhex("3013020100300906072a8648ce3804010403020107")
LESS = bytes.fromhex("3012020100300906072a8648ce38040104020201")
ROOT, NOBODY = 0, 65534
FILES = {b"der": DER, b"ber": BER, b"cut": CUT, b"a name": DER, b"qu\"o'te": CUT, b"line\nfeed": CUT, b"-dash": DER,
         b"latin\xff1": DER, "é".encode(): DER, b"back\\slash": BER, b"\x1b[31m": DER}
TOLD = {b"qu\"o'te": '"qu\\"o\\\'te"', b"line\nfeed": '"line\\nfeed"', b"latin\xff1": '"latin\\xff1"',
        b"back\\slash": '"back\\\\slash"', b"\x1b[31m": '"\\u{1b}[31m"'}
# a public key under id-ecPublicKey (RFC 5480) without a curve, the same with its length in two octets, and one in DER
# with nothing to note but for TLS servers
CURVELESS = bytes.fromhex("3011300b06072a8648ce3d0201050003020004")
CURVELESS_BER = b"\x30\x81" + CURVELESS[1:]
SOUND = bytes.fromhex("302a300506032b6570032100") + b"\xaa" * 32
NOTED = "note must no_named_curve algorithm.algorithm: id-ecPublicKey without a named curve (RFC 5480 section 2.1.1)\n"
NOTED_TLS = ("note must key_algorithm algorithm.algorithm: a key that is neither rsaEncryption nor id-ecPublicKey "
             "(Baseline Requirements section 7.1.3.1)\n")
SAID = {DER: "DER", BER: "not DER at 1", CUT: "fault at 20: Truncated"}
SHOWN = ("kind: key\nversion: 0\nalgorithm: 1.3.101.112\nparameters: none\nprivate key: curve, 32 octets\n"
         "attributes: absent\npublic key: absent\n")
NOTE = "private key: the same octets\n"
OTHER = "not a regular file\n"
BINARY = ("error: what is written is binary, and standard output is a terminal\n\n"
          "  tip: --to NEW-FILE; with --to - it is written all the same\n\nFor more information, try '--help'.\n")


def line_of(name):
    """What `check` says of a file of the folder."""
    told = TOLD.get(name) or os.fsdecode(name)
    return f"{told}: " + ("the name is not UTF-8" if b"\xff" in name else SAID[FILES[name]])


def is_not_regular(name):
    return f"error: not a regular file: {name}\n\n  tip: '--to -' writes to standard output\n"


def element(tag, *contents):
    """An element of DER."""
    octets = b"".join(contents)
    length = len(octets).to_bytes((len(octets).bit_length() + 7) // 8 or 1, "big")
    return bytes([tag, *([] if len(octets) < 128 else [0x80 + len(length)]), *length]) + octets


def spellings():
    """One key of P-256 (1.2.840.10045.3.1.7) in its usual spellings, each with its kind: ECPrivateKey (RFC 5915) with
    the curve, PKCS #8 (RFC 5958) with the curve in the algorithm's parameters; with the public key and without it, the
    curve twice, with attributes, and of version 2 (v2, 1) with the public key outside."""
    curve, point = bytes.fromhex("06082a8648ce3d030107"), b"\4" + bytes(range(64))
    algorithm = element(0x30, bytes.fromhex("06072a8648ce3d0201"), curve)
    named, public = element(0xA0, curve), element(0xA1, element(3, b"\0", point))
    name = element(0x30, bytes.fromhex("06092a864886f70d010914"), element(0x31, element(0x1E, b"\0k")))

    def private(*fields):
        return element(0x30, b"\2\1\1", element(4, bytes(range(1, 33))), *fields)

    def key(version, inner, *fields):
        return element(0x30, element(2, bytes([version])), algorithm, element(4, inner), *fields)

    yield from (("ec", private(named)), ("ec", private(named, public)))
    yield from (("key", key(0, private())), ("key", key(0, private(public))), ("key", key(0, private(named))))
    yield from (("key", key(0, private(named, public))), ("key", key(0, private(public), element(0xA0, name))))
    yield "key", key(1, private(), element(0x81, b"\0", point))


class Folder:
    """The folder of a run."""

    def __init__(self, program):
        self.program, self.path = os.path.abspath(program), tempfile.mkdtemp()
        os.chmod(self.path, 0o777)
        for name, octets in FILES.items():
            self.write(name, octets)
        os.mkdir(f"{self.path}/folder")
        os.symlink("nothing", f"{self.path}/dangling")
        os.symlink("der", f"{self.path}/link")
        self.write(b"secret", DER)
        os.chmod(f"{self.path}/secret", 0)
        os.mkfifo(f"{self.path}/pipe")
        with socket.socket(socket.AF_UNIX) as it:
            it.bind(f"{self.path}/socket")

    def write(self, name, octets):
        with open(os.path.join(os.fsencode(self.path), name), "wb") as file:
            file.write(octets)

    def read(self, name):
        with open(f"{self.path}/{name}", "rb") as file:
            return file.read()

    def mode(self, name):
        return stat.S_IMODE(os.lstat(f"{self.path}/{name}").st_mode)

    def run(self, *words, given=b"", user=None, **how):
        """The status, standard output and standard error of a run."""
        how = {"stdout": subprocess.PIPE, "stderr": subprocess.PIPE} | how
        ran = subprocess.run([self.program, *words], input=given, cwd=self.path, user=user, timeout=SECONDS,
                             umask=0o022, **how)
        text = lambda octets: octets if octets is None else octets.decode("utf-8", "surrogateescape")
        return ran.returncode, text(ran.stdout), text(ran.stderr)

    def run_list(self, words, given):
        """A run with one more word, the name of a pipe to which this is written, as `<(..)` of bash has it."""
        reader, writer = os.pipe()
        os.write(writer, given)
        os.close(writer)
        ran = self.run(*words, f"/dev/fd/{reader}", pass_fds=(reader,))
        os.close(reader)
        return ran


def judged(at):
    """Runs of check, show and explain: what is wrong with each, if anything is."""
    names = list(FILES)
    plain = [it for it in names if b"\xff" not in it]
    lines = "".join(f"{line_of(it)}\n" for it in plain)
    yield "check, all names of text", (2, lines, ""), at.run("check", "-k", "key", "--", *map(os.fsdecode, plain))
    yield "check, a file in DER", (0, "der: DER\n", ""), at.run("check", "-k", "key", "der")
    yield "check, a name before the kind", (1, "ber: not DER at 1\n", ""), at.run("check", "ber", "-k", "key")
    yield "check, through a link", (0, "link: DER\n", ""), at.run("check", "-k", "key", "link")
    unread = ("folder: is a directory\nmissing: no such file\ndangling: no such file\nder/x: not in a directory\n"
              "der: DER\n")
    yield ("check, what can't be read", (3, unread, ""),
           at.run("check", "-k", "key", "folder", "missing", "dangling", "der/x", "der"))
    user = NOBODY if os.geteuid() == ROOT else None
    yield ("check, a file that nobody may read", (3, "secret: permission denied\nder: DER\n", ""),
           at.run("check", "-k", "key", "secret", "der", user=user))
    yield ("check, standard input between files", (2, "der: DER\nnot DER at 1\ncut: fault at 20: Truncated\n", ""),
           at.run("check", "-k", "key", "der", "-", "cut", given=BER))
    yield ("check, standard input that is refused", (2, "der: DER\n", "fault at 20: Truncated\n"),
           at.run("check", "-k", "key", "der", "-", given=CUT))
    yield "check, standard input by a dash", (0, "DER\n", ""), at.run("check", "-k", "key", "-", given=DER)
    yield ("check, only what isn't in DER", (2, "ber: not DER at 1\ncut: fault at 20: Truncated\n", ""),
           at.run("check", "-k", "key", "--quiet", "der", "ber", "link", "cut"))
    yield "check, nothing to say", (0, "", ""), at.run("check", "-k", "key", "--quiet", "der")
    yield "check, nothing to say of standard input", (0, "", ""), at.run("check", "-k", "key", "--quiet", given=DER)
    yield ("show, two files", (0, f"der:\n{SHOWN}link:\n{SHOWN}", ""), at.run("show", "-k", "key", "der", "link"))
    yield ("show, a file that is refused", (2, f"cut: fault at 20: Truncated\nder:\n{SHOWN}", ""),
           at.run("show", "-k", "pkcs8", "cut", "der"))
    alone = at.run("explain", "-k", "key", given=CUT)
    yield ("explain, a file", (2, f"cut:\n{alone[1]}", ""), at.run("explain", "-k", "key", "cut"))


def listed(at):
    """Runs whose names a list has."""
    names = list(FILES)
    lines = "".join(f"{line_of(it)}\n" for it in names)
    at.write(b"names", b"".join(it + b"\0" for it in names))
    check = ("check", "-k", "key", "--files0-from")
    yield "a list of all names", (3, lines, ""), at.run(*check, "names")
    yield ("a list on standard input", (1, "der: DER\nber: not DER at 1\n", ""),
           at.run(*check, "-", given=b"der\0ber\0"))
    yield ("a list whose last name isn't ended", (1, "der: DER\nber: not DER at 1\n", ""),
           at.run(*check, "-", given=b"der\0ber"))
    yield "an empty list", (0, "", ""), at.run(*check, "-")
    yield "a dash in a list is a file", (3, "-: no such file\n", ""), at.run(*check, "-", given=b"-\0")
    yield "an empty name", (3, '"": no such file\nder: DER\n', ""), at.run(*check, "-", given=b"\0der\0")
    yield ("names of the line before those of a list", (2, "cut: fault at 20: Truncated\nder: DER\n", ""),
           at.run(*check, "-", "cut", given=b"der\0"))
    yield ("what is no regular file isn't read", (3, f"pipe: {OTHER}link: DER\n/dev/null: {OTHER}socket: {OTHER}", ""),
           at.run(*check, "-", given=b"pipe\0link\0/dev/null\0socket\0"))
    yield ("the name of a list may be of a pipe", (0, "der: DER\n", ""), at.run_list(check, b"der\0"))
    yield "no such list", (3, "", "missing: no such file\n"), at.run(*check, "missing")
    yield ("a name that is too long", (3, "der: DER\n", "-: a name is longer than 65536 octets\n"),
           at.run(*check, "-", given=b"der\0" + b"x" * 65537 + b"\0"))
    os.mkdir(f"{at.path}/many")
    for number in range(1000):
        name = os.path.join(os.fsencode(at.path), b"many", b"%d \n'\"\xff"[: 3 + number % 5] % number)
        with open(name, "wb") as file:
            file.write(DER)
    found = subprocess.run(["find", "many", "-type", "f", "-print0"], cwd=at.path, capture_output=True, check=True)
    ran = at.run(*check, "-", given=found.stdout)
    yield "a thousand files, of which 200 have names that aren't UTF-8", (3, 800, 200, ""), (
        ran[0], ran[1].count(": DER\n"), ran[1].count("\": the name is not UTF-8\n"), ran[2])
    shutil.rmtree(f"{at.path}/many")


def members(text, *names):
    """These members of the objects of JSON, each on a line."""
    return [{it: found[it] for it in names if it in found} for found in map(json.loads, text.splitlines())]


def named_often(count):
    """A request whose subjectAltName (RFC 5280 section 4.2.1.6) has one DNS name so many times."""
    names = element(0x30, element(0x82, b"a.example") * count)
    extension = element(0x30, element(0x30, bytes.fromhex("0603551d11"), element(0x04, names)))
    asked = element(0xA0, element(0x30, bytes.fromhex("06092a864886f70d01090e"), element(0x31, extension)))
    curve = bytes.fromhex("300506032b6570")
    return element(0x30, element(0x30, bytes.fromhex("0201003000"), SOUND, asked), curve, element(0x03, bytes(65)))


def noted(at):
    """Runs of check with notes: each line has the name in front, and a note that is refused is a status of its own."""
    for name, octets in ((b"noted", CURVELESS), (b"two\nlines", CURVELESS_BER), (b"sound", SOUND)):
        at.write(name, octets)
    check = ("check", "-k", "public")
    lines = f"noted: DER\nnoted: {NOTED}" + "".join(f'"two\\nlines": {it}' for it in ("not DER at 1\n", NOTED))
    yield "check --notes", (1, f"{lines}sound: DER\n", ""), at.run(*check, "--notes", "noted", "two\nlines", "sound")
    yield ("check --refuse must, of several the largest status", (5, f"{lines}cut: fault at 2: WrongTag\n", ""),
           at.run(*check, "--refuse", "must", "noted", "two\nlines", "cut"))
    yield ("check --refuse must, nothing is refused", (3, "sound: DER\nmissing: no such file\n", ""),
           at.run(*check, "--refuse", "must", "sound", "missing"))
    yield ("check --notes, without what is in DER", (1, lines.replace("noted: DER\n", ""), ""),
           at.run(*check, "--notes", "--quiet", "noted", "sound", "two\nlines"))
    yield ("check --refuse must, standard input between files", (5, f"sound: DER\nDER\n{NOTED}sound: DER\n", ""),
           at.run(*check, "--refuse", "must", "sound", "-", "sound", given=CURVELESS))
    for level, due in (("--notes", 1), ("--refuse=must", 5)):
        status, text, error = at.run(*check, "--json", level, "--quiet", "noted", "sound", "two\nlines")
        told = [(it["file"], it["status"], [note["what"] for note in it["notes"]])
                for it in map(json.loads, text.splitlines())]
        found = [("noted", 0, ["no_named_curve"]), ("two\nlines", 1, ["no_named_curve"])]
        yield f"check --json {level}", (due, found, ""), (status, told, error)
    for count, due in ((100, 0), (101, 5)):
        at.write(b"often", named_often(count))
        status, text, error = at.run("check", "-k", "request", "--refuse", "must", "often")
        levels = {it.split()[2] for it in text.splitlines()[1:]}
        yield (f"check --refuse must, {count - 1} notes that advise", (due, count, {"should"}, ""),
               (status, len(text.splitlines()), levels, error))
    status, text, error = at.run(*check, "--json", "--notes", "sound", "cut")
    yield ("check --json --notes, no notes", (2, [{"file": "sound", "status": 0}, {"file": "cut", "status": 2}], ""),
           (status, members(text, "file", "status", "notes"), error))


def noted_tls(at):
    """Runs of check and explain under the profile tls: its notes come after the others."""
    for name, octets in ((b"noted", CURVELESS), (b"sound", SOUND)):
        at.write(name, octets)
    check = ("check", "-k", "public")
    lines = f"noted: DER\nnoted: {NOTED}sound: DER\nsound: {NOTED_TLS}"
    for words, status in ((("--profile", "tls"), 0), (("--refuse", "tls"), 5)):
        yield f"check {' '.join(words)}", (status, lines, ""), at.run(*check, *words, "noted", "sound")
    yield ("check --profile tls, standard input", (0, f"sound: DER\nsound: {NOTED_TLS}DER\n{NOTED_TLS}", ""),
           at.run(*check, "--profile", "tls", "sound", "-", given=SOUND))
    whats = [("noted", ["no_named_curve"]), ("sound", ["key_algorithm"])]
    for command, words, due in (("check", ["--refuse", "tls"], 5), ("explain", ["--profile", "tls"], 0)):
        status, text, error = at.run(command, "-k", "public", "--json", *words, "noted", "sound")
        told = [(it["file"], [note["what"] for note in it["notes"]]) for it in map(json.loads, text.splitlines())]
        yield f"{command} --json {' '.join(words)}", (due, whats, ""), (status, told, error)
    # (100 notes are told at most)
    for count, levels in ((100, {"should", "must"}), (101, {"should"})):
        at.write(b"often", named_often(count))
        status, text, error = at.run("check", "-k", "request", "--refuse", "tls", "often")
        found = {it.split()[2] for it in text.splitlines()[1:]}
        yield (f"check --refuse tls, {count - 1} notes that advise", (5, 101, levels, ""),
               (status, len(text.splitlines()), found, error))


def told_in_json(at):
    """Runs of check and show that write objects of JSON."""
    at.write(b"names", b'der\0ber\0cut\0line\nfeed\0missing\0latin\xff1\0"latin\\xff1"\0')
    status, text, error = at.run("check", "-k", "key", "--json", "--files0-from", "names")
    due = [{"file": "der", "status": 0, "verdict": "der"}, {"file": "ber", "status": 1, "verdict": "not_der", "at": 1},
           {"file": "cut", "status": 2, "verdict": "refused", "at": 20, "reason": "Truncated"},
           {"file": "line\nfeed", "status": 2, "verdict": "refused", "at": 20, "reason": "Truncated"},
           {"file": "missing", "status": 3, "error": "no such file"},
           {"file": '"latin\\xff1"', "status": 3, "error": "the name is not UTF-8"},
           {"file": '"\\"latin\\\\xff1\\""', "status": 3, "error": "no such file"}]
    yield ("check, objects of JSON", (3, due, ""),
           (status, members(text, "file", "status", "verdict", "at", "reason", "error"), error))
    status, text, error = at.run("check", "-k", "key", "--json", "--quiet", "der", "ber")
    yield ("check, objects of what isn't in DER", (1, [{"file": "ber", "verdict": "not_der"}], ""),
           (status, members(text, "file", "verdict"), error))
    status, text, error = at.run("check", "-k", "key", "--json", given=BER)
    yield ("check, an object of standard input", (1, [{"kind": "key", "status": 1, "verdict": "not_der"}], ""),
           (status, members(text, "file", "kind", "status", "verdict"), error))
    for count in (1, 2):
        status, text, error = at.run("check", "-k", "public", "--json", "--places", str(count), given=TWO_LONG)
        told = [(len(it["not_der"]), it["not_der_places"]) for it in map(json.loads, text.splitlines())]
        yield f"check, {count} of two places that aren't in DER", (1, [(count, 2)], ""), (status, told, error)
    status, text, error = at.run("show", "-k", "key", "--json", "der", "missing")
    due = [{"file": "der", "octets": 48}, {"file": "missing", "error": "no such file"}]
    yield ("show, objects of JSON", (3, due, ""), (status, members(text, "file", "octets", "error"), error))


def kinds_found(at):
    """Runs that find the kind of each document."""
    at.write(b"public", SOUND)
    at.write(b"noted", CURVELESS)
    at.write(b"text", b"none")
    due = ("der: key: DER\nber: key: not DER at 1\npublic: public: DER\n"
           "cut: none of these; likely key: fault at 20: Truncated\ntext: none of these\n")
    yield "check --any", (2, due, ""), at.run("check", "--any", "der", "ber", "public", "cut", "text")
    due = f"noted: public: DER\nnoted: public: {NOTED}"
    yield "check --any --notes", (0, due, ""), at.run("check", "--any", "--notes", "noted")
    yield "show --any", (0, f"der:\n{SHOWN}", ""), at.run("show", "--any", "der")
    status, text, error = at.run("check", "--any", "--json", "der", "cut")
    due = [{"file": "der", "kind": "key", "status": 0},
           {"file": "cut", "status": 2, "error": "none of these; likely key: fault at 20: Truncated"}]
    yield "check --any --json", (2, due, ""), (status, members(text, "file", "kind", "status", "error"), error)
    status, text, error = at.run("explain", "--any", "cut")
    _, report, _ = at.run("explain", "-k", "key", given=CUT)
    yield "explain --any", (2, f"cut:\nnone of these\n\n{report}", ""), (status, text, error)


def summed(at):
    """Runs whose last line on standard error says how many documents count as what."""
    at.write(b"public", SOUND)
    at.write(b"noted", CURVELESS)
    at.write(b"text", b"none")
    check = ("check", "-k", "key", "--sum")
    lines = "der: DER\nber: not DER at 1\ncut: fault at 20: Truncated\nmissing: no such file\n"
    due = "sum: 4 documents: 1 DER, 1 not DER, 1 refused (1 Truncated), 1 unread\n"
    yield "check --sum", (3, lines, due), at.run(*check, "der", "ber", "cut", "missing")
    yield ("check --sum, names before those of a list", (3, lines, due),
           at.run(*check, "der", "ber", "--files0-from", "-", given=b"cut\0missing\0"))
    yield "check --sum, no names in a list", (0, "", "sum: 0 documents\n"), at.run(*check, "--files0-from", "-")
    yield ("check --sum, standard input between files, and what is written of it",
           (2, "der: DER\nder: DER\n", "fault at 20: Truncated\nsum: 3 documents: 2 DER, 1 refused (1 Truncated)\n"),
           at.run(*check, "der", "-", "der", given=CUT))
    yield ("check --sum, reasons in the order of their numbers",
           (2, "public: fault at 2: WrongTag\ncut: fault at 20: Truncated\nlink: DER\n",
            "sum: 3 documents: 1 DER, 2 refused (1 Truncated, 1 WrongTag)\n"), at.run(*check, "public", "cut", "link"))
    yield ("check --sum, the next name doesn't come, and nothing is summed",
           (3, "der: DER\n", "-: a name is longer than 65536 octets\n"),
           at.run(*check, "--files0-from", "-", given=b"der\0" + b"x" * 65537))
    yield "check --sum, no such list", (3, "der: DER\n", "missing: no such file\n"), at.run(
        *check, "der", "--files0-from", "missing")
    yield ("check --sum --quiet", (1, "ber: not DER at 1\n", "sum: 2 documents: 1 DER, 1 not DER\n"),
           at.run(*check, "--quiet", "der", "ber"))
    with open("/dev/full", "wb") as full:
        yield ("check --sum, a full disk", (3, None, "write failed after 0\n"),
               at.run(*check, "der", "ber", stdout=full))
    due = ("sum: 6 documents: 3 DER (1 key, 2 public), 1 not DER (1 key), "
           "2 refused (1 of no kind, 1 Truncated)\n")
    status, _, error = at.run("check", "--any", "--sum", "der", "noted", "text", "ber", "public", "cut")
    yield "check --any --sum", (2, due), (status, error)
    due = "sum: 3 documents: 1 DER (1 key), 1 noted (1 public), 1 unread\n"
    status, _, error = at.run("check", "--any", "--sum", "--refuse", "must", "noted", "der", "missing")
    yield "check --any --refuse must --sum", (5, due), (status, error)
    for words in (("explain",), ("explain", "--brief")):
        status, _, error = at.run(*words, "-k", "key", "--sum", "der", "cut", "ber")
        yield (f"{' '.join(words)} --sum", (2, "sum: 3 documents: 1 DER, 1 not DER, 1 refused (1 Truncated)\n"),
               (status, error))
    status, _, error = at.run("show", "-k", "key", "--sum", "der", "cut", "ber")
    yield "show --sum", (2, "sum: 3 documents: 2 shown, 1 refused (1 Truncated)\n"), (status, error)
    status, text, error = at.run("check", "--any", "--json", "--sum", "der", "ber", "cut", "text", "missing")
    found = json.loads(error)
    yield ("check --json --sum", (3, 5, [5, 1, 1, 0, 2, 1, 1], [{"reason": "Truncated", "count": 1}],
                                  [{"kind": "key", "der": 1, "not_der": 1, "noted": 0}]),
           (status, len(text.splitlines()),
            [found[it] for it in ("documents", "der", "not_der", "noted", "refused", "unread", "no_kind")],
            found["reasons"], [it for it in found["kinds"] if it["der"] or it["not_der"]]))


def streamed(at):
    """Runs over documents one behind another."""
    at.write(b"keys", DER + BER + DER)
    at.write(b"ended", DER + CUT)
    at.write(b"empty", b"")
    at.write(b"public", SOUND)
    each, size = ("check", "-k", "key", "--each"), len(DER)
    lines = f"keys: 1 at 0: DER\nkeys: 2 at {size}: not DER at 1\nkeys: 3 at {size + len(BER)}: DER\n"
    ended = f"ended: 1 at 0: DER\nended: 2 at {size}: fault at 20: Truncated\n"
    yield "check --each", (1, lines, ""), at.run(*each, "keys")
    yield "check --each, each file by itself", (2, ended + lines, ""), at.run(*each, "ended", "keys")
    yield "check --each, no document", (0, "", ""), at.run(*each, "empty")
    yield "check --each, not there", (3, lines, "missing: no such file\n"), at.run(*each, "missing", "keys")
    yield "check --each, a folder", (3, "", "folder: is a directory\n"), at.run(*each, "folder")
    yield ("check --each, standard input between files", (1, f"der: 1 at 0: DER\n1 at 0: not DER at 1\n{lines}", ""),
           at.run(*each, "der", "-", "keys", given=BER))
    yield ("check --each --sum", (3, lines, "missing: no such file\nsum: 4 documents: 2 DER, 1 not DER, 1 unread\n"),
           at.run(*each, "--sum", "keys", "missing"))
    at.write(b"mixed", DER + SOUND)
    due = f"mixed: 1 at 0: key: DER\nmixed: 2 at {size}: public: DER\n"
    yield "check --any --each", (0, due, ""), at.run("check", "--any", "--each", "mixed")
    yield "show --each", (0, f"der: 1 at 0:\n{SHOWN}", ""), at.run("show", "-k", "key", "--each", "der")
    status, text, error = at.run(*each, "--json", "ended")
    due = [{"file": "ended: 1 at 0", "status": 0, "verdict": "der"},
           {"file": f"ended: 2 at {size}", "status": 2, "verdict": "refused", "at": 20}]
    yield "check --each --json", (2, due, ""), (status, members(text, "file", "status", "verdict", "at"), error)
    yield ("check --each, a name that is told in quotes", (2, '"line\\nfeed: 1 at 0": fault at 20: Truncated\n', ""),
           at.run(*each, "line\nfeed"))


def in_both_forms(size):
    """A key in DER with an attribute (1.2.3) of so many octets, and in the indefinite form (X.690 8.1.3.6)."""
    values = element(0x31, element(0x04, b"\xaa" * size))
    attributes = element(0xa0, element(0x30, b"\x06\x02\x2a\x03", values))
    contents = DER[2:] + attributes
    return element(0x30, contents), b"\x30\x80" + contents + b"\0\0"


def streamed_in_turn(at):
    """A run over documents of a pipe, each of which is written when the line of the one before is read."""
    (short, loose), (long, looser) = in_both_forms(20000), in_both_forms(200000)
    how = {"stdin": subprocess.PIPE, "stdout": subprocess.PIPE, "cwd": at.path}
    with subprocess.Popen([at.program, "check", "-k", "key", "--each"], **how) as ran:
        number, place = 1, 0
        for octets in (DER, short, loose, long, looser, DER):
            verdict = "not DER at 1" if octets in (loose, looser) else "DER"
            ran.stdin.write(octets)
            ran.stdin.flush()
            there = select.select([ran.stdout], [], [], SECONDS)[0]
            yield (f"check --each, {len(octets)} octets", f"{number} at {place}: {verdict}\n",
                   os.read(ran.stdout.fileno(), 100).decode() if there else "nothing yet")
            number, place = number + 1, place + len(octets)
        yield "check --each, nothing more", b"", ran.communicate(timeout=SECONDS)[0]
    yield "check --each, its status", 1, ran.returncode


def sized(size):
    """A key as `in_both_forms` has it, of so many octets in DER; four are those of its header."""
    der, loose = next(it for it in map(in_both_forms, range(size)) if len(it[0]) == size)
    return der, loose


def read_ahead(at):
    """Runs over files that are shorter and longer than what is read of one at once, 512 to 8,192 octets, and over such
    as can't be read, or whose length the system doesn't know."""
    check = ("check", "-k", "key")
    for size in (511, 512, 513, 8191, 8192, 8193, 16384, 16385):
        der, loose = sized(size)
        for name, octets in ((b"sized", der), (b"loose", loose), (b"short", der[:-1]), (b"more", der + b"\0")):
            at.write(name, octets)
        due = (f"sized: DER\nloose: not DER at 1\nshort: fault at {size - 1}: Truncated\n"
               f"more: fault at {size}: Trailing\n")
        names = ("sized", "loose", "short", "more")
        yield f"check, files of {size} octets", (2, due, ""), at.run(*check, *names)
        yield (f"check, files of {size} octets in a list", (2, due, ""),
               at.run(*check, "--files0-from", "-", given="\0".join(names).encode()))
        yield f"same, files of {size} octets", (0, "the same document\n", ""), at.run(
            "same", "-k", "key", "sized", "loose")
        status, text, error = at.run("normalise", "-k", "key", "loose")
        yield (f"normalise, a file of {size} octets", (0, der, ""),
               (status, text.encode("utf-8", "surrogateescape"), error))
    at.write(b"empty", b"")
    due = "empty: fault at 0: Truncated\nder: DER\n"
    yield "check, an empty file", (2, due, ""), at.run(*check, "empty", "der")
    yield "check, an empty file in a list", (2, due, ""), at.run(*check, "--files0-from", "-", given=b"empty\0der\0")
    # (regular files of length 0: of the first the octets at 0 can't be read, and the second begins with a letter)
    due = "/proc/self/mem: read failed at 0\n/proc/version: fault at 0: WrongTag\nder: DER\n"
    names = ("/proc/self/mem", "/proc/version", "der")
    yield "check, files of the system", (3, due, ""), at.run(*check, *names)
    yield ("check, files of the system in a list", (3, due, ""),
           at.run(*check, "--files0-from", "-", given="\0".join(names).encode()))
    for words in (("normalise", "-k", "key"), ("same", "-k", "key", "der"), ("check", "-k", "key", "--files0-from")):
        told = "/proc/self/mem: read failed\n" if "--files0-from" in words else "/proc/self/mem: read failed at 0\n"
        yield f"{words[0]}, a file that can't be read", (3, "", told), at.run(*words, "/proc/self/mem")


def read_when_asked(at):
    """A run of same over two FIFOs, whose writer opens both before it writes to either."""
    names = [f"{at.path}/{it}" for it in ("left", "right")]
    for name in names:
        os.mkfifo(name)
    how = {"stdout": subprocess.PIPE, "stderr": subprocess.PIPE, "cwd": at.path}
    with subprocess.Popen([at.program, "same", "-k", "key", "left", "right"], **how) as ran:
        end = time.monotonic() + SECONDS
        writers = []
        while len(writers) < 2 and time.monotonic() < end and ran.poll() is None:
            # (a FIFO that nobody reads yet isn't opened to be written to without waiting)
            try:
                writers.append(os.open(names[len(writers)], os.O_WRONLY | os.O_NONBLOCK))
            except OSError:
                time.sleep(0.01)
        for writer, octets in zip(writers, (DER, BER)):
            os.write(writer, octets)
            os.close(writer)
        said, told = ran.communicate(timeout=SECONDS) if len(writers) == 2 else (b"", b"")
        ran.kill()
    yield "same, two FIFOs", (2, b"the same document\n", b""), (len(writers), said, told)


def paired(at):
    """Runs of same."""
    same, key = ("same", "-k", "key"), ("same", "--key", "-k", "key")
    written = list(spellings())
    for number, (_, octets) in enumerate(written):
        at.write(b"spelling%d" % number, octets)
    at.write(b"carried", CARRIED)
    at.write(b"less", LESS)
    other = DER[:-1] + b"\xff"
    at.write(b"other", other)
    private = "another document: privateKey\n  der: 32 octets\n  other: 32 octets\nprivate key: other octets\n"
    yield "the same, laid out otherwise", (0, "the same document\n", ""), at.run(*same, "der", "ber")
    yield "a file with itself", (0, "the same document\n", ""), at.run(*same, "ber", "ber")
    yield "another private key", (1, private, ""), at.run(*same, "der", "other")
    yield "standard input first", (0, "the same document\n", ""), at.run(*same, "-", "ber", given=DER)
    yield "standard input last", (0, "the same document\n", ""), at.run(*same, "ber", "-", given=DER)
    yield ("standard input, in what differs", (1, private.replace("other:", "-:"), ""),
           at.run(*same, "der", "-", given=other))
    refused = "cut: fault at 20: Truncated\n"
    yield "one that is refused", (2, refused, ""), at.run(*same, "der", "cut")
    yield "a refused one with itself", (2, refused * 2, ""), at.run(*same, "cut", "cut")
    yield ("names that are told in quotes", (2, '"line\\nfeed": fault at 20: Truncated\n', ""),
           at.run(*same, "der", "line\nfeed"))
    yield "no such file", (3, "", "missing: no such file\n"), at.run(*same, "missing", "cut")
    yield "no such other file", (3, "", "folder: is a directory\n"), at.run(*same, "cut", "folder")
    yield "the same key", (0, "the same key\n", ""), at.run(*key, "der", "ber")
    yield "another key", (1, "another key\n", ""), at.run(*key, "der", "other")
    for first, (kind, _) in enumerate(written):
        for second, (other_kind, _) in enumerate(written):
            words = ("--key", "-k", kind, "-k", other_kind, f"spelling{first}", f"spelling{second}")
            yield f"spellings {first} and {second} of a key", (0, "the same key\n", ""), at.run("same", *words)
            if kind == other_kind and first != second:
                ran = at.run("same", "-k", kind, f"spelling{first}", f"spelling{second}")
                yield (f"spellings {first} and {second} as documents", (1, "another document", NOTE, ""),
                       (ran[0], ran[1][:16], ran[1][-len(NOTE):], ran[2]))
    yield "keys of two algorithms", (1, "another key\n", ""), at.run(*key, "spelling2", "der")
    yield "a key that is carried", (2, "not compared: id-dsa is carried\n", ""), at.run(*key, "carried", "carried")
    yield "a refused key", (2, refused, ""), at.run(*key, "cut", "der")
    yield "by the kind of the first", (2, "spelling0: fault at 5: WrongTag\n", ""), at.run(*key, "der", "spelling0")
    yield ("a carried key in another document",
           (1, "another document: privateKey\n  carried: 3 octets\n  less: 2 octets\n"
            "private key: not compared: id-dsa is carried\n", ""), at.run(*same, "carried", "less"))
    status, text, error = at.run(*same, "--json", "der", "line\nfeed")
    fault = {"at": 20, "reason": "Truncated"}
    due = {"form": 1, "kind": "key", "status": 2, "verdict": "refused", "first": {"file": "der"},
           "second": {"file": "line\nfeed", "fault": fault}}
    yield "an object of a refused one", (2, due, ""), (status, without_version(text), error)
    status, text, error = at.run(*same, "--json", "der", "other")
    due = {"form": 1, "kind": "key", "status": 1, "verdict": "another", "first": {"file": "der"},
           "second": {"file": "other"}, "more": 0,
           "differences": [{"field": "privateKey", "first": "32 octets", "second": "32 octets"}]}
    yield "an object of what differs", (1, due, ""), (status, without_version(text), error)
    with open("/dev/full", "wb") as full:
        yield "a full disk", (3, None, "write failed after 0\n"), at.run(*same, "der", "ber", stdout=full)


def without_version(text):
    """The object of JSON on the one line of a text, without the version of the program."""
    (line,) = text.splitlines()
    return {name: it for name, it in json.loads(line).items() if name != "version"}


def agreed(at):
    """Runs of same over each two of the examples of a kind: they are the same where normalise writes the same."""
    with open(f"{EXAMPLES}/answers.tsv", encoding="utf-8") as file:
        kinds = {name: kind for kind, name in re.findall(r"\tnormalise --kind (\w+)\t@(\S+)", file.read())}
    texts = {it: at.run("normalise", "-k", kind, f"{EXAMPLES}/{it}")[:2] for it, kind in kinds.items()}
    for first in kinds:
        for second in (it for it in kinds if kinds[it] == kinds[first] and it >= first):
            status = at.run("same", "-k", kinds[first], f"{EXAMPLES}/{first}", f"{EXAMPLES}/{second}")[0]
            due = max(texts[first][0], texts[second][0]) or int(texts[first] != texts[second])
            yield f"{first} and {second}", due, status


def made(at):
    """Runs of normalise and signed, and the files that they leave."""
    to = ("normalise", "-k", "key", "--to")
    before = set(os.listdir(at.path))
    yield "a new file", (0, "", ""), at.run(*to, "new", "ber")
    yield "what is in it, and who may read it", (DER, 0o600), (at.read("new"), at.mode("new"))
    yield "a file into itself", (0, "", ""), at.run(*to, "new", "new")
    os.chmod(f"{at.path}/new", 0o640)
    at.write(b"new", BER)
    yield "a file with a mode into itself", (0, "", ""), at.run(*to, "new", "new")
    yield "that is kept", (DER, 0o640), (at.read("new"), at.mode("new"))
    yield "a refused file", (2, "", "cut: fault at 20: Truncated\n"), at.run(*to, "new", "cut")
    yield "of which nothing is left", DER, at.read("new")
    yield "a refused file, to one that isn't there", (2, "", "fault at 20: Truncated\n"), at.run(*to, "none", given=CUT)
    os.symlink("folder/led", f"{at.path}/to")
    yield "through a link to nothing", (0, "", ""), at.run(*to, "to", given=BER)
    yield "the link stands", ("folder/led", DER), (os.readlink(f"{at.path}/to"), at.read("folder/led"))
    for name, what in (("pipe", "a pipe"), ("folder", "a folder"), ("/dev/null", "a device")):
        yield f"to {what}", (4, "", is_not_regular(name)), at.run(*to, name, "ber")
    yield "to a folder that isn't there", (3, "", "none/new: no such folder\n"), at.run(*to, "none/new", "ber")
    yield "to what isn't a folder", (3, "", "der/new: not in a folder\n"), at.run(*to, "der/new", "ber")
    user = NOBODY if os.geteuid() == ROOT else None
    os.chmod(f"{at.path}/folder", 0o555)
    yield ("to a folder where nothing may be made", (3, "", "folder/new: permission denied\n"),
           at.run(*to, "folder/new", "ber", user=user))
    os.chmod(f"{at.path}/folder", 0o755)
    public = bytes.fromhex("302a300506032b6570032100" + "aa" * 32)
    yield "a public key", (0, "", ""), at.run("normalise", "-k", "public", "--to", "public", given=public)
    yield "which anybody may read", (public, 0o644), (at.read("public"), at.mode("public"))
    yield "to standard output", (0, DER.decode("latin-1"), ""), at.run(*to, "-", "ber")
    yield "no such file", (3, "", "missing: no such file\n"), at.run(*to, "new", "missing")
    yield "no other file is left", {"new", "to", "public"}, set(os.listdir(at.path)) - before


def closed(at):
    """Runs whose output fails."""
    with open("/dev/full", "wb") as full:
        check = at.run("check", "-k", "key", "der", "ber", stdout=full)
        normalise = at.run("normalise", "-k", "key", "ber", stdout=full)
    yield "check, a full disk", (3, None, "write failed after 0\n"), check
    yield "normalise, a full disk", (3, None, "ber: write failed after 0\n"), normalise
    for words in (("check", "-k", "key", "der"), ("show", "-k", "key", "der")):
        reader, writer = os.pipe()
        os.close(reader)
        ran = at.run(*words, stdout=writer, preexec_fn=lambda: None)
        os.close(writer)
        yield f"{words[0]}, a pipe that nobody reads", (True, None), (ran[0] != 0, ran[1])
    leader, terminal = pty.openpty()
    yield ("normalise, to a terminal", (4, None, BINARY), at.run("normalise", "-k", "key", "ber", stdout=terminal))
    yield ("signed, to a terminal", (4, None, BINARY), at.run("signed", "ber", stdout=terminal))
    yield ("check, to a terminal", (0, None, ""), at.run("check", "-k", "key", "der", stdout=terminal))
    yield "what the terminal got", b"der: DER\r\n", os.read(leader, 100)
    yield ("normalise, to a terminal that is asked for", (0, None, ""),
           at.run("normalise", "-k", "key", "--to", "-", "ber", stdout=terminal))
    yield "what the terminal got then", DER[:2], os.read(leader, 100)[:2]
    yield ("normalise, to a terminal and a file", (0, None, ""),
           at.run("normalise", "-k", "key", "--to", "new", "ber", stdout=terminal))


def looks(program):
    """Each run of the program, and whether it is right."""
    for runs in (judged, listed, noted, noted_tls, told_in_json, kinds_found, summed, streamed, streamed_in_turn,
                 read_ahead, read_when_asked, paired, agreed, made, closed):
        at = Folder(program)
        try:
            for what, due, found in runs(at):
                yield f"{program}: {what}: due {due!r}\n  found {found!r}", due == found
        finally:
            shutil.rmtree(at.path)


if __name__ == "__main__":
    if not sys.argv[1:]:
        sys.exit(__doc__)
    sys.exit(counted("files", (it for program in sys.argv[1:] for it in looks(program))))
