"""What words say is to be done with a file, as commands, and doing it."""
import os
import re
import shutil
import subprocess
from typing import NamedTuple, Optional

from tests.advice import pages

SECONDS = 60
SECRET = "secret"
# The name of the first key of a store, as keytool lists it.
FIRST_ALIAS = '"$(keytool -list -keystore FILE -storepass secret | sed -n "s/, .*PrivateKeyEntry.*//p" | head -1)"'
# BouncyCastle's provider, as Debian has it.
JAR = "/usr/share/java/bcprov.jar"
# Where the command ends and what is said of it begins.
PROSE = re.compile(r" (?:writes|makes|names|leaves|gives|asks|marks|takes)\b")
COMMANDS = "openssl|certtool|ssh-keygen|keytool|puttygen|xxd|tr|iconv|jq|node|awk|gunzip"
COMMAND = re.compile(rf"(?:\(head|{COMMANDS})\b")


class Step(NamedTuple):
    """What is to be done: read the file as another kind, or run a command in a shell and go on with what it writes."""

    kind: Optional[str] = None
    command: Optional[str] = None


def of_words(kind, told):
    """The steps that the words of a report name, in the order in which they are tried."""
    words, likely = told.get("do") or "", told.get("likely") or ""
    other = re.search(r"read it with --kind (\w+)", words)
    follows = re.search(r"xxd -s (\d+) FILE, before you cut it off", words)
    if "decode its base64" in words:
        label = likely.partition("labelled ")[2]
        if label:
            yield Step(other[1] if other else pages.kinds_of_labels().get(label, kind), f"pem '{label}' FILE > NEW")
    elif other and not COMMAND.match(words):
        yield Step(other[1])
    elif follows:
        yield Step(kind, f"xxd -s {follows[1]} FILE > LOOK; head -c {follows[1]} FILE > NEW")
    for part in words.split("; "):
        if COMMAND.match(part):
            yield from of_command(other[1] if other else kind, part)


def of_command(kind, words):
    """The steps of words that begin with a command."""
    command = PROSE.split(words)[0]
    made = re.search(r"(?:makes it|of|and makes it) kind (\w+)", words)
    kind = made[1] if made else "key" if "makes it PKCS #8" in words else kind
    if ".NAME" in command:
        yield from (Step(kind, command.replace(".NAME", name)) for name in (".csr", ".key", ".spec.request"))
        return
    yield Step(kind, command)
    option = re.search(r"with (-\w+) that of an old file", words)
    if option:
        yield Step(kind, command.replace(" -in", f" {option[1]} -in"))


def of_formats(kind, octets, due):
    """The steps that the manual names for a file of another format, where documents of these kinds are due."""
    for label in dict.fromkeys(pages.labels_in(octets)):
        found = pages.kinds_of_labels().get(label)
        if found in due:
            yield Step(found, f"pem '{label}' FILE > NEW")
    for row in pages.formats(octets):
        yield from (Step(kind, completed(it, octets)) for it in pages.commands_of(row))


def of_refused(kind, tool, told, octets):
    """The steps that the manual names for a document that is refused."""
    places = [told] + ([told["inside"]] if told.get("inside") else [])
    for place in places:
        for row in pages.refused(tool, kind, place["reason"], place["at"]):
            yield from (Step(kind, completed(it, octets)) for it in row.commands())


def completed(command, octets):
    """A command with the options that the page leaves out: the file, and its form."""
    for word, meant in (("NEW-FILE", "NEW"), ("-srcalias NAME", f"-srcalias {FIRST_ALIAS}"), (" JAR ", f" {JAR} "),
                        ("pem LABEL", f"pem '{(pages.labels_in(octets) or [''])[0]}'")):
        command = command.replace(word, meant)
    if re.search(r"\b(FILE|COPY)\b", command):
        return command
    form = "" if b"-----BEGIN" in octets else " -inform DER"
    return f"{command}{form} -in FILE -outform DER"


def answers(command, is_locked):
    """What is typed where a command asks."""
    if "ssh-keygen -p" in command:
        new = SECRET if is_locked and "-m PKCS8" in command else ""
        return f"{SECRET}\n" * is_locked + f"{new}\n" * 2
    # (puttygen takes all that is there for one password)
    return f"{SECRET}\n" * (1 if "puttygen" in command else 4)


def done(step, file, folder, is_locked):
    """The file that a step leads to, or None; and what was said."""
    if step.command is None:
        return file, ""
    shutil.rmtree(folder, ignore_errors=True)
    os.makedirs(folder)
    for name in ("FILE", "COPY"):
        shutil.copyfile(file, f"{folder}/{name}")
        os.chmod(f"{folder}/{name}", 0o600)
    before = octets_of(f"{folder}/COPY")
    script = f"{pages.SHELL}\n{step.command} > OUT"
    try:
        ran = subprocess.run(["sh", "-c", script], cwd=folder, input=answers(step.command, is_locked).encode(),
                             capture_output=True, timeout=SECONDS, start_new_session=True)
    except subprocess.TimeoutExpired:
        return None, "it doesn't end"
    for name in ("COPY",) if re.search(r"\bCOPY\b", step.command) else ("NEW", "OUT"):
        found = f"{folder}/{name}"
        if os.path.isfile(found) and os.path.getsize(found) and octets_of(found) != before:
            return found, ""
    return None, (ran.stderr.decode("utf-8", "replace").strip().split("\n") or [""])[-1]


def octets_of(path):
    """The octets of a file."""
    with open(path, "rb") as file:
        return file.read()
