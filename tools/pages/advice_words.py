#!/usr/bin/env python3
"""advice_words.py: the words on reasons in crates/reports, beside the manual's list of reasons; and those of
`pkder help reasons`, beside the man page.

No proof sees that the words of a report are those of the manual. This compares each of the three texts of each reason
with its text in the list, and the reasons with those of the crate tlv_core, in their order; and each line of help with
the man page's. Then it plants another word in each text, and sees that this is told.

Each difference has a line; the last line is 'words: N passed, M failed', a text and a planted word counting once."""
import re
import sys
from pathlib import Path

sys.path[0] = str(Path(__file__).resolve().parents[2])
from tools.gate.logic import text_of
from tools.gate.looks import counted
from tools.pages.compare import compared

WORDS, PAGE, REASONS = "crates/reports/src/advice.rt", "docs/manual.md", "crates/tlv_core/src/reason.rt"
ARM = re.compile(r"Reason::(\w+) => Advice \{(.*?)\n        \}", re.S)
FIELD = re.compile(r'(means|likely|act):\s*"((?:[^"\\]|\\.)*)"', re.S)
PARTS = ("means", "likely", "act")
HELP, MAN_PAGE = "crates/pkder/src/help.rt", "docs/pkder.1"
LINE = re.compile(r"^  ([A-Z]\w+) +(\S.*)$", re.M)
ITEM = re.compile(r"^\.It ([A-Z][A-Za-z]+)\n((?:[^.].*\n)+)", re.M)


def reasons():
    body = re.search(r"pub enum Reason \{(.*?)\n\}", text_of(REASONS), re.S)[1]
    return re.findall(r"^    (\w+),$", body, re.M)


def of_code(text):
    """The texts by reason and part, and their places."""
    found = {}
    for reason, body in ARM.findall(text):
        for part, words in FIELD.findall(body):
            found[reason, part] = re.sub(r"\\\n\s*", "", words)
    return found, [it.span(2) for it in FIELD.finditer(text)]


def of_page(page):
    """The texts of the list by reason and part."""
    listed = re.split(r"## The [0-9]+ reasons\n", page)[1].split("\n## ", 1)[0]
    found = {}
    for reason, said in re.findall(r"(?m)^- \*\*(\w+)\*\*: (.+\n(?:  .*\n)*)", listed):
        texts = re.split(r"\n  - (?:often|to do): ", said)
        found.update({(reason, part): " ".join(it.replace("`", "").split())
                      for part, it in zip(PARTS, texts, strict=True)})
    return found


def of_help(text):
    """The line of each reason in `help reasons`, and its place."""
    lines = [*LINE.finditer(text, text.index("const REASONS"))]
    return {it[1]: it[2] for it in lines}, [it.span(2) for it in lines]


def of_man_page(text):
    """The words of each reason in the man page."""
    listed = text.split("The reasons are:", 1)[1]
    return {reason: " ".join(words.split()) for reason, words in ITEM.findall(listed)}


def looks():
    """Each look at the words on reasons, and at which reasons there are."""
    code, lines, names = text_of(WORDS), text_of(HELP), reasons()
    yield from compared((WORDS, PAGE), of_code, code, of_page(text_of(PAGE)))
    yield f"{WORDS}: the reasons of {REASONS}, in their order", [it for it, _ in ARM.findall(code)] == names
    yield from compared((HELP, MAN_PAGE), of_help, lines, of_man_page(text_of(MAN_PAGE)))
    yield f"{HELP}: the reasons of {REASONS}, by the alphabet", [*of_help(lines)[0]] == sorted(names)


if __name__ == "__main__":
    sys.exit(counted("words", looks()))
