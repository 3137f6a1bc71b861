"""What a report of a refused document says of private octets by chance alone.

Where damage moves private octets to places that are public, one of them may happen to be what usually stands there: the
last arc of an attribute's type, the first octet of a NULL, a length at whose end a usual element begins. The report
then shows it as that. So it is for few of the values that this octet may have, where a leak shows most of them."""
import json
from collections import Counter

from tests.explained.report_differences import differences, runs_told

# Of so many values at most one may have a report other than most have.
ONE_OF = 4
# So many documents show whether a report has octets among its words.
ASKED = 16


def is_by_chance(asked, kind, texts, is_looked_at):
    """Whether of each octet in which two documents differ few values have a report of their own, among those that have
    one line of `check`, with every other octet as it is in either document."""
    apart = [at for at, (one, other) in enumerate(zip(*texts)) if one != other]
    return all(few_are_shown(asked, kind, text, at, is_looked_at) for text in texts for at in apart)


def few_are_shown(asked, kind, text, at, is_looked_at):
    """Whether few values of one octet of a document have a report of their own."""
    documents = [text[:at] + bytes([it]) + text[at + 1 :] for it in range(256)]
    lines = asked.lines(kind, documents)
    alike = [it for it, line in zip(documents, lines) if line == lines[text[at]]]
    reports = Counter(it.decode() for it in asked.listings(kind, alike))
    usual = reports.most_common(1)[0][0]
    others = sum(count for it, count in reports.items() if differences(usual, it, False, is_looked_at)[1])
    return others <= max(1, len(alike) // ONE_OF)


def are_in_words(asked, kind, text, run, name):
    """Whether the report of this name has a run of octets among its words: also of documents that haven't the run, its
    last octet being another one wherever it stands, and of which `check` has the same line."""
    last = {at + len(run) - 1 for at in range(len(text)) if text.startswith(run, at)}
    documents = [bytes(octet ^ (step if at in last else 0) for at, octet in enumerate(text)) for step in range(1, 256)]
    documents = [it for it in documents if run not in it]
    line, *lines = asked.lines(kind, [text, *documents])
    alike = [it for it, own in zip(documents, lines) if own == line][:ASKED]
    return bool(alike) and all(run in runs_told(it[name].decode()) for it in asked.texts(kind, alike))


class Worded:
    """Reports of these words and what a function makes of a document."""

    def __init__(self, words, told):
        self.words, self.told = words, told

    def lines(self, _, documents):
        return [len(it) for it in documents]

    def texts(self, _, documents):
        return [{"a report": f"{self.words} {self.told(it)}".encode()} for it in documents]


class Shown:
    """Reports that show of the octets 2 and 3 of a document what a function makes of them."""

    def __init__(self, shown):
        self.shown = shown

    def lines(self, _, documents):
        return [len(it) for it in documents]

    def listings(self, _, documents):
        return [json.dumps({"lines": [{"at": self.shown(*it[2:4])}]}).encode() for it in documents]


def chances_that_fail():
    """Cases of the rule above that aren't judged as they should be: leaks, and what is shown by chance."""
    leaks = {
        "an octet": lambda one, _: one, "a bit": lambda one, _: one >> 7, "a sum": lambda one, other: one + other,
        "an octet after 30": lambda one, other: other if one == 0x30 else -1,
        "whether an octet is 0 to 127": lambda one, _: one < 128,
    }
    chances = {"the last arc": lambda one, _: one if one in range(1, 15) else -1,
               "a NULL": lambda one, other: (one, other) == (5, 0), "nothing": lambda *_: 0}
    texts = [b"\x01\x02\x30\x40\x05", b"\x01\x02\x05\x00\x05"]
    wrong = [f"what is shown by chance isn't told from a leak: {name}" for those in (leaks, chances)
             for name, shown in those.items() if is_by_chance(Shown(shown), "key", texts, False) != (those is chances)]
    reports = [(Worded("the words", lambda _: ""), True),
               (Worded("a report", lambda it: it[1:5].decode("latin-1")), False)]
    return wrong + ["what is worded so isn't told from a leak" for asked, are_words in reports
                    if are_in_words(asked, "key", b"\0the \1", b"the ", "a report") != are_words]
