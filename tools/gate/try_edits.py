#!/usr/bin/env python3
"""try_edits.py: tries tools/edits.py over a small repository and a stand-in for the toolchain. The last line counts."""
import os
import re
import shutil
import subprocess
import sys
import tempfile
from pathlib import Path

TOP = str(Path(__file__).resolve().parents[2])
SOURCE = """impl A {
    pub fn new() -> u8
        ensures { P }
    {
        1
    }

    fn near() -> u8 {
        far() + 2
    }
}

impl B {
    pub fn new() -> u8 {
        3
    }
}

pub fn far() -> u8 {
    4
}
"""
CONTROL = (
    ("refused-one", "A::new", "        1", "        BUG 1"),
    ("proved-beside-it", "B::new", "        3", "        3 "),
    ("proved-above-it", "A::near", "far() + 2", "far() + 2 "),
    ("refused-below", "far", "    4", "    BUG 4"),
    ("named-one", "B::new", "        3", "        NAME 3"),
    ("bad-one", "far", "    4", "    UNREADABLE"),
)
EDITS = (("one", "far", "    4", "    BUG"), ("two", "A::new", "        1", "        BUG"))
# A crate of several files, and what of its record gets stale, beside the row of all files, when one changes.
FILES = """== src/lib.rt
#![tactic(auto)]
mod a;
== src/a.rt
use crate::{b::high, lib::LEAST};

pub fn low() -> u8
    ensures { P }
{
    high() + 1
}
== src/b.rt
ghost use Rattle.upper.specs.Means.{P};

pub fn high() -> u8
    ensures { P }
{
    2
}
== src/c.rt
pub fn apart() -> u8 {
    3
}
== specs/Means.antt
P = Zero
== specs/Others.antt
Q = Zero
== proofs/a/low/Answers.antt
use Rattle.upper.proofs.Lemmas.{lemma}
== proofs/Lemmas.antt
lemma = tt
"""
ABOVE, BELOW, BOTH = "src/a.rt", "src/b.rt", "src/a.rt,src/b.rt"
CHANGES = (
    ("its own body", "src/a.rt", "() + 1", "() + 1 - 0", [ABOVE, BOTH]),
    ("the body of what it calls", "src/b.rt", "  2", "  1 + 1", [BOTH, BELOW]),
    ("the contract of what it calls", "src/b.rt", "{ P }", "{ P P }", [ABOVE, BOTH, BELOW]),
    ("a definition of that contract", "specs/Means.antt", "Zero", "Succ Zero", [ABOVE, BOTH, BELOW]),
    ("a definition that none names", "specs/Others.antt", "Zero", "Succ Zero", []),
    ("its answers", "proofs/a/low/Answers.antt", "{lemma}", "{lemma, another}", [ABOVE, BOTH]),
    ("a comment of its answers", "proofs/a/low/Answers.antt", "use", "-- said\nuse", None),
    ("the layout of their imports", "proofs/a/low/Answers.antt", "{lemma}", "{\n  lemma,\n}", None),
    ("a lemma of them", "proofs/Lemmas.antt", "tt", "(tt)", [ABOVE, BOTH]),
    ("a file that none names", "src/c.rt", "apart", "astray", []),
    ("an impl that none names", "src/c.rt", "pub fn", "impl Told for Word {}\n\npub fn", [ABOVE, BOTH, BELOW]),
    ("methods of another file's type", "src/c.rt", "pub fn", "impl<T> Word<T> {}\n\npub fn", [ABOVE, BOTH, BELOW]),
    ("an impl for its own type", "src/c.rt", "pub fn", "struct Own;\n\nimpl Told for Own {}\n\npub fn", []),
    ("what holds for all files", "src/lib.rt", "(auto)", "(none)", [ABOVE, BOTH, BELOW]),
)


def table(edits):
    """A table of edits, (name, function, old, new)."""
    form = "[{}]\nfunction = '{}'\nfile = 'src/lib.rt'\nold = '{}'\nnew = '{}'\n"
    return "\n".join(form.format(*it) for it in edits)


class Repository:
    """Three crates with edits, one above the other, and what came out otherwise than it must."""

    def __init__(self, folder):
        self.folder, self.top, self.wrong, self.count, self.said, self.log = folder, f"{folder}/top", [], 0, "", ""
        self.kept = f"{folder}/caches/pkder/refused_edits"
        path = f"{folder}:{os.environ['PATH']}"
        ours = {"PATH": path, "XDG_CACHE_HOME": f"{folder}/caches", "PYTHONDONTWRITEBYTECODE": "1"}
        self.env = {**os.environ, **ours}
        os.makedirs(f"{folder}/kit/bin")
        for name in ("rt", "kit/bin/rattle"):
            shutil.copy(f"{TOP}/tools/gate/stand_in_rt.py", f"{folder}/{name}")
            os.chmod(f"{folder}/{name}", 0o755)
        for name in ("tlv_core", "middle", "upper"):
            self.write(f"crates/{name}/src/lib.rt", SOURCE)
            self.write(f"crates/{name}/edits.toml", table(EDITS))
        self.write("crates.txt", "tlv_core:\nmiddle: tlv_core\nupper: tlv_core middle hex\n")
        self.write("tools/gate/edits_control.toml", table(CONTROL))
        for name in ("edits.py", "gate/reach.py"):
            shutil.copy(f"{TOP}/tools/{name}", f"{self.top}/tools/{name}")
        self.git("init", "-q")
        self.commit()

    def git(self, *words):
        words = ["git", "-c", "user.name=a", "-c", "user.email=a@b", *words]
        return subprocess.run(words, cwd=self.top, check=True, stdout=subprocess.PIPE, text=True).stdout

    def commit(self, count=1):
        for _ in range(count):
            self.git("commit", "-q", "--allow-empty", "-m", "a")

    def write(self, path, text):
        os.makedirs(os.path.dirname(f"{self.top}/{path}"), exist_ok=True)
        with open(f"{self.top}/{path}", "w", encoding="utf-8") as it:
            it.write(text)

    def change(self, path, old, new):
        with open(f"{self.top}/{path}", encoding="utf-8") as it:
            text = it.read()
        assert text.count(old) == 1, (path, old)
        self.write(path, text.replace(old, new))

    def run(self, *words, given="", **around):
        """Runs the script, and returns its status and its last line."""
        log = f"{self.folder}/log"
        with open(log, "w", encoding="utf-8"):
            pass
        stand_in = {"STAND_IN_LOG": log, "STAND_IN_PAGE": f"{self.folder}/kit/page.md"}
        words, env = [sys.executable, "tools/edits.py", *words], {**self.env, **stand_in, **around}
        ran = subprocess.run(words, cwd=self.top, env=env, input=given, capture_output=True, text=True, check=False)
        with open(log, encoding="utf-8") as it:
            self.log = it.read()
        self.said = ran.stdout + ran.stderr
        return ran.returncode, self.said.strip().split("\n")[-1]

    def forge(self, text):
        """Does this with the script as `e` and its record as `r`, and returns what it prints."""
        text = f"from tools import edits as e; r = e.Record(e.crates_here()); {text}"
        words = [sys.executable, "-c", text]
        return subprocess.run(words, cwd=self.top, env=self.env, check=True, stdout=subprocess.PIPE, text=True).stdout

    def see(self, what, came, due, *parts):
        """Holds status, last line, and what else is said to what they must be."""
        self.count += 1
        lacking = [it for it in parts if not re.search(it, self.said)]
        if came != due or lacking:
            self.wrong.append(what)
            print(f"WRONG {what}: {came}, not {due}; lacks {lacking}\n{self.said}")


def try_records(it):
    """What makes a record stale, and what doesn't."""
    it.see("no record yet", it.run("--check"), (1, "records: 0 passed, 3 failed"))
    it.see("all are tried", it.run("--stale", "--jobs", "2"), (0, "edits: 7 passed, 0 failed"), "control: 6 of 6")
    it.see("all are recorded", it.run("--check"), (0, "records: 3 passed, 0 failed"))
    it.see("nothing is left to try", (*it.run("--stale"), it.log), (0, "records: 3 passed, 0 failed", ""))
    it.see("another kit", it.run("--check", STAND_IN_KIT="two"), (0, "records: 3 passed, 0 failed"))
    it.see("another logic", it.run("--check", STAND_IN_LOGIC="ff"), (1, "records: 0 passed, 3 failed"))
    it.change("crates/tlv_core/src/lib.rt", "\n    4", "\n    5 - 1;\n    4")
    it.see("a body", it.run("--check"), (1, "records: 2 passed, 1 failed"), "tlv_core has changed")
    it.see("another crate", it.run("--stale", "upper"), (1, "records: 2 passed, 1 failed"))
    came = it.run("--stale", "tlv_core")
    it.see("its crate alone", came, (0, "edits: 3 passed, 0 failed"), "(?!.*edit middle)edit tlv_core")
    it.write("crates/middle/edits.toml", table(EDITS[:1]))
    it.see("a table", it.run("--check"), (1, "records: 2 passed, 1 failed"), "middle has changed")
    it.see("a crate below", it.run("--stale"), (0, "edits: 2 passed, 0 failed"), "middle: 0 of its 1 edits were")
    it.write("crates/middle/edits.toml", table(EDITS))
    it.see("an edit that was refused", it.run("--stale"), (0, "edits: 2 passed, 0 failed"), "1 of its 2 edits were")


def try_files(it):
    """Which edits of a crate are tried again when a file of it changes."""
    for file, text in re.findall(r"^== (\S+)\n((?:(?!== ).*\n)*)", FILES, re.M):
        it.write(f"crates/upper/{file}", text)
    form = "[[{}]]\nfunction = '{}'\nfile = '{}'\nold = '{}'\nnew = 'BUG'\n"
    above, below = ("a::low", "src/a.rt", " 1"), ("b::high", "src/b.rt", " 2")
    edits = (("above", *above), ("below", *below), ("both", *above), ("both", *below))
    of_all = "[anywhere]\nfile = 'src/a.rt'\nold = ' 1'\nnew = 'BUG'\n"
    it.write("crates/upper/edits.toml", of_all + "\n".join(form.format(*one) for one in edits))
    it.see("each is tried", it.run("--stale"), (0, "edits: 5 passed, 0 failed"))
    for what, file, old, new, stale in CHANGES:
        it.change(f"crates/upper/{file}", old, new)
        due = [] if stale is None else ["all", *stale]
        it.see(what, it.forge("print(*r.stale_in('upper'))").split(), due)
        it.change(f"crates/upper/{file}", new, old)
    it.change("crates/upper/src/b.rt", "    2", "    0;\n    2")
    it.see("those of a body", it.run("--stale"), (0, "edits: 4 passed, 0 failed"), "upper: 0 of its 3 edits were")
    it.see("all are recorded again", it.run("--check"), (0, "records: 3 passed, 0 failed"))


def try_edits(it):
    """What fails an edit, and what a false record comes to."""
    proved = ("none", "A::new", "        1", "        1 ")
    it.write("crates/middle/edits.toml", table((*EDITS[:1], proved)))
    it.see("one that proves", it.run("--stale"), (1, "edits: 1 passed, 1 failed"), "middle/none: NOT REFUSED")
    it.see("isn't recorded", it.run("--check"), (1, "records: 2 passed, 1 failed"), "middle has no record")
    it.forge("r.note(r.crates['middle'], {'one', 'none'}, {*()})")
    it.see("a false record isn't seen", it.run("--check"), (0, "records: 3 passed, 0 failed"))
    it.see("it is, once tried", it.run("--all"), (1, "edits: 6 passed, 1 failed"), "FALSE RECORD: middle")
    it.see("and is gone", it.run("--check"), (1, "records: 2 passed, 1 failed"), "middle has no record")
    it.write("crates/middle/edits.toml", table((*EDITS[:1], ("named", "A::new", "        1", "        NAME"))))
    it.see("by a name", it.run("--stale"), (1, "edits: 1 passed, 1 failed"), "middle/named: refused by a name alone")
    it.write("crates/middle/edits.toml", table((*EDITS[:1], ("lost", "A::new", "        9", "        BUG"))))
    it.see("one of no text", it.run("--stale"), (1, "edits: 1 passed, 1 failed"), "middle/lost: BAD EDIT: an old text")
    it.write("crates/middle/edits.toml", table((*EDITS[:1], ("other", "B::new", "        1", "        BUG"))))
    it.see("another function", it.run("--stale"), (1, "edits: 1 passed, 1 failed"), "middle/other: NOT REFUSED")
    it.write("crates/middle/edits.toml", table((*EDITS[:1], ("above", "A::near", "far() + 2", "BUG + 2"))))
    it.see("mended", it.run("--stale"), (0, "edits: 2 passed, 0 failed"))
    it.change("tools/gate/edits_control.toml", "BUG 4", "4 ")
    it.change("crates/upper/src/lib.rt", "\n    4", "\n     4")
    it.see("a control that fails", it.run("--stale"), (1, "edits: 2 passed, 1 failed"), "WRONG: NOT REFUSED")
    it.see("records nothing", it.run("--check"), (1, "records: 2 passed, 1 failed"), "upper has changed")
    it.change("tools/gate/edits_control.toml", "= '    4 '", "= '    BUG 4'")
    it.see("once more", it.run("--stale"), (0, "edits: 3 passed, 0 failed"))


def try_kept(it):
    """What a quarter takes as refused, and what a forgery of it comes to."""
    it.write("crates/middle/edits.toml", table(EDITS))
    it.see("the record", it.run("--stale")[0], 0)
    while int(it.git("rev-list", "--count", "HEAD")) % 8:
        it.commit()
    shutil.rmtree(it.kept)
    came = it.run("--quarter", LIBRARIES="proved")
    it.see("nothing is kept", came, (0, "edits: 3 passed, 0 failed"), "middle: 0 of its 2", "middle/one", "middle/two")
    for again in ("one", "two"):
        said = f"middle: 2 of its 2 .*, and {again} is tried again", f"edit middle/{again}: refused"
        it.see("all is kept", it.run("--quarter"), (0, "edits: 2 passed, 0 failed"), *said)
        it.commit(4)
    it.see("another kit", it.run("--quarter", STAND_IN_KIT="two"), (0, "edits: 3 passed, 0 failed"), "0 of its 2")
    it.see("all are tried anew", it.run("--all"), (0, "edits: 7 passed, 0 failed"))
    it.change("crates/tlv_core/src/lib.rt", "5 - 1", "6 - 2")
    it.see("a crate below", it.run("--quarter"), (0, "edits: 5 passed, 0 failed"), "middle: 0 of its 2")
    it.write("crates/middle/edits.toml", table((*EDITS[:1], ("none", "A::new", "        1", "        1 "))))
    it.forge("r.note(r.crates['middle'], {'one', 'none'}, {*()})")
    it.forge("c = r.crates['middle']; e.Refused(r, c).keep({it: 'refused: ' for it in c.edits()})")
    it.see("forged", it.run("--quarter"), (0, "edits: 3 passed, 0 failed"), "middle: 2 of its 2 .*, and one is")
    it.commit(4)
    came = it.run("--quarter")
    it.see("its turn", came, (1, "edits: 2 passed, 1 failed"), "middle/none: NOT REFUSED", "FALSE RECORD: middle")
    it.see("all is forgotten", it.run("--quarter"), (1, "edits: 3 passed, 1 failed"), "middle: 0 of its 2")
    it.write("crates/middle/edits.toml", table(EDITS))
    it.see("mended once more", it.run("--stale")[0], 0)


def try_stopped(it):
    """What a run that is stopped leaves of the rounds that had ended."""
    room = "s = e.Share(1, {'middle': e.Refused(r, r.crates['middle'])})"
    settle = "s.settle('middle', {it: 'refused: ' for it in r.crates['middle'].edits()})"
    it.change("crates/middle/src/lib.rt", "\n    4", "\n     4")
    it.forge(f"{room}; {settle}")
    it.see("before the control", it.run("--stale"), (0, "edits: 3 passed, 0 failed"), "middle: 0 of its 2")
    for told in (f"{settle}; s.control('tlv_core')", f"s.control('tlv_core'); {settle}"):
        it.change("crates/middle/src/lib.rt", "    4", "     4")
        it.forge(f"{room}; {told}")
        it.see("beside it", it.run("--stale"), (0, "edits: 1 passed, 0 failed"), "middle: 2 of its 2")


def try_quarters(it):
    """Four commits come to each crate once, over libraries that were left or that `rt` proves."""
    shutil.rmtree(it.kept)
    seen = []
    for _ in range(4):
        it.see("a quarter", it.run("--quarter", LIBRARIES="proved")[0], 0)
        seen += set(re.findall(r"edit (\w+)/one", it.said))
        it.commit()
    it.see("each crate once", sorted(seen), ["middle", "tlv_core", "upper"])
    came = it.run("--all", "--beside", given="tlv_core\nall\n")
    it.see("beside the proofs", came, (0, "edits: 7 passed, 0 failed"))
    came = it.run("--all", "--beside", given="tlv_core\n")
    it.see("beside proofs that fail", came, (1, "edits: 5 passed, 2 failed"), "upper: a crate below isn't proved")
    it.see("over libraries", it.run("upper", LIBRARIES="proved"), (0, "edits: 3 passed, 0 failed"))
    it.see("by rattle alone", re.search("^rt ", it.log, re.M), None)
    came = it.run("upper", LIBRARIES="proved", STAND_IN_REFUSES="1")
    it.see("where these aren't taken", came, (0, "edits: 3 passed, 0 failed"), "so rt proves them")
    it.see("by rt", bool(re.search("^rt upper check", it.log, re.M)), True)


def main():
    with tempfile.TemporaryDirectory() as folder:
        it = Repository(folder)
        for trial in (try_records, try_edits, try_kept, try_stopped, try_quarters, try_files):
            trial(it)
        print(f"try_edits: {it.count - len(it.wrong)} passed, {len(it.wrong)} failed")
        return 1 if it.wrong else 0


if __name__ == "__main__":
    sys.exit(main())
