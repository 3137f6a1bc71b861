#!/usr/bin/env python3
"""edits.py WORD..: bugs planted in the code, which the proofs must refuse, and the record that all were refused.

  --check      says in seconds, and proves nothing, which crates' records are stale, and which edits can't be applied:
               'records: N passed, M failed'
  --quarter    tries the edits whose records are stale, and a quarter of all crates, which goes round with the commits;
               of the edits that are kept as refused it tries one of each crate, which goes round, too
  --stale [NAME ..]
               tries the edits whose records are stale, of all crates or these, but none that is kept as refused, and
               writes the record
  --all        tries all crates anew, and writes the record
  NAME ..      tries these crates, and writes the record; NAME/EDIT tries one edit, and writes nothing
  --jobs N     how many processors to use (all)
  --beside     for use beside `rt ci`: standard input names crates once they are proved, a line 'all' all of them

A table of edits, crates/NAME/edits.toml, has for each edit its name, the function whose proof must refuse it, the file,
what stands there once, and what is put there in its place. An edit of several texts has its name over each, as
[[NAME]]. One that changes statements or proofs is tried alone, and one that names no function in a check of the whole
crate.

A round is one check with many edits in it, at most one for a function, over what the checks before it proved, of these
functions and what they call; where a crate has several processors, as many rounds go side by side, each in a copy. A
function's proof rests on the contracts of what it calls and on its own code alone, so each edit is judged by what the
check says of its own function:
  refused    a part of the function's own proof failed
  waits      the function calls one that has no proof in this round, so the edit comes again in the next one
What this doesn't tell is tried alone. An edit that only a name tells, as where a proof cites what the edit took away,
says little of the contract: it has failed, as one that is not refused has.

Searches get half of their counts (--margin): most of an edit's time is a search that finds nothing. So that it is the
edit which is refused and not a long proof, a function in which a search gave up has to be proved as it stands with half
of them, too; where it isn't, its edits are tried with all of them.

The record, tools/gate/edits_refused.tsv, has for each file of a crate how many edits of it were refused, and the sum of
the program logic (not of the kit that it comes in), of what the proofs of the file's functions rest on in the crate
(tools/gate/reach.py), and of the edits. An edit of code in several files is recorded by all of these; any other by the
word 'all', and rests on the whole crate. Comments aren't in the sum, nor how imports are laid out. What the crate
stands on isn't in it: a contract below that gets too weak to refuse an edit is found by the quarter that comes to the
crate, and so is a false record.

What was refused is kept, round by round, for later runs on this machine, in clones too, in pkder/refused_edits of the
user's folder for caches ($XDG_CACHE_HOME, or ~/.cache): by the sum of the edit, its crate, all crates below, the
toolchain and this script. Where one of them isn't refused after all, nothing more is believed that was kept of its
crate.

LIBRARIES=proved takes the libraries below a crate as `rt ci` left them just before. Without it, and where the toolchain
doesn't take them so, `rt check` proves them first.

Each edit has a line, those that failed once more at the end; the last line is 'edits: N passed, M failed'."""
import concurrent.futures
import hashlib
import os
import re
import shutil
import subprocess
import sys
import tempfile
import threading
import tomllib
from pathlib import Path

TOP = sys.path[0] = str(Path(__file__).resolve().parents[1])
from tools.gate.reach import PARTS, Reach, bare, text_of

RECORD = "tools/gate/edits_refused.tsv"
KEPT = os.path.join(os.environ.get("XDG_CACHE_HOME") or os.path.expanduser("~/.cache"), "pkder/refused_edits")
# Edits of one crate that show whether this script tells apart what it must: how the name of each begins, and how what
# is said of it must begin.
CONTROL, CONTROL_CRATE = "tools/gate/edits_control.toml", "tlv_core"
CONTROLLED = {"refused": "refused: ", "proved": "NOT REFUSED", "bad": "BAD EDIT", "named": "refused by a name alone"}
NAME = re.compile(r"[A-Za-z0-9_-]+")
HALF = "--margin"
# So many edits in rounds side by side are worth a check of what they are in as it stands.
MANY = 8
# How a proof fails that names what an edit took away, and what such a failure takes with it.
BY_NAME = re.compile(r"proofs/.*(has no field|is not in scope|has no `)")
CITED = "was not admitted"
# How a check says that a text can't be read, where an edit that only makes a statement false reads well.
UNREAD = re.compile(r"is not in scope|has no field|is no name|operand is missing|expected the end|cannot continue")
# What a check says of a goal that is false, however long a search looks.
FALSE = "allow values at which this goal is false"
SAYING = threading.Lock()


def say(text):
    with SAYING:
        print(text, flush=True)


class Crate:
    """A crate by its line in crates.txt."""

    def __init__(self, line):
        head, _, uses = line.partition(":")
        self.line, self.uses = line, uses.split()
        self.name, *self.words = head.split()
        self.folder, self.below = f"crates/{self.name}", []

    def line_over(self, texts):
        """Its line with those libraries alone that one of these texts names: what they say rests on no other."""
        words = set(re.findall(r"\w+", "\n".join(texts)))
        return " ".join([self.name, *self.words, *(it for it in self.uses if it in words)])

    def texts(self):
        """The texts of its files by their paths in its folder, in order."""
        return Reach(self.folder, self.name).texts

    def edits(self):
        return edits_in(f"{self.folder}/edits.toml")

    def cycles(self):
        """The cycle of each function that is in one, by its name: such functions have one proof."""
        texts = "".join(text for it, text in self.texts().items() if it.startswith("src/"))
        return {name: cycle for cycle, name in re.findall(r"#\[cycle\((\w+)\)\][^;{]*?\bfn (\w+)", texts)}


def crates_here():
    """The crates of the repository by name, each with all that stand below it, lowest first."""
    lines = (it.partition("#")[0].strip() for it in text_of("crates.txt").split("\n"))
    found = {it.name: it for it in map(Crate, filter(None, lines))}

    def settle(crate):
        for dep in (found[use] for use in crate.uses if use in found):
            settle(dep)
            crate.below += [it for it in [*dep.below, dep] if it not in crate.below]

    for it in found.values():
        if not it.below:
            settle(it)
    return found


class Edit:
    """An edit: its name, and its changes of texts."""

    def __init__(self, name, changes):
        self.name, self.changes = name, changes
        self.functions = {it["function"] for it in changes if "function" in it}
        forms = ({"function", "file", "old", "new"}, {"file", "old", "new"})
        good = all(it.keys() in forms and all(isinstance(text, str) for text in it.values()) for it in changes)
        self.why = None if good and NAME.fullmatch(name) else "it has not the form of an edit"

    def is_of_code(self):
        """Whether it changes code alone, of functions that it names."""
        return bool(self.functions) and all(it["file"].startswith("src/") for it in self.changes)

    def recorded_by(self):
        """The files of a record's row, or 'all'."""
        return ",".join(sorted({it["file"] for it in self.changes})) if not self.why and self.is_of_code() else "all"


def edits_in(file):
    """The edits of a table, which may be none."""
    if not os.path.isfile(file):
        return []
    try:
        found = tomllib.loads(text_of(file))
    except tomllib.TOMLDecodeError as error:
        sys.exit(f"{file}: {error}")
    return [Edit(name, it if isinstance(it, list) else [it]) for name, it in found.items()]


def applied(edits, folder):
    """Returns the texts of the files that edits change, or says why they can't be applied."""
    texts = {}
    for change in (it for edit in edits for it in edit.changes):
        path, old = change["file"], change["old"]
        if os.path.normpath(path) != path or not path.startswith(tuple(f"{part}/" for part in PARTS)):
            return None, f"a file is none below {', '.join(PARTS)}"
        if not os.path.isfile(f"{folder}/{path}"):
            return None, f"there is no file {path}"
        text = texts.get(path) or text_of(f"{folder}/{path}")
        count = text.count(old) if old else 0
        if count != 1:
            return None, f"an old text is in {path} {count} times, and not once"
        texts[path] = text.replace(old, change["new"])
    return texts, None


# The record.


class Record:
    """How many edits were refused, and at what sum, by their crate and files: {crate: {files: (count, sum)}}."""

    def __init__(self, crates):
        said = subprocess.run(["rt", "version"], stdout=subprocess.PIPE, text=True, check=True).stdout
        logic = re.search(r"\blogic (\w+)", said)
        if not logic:
            sys.exit(f"`rt version` names no logic: {said.strip()}")
        self.logic, self.toolchain, self.rows = logic[1], said.strip(), {}
        if os.path.isfile(RECORD):
            for name, *row in (it.split("\t") for it in text_of(RECORD).splitlines() if not it.startswith("#")):
                self.rows.setdefault(name, {})[row[0]] = tuple(row[1:])
        self.crates = {it.name: it for it in crates.values() if os.path.isfile(f"{it.folder}/edits.toml")}
        self.due = {name: self.rows_of(it) for name, it in self.crates.items()}

    def sum_of(self, crate, texts, *more):
        """The sum of a crate, these files of it and what else is said."""
        made = hashlib.sha256(f"{self.logic}\n{crate.line_over([*texts.values(), *more])}\n".encode())
        for file, text in [*texts.items(), *(("", it) for it in more)]:
            made.update(b"%s %d\n%s" % (file.encode(), len(text.encode()), text.encode()))
        return made.hexdigest()

    def sum_of_all(self, crate):
        """The sum of what a verdict on its edits stands on: this script, the toolchain, the crate and all below."""
        sums = [self.sum_of(it, it.texts()) for it in [*crate.below, crate]]
        return hashlib.sha256("\n".join([text_of(__file__), self.toolchain, *sums]).encode()).hexdigest()

    def rows_of(self, crate):
        """The rows that a crate has where all its edits are refused."""
        reach, edits = Reach(crate.folder, crate.name), crate.edits()
        keys = sorted({it.recorded_by() for it in edits})
        named = {it: [one for one in edits if one.recorded_by() == it] for it in keys}
        found = {it: reach.texts if it == "all" else reach.of(it.split(",")) for it in named}
        texts = {it: {file: bare(file, text) for file, text in all_texts.items()} for it, all_texts in found.items()}
        return {
            it: (str(len(some)), self.sum_of(crate, texts[it], *(f"{one.name} {one.changes}" for one in some)))
            for it, some in named.items()
        }

    def stale_in(self, name):
        """Which rows of a crate's record are stale, or are of nothing."""
        known, due = self.rows.get(name, {}), self.due.get(name, {})
        return [it for it in sorted({*known, *due}) if known.get(it) != due.get(it)]

    def why_stale(self, name):
        """What is wrong with the record of a crate, or None."""
        stale = self.stale_in(name)
        if name not in self.rows:
            return "has no record"
        if name not in self.due:
            return "has a record, and no edits"
        files = ", ".join(stale[:3]) + f" and {len(stale) - 3} more" * (len(stale) > 3)
        return f"has changed since the edits of {files} were tried" if stale else None

    def stale(self):
        """The crates whose records are stale, and why."""
        return {it: why for it in {**self.due, **self.rows} if (why := self.why_stale(it))}

    def stale_edits(self, name):
        stale = self.stale_in(name)
        return [it for it in self.crates[name].edits() if it.recorded_by() in stale]

    def commits(self):
        words = ["git", "rev-list", "--count", "HEAD"]
        return int(subprocess.run(words, stdout=subprocess.PIPE, text=True, check=True).stdout)

    def quarter(self):
        """The crates whose turn it is: each fourth one by the number of edits, from where the count of commits says."""
        named = sorted(self.due, key=lambda it: (-len(self.crates[it].edits()), it))
        return named[self.commits() % 4 :: 4]

    def of_turn(self, edits):
        """The edit whose turn it is: the next one whenever the quarter comes to its crate again."""
        return edits[self.commits() // 4 % len(edits)]

    def note(self, crate, refused, others):
        """Records of a crate which of its edits are refused, and which others were tried."""
        if self.rows_of(crate) != self.due[crate.name]:
            say(f"{crate.name} was changed meanwhile, so nothing is recorded")
            return
        rows = {it: row for it, row in self.rows.get(crate.name, {}).items() if it in self.due[crate.name]}
        named = {it: {one for one in crate.edits() if one.recorded_by() == it} for it in self.due[crate.name]}
        for files, edits in named.items():
            names = {it.name for it in edits}
            if names & others:
                rows.pop(files, None)
            elif names <= refused:
                rows[files] = self.due[crate.name][files]
        self.rows[crate.name] = rows
        with open(f"{RECORD}.new", "w", encoding="utf-8") as it:
            it.write("# crate\tfiles\tedits of them that were refused\tthe sum of what that stands on\n")
            for name in sorted({*self.rows} & {*self.due}):
                rows = sorted(self.rows[name].items())
                it.writelines("\t".join([name, files, *row]) + "\n" for files, row in rows)
        os.replace(f"{RECORD}.new", RECORD)

    def unfit(self):
        """The edits that can't be applied, and why."""
        for name, crate in self.crates.items():
            for edit in crate.edits():
                if why := applied([edit], crate.folder)[1]:
                    yield f"{name}/{edit.name}: {why}"

    def check(self):
        """Says of each crate whose record is stale why, and of each edit that can't be applied, and counts."""
        stale, unfit = self.stale(), [*self.unfit()]
        for it, why in stale.items():
            say(f"{it} {why}: python3 tools/edits.py --stale tries its edits, and writes {RECORD}")
        for it in unfit:
            say(it)
        passed = len(self.due) - len([it for it in stale if it in self.due])
        say(f"records: {passed} passed, {len(stale) + (not self.due) + len(unfit)} failed")
        return 1 if stale or unfit or not self.due else 0


# Checks.


class Share:
    """The processors between the crates that are tried side by side."""

    def __init__(self, jobs, kept):
        self.jobs, self.left, self.lock = jobs, 0, threading.Lock()
        self.kept, self.settled, self.is_controlled = kept, {}, False

    def settle(self, crate, ended):
        """Keeps what a round refused, so that a run which is stopped doesn't lose it: once the control has ended well,
        since without it it isn't known what an answer says."""
        with self.lock:
            self.settled.setdefault(crate, {}).update(ended)
            if self.is_controlled:
                for it, of_crate in self.settled.items():
                    if it in self.kept:
                        self.kept[it].keep(of_crate)
                self.settled = {}

    def control(self, crate):
        """The control has ended well."""
        self.is_controlled = True
        self.settle(crate, {})

    def of_crate(self):
        """The processors of one crate."""
        return max(1, self.jobs // max(1, min(self.left, self.jobs)))

    def words(self, lanes):
        """The words that give a check its share, beside others of its crate."""
        return ["--jobs", str(max(1, self.of_crate() // lanes))]


def output_of(words, folder):
    how = {"stdin": subprocess.DEVNULL, "stdout": subprocess.PIPE, "stderr": subprocess.STDOUT, "errors": "replace"}
    return subprocess.run(words, cwd=folder, text=True, check=False, **how).stdout


class OverLibraries:
    """Checks of a crate over the libraries that `rt ci` left, as interface/build.sh builds over them."""
    has_others = True

    def __init__(self, crate, room):
        self.crate, self.folder, self.kept = crate, f"{room}/{crate.name}", f"{room}/{crate.name}.kept"
        for part in PARTS:
            if os.path.isdir(f"{crate.folder}/{part}"):
                shutil.copytree(f"{crate.folder}/{part}", f"{self.folder}/{part}")
        self.kit = os.path.dirname(subprocess.run(["rt", "doc"], stdout=subprocess.PIPE, text=True, check=True).stdout)

    def libraries(self):
        of_kit = {use: f"{self.kit}/rlibs/{use}.rlib" for use in ["std", *self.crate.uses]}
        built = {it.name: os.path.abspath(f"{it.folder}/out/rlib/{it.name}.rlib") for it in self.crate.below}
        for use in ["std", *self.crate.uses]:
            yield from ("--extern", f"{use}={built.get(use) or of_kit[use]}")
        for it in [f"{self.kit}/rlibs", *map(os.path.dirname, built.values())]:
            yield from ("-L", f"dependency={it}")

    def check(self, words):
        top = "main" if os.path.isfile(f"{self.folder}/src/main.rt") else "lib"
        kind = ["--crate-type", "staticlib"] if "staticlib" in self.crate.words else []
        words = [f"{self.kit}/bin/rattle", "check", "--crate-name", self.crate.name, f"src/{top}.rt", *kind,
                 *self.libraries(), "--antt-project", f"{self.kit}/rattle/logic/antt-project.json",
                 "--logic-built", f"{self.kit}/logic_built", "--incremental", self.kept, *words]
        return output_of(words, self.folder)

    def another(self, room):
        """The same in a copy, which knows what was proved here."""
        if os.path.isdir(self.kept):
            shutil.copytree(self.kept, f"{room}/{self.crate.name}.kept")
        return OverLibraries(self.crate, room)

    def serves(self):
        """Whether the toolchain takes them so."""
        try:
            return verdict_in(self.check(["--only", ""])).startswith("only=0")
        except OSError:
            return False


class OverRt:
    """Checks of a crate by `rt`, which proves all below it first, in a copy of what it stands on."""
    has_others = False

    def __init__(self, crate, room):
        root = f"{room}/{crate.name}.root"
        self.folder = f"{root}/{crate.folder}"
        os.makedirs(root)
        with open(f"{root}/crates.txt", "w", encoding="utf-8") as it:
            it.writelines(f"{one.line}\n" for one in [*crate.below, crate])
        for one in [*crate.below, crate]:
            for part in PARTS:
                if os.path.isdir(f"{one.folder}/{part}"):
                    shutil.copytree(f"{one.folder}/{part}", f"{root}/{one.folder}/{part}")

    def check(self, words):
        return output_of(["rt", "check", *words], self.folder)


def checks_of(crate, room):
    """Returns how the crate is checked."""
    if os.environ.get("LIBRARIES") == "proved":
        found = OverLibraries(crate, room)
        if found.serves():
            return found
        say(f"{crate.name}: the libraries below can't be taken as they are, so rt proves them")
    return OverRt(crate, room)


def verdict_in(said):
    """The line of a check that gives its verdict: '' where it gave none."""
    found = [it for it in said.split("\n") if it.startswith(("logic=", "only="))]
    return found[-1] if found else ""


class Said:
    """What a check says of the functions of a crate."""

    def __init__(self, crate, text):
        self.cycles = crate.cycles()
        self.lines = [it for it in text.split("\n") if not it.startswith("so far: ")]
        self.verdict, self.proved, self.failed, notes = verdict_in(text), set(), {}, []
        for line in self.lines:
            ended = re.match(rf"fn {crate.name}::(\S+): (.*)", line)
            if ended and ended[2] == "proved":
                self.proved.add(ended[1])
            elif ended:
                self.failed[ended[1]] = self.why(*ended.groups(), notes)
            notes = [*notes, line] if line.startswith("note: src/") else [] if ended else notes

    def why(self, path, verdict, notes):
        """Returns what is wrong with a function's own proof, or None where it only waits for another one's."""
        above, _, name = path.replace("::", "/").rpartition("/")
        # (the proof of a function that calls itself, or of some that call each other, stands under a name with a +)
        folder = rf"{re.escape(above)}{'/' * bool(above)}(?:\+?{name}|\+{self.cycles.get(name, name)})"
        own = re.compile(rf"(?:\./)?proofs/{folder}/\S*: error: ")
        errors = [it for it in self.lines if own.match(it) and CITED not in it]
        told, named = ([it for it in errors if bool(BY_NAME.search(it)) == is_named] for is_named in (False, True))
        # (where a function waits no search has looked at some of its goals, so a name may not be all)
        is_waiting = "it calls " in verdict or "it waits " in verdict
        return (told + [None] if is_waiting else told + notes + named + [verdict])[0]

    def unread(self, changed):
        """The first line which says that a text of src/, specs/ or a changed file couldn't be read, or None."""
        for line in self.lines:
            at = re.match(r"(?:\./)?(\S+?):\d+:\d+: error: (?:(`[^`]*`): )?(.*)", line)
            if at and (at[1] in changed or at[1].startswith(("src/", "specs/"))):
                if not at[2] or UNREAD.search(re.sub(r"`[^`]*`", "", at[3])):
                    return line
        return None

    def first(self):
        """The first thing that failed."""
        told = [it for it in self.lines if re.match(r"(note: src/|\S+:\d+:\d+: error)", it)]
        best = [it for it in told if not BY_NAME.search(it) and CITED not in it]
        return [*best, *told, self.verdict][0]


def refusal(why):
    return f"refused{' by a name alone' if BY_NAME.search(why) else ''}: {why[:200]}"


class Trial:
    """The edits of one crate."""

    def __init__(self, crate, room, share):
        self.crate, self.share, self.room, self.cycles = crate, share, room, crate.cycles()
        self.lanes, self.is_proved = [checks_of(crate, room)], False

    def proof_of(self, path):
        """What a function's proof is named by: those of a cycle have theirs together."""
        above, _, name = path.rpartition("::")
        return f"{above}::+{self.cycles[name]}" if name in self.cycles else path

    def is_of(self, path, paths):
        """Whether this is one of the functions, a closure inside one, or has its proof together with one."""
        proofs = {self.proof_of(it) for it in paths}
        return self.proof_of(path) in proofs or any(path.startswith(f"{it}::") for it in paths)

    def check(self, texts, functions, flags, lane=0, lanes=1):
        """Checks functions, or with none the crate, with these texts in the place of its own, beside other lanes."""
        checks = self.lanes[lane]
        for path, text in texts.items():
            with open(f"{checks.folder}/{path}", "w", encoding="utf-8") as it:
                it.write(text)
        only = [word for it in sorted(functions) for word in ("--only", it)]
        said = checks.check([*flags, *self.share.words(lanes), *only])
        for path in texts:
            shutil.copyfile(f"{self.crate.folder}/{path}", f"{checks.folder}/{path}")
        return Said(self.crate, said)

    def alone(self, edit, flags):
        """Returns what a check with this edit alone says of it."""
        texts, why = applied([edit], self.crate.folder)
        if edit.why or why:
            return f"BAD EDIT: {edit.why or why}"
        said = self.check(texts, edit.functions, flags)
        if said.unread(texts) or not said.verdict:
            return f"BAD EDIT: its text can't be read: {said.unread(texts) or ' / '.join(said.lines[-5:])[:400]}"
        is_proved = edit.functions <= said.proved if edit.functions else said.verdict.startswith("logic=proved")
        return "NOT REFUSED: all is proved with this edit" if is_proved else refusal(said.first())

    def round(self, batch, flags, lane=0, lanes=1):
        """Returns of each edit why a check of all of them refuses it: None where it waits, '' where that isn't told."""
        texts, why = applied(batch, self.crate.folder)
        asked = set().union(*(it.functions for it in batch))
        said = None if why else self.check(texts, asked, flags, lane, lanes)
        if not said or not said.verdict or said.unread(texts):
            half = len(batch) // 2
            halves = [batch[:half], batch[half:]] if half else []
            ended = {it: why for one in halves for it, why in self.round(one, flags, lane, lanes).items()}
            return ended or {batch[0]: ""}
        strange = [it for it, why in said.failed.items() if why and not self.is_of(it, asked)]
        if strange and flags:
            return self.round(batch, [], lane, lanes)
        if strange:
            say(f"{self.crate.name}: {strange[0]} failed, and no edit is in it")
            return dict.fromkeys(batch, "")
        return {it: self.state(it, said) for it in batch}

    def state(self, edit, said):
        """Why a check refuses an edit of these functions: None where it waits, '' where that isn't told."""
        whys = [why for it, why in said.failed.items() if self.is_of(it, edit.functions)]
        told = [it for it in whys if it and not it.startswith("could not tell")]
        return told[0] if told else None if whys and not any(whys) else ""

    def batches(self, edits, count):
        """Deals edits into so many batches: in each at most one for a function, and none whose text another changes."""
        batches = [([], set()) for _ in range(count)]
        for number, it in enumerate(edits):
            proofs = {self.proof_of(path) for path in it.functions}
            # (neighbours, of which one often calls the other, go into different ones)
            for batch, taken in batches[number % count:] + batches[:number % count]:
                if not proofs & taken and not applied([*batch, it], self.crate.folder)[1]:
                    batch.append(it)
                    taken |= proofs
                    break
        return [batch for batch, _ in batches if batch]

    def open_lanes(self, edits, flags):
        """Returns how many rounds of these edits go side by side. Where there are many edits, what they are in is first
        proved as it stands, since each lane would do that anew."""
        count = min(self.share.of_crate(), len(edits)) if self.lanes[0].has_others else 1
        if count > 1 and len(edits) >= MANY and not self.is_proved:
            self.check({}, set().union(*(it.functions for it in edits)), flags)
            self.is_proved = True
        while len(self.lanes) < count:
            self.lanes.append(self.lanes[0].another(f"{self.room}/{self.crate.name}.lane{len(self.lanes)}"))
        return count

    def rounds(self, edits, flags):
        """Returns what rounds say of edits: why each is refused, '' where it has to be tried alone."""
        ended, left = {}, [*edits]
        while left:
            batches = self.batches(left, self.open_lanes(left, flags))
            with concurrent.futures.ThreadPoolExecutor(len(batches)) as lanes:
                running = [lanes.submit(self.round, it, flags, lane, len(batches)) for lane, it in enumerate(batches)]
            for states in (it.result() for it in running):
                settled = {it: why for it, why in states.items() if why and not (flags and is_doubtful(why))}
                self.share.settle(self.crate.name, {it: refusal(why) for it, why in settled.items()})
                # (where all of a round wait, each for another one, no further round would tell more)
                is_stuck = not any(states.values())
                ended.update({it: why or "" for it, why in states.items() if why is not None or is_stuck})
            left = [it for it in left if it not in ended]
            say(f"{self.crate.name}: {sum(map(len, batches))} edits in {len(batches)} rounds, {len(left)} left")
        return ended

    def unsettled(self, whys):
        """The edits whose function isn't proved as it stands with half of the searches' counts."""
        doubtful = [it for it, why in whys.items() if why and is_doubtful(why)]
        functions = set().union(*(it.functions for it in doubtful))
        said = self.check({}, functions, [HALF]) if doubtful else None
        return [it for it in doubtful if not it.functions <= said.proved]

    def tried(self, edits):
        """Returns what to say of each edit."""
        # (what changes statements may fail any function)
        apart = [it for it in edits if it.why or not it.is_of_code() or applied([it], self.crate.folder)[1]]
        whys = self.rounds([it for it in edits if it not in apart], [HALF])
        again = self.unsettled(whys)
        if again:
            say(f"{self.crate.name}: {len(again)} edits are tried with all of the searches' counts")
            whys.update(self.rounds(again, []))
        return {it: refusal(whys[it]) if whys.get(it) else self.alone(it, []) for it in edits}


def is_doubtful(why):
    """Whether it may be a search that was too short, and not the edit."""
    return FALSE not in why and ": error: " not in why


def is_well(text):
    return text.startswith("refused: ")


class Refused:
    """What is kept of a crate's edits: the sums of those that were refused on this machine before."""

    def __init__(self, record, crate):
        self.record, self.crate, self.of_all = record, crate, record.sum_of_all(crate)
        self.file = f"{KEPT}/{crate.name}-{self.of_all}"
        self.known = self.in_file()

    def in_file(self):
        return {*text_of(self.file).split()} if os.path.isfile(self.file) else set()

    def sum_of(self, edit):
        return hashlib.sha256(f"{self.of_all} {edit.name} {edit.changes}".encode()).hexdigest()

    def has(self, edit):
        return self.sum_of(edit) in self.known

    def left(self, edits, again=()):
        """Those of these edits that are to be tried: all that aren't kept, and these once more."""
        kept = [it for it in edits if self.has(it)]
        more = "".join(f", and {it.name} is tried again" for it in again if it in kept)
        say(f"{self.crate.name}: {len(kept)} of its {len(edits)} edits were refused here before{more}")
        return [it for it in edits if it not in kept or it in again]

    def keep(self, ended):
        """Keeps which edits were refused just now, by what was said of each."""
        refused = {self.sum_of(it) for it, text in ended.items() if is_well(text)}
        # (what tells one of them falsely may tell others so)
        is_false = any(self.has(it) for it, text in ended.items() if not is_well(text))
        if self.record.sum_of_all(self.crate) != self.of_all:
            return
        # (another run may have kept some of its own meanwhile)
        self.known = refused if is_false else self.known | self.in_file() | refused
        try:
            os.makedirs(KEPT, exist_ok=True)
            with open(f"{self.file}.{os.getpid()}", "w", encoding="utf-8") as it:
                it.writelines(f"{one}\n" for one in sorted(self.known))
            os.replace(f"{self.file}.{os.getpid()}", self.file)
        except OSError as error:
            say(f"{self.crate.name}: what was refused isn't kept: {error}")


def controlled(trial):
    """Whether the edits of the control end as their names say, and there is one of each kind."""
    kinds = {it: it.name.partition("-")[0] for it in edits_in(CONTROL)}
    # (those that can't be read would tear apart the rounds of the others, which stand beside each other on purpose)
    groups = ([it for it in kinds if (kinds[it] == "bad") == is_bad] for is_bad in (False, True))
    ended = {it: text for group in groups for it, text in trial.tried(group).items()}
    wrong = [it for it, text in ended.items() if not text.startswith(CONTROLLED.get(kinds[it], "?"))]
    for it in wrong:
        say(f"control {it.name}: WRONG: {ended[it]}")
    say(f"control: {len(ended) - len(wrong)} of {len(ended)} edits ended as they must")
    return not wrong and {*kinds.values()} == {*CONTROLLED}


def try_crate(crate, edits, has_control, room, share):
    """Returns what is said of each edit, and whether the control ended well."""
    try:
        trial = Trial(crate, room, share)
        ended = trial.tried(edits)
        for it, text in sorted(ended.items(), key=lambda it: it[0].name):
            say(f"edit {crate.name}/{it.name}: {text}")
        return ended, controlled(trial) if has_control else None
    finally:
        with share.lock:
            share.left -= 1


def in_turn(crates, lines):
    """Yields crates once lines say that those which they stand on are proved."""
    # (the crates with the most to do first, since nothing runs beside the last one)
    left, named = sorted(crates, key=lambda it: -len(crates[it]) * len(it.below)), set()
    for line in lines:
        named.add(line.strip())
        ready = [it for it in left if "all" in named or {one.name for one in it.below} <= named]
        left = [it for it in left if it not in ready]
        yield from ready
    for it in left:
        say(f"{it.name}: a crate below isn't proved, so none of its edits is tried")


def note_all(record, came, kept, recorded):
    """Keeps and records what came of crates, {crate: what is said of each edit}, and says which record was false."""
    for crate, ended in came.items():
        failed = [it for it, text in ended.items() if not is_well(text)]
        if {it.recorded_by() for it in failed} - {*record.stale_in(crate.name)}:
            say(f"FALSE RECORD: {crate.name}: its record says that all of its edits are refused")
        if crate.name in kept:
            kept[crate.name].keep(ended)
        if crate.name in recorded:
            refused = {it.name for it in crate.edits() if kept[crate.name].has(it)}
            record.note(crate, refused, {it.name for it in failed})


def run(record, chosen, jobs, mode, lines=("all",)):
    """Tries edits, {crate: edits}, and says, keeps and records how it went."""
    crates = crates_here()
    kept = {it: Refused(record, crates[it]) for it in chosen}
    share = Share(jobs, kept)
    recorded = () if mode in ("--quarter", "EDIT") else {*chosen}
    wanted = {crates[it]: edits for it, edits in chosen.items()}
    for it, edits in wanted.items() if mode in ("--quarter", "--stale") else ():
        wanted[it] = kept[it.name].left(edits, [record.of_turn(edits)] if mode == "--quarter" and edits else [])
    wanted.setdefault(crates[CONTROL_CRATE], [])
    share.left, running, waiting, counts, failed = len(wanted), {}, {}, {True: 0, False: 0}, []
    with tempfile.TemporaryDirectory(prefix="edits-") as room, concurrent.futures.ThreadPoolExecutor(jobs) as lanes:
        for it in in_turn(wanted, lines):
            running[lanes.submit(try_crate, it, wanted[it], it.name == CONTROL_CRATE, room, share)] = it
        for came in concurrent.futures.as_completed(running):
            waiting[running[came]], control = came.result()
            if control:
                share.control(CONTROL_CRATE)
            for edit, text in waiting[running[came]].items():
                counts[is_well(text)] += 1
                failed += [] if is_well(text) else [f"edit {running[came].name}/{edit.name}: {text}"]
            if share.is_controlled:
                note_all(record, waiting, kept, recorded)
                waiting = {}
    if not share.is_controlled:
        say("the control failed, so nothing that is said here counts")
    counts[share.is_controlled] += 1
    counts[False] += sum(len(edits) for it, edits in wanted.items() if it not in running.values())
    # (once more, where whoever sees the end alone sees them)
    for it in sorted(failed):
        say(it)
    say(f"edits: {counts[True]} passed, {counts[False]} failed")
    return 1 if counts[False] else 0


def asked(names, record):
    """The edits that names ask for, by crate."""
    found = {}
    for it in names:
        crate, _, edit = it.partition("/")
        known = record.crates[crate].edits() if crate in record.crates else []
        known = [one for one in known if edit in ("", one.name)]
        if not known:
            sys.exit(f"there is no such edit: {it}")
        found[crate] = [*found.get(crate, []), *known]
    return found


def main(words):
    os.chdir(TOP)
    jobs = len(os.sched_getaffinity(0))
    if "--jobs" in words[:-1]:
        at = words.index("--jobs")
        jobs, words = int(words[at + 1]), words[:at] + words[at + 2 :]
    is_beside, words = "--beside" in words, [it for it in words if it != "--beside"]
    modes, names = [it for it in words if it.startswith("--")], [it for it in words if not it.startswith("--")]
    is_one = len(modes) + bool(names) == 1 or modes == ["--stale"]
    if not is_one or not {*modes} <= {"--check", "--quarter", "--stale", "--all"}:
        sys.exit(__doc__)
    record = Record(crates_here())
    if modes == ["--check"]:
        return record.check()
    if names and not modes:
        return run(record, asked(names, record), jobs, "EDIT" if any("/" in it for it in names) else "NAME")
    picked = [it for it in record.stale() if it in record.due and (not names or it in names)]
    picked = {*record.due} if modes == ["--all"] else {*picked, *(record.quarter() if modes == ["--quarter"] else [])}
    if not picked:
        return record.check()
    whole = picked if modes == ["--all"] else record.quarter() if modes == ["--quarter"] else ()
    edits = {it: record.crates[it].edits() if it in whole else record.stale_edits(it) for it in picked}
    lines = sys.stdin if is_beside else ("all",)
    return run(record, edits, jobs, modes[0], lines)


if __name__ == "__main__":
    sys.exit(main(sys.argv[1:]))
