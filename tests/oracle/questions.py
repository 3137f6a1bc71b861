"""Questions to pkder, as tests/oracle/reader.py and the programs answer them."""
import shlex

from tests.harness.rows import answer
from tests.oracle import reader
from tests.oracle.parts import PARTS
from tests.oracle.reader import DEPTH, OCTETS

# How standard input comes, as tests/harness/rows.py has it: it fails after the octets, or each read gives one of them.
FAILING, PIECES = "reading fails", ("pieces 1",)


class Question:
    """What is asked of a document: an action, under limits, and how standard input comes, as a whole unless said."""

    def __init__(self, name, action, kind, octets, depth=DEPTH, limit=OCTETS, device="", part=PARTS[0], sums=False,
                 each=False):
        self.name, self.action, self.kind, self.octets = name, action, kind, octets
        self.depth, self.limit, self.device, self.part = depth, limit, device, part
        self.sums, self.each = sums, each

    @classmethod
    def of_row(cls, row):
        """The question of a row of a table."""
        asked = reader.command_line().parse_args(shlex.split(row.words))
        limits = asked.depth, asked.octets
        about = asked.part, asked.sum, asked.each
        return cls(row.rule, asked.action, asked.kind, row.input, *limits, row.device, *about)

    def about(self, name, octets, device=""):
        """The same question about other octets."""
        limits = self.depth, self.limit
        about = self.part, self.sums, self.each
        return Question(f"{self.name}: {name}", self.action, self.kind, octets, *limits, device, *about)

    def words(self):
        """The arguments of the program."""
        depth = [] if self.depth == DEPTH else ["--depth", str(self.depth)]
        limit = [] if self.limit == OCTETS else ["--octets", str(self.limit)]
        about = ["--part", self.part] if self.action == "signed" else ["--kind", self.kind]
        return [self.action, *about, *depth, *limit, *(["--sum"] * self.sums), *(["--each"] * self.each)]

    def due(self):
        """What the independent reader answers: status, output and line."""
        fails = self.device == FAILING
        limits = self.depth, self.limit
        if self.each:
            return reader.each_answer(self.action, self.kind, self.octets, *limits, fails)
        status, output, error = reader.answer(self.action, self.kind, self.octets, *limits, fails, self.part)
        return status, output, reader.summed(self.action, status, error) if self.sums else error

    def found(self, program):
        """What the program answers."""
        status, output, error = answer([program, *self.words()], self.octets, self.device)
        return status, output, error.removesuffix("\n")

    def is_answered(self, due, programs):
        """Whether each program answers what is due; shows what is due as a row where one doesn't, and its answer."""
        wrong = [(it, found) for it in programs if (found := self.found(it)) != due]
        for program, (status, output, error) in wrong:
            print(f"{self.row(due)}\n  {program}: status {status}, {output[:400].hex()!r}, {error!r}", flush=True)
        return not wrong

    def row(self, due):
        """The row of a table, as tests/harness/rows.py reads it, that says what is due."""
        status, output, error = due
        cells = [self.name, " ".join(self.words()), self.octets.hex(), str(status), output.hex(), error]
        return "\t".join([*cells, self.device] if self.device else cells)
