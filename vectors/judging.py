"""What is due of a document: the answer of the independent reader, whether a standard says so, and what it shows."""
from collections import namedtuple

from tests.oracle import reader
from tests.oracle.reader import SEQUENCE, Fault
from tests.oracle.report import Fault as Told, field_of
from vectors import lenient
from vectors.clauses import LIMITS, Trace, cause_of
from vectors.shown import shown_by, template

# A document that is asked about, with what is done in it, in words.
Asked = namedtuple("Asked", "kind octets words depth limit", defaults=(reader.DEPTH, reader.OCTETS))
# The reasons that may stand in a container of either form.
STRUCTURAL = ("WrongTag", "Missing", "Extra", "PastEnd", "TooLong", "TooDeep")


def read(kind, octets, depth, limit):
    """The DER encoding of a document; raises its first fault."""
    given = reader.Reader(octets, depth, limit)
    text = given.document(SEQUENCE, reader.KINDS[kind])
    if len(text) > limit:
        raise Fault(0, "TextTooLong")
    given.expect_end()
    return text


def fault_of(kind, octets, depth, limit):
    """The first fault of a document; None where it has none."""
    try:
        read(kind, octets, depth, limit)
    except Fault as fault:
        return fault
    return None


def fault_by_standards(kind, octets):
    """The same, but for what is profile."""
    with lenient.without_profile():
        return fault_of(kind, octets, lenient.DEPTH, lenient.NO_LIMIT)


def inner_octets(fault):
    """The octets of the document inside that a fault is in."""
    names = [(it, it.tb_frame) for it in traces(fault.__traceback__)]
    return next(frame.f_locals["octets"] for _, frame in names if frame.f_code.co_name == "inner_document")


def traces(trace):
    while trace:
        yield trace
        trace = trace.tb_next


class Judged:
    """A document, and what is due of it."""

    def __init__(self, asked):
        self.asked, self.fault, self.cause, self.clauses, self.flags = asked, None, None, [], []
        self.der = self.differs_at = None
        kind, octets, _, depth, limit = asked
        try:
            self.der = read(kind, octets, depth, limit)
        except Fault as fault:
            self.fault = fault
        self.shows = set()
        if self.fault:
            self.judge_fault()
        else:
            self.judge_sound()
        self.expect_answer()

    def expect_answer(self):
        """Looks whether this is what the reader answers."""
        kind, octets, _, depth, limit = self.asked
        status, output, error = reader.answer("normalise", kind, octets, depth, limit)
        if (status, output, error) != ((2, b"", self.fault.line()) if self.fault else (0, self.der, "")):
            raise ValueError(f"{octets.hex()}: {error}")

    def judge_sound(self):
        octets, text = self.asked.octets, self.der
        self.differs_at = next((at for at, both in enumerate(zip(octets, text)) if both[0] != both[1]), None)
        self.clauses, flags, self.shows = shown_by(self.asked, text)
        self.flags = [*{*flags, *(["profile"] if self.rewrites_key() else [])}]
        is_valid = self.differs_at is None and "profile" not in self.flags
        self.result = "valid" if is_valid else "acceptable"

    def rewrites_key(self):
        """Whether its DER encoding would be another if the octets of private keys stayed as they came."""
        with lenient.with_octets_of_keys():
            return read(self.asked.kind, self.asked.octets, lenient.DEPTH, lenient.NO_LIMIT) != self.der

    def judge_fault(self):
        fault = self.fault
        octets = inner_octets(fault) if fault.inside else self.asked.octets
        self.cause = cause_of(fault.inside or fault, octets)
        forbidden = fault_by_standards(self.asked.kind, self.asked.octets)
        self.result = "invalid" if forbidden else "acceptable"
        if forbidden:
            place = inner_octets(forbidden) if forbidden.inside else self.asked.octets
            self.clauses = [cause_of(forbidden.inside or forbidden, place).clause]
            if None in self.clauses:
                raise ValueError(f"{self.asked.octets.hex()}: no clause forbids {forbidden.line()}")
        if not forbidden:
            self.flags.append("profile")
        if (fault.inside or fault).reason in LIMITS:
            self.flags.append("limit")
        self.shows = {self.fault_words()}

    def path(self):
        """The field that the fault is in, members and segments without their numbers."""
        inside = self.fault.inside
        told = Told(self.fault.place, self.fault.reason, *((inside.place, inside.reason) if inside else ()))
        found = field_of(self.asked.octets, self.asked.kind, told, (self.asked.depth, self.asked.limit), True)
        return template(found)

    def fault_words(self):
        """What the fault shows: its reason, what is wrong, and where."""
        fault = self.fault
        reason = f"{fault.reason} with {fault.inside.reason}" if fault.inside else fault.reason
        return f"{reason}, {self.told()}"

    def told(self):
        """What is wrong, and where."""
        fault = self.fault
        is_indefinite = (fault.inside or fault).reason in STRUCTURAL and Trace(fault.inside or fault).is_indefinite()
        where = " in indefinite length" if is_indefinite else ""
        return f"{self.cause.words}, at {self.path()}{where}"
