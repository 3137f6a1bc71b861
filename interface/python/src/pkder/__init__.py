"""Private keys, public keys and certification requests (CSRs) in BER and DER, by libpkder.

    pkder.require_der(pkder.Kind.KEY, octets)    the octets, where they are in DER; else it raises NotDer or Fault
    pkder.check(pkder.Kind.KEY, octets)          the form: .is_der, and .differs_at, the first place that differs
    pkder.normalise(pkder.Kind.KEY, octets)      the DER text, which is the DER encoding
    pkder.same(pkder.Kind.KEY, octets, others)   whether two are the same document: True or False
    pkder.show(pkder.Kind.KEY, octets)           what it says, in lines
    pkder.signed(pkder.Part.INFO, octets)        what the signature of a request covers, or another part of it
    pkder.explain(pkder.Kind.KEY, octets)        a report for people: .text, and .is_der, .differs_at or .fault
    pkder.field(pkder.Kind.KEY, octets)          the field that the report is about: "" where the document is in DER
    pkder.asks(octets)                           what a request asks for: .subject, .key, .dns, .key_usage, .extensions
    pkder.holds(pkder.Kind.KEY, octets)          what another document holds: .key, .curve, .algorithms, .numbers

Each takes a whole document, and raises Fault where that is refused, but explain and field, which answer of any octets;
same takes two, and raises Fault where one of them is refused. All but the first take BER, too. The library is the file
that the environment names as PKDER_LIBRARY, else the libpkder.so.0 that came with the package, as a wheel's does, else
the one that the system's loader finds."""
import ctypes
import dataclasses
import enum
import json as _json
import os
from typing import Any, Dict, List, Optional, Tuple, Union

from ._asks import Algorithm, Asks, Extension, Holds, Key, Name, NameAttribute, Value
from ._asks import asks_of as _asks_of, holds_of as _holds_of

__all__ = ["DEPTH", "OCTETS", "Algorithm", "Asks", "Extension", "Fault", "Form", "Holds", "Key", "Kind", "Name",
           "NameAttribute", "NotDer", "Part", "Reason", "Refused", "Report", "Value", "asks", "check", "explain",
           "field", "holds", "normalise", "require_der", "same", "show", "signed"]
__version__ = "1.1.0"


def __dir__() -> List[str]:
    return sorted(it for it in globals() if it in __all__ or it.startswith("__"))


# The limits unless said otherwise.
DEPTH = 32
OCTETS = 1048576

Octets = Union[bytes, bytearray, memoryview]


class Kind(enum.IntEnum):
    """What a document is."""

    KEY = 1
    EC = 2
    REQUEST = 3
    PUBLIC = 4
    ENCRYPTED = 5
    PACKAGE = 6


class Part(enum.IntEnum):
    """A part of a request; INFO is what its signature covers, RECEIVED the same as it came, in DER or not."""

    INFO = 1
    ALGORITHM = 2
    SUBJECT_KEY = 3
    SIGNATURE = 4
    RECEIVED = 5


class Reason(str, enum.Enum):
    """The names of reasons, which Fault has as str. A later library may answer others."""

    TRUNCATED = "Truncated"
    TOO_LONG = "TooLong"
    BAD_TAG = "BadTag"
    PAST_END = "PastEnd"
    BAD_END = "BadEnd"
    TOO_DEEP = "TooDeep"
    WRONG_TAG = "WrongTag"
    EXTRA = "Extra"
    LEFT_OUT = "LeftOut"
    WRONG_FORM = "WrongForm"
    BAD_LENGTH = "BadLength"
    MISSING = "Missing"
    BAD_INTEGER = "BadInteger"
    BAD_BOOLEAN = "BadBoolean"
    BAD_NULL = "BadNull"
    BAD_BITS = "BadBits"
    BAD_OID = "BadOid"
    BAD_TEXT = "BadText"
    EMPTY_SET = "EmptySet"
    VERSION = "Version"
    PARAMETERS = "Parameters"
    INNER = "Inner"
    CURVE = "Curve"
    KEY_LENGTH = "KeyLength"
    VERSION_RULE = "VersionRule"
    TEXT_TOO_LONG = "TextTooLong"
    TRAILING = "Trailing"

    def __str__(self) -> str:
        return str(self.value)


class Refused(ValueError):
    """A document is refused: a Fault, or of require_der NotDer."""


class NotDer(Refused):
    """A document is sound, and not in DER: at is the first place where it differs from its DER text."""

    def __init__(self, at: int) -> None:
        super().__init__(at)
        self.at = at

    def __str__(self) -> str:
        return f"not DER at {self.at}"


class Fault(Refused):
    """The first fault of a document that is refused: at is its place, reason its name, and inside None, or the place
    and the name of the reason inside privateKey. Of same, which says in which document it is, 1 or 2; of all other
    calls it is 0."""

    def __init__(self, at: int, reason: str, inside: Optional[Tuple[int, str]] = None, which: int = 0) -> None:
        super().__init__(at, reason, inside)
        self.at, self.reason, self.inside, self.which = at, reason, inside, which

    def __str__(self) -> str:
        which = {1: "first: ", 2: "second: "}.get(self.which, "")
        inside = f" inside at {self.inside[0]}: {self.inside[1]}" if self.inside else ""
        return f"{which}fault at {self.at}: {self.reason}{inside}"


@dataclasses.dataclass(frozen=True)
class Form:
    """Whether a sound document is in DER; differs_at is the first place where it differs from its DER text, and None
    where it doesn't. It is no truth value, since a document in BER is sound, too."""

    differs_at: Optional[int] = None

    @property
    def is_der(self) -> bool:
        """Whether the document is in DER."""
        return self.differs_at is None

    def __bool__(self) -> bool:
        raise TypeError("a form isn't true or false: write check(..).is_der, or require_der(..), which refuses BER")

    def __str__(self) -> str:
        return "DER" if self.differs_at is None else f"not DER at {self.differs_at}"


@dataclasses.dataclass(frozen=True)
class Report:
    """A report of a document: its text, and what check says of it. fault is why it is refused, and None of a sound
    document; of one that isn't in DER differs_at is the first place where it differs from its DER text. It is no truth
    value, since refused documents have reports, too."""

    text: str
    differs_at: Optional[int] = None
    fault: Optional[Fault] = None

    @property
    def is_der(self) -> bool:
        """Whether the document is in DER."""
        return self.fault is None and self.differs_at is None

    def __bool__(self) -> bool:
        raise TypeError("a report isn't true or false: write explain(..).is_der, or require_der(..)")


class _Outcome(ctypes.Structure):
    _fields_ = [(name, ctypes.c_uint32) for name in ("status", "reason", "inside_reason", "which")] + [
        (name, ctypes.c_uint64) for name in ("at", "inside_at", "taken", "size")
    ]


_ACCEPTED, _FAULT, _NO_ROOM, _NO_MEMORY, _BAD_CALL, _NOT_DER, _REPORTED, _UNREPORTED, _ANOTHER = range(9)
_ALL, _JSON, _TLS = 1, 2, 4
# Room for a report or a field at first; reports of all elements may need more.
_REPORT = 8192
_INTERFACE = 1
_SRC: List[Any] = [ctypes.c_uint32, ctypes.c_uint32, ctypes.c_uint64, ctypes.c_char_p, ctypes.c_size_t]
_DST: List[Any] = [ctypes.c_char_p, ctypes.c_size_t]
_FORMED = [*_SRC[:3], ctypes.c_uint32, *_SRC[3:]]
# What the functions take and give.
_CALLS: Dict[str, Tuple[List[Any], Any]] = {
    "pkder_interface": ([], ctypes.c_uint32),
    "pkder_normalise": (_SRC + _DST, _Outcome),
    "pkder_check": (_SRC, _Outcome),
    "pkder_same": (_SRC + _SRC[3:], _Outcome),
    "pkder_signed": (_SRC + _DST, _Outcome),
    "pkder_show": (_SRC + _DST, _Outcome),
    "pkder_explain": (_FORMED + _DST, _Outcome),
    "pkder_field": (_SRC + _DST, _Outcome),
    "pkder_reason_name": ([ctypes.c_uint32, *_DST], ctypes.c_size_t),
}


def _loaded() -> ctypes.CDLL:
    beside = os.path.join(os.path.dirname(os.path.abspath(__file__)), "libpkder.so.0")
    name = os.environ.get("PKDER_LIBRARY", beside if os.path.isfile(beside) else "libpkder.so.0")
    try:
        library = ctypes.CDLL(name)
    except OSError as why:
        raise ImportError(f"{name} isn't found: install libpkder, or name its file as PKDER_LIBRARY ({why})") from why
    try:
        for call, (takes, gives) in _CALLS.items():
            function = getattr(library, call)
            function.argtypes, function.restype = takes, gives
    except AttributeError as why:
        raise ImportError(f"{name} is no libpkder: {why}") from why
    if library.pkder_interface() != _INTERFACE:
        raise ImportError(f"{name} has another interface than {_INTERFACE}")
    return library


_library = _loaded()


def _name(reason: int) -> str:
    room = ctypes.create_string_buffer(16)
    _library.pkder_reason_name(reason, room, len(room))
    return room.value.decode("ascii")


def _fault(outcome: _Outcome) -> Fault:
    inside = (outcome.inside_at, _name(outcome.inside_reason)) if outcome.inside_reason else None
    return Fault(outcome.at, _name(outcome.reason), inside, outcome.which)


def _refusal(outcome: _Outcome) -> Exception:
    """What is raised for an outcome that is no answer."""
    if outcome.status == _FAULT:
        return _fault(outcome)
    if outcome.status == _NO_MEMORY:
        return MemoryError("libpkder ran out of memory")
    if outcome.status == _BAD_CALL:
        return ValueError("no such kind, part or limits")
    # (a later library's: whatever it means, the document isn't accepted)
    return RuntimeError(f"libpkder answers the status {outcome.status}")


def _check_limits(depth: int, octets: int) -> None:
    # (ctypes would cut numbers that don't fit)
    if not 1 <= depth <= 64:
        raise ValueError(f"a depth is 1 to 64, not {depth}")
    if not 1 <= octets < 2**31:
        raise ValueError(f"octets are 1 to {2**31 - 1}, not {octets}")


def _octets(document: Octets) -> bytes:
    # (bytes would make zeros of a number)
    return document if isinstance(document, bytes) else memoryview(document).tobytes()


def _written(call: str, numbers: Tuple[int, ...], src: bytes, size: int,
             statuses: Tuple[int, int] = (_ACCEPTED, _NO_ROOM)) -> Tuple[bytes, _Outcome]:
    """What the call writes, with as much room as it asks for, and its outcome. The statuses are those of a call that
    wrote and of one with too little room."""
    done, short = statuses
    while True:
        room = ctypes.create_string_buffer(max(size, 1))
        outcome = getattr(_library, call)(*numbers, src, len(src), room, size)
        if outcome.status == done:
            return ctypes.string_at(room, outcome.size), outcome
        if outcome.status != short:
            raise _refusal(outcome)
        size = outcome.size


def _text(call: str, what: int, document: Octets, depth: int, octets: int) -> bytes:
    _check_limits(depth, octets)
    src = _octets(document)
    return _written(call, (what, depth, octets), src, len(src))[0]


def check(kind: Kind, document: Octets, *, depth: int = DEPTH, octets: int = OCTETS) -> Form:
    """Whether the document is in DER, and else the first place where it differs from its DER text."""
    _check_limits(depth, octets)
    src = _octets(document)
    outcome = _library.pkder_check(Kind(kind), depth, octets, src, len(src))
    if outcome.status == _ACCEPTED:
        return Form()
    if outcome.status == _NOT_DER:
        return Form(outcome.at)
    raise _refusal(outcome)


def require_der(kind: Kind, document: Octets, *, depth: int = DEPTH, octets: int = OCTETS) -> bytes:
    """The document's octets as they were judged, where it is in DER; NotDer is raised where it is sound and isn't."""
    judged = _octets(document)
    form = check(kind, judged, depth=depth, octets=octets)
    if form.differs_at is not None:
        raise NotDer(form.differs_at)
    return judged


def same(kind: Kind, first: Octets, second: Octets, *, depth: int = DEPTH, octets: int = OCTETS) -> bool:
    """Whether two documents are the same: whether they say the same, however they are laid out, which is whether their
    DER texts are equal. Fault is raised where one of them is refused: what is refused is the same as nothing."""
    _check_limits(depth, octets)
    one, other = _octets(first), _octets(second)
    outcome = _library.pkder_same(Kind(kind), depth, octets, one, len(one), other, len(other))
    if outcome.status in (_ACCEPTED, _ANOTHER):
        return bool(outcome.status == _ACCEPTED)
    raise _refusal(outcome)


def normalise(kind: Kind, document: Octets, *, depth: int = DEPTH, octets: int = OCTETS) -> bytes:
    """The document's DER text: two documents say the same exactly where these are equal."""
    return _text("pkder_normalise", Kind(kind), document, depth, octets)


def show(kind: Kind, document: Octets, *, depth: int = DEPTH, octets: int = OCTETS) -> str:
    """What the document says, a line for each part; of private keys the number of octets alone."""
    return _text("pkder_show", Kind(kind), document, depth, octets).decode("ascii")


def signed(part: Part, document: Octets, *, depth: int = DEPTH, octets: int = OCTETS) -> bytes:
    """A part of a request: the DER text of what its signature covers, of the signature's algorithm or of the public
    key; the octets of the signature; or those of what it covers as they came, which some signers sign instead."""
    return _text("pkder_signed", Part(part), document, depth, octets)


def explain(kind: Kind, document: Octets, *, all: bool = False, json: bool = False, tls: bool = False,
            depth: int = DEPTH, octets: int = OCTETS) -> Report:
    """The report of a document, refused or not: the elements with their places in it, and of a refused one which field
    is at fault, the usual cause and what to do. No octets of private keys and no values of attributes are in it, but
    the known extensions that an accepted request asks for. By all it lists all elements, by json it is one object of
    JSON, and by tls it has the notes for TLS servers, too."""
    _check_limits(depth, octets)
    src = _octets(document)
    form = (_ALL if all else 0) | (_JSON if json else 0) | (_TLS if tls else 0)
    statuses = _REPORTED, _UNREPORTED
    text, outcome = _written("pkder_explain", (Kind(kind), depth, octets, form), src, _REPORT, statuses)
    if outcome.reason:
        return Report(text.decode("utf-8"), fault=_fault(outcome))
    return Report(text.decode("utf-8"), outcome.at or None)


def field(kind: Kind, document: Octets, *, depth: int = DEPTH, octets: int = OCTETS) -> str:
    """The path of the field that the report is about, as "privateKey.publicExponent": of a refused document the field
    that is refused, or the name of the outermost type; of one in BER the first field that isn't in DER; "" of one in
    DER. It reads the document again, as explain does."""
    _check_limits(depth, octets)
    statuses = _REPORTED, _UNREPORTED
    path, _ = _written("pkder_field", (Kind(kind), depth, octets), _octets(document), _REPORT, statuses)
    return path.decode("utf-8")


def asks(document: Octets, *, depth: int = DEPTH, octets: int = OCTETS) -> Asks:
    """What a request asks for, by the report that explain makes of it: subject, key, names and other extensions. Fault
    is raised where the request is refused; one in BER isn't. Its signature isn't verified, and no name is looked up."""
    return _asks_of(_told("asks", Kind.REQUEST, document, depth, octets))


def holds(kind: Kind, document: Octets, *, depth: int = DEPTH, octets: int = OCTETS) -> Holds:
    """What a document of kind KEY, EC, PUBLIC or ENCRYPTED holds, by the report that explain makes of it: the algorithm
    or the curve of a key, the size of one of RSA, and how a key is encrypted. Fault is raised where it is refused; one
    in BER isn't. No octets of private keys are in it."""
    if kind in (Kind.REQUEST, Kind.PACKAGE):
        raise ValueError("nothing is told of what such a document holds")
    return _holds_of(_told("holds", kind, document, depth, octets))


def _told(member: str, kind: Kind, document: Octets, depth: int, octets: int) -> Dict[str, Any]:
    """This member of the report of a document."""
    report = explain(kind, document, json=True, depth=depth, octets=octets)
    if report.fault:
        raise report.fault
    told = _json.loads(report.text)
    if member not in told:
        raise RuntimeError(f"the report of libpkder has no {member}")
    found: Dict[str, Any] = told[member]
    return found
