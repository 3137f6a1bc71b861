"""What is said of a document, or of an input without one."""
import dataclasses
import json
from typing import Any, Dict, Optional, Tuple

from .. import DEPTH, OCTETS, Kind, explain
from ._others import OTHERS

ACCEPTED, NOT_DER, REFUSED, NOT_JUDGED = range(4)
PRIVATE_KINDS = (Kind.KEY, Kind.EC, Kind.ENCRYPTED, Kind.PACKAGE)
NONE, WITH_PRIVATE_KEY = "none of these", "a private key came with it"


@dataclasses.dataclass(frozen=True)
class Found:
    """A document that was found in an input, or what is there instead. No octet of it is in the words of any member;
    `octets` has them, and isn't shown.

    status is 0 of what is taken and in DER, 1 of what is sound and not in DER, 2 of what is refused; of what isn't ours
    it is 0 beside a document of ours, and else 2. verdict is der, not_der, refused, other (it isn't ours, and what says
    what it is), or none (there is nothing)."""

    status: int
    verdict: str
    came_as: str
    # where it begins: the line, from 1 on, and the octet in the input, from 0 on
    line: int = 1
    at: int = 0
    document: int = 1
    label: Optional[str] = None
    kind: Optional[Kind] = None
    what: Optional[str] = None
    place: Optional[int] = None
    reason: Optional[str] = None
    inside: Optional[Tuple[int, str]] = None
    field: Optional[str] = None
    why: Optional[str] = None
    do: Optional[str] = None
    note: Optional[str] = None
    is_private: bool = False
    with_private_key: bool = False
    octets: Optional[bytes] = dataclasses.field(default=None, repr=False, compare=False)
    # the answer for whoever sent it or, where there is none, the kind as which explain answers; and the limits
    answer: Optional[str] = dataclasses.field(default=None, repr=False)
    asked_as: Optional[Kind] = dataclasses.field(default=None, repr=False)
    depth: int = dataclasses.field(default=DEPTH, repr=False)
    limit: int = dataclasses.field(default=OCTETS, repr=False)

    @property
    def is_accepted(self) -> bool:
        """Whether it is taken."""
        return self.octets is not None and self.kind is not None and self.status in (ACCEPTED, NOT_DER)

    @property
    def is_ours(self) -> bool:
        """Whether it is, or should be, a document of some kind."""
        return self.verdict in ("der", "not_der", "refused")

    @property
    def name(self) -> str:
        """What it is, in a word or a few: the kind, or what isn't ours."""
        if self.what:
            return OTHERS[self.what].name
        return self.kind.name.lower() if self.kind else NONE

    @property
    def form(self) -> str:
        """The line that pkder says of its octets; of what has no such line the verdict in words."""
        if self.reason:
            inside = f" inside at {self.inside[0]}: {self.inside[1]}" if self.inside else ""
            return f"fault at {self.place}: {self.reason}{inside}"
        words = {"der": "DER", "not_der": f"not DER at {self.place}", "other": "not ours"}
        return words.get(self.verdict, "refused")

    @property
    def said(self) -> str:
        """The verdict in a line: the form, and why it is refused, what to do, or what isn't as one may think."""
        private = WITH_PRIVATE_KEY if self.with_private_key else None
        beside = "; ".join(it for it in (private, self.why, self.do, self.note) if it)
        if not beside:
            return self.form
        if self.verdict in ("der", "not_der"):
            between = {REFUSED: ", and refused: ", NOT_JUDGED: ", and not written: "}.get(self.status, "; ")
        else:
            between = "; " if self.reason else ": "
        return f"{self.form}{between}{beside}"

    @property
    def brief(self) -> Optional[str]:
        """The answer for whoever sent it, as pkder has it where pkder refuses it or nothing does; None where its octets
        are of no kind."""
        if self.answer or self.asked_as is None or self.octets is None:
            return self.answer
        report = explain(self.asked_as, self.octets, json=True, depth=self.depth, octets=self.limit)
        told: Dict[str, Any] = json.loads(report.text)
        return told.get("brief")
