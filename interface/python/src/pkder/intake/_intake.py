"""The answer to a whole input: its documents judged, and what follows of one for the others."""
import dataclasses
import functools
from typing import Any, Collection, List, Optional

from .. import DEPTH, OCTETS, Kind
from ._found import ACCEPTED, NOT_DER, REFUSED, Found
from ._judging import Limits, all_judged
from ._layers import NO_DOCUMENT, pieces_of
from ._others import PRIVATE
from ._texts import Lines, text_of

# Answers for whoever sent an input.
ONE = "Several documents came where one is due: send it alone."
KEY_SENT = ("A private key came with this request. A key that was sent counts as lost: make a new one, and send its "
            "request alone.")
# An input has so many octets, at most, unless it is told otherwise.
INPUT_OCTETS = 1 << 26


@dataclasses.dataclass(frozen=True)
class Rules:
    """What is asked of an input beside what pkder says of each document in it."""

    depth: int = DEPTH
    octets: int = OCTETS
    input_octets: int = INPUT_OCTETS
    # sound documents that aren't in DER: None takes them with status 1, True with 0, and False refuses them
    ber: Optional[bool] = None
    one: bool = False
    with_keys: bool = False
    kinds: Optional[Collection[Kind]] = None


def refused(found: Found, why: str, **more: Any) -> Found:
    """The same, refused for this reason, beside what else is said of it."""
    both = f"{found.why}; {why}" if found.why and why else why or found.why
    return dataclasses.replace(found, status=REFUSED, why=both, **more)


def by_rules(found: Found, rules: Rules) -> Found:
    """A document by the rules that look at it alone."""
    if found.status == NOT_DER and rules.ber is not None:
        found = dataclasses.replace(found, status=ACCEPTED) if rules.ber else refused(found, "DER alone is taken")
    if found.is_accepted and rules.kinds and found.kind not in rules.kinds:
        due = ", ".join(it.name.lower() for it in sorted(rules.kinds))
        asked_as = next(iter(rules.kinds)) if len(rules.kinds) == 1 else None
        found = refused(found, f"not of kind {due}", asked_as=asked_as)
    return found


def has_private_key(octets: bytes, found: List[Found]) -> bool:
    """Whether a private key came, whole or not: as what was found, or by a BEGIN line in whatever dress."""
    if any(it.is_private for it in found):
        return True
    text = text_of(octets).octets
    return bool(PRIVATE.search(octets) or text is not octets and PRIVATE.search(text))


def by_all(octets: bytes, found: List[Found], rules: Rules) -> List[Found]:
    """The documents of an input by the rules that look at all of them."""
    ours = [it for it in found if it.is_ours]
    if not ours:
        return [dataclasses.replace(it, status=REFUSED) for it in found]
    if rules.one and len(ours) != 1:
        why = f"{len(ours)} documents, where one is due"
        found = [refused(it, why, answer=ONE) if it.is_ours else it for it in found]
    is_request = any(it.kind == Kind.REQUEST or it.asked_as == Kind.REQUEST for it in ours)
    if is_request and not rules.with_keys and has_private_key(octets, found):
        mark = functools.partial(refused, why="", with_private_key=True, answer=KEY_SENT)
        found = [mark(it) if it.kind == Kind.REQUEST else it for it in found]
    return found


def find(octets: bytes, rules: Rules = Rules()) -> List[Found]:
    """What is found in the octets of an input, in its order: at least one, which may say that there is nothing. It
    never prints, and raises for nothing that may be in the input."""
    came = octets if isinstance(octets, bytes) else memoryview(octets).tobytes()
    if len(came) > rules.input_octets:
        return [Found(REFUSED, "none", "octets", why=f"more than {rules.input_octets} octets")]
    found = all_judged(pieces_of(came), Limits(rules.depth, rules.octets), Lines(came))
    if not found:
        found = [Found(REFUSED, "none", "text", why=NO_DOCUMENT)]
    return by_all(came, [by_rules(it, rules) for it in found], rules)
