"""What is said of a piece: by pkder, where it has octets, and by its label and the place where it stands."""
from typing import Any, Dict, List, NamedTuple, Optional

from .. import Fault, Form, Kind, check, field
from ._found import NOT_DER, PRIVATE_KINDS, REFUSED, Found
from ._layers import NO_DOCUMENT, NOTHING
from ._others import LABEL_OF, LABELS, OTHER_LABELS, OTHERS, is_private_label, known_label
from ._pieces import Piece
from ._shapes import shape_of
from ._texts import Lines

KINDS = {it.name.lower(): it for it in Kind}
# (a document may stand before a private key in one file)
PRIVATE_SHAPES = ("key", "ec", "encrypted", "package", *(word for word, it in OTHERS.items() if it.is_private))
# (how the words begin that say why a block has no octets which has both its lines)
OF_WHOLE_BLOCKS = ("headers", "not base64", "an empty", "a blank", "a block in one")
SENT = "a private key that was sent counts as lost: make a new one"


class Limits(NamedTuple):
    """The limits of pkder: the greatest depth of nesting, and the greatest number of octets."""

    depth: int
    octets: int


class Answer(NamedTuple):
    """What pkder answers of octets under a kind: their form, or the fault."""

    kind: Kind
    form: Optional[Form]
    fault: Optional[Fault]


def answer(kind: Kind, octets: bytes, limits: Limits) -> Answer:
    """What pkder answers of octets under this kind."""
    try:
        return Answer(kind, check(kind, octets, depth=limits.depth, octets=limits.octets), None)
    except Fault as fault:
        return Answer(kind, None, fault)


def accepted(octets: bytes, first: Optional[Kind], limits: Limits) -> Optional[Answer]:
    """The answer of the one kind that accepts octets, if one does; which is asked first is a matter of time alone."""
    for kind in sorted(Kind, key=lambda it: it != first):
        found = answer(kind, octets, limits)
        if found.form is not None:
            return found
    return None


def place_of(found: Answer, octets: bytes, limits: Limits) -> Dict[str, Any]:
    """What a Found has of an answer: verdict, place, reason and field."""
    told: Dict[str, Any] = {"kind": found.kind, "asked_as": found.kind, "status": 0, "verdict": "der"}
    if found.form is not None and found.form.is_der:
        return told
    told["field"] = field(found.kind, octets, depth=limits.depth, octets=limits.octets)
    if found.form is not None:
        return {**told, "status": NOT_DER, "verdict": "not_der", "place": found.form.differs_at}
    fault = found.fault
    assert fault is not None
    return {**told, "status": REFUSED, "verdict": "refused", "place": fault.at, "reason": str(fault.reason),
            "inside": fault.inside}


def of_accepted(piece: Piece, found: Answer, limits: Limits) -> Dict[str, Any]:
    """What is said of octets that a kind accepts: the label may say that they are something else."""
    told = place_of(found, piece.octets or b"", limits)
    claimed = LABELS.get(piece.label or "")
    if claimed == found.kind or not known_label(piece.label):
        return told
    told.update(status=REFUSED, why=f"labelled {piece.label}", asked_as=claimed or found.kind)
    if found.kind in PRIVATE_KINDS and claimed in (Kind.REQUEST, Kind.PUBLIC):
        return {**told, "do": SENT}
    label = LABEL_OF.get(found.kind)
    wrong = f"Its label, {piece.label}, is wrong"
    answer_of_label = f"{wrong}: it should be {label}." if label else f"{wrong}: send it without PEM."
    return {**told, "do": f"label it {label}" if label else "hand in its octets", "answer": answer_of_label}


def of_other(piece: Piece, word: str) -> Dict[str, Any]:
    """What is said of what isn't ours; under a label of ours it is refused."""
    other, claimed = OTHERS[word], LABELS.get(piece.label or "")
    der = "" if "PEM" in piece.came_as else " -inform DER"
    told: Dict[str, Any] = {"status": 0, "verdict": "other", "what": word,
                            "do": other.do.replace("{der}", der) if other.do else None}
    labelled = OTHER_LABELS.get(piece.label or "")
    if claimed or labelled and labelled != word and other.is_private and not OTHERS[labelled].is_private:
        do = SENT if other.is_private and claimed in (Kind.REQUEST, Kind.PUBLIC) else told["do"]
        told.update(status=REFUSED, verdict="refused", why=f"labelled {piece.label}", do=do, asked_as=claimed)
    return told


def of_octets(piece: Piece, limits: Limits) -> Optional[Dict[str, Any]]:
    """What is said of a piece that has octets; None where nothing says that they are a document."""
    octets = piece.octets or b""
    claimed = LABELS.get(piece.label or "") or piece.kind
    shape = None if claimed else shape_of(octets)
    found = accepted(octets, claimed or KINDS.get(shape or ""), limits)
    if found:
        return of_accepted(piece, found, limits)
    shape = shape_of(octets) if claimed else shape
    guess = KINDS.get(shape or "")
    if shape and not guess:
        return of_other(piece, shape)
    word = OTHER_LABELS.get(piece.label or "")
    if word and not guess:
        return of_other(piece, word)
    if not piece.is_claimed:
        return None
    kind = guess or claimed
    if kind is None:
        return {"status": REFUSED, "verdict": "refused", "why": NO_DOCUMENT}
    told = place_of(answer(kind, octets, limits), octets, limits)
    is_other = known_label(piece.label) and LABELS.get(piece.label or "") != kind
    return {**told, "why": f"labelled {piece.label}"} if is_other else told


def without_octets(piece: Piece) -> Dict[str, Any]:
    """What is said of a piece that has none."""
    word = piece.what or OTHER_LABELS.get(piece.label or "")
    is_whole = piece.what or piece.why and piece.why.startswith(OF_WHOLE_BLOCKS)
    if word and is_whole:
        return of_other(piece, word)
    verdict = "none" if piece.why in (NOTHING, NO_DOCUMENT) else "refused"
    kind = LABELS.get(piece.label or "") or piece.kind
    return {"status": REFUSED, "verdict": verdict, "kind": kind, "what": None if kind else word, "why": piece.why}


def has_private_after(told: Dict[str, Any], octets: bytes) -> bool:
    """Whether what follows a document in its octets looks like a private key."""
    if told.get("reason") != "Trailing":
        return False
    return shape_of(octets[told["place"] :].lstrip(b"\0 \t\r\n")) in PRIVATE_SHAPES


def judged(piece: Piece, limits: Limits, number: int, line: int) -> Optional[Found]:
    """What is said of a piece, by its number among those that are told; None of one that nothing says is a document."""
    told = without_octets(piece) if piece.octets is None else of_octets(piece, limits)
    if told is None:
        return None
    word = told.get("what")
    is_private = (told.get("kind") in PRIVATE_KINDS or bool(word and OTHERS[word].is_private)
                  or is_private_label(piece.label) or has_private_after(told, piece.octets or b""))
    return Found(came_as=piece.came_as, at=piece.at, line=line, document=number, label=known_label(piece.label),
                 octets=piece.octets, is_private=is_private, depth=limits.depth, limit=limits.octets, **told)


def all_judged(pieces: List[Piece], limits: Limits, lines: Lines) -> List[Found]:
    """What is said of each piece; equal octets that are said the same of are one document, at its first place."""
    found: List[Found] = []
    seen = set()
    for piece in pieces:
        it = judged(piece, limits, len(found) + 1, lines.line_of(piece.at))
        key = it and it.octets and (it.octets, it.why, it.verdict)
        if it is None or key and key in seen:
            continue
        seen.add(key)
        found.append(it)
    return found
