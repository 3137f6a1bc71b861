"""What a certification request asks for, and what another document holds, as values: made of what explain says of it
in JSON."""
import dataclasses
from typing import Any, Dict, Optional, Tuple


@dataclasses.dataclass(frozen=True)
class Value:
    """What an element says; what it doesn't say is None. field is the name of its field, text are the characters of a
    string, identifier the arcs of an object identifier, and name is its usual name; octets is how many there are, and
    hexadecimal has them."""

    field: Optional[str] = None
    text: Optional[str] = None
    identifier: Optional[str] = None
    name: Optional[str] = None
    boolean: Optional[bool] = None
    integer: Optional[int] = None
    octets: Optional[int] = None
    hexadecimal: Optional[str] = None

    def __str__(self) -> str:
        said = self.text, self.name, self.identifier, self.hexadecimal, self.integer, self.boolean
        return next((str(it) for it in said if it is not None), "")


@dataclasses.dataclass(frozen=True)
class NameAttribute:
    """An attribute of the subject: the arcs of its type, the usual name of that or None, and its characters as text. Of
    one that is no string text is None, and value says what it is; of one in segments (BER) both are None."""

    identifier: str
    name: Optional[str] = None
    text: Optional[str] = None
    value: Optional[Value] = None


@dataclasses.dataclass(frozen=True)
class Name:
    """A name in a subjectAltName or an issuerAltName: kind is "dns", "email", "uri", "ip" or "oid", and text is what
    stands there, whatever its characters are. A name of another type, as a directoryName or an otherName, has a Name of
    kind "other" for each primitive element in it, whose value says what it is; and so none where it is empty."""

    kind: str
    text: str
    value: Optional[Value] = None


@dataclasses.dataclass(frozen=True)
class Extension:
    """An extension: its arcs, its usual name or None, whether it is critical, its place, and as verdict what its value
    is as one of its type: "der", "not_der" or "refused", and None where the type isn't known. What stands in a value in
    DER is in names (subjectAltName, issuerAltName), bits (keyUsage) or values (all others, by primitive elements)."""

    identifier: str
    name: Optional[str]
    critical: bool
    at: int
    verdict: Optional[str] = None
    names: Tuple[Name, ...] = ()
    bits: Tuple[str, ...] = ()
    values: Tuple[Value, ...] = ()


@dataclasses.dataclass(frozen=True)
class Algorithm:
    """An algorithm by its usual name, else by its arcs, and so what its parameters name, as a curve, or None."""

    algorithm: str
    parameters: Optional[str] = None


@dataclasses.dataclass(frozen=True)
class Key(Algorithm):
    """A key by its algorithm; and of a public key how many octets it has, None where it is in segments (BER). Of one of
    RSA verdict is what it is as an RSAPublicKey, "der", "not_der" or "refused", and of one in DER bits is how many its
    modulus has, None where that is negative, and exponent is that in decimal digits, from 2**31 on, and below 0, by its
    first octets in hexadecimal ones, as "0x0100000001". A private key of RSA has bits, and exponent up to 2**31, alone.
    Of any other key these three are None."""

    octets: Optional[int] = None
    verdict: Optional[str] = None
    bits: Optional[int] = None
    exponent: Optional[str] = None


@dataclasses.dataclass(frozen=True)
class Holds:
    """What a document holds: of kind KEY and PUBLIC key, of kind EC curve by its usual name, else by its arcs, None
    where it names none, and of kind ENCRYPTED algorithms, what its algorithm and the parameters of that name, and
    numbers, those from 0 to 2**31 - 1 in the parameters, as how often a password is hashed. The others are None, and
    ()."""

    key: Optional[Key] = None
    curve: Optional[str] = None
    algorithms: Tuple[str, ...] = ()
    numbers: Tuple[int, ...] = ()


@dataclasses.dataclass(frozen=True)
class Asks:
    """What a request asks for; its signature isn't verified. subject has a tuple for each relative name, attributes has
    those but extensionRequest by their names, whose values aren't told, and extensions what extensionRequest has. The
    properties are None where it can't be told: the extension's value isn't in DER, or there are two of it."""

    subject: Tuple[Tuple[NameAttribute, ...], ...]
    key: Key
    signature: Algorithm
    attributes: Tuple[str, ...]
    extensions: Tuple[Extension, ...]

    def _told(self, name: str, part: str) -> Optional[Tuple[Any, ...]]:
        found = [it for it in self.extensions if it.name == name]
        is_sure = not found or [it.verdict for it in found] == ["der"]
        return tuple(each for it in found for each in getattr(it, part)) if is_sure else None

    @property
    def san(self) -> Optional[Tuple[Name, ...]]:
        """The names of the subjectAltName, of whatever kind; () where it isn't there."""
        return self._told("subjectAltName", "names")

    @property
    def dns(self) -> Optional[Tuple[str, ...]]:
        """The names of kind "dns" alone: san has the others."""
        names = self.san
        return None if names is None else tuple(it.text for it in names if it.kind == "dns")

    @property
    def key_usage(self) -> Optional[Tuple[str, ...]]:
        """The names of the bits of the keyUsage that are 1; () where it isn't there."""
        return self._told("keyUsage", "bits")

    @property
    def extended_key_usage(self) -> Optional[Tuple[str, ...]]:
        """The purposes of the extKeyUsage by their usual names, else by their arcs; () where it isn't there."""
        values = self._told("extKeyUsage", "values")
        return None if values is None else tuple(map(str, values))

    @property
    def is_ca(self) -> Optional[bool]:
        """Whether the basicConstraints has cA TRUE; False where it isn't there. Where no CA is granted compare it with
        False, since None isn't False."""
        values = self._told("basicConstraints", "values")
        return None if values is None else any(it.field == "cA" and it.boolean is True for it in values)


def _value(told: Dict[str, Any]) -> Value:
    # (of a later library's keys those that are known)
    said = {**told.get("value", {}), "field": told.get("field"), "text": told.get("text")}
    return Value(**{it.name: said.get(it.name) for it in dataclasses.fields(Value)})


def _name(told: Dict[str, Any]) -> Name:
    for kind in "dns", "email", "uri", "ip", "oid":
        if kind in told:
            return Name(kind, told[kind])
    value = _value(told)
    return Name("other", str(value), value)


def _name_attribute(told: Dict[str, Any]) -> NameAttribute:
    value = _value({"value": told["value"]}) if "value" in told else None
    return NameAttribute(told["identifier"], told.get("name"), told.get("text"), value)


def _extension(told: Dict[str, Any]) -> Extension:
    return Extension(told["identifier"], told.get("name"), told["critical"], told["at"],
                     told.get("carries", {}).get("verdict"), tuple(map(_name, told.get("names", ()))),
                     tuple(told.get("bits", ())), tuple(map(_value, told.get("values", ()))))


def _algorithm(told: Dict[str, Any]) -> Algorithm:
    return Algorithm(told["algorithm"], told.get("parameters"))


def _key(told: Dict[str, Any]) -> Key:
    return Key(told["algorithm"], told.get("parameters"), told.get("octets"), told.get("carries", {}).get("verdict"),
               told.get("bits"), told.get("exponent"))


def asks_of(told: Dict[str, Any]) -> Asks:
    """The member asks of a report in JSON, as values."""
    subject = tuple(tuple(map(_name_attribute, it)) for it in told["subject"])
    return Asks(subject, _key(told["key"]), _algorithm(told["signature"]), tuple(told["attributes"]),
                tuple(map(_extension, told["extensions"])))


def holds_of(told: Dict[str, Any]) -> Holds:
    """The member holds of a report in JSON, as values."""
    encryption = told.get("encryption", {})
    return Holds(_key(told["key"]) if "key" in told else None, told.get("curve"),
                 tuple(encryption.get("algorithms", ())), tuple(map(int, encryption.get("numbers", ()))))
