#!/usr/bin/env python3
"""report_schema.py [FILE..]: what pkder writes under --json held to docs/report.schema.json.

FILE has an object a line; - is standard input. Each line is one object of a form that the schema has, a report, an
error, a comparison or a sum, its keys in the order of the schema, none of them twice. What differs has a line: file,
line, the place in the object, and what is wrong.

The schema is JSON Schema (2020-12), of which this knows what ours uses; another word in it is an error, so that none
goes unseen. Before the files it tries itself: a sound object of each form passes, and each change of it that the schema
forbids is told.

The last line is 'report_schema: N passed, M failed', a line of a file and a change counting once."""
import copy
import json
import re
import sys
from pathlib import Path

TOP = str(Path(__file__).resolve().parents[2])
PAGE = f"{TOP}/docs/report.schema.json"
# words that say nothing of a value
SAID = {"$schema", "$defs", "title", "description"}
TYPES = {"object": dict, "array": list, "string": str, "integer": int, "boolean": bool}


class Schema:
    """A schema that values are held to."""

    def __init__(self, whole):
        self.whole = whole
        self.rules = {"$ref": self.of_reference, "type": self.of_type, "enum": self.of_enum, "minimum": self.of_minimum,
                      "pattern": self.of_pattern, "required": self.of_required, "properties": self.of_properties,
                      "additionalProperties": self.of_others, "items": self.of_items, "oneOf": self.of_one}
        self.see(whole)

    def see(self, schema):
        """That the schema has no word but those of the rules, no reference to what isn't there, and no such part."""
        if unknown := schema.keys() - self.rules.keys() - SAID:
            raise ValueError(f"the schema has {', '.join(sorted(unknown))}")
        if "$ref" in schema and schema["$ref"].removeprefix("#/$defs/") not in self.whole["$defs"]:
            raise ValueError(f"the schema hasn't {schema['$ref']}")
        parts = [*schema.get("properties", {}).values(), *schema.get("$defs", {}).values(), *schema.get("oneOf", [])]
        for part in parts + [schema[it] for it in ("items",) if it in schema]:
            self.see(part)

    def named(self, reference):
        """The part of $defs that a reference is to."""
        return self.whole["$defs"][reference.removeprefix("#/$defs/")]

    def forms(self):
        """The names of the forms that an object may have."""
        return [it["$ref"].removeprefix("#/$defs/") for it in self.whole["oneOf"]]

    def part_at(self, form, way):
        """The part of the schema for what stands at this way in an object of this form."""
        part = self.whole["$defs"][form]
        for name in way:
            part = part["items"] if isinstance(name, int) else part["properties"][name]
            part = self.named(part["$ref"]) if "$ref" in part else part
        return part

    def faults(self, value, schema=None, place=""):
        """What is wrong with a value, a line for each fault."""
        schema = self.whole if schema is None else schema
        if wrong := self.of_type(value, schema.get("type"), schema, place):
            return wrong
        rest = (word for word in schema if word in self.rules and word != "type")
        return [fault for word in rest for fault in self.rules[word](value, schema[word], schema, place)]

    def of_reference(self, value, name, _, place):
        return self.faults(value, self.named(name), place)

    def of_one(self, value, forms, _, place):
        """What is wrong with a value of which one form alone may be: that of none is told as the form next to it."""
        found = [self.faults(value, form, place) for form in forms]
        return [f"{place or 'the object'} is of several forms"] if found.count([]) > 1 else min(found, key=len)

    @staticmethod
    def of_type(value, name, _, place):
        if name is None or type(value) is TYPES[name]:
            return []
        return [f"{place or 'the object'} is {type(value).__name__}, not {name}"]

    @staticmethod
    def of_enum(value, values, _, place):
        return [] if value in values else [f"{place} is {value!r}, none of {values}"]

    @staticmethod
    def of_minimum(value, least, _, place):
        return [] if value >= least else [f"{place} is {value}, below {least}"]

    @staticmethod
    def of_pattern(value, pattern, _, place):
        return [] if re.search(pattern, value) else [f"{place} is {value!r}, which {pattern} doesn't allow"]

    @staticmethod
    def of_required(value, names, _, place):
        return [f"{place}.{name} is missing" for name in names if name not in value]

    def of_properties(self, value, parts, _, place):
        known = [name for name in value if name in parts]
        due = [name for name in parts if name in value]
        wrong = [] if known == due else [f"{place} has its keys in the order {known}, not {due}"]
        return wrong + [it for name in known for it in self.faults(value[name], parts[name], f"{place}.{name}")]

    @staticmethod
    def of_others(value, allowed, schema, place):
        unknown = [] if allowed else [name for name in value if name not in schema["properties"]]
        return [f"{place}.{name} isn't known" for name in unknown]

    def of_items(self, value, part, _, place):
        return [it for at, item in enumerate(value) for it in self.faults(item, part, f"{place}[{at}]")]


def object_of(pairs):
    """An object, none of whose keys stands twice."""
    made = dict(pairs)
    if len(made) != len(pairs):
        raise ValueError(f"a key stands twice among {[name for name, _ in pairs]}")
    return made


def known_schema():
    """The schema of docs/."""
    with open(PAGE, encoding="utf-8") as page:
        return Schema(json.load(page))


def line_faults(schema, line, form=None):
    """What is wrong with a line that should be an object of this form, or of any."""
    part = schema.whole["$defs"][form] if form else None
    try:
        return schema.faults(json.loads(line, object_pairs_hook=object_of), part)
    except ValueError as error:
        return [f"no JSON: {error}"]


# A sound object of each form, which says what it would say in all its parts; written by hand from the schema and from
# X.690, not taken from a program. The report is of a request whose common name has a length that is one too great.
SOUND = {
    "report": {
        "form": 1, "version": "2.0.0", "file": "Müller.der", "kind": "request", "octets": 379, "status": 2,
        "verdict": "refused", "at": 69, "reason": "Inner", "inside": {"at": 0, "reason": "PastEnd"}, "file_at": 69,
        "field": "certificationRequestInfo.subject[2][0].value", "due": "a string", "found": "16 octets", "missing": 1,
        "over": 1, "more": 1, "looks_like": "ec", "likely": "a damaged length", "do": "refuse it",
        "brief": "It is damaged: send it again.",
        "not_der": [{"field": "signature{1}", "at": 4, "what": "long_length"}], "not_der_places": 1,
        "holds": {
            "key": {"algorithm": "rsaEncryption", "parameters": "P-256", "octets": 270,
                    "carries": {"verdict": "refused", "at": 0, "reason": "Truncated"}, "bits": 2048,
                    "exponent": "0x0100000001"},
            "curve": "P-256", "encryption": {"algorithms": ["id-PBES2"], "numbers": ["2048"]}},
        "lines": [
            {"at": 0, "header": 4, "length": 375, "depth": 0, "type": "CertificationRequest",
             "tag": {"class": "universal", "number": 16}, "constructed": True, "end": 379},
            {"at": 8, "header": 2, "length": 1, "depth": 2, "name": "version",
             "tag": {"class": "universal", "number": 2}, "constructed": False, "end": 11, "value": {"integer": 0}}],
        "notes": [{"field": "publicKey", "at": 300, "what": "point_size", "level": "must", "octets": 64}],
    },
    "error": {"form": 1, "version": "2.0.0", "file": "Müller.der", "status": 3, "error": "no such file"},
    "comparison": {
        "form": 1, "version": "2.0.0", "kind": "key", "status": 1, "verdict": "another", "first": {"file": "-"},
        "second": {
            "file": "Müller.der",
            "fault": {"at": 12, "reason": "Inner", "inside": {"at": 34, "reason": "Trailing"}}},
        "differences": [{"field": "privateKey", "first": "32 octets", "second": "absent"}], "more": 1,
    },
    "sum": {
        "form": 1, "version": "2.0.0", "documents": 7, "der": 1, "shown": 0, "not_der": 1, "noted": 1, "refused": 3,
        "unread": 1, "kinds": [{"kind": "key", "der": 1, "shown": 0, "not_der": 1, "noted": 1}], "no_kind": 1,
        "reasons": [{"reason": "Truncated", "count": 2}],
    },
}
# another value of each kind, which no part of an object has
OTHERS = [None, "", "no such word", -1, True, 1.5, [], {}]


def parts_of(value, way=()):
    """Each part of a value, with its way from the whole."""
    yield way, value
    names = value.keys() if isinstance(value, dict) else range(len(value)) if isinstance(value, list) else ()
    for name in names:
        yield from parts_of(value[name], (*way, name))


def changed(form, way, change):
    """The sound object of this form with one part of it changed."""
    made = {"object": copy.deepcopy(SOUND[form])}
    part, way = made, ("object", *way)
    for name in way[:-1]:
        part = part[name]
    change(part, way[-1])
    return made["object"]


def put(value):
    def change(part, name):
        part[name] = value
    return change


def with_key(key, value):
    def change(part, name):
        part[name][key] = value
    return change


def without(key):
    def change(part, name):
        del part[name][key]
    return change


def first_again(part, name):
    """The part's first key after all others."""
    first = next(iter(part[name]))
    part[name] = {**{it: part[name][it] for it in part[name] if it != first}, first: part[name][first]}


def allows(schema, form, way, value):
    """Whether the schema's words for this part, read here once more and without the rules above, allow the value."""
    part = schema.part_at(form, way)
    if type(value) is not TYPES[part["type"]]:
        return False
    return (value in part.get("enum", [value]) and ("minimum" not in part or value >= part["minimum"])
            and ("pattern" not in part or re.search(part["pattern"], value) is not None)
            and not part.get("required"))


def changes(schema, form):
    """Objects of this form that are wrong, each with what was changed."""
    for way, value in parts_of(SOUND[form]):
        for other in OTHERS:
            if not allows(schema, form, way, other):
                yield f"{way} is {other!r}", changed(form, way, put(other))
        if isinstance(value, dict):
            yield from changes_of_object(schema, form, way, value)
    for other in SOUND:
        for key in [it for it in SOUND[other] if it not in SOUND[form]]:
            yield f"it has {key} as of another form", changed(form, (), with_key(key, SOUND[other][key]))


def changes_of_object(schema, form, way, value):
    """The object at this way with another key, with its keys in another order, and without each that it has to have."""
    yield f"{way} has a key that isn't known", changed(form, way, with_key("Key", 1))
    if len(value) > 1:
        yield f"{way} has its keys in another order", changed(form, way, first_again)
    for key in schema.part_at(form, way)["required"]:
        yield f"{way} has no {key}", changed(form, way, without(key))


def tried_of(schema, form):
    """The trial of one form: what is told wrongly, and how many objects it was tried on."""
    wrong = [f"the sound {form}: {it}" for it in schema.faults(SOUND[form])]
    if wrong:
        return wrong, len(wrong)
    told = [(what, bool(schema.faults(it))) for what, it in changes(schema, form)]
    wrong += [f"{form}: {what}, and isn't told" for what, is_told in told if not is_told]
    lines = ["", "{", "[1]", "{}", json.dumps(SOUND[form])[:-1] + ', "form": 1}']
    wrong += [f"{line[:60]!r} isn't told" for line in lines if not line_faults(schema, line)]
    return wrong, 1 + len(told) + len(lines)


def tried(schema):
    """The checker's own trial: what it tells wrongly, and how many objects it was tried on."""
    if schema.forms() != [*SOUND]:
        return [f"trial: the schema has the forms {schema.forms()}, and not {[*SOUND]}"], 1
    found = [tried_of(schema, form) for form in SOUND]
    return [f"trial: {it}" for wrong, _ in found for it in wrong], sum(count for _, count in found)


def main():
    schema = known_schema()
    wrong, count = tried(schema)
    failed = len(wrong)
    for name in sys.argv[1:]:
        with open(0 if name == "-" else name, encoding="utf-8", newline="\n") as lines:
            for number, line in enumerate(lines, 1):
                faults = line_faults(schema, line)
                wrong += [f"{name}:{number}: {fault}" for fault in faults]
                failed, count = failed + bool(faults), count + 1
    print(*wrong, f"report_schema: {count - failed} passed, {failed} failed", sep="\n")
    return int(failed > 0)


if __name__ == "__main__":
    sys.exit(main())
