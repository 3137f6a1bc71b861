"""The clause of a standard that a refused document breaks, and what is wrong in words, by where the independent reader
(tests/oracle/reader.py) was when it found the fault."""
import traceback
from collections import namedtuple

from tests.oracle.reader import CONTEXT, DEFINITE, EXTENSION_REQUEST, INDEFINITE, SET, UNIVERSAL, Fields
from tools.pages.identifier_names import names_by_contents

# What is wrong, and the clause that forbids it.
Cause = namedtuple("Cause", "words clause")
# The functions of the reader that read a type: its name, and where it is defined.
TYPES = {
    "one_asymmetric_key": ("OneAsymmetricKey", "RFC 5958 section 2"),
    "package": ("AsymmetricKeyPackage", "RFC 5958 section 2"),
    "algorithm_identifier": ("AlgorithmIdentifier", "RFC 5280 section 4.1.1.2"),
    "ec_private_key": ("ECPrivateKey", "RFC 5915 section 3"),
    "rsa_private_key": ("RSAPrivateKey", "RFC 8017 appendix A.1.2"),
    "other_prime_info": ("OtherPrimeInfo", "RFC 8017 appendix A.1.2"),
    "attributes": ("Attributes", None),
    "attribute": ("Attribute", None),
    "extensions": ("Extensions", "RFC 5280 section 4.1"),
    "extension": ("Extension", "RFC 5280 section 4.1"),
    "rdn": ("RelativeDistinguishedName", "RFC 5280 section 4.1.2.4"),
    "name_item": ("AttributeTypeAndValue", "RFC 5280 section 4.1.2.4"),
    "request_info": ("CertificationRequestInfo", "RFC 2986 section 4.1"),
    "request": ("CertificationRequest", "RFC 2986 section 4.2"),
    "public_key": ("SubjectPublicKeyInfo", "RFC 5280 section 4.1"),
    "encrypted": ("EncryptedPrivateKeyInfo", "RFC 5958 section 3"),
    "take": ("BIT STRING", "X.690 8.6.4"),
    "octet_string": ("OCTET STRING", "X.690 8.7.3"),
}
OUTERMOST = {"ec": TYPES["ec_private_key"], "octet_string": ("CurvePrivateKey", "RFC 8410 section 7")}
NAMES = {1: "BOOLEAN", 2: "INTEGER", 3: "BIT STRING", 4: "OCTET STRING", 5: "NULL", 6: "OBJECT IDENTIFIER",
         10: "ENUMERATED", 12: "UTF8String", 16: "SEQUENCE", 17: "SET"}
FORMS = {1: "X.690 8.2.1", 2: "X.690 8.3.1", 5: "X.690 8.8.1", 6: "X.690 8.19.1", 10: "X.690 8.4",
         16: "X.690 8.9.1", 17: "X.690 8.11.1"}
# SEQUENCE OF and SET OF, where the type says that it is one.
FORMS_OF_LISTS = {16: "X.690 8.10.1", 17: "X.690 8.12.1"}


def told(identifier):
    """The usual name of an object identifier, by its contents."""
    return names_by_contents()[identifier]


def name_of(tag):
    """A tag as it is told."""
    kind, number = tag
    if kind == UNIVERSAL:
        return NAMES.get(number, "another universal tag")
    return f"[{number}]" if kind == CONTEXT and number < 2 else "a tag of another class"


class Trace:
    """Where the reader was when a fault was found."""

    def __init__(self, fault):
        self.frames = [(it.f_code.co_name, it.f_locals) for it, _ in traceback.walk_tb(fault.__traceback__)]
        self.names = [name for name, _ in self.frames]

    def local(self, name, of=None):
        """The innermost local variable of this name, in functions of that name."""
        return next((held[name] for at, held in reversed(self.frames) if name in held and of in (None, at)), None)

    def fields(self):
        """The innermost fields that were read."""
        return next((it for _, held in reversed(self.frames) for it in [held.get("self")] if isinstance(it, Fields)),
                    None)

    def form_around(self):
        """The form of the container that the element stands in, if there is one."""
        fields, element = self.fields(), self.local("element")
        found = self.local("around") or (element.around if element else None)
        if hasattr(fields, "container") and "contents" not in self.names and "enter" not in self.names:
            found = fields.container
        return found and found.form

    def is_indefinite(self):
        """Whether the element stands in a container of indefinite length."""
        return self.form_around() == INDEFINITE

    def reads_list(self, function):
        """Whether the innermost list was read by this function."""
        pairs = [*zip(self.names, self.names[1:])]
        return next((first == function for first, second in reversed(pairs) if second == "list_of"), False)

    def type(self):
        """The innermost type that was read, and where it is defined."""
        found = next((it for it in reversed(self.names) if it in TYPES), None)
        if "list_of" in self.names and found == "request_info" and self.local("tag", "list_of") == SET:
            return "Name", "RFC 5280 section 4.1.2.4"
        name, clause = TYPES.get(found, (None, None))
        if found == "attribute" and self.local("kind") == EXTENSION_REQUEST and self.reads_list("set_of_some"):
            clause = "RFC 2985 section 5.4.2"
        elif found in ("attribute", "attributes"):
            clause = "RFC 2986 section 4.1" if "request_info" in self.names else "RFC 5958 section 2"
        return name, clause

    def document(self):
        """What the outermost element should be, where no type was read."""
        name = self.local("read", "document").__name__
        return OUTERMOST.get(name) or TYPES[name]


def where_cut(trace):
    """What of an element isn't there, for a fault at the end of the octets."""
    if "contents" in trace.names and "length" not in trace.names:
        return Cause("the octets end in the contents", "X.690 8.1.3.3")
    if "length" in trace.names:
        return Cause("the octets end in a length", "X.690 8.1.3")
    if "high_number" in trace.names:
        return Cause("the octets end in an identifier", "X.690 8.1.2.4.2")
    if trace.is_indefinite():
        return Cause("the octets end where end-of-contents octets are due", "X.690 8.1.5")
    if trace.form_around() == DEFINITE:
        return Cause("the octets end where an element is due", "X.690 8.1.3.3")
    return Cause("there are no octets", "X.690 8.1.1.1")


def past_end(trace):
    if "length" in trace.names and trace.names[-1] != "header_octet":
        return Cause("contents reach past the end of the container", "X.690 8.1.3.3")
    if "length" in trace.names or "high_number" in trace.names:
        which = "a length" if "length" in trace.names else "an identifier"
        return Cause(f"{which} reaches past the end of the container", "X.690 8.1.3.3")
    # (so there are no end-of-contents octets, or one of them)
    return Cause("an end reaches past the end of the container", "X.690 8.1.5")


def bad_tag(octets, at):
    if octets[at] == 0x20:
        return Cause("universal 0, constructed", "X.680 8.4")
    if octets[at + 1] == 0x80:
        return Cause("a tag number that begins with 80", "X.690 8.1.2.4.2")
    if octets[at + 1] < 31:
        return Cause("a tag number below 31 in more than one octet", "X.690 8.1.2.2")
    return Cause("a tag number of more than four octets", None)


def bad_end(octets, at, trace):
    if trace.is_indefinite():
        return Cause("half of end-of-contents octets", "X.690 8.1.5")
    return Cause("end-of-contents octets where the length is definite", "X.690 8.1.5")


def bad_length(octets, at):
    first = next(it for it in octets[at + 1 :] if it in (0x80, 0xFF)) if octets[at] & 31 == 31 else octets[at + 1]
    if first == 0xFF:
        return Cause("a length that begins with FF", "X.690 8.1.3.5")
    return Cause("an indefinite length of a primitive element", "X.690 8.1.3.2")


def bad_integer(contents):
    if not contents:
        return Cause("an INTEGER of no octets", "X.690 8.3.1")
    return Cause(f"the first nine bits are all {contents[0] & 1}", "X.690 8.3.2")


def bad_bits(trace):
    contents, pieces = trace.local("contents", "take"), trace.local("pieces")
    if not contents:
        return Cause("a BIT STRING of no octets", "X.690 8.6.2")
    if pieces and pieces[-1][0]:
        return Cause("a segment after unused bits", "X.690 8.6.4")
    if contents[0] > 7:
        return Cause("eight unused bits or more", "X.690 8.6.2.2")
    return Cause("unused bits of no octet", "X.690 8.6.2.3")


def bad_oid(contents):
    if not contents:
        return Cause("an OBJECT IDENTIFIER of no octets", "X.690 8.19.3")
    if contents[-1] & 128:
        return Cause("a subidentifier without its end", "X.690 8.19.2")
    starts = [0, *(at + 1 for at, it in enumerate(contents[:-1]) if it < 128)]
    if any(contents[at] == 0x80 for at in starts):
        return Cause("a subidentifier that begins with 80", "X.690 8.19.2")
    return Cause("a subidentifier of 2^128 or more", None)


def bad_text(contents):
    octets = bytes(contents)
    try:
        octets.decode("utf-8")
    except UnicodeDecodeError as error:
        part = octets[error.start :]
        if part[:1] in (b"\xc0", b"\xc1") or part[:2] < b"\xe0\xa0" and part[:1] == b"\xe0":
            return Cause("an overlong form of UTF-8", "RFC 3629 section 3")
        if b"\xed\xa0" <= part[:2] <= b"\xed\xbf":
            return Cause("a surrogate in UTF-8", "RFC 3629 section 3")
        if part[:2] >= b"\xf4\x90":
            return Cause("a character past 10FFFF", "RFC 3629 section 3")
        return Cause("octets that are no UTF-8", "RFC 3629 section 3")
    raise ValueError("this is UTF-8")


def wrong_form(octets, at, trace):
    tag = trace.local("element").tag
    if tag[0] == UNIVERSAL:
        form = "constructed" if octets[at] & 32 else "primitive"
        is_list = trace.names[-3:] == ["list_of", "__init__", "enter"] and not trace.reads_list("open_value")
        return Cause(f"{NAMES[tag[1]]} in {form} form", (FORMS_OF_LISTS if is_list else FORMS)[tag[1]])
    is_explicit = "explicit" in trace.names
    return Cause("a tagged field in primitive form", "X.690 8.14.2" if is_explicit else "X.690 8.12.1")


def of_type(trace, words):
    """That an element isn't the one that the type has there."""
    name, clause = trace.type()
    name, clause = (name, clause) if name else trace.document()
    return Cause(f"{words} {name}", clause)


def wrong_tag(trace):
    fields = trace.fields()
    found = fields.found if fields else trace.local("element", "document")
    due = trace.local("tag", "due" if fields else "document")
    words = f"{name_of(found.tag)} where {name_of(due) if due else 'an element'} is due"
    return of_type(trace, f"{words}, in" if trace.type()[0] else f"{words}, as")


def empty(trace):
    """The SET OF that has no members."""
    is_of_extensions = trace.local("is_of_request") and trace.local("kind") == EXTENSION_REQUEST
    return "the values of extensionRequest" if is_of_extensions else "a SET OF"


def version(trace):
    number, (name, clause) = trace.local("number", "version"), trace.type()
    return Cause(f"version {number if -9 < number < 9 else 'of two octets'} of {name}", clause)


def key_length(octets, at, trace):
    algorithm = trace.local("algorithm")
    if "public_bits" in trace.names:
        bits, name = trace.local("bits", "public_bits"), told(algorithm.oid)
        words = f"unused bits in a public key of {name}" if bits[0] else f"a public key of another length than {name}'s"
        return Cause(words, "RFC 8410 section 4")
    key, curve = trace.local("key"), trace.local("curve", "ec_private_key")
    if curve or not isinstance(key, bytes):
        name = told((curve or algorithm.parameters)[2:])
        return Cause(f"a private key of another length than {name}'s", "RFC 5915 section 3")
    return Cause(f"a private key of another length than {told(algorithm.oid)}'s", "RFC 8410 section 7")


def parameters(octets, at, trace):
    algorithm = trace.local("algorithm")
    name = told(algorithm if isinstance(algorithm, bytes) else algorithm.oid)
    return Cause(f"parameters that don't go with {name}", "RFC 8410 section 3")


def version_rule(octets, at, trace):
    name, clause = trace.type()
    what = "otherPrimeInfos" if name == "RSAPrivateKey" else "publicKey"
    with_it = "with" if "end" in trace.names else "without"
    return Cause(f"version {trace.local('number')} of {name} {with_it} {what}", clause)


def left_out(number):
    """What is said of the universal tags that are read as no open value; a reserved one is forbidden."""
    if number in (8, 9, 11, 13, 14, 29, *range(31, 37)):
        return Cause("a type that is left out", None)
    return Cause("a universal tag that is reserved", "X.680 8.4")


LIMITS = ("TooLong", "TooDeep", "TextTooLong")
CAUSES = {
    "Truncated": lambda octets, at, trace: where_cut(trace),
    "PastEnd": lambda octets, at, trace: past_end(trace),
    "BadTag": lambda octets, at, trace: bad_tag(octets, at),
    "BadEnd": bad_end,
    "BadLength": lambda octets, at, trace: bad_length(octets, at),
    "BadInteger": lambda octets, at, trace: bad_integer(trace.local("contents", "integer")),
    "BadBoolean": lambda octets, at, trace: Cause(
        f"a BOOLEAN of {'no octets' if not trace.local('contents', 'boolean') else 'more octets than one'}",
        "X.690 8.2.1"),
    "BadNull": lambda octets, at, trace: Cause("a NULL with contents", "X.690 8.8.2"),
    "BadBits": lambda octets, at, trace: bad_bits(trace),
    "BadOid": lambda octets, at, trace: bad_oid(trace.local("contents", "object_identifier")),
    "BadText": lambda octets, at, trace: bad_text(trace.local("contents", "utf8_string")),
    "WrongForm": wrong_form,
    "WrongTag": lambda octets, at, trace: wrong_tag(trace),
    "Extra": lambda octets, at, trace: of_type(trace, "a further element in"),
    "Missing": lambda octets, at, trace: of_type(trace, "no element where one is due in"),
    "LeftOut": lambda octets, at, trace: left_out(trace.local("element").tag[1]),
    "EmptySet": lambda octets, at, trace: of_type(trace, f"{empty(trace)} without members, in"),
    "Version": lambda octets, at, trace: version(trace),
    "Parameters": parameters,
    "Curve": lambda octets, at, trace: Cause("another curve inside than outside", None),
    "KeyLength": key_length,
    "VersionRule": version_rule,
    "Trailing": lambda octets, at, trace: Cause("octets after the document", "X.690 8.1.1.1"),
    "TooLong": lambda octets, at, trace: Cause(past_end(trace).words.replace("end of the container", "limit"), None),
    "TooDeep": lambda octets, at, trace: Cause("nested deeper than the limit", None),
    "TextTooLong": lambda octets, at, trace: Cause("the DER encoding is longer than the limit", None),
}


def cause_of(fault, octets):
    """What is wrong, and the clause that forbids it, of a fault in these octets."""
    return CAUSES[fault.reason](octets, fault.place, Trace(fault))
