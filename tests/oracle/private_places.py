"""Which octets of a sound document are private, by docs/formats.md and the standards: found by reading it, where
tests/oracle/secret_documents.py knows it from making it. Damage may leave a sound document in which such octets are
public."""
from tests.oracle.reader import EC_PUBLIC_KEY, RSA_ENCRYPTION
from tests.oracle.secret_documents import CURVE_KEYS, EXTENSION_REQUEST
from tools.pages.identifier_names import names_by_contents

CONSTRUCTED = 0x20
# The contents of object identifiers that have usual names.
NAMED = {*names_by_contents()}


class Part:
    """An element: its first octet, the places of the octets of its contents where it is primitive, its members where
    it is constructed, and the number of the octet after it."""

    def __init__(self, first, places, members, end):
        self.first, self.places, self.members, self.end = first, places, members, end

    def leaves(self):
        """The places of the contents of all that is primitive in it."""
        return self.places if self.members is None else [at for it in self.members for at in it.leaves()]


def part_at(octets, places, at):
    """The element that begins at the number `at` of these places of the octets."""
    get = lambda it: octets[places[it]]
    first = get(at)
    at += 1
    if first & 31 == 31:
        while get(at) & 128:
            at += 1
        at += 1
    length, at = get(at), at + 1
    end = at + length
    if length > 128:
        count = length - 128
        at += count
        end = at + int.from_bytes(bytes(map(get, range(at - count, at))), "big")
    if not first & CONSTRUCTED:
        return Part(first, places[at:end], None, end)
    members = []
    while at < end if length != 128 else get(at) or get(at + 1):
        members.append(part_at(octets, places, at))
        at = members[-1].end
    return Part(first, [], members, end if length != 128 else at + 2)


def contents(octets, part):
    return bytes(octets[it] for it in part.leaves())


def in_key(octets, key):
    """The private places of a OneAsymmetricKey."""
    _, algorithm, inner, *others = key.members
    kind, places = contents(octets, algorithm.members[0]), inner.leaves()
    if kind in CURVE_KEYS:
        found = part_at(octets, places, 0).leaves()
    elif kind == EC_PUBLIC_KEY:
        found = in_ec_key(octets, part_at(octets, places, 0))
    elif kind == RSA_ENCRYPTION:
        found = [at for it in part_at(octets, places, 0).members[3:] for at in it.leaves()]
    else:
        found = places
    return [*found, *(at for it in others if it.first == 0xA0 for at in in_attributes(octets, it))]


def in_ec_key(_, key):
    return key.members[1].leaves()


def in_attributes(octets, attributes, is_of_request=False):
    """The private places of values, which are those of an extension request in no request."""
    found = []
    for kind, values in (it.members for it in attributes.members):
        if not is_of_request or contents(octets, kind) != EXTENSION_REQUEST:
            found += values.leaves()
    return found


def in_request(octets, request):
    fields = request.members[0].members
    return in_attributes(octets, fields[3], True) if len(fields) > 3 else []


def in_package(octets, package):
    return [at for it in package.members for at in in_key(octets, it)]


IN = {"key": in_key, "ec": in_ec_key, "request": in_request, "package": in_package}


def private_places(kind, octets):
    """The places of the private octets of a document of this kind, which is sound."""
    part = part_at(octets, range(len(octets)), 0)
    return {*IN[kind](octets, part)} if kind in IN else set()


def header_at(octets, at):
    """The octets of a header of a tag below 31."""
    length = octets[at + 1] if at + 1 < len(octets) else 0
    return octets[at : at + 2 + (length - 128 if length > 128 else 0)]


def length_in(header):
    """The length that a header says, or none where it is of indefinite length or isn't whole."""
    length = header[1] if len(header) > 1 else 128
    return int.from_bytes(header[2:], "big") if length > 128 else length if length < 128 else None


def key_begin(octets):
    """How many octets say that a public key begins whose algorithm has a usual name (RFC 5280, section 4.1); 0 where
    none does."""
    at = 0
    for _ in range(2):
        if octets[at : at + 1] != b"\x30":
            return 0
        at += len(header_at(octets, at))
    end = at + 2 + (octets[at + 1] if at + 1 < len(octets) else 0)
    return end if octets[at : at + 1] == b"\6" and octets[at + 2 : end] in NAMED else 0


def subject_of(octets):
    """The places of the contents of a request's subject, where a public key follows on it as it is due: whatever stands
    there is a name, in a damaged request, too."""
    at = 0
    for first in b"\x30\x30\x02\x30":
        if octets[at : at + 1] != bytes([first]):
            break
        header = header_at(octets, at)
        at += len(header)
        if first == 2:
            at += length_in(header) or 0
    else:
        end = at + (length_in(header) or 0)
        if key_begin(octets[end:]):
            return range(at, end)
    return range(0)


def name_and_key_begin_of(octets):
    """The same, and the places of what says that a public key follows."""
    found = subject_of(octets)
    return range(found.start, found.stop + key_begin(octets[found.stop :])) if found.stop else found


def differ_in_private(kind, octets, others):
    """Whether two sound documents of one length differ in octets alone that are private in both."""
    private = private_places(kind, octets) & private_places(kind, others)
    return all(one == other or at in private for at, (one, other) in enumerate(zip(octets, others)))
