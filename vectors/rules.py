"""What the vectors have to show: each reason in each kind in which it can stand, and each rule of docs/formats.md
broken and met."""
import re
from collections import namedtuple
from pathlib import Path

from tests.oracle.extensions import BY_CONTENTS
from tests.oracle.random_documents import REASONS
from tools.pages.identifier_names import names_by_contents
from vectors.shown import VERDICTS

TOP = str(Path(__file__).resolve().parents[1])
# A rule: words of docs/formats.md that state it, the kinds that it holds in, what a test shows that breaks it, and one
# that meets it, as patterns.
Rule = namedtuple("Rule", "stated kinds broken met")
ALL = "key ec request public encrypted package"
OPEN, KEYS, SPKI = "key request public encrypted package", "key package", "request public"
# The reasons that can't stand in a kind.
NONE_IN = {
    "ec": "BadBoolean BadNull BadText LeftOut EmptySet Parameters Inner Curve VersionRule",
    "request": "Inner Curve VersionRule",
    "public": "EmptySet Version Inner Curve VersionRule",
    "encrypted": "EmptySet Version Inner Curve KeyLength VersionRule",
}
CURVES = ("P-224", "P-256", "secp256k1", "P-384", "P-521")
NAMES = ("X25519", "X448", "Ed25519", "Ed448")

RULES = [
    # Layout
    Rule("the first not `80`", OPEN, "a tag number that begins with 80", r"an identifier of \d octets"),
    Rule("with a tag number from 31 on", ALL, "a tag number below 31 in more than one octet", "indefinite length"),
    Rule("below 2^28 (profile)", ALL, "a tag number of more than four octets", "an identifier of|indefinite length"),
    Rule("universal 0 is no element", ALL, "universal 0, constructed", "indefinite length at the document"),
    Rule("`FF` is not used", ALL, "a length that begins with FF", "a length of more octets than nine"),
    Rule("leading zeros allowed", ALL, "contents reach past the end of the container", "more than DER has"),
    Rule("`80` in place of a length, for constructed elements", ALL, "an indefinite length of a primitive element",
         "indefinite length at"),
    Rule("ended by `00 00`", ALL, "half of end-of-contents octets", "indefinite length at"),
    Rule("ended by `00 00`", ALL, "where end-of-contents octets are due", "indefinite length at"),
    Rule("ended by `00 00`", ALL, "end-of-contents octets where the length is definite", "indefinite length at"),
    Rule("base 128 without leading zeros", ALL, "a subidentifier that begins with 80",
         "a subidentifier of many octets"),
    Rule("each is below 2^128 (profile)", ALL, r"a subidentifier of 2\^128", "a subidentifier of many octets"),
    Rule("OBJECT IDENTIFIER (8.19)", ALL, "a subidentifier without its end", "identifier"),
    Rule("OBJECT IDENTIFIER (8.19)", ALL, "an OBJECT IDENTIFIER of no octets", "identifier"),
    Rule("the depth of nesting, 1 to 64", ALL, "nested deeper than the limit", "nested as deep as the limit"),
    Rule("the octets of a document and of its DER", ALL, "TooLong, .* the limit", "octets as many as the limit"),
    Rule("TextTooLong at 0 where its DER text is longer", ALL, "the DER encoding is longer than the limit",
         "DER encoding longer than the document"),
    Rule("where the input has ended it is Truncated at k", ALL, "there are no octets", "the fields|members"),
    Rule("Trailing at the number of octets taken", ALL, "octets after the document", "the fields|members"),
    # Leaves
    Rule("BOOLEAN (any octet but 00 is TRUE", OPEN, "a BOOLEAN of no octets", "a BOOLEAN of another octet"),
    Rule("BOOLEAN (any octet but 00 is TRUE", OPEN, "a BOOLEAN of more octets than one", "a BOOLEAN of ff"),
    Rule("the first nine bits are neither all 0 nor", ALL, "the first nine bits are all 0", "an INTEGER"),
    Rule("the first nine bits are neither all 0 nor", ALL, "the first nine bits are all 1", "an INTEGER"),
    Rule("INTEGER (8.3", ALL, "an INTEGER of no octets", "an INTEGER"),
    Rule("NULL (8.8)", OPEN, "a NULL with contents", "no contents of tag 0.5"),
    Rule("BIT STRING (8.6; unused bits are written as 0", ALL, "eight unused bits or more", "a BIT STRING, set bits"),
    Rule("BIT STRING (8.6; unused bits are written as 0", ALL, "a BIT STRING of no octets", "a BIT STRING, no bits"),
    Rule("BIT STRING (8.6; unused bits are written as 0", ALL, "unused bits of no octet", "a BIT STRING, unused bits"),
    Rule("Segments of a BIT STRING have tag 3", "key ec request public package", "in BIT STRING",
         "a string in segments"),
    Rule("Only the last primitive one may have unused bits", "key ec request public package",
         "a segment after unused bits", "a string in 3 segments|a string in segments"),
    Rule("its segments have tag 4, as those", ALL, "in OCTET STRING", "a string in segments"),
    Rule("A UTF8String is UTF-8, without surrogates", OPEN, "octets that are no UTF-8", "some contents of tag 0.12"),
    Rule("A UTF8String is UTF-8, without surrogates", OPEN, "a surrogate in UTF-8", "some contents of tag 0.12"),
    Rule("and in shortest form", OPEN, "an overlong form of UTF-8", "some contents of tag 0.12"),
    Rule("in the order of their texts, the shorter padded", "key request package", "EmptySet",
         "members out of order"),
    Rule("WrongForm at p for a SEQUENCE, SET or explicit", ALL, "SEQUENCE in primitive form", "the fields"),
    Rule("WrongForm at p for a SEQUENCE, SET or explicit", OPEN, "SET in primitive form", "a container of tag 0.17"),
    Rule("WrongForm at p for a SEQUENCE, SET or explicit", "key ec request package",
         "a tagged field in primitive form", "the fields"),
    *(Rule("BOOLEAN, INTEGER,\n   ENUMERATED, NULL or OBJECT IDENTIFIER that is constructed",
           ALL if it in ("INTEGER", "OBJECT IDENTIFIER") else OPEN, f"{it} in constructed form", "the fields")
      for it in ("BOOLEAN", "INTEGER", "ENUMERATED", "NULL", "OBJECT IDENTIFIER")),
    # Open values
    Rule("| universal 8, 9, 11, 13 to 15, 29, 31 and later | nothing", OPEN, "a type that is left out",
         "some contents of tag 0.30"),
    Rule("| universal 8, 9, 11, 13 to 15, 29, 31 and later | nothing", OPEN, "a universal tag that is reserved",
         "some contents of tag 0.30"),
    *(Rule("### Open values (*profile*)", OPEN, "a type that is left out", rf"tag {it.replace('.', '[.]')}\b")
      for it in "0.4 0.7 0.12 0.18 0.19 0.20 0.21 0.22 0.23 0.24 0.25 0.26 0.27 0.28 0.30 0.16 0.17 2.0 3.30".split()),
    # Types that kinds share
    *(Rule("- Parameters at an AlgorithmIdentifier that has parameters under X25519", OPEN,
           f"parameters that don't go with {it},", "the fields algorithm at") for it in NAMES),
    *(Rule("- KeyLength at the BIT STRING of a SubjectPublicKeyInfo", SPKI, f"{what} {it}(?!\\d)", f"{it} at")
      for it in NAMES for what in ("a public key of another length than", "unused bits in a public key of")),
    *(Rule("- EmptySet at a SET OF that has to have a member", "request", f"EmptySet, .*{it}", "one members at")
      for it in ("in RelativeDistinguishedName", "in Attribute")),
    Rule("No type has further elements after its last field", ALL, "a further element in", "the fields"),
    Rule("a field is still due", ALL, "no element where one is due in", "the fields"),
    # Kinds
    Rule("- Version at the INTEGER, where it isn't 1.", "ec", "version 0 of ECPrivateKey",
         "an INTEGER, positive, at version"),
    *(Rule("- KeyLength at the ECPrivateKey, where it names a curve", "ec key package",
           f"a private key of another length than {it}'s", f"{it} at") for it in CURVES),
    Rule("Explicit and implicit parameters are WrongTag", "ec key",
         "NULL where OBJECT IDENTIFIER is due, in ECPrivateKey",
         "the fields version, privateKey, parameters"),
    Rule("Explicit and implicit parameters are WrongTag", "ec",
         "SEQUENCE where OBJECT IDENTIFIER is due, in ECPrivateKey",
         "the fields version, privateKey, publicKey"),
    Rule("- Version at the INTEGER, where it is neither 0 nor 1", KEYS, "version 2 of OneAsymmetricKey",
         "an INTEGER, 0, at .*version"),
    Rule("- Version at the INTEGER, where it is neither 0 nor 1; of an RSA key the same", KEYS,
         "version -?.* of RSAPrivateKey", "an INTEGER, positive, at privateKey: version"),
    Rule("- Parameters at the AlgorithmIdentifier under id-ecPublicKey", KEYS,
         "parameters that don't go with id-ecPublicKey", "P-256 at"),
    Rule("- Curve at `privateKey`, where the ECPrivateKey inside names another", KEYS,
         "another curve inside than outside",
         "privateKey of EC"),
    *(Rule("- KeyLength at `privateKey`, where a key of RFC 8410 hasn't the length", KEYS,
           f"a private key of another length than {it}'s", f"{it} at") for it in NAMES),
    Rule("- EmptySet at the values of an attribute, where there is none (*profile*", KEYS, "EmptySet",
         "no members at .*attributes"),
    Rule("- VersionRule at [1] in a key of version 0", KEYS, "version 0 of OneAsymmetricKey with publicKey",
         "the fields version, privateKeyAlgorithm, privateKey at"),
    Rule("at the key, where it has version 1 and no `publicKey`", KEYS,
         "version 1 of OneAsymmetricKey without publicKey", "privateKey, publicKey at"),
    Rule("at universal 16 after `coefficient` under version 0", KEYS, "version 0 of RSAPrivateKey with otherPrimeInfos",
         "coefficient at"),
    Rule("at the RSAPrivateKey of version 1 without", KEYS, "version 1 of RSAPrivateKey without otherPrimeInfos",
         "coefficient, otherPrimeInfos at"),
    Rule("Missing where `otherPrimeInfos` are empty", KEYS, "Missing, .*otherPrimeInfos",
         "several members at privateKey: otherPrimeInfos"),
    *(Rule("- KeyLength at `publicKey` under an algorithm of RFC 8410", KEYS, f"{what} {it}(?!\\d)",
           "privateKey, publicKey at") for it in NAMES
      for what in ("a public key of another length than", "unused bits in a public key of")),
    Rule("octets after the inner\ndocument are Inner with Trailing inside", KEYS, "Inner with Trailing",
         "privateKey: "),
    Rule("- Version at the INTEGER of `version`, where it isn't 0.", "request", "version 1 of CertificationRequestInfo",
         "an INTEGER, 0, at certificationRequestInfo.version"),
    Rule("here they may be absent (*profile*)", "request", "in CertificationRequestInfo",
         "the fields version, subject, subjectPKInfo at"),
    Rule("`critical` is left out where it is FALSE (X.690 11.5)", "request", "in Extension,", "a BOOLEAN of 00 at"),
    Rule("and at the lists of extensionRequest, where there is none", "request",
         "EmptySet, the values of extensionRequest", "no members at certificationRequestInfo.attributes"),
    *(Rule("- Parameters at the algorithm of the key or of the signature", "request",
           rf"Parameters, .* {it}, at signatureAlgorithm", f"{it} at signatureAlgorithm") for it in NAMES),
    *(Rule("- KeyLength at the key, as in kind `public`.", "request", rf"KeyLength, .* {it}\b.*subjectPKInfo",
           f"{it} at certificationRequestInfo.subjectPKInfo") for it in NAMES),
    Rule("WrongForm at a primitive [0] after the key", "request", "WrongForm, a tagged field in primitive form",
         "members at certificationRequestInfo.attributes"),
    Rule("An empty one is Missing where the first key would stand", "package",
         "no element where one is due in AsymmetricKeyPackage", "one members at the document"),
]


def lacking_of(kind, tests):
    """What the tests of a kind don't show that they have to."""
    faults = [test.fault for test in tests if test.fault]
    reasons = {it.reason for it in faults} | {it.inside.reason for it in faults if it.inside}
    due = {*REASONS} - {*NONE_IN.get(kind, "").split()}
    yield from (f"{kind}: no test has the reason {it}" for it in sorted(due - reasons))
    yield from (f"{kind}: a test has the reason {it}, which can't stand there" for it in sorted(reasons - due))
    broken = {it for test in tests if test.fault for it in test.shows}
    met = {it for test in tests if not test.fault for it in test.shows}
    for rule in RULES:
        if kind in rule.kinds.split():
            for which, pattern, shown in (("breaks", rule.broken, broken), ("meets", rule.met, met)):
                if not any(re.search(pattern, it) for it in shown):
                    yield f"{kind}: no test {which} the rule '{rule.stated}': {pattern}"


def lacking_extensions(tests):
    """What is lacking of the values of known extensions."""
    shown = {it for test in tests if not test.fault for it in test.shows}
    for identifier in BY_CONTENTS:
        for words in VERDICTS.values():
            due = f"{names_by_contents()[identifier]}, {words}"
            if not any(it.startswith(due) for it in shown):
                yield f"request: no test has {due}"


def unshown(page):
    """The rules of docs/formats.md that none here states: the points of its lists on leaves, types and kinds."""
    for section in re.findall(r"(?ms)^## ((?:Leaves|Types|Kind)\b.*?)(?=^## )", page):
        for point in re.findall(r"(?ms)^- .*?(?=^- |^$|^#)", section):
            if not any(rule.stated in point for rule in RULES):
                yield f"no rule here is '{point.splitlines()[0]}' of docs/formats.md"


def lacking(all_tests):
    """What the tests of all kinds don't show, rules that docs/formats.md doesn't have, and rules of it that aren't
    here."""
    with open(f"{TOP}/docs/formats.md", encoding="utf-8") as file:
        page = file.read()
    found = [f"docs/formats.md has no rule '{rule.stated}'" for rule in RULES if rule.stated not in page]
    found += unshown(page)
    for kind, tests in all_tests.items():
        found += [*lacking_of(kind, tests), *(lacking_extensions(tests) if kind == "request" else ())]
    return list(dict.fromkeys(found))
