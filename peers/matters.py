"""The twenty things on docs/peers.md that matter most: in such a document one reader sees what another doesn't."""
from collections import namedtuple

# The kinds in which a test is looked for, a pattern of its comment, and why it matters. The test is the one that most
# readers fail: an invalid document that they take, a sound one that they write as another value, or, of pkder's own
# choices, one that they take.
Matter = namedtuple("Matter", "kinds pattern why")
MATTERS = [
    Matter("key", "new: another curve inside than outside",
           "two curves in one key: which of them it is on depends on the reader"),
    Matter("ec", "^two curves; new: a further element", "two curves in one key: the second one isn't looked at"),
    Matter("key ec request public encrypted", "new: octets after the document, at [A-Z]",
           "octets behind a document: another reader finds a second one in them"),
    Matter("key", "new: octets after the document, at privateKey",
           "octets behind the key that privateKey contains: they are carried along unseen"),
    Matter("request", "new: a string in nested segments at signature",
           "a bit string whose bits change: it is written as another signature"),
    Matter("ec public", "new: a string in .* segments at (publicKey|subjectPublicKey)$",
           "a bit string whose bits change: it is written as another public key"),
    Matter("public", "new: unused bits in a public key of ", "a public key some of whose bits aren't there"),
    Matter("key ec request public", "new: eight unused bits or more, at ([pP]ublicKey|subjectPublicKey|signature)$",
           "more unused bits than an octet has"),
    Matter("key", "new: a private key of another length than P-256's",
           "a number that is shorter than the curve's: readers pad it, cut it or refuse it"),
    Matter("key public request", "new: a public key of another length than Ed25519's", "no key of its algorithm"),
    Matter("key", "new: version 1 of OneAsymmetricKey without publicKey", "a version that doesn't go with the fields"),
    Matter("key", "new: version 0 of OneAsymmetricKey with publicKey",
           "a field that the version doesn't have: readers drop the public key or use it"),
    Matter("public", "new: parameters that don't go with Ed25519",
           "parameters that have to be absent: two documents of one key, and two fingerprints"),
    Matter("request", r"new: a subidentifier that begins with 80, at .*lgorithm\.algorithm",
           "two encodings of one identifier, that of an algorithm: a comparison of octets misses it"),
    Matter("key ec request", r"new: the first nine bits are all 0, at (.*\.)?version$",
           "two encodings of one number, the version's"),
    Matter("request", "critical: .*; new: a BOOLEAN of more octets than one",
           "whether the extension is critical depends on the octet that is looked at"),
    Matter("request", r"new: an overlong form of UTF-8, at .*\.subject",
           "two encodings of one character, in a name: a comparison of octets misses it"),
    Matter("ec request public", r"new: end-of-contents octets where the length is definite, at [^\[]*$",
           "an end inside an element: one reader stops there, another goes on"),
    Matter("key ec request public encrypted", r"new: contents reach past the end of the container, at [^\[]*$",
           "a length that leaves its container: what follows is read as a part of it"),
    Matter("encrypted", r"new: a NULL with contents, at .*\.\.$",
           "octets where nothing may stand, in the parameters that a key is decrypted by"),
]
