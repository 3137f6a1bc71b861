"""What is named and isn't ours, and the command that makes a kind of ours of it, where there is one."""
import re
from typing import Dict, NamedTuple, Optional, Tuple

from .. import Kind


class Other(NamedTuple):
    """What isn't ours: its name in lines, whether it has or may have a private key, and what to do with it. In the
    command {der} stands for what the tool has to be told of what isn't PEM."""

    name: str
    is_private: bool = False
    do: Optional[str] = None


TO_PKCS_8 = "openssl pkcs8 -topk8 -nocrypt{der} -in FILE"
TO_PKCS_12 = ("keytool -importkeystore -srckeystore FILE -destkeystore NEW -deststoretype PKCS12, "
              "then openssl pkcs12 -nodes -nocerts -in NEW")
TO_PUBLIC = "ssh-keygen -e -m PKCS8 -f {0}, of RSA and ECDSA; of Ed25519 the manual's recipe from_ssh < {0}"
OF_PUTTY = ("puttygen FILE -O private-openssh -o NEW, then openssl pkcs8 -topk8 -nocrypt -in NEW, of RSA, DSA and "
            "ECDSA; of Ed25519 hand in NEW")
OF_JWK = ("node -p 'crypto.create{}Key({{format:\"jwk\",key:JSON.parse(fs.readFileSync(\"FILE\"))}})"
          ".export({{format:\"pem\",type:\"{}\"}})', of a set after jq .keys[0]")
UNPACKED = "{} FILE, then hand in what was in it"
OTHERS: Dict[str, Other] = {
    "certificate": Other("certificate", False, "openssl x509 -pubkey -noout{der} -in FILE writes its public key"),
    "crl": Other("certificate revocation list"),
    "pkcs7": Other("PKCS #7 or CMS", False, "openssl pkcs7 -print_certs{der} -in FILE writes its certificates"),
    "pkcs12": Other("PKCS #12", True, "openssl pkcs12 -nodes -nocerts -in FILE, of an old one with -legacy"),
    "rsa_private_key": Other("RSA private key of PKCS #1", True, TO_PKCS_8),
    "rsa_public_key": Other("RSA public key of PKCS #1", False, "openssl rsa -RSAPublicKey_in{der} -in FILE -pubout"),
    "dsa_private_key": Other("DSA private key in its old form", True, TO_PKCS_8),
    "tss2_private_key": Other("key inside a TPM", True, "openssl pkey -provider tpm2 -provider default -in FILE "
                              "-pubout writes its public key; the private one stays in the TPM"),
    "sm2_private_key": Other("SM2 private key", True, TO_PKCS_8),
    "old_encrypted": Other("private key encrypted in an old form", True, "openssl pkcs8 -topk8 -in FILE, which asks "
                           "for its password"),
    "openssh_key": Other("private key of OpenSSH", True, "ssh-keygen -p -m PKCS8 -f COPY, which writes over the copy; "
                         "of Ed25519 the manual's recipe from_openssh FILE, with a password after "
                         "ssh-keygen -p -f COPY"),
    "ssh_public_key": Other("public key of OpenSSH", False, TO_PUBLIC.format("FILE")),
    "ssh2_public_key": Other("public key of SSH (RFC 4716)", False, "ssh-keygen -i -f FILE > NEW, then "
                             + TO_PUBLIC.format("NEW")),
    "putty_key": Other("private key of PuTTY", True, OF_PUTTY),
    "sshcom_key": Other("private key of ssh.com", True, OF_PUTTY),
    "jks": Other("key store of Java (JKS)", True, TO_PKCS_12),
    "jceks": Other("key store of Java (JCEKS)", True, TO_PKCS_12),
    "bcfks": Other("key store of BouncyCastle (BCFKS)", True, TO_PKCS_12.replace(
        "-destkeystore", "-srcstoretype BCFKS -providerpath JAR -providerclass "
        "org.bouncycastle.jce.provider.BouncyCastleProvider -destkeystore")),
    "nss": Other("key store of NSS", True, "pk12util -o NEW -d sql:FOLDER -n NAME, then "
                 "openssl pkcs12 -nodes -nocerts -in NEW"),
    "spkac": Other("signed public key of a browser (SPKAC)", False, "openssl spkac -in FILE -noout -pubkey"),
    "jwk_private": Other("private key as a JWK (RFC 7517)", True, OF_JWK.format("Private", "pkcs8")),
    "jwk": Other("key as a JWK (RFC 7517)", False, OF_JWK.format("Public", "spki")),
    "xml_private_key": Other("private RSA key in XML", True),
    "xml_key": Other("RSA key in XML"),
    "pgp": Other("OpenPGP"),
    "pgp_private": Other("private key of OpenPGP", True),
    "age": Other("file encrypted by age"),
    "parameters": Other("parameters of keys"),
    "attribute_certificate": Other("attribute certificate"),
    "static_key": Other("static key of OpenVPN", True),
    "session": Other("TLS session"),
    "gzip": Other("gzip", False, UNPACKED.format("gunzip")),
    "zip": Other("zip", False, UNPACKED.format("unzip")),
    "tar": Other("tar", False, UNPACKED.format("tar -xf")),
    "7z": Other("7z", False, UNPACKED.format("7z x")),
    "xz": Other("xz", False, UNPACKED.format("unxz")),
    "bzip2": Other("bzip2", False, UNPACKED.format("bunzip2")),
    "zstd": Other("Zstandard", False, UNPACKED.format("unzstd")),
    "listing": Other("what openssl asn1parse prints", False, "hand in the file that it was printed of"),
    "request_text": Other("what openssl req -text prints", False, "openssl req -in FILE, without -noout and -text"),
    "image": Other("image", False, "hand in the text that it shows"),
    "pdf": Other("PDF", False, "hand in the file itself"),
    "office": Other("document of an office program", False, "hand in the file itself"),
}
# Labels that claim a kind, with the one that each kind is written under.
LABELS: Dict[str, Kind] = {
    "PRIVATE KEY": Kind.KEY, "EC PRIVATE KEY": Kind.EC, "CERTIFICATE REQUEST": Kind.REQUEST,
    "NEW CERTIFICATE REQUEST": Kind.REQUEST, "PUBLIC KEY": Kind.PUBLIC, "ENCRYPTED PRIVATE KEY": Kind.ENCRYPTED,
}
LABEL_OF: Dict[Kind, str] = {kind: label for label, kind in reversed([*LABELS.items()])}
# Labels of what isn't ours. (RFC 7468, OpenSSL's pem.h, and the tools that the names tell)
OTHER_LABELS: Dict[str, str] = {
    "CERTIFICATE": "certificate", "X509 CERTIFICATE": "certificate", "TRUSTED CERTIFICATE": "certificate",
    "X509 CRL": "crl", "PKCS7": "pkcs7", "PKCS #7 SIGNED DATA": "pkcs7", "CMS": "pkcs7", "PKCS12": "pkcs12",
    "RSA PRIVATE KEY": "rsa_private_key", "RSA PUBLIC KEY": "rsa_public_key", "DSA PRIVATE KEY": "dsa_private_key",
    "OPENSSH PRIVATE KEY": "openssh_key", "TSS2 PRIVATE KEY": "tss2_private_key", "TSS2 KEY BLOB": "tss2_private_key",
    "SM2 PRIVATE KEY": "sm2_private_key", "SSH2 PUBLIC KEY": "ssh2_public_key", "EC PARAMETERS": "parameters",
    "SM2 PARAMETERS": "parameters", "DSA PARAMETERS": "parameters", "DH PARAMETERS": "parameters",
    "X9.42 DH PARAMETERS": "parameters", "ATTRIBUTE CERTIFICATE": "attribute_certificate",
    "SSL SESSION PARAMETERS": "session", "PGP PUBLIC KEY BLOCK": "pgp", "PGP MESSAGE": "pgp", "PGP SIGNATURE": "pgp",
    "PGP SIGNED MESSAGE": "pgp", "PGP PRIVATE KEY BLOCK": "pgp_private", "AGE ENCRYPTED FILE": "age",
    "OpenVPN Static key V1": "static_key",
}
# What begins so is this, whatever comes after it.
BEGINNINGS: Tuple[Tuple[str, bytes], ...] = (
    ("gzip", b"\x1f\x8b\x08"), ("zip", b"PK\x03\x04"), ("zip", b"PK\x05\x06"), ("7z", b"7z\xbc\xaf\x27\x1c"),
    ("xz", b"\xfd7zXZ\0"), ("bzip2", b"BZh91AY&SY"), ("zstd", b"\x28\xb5\x2f\xfd"), ("jks", b"\xfe\xed\xfe\xed"),
    ("jceks", b"\xce\xce\xce\xce"), ("openssh_key", b"openssh-key-v1\0"), ("nss", b"SQLite format 3\0"),
    ("pdf", b"%PDF-"), ("image", b"\x89PNG\r\n\x1a\n"), ("image", b"\xff\xd8\xff"), ("image", b"GIF8"),
    ("office", b"\xd0\xcf\x11\xe0\xa1\xb1\x1a\xe1"),
)
# The same of texts, behind blanks.
TEXT_BEGINNINGS: Tuple[Tuple[str, bytes], ...] = (
    ("putty_key", rb"PuTTY-User-Key-File-[0-9]+:"), ("ssh2_public_key", rb"---- BEGIN SSH2 PUBLIC KEY ----"),
    ("sshcom_key", rb"---- BEGIN SSH2 ENCRYPTED PRIVATE KEY ----"),
    ("xml_private_key", rb"<RSAKey(?:Pair|Value)>(?s:.){0,8192}?<D>"), ("xml_key", rb"<RSAKey(?:Pair|Value)>"),
    ("ssh_public_key", rb"(sk-)?(ssh-(rsa|dss|ed25519|ed448)|ecdsa-sha2-nistp[0-9]+)(@openssh\.com)? AAAA"),
    ("age", rb"age-encryption\.org/v1\n"), ("spkac", rb"SPKAC="),
    ("listing", rb"0:d=0  hl=[0-9]+ l= *([0-9]+|inf) +(cons|prim):"), ("request_text", rb"Certificate Request:\r?\n"),
)
FIRST = bytes(begin[0] for _, begin in BEGINNINGS)
TEXT_BEGINS = [(word, re.compile(rb"[ \t\r\n]{0,64}(?:" + it + rb")")) for word, it in TEXT_BEGINNINGS]
# A BEGIN line of a private key in whatever dress, and what else says that there is one.
PRIVATE = re.compile(rb"BEGIN(?: |\+|%20)(?:[A-Z0-9]+(?: |\+|%20)){0,3}PRIVATE(?: |\+|%20)KEY|PuTTY-User-Key-File-")


def by_beginning(octets: bytes) -> Optional[str]:
    """The word for octets that begin as no document and no text does."""
    if octets[257:262] == b"ustar":
        return "tar"
    if octets[:1] not in FIRST:
        return None
    return next((word for word, begin in BEGINNINGS if octets.startswith(begin)), None)


def by_text(text: bytes) -> Optional[str]:
    """The word for a text that begins as something does that isn't ours."""
    return next((word for word, begin in TEXT_BEGINS if begin.match(text)), None)


def is_private_label(label: Optional[str]) -> bool:
    """Whether what stands under the label claims to be a private key."""
    word = OTHER_LABELS.get(label or "")
    return "PRIVATE KEY" in (label or "").upper() or bool(word and OTHERS[word].is_private)


def known_label(label: Optional[str]) -> Optional[str]:
    """The label where it is one of the known ones, which alone are repeated: any other one may be somebody's octets."""
    return label if label in LABELS or label in OTHER_LABELS else None


def nearly_known(label: str) -> Optional[str]:
    """The known label that differs from this one in its letters' case and blanks alone."""
    plain = " ".join(label.upper().split())
    return next((it for it in (*LABELS, *OTHER_LABELS) if it.upper() == plain), None) if label != plain else None
