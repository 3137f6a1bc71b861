"""What may be done with a file whatever words say of it: where one of these helps, words could have said so."""
import re

from tests.advice.doing import Step

PYCA = """python3 -c '
import sys
from cryptography.hazmat.primitives.serialization import *
octets = open("FILE", "rb").read()
{}' > NEW"""
SSH = rb"OPENSSH PRIVATE KEY|\Assh-|\Aecdsa-|BEGIN SSH2"
# The command, and what stands in a file that it may be for.
PRIVATE = (
    ("pem \"$(sed -n 's/^-----BEGIN \\(.*\\)-----.*/\\1/p' FILE | head -1)\" FILE > NEW", rb"-----BEGIN"),
    ("sed '/^-----BEGIN/,$!d' FILE > NEW", rb"[^-]-----BEGIN"),
    ("openssl pkcs8 -topk8 -nocrypt -in FILE -passin pass:secret -outform DER", rb"-----BEGIN"),
    ("openssl pkcs8 -topk8 -nocrypt -inform DER -in FILE -passin pass:secret -outform DER", rb"\A0"),
    ("openssl ec -in FILE -passin pass:secret -param_enc named_curve | openssl pkcs8 -topk8 -nocrypt -outform DER",
     rb"EC PRIVATE KEY"),
    ("sed 's/ED25519 //; s/X25519 //' FILE | openssl pkcs8 -topk8 -nocrypt -passin pass:secret -outform DER",
     rb"BEGIN (ED|X)25519"),
    ("openssl pkcs12 -nodes -nocerts -legacy -in FILE -passin pass:secret", rb"\A0"),
    ("pem PKCS12 FILE | openssl pkcs12 -nodes -nocerts -legacy -passin pass:secret", rb"BEGIN PKCS12"),
    ("openssl pkcs12 -nodes -nocerts -in FILE -passin pass:secret | openssl pkcs8 -topk8 -nocrypt", rb"\A0"),
    ("puttygen FILE -O private-openssh -o NEW", rb"\APuTTY|BEGIN SSH2"),
    ("puttygen FILE --old-passphrase PASS -O private-openssh -o NEW --new-passphrase EMPTY", rb"\APuTTY|BEGIN SSH2"),
    (PYCA.format("key = load_ssh_private_key(octets, None)\nsys.stdout.buffer.write(key.private_bytes("
                 "Encoding.DER, PrivateFormat.PKCS8, NoEncryption()))"), SSH),
    (PYCA.format("key = load_ssh_private_key(octets, b\"secret\")\nsys.stdout.buffer.write(key.private_bytes("
                 "Encoding.DER, PrivateFormat.PKCS8, NoEncryption()))"), SSH),
    ("node -e 'process.stdout.write(crypto.createPrivateKey({key: JSON.parse(fs.readFileSync(\"FILE\")), format: "
     "\"jwk\"}).export({type: \"pkcs8\", format: \"der\"}))'", rb"\"kty\""),
    ("certtool --to-p8 --load-privkey FILE --inder --outder --password= --outfile NEW", rb"\A0"),
    ("certtool --to-p8 --load-privkey FILE --outder --password= --outfile NEW", rb"-----BEGIN"),
    ("keytool -importkeystore -srckeystore FILE -srcstoretype BCFKS -providerpath /usr/share/java/bcprov.jar "
     "-providerclass org.bouncycastle.jce.provider.BouncyCastleProvider -destkeystore NEW -deststoretype PKCS12",
     rb"\A0"),
)
PUBLIC = (
    ("openssl pkey -pubin -in FILE -outform DER", rb"-----BEGIN"),
    ("openssl pkey -pubin -inform DER -in FILE -outform DER", rb"\A0"),
    ("openssl x509 -in FILE -noout -pubkey", rb"-----BEGIN"),
    ("openssl rsa -RSAPublicKey_in -in FILE -pubout -outform DER", rb"-----BEGIN"),
    ("openssl rsa -RSAPublicKey_in -inform DER -in FILE -pubout -outform DER", rb"\A0"),
    ("openssl spkac -in FILE -noout -pubkey", rb"\ASPKAC"),
    ("openssl pkcs7 -in FILE -print_certs | openssl x509 -noout -pubkey", rb"PKCS7"),
    ("ssh-keygen -i -f FILE > LINE; ssh-keygen -e -m PKCS8 -f LINE", SSH),
    (PYCA.format("key = load_ssh_public_key(octets)\nsys.stdout.buffer.write(key.public_bytes("
                 "Encoding.DER, PublicFormat.SubjectPublicKeyInfo))"), SSH),
    ("ssh-keygen -i -f FILE > LINE; " + PYCA.replace('"FILE"', '"LINE"').format(
        "key = load_ssh_public_key(octets)\nsys.stdout.buffer.write(key.public_bytes("
        "Encoding.DER, PublicFormat.SubjectPublicKeyInfo))"), SSH),
    ("node -e 'process.stdout.write(crypto.createPublicKey({key: JSON.parse(fs.readFileSync(\"FILE\")), format: "
     "\"jwk\"}).export({type: \"spki\", format: \"der\"}))'", rb"\"kty\""),
    ("certtool --pubkey-info --load-pubkey FILE --outder --outfile NEW", rb"-----BEGIN"),
)
REQUEST = (
    ("openssl req -in FILE -outform DER", rb"-----BEGIN"),
    ("sed 's/\\r$//' FILE > NEW", rb"\r\n"),
    ("uniq FILE > NEW", rb"-----BEGIN"),
    ("xxd -r FILE", rb"\A0+: "),
    ("from_hex < FILE", rb"\A[0-9A-Fa-f]{2}"),
    ("from_base64 < FILE", rb"\A[A-Za-z0-9]"),
    ("from_base64url < FILE", rb"\A[A-Za-z0-9]"),
    ("gunzip -c FILE", rb"\A\x1f\x8b"),
)
WAYS = {"private": PRIVATE, "encrypted": PRIVATE, "public": PUBLIC, "request": REQUEST}
# The kinds that somebody can use who has a file for this end, the usual one first.
KINDS = {"private": ("key", "ec"), "encrypted": ("encrypted", "key", "ec"), "public": ("public",),
         "request": ("request",)}


def ways_of(want, octets):
    """What may be tried with a file that somebody has for this end."""
    return [Step(None, command) for command, sign in WAYS[want] if re.search(sign, octets)]
