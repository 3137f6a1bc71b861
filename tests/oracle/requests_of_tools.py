"""Certification requests and public keys that openssl makes, and what openssl and `cryptography` (pyca) read in them:
pairs of what it is (`DNS`, `email`, `URI`, `IP`, `usage`, `purpose`, `cA`, `pathLenConstraint`, and of a key of RSA
`bits` and `exponent`) and what is said."""
import importlib.util
import ipaddress
import os
import random
import re
import shutil
import subprocess
import tempfile

from tests.oracle.asked import USAGES

COUNT = 60
CONFIG = """[req]
distinguished_name = name
prompt = no
req_extensions = asked
utf8 = yes
[name]
{name}
[asked]
{asked}
"""
# openssl's words for names of RFC 5280 section 4.2.1.3, and for those of 4.2.1.12
BIT_WORDS = dict(zip("""Digital Signature,Non Repudiation,Key Encipherment,Data Encipherment,Key Agreement,
Certificate Sign,CRL Sign,Encipher Only,Decipher Only""".replace("\n", "").split(","), USAGES))
PURPOSES = {
    "serverAuth": ("TLS Web Server Authentication", "1.3.6.1.5.5.7.3.1"),
    "clientAuth": ("TLS Web Client Authentication", "1.3.6.1.5.5.7.3.2"),
    "codeSigning": ("Code Signing", "1.3.6.1.5.5.7.3.3"),
    "emailProtection": ("E-mail Protection", "1.3.6.1.5.5.7.3.4"),
    "timeStamping": ("Time Stamping", "1.3.6.1.5.5.7.3.8"),
    "OCSPSigning": ("OCSP Signing", "1.3.6.1.5.5.7.3.9"),
}
NAME_WORDS = {"DNS": "DNS", "email": "email", "URI": "URI", "IP Address": "IP"}
# What keys of RSA have: their bits and their exponents.
RSA = [(1024, 65537), (1023, 3), (2048, 65537), (1024, 2**31 - 1), (1024, 2**31 + 11), (1025, 2**40 + 15)]
HEADS = {"X509v3 Subject Alternative Name": "names", "X509v3 Key Usage": "bits",
         "X509v3 Extended Key Usage": "purposes", "X509v3 Basic Constraints": "constraints"}


def tools_that_lack():
    """The comparisons that are left out."""
    found = [] if shutil.which("openssl") else ["requests of openssl and all readings of these (Debian: openssl)"]
    return found + ([] if pyca() else ["what cryptography reads (Debian: python3-cryptography)"])


def pyca():
    return importlib.util.find_spec("cryptography") is not None


# Requests


def random_names(chance):
    """What openssl takes for a subjectAltName."""
    makers = {
        "DNS": lambda: chance.choice(["example.org", "*.example.org", "a-b.example", "xn--bcher-kva.example"]),
        "email": lambda: chance.choice(["a@example.org", "first.last+tag@example.org"]),
        "URI": lambda: chance.choice(["https://example.org/a?b=c", "urn:uuid:0", "spiffe://example.org/a"]),
        "IP": lambda: str(chance.choice([ipaddress.IPv4Address, ipaddress.IPv6Address])(chance.getrandbits(32))),
        "RID": lambda: chance.choice(["1.2.3.4", "1.2.840.113549.1.9.1"]),
    }
    words = chance.choices([*makers], k=chance.randint(1, 6))
    found = [f"{it}:{makers[it]()}" for it in words]
    wide = f"IP:{ipaddress.IPv6Address(chance.getrandbits(128))}"
    return ",".join([*dict.fromkeys(found), *[wide] * chance.randint(0, 1)])


def random_extensions(chance):
    """Lines of a section of openssl's configuration."""
    some = lambda among: chance.sample([*among], chance.randint(1, len(among)))
    # (with encipherOnly and decipherOnly alone cryptography takes none)
    usages = dict.fromkeys(["keyAgreement", *some(USAGES)] if chance.random() < 0.5 else some(USAGES[:7]))
    constraints = chance.choice(["CA:FALSE", "CA:TRUE", f"CA:TRUE,pathlen:{chance.randint(0, 127)}"])
    lines = {"subjectAltName": random_names(chance), "keyUsage": ",".join(usages),
             "extendedKeyUsage": ",".join(some(PURPOSES)), "basicConstraints": constraints}
    chosen = chance.sample([*lines], chance.randint(1, 4))
    return "".join(f"{it} = {'critical,' * chance.randint(0, 1)}{lines[it]}\n" for it in chosen)


def made_by_openssl(seed, count=COUNT):
    """Requests and public keys, each with its title and its kind; none where there is no openssl."""
    if not shutil.which("openssl"):
        return
    chance = random.Random(f"openssl {seed}")
    with tempfile.TemporaryDirectory() as folder:
        config, keys = os.path.join(folder, "config"), [*keys_in(folder)]
        for key in keys:
            yield f"{os.path.basename(key)} of openssl", "public", run("pkey", "-in", key, "-pubout", "-outform", "DER")
        for number in range(count):
            name = chance.choice(["CN = example.org", "C = DE\nO = B\u00fccher, GmbH + Co.\nCN = \u4e2d\u6587"])
            with open(config, "w", encoding="utf-8") as it:
                it.write(CONFIG.format(name=name, asked=random_extensions(chance)))
            words = ("-new", "-key", keys[number % len(keys)], "-config", config, "-outform", "DER")
            yield f"request {number} of openssl, seed {seed}", "request", run("req", *words)


def keys_in(folder):
    """The paths of private keys that are put into a folder."""
    settings = {"public key on P-256": ["EC", "ec_paramgen_curve:P-256"]}
    for bits, exponent in RSA:
        words = ["RSA", f"rsa_keygen_bits:{bits}", f"rsa_keygen_pubexp:{exponent}"]
        settings[f"public key of {bits} bits with exponent {exponent}"] = words
    for title, (algorithm, *words) in settings.items():
        path = os.path.join(folder, title)
        run("genpkey", "-algorithm", algorithm, *(it for word in words for it in ("-pkeyopt", word)), "-out", path)
        yield path


def run(*words, given=b""):
    return subprocess.run(["openssl", *words], input=given, capture_output=True, check=True).stdout


# What tools read


def read_by_openssl(kind, octets):
    """What openssl says in its words, made those of RFC 5280."""
    words = ("pkey", "-pubin") if kind == "public" else ("req",)
    text = run(*words, "-inform", "DER", "-noout", "-text", given=octets).decode()
    found = set()
    for head, said in re.findall(r"(?m)^ +([A-Z0-9][\w ]+): (?:critical)?\n +(.+)$", text):
        for it in said.split(", ") if head in HEADS else []:
            found.add(openssl_fact(HEADS[head], it.strip()))
    if exponent := re.search(r"(?m)^ *Exponent: (\d+) \(", text):
        found |= {("bits", re.search(r"Public-Key: \((\d+) bit\)", text)[1]), ("exponent", exponent[1])}
    return {it for it in found if it}


def openssl_fact(of, said):
    """A fact of an extension of such a kind."""
    if of == "bits":
        return "usage", BIT_WORDS[said]
    if of == "purposes":
        return "purpose", next(it for it, (words, _) in PURPOSES.items() if words == said)
    key, _, value = said.partition(":")
    if of == "constraints":
        return ("cA", value) if key == "CA" else ("pathLenConstraint", value)
    kind = NAME_WORDS.get(key)
    return kind and (kind, str(ipaddress.ip_address(value)) if kind == "IP" else value)


def read_by_pyca(kind, octets):
    """What cryptography reads."""
    from cryptography import x509
    from cryptography.hazmat.primitives.serialization import load_der_public_key

    if kind == "public":
        return pyca_key(load_der_public_key(octets))
    request = x509.load_der_x509_csr(octets)
    found = pyca_key(request.public_key())
    for it in request.extensions:
        value = it.value
        if isinstance(value, x509.SubjectAlternativeName):
            kinds = {"DNS": x509.DNSName, "email": x509.RFC822Name, "URI": x509.UniformResourceIdentifier,
                     "IP": x509.IPAddress}
            found |= {(word, str(said)) for word, kind in kinds.items() for said in value.get_values_for_type(kind)}
        elif isinstance(value, x509.KeyUsage):
            found |= {("usage", name) for name, is_set in zip(USAGES, pyca_usages(value)) if is_set}
        elif isinstance(value, x509.ExtendedKeyUsage):
            by_arcs = {arcs: name for name, (_, arcs) in PURPOSES.items()}
            found |= {("purpose", by_arcs[purpose.dotted_string]) for purpose in value}
        elif isinstance(value, x509.BasicConstraints):
            said = ("cA", str(value.ca).upper()), ("pathLenConstraint", str(value.path_length))
            found |= {*said[: 1 if value.path_length is None else 2]}
    return found


def pyca_key(key):
    """The size and the exponent of a key of RSA."""
    from cryptography.hazmat.primitives.asymmetric.rsa import RSAPublicKey

    if not isinstance(key, RSAPublicKey):
        return set()
    return {("bits", str(key.key_size)), ("exponent", str(key.public_numbers().e))}


def pyca_usages(it):
    """Whether each usage is asked for; without keyAgreement cryptography has no answer for the last two."""
    last = (it.encipher_only, it.decipher_only) if it.key_agreement else (False, False)
    return (it.digital_signature, it.content_commitment, it.key_encipherment, it.data_encipherment, it.key_agreement,
            it.key_cert_sign, it.crl_sign, *last)


READERS = {"openssl": read_by_openssl if shutil.which("openssl") else None,
           "cryptography": read_by_pyca if pyca() else None}


def read_in_lines(block):
    """The same in the lines under `asks for` or `holds`."""
    found, of = [], ""
    for line in block.splitlines():
        if line.startswith("  key "):
            found += key_facts(line)
        elif not line.startswith("      "):
            of = line.split(",")[0].strip()
        else:
            found += extension_facts(of, *line.strip().partition(" ")[::2])
    return {*found}


def key_facts(line):
    """What a line says of a key of RSA."""
    if bits := re.search(r", (\d+) bits", line):
        yield "bits", bits[1]
    if exponent := re.search(r", exponent (\w+)", line):
        yield "exponent", str(int(exponent[1], 0))


def extension_facts(of, word, said):
    """What a line says in an extension."""
    if of == "keyUsage":
        yield "usage", word
    elif of == "extKeyUsage":
        yield "purpose", word.removeprefix("id-kp-")
    elif word in NAME_WORDS.values():
        yield word, str(ipaddress.ip_address(said)) if word == "IP" else said
    elif of == "basicConstraints":
        yield word, said
