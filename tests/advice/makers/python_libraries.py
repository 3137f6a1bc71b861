#!/usr/bin/env python3
"""python_libraries.py LIBRARY: the forms that users of a library for Python have."""
import subprocess
import sys


def keep(name, octets):
    """Writes a file."""
    with open(name, "wb") as file:
        file.write(octets if isinstance(octets, bytes) else octets.encode())


def openssl(*words, given=b""):
    """What openssl prints, for what a library has to be given."""
    return subprocess.run(["openssl", *words], input=given, capture_output=True, check=True).stdout


def ecdsa():
    import ecdsa
    from ecdsa import curves

    found = ["NIST224p", "NIST256p", "NIST384p", "NIST521p", "SECP256k1", "BRAINPOOLP256r1", "Ed25519", "Ed448"]
    for name in found:
        for number in range(2):
            key = ecdsa.SigningKey.generate(curve=getattr(curves, name))
            formats = ("pkcs8",) if name.startswith("Ed") else ("ssleay", "pkcs8")
            for form in formats:
                keep(f"private-{name}-{number}-{form}.pem", key.to_pem(format=form))
                keep(f"private-{name}-{number}-{form}.der", key.to_der(format=form))
            keep(f"public-{name}-{number}.pem", key.verifying_key.to_pem())
            keep(f"public-{name}-{number}.der", key.verifying_key.to_der())
        if not name.startswith("Ed"):
            wide = {"curve_parameters_encoding": "explicit"}
            keep(f"private-{name}-explicit.pem", key.to_pem(**wide))
            keep(f"private-{name}-explicit-pkcs8.pem", key.to_pem(format="pkcs8", **wide))
            keep(f"public-{name}-explicit.pem", key.verifying_key.to_pem(**wide))
            keep(f"public-{name}-compressed.pem", key.verifying_key.to_pem(point_encoding="compressed"))


def pyca_keys():
    from cryptography.hazmat.primitives.asymmetric import dh, dsa, ec, ed448, ed25519, rsa, x448, x25519

    yield "rsa", rsa.generate_private_key(65537, 2048)
    yield "dsa", dsa.generate_private_key(2048)
    for curve in (ec.SECP224R1, ec.SECP256R1, ec.SECP384R1, ec.SECP521R1, ec.SECP256K1, ec.BrainpoolP256R1):
        yield curve.name, ec.generate_private_key(curve())
    yield "ed25519", ed25519.Ed25519PrivateKey.generate()
    yield "ed448", ed448.Ed448PrivateKey.generate()
    yield "x25519", x25519.X25519PrivateKey.generate()
    yield "x448", x448.X448PrivateKey.generate()
    if hasattr(dh, "DHParameterNumbers"):
        numbers = dh.DHParameterNumbers(int(openssl("prime", "-generate", "-safe", "-bits", "512")), 2)
        yield "dh", numbers.parameters().generate_private_key()


def pyca_forms(name, key):
    from cryptography.hazmat.primitives import serialization as it

    plain, locked = it.NoEncryption(), it.BestAvailableEncryption(b"secret")
    for encoding in (it.Encoding.PEM, it.Encoding.DER):
        end = encoding.name.lower()
        for form in (it.PrivateFormat.PKCS8, it.PrivateFormat.TraditionalOpenSSL):
            for want, way in (("private", plain), ("encrypted", locked)):
                try:
                    keep(f"{want}-{name}-{form.name}.{end}", key.private_bytes(encoding, form, way))
                except (ValueError, TypeError):
                    continue
        keep(f"public-{name}.{end}", key.public_key().public_bytes(encoding, it.PublicFormat.SubjectPublicKeyInfo))
    if name in ("rsa", "secp256r1", "secp521r1", "ed25519"):
        keep(f"private-{name}.ssh", key.private_bytes(it.Encoding.PEM, it.PrivateFormat.OpenSSH, plain))
        keep(f"public-{name}.pub", key.public_key().public_bytes(it.Encoding.OpenSSH, it.PublicFormat.OpenSSH))
        keep(f"private-{name}.p12", it.pkcs12.serialize_key_and_certificates(b"a", key, None, None, locked))
    if name == "rsa":
        for encoding in (it.Encoding.PEM, it.Encoding.DER):
            end = encoding.name.lower()
            keep(f"public-{name}-pkcs1.{end}", key.public_key().public_bytes(encoding, it.PublicFormat.PKCS1))


def cryptography():
    import ipaddress

    from cryptography import x509
    from cryptography.hazmat.primitives import hashes
    from cryptography.hazmat.primitives.serialization import Encoding, pkcs12  # noqa: F401

    for name, key in pyca_keys():
        pyca_forms(name, key)
        if name[0] == "x" or name == "dh":
            continue
        subject = x509.Name([x509.NameAttribute(x509.NameOID.COMMON_NAME, "www.example.org")])
        names = [x509.DNSName("www.example.org"), x509.IPAddress(ipaddress.ip_address("192.0.2.1"))]
        plain = x509.CertificateSigningRequestBuilder().subject_name(subject)
        asking = plain.add_extension(x509.SubjectAlternativeName(names), False)
        both = asking.add_attribute(x509.oid.AttributeOID.CHALLENGE_PASSWORD, b"secret")
        digest = None if name.startswith("ed") else hashes.SHA256()
        for what, made in (("plain", plain), ("san", asking), ("challenge", both)):
            keep(f"request-{name}-{what}.pem", made.sign(key, digest).public_bytes(Encoding.PEM))
            keep(f"request-{name}-{what}.der", made.sign(key, digest).public_bytes(Encoding.DER))


def pyopenssl():
    from OpenSSL import crypto

    for name, kind, size in (("rsa", crypto.TYPE_RSA, 2048), ("dsa", crypto.TYPE_DSA, 2048)):
        key = crypto.PKey()
        key.generate_key(kind, size)
        for form, end in ((crypto.FILETYPE_PEM, "pem"), (crypto.FILETYPE_ASN1, "der")):
            keep(f"private-{name}.{end}", crypto.dump_privatekey(form, key))
            keep(f"public-{name}.{end}", crypto.dump_publickey(form, key))
        keep(f"encrypted-{name}.pem", crypto.dump_privatekey(crypto.FILETYPE_PEM, key, "aes256", b"secret"))
        for version in (None, 0, 2):
            request = crypto.X509Req()
            request.get_subject().CN = "www.example.org"
            if version is not None:
                request.set_version(version)
            request.set_pubkey(key)
            request.sign(key, "sha256")
            keep(f"request-{name}-{version}.pem", crypto.dump_certificate_request(crypto.FILETYPE_PEM, request))
            keep(f"request-{name}-{version}.der", crypto.dump_certificate_request(crypto.FILETYPE_ASN1, request))


def m2crypto():
    from M2Crypto import EC, EVP, RSA, X509

    rsa = RSA.gen_key(2048, 65537, lambda *it: None)
    rsa.save_key("private-rsa.pem", None)
    rsa.save_key_der("private-rsa.der")
    rsa.save_key("encrypted-rsa.pem", callback=lambda *it: b"secret")
    rsa.save_pub_key("public-rsa.pem")
    key = EVP.PKey()
    key.assign_rsa(rsa)
    key.save_key("private-evp.pem", None)
    for number in range(3):
        made = EC.gen_params(EC.NID_X9_62_prime256v1)
        made.gen_key()
        made.save_key(f"private-ec-{number}.pem", None)
        made.save_pub_key(f"public-ec-{number}.pem")
    for version in (None, 0, 1):
        request = X509.Request()
        if version is not None:
            request.set_version(version)
        name = X509.X509_Name()
        name.CN = "www.example.org"
        request.set_subject_name(name)
        request.set_pubkey(key)
        request.sign(key, "sha256")
        request.save_pem(f"request-{version}.pem")


def pycryptodome():
    from Cryptodome.PublicKey import DSA, ECC, RSA

    rsa = RSA.generate(2048)
    for form, end in (("PEM", "pem"), ("DER", "der")):
        for pkcs in (1, 8):
            keep(f"private-rsa-{pkcs}.{end}", rsa.export_key(form, pkcs=pkcs))
        keep(f"public-rsa.{end}", rsa.public_key().export_key(form))
    keep("encrypted-rsa-1.pem", rsa.export_key("PEM", passphrase="secret"))
    locked = {"passphrase": "secret", "protection": "PBKDF2WithHMAC-SHA1AndAES128-CBC"}
    keep("encrypted-rsa-8.pem", rsa.export_key("PEM", pkcs=8, **locked))
    keep("encrypted-rsa-8.der", rsa.export_key("DER", pkcs=8, **locked))
    keep("public-rsa.pub", rsa.public_key().export_key("OpenSSH"))
    dsa = DSA.generate(1024)
    for form, end in (("PEM", "pem"), ("DER", "der")):
        keep(f"private-dsa.{end}", dsa.export_key(form))
        keep(f"private-dsa-old.{end}", dsa.export_key(form, pkcs8=False))
        keep(f"public-dsa.{end}", dsa.public_key().export_key(form))
    for curve in ("P-256", "P-384", "P-521"):
        for number in range(2):
            key, name = ECC.generate(curve=curve), f"{curve}-{number}"
            for form, end in (("PEM", "pem"), ("DER", "der")):
                keep(f"private-{name}.{end}", key.export_key(format=form))
                keep(f"private-{name}-sec1.{end}", key.export_key(format=form, use_pkcs8=False))
                keep(f"public-{name}.{end}", key.public_key().export_key(format=form))
                keep(f"public-{name}-compressed.{end}", key.public_key().export_key(format=form, compress=True))
            keep(f"encrypted-{name}.pem", key.export_key(format="PEM", **locked))
            keep(f"public-{name}.pub", key.public_key().export_key(format="OpenSSH"))


def oscrypto():
    from oscrypto import asymmetric

    for name, word, options in (("rsa", "rsa", {"bit_size": 2048}), ("dsa", "dsa", {"bit_size": 1024}),
                                *((it, "ec", {"curve": it}) for it in ("secp256r1", "secp384r1", "secp521r1"))):
        public, private = asymmetric.generate_pair(word, **options)
        for form in ("pem", "der"):
            keep(f"private-{name}.{form}", asymmetric.dump_private_key(private, None, encoding=form))
            keep(f"public-{name}.{form}", asymmetric.dump_public_key(public, encoding=form))
            locked = asymmetric.dump_private_key(private, "secret", encoding=form, target_ms=20)
            keep(f"encrypted-{name}.{form}", locked)
        keep(f"private-{name}-openssl.pem", asymmetric.dump_openssl_private_key(private, None))


def asn1crypto():
    """What is read and written anew, and a request that is put together of its fields."""
    from asn1crypto import algos, csr, keys, x509

    key = openssl("genpkey", "-algorithm", "EC", "-pkeyopt", "ec_paramgen_curve:P-256", "-outform", "PEM")
    octets = openssl("pkcs8", "-topk8", "-nocrypt", "-outform", "DER", given=key)
    info = keys.PrivateKeyInfo.load(octets)
    keep("private-again.der", info.dump(force=True))
    keep("private-ec.der", info["private_key"].parsed.dump(force=True))
    public = keys.PublicKeyInfo.load(openssl("pkey", "-pubout", "-outform", "DER", given=key))
    keep("public-again.der", public.dump(force=True))
    names = x509.GeneralNames([x509.GeneralName("dns_name", "www.example.org")])
    extensions = [{"extn_id": "subject_alt_name", "critical": False, "extn_value": names}]
    asked = {"version": "v1", "subject": x509.Name.build({"common_name": "www.example.org"}),
             "subject_pk_info": public, "attributes": [{"type": "extension_request", "values": [extensions]}]}
    written = csr.CertificationRequestInfo(asked)
    keep("key", key)
    signature = openssl("dgst", "-sha256", "-sign", "key", given=written.dump())
    request = csr.CertificationRequest({"certification_request_info": written, "signature": signature,
                                        "signature_algorithm": algos.SignedDigestAlgorithm(
                                            {"algorithm": "sha256_ecdsa"})})
    keep("request.der", request.dump())


def pyasn1():
    """What is read and written anew, in BER and in DER."""
    from pyasn1.codec.ber import encoder as ber
    from pyasn1.codec.cer import encoder as cer
    from pyasn1.codec.der import decoder, encoder
    from pyasn1_modules import rfc2314, rfc5208, rfc5280

    key = openssl("genpkey", "-algorithm", "RSA", "-pkeyopt", "rsa_keygen_bits:2048")
    keep("key", key)
    words = ("-key", "key", "-subj", "/CN=www.example.org", "-addext", "subjectAltName=DNS:www.example.org")
    sources = {"private": (openssl("pkcs8", "-topk8", "-nocrypt", "-outform", "DER", given=key),
                           rfc5208.PrivateKeyInfo()),
               "public": (openssl("pkey", "-pubout", "-outform", "DER", given=key), rfc5280.SubjectPublicKeyInfo()),
               "request": (openssl("req", "-new", *words, "-outform", "DER"), rfc2314.CertificationRequest())}
    for want, (octets, form) in sources.items():
        value, _ = decoder.decode(octets, asn1Spec=form)
        keep(f"{want}-der.der", encoder.encode(value))
        keep(f"{want}-ber.der", ber.encode(value))
        keep(f"{want}-indefinite.der", ber.encode(value, defMode=False))
        keep(f"{want}-segments.der", ber.encode(value, defMode=False, maxChunkSize=100))
        keep(f"{want}-cer.der", cer.encode(value))


def acme():
    from acme import crypto_util
    from OpenSSL import crypto

    key = crypto.PKey()
    key.generate_key(crypto.TYPE_RSA, 2048)
    text = crypto.dump_privatekey(crypto.FILETYPE_PEM, key)
    keep("private-rsa.pem", text)
    keep("request-rsa.pem", crypto_util.make_csr(text, ["a.example.org", "b.example.org"]))
    keep("request-staple.pem", crypto_util.make_csr(text, ["a.example.org"], True))
    text = openssl("genpkey", "-algorithm", "EC", "-pkeyopt", "ec_paramgen_curve:P-256")
    keep("private-ec.pem", text)
    keep("request-ec.pem", crypto_util.make_csr(text, ["a.example.org"]))


def rsa():
    import rsa

    public, private = rsa.newkeys(2048)
    for form in ("PEM", "DER"):
        keep(f"private-rsa.{form.lower()}", private.save_pkcs1(form))
        keep(f"public-rsa.{form.lower()}", public.save_pkcs1(form))


def paramiko():
    import paramiko

    for name, key in (("rsa", paramiko.RSAKey.generate(2048)), ("ecdsa-256", paramiko.ECDSAKey.generate()),
                      ("ecdsa-521", paramiko.ECDSAKey.generate(bits=521)), ("dsa", paramiko.DSSKey.generate(1024))):
        key.write_private_key_file(f"private-{name}.pem")
        key.write_private_key_file(f"encrypted-{name}.pem", password="secret")
        keep(f"public-{name}.pub", f"{key.get_name()} {key.get_base64()}\n")


def jwcrypto():
    from jwcrypto import jwk

    for name, options in (("rsa", {"kty": "RSA", "size": 2048}), ("p-256", {"kty": "EC", "crv": "P-256"}),
                          ("p-521", {"kty": "EC", "crv": "P-521"}), ("ed25519", {"kty": "OKP", "crv": "Ed25519"}),
                          ("x25519", {"kty": "OKP", "crv": "X25519"})):
        key = jwk.JWK.generate(**options)
        keep(f"private-{name}.pem", key.export_to_pem(True, None))
        keep(f"encrypted-{name}.pem", key.export_to_pem(True, b"secret"))
        keep(f"public-{name}.pem", key.export_to_pem())
        keep(f"private-{name}.json", key.export_private())
        keep(f"public-{name}.json", key.export_public())


if __name__ == "__main__":
    globals()[sys.argv[1]]()
