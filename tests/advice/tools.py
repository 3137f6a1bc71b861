"""The tools that make files: what runs each, and what Debian 12 calls the packages that it needs."""
import os
import shutil
import subprocess
from pathlib import Path
from typing import List, NamedTuple, Tuple

MAKERS = str(Path(__file__).resolve().parent / "makers")
JARS = ":".join(f"/usr/share/java/{it}.jar" for it in ("bcprov", "bcpkix", "bcutil"))
# (Debian's own Python has Debian's libraries)
PYTHON = "/usr/bin/python3"
SECONDS = 600


class Tool(NamedTuple):
    """A tool, the packages of Debian that have it, what has to be there, and what is run: M stands for the folder of
    the makers."""

    name: str
    packages: str
    needs: Tuple[str, ...]
    run: str


def shell(name, packages, program, script=None, word=""):
    """A tool whose program a script for sh calls."""
    return Tool(name, packages, (program,), f"sh M/{script or name}.sh {word}")


def library(name, package, module):
    """A library for Python."""
    return Tool(name, package, (f"{PYTHON} -c 'import {module}'",), f"{PYTHON} M/python_libraries.py {name}")


def compiled(name, package, source, compiler, header):
    """A library for C or C++."""
    linked = {"wolfssl": "-lwolfssl", "mbedtls": "-lmbedx509 -lmbedcrypto", "cryptopp": "-lcryptopp"}[name]
    return Tool(name, package, (compiler, f"test -e {header}"), f"{compiler} -o made M/{source} {linked} && ./made")


TOOLS: List[Tool] = [
    shell("openssl", "openssl", "openssl"),
    shell("certtool", "gnutls-bin", "certtool"),
    shell("strongswan", "strongswan-pki libstrongswan-standard-plugins libstrongswan-extra-plugins", "pki"),
    shell("puttygen", "putty-tools", "puttygen"),
    shell("ssh-keygen", "openssh-client", "ssh-keygen", "ssh_keygen"),
    shell("botan", "botan", "botan"),
    shell("nss", "libnss3-tools", "certutil"),
    shell("keytool", "openjdk-17-jre-headless", "keytool"),
    shell("gpgsm", "gpgsm", "gpgsm"),
    shell("hxtool", "heimdal-clients", "hxtool"),
    shell("mkcert", "mkcert", "mkcert", "small_programs", "mkcert"),
    shell("cfssl", "golang-cfssl jq", "cfssl", "small_programs", "cfssl"),
    shell("easy-rsa", "easy-rsa", "test -e /usr/share/easy-rsa/easyrsa", "small_programs", "easy-rsa"),
    library("cryptography", "python3-cryptography", "cryptography"),
    library("pyopenssl", "python3-openssl", "OpenSSL"),
    library("ecdsa", "python3-ecdsa", "ecdsa"),
    library("pycryptodome", "python3-pycryptodome", "Cryptodome"),
    library("m2crypto", "python3-m2crypto", "M2Crypto"),
    library("oscrypto", "python3-oscrypto", "oscrypto"),
    library("asn1crypto", "python3-asn1crypto", "asn1crypto"),
    library("pyasn1", "python3-pyasn1-modules", "pyasn1_modules"),
    library("acme", "python3-acme", "acme"),
    library("rsa", "python3-rsa", "rsa"),
    library("paramiko", "python3-paramiko", "paramiko"),
    library("jwcrypto", "python3-jwcrypto", "jwcrypto"),
    Tool("ruby", "ruby", ("ruby",), "ruby M/ruby.rb ruby"),
    Tool("acme-client", "ruby-acme-client", ("ruby -e 'require %q(acme-client)'",), "ruby M/ruby.rb acme_client"),
    Tool("cryptx", "libcryptx-perl", ("perl -e 'use CryptX'",), "perl M/cryptx.pl"),
    Tool("phpseclib3", "php-phpseclib3", ("test -e /usr/share/php/phpseclib3",), "php M/phpseclib.php phpseclib3"),
    Tool("phpseclib2", "php-phpseclib", ("test -e /usr/share/php/phpseclib",), "php M/phpseclib.php phpseclib2"),
    Tool("php", "php-cli", ("php",), "php M/phpseclib.php php"),
    Tool("go", "golang-go", ("go",), "GO111MODULE=off GOCACHE=$PWD/cache go run M/go.go"),
    Tool("node", "nodejs", ("node",), "node M/node.mjs"),
    Tool("erlang", "erlang-public-key erlang-dev", ("escript",), "escript M/erlang.escript"),
    Tool("java", "default-jdk-headless libbcpkix-java", ("javac", f"test -e {JARS.split(':')[0]}"),
         f"java -cp {JARS} M/Forms.java java"),
    Tool("bouncycastle", "libbcpkix-java default-jdk-headless", ("javac", f"test -e {JARS.split(':')[0]}"),
         f"java -cp {JARS} M/Forms.java bouncycastle"),
    Tool("luaossl", "lua-luaossl lua5.3", ("lua5.3",), "lua5.3 M/luaossl.lua"),
    compiled("cryptopp", "libcrypto++-dev g++", "cryptopp.cpp", "c++", "/usr/include/cryptopp/rsa.h"),
    compiled("wolfssl", "libwolfssl-dev gcc", "wolfssl.c", "cc", "/usr/include/wolfssl/options.h"),
    compiled("mbedtls", "libmbedtls-dev gcc", "mbedtls.c", "cc", "/usr/include/mbedtls/pk.h"),
    Tool("on the way", "openssl xxd jq", ("openssl", "xxd", "jq"), "sh M/on_the_way.sh"),
]


def is_there(need):
    """Whether a program is there, or a command that asks for something ends well."""
    if " " not in need:
        return bool(shutil.which(need))
    return not subprocess.run(["sh", "-c", need], stdin=subprocess.DEVNULL, capture_output=True).returncode


def lacks(tool):
    """What of a tool isn't there, or None."""
    return next((it for it in tool.needs if not is_there(it)), None)


def make(tool, folder):
    """Has a tool make its files in a folder, unless they are there; the status, and what was said last."""
    if os.path.isfile(f"{folder}/done"):
        return 0, ""
    shutil.rmtree(folder, ignore_errors=True)
    os.makedirs(folder)
    ran = subprocess.run(["sh", "-c", tool.run.replace("M/", f"{MAKERS}/")], cwd=folder, stdin=subprocess.DEVNULL,
                         capture_output=True, text=True, errors="replace", timeout=SECONDS)
    if not ran.returncode:
        with open(f"{folder}/done", "w", encoding="ascii"):
            pass
    return ran.returncode, ran.stderr.strip().split("\n")[-1]
