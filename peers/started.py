"""How the driver of each peer is built and started."""
import glob
import gzip
import os
import re
import shutil
import subprocess
import sys
from pathlib import Path

FOLDER = str(Path(__file__).resolve().parent)
OUT = f"{FOLDER}/out"
ARCHITECTURE = "x86_64-linux-gnu"
# (the driver has the version of the library that it asks, so as to say it)
CARGO = """[package]
name = "{name}_driver"
version = "{version}"
edition = "2021"

[dependencies]
{name} = "={version}"
"""


def environment(root):
    """The environment of all drivers: what is unpacked in the root comes first."""
    libraries = [f"{root}/usr/lib/{ARCHITECTURE}", f"{root}/usr/lib/{ARCHITECTURE}/nss"]
    go, jars = sorted(glob.glob(f"{root}/usr/lib/go-*")), "usr/share/java/bc*.jar"
    told = {**os.environ, "PYTHONPATH": f"{root}/usr/lib/python3/dist-packages:/usr/lib/python3/dist-packages",
            "CLASSPATH": ":".join([OUT, *(glob.glob(f"{root}/{jars}") or glob.glob(f"/{jars}"))]),
            "GO111MODULE": "off", "GOPATH": f"{root}/usr/share/gocode:/usr/share/gocode", "GOCACHE": f"{OUT}/go-cache"}
    told["PATH"] = f"{root}/usr/bin:{told['PATH']}"
    if root != "/":
        told |= {"LD_LIBRARY_PATH": ":".join(libraries)} | ({"GOROOT": go[-1]} if go else {})
        told["PATH"] += f":{go[-1]}/bin" if go else ""
    return told


def flags(root, package):
    """What compiles and links a driver with a library."""
    found = {
        "openssl": ["-lcrypto"],
        "gnutls": ["-lgnutls"],
        "tasn1": ["-ltasn1"],
        "nss": ["-I/usr/include/nss", "-I/usr/include/nspr", "-lnss3", "-lnssutil3", "-lnspr4"],
        "botan": [f"-I{there(root, '/usr/include/botan-2')}", "-std=c++17", f"-L{root}/usr/lib/{ARCHITECTURE}",
                  "-lbotan-2"],
        "mbedtls": [f"-I{root}/usr/include", f"-L{root}/usr/lib/{ARCHITECTURE}", "-lmbedx509", "-lmbedcrypto"],
    }
    return found[package]


def there(root, path):
    """A path in the root, where it has one, or else as it is installed."""
    return f"{root}{path}" if os.path.exists(f"{root}{path}") else path


def version_of(root, package):
    """The version of a package of Debian, by its list of changes, without Debian's own part."""
    changes = there(root, f"/usr/share/doc/{package}/changelog.Debian.gz")
    if not os.path.isfile(changes):
        return "of Debian"
    with gzip.open(changes, "rt", encoding="utf-8") as file:
        return re.search(r"\((?:\d+:)?([^-)]+)", file.readline())[1]


def of_rust(root, name):
    """The driver in Rust of this name, over the crates of Debian: what builds it, and what starts it."""
    crates, folder = there(root, "/usr/share/cargo/registry"), f"{OUT}/{name}"
    version = [it.rpartition("-")[2] for it in glob.glob(f"{crates}/{name}-[0-9]*")] or ["0.0.0"]
    os.makedirs(f"{folder}/src", exist_ok=True)
    shutil.copy(f"{FOLDER}/{name}.rs", f"{folder}/src/main.rs")
    shutil.copy(f"{FOLDER}/driver.rs", f"{folder}/src/driver.rs")
    Path(f"{folder}/Cargo.toml").write_text(CARGO.format(name=name, version=version[0]), encoding="utf-8")
    build = ["cargo", "build", "--offline", "--release", "--manifest-path", f"{folder}/Cargo.toml", "--config",
             'source.crates-io.replace-with="debian"', "--config", f'source.debian.directory="{crates}"']
    return build, [f"{folder}/target/release/{name}_driver"]


def of_go(root, name, package):
    """The driver in Go of this name; the version of a package that isn't Go's own is told to it."""
    told = ["-ldflags", f"-X main.version={version_of(root, package)}"] if package else []
    sources = [f"{FOLDER}/driver.go", f"{FOLDER}/{name}.go"]
    return ["go", "build", *told, "-o", f"{OUT}/{name}", *sources], [f"{OUT}/{name}"]


def commands(root):
    """The drivers by their names: what builds each, if anything has to, and what starts it."""
    python = "/usr/bin/python3" if os.path.isfile("/usr/bin/python3") else sys.executable
    of_python = {name: ([], [python, f"{FOLDER}/{name}.py"]) for name in ("pyca", "asn1crypto_", "pyasn1_")}
    of_python["pyasn1_ber"] = [], [python, f"{FOLDER}/pyasn1_.py", "ber"]
    of_c = {name: (["cc", "-O1", "-w", "-o", f"{OUT}/{name}", f"{FOLDER}/{name}.c", *flags(root, name)],
                   [f"{OUT}/{name}"]) for name in ("openssl", "gnutls", "tasn1", "nss", "mbedtls")}
    of_c["tasn1"][1].append(f"{FOLDER}/tasn1.asn")
    return {
        **of_c, **of_python,
        "botan": (["g++", "-O1", "-w", "-o", f"{OUT}/botan", f"{FOLDER}/botan.cpp", *flags(root, "botan")],
                  [f"{OUT}/botan"]),
        "go_x509": of_go(root, "go_x509", ""),
        "cryptobyte": of_go(root, "cryptobyte", "golang-golang-x-crypto-dev"),
        "bouncycastle": (["javac", "-d", OUT, f"{FOLDER}/BouncyCastle.java"], ["java", "BouncyCastle"]),
        "java": (["javac", "-d", OUT, f"{FOLDER}/Java.java"], ["java", "Java"]),
        "node": ([], ["node", f"{FOLDER}/node.mjs"]),
        "asn1": of_rust(root, "asn1"),
        "bcder": of_rust(root, "bcder"),
        "erlang": ([], ["escript", f"{FOLDER}/erlang.erl"]),
        # (a process for each document)
        **{name: ([], [python, f"{FOLDER}/{name}.py"]) for name in ("openssl_command", "certtool")},
    }


def drivers(root, names):
    """Builds the drivers of these names, or all, and tells what starts each, and in which environment."""
    told = environment(root)
    os.makedirs(OUT, exist_ok=True)
    for name, (build, start) in commands(root).items():
        if names and name not in names:
            continue
        tool = shutil.which((build or start)[0], path=told["PATH"])
        if tool is None:
            print(f"left out: {name}: there is no {(build or start)[0]}")
            continue
        built = subprocess.run(build, env=told, capture_output=True, text=True) if build else None
        if built and built.returncode:
            print(f"left out: {name}: {built.stderr.strip()[:300]}")
            continue
        yield name, start, told
