"""What tools/release.py made, tried by hand as its users would (tools/release.py --try OUT).

The lines of docs/install.md are run as they stand there, each section in an empty Debian of its own, which has no
compiler; the archive's program in a folder with nothing else, and on the first x86-64 that QEMU has; the packages are
looked at by lintian, and tried by their own tests. What is for ARM64 is tried by QEMU (release/try_arm64.py). It needs
root, a network, and Debian's debootstrap, lintian and qemu-user. The last line is 'release: N passed, M failed'."""
import glob
import os
import shutil
import subprocess
import tempfile

from release import packing, try_arm64
from release.packing import TOP
from release.targets import X86_64
from tests.harness import transcripts

SUITE, MIRROR = "bookworm", "http://deb.debian.org/debian"
NEEDS = {"debootstrap": "debootstrap", "lintian": "lintian", "qemu-x86_64": "qemu-user", **try_arm64.NEEDS}
# what the empty Debian has beside the least that there is: Python, and how a package's tests are built
WITH = "python3,python3-venv,python3-setuptools,python3-wheel"
FIRST_PROCESSOR = ["sh", "-c", "ulimit -v 8000000; exec qemu-x86_64 -cpu qemu64 \"$@\"", "-"]
PAGE = "docs/install.md"
# what the packages' own tests read of the source
SOURCES = ("debian", "docs", "interface", "tests", "examples", "tools")


def ran(*words, **how):
    """What a command printed on both outputs, and its status."""
    done = subprocess.run(words, stdout=subprocess.PIPE, stderr=subprocess.STDOUT, stdin=subprocess.DEVNULL, text=True,
                          errors="replace", **how)
    return done.stdout, done.returncode


def empty_debian(work):
    """Makes an empty Debian, which is copied for each trial."""
    words = ["debootstrap", "--variant=minbase", f"--include={WITH}", SUITE, f"{work}/debian", MIRROR]
    subprocess.run(words, check=True, stdout=subprocess.DEVNULL)
    return f"{work}/debian"


class Root:
    """A copy of the empty Debian with the files of a release, and examples/ beside them."""

    def __init__(self, debian, work, out):
        self.folder = tempfile.mkdtemp(dir=work)
        subprocess.run(["cp", "-a", f"{debian}/.", self.folder], check=True)
        shutil.copy("/etc/resolv.conf", f"{self.folder}/etc/resolv.conf")
        shutil.copytree(out, f"{self.folder}/root/release")
        shutil.copytree(f"{TOP}/examples", f"{self.folder}/root/release/examples")

    def run(self, text):
        """What a script printed there."""
        with open(f"{self.folder}/root/script", "w", encoding="utf-8") as file:
            file.write(f"cd /root/release\n{text}")
        told = {"PATH": "/usr/local/sbin:/usr/local/bin:/usr/sbin:/usr/bin:/sbin:/bin", "HOME": "/root",
                "LC_ALL": "C.UTF-8", "DEBIAN_FRONTEND": "noninteractive"}
        return ran("unshare", "--mount", "--fork", "sh", "-c", "mount -t proc proc \"$0/proc\" && mount --rbind /dev "
                   "\"$0/dev\" && exec chroot \"$0\" sh /root/script", self.folder, env=told)


def lines_of_page(root_of):
    """Each line of docs/install.md, a section in a root of its own."""
    for steps in transcripts.sections_of(packing.text_of(PAGE)):
        said, _ = root_of().run(transcripts.script_of(steps))
        answers = transcripts.answers_in(said)
        for at, step in enumerate(steps):
            why = transcripts.wrong(step, answers[at] if at < len(answers) else None)
            yield f"{PAGE}:{step.number}: {why or step.text}", not why


def alone(out):
    """The archive's program in a folder that has nothing else, and on the first x86-64."""
    with tempfile.TemporaryDirectory() as folder:
        name = f"{X86_64.archive}/bin/pkder"
        subprocess.run(["tar", "-xf", f"{out}/{X86_64.archive}.tar.gz", "--strip-components=2", "-C", folder, name],
                       check=True)
        said, status = ran("chroot", folder, "/pkder", "--version")
        yield f"alone in a root: {said.strip()}", status == 0 and said.startswith(f"pkder {packing.NUMBER}, ")
        with open(f"{TOP}/examples/long-lengths.der", "rb") as key:
            done = subprocess.run([*FIRST_PROCESSOR, f"{folder}/pkder", "check", "--kind", "key"], stdin=key,
                                  capture_output=True)
        yield "on the first x86-64", (done.returncode, done.stdout) == (1, b"not DER at 1\n")
        # (all rows of the program's tables)
        tables = [*sorted(glob.glob(f"{TOP}/tests/pkder/*.tsv")), f"{TOP}/examples/answers.tsv"]
        said, status = ran("python3", f"{TOP}/tests/harness/rows.py", *tables, f"{folder}/pkder")
        yield said.splitlines()[-1], status == 0


def packages(out):
    """What lintian says of the packages."""
    said, status = ran("lintian", "--fail-on", "error", *sorted(glob.glob(f"{out}/*.deb")))
    print(said, end="")
    yield "lintian", status == 0


def package_tests(root_of):
    """The packages' own tests, each in a root of its own with what it depends on."""
    blocks = packing.text_of("debian/tests/control").split("\n\n")
    for block in blocks:
        fields = dict(line.split(": ", 1) for line in block.strip().split("\n"))
        root = root_of()
        for name in glob.glob(f"{root.folder}/root/release/*_arm64.deb"):
            os.remove(name)
        subprocess.run(["cp", "-R", *(f"{TOP}/{it}" for it in SOURCES), f"{root.folder}/root/release"], check=True)
        depends = fields["Depends"].replace(",", " ")
        said, status = root.run(f"""set -e
apt-get update -qq
apt-get install -qq --no-install-recommends ./*.deb {' '.join(it for it in depends.split() if 'pkder' not in it)}
AUTOPKGTEST_TMP=$(mktemp -d); export AUTOPKGTEST_TMP
debian/tests/{fields['Tests']}
""")
        yield f"debian/tests/{fields['Tests']}: {'' if status == 0 else said[-2000:]}", status == 0


def looks(work, out):
    """Each trial: what is tried, and whether it went well."""
    debian = empty_debian(work)
    root_of = lambda: Root(debian, work, out)
    yield from alone(out)
    yield from packages(out)
    yield from lines_of_page(root_of)
    yield from package_tests(root_of)
    yield from try_arm64.looks(work, out)


def tried(out):
    """Tries all of it, and returns the status."""
    if os.geteuid():
        print("release: --try wants root\nrelease: 0 passed, 1 failed")
        return 1
    return told(out, looks, NEEDS)


def tried_on_arm64(out):
    """Tries what is for ARM64 alone, and returns the status."""
    return told(out, try_arm64.looks, try_arm64.NEEDS)


def told(out, trials, needs):
    """Says how each of these trials went, where the machine has what they need, and returns the status."""
    passed = failed = 0
    if not all(map(shutil.which, needs)):
        print(f"release: apt-get install {' '.join(sorted({*needs.values()}))}\nrelease: 0 passed, 1 failed")
        return 1
    with tempfile.TemporaryDirectory() as work:
        for what, is_right in trials(work, out):
            passed, failed = passed + bool(is_right), failed + (not is_right)
            print(f"{'tried' if is_right else 'not so'}: {what}", flush=True)
    print(f"release: {passed} passed, {failed} failed", flush=True)
    return 1 if failed else 0
