#!/usr/bin/env python3
"""release.py [--trial] OUT | --try OUT | --try-arm64 OUT: everything that is handed out, made in the folder OUT of the
build that stands.

That is for x86-64 and for ARM64 the archive, the packages for Debian and the wheels for Python, the jar for Java, the
source archive of the package for Python, the package for npm, the page, the test vectors, and SHA256SUMS. They are the
same bytes from the same commit and toolchain. The build is the one that tools/build.py left; --trial takes what stands
in its place, whatever that is, to try this script, and each PROVED-BY says so. What release/static_program.sh,
release/arm64.sh and interface/web/build.sh make is made anew where it isn't of these sources.

--try tries by hand what stands in OUT as docs/install.md says: it needs root, a network, and some minutes. --try-arm64
tries what is for ARM64 alone, by QEMU (release/try_arm64.py): it needs a network, javac and qemu-user."""
import os
import sys
from pathlib import Path

TOP = sys.path[0] = str(Path(__file__).resolve().parents[1])
from release import making, modules, try_release
from release.targets import TARGETS
from tools import build


def main(words):
    is_trial = "--trial" in words
    folders = [it for it in words if not it.startswith("-")]
    if len(folders) != 1 or {*words} - {"--trial", "--try", "--try-arm64", *folders}:
        print(__doc__)
        return 0 if words == ["--help"] else 1
    out = os.path.abspath(folders[0])
    os.chdir(TOP)
    if "--try" in words:
        return try_release.tried(out)
    if "--try-arm64" in words:
        return try_release.tried_on_arm64(out)
    why = making.missing()
    if why:
        sys.exit(f"release: {why}")
    if not is_trial and not build.stands():
        sys.exit("release: no build of this commit stands: run 'python3 tools/build.py'")
    if not is_trial:
        for target in TARGETS:
            target.make()
        modules.WEB.make()
        making.measured()
    making.release(out, is_trial)
    return 0


if __name__ == "__main__":
    sys.exit(main(sys.argv[1:]))
