"""The library and the program as modules of WebAssembly, and what is made of them: the page, and the package for npm.

interface/web/build.sh leaves the library's module and the page, of what clang was handed when tools/build.py had the
library made. Of the program release/static_program.sh leaves what clang was handed, of which
interface/npm/build.sh makes the module."""
import os
import shutil
import subprocess

from release import bom, packing
from release.packing import NUMBER, TOP
from release.targets import OUT, X86_64, Part
from tools import build

MODULE = f"{TOP}/interface/out/module.bc"


def told():
    """What interface/web/build.sh is told: the library as clang was handed it, where that stands."""
    return {"MODULE": MODULE} if os.path.isfile(MODULE) and build.stands() else {}


WEB = Part(["interface/web/build.sh"], f"{TOP}/interface/web/out", ("pkder.wasm", "pkder.html"),
           ["interface/web", "interface/pkder.map", "interface/pkder.h", "interface/pkder.pc.in"],
           [["wasm-opt", "--version"]], told)
LIBRARY, PAGE = WEB.files
PROGRAM = f"{OUT}/program.bc"
# what makes these
PARTS = (*X86_64.parts, WEB)
PACKAGE = f"pkder-{NUMBER}.tgz"
PROVED = """\
proved: each function of the sources of both modules meets its contract; docs/proved.md says what these promise
not proved: the modules, what makes and runs them, what is in JavaScript, time, stack
""" + build.TRUSTED


def are_there():
    """Whether there is anything to make the page and the package for npm of, whatever it was made of."""
    return all(map(os.path.isfile, (LIBRARY, PAGE, PROGRAM))) and bool(shutil.which("wasm-opt"))


def write_page(out):
    """Copies the page into the folder, and returns its name."""
    return shutil.copy(PAGE, f"{out}/pkder.html")


def proved_by(folder, trial):
    """The text of PROVED-BY for the modules in the folder."""
    head = "".join(build.record(packing.commit()).splitlines(keepends=True)[:2])
    rows = "".join(f"{packing.sum_of(f'{folder}/{it}')}  {it}\n" for it in ("pkder.wasm", "program.wasm"))
    return f"{head}{trial or PROVED}{rows}"


def write_package(work, out, trial=""):
    """Writes the package for npm into the folder, and returns its name. `trial` is what PROVED-BY says of one that is
    made for a try."""
    place = f"{work}/of-npm"
    subprocess.run(["sh", f"{TOP}/interface/npm/build.sh", place], check=True, stdout=subprocess.DEVNULL)
    folder = f"{place}/package"
    packing.write(f"{folder}/PROVED-BY", proved_by(folder, trial))
    bom.copy_licences(f"{folder}/licences", [f"{TOP}/{build.PROGRAM}", X86_64.library])
    packing.write_archive(folder, "package", f"{out}/{PACKAGE}")
    return f"{out}/{PACKAGE}"
