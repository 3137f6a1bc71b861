#!/usr/bin/env python3
"""lowest.py [--glibc] FILE..: the lowest C library and the lowest processor that each program or library of these runs
on; or the version of glibc alone, of all.

The C library is read off the versions of the names that a file asks for (objdump); any one will do for a library that
names none and asks for names of ISO C alone. The processor is read off the instructions: a file with one that x86-64-v2
has and x86-64 hasn't needs that, and so for ARM64. tools/release.py --try holds it to what QEMU's first ones run."""
import re
import subprocess
import sys

# by the number of a processor in the head of a file: its first one's name, and the tools that read such files
MACHINES = {62: ("x86-64", ""), 183: ("ARMv8-A", "aarch64-linux-gnu-")}

# what x86-64-v2 has beyond x86-64, as its psABI lists it: SSE3, SSSE3, SSE4.1, SSE4.2, POPCNT, CMPXCHG16B, LAHF-SAHF
V2 = """addsubpd addsubps haddpd haddps hsubpd hsubps lddqu movddup movshdup movsldup fisttp fisttps fisttpl fisttpll
pabsb pabsw pabsd palignr phaddw phaddd phaddsw phsubw phsubd phsubsw pmaddubsw pmulhrsw pshufb psignb psignw psignd
blendpd blendps blendvpd blendvps dppd dpps extractps insertps movntdqa mpsadbw packusdw pblendvb pblendw pcmpeqq pextrb
pextrd pextrq phminposuw pinsrb pinsrd pinsrq pmaxsb pmaxsd pmaxud pmaxuw pminsb pminsd pminud pminuw pmovsxbw pmovsxbd
pmovsxbq pmovsxwd pmovsxwq pmovsxdq pmovzxbw pmovzxbd pmovzxbq pmovzxwd pmovzxwq pmovzxdq pmuldq pmulld ptest roundpd
roundps roundsd roundss crc32 crc32b crc32w crc32l crc32q pcmpestri pcmpestrm pcmpistri pcmpistrm pcmpgtq popcnt popcntw
popcntl popcntq cmpxchg16b lahf sahf""".split()
# of x86-64-v3 and later ones: all of AVX begins with a v. (Not tzcnt, which compilers write for x86-64, too, in the
# place of bsf, as which older processors take it.)
LATER = re.compile(r"v[a-z0-9]+|andnq?|bextrq?|blsiq?|blsmskq?|blsrq?|bzhiq?|mulxq?|pdepq?|pextq?|rorxq?|sarxq?|shlxq?"
                   r"|shrxq?|lzcnt[wlq]?|movbe[wlq]?")
# (in AT&T's spelling these begin with a v and are of every x86-64)
NOT_LATER = {"verr", "verw"}
# of ARM64 what is later than ARMv8.0-A, or not in each of these: atomic calls (LSE), checked pointers but for those
# that are hints, weaker ordered loads, dot products, products of complex numbers, SVE, CRC, AES and SHA
LATER_ARM = re.compile(r"cas[abhlp]*|swp[abhl]*|(?:ld|st)(?:add|clr|eor|set|[su]max|[su]min)[abhl]*|ldapu?r\w*|stlur\w*"
                       r"|reta[ab]|e?reta[ab]|bl?ra[ab]z?|ldra[ab]|pac[id]z?[ab]|aut[id]z?[ab]|pacga|xpac[id]|[su]dot"
                       r"|fcmla|fcadd|sqrdml[as]h|fjcvtzs|bf\w*mm\w*|cfinv|rmif|setf\d+|whilel\w|ptrue|irg|stg|ldg"
                       r"|crc32c?[bhwx]|aes\w+|sha(?:1|256|512)\w+")
# what each C library has in one meaning (ISO C)
IN_ISO_C = {"free", "malloc", "memcmp", "memcpy", "memmove", "memset", "realloc"}


def said(*words):
    return subprocess.run(words, capture_output=True, text=True, check=True).stdout


def machine(file):
    """The first processor of the kind that the file is for, and the tools' prefix; of an archive that of its first."""
    with open(file, "rb") as it:
        octets = it.read(4096)
    at = octets.index(b"\x7fELF")
    return MACHINES[int.from_bytes(octets[at + 18 : at + 20], "little")]


def objdump(*words):
    """What objdump says of the file that is the last word."""
    return said(f"{machine(words[-1])[1]}objdump", *words)


def c_library(files):
    """The lowest glibc that has all names that these files ask it for, or nothing where they ask for none."""
    found = {it for file in files for it in re.findall(r"\bGLIBC_([0-9.]+)", objdump("-T", file))}
    return max(found, key=lambda it: [*map(int, it.split("."))], default=None)


def is_for_any(file):
    """Whether the file is a library that names no C library, and asks for names alone that each has (those that it may
    do without left out)."""
    if is_dynamic(file) or " SONAME " not in objdump("-p", file):
        return False
    asked = re.findall(r"(?m)^[0-9a-f]+ .(.).{5} \*UND\*\t[0-9a-f]+ .*?(\w+)$", objdump("-T", file))
    return {name for weak, name in asked if weak != "w"} <= IN_ISO_C


def processor(file):
    """The lowest processor that has all instructions of the file."""
    first, _ = machine(file)
    lines = re.findall(r"(?m)^ *[0-9a-f]+:\t(?:rep |repz |repnz |lock |data16 |cs |notrack )*([a-z0-9]+)",
                       objdump("-d", "--no-show-raw-insn", file))
    if not lines:
        raise ValueError(f"{file} has no instructions")
    found = {*lines}
    if first == "ARMv8-A":
        return f"later than {first}" if any(map(LATER_ARM.fullmatch, found)) else first
    if {it for it in found - NOT_LATER if LATER.fullmatch(it)}:
        return "later than x86-64-v2"
    return "x86-64-v2" if found & {*V2} else "x86-64"


def is_dynamic(file):
    """Whether the file asks for libraries where it is loaded."""
    return " NEEDED " in objdump("-p", file)


def is_static_program(file):
    """Whether the file is a program that asks for none; a library is no program, whether of objects or shared."""
    is_library = file.endswith(".a") or " SONAME " in objdump("-p", file)
    return not is_library and "start address" in objdump("-f", file) and not is_dynamic(file)


def needs(file):
    """What the file needs, in a line."""
    glibc = c_library([file]) if is_dynamic(file) else None
    none = "any C library" if is_for_any(file) else "no C library"
    return f"{f'glibc {glibc}' if glibc else none}, {processor(file)}"


def main(words):
    if not words or words == ["--help"]:
        print(__doc__)
        return 0 if words else 1
    if words[0] == "--glibc":
        print(c_library(words[1:]))
        return 0
    for file in words:
        print(f"{file}: {needs(file)}")
    return 0


if __name__ == "__main__":
    sys.exit(main(sys.argv[1:]))
