#!/usr/bin/env python3
"""to_wasm.py IN.ll OUT.ll: what the Rattle compiler hands to clang for x86-64, as text, made the same for wasm64.

Both have addresses and sizes of 64 bits and integers in one order, so places in memory stay. What changes is the
target with its data layout, the processor's name, and that no function looks whether its stack has a page below it:
the module's stack ends at the address 0, below which each access traps. Anything else that is x86-64's is refused."""
import re
import sys

TARGET = 'target triple = "wasm64-unknown-unknown"'
WAS_LAYOUT = "e-m:e-p270:32:32-p271:32:32-p272:64:64-i64:64-i128:128-f80:128-n8:16:32:64-S128"
LAYOUT = 'target datalayout = "e-m:e-p:64:64-p10:8:8-p20:8:8-i64:64-i128:128-n32:64-S128-ni:1:10:20"'
# as the compiler writes them: pattern, replacement
CHANGES = (
    (f'^target datalayout = "{WAS_LAYOUT}"$', LAYOUT),
    (r'^target triple = "x86_64-unknown-linux-gnu"$', TARGET),
    (r' "probe-stack"="inline-asm" "stack-probe-size"="[0-9]+" "target-cpu"="x86-64"', ' "target-cpu"="lime1"'),
)
# what would mean something else there, or nothing
STRANGE = re.compile(r"x86|\basm\b|@llvm\.x86|\bfp80\b|addrspace|thread_local|target-features|probe-stack|\bbyval\b")


def converted(text):
    """The text for wasm64; raises ValueError where it isn't as this script knows it."""
    for pattern, replacement in CHANGES:
        text, count = re.subn(pattern, replacement, text, flags=re.M)
        if not count:
            raise ValueError(f"there is no {pattern}")
    for line in text.split("\n"):
        if STRANGE.search(re.sub(r'"[^"]*::[^"]*"', "", line)):
            raise ValueError(f"this isn't known: {line}")
    return text


def main(words):
    if len(words) != 2:
        sys.exit(__doc__)
    with open(words[0], encoding="utf-8") as it:
        text = converted(it.read())
    with open(words[1], "w", encoding="utf-8") as it:
        it.write(text)


if __name__ == "__main__":
    main(sys.argv[1:])
