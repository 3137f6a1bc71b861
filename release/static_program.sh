#!/bin/sh
# static_program.sh: makes the program for every x86-64 in release/out: pkder-static, which needs no C library but what
# is in it (musl), and pkder-glibc; and program.bc, as the compiler handed it to clang, of which interface/npm makes a
# module of WebAssembly. It takes no words; tools/release.py calls it where these don't stand. It goes over the crates
# as tools/build.py left them, of which the toolchain compiles for another processor only what it proves for that: so
# crates/pkder is proved once more, where no proof of it is kept (interface/compile.sh), in about ten minutes of a
# processor. Debian: musl-tools, binutils.
set -eu
[ $# = 0 ] || { sed -n '2,/^set /s/^# //p' "$0" && exit 1; }
top=$(cd "$(dirname "$0")/.." && pwd)
out=$top/release/out
kit=$(dirname "$(rt doc)")
musl=/usr/lib/x86_64-linux-musl
# shellcheck source=/dev/null
. "$top/interface/compile.sh"

linked_with_musl() {
    objcopy --redefine-sym main=program_main "$out/pkder.o" "$out/renamed.o"
    musl-gcc -std=c11 -O2 -Wall -Wextra -fPIE -c -o "$out/words.o" "$top/release/for_musl.c"
    ld -static -pie --no-dynamic-linker -s -z text -z relro -z now -z noexecstack -o "$out/pkder-static" \
        "$musl/rcrt1.o" "$musl/crti.o" "$out/renamed.o" "$out/words.o" "$kit/c/libos_c.a" "$kit/c/liblibc_c.a" \
        "$musl/libc.a" "$(cc -print-libgcc-file-name)" "$musl/crtn.o"
}

linked_with_glibc() {
    "$kit/bin/rattle-link" --target x86_64-unknown-linux-gnu --toolchain "$kit/toolchain" -o "$out/pkder-glibc" \
        "$out/pkder.o" "$kit/c/libos_c.a" "$kit/c/liblibc_c.a"
    strip "$out/pkder-glibc"
}

mkdir -p "$out"
rm -f "$out/program.bc"
# (no symbolic links may stay below the repository, of which `rt ci` takes none)
work=$(mktemp -d)
trap 'rm -rf "$work"' EXIT
keeping_toolchain "$work/toolchain" "$out/program.bc"
if ! over_proved "$top" pkder "$work/toolchain" "$out/pkder.o" --cpu x86-64 > "$out/log" 2>&1 ||
    ! grep '^logic=proved' "$out/log"; then
    cat "$out/log" >&2
    exit 1
fi
[ -f "$out/program.bc" ] || { echo "static_program.sh: the compiler handed no module to clang" >&2 && exit 1; }
linked_with_musl
linked_with_glibc 2> "$out/log.link"
