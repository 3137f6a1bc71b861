#!/bin/sh
# arm64.sh library | program: makes it for ARM64 Linux in release/out/arm64, over the crates as tools/build.py left them,
# by the proof that is kept for all targets, or by a new one where there is none (interface/compile.sh). The library is
# libpkder.a, libpkder.so.0 and musl/libpkder.so.0; the programs are pkder-static, with musl inside, and pkder-glibc. In
# the place of the toolchain's C, which is for x86-64, stands under_linux.c. Debian: gcc-aarch64-linux-gnu,
# libc6-dev-arm64-cross, and a network at the first program, for its musl-dev of arm64.
set -eu
case $#${1:-} in 1library | 1program) ;; *) sed -n '2,/^set /s/^# //p' "$0" >&2 && exit 1 ;; esac
top=$(cd "$(dirname "$0")/.." && pwd)
out=$top/release/out/arm64
kit=$(dirname "$(rt doc)")
tools=aarch64-linux-gnu-
target=aarch64-unknown-linux-gnu
debian=$out/debian
# shellcheck source=/dev/null
. "$top/interface/compile.sh"

# compiled CRATE OUT: and says by which verdict
compiled() {
    if ! over_proved "$top" "$1" "$kit/toolchain" "$2" --target $target > "$out/$1.log" 2>&1 ||
        ! grep "^logic=proved.* target=$target" "$out/$1.log"; then
        cat "$out/$1.log" >&2
        exit 1
    fi
}

# c OBJECT SOURCE FLAG..: compiles C of this folder
c() {
    object=$1 source=$2
    shift 2
    ${tools}gcc -std=c11 -O2 -Wall -Wextra -Werror -c -o "$object" "$top/release/$source" "$@"
}

library() {
    compiled pkder_c "$out/pkder_c.a"
    ${tools}ar x "$out/pkder_c.a"
    c heap.o under_linux.c -fPIC
    linked_library "$top" "$out" "$tools" ./*.o
}

linked_with_glibc() {
    c under.o under_linux.c -fPIE -DPROGRAM
    c words.o for_musl.c -fPIE
    ${tools}gcc -pie -s -o "$out/pkder-glibc" program.o under.o words.o -Wl,-z,relro,-z,now,-z,noexecstack
}

linked_with_musl() {
    musl=$debian/usr/lib/aarch64-linux-musl
    # (no symbolic links may stay below the repository, of which `rt ci` takes none)
    [ -f "$musl/libc.a" ] || sh "$top/release/unpacked_debs.sh" --alone arm64 "$debian" musl-dev
    find "$debian" -type l -delete
    libgcc=$(${tools}gcc -print-libgcc-file-name)
    set -- -fPIE -DPROGRAM -nostdinc -isystem "$debian/usr/include/aarch64-linux-musl" \
        -isystem "$(dirname "$libgcc")/include"
    c under.o under_linux.c "$@"
    c words.o for_musl.c "$@"
    ${tools}ld -static -pie --no-dynamic-linker -s -z text -z relro -z now -z noexecstack -o "$out/pkder-static" \
        "$musl/rcrt1.o" "$musl/crti.o" program.o under.o words.o "$musl/libc.a" "$libgcc" "$musl/crtn.o"
}

program() {
    compiled pkder "$out/pkder.o"
    ${tools}objcopy --redefine-sym main=program_main "$out/pkder.o" program.o
    linked_with_glibc
    linked_with_musl
}

mkdir -p "$out"
work=$(mktemp -d)
trap 'rm -rf "$work"' EXIT
cd "$work"
"$1"
