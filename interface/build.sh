#!/bin/sh
# build.sh: proves crates/pkder_c and makes libpkder.a, libpkder.so.0 and pkder.pc in interface/out, and in its folder
# musl the shared library for musl. It takes no words; tools/build.py calls it once `rt ci` has proved every crate. With
# LIBRARIES=proved, for any x86-64, it leaves there what the compiler hands to clang, too, as module.bc: interface/web
# makes its module of that. By the environment:
#   HEAP=wiping       heap_wiping.c in the place of the toolchain's heap: it wipes what it frees, and isn't proved
#   CPU=x86-64        the processor; x86-64-v2 or x86-64-v3 for later ones alone (nothing looks at the one it runs on)
#   LIBRARIES=proved  over the libraries as `rt ci` left them just before, where `rt lib` proves them all again
set -eu

# refuse WHAT: says what is refused and how to call this, before anything is done
refuse() {
    echo "build.sh: $1" >&2
    sed -n '2,/^set /s/^# //p' "$0" >&2
    exit 1
}

[ "${1:-}" != --help ] || { sed -n '2,/^set /s/^# //p' "$0" && exit; }
[ $# = 0 ] || refuse "there is no word '$1'"
case ${HEAP:-} in "" | wiping) ;; *) refuse "HEAP is wiping or not set" ;; esac
case ${LIBRARIES:-} in "" | proved) ;; *) refuse "LIBRARIES is proved or not set" ;; esac
case ${CPU:-x86-64} in x86-64 | x86-64-v2 | x86-64-v3) ;; *) refuse "CPU is x86-64, x86-64-v2 or x86-64-v3" ;; esac
here=$(cd "$(dirname "$0")" && pwd)
crate=$here/../crates/pkder_c
out=$here/out
kit=$(dirname "$(rt doc)")
# shellcheck source=/dev/null
. "$here/compile.sh"

compiled() (
    cd "$crate" && mkdir -p out || exit
    if [ "${LIBRARIES:-}" = proved ]; then
        keeping_toolchain "$work/toolchain" "$work/module.bc"
        over_proved "$here/.." pkder_c "$work/toolchain" "$crate/out/libpkder_c.a" --cpu "${CPU:-x86-64}" && exit
        echo "build.sh: the libraries of crates/ can't be taken as they are, so rt proves them"
    fi
    rt lib --cpu "${CPU:-x86-64}"
)

mkdir -p "$out"
rm -f "$out/module.bc"
work=$(mktemp -d)
trap 'rm -rf "$work"' EXIT
compiled > "$out/lib.log" 2>&1 || { cat "$out/lib.log" >&2 && exit 1; }
if [ "${CPU:-x86-64}" = x86-64 ] && [ -f "$work/module.bc" ]; then
    mv "$work/module.bc" "$out"
fi
mkdir "$work/objects"
cd "$work/objects"
ar x "$crate/out/libpkder_c.a"
if [ "${HEAP:-}" = wiping ]; then
    cc -O2 -Wall -Wextra -fPIC -fvisibility=hidden -c -o heap.pic.o "$here/heap_wiping.c"
else
    ar x "$kit/c/liblibc_c.a" heap.pic.o
fi
linked_library "$here/.." "$out" "" ./*.o
# (a hard link: `rt ci` takes no tree with symbolic ones in it)
ln -f "$out/libpkder.so.0" "$out/libpkder.so"
# (for use from here; tools/install.sh writes the one that is installed)
sed -e "s|@PREFIX@|$here|" -e "s|@LIBDIR@|$out|" -e "s|@INCLUDEDIR@|$here|" "$here/pkder.pc.in" > "$out/pkder.pc"
