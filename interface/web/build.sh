#!/bin/sh
# build.sh [OUT]: makes pkder.wasm and pkder.html in OUT (interface/web/out unless said otherwise): the library as a
# module of WebAssembly, and the page with the module in it. It takes the toolchain, over the libraries that
# tools/build.py left in crates/, Python, and wasm-opt (Debian: binaryen). It has pkder_c compiled once more, since
# nothing else keeps the code that it starts from, by the proof that interface/build.sh left (compile.sh), and leaves
# that code in OUT, as module.bc. By the environment:
#   MODULE=FILE  takes this code, a module.bc, and proves nothing
set -eu
here=$(cd "$(dirname "$0")" && pwd)
top=$(cd "$here/../.." && pwd)
# shellcheck source=/dev/null
. "$here/../compile.sh"
# shellcheck source=/dev/null
. "$here/to_wasm.sh"
case "$#${1:-}" in 0 | 1[!-]*) ;; *) sed -n '2,/^set /s/^# //p' "$0" >&2 && exit 1 ;; esac
wasm_opt || exit
mkdir -p "${1:-$here/out}"
out=$(cd "${1:-$here/out}" && pwd)
work=$(mktemp -d)
trap 'rm -rf "$work"' EXIT

if [ -z "${MODULE:-}" ]; then
    keeping_toolchain "$work/toolchain" "$work/module.bc"
    # (to_wasm.py knows what to change of this processor's)
    over_proved "$top" pkder_c "$work/toolchain" "$work/library.a" --cpu x86-64
    [ -f "$work/module.bc" ] || { echo "build.sh: the compiler handed no module to clang" >&2 && exit 1; }
    MODULE=$out/module.bc
    cp "$work/module.bc" "$MODULE"
fi

# shellcheck disable=SC2046 # (names)
wasm_of "$here" "$MODULE" "$out/pkder.wasm" 524288 "$here/native/under.c" pkder_page_room pkder_page_wipe \
    $(sed -n 's/^ *\(pkder_[a-z_]*\);$/\1/p' "$here/../pkder.map")
python3 "$here/make_page.py" "$out/pkder.wasm" "$out/pkder.html"
