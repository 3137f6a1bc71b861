#!/bin/sh
# build.sh [OUT]: lays out the package for npm in OUT/package (interface/npm/out unless said otherwise): what stands in
# src/, with two modules of WebAssembly beside it: pkder.wasm, the library, as interface/web/build.sh left it; and
# program.wasm, which is made here of the program as the compiler handed it to clang, release/out/program.bc, as
# release/static_program.sh left that. It proves nothing. By the environment:
#   LIBRARY=FILE   another pkder.wasm
#   PROGRAM=FILE   another program.bc, or a program.wasm, which is taken as it is
set -eu
here=$(cd "$(dirname "$0")" && pwd)
web=$here/../web
case "$#${1:-}" in 0 | 1[!-]*) ;; *) sed -n '2,/^set /s/^# //p' "$0" >&2 && exit 1 ;; esac
library=${LIBRARY:-$web/out/pkder.wasm}
program=${PROGRAM:-$here/../../release/out/program.bc}
for file in "$library" "$program"; do
    [ -f "$file" ] || { echo "build.sh: there is no $file" >&2 && exit 1; }
done
# shellcheck source=/dev/null
. "$web/to_wasm.sh"
mkdir -p "${1:-$here/out}"
out=$(cd "${1:-$here/out}" && pwd)

rm -rf "$out/package"
mkdir "$out/package"
case $program in
    *.wasm) cp "$program" "$out/package/program.wasm" ;;
    *)
        wasm_opt || exit
        wasm_of "$web" "$program" "$out/package/program.wasm" 1048576 \
            "$web/native/under.c $here/native/program.c" pkder_page_room main
        ;;
esac
cp "$here"/src/*.mjs "$here"/src/*.d.ts "$here/package.json" "$here/README.md" "$out/package"
cp "$library" "$out/package/pkder.wasm"
cp "$web/src/pkder.mjs" "$out/package/library.mjs"
chmod 755 "$out/package/cli.mjs"
echo "$out/package"
