#!/bin/sh
# build.sh LIBRARY [OUT]: makes OUT/mod_pkder.so (OUT is interface/sqlite/out unless said otherwise), which SQLite
# loads. LIBRARY is the folder that libpkder.a stands in, as interface/out. It takes cc and SQLite's headers (Debian:
# libsqlite3-dev); by the environment CC is another compiler, and CFLAGS are more words for it.
# shellcheck disable=SC2086 # (a list of flags)
set -eu
here=$(cd "$(dirname "$0")" && pwd)
if [ $# = 0 ] || [ $# -gt 2 ] || [ ! -f "$1/libpkder.a" ]; then
    [ $# = 0 ] || echo "build.sh: no libpkder.a in '$1', or more than two words" >&2
    sed -n '2,/^# shell/s/^# //p' "$0" | sed '$d' >&2
    exit 1
fi
out=${2:-$here/out}
mkdir -p "$out"
# (names of the library stay inside, where another libpkder in the process can't meet them; each block that is freed is
# wiped)
${CC:-cc} -std=c11 -O2 -fPIC -shared -s -fvisibility=hidden ${CFLAGS:-} -I"$here/.." -o "$out/mod_pkder.so" \
    "$here/src/mod_pkder.c" "$here/../java/native/wiping.c" "$1/libpkder.a" -Wl,--wrap=free,--wrap=realloc \
    -Wl,-soname,mod_pkder.so -Wl,--exclude-libs,ALL -Wl,-z,relro,-z,now,-z,noexecstack -Wl,--no-undefined
echo "$out/mod_pkder.so"
