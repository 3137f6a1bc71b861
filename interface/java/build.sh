#!/bin/sh
# build.sh LIBRARY [OUT]: makes OUT/pkder.jar (OUT is interface/java/out unless said otherwise), with the classes, for
# Java 17 and later, and the native library. LIBRARY is the folder that libpkder.a stands in, as interface/out. It takes
# a JDK (javac, jar) and cc; by the environment JAVAC_FLAGS and CFLAGS are more words for these, and ARM64 is the folder
# of a libpkder.a for ARM64, whose native library goes in as well, by aarch64-linux-gnu-gcc.
# shellcheck disable=SC2086 # (lists of flags)
set -eu
here=$(cd "$(dirname "$0")" && pwd)
if [ $# = 0 ] || [ $# -gt 2 ] || [ ! -f "$1/libpkder.a" ]; then
    [ $# = 0 ] || echo "build.sh: no libpkder.a in '$1', or more than two words" >&2
    sed -n '2,/^# shell/s/^# //p' "$0" | sed '$d' >&2
    exit 1
fi
library=$(cd "$1" && pwd)
mkdir -p "${2:-$here/out}"
out=$(cd "${2:-$here/out}" && pwd)
version=$(sed -n 's/^Version: //p' "$here/../pkder.pc.in")
jdk=$(dirname "$(dirname "$(readlink -f "$(command -v javac)")")")
work=$(mktemp -d)
trap 'rm -rf "$work"' EXIT

javac --release 17 -encoding UTF-8 -d "$work/classes" -h "$work/headers" ${JAVAC_FLAGS:-} \
    "$here/src/module-info.java" "$here"/src/pkder/*.java

# native COMPILER FOLDER MACHINE: the native library over the libpkder.a of the folder, for what Java calls the machine
native() {
    mkdir -p "$work/classes/native/Linux-$3"
    "$1" -O2 -fPIC -shared -s -fvisibility=hidden ${CFLAGS:-} -I"$here/.." -I"$work/headers" -I"$jdk/include" \
        -I"$jdk/include/linux" -o "$work/classes/native/Linux-$3/libpkder_jni.so" "$here"/native/*.c \
        "$2/libpkder.a" -lpthread -Wl,--wrap=free,--wrap=realloc -Wl,--exclude-libs,ALL \
        -Wl,-z,relro,-z,now,-z,noexecstack -Wl,--no-undefined
}
native cc "$library" amd64
[ -z "${ARM64:-}" ] || native aarch64-linux-gnu-gcc "$ARM64" aarch64

cat > "$work/manifest" << END
Implementation-Title: pkder
Implementation-Version: $version
END
# (the same octets each time, as far as this jar can: files in one order, and of one date)
set --
for file in $(cd "$work/classes" && find . -type f | LC_ALL=C sort); do
    set -- "$@" -C "$work/classes" "${file#./}"
done
if jar --help | grep -q -- --date; then
    set -- --date=1980-02-01T00:00:00Z "$@"
fi
jar --create --file "$out/pkder.jar" --manifest "$work/manifest" --module-version "$version" "$@"
echo "$out/pkder.jar"
