#!/bin/sh
# build.sh pull | values: builds the static library of a crate and links it, in bench/out, into pull; or into values,
# which counts memory, and counted, with the C library's malloc alone, which is there to count instructions: both with
# OpenSSL's libcrypto (libssl-dev). By hand; the gate doesn't.
set -eu
here=$(cd "$(dirname "$0")" && pwd)
case $# in
    1) wanted=$1 ;;
    *) wanted=none ;;
esac
case $wanted in
    pull) crate=ber_pull_bench below="tlv_core x690 ber_pull" ;;
    values) crate=values_bench below="tlv_core x690 x690_laws ber_pull asn_elements asn_lists asn_open_values pk_documents" ;;
    *) echo "build.sh pull | values" >&2 && exit 1 ;;
esac
kit=$(dirname "$(rt doc)")

copied() {
    cp -Rl "$@" 2> /dev/null || cp -Rf "$@"
}

# Lays the crate out beside copies of the repository's in a folder of its own, and builds its library there. Its sources
# are .rattle files here and its proofs .proof files, since the gate reads each .rt and .antt file and proves it. The
# libraries below it come back to the repository's crates, where a later build finds them.
library() (
    work=$(mktemp -d)
    trap 'rm -rf "$work"' EXIT
    copied "$here/../crates" "$here/../HANDLES" "$work"
    cp -R "$here/crates/$crate" "$work/crates"
    { cat "$here/../crates.txt" && echo "$crate staticlib: $below"; } > "$work/crates.txt"
    cd "$work/crates/$crate"
    find . -name '*.rattle' -exec sh -c 'mv "$1" "${1%.rattle}.rt"' - {} \;
    find . -name '*.proof' -exec sh -c 'mv "$1" "${1%.proof}.antt"' - {} \;
    rt lib > "$here/lib.log" 2>&1 || { cat "$here/lib.log" >&2 && exit 1; }
    cp "out/lib$crate.a" "$here/out"
    for built in "$work"/crates/*/out/rlib; do
        kept=$here/../crates/$(basename "${built%/out/rlib}")/out
        mkdir -p "$kept"
        rm -rf "$kept/rlib"
        copied "$built" "$kept"
    done
)

linked() {
    program=$1 from=$2
    shift 2
    rustc --edition 2024 -O -C codegen-units=1 -o "$here/out/$program" "$here/$from" \
        -L "$here/out" -l "static=$crate" -L "$kit/c" -l static=libc_c "$@"
}

beside_openssl() {
    program=$1 malloc=$2
    shift 2
    cc -O2 -Wall ${malloc:+"$malloc"} -c -o "$here/out/$program.o" "$here/openssl.c"
    linked "$program" values.rs -l crypto -C link-arg="$here/out/$program.o" "$@"
}

mkdir -p "$here/out"
library
if [ "$wanted" = pull ]; then
    linked pull pull.rs
else
    beside_openssl values "" -C link-arg=-Wl,--wrap=malloc,--wrap=realloc,--wrap=free
    beside_openssl counted -DPLAIN_MALLOC
fi
