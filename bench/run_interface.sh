#!/bin/sh
# run_interface.sh: times the library's calls beside OpenSSL's (libssl-dev), on files of examples/, and counts their
# instructions where valgrind is there, as the difference between 200 and 400 calls. After interface/build.sh, by hand.
set -eu
top=$(cd "$(dirname "$0")/.." && pwd)
bench=$top/bench/out/interface
mkdir -p "$top/bench/out"
cc -std=c11 -O2 -Wall -Wextra -I"$top/interface" -o "$bench" "$top/interface/c/bench.c" \
    "$top/interface/out/libpkder.a" -lcrypto
cd "$top/examples"

counted() {
    valgrind --tool=callgrind --callgrind-out-file=/dev/null "$bench" "$@" 2>&1 | sed -n 's/.*Collected : //p'
}

instructions() {
    printf '| %s | %s |' "$2" "$(wc -c < "$2")"
    for call in check normalise show openssl-read openssl-read-write; do
        printf ' %d |' $((($(counted "$1" "$2" $call 400) - $(counted "$1" "$2" $call 200)) / 200))
    done
    echo
}

table() {
    echo "| $1 | octets | check | normalise | show | OpenSSL, read | OpenSSL, read and written |"
    while read -r kind file; do
        "$2" "$kind" "$file.der"
    done << END
key smallest
key p256
key rsa2048
request request-p256
request request-rsa2048
request request-ed25519
public public-p256
public public-rsa2048
END
}

table microseconds "$bench"
if command -v valgrind > /dev/null; then table instructions instructions; fi
