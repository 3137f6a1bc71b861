#!/bin/sh
# Builds and runs values.rs. By hand; the gate doesn't.
set -eu
here=$(cd "$(dirname "$0")" && pwd)
sh "$here/build.sh" values
# malloc keeps what is freed: else pages mapped anew in each run take as long as the reading of great documents.
MALLOC_TRIM_THRESHOLD_=1000000000 MALLOC_MMAP_THRESHOLD_=1000000000 "$here/out/values" "$@"
