#!/bin/sh
# Builds and runs pull.rs. By hand; the gate doesn't.
set -eu
here=$(cd "$(dirname "$0")" && pwd)
sh "$here/build.sh" pull
"$here/out/pull"
