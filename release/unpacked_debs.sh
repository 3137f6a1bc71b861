#!/bin/sh
# unpacked_debs.sh [--alone] ARCHITECTURE FOLDER PACKAGE..: unpacks packages of Debian 12 for another architecture in
# the folder, with all that they need or alone, by an apt with folders of its own: what is installed on this machine
# stays as it is. It needs a network; MIRROR=URL in the environment is another mirror.
set -eu
command="install --download-only --yes"
[ "${1:-}" != --alone ] || { command=download && shift; }
[ $# -ge 3 ] || { sed -n '2,/^set /s/^# //p' "$0" >&2 && exit 1; }
architecture=$1
mkdir -p "$2"
folder=$(cd "$2" && pwd)
shift 2
work=$(mktemp -d)
trap 'rm -rf "$work"' EXIT
# (apt drops root's rights where it fetches)
chmod 755 "$work"
mkdir -p "$work/state/lists/partial" "$work/cache/archives/partial"
: > "$work/status"
keys=/usr/share/keyrings/debian-archive-keyring.gpg
echo "deb [signed-by=$keys] ${MIRROR:-http://deb.debian.org/debian} bookworm main" > "$work/sources"
cat > "$work/conf" << END
APT::Architecture "$architecture";
APT::Architectures { "$architecture"; };
APT::Install-Recommends "false";
Dir::State "$work/state";
Dir::State::status "$work/status";
Dir::Cache "$work/cache";
Dir::Etc::sourcelist "$work/sources";
Dir::Etc::sourceparts "-";
Acquire::Languages "none";
END
APT_CONFIG=$work/conf
export APT_CONFIG
apt-get -qq update
# (what is downloaded alone comes to the folder that it is asked for in)
cd "$work/cache/archives"
# shellcheck disable=SC2086 # (words)
apt-get -qq $command "$@" > /dev/null 2> "$work/said" || { cat "$work/said" >&2 && exit 1; }
for file in "$work"/cache/archives/*.deb; do
    dpkg -x "$file" "$folder"
done
