#!/bin/sh
# Puts the program in place, or the library, or both, as tools/build.py made them, or the extension for SQLite, which
# interface/sqlite/build.sh makes:
#   [DESTDIR=FOLDER] [PREFIX=/usr/local] [LIBDIR=PREFIX/lib] sh tools/install.sh [program] [library] [sqlite]
# The library is libpkder.a, libpkder.so.0, pkder.h and pkder.pc. With either go its man pages, the pages of docs/ that
# they name, and PROVED-BY, which says what proved it; with the program completions for bash, zsh and fish. The
# extension is mod_pkder.so, in LIBDIR, and its page.
set -eu
top=$(cd "$(dirname "$0")/.." && pwd)
prefix=${PREFIX:-/usr/local}
libdir=${LIBDIR:-$prefix/lib}
root=${DESTDIR:-}

needs() {
    [ -f "$1" ] && return
    echo "install.sh: there is no $1: $2, which proves and builds it" >&2
    exit 1
}

# PROVED-BY, where it names the file, as tools/build.py wrote it.
put_proved_by() {
    by=$top/crates/pkder/out/PROVED-BY sum=$(sha256sum < "$1")
    if ! grep -qs "^${sum%% *}  " "$by"; then
        echo "install.sh: nothing says what proved $1: no PROVED-BY has its sum" >&2
        return
    fi
    install -m 644 "$by" "$root$prefix/share/doc/pkder/PROVED-BY"
}

# put_completion FILE PLACE: the file of docs/completions, in its place under share/
put_completion() {
    mkdir -p "$(dirname "$root$prefix/share/$2")"
    install -m 644 "$top/docs/completions/$1" "$root$prefix/share/$2"
}

put_program() {
    program=$top/crates/pkder/out/pkder
    needs "$program" "run 'python3 tools/build.py'"
    mkdir -p "$root$prefix/bin" "$root$prefix/share/man/man1" "$root$prefix/share/doc/pkder"
    install -m 755 "$program" "$root$prefix/bin/pkder"
    install -m 644 "$top/docs/pkder.1" "$root$prefix/share/man/man1/pkder.1"
    install -m 644 "$top/docs/manual.md" "$top/docs/formats.md" "$root$prefix/share/doc/pkder"
    put_completion pkder.bash bash-completion/completions/pkder
    put_completion _pkder zsh/site-functions/_pkder
    put_completion pkder.fish fish/vendor_completions.d/pkder.fish
    put_proved_by "$program"
}

# The folder as pkder.pc has it, which a packager may move.
under_prefix() {
    case $1 in
        "$prefix"/*) printf '%s' "\${prefix}${1#"$prefix"}" ;;
        *) printf '%s' "$1" ;;
    esac
}

put_library() {
    from=$top/interface man=$root$prefix/share/man/man3 docs=$root$prefix/share/doc/pkder
    needs "$from/out/libpkder.so.0" "run 'python3 tools/build.py'"
    mkdir -p "$root$prefix/include" "$root$libdir/pkgconfig" "$man" "$docs"
    install -m 644 "$from/pkder.h" "$root$prefix/include/pkder.h"
    install -m 644 "$from/out/libpkder.a" "$from/out/libpkder.so.0" "$root$libdir"
    ln -sf libpkder.so.0 "$root$libdir/libpkder.so"
    sed -e "s|@PREFIX@|$prefix|" -e "s|@LIBDIR@|$(under_prefix "$libdir")|" \
        -e "s|@INCLUDEDIR@|$(under_prefix "$prefix/include")|" "$from/pkder.pc.in" > "$root$libdir/pkgconfig/pkder.pc"
    install -m 644 "$top/docs/library.md" "$top/docs/manual.md" "$top/docs/formats.md" "$docs"
    put_proved_by "$from/out/libpkder.so.0"
    install -m 644 "$top/docs/pkder.3" "$man/pkder.3"
    for name in $(sed -n 's/^ *\(pkder_[a-z_]*\);$/\1/p' "$from/pkder.map"); do
        ln -sf pkder.3 "$man/$name.3"
    done
}

put_sqlite() {
    from=$top/interface/sqlite docs=$root$prefix/share/doc/pkder
    needs "$from/out/mod_pkder.so" "run 'sh interface/sqlite/build.sh interface/out'"
    mkdir -p "$root$libdir" "$docs"
    install -m 644 "$from/out/mod_pkder.so" "$root$libdir"
    install -m 644 "$from/README.md" "$docs/sqlite.md"
}

for what in "${@:-program}"; do
    case $what in
        program | library | sqlite) ;;
        --help) sed -n '2,/^set /s/^# //p' "$0" && exit ;;
        *)
            echo "install.sh: $what can't be put in place: program, library or sqlite" >&2
            sed -n '2,/^set /s/^# //p' "$0" >&2
            exit 1
            ;;
    esac
done
for what in "${@:-program}"; do
    "put_$what"
done
