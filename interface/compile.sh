# compile.sh, for scripts that read it in: the compiler's call for the crates that are handed out, what it hands to
# clang, and the library of what it makes.
# shellcheck shell=sh

# over_proved TOP CRATE TOOLCHAIN OUT FLAG..: proves and compiles pkder_c or pkder, as `rt lib` and `rt run` do, over
# the libraries that stand in TOP/crates, with the clang of the folder TOOLCHAIN, for the target and the processor that
# the flags name. What is proved is kept in crates/CRATE/out/kept, and the call for another target takes from there
# what still is of these sources. Whoever can write to that folder is trusted (incremental=trusted). `rt ci` and
# tools/build.py remove it. It is one job, since each further one takes more of a processor: of tlv_core, four took
# half as much again.
over_proved() (
    root=$1 crate=$2 toolchain=$3 made=$4
    shift 4
    kit=$(dirname "$(rt doc)") || exit
    case $crate in
        pkder_c) set -- src/lib.rt --crate-type staticlib "$@" ;;
        *) set -- src/main.rt "$@" ;;
    esac
    for name in $(sed -n "s/^$crate\( staticlib\)\{0,1\}://p" "$root/crates.txt"); do
        library=$root/crates/$name/out/rlib/$name.rlib
        [ -d "$library" ] || library=$kit/rlibs/$name.rlib
        set -- "$@" --extern "$name=$library"
    done
    for folder in "$root"/crates/*/out/rlib; do
        set -- "$@" -L "dependency=$folder"
    done
    cd "$root/crates/$crate" && mkdir -p out || exit
    "$kit/bin/rattle" build --crate-name "$crate" "$@" --links "$crate=" --jobs 1 \
        --extern "std=$kit/rlibs/std.rlib" -L "dependency=$kit/rlibs" --toolchain "$toolchain" \
        --antt-project "$kit/rattle/logic/antt-project.json" --logic-built "$kit/logic_built" \
        --incremental out/kept --backend llvm -o "$made"
)

# keeping_toolchain FOLDER MODULE: the toolchain in a new folder, with a clang that leaves the module of LLVM that it is
# handed as the file MODULE.
keeping_toolchain() (
    tools=$(dirname "$(rt doc)")/toolchain
    mkdir -p "$1/bin" && ln -s "$tools/lib" "$1/lib" || exit
    for tool in "$tools"/bin/*; do
        ln -s "$tool" "$1/bin/$(basename "$tool")" || exit
    done
    rm "$1/bin/clang"
    cat > "$1/bin/clang" << END
#!/bin/sh
for word in "\$@"; do
    case \$word in *.bc) cp "\$word" "$2" ;; esac
done
exec "$tools/bin/clang" "\$@"
END
    chmod +x "$1/bin/clang"
)

# linked_library TOP OUT TOOLS OBJECT..: makes libpkder.a and libpkder.so.0 in OUT of these objects, and beside them
# musl/libpkder.so.0, by cc, ld, ar and objcopy, or by those whose names begin so, as aarch64-linux-gnu-.
linked_library() (
    from=$1/interface to=$2 tools=$3
    shift 3
    mkdir -p "$to/musl" || exit
    # One object whose only global names are those of pkder.map, so that a program can link two libraries that are made
    # so.
    "${tools}ld" -r -o whole "$@" &&
        sed -n 's/^ *\(pkder_[a-z_]*\);$/\1/p' "$from/pkder.map" > names &&
        "${tools}objcopy" --keep-global-symbols=names --strip-unneeded whole pkder.o || exit
    rm -f "$to/libpkder.a"
    "${tools}ar" rcD "$to/libpkder.a" pkder.o || exit
    set -- -shared -s pkder.o -Wl,-soname,libpkder.so.0 -Wl,--version-script,"$from/pkder.map" \
        -Wl,-z,relro,-z,now,-z,noexecstack
    "${tools:+${tools}g}cc" "$@" -Wl,--no-undefined -o "$to/libpkder.so.0" || exit
    # (musl's names have no versions, so glibc's can't be asked for where a program is linked; this one takes the names
    # of whatever C library its process has)
    "${tools:+${tools}g}cc" "$@" -nostdlib -o "$to/musl/libpkder.so.0"
)
