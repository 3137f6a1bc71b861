#!/bin/sh
# test.sh: the library, built by build.sh, and tried from C, with glibc and with musl, C++, Python, Rust, Go, Java, SQLite
# and PostgreSQL, and from JavaScript its module of WebAssembly. What the machine has no compiler, interpreter or server
# for is left out, and said. The last line is 'interface: N passed, M failed', a command counting once. LIBRARY=built
# takes the library that stands in interface/out; PACKAGE=FOLDER the modules of this package for npm, whatever they are
# of.
# By hand: ROUNDS=5000 DOCUMENTS=20000 sh interface/test.sh probes for minutes (200 and 500 unless said otherwise), and
# JUDGED=10000000 SEED=0 does (200000 documents of seed 1; 0 draws one); HEAP=wiping has the wiping heap tried.
# shellcheck disable=SC2086 # (lists of flags)
set -u
here=$(cd "$(dirname "$0")" && pwd)
top=$(dirname "$here") out=$here/out
work=$(mktemp -d)
trap 'rm -rf "$work"' EXIT
passed=0 failed=0 tgz='' table=''
warnings="-Wall -Wextra -Wpedantic -Wconversion -Wsign-conversion -Wshadow -Werror"

# try NAME COMMAND..: counts whether the command ends with status 0, and shows what it says where it doesn't
try() {
    tried=$1
    shift
    if "$@" > "$work/said" 2>&1 < /dev/null; then
        passed=$((passed + 1))
        grep 'left out' "$work/said"
        echo "$tried: $(tail -n 1 "$work/said")"
    else
        failed=$((failed + 1))
        echo "$tried: failed"
        tail -n 40 "$work/said"
    fi
}

# has TOOL PACKAGE: whether the tool is there; Debian has it in the package
has() {
    command -v "$1" > /dev/null && return
    echo "left out: no $1 (Debian: apt-get install $2)"
    return 1
}

# has_header HEADER PACKAGE: whether cc finds the header
has_header() {
    echo "#include <$1>" | cc -E - > /dev/null 2>&1 && return
    echo "left out: no $1 (Debian: apt-get install $2)"
    return 1
}

# compiled PROGRAM SOURCE FLAG..: a caller in C, linked to the static library
compiled() {
    program=$1 source=$2
    shift 2
    try "compiled $program" cc -std=c11 $warnings -I"$here" -o "$work/$program" "$here/c/$source.c" \
        "$out/libpkder.a" "$@"
}

names_of() {
    nm "$@" --extern-only --format=posix | awk '$2 ~ /^[A-Z]$/ && $2 != "A" { print $1 }' | sed 's/@.*//' | sort
}

# what a library that prints nothing, opens nothing and ends no process may call
wanted='malloc|realloc|free|mem(cpy|move|set|cmp)|explicit_bzero|malloc_usable_size|_GLOBAL_OFFSET_TABLE_'

# The library has nine names, wants few of others, and has no memory of its own that lasts from call to call. That for
# musl names no C library and no version of a name, so that any can be under it.
symbols() {
    sed -n 's/^ *\(pkder_[a-z_]*\);$/\1/p' "$here/pkder.map" | sort > "$work/due"
    [ "$(wc -l < "$work/due")" = 9 ] || return 1
    names_of --defined-only "$out/libpkder.a" | cmp - "$work/due" || return 1
    names_of --defined-only -D "$out/libpkder.so.0" | cmp - "$work/due" || return 1
    objdump -p "$out/libpkder.so.0" | grep 'SONAME *libpkder.so.0$' || return 1
    # (the C library is all that it needs)
    objdump -p "$out/libpkder.so.0" | grep NEEDED | grep -v 'libc\.so' && return 1
    names_of --undefined-only "$out/libpkder.a" | grep -vxE "$wanted" && return 1
    names_of --defined-only -D "$out/musl/libpkder.so.0" | cmp - "$work/due" || return 1
    nm -D --undefined-only "$out/musl/libpkder.so.0" | awk '{ print $NF }' | grep -vxE "$wanted" && return 1
    objdump -p "$out/musl/libpkder.so.0" | grep NEEDED && return 1
    objdump -p "$out/musl/libpkder.so.0" | grep 'SONAME *libpkder.so.0$' || return 1
    # (a heap has 1 or 16 octets that nothing is written to, for the place of what isn't a block)
    objdump -h "$out/libpkder.a" | awk '$2 ~ /^\.t?(data|bss)/ && $2 !~ /^\.data\.rel\.ro/ && $3 !~ /^0*(1|10)?$/' |
        grep . && return 1
    objdump -p "$out/libpkder.so.0" | grep -A 1 STACK | grep 'flags rw-$' || return 1
    echo "nine names"
}

# header COMPILER STANDARD..: pkder.h, twice in one source, by the compiler in each of the standards
header() {
    compiler=$1
    shift
    for standard in "$@"; do
        printf '#include <pkder.h>\n#include <pkder.h>\nint main(void) { return (int)PKDER_ROOM(PKDER_STACK); }\n' |
            "$compiler" -x "${standard%:*}" -std="${standard#*:}" $warnings -I"$here" -fsyntax-only - || return 1
    done
    echo "$*"
}

in_cxx() {
    try "header by $1" header "$1" c++:c++11 c++:c++17 c++:c++20
    try "compiled by $1" "$1" -std=c++11 $warnings -I"$here" -o "$work/main_cc" "$work/main.cc" "$out/libpkder.a"
    try "called from C++ by $1" "$work/main_cc"
}

in_c() {
    compiled filter filter -O2
    compiled check_files check_files -O2
    compiled pairs_watched pairs -O1 -g -fsanitize=address,undefined -fno-sanitize-recover=all
    compiled rows_watched rows -O1 -g -fsanitize=address,undefined -fno-sanitize-recover=all
    compiled probe probe -O2 -lpthread
    compiled stack stack -O2 -lpthread
    compiled probe_watched probe -O1 -g -fsanitize=address,undefined -fno-sanitize-recover=all -lpthread
    compiled filter_watched filter -O1 -g -fsanitize=address,undefined -fno-sanitize-recover=all
    compiled refuse refuse -O2 -Wl,--wrap=malloc,--wrap=realloc,--wrap=free
    compiled secrets secrets -O2 -Wl,--wrap=free
    compiled judged judged -O2 -Wl,--wrap=malloc,--wrap=realloc
    compiled allocations allocations -O2 -Wl,--wrap=malloc,--wrap=realloc
    try "rows in C" python3 "$top/tests/harness/rows.py" "$work/calls.tsv" "$work/filter" "$work/filter_watched"
    try "pairs in C under ASan and UBSan" pairs pairs_watched
    try "vectors in C under ASan and UBSan" vectors
    random_documents
    reports
    try "check_files" files
    try "probe" env "ROUNDS=${ROUNDS:-200}" "$work/probe" "$top"/examples/*.der
    try "probe under ASan and UBSan" env "ROUNDS=$((${ROUNDS:-200} / 10))" "$work/probe_watched" "$top"/examples/*.der
    try "stack" "$work/stack"
    refused
    try "allocations of check, in DER" judged_files
    try "check and normalise" "$work/judged" "${JUDGED:-200000}" "${SEED:-1}" "$top"/examples/*.der
    try "freed secrets" secrets
}

# Each file in DER is judged as it stands, and no memory is asked for.
judged_files() {
    "$work/allocations" "$top"/examples/*.der > "$work/judged_files" || return 1
    ! grep '^read' "$work/judged_files" || return 1
    echo "$(grep -c '^judged' "$work/judged_files") files in DER ask for none"
}

# The library's answers, under ASan and UBSan, beside those of an independent reader, and of the program if it is built.
random_documents() {
    set -- "$work/filter_watched"
    if [ -f "$top/crates/pkder/out/pkder" ]; then
        set -- "$@" "$top/crates/pkder/out/pkder"
    else
        echo "left out: no program beside random documents (run 'python3 tools/build.py')"
    fi
    try "random documents" python3 "$top/tests/oracle/random_documents.py" --count "${DOCUMENTS:-500}" --whole "$@"
}

# The library's reports, beside what is due of them, and beside the program's, word for word.
reports() {
    try "reports" python3 "$top/tests/explained/reports.py" "$work/filter"
    if [ -f "$top/crates/pkder/out/pkder" ]; then
        try "reports under ASan and UBSan beside the program" same_reports
    else
        echo "left out: no program beside reports (run 'python3 tools/build.py')"
    fi
}

same_reports() {
    count=0
    for file in "$top"/tests/pkder/explained/*.der "$top"/examples/*.der; do
        for kind in key ec request public encrypted package; do
            for form in "" --all --json "--all --json" --profile=tls "--all --json --profile=tls"; do
                "$work/filter_watched" explain --kind $kind $form < "$file" > "$work/report"
                status=$?
                "$top/crates/pkder/out/pkder" explain --kind $kind $form < "$file" > "$work/due"
                if [ $? != $status ] || ! cmp "$work/report" "$work/due"; then
                    echo "$file, $kind $form"
                    return 1
                fi
                count=$((count + 1))
            done
        done
    done
    echo "$count reports"
}

# pairs PROGRAM: what it says of all pairs
pairs() {
    "$work/$1" "$work/pairs.tsv" > "$work/answers" || return 1
    cut -f 7 "$work/pairs.tsv" | diff - "$work/answers" || return 1
    echo "$(wc -l < "$work/answers") pairs"
}

# What C says of the calls of the vectors.
vectors() {
    "$work/rows_watched" "$work/vectors.tsv" > "$work/answers" || return 1
    cut -f 4-6 "$work/vectors.tsv" | diff - "$work/answers" || return 1
    echo "$(wc -l < "$work/answers") calls"
}

files() (
    cd "$top/examples" || exit
    "$work/check_files" key smallest.der long-lengths.der cut-short.der > "$work/files"
    [ $? = 1 ] || exit 1
    printf '%s\t%s\n' smallest.der DER long-lengths.der 'not DER at 1' cut-short.der 'fault at 20: Truncated' |
        cmp - "$work/files" || exit 1
    "$work/check_files" key smallest.der p256.der || exit 1
    "$work/check_files" key no-such-file smallest.der
    [ $? = 3 ]
)

refused() {
    while read -r kind file; do
        for command in check same normalise show field explain explain-all-json explain-all-json-tls; do
            try "allocations of $command, $kind" "$work/refuse" $command "$kind" "$top/examples/$file.der"
        done
    done << END
key rfc8410-indefinite
ec k256-sec1-indefinite
request request-indefinite
public public-indefinite
encrypted encrypted-indefinite
package package-indefinite
END
    for part in info algorithm key signature received; do
        try "allocations of signed, $part" "$work/refuse" signed $part "$top/examples/request-indefinite.der"
    done
    # (documents that are refused)
    while read -r kind file; do
        for command in field explain explain-all explain-json explain-all-json explain-all-json-tls; do
            try "allocations of $command, $file" "$work/refuse" $command "$kind" "$top/tests/pkder/explained/$file.der"
        done
    done << END
key inner-trailing
request latin-1-name
END
}

# Whether the library was built with heap_wiping.c.
is_wiping() {
    nm "$out/libpkder.a" | grep -q ' U explicit_bzero$'
}

# The usual heap frees blocks that hold octets of a key; heap_wiping.c, if the library was built with it, none.
secrets() {
    sum=0
    for command in check same normalise show field explain explain-all-json explain-all-json-tls; do
        blocks=$("$work/secrets" $command key "$top/examples/ed25519.der" 16 32) || return 1
        sum=$((sum + blocks))
    done
    if is_wiping; then
        [ $sum = 0 ] || return 1
    fi
    echo "$sum blocks with octets of the key"
}

# The library's stand-in for tests of the packages, where build.sh puts the library itself.
stand_in() (
    mkdir -p "$work/stand_in" && cd "$work/stand_in" || exit
    cc -std=c11 $warnings -fPIC -I"$here" -c -o pkder.o "$here/c/stand_in.c" || exit
    ar rc libpkder.a pkder.o || exit
    cc -shared -o libpkder.so.0 pkder.o -Wl,-soname,libpkder.so.0 || exit
    ln -s libpkder.so.0 libpkder.so
    sed -e "s|@PREFIX@|$work|" -e "s|@LIBDIR@|$work/stand_in|" -e "s|@INCLUDEDIR@|$here|" "$here/pkder.pc.in" > pkder.pc
)

# The first folder of the PATH whose pip can build without a network.
folder_of_pip() (
    IFS=:
    for folder in $PATH; do
        if [ -x "$folder/pip" ] && "$folder/python3" -c "import setuptools, wheel" 2> /dev/null; then
            echo "$folder"
            return
        fi
    done
    return 1
)

in_python() {
    cp -r "$here/python" "$work/python"
    place=$work/python/src
    if folder=$(folder_of_pip); then
        PATH=$folder:$PATH
        try "pip install" pip install --quiet --no-index --no-build-isolation --no-deps --target "$work/site" \
            "$work/python"
        place=$work/site
    else
        echo "left out: no pip with setuptools and wheel (Debian: apt-get install python3-pip)"
    fi
    try "rows in Python" env "PYTHONPATH=$place" "PKDER_LIBRARY=$out/libpkder.so.0" "PKDER_CALLS=$work/calls.tsv" \
        "PKDER_PAIRS=$work/pairs.tsv" "PKDER_HEADER=$here/pkder.h" python3 -m unittest discover -s "$work/python/tests"
    try "vectors in Python" env "PYTHONPATH=$place" "PKDER_LIBRARY=$out/libpkder.so.0" \
        "PKDER_CALLS=$work/vectors.tsv" python3 -m unittest discover -s "$work/python/tests" -k Rows
    try "stand-in in Python" env "PYTHONPATH=$place" "PKDER_LIBRARY=$work/stand_in/libpkder.so.0" \
        python3 "$work/python/tests/stand_in.py"
}

in_rust() {
    cp -r "$here/rust" "$work/rust"
    set -- cargo test --offline --quiet --manifest-path "$work/rust/Cargo.toml"
    try "rows in Rust" env "PKDER_LIB_DIR=$out" "PKDER_CALLS=$work/calls.tsv" "PKDER_PAIRS=$work/pairs.tsv" \
        "PKDER_HEADER=$here/pkder.h" "$@"
    try "vectors in Rust" env "PKDER_LIB_DIR=$out" "PKDER_CALLS=$work/vectors.tsv" "$@" --test calls -- --exact rows
    try "stand-in in Rust" env "PKDER_LIB_DIR=$work/stand_in" "$@" --test stand_in -- --ignored
}

in_go() {
    cp -r "$here/go" "$work/go"
    # shellcheck disable=SC2016 # (for the inner shell)
    set -- "GOCACHE=$work/gocache" "PKDER_PAIRS=$work/pairs.tsv" "PKDER_HEADER=$here/pkder.h" GOPROXY=off \
        sh -c 'cd "$0" && exec go "$@"' "$work/go"
    try "rows in Go" env "PKG_CONFIG_PATH=$out" "LD_LIBRARY_PATH=$out" "PKDER_CALLS=$work/calls.tsv" "$@" test -count=1 .
    try "vectors in Go" env "PKG_CONFIG_PATH=$out" "LD_LIBRARY_PATH=$out" "PKDER_CALLS=$work/vectors.tsv" "$@" test \
        -count=1 -run '^TestRows$' .
    try "stand-in in Go" env "PKG_CONFIG_PATH=$work/stand_in" "LD_LIBRARY_PATH=$work/stand_in" "$@" test -count=1 \
        -tags stand_in -run StandIn .
}

# java_runs TESTS WORD..: the tests under these words of java's, which may say nothing of what JNI is misused for
java_runs() {
    tests=$1
    shift
    PKDER_CALLS=${table:-$work/calls.tsv} PKDER_PAIRS=$work/pairs.tsv PKDER_HEADER=$here/pkder.h \
        java -Xmx16m -Xcheck:jni "$@" $tests > "$work/java" 2>&1
    status=$?
    cat "$work/java"
    [ $status = 0 ] && ! grep -E '^(WARNING|FATAL ERROR) in native' "$work/java"
}

# No octets of a key stay in Java's heap, nor in blocks that are freed outside it. (Whether a program over the same
# library frees some says that the look at blocks finds what there is.)
java_copies() (
    COPIES_SECRET=a1b2c3d4e5f60718293a4b5c6d7e8f901f2e3d4c5b6a798897a6b5c4d3e2f10f
    export COPIES_SECRET
    set -- java -cp "$work/java_jar/pkder.jar:$work/java_tests" Copies
    "$@" dump || exit
    cc -std=c11 $warnings -O2 -fPIC -shared -o "$work/freed.so" "$here/java/tests/freed.c" || exit
    LD_PRELOAD=$work/freed.so "$@" 2> "$work/freed"
    status=$?
    cat "$work/freed"
    [ $status = 0 ] && grep -qx '0 blocks with octets of the secret' "$work/freed" || exit 1
    # (a key in DER, and with a longer length, which isn't judged as it stands but read)
    for length in 2e 812e; do
        python3 -c 'import sys; sys.stdout.buffer.write(bytes.fromhex(sys.argv[1]))' \
            "30${length}020100300506032b657004220420$COPIES_SECRET" > "$work/key_$length"
    done
    LD_PRELOAD=$work/freed.so "$work/filter" normalise --kind key < "$work/key_812e" > "$work/text" 2> "$work/freed" ||
        exit
    cmp "$work/text" "$work/key_2e" || exit
    cat "$work/freed"
    is_wiping || grep -qx '[1-9][0-9]* blocks with octets of the secret' "$work/freed" || exit 1
    echo "two arrays, and no freed blocks"
)

# Want of memory outside Java's heap is told by each call.
java_refused() (
    cc -std=c11 $warnings -O2 -fPIC -shared -o "$work/refusing.so" "$here/java/tests/refusing.c" || exit
    LD_PRELOAD=$work/refusing.so
    export LD_PRELOAD
    java_runs Refused -cp "$work/java_jar/pkder.jar:$work/java_tests"
)

in_java() {
    jar=$work/java_jar/pkder.jar
    set -- env JAVAC_FLAGS='-Xlint:all -Xdoclint:all/protected -Werror' CFLAGS="-std=c11 $warnings" \
        sh "$here/java/build.sh"
    try "built for Java" "$@" "$out" "$work/java_jar"
    try "built for Java again" "$@" "$out" "$work/java_again"
    try "the same jar" cmp "$work/java_again/pkder.jar" "$jar"
    try "compiled tests in Java" javac --release 17 -Xlint:all -Werror -cp "$jar" -d "$work/java_tests" \
        "$here"/java/tests/*.java
    try "rows in Java" java_runs Tests -cp "$jar:$work/java_tests"
    table=$work/vectors.tsv
    try "vectors in Java" java_runs "Tests rows" -cp "$jar:$work/java_tests"
    table=''
    try "copies in Java" java_copies
    try "want of memory in Java" java_refused
    try "stand-in for Java" "$@" "$work/stand_in" "$work/java_stand_in"
    # (as a module; and named as a file, which is taken in the place of the library in the jar)
    try "stand-in in Java" java_runs StandIn -p "$work/java_stand_in/pkder.jar" --add-modules pkder \
        -cp "$work/java_tests"
    native=native/Linux-amd64/libpkder_jni.so
    try "unpacked for Java" python3 -m zipfile -e "$work/java_stand_in/pkder.jar" "$work/java_stand_in"
    try "stand-in in Java, named" java_runs StandIn "-Dpkder.library=$work/java_stand_in/$native" \
        -cp "$jar:$work/java_tests"
}

# The first Python whose sqlite3 loads extensions, as some are built without that.
python_of_sqlite() {
    for python in python3 /usr/bin/python3; do
        if "$python" -c 'import sqlite3; sqlite3.connect(":memory:").enable_load_extension(True)' 2> /dev/null; then
            echo "$python"
            return
        fi
    done
    return 1
}

# in_tables FOLDER WORD..: tests in Python of the extension for SQLite that was built in this folder
in_tables() {
    extension=$work/$1/mod_pkder.so
    shift
    env PYTHONDONTWRITEBYTECODE=1 "PKDER_CALLS=$work/calls.tsv" "PKDER_PAIRS=$work/pairs.tsv" \
        "PKDER_SQLITE=$extension" "$@"
}

# No octets of a key stay in blocks that the extension frees: as many do as where it isn't called. (Where nothing is
# wiped it frees some, so the look at blocks finds what there is.)
sqlite_copies() (
    COPIES_SECRET=a1b2c3d4e5f60718293a4b5c6d7e8f901f2e3d4c5b6a798897a6b5c4d3e2f10f
    export COPIES_SECRET
    mkdir -p "$work/sqlite_unwiped" || exit
    cc -std=c11 -O2 -fPIC -shared -fvisibility=hidden -I"$here" -o "$work/sqlite_unwiped/mod_pkder.so" \
        "$here/sqlite/src/mod_pkder.c" "$out/libpkder.a" -Wl,--exclude-libs,ALL || exit
    cc -std=c11 $warnings -O2 -fPIC -shared -o "$work/sqlite_freed.so" "$here/java/tests/freed.c" || exit
    for each in "sqlite none" "sqlite functions" "sqlite_unwiped functions"; do
        in_tables "${each% *}" "LD_PRELOAD=$work/sqlite_freed.so" "$1" "$here/sqlite/tests/copies.py" "${each#* }" ||
            exit
    done > "$work/freed" 2>&1
    cat "$work/freed"
    awk '{ blocks[NR] = $1 } END { exit !(NR == 3 && blocks[1] == blocks[2] && blocks[2] < blocks[3]) }' "$work/freed"
)

# Want of memory is told, of the extension's own and of SQLite's.
sqlite_refused() {
    cc -std=c11 $warnings -O2 -fPIC -shared -o "$work/sqlite_refusing.so" "$here/java/tests/refusing.c" || return
    in_tables sqlite "LD_PRELOAD=$work/sqlite_refusing.so" "$1" "$here/sqlite/tests/refused.py"
}

# The extension has one name, so that it meets no other libpkder, and needs the C library alone.
sqlite_symbols() {
    [ "$(names_of --defined-only -D "$work/sqlite/mod_pkder.so")" = sqlite3_modpkder_init ] || return 1
    objdump -p "$work/sqlite/mod_pkder.so" | grep NEEDED | grep -v 'libc\.so' && return 1
    echo "one name"
}

sqlite_in_python() {
    tests="$here/sqlite/tests"
    try "rows in SQLite" in_tables sqlite "$1" -m unittest discover -s "$tests"
    try "vectors in SQLite" in_tables sqlite "PKDER_CALLS=$work/vectors.tsv" "$1" -m unittest discover -s "$tests" \
        -k test_rows.Rows
    try "stand-in in SQLite" in_tables sqlite_stand_in "$1" "$tests/stand_in.py"
    try "copies in SQLite" sqlite_copies "$1"
    try "want of memory in SQLite" sqlite_refused "$1"
    if [ -f "$(cc -print-file-name=libasan.so)" ]; then
        try "built for SQLite, watched" env "CFLAGS=$warnings $watched" sh "$here/sqlite/build.sh" "$out" \
            "$work/sqlite_watched"
        # (what leaks is looked for by valgrind, since Python frees not all of its own)
        try "rows in SQLite under ASan and UBSan" in_tables sqlite_watched ASAN_OPTIONS=detect_leaks=0 \
            "LD_PRELOAD=$(cc -print-file-name=libasan.so) $(cc -print-file-name=libubsan.so)" \
            "$1" -m unittest discover -s "$tests"
    else
        echo "left out: no libasan.so of cc, so SQLite isn't tried under ASan and UBSan"
    fi
}

sqlite_under_valgrind() (
    cd "$top/examples" || exit
    # (statements of it are refused, so that the shell's own status is 1)
    valgrind -q --error-exitcode=9 --leak-check=full sqlite3 -cmd ".load $work/sqlite/mod_pkder" :memory: \
        < "$here/sqlite/tests/calls.sql" > "$work/sqlite_said" 2>&1
    status=$?
    cat "$work/sqlite_said"
    [ $status -le 1 ] && [ "$(grep -c 'UNIQUE constraint failed' "$work/sqlite_said")" = 2 ] || exit 1
    echo "no error"
)

in_sqlite() {
    set -- sh "$here/sqlite/build.sh"
    watched="-O1 -g -fsanitize=address,undefined -fno-sanitize-recover=all"
    try "built for SQLite" env "CFLAGS=$warnings" "$@" "$out" "$work/sqlite"
    try "built for SQLite again" "$@" "$out" "$work/sqlite_again"
    try "symbols for SQLite" sqlite_symbols
    try "the same extension" cmp "$work/sqlite_again/mod_pkder.so" "$work/sqlite/mod_pkder.so"
    try "stand-in for SQLite" env "CFLAGS=$warnings" "$@" "$work/stand_in" "$work/sqlite_stand_in"
    try "compiled with SQLite" cc -std=c11 $warnings $watched -DSQLITE_CORE -I"$here" -o "$work/linked" \
        "$here/sqlite/tests/linked.c" "$here/sqlite/src/mod_pkder.c" "$here/java/native/wiping.c" "$out/libpkder.a" \
        -Wl,--wrap=free,--wrap=realloc -lsqlite3
    try "linked with SQLite" "$work/linked"
    if python=$(python_of_sqlite); then
        sqlite_in_python "$python"
    else
        echo "left out: no Python whose sqlite3 loads extensions (Debian: apt-get install python3)"
    fi
    if has sqlite3 sqlite3 && has valgrind valgrind; then try "SQLite under valgrind" sqlite_under_valgrind; fi
}

# has_postgres: whether there is a server of PostgreSQL, 15 or later, and what builds for it
has_postgres() {
    has make make && has pg_config postgresql-server-dev-15 || return 1
    for file in "$(pg_config --bindir)/postgres" "$(pg_config --includedir-server)/postgres.h"; do
        [ -f "$file" ] && continue
        echo "left out: no $file (Debian: apt-get install postgresql-15 postgresql-server-dev-15)"
        return 1
    done
    version=$(pg_config --version | sed 's/^[^0-9]*\([0-9]*\).*/\1/')
    [ "$version" -ge 15 ] || { echo "left out: PostgreSQL is of version $version" && return 1; }
}

# for_postgres FOLDER WORD..: makes what the words say of the module for PostgreSQL, in a folder of its own
for_postgres() (
    mkdir -p "$work/$1" && cd "$work/$1" || exit
    shift
    warnings_of_module="-isystem $(pg_config --includedir-server) $warnings"
    make -s -f "$here/postgres/Makefile" "WARNINGS=$warnings_of_module" "$@"
)

in_postgres() {
    pg=$work/postgres tests=$here/postgres/tests
    try "built for PostgreSQL" for_postgres postgres "LIBRARY=$out"
    try "installed for PostgreSQL" for_postgres postgres "LIBRARY=$out" install "DESTDIR=$pg/tree"
    try "stand-in for PostgreSQL" for_postgres postgres_stand_in "LIBRARY=$work/stand_in"
    # (all names are seen outside, as they are where nothing is said of them)
    try "naive for PostgreSQL" for_postgres postgres_naive "LIBRARY=$out" OBJS=pkder_sql.o \
        "SHLIB_LINK=$out/libpkder.a"
    try "other for PostgreSQL" cc -fPIC -shared -I"$here" -isystem "$(pg_config --includedir-server)" $warnings \
        -o "$pg/other.so" "$tests/other.c"
    try "PostgreSQL" python3 "$tests/run.py" "$pg/tree" "$work/all_calls.tsv" "$work/pairs.tsv" \
        "$work/postgres_stand_in/pkder.so" "$pg/other.so" "$work/postgres_naive/pkder.so"
}

# The folder of a package for npm whose modules are of these sources, or that PACKAGE names.
package() {
    if [ -n "${PACKAGE:-}" ]; then
        echo "$PACKAGE"
    elif python3 "$top/release/make_modules.py" --stand 2> "$work/said" &&
        sh "$here/npm/build.sh" "$work/npm_made" > "$work/said" 2>&1; then
        echo "$work/npm_made/package"
    else
        return 1
    fi
}

in_npm() {
    if ! made_of=$(package); then
        echo "left out: no modules for npm of these sources (python3 release/make_modules.py)"
        return
    fi
    mkdir -p "$work/npm/node_modules"
    cp -r "$here/npm/tests" "$work/npm/tests"
    try "laid out for npm" env "LIBRARY=$made_of/pkder.wasm" "PROGRAM=$made_of/program.wasm" \
        sh "$here/npm/build.sh" "$work/npm"
    tgz=$work/pkder-$(sed -n 's/^  "version": "\(.*\)",$/\1/p' "$here/npm/package.json").tgz
    try "packed for npm" tar -C "$work/npm" -czf "$tgz" package
    mv "$work/npm/package" "$work/npm/node_modules/pkder"
    try "rows in JavaScript" env "PKDER_CALLS=$work/calls.tsv" "PKDER_PAIRS=$work/pairs.tsv" \
        "PKDER_HEADER=$here/pkder.h" node "$work/npm/tests/run.mjs"
    try "vectors in JavaScript" env "PKDER_CALLS=$work/vectors.tsv" "PKDER_PAIRS=$work/pairs.tsv" \
        "PKDER_HEADER=$here/pkder.h" node "$work/npm/tests/run.mjs" calls
    try "rows of the program in node" python3 "$top/tests/harness/rows.py" "$top"/tests/pkder/*.tsv \
        "$top/examples/answers.tsv" "$work/npm/node_modules/pkder/cli.mjs"
    try "the page's module" node "$here/web/tests/module.mjs" "$made_of/pkder.wasm" "$work/all_calls.tsv" \
        "$work/pairs.tsv" "$top/tests/manual/spellings.tsv" "$here/pkder.h"
    if has tsc node-typescript; then try "types in TypeScript" typed; fi
}

# What callers write in TypeScript, and what they may not.
typed() (
    cd "$work/npm" || exit
    tsc --noEmit --strict --target es2022 --lib es2022 --module nodenext --moduleResolution nodenext \
        tests/typed.mts
    status=$?
    [ $status = 0 ] && echo "typed.mts"
    exit $status
)

in_valgrind() {
    try "compiled for valgrind" cc -std=c11 -O1 -g -I"$here" -o "$work/probe_plain" "$here/c/probe.c" \
        "$out/libpkder.a" -lpthread
    try "probe under valgrind" env ROUNDS=1 valgrind -q --error-exitcode=9 --leak-check=full "$work/probe_plain" \
        "$top/examples/smallest.der" "$top/examples/package-indefinite.der"
}

# with_musl PROGRAM SOURCE FLAG..: a caller in C, compiled and linked with musl, and with nothing of glibc in reach
with_musl() {
    program=$1 source=$2
    shift 2
    try "compiled $program" musl-gcc -std=c11 $warnings -O2 -I"$here" -o "$work/$program" "$here/c/$source.c" "$@" \
        -Wl,--sysroot="$work/nothing"
}

in_musl() {
    with_musl filter_musl filter -static "$out/libpkder.a"
    with_musl filter_musl_shared filter "$out/musl/libpkder.so.0" -Wl,-rpath,"$out/musl"
    with_musl pairs_musl pairs "$out/musl/libpkder.so.0" -Wl,-rpath,"$out/musl"
    with_musl probe_musl probe -static "$out/libpkder.a"
    with_musl stack_musl stack -static "$out/libpkder.a"
    try "rows with musl" python3 "$top/tests/harness/rows.py" "$work/calls.tsv" "$work/filter_musl" \
        "$work/filter_musl_shared"
    try "pairs with musl" pairs pairs_musl
    try "probe with musl" env "ROUNDS=$((${ROUNDS:-200} / 10))" "$work/probe_musl" "$top"/examples/*.der
    try "stack with musl" "$work/stack_musl"
    # (that library names no C library, so glibc will do as well)
    try "compiled filter_shared" cc -std=c11 $warnings -I"$here" -o "$work/filter_shared" "$here/c/filter.c" \
        "$out/libpkder.so.0"
    try "rows with glibc and the library for musl" env "LD_LIBRARY_PATH=$out/musl" \
        python3 "$top/tests/harness/rows.py" "$work/calls.tsv" "$work/filter_shared"
}

# Installed for a packager, the library is found by pkg-config.
installed() {
    # (no folder that pkg-config leaves out since compilers know it)
    DESTDIR=$work/root PREFIX=/opt/pkder LIBDIR=/opt/pkder/lib64 sh "$top/tools/install.sh" library || return 1
    (cd "$work/root" && find . ! -type d | sort) > "$work/files"
    for name in include/pkder.h lib64/libpkder.a lib64/libpkder.so lib64/libpkder.so.0 lib64/pkgconfig/pkder.pc \
        share/man/man3/pkder.3 share/man/man3/pkder_check.3 share/doc/pkder/library.md; do
        grep -qx "./opt/pkder/$name" "$work/files" || { echo "no $name" && return 1; }
    done
    command -v pkg-config > /dev/null || { echo "left out: no pkg-config" && return; }
    flags=$(PKG_CONFIG_PATH=$work/root/opt/pkder/lib64/pkgconfig PKG_CONFIG_SYSROOT_DIR=$work/root \
        pkg-config --cflags --libs pkder) || return 1
    cc -o "$work/installed" "$here/c/filter.c" $flags || return 1
    LD_LIBRARY_PATH=$work/root/opt/pkder/lib64 "$work/installed" normalise --kind request \
        < "$top/examples/request-indefinite.der" | cmp - "$top/examples/request-p256.der" || return 1
    # (and by its own place, wherever it was moved to)
    moved=$(PKG_CONFIG_PATH=$work/root/opt/pkder/lib64/pkgconfig pkg-config --define-prefix --cflags pkder) || return 1
    [ "$moved" = "-I$work/root/opt/pkder/include " ] || [ "$moved" = "-I$work/root/opt/pkder/include" ] || return 1
    echo "found"
}

# What stands in docs/library.md, docs/intake.md and in the READMEs of the packages, as it stands there. pip puts the
# package into a folder of its own and asks no network; without pip it is found where it lies; no more does npm. (rustup
# looks for itself at home)
documents() {
    site=$work/documents
    set -- "PKG_CONFIG_PATH=$out" "LD_LIBRARY_PATH=$out" "PYTHONPATH=$site:$here/python/src" "PIP_TARGET=$site" \
        PIP_NO_INDEX=1 PIP_NO_BUILD_ISOLATION=0 PIP_QUIET=1 PIP_ROOT_USER_ACTION=ignore PYTHONDONTWRITEBYTECODE=1 \
        CARGO_NET_OFFLINE=true "RUSTUP_HOME=${RUSTUP_HOME:-$HOME/.rustup}" GOPROXY=off "GOCACHE=$work/gocache" \
        npm_config_offline=true npm_config_audit=false npm_config_fund=false npm_config_update_notifier=false \
        "npm_config_cache=$work/npm_cache" "PKDER_PACKAGE=$tgz"
    env "$@" python3 "$top/tests/harness/transcripts.py" "$top/docs/library.md" "$top/docs/intake.md" \
        "$here/python/README.md" "$here/java/README.md" "$here/npm/README.md" "$here/sqlite/README.md" "$work/filter"
}

man_page() {
    mandoc -T lint "$1" > "$work/lint" 2> /dev/null
    cat "$work/lint"
    [ ! -s "$work/lint" ]
}

tools() {
    for tool in cc ar nm objdump python3; do
        has $tool "gcc libc6-dev binutils python3" || return 1
    done
}

made() {
    if [ "${LIBRARY:-}" = built ]; then
        ls "$out/libpkder.a" "$out/libpkder.so.0" "$out/musl/libpkder.so.0"
    else
        sh "$here/build.sh"
    fi
}

try "build" made
if [ "$failed" = 0 ] && tools; then
    python3 "$here/calls.py" "$top"/tests/pkder/*.tsv "$top/examples/answers.tsv" > "$work/calls.tsv"
    python3 "$here/pairs.py" "$work/calls.tsv" "$here/pairs.tsv" > "$work/pairs.tsv"
    python3 "$top/vectors/check.py" --rows > "$work/vectors.tsv"
    cat "$work/calls.tsv" "$work/vectors.tsv" > "$work/all_calls.tsv"
    printf '#include <pkder.h>\nint main() { return pkder_interface() == PKDER_INTERFACE ? 0 : 1; }\n' > "$work/main.cc"
    try "symbols" symbols
    try "header by cc" header cc c:c99 c:c11 c:c17
    if has clang clang; then try "header by clang" header clang c:c99 c:c11 c:c17; fi
    if has g++ g++; then in_cxx g++; fi
    if has clang++ clang; then in_cxx clang++; fi
    in_c
    try "installed" installed
    try "stand-in, compiled" stand_in
    in_python
    if has cargo cargo; then in_rust; fi
    if has go golang-go && has pkg-config pkg-config; then in_go; fi
    if has javac default-jdk-headless; then in_java; fi
    if has_header sqlite3ext.h libsqlite3-dev; then in_sqlite; fi
    if has_postgres; then in_postgres; fi
    if has node nodejs; then in_npm; fi
    if has musl-gcc musl-tools; then in_musl; fi
    if has valgrind valgrind; then in_valgrind; fi
    try "documents" documents
    if has mandoc mandoc; then try "man page" man_page "$top/docs/pkder.3"; fi
else
    failed=$((failed + 1))
    echo "left out: all callers"
fi
echo "interface: $passed passed, $failed failed"
[ "$failed" = 0 ]
