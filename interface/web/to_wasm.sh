# to_wasm.sh, for scripts that read it in: a module of WebAssembly of what the Rattle compiler hands to clang.
# shellcheck shell=sh

# wasm_opt: whether wasm-opt is there, which is told where it isn't
wasm_opt() {
    command -v wasm-opt > /dev/null && return
    echo "no wasm-opt (Debian: apt-get install binaryen)" >&2
    return 1
}

# wasm_of WEB MODULE OUT STACK UNDER NAME..: makes of a module of LLVM the module OUT, with what stands under it, files
# in C between blanks, with a stack of so many octets, and with the functions of these names. WEB is interface/web.
wasm_of() (
    web=$1 module=$2 made=$3 stack=$4 under=$5
    shift 5
    clang=$(dirname "$(rt doc)")/toolchain/bin/clang
    pieces=$(mktemp -d) || exit
    trap 'rm -rf "$pieces"' EXIT
    # To text, as it is: no pass may run that knows x86-64. Then the same for WebAssembly with addresses of 64 bits.
    "$clang" --target=x86_64-unknown-linux-gnu --no-default-config -x ir "$module" -S -emit-llvm \
        -Xclang -disable-llvm-passes -o "$pieces/x86.ll" || exit
    python3 "$web/to_wasm.py" "$pieces/x86.ll" "$pieces/wasm.ll" || exit
    # (quotients of 128 bits are made of what there is, and products and shifts by what under.c has)
    compiled() {
        "$clang" --target=wasm64-unknown-unknown -mcpu=lime1 --no-default-config -Werror -ffunction-sections \
            -fdata-sections -mllvm -expand-div-rem-bits=64 "$@"
    }
    compiled -O3 -x ir -c "$pieces/wasm.ll" -o "$pieces/whole.o" || exit
    for source in $under; do
        name=$(basename "$source" .c)
        compiled -O2 -ffreestanding -nostdinc -Wall -Wextra -c "$source" -o "$pieces/$name.under.o" || exit
    done
    # (the stack comes first, so that what runs past its end traps at the address 0; a warning is that of two types of
    # one function, which would trap when it is called)
    # shellcheck disable=SC2046 # (names)
    set -- $(printf -- '--export=%s ' "$@")
    "$(dirname "$clang")/ld.lld" -flavor wasm -mwasm64 --no-entry --stack-first -z "stack-size=$stack" --gc-sections \
        --fatal-warnings "$@" "$pieces/whole.o" "$pieces"/*.under.o -o "$pieces/wide.wasm" || exit
    # Addresses of 32 bits, for what has no memory of 64; numbers of 64 bits stay.
    wasm-opt --enable-memory64 --enable-bulk-memory --enable-sign-ext --enable-mutable-globals --enable-multivalue \
        --enable-nontrapping-float-to-int --memory64-lowering --strip-debug "$pieces/wide.wasm" -o "$made"
)
