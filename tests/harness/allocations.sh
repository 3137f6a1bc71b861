#!/bin/sh
# allocations.sh PROGRAM INPUT WORD..: the program with each allocation refused in turn. Each run answers as
# with ample memory, or says "out of memory" with status 3, perhaps after the name of a file, and writes nothing; the
# last ones meet no refusal. The last line counts those that were answered as want of memory.
set -u
program=$1 input=$2
shift 2
dir=$(mktemp -d)
trap 'rm -rf "$dir"' EXIT
cc -shared -fPIC -O2 -o "$dir/failalloc.so" "$(dirname "$0")/failalloc.c" -ldl || exit 1
"$program" "$@" < "$input" > "$dir/due" 2> "$dir/due_err"
due=$?
n=1 refused=0 whole=0
while [ "$whole" -lt 20 ] && [ "$n" -le 5000 ]; do
    FAIL_ALLOC=$n LD_PRELOAD=$dir/failalloc.so "$program" "$@" < "$input" > "$dir/out" 2> "$dir/err"
    got=$?
    if [ "$got" = "$due" ] && cmp -s "$dir/out" "$dir/due" && cmp -s "$dir/err" "$dir/due_err"; then
        whole=$((whole + 1))
    elif [ "$got" = 3 ] && [ ! -s "$dir/out" ] && grep -qxE "([a-z0-9./-]+: )?out of memory" "$dir/err"; then
        refused=$((refused + 1)) whole=0
    else
        echo "allocation $n refused: status $got, $(wc -c < "$dir/out") octets, '$(cat "$dir/err")'"
        echo "allocations: $refused passed, 1 failed"
        exit 1
    fi
    n=$((n + 1))
done
if [ "$whole" != 20 ]; then
    echo "allocations: $refused passed, 1 failed"
    exit 1
fi
echo "allocations: $refused passed, 0 failed"
