#!/usr/bin/env bash
# Tests libdrain: builds its example in C and a shared object for the one in Python, runs both on the bundled sets and
# on arguments that are refused, and compares lines and statuses; then tests/library.c, which refuses memory at each
# request, and tests/library.py.
# Needs a compiler of C and Python 3.
# Usage: tests/library.sh LIBRARY    (build/libdrain.a, as tools/build.py makes it)
set -u
library=$(realpath "$1")
cd "$(dirname "$0")/.."
examples=crates/drain_c/examples
sets=samples/other-tools
tile=$sets/N36W085.hgt
scratch=$(mktemp -d)
trap 'rm -rf "$scratch"' EXIT
passed=0
failed=0

compiler=$(command -v cc) || compiler=$(dirname "$(readlink -f "$(command -v rt)")")/../toolchain/bin/clang
words=(-O2 -Wall -Wextra -Werror -I crates/drain_c/include)
"$compiler" -std=c11 -pedantic "${words[@]}" -o "$scratch/judge" "$examples/judge.c" "$library" || exit 1
"$compiler" -shared -o "$scratch/libdrain.so" -Wl,--whole-archive "$library" -Wl,--no-whole-archive || exit 1
"$compiler" -std=c11 "${words[@]}" -pthread -Wl,--wrap=malloc,--wrap=realloc,--wrap=free -o "$scratch/library" tests/library.c tests/library_calls.c tests/library_dem.c tests/library_requests.c "$library" || exit 1

# Adds one test: its name, and whether it passed.
add() {
    if [ "$2" = 0 ]; then
        passed=$((passed + 1))
    else
        failed=$((failed + 1))
        echo "FAILED $1"
    fi
}

# Runs both examples on the same words: the status and the line that are expected, and the words.
judge() {
    local status=$1 line=$2 how came out
    shift 2
    for how in C Python; do
        case $how in
            C) out=$("$scratch/judge" "$@" 2>&1) ;;
            Python) out=$("$examples/judge.py" "$scratch/libdrain.so" "$@" 2>&1) ;;
        esac
        came=$?
        [ "$came" = "$status" ] && [ "$out" = "$line" ]
        add "$* from $how: status $came for $status; $out" $?
    done
}

accepted='accepted rows=51 cols=51 data=2601 raised=59 outlets=10'
judge 0 "$accepted" audit 51 $sets/saga-counted $tile
judge 1 'rejected rule=13 Accumulation row=7 col=25' audit 51 $sets/saga-linear $tile
judge 1 'rejected rule=9 NotLeast row=29 col=5' audit 51 $sets/fill-dir $tile
judge 1 'rejected NoEnd row=0 col=0' audit 51 $sets/terraflow $tile
judge 0 'accepted rows=121 cols=121 data=14641 raised=690 outlets=32' check 121 samples/jacksboro samples/jacksboro/N36W085.hgt
judge 2 'refused BadSide' audit 0 $sets/saga-counted $tile
judge 2 'refused WrongShape con' audit 50 $sets/saga-counted $tile
judge 2 'refused BadName 0' audit 51 $sets/saga-counted $sets/README.md
judge 2 'refused RepeatedTile N36W085.hgt' audit 51 $sets/saga-counted $tile $tile

# A header that isn't one, and files without bytes.
cp -r $sets/saga-counted "$scratch/set"
echo 'NROWS many' >"$scratch/set/acc.hdr"
judge 2 'refused BadHeader acc BadValue 1' audit 51 "$scratch/set" $tile
cp $sets/saga-counted/acc.hdr "$scratch/set/acc.hdr"
: >"$scratch/set/bas.bil"
judge 2 'refused RasterShort bas' audit 51 "$scratch/set" $tile
: >"$scratch/N36W085.hgt"
judge 2 'refused BadTileLength N36W085.hgt' audit 51 "$scratch/set" "$scratch/N36W085.hgt"

# A stack of 64 KiB is enough.
(ulimit -s 64 && [ "$("$scratch/judge" audit 51 $sets/saga-counted $tile)" = "$accepted" ])
add 'an audit with a stack of 64 KiB' $?

# The library needs nothing but these names of the C library, and C++ reads the header.
if command -v nm >/dev/null; then
    needs=$(nm "$library" | awk '$1 == "U" { print $2 }' | grep -vx 'rattle_\(alloc\|realloc\|dealloc\)' | sort -u | xargs)
    [ "$needs" = 'free malloc memcpy memmove memset realloc' ]
    add "names that the library needs: $needs" $?
fi
if command -v c++ >/dev/null; then
    c++ -x c++ -fsyntax-only -Wall -Wextra -Werror - <<<'#include "crates/drain_c/include/drain.h"' -I .
    add 'the header in C++' $?
fi

# Runs a program of tests, whose last line counts them. One that fails without a failure in this line, or that runs
# nothing, is a failure.
add_all() {
    "$@" >"$scratch/out" 2>&1
    local status=$? last
    last=$(tail -n 1 "$scratch/out")
    sed '$d' "$scratch/out"
    if [[ $last =~ ([0-9]+)\ passed,\ ([0-9]+)\ failed$ ]]; then
        passed=$((passed + BASH_REMATCH[1]))
        failed=$((failed + BASH_REMATCH[2]))
        [ "${BASH_REMATCH[2]}" != 0 ] || { [ $status = 0 ] && [ "${BASH_REMATCH[1]}" != 0 ]; } && return
    fi
    echo "FAILED $1: status $status, $last"
    failed=$((failed + 1))
}

add_all "$scratch/library" 51 $sets/saga-counted $tile N36W085.hgt "$accepted"
add_all tests/library.py "$scratch/libdrain.so"
add_all tests/program/random_floats.py --library "$scratch/libdrain.so"

echo "$passed passed, $failed failed"
[ "$failed" -eq 0 ]
