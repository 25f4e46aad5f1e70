#!/usr/bin/env bash
# Proves and builds the program from nothing, and compares it with the one that a PROVED file names, and so the program for x86-64-v3, where the file names
# one. Ends with 0 where they are the same, to the byte; with 1 where one isn't, or where the file is of other sources than those here.
# Usage: tools/same.sh PROVED    (of a release or package, or build/drain.proved)
set -euo pipefail
[ $# -eq 1 ] && [ -n "$1" ] || {
    echo 'usage: tools/same.sh PROVED, or make same FILE=PROVED' >&2
    exit 2
}
proved=$1
top=$(cd "$(dirname "$0")/.." && pwd)
scratch=$(mktemp -d)
trap 'rm -rf "$scratch"' EXIT

# Prints the value of a key in a file of lines 'KEY  VALUE'.
value_of() { awk -v key="$1" '$1 == key { sub(/^[^ ]+ +/, ""); print }' "$2"; }

[ -f "$proved" ] || {
    echo "$proved is not there" >&2
    exit 2
}
sources=$(value_of sources "$proved")
sum=$(value_of program "$proved")
sum_v3=$(value_of v3 "$proved")
[[ $sources =~ ^[0-9a-f]{64}$ && $sum =~ ^[0-9a-f]{64}$ ]] || {
    echo "$proved has no line 'sources' or no line 'program' with a sum" >&2
    exit 2
}

other_sources() {
    echo "other sources: $proved has $sources, of commit $(value_of commit "$proved"); here are $1" >&2
    exit 1
}
here=$("$top/tools/sources_sum.sh")
[ "$here" = "$sources" ] || other_sources "$here"

# Nothing is taken that an earlier proof kept on this machine.
"$top/tools/build.py" --anew "$scratch/drain" ${sum_v3:+"$scratch/drain-v3"}
here=$(value_of sources "$scratch/drain.proved")
[ "$here" = "$sources" ] || other_sources "$here"

# Compares a program with a sum of the file, and says so.
# Usage: is_same PROGRAM SUM
is_same() {
    local built
    built=$(sha256sum <"$1" | cut -d ' ' -f 1)
    if [ "$built" = "$2" ]; then
        echo "the same bytes: $2"
        return
    fi
    echo 'not the same'
    echo "$proved: $2, by $(value_of kit "$proved")"
    echo "built here: $built, by $(value_of kit "$1.proved")"
    return 1
}
status=0
is_same "$scratch/drain" "$sum" || status=1
[ -z "$sum_v3" ] || is_same "$scratch/drain-v3" "$sum_v3" || status=1
exit $status
