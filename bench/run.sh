#!/usr/bin/env bash
# Measures the program; what is compared, and beside what, stands at the head of each file. It exits with 1 where lines or files differ; times never make it
# fail. Without names all are measured.
# Usage: bench/run.sh DRAIN [check|lists|fill|explain|memory|make|floats|hard|sinks].. [SIDE, of sinks alone]
set -euo pipefail
drain=$(realpath "$1")
shift
bench=$(cd "$(dirname "${BASH_SOURCE[0]}")" && pwd)
top=$(dirname "$bench")
out=$top/build/bench
mkdir -p "$out"

# Builds programs of bench/NAME.rs.
build() {
    local name
    for name; do rustc --edition 2024 -O -C target-cpu=x86-64-v2 -o "$out/$name" "$bench/$name.rs"; done
}

# A command as a program of its own in $scratch, so that it can be measured beside others.
# Usage: command_as NAME WORD...
command_as() {
    printf '#!/bin/sh\nexec' >"$scratch/$1"
    printf ' %q' "$drain" "${@:2}" >>"$scratch/$1"
    chmod +x "$scratch/$1"
}

load() { cut -d ' ' -f 1 /proc/loadavg; }

# Runs one of the files, which has a scratch folder of its own and says by `differ` whether something differed.
measure_one() (
    scratch=$(mktemp -d)
    trap 'rm -rf "$scratch"' EXIT
    differ=0
    . "$bench/$1.sh"
    exit "$differ"
)

[ $# -gt 0 ] || set -- check lists fill explain memory make floats hard sinks
status=0
for name; do
    echo "== $name"
    measure_one "$name" || status=1
done
exit "$status"
