#!/usr/bin/env bash
# Runs the built program on the command lines of table.txt, on standard streams that stay open, are closed, are full or fail, on inputs that are cut, and
# with each of its calls failing in turn, and compares what it prints and its exit status.
# The parts, scripts for part.sh and programs of their own, run side by side: as many as JOBS says, or as there are processors.
# Usage: tests/program/run.sh DRAIN
set -u
drain=$(realpath "$1")
here=$(cd "$(dirname "$0")" && pwd)
cd "$here/../.." || exit
at_once=${JOBS:-$(nproc)}
scratch=$(mktemp -d)
trap 'rm -rf "$scratch"' EXIT
passed=0
failed=0
parts=()

# Starts a part once fewer run than may: its name, and its command.
start() {
    while [ "$(jobs -rp | wc -l)" -ge "$at_once" ]; do wait -n; done
    parts+=("$1")
    {
        began=$SECONDS
        "${@:2}" >"$scratch/$1.out" 2>"$scratch/$1.err" </dev/null
        echo "$? $((SECONDS - began))" >"$scratch/$1.ended"
    } &
}

# Adds the runs of a part: it printed those that failed, and in its last line 'NAME: N passed, M failed'. One that failed
# without a failure in this line, or that ran nothing, is a failure.
add_runs() {
    local status=none seconds=0 last
    read -r status seconds <"$scratch/$1.ended"
    last=$(tail -n 1 "$scratch/$1.out")
    sed '$d' "$scratch/$1.out"
    cat "$scratch/$1.err"
    if [[ $last =~ ([0-9]+)\ passed,\ ([0-9]+)\ failed$ ]]; then
        echo "$1: ${BASH_REMATCH[0]}, $seconds s"
        passed=$((passed + BASH_REMATCH[1]))
        failed=$((failed + BASH_REMATCH[2]))
        [ "${BASH_REMATCH[2]}" != 0 ] || { [ "$status" = 0 ] && [ "${BASH_REMATCH[1]}" != 0 ]; } && return
    fi
    echo "FAILED $1: status $status, $last"
    failed=$((failed + 1))
}

# A static program is of the same proved code: it is spared the large inputs.
is_static() { command -v readelf >/dev/null && ! LC_ALL=C readelf -lW "$drain" | grep -qw INTERP; }

# The longest first. A library that is loaded before the C library's makes calls of the program fail, so a C compiler is
# needed. A static program loads no library.
compiler=$(dirname "$(readlink -f "$(command -v rt)")")/../toolchain/bin/clang
[ -x "$compiler" ] || compiler=$(command -v cc)
if is_static; then
    echo "a static program, which reads no LD_PRELOAD: none of its calls is made to fail (tests/program/faults.py is left out)"
elif [ -n "$compiler" ]; then
    "$compiler" -O2 -Wall -shared -fPIC -nostdlib -o "$scratch/fail_calls.so" "$here/../fail_calls.c" || exit 1
    start faults.py "$here/faults.py" "$drain" "$scratch/fail_calls.so"
else
    echo "no compiler of C: no call of the program is made to fail"
fi
is_static || {
    start sizes.py "$here/sizes.py" "$drain"
    start large.sh "$here/part.sh" large.sh "$drain"
}
for name in explain.py random_floats.py random_dems.py random_audits.py random_dem_windows.py random_spacings.py cut_inputs.py \
    worked_spacings.py worked_dems.py made_dems.py worked_lines.py; do
    start "$name" "$here/$name" "$drain"
done
for name in only make derive audit dem explain window links sinks check terrain streams table refusals headers slips help; do
    start "$name.sh" "$here/part.sh" "$name.sh" "$drain"
done
wait
# This part looks at the clock: no other runs beside it.
start progress.sh "$here/part.sh" progress.sh "$drain"
wait

for name in "${parts[@]}"; do add_runs "$name"; done
echo "$passed passed, $failed failed"
[ "$failed" -eq 0 ]
