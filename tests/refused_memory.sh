#!/usr/bin/env bash
# Refuses each allocation of each test of a crate: alone; if the test still passes, as one allocation may be tried again,
# together with the next; and together with every later one. A test that doesn't pass must report that memory ran out, and
# nothing else: by its error, or by the left side of an assertion. A test may pass only if an allocation is refused alone,
# with two exceptions. Those of seams_without_memory.txt may if their last one is refused: it is room for a mosaic whose
# tiles differ, and a seam is found without the room. Those of the crates that scan rows may, since rows can do without
# lanes, and labels of outlets without words for the lowest: only some of them have to report that memory ran out. A test
# .._after_refused_memory checks that its first call reports it, and then calls again: it has to pass each time. The tests
# are those that `rt ci` or `rt test` left in out/; tests/refuse_memory.c refuses.
# Usage: tests/refused_memory.sh CRATE...
set -u
[ $# -gt 0 ] || { echo "usage: $0 CRATE..." >&2; exit 2; }
top=$(cd "$(dirname "$0")/.." && pwd)
compiler=$(dirname "$(readlink -f "$(command -v rt)")")/../toolchain/bin/clang
[ -x "$compiler" ] || compiler=cc
scratch=$(mktemp -d)
trap 'rm -rf "$scratch"' EXIT
ulimit -c 0
"$compiler" -O2 -Wall -shared -fPIC -nostdlib -o "$scratch/refuse_memory.so" "$top/tests/refuse_memory.c" || exit 1

# Checks what the runs of a crate's tests wrote: a line '== test NAME', the output of each copy with a line on how it
# ended, as waitpid has it, and a line '== ended STATUS'.
judge() {
    awk -v crate="$1" '
        FNR == NR { if ($1 == crate) tells_a_seam[$2] = 1; next }
        function fails(why) {
            failed++
            if (!shown[test]++) printf "FAILED %s: %s: %s\n%s", crate, test, why, text
        }
        function forget() { told = 0; text = "" }
        BEGIN { goes_by_lanes = crate ~ /^(rules|verdict|union|maker|cli)_tests$/ }
        /^== test / { test = $3; tests++; forget(); next }
        /^== ended / {
            if ($3 != 0) fails("its own run ended with status " $3)
            else if (test ~ /_after_refused_memory$/ && !again[test]) fails("nothing was refused")
            forget()
            next
        }
        /^refused [0-9]+ (alone|and the next|and later): -?[0-9]+$/ {
            way = $3 == "alone:" ? "alone" : $4 == "later:" ? "with every later one" : "with the next"
            refused[way]++
            what = "allocation " $2 " refused " way
            if (test ~ /_after_refused_memory$/) {
                if ($NF != 0) fails(what ", it does not pass")
                called_again++
                again[test]++
                forget()
                next
            }
            if ($NF == 0 && way != "alone" && goes_by_lanes) without_lanes++
            else if ($NF == 0 && way != "alone" && !(test in tells_a_seam && !seams[test, way]++)) fails(what ", it passes")
            else if ($NF == 0 && way == "alone") passed++
            else if ($NF == 0) told_seams++
            else if ($NF == 14) fails(what ", it does not end")
            else if ($NF != 101 * 256 && $NF != 6) fails(what ", it crashes, with status " $NF)
            else if (!told) fails(what ", it does not report that memory ran out")
            else wants++
            forget()
            next
        }
        /^(error| *left): .*(OutOfMemory|AllocError|AllocFailed)/ { told = 1 }
        # Without memory for lanes they clear no cell and find no outlet, which is what these tests check.
        /^ *left: Kept / && test ~ /^(con_alone|kept_runs|rows_of_bytes|spaced_rows)::/ { told = 1 }
        /^ *left: false$/ && test == "kept_runs::outlets_beside_a_void" { told = 1 }
        NF { text = text "    " $0 "\n" }
        END {
            test = "its tests"
            forget()
            if (!refused["alone"]) fails("no allocation was refused")
            if (!wants) fails("none tells of want of memory")
            if (failed) { printf "FAILED %s: %d\n", crate, failed; exit 1 }
            printf "%s: in %d tests %d allocations refused alone, %d with the next, %d with every later one; ", crate, tests, \
                refused["alone"], refused["with the next"], refused["with every later one"]
            print "each time " (passed ? "but " passed " of the first, where the test passed, " : "") \
                (told_seams ? "and " told_seams " whose answer is a seam, " : "") \
                (without_lanes ? "and " without_lanes " that passed without lanes, " : "") "it was told" \
                (called_again ? "; " called_again " times the calls after it gave their answer" : "")
        }
    ' "$top/tests/seams_without_memory.txt" -
}

refuse() {
    local crate=$1 program=$top/crates/$1/out/$1_tests tests each
    if [ ! -x "$program" ] || [ -n "$(find "$top/crates/$crate/src" -newer "$program" -print -quit)" ]; then
        echo "FAILED $crate: its tests are not built, or older than its files: run rt test in crates/$crate, or make test"
        return 1
    fi
    tests=$("$program" --list | sed -n 's/: test$//p')
    for each in $tests; do
        echo "== test $each"
        LD_PRELOAD=$scratch/refuse_memory.so "$program" "$each" 2>&1 </dev/null
        echo "== ended $?"
    done 2>/dev/null | judge "$crate"
}

# Crates run side by side, as many as JOBS says, or as there are processors.
at_once=${JOBS:-$(nproc)}
for each in "$@"; do
    while [ "$(jobs -rp | wc -l)" -ge "$at_once" ]; do wait -n; done
    { refuse "$each" && : >"$scratch/$each.passed"; } &
done
wait
failed=0
for each in "$@"; do
    [ -e "$scratch/$each.passed" ] || failed=1
done
[ "$failed" != 0 ] || echo "ok: no test hides that memory ran out"
exit "$failed"
