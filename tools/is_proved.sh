#!/usr/bin/env bash
# Ends with 0 where PROGRAM is what was proved and built of the sources as they are: PROGRAM.proved has the sums of both. Else it says why not, and ends with 1.
# Usage: tools/is_proved.sh PROGRAM
set -euo pipefail
program=$1
here=$(dirname "$0")

refuse() {
    echo "$program $1: run make" >&2
    exit 1
}

[ -f "$program" ] || refuse 'is not built'
[ -f "$program.proved" ] || refuse 'has no record of a proof'
recorded() { awk -v key="$1" '$1 == key { print $2 }' "$program.proved"; }
[ "$(recorded sources)" = "$("$here/sources_sum.sh")" ] || refuse 'was built from other sources'
[ "$(recorded program)" = "$(sha256sum <"$program" | cut -d ' ' -f 1)" ] || refuse 'is not the program that was built'
