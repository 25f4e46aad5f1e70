#!/usr/bin/env bash
# Writes PROGRAM.proved, which says what a program was proved and built from. The commit is '-' where there is none that has these sources.
# Usage: tools/record_proof.sh PROGRAM SOURCES [CPU]
#     SOURCES    what tools/sources_sum.sh printed of the sources that were proved
#     CPU        the processor that the program was built for, if it isn't the toolchain's usual one
set -euo pipefail
program=$1
top=$(cd "$(dirname "$0")/.." && pwd)
commit=-
if git -C "$top" rev-parse -q --verify HEAD >/dev/null 2>&1 && [ "$("$top/tools/sources_sum.sh")" = "$2" ]; then
    commit=$(git -C "$top" rev-parse HEAD)
    [ -z "$(git -C "$top" status --porcelain -- crates crates.txt HANDLES)" ] || commit+=-changed
fi
{
    echo "commit   $commit"
    echo "sources  $2"
    echo "kit      $(rt version)"
    echo "program  $(sha256sum <"$program" | cut -d ' ' -f 1)"
    [ $# -lt 3 ] || echo "cpu      $3"
} >"$program.proved.new"
mv "$program.proved.new" "$program.proved"
