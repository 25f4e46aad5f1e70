#!/usr/bin/env bash
# The best twins of `drain make` and `drain check` one after the other: products are made and written, and read again and tested by all rules.
# make.sh builds both twins, and times this as one program.
# Usage: bench/make_and_check.sh make --side N --out FOLDER TILE
set -euo pipefail
out=$(dirname "${BASH_SOURCE[0]}")/../build/bench
"$out/twin_make" "$@"
exec "$out/twin_check_loop" check --side "$3" --products "$5" "$6"
