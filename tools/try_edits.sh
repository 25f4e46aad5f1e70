#!/usr/bin/env bash
# Tries every edit of the crates; the prover has to refuse each. First each is tried on the function that it changes, over
# the libraries that rt ci built; those that aren't refused there (a constant, say, which a law in another file holds) are
# tried on their whole crate. The gate tries some of them, on their function only. Run it on a changed crate before the
# change lands; it takes some ten processor seconds per edit.
# Usage: tools/try_edits.sh [CRATE...]    (default: all)
set -euo pipefail
top=$(cd "$(dirname "$0")/.." && pwd)
scratch=$(mktemp -d)
trap 'rm -rf "$scratch"' EXIT
"$top/tools/try_named_edits.py" --every "$scratch/left" "$@"
[ -s "$scratch/left" ] || exit 0
cp -a "$top/crates.txt" "$top/HANDLES" "$top/crates" "$scratch"
cd "$scratch"
while IFS=/ read -r crate name; do
    mkdir -p "crates/$crate/must-fail"
    sed '/^only: /d' "crates/$crate/more-edits/$name.edit" >"crates/$crate/must-fail/$name.edit"
done <left
rm -r crates/*/more-edits
# shellcheck disable=SC2046 # a crate's name is one word
rt must-fail $(cut -d/ -f1 left | sort -u)
