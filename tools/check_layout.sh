#!/usr/bin/env bash
# Says which sources are not in the layout that `rt fmt` gives. rt ci says so too, but of a crate only once all below it are proved.
# Usage: tools/check_layout.sh
set -euo pipefail
cd "$(dirname "$0")/.."
rattle=$(dirname "$(readlink -f "$(command -v rt)")")/rattle
find crates -name out -prune -o \( -name '*.rt' -o -name '*.antt' \) -print0 | xargs -0 "$rattle" fmt --check
