#!/usr/bin/env bash
# Prints the SHA-256 of all that a proof reads, crates.txt, HANDLES and each crate's src, specs and proofs, and of the header in include. The times of files play no part.
# Usage: tools/sources_sum.sh [FOLDER]    (a copy of the repository; this one where none is given)
set -euo pipefail
cd "${1:-$(dirname "$0")/..}"
shopt -s nullglob
find crates.txt HANDLES crates/*/src crates/*/specs crates/*/proofs crates/*/include -type f | LC_ALL=C sort | xargs -d '\n' sha256sum | sha256sum | cut -d ' ' -f 1
