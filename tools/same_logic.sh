#!/usr/bin/env bash
# Ends with 0 where the logic that a program's version names is that of the toolchain here, whichever kit it comes in; else says both.
# Usage: tools/same_logic.sh PROGRAM
set -euo pipefail
program=$("$1" --version | sed -n 's/^logic //p')
toolchain=$(rt version | sed -n 's/.*logic //p')
[ -n "$program" ] && [ "$program" = "$toolchain" ] || {
    echo "the program names the logic '$program', and the toolchain here has '$toolchain'" >&2
    exit 1
}
