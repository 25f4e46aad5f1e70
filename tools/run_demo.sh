#!/usr/bin/env bash
# Shows the demo: by the program where it is the one that was proved and built of the sources as they are, else by the sources, unproved.
# Usage: tools/run_demo.sh PROGRAM
set -euo pipefail
here=$(dirname "$0")
if "$here/is_proved.sh" "$1" 2>/dev/null; then
    echo "Proved: $1 was built of these very sources."
    exec "$here/demo.sh" "$1"
fi
exec "$here/demo.sh"
