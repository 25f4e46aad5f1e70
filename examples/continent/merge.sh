#!/bin/sh
# Makes the reports of groups that have none (merge.py), and prints the verdict on the union with the status of the last
# `drain merge`. On standard error it names windows of the plan that have no answer yet, and what was refused. If a file
# changed after a window was judged from it, it names the file, and the status is 3.
# Usage: merge.sh [GROUP..]     with names of groups in OUT/merges.txt it makes their reports alone; the environment is
# that of job.sh
set -u
for word in "${DRAIN:-}" "${RASTERS:-}" "${OUT:-}"; do
    [ -n "$word" ] || { echo 'DRAIN, RASTERS or OUT is missing' >&2; exit 3; }
done
for plan in windows merges; do
    [ -s "$OUT/$plan.txt" ] || { echo "there is no plan $OUT/$plan.txt" >&2; exit 3; }
done
exec "$(dirname "$0")/merge.py" "$@"
