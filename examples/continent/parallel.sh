#!/bin/sh
# Judges all windows by GNU parallel, makes the reports of groups, and prints the verdict.
# Usage: parallel.sh JOBS     at most this many windows or groups at a time; the environment is that of job.sh
set -u
here=$(dirname "$0")
parallel --will-cite --jobs "$1" --colsep ' ' --retries 2 -q "$here/job.sh" :::: "$OUT/windows.txt" || exit 3
for level in $(sed '$d' "$OUT/merges.txt" | cut -d ' ' -f 2 | sort -nu); do
    awk -v level="$level" '$2 == level { print $1 }' "$OUT/merges.txt" |
        parallel --will-cite --jobs "$1" --retries 2 -q "$here/merge.sh" || exit 3
done
exec "$here/merge.sh"
