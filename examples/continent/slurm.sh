#!/bin/sh
# Judges windows as tasks of a Slurm array, or makes the reports of groups of one level: of N tasks each takes every N-th.
# Send it again after an interruption; what has an answer is passed over. The environment is that of job.sh.
#   for level in 0 1 2; do
#       sbatch --wait --array=1-16 --mem=1G --requeue --export=ALL,HERE=$PWD/examples/continent examples/continent/slurm.sh $level
#   done
# Usage: slurm.sh [LEVEL]     0, the default, for windows; 1 and so on as in OUT/merges.txt, without the last one
#SBATCH --ntasks=1 --cpus-per-task=1
set -u
failed=0
n=$SLURM_ARRAY_TASK_COUNT level=${1:-0}
# Only tasks without a gap take each window once.
[ $((SLURM_ARRAY_TASK_MAX - SLURM_ARRAY_TASK_MIN + 1)) = "$n" ] || { echo 'send the whole array' >&2; exit 3; }
case $level in
0) script=job.sh plan=windows.txt pick='{ print }' ;;
*) script=merge.sh plan=merges.txt pick='$2 == level && $1 != "union" { print $1 }' ;;
esac
lines=$(awk -v level="$level" "$pick" "$OUT/$plan") || exit 3
while read -r words; do
    # shellcheck disable=SC2086
    [ -z "$words" ] || "$HERE/$script" $words </dev/null || failed=3
done <<END
$(printf '%s\n' "$lines" | awk -v n="$n" -v k="$SLURM_ARRAY_TASK_ID" 'NR % n == k % n')
END
exit $failed
