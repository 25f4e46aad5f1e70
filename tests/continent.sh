#!/usr/bin/env bash
# Runs the tests of examples/continent (tests/continent) with a program `drain`: the plan, cut rasters, jobs and engines, and verdicts on a
# union by its windows, and by merges of merges, beside audits of the whole. It needs Debian's /usr/bin/python3 with GDAL and numpy, and fails where they are missing;
# with WITHOUT_COMPANION=1 it then prints that the tests of cut rasters were left out. GNU parallel and snakemake are tried if they are there.
# Usage: tests/continent.sh DRAIN
set -u
DRAIN=$(realpath "$1")
export DRAIN PYTHONDONTWRITEBYTECODE=1 PYTHONUNBUFFERED=1
tests=$(cd "$(dirname "$0")" && pwd)/continent
python=/usr/bin/python3

modules=(test_plan test_merges test_jobs test_changes test_dem test_trees test_verdicts test_reports test_sinks)
if "$python" -c 'import numpy, osgeo.gdal' 2>/dev/null; then
    modules+=(test_cut)
elif [ "${WITHOUT_COMPANION:-}" = 1 ]; then
    echo 'the tests of cut rasters were left out: python3-gdal or python3-numpy is missing'
else
    echo 'the tests of cut rasters need python3-gdal and python3-numpy (or WITHOUT_COMPANION=1 leaves them out)'
    exit 1
fi

# Modules run side by side, as many as JOBS says, or as there are processors. A report ends with how many tests ran, and how many failed; one
# that has no test fails.
at_once=${JOBS:-$(nproc)}
scratch=$(mktemp -d)
trap 'rm -rf "$scratch"' EXIT
for module in "${modules[@]}"; do
    while [ "$(jobs -rp | wc -l)" -ge "$at_once" ]; do wait -n; done
    {
        (cd "$tests" && "$python" -m unittest "$module") >"$scratch/$module" 2>&1
        echo $? >"$scratch/$module.status"
    } &
done
wait

passed=0
failed=0
for module in "${modules[@]}"; do
    ran=$(sed -nE 's/^Ran ([0-9]+) tests? in .*/\1/p' "$scratch/$module" | tail -n 1)
    ran=${ran:-0} bad=0
    if [ "$(cat "$scratch/$module.status")" != 0 ] || [ "$ran" = 0 ]; then
        bad=$(sed -n '/^FAILED (/h; $ { x; p }' "$scratch/$module" | grep -oE '(failures|errors)=[0-9]+' | awk -F= '{ n += $2 } END { print n + 0 }')
        [ "$bad" -gt 0 ] || bad=1
        echo "FAILED $module"
        cat "$scratch/$module"
    fi
    passed=$((passed + (ran > bad ? ran - bad : 0)))
    failed=$((failed + bad))
done
echo "$passed passed, $failed failed"
[ "$failed" -eq 0 ]
