#!/usr/bin/env bash
# Runs the companion's tests (companion/tests) by pytest with a program `drain`; those marked `large` are left out (make
# large). More words are passed on to pytest.
# It needs Debian's /usr/bin/python3 with the packages below, and fails where they are missing; with WITHOUT_COMPANION=1 it then prints
# that the tests were left out.
# Usage: tests/companion.sh DRAIN [WORD..]
set -u
DRAIN=$(realpath "$1")
shift
export DRAIN PYTHONDONTWRITEBYTECODE=1
companion=$(cd "$(dirname "$0")/.." && pwd)/companion
python=/usr/bin/python3

missing=
for package in click hypothesis jinja2 matplotlib numpy pytest rasterio rioxarray scipy skimage tqdm xarray; do
    "$python" -c "import $package" 2>/dev/null || missing+=" python3-$package"
done
if [ -n "$missing" ]; then
    if [ "${WITHOUT_COMPANION:-}" = 1 ]; then
        echo "the companion's tests were left out: missing packages:$missing"
        exit 0
    fi
    echo "the companion's tests need these packages: apt-get install$missing (or WITHOUT_COMPANION=1 leaves the tests out)"
    exit 1
fi

# pytest ends with a line such as '2 failed, 540 passed, 1 skipped in 30.00s'. Two halves run side by side.
scratch=$(mktemp -d)
trap 'rm -rf "$scratch"' EXIT
export HYPOTHESIS_STORAGE_DIRECTORY=$scratch/hypothesis
cd "$companion" || exit 1
modules=(tests/test_*.py)
half=$(((${#modules[@]} + 1) / 2))
run() { "$python" -m pytest -q -p no:cacheprovider --continue-on-collection-errors --basetemp "$scratch/$1.files" "${@:2}" >"$scratch/$1" 2>&1; }
run one "${modules[@]:0:half}" "$@" &
run two "${modules[@]:half}" "$@" &
wait

passed=0
failed=0
for report in "$scratch"/one "$scratch"/two; do
    last=$(tail -n 1 "$report")
    [[ $last =~ ([0-9]+)\ passed ]] && passed=$((passed + BASH_REMATCH[1]))
    bad=0
    for word in failed error; do [[ $last =~ ([0-9]+)\ $word ]] && bad=$((bad + BASH_REMATCH[1])); done
    if ! [[ $last =~ passed ]] && [ "$bad" = 0 ]; then bad=1; fi
    [ "$bad" = 0 ] || cat "$report"
    failed=$((failed + bad))
done
echo "$passed passed, $failed failed"
[ "$failed" -eq 0 ]
