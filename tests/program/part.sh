#!/usr/bin/env bash
# Runs one part of the program's runs, a script of this folder such as only.sh, in a scratch folder of its own. Prints the
# runs that failed, and how many passed and failed.
# Usage: tests/program/part.sh PART DRAIN
set -u
# The last command of a pipe runs in this shell, so that a comparison behind a pipe counts.
shopt -s lastpipe
here=$(cd "$(dirname "$0")" && pwd)
part=$here/$1
drain=$(realpath "$2")
cd "$here/../.." || exit
bash -n "$part" || exit 1
scratch=$(mktemp -d)
# A part that ends this shell fails, whatever its status.
counted=
trap 'rm -rf "$scratch"; [ -n "$counted" ] || { echo "FAILED: $part ended before all of it was run"; exit 1; }' EXIT
passed=0
failed=0

# Whether standard error has one line with the reason why a file can't be opened or written.
has_reason() { [ "$(wc -l <"$scratch/err")" = 1 ] && grep -q '^error: .*: .' "$scratch/err"; }

# Compares one run: its name, the expected status and standard output, the actual status, and whether standard error has to
# have text (words) or none (silent); beside a line of a file that can't be opened or written it has the reason, and beside
# that of a failed read or another shape it may have one. The run has left its streams in $scratch/out and $scratch/err.
judge() {
    local name=$1 status=$2 wanted=$3 came=$4 errors=${5:-silent} what=
    [ "$came" = "$status" ] || what+=" status $came for $status;"
    cmp -s "$wanted" "$scratch/out" || what+=" standard output: $(head -c 200 "$scratch/out");"
    local failure='^(\{"answer":")?failed (Open |WriteFailed)' other='^(\{"answer":")?(failed ReadFailed|refused WrongShape)'
    local first
    first=$(head -n 1 "$wanted" | tr -d '\0')
    [[ $errors = silent && $first =~ $failure ]] && errors=reason
    [[ $errors = silent && $first =~ $other && -s $scratch/err ]] && errors=reason
    case $errors in
        reason) has_reason || what+=" standard error: $(head -c 200 "$scratch/err") is no reason;" ;;
        silent) [ -s "$scratch/err" ] && what+=" standard error: $(head -c 200 "$scratch/err");" ;;
        words) [ -s "$scratch/err" ] || what+=" nothing on standard error;" ;;
    esac
    if [ -z "$what" ]; then
        passed=$((passed + 1))
    else
        failed=$((failed + 1))
        echo "FAILED $name:$what"
    fi
}

# The expected standard output: a file of expected/ for @NAME, nothing for -, else the one line.
want() {
    case $1 in
        @*) cp "$here/expected/${1#@}" "$scratch/want" ;;
        -) : >"$scratch/want" ;;
        *) printf '%s\n' "$1" >"$scratch/want" ;;
    esac
}

# How many seconds a run may take before it counts as one that hangs.
patience=300

# Compares one run of a command without input: its name, the expected status and line, and its arguments.
judge_words() {
    local name=$1 status=$2 line=$3
    shift 3
    want "$line"
    timeout "$patience" "$drain" "$@" </dev/null >"$scratch/out" 2>"$scratch/err"
    judge "$name" "$status" "$scratch/want" $?
}

. "$here/fixtures.sh"
. "$part"

echo "$passed passed, $failed failed"
counted=yes
[ "$failed" -eq 0 ]
