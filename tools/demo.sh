#!/usr/bin/env bash
# Runs the commands of demo.txt on the bundled samples, and shows each with its answer. Ends with 1 where an answer differs from the file's.
# With a program, that one runs; without, in an unpacked release bin/drain. Elsewhere the sources run as they are, unproved, by the toolchain's checked
# runner: it builds them first.
# Usage: tools/demo.sh [PROGRAM]
set -euo pipefail
here=$(cd "$(dirname "$0")" && pwd)
top=$(dirname "$here")
program=${1:+$(realpath "$1")}
[ -n "$program" ] || [ ! -x "$top/bin/drain" ] || program=$top/bin/drain
scratch=$(mktemp -d)
trap 'rm -rf "$scratch"' EXIT
mkdir "$scratch/work" "$scratch/cases"
ln -s "$top/samples" "$scratch/work/samples"
cd "$scratch/work"
status=0

# Calls the function $1 for each command of demo.txt, with what the file says of it in about, words, input, expected, change and is_built.
each_command() {
    local line number=0
    about= words= input= expected= change= is_built=
    while IFS= read -r line || [ -n "$line" ]; do
        case $line in
            about:*) about=${line#about: } ;;
            run:*) words=${line#run: } ;;
            input:*) input=${line#input: } ;;
            prints:*) expected=${line#prints: } ;;
            prints-file:*) expected=$(cat "${line#prints-file: }") ;;
            change:*) change=${line#change: } ;;
            built) is_built=yes ;;
            '')
                if [ -n "$words" ]; then
                    number=$((number + 1))
                    name=$(printf '%02d' "$number")
                    "$1"
                fi
                about= words= input= expected= change= is_built=
                ;;
        esac
    done < <(cat "$here/demo.txt" && echo)
}

# Shows one command with its answer, which is compared with the file's.
show() {
    printf '\n# %s\n$ drain %s%s\n%s\n' "$about" "$words" "${input:+ < $input}" "$1"
    if [ "$1" != "$expected" ]; then
        echo "EXPECTED: $expected"
        status=1
    fi
}

run_built() {
    local answer file at byte
    if [ -n "$change" ]; then
        read -r file at byte <<<"$change"
        printf "\\x$byte" | dd of="$file" bs=1 seek="$at" conv=notrunc status=none
    fi
    case $words in make*) mkdir -p rasters ;; esac
    answer=$("$program" $words <"${input:-/dev/null}") || true
    show "$answer"
}

# Writes a command as a case of `rt try`: its standard input, and its arguments line by line.
write_case() {
    [ -z "$is_built" ] || return 0
    cat "${input:-/dev/null}" >"$scratch/cases/$name"
    tr ' ' '\n' <<<"$words" >"$scratch/cases/$name.args"
}

show_case() {
    [ -z "$is_built" ] || return 0
    show "$(awk -v case="== $name" '/^(== |case=)/ { found = ($0 == case); next } found' "$scratch/answers")"
}

# Runs the cases in one build. Standard error has the reason where the sources can't be built.
run_cases() {
    local data=() file
    while IFS= read -r file; do
        data+=(--data "$file=$top/$file")
    done < <(cd "$top" && find samples/other-tools samples/jacksboro samples/headers -type f)
    (cd "$top/crates/drain" && exec rt try --steps 1 --seconds 60 "${data[@]}" --cases "$scratch/cases") >"$scratch/answers" 2>"$scratch/errors" </dev/null
}

# Says on a terminal how long the command in the background has run.
show_seconds() {
    local started=$SECONDS
    while kill -0 "$1" 2>/dev/null; do
        [ ! -t 1 ] || printf '\r\033[Kbuilding and running: %d s' $((SECONDS - started))
        sleep 1
    done
    [ ! -t 1 ] || printf '\r\033[K'
    wait "$1"
}

if [ -n "$program" ]; then
    each_command run_built
    exit $status
fi

command -v rt >/dev/null || {
    echo 'drain is built by the Rattle toolchain: put its command rt on the PATH' >&2
    exit 1
}
echo 'Not proved: these sources are built and run with checks, in a minute or two. `make` proves them and builds the program.'
each_command write_case
run_cases &
show_seconds $! || {
    cat "$scratch/errors" "$scratch/answers" >&2
    exit 1
}
each_command show_case
exit $status
