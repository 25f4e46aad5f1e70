# What is made from the help: completions for bash, and the man page. Read by part.sh.

mkdir -p "$scratch/named" "$scratch/here/folder"
ln -s "$drain" "$scratch/named/drain"
: >"$scratch/here/file.bil"
tools/completions.py "$scratch/named/drain" >"$scratch/completions"

# Compares what completes the last of some words: the completions, then the words.
judge_completed() {
    want "$1"
    shift
    (
        . "$scratch/completions"
        cd "$scratch/here" || exit
        COMP_WORDS=("$@") COMP_CWORD=$(($# - 1))
        _drain
        printf '%s\n' "${COMPREPLY[*]}"
    ) >"$scratch/out" 2>"$scratch/err"
    judge "completed: $*" 0 "$scratch/want" $?
}
judge_completed 'audit' drain a
judge_completed 'merge make' drain m
judge_completed '--version' drain --v
judge_completed '--products --progress' drain audit --pro
judge_completed '--json' drain check --j
judge_completed '' drain make --j
judge_completed 'folder' drain audit --products f
judge_completed 'file.bil folder' drain audit --dem f
judge_completed 'file.bil folder' drain audit f
judge_completed '' drain audit --side f

# The lines of a section of the man page.
section() { tools/man_page.py "$scratch/named/drain" | sed -n "/^.SH \"$1\"/,/^.fi/p" | grep -v '^\.'; }
printf '  %s\n' '0  accepted, made or derived; or printed' '1  rejected: the rasters break a rule' \
    "2  refused: the input can't be used; or a usage error" "3  failed: a file can't be read or written, or memory ran out" >"$scratch/want"
section 'EXIT STATUS' >"$scratch/out" 2>"$scratch/err"
judge 'statuses on the man page' 0 "$scratch/want" 0
section EXAMPLES | head -n 1 >"$scratch/out" 2>"$scratch/err"
want '  drain audit \-\-dem dem.bil \-\-products rasters'
judge 'examples on the man page' 0 "$scratch/want" 0
