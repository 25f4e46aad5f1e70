# Outputs of each command behind links, on the pit: the file that a link leads to gets the new bytes and no others, whether
# it was longer, or wasn't there; and it stays if another output can't be opened. Read by part.sh.

behind=$check/behind
judged=(--side 3 --products "$check/out")

# The pit, and the links of a command's outputs in its folder.
make_links() {
    local name
    make_pit
    mkdir "$check/new" "$behind"
    for name in "$@"; do ln -s "../behind/$name" "$check/new/$name"; done
}

# The same, each to a file of 5,000 bytes.
make_links_to_files() {
    local name
    make_links "$@"
    for name in "$@"; do yes 'of before' | head -c 5000 >"$behind/$name"; done
}

# The bytes of an output: of the pit's products, of a map without a fault, of a report where nothing was before.
output() {
    case $1 in
        faults.hdr) cat samples/pit-3/dir.hdr ;;
        faults.bil) numbers 1 0 0 0 0 0 0 0 0 0 ;;
        report.txt) cat "$scratch/report" ;;
        *) pit_file "$1" ;;
    esac
}

# Compares the files behind links of these names after a run: its name, the names.
judge_behind() {
    local name what=$1
    shift
    for name; do
        output "$name" | judge_file "$what" "$behind/$name"
        readlink "$check/new/$name" >"$scratch/out"
        want "../behind/$name"
        judge "$what: the link $name" 0 "$scratch/want" 0
    done
    judge_folder "$what: files" "$behind" "$@"
    judge_folder "$what: links" "$check/new" "$@"
}

# Runs a command on links: its line, its name and arguments, two dashes, and the names of its outputs.
judge_links() {
    local line=$1 command=() name
    shift
    while [ "$1" != -- ]; do command+=("$1") && shift; done
    shift
    make_links_to_files "$@"
    judge_words "links to longer files: ${command[0]}" 0 "$line" "${command[@]}" "$tile"
    judge_behind "links to longer files: ${command[0]}" "$@"
    make_links "$@"
    judge_words "links to nothing: ${command[0]}" 0 "$line" "${command[@]}" "$tile"
    judge_behind "links to nothing: ${command[0]}" "$@"
    [ $# -gt 1 ] || return 0

    # A folder in place of the last output: nothing was emptied yet.
    make_links_to_files "$@"
    rm "$check/new/${*: -1}"
    mkdir "$check/new/${*: -1}"
    judge_words "links and a folder: ${command[0]}" 3 "failed Open $check/new/${*: -1}" "${command[@]}" "$tile"
    for name; do yes 'of before' | head -c 5000 | judge_file "links and a folder: ${command[0]}" "$behind/$name"; done
}

make_pit
window=(window --box 0,0,3,3 "${judged[@]}" --report)
judge_words 'a report where nothing was' 0 "$pit_checked" "${window[@]}" "$scratch/report" "$tile"
judge_links "$pit_made" make --side 3 --out "$check/new" -- $files
judge_links 'derived rows=3 cols=3' derive "${judged[@]}" --out "$check/new" -- {acc,bas,rnk}.{hdr,bil}
judge_links "$pit_checked" "${window[@]}" "$check/new/report.txt" -- report.txt
page="$pit_checked

slopes: square cells
hold: 1 VoidCell, 2 Missing, 3 BadCode, 4 BelowGround, 5 OpenRaised, 9 NotLeast, 10 Slope, 11 OutletCode, 12 FlatStep, \
13 Accumulation, 14 Label, 15 SharedLabel
not tried: 6 NoSpill, 7 SpillHeight, 8 SpillRank"
judge_links "$page" explain "${judged[@]}" --map "$check/new/faults.bil" -- faults.hdr faults.bil
