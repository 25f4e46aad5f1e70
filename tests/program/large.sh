# Runs on large inputs, whose lines follow from their form (large_sets.py). Read by part.sh.

large=$scratch/large
patience=600

# Puts the inputs of this kind in place of those before.
make_large() {
    rm -rf "$large"
    "$here/large_sets.py" "$1" "$large" >"$scratch/out" 2>"$scratch/err"
    judge "large inputs: $1" 0 /dev/null $?
    large_tiles=("$large"/*.hgt)
}

# Compares runs of an audit and a check with one line: its name, the status and line, and the arguments.
judge_both() {
    judge_words "$1, audited" "$2" "$3" audit --products "$large/out" "${@:4}" "${large_tiles[@]}"
    judge_words "$1, checked" "$2" "$3" check --products "$large/out" "${@:4}" "${large_tiles[@]}"
}

# Products made of these inputs are those that are there: the name, the line, and the arguments.
judge_made() {
    mkdir "$large/made"
    judge_words "$1, made" 0 "$2" make --out "$large/made" "${@:3}" "${large_tiles[@]}"
    for name in $files; do
        judge_file "$1, made" "$large/made/$name" <"$large/out/$name"
    done
}

# Compares a run in some KiB of memory more than a check of a pit takes: its name, the KiB, status, line and words.
judge_within() {
    local name=$1 more=$2 status=$3
    want "$4"
    (ulimit -v $((pit_memory + more)) && exec "$drain" "${@:5}") </dev/null >"$scratch/out" 2>"$scratch/err"
    judge "$name" "$status" "$scratch/want" $?
}
pit_memory=2000
until (ulimit -v $pit_memory && exec "$drain" check --side 3 --products samples/pit-3 samples/pit-3/N00E000.hgt) >/dev/null 2>&1 || [ $pit_memory -ge 100000 ]; do
    pit_memory=$((pit_memory + 500))
done

# A funnel over twelve tiles: more than 2^24 cells drain through one. A check holds rows, an audit also a byte a cell.
make_large funnel
mkdir "$large/out"
judge_words 'products made of twelve tiles' 0 'made rows=3601 cols=4801' make --out "$large/out" "${large_tiles[@]}"
# The same with progress: a line for the part that is made, and all lines are those of docs/COMMANDS.md.
want 'made rows=3601 cols=4801'
"$drain" make --progress --out "$large/out" "${large_tiles[@]}" 2>"$scratch/lines" >"$scratch/out"
status=$?
: >"$scratch/err"
judge 'products made of twelve tiles, with progress' 0 "$scratch/want" $status
grep -vxE 'drain: ((reading|writing) row [0-9]+ of [0-9]+|making(, [1-4] of 4: (filled elevation|directions|basin labels|accumulation))?)' "$scratch/lines" >"$scratch/out"
grep -q 'of 4:' "$scratch/lines" || echo 'no part is named' >>"$scratch/out"
: >"$scratch/want"
judge 'lines of a maker of twelve tiles' 0 "$scratch/want" 0
dd if="$large/out/acc.bil" bs=4 skip=2400 count=1 status=none >"$scratch/out"
numbers_of_32_bits 17288401 >"$scratch/want"
judge 'the count at the outlet of twelve tiles' 0 "$scratch/want" 0
funnel_checked='accepted rows=3601 cols=4801 data=17288401 raised=0 outlets=1'
judge_within 'a check of twelve tiles in little memory' 2560 0 "$funnel_checked" check --products "$large/out" "${large_tiles[@]}"
judge_within 'an audit of twelve tiles in little memory' $((4096 + 17288401 / 1024)) 0 "$funnel_checked" audit --products "$large/out" "${large_tiles[@]}"

# A map of them, with a fault at its last cell alone, to which no other leads.
printf '\xff\xff\xff\xff' | dd of="$large/out/bas.bil" bs=4 seek=17288400 conv=notrunc status=none
judge_first_line 'an explanation of twelve tiles' 1 'rejected rule=14 Label row=3600 col=4800' --products "$large/out" --map "$large/faults.bil" "${large_tiles[@]}"
{ head -c 17288400 /dev/zero; printf '\x0e'; } | cmp - "$large/faults.bil" >"$scratch/out" 2>&1
judge 'a map of twelve tiles' 0 /dev/null $?

# A path of more than a million cells, and a ring.
make_large bends
judge_both 'a path of 1,437,602 cells' 0 'accepted rows=1201 cols=1201 data=1442401 raised=0 outlets=4800'
make_large ring
judge_words 'a ring of 1,436,402 cells, audited' 1 'rejected NoEnd row=1 col=1' audit --products "$large/out" "${large_tiles[@]}"
rm "$large"/out/rnk.*
judge_first_line 'a ring of 1,436,402 cells, explained' 1 'rejected NoEnd row=1 col=1' --products "$large/out" "${large_tiles[@]}"
want 'path without an end: from row 1, column 1 into a ring of 1436402 cells'
grep '^path' "$scratch/page" >"$scratch/out"
judge 'the length of a ring of 1,436,402 cells' 0 "$scratch/want" 0

# Some 150,000 outlets, with labels one after the other or scattered over 32 bits; and the last one's label again.
checkers_checked='accepted rows=449 cols=449 data=151425 raised=0 outlets=151425'
for kind in checkers scattered; do
    make_large $kind
    judge_both "151,425 outlets, $kind" 0 "$checkers_checked" --side 449
    [ $kind != checkers ] || judge_made '151,425 outlets' 'made rows=449 cols=449' --side 449
    dd if="$large/out/bas.bil" of="$large/first" bs=4 count=1 status=none
    dd if="$large/first" of="$large/out/bas.bil" bs=4 seek=201600 conv=notrunc status=none
    judge_both "the first label at the last of 151,425 outlets, $kind" 1 'rejected rule=15 SharedLabel row=448 col=448' --side 449
done
rm -rf "$large"
