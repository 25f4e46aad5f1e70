# Runs of `drain window` and `drain merge` on the pit and a list of sinks: a report over an input, by any way to it, and
# inputs that stay; and on the bundled raster of elevations. Read by part.sh.

window=(window --side 3 --box 0,0,3,3 --products "$check/out" --sinks "$check/sinks.txt")
inputs="N00E000.hgt $(echo out/{con,dir,acc,bas}.{hdr,bil}) sinks.txt"

# The pit without ranks, a list of sinks that has a border cell, and a copy of all.
make_listed() {
    make_bare
    echo '0 0' >"$check/sinks.txt"
    rm -rf "$scratch/before"
    cp -r "$check" "$scratch/before"
}

# Compares the inputs with the copy.
judge_inputs() {
    local input
    for input in $inputs; do
        judge_file "$1: $input" "$check/$input" <"$scratch/before/$input"
    done
}

for input in $inputs; do
    for how in 'ln -s' ln path; do
        make_listed
        report=$check/report.txt
        case $how in path) report=$check/out/../$input ;; *) $how "$check/$input" "$report" ;; esac
        want -
        timeout "$patience" "$drain" "${window[@]}" --report "$report" "$tile" </dev/null >"$scratch/out" 2>"$scratch/err"
        judge "$how: a report over $input" 2 "$scratch/want" $? words
        judge_inputs "$how: a report over $input"
        judge_folder "$how: names after a report over $input" "$check" N00E000.hgt out sinks.txt $([ "$how" = path ] || echo report.txt)
    done
done

# A merge only reads its reports and its list; a report may replace an older one.
make_listed
for time in first second; do
    judge_words "a report, the $time time" 0 "$pit_checked" "${window[@]}" --report "$check/report.txt" "$tile"
    cp "$check/report.txt" "$scratch/report-$time"
    printf 'of before\n%.0s' {1..500} >>"$check/report.txt"
done
judge_file 'a report over a longer one' "$scratch/report-second" <"$scratch/report-first"
cp "$scratch/report-first" "$check/report.txt"
judge_words 'a merge' 0 "$pit_checked" merge --sinks "$check/sinks.txt" "$check/report.txt"
judge_words 'a merge with a report for its list' 2 'refused BadSinkLine 1' merge --sinks "$check/report.txt" "$check/report.txt"
judge_words 'a merge with a list for a report' 2 'refused BadReport 0 WrongVersion' merge --sinks "$check/sinks.txt" "$check/sinks.txt"
judge_inputs 'after merges'
judge_file 'after merges' "$check/report.txt" <"$scratch/report-first"
judge_folder 'names after merges' "$check" N00E000.hgt out sinks.txt report.txt

# The valley as a part of a larger raster, in two windows.
valley=samples/valley
of_valley() {
    local name=$1 line=$2 box=$3 inner=$4 at=${5-7,100000}
    judge_words "the $name of the valley, $at" 0 "$line" window --dem "$valley/dem.bil" --at "$at" --products "$valley/right" \
        --sinks "$valley/sinks.txt" --box "$box" --inner "$inner" --report "$scratch/$name.txt"
}
of_west() { of_valley west 'accepted rows=40 cols=20 data=760 raised=11 outlets=2' 0,0,40,20 e "$@"; }
of_east() { of_valley east 'accepted rows=40 cols=38 data=1429 raised=59 outlets=1' 0,18,40,38 w "$@"; }
merged=("$scratch/west.txt" "$scratch/east.txt")
of_west
head -n 3 "$scratch/west.txt" >"$scratch/out"
want 'drain-window-report 4
dem 7 100000 431012 500000000000000 5271987 500000000000000 25 0 25 0
window 7 100000 40 20 0 0 0 1'
judge 'the head of a report on the valley' 0 "$scratch/want" 0
of_east
judge_words 'the valley by windows' 0 'accepted rows=40 cols=56 data=2189 raised=70 outlets=3' merge --sinks "$valley/sinks.txt" "${merged[@]}"
echo '37 13' >"$scratch/sinks.txt"
judge_words 'the valley by windows, a list in other rows' 2 'refused SinkLeftOut 1' merge --sinks "$scratch/sinks.txt" "${merged[@]}"

# A merge of merges: the report of the box of windows takes their place. That of one window is its own, and one of all has no
# seams. Nothing is written where it is refused, over a report, or where the device takes no byte.
whole='accepted rows=40 cols=56 data=2189 raised=70 outlets=3'
judge_words 'the report of one window' 0 'accepted rows=40 cols=20 data=760 raised=11 outlets=2' merge --report "$scratch/again.txt" "$scratch/west.txt"
judge_file 'the report of one window' "$scratch/again.txt" <"$scratch/west.txt"
judge_words 'the report of a box' 0 "$whole" merge --report "$scratch/both.txt" "$scratch/again.txt" "$scratch/east.txt"
grep -v '^outlet ' "$scratch/both.txt" >"$scratch/out"
want "drain-window-report 4
dem 7 100000 431012 500000000000000 5271987 500000000000000 25 0 25 0
window 7 100000 40 56 0 0 0 0
$(sed -n 's/^nodata/&/p' "$scratch/west.txt")
accepted 40 56 2189 70 3
tiles 0
sinks 1
sink 37 100013
outlets 3
seams 0
end"
judge 'the report of a box but for its outlets' 0 "$scratch/want" 0
judge_words 'a merge of it' 0 "$whole" merge --sinks "$valley/sinks.txt" "$scratch/both.txt"
judge_words 'a box and a window of it' 2 'refused Overlap 0 1' merge --report "$scratch/out.txt" "$scratch/both.txt" "$scratch/east.txt"
cp "$scratch/both.txt" "$scratch/before.txt"
judge_words 'a refused box over a report' 2 'refused Overlap 0 1' merge --report "$scratch/both.txt" "$scratch/east.txt" "$scratch/east.txt"
judge_file 'after a refused box' "$scratch/both.txt" <"$scratch/before.txt"
want -
ls "$scratch" | grep -x out.txt >"$scratch/out" 2>"$scratch/err"
judge 'no report of a refused box' 0 "$scratch/want" 0
judge_words 'a box over no room' 3 'failed WriteFailed' merge --report /dev/full "${merged[@]}"

# With a closed standard output no report is begun: the line would go into it.
for name in merge window; do
    : >"$scratch/want"
    words=(merge "${merged[@]}")
    [ $name = merge ] || words=("${window[@]}" "$tile")
    echo 'as before' >"$scratch/report.txt"
    "$drain" "${words[@]}" --report "$scratch/report.txt" </dev/null >&- 2>"$scratch/err"
    status=$?
    : >"$scratch/out"
    judge "a closed standard output: $name" 3 "$scratch/want" $status
    echo 'as before' | judge_file "a closed standard output: the report of $name" "$scratch/report.txt"
done
for how in 'ln -s' ln path; do
    cp "$scratch/west.txt" "$scratch/input.txt"
    rm -f "$scratch/over.txt"
    report=$scratch/over.txt
    case $how in path) report=$scratch/../${scratch##*/}/input.txt ;; *) $how "$scratch/input.txt" "$report" ;; esac
    want -
    timeout "$patience" "$drain" merge --report "$report" "$scratch/input.txt" "$scratch/east.txt" </dev/null >"$scratch/out" 2>"$scratch/err"
    judge "$how: the report of a box over a report" 2 "$scratch/want" $? words
    judge_file "$how: the report of a box over a report" "$scratch/input.txt" <"$scratch/west.txt"
done
want -
timeout "$patience" "$drain" merge --sinks "$valley/sinks.txt" --report "$scratch/out.txt" "${merged[@]}" </dev/null >"$scratch/out" 2>"$scratch/err"
judge 'the report of a box with a list' 2 "$scratch/want" $? words

# Places that don't fit the header: a column and a row beside, and row and column exchanged; and tiles beside the raster.
for at in 7,100001 6,100000 100000,7; do
    of_east "$at"
    judge_words "the valley by windows, the east at $at" 2 'refused OtherGrid 1' merge "${merged[@]}"
done
judge_words 'the valley and a tile' 2 'refused OtherGrid 1' merge "$scratch/west.txt" "$check/report.txt"
judge_words 'a tile and the valley' 2 'refused OtherSide 1' merge "$check/report.txt" "$scratch/west.txt"

# A report isn't written over the raster or its header, by any way to it.
for input in dem.bil dem.hdr; do
    for how in 'ln -s' ln path; do
        rm -rf "$scratch/part" "$scratch/over"
        mkdir "$scratch/part"
        cp "$valley"/dem.{bil,hdr} "$scratch/part"
        report=$scratch/over
        case $how in path) report=$scratch/part/../part/$input ;; *) $how "$scratch/part/$input" "$report" ;; esac
        want -
        timeout "$patience" "$drain" window --dem "$scratch/part/dem.bil" --at 0,0 --products "$valley/right" --box 0,0,40,56 \
            --report "$report" </dev/null >"$scratch/out" 2>"$scratch/err"
        judge "$how: a report over $input" 2 "$scratch/want" $? words
        judge_file "$how: a report over $input" "$scratch/part/$input" <"$valley/$input"
    done
done

# Nor is it written beside the products with the name of one: a later run would take it for that.
rm -rf "$scratch/part"
cp -r "$valley/right" "$scratch/part"
rm "$scratch"/part/rnk.*
ln -s part "$scratch/part_linked"
for report in part/rnk.hdr part/rnk.bil part/../part/rnk.hdr part_linked/rnk.hdr; do
    want -
    timeout "$patience" "$drain" window --dem "$valley/dem.bil" --at 0,0 --products "$scratch/part" --sinks "$valley/sinks.txt" --box 0,0,40,56 \
        --report "$scratch/$report" </dev/null >"$scratch/out" 2>"$scratch/err"
    judge "a report of the valley named as ranks: $report" 2 "$scratch/want" $? words
done
judge_folder 'no ranks by way of a report' "$scratch/part" {con,dir,acc,bas}.{hdr,bil}
rm -r "$scratch"/part*

# A window on tiles whose cells aren't square: real terrain, whose first wrong way on cells of 2 by 1 is that of an audit.
jacksboro=(--side 121 --products samples/jacksboro samples/jacksboro/N36W085.hgt)
yes '2 1' | head -n 121 >"$scratch/widths.txt"
"$auditor" --spacing 2,1 "${jacksboro[@]}" >"$scratch/out" 2>"$scratch/err"
line=$(cat "$scratch/out")
case $line in 'rejected rule=10 Slope '*) true ;; *) false ;; esac
: >"$scratch/out" && : >"$scratch/want"
judge 'real terrain on cells of 2 by 1, by the other program' 0 "$scratch/want" $?
for spacing in '--spacing 2,1' "--widths $scratch/widths.txt"; do
    judge_words "a window on cells of 2 by 1: ${spacing%% *}" 1 "$line" window $spacing --box 0,0,121,121 --report "$scratch/report.txt" "${jacksboro[@]}"
    judge_words "a merge of it: ${spacing%% *}" 1 "$line" merge "$scratch/report.txt"
done
judge_words 'a window on square cells' 0 'accepted rows=121 cols=121 data=14641 raised=690 outlets=32' \
    window --box 0,0,121,121 --report "$scratch/report.txt" "${jacksboro[@]}"
