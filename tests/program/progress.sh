# Runs with --progress: standard output and the status are the same, and standard error reports rows to the last, at
# most two lines in any one second. It looks at the clock, so run.sh runs it when no other part runs. Read by part.sh.

told=$scratch/told
mkdir "$told" "$told/out" "$told/other"
cp samples/N36W085.hgt "$told"
jacksboro=(--side 121 --products samples/jacksboro samples/jacksboro/N36W085.hgt)
jacksboro_line='accepted rows=121 cols=121 data=14641 raised=690 outlets=32'
made=(make --side 344 --out "$told/out" "$told/N36W085.hgt")

# Compares a run: its name, status and line, the lines on standard error, and its words.
judge_told() {
    want "$3"
    timeout "$patience" "$drain" "${@:5}" </dev/null >"$scratch/out" 2>"$told/err"
    local came=$?
    : >"$scratch/err"
    judge "$1" "$2" "$scratch/want" "$came"
    printf '%b' "$4" >"$scratch/want"
    cp "$told/err" "$scratch/out"
    judge "$1, what is told" 0 "$scratch/want" 0
}
judge_told 'a check without progress' 0 "$jacksboro_line" '' check "${jacksboro[@]}"
judge_told 'a check with progress' 0 "$jacksboro_line" 'drain: row 121 of 121\n' check --progress "${jacksboro[@]}"
judge_told 'an audit with progress' 0 "$jacksboro_line" 'drain: row 121 of 121\n' audit "${jacksboro[@]}" --progress
for list in con con,dir con,dir,acc con,dir,bas con,dir,acc,bas; do
    line=$(accepted_as "$list" "$jacksboro_line")
    judge_told "an audit of $list with progress" 0 "$line" 'drain: row 121 of 121\n' audit --progress --only "$list" "${jacksboro[@]}"
    judge_told "an audit of $list without progress" 0 "$line" '' audit --only "$list" "${jacksboro[@]}"
done
judge_told 'an audit of con that is refused before a row' 2 'refused BadSide' '' audit --only con --progress --side 1 "${jacksboro[@]:2}"
judge_told 'a check that is refused before a row' 2 'refused BadSide' '' check --progress --side 1 "${jacksboro[@]:2}"
# An explanation with ranks and without: its page is that of right products, by docs/FORMATS.md.
mkdir "$told/bare"
cp samples/jacksboro/{con,dir,acc,bas}.{hdr,bil} "$told/bare"
holding='hold: 1 VoidCell, 2 Missing, 3 BadCode, 4 BelowGround, 5 OpenRaised, 9 NotLeast, 10 Slope, 11 OutletCode, 12 FlatStep, 13 Accumulation, 14 Label, 15 SharedLabel'
untried='not tried: 6 NoSpill, 7 SpillHeight, 8 SpillRank'
page=$(printf '%s\n\nslopes: square cells\n%s\n%s' "$jacksboro_line" "$holding" "$untried")
bare=(--side 121 --products "$told/bare" samples/jacksboro/N36W085.hgt)
bare_page=$(printf '%s\nranks: not checked' "$page")
judge_told 'an explanation without progress' 0 "$page" '' explain "${jacksboro[@]}"
judge_told 'an explanation with progress' 0 "$page" 'drain: row 121 of 121\n' explain --progress "${jacksboro[@]}"
judge_told 'an explanation without ranks, with progress' 0 "$bare_page" 'drain: row 121 of 121\n' explain "${bare[@]}" --progress
judge_told 'an explanation that is refused before a row' 2 $'refused BadSide\n\nexpected: a side from 2 to 3601\nfound: 1' '' \
    explain --progress --side 1 "${jacksboro[@]:2}"

judge_told 'a maker without progress' 0 'made rows=344 cols=344' '' "${made[@]}"
cp "$told"/out/* "$told/other"
judge_told 'a maker with progress' 0 'made rows=344 cols=344' 'drain: making\n' "${made[@]}" --progress
mkdir "$told/pair"
head -c 18 /dev/zero | tee "$told/N00E000.hgt" >"$told/N00E001.hgt"
judge_told 'a maker of two tiles with progress' 0 'made rows=3 cols=5' 'drain: making\n' make --progress --side 3 --out "$told/pair" "$told"/N00E00[01].hgt

# A standard error that is closed or full changes nothing, and nothing goes into a file in its place.
for words in check audit; do
    want "$jacksboro_line"
    : >"$scratch/err"
    "$drain" "$words" --progress "${jacksboro[@]}" >"$scratch/out" 2>&-
    judge "$words with progress and a closed standard error" 0 "$scratch/want" $?
    "$drain" "$words" --progress "${jacksboro[@]}" >"$scratch/out" 2>/dev/full
    judge "$words with progress and a full standard error" 0 "$scratch/want" $?
done
want 'made rows=344 cols=344'
"$drain" "${made[@]}" --progress >"$scratch/out" 2>&-
judge 'a maker with progress and a closed standard error' 0 "$scratch/want" $?
diff -r "$told/out" "$told/other" >"$scratch/out" && : >"$scratch/want"
judge 'files of a maker with progress and a closed standard error' 0 "$scratch/want" 0

# A raster that comes slowly, in a pipe: lines are a second apart, count up, and end at the last row.
mkdir "$told/slow"
cp samples/jacksboro/*.hdr samples/jacksboro/*.bil "$told/slow"
rm "$told/slow/con.bil" && mkfifo "$told/slow/con.bil"
(exec 4>"$told/slow/con.bil"
    for part in 0 1 2 3 4 5 6 7 8 9 10; do dd if=samples/jacksboro/con.bil bs=2662 skip=$part count=1 status=none >&4; sleep 0.3; done) &
want "$jacksboro_line"
timeout "$patience" "$drain" audit --progress --side 121 --products "$told/slow" samples/jacksboro/N36W085.hgt 2>&1 >"$scratch/out" |
    while IFS= read -r line; do echo "$(date +%s%3N) $line"; done >"$told/times"
: >"$scratch/err"
judge 'an audit with progress of a raster that comes slowly' 0 "$scratch/want" 0
awk '{ if ($3 != "row" || $5 != "of" || $6 != 121 || $4 <= row) print "not a line: " $0
       if (NR > 2 && $1 - before < 900) print "three lines in a second: " $0
       before = last; last = $1; row = $4 }
     END { if (row != 121 || NR < 3) print "ends at " row " after " NR " lines" }' "$told/times" >"$scratch/out"
: >"$scratch/want"
judge 'lines of an audit of a raster that comes slowly' 0 "$scratch/want" 0

# A raster that is taken slowly, by a pipe: the rows of the products before it are counted, and those of all products.
rm "$told/out/rnk.bil" && mkfifo "$told/out/rnk.bil"
(exec 5<"$told/out/rnk.bil"
    for part in 0 1 2 3 4 5 6 7 8 9; do dd bs=50000 count=1 iflag=fullblock status=none <&5; sleep 0.3; done) >"$told/taken" &
want 'made rows=344 cols=344'
timeout "$patience" "$drain" "${made[@]}" --progress 2>"$told/lines" >"$scratch/out"
judge 'a maker with progress of a raster that is taken slowly' 0 "$scratch/want" $?
wait $!
cmp "$told/taken" "$told/other/rnk.bil" >"$scratch/out" 2>&1
awk '$0 == "drain: making" { next }
     { if ($2 != "writing" || $3 != "row" || $5 != "of" || $6 != 1720 || $4 <= row || $4 > 1720) print "not a line: " $0
       row = $4 }
     END { if (row <= 1376) print "ends at " row }' "$told/lines" >>"$scratch/out"
: >"$scratch/want"
judge 'lines of a maker of a raster that is taken slowly' 0 "$scratch/want" 0

# Three tiles, whose rows are counted together. The third comes slowly, in a pipe: a line is due at its second row. At
# its last row products are made, and for a second no other line comes.
mkdir "$told/row" "$told/taken_slowly"
for lon in 0 1; do head -c 18 /dev/zero >"$told/row/N00E00$lon.hgt"; done
mkfifo "$told/row/N00E002.hgt"
row=(--side 3 --out "$told/pair" "$told"/row/N00E00[012].hgt)
(exec 4>"$told/row/N00E002.hgt"; head -c 6 /dev/zero >&4; sleep 1.2; head -c 6 /dev/zero >&4; sleep 0.2; head -c 6 /dev/zero >&4) &
judge_told 'a maker of three tiles that come slowly' 0 'made rows=3 cols=7' 'drain: reading row 8 of 9\ndrain: making\n' make --progress "${row[@]}"
wait $!
(exec 4>"$told/row/N00E002.hgt"; head -c 12 /dev/zero >&4; sleep 1.2; head -c 6 /dev/zero >&4) &
judge_told 'a maker of three tiles whose last row comes late' 0 'made rows=3 cols=7' 'drain: making\n' make --progress "${row[@]}"
wait $!

# One raster of elevations that comes slowly: a line is due at its second row.
printf '%s\n' 'NROWS 3' 'NCOLS 2' 'NBITS 8' 'ULXMAP 0' 'ULYMAP 0' 'XDIM 30' 'YDIM 30' >"$told/dem.hdr"
mkfifo "$told/dem.bil"
(exec 4>"$told/dem.bil"; printf 'aa' >&4; sleep 1.2; printf 'bb' >&4; sleep 0.2; printf 'cc' >&4) &
want 'made rows=3 cols=2'
timeout "$patience" "$drain" make --progress --dem "$told/dem.bil" --out "$told/pair" 2>"$told/lines" >"$scratch/out"
came=$?
: >"$scratch/err"
judge 'a maker of a raster of elevations that comes slowly' 0 "$scratch/want" "$came"
wait $!
grep -v making "$told/lines" >"$scratch/out"
want 'drain: reading row 2 of 3'
judge 'lines of a raster of elevations that comes slowly' 0 "$scratch/want" 0

# A closed standard error in a run in which lines are due while files are written: they go into none of them.
mkfifo "$told/taken_slowly/rnk.bil"
(exec 5<"$told/taken_slowly/rnk.bil"; head -c 50000 <&5; sleep 1.2; cat <&5) >"$told/taken" &
want 'made rows=344 cols=344'
timeout "$patience" "$drain" make --progress --side 344 --out "$told/taken_slowly" "$told/N36W085.hgt" 2>&- >"$scratch/out"
judge 'a slow maker with progress and a closed standard error' 0 "$scratch/want" $?
wait $!
for name in $files; do
    file=$told/taken_slowly/$name
    [ "$name" != rnk.bil ] || file=$told/taken
    judge_file 'a slow maker with progress and a closed standard error' "$file" <"$told/other/$name"
done
