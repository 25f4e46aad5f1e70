# Runs over the bundled rasters of elevations, of whole heights and of floats: their files made anew, and each set's line as
# its README has it, by the program and by audit.py. Read by part.sh.

make_wide

# Usage: judge_bundled NAME WORDS..    the files of samples/NAME are those that its script makes, and each set has the line of
# the README with these words, the last of which takes its folder; leaves these lines in $told
judge_bundled() {
    local it=$1 words=("${@:2}") bundled=samples/$1 made=$scratch/$1 file name line status list of_list
    mkdir "$made"
    "$bundled/make_$it.py" "$made" >"$scratch/out" 2>"$scratch/err"
    : >"$scratch/want"
    judge "the $it is made anew" 0 "$scratch/want" $?
    (cd "$made" && find . -type f | LC_ALL=C sort) >"$scratch/want"
    (cd "$bundled" && find . -type f ! -name README.md ! -name "make_$it.py" | LC_ALL=C sort) >"$scratch/out"
    judge "the files of the $it" 0 "$scratch/want" 0
    while read -r file; do
        cp "$made/$file" "$scratch/out"
        judge "the bundled $file of the $it" 0 "$bundled/$file" 0
    done < <(cd "$made" && find . -type f)
    told=$(sed -nE 's/^\| `([a-z-]+)` \| `(accepted|rejected) ([^`]*)` \|.*/\1 \2 \3/p' "$bundled/README.md")
    while read -r name line; do
        case $line in accepted*) status=0 ;; *) status=1 ;; esac
        judge_audit "the $it, $name" "$status" "$line" "${words[@]}" "$bundled/$name"
        for list in con con,dir con,dir,acc con,dir,bas con,dir,acc,bas; do
            of_list=$line
            [ "$status $list" != '0 con' ] || of_list=${line% outlets=*}
            judge_audit "the $it, $name, $list" "$status" "$of_list" "${words[@]}" "$bundled/$name" --only "$list"
            "$auditor" "${words[@]}" "$bundled/$name" --only "$list" >"$scratch/out" 2>"$scratch/err"
            judge "the $it, $name, $list, by the other program" "$status" "$scratch/want" $?
        done
    done <<<"$told"
    judge_words "the $it, right, by ranks" 0 "$(sed -n 's/^right //p' <<<"$told")" check "${words[@]}" "$bundled/right"
    printf '%s\n' "$bundled"/*/ | sed 's,/$,,; s,.*/,,' | LC_ALL=C sort >"$scratch/out"
    sed 's/ .*//' <<<"$told" | LC_ALL=C sort >"$scratch/want"
    : >"$scratch/err"
    judge "the sets of the $it that its README tells of" 0 "$scratch/want" 0
}

# Products of the shore: con is the bundled one, pixel for pixel.
judge_bundled shore --dem samples/shore/dem.bil --products
mkdir "$scratch/shore/made"
judge_words 'products of the shore' 0 'made rows=40 cols=30' make --dem samples/shore/dem.bil --out "$scratch/shore/made"
judge_file 'products of the shore' "$scratch/shore/made/con.bil" <samples/shore/right/con.bil
for command in audit check; do
    judge_words "products of the shore, $command" 0 "$(sed -n 's/^right //p' <<<"$told")" \
        "$command" --dem samples/shore/dem.bil --products "$scratch/shore/made"
done

valley=samples/valley
valley_words=(--dem "$valley/dem.bil" --sinks "$valley/sinks.txt" --products)
judge_bundled valley "${valley_words[@]}"
for file in "$valley"/*.hdr "$valley"/*/*.hdr; do
    "$drain" header "$file" </dev/null >"$scratch/out" 2>"$scratch/err"
    judge "the header $file" 0 "$file" $?
done
judge_audit 'the valley without its sink' 1 'rejected rule=12 FlatStep row=30 col=13' --dem "$valley/dem.bil" --products "$valley/right"

# Progress reports its rows; a pipe stands for the raster; and standard output that can't be written ends with status 3.
words=("${valley_words[@]}" "$valley/right")
for command in audit check; do
    want "$(sed -n 's/^right //p' <<<"$told")"
    "$drain" "$command" --progress "${words[@]}" </dev/null >"$scratch/out" 2>"$scratch/progress"
    came=$?
    : >"$scratch/err"
    judge "the valley with progress, $command" 0 "$scratch/want" "$came"
    cp "$scratch/progress" "$scratch/out"
    want 'drain: row 40 of 40'
    judge "what is told of the valley, $command" 0 "$scratch/want" 0
    mkfifo "$scratch/valley/$command.bil"
    cp "$valley/dem.hdr" "$scratch/valley/$command.hdr"
    cat "$valley/dem.bil" >"$scratch/valley/$command.bil" &
    judge_words "the valley from a pipe, $command" 0 "$(sed -n 's/^right //p' <<<"$told")" \
        "$command" --dem "$scratch/valley/$command.bil" "${words[@]:2}"
    wait $!
    : >"$scratch/want"
    : >"$scratch/out"
    "$drain" "$command" "${words[@]}" >/dev/full 2>"$scratch/err"
    judge "a full standard output: $command of the valley" 3 "$scratch/want" $?
    "$drain" "$command" "${words[@]}" >&- 2>"$scratch/err"
    judge "a closed standard output: $command of the valley" 3 "$scratch/want" $?
done
mkdir "$scratch/valley/folder.bil"
cp "$valley/dem.hdr" "$scratch/valley/folder.hdr"
judge_audit 'a folder as the raster of elevations' 3 'failed ReadFailed' --dem "$scratch/valley/folder.bil" "${words[@]:2}"

# A tile as one raster, its bytes as they are: each bundled tile with each of its sets has the line that it has as a tile.
# Usage: put_tile SIDE TILE WEST NORTH    writes $scratch/valley/tile.bil and its header, with this corner
put_tile() {
    local step
    step=$(python3 -c "print(f'{10**15 // ($1 - 1) / 10**15:.15f}')")
    printf '%s\n' "NROWS $1" "NCOLS $1" 'NBITS 16' 'BYTEORDER M' 'NODATA -32768' "ULXMAP $3" "ULYMAP $4" "XDIM $step" "YDIM $step" \
        >"$scratch/valley/tile.hdr"
    cp "$2" "$scratch/valley/tile.bil"
}
put_tile 51 samples/other-tools/N36W085.hgt -85 37
while read -r name line; do
    case $line in accepted*) status=0 ;; *) status=1 ;; esac
    judge_audit "other tools on one raster, $name" "$status" "$line" --dem "$scratch/valley/tile.bil" --products "samples/other-tools/$name"
done < <(sed -nE 's/^\| `([a-z-]+)` \| `(accepted|rejected) ([^`]*)` \|.*/\1 \2 \3/p' samples/other-tools/README.md)

# Usage: judge_derived SIDE TILE PRODUCTS    what is derived over the tile as one raster is what is derived over the tile
judge_derived() {
    local of_tile=$scratch/valley/of-tile-$1 of_raster=$scratch/valley/of-raster-$1 file
    mkdir "$of_tile" "$of_raster"
    judge_words "derived over $2, side $1" 0 "derived rows=$1 cols=$1" derive --side "$1" --products "$3" --out "$of_tile" "$2"
    judge_words "derived over $2, side $1, as one raster" 0 "derived rows=$1 cols=$1" \
        derive --dem "$scratch/valley/tile.bil" --products "$3" --out "$of_raster"
    for file in "$of_tile"/*; do
        cp "$file" "$scratch/want"
        cp "$of_raster/${file##*/}" "$scratch/out"
        : >"$scratch/err"
        judge "derived over $2, side $1, as one raster: ${file##*/}" 0 "$scratch/want" 0
    done
}

# Usage: judge_made SIDE TILE    what is made of the tile as one raster is what is made of the tile, byte for byte
judge_made() {
    local of_tile=$scratch/valley/made-of-tile-$1 of_raster=$scratch/valley/made-of-raster-$1 file
    mkdir "$of_tile" "$of_raster"
    judge_words "made of $2, side $1" 0 "made rows=$1 cols=$1" make --side "$1" --out "$of_tile" "$2"
    judge_words "made of $2, side $1, as one raster" 0 "made rows=$1 cols=$1" make --dem "$scratch/valley/tile.bil" --out "$of_raster"
    for file in "$of_tile"/*; do
        judge_file "made of $2, side $1, as one raster" "$of_raster/${file##*/}" <"$file"
    done
    made="$of_raster" judge_names "made of $2, side $1, as one raster" $files
}

while read -r side tile products west north counts; do
    put_tile "$side" "$tile" "$west" "$north"
    for command in audit check; do
        line="accepted rows=$side cols=$side $counts"
        judge_words "$tile, side $side, $command" 0 "$line" "$command" --side "$side" --products "$products" "$tile"
        judge_words "$tile, side $side, as one raster, $command" 0 "$line" "$command" --dem "$scratch/valley/tile.bil" --products "$products"
    done
    judge_derived "$side" "$tile" "$products"
    judge_made "$side" "$tile"
done <<EOF
3 samples/pit-3/N00E000.hgt samples/pit-3 0 1 data=9 raised=1 outlets=8
121 samples/jacksboro/N36W085.hgt samples/jacksboro -85 37 data=14641 raised=690 outlets=32
344 samples/N36W085.hgt $scratch/wide -85 37 data=118336 raised=5200 outlets=115
EOF

# Products of the valley: made anew or over others, of a pipe, with progress; each program accepts them. Con is the bundled
# one, whose pixels and no-data number are those of the elevations.
lake=(--dem "$valley/dem.bil" --sinks "$valley/sinks.txt")
made_line='made rows=40 cols=56'
accepted_line=$(sed -n 's/^right //p' <<<"$told")
whole=$scratch/valley/whole
mkdir "$whole" "$whole/there"
judge_words 'products of the valley' 0 "$made_line" make "${lake[@]}" --out "$whole"
rmdir "$whole/there"
for part in hdr bil; do
    judge_file 'products of the valley' "$whole/con.$part" <"$valley/right/con.$part"
done
for command in audit check; do
    judge_words "products of the valley, $command" 0 "$accepted_line" "$command" "${lake[@]}" --products "$whole"
done
want "$accepted_line"
"$auditor" "${lake[@]}" --products "$whole" >"$scratch/out" 2>"$scratch/err"
judge 'products of the valley, by the other program' 0 "$scratch/want" $?

# Usage: judge_valley NAME FOLDER    the products in the folder are those of the valley
judge_valley() {
    local name
    for name in $files; do
        judge_file "$1" "$2/$name" <"$whole/$name"
    done
    made="$2" judge_names "$1" $files
}
again=$scratch/valley/again
mkdir "$again"
for name in $files; do echo 'of before' >"$again/$name"; done
judge_words 'products of the valley over others' 0 "$made_line" make "${lake[@]}" --out "$again"
judge_valley 'products of the valley over others' "$again"
"$drain" make --progress "${lake[@]}" --out "$again" </dev/null >"$scratch/out" 2>"$scratch/progress"
came=$?
: >"$scratch/err"
want "$made_line"
judge 'products of the valley with progress' 0 "$scratch/want" "$came"
cp "$scratch/progress" "$scratch/out"
want 'drain: making'
judge 'what is told while products of the valley are made' 0 "$scratch/want" 0
judge_valley 'products of the valley with progress' "$again"
# A pipe is read to the last byte that is needed, and no further.
mkfifo "$scratch/valley/made.bil"
cp "$valley/dem.hdr" "$scratch/valley/made.hdr"
exec 3<>"$scratch/valley/made.bil"
cat "$valley/dem.bil" >&3
judge_words 'products of the valley from a pipe' 0 "$made_line" make --dem "$scratch/valley/made.bil" "${lake[@]:2}" --out "$again"
exec 3<&-
judge_valley 'products of the valley from a pipe' "$again"
mkfifo "$again/pipe"
rm "$again/acc.bil" && mv "$again/pipe" "$again/acc.bil"
timeout "$patience" cat "$again/acc.bil" >"$scratch/valley/acc.bil" &
judge_words 'a product of the valley into a pipe' 0 "$made_line" make "${lake[@]}" --out "$again"
wait $!
judge_file 'a product of the valley into a pipe' "$scratch/valley/acc.bil" <"$whole/acc.bil"

# Usage: judge_empty NAME FOLDER    there is no file in the folder
judge_empty() {
    want -
    ls -A "$2" >"$scratch/out" 2>"$scratch/err"
    judge "$1: what is in the folder" 0 "$scratch/want" $?
}

# What can't be made, opened or written: nothing changes.
rm "$again"/*
judge_words 'products of a folder as the raster' 3 'failed ReadFailed' make --dem "$scratch/valley/folder.bil" --out "$again"
judge_words 'products in a folder that is not there' 3 "failed Open $again/none/con.hdr" make "${lake[@]}" --out "$again/none"
printf '0 0\n99 0\n' >"$scratch/valley/far.txt"
judge_words 'products with a sink outside' 2 'refused SinkNotData 2' make "${lake[@]:0:2}" --sinks "$scratch/valley/far.txt" --out "$again"
judge_empty 'nothing is made of the valley' "$again"

# Memory grows with what was read, and not with what headers say; and it may end.
large=$scratch/valley/large
mkdir "$large"
for name in dem right/{con,dir,acc,bas}; do
    sed -e 's/^NROWS .*/NROWS 28801/' -e 's/^NCOLS .*/NCOLS 28801/' -e '/ROWBYTES/d' "$valley/$name.hdr" >"$large/${name#right/}.hdr"
    cp "$valley/$name.bil" "$large"
done
want 'refused RasterShort dem'
(ulimit -v 200000 && exec "$drain" make --dem "$large/dem.bil" --out "$again") >"$scratch/out" 2>"$scratch/err"
judge 'a header of the greatest size over a short raster to make products of' 2 "$scratch/want" $?
printf 'refused RasterShort dem\n\nexpected: dem of 3317990404 bytes\nfound: dem of 8960 bytes\n' >"$scratch/want"
(ulimit -v 200000 && exec "$drain" explain --map "$large/faults.bil" --products "$large" --dem "$large/dem.bil") >"$scratch/out" 2>"$scratch/err"
judge 'a map of the greatest size over a short raster' 2 "$scratch/want" $?
want 'failed OutOfMemory'
truncate -s 3317990404 "$large/dem.bil"
(ulimit -v 200000 && exec "$drain" make --dem "$large/dem.bil" --out "$again") >"$scratch/out" 2>"$scratch/err"
judge 'no memory for a raster to make products of' 3 "$scratch/want" $?
rm -r "$large"

: >"$scratch/want"
: >"$scratch/out"
"$drain" make "${lake[@]}" --out "$again" >/dev/full 2>"$scratch/err"
judge 'a full standard output: make of the valley' 3 "$scratch/want" $?
"$drain" make "${lake[@]}" --out "$again" >&- 2>"$scratch/err"
judge 'a closed standard output: make of the valley' 3 "$scratch/want" $?
judge_empty 'a closed standard output: make of the valley' "$again"

# Derived with a list of sinks: a right one changes nothing, and a wrong one is refused.
derived=("${valley_words[@]:0:2}" --products "$valley/right" --out "$again")
printf '37 13\n1 x\n' >"$scratch/valley/bad.txt"
judge_words 'derived over the valley with a sink outside' 2 'refused SinkNotData 2' derive --sinks "$scratch/valley/far.txt" "${derived[@]}"
judge_words 'derived over the valley with a bad line' 2 'refused BadSinkLine 2' derive --sinks "$scratch/valley/bad.txt" "${derived[@]}"
judge_empty 'nothing is derived with a bad list' "$again"
judge_words 'derived over the valley without its sink' 0 'derived rows=40 cols=56' derive "${derived[@]}"
cp -r "$again" "$scratch/valley/unlisted"
judge_words 'derived over the valley with its sink' 0 'derived rows=40 cols=56' derive --sinks "$valley/sinks.txt" "${derived[@]}"
for file in "$again"/*; do
    judge_file 'derived over the valley with its sink' "$file" <"$scratch/valley/unlisted/${file##*/}"
done
rm "$again"/*

# A raster that is a byte short, explained: 40 rows of 56 numbers of 32 bits are 8,960 bytes.
cp "$valley/dem.hdr" "$scratch/valley/short.hdr"
head -c 8959 "$valley/dem.bil" >"$scratch/valley/short.bil"
for form in '' --json; do
    "$drain" explain --dem "$scratch/valley/short.bil" --products "$valley/right" $form </dev/null >"$scratch/page" 2>"$scratch/err"
    came=$?
    case $form in
        '') cp "$scratch/page" "$scratch/out" && printf '%s\n' 'refused RasterShort dem' '' 'expected: dem of 8960 bytes' 'found: dem of 8959 bytes' >"$scratch/want" ;;
        *) python3 -c 'import json, sys; it = json.load(sys.stdin); print(it["answer"], it["refusal"])' <"$scratch/page" >"$scratch/out" 2>>"$scratch/err"
            want "refused RasterShort dem {'about': 'dem_length', 'expected': 8960, 'found': 8959}" ;;
    esac
    judge "a short raster of elevations, explained $form" 2 "$scratch/want" "$came"
done

# Nothing is written over the raster of elevations: a usage error, and it stays.
mkdir "$scratch/valley/over"
over=$scratch/valley/over
: >"$scratch/want"
for name in con acc rnk; do
    cp "$valley/dem.bil" "$over/$name.bil"
    cp "$valley/dem.hdr" "$over/$name.hdr"
done
# Usage: judge_over NAME WORDS..    runs the program, whose output would be the raster NAME.bil
judge_over() {
    "$drain" "${@:2}" </dev/null >"$scratch/out" 2>"$scratch/err"
    judge "over $1.bil, the raster of elevations: $2" 2 "$scratch/want" $? words
    cmp "$over/$1.bil" "$valley/dem.bil" >"$scratch/out" 2>"$scratch/err"
    judge "$1.bil stays: $2" 0 "$scratch/want" $?
}
judge_over acc derive --dem "$over/acc.bil" --products "$valley/right" --out "$over"
judge_over con explain --dem "$over/con.bil" --products "$valley/right" --map "$over/con.bil"
judge_over con make --dem "$over/con.bil" --out "$over"
judge_over rnk make --dem "$over/rnk.bil" --sinks "$valley/sinks.txt" --out "$over"
# Its header, or a link or a second name of either.
cp "$valley"/dem.{bil,hdr} "$over"
for how in 'ln -s' 'ln'; do
    for part in hdr bil; do
        rm -f "$over"/{con,acc,rnk,bas}.*
        $how "$over/dem.$part" "$over/bas.$part"
        want -
        "$drain" make --dem "$over/dem.bil" --out "$over" </dev/null >"$scratch/out" 2>"$scratch/err"
        judge "$how: made over dem.$part" 2 "$scratch/want" $? words
        judge_file "$how: dem.$part stays" "$over/dem.$part" <"$valley/dem.$part"
        made="$over" judge_names "$how: made over dem.$part" dem.hdr dem.bil "bas.$part"
    done
done
