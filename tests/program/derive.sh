# Runs of `drain derive`: accumulation, labels and ranks of directions, beside those that make_products.py makes and
# that derive.py, the other program, finds by following each path; refusals; files that are there. Read by part.sh.

deriver=$here/derive.py
derive=$scratch/derive
given=$derive/given
out=$derive/out
ground=$derive/N00E000.hgt
derived_files=$(echo {acc,bas,rnk}.{hdr,bil})
pit_derived='derived rows=3 cols=3'

# The pit's tile, its directions alone, and an empty folder.
make_given() {
    rm -rf "$derive"
    mkdir -p "$given" "$out"
    heights 5 5 5 5 1 5 5 5 5 >"$ground"
    header_of 8 '' >"$given/dir.hdr"
    numbers 1 0 0 0 0 1 0 0 0 0 >"$given/dir.bil"
}

# Compares one run with these arguments: its name, the expected status and line.
judge_derive() {
    judge_words "$1" "$2" "$3" derive "${@:4}"
}

# The same on the directions given, with the folder to write into.
judge_given() {
    judge_derive "$1" "$2" "$3" --side 3 --products "$given" --out "$out" "${@:4}" "$ground"
}

# The names in the folder that is written into.
judge_left() {
    local name
    for name in "${@:2}"; do echo "$name"; done | LC_ALL=C sort >"$scratch/want"
    ls -A "$out" >"$scratch/out" 2>"$scratch/err"
    judge "$1: names" 0 "$scratch/want" $?
}

# The same of a run that derives nothing: the folder is empty.
judge_nothing_derived() {
    judge_given "$@"
    judge_left "$1"
}

# The files of the pit in a folder.
judge_derived_pit() {
    local file
    for file in $derived_files; do
        pit_file "$file" | judge_file "$1" "$2/$file"
    done
}

# Compares a run with these arguments, into the folder, with the other program's: its line, its status and each file.
judge_by_the_other() {
    local name=$1 file line status
    shift
    rm -rf "$derive/other"
    line=$("$deriver" --out "$derive/other" "$@")
    status=$?
    judge_derive "$name" "$status" "$line" --out "$out" "$@"
    [ "$status" = 0 ] || return 0
    for file in $derived_files; do
        judge_file "$name" "$out/$file" <"$derive/other/$file"
    done
}

make_given
judge_given 'a pit derived' 0 "$pit_derived"
judge_derived_pit 'a pit derived' "$out"
judge_left 'a pit derived' $derived_files
numbers 4 1 1 1 1 1 2 1 1 1 | judge_file 'a pit derived, number by number' "$out/acc.bil"
cp -r "$out" "$scratch/derived"

# The words in any order.
make_given
judge_derive 'derived, options behind the tile' 0 "$pit_derived" "$ground" --out="$out/" --products="$given/" --side=3
judge_derived_pit 'derived, options behind the tile' "$out"
make_given
judge_derive 'derived, the tile behind two dashes' 0 "$pit_derived" --side 3 --out "$out" --products "$given" -- "$ground"
judge_derived_pit 'derived, the tile behind two dashes' "$out"
make_given
want "$pit_derived"
(cd "$given" && timeout "$patience" "$drain" derive --side 3 --products . --out . ../N00E000.hgt >"$scratch/out" 2>"$scratch/err")
judge 'derived in the folder that it runs in' 0 "$scratch/want" $?
judge_derived_pit 'derived in the folder that it runs in' "$given"

# Into the folder of the directions, beside other rasters, which are never opened and stay as they are.
for what in 'of other numbers' 'in empty files' 'in folders' 'in links to nothing' 'in pipes that nobody writes'; do
    make_given
    out=$given
    case $what in
        'of other numbers') for name in con spl; do echo 'of before' | tee "$given/$name.hdr" >"$given/$name.bil"; done ;;
        *) spoil "$given/con" "$what" ;;
    esac
    before=$(ls -A "$given")
    judge_given "derived beside rasters $what" 0 "$pit_derived"
    judge_derived_pit "derived beside rasters $what" "$given"
    judge_left "derived beside rasters $what" $before $derived_files
    numbers 1 0 0 0 0 1 0 0 0 0 | judge_file "directions that were derived from, beside rasters $what" "$given/dir.bil"
    [ "$what" != 'of other numbers' ] || echo 'of before' | judge_file "derived beside rasters $what" "$given/con.bil"
    out=$derive/out
done

# Files that were there are replaced whole.
make_given
for name in $derived_files; do yes 'of before' | head -c 1000 >"$out/$name"; done
judge_given 'derived over longer files' 0 "$pit_derived"
judge_derived_pit 'derived over longer files' "$out"

# Directions of the pit, with the numbers that follow from them: they needn't be right.
while IFS='|' read -r name codes counts labels ranks; do
    make_given
    numbers 1 $codes >"$given/dir.bil"
    judge_given "$name" 0 "$pit_derived"
    numbers 4 $counts | judge_file "$name" "$out/acc.bil"
    numbers 4 $labels | judge_file "$name" "$out/bas.bil"
    numbers 4 $ranks | judge_file "$name" "$out/rnk.bil"
    judge_by_the_other "$name, by the other program" --side 3 --products "$given" "$ground"
done <<'END'
derived from a pit that drains to the north|0 0 0 0 64 0 0 0 0|1 2 1 1 1 1 1 1 1|1 2 3 4 2 5 6 7 8|0 0 0 0 1 0 0 0 0
derived from a pit that is an outlet|0 0 0 0 0 0 0 0 0|1 1 1 1 1 1 1 1 1|1 2 3 4 5 6 7 8 9|0 0 0 0 0 0 0 0 0
derived from directions into the pit|2 4 8 1 0 16 128 64 32|1 1 1 1 9 1 1 1 1|1 1 1 1 1 1 1 1 1|1 1 1 1 0 1 1 1 1
derived from one path through every cell|1 1 4 4 16 16 1 1 0|1 2 3 6 5 4 7 8 9|1 1 1 1 1 1 1 1 1|8 7 6 3 4 5 2 1 0
derived from two basins|1 0 16 1 0 16 1 64 16|1 3 1 1 6 1 1 3 1|1 1 1 2 2 2 2 2 2|1 0 1 1 0 1 2 1 2
END

# Voids: their numbers in dir don't matter, and the derived ones have no data there. A direction into one has no end.
for blank in 255 0 7 1; do
    make_given
    heights 5 5 5 5 1 - 5 5 5 >"$ground"
    numbers 1 2 4 8 1 0 $blank 128 64 32 >"$given/dir.bil"
    judge_given "derived beside a void of $blank" 0 "$pit_derived"
    numbers 4 1 1 1 1 8 0 1 1 1 | judge_file "derived beside a void of $blank" "$out/acc.bil"
    numbers 4 1 1 1 1 1 0 1 1 1 | judge_file "derived beside a void of $blank" "$out/bas.bil"
    { numbers 4 1 1 1 1 0 && printf '\xff\xff\xff\xff' && numbers 4 1 1 1; } | judge_file "derived beside a void of $blank" "$out/rnk.bil"
done
make_given
heights - - - - >"$ground"
sed -i -E 's/^(NROWS|NCOLS) .*/\1 2/; s/^(.DIM) .*/\1 1/' "$given/dir.hdr"
judge_derive 'derived from voids alone' 0 'derived rows=2 cols=2' --side 2 --products "$given" --out "$out" "$ground"
for name in acc bas; do numbers 4 0 0 0 0 | judge_file 'derived from voids alone' "$out/$name.bil"; done
head -c 16 /dev/zero | tr '\0' '\377' | judge_file 'derived from voids alone' "$out/rnk.bil"

# Paths that don't end, at the first cell whose path doesn't: nothing is written, and what was there stays.
while IFS='|' read -r name codes place; do
    make_given
    numbers 1 $codes >"$given/dir.bil"
    judge_nothing_derived "derived from $name" 1 "rejected NoEnd $place"
    "$deriver" --side 3 --products "$given" --out "$derive/other" "$ground" >"$scratch/out" 2>"$scratch/err"
    came=$?
    want "rejected NoEnd $place"
    judge "derived from $name, by the other program" 1 "$scratch/want" $came
    for file in $derived_files; do echo 'of before' >"$out/$file"; done
    judge_given "derived from $name, where files are" 1 "rejected NoEnd $place"
    for file in $derived_files; do echo 'of before' | judge_file "derived from $name, where files are" "$out/$file"; done
    judge_left "derived from $name, where files are" $derived_files
done <<'END'
a direction off the grid|64 0 0 0 1 0 0 0 0|row=0 col=0
the last direction off the grid|0 0 0 0 1 0 0 0 1|row=2 col=2
a number that is no code|0 0 0 0 3 0 0 0 0|row=1 col=1
the no-data number|0 0 0 0 255 0 0 0 0|row=1 col=1
a ring of two|0 0 0 0 1 16 0 0 0|row=1 col=1
a ring of all round the pit|1 1 4 64 1 4 64 16 16|row=0 col=0
a cell that leads into a ring behind it|0 0 0 1 1 16 0 0 0|row=1 col=0
END
make_given
heights 5 5 5 5 1 - 5 5 5 >"$ground"
numbers 1 2 4 8 1 1 255 128 64 32 >"$given/dir.bil"
judge_nothing_derived 'derived from a direction into a void' 1 'rejected NoEnd row=0 col=0'

# Other pixels of dir: 16 and 32 bits, either order of bytes, bytes before the first row and behind each; and a no-data
# number that is a code, which plays no part.
make_given
cells=0
{ echo 'xx'; for code in 0 0 0 0 1 0 0 0 0; do printf "\\0\\$code"; [ $((++cells % 3)) != 0 ] || printf 'yy'; done; } >"$given/dir.bil"
sed -i -E 's/^BYTEORDER .*/BYTEORDER M/; s/^NBITS .*/NBITS 16/' "$given/dir.hdr"
printf 'SKIPBYTES 3\nTOTALROWBYTES 8\n' >>"$given/dir.hdr"
judge_given 'derived from directions of 16 bits' 0 "$pit_derived"
judge_derived_pit 'derived from directions of 16 bits' "$out"
make_given
numbers 4 0 0 0 0 1 0 0 0 0 >"$given/dir.bil"
sed -i -E 's/^NBITS .*/NBITS 32/' "$given/dir.hdr"
echo 'NODATA 1' >>"$given/dir.hdr"
judge_given 'derived from directions of 32 bits' 0 "$pit_derived"
judge_derived_pit 'derived from directions of 32 bits' "$out"

# Inland sinks change nothing; their list is read, and refused, as by an audit.
make_given
printf '0 0\n\n1 1\n' >"$derive/sinks.txt"
judge_given 'derived with a list of sinks' 0 "$pit_derived" --sinks "$derive/sinks.txt"
judge_derived_pit 'derived with a list of sinks' "$out"

# Refusals in their order: all apply at first, and are fixed one by one. Nothing is written before all are.
make_given
printf '\0\6\0\6\0\6\0\6\0\6\0\6\0\6\0\6\0\6' >"$derive/N01E000.hgt"
cp "$ground" "$derive/N00E009.hgt"
cp "$ground" "$derive/x"
for name in N00E000 N01E000; do truncate -s 19 "$derive/$name.hgt"; done
numbers 1 3 1 1 1 1 1 1 1 1 1 1 1 1 1 >"$given/dir.bil"
sed -i '/^YDIM/d' "$given/dir.hdr"
printf '9 9\nx\n' >"$derive/sinks.txt"
side=1 tiles='x N00E000.hgt'

# Checks the line, and that of the other program, and then fixes what it reports.
judge_derive_and_mend() {
    local paths=() name words
    for name in $tiles; do paths+=("$derive/$name"); done
    words=(--side $side --products "$given" --sinks "$derive/sinks.txt" "${paths[@]}")
    judge_derive "in its order $2" "$1" "$2" --out "$out" "${words[@]}"
    "$deriver" --out "$derive/other" "${words[@]}" >"$scratch/out" 2>"$scratch/err"
    judge "in its order $2, by the other program" "$1" "$scratch/want" $?
    [ "$1" = 0 ] || judge_left "in its order $2"
    eval "$3"
}
judge_derive_and_mend 2 'refused BadSide' 'side=3'
judge_derive_and_mend 2 'refused BadName 0' 'tiles='
judge_derive_and_mend 2 'refused NoTiles' 'tiles="N00E000.hgt N01E000.hgt N00E000.hgt N00E009.hgt"'
judge_derive_and_mend 2 'refused RepeatedTile N00E000.hgt' 'tiles="N00E000.hgt N01E000.hgt N00E009.hgt"'
judge_derive_and_mend 2 'refused BoxTooLarge' 'tiles="N00E000.hgt N01E000.hgt"'
judge_derive_and_mend 2 'refused BadHeader dir MissingKey YDIM' 'echo YDIM 0.5 >>"$given/dir.hdr"'
judge_derive_and_mend 2 'refused WrongShape dir' 'sed -i "s/^NROWS 3/NROWS 5/" "$given/dir.hdr"'
judge_derive_and_mend 2 'refused Misplaced dir' 'sed -i "s/^ULYMAP 1/ULYMAP 2/" "$given/dir.hdr"'
for corner in N00E000 N01E000; do
    judge_derive_and_mend 2 "refused BadTileLength $corner.hgt" 'truncate -s 18 "$derive/$corner.hgt"'
done
judge_derive_and_mend 2 'refused RasterShort dir' 'truncate -s 15 "$given/dir.bil"'
judge_derive_and_mend 2 'refused SeamMismatch row=2 col=0' 'printf "\0\5\0\5\0\5\0\5\0\1\0\5\0\5\0\5\0\5" >"$derive/N01E000.hgt"'
judge_derive_and_mend 2 'refused BadSinkLine 2' 'echo 9 9 >"$derive/sinks.txt"'
judge_derive_and_mend 2 'refused SinkNotData 1' ': >"$derive/sinks.txt"'
judge_derive_and_mend 1 'rejected NoEnd row=0 col=0' 'numbers 1 0 0 0 0 1 0 0 1 0 0 1 0 0 0 0 >"$given/dir.bil"'
judge_derive_and_mend 0 'derived rows=5 cols=3' :
for file in $derived_files; do
    judge_file 'two tiles, mended' "$out/$file" <"$derive/other/$file"
done

# Files that are not there: the tile, the directions and the list, in this order, before any refusal; and the folder to
# write into, after every one.
make_given
printf '1 1' >"$derive/sinks.txt"
mv "$given/dir.hdr" "$given/dir.bil" "$derive/sinks.txt" "$scratch"
mv "$ground" "$scratch/N00E000.hgt"
missing=(--side 1 --products "$given" --out "$derive/none" --sinks "$derive/sinks.txt" "$ground")
judge_derive 'derived without a tile' 3 "failed Open $ground" "${missing[@]}"
mv "$scratch/N00E000.hgt" "$ground"
for name in given/dir.hdr given/dir.bil sinks.txt; do
    judge_derive "derived without $name" 3 "failed Open $derive/$name" "${missing[@]}"
    mv "$scratch/${name##*/}" "$derive/$name"
done
judge_derive 'derived without a folder to write into, and with a bad side' 2 'refused BadSide' "${missing[@]}"
judge_derive 'derived without a folder to write into' 3 "failed Open $derive/none/acc.hdr" --side 3 "${missing[@]:2}"
judge_derive 'derived into a file' 3 "failed Open $ground/acc.hdr" --side 3 --products "$given" --out "$ground" "$ground"
for name in N00E000.hgt given/dir.hdr given/dir.bil; do
    make_given
    rm "$derive/$name"
    mkdir "$derive/$name"
    judge_nothing_derived "derived with a folder for $name" 3 'failed ReadFailed'
done

# Files that can't be opened or written: what was there stays, and nothing else is left.
for name in $derived_files; do
    make_given
    mkdir "$out/$name"
    judge_given "a folder for $name to be derived" 3 "failed Open $out/$name"
    judge_left "a folder for $name to be derived" "$name"
    make_given
    for file in $derived_files; do echo 'of before' >"$out/$file"; done
    rm "$out/$name"
    ln -s /dev/full "$out/$name"
    judge_given "a full device for $name to be derived" 3 'failed WriteFailed'
    judge_left "a full device for $name to be derived" $derived_files
    for file in $derived_files; do
        [ "$file" = "$name" ] || echo 'of before' | judge_file "a full device for $name to be derived" "$out/$file"
    done
done

# Derived files over an input, by any way to it, are a usage error, and the input stays.
for input in N00E000.hgt given/dir.hdr given/dir.bil sinks.txt; do
    for how in 'ln -s' ln; do
        for name in acc.hdr rnk.bil; do
            make_given
            echo '1 1' >"$derive/sinks.txt"
            cp "$derive/$input" "$scratch/before"
            $how "$derive/$input" "$out/$name"
            want -
            timeout "$patience" "$drain" derive --side 3 --products "$given" --out "$out" --sinks "$derive/sinks.txt" "$ground" >"$scratch/out" 2>"$scratch/err"
            judge "$how: derived over $input as $name" 2 "$scratch/want" $? words
            judge_left "$how: derived over $input as $name" "$name"
            judge_file "$how: derived over $input as $name" "$derive/$input" <"$scratch/before"
        done
    done
done
make_given
ln -s acc.bil "$out/bas.bil"
judge_given 'derived over a link to another product' 3 "failed Open $out/bas.bil"
judge_left 'derived over a link to another product' bas.bil

# New files get the permissions of the old ones; a link stays, and the file that it leads to is written; pipes are written.
make_given
for file in $derived_files; do echo 'of before' >"$out/$file"; done
chmod 640 "$out/acc.bil"
mv "$out/bas.bil" "$derive/bas.bil"
ln -s ../bas.bil "$out/bas.bil"
rm "$out/rnk.bil"
mkfifo "$out/rnk.bil"
timeout "$patience" cat "$out/rnk.bil" >"$derive/rnk.bil" &
judge_given 'derived over files, a link and a pipe' 0 "$pit_derived"
wait $!
{ stat -c %a "$out/acc.bil"; readlink "$out/bas.bil"; } >"$scratch/out"
printf '640\n../bas.bil\n' >"$scratch/want"
judge 'permissions and links of derived files' 0 "$scratch/want" 0
for file in acc.hdr acc.bil bas.hdr rnk.hdr; do pit_file "$file" | judge_file 'derived over files, a link and a pipe' "$out/$file"; done
for file in bas.bil rnk.bil; do pit_file "$file" | judge_file 'derived through a link, and into a pipe' "$derive/$file"; done

# Mosaics: real terrain cut into tiles, a tile missing between two.
make_given
heights 0 0 0 0 0 0 0 0 0 | tee "$ground" >"$derive/N00E002.hgt"
sed -i -E 's/^NCOLS .*/NCOLS 7/' "$given/dir.hdr"
numbers 1 0 16 16 9 1 1 0 4 0 64 9 0 4 64 1 0 32 9 64 0 16 >"$given/dir.bil"
judge_by_the_other 'derived with a tile missing between two' --side 3 --products "$given" "$derive/N00E002.hgt" "$ground"
make_given
rm "$ground"
python3 - samples/N36W085.hgt "$derive" <<'PYTHON'
import struct, sys
z = struct.unpack(">118336h", open(sys.argv[1], "rb").read())
for down in range(2):
    for right in range(2):
        tile = [z[344 * (29 * down + row) + 29 * right + col] for row in range(30) for col in range(30)]
        open(f"{sys.argv[2]}/N{37 - down}W{85 - right:03d}.hgt", "wb").write(struct.pack(">900h", *tile))
PYTHON
four=(--side 30 "$derive"/N3*.hgt)
"$drain" make --out "$given" "${four[@]}" >"$scratch/out" 2>"$scratch/err"
judge_by_the_other 'derived from real terrain in four tiles' --products "$given" "${four[@]}"
for name in acc bas; do judge_file 'derived from real terrain in four tiles, as it was made' "$out/$name.bil" <"$given/$name.bil"; done

# Sets of other tools, by the other program; con and dir of SAGA make a correct set with what is derived.
for folder in samples/other-tools/*/; do
    make_given
    judge_by_the_other "derived from other tools, $(basename "$folder")" --side 51 --products "$folder" samples/other-tools/N36W085.hgt
done
make_given
cp samples/other-tools/saga/{con,dir}.{hdr,bil} "$given"
out=$given
judge_derive 'derived from directions of SAGA' 0 'derived rows=51 cols=51' --side 51 --products "$given" --out "$out" samples/other-tools/N36W085.hgt
for command in audit check; do
    judge_words "a set derived from directions of SAGA, by $command" 0 'accepted rows=51 cols=51 data=2601 raised=59 outlets=10' \
        "$command" --side 51 --products "$given" samples/other-tools/N36W085.hgt
done
out=$derive/out
for set in saga-counted:acc.bil saga-counted:bas.bil saga-linear:bas.bil watershed-counted:acc.bil watershed-counted:bas.bil fill-dir:acc.bil fill-dir:bas.bil; do
    make_given
    folder=samples/other-tools/${set%:*} file=${set#*:}
    judge_derive "the bundled $set" 0 'derived rows=51 cols=51' --side 51 --products "$folder" --out "$out" samples/other-tools/N36W085.hgt
    judge_file "the bundled $set" "$folder/$file" <"$out/$file"
done

# What was made from a tile follows from its directions, and with derived ranks a check accepts it too.
make_terrain
make_given
judge_derive 'derived from bundled directions' 0 'derived rows=121 cols=121' --side 121 --products "$terrain" --out "$out" samples/jacksboro/N36W085.hgt
judge_file 'derived from bundled directions' "$out/acc.bil" <"$terrain/acc.bil"
judge_file 'derived from bundled directions' "$out/bas.bil" <"$terrain/bas.bil"
cp "$terrain"/{con,dir}.{hdr,bil} "$out"
judge_check 'a set of derived rasters' 0 'accepted rows=121 cols=121 data=14641 raised=690 outlets=32' \
    --side 121 --products "$out" samples/jacksboro/N36W085.hgt

# Outputs that can't be written: status 3, whatever the line was; and no file takes the place of a stream that is closed.
: >"$scratch/nothing"
for words in "--side 3 --products $given --out $out $ground" "--side 3 --products $given --out $out" "--side 3 --products $given --out $derive/none $ground"; do
    for stream in 'full output' 'closed output' 'closed input and output'; do
        make_given
        : >"$scratch/out"
        case $stream in
            'full output') "$drain" derive $words </dev/null >/dev/full 2>"$scratch/err" ;;
            'closed output') "$drain" derive $words </dev/null >&- 2>"$scratch/err" ;;
            'closed input and output') "$drain" derive $words <&- >&- 2>"$scratch/err" ;;
        esac
        judge "a $stream: derive $words" 3 "$scratch/nothing" $?
        for name in $(ls -A "$out"); do
            judge_file "a $stream: derive $words" "$out/$name" <"$scratch/derived/$name"
        done
    done
done

# No memory, and no file.
make_given
head -c $((2 * 1201 * 1201)) /dev/zero >"$ground"
head -c $((1201 * 1201)) /dev/zero >"$given/dir.bil"
sed -i -E 's/^(NROWS|NCOLS) .*/\1 1201/; s/^(.DIM) .*/\1 0.000833333333333/' "$given/dir.hdr"
want 'failed OutOfMemory'
(ulimit -v 16000 && exec "$drain" derive --products "$given" --out "$out" "$ground") >"$scratch/out" 2>"$scratch/err"
judge 'no memory for derived rasters' 3 "$scratch/want" $?
judge_left 'no memory for derived rasters'

# Words that are refused.
make_given
while IFS= read -r words; do
    "$drain" derive $words </dev/null >"$scratch/out" 2>"$scratch/err"
    judge "refused words: derive $words" 2 "$scratch/nothing" $? words
done <<END
$ground
--products $given $ground
--out $out $ground
--products $given --out
--out $out --out $out --products $given $ground
--products $given --out= $ground
--products= --out $out $ground
--side x --products $given --out $out $ground
--side 4294967296 --products $given --out $out $ground
--only con --products $given --out $out $ground
--products $given --out $out --sinks
END
judge_left 'refused words of derive'
