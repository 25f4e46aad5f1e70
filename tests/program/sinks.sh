# Runs of `drain make` and `drain check` with a list of sinks. Read by part.sh.

list=$work/sinks.txt

# The pit with an empty folder, and a list of these lines.
make_listed() {
    make_ground
    printf '%b' "$1" >"$list"
}

# Compares a check of the pit with the products made: its name, the expected status and line, and further arguments.
judge_listed() {
    judge_check "$1" "$2" "$3" --side 3 --products "$made" "${@:4}" "$ground"
}

# The pit with its centre listed: the numbers of each product, and their check with the list and without.
make_listed '1 1\n'
judge_make 'a listed pit' 0 "$pit_made" --side 3 --out "$made" --sinks "$list" "$ground"
numbers 2 5 5 5 5 1 5 5 5 5 | judge_file 'a listed pit' "$made/con.bil"
numbers 1 2 4 8 1 0 16 128 64 32 | judge_file 'a listed pit' "$made/dir.bil"
numbers 4 1 1 1 1 9 1 1 1 1 | judge_file 'a listed pit' "$made/acc.bil"
numbers 4 1 1 1 1 1 1 1 1 1 | judge_file 'a listed pit' "$made/bas.bil"
numbers 4 0 0 0 0 0 0 0 0 0 | judge_file 'a listed pit' "$made/rnk.bil"
for name in $files; do
    case $name in *.hdr) judge_file 'a listed pit' "$made/$name" <"samples/pit-3/$name" ;; esac
done
judge_listed 'a listed pit with its list' 0 "$sunk_checked" --sinks "$list"
judge_listed 'a listed pit, the list behind an equals sign' 0 "$sunk_checked" --sinks="$list"
judge_check 'a listed pit, the list behind the tile' 0 "$sunk_checked" --side 3 --products "$made" "$ground" --sinks "$list"
judge_listed 'a listed pit without its list' 1 'rejected rule=12 FlatStep row=1 col=1'
cp -r "$made" "$scratch/listed"

# Lists in other words, and what they make of the pit.
while IFS='|' read -r name text; do
    make_listed "$text"
    judge_make "$name" 0 "$pit_made" --side 3 --out "$made" --sinks="$list" "$ground"
    for file in $files; do
        judge_file "$name" "$made/$file" <"$scratch/listed/$file"
    done
    judge_listed "$name" 0 "$sunk_checked" --sinks "$list"
done <<'END'
a list without a last line end|1 1
a list with CR LF|\r\n1 1\r\n\r\n
a cell listed twice|1 1\n1 1\n
a list with cells of the edge|0 0\n1 1\n2 1
words parted by blanks and tabs| \t1  \t 1 \t
numbers with zeros before them|0001 01
END

# Lists that change nothing of the pit: none of them has its centre.
while IFS='|' read -r name text; do
    make_listed "$text"
    judge_make "$name" 0 "$pit_made" --side 3 --out "$made" --sinks "$list" "$ground"
    judge_pit_files "$name" "$made"
    judge_listed "$name" 0 "$pit_checked" --sinks "$list"
    printf '1 1' >"$list"
    judge_listed "$name, and then its centre listed" 1 'rejected rule=5 OpenRaised row=1 col=1' --sinks "$list"
done <<'END'
an empty list|
empty lines alone|\n \r\n\t\n
listed cells of the edge|0 0\n2 2\n1 0\n
END

# Lists that are refused: the first bad line is reported, ignoring empty lines, and only then one without data.
while IFS='|' read -r text line; do
    make_listed "$text"
    cp samples/pit-3/*.hdr samples/pit-3/*.bil "$made"
    judge_listed "a check with the list $text" 2 "$line" --sinks "$list"
    make_listed "$text"
    judge_nothing_made "made with the list $text" 2 "$line" --side 3 --out "$made" --sinks "$list" "$ground"
done <<'END'
1 1\nx|refused BadSinkLine 2
\n\n1\n1 1 1|refused BadSinkLine 3
1 1 1|refused BadSinkLine 1
-1 1|refused BadSinkLine 1
1,1|refused BadSinkLine 1
1.0 1|refused BadSinkLine 1
9 9\n\r\n1 x|refused BadSinkLine 3
0 0\n3 0|refused SinkNotData 2
1 1\n\n\n0 3\n9 9|refused SinkNotData 4
4294967295 4294967295\n|refused SinkNotData 1
END
make_listed '1 1\n\n0 0'
heights - - - - >"$ground"
judge_nothing_made 'a listed void' 2 'refused SinkNotData 1' --side 2 --out "$made" --sinks "$list" "$ground"

# A list is checked after the tiles, and after the lengths of rasters.
make_listed 'x'
judge_nothing_made 'a bad list and a bad side' 2 'refused BadSide' --side 1 --out "$made" --sinks "$list" "$ground"
judge_nothing_made 'a bad list and no tile' 2 'refused NoTiles' --side 3 --out "$made" --sinks "$list"
judge_nothing_made 'a bad list and a bad tile' 2 'refused BadTileLength N00E000.hgt' --side 2 --out "$made" --sinks "$list" "$ground"
heights 1 2 3 4 >"$ground"
heights 9 5 4 6 >"$work/N00E001.hgt"
judge_nothing_made 'a bad list and tiles that differ at a cell' 2 'refused SeamMismatch row=0 col=1' \
    --side 2 --out "$made" --sinks "$list" "$ground" "$work/N00E001.hgt"

# A missing list is reported before any refusal: for a check after the rasters, for the maker after the tiles.
make_listed ''
rm "$list"
cp samples/pit-3/*.hdr samples/pit-3/*.bil "$made"
judge_listed 'a check without its list' 3 "failed Open $list" --sinks "$list"
judge_check 'a check without its list, and a bad side' 3 "failed Open $list" --side 1 --products "$made" --sinks "$list" "$ground"
judge_check 'a check without its list and without a tile' 3 "failed Open $work/none" --products "$made" --sinks "$list" "$work/none"
rm "$made/rnk.bil"
judge_listed 'a check without its list and without a raster' 3 "failed Open $made/rnk.bil" --sinks "$list"
make_listed ''
rm "$list"
judge_nothing_made 'made without its list' 3 "failed Open $list" --side 3 --out "$made" --sinks "$list" "$ground"
judge_nothing_made 'made without its list, and a bad side' 3 "failed Open $list" --side 1 --out "$made" --sinks "$list" "$ground"
judge_nothing_made 'made without its list and without a tile' 3 "failed Open $work/none" --out "$made" --sinks "$list" "$work/none"
judge_nothing_made 'made without its list and without a folder' 3 "failed Open $list" \
    --side 3 --out "$work/none" --sinks "$list" "$ground"

# A folder for the list, and a pipe.
make_listed ''
rm "$list"
mkdir "$list"
cp samples/pit-3/*.hdr samples/pit-3/*.bil "$made"
judge_listed 'a folder for the list of a check' 3 'failed ReadFailed' --sinks "$list"
make_ground
mkdir "$list"
judge_nothing_made 'a folder for the list of a maker' 3 'failed ReadFailed' --side 3 --out "$made" --sinks "$list" "$ground"
make_ground
mkfifo "$list"
{ printf '1'; sleep 0.2; printf ' 1\n'; } >"$list" &
judge_make 'made with a list in a pipe' 0 "$pit_made" --side 3 --out "$made" --sinks "$list" "$ground"
wait $!
judge_file 'made with a list in a pipe' "$made/con.bil" <"$scratch/listed/con.bil"

# A list of more than a chunk: only its last line counts.
make_listed ''
{ yes '0 0' | head -n 20000; echo '1 1'; } >"$list"
judge_make 'made with a list of 20,001 lines' 0 "$pit_made" --side 3 --out "$made" --sinks "$list" "$ground"
judge_file 'made with a list of 20,001 lines' "$made/con.bil" <"$scratch/listed/con.bil"
echo '3 3' >>"$list"
mkdir "$work/anew"
judge_make 'a list whose line 20,002 is outside' 2 'refused SinkNotData 20002' --side 3 --out "$work/anew" --sinks "$list" "$ground"

# Real terrain with local minima listed, also checked by the other program.
make_ground
python3 - samples/jacksboro/N36W085.hgt "$list" <<'PYTHON'
import struct, sys
side = 121
z = struct.unpack(f">{side * side}h", open(sys.argv[1], "rb").read())
around = [row * side + col for row in (-1, 0, 1) for col in (-1, 0, 1) if row or col]
inside = (row * side + col for row in range(1, side - 1) for col in range(1, side - 1))
minima = [cell for cell in inside if all(z[cell] < z[cell + step] for step in around)]
with open(sys.argv[2], "w") as file:
    file.write("".join(f"{cell // side} {cell % side}\n" for cell in minima[::3]))
PYTHON
tile=samples/jacksboro/N36W085.hgt
judge_make 'real terrain with sinks' 0 'made rows=121 cols=121' --side 121 --out "$made" --sinks "$list" "$tile"
line=$("$maker" --verify --sinks "$list" 121 "$tile" "$made")
case $line in
    'accepted rows=121 cols=121 data=14641 raised=690 outlets=32') line='accepted, and with other counts than without sinks' ;;
    'accepted rows=121 cols=121 data=14641 '*) ;;
    *) line='accepted, and not what the other program told' ;;
esac
judge_check 'real terrain with its sinks' 0 "$line" --side 121 --products "$made" --sinks "$list" "$tile"
line=$("$maker" --verify 121 "$tile" "$made")
case $line in
    'rejected rule=12 '*) ;;
    *) line='rejected rule=12, and not what the other program told' ;;
esac
judge_check 'real terrain without its sinks' 1 "$line" --side 121 --products "$made" "$tile"
judge_check 'real terrain filled, and sinks listed' 1 "$("$maker" --verify --sinks "$list" 121 "$tile" samples/jacksboro)" \
    --side 121 --products samples/jacksboro --sinks "$list" "$tile"
"$maker" --sinks "$list" 121 "$tile" "$work/other"
line=$("$maker" --verify --sinks "$list" 121 "$tile" "$work/other")
judge_check "the other program's products of real terrain with sinks" 0 "$line" --side 121 --products "$work/other" --sinks "$list" "$tile"
rm -rf "$work"
