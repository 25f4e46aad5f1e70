# Runs of `drain explain`: with ranks and without, pages of refusals, maps, and files and outputs that fail.
# Read by part.sh; explain.py compares pages and maps with a plain count.

# The same on the tile of side 3 and its products, of the first line alone.
judge_explained() {
    judge_first_line "$1" "$2" "$3" --side 3 --products "$check/out" "${@:4}" "$tile"
}

# The object of a failure with this answer.
object() {
    printf '{"answer":"%s","refusal":null,"rows":null,"cols":null,"ranks":null,"rules":[],"products":[],"patch":null,"expected":null,"run":null,"schema":1,"status":3,"rule":null,"name":null,"row":null,"col":null}' "$1"
}

# Ranks are checked if their files are there.
make_bare
judge_explained 'a pit without ranks, explained' 0 "$pit_checked"
grep -qx 'ranks: not checked' "$scratch/page" || echo 'the page does not say that ranks were not checked' >>"$scratch/err"
judge 'a page without ranks tells so' 0 "$scratch/want" 0
make_pit
judge_explained 'a pit with ranks, explained' 0 "$pit_checked"
numbers 4 0 0 0 0 0 0 0 0 0 >"$check/out/rnk.bil"
judge_explained 'a pit with poor ranks, explained' 1 'rejected rule=12 FlatStep row=1 col=1'
make_pit
rm "$check/out/rnk.hdr"
judge_explained 'ranks without a header, explained' 3 "failed Open $check/out/rnk.hdr"
make_pit
rm "$check/out/rnk.bil"
judge_explained 'ranks without a raster, explained' 3 "failed Open $check/out/rnk.bil"
for what in 'in links to nothing'; do
    make_bare
    put_ranks "$what"
    judge_explained "ranks $what, explained" 0 "$pit_checked"
done

# A look at ranks that fails is reported: their absence is never taken for granted.
make_pit
ln -sf rnk.hdr "$check/out/rnk.hdr"
judge_explained 'a header of ranks that is a link to itself, explained' 3 "failed Open $check/out/rnk.hdr"
make_bare
ln -s rnk.bil "$check/out/rnk.bil"
judge_explained 'ranks that are a link to themselves, explained' 3 "failed Open $check/out/rnk.bil"
make_bare

# Arguments in any order; a map with another ending, or none, is a usage error.
judge_first_line 'options of an explanation behind the tile' 0 "$pit_checked" "$tile" --products="$check/out/" --side=3
for words in '--map=' '--map faults' '--map faults.hdr' '--map faults.BIL' '--map' '--map a.bil --map b.bil' '--out a'; do
    want -
    timeout "$patience" "$drain" explain $words --products "$check/out" "$tile" >"$scratch/out" 2>"$scratch/err"
    judge "an explanation with $words" 2 "$scratch/want" $? words
done

# Files that are not there: each is opened before anything is refused, in the order of an audit.
for name in N00E000.hgt out/{con,dir,acc,bas}.{hdr,bil}; do
    make_bare
    rm "$check/$name"
    judge_explained "an explanation without $name" 3 "failed Open $check/$name" --map "$faults"
    judge_folder "no map without $name" "$check" $(ls -A "$check")
done
make_bare
judge_explained 'an explanation without its list of sinks' 3 "failed Open $check/none" --sinks "$check/none"
judge_explained 'the same as JSON' 3 "$(object "failed Open $check/none")" --json --sinks "$check/none"
judge_explained 'a list of sinks that is a folder, as JSON' 3 "$(object 'failed ReadFailed')" --json --sinks "$check"
judge_first_line 'a tile that is not there, as JSON' 3 "$(object 'failed Open a\"b\\c')" --side 3 --products "$check/out" --json 'a"b\c'
judge_explained 'a map in a folder that is not there, as JSON' 3 "$(object "failed Open $check/none/faults.hdr")" --json --map "$check/none/faults.bil"

# Refusals, each with what was expected and found, and no map of them.
make_bare
tiles=("$tile")
of_side=1 refused 'a side' <<'END'
refused BadSide

expected: a side from 2 to 3601
found: 1
END
cp "$tile" "$check/x.hgt"
tiles=("$tile" "$check/x.hgt")
refused 'a name' <<'END'
refused BadName 1

expected: the name of a tile, such as N36W085.hgt
found: x.hgt
END
tiles=()
refused 'no tiles' <<'END'
refused NoTiles
END
tiles=("$tile" "$tile")
refused 'a tile twice' <<'END'
refused RepeatedTile N00E000.hgt
END
tiles=("$tile")
sed -i 's/^NROWS 3/NROWS 5/' "$check/out/dir.hdr"
refused 'rows' <<'END'
refused WrongShape dir

expected: dir with 3 rows and 3 columns
found: dir with 5 rows and 3 columns
END
make_bare
sed -i 's/^ULYMAP 1/ULYMAP 2/' "$check/out/acc.hdr"
refused 'a place' <<'END'
refused Misplaced acc

expected: acc at ULXMAP 0.000000000000000, ULYMAP 1.000000000000000, XDIM 0.500000000000000, YDIM 0.500000000000000
found: acc at ULXMAP 0.000000000000000, ULYMAP 2.000000000000000, XDIM 0.500000000000000, YDIM 0.500000000000000
END
make_bare
sed -i '/^YDIM/d' "$check/out/con.hdr"
refused 'a header' <<'END'
refused BadHeader con MissingKey YDIM
END
make_bare
truncate -s 19 "$tile"
refused 'the length of a tile' <<'END'
refused BadTileLength N00E000.hgt

expected: N00E000.hgt of 18 bytes
found: N00E000.hgt of 19 bytes
END
make_bare
truncate -s 35 "$check/out/bas.bil"
refused 'a short raster' <<'END'
refused RasterShort bas

expected: bas.bil of 36 bytes
found: bas.bil of 35 bytes
END
printf 'SKIPBYTES 7\nTOTALROWBYTES 20\n' >>"$check/out/bas.hdr"
head -c 58 /dev/zero >"$check/out/bas.bil"
refused 'a short raster with bytes in front of it and between its rows' <<'END'
refused RasterShort bas

expected: bas.bil of 59 bytes
found: bas.bil of 58 bytes
END
make_bare
printf '5 6\n\n1 1 1\n' >"$check/sinks.txt"
listed=1 refused 'a line of sinks' <<'END'
refused BadSinkLine 3

expected: line 3: a row and a column, such as 12 7
found: line 3: 1 1 1
END
# Of a long line the first 80 bytes are shown, also where there is memory for one such line and not for two.
x80=$(head -c 80 /dev/zero | tr '\0' x)
{ printf '5 6\n'; printf '%s\n' "$x80"; } >"$check/sinks.txt"
listed=1 refused 'a line of 80 bytes' <<END
refused BadSinkLine 2

expected: line 2: a row and a column, such as 12 7
found: line 2: $x80
END
{ printf '5 6\n'; head -c 50000000 /dev/zero | tr '\0' x; } >"$check/sinks.txt"
listed=1 refused 'a line of 50 MB' <<END
refused BadSinkLine 2

expected: line 2: a row and a column, such as 12 7
found: line 2, the first 80 of 50000000 bytes: $x80
END
for form in '' --json; do
    words="explain --side 3 --products $check/out --sinks $check/sinks.txt $form $tile"
    "$drain" $words >"$scratch/want" 2>"$scratch/err"
    (ulimit -v 150000 && exec "$drain" $words) >"$scratch/out" 2>"$scratch/err"
    judge "a line of 50 MB and little memory: explain $form" 2 "$scratch/want" $?
done
printf '\n5 6\n' >"$check/sinks.txt"
listed=1 refused 'a sink outside' <<'END'
refused SinkNotData 2

expected: line 2: a data cell
found: row 5, column 6, outside the mosaic
END
printf '1 2\n' >"$check/sinks.txt"
printf '\0\5\0\5\0\5\0\5\0\1\200\0\0\5\0\5\0\5' >"$tile"
listed=1 refused 'a sink at a void' <<'END'
refused SinkNotData 1

expected: line 1: a data cell
found: row 1, column 2, a void
END
make_bare
printf '\0\6\0\6\0\6\0\6\0\6\0\6\0\6\0\7\0\5' >"$check/N01E000.hgt"
for name in con dir acc bas; do sed -i 's/^NROWS 3/NROWS 5/; s/^ULYMAP 1/ULYMAP 2/' "$check/out/$name.hdr"; truncate -s 60 "$check/out/$name.bil"; done
tiles=("$tile" "$check/N01E000.hgt")
refused 'a seam' <<'END'
refused SeamMismatch row=2 col=0

expected: one height at the cell: N00E000.hgt has 5
found: N01E000.hgt has 6
END
sed -i 's/^NROWS 5/NROWS 3/' "$check/out/dir.hdr"
refused 'rows and columns of two tiles' <<'END'
refused WrongShape dir

expected: dir with 5 rows and 3 columns
found: dir with 3 rows and 3 columns
END
sed -i 's/^NROWS 3/NROWS 5/' "$check/out/dir.hdr"

# A tile or a raster in a pipe isn't opened again: nothing is reported of it but the line.
mv "$check/N01E000.hgt" "$scratch/bytes"
mkfifo "$check/N01E000.hgt"
cat "$scratch/bytes" >"$check/N01E000.hgt" &
refused 'a seam with a tile in a pipe' <<'END'
refused SeamMismatch row=2 col=0
END
wait $!
make_bare
tiles=("$tile")
mv "$check/out/bas.bil" "$scratch/bytes"
mkfifo "$check/out/bas.bil"
head -c 35 "$scratch/bytes" >"$check/out/bas.bil" &
refused 'a short raster in a pipe' <<'END'
refused RasterShort bas
END
wait $!

# Degrees of less than a thousandth, south of the equator and west of the meridian: numbers at voids of side 1201.
make_bare
python3 - "$check" <<'PYTHON'
import struct, sys
folder, side = sys.argv[1], 1201
cells = side * side
places = {"con": (1, 1199), "dir": (12, 1188), "acc": (120, 1080), "bas": None}
numbers = {"con": ("h", -32768), "dir": ("B", 255), "acc": ("I", 0), "bas": ("I", 0)}
open(f"{folder}/S01W001.hgt", "wb").write(struct.pack(">h", -32768) * cells)
for name, (form, nodata) in numbers.items():
    pixels = bytearray(struct.pack(f"<{form}", nodata) * cells)
    if places[name]:
        row, col = places[name]
        struct.pack_into(f"<{form}", pixels, struct.calcsize(form) * (side * row + col), 7)
    open(f"{folder}/out/{name}.bil", "wb").write(pixels)
PYTHON
sed -i -E 's/^(NROWS|NCOLS) .*/\1 1201/; s/^ULXMAP .*/ULXMAP -1/; s/^ULYMAP .*/ULYMAP 0/; s/^(.DIM) .*/\1 0.000833333333333/' "$check"/out/*.hdr
judge_page 'degrees of less than a thousandth' 1 --products "$check/out" "$check/S01W001.hgt" <<'END'
rejected rule=1 VoidCell row=1 col=1199

rule                cells    row column     longitude      latitude
1 VoidCell              3      1   1199    -0.0008333    -0.0008333
  con                   1      1   1199    -0.0008333    -0.0008333
  dir                   1     12   1188    -0.0100000    -0.0100000
  acc                   1    120   1080    -0.1000000    -0.1000000
hold: 2 Missing, 3 BadCode, 4 BelowGround, 5 OpenRaised, 9 NotLeast, 10 Slope, 11 OutletCode, 12 FlatStep, 13 Accumulation, 14 Label, 15 SharedLabel
not tried: 6 NoSpill, 7 SpillHeight, 8 SpillRank
ranks: not checked

first fault: row 1, column 1199, longitude -0.0008333, latitude -0.0008333
- outside the mosaic, * listed as a sink
ground
         void         void         void
         void         void         void
         void         void         void
con
      no data      no data      no data
      no data            7      no data
      no data      no data      no data
dir
      no data      no data      no data
      no data      no data      no data
      no data      no data      no data
acc
      no data      no data      no data
      no data      no data      no data
      no data      no data      no data
bas
      no data      no data      no data
      no data      no data      no data
      no data      no data      no data
rule 1 VoidCell
expected: no data at a void, in con
END
rm "$check/S01W001.hgt"
make_bare

# Maps. Files that are there are replaced, and nothing else is touched.
make_bare
numbers 4 1 1 1 1 1 1 1 1 1 >"$check/out/acc.bil"
head -c 100 /dev/zero >"$faults"
judge_explained 'a map of a wrong count' 1 'rejected rule=13 Accumulation row=1 col=2' --map "$faults"
numbers 1 0 0 0 0 0 13 0 0 0 | cmp - "$faults" >"$scratch/out" 2>&1
judge 'the bytes of a map' 0 /dev/null $?
want 'BYTEORDER I'
"$drain" header "$faults_header" >"$scratch/page"
cmp "$scratch/page" "$faults_header" >"$scratch/out" 2>&1
judge 'the header of a map is one that this program writes' 0 /dev/null $?
judge_explained 'a map in a folder that is not there' 3 "failed Open $check/none/faults.hdr" --map "$check/none/faults.bil"
rm "$faults" "$faults_header"
mkdir "$faults"
judge_explained 'a map in place of a folder' 3 "failed Open $faults" --map "$faults"
rmdir "$faults"
for file in "$faults" "$faults_header"; do
    ln -sf /dev/full "$file"
    judge_explained "a full disk for ${file##*/}" 3 'failed WriteFailed' --map "$faults"
    judge_explained "a full disk for ${file##*/}, with JSON" 3 "$(object 'failed WriteFailed')" --map "$faults" --json
    judge_folder "a full disk for ${file##*/}: names" "$check" $(ls -A "$check" | grep -v '^faults') "${file##*/}"
    rm "$file"
done

# A limit on the size of files, which the map of real terrain reaches: the map that was there stays.
mkdir "$check/terrain"
"$drain" make --side 344 --out "$check/terrain" samples/N36W085.hgt >"$scratch/out"
echo 'of before' | tee "$faults" >"$faults_header"
want 'failed WriteFailed'
(trap '' XFSZ && ulimit -f 100 && exec "$drain" explain --side 344 --products "$check/terrain" --map "$faults" samples/N36W085.hgt) >"$scratch/out" 2>"$scratch/err"
judge 'a map that grows too large' 3 "$scratch/want" $?
printf 'of before\nof before\n' >"$scratch/want"
cat "$faults" "$faults_header" >"$scratch/out" 2>"$scratch/err"
judge 'the map that was there before one that grows too large' 0 "$scratch/want" 0
judge_folder 'names beside a map that grows too large' "$check" $(ls -A "$check" | grep -v '^drain-')
rm -r "$check/terrain" "$faults" "$faults_header"

# A map over a file that is read, by any path, is a usage error, and the files stay as they are: also by a second name of the
# file, and where the whole path is longer than the system's limit.
make_pit
rm -f "$faults" "$faults_header"
printf '1 1\n' >"$check/list.hdr"
cp "$check/list.hdr" "$check/list.bil"
ln -s "$tile" "$check/tile_linked.bil"
ln -s out/acc.bil "$check/acc_linked.bil"
ln -s out "$check/out_linked"
ln "$check/out/con.bil" "$check/con_second.bil"
ln "$check/out/dir.hdr" "$check/dir_second.hdr"
ln "$tile" "$check/tile_second.bil"
cat "$tile" "$check"/list.* "$check"/out/* | cksum >"$scratch/before"
for over in out/{con,dir,acc,bas,rnk}.bil out/../out/con.bil out_linked/bas.bil tile_linked.bil acc_linked.bil {con,dir,tile}_second.bil list.bil; do
    for sinks in '' list.hdr list.bil; do
        [ "$over" != list.bil ] || [ -n "$sinks" ] || continue
        want -
        timeout "$patience" "$drain" explain --side 3 --products "$check/out" --map "$check/$over" ${sinks:+--sinks "$check/$sinks"} "$tile" >"$scratch/out" 2>"$scratch/err"
        judge "a map over $over, sinks ${sinks:-none}" 2 "$scratch/want" $? words
    done
done
: >"$scratch/err"
cat "$tile" "$check"/list.* "$check"/out/* | cksum >"$scratch/out"
judge 'files that are read stay as they are' 0 "$scratch/before" 0
rm "$check"/list.* "$check"/*_linked* "$check"/*_second*

# The same in a folder whose whole path has more than 4,096 bytes.
name=$(printf 'd%.0s' {1..200})
(
    cd "$check" || exit
    for _ in {1..25}; do mkdir "$name" && cd "$name" || exit; done
    cp -r "$check/out" . && cp "$tile" . || exit
    timeout "$patience" "$drain" explain --side 3 --products out --map out/con.bil N00E000.hgt >"$scratch/out" 2>"$scratch/err"
    echo $? >"$scratch/status"
    cmp out/con.bil "$check/out/con.bil" && cmp out/con.hdr "$check/out/con.hdr"
) >"$scratch/compared" 2>&1 </dev/null
: >"$scratch/want"
judge 'a map over con.bil by a long path' 2 "$scratch/want" "$(cat "$scratch/status")" words
: >"$scratch/err"
cp "$scratch/compared" "$scratch/out"
judge 'con.bil by a long path stays as it is' 0 "$scratch/want" 0
rm -rf "$check/$name"

# By a second mount of the folder, where this user can make one.
mkdir "$check/mounted"
: >"$scratch/out"
: >"$scratch/err"
if unshare -m true 2>"$scratch/byte" && unshare -m mount --bind "$check/out" "$check/mounted" 2>"$scratch/byte"; then
    cat "$check"/out/* | cksum >"$scratch/before"
    for over in con rnk; do
        unshare -m sh -c 'mount --bind "$1/out" "$1/mounted" && exec "$2" explain --side 3 --products "$1/out" --map "$1/mounted/$3.bil" "$4"' \
            mounted "$check" "$drain" "$over" "$tile" >"$scratch/out" 2>"$scratch/err"
        judge "a map over $over.bil by a second mount" 2 "$scratch/want" $? words
    done
    : >"$scratch/err"
    cat "$check"/out/* | cksum >"$scratch/out"
    judge 'files by a second mount stay as they are' 0 "$scratch/before" 0
fi
rmdir "$check/mounted"

# A map whose header and raster are one file: a usage error if the file is there, else a failure. Nothing is written.
make_bare
echo 'of before' >"$faults_header"
ln -s faults.hdr "$faults"
want -
timeout "$patience" "$drain" explain --side 3 --products "$check/out" --map "$faults" "$tile" >"$scratch/out" 2>"$scratch/err"
judge 'a map that is a link to its header' 2 "$scratch/want" $? words
want 'of before'
cat "$faults_header" >"$scratch/out" 2>"$scratch/err"
judge 'the header that a map is a link to' 0 "$scratch/want" 0
rm "$faults_header"
judge_explained 'a map that is a link to its header, which is not there' 3 "failed Open $faults" --map "$faults"
judge_folder 'no header by way of its map' "$check" $(ls -A "$check" | grep -v '^drain-\|^faults') faults.bil
rm "$faults"

# A map with the name of a product in the folder of the products is a usage error, by any way to the folder: a later run
# would take it for that product.
ln -s out "$check/out_linked"
for map in out/rnk.bil ./out/../out/rnk.bil out_linked/rnk.bil out//rnk.bil; do
    want -
    timeout "$patience" "$drain" explain --side 3 --products "$check/out" --map "$check/$map" "$tile" >"$scratch/out" 2>"$scratch/err"
    judge "a map named as ranks: $map" 2 "$scratch/want" $? words
done
(cd "$check/out" && timeout "$patience" "$drain" explain --side 3 --products . --map rnk.bil "$tile") >"$scratch/out" 2>"$scratch/err"
judge 'a map named as ranks in the folder that it runs in' 2 "$scratch/want" $? words
: >"$scratch/err"
judge_folder 'no ranks by way of a map' "$check/out" {con,dir,acc,bas}.{hdr,bil}
judge_explained 'a map named as a product elsewhere' 0 "$pit_checked" --map "$check/rnk.bil"
judge_explained 'a map of another name beside the products' 0 "$pit_checked" --map "$check/out/faults.bil"
rm "$check"/rnk.* "$check"/out/faults.* "$check/out_linked"

# Outputs that can't be written: status 3, whatever the line was; and where standard output is closed no map is begun.
: >"$scratch/want"
: >"$scratch/out"
make_bare
rm -f "$faults" "$faults_header"
for words in '' '--json' "--map $faults" "--map $faults --json"; do
    "$drain" explain --side 3 --products "$check/out" $words "$tile" >/dev/full 2>"$scratch/err"
    judge "a full standard output: explain $words" 3 "$scratch/want" $?
    rm -f "$faults" "$faults_header"
    "$drain" explain --side 3 --products "$check/out" $words "$tile" >&- 2>"$scratch/err"
    judge "a closed standard output: explain $words" 3 "$scratch/want" $?
    [ ! -e "$faults" ]
    judge "no map over a closed standard output: explain $words" 0 "$scratch/want" $?
done
