# Runs of `drain make`, and `drain check` on its output. Read by part.sh.

make_ground
judge_make 'a pit' 0 "$pit_made" --side 3 --out "$made" "$ground"
judge_pit_files 'a pit' "$made"
numbers 2 5 5 5 5 5 5 5 5 5 | judge_file 'a pit, number by number' "$made/con.bil"
ls -A "$made" >"$scratch/out"
printf '%s\n' $files | LC_ALL=C sort >"$scratch/want"
judge 'ten files and no other' 0 "$scratch/want" 0
judge_check 'the products made of a pit' 0 "$pit_checked" --side 3 --products "$made" "$ground"

# The words in any order, and names in any letter case.
make_ground
judge_make 'options behind the tiles, and a slash behind the folder' 0 "$pit_made" "$ground" --out="$made/" --side=3
judge_pit_files 'options behind the tiles' "$made"
make_ground
judge_make 'tiles behind two dashes' 0 "$pit_made" --side 3 --out "$made" -- "$ground"
judge_pit_files 'tiles behind two dashes' "$made"
make_ground
want "$pit_made"
(cd "$made" && timeout "$patience" "$drain" make --side 3 --out . ../N00E000.hgt >"$scratch/out" 2>"$scratch/err")
judge 'made in the folder that it runs in' 0 "$scratch/want" $?
judge_pit_files 'made in the folder that it runs in' "$made"
make_ground
mv "$ground" "$work/n00e000.HGT"
judge_make 'made of a tile named in small letters' 0 "$pit_made" --side 3 --out "$made" "$work/n00e000.HGT"
judge_pit_files 'made of a tile named in small letters' "$made"

# Files that were there before are replaced whole, but not by a run that makes nothing.
make_ground
for name in $files; do
    yes 'of before' | head -c 1000 >"$made/$name"
done
cp -r "$made" "$work/before"
cp "$ground" "$work/x"
judge_make 'a bad name where files are' 2 'refused BadName 0' --side 3 --out "$made" "$work/x"
for name in $files; do
    judge_file 'files after a refusal' "$made/$name" <"$work/before/$name"
done
judge_make 'made over longer files' 0 "$pit_made" --side 3 --out "$made" "$ground"
judge_pit_files 'made over longer files' "$made"

# Files of spill parents that were there before stay as they are: the maker writes none.
make_ground
echo 'of before' | tee "$made/spl.hdr" >"$made/spl.bil"
judge_make 'made beside spill parents' 0 "$pit_made" --side 3 --out "$made" "$ground"
judge_pit_files 'made beside spill parents' "$made"
for name in spl.hdr spl.bil; do
    echo 'of before' | judge_file 'made beside spill parents' "$made/$name"
done
make_ground
mkfifo "$made/spl.hdr" "$made/spl.bil"
judge_make 'made beside pipes for spill parents' 0 "$pit_made" --side 3 --out "$made" "$ground"
judge_check 'the products made beside pipes for spill parents' 0 "$pit_checked" --side 3 --products "$made" "$ground"

# Real terrain, also checked by another program, with the counts of another maker's products for it.
real=samples/N36W085.hgt
make_ground
judge_make 'real terrain of side 344' 0 'made rows=344 cols=344' --side 344 --out "$made" "$real"
real_checked='accepted rows=344 cols=344 data=118336 raised=5200 outlets=115'
judge_check 'products made of real terrain' 0 "$real_checked" --side 344 --products "$made" "$real"
"$maker" --verify 344 "$real" "$made" >"$scratch/out" 2>"$scratch/err"
judge 'products made of real terrain, by the other program' 0 "$scratch/want" $?
printf '\xff\xff\xff\x7f' | dd of="$made/acc.bil" bs=1 seek=$((4 * (344 * 200 + 100))) conv=notrunc status=none
"$maker" --verify 344 "$real" "$made" >"$scratch/line"
case $(cat "$scratch/line") in
    'rejected rule=13 '*) line=$(cat "$scratch/line") ;;
    *) line='rejected rule=13, and not what the other program told' ;;
esac
judge_check 'a sum changed that was made of real terrain' 1 "$line" --side 344 --products "$made" "$real"

# The same terrain, lowered so that its heights go from below the sea to above it: only the heights change.
make_ground
mkdir "$work/lowered"
python3 - "$real" "$work/lowered/N36W085.hgt" <<'PYTHON'
import struct, sys
samples = struct.unpack(">118336h", open(sys.argv[1], "rb").read())
middle = (min(samples) + max(samples)) // 2
open(sys.argv[2], "wb").write(struct.pack(">118336h", *(sample - middle for sample in samples)))
PYTHON
judge_make 'real terrain, lowered to the sea' 0 'made rows=344 cols=344' --side 344 --out "$made" "$work/lowered/N36W085.hgt"
judge_check 'products made of lowered terrain' 0 "$real_checked" --side 344 --products "$made" "$work/lowered/N36W085.hgt"
"$drain" make --side 344 --out "$work/lowered" "$real" >"$scratch/out" 2>"$scratch/err"
for name in dir acc bas rnk; do
    judge_file 'lowered terrain' "$made/$name.bil" <"$work/lowered/$name.bil"
done

# Rough ground of heights from -3 to 3, a void among eleven cells, also checked by the other program.
for seed in 1 2 3; do
    make_ground
    python3 - "$seed" "$ground" <<'PYTHON'
import random, struct, sys
random.seed(int(sys.argv[1]))
heights = (-32768 if random.random() < 1 / 11 else random.randint(-3, 3) for _ in range(65 * 65))
open(sys.argv[2], "wb").write(struct.pack(">4225h", *heights))
PYTHON
    judge_make "rough ground $seed over the sea" 0 'made rows=65 cols=65' --side 65 --out "$made" "$ground"
    line=$("$maker" --verify 65 "$ground" "$made")
    case $line in
        'accepted rows=65 cols=65 '*) ;;
        *) line='accepted, and not what the other program told' ;;
    esac
    judge_check "products made of rough ground $seed" 0 "$line" --side 65 --products "$made" "$ground"
done

# A funnel of side 1201, from 600 metres below the sea to 600 above: every cell drains through the one outlet in its north edge.
make_ground
python3 - "$ground" <<'PYTHON'
import struct, sys
heights = (max(row, abs(col - 600)) - 600 for row in range(1201) for col in range(1201))
open(sys.argv[1], "wb").write(struct.pack(">1442401h", *heights))
PYTHON
judge_make 'a funnel' 0 'made rows=1201 cols=1201' --out "$made" "$ground"
judge_check 'products made of a funnel' 0 'accepted rows=1201 cols=1201 data=1442401 raised=0 outlets=1' --products "$made" "$ground"
dd if="$made/acc.bil" bs=4 skip=600 count=1 status=none >"$scratch/out"
numbers_of_32_bits 1442401 >"$scratch/want"
judge 'the count at the outlet of a funnel' 0 "$scratch/want" 0
rm -rf "$work"

# Mosaics: a tile missing between two, in either order of the arguments; a seam that agrees; only voids.
for order in 'N00E000 N00E002' 'N00E002 N00E000'; do
    make_ground
    heights 0 0 0 0 0 0 0 0 0 | tee "$ground" >"$work/N00E002.hgt"
    read -r first second <<<"$order"
    set -- --side 3 "$work/$first.hgt" "$work/$second.hgt"
    judge_make "a tile missing between $order" 0 'made rows=3 cols=7' --out "$made" "$@"
    judge_check "products of $order" 0 'accepted rows=3 cols=7 data=18 raised=0 outlets=16' --products "$made" "$@"
    for row in 0 1 2; do printf '\0\0\0\0\0\0\0\x80\0\0\0\0\0\0'; done | judge_file "products of $order" "$made/con.bil"
done
make_ground
heights 1 2 3 4 >"$ground"
heights 2 5 4 6 >"$work/N00E001.hgt"
judge_make 'two tiles that agree' 0 'made rows=2 cols=3' --side 2 --out "$made" "$ground" "$work/N00E001.hgt"
numbers 2 1 2 5 3 4 6 | judge_file 'two tiles that agree' "$made/con.bil"
judge_check 'products of two tiles that agree' 0 'accepted rows=2 cols=3 data=6 raised=0 outlets=1' \
    --side 2 --products "$made" "$ground" "$work/N00E001.hgt"
make_ground
heights - - - - >"$ground"
judge_make 'voids alone' 0 'made rows=2 cols=2' --side 2 --out "$made" "$ground"
judge_check 'products of voids alone' 0 'accepted rows=2 cols=2 data=0 raised=0 outlets=0' --side 2 --products "$made" "$ground"
printf '\0\x80\0\x80\0\x80\0\x80' | judge_file 'voids alone' "$made/con.bil"
printf '\xff\xff\xff\xff' | judge_file 'voids alone' "$made/dir.bil"
for name in acc bas; do numbers 4 0 0 0 0 | judge_file 'voids alone' "$made/$name.bil"; done
head -c 16 /dev/zero | tr '\0' '\377' | judge_file 'voids alone' "$made/rnk.bil"

# Real terrain cut into tiles of side 44, two by two and two by four; the other program's audit follows each path.
for across in 2 4; do
    make_ground
    rm "$ground"
    python3 - "$real" "$work" $across <<'PYTHON'
import struct, sys
path, folder, across = sys.argv[1], sys.argv[2], int(sys.argv[3])
z = struct.unpack(">118336h", open(path, "rb").read())
for down in range(2):
    for right in range(across):
        rows = (344 * (43 * down + row) + 43 * right for row in range(44))
        tile = [z[first + col] for first in rows for col in range(44)]
        open(f"{folder}/N{37 - down}W{85 - right:03d}.hgt", "wb").write(struct.pack(">1936h", *tile))
PYTHON
    judge_make "real terrain in $((2 * across)) tiles" 0 "made rows=87 cols=$((43 * across + 1))" --side 44 --out "$made" "$work"/N3*.hgt
    line=$("$here/audit.py" --side 44 --products "$made" "$work"/N3*.hgt)
    case $line in
        "accepted rows=87 cols=$((43 * across + 1)) "*) ;;
        *) line='accepted, and not what the other program told' ;;
    esac
    judge_check "products made of real terrain in $((2 * across)) tiles" 0 "$line" --side 44 --products "$made" "$work"/N3*.hgt
    judge_words "products made of real terrain in $((2 * across)) tiles, audited" 0 "$line" audit --side 44 --products "$made" "$work"/N3*.hgt
done

# The greatest drop.
make_ground
{ for _ in 1 2 3 4; do printf '\x80\1'; done; printf '\x7f\xff'; for _ in 1 2 3 4; do printf '\x80\1'; done; } >"$ground"
judge_make 'a peak over a plain' 0 "$pit_made" --side 3 --out "$made" "$ground"
judge_check 'products of a peak over a plain' 0 'accepted rows=3 cols=3 data=9 raised=0 outlets=8' --side 3 --products "$made" "$ground"
numbers 1 0 0 0 0 1 0 0 0 0 | judge_file 'a peak over a plain' "$made/dir.bil"

# A header in the south and west, with samples a degree apart.
heights 1 2 3 4 >"$work/S10W070.hgt"
judge_make 'a tile in the south and west' 0 'made rows=2 cols=2' --side 2 --out "$made" "$work/S10W070.hgt"
printf '%s\n' 'BYTEORDER I' 'LAYOUT BIL' 'NROWS 2' 'NCOLS 2' 'NBANDS 1' 'NBITS 32' 'BANDROWBYTES 8' 'TOTALROWBYTES 8' \
    'SKIPBYTES 0' 'PIXELTYPE UNSIGNEDINT' 'ULXMAP -70.000000000000000' 'ULYMAP -9.000000000000000' \
    'XDIM 1.000000000000000' 'YDIM 1.000000000000000' 'NODATA 4294967295' |
    judge_file 'a tile in the south and west' "$made/rnk.hdr"

# Refusals, after which no file was made.
make_ground
cp "$ground" "$work/x"
cp "$ground" "$work/N00E008.hgt"
judge_nothing_made 'made of a name that is no tile' 2 'refused BadName 0' --side 3 --out "$made" "$work/x"
judge_nothing_made 'made with a second name that is no tile' 2 'refused BadName 1' --side 3 --out "$made" "$ground" "$work/x"
for side in 0 1 3602; do
    judge_nothing_made "made with side $side" 2 'refused BadSide' --side $side --out "$made" "$ground"
    judge_nothing_made "made with side $side and a bad name" 2 'refused BadSide' --side $side --out "$made" "$work/x"
done
judge_nothing_made 'made of no tile' 2 'refused NoTiles' --side 3 --out "$made"
judge_nothing_made 'made of one tile twice' 2 'refused RepeatedTile N00E000.hgt' --side 3 --out "$made" "$ground" "$ground"
judge_nothing_made 'made of tiles too far apart' 2 'refused BoxTooLarge' --side 3 --out "$made" "$ground" "$work/N00E008.hgt"
judge_nothing_made 'made with the default side' 2 'refused BadTileLength N00E000.hgt' --out "$made" "$ground"
for bytes in 0 17 19; do
    make_ground
    { cat "$ground"; echo; } | head -c $bytes >"$scratch/tile" && mv "$scratch/tile" "$ground"
    judge_nothing_made "made of a tile of $bytes bytes" 2 'refused BadTileLength N00E000.hgt' --side 3 --out "$made" "$ground"
done
make_ground
heights 1 2 3 4 >"$ground"
heights 9 5 4 6 >"$work/N00E001.hgt"
judge_nothing_made 'made of tiles that differ at a cell' 2 'refused SeamMismatch row=0 col=1' \
    --side 2 --out "$made" "$ground" "$work/N00E001.hgt"

# Tiles that can't be opened or read.
make_ground
mkdir "$work/N00E001.hgt"
judge_nothing_made 'made of a tile that is not there' 3 "failed Open $work/N01E000.hgt" --side 3 --out "$made" "$work/N01E000.hgt"
judge_nothing_made 'made of a second tile that is not there' 3 "failed Open $work/x" --side 3 --out "$made" "$ground" "$work/x"
judge_nothing_made 'made of a folder' 3 'failed ReadFailed' --side 3 --out "$made" "$ground" "$work/N00E001.hgt"

# Files that can't be opened, which comes after every refusal. Nothing else is made, and nothing is left.
for folder in "$work/none" "$work/none/" "$ground"; do
    judge_nothing_made "no folder at $folder" 3 "failed Open ${folder%/}/con.hdr" --side 3 --out "$folder" "$ground"
    judge_nothing_made "a bad tile, and no folder at $folder" 2 'refused BadTileLength N00E000.hgt' --side 2 --out "$folder" "$ground"
done

for name in $files; do
    make_ground
    mkdir "$made/$name"
    judge_make "a folder for $name to be made" 3 "failed Open $made/$name" --side 3 --out "$made" "$ground"
    judge_names "a folder for $name to be made" "$name"
done

# Files that can't be written: a set that was there stays byte for byte, and where there was none nothing is left.
make_ground
"$drain" make --side 3 --out "$made" "$ground" >"$scratch/out" 2>&1
mv "$made" "$scratch/whole"

# Compares the files of a set that was there before, except one, and looks for others.
judge_kept() {
    local name
    judge_names "$1" $files
    for name in $files; do
        [ "$name" = "${2:-}" ] || judge_file "$1" "$made/$name" <"$scratch/other/$name"
    done
}
make_ground
heights 9 8 7 6 5 4 3 2 1 >"$ground"
"$drain" make --side 3 --out "$made" "$ground" >"$scratch/out" 2>&1
mv "$made" "$scratch/other"
for name in $files; do
    make_ground
    ln -s /dev/full "$made/$name"
    judge_make "a full device for $name" 3 'failed WriteFailed' --side 3 --out "$made" "$ground"
    judge_names "a full device for $name" "$name"
    cp -n "$scratch"/other/* "$made"
    judge_make "a full device for $name, in a set" 3 'failed WriteFailed' --side 3 --out "$made" "$ground"
    judge_kept "a full device for $name, in a set" "$name"
    rm "$made/$name"
    mkdir "$made/$name"
    judge_make "a folder for $name, in a set" 3 "failed Open $made/$name" --side 3 --out "$made" "$ground"
    judge_kept "a folder for $name, in a set" "$name"
done

# A limit on the size of files, which a raster of real terrain reaches.
make_ground
cp "$scratch"/other/* "$made"
want 'failed WriteFailed'
(trap '' XFSZ && ulimit -f 100 && exec "$drain" make --side 344 --out "$made" "$real") >"$scratch/out" 2>"$scratch/err"
judge 'files that grow too large' 3 "$scratch/want" $?
judge_kept 'files that grow too large'

# A run that is killed while it writes: a set that was there stays, except the product in a pipe.
make_ground
cp "$scratch"/other/* "$made"
rm "$made/rnk.bil"
mkfifo "$made/rnk.bil"
exec 3<>"$made/rnk.bil"
"$drain" make --side 344 --out "$made" "$real" >"$scratch/out" 2>"$scratch/err" 3<&- &
maker_run=$!
timeout "$patience" head -c 1 <&3 >"$scratch/byte" && kill -9 $maker_run
wait $maker_run 2>/dev/null
came=$?
exec 3<&-
want -
judge 'a maker that is killed' 137 "$scratch/want" $came
[ -e "$made/drain-1.part" ] || echo 'the killed run was not in the middle' >"$scratch/err"
judge 'a maker that is killed in the middle' 0 "$scratch/want" 0
for name in $files; do
    [ "$name" = rnk.bil ] || judge_file 'a maker that is killed' "$made/$name" <"$scratch/other/$name"
done

# What a killed run left does not get in the way of the next, and stays as it is.
rm "$made/rnk.bil"
left=$(ls -A "$made" | grep '^drain-')
cat "$made"/drain-* | cksum >"$scratch/left"
judge_make 'made beside the rest of a killed run' 0 "$pit_made" --side 3 --out "$made" "$ground"
judge_pit_files 'made beside the rest of a killed run' "$made"
judge_names 'made beside the rest of a killed run' $files $left
cat "$made"/drain-* | cksum >"$scratch/out"
judge 'the rest of a killed run' 0 "$scratch/left" 0

# New files get the permissions of the old ones; another name of an old file keeps its bytes; a link stays, and the file
# that it leads to is written.
make_ground
cp "$scratch"/other/* "$made"
chmod 640 "$made/con.bil"
chmod 606 "$made/con.hdr"
ln "$made/acc.bil" "$work/acc.bil"
mv "$made/dir.bil" "$work/dir.bil"
ln -s ../dir.bil "$made/dir.bil"
ln -s ../bas.bil "$made/bas.new"
mv "$made/bas.new" "$made/bas.bil"
judge_make 'made over files, links and second names' 0 "$pit_made" --side 3 --out "$made" "$ground"
judge_pit_files 'made over files, links and second names' "$made"
judge_names 'made over files, links and second names' $files
{ stat -c %a "$made/con.bil" "$made/con.hdr"; readlink "$made/dir.bil" "$made/bas.bil"; } >"$scratch/out"
printf '640\n606\n../dir.bil\n../bas.bil\n' >"$scratch/want"
judge 'permissions and links' 0 "$scratch/want" 0
judge_file 'a second name of a file that was replaced' "$work/acc.bil" <"$scratch/other/acc.bil"
pit_file dir.bil | judge_file 'the file behind a link' "$work/dir.bil"

# Products over an input, by any way to it, are a usage error, and the input stays.
for how in 'ln -s ../N00E000.hgt' "ln $ground" "ln $work/list" 'ln -s ../list'; do
    for name in con.hdr rnk.bil; do
        make_ground
        echo '1 1' >"$work/list"
        cat "$ground" "$work/list" >"$work/before"
        $how "$made/$name"
        want -
        timeout "$patience" "$drain" make --side 3 --out "$made" --sinks "$work/list" "$ground" >"$scratch/out" 2>"$scratch/err"
        judge "$how: made over an input as $name" 2 "$scratch/want" $? words
        judge_names "$how: made over an input as $name" "$name"
        cat "$ground" "$work/list" | judge_file "$how: made over an input as $name" "$work/before"
    done
done

# Two products that are one file, as one of them is a link to the other: none is written.
for there in '' of_before; do
    make_ground
    [ -z "$there" ] || echo 'of before' >"$made/acc.bil"
    ln -s acc.bil "$made/bas.bil"
    judge_make "a link to another product $there" 3 "failed Open $made/bas.bil" --side 3 --out "$made" "$ground"
    judge_names "a link to another product $there" bas.bil ${there:+acc.bil}
    [ -z "$there" ] || echo 'of before' | judge_file "a link to another product" "$made/acc.bil"
done

# Pipes: for the tile, whose end needs one byte more, and for a raster, read to its end or not.
make_ground
mv "$ground" "$scratch/bytes"
mkfifo "$ground"
cat "$scratch/bytes" >"$ground" &
judge_make 'made of a pipe' 0 "$pit_made" --side 3 --out "$made" "$ground"
wait $!
judge_pit_files 'made of a pipe' "$made"
rm -r "$made" && mkdir "$made"
exec 3<>"$ground"
{ cat "$scratch/bytes"; printf x; } >&3
judge_nothing_made 'made of an open pipe with a byte too many' 2 'refused BadTileLength N00E000.hgt' --side 3 --out "$made" "$ground"
exec 3<&-
make_ground
mkfifo "$made/acc.bil"
timeout "$patience" cat "$made/acc.bil" >"$work/acc.bil" &
judge_make 'made into a pipe' 0 "$pit_made" --side 3 --out "$made" "$ground"
wait $!
pit_file acc.bil | judge_file 'made into a pipe' "$work/acc.bil"
timeout "$patience" head -c 1 "$made/acc.bil" >"$work/acc.bil" &
judge_make 'made into a pipe that nobody reads on' 3 'failed WriteFailed' --side 344 --out "$made" "$real"
wait $!

# Outputs that can't be written: status 3, whatever the line was; and no file takes the place of a stream that is closed.
: >"$scratch/nothing"
for words in "--side 3 --out $made $ground" "--side 3 --out $made" "--side 3 --out $work/none $ground" '--help'; do
    for stream in 'full output' 'closed output' 'closed input and output'; do
        make_ground
        : >"$scratch/out"
        case $stream in
            'full output') "$drain" make $words </dev/null >/dev/full 2>"$scratch/err" ;;
            'closed output') "$drain" make $words </dev/null >&- 2>"$scratch/err" ;;
            'closed input and output') "$drain" make $words <&- >&- 2>"$scratch/err" ;;
        esac
        judge "a $stream: make $words" 3 "$scratch/nothing" $?
        for name in $(ls -A "$made"); do
            judge_file "a $stream: make $words" "$made/$name" <"$scratch/whole/$name"
        done
    done
done

# No memory, for a tile or for its products.
make_ground
head -c $((2 * 1201 * 1201)) /dev/zero >"$work/N00E001.hgt"
want 'failed OutOfMemory'
(ulimit -v 20000 && exec "$drain" make --side 3601 --out "$made" "$ground") >"$scratch/out" 2>"$scratch/err"
judge 'no memory for a tile to make products of' 3 "$scratch/want" $?
(ulimit -v 24000 && exec "$drain" make --out "$made" "$work/N00E001.hgt") >"$scratch/out" 2>"$scratch/err"
judge 'no memory for the products of a tile' 3 "$scratch/want" $?
want -
ls -A "$made" >"$scratch/out" 2>"$scratch/err"
judge 'no memory, and no file' 0 "$scratch/want" $?

# Words that are refused, and help.
while IFS= read -r words; do
    "$drain" make $words </dev/null >"$scratch/out" 2>"$scratch/err"
    judge "refused words: make $words" 2 "$scratch/nothing" $? words
done <<END
$ground
--out
--side 3 $ground
--out $made --out $made $ground
--out $made --side x $ground
--out $made --side 4294967296 $ground
--products $made $ground
END
"$drain" make --help </dev/null >"$scratch/help" 2>"$scratch/err"
status=$?
grep '^Usage:' "$scratch/help" >"$scratch/out"
want 'Usage: drain make [OPTIONS] --out <DIR> [TILE]...'
judge 'help of make' 0 "$scratch/want" $status
