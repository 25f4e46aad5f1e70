# Runs of `drain check`: the pit of fixtures.sh, and changes of its files. Read by part.sh.

# The words in any order, and names in any letter case.
make_pit
judge_pit 'the products of a pit' 0 "$pit_checked"
judge_check 'options behind the tiles' 0 "$pit_checked" "$tile" --products="$check/out/" --side=3
judge_check 'tiles behind two dashes' 0 "$pit_checked" --side 3 --products "$check/out" -- "$tile"
(cd "$check" && timeout "$patience" "$drain" check --side 3 --products out N00E000.hgt >"$scratch/out" 2>"$scratch/err")
judge 'paths from the folder that it runs in' 0 "$scratch/want" $?
(cd "$check/out" && timeout "$patience" "$drain" check --side 3 --products . ../N00E000.hgt >"$scratch/out" 2>"$scratch/err")
judge 'the folder of the products is the one that it runs in' 0 "$scratch/want" $?
: >"$check/out/con.bil.aux.xml"
judge_pit 'a file of another program beside the rasters' 0 "$pit_checked"
mv "$tile" "$check/n00e000.HGT"
judge_check 'a tile named in small letters' 0 "$pit_checked" --side 3 --products "$check/out" "$check/n00e000.HGT"
head -c 17 "$check/n00e000.HGT" >"$scratch/short" && mv "$scratch/short" "$check/n00e000.HGT"
judge_check 'a short tile named in small letters' 2 'refused BadTileLength N00E000.hgt' \
    --side 3 --products "$check/out" "$check/n00e000.HGT"

# Rejections.
make_pit
numbers 4 0 0 0 0 0 0 0 0 0 >"$check/out/rnk.bil"
judge_pit 'rank 0 in the pit' 1 'rejected rule=12 FlatStep row=1 col=1'
make_pit
numbers 1 0 0 0 0 0 0 0 0 0 >"$check/out/dir.bil"
judge_pit 'no way out of the pit' 1 'rejected rule=12 FlatStep row=1 col=1'

# A basin raised to the highest of the cells around it, with directions, sums and labels that are right for that surface.
make_pit
printf '\0\5\0\5\0\5\0\5\0\1\0\7\0\5\0\5\0\5' >"$tile"
numbers 2 5 5 5 5 7 7 5 5 5 >"$check/out/con.bil"
numbers 1 0 0 0 0 4 4 0 0 0 >"$check/out/dir.bil"
numbers 4 1 1 1 1 1 1 1 2 2 >"$check/out/acc.bil"
numbers 4 1 2 3 4 6 7 5 6 7 >"$check/out/bas.bil"
numbers 4 0 0 0 0 0 0 0 0 0 >"$check/out/rnk.bil"
judge_pit 'a pit raised too high' 1 'rejected rule=9 NotLeast row=1 col=1'

# Spill parents, which only `drain fill` needs, may be in the folder: they aren't opened.
put_spill_parents() {
    local hdr=$check/out/spl.hdr bil=$check/out/spl.bil
    case $1 in
        'as they should be') header_of 8 '' >"$hdr" && numbers 1 0 0 0 0 1 0 0 0 0 >"$bil" ;;
        'that are no codes') header_of 8 '' >"$hdr" && numbers 1 3 3 3 3 3 3 3 3 3 >"$bil" ;;
        'that are all no data') header_of 8 '' >"$hdr" && printf '\xff%.0s' 1 2 3 4 5 6 7 8 9 >"$bil" ;;
        *) spoil "$check/out/spl" "$1" ;;
    esac
}
for what in 'as they should be' 'that are no codes' 'that are all no data' "${spoiled[@]}"; do
    make_pit
    put_spill_parents "$what"
    judge_pit "spill parents $what" 0 "$pit_checked"
    numbers 4 0 0 0 0 0 0 0 0 0 >"$check/out/rnk.bil"
    judge_pit "spill parents $what, and rank 0 in the pit" 1 'rejected rule=12 FlatStep row=1 col=1'
    rm "$check/out/rnk.bil"
    judge_pit "spill parents $what, and no ranks" 3 "failed Open $check/out/rnk.bil"
done

# Headers.
make_pit
sed -i 's/NROWS 3/NROWS 4/' "$check/out/dir.hdr"
judge_pit 'a row too many' 2 'refused WrongShape dir'
make_pit
sed -i '/ULXMAP/d' "$check/out/dir.hdr"
judge_pit 'a header without its corner' 2 'refused BadHeader dir MissingKey ULXMAP'
make_pit
header_of 16 SIGNEDINT 0.000001 >"$check/out/con.hdr"
judge_pit 'a corner a millionth of a degree away' 0 "$pit_checked"
header_of 16 SIGNEDINT 0.000001000000001 >"$check/out/con.hdr"
judge_pit 'a corner further away' 2 'refused Misplaced con'
make_pit
head -c 65537 /dev/zero | tr '\0' '\n' >"$check/out/rnk.hdr"
judge_pit 'a header of 65537 bytes' 2 'refused BadHeader rnk TooLong'

# Tiles and rasters of other lengths.
for bytes in 17 19; do
    make_pit
    { cat "$tile"; echo; } | head -c $bytes >"$scratch/tile" && mv "$scratch/tile" "$tile"
    judge_pit "a tile of $bytes bytes" 2 'refused BadTileLength N00E000.hgt'
done
make_pit
head -c 17 "$check/out/con.bil" >"$scratch/short" && mv "$scratch/short" "$check/out/con.bil"
judge_pit 'a raster a byte short' 2 'refused RasterShort con'
make_pit
echo 'behind the end' >>"$check/out/con.bil"
judge_pit 'bytes behind the end of a raster' 0 "$pit_checked"

# Names and sides.
make_pit
judge_check 'no tile' 2 'refused NoTiles' --side 3 --products "$check/out"
judge_check 'the same tile twice' 2 'refused RepeatedTile N00E000.hgt' --side 3 --products "$check/out" "$tile" "$tile"
cp "$tile" "$check/x"
judge_check 'a name that is no tile, side 3' 2 'refused BadName 0' --side 3 --products "$check/out" "$check/x"
judge_check 'a name that is no tile, side 1' 2 'refused BadSide' --side 1 --products "$check/out" "$check/x"
judge_check 'the second name is no tile' 2 'refused BadName 1' --side 3 --products "$check/out" "$tile" "$check/x"
judge_check 'the default side' 2 'refused WrongShape con' --products "$check/out" "$tile"

# Two tiles of side 2 that differ where they meet, and two that lie too far apart.
make_pit
head -c 8 /dev/zero | tee "$check/N00E001.hgt" "$check/N00E008.hgt" >"$tile"
printf '\0\1' | dd of="$check/N00E001.hgt" conv=notrunc status=none
sed -i -E 's/^NROWS .*/NROWS 2/; s/^(.DIM) .*/\1 1/' "$check"/out/*.hdr
judge_check 'two tiles that differ at a cell' 2 'refused SeamMismatch row=0 col=1' \
    --side 2 --products "$check/out" "$tile" "$check/N00E001.hgt"
judge_check 'tiles too far apart' 2 'refused BoxTooLarge' --side 2 --products "$check/out" "$tile" "$check/N00E008.hgt"

# Files that are not there: each is opened before anything is refused, the tiles first, and of each product its header first.
for name in N00E000.hgt out/{con,dir,acc,bas,rnk}.{hdr,bil}; do
    make_pit
    rm "$check/$name"
    judge_pit "without $name" 3 "failed Open $check/$name"
    judge_check "without $name, with a slash behind the folder" 3 "failed Open $check/$name" \
        --side 3 --products "$check/out/" "$tile"
    : >"$check/out/rnk.hdr"
    [ "$name" = out/rnk.hdr ] || judge_pit "without $name, and a later fault" 3 "failed Open $check/$name"
done
make_pit
rm "$check/out/rnk.bil"
cp "$tile" "$check/x"
judge_check 'without the last file, and a bad name' 3 "failed Open $check/out/rnk.bil" --side 1 --products "$check/out" "$check/x"
rm "$check/out/con.hdr" "$tile"
judge_check 'the first file that is not there' 3 "failed Open $tile" --side 3 --products "$check/out" "$check/x" "$tile"
judge_check 'no folder of products' 3 "failed Open $check/none/con.hdr" --side 3 --products "$check/none" "$check/x"

# The files of products are opened one after the other: each is reported first while it is missing.
make_pit
mkdir "$check/filling"
for name in {con,dir,acc,bas,rnk}.{hdr,bil}; do
    judge_check "a folder filled up to $name" 3 "failed Open $check/filling/$name" --side 3 --products "$check/filling" "$tile"
    cp "$check/out/$name" "$check/filling/$name"
done
judge_check 'a folder that was filled' 0 "$pit_checked" --side 3 --products "$check/filling" "$tile"

# Folders in the places of files.
for name in N00E000.hgt out/con.hdr out/bas.bil; do
    make_pit
    rm "$check/$name"
    mkdir "$check/$name"
    judge_pit "a folder for $name" 3 'failed ReadFailed'
done

# Pipes that stay open. It waits for no byte of a raster after the last needed one, and for one of a tile.
make_pit
for name in con.bil dir.bil rnk.bil; do
    mv "$check/out/$name" "$scratch/bytes"
    mkfifo "$check/out/$name"
    exec 3<>"$check/out/$name"
    cat "$scratch/bytes" >&3
    judge_pit "an open pipe for $name" 0 "$pit_checked"
    exec 3<&-
    rm "$check/out/$name"
    mv "$scratch/bytes" "$check/out/$name"
done
mv "$tile" "$scratch/bytes"
mkfifo "$tile"
cat "$scratch/bytes" >"$tile" &
judge_pit 'a pipe for the tile' 0 "$pit_checked"
wait $!
exec 3<>"$tile"
{ cat "$scratch/bytes"; printf x; } >&3
judge_pit 'an open pipe for the tile with a byte too many' 2 'refused BadTileLength N00E000.hgt'
exec 3<&-

# Outputs that can't be written: status 3, whatever the line was.
: >"$scratch/want"
: >"$scratch/out"
make_pit
for words in "--side 3 --products $check/out $tile" "--side 3 --products $check/out" "--products $check $tile" '--help'; do
    # Without a product there, standard error has the reason all the same.
    [[ $words == --products* ]] && errors=reason || errors=silent
    "$drain" check $words >/dev/full 2>"$scratch/err"
    judge "a full standard output: check $words" 3 "$scratch/want" $? $errors
    "$drain" check $words >&- 2>"$scratch/err"
    judge "a closed standard output: check $words" 3 "$scratch/want" $? $errors
done

# Numbers of a header are read, and never taken as memory: over short bodies each answers its refusal with little memory.
for line in 'SKIPBYTES 4294967295' 'BANDROWBYTES 4294967295' 'TOTALROWBYTES 4294967295'; do
    make_pit
    echo "$line" >>"$check/out/con.hdr"
    want 'refused RasterShort con'
    (ulimit -v 200000 && exec timeout "$patience" "$drain" check --side 3 --products "$check/out" "$tile") >"$scratch/out" 2>"$scratch/err"
    judge "$line over a short body" 2 "$scratch/want" $?
done
make_pit
sed -i -E 's/^(NROWS|NCOLS) .*/\1 3601/; s/^(.DIM) .*/\1 0.000277777777778/' "$check"/out/*.hdr
want 'refused BadTileLength N00E000.hgt'
(ulimit -v 20000 && exec "$drain" check --side 3601 --products "$check/out" "$tile") >"$scratch/out" 2>"$scratch/err"
judge 'headers of the greatest side over short bodies' 2 "$scratch/want" $?
