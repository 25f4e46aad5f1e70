# Runs of `drain audit`: the pit without ranks, runs of directions that don't end, refusals in their order, and sets of other tools.
# Read by part.sh; audit.py is the other program.

make_terrain
make_wide

# Compares an audit of the tile of side 3 and its products: its name, the expected status and line.
judge_bare() {
    judge_audit "$1" "$2" "$3" --side 3 --products "$check/out" "$tile"
}

# The same, and the other program's line too.
judge_twice() {
    judge_bare "$1" "$2" "$3"
    "$auditor" --side 3 --products "$check/out" "$tile" >"$scratch/out" 2>"$scratch/err"
    judge "$1, by the other program" "$2" "$scratch/want" $?
}

# The words in any order.
make_bare
judge_twice 'a pit without ranks' 0 "$pit_checked"
judge_audit 'options of an audit behind the tiles' 0 "$pit_checked" "$tile" --products="$check/out/" --side=3
judge_audit 'tiles of an audit behind two dashes' 0 "$pit_checked" --side 3 --products "$check/out" -- "$tile"
(cd "$check" && timeout "$patience" "$drain" audit --side 3 --products out N00E000.hgt >"$scratch/out" 2>"$scratch/err")
judge 'an audit of paths from the folder that it runs in' 0 "$scratch/want" $?

for what in 'as they should be' 'that are all 0' 'that are all no data' "${spoiled[@]}"; do
    make_bare
    put_ranks "$what"
    judge_bare "an audit with ranks $what" 0 "$pit_checked"
    numbers 4 1 1 1 1 1 1 1 1 1 >"$check/out/acc.bil"
    judge_bare "an audit with ranks $what, and a wrong count" 1 'rejected rule=13 Accumulation row=1 col=2'
done

# Other directions of the pit, each with its counts and labels: the three ways to the north end too, and 0 doesn't lead out of it.
while IFS='|' read -r name codes counts labels line; do
    make_bare
    numbers 1 $codes >"$check/out/dir.bil"
    numbers 4 $counts >"$check/out/acc.bil"
    numbers 4 $labels >"$check/out/bas.bil"
    case $line in accepted*) status=0 ;; *) status=1 ;; esac
    judge_twice "$name" "$status" "$line"
done <<END
a pit that drains to the north|0 0 0 0 64 0 0 0 0|1 2 1 1 1 1 1 1 1|1 2 3 4 2 5 6 7 8|$pit_checked
a pit that drains to the north-west|0 0 0 0 32 0 0 0 0|2 1 1 1 1 1 1 1 1|1 2 3 4 1 5 6 7 8|$pit_checked
a pit that is an outlet|0 0 0 0 0 0 0 0 0|1 1 1 1 1 1 1 1 1|1 2 3 4 9 5 6 7 8|rejected rule=12 FlatStep row=1 col=1
a code at the edge that leads into the pit|0 4 0 0 1 0 0 0 0|1 1 1 1 2 3 1 1 1|1 5 3 4 5 5 6 7 8|rejected rule=11 OutletCode row=0 col=1
END

# A basin raised to the highest of the cells around it, with directions, counts and labels that are right for that surface.
make_bare
printf '\0\5\0\5\0\5\0\5\0\1\0\7\0\5\0\5\0\5' >"$tile"
numbers 2 5 5 5 5 7 7 5 5 5 >"$check/out/con.bil"
numbers 1 0 0 0 0 4 4 0 0 0 >"$check/out/dir.bil"
numbers 4 1 1 1 1 1 1 1 2 2 >"$check/out/acc.bil"
numbers 4 1 2 3 4 6 7 5 6 7 >"$check/out/bas.bil"
judge_twice 'an audit of a pit raised too high' 1 'rejected rule=9 NotLeast row=1 col=1'

# Runs that don't end, at the first cell whose run doesn't: before any rule, also of an earlier cell.
while IFS='|' read -r name codes line; do
    for wrong in '' con acc bas; do
        make_bare
        numbers 1 $codes >"$check/out/dir.bil"
        [ -z "$wrong" ] || head -c $((9 * 4)) /dev/zero >"$check/out/$wrong.bil"
        judge_twice "$name${wrong:+, and a wrong }$wrong" 1 "rejected NoEnd $line"
    done
done <<'END'
a direction off the grid|64 0 0 0 1 0 0 0 0|row=0 col=0
the last direction off the grid|0 0 0 0 1 0 0 0 1|row=2 col=2
a direction off a corner|0 0 128 0 1 0 0 0 0|row=0 col=2
a number that is no code|0 0 0 0 3 0 0 0 0|row=1 col=1
the no-data number for a direction|0 0 0 0 255 0 0 0 0|row=1 col=1
a ring of two|0 0 0 0 1 16 0 0 0|row=1 col=1
a ring of four|2 0 0 64 4 0 0 32 0|row=0 col=0
a ring of all round the pit|1 1 4 64 1 4 64 16 16|row=0 col=0
a cell that leads into a ring behind it|0 0 0 1 1 16 0 0 0|row=1 col=0
a cell that leads to one that leads off the grid|0 0 0 1 1 1 0 0 0|row=1 col=0
a cell that leads to a number that is no code|0 0 2 0 0 0 0 7 16|row=0 col=2
END

# A void: a direction into it has no end, and the numbers at the void are ignored.
make_bare
printf '\0\5\0\5\0\5\0\5\0\1\200\0\0\5\0\5\0\5' >"$tile"
printf '\5\0\5\0\5\0\5\0\1\0\0\200\5\0\5\0\5\0' >"$check/out/con.bil"
numbers 1 2 4 8 1 0 255 128 64 32 >"$check/out/dir.bil"
numbers 4 1 1 1 1 8 0 1 1 1 >"$check/out/acc.bil"
numbers 4 1 1 1 1 1 0 1 1 1 >"$check/out/bas.bil"
judge_twice 'directions beside a void' 0 'accepted rows=3 cols=3 data=8 raised=0 outlets=1'
numbers 1 2 4 8 1 1 255 128 64 32 >"$check/out/dir.bil"
judge_twice 'a direction into a void' 1 'rejected NoEnd row=0 col=0'
numbers 1 2 4 8 1 0 16 128 64 32 >"$check/out/dir.bil"
judge_twice 'a code at a void' 1 'rejected rule=1 VoidCell row=1 col=2'
numbers 1 2 4 4 1 0 16 128 64 32 >"$check/out/dir.bil"
judge_twice 'a direction into a void with a code' 1 'rejected NoEnd row=0 col=2'

# The pit with its centre listed is an outlet; without its list no way leads out of it.
make_bare
put_listed "$check/out"
rm "$check"/out/rnk.*
printf '\r\n1 1' >"$check/sinks.txt"
judge_audit 'an audit with a list of sinks' 0 "$sunk_checked" --side 3 --products "$check/out" --sinks "$check/sinks.txt" "$tile"
judge_bare 'an audit without the list of sinks' 1 'rejected rule=12 FlatStep row=1 col=1'
rm "$check/sinks.txt"
judge_audit 'an audit whose list of sinks is not there' 3 "failed Open $check/sinks.txt" --side 3 --products "$check/out" --sinks="$check/sinks.txt" "$tile"
rm "$check/out/bas.bil"
judge_audit 'an audit without its last raster and without its list' 3 "failed Open $check/out/bas.bil" \
    --side 3 --products "$check/out" --sinks="$check/sinks.txt" "$tile"

# Refusals in their order: all apply at first, and are fixed one by one. Then a path without an end is reported, then a
# rule.
make_bare
numbers 1 3 1 1 1 1 1 1 1 1 1 1 1 1 1 1 >"$check/out/dir.bil"
printf '\0\6\0\6\0\6\0\6\0\6\0\6\0\6\0\6\0\6' >"$check/N01E000.hgt"
cp "$tile" "$check/N00E009.hgt"
cp "$tile" "$check/x"
for name in N00E000 N01E000; do truncate -s 19 "$check/$name.hgt"; done
for name in con dir acc bas; do truncate -s 14 "$check/out/$name.bil" && sed -i '/^YDIM/d' "$check/out/$name.hdr"; done
printf '9 9\nx\n' >"$check/sinks.txt"
side=1 tiles='x N00E000.hgt'

# Checks the line, and that of the other program, and then fixes what it reports.
judge_and_mend() {
    local paths=() name
    for name in $tiles; do paths+=("$check/$name"); done
    set -- "$1" "$2" "$3" --side $side --products "$check/out" --sinks "$check/sinks.txt" "${paths[@]}"
    judge_audit "in its order $2" "$1" "$2" "${@:4}"
    "$auditor" "${@:4}" >"$scratch/out" 2>"$scratch/err"
    judge "in its order $2, by the other program" "$1" "$scratch/want" $?
    eval "$3"
}
judge_and_mend 2 'refused BadSide' 'side=3'
judge_and_mend 2 'refused BadName 0' 'tiles='
judge_and_mend 2 'refused NoTiles' 'tiles="N00E000.hgt N01E000.hgt N00E000.hgt N00E009.hgt"'
judge_and_mend 2 'refused RepeatedTile N00E000.hgt' 'tiles="N00E000.hgt N01E000.hgt N00E009.hgt"'
judge_and_mend 2 'refused BoxTooLarge' 'tiles="N00E000.hgt N01E000.hgt"'
for product in con dir acc bas; do
    judge_and_mend 2 "refused BadHeader $product MissingKey YDIM" 'echo YDIM 0.5 >>"$check/out/$product.hdr"'
    judge_and_mend 2 "refused WrongShape $product" 'sed -i "s/^NROWS 3/NROWS 5/" "$check/out/$product.hdr"'
    judge_and_mend 2 "refused Misplaced $product" 'sed -i "s/^ULYMAP 1/ULYMAP 2/" "$check/out/$product.hdr"'
done
for corner in N00E000 N01E000; do
    judge_and_mend 2 "refused BadTileLength $corner.hgt" 'truncate -s 18 "$check/$corner.hgt"'
done
for product in con dir acc bas; do
    judge_and_mend 2 "refused RasterShort $product" 'truncate -s 60 "$check/out/$product.bil"'
done
judge_and_mend 2 'refused SeamMismatch row=2 col=0' 'printf "\0\5\0\5\0\5\0\5\0\1\0\5\0\5\0\5\0\5" >"$check/N01E000.hgt"'
judge_and_mend 2 'refused BadSinkLine 2' 'echo 9 9 >"$check/sinks.txt"'
judge_and_mend 2 'refused SinkNotData 1' ': >"$check/sinks.txt"'
judge_and_mend 1 'rejected NoEnd row=0 col=0' 'numbers 1 0 0 0 0 1 0 0 1 0 0 1 0 0 0 0 >"$check/out/dir.bil"'
judge_and_mend 1 'rejected rule=10 Slope row=1 col=0' 'numbers 2 5 5 5 5 5 5 5 5 5 5 5 5 5 5 5 >"$check/out/con.bil"'
judge_and_mend 1 'rejected rule=2 Missing row=1 col=1' 'numbers 4 1 1 1 1 1 2 1 1 2 1 1 2 1 1 1 >"$check/out/acc.bil"'
judge_and_mend 1 'rejected rule=2 Missing row=1 col=1' 'numbers 4 1 2 3 4 5 5 6 7 7 8 9 9 10 11 12 >"$check/out/bas.bil"'
judge_and_mend 0 'accepted rows=5 cols=3 data=15 raised=2 outlets=12' :

# Files that are not there: each of the eight is opened before anything is refused, the tiles first, and of each product its header first.
for name in N00E000.hgt out/{con,dir,acc,bas}.{hdr,bil}; do
    make_bare
    rm "$check/$name"
    judge_bare "an audit without $name" 3 "failed Open $check/$name"
    cp "$check/N00E000.hgt" "$check/x" 2>/dev/null || : >"$check/x"
    [ "$name" = N00E000.hgt ] || judge_audit "an audit without $name, and a bad name and side" 3 "failed Open $check/$name" \
        --side 1 --products "$check/out/" "$check/x"
done
make_bare
mkdir "$check/filling"
for name in {con,dir,acc,bas}.{hdr,bil}; do
    judge_audit "an audit of a folder filled up to $name" 3 "failed Open $check/filling/$name" --side 3 --products "$check/filling" "$tile"
    cp "$check/out/$name" "$check/filling/$name"
done
judge_audit 'an audit of a folder that was filled' 0 "$pit_checked" --side 3 --products "$check/filling" "$tile"
for name in N00E000.hgt out/con.hdr out/bas.bil; do
    make_bare
    rm "$check/$name"
    mkdir "$check/$name"
    judge_bare "an audit with a folder for $name" 3 'failed ReadFailed'
done

# Pipes that stay open. It waits for no byte of a raster after the last needed one, and for one of a tile.
make_bare
for name in con.bil dir.bil acc.bil bas.bil; do
    mv "$check/out/$name" "$scratch/bytes"
    mkfifo "$check/out/$name"
    exec 3<>"$check/out/$name"
    cat "$scratch/bytes" >&3
    judge_bare "an audit of an open pipe for $name" 0 "$pit_checked"
    exec 3<&-
    rm "$check/out/$name"
    mv "$scratch/bytes" "$check/out/$name"
done
mv "$tile" "$scratch/bytes"
mkfifo "$tile"
cat "$scratch/bytes" >"$tile" &
judge_bare 'an audit of a pipe for the tile' 0 "$pit_checked"
wait $!

# Outputs that can't be written: status 3, whatever the line was.
: >"$scratch/want"
: >"$scratch/out"
make_bare
for words in "--side 3 --products $check/out $tile" "--side 3 --products $check/out" "--products $check $tile" \
    "--side 51 --products samples/other-tools/terraflow samples/other-tools/N36W085.hgt" '--help'; do
    # Without a product there, standard error has the reason all the same.
    [[ $words == --products* ]] && errors=reason || errors=silent
    "$drain" audit $words >/dev/full 2>"$scratch/err"
    judge "a full standard output: audit $words" 3 "$scratch/want" $? $errors
    "$drain" audit $words >&- 2>"$scratch/err"
    judge "a closed standard output: audit $words" 3 "$scratch/want" $? $errors
done

# What other tools made of one tile, each with the line that its README has, and by the other program.
told=$(sed -nE 's/^\| `([a-z-]+)` \| `(accepted|rejected) ([^`]*)` \|.*/\1 \2 \3/p' samples/other-tools/README.md)
while read -r name line; do
    case $line in accepted*) status=0 ;; *) status=1 ;; esac
    words=(--side 51 --products "samples/other-tools/$name" samples/other-tools/N36W085.hgt)
    judge_audit "other tools, $name" "$status" "$line" "${words[@]}"
    "$auditor" "${words[@]}" >"$scratch/out" 2>"$scratch/err"
    judge "other tools, $name, by the other program" "$status" "$scratch/want" $?
done <<<"$told"
printf '%s\n' samples/other-tools/*/ | sed 's,/$,,; s,.*/,,' | LC_ALL=C sort >"$scratch/out"
sed 's/ .*//' <<<"$told" | LC_ALL=C sort >"$scratch/want"
: >"$scratch/err"
judge 'the sets of other tools that the README tells of' 0 "$scratch/want" 0

# What a check accepts an audit accepts, with the same line.
while read -r name words; do
    timeout "$patience" "$drain" check $words </dev/null >"$scratch/want" 2>"$scratch/err"
    timeout "$patience" "$drain" audit $words </dev/null >"$scratch/out" 2>>"$scratch/err"
    judge "an accepted check is an accepted audit: $name" 0 "$scratch/want" $?
done <<END
pit-3 --side 3 --products samples/pit-3 samples/pit-3/N00E000.hgt
jacksboro --side 121 --products samples/jacksboro samples/jacksboro/N36W085.hgt
wide --side 344 --products $scratch/wide samples/N36W085.hgt
END

# Real terrain with one number changed, by the other program. Ranks play no part.
while read -r rule file size row col bytes; do
    [ -n "$rule" ] || continue
    changed=$scratch/changed
    rm -rf "$changed" && cp -r "$terrain" "$changed" && cp samples/jacksboro/N36W085.hgt "$changed" && chmod -R u+w "$changed"
    printf "$bytes" | dd of="$changed/$file" bs=1 seek=$((size * (121 * row + col))) conv=notrunc status=none
    words=(--side 121 --products "$changed" "$changed/N36W085.hgt")
    line=$("$auditor" "${words[@]}")
    status=$?
    case $file in
        rnk.bil) [ "$status" = 0 ] || line='accepted, as ranks play no part' ;;
        *) [ "$status" = 1 ] || line='rejected' ;;
    esac
    judge_audit "an audit of rule $rule on real terrain, by $file" "$status" "$line" "${words[@]}"
done <<<"$changes"

# Numbers of a header are read, and never taken as memory.
for line in 'SKIPBYTES 4294967295' 'BANDROWBYTES 4294967295' 'TOTALROWBYTES 4294967295'; do
    make_bare
    echo "$line" >>"$check/out/con.hdr"
    want 'refused RasterShort con'
    (ulimit -v 200000 && exec timeout "$patience" "$drain" audit --side 3 --products "$check/out" "$tile") >"$scratch/out" 2>"$scratch/err"
    judge "$line over a short body of an audit" 2 "$scratch/want" $?
done
