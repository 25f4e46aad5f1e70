# `drain check` on real terrain; make_products.py makes products and checks them by the rules. Read by part.sh.

tile=samples/jacksboro/N36W085.hgt

# Runs `drain check` on a tile of side 121 and products in a folder, and compares with the line in $scratch/want.
# Usage: check_terrain NAME STATUS TILE FOLDER
check_terrain() {
    timeout "$patience" "$drain" check --side 121 --products "$4" "$3" </dev/null >"$scratch/out" 2>"$scratch/err"
    judge "$1" "$2" "$scratch/want" $?
}

# Products made anew are the bundled ones, and their headers are as this program prints them.
make_terrain
for file in "$terrain"/*; do
    cp "$file" "$scratch/out"
    : >"$scratch/err"
    judge "the bundled ${file##*/}" 0 "samples/jacksboro/${file##*/}" 0
done
for file in "$terrain"/*.hdr; do
    "$drain" header "$file" </dev/null >"$scratch/out" 2>"$scratch/err"
    judge "the header ${file##*/} of real terrain" 0 "$file" $?
done

# They are accepted, with the counts of the other program; and so they are whatever the case of the tile's name.
want 'accepted rows=121 cols=121 data=14641 raised=690 outlets=32'
"$maker" --verify 121 "$tile" "$terrain" >"$scratch/out" 2>"$scratch/err"
judge 'real terrain by the other program' 0 "$scratch/want" $?
check_terrain 'real terrain' 0 "$tile" "$terrain"
for name in n36w085.hgt N36w085.HGT; do
    cp "$tile" "$scratch/$name"
    check_terrain "real terrain in the tile $name" 0 "$scratch/$name" "$terrain"
    rm "$scratch/$name"
done

# All of the terrain that the bundled tile was cut from, with the counts that another maker's products of it have.
make_wide
want 'accepted rows=344 cols=344 data=118336 raised=5200 outlets=115'
timeout "$patience" "$drain" check --side 344 --products "$scratch/wide" samples/N36W085.hgt </dev/null >"$scratch/out" 2>"$scratch/err"
judge 'real terrain of side 344' 0 "$scratch/want" $?

# Directions give spill parents and ranks: con is accepted with them alone, and a metre higher at one cell it isn't.
tools/fill_input.py 121 "$tile" "$terrain" >"$scratch/input" 2>"$scratch/err"
want 'accepted rows=121 cols=121 data=14641 raised=690'
timeout "$patience" "$drain" fill --side 121 <"$scratch/input" >"$scratch/out" 2>>"$scratch/err"
judge 'a fill input made of directions' 0 "$scratch/want" $?
printf '\x02\x7b' | dd of="$scratch/input" bs=1 seek=$((2 * (121 * 121 + 121 * 94 + 63))) conv=notrunc status=none
want 'rejected rule=7 SpillHeight row=94 col=63'
timeout "$patience" "$drain" fill --side 121 <"$scratch/input" >"$scratch/out" 2>"$scratch/err"
judge 'a fill input made of directions, a metre too high' 1 "$scratch/want" $?

while read -r rule file size row col bytes; do
    [ -n "$rule" ] || continue
    changed=$scratch/changed
    rm -rf "$changed" && cp -r "$terrain" "$changed" && cp "$tile" "$changed" && chmod -R u+w "$changed"
    printf "$bytes" | dd of="$changed/$file" bs=1 seek=$((size * (121 * row + col))) conv=notrunc status=none
    "$maker" --verify 121 "$changed/N36W085.hgt" "$changed" >"$scratch/want"
    name="rule $rule on real terrain, by $file"
    case $(cat "$scratch/want") in
        "rejected rule=$rule "*) check_terrain "$name" 1 "$changed/N36W085.hgt" "$changed" ;;
        *) cp "$scratch/want" "$scratch/out" && want "rejected rule=$rule" && judge "$name, by the other program" 0 "$scratch/want" 0 ;;
    esac
done <<<"$changes"

# A rank off flats is compared with no other where no flat leads to its cell: any number but that for no data will do.
changed=$scratch/changed
rm -rf "$changed" && cp -r "$terrain" "$changed" && chmod -R u+w "$changed"
head -c 4 /dev/zero | dd of="$changed/rnk.bil" bs=1 seek=$((4 * (121 * 94 + 63))) conv=notrunc status=none
want 'accepted rows=121 cols=121 data=14641 raised=690 outlets=32'
"$maker" --verify 121 "$tile" "$changed" >"$scratch/out" 2>"$scratch/err"
judge 'a rank off flats, by the other program' 0 "$scratch/want" $?
check_terrain 'a rank off flats' 0 "$tile" "$changed"
