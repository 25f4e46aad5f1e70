# `drain make` beside its twin in plain Rust: compares what they make on small tiles and on tiles of sides 1201 and 3601, made-up terrain and real terrain enlarged
# by mirrored copies, then times both on the large ones, with the twins of make and check one after the other (make_and_check.sh). Read by run.sh.

tile=$scratch/terrain/N00E000.hgt
real=$scratch/N36W085.hgt
build make_check_input mirror_tile twin_check_loop twin_make measure

# Makes products with both programs, and compares lines and files; the check has to accept them.
# Usage: compare SIDE TILE
compare() {
    local program name line wanted="made rows=$1 cols=$1"
    for program in "$drain" "$out/twin_make"; do
        mkdir -p "$scratch/${program##*/}"
        line=$("$program" make --side "$1" --out "$scratch/${program##*/}" "$2") || true
        [ "$line" = "$wanted" ] || { echo "${program##*/} prints '$line', not '$wanted'"; differ=1; }
    done
    for name in {con,dir,acc,bas,rnk}.{hdr,bil}; do cmp "$scratch/${drain##*/}/$name" "$scratch/twin_make/$name" || differ=1; done
    line=$("$drain" check --side "$1" --products "$scratch/${drain##*/}" "$2") || { echo "$line"; differ=1; }
}

for side in {2..40} 121; do
    "$out/make_check_input" "$side" "$side" "$scratch/terrain"
    compare "$side" "$tile"
done

for side in 1201 3601; do
    "$out/make_check_input" "$side" 1 "$scratch/terrain"
    "$out/mirror_tile" 344 "$top/samples/${real##*/}" "$side" "$real"
    for input in "$tile" "$real"; do
        compare "$side" "$input"
        echo
        echo "$([ "$input" = "$tile" ] && echo made-up || echo real) terrain of side $side, at a load of $(load)"
        mkdir -p "$scratch/timed"
        "$out/measure" 5 $((side * side)) /dev/null "$drain" "$out/twin_make" "$bench/make_and_check.sh" -- make --side "$side" --out "$scratch/timed" "$input"
    done
done
