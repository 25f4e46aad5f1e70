# `drain check` and `drain audit` beside their twins, compared first on 2,000 small random tiles with right and changed products, then timed, with `cat` of the
# files, on tiles of sides 1201 and 3601 and what `make` makes of them: made-up terrain, and real terrain enlarged by mirrored copies. Read by run.sh.

build make_check_input mirror_tile twin_check_loop compare_check measure
rustc --edition 2024 -O -C target-cpu=x86-64-v2 --cfg audit -o "$out/twin_audit_loop" "$bench/twin_check_loop.rs"
"$out/compare_check" check 2000 "$scratch" "$drain" "$out/twin_check_loop" || differ=1
"$out/compare_check" audit 2000 "$scratch" "$drain" "$out/twin_audit_loop" || differ=1

# Compares the lines of programs on a large tile, and times them in turn.
# Usage: time_all COMMAND SIDE FOLDER TILE PROGRAM...
time_all() {
    local words=("$1" --side "$2" --products "$3" "$4") line other program
    line=$("$drain" "${words[@]}") || differ=1
    echo "$line"
    for program in "${@:6}"; do
        other=$("$program" "${words[@]}") || differ=1
        [ "$other" = "$line" ] || { echo "${program##*/} prints '$other'"; differ=1; }
    done
    "$out/measure" 5 $(($2 * $2)) /dev/null "${@:5}" "$bench/cat_inputs.sh" -- "${words[@]}"
}

for side in 1201 3601; do
    "$out/make_check_input" "$side" 1 "$scratch/made-up"
    mkdir -p "$scratch/real"
    "$out/mirror_tile" 344 "$top/samples/N36W085.hgt" "$side" "$scratch/real/N36W085.hgt"
    for tile in "$scratch/made-up/N00E000.hgt" "$scratch/real/N36W085.hgt"; do
        folder=$(dirname "$tile")
        "$drain" make --side "$side" --out "$folder" "$tile"
        echo
        echo "${folder##*/} terrain of side $side, at a load of $(load)"
        time_all check "$side" "$folder" "$tile" "$drain" "$out/twin_check_loop"
        time_all audit "$side" "$folder" "$tile" "$drain" "$out/twin_audit_loop"
    done
    rm -rf "$scratch/made-up" "$scratch/real"
done
