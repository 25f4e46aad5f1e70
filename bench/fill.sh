# `drain fill` beside its twin in plain Rust and `cat` of the stream: compares their lines on small streams, right ones and ones with a changed byte, then times them
# on a tile of side 3601, made-up terrain and real terrain enlarged by mirrored copies. Read by run.sh.

build make_check_input mirror_tile twin_fill measure

# The stream of a tile and what `make` makes of it, in a file.
# Usage: stream SIDE TILE FILE
stream() {
    mkdir -p "$scratch/made"
    "$drain" make --side "$1" --out "$scratch/made" "$2" >/dev/null
    "$top/tools/fill_input.py" "$1" "$2" "$scratch/made" >"$3"
}

# Compares the lines of both programs.
# Usage: compare SIDE FILE
compare() {
    local ours twins
    ours=$("$drain" fill --side "$1" <"$2") || true
    twins=$("$out/twin_fill" fill --side "$1" <"$2") || true
    [ "$ours" = "$twins" ] || { echo "drain prints '$ours', the twin '$twins'"; differ=1; }
}

RANDOM=1
for side in {2..30}; do
    "$out/make_check_input" "$side" "$side" "$scratch/terrain"
    stream "$side" "$scratch/terrain/N00E000.hgt" "$scratch/stream"
    compare "$side" "$scratch/stream"
    for _ in {1..20}; do
        cp "$scratch/stream" "$scratch/changed"
        printf "\\x$(printf %02x $((RANDOM % 256)))" |
            dd of="$scratch/changed" bs=1 seek=$((RANDOM % (9 * side * side))) conv=notrunc status=none
        compare "$side" "$scratch/changed"
    done
done

side=3601
printf '#!/bin/sh\nexec cat >/dev/null\n' >"$scratch/cat_stream"
chmod +x "$scratch/cat_stream"
"$out/make_check_input" "$side" 1 "$scratch/terrain"
"$out/mirror_tile" 344 "$top/samples/N36W085.hgt" "$side" "$scratch/N36W085.hgt"
for tile in "$scratch/terrain/N00E000.hgt" "$scratch/N36W085.hgt"; do
    stream "$side" "$tile" "$scratch/stream"
    compare "$side" "$scratch/stream"
    echo
    echo "${tile##*/} of side $side, at a load of $(load)"
    "$out/measure" 5 $((side * side)) "$scratch/stream" "$drain" "$out/twin_fill" "$scratch/cat_stream" -- fill --side "$side"
done
