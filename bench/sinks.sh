# What a list of sinks costs `drain make` and `drain check` on a tile of side 3601: no list, 1,000 cells and 1,000,000 cells, taken at random from the data cells,
# timed in turn; on made-up terrain, where a list changes the products, and on the same terrain filled, where it makes outlets and little else. Beside the checks
# it times a plain program that reads the longest list and looks at no cell (plain_list.rs). Read by run.sh.

side=3601
build make_check_input measure plain_list
"$out/make_check_input" "$side" "$side" "$scratch/terrain"

# Writes a list of n data cells of a tile, in no order.
# Usage: list TILE COUNT
list() {
    python3 - "$1" "$side" "$2" <<'PY'
import random, struct, sys
tile, side, count = open(sys.argv[1], "rb").read(), int(sys.argv[2]), int(sys.argv[3])
heights = struct.unpack(f">{side * side}h", tile)
data = [cell for cell, height in enumerate(heights) if height != -32768]
random.seed(20261124)
print("".join(f"{cell // side} {cell % side}\n" for cell in random.sample(data, min(count, len(data)))), end="")
PY
}

# Makes and checks with no list and with two, and then times them in turn.
# Usage: time_lists TILE
time_lists() {
    local tile=$1 count words line
    local checks=() makes=()
    for count in 0 1000 1000000; do
        words=()
        if [ "$count" != 0 ]; then
            list "$tile" "$count" >"$scratch/list-$count"
            words=(--sinks "$scratch/list-$count")
        fi
        mkdir -p "$scratch/made-$count"
        command_as "make_$count" make --side "$side" --out "$scratch/made-$count" "${words[@]}" "$tile"
        command_as "check_$count" check --side "$side" --products "$scratch/made-$count" "${words[@]}" "$tile"
        makes+=("$scratch/make_$count")
        checks+=("$scratch/check_$count")
        "$scratch/make_$count"
        line=$("$scratch/check_$count") || differ=1
        echo "$count listed: $line"
    done
    "$out/measure" 7 $((side * side)) /dev/null "${makes[@]}" --
    printf '#!/bin/sh\nexec %q %q %q\n' "$out/plain_list" "$scratch/list-1000000" "$side" >"$scratch/plain_list"
    chmod +x "$scratch/plain_list"
    "$out/measure" 7 $((side * side)) /dev/null "${checks[@]}" "$scratch/plain_list" --
}

# Writes the conditioned elevation that was made as a tile, with the bytes in the other order.
# Usage: filled_tile CON TILE
filled_tile() {
    python3 - "$1" "$2" <<'PY'
import array, sys
heights = array.array("h", open(sys.argv[1], "rb").read())
heights.byteswap()
open(sys.argv[2], "wb").write(heights.tobytes())
PY
}

time_lists "$scratch/terrain/N00E000.hgt"
mkdir "$scratch/filled"
filled_tile "$scratch/made-0/con.bil" "$scratch/filled/N00E000.hgt"
echo "the same terrain filled"
time_lists "$scratch/filled/N00E000.hgt"
