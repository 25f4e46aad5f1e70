# What other commands cost beside `drain audit` of all four rasters, in turn, on a tile of side 3601 and what `make` makes of it: audits of some rasters, one window
# of the whole tile, `derive` and `make`; made-up terrain, and real terrain enlarged by mirrored copies. Read by run.sh.

side=3601
build make_check_input mirror_tile measure
"$out/make_check_input" "$side" 1 "$scratch/made-up"
mkdir -p "$scratch/real" "$scratch/derived" "$scratch/made"
"$out/mirror_tile" 344 "$top/samples/N36W085.hgt" "$side" "$scratch/real/N36W085.hgt"
for tile in "$scratch/made-up/N00E000.hgt" "$scratch/real/N36W085.hgt"; do
    folder=$(dirname "$tile")
    "$drain" make --side "$side" --out "$folder" "$tile"
    words=(--side "$side" --products "$folder" "$tile")
    programs=("$scratch/audit")
    command_as audit audit "${words[@]}"
    for list in con con,dir con,dir,acc con,dir,bas; do
        command_as "only_$list" audit --only "$list" "${words[@]}"
        programs+=("$scratch/only_$list")
    done
    command_as window window --box "0,0,$side,$side" --report "$scratch/report.txt" "${words[@]}"
    command_as make make --side "$side" --out "$scratch/made" "$tile"
    command_as derive derive --side "$side" --products "$folder" --out "$scratch/derived" "$tile"
    programs+=("$scratch/window" "$scratch/derive" "$scratch/make")
    for program in "${programs[@]}"; do
        line=$("$program") || { echo "${program##*/}: $line"; differ=1; }
    done
    echo
    echo "${folder##*/} terrain of side $side, at a load of $(load)"
    "$out/measure" 5 $((side * side)) /dev/null "${programs[@]}" --
done
