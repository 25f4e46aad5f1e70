# What `drain explain` costs over `drain check` and `drain audit`: on real terrain enlarged by mirrored copies, right products and products of which every count
# is wrong, with a map and without; and what memory each takes. Runs take turns. Read by run.sh.

build mirror_tile measure
for side in 1201 3601; do
    mkdir -p "$scratch/right" "$scratch/wrong"
    tile=$scratch/N36W085.hgt
    "$out/mirror_tile" 344 "$top/samples/N36W085.hgt" "$side" "$tile"
    "$drain" make --side "$side" --out "$scratch/right" "$tile"
    cp "$scratch"/right/* "$scratch/wrong"
    head -c $((4 * side * side)) /dev/zero | tr '\0' '\1' >"$scratch/wrong/acc.bil"
    for set in right wrong; do
        turns=5
        [ "$set" = right ] || turns=3
        for command in check audit; do
            [ "$command" = check ] || rm "$scratch/$set"/rnk.*
            echo
            echo "$set products, side $side, $command and its explanation, at a load of $(load)"
            "$bench/turns.py" "$turns" "$drain" "$command" "$scratch/faults.bil" --side "$side" --products "$scratch/$set" "$tile" || differ=1
            if [ "$set" = right ]; then
                words=(--side "$side" --products "$scratch/right" "$tile")
                command_as "$command" "$command" "${words[@]}"
                command_as explain explain "${words[@]}"
                command_as explain_with_map explain --map "$scratch/faults.bil" "${words[@]}"
                "$out/measure" 1 $((side * side)) /dev/null "$scratch/$command" "$scratch/explain" "$scratch/explain_with_map" --
            fi
        done
    done
    rm -rf "$scratch/right" "$scratch/wrong" "$tile"
done
