# `drain audit --dem` and `drain make --dem` of floats beside whole heights of 32 bits of the same terrain, side 3601, timed in turn: mountains, a plain at the sea
# and a smooth tidal flat (float_terrain.py, with numpy). The audits have to accept what was made. Read by run.sh.

side=${FLOAT_SIDE:-3601}
build measure
for terrain in mountains plain flat; do
    /usr/bin/python3 "$bench/float_terrain.py" "$terrain" "$side" "$scratch"
    makes=()
    audits=()
    for kind in whole floats; do
        mkdir -p "$scratch/$kind"
        command_as "make_$kind" make --out "$scratch/$kind" --dem "$scratch/$kind.bil"
        command_as "audit_$kind" audit --products "$scratch/$kind" --dem "$scratch/$kind.bil"
        "$scratch/make_$kind"
        line=$("$scratch/audit_$kind") || differ=1
        echo "$terrain, $kind: $line"
        makes+=("$scratch/make_$kind")
        audits+=("$scratch/audit_$kind")
    done
    echo "$terrain, at a load of $(load)"
    "$out/measure" 5 $((side * side)) /dev/null "${audits[@]}" --
    "$out/measure" 3 $((side * side)) /dev/null "${makes[@]}" --
done
