# What `drain make` and `drain check` take for terrains of side 1201 that are hard to drain, or have as many labels as cells, beside usual terrain. Where voids make
# many outlets, the check is timed again with labels in random order (`near`) and with as many random labels of 31 bits (`far`). Asked: at most 4 times the usual.
# Read by run.sh.

side=1201
tile=$scratch/N00E000.hgt
mkdir "$scratch/products"
build make_check_input hard_terrains scatter_labels measure

# The median seconds of a processor for a million cells, of three runs with these arguments.
seconds() {
    "$out/measure" 3 $((side * side)) /dev/null "$drain" -- "$@" | awk '$1 == "drain" { print $4 }'
}

# Checks what was made, and sets to_check to the seconds.
check_made() {
    line=$("$drain" check --side "$side" --products "$scratch/products" "$tile") || { echo "$1: $line"; differ=1; }
    to_check=$(seconds check --side "$side" --products "$scratch/products" "$tile")
}

usual_make=
printf '%-15s %9s %7s %9s %7s\n' terrain 'make s/M' times 'check s/M' times
for kind in usual flat noise pits spiral stairs bowl needles voids thirds twentieths ramp; do
    if [ "$kind" = usual ]; then
        "$out/make_check_input" "$side" 1 "$scratch/usual"
        cp "$scratch/usual/${tile##*/}" "$tile"
    else
        "$out/hard_terrains" "$kind" "$side" "$tile"
    fi
    to_make=$(seconds make --side "$side" --out "$scratch/products" "$tile")
    check_made "$kind"
    [ -n "$usual_make" ] || { usual_make=$to_make; usual_check=$to_check; }
    awk -v kind="$kind" -v make="$to_make" -v check="$to_check" -v usual_make="$usual_make" -v usual_check="$usual_check" \
        'BEGIN { printf "%-15s %9.3f %7.2f %9.3f %7.2f\n", kind, make, make / usual_make, check, check / usual_check }'
    case $kind in voids | thirds | twentieths) ;; *) continue ;; esac
    for how in near far; do
        "$out/scatter_labels" "$how" "$scratch/products/bas.bil"
        check_made "$kind $how"
        awk -v kind="$kind $how" -v check="$to_check" -v usual_check="$usual_check" \
            'BEGIN { printf "%-15s %17s %9.3f %7.2f\n", kind, "", check, check / usual_check }'
    done
done
