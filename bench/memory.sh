# How much memory `drain check` takes on the largest mosaic: 64 tiles of side 3601, 829 million cells, all of them voids. The tiles are links to one file, and
# the rasters sparse files of zeros, which their headers name as no data. It takes some minutes. Read by run.sh.

build measure
side=3601
cols=28801
printf '\x80\0%.0s' $(seq "$side") >"$scratch/row"
for _ in $(seq "$side"); do cat "$scratch/row"; done >"$scratch/voids"
tiles=()
for lat in 0 1 2 3 4 5 6 7; do
    for lon in 0 1 2 3 4 5 6 7; do
        tiles+=("$scratch/N0${lat}E00$lon.hgt")
        ln "$scratch/voids" "${tiles[-1]}"
    done
done

# A product of this many bits per pixel, and its pixel type.
product() {
    {
        printf 'BYTEORDER I\nNROWS %d\nNCOLS %d\nNBITS %d\nPIXELTYPE %s\n' "$cols" "$cols" "$2" "$3"
        printf 'ULXMAP 0\nULYMAP 8\nXDIM 0.000277777777778\nYDIM 0.000277777777778\nNODATA 0\n'
    } >"$scratch/$1.hdr"
    truncate -s $((cols * cols * $2 / 8)) "$scratch/$1.bil"
}
product con 16 SIGNEDINT
product dir 8 UNSIGNEDINT
product acc 32 UNSIGNEDINT
product bas 32 UNSIGNEDINT
product rnk 32 UNSIGNEDINT

words=(check --side "$side" --products "$scratch" "${tiles[@]}")
"$drain" "${words[@]}"
"$out/measure" 1 $((cols * cols)) /dev/null "$drain" -- "${words[@]}"
