#!/usr/bin/env bash
# Makes the tile and the sets of this folder anew: with SAGA 8.5.0, GRASS 8.2.1, GDAL 3.6.2, and build/drain for what is
# derived from directions.
# Usage: samples/other-tools/make_sets.sh FOLDER    (a new one, which the sets are written into)
set -eu
samples=$(cd "$(dirname "$0")/.." && pwd)
drain=$(realpath "$samples/../build/drain")
mkdir "$1"
cd "$1"
work=$(mktemp -d)
trap 'rm -rf "$work"' EXIT
side=51 row=165 col=31

# The tile: a window of the bundled terrain, which is 344 samples wide.
for ((line = row; line < row + side; line++)); do
    tail -c +$((2 * (344 * line + col) + 1)) "$samples/N36W085.hgt" | head -c $((2 * side))
done >N36W085.hgt
cp N36W085.hgt "$work/tile.bil"
cat >"$work/tile.hdr" <<'END'
BYTEORDER M
LAYOUT BIL
NROWS 51
NCOLS 51
NBANDS 1
NBITS 16
PIXELTYPE SIGNEDINT
ULXMAP -85
ULYMAP 37
XDIM 0.02
YDIM 0.02
NODATA -32768
END
gdalsrsinfo -o wkt_esri EPSG:4326 | grep . >"$work/tile.prj"

# Rasters as GDAL writes them, of SAGA's grids: the product, the grid, and what of it.
calc() {
    local form
    case $1 in
        */con) form='--type=Int16 --NoDataValue=-32768' ;;
        */dir) form='--type=Byte --NoDataValue=255' ;;
        *) form='--type=UInt32 --NoDataValue=0' ;;
    esac
    gdal_calc.py --quiet -A "$work/$2.sdat" --calc="$3" $form --format=EHdr --overwrite --outfile="$1.bil"
}
codes='where(A<0,0,2**((A+6)%8))'

# Acc and bas of a set, derived from its directions.
derive() {
    "$drain" derive --side $side --products "$1" --out "$1" N36W085.hgt
    rm "$1/rnk.hdr" "$1/rnk.bil"
}

mkdir saga saga-linear saga-counted terraflow terraflow-ends watershed watershed-counted fill-dir

# SAGA: filling, directions and labels by Wang and Liu, accumulation by D8; and accumulation along the directions.
saga_cmd io_gdal 0 -FILES "$work/tile.bil" -GRIDS "$work/tile.sgrd"
saga_cmd ta_preprocessor 4 -ELEV "$work/tile.sgrd" -FILLED "$work/fill.sgrd" -FDIR "$work/fdir.sgrd" -WSHED "$work/shed.sgrd" -MINSLOPE 0
saga_cmd ta_hydrology 0 -ELEVATION "$work/fill.sgrd" -FLOW "$work/flow.sgrd" -METHOD 0 -FLOW_UNIT 0
saga_cmd ta_hydrology 0 -ELEVATION "$work/fill.sgrd" -FLOW "$work/along.sgrd" -METHOD 0 -FLOW_UNIT 0 -LINEAR_DO 1 -LINEAR_MIN 0 -LINEAR_DIR "$work/fdir.sgrd"
for set in saga saga-linear saga-counted; do
    calc $set/con fill A
    calc $set/dir fdir "$codes"
done
calc saga/acc flow A
calc saga/bas shed A
derive saga-counted
derive saga-linear
rm saga-linear/acc.hdr saga-linear/acc.bil
calc saga-linear/acc along A

# GRASS: r.terraflow, r.watershed, and r.fill.dir until nothing changes.
cat >"$work/in_grass.sh" <<'END'
set -eu
r.in.gdal input="$work/tile.bil" output=ground
g.region raster=ground
r.terraflow -s elevation=ground filled=filled direction=tdir swatershed=tbas accumulation=tacc tci=tci directory="$work" stats="$work/stats"
r.mapcalc expression="con=int(filled)"
r.mapcalc expression="tcodes=int(if(tdir<0,null(),tdir))"
r.mapcalc expression="tcells=int(tacc)"
nowhere="tcodes==1 && isnull(ground[0,1]) || tcodes==2 && isnull(ground[1,1]) || tcodes==4 && isnull(ground[1,0]) || tcodes==8 && isnull(ground[1,-1])"
nowhere="$nowhere || tcodes==16 && isnull(ground[0,-1]) || tcodes==32 && isnull(ground[-1,-1]) || tcodes==64 && isnull(ground[-1,0]) || tcodes==128 && isnull(ground[-1,1])"
r.mapcalc expression="tends=int(if($nowhere,0,tcodes))"
r.mapcalc expression="tlabels=int(if(tbas<0,null(),tbas+1))"
r.watershed -a -s elevation=ground drainage=wdir accumulation=wacc basin=wbas threshold=50
r.mapcalc expression="wcodes=int(if(wdir<0,0,2^(8-wdir)))"
r.mapcalc expression="wcells=int(abs(wacc))"
r.fill.dir input=ground output=f1 direction=fdir1 format=grass
for ((i = 1; ; i++)); do
    r.fill.dir input=f$i output=f$((i + 1)) direction=fdir$((i + 1)) format=grass
    r.mapcalc --overwrite expression="changed=abs(f$((i + 1))-f$i)"
    eval "$(r.univar -g map=changed)"
    [ "$max" != 0 ] || break
done
r.mapcalc expression="fcon=int(f$i)"
out() {
    case $2 in
        */con) r.out.gdal -c input="$1" output="$2.bil" format=EHdr type=Int16 nodata=-32768 ;;
        */dir) r.out.gdal -c input="$1" output="$2.bil" format=EHdr type=Byte nodata=255 ;;
        *) r.out.gdal -c input="$1" output="$2.bil" format=EHdr type=UInt32 nodata=0 ;;
    esac
}
for set in terraflow terraflow-ends watershed watershed-counted; do out con $set/con; done
out tcodes terraflow/dir
out tcells terraflow/acc
out tlabels terraflow/bas
out tends terraflow-ends/dir
out tcells terraflow-ends/acc
out tlabels terraflow-ends/bas
out wcodes watershed/dir
out wcells watershed/acc
out wbas watershed/bas
out wcodes watershed-counted/dir
out fcon fill-dir/con
END
grass -c "$work/tile.bil" -e "$work/location"
work=$work grass "$work/location/PERMANENT" --exec bash "$work/in_grass.sh"
derive watershed-counted

# Directions for the con of r.fill.dir, by SAGA: its filling finds nothing to raise there.
saga_cmd io_gdal 0 -FILES fill-dir/con.bil -GRIDS "$work/fcon.sgrd"
saga_cmd ta_preprocessor 4 -ELEV "$work/fcon.sgrd" -FILLED "$work/ffill.sgrd" -FDIR "$work/ffdir.sgrd" -WSHED "$work/fshed.sgrd" -MINSLOPE 0
calc fill-dir/dir ffdir "$codes"
derive fill-dir

rm -f ./*/*.prj ./*/*.aux.xml
