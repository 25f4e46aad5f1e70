#!/bin/sh
# Reads the files that `drain check` or `drain audit` judges, and does nothing with them: the least that any program takes.
# Usage: cat_inputs.sh check|audit --side N --products DIR TILE
set -eu
rasters='con dir acc bas'
[ "$1" = audit ] || rasters="$rasters rnk"
folder=$5
shift 5
for raster in $rasters; do
    set -- "$@" "$folder/$raster.bil"
done
exec cat "$@" >/dev/null
