#!/bin/sh
# Judges one window of a plan: cuts its rasters out of those of the union, has `drain window` judge them, and keeps
# what it prints as OUT/lines/NAME.txt and its report as OUT/reports/NAME.txt. It does nothing if there is an answer
# that counts (answers.py). All files are whole or not there: they are written into OUT/work and renamed.
# The status is 0 if the window is accepted, rejected or refused; a refused one has a line only, and is judged again
# next time. It is 3 if the run failed, for lack of room or memory, as a file can't be read or changed meanwhile: then
# nothing is left, and the same words try again. A signal leaves nothing either, but SIGKILL does: OUT/work/NAME.*. Each
# job has folders of its own, so that no job takes the files of another.
# Usage: job.sh NAME BOX INNER MOSAIC TILE..     a line of OUT/windows.txt; or with a DEM in place of tiles
# In the environment: DRAIN, the program; SIDE, samples along an edge of a tile; RASTERS, the union's rasters (cut.py);
# OUT; perhaps SINKS, the union's list; how far apart cells are, SPACING=W,H, or WIDTHS, a text with a line for each row of
# the union, else cells are square; and CUTS, a folder for the cut rasters, such as a node's own disk (OUT/work). A DEM
# needs no SIDE.
set -u
here=$(dirname "$0")
case ${5:-.hgt} in
*.[hH][gG][tT]) is_dem='' ;;
*) is_dem=yes ;;
esac
for word in "${DRAIN:-}" "${SIDE:-$is_dem}" "${RASTERS:-}" "${OUT:-}" "${3:-}"; do
    [ -n "$word" ] || { echo 'DRAIN, SIDE, RASTERS, OUT or the words of a window are missing' >&2; exit 3; }
done
name=$1 box=$2 inner=$3
work='' cuts=''

drop() { rm -rf ${work:+"$work"} ${cuts:+"$cuts"}; }
trap drop EXIT
# The shell ends by the signal, so that a loop of jobs ends too.
trap 'drop; trap - INT EXIT; kill -INT $$' INT
trap 'exit 143' TERM HUP
mkdir -p "$OUT/work" || exit 3
work=$(mktemp -d "$OUT/work/$name.XXXXXX") || exit 3
"$here/answers.py" begin "$work" "$@" || exit 3
[ -e "$work/inputs" ] || exit 0

mkdir -p "${CUTS:-$OUT/work}" || exit 3
cuts=$(mktemp -d "${CUTS:-$OUT/work}/$name.cut.XXXXXX") || exit 3
"$here/cut.py" ${SIDE:+--side "$SIDE"} ${SINKS:+--sinks "$SINKS"} ${WIDTHS:+--widths "$WIDTHS"} "$RASTERS" "$cuts" "$@" ||
    exit 3

judge() {
    # Where the mosaic begins in the union.
    at=${4%,*,*}
    shift 4
    [ -z "$is_dem" ] || shift
    [ "$inner" = - ] || set -- --inner "$inner" "$@"
    [ -z "${SINKS:-}" ] || set -- --sinks "$cuts/sinks.txt" "$@"
    [ -z "${SPACING:-}" ] || set -- --spacing "$SPACING" "$@"
    [ -z "${WIDTHS:-}" ] || set -- --widths "$cuts/widths.txt" "$@"
    set -- --products "$cuts" --box "$box" --report "$work/report" "$@"
    if [ -n "$is_dem" ]; then
        set -- --dem "$cuts/dem.bil" --at "$at" "$@"
    else
        set -- --side "$SIDE" "$@"
    fi
    "$DRAIN" window "$@" >"$work/line"
}
judge "$@"
status=$?
if [ $status -le 1 ] && [ -s "$work/line" ]; then
    "$here/answers.py" keep "$work" "$@" || exit 3
    exit 0
fi
echo "$name: $(cat "$work/line") (status $status)" >&2
{ [ $status = 2 ] && [ -s "$work/line" ] && mkdir -p "$OUT/lines" && mv "$work/line" "$OUT/lines/$name.txt"; } || exit 3
