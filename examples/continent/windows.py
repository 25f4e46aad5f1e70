#!/usr/bin/python3
"""Plans the windows by which a union of SRTM tiles, or of one DEM, is judged: OUT/windows.txt, a line for each.

    NAME BOX INNER MOSAIC TILE..

BOX is the window in the mosaic of its tiles, MOSAIC this mosaic in the union, each as ROW,COL,ROWS,COLS. INNER has the
sides on which the union goes on, letters of n e s w, or - for none. NAME is its row and column among the windows.

A window is W by W tiles. On its inner sides it begins one row or column behind the edge that its first tile shares with
the tile before, and ends two behind the edge of its last tile. So two windows overlap by exactly two rows or columns,
and all tiles over a window's cells are its own or the next ones south and east, which are handed in too.

With --dem a window is N by N pixels, MOSAIC the part of the DEM that it fills, and the DEM stands in place of tiles.

OUT/merges.txt has the merges of the windows' reports (groups.py).
"""

import argparse
import os
import re
import sys
import tempfile
from collections.abc import Sequence
from dataclasses import dataclass
from pathlib import Path
from typing import NamedTuple

sys.dont_write_bytecode = True
from groups import LEAST_GROUP, MERGE_BYTES, tree
from places import Box, Corner, Window, corner_of
from rasters import CannotCut, raster_at

LEAST_SIDE, MOST_SIDE, MOST_TILES = 4, 3601, 8
LEAST_PIXELS, MOST_PIXELS, SHARED = 4, 28_801, 2
MEGABYTE = 1_000_000
PLAIN_PATH = re.compile(r"[A-Za-z0-9_./+,=@%-]+")
VOID_SAMPLE = b"\x80\x00"


class Span(NamedTuple):
    """The rows of a window, or its columns."""

    tile: int
    """The first tile that is handed in, counted from the union's edge."""

    tiles: int
    first: int
    """The first cell, counted from the union's edge."""

    cells: int
    before: bool
    """Whether the union goes on before the first cell."""

    behind: bool


def plain(path: Path) -> str:
    """The absolute path. The scripts split the plan's lines at spaces, and give them to a shell."""
    text = os.path.abspath(path)
    if not PLAIN_PATH.fullmatch(text):
        sys.exit(f"{text}: a path of the plan may have the letters A to Z and a to z, digits and _./+,=@%- only")
    return text


def spans(tiles: int, width: int, steps: int) -> list[Span]:
    """The windows along one side of a union of this many tiles, each of `steps` cells and one."""
    found = []
    for tile in range(0, tiles, width):
        end = min(tile + width, tiles)
        before, behind = tile > 0, end < tiles
        first, last = tile * steps + before, end * steps + 2 * behind
        found.append(Span(tile, end + behind - tile, first, last - first + 1, before, behind))
    return found


def window_of(down: Span, across: Span, name: str, steps: int, tiles: Sequence[str]) -> Window:
    mosaic = Box(down.tile * steps, across.tile * steps, down.tiles * steps + 1, across.tiles * steps + 1)
    box = Box(down.first - mosaic.row, across.first - mosaic.col, down.cells, across.cells)
    sides = zip("nesw", (down.before, across.behind, down.behind, across.before))
    return Window(name, box, "".join(side for side, is_inner in sides if is_inner), mosaic, tiles)


class Tiles:
    """The tiles of a folder, with voids for corners where it has none."""

    def __init__(self, folder: Path, voids: Path, side: int) -> None:
        self.paths: dict[Corner, str] = {}
        for path in sorted(folder.iterdir()):
            corner = corner_of(path.name) if path.suffix else None
            if corner and str(corner) != path.stem.upper():
                sys.exit(f"{path}: no tile has this name: it is {corner}.hgt")
            if corner and corner in self.paths:
                sys.exit(f"{path} and {self.paths[corner]} are one tile")
            if corner:
                self.paths[corner] = plain(path)
        self.voids, self.side = voids, side

    def over(self, first: Corner, last: Corner) -> list[str]:
        """The tiles from the north-west one to the south-east one. Voids stand in at these two where they are missing,
        so that the tiles' mosaic is this box."""
        box = [Corner(lat, lon) for lat in range(first.lat, last.lat - 1, -1) for lon in range(first.lon, last.lon + 1)]
        needed = [corner for corner in box if corner in self.paths or corner in (first, last)]
        return [self.paths.get(corner) or self.void(corner) for corner in needed]

    def void(self, corner: Corner) -> str:
        """A tile of voids with the name of this corner."""
        self.voids.mkdir(parents=True, exist_ok=True)
        voids, link = self.voids / "voids", self.voids / f"{corner}.hgt"
        if not voids.exists() or voids.stat().st_size != len(VOID_SAMPLE) * self.side**2:
            write_whole(voids, VOID_SAMPLE * self.side**2)
        if not link.is_symlink():
            link.symlink_to(voids.name)
        return plain(link)


def write_whole(path: Path, content: bytes) -> None:
    """Writes a file, whole or not at all."""
    with tempfile.NamedTemporaryFile(dir=path.parent, prefix=f"{path.name}.", delete=False) as file:
        try:
            file.write(content)
            file.flush()
            os.chmod(file.name, 0o644)
            os.replace(file.name, path)
        except BaseException:
            os.unlink(file.name)
            raise


def plan(tiles: Tiles, first: Corner, last: Corner, width: int) -> list[Window]:
    """The windows of the union from its north-west tile to its south-east one, row by row."""
    steps = tiles.side - 1
    downs = spans(first.lat - last.lat + 1, width, steps)
    acrosses = spans(last.lon - first.lon + 1, width, steps)
    digits = len(str(max(len(downs), len(acrosses)) - 1))
    windows = []
    for i, down in enumerate(downs):
        for j, across in enumerate(acrosses):
            north_west = Corner(first.lat - down.tile, first.lon + across.tile)
            south_east = Corner(north_west.lat - down.tiles + 1, north_west.lon + across.tiles - 1)
            name = f"r{i:0{digits}d}c{j:0{digits}d}"
            windows.append(window_of(down, across, name, steps, tiles.over(north_west, south_east)))
    return windows


def raster_spans(cells: int, most: int) -> list[tuple[int, int]]:
    """The windows along one side of a DEM, the first cell of each and how many: at most `most`, two shared with the next."""
    firsts = range(0, max(cells - SHARED, 1), most - SHARED)
    return [(first, min(most, cells - first)) for first in firsts]


def raster_plan(dem: str, rows: int, cols: int, most: int) -> list[Window]:
    """The windows of a DEM, row by row. Each is a part of it, whole."""
    downs, acrosses = raster_spans(rows, most), raster_spans(cols, most)
    digits = len(str(max(len(downs), len(acrosses)) - 1))
    windows = []
    for i, (top, high) in enumerate(downs):
        for j, (left, wide) in enumerate(acrosses):
            sides = {"n": top > 0, "e": left + wide < cols, "s": top + high < rows, "w": left > 0}
            name, inner = f"r{i:0{digits}d}c{j:0{digits}d}", "".join(
                side for side, is_inner in sides.items() if is_inner
            )
            windows.append(Window(name, Box(0, 0, high, wide), inner, Box(top, left, high, wide), [dem]))
    return windows


def planned_tiles(given: argparse.Namespace) -> tuple[list[Window], str]:
    """The windows of a folder of tiles, and what they cover."""
    if not LEAST_SIDE <= given.side <= MOST_SIDE:
        sys.exit(f"--side {given.side} isn't from {LEAST_SIDE} to {MOST_SIDE}")
    if not 1 <= given.width < MOST_TILES:
        sys.exit(f"--width {given.width} isn't from 1 to {MOST_TILES - 1}: a window needs the tiles next to it too")
    tiles = Tiles(given.tiles, given.out / "voids", given.side)
    corners = [corner_of(name) for name in given.box] if given.box else list(tiles.paths)
    if not corners or None in corners:
        sys.exit(f"no tile's name: {' '.join(given.box)}" if given.box else f"no tiles in {given.tiles}")
    known = [corner for corner in corners if corner]
    first = Corner(max(corner.lat for corner in known), min(corner.lon for corner in known))
    last = Corner(min(corner.lat for corner in known), max(corner.lon for corner in known))
    steps = given.side - 1
    size = f"{(first.lat - last.lat + 1) * steps + 1} rows, {(last.lon - first.lon + 1) * steps + 1} columns"
    return plan(tiles, first, last, given.width), f"{size}, from {first} to {last}"


def planned_dem(given: argparse.Namespace) -> tuple[list[Window], str]:
    """The windows of a DEM, and what they cover."""
    if not LEAST_PIXELS <= given.pixels <= MOST_PIXELS:
        sys.exit(f"--pixels {given.pixels} isn't from {LEAST_PIXELS} to {MOST_PIXELS}")
    path = plain(given.dem)
    if path.lower().endswith(".hgt"):
        sys.exit(f"{path}: a tile; --dem is for other rasters")
    try:
        form = raster_at(Path(path)).form
    except (CannotCut, OSError) as error:
        sys.exit(str(error))
    return raster_plan(path, form.rows, form.cols, given.pixels), f"{form.rows} rows, {form.cols} columns"


def main() -> None:
    about, _, more = (__doc__ or "").partition("\n")
    form = argparse.RawDescriptionHelpFormatter
    parser = argparse.ArgumentParser(description=about, epilog=more, formatter_class=form)
    parser.add_argument("--side", type=int, default=1201, help="samples along an edge of each tile [default: 1201]")
    parser.add_argument(
        "--width", type=int, default=3, metavar="W", help="tiles along an edge of a window [default: 3]"
    )
    parser.add_argument(
        "--box",
        nargs=2,
        metavar="TILE",
        help="the north-west and the south-east tile of the union, as"
        " N59W125 N24W067 [default: the bounding box of all tiles]",
    )
    parser.add_argument("--dem", type=Path, help="a BIL file, or a raster that GDAL reads, in place of TILES")
    parser.add_argument(
        "--pixels", type=int, default=10_000, metavar="N", help="pixels along an edge of its windows [default: 10000]"
    )
    parser.add_argument(
        "--group",
        type=int,
        metavar="G",
        help="merge reports by G times G, and so on [default: so that a merge holds at most"
        f" {MERGE_BYTES // MEGABYTE} MB]",
    )
    parser.add_argument("tiles", type=Path, nargs="?", metavar="TILES", help="the folder of the tiles")
    parser.add_argument("out", type=Path, metavar="OUT", help="the folder to write windows.txt and merges.txt into")
    given = parser.parse_args()
    if (given.tiles is None) == (given.dem is None):
        parser.error("either TILES or --dem is needed")
    if given.group is not None and given.group < LEAST_GROUP:
        sys.exit(f"--group {given.group} is less than {LEAST_GROUP}")
    plain(given.out)
    windows, covered = planned_dem(given) if given.dem else planned_tiles(given)
    merges = tree(windows, given.group)
    given.out.mkdir(parents=True, exist_ok=True)
    file, text = given.out / "windows.txt", "".join(f"{window}\n" for window in windows)
    if file.exists() and file.read_text(encoding="utf-8") != text:
        sys.exit(f"{file} is another plan: take a new OUT, as reports of other windows may be there")
    write_whole(file, text.encode())
    write_whole(given.out / "merges.txt", "".join(f"{merge}\n" for merge in merges).encode())
    most = max(merge.bytes for merge in merges) // MEGABYTE + 1
    print(f"{len(windows)} windows of a union of {covered}")
    print(f"{len(merges)} merges in {merges[-1].level} levels, of at most {most} MB")


if __name__ == "__main__":
    main()
