#!/usr/bin/python3
"""Cuts the rasters of a window's mosaic, and its list of sinks, out of those of the union.

RASTERS has con, dir, acc and bas of the union, each as a BIL file with its header (con.bil, con.hdr), which is read by
seeking, or as con.vrt or con.tif, which GDAL reads; pixels are cut as they are, so what has a scale, an offset or a mask
is refused. Their place on the map says where the mosaic lies in them. FOLDER
gets con.hdr, con.bil and so on; a cell that a raster doesn't have gets its no-data number. Of a window of a DEM it gets
the part of the DEM too, dem.hdr and dem.bil; the rasters have the DEM's rows and columns. With --sinks FOLDER also gets
sinks.txt: the union's list counted from the mosaic, with empty lines for cells outside the window, so that lines keep
their numbers. With --widths it gets widths.txt: the mosaic's rows of a text with a line for each row of the union.
"""

import argparse
import sys
from collections.abc import Callable, Iterable, Iterator, Sequence
from dataclasses import replace
from decimal import Decimal
from pathlib import Path

sys.dont_write_bytecode = True
from places import Box, Corner, Window, corner_of
from rasters import NO_DATA, CannotCut, Form, Raster, cut, opened, raster_at

PLACE_TOLERANCE, STEP_TOLERANCE, PIXEL_TOLERANCE = Decimal("1e-6"), Decimal("1e-9"), Decimal("0.01")
MOST_NUMBER, MOST_WIDTH, MOST_DIGITS = 4_294_967_295, 2**30, 10

CutList = Callable[[Iterable[bytes], Window], Iterator[bytes]]


def cells_from(here: Decimal, there: Decimal, steps: int) -> int:
    """How many cells lie between two places of one grid."""
    cells = round((there - here) * steps)
    if abs((there - here) * steps - cells) > PLACE_TOLERANCE * steps:
        raise CannotCut(f"{here} and {there} degrees aren't whole cells of 1/{steps} degree apart")
    return cells


def mosaic_in(form: Form, mosaic: Box, corner: Corner, steps: int) -> Box:
    """Where a mosaic with this north-west corner lies in a raster, perhaps beyond its edges."""
    if abs(form.width - form.height) > STEP_TOLERANCE:
        raise CannotCut("pixels that aren't square (XDIM, YDIM)")
    if abs(form.width - 1 / Decimal(steps)) > STEP_TOLERANCE:
        raise CannotCut(f"pixels are {form.width} degrees wide, not 1/{steps}")
    row = cells_from(Decimal(corner.lat), form.north, steps)
    return Box(row, cells_from(form.west, Decimal(corner.lon), steps), mosaic.rows, mosaic.cols)


def numbers_in(line: bytes) -> list[int] | None:
    """The two numbers of a line of a list, or none of an empty one; None of another line."""
    words = line.removesuffix(b"\n").removesuffix(b"\r").replace(b"\t", b" ").split(b" ")
    digits = [word.lstrip(b"0") or word[-1:] for word in words if word]
    if len(digits) not in (0, 2) or not all(word.isdigit() and len(word) <= MOST_DIGITS for word in digits):
        return None
    return [int(word) for word in digits]


def cut_sinks(lines: Iterable[bytes], window: Window) -> Iterator[bytes]:
    """The union's list counted from the mosaic. Cells outside the window are left out; what is no cell stays."""
    box, mosaic = window.box, window.mosaic
    for line in lines:
        numbers = numbers_in(line)
        if not numbers or max(numbers) > MOST_NUMBER:
            yield line
            continue
        row, col = numbers[0] - mosaic.row, numbers[1] - mosaic.col
        is_inside = 0 <= row - box.row < box.rows and 0 <= col - box.col < box.cols
        yield b"%d %d\n" % (row, col) if is_inside else b"\n"


def cut_widths(lines: Iterable[bytes], window: Window) -> Iterator[bytes]:
    """The mosaic's rows of the union's text. Where the window ends at the union's south, the text has to end too."""
    first, end, row = window.mosaic.row, window.mosaic.row + window.mosaic.rows, 0
    for number, line in enumerate(lines, 1):
        numbers = numbers_in(line)
        if numbers is None or any(not 1 <= each <= MOST_WIDTH for each in numbers):
            raise CannotCut(f"line {number} isn't a width and a height, whole numbers from 1 to 2^30")
        if numbers and first <= row < end:
            yield b"%d %d\n" % (numbers[0], numbers[1])
        row += len(numbers) // 2
    if row < end or (row > end and "s" not in window.inner):
        raise CannotCut(f"it has {row} rows, and the union {'at least ' if 's' in window.inner else ''}{end}")


def corner_of_mosaic(window: Window) -> Corner:
    """The north-west corner of the mosaic of a window's tiles."""
    corners = [corner for path in window.tiles if (corner := corner_of(Path(path).name))]
    return Corner(max(corner.lat for corner in corners) + 1, min(corner.lon for corner in corners))


def of_tiles(raster: Raster, window: Window, side: int) -> tuple[Box, Form]:
    """Where the mosaic of a window's tiles lies in a raster, and what the cut one is."""
    corner, steps = corner_of_mosaic(window), side - 1
    pixel = 1 / Decimal(steps)
    form = replace(raster.form, west=Decimal(corner.lon), north=Decimal(corner.lat), width=pixel, height=pixel)
    return mosaic_in(raster.form, window.mosaic, corner, steps), form


def of_dem(raster: Raster, window: Window, dem: Form) -> tuple[Box, Form]:
    """The same of a part of a DEM, on which the raster has to lie: by a hundredth of a pixel."""
    form, part = raster.form, window.mosaic
    shifts = [(form.west - dem.west) / dem.width, (form.width / dem.width - 1) * dem.cols]
    shifts += [(form.north - dem.north) / dem.height, (form.height / dem.height - 1) * dem.rows]
    if (form.rows, form.cols) != (dem.rows, dem.cols) or max(abs(shift) for shift in shifts) > PIXEL_TOLERANCE:
        raise CannotCut(f"it doesn't lie where {window.dem} does")
    west, north = dem.west + part.col * dem.width, dem.north - part.row * dem.height
    return part, replace(form, west=west, north=north, width=dem.width, height=dem.height)


def cut_window(window: Window, side: int, rasters: Path, folder: Path) -> None:
    dem = raster_at(window.dem) if window.dem else None
    sources = {**({"dem": dem} if dem else {}), **{name: opened(rasters, name) for name in NO_DATA}}
    for name, raster in sources.items():
        try:
            box, form = of_dem(raster, window, dem.form) if dem else of_tiles(raster, window, side)
        except CannotCut as error:
            raise CannotCut(f"{raster.files[0]}: {error}") from error
        with open(folder / f"{name}.bil", "wb") as file:
            file.writelines(cut(raster, box))
        form = replace(form, rows=box.rows, cols=box.cols)
        (folder / f"{name}.hdr").write_text(form.header(), encoding="ascii")


def write_list(path: Path, cut_path: Path, cut_list: CutList, window: Window) -> None:
    try:
        with open(path, "rb") as lines, open(cut_path, "wb") as file:
            file.writelines(cut_list(lines, window))
    except CannotCut as error:
        raise CannotCut(f"{path}: {error}") from error


def main(words: Sequence[str]) -> None:
    about, _, more = (__doc__ or "").partition("\n")
    form = argparse.RawDescriptionHelpFormatter
    parser = argparse.ArgumentParser(description=about, epilog=more, formatter_class=form)
    parser.add_argument("--side", type=int, default=1201, help="samples along an edge of each tile [default: 1201]")
    parser.add_argument("--sinks", type=Path, metavar="FILE", help="the union's list of sinks")
    parser.add_argument("--widths", type=Path, metavar="FILE", help="width and height of cells, of each row of the union")
    parser.add_argument("rasters", type=Path, metavar="RASTERS")
    parser.add_argument("folder", type=Path, metavar="FOLDER")
    parser.add_argument("window", nargs="+", metavar="WORD", help="the words of the window's line in windows.txt")
    given = parser.parse_args(words)
    window = Window.of(given.window)
    try:
        cut_window(window, given.side, given.rasters, given.folder)
        for path, name, cut_list in ((given.sinks, "sinks", cut_sinks), (given.widths, "widths", cut_widths)):
            if path:
                write_list(path, given.folder / f"{name}.txt", cut_list, window)
    except (CannotCut, OSError) as error:
        sys.exit(f"{window.name}: {error}")


if __name__ == "__main__":
    main(sys.argv[1:])
