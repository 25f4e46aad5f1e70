"""Small sets of one raster of elevations with their lines, which were worked out by hand from the rules."""

import struct
import sys
from collections.abc import Sequence
from dataclasses import replace
from math import inf, nan

sys.dont_write_bytecode = True
from small_sets import NO_RANK, PIXELS, VOID, DemSet, grid, put_line
from worked_lines import LISTED as LISTED_TILE
from worked_lines import PIT as PIT_TILE
from worked_lines import PIT_LINE

# The lines on pixels by their form for struct.
KINDS = {
    "b": "NBITS 8\nPIXELTYPE SIGNEDINT\n",
    "B": "NBITS 8\nPIXELTYPE UNSIGNEDINT\n",
    "h": "NBITS 16\nPIXELTYPE SIGNEDINT\n",
    "H": "NBITS 16\nPIXELTYPE UNSIGNEDINT\n",
    "i": "NBITS 32\nPIXELTYPE SIGNEDINT\n",
    "I": "NBITS 32\nPIXELTYPE UNSIGNEDINT\n",
}
FLOATS = {"f": "NBITS 32\nPIXELTYPE FLOAT\n"}
LINES_ON_PIXELS = {**KINDS, **FLOATS}
# A no-data number that no pixel spells.
UNSPELLED = 4294967296


def one_dem(
    rows: int,
    cols: int,
    kind: str,
    z: Sequence[float],
    *products: Sequence[float],
    con: str = "",
    nodata: object = None,
    con_nodata: object = None,
    order: str = "I",
) -> DemSet:
    """A raster of elevations with its products: con, of this kind or of the same, then dir, acc, bas and rnk."""
    place = grid(rows, cols, 500000, 4000000, 30)
    con = con or kind
    lines = f"{LINES_ON_PIXELS[kind]}BYTEORDER {order}\n"
    con_lines = LINES_ON_PIXELS[con] + ("" if con_nodata is None else f"NODATA {con_nodata}\n")
    return DemSet(
        numbers=dict(zip(PIXELS, products, strict=True)),
        grid=place,
        pixels={**PIXELS, "con": (con, con_lines)},
        dem_header=place + lines + ("" if nodata is None else f"NODATA {nodata}\n"),
        dem=struct.pack(f"{'<' if order == 'I' else '>'}{len(z)}{kind}", *z),
    )


PIT = one_dem(3, 3, "B", PIT_TILE.tiles[0][1], *PIT_TILE.numbers.values(), con="h")
LISTED = one_dem(3, 3, "i", LISTED_TILE.tiles[0][1], *LISTED_TILE.numbers.values()).listing("1 1\n")
FALL = one_dem(
    2, 3, "i", [100002, 100001, 100000] * 2, [100002, 100001, 100000] * 2, [1, 1, 0] * 2, [1, 2, 3] * 2, [1] * 3 + [2] * 3,
    [2, 1, 0] * 2,
)  # fmt: skip
FALL_LINE = "accepted rows=2 cols=3 data=6 raised=0 outlets=2"
# A void between two cells, the first of which is as low as a void of a tile.
SPLIT_Z = [VOID, -9999, 0]
SPLIT_PRODUCTS = (SPLIT_Z, [0, 255, 0], [1, 0, 1], [1, 0, 2], [0, NO_RANK, 0])
SPLIT = one_dem(1, 3, "h", SPLIT_Z, *SPLIT_PRODUCTS, nodata=-9999, con_nodata=-9999)
SPLIT_LINE = "accepted rows=1 cols=3 data=2 raised=0 outlets=2"
PEAK_Z = [0, 0, 0, 0, 4294967295, 0, 0, 0, 0]
PEAK = one_dem(3, 3, "I", PEAK_Z, PEAK_Z, *list(PIT_TILE.numbers.values())[1:], con_nodata=-1)
PEAK_LINE = "accepted rows=3 cols=3 data=9 raised=0 outlets=8"
# A cell of data, 1, in voids.
ALONE = one_dem(
    3, 3, "B", PIT_TILE.tiles[0][1], [VOID] * 4 + [1] + [VOID] * 4, [255] * 4 + [0] + [255] * 4, [0] * 4 + [1] + [0] * 4,
    [0] * 4 + [1] + [0] * 4, [NO_RANK] * 4 + [0] + [NO_RANK] * 4, con="h", nodata=5,
)  # fmt: skip
# The bytes of -9999 between two cells of 5. Without a sign they are 4294957297, a peak.
CLIFF_PEAK = [5, 4294957297, 5]
CLIFF = replace(
    one_dem(1, 3, "i", [5, -9999, 5], CLIFF_PEAK, [0, 1, 0], [1, 1, 2], [1, 2, 2], [0] * 3, nodata=-9999),
    pixels={**PIXELS, "con": ("I", "NBITS 32\n")},
)


def slope(aslant: int, straight: int, code: int, inflow: int, kind: str = "i", unit: float = 1) -> DemSet:
    """A cell from which the south-east is `aslant` lower and the east `straight`, in such units, with the code of the
    middle cell and how many cells drain through the eastern one."""
    z = [unit * it for it in [aslant] * 5 + [aslant - straight] + [aslant] * 2 + [0]]
    codes, counts = [0, 2, 4, 0, code, 4, 0, 1, 0], [1, 1, 1, 1, 1, inflow, 1, 1, 6]
    return one_dem(3, 3, kind, z, z, codes, counts, [1, 4, 4, 2, 4, 4, 3, 4, 4], [0] * 9)


def pit_of(border: float, centre: float, con: float, kind: str) -> DemSet:
    """The pit with these heights, filled to con, and a no-data number that no cell has."""
    z, surface = [border] * 4 + [centre] + [border] * 4, [border] * 4 + [con] + [border] * 4
    return one_dem(3, 3, kind, z, surface, *list(PIT_TILE.numbers.values())[1:], con_nodata=UNSPELLED)


# Of a square of the slope along the axes twice the square is compared with that across the corner: 2 * 1311738121^2 is one
# more than 1855077841^2, and 2 * 543339720^2 one less than 768398401^2.
SLOPE_LINE = "accepted rows=3 cols=3 data=9 raised=0 outlets=4"
ELEVATIONS = [
    (PIT, PIT_LINE),
    (PIT.longer(dem=7, con=3), PIT_LINE),
    (LISTED, "accepted rows=3 cols=3 data=9 raised=0 outlets=1"),
    (FALL, FALL_LINE),
    (SPLIT, SPLIT_LINE),
    (PEAK, PEAK_LINE),
    (PEAK.changed(dir={4: 2}), "rejected rule=10 Slope row=1 col=1"),
    (slope(1855077841, 1311738121, 1, 4), SLOPE_LINE),
    (slope(1855077841, 1311738121, 2, 3), "rejected rule=10 Slope row=1 col=1"),
    (slope(768398401, 543339720, 2, 3), SLOPE_LINE),
    (slope(768398401, 543339720, 1, 4), "rejected rule=10 Slope row=1 col=1"),
    (pit_of(2000000000, -2000000000, 2000000000, "i"), PIT_LINE),
    (pit_of(2000000000, -2000000000, 2000000001, "i"), "rejected rule=9 NotLeast row=1 col=1"),
    (pit_of(2000000000, -2000000000, 1999999999, "i"), "rejected rule=10 Slope row=0 col=0"),
    (pit_of(4294967295, 0, 4294967295, "I"), PIT_LINE),
    (pit_of(4294967295, 4294967294, 4294967294, "I"), "rejected rule=10 Slope row=0 col=0"),
    (pit_of(VOID, VOID, VOID, "h"), "accepted rows=3 cols=3 data=9 raised=0 outlets=8"),
    (one_dem(1, 1, "b", [-1], [-1], [0], [1], [1], [0]), "accepted rows=1 cols=1 data=1 raised=0 outlets=1"),
]


def ends_of(kind: str) -> list[int]:
    """The least and the greatest number of a pixel of this kind."""
    numbers = 256 ** struct.calcsize(kind)
    return [0, numbers - 1] if kind.isupper() else [-numbers // 2, numbers // 2 - 1]


def ends(kind: str, order: str) -> DemSet:
    """Two cells, with the least and the greatest number of a kind."""
    z = ends_of(kind)
    return one_dem(1, 2, kind, z, z, [0, 16], [2, 1], [1, 1], [0, 0], con_nodata=UNSPELLED, order=order)


def without_line(header: str, keyword: str) -> str:
    return "".join(f"{line}\n" for line in header.splitlines() if line.split(" ")[0] != keyword)


ENDS_LINE = "accepted rows=1 cols=2 data=2 raised=0 outlets=1"
ENDS = [
    *((ends(kind, order), ENDS_LINE) for kind in KINDS for order in "IM"),
    # Without PIXELTYPE 16 bits have a sign, 8 and 32 have none; without BYTEORDER the least significant byte is first.
    *(
        (replace(it, dem_header=without_line(without_line(it.dem_header, "PIXELTYPE"), "BYTEORDER")), ENDS_LINE)
        for it in (ends(kind, "I") for kind in "BhI")
    ),
]

# What is void: the number of the header, where a pixel has it.
VOIDS = [
    (PIT.with_line("dem", "NODATA -9999"), PIT_LINE),
    (PIT.with_line("dem", "NODATA 256"), PIT_LINE),
    (PIT.with_line("dem", "NODATA 1"), "rejected rule=1 VoidCell row=1 col=1"),
    (PIT.with_line("dem", "NODATA 1e0"), "rejected rule=1 VoidCell row=1 col=1"),
    (ALONE, "accepted rows=3 cols=3 data=1 raised=0 outlets=1"),
    (ALONE.listing("1 1"), "accepted rows=3 cols=3 data=1 raised=0 outlets=1"),
    (ALONE.listing("1 2"), "refused SinkNotData 1"),
    (SPLIT.listing("0 0\n\n0 1"), "refused SinkNotData 3"),
    (SPLIT.with_line("con", "NODATA -9998"), "rejected rule=1 VoidCell row=0 col=1"),
    (SPLIT.with_line("con", f"NODATA {VOID}"), "rejected rule=2 Missing row=0 col=0"),
    (replace(SPLIT, pixels={**PIXELS, "con": ("h", KINDS["h"])}), "rejected rule=2 Missing row=0 col=0"),
    (CLIFF, "rejected rule=1 VoidCell row=0 col=1"),
    (
        replace(CLIFF, dem_header=without_line(CLIFF.dem_header, "PIXELTYPE")),
        "accepted rows=1 cols=3 data=3 raised=0 outlets=2",
    ),
]
# Without a no-data number no cell is void; a code 255 leads nowhere, which an audit sees first.
NO_VOIDS = replace(SPLIT, dem_header=without_line(SPLIT.dem_header, "NODATA"))
NO_VOIDS_LINES = "rejected NoEnd row=0 col=1", "rejected rule=2 Missing row=0 col=1"


def levels(rows: int, cols: int) -> DemSet:
    cells = rows * cols
    return one_dem(
        rows, cols, "B", [0] * cells, [0] * cells, [0] * cells, [1] * cells, list(range(1, cells + 1)), [0] * cells
    )


def padded(header: str, length: int) -> str:
    return header + "\n" * (length - len(header))


# Seven bytes before the first row, and three behind each but the last.
SPACED = replace(
    FALL.with_line("dem", "SKIPBYTES 7").with_line("dem", "TOTALROWBYTES 15"),
    dem=bytes(range(7)) + FALL.dem[:12] + b"\xff\xff\xff" + FALL.dem[12:],
)
HEADERS = [
    (levels(1, 28801), "accepted rows=1 cols=28801 data=28801 raised=0 outlets=28801"),
    (levels(28801, 1), "accepted rows=28801 cols=1 data=28801 raised=0 outlets=28801"),
    (PIT.with_line("dem", "NROWS 28801"), "refused WrongShape con"),
    (PIT.with_line("dem", "NROWS 28802"), "refused BadHeader dem BadValue 1"),
    (PIT.with_line("dem", "NCOLS 2"), "refused WrongShape con"),
    (PIT.with_line("dem", "NBITS 24"), "refused BadHeader dem BadBits"),
    (PIT.with_line("dem", "NBANDS 3"), "refused BadHeader dem NotOneBand"),
    (PIT.with_line("dem", "PIXELTYPE DOUBLE"), "refused BadHeader dem BadPixelType"),
    (PIT.with_line("dem", "NODATA -3.4028234663852886e+38"), "refused BadHeader dem BadValue 10"),
    (PIT.with_line("dem", "TOTALROWBYTES 2"), "refused BadHeader dem RowTooShort"),
    (replace(PIT, dem_header=PIT.dem_header + "nrows 3\n"), "refused BadHeader dem RepeatedKey 10"),
    *(
        (replace(PIT, dem_header=without_line(PIT.dem_header, key)), f"refused BadHeader dem MissingKey {key}")
        for key in ("NROWS", "NCOLS", "ULXMAP", "ULYMAP", "XDIM", "YDIM")
    ),
    (replace(PIT, dem_header=""), "refused BadHeader dem MissingKey NROWS"),
    (replace(PIT, dem_header=padded(PIT.dem_header, 65536)), PIT_LINE),
    (replace(PIT, dem_header=padded(PIT.dem_header, 65537)), "refused BadHeader dem TooLong"),
    *(
        (PIT.with_line("dem", line), "refused BadPixelSize dem")
        for line in ("XDIM 0", "XDIM -30", "YDIM 0", "YDIM -30", "XDIM 0.0000000000000009", "YDIM -0.5")
    ),
    (SPACED, FALL_LINE),
    (SPACED.longer(dem=-1), "refused RasterShort dem"),
    (PIT.longer(dem=-9), "refused RasterShort dem"),
    (PIT.with_line("dem", "SKIPBYTES 4294967295"), "refused RasterShort dem"),
]


def placed(file: str, *lines: str) -> DemSet:
    """The slope over a raster of elevations 2 rows high and 3 columns wide, with other lines on a product's place."""
    it = FALL
    for line in lines:
        it = it.with_line(file, line)
    return it


def pixels_of(it: DemSet, xdim: str, ydim: str) -> DemSet:
    """The same with pixels of this size in every header."""
    place = put_line(put_line(it.grid, f"XDIM {xdim}"), f"YDIM {ydim}")
    return replace(it, grid=place).with_line("dem", f"XDIM {xdim}").with_line("dem", f"YDIM {ydim}")


# A hundredth of a pixel at the corner, and another over all columns, and over all rows; a hair beyond.
LEAST = "0.000000000000001"
PLACES = [
    (placed("con", "ULXMAP 500000.3"), FALL_LINE),
    (placed("con", "ULXMAP 500000.300000001"), "refused Misplaced con"),
    (placed("con", "ULXMAP 499999.7"), FALL_LINE),
    (placed("con", "ULXMAP 499999.699999999999999"), "refused Misplaced con"),
    (placed("dir", "ULYMAP 4000000.3"), FALL_LINE),
    (placed("dir", "ULYMAP 4000000.300000000000001"), "refused Misplaced dir"),
    (placed("dir", "ULYMAP 3999999.7"), FALL_LINE),
    (placed("dir", "ULYMAP 3999999.699999999"), "refused Misplaced dir"),
    (placed("con", "XDIM 30.1"), FALL_LINE),
    (placed("con", "XDIM 30.100000001"), "refused Misplaced con"),
    (placed("con", "XDIM 29.9"), FALL_LINE),
    (placed("con", "XDIM 29.899999999"), "refused Misplaced con"),
    (placed("acc", "YDIM 30.15"), FALL_LINE),
    (placed("acc", "YDIM 30.150000000000001"), "refused Misplaced acc"),
    (placed("acc", "YDIM 29.85"), FALL_LINE),
    (placed("bas", "YDIM 29.849999999"), "refused Misplaced bas"),
    (placed("bas", "YDIM -30"), "refused Misplaced bas"),
    (placed("bas", "ULXMAP 500000.3", "ULYMAP 3999999.7", "XDIM 30.1", "YDIM 29.85"), FALL_LINE),
    (placed("con", "ULXMAP 1e10", "NODATA 7"), "refused Misplaced con"),
    (pixels_of(FALL, "30", "20").with_line("con", "ULYMAP 4000000.2").with_line("dir", "YDIM 20.1"), FALL_LINE),
    (pixels_of(FALL, "30", "20").with_line("con", "ULYMAP 4000000.200000001"), "refused Misplaced con"),
    (pixels_of(FALL, "30", "20").with_line("con", "ULXMAP 500000.3"), FALL_LINE),
    (pixels_of(FALL, "30", "20").with_line("con", "YDIM 20.100000001"), "refused Misplaced con"),
    (pixels_of(FALL, LEAST, LEAST), FALL_LINE),
    (pixels_of(FALL, LEAST, LEAST).with_line("con", "ULXMAP 500000.000000000000001"), "refused Misplaced con"),
    (pixels_of(FALL, LEAST, LEAST).with_line("con", "XDIM 0.000000000000002"), "refused Misplaced con"),
    (pixels_of(FALL, "1e10", "1e10").with_line("con", "ULXMAP 100500000"), FALL_LINE),
]


# Floats. Decimals are taken as the floats nearest to them.
def float_at(pattern: int) -> float:
    """The float with these 32 bits."""
    number: float = struct.unpack("<f", struct.pack("<I", pattern))[0]
    return number


GREATEST, LEAST_FLOAT = float_at(0x7F7FFFFF), float_at(1)
# 0.2 is the float 3e4ccccd.
LESS, MORE = float_at(0x3E4CCCCC), float_at(0x3E4CCCCE)
PIT_OF_TENTHS = pit_of(0.2, 0.1, 0.2, "f")
FALL_OF_FLOATS = one_dem(2, 3, "f", FALL.numbers["con"], *FALL.numbers.values())
# How GDAL spells the least float, which is -3.40282346638528859812e+38.
GDAL_LEAST = "-3.4028235e+38"


def between(west: float, east: float, code: int) -> DemSet:
    """A cell of 3000 between two others, with this code."""
    z, to_east = [west, 3000, east], code == 1
    return one_dem(1, 3, "f", z, z, [0, code, 0], [2 - to_east, 1, 1 + to_east], [1, 1 + to_east, 2], [0, 0, 0])


def split_by(void: float, con: float, nodata: object = None, con_nodata: object = None, order: str = "I") -> DemSet:
    """Two cells and this float between them."""
    z, surface = [0.5, void, 0.25], [0.5, con, 0.25]
    return one_dem(1, 3, "f", z, surface, *SPLIT_PRODUCTS[1:], nodata=nodata, con_nodata=con_nodata, order=order)


BETWEEN_LINE, BETWEEN_FAULT = "accepted rows=1 cols=3 data=3 raised=0 outlets=2", "rejected rule=10 Slope row=0 col=1"
VOID_FAULT = "rejected rule=1 VoidCell row=0 col=1"
# Of floats of 24 bits 2 * 6625109^2 is one more than 9369319^2, and 2 * 2744210^2 one less than 3880899^2.
FLOAT_HEIGHTS = [
    (PIT_OF_TENTHS, PIT_LINE),
    (pit_of(0.2, 0.1, MORE, "f"), "rejected rule=9 NotLeast row=1 col=1"),
    (pit_of(0.2, 0.1, LESS, "f"), "rejected rule=10 Slope row=0 col=0"),
    (pit_of(0.2, MORE, MORE, "f"), PEAK_LINE),
    (pit_of(0.2, LESS, 0.2, "f"), PIT_LINE),
    (pit_of(-0.0, 0, -0.0, "f"), "accepted rows=3 cols=3 data=9 raised=0 outlets=8"),
    (pit_of(0, -LEAST_FLOAT, -0.0, "f"), PIT_LINE),
    (pit_of(GREATEST, -GREATEST, GREATEST, "f"), PIT_LINE),
    (FALL_OF_FLOATS, FALL_LINE),
    # Drops of 3000 that differ by 1e-45, or not at all.
    (between(1e-45, 0, 1), BETWEEN_LINE),
    (between(1e-45, 0, 16), BETWEEN_FAULT),
    (between(-1e-45, 0, 16), BETWEEN_LINE),
    (between(-1e-45, 0, 1), BETWEEN_FAULT),
    *((between(0, -0.0, code), BETWEEN_LINE) for code in (1, 16)),
    *(
        it
        for unit in (1, 2.0**-149, 2.0**104)
        for it in (
            (slope(9369319, 6625109, 1, 4, "f", unit), SLOPE_LINE),
            (slope(9369319, 6625109, 2, 3, "f", unit), "rejected rule=10 Slope row=1 col=1"),
            (slope(3880899, 2744210, 2, 3, "f", unit), SLOPE_LINE),
            (slope(3880899, 2744210, 1, 4, "f", unit), "rejected rule=10 Slope row=1 col=1"),
        )
    ),
    *(
        (one_dem(1, 2, "f", *[[-GREATEST, GREATEST]] * 2, [0, 16], [2, 1], [1, 1], [0, 0], order=order), ENDS_LINE)
        for order in "IM"
    ),
]
# A void is the float nearest to the header's word, and what is no number or infinite. Without a word con has NaN there.
FLOAT_VOIDS = [
    *((split_by(-GREATEST, -GREATEST, GDAL_LEAST, GDAL_LEAST, order), SPLIT_LINE) for order in "IM"),
    (split_by(-GREATEST, -9999, GDAL_LEAST, -9999), SPLIT_LINE),
    (split_by(-GREATEST, nan, GDAL_LEAST), SPLIT_LINE),
    (split_by(-GREATEST, -GREATEST, GDAL_LEAST), VOID_FAULT),
    (split_by(-32767.1, -32767.1, "-32767.1", "-32767.1"), SPLIT_LINE),
    *(
        (split_by(void, nan, nodata), SPLIT_LINE)
        for void in (nan, inf, -inf)
        for nodata in (None, -9999, "nan", "inf", GDAL_LEAST)
    ),
    *(
        (split_by(void, void, con_nodata=word), SPLIT_LINE)
        for void, word in ((nan, "nan"), (inf, "inf"), (-inf, "-inf"), (inf, "1e39"))
    ),
    *((split_by(void, -void), VOID_FAULT) for void in (inf, -inf)),
    (split_by(-0.0, 0, 0, "-0.0"), SPLIT_LINE),
    (split_by(0, -9999, "1e-46", -9999), SPLIT_LINE),
    (split_by(0.1, -9999, "0.1000000014901161", -9999), SPLIT_LINE),
    (split_by(nan, nan).changed(con={0: nan}), "rejected rule=2 Missing row=0 col=0"),
    (split_by(nan, 7, con_nodata=7).changed(con={0: nan}), "rejected rule=5 OpenRaised row=0 col=0"),
    (split_by(nan, 7, con_nodata=7).changed(con={0: inf}), "rejected rule=5 OpenRaised row=0 col=0"),
    (split_by(nan, 7, con_nodata=7).changed(con={0: -inf}), "rejected rule=4 BelowGround row=0 col=0"),
    (split_by(nan, nan).listing("0 0\n\n0 1"), "refused SinkNotData 3"),
]


OF_TENTHS = PIT_OF_TENTHS.dem_header
WHOLE_CON = {**PIXELS, "con": ("i", "NBITS 32\n")}
FLOAT_HEADERS = [
    (replace(PIT_OF_TENTHS, dem_header=OF_TENTHS.replace("PIXELTYPE FLOAT", "PixelType float")), PIT_LINE),
    (replace(PIT_OF_TENTHS, dem_header=f"NODATA nan\n{OF_TENTHS}"), PIT_LINE),
    (
        replace(PIT_OF_TENTHS, dem_header=f"{OF_TENTHS}PIXELTYPE SIGNEDINT\n"),
        "refused BadHeader dem RepeatedKey 10",
    ),
    *((PIT_OF_TENTHS.with_line("dem", f"NBITS {bits}"), "refused BadHeader dem BadBits") for bits in (8, 16, 64)),
    (replace(PIT_OF_TENTHS, dem_header=without_line(OF_TENTHS, "NBITS")), "refused BadHeader dem BadBits"),
    (PIT.with_line("dem", "PIXELTYPE FLOAT"), "refused BadHeader dem BadBits"),
    *(
        (PIT_OF_TENTHS.with_line("dem", f"NODATA {word}"), "refused BadHeader dem BadValue 10")
        for word in ("none", "1e", "-", ".", "1,5")
    ),
    *((PIT_OF_TENTHS.with_line("con", f"NBITS {bits}"), "refused BadHeader con BadBits") for bits in (16, 64)),
    # Both are of one kind, and the others are whole numbers.
    (PIT_OF_TENTHS.with_line("con", "PIXELTYPE SIGNEDINT"), "refused BadHeader con BadPixelType"),
    (
        replace(PIT_OF_TENTHS, pixels=WHOLE_CON, numbers={**PIT_OF_TENTHS.numbers, "con": [1] * 9}),
        "refused BadHeader con BadPixelType",
    ),
    (LISTED.with_line("con", "PIXELTYPE FLOAT"), "refused BadHeader con BadPixelType"),
    *(
        (it.with_line(name, "NBITS 32").with_line(name, "PIXELTYPE FLOAT"), f"refused BadHeader {name} BadPixelType")
        for it in (PIT, PIT_OF_TENTHS)
        for name in ("dir", "acc", "bas")
    ),
]
SETS = [*ELEVATIONS, *ENDS, *VOIDS, *HEADERS, *PLACES, *FLOAT_HEIGHTS, *FLOAT_VOIDS, *FLOAT_HEADERS]
