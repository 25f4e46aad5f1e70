#!/usr/bin/env python3
"""Runs `drain make` on small rasters of elevations, and compares its line and its files, which were worked out by hand from
the rules (docs/RULES.md) and docs/FORMATS.md.

made_dems.py DRAIN

Prints the cases that failed and, in its last line, how many passed.
"""

import struct
import sys
import tempfile
from collections.abc import Iterator, Sequence
from dataclasses import dataclass, replace
from itertools import combinations
from math import inf, nan
from pathlib import Path

sys.dont_write_bytecode = True
from dem_sets import (
    ALONE,
    CLIFF,
    CLIFF_PEAK,
    FALL,
    FALL_OF_FLOATS,
    GDAL_LEAST,
    GREATEST,
    KINDS,
    LEAST_FLOAT,
    LISTED,
    PEAK,
    PEAK_Z,
    PIT,
    PIT_OF_TENTHS,
    SPACED,
    SPLIT,
    UNSPELLED,
    ends,
    ends_of,
    one_dem,
    pit_of,
    pixels_of,
    slope,
    split_by,
    without_line,
)
from small_sets import NO_RANK, VOID, DemSet, Lines
from worked_dems import usage_errors

PRODUCTS = ("con", "dir", "acc", "bas", "rnk")
BESIDE = {"dir": ("B", 255), "acc": ("I", 0), "bas": ("I", 0), "rnk": ("I", NO_RANK)}


@dataclass(frozen=True)
class Made:
    """Elevations of some rows and columns, the kind of con's pixels and its no-data number, and the numbers of con, dir, acc,
    bas and rnk."""

    dem: DemSet
    rows: int
    cols: int
    kind: str
    nodata: int | str
    numbers: tuple[Sequence[float], ...]


FALLS = ([100002, 100001, 100000] * 2, [1, 1, 0] * 2, [1, 2, 3] * 2, [1] * 3 + [2] * 3, [0] * 6)
# Around a void in the middle each cell is an outlet.
AROUND = ([0] * 4 + [255] + [0] * 4, [1] * 4 + [0] + [1] * 4, [1, 2, 3, 4, 0, 5, 6, 7, 8], [0] * 4 + [NO_RANK] + [0] * 4)
# Only the middle has data.
WITHIN = ([255] * 4 + [0] + [255] * 4, [0] * 4 + [1] + [0] * 4, [0] * 4 + [1] + [0] * 4, [NO_RANK] * 4 + [0] + [NO_RANK] * 4)
# The middle drains to the east, over a flat or down.
EAST = ([0] * 4 + [1] + [0] * 4, [1] * 5 + [2] + [1] * 3, [1, 2, 3, 4, 5, 5, 6, 7, 8])
OVER_FLAT, DOWN = [0] * 4 + [1] + [0] * 4, [0] * 9
PIT_Z = [5] * 4 + [1] + [5] * 4
INTO_SINK = ([2, 4, 8, 1, 0, 16, 128, 64, 32], [1] * 4 + [9] + [1] * 4, [1] * 9, [0] * 9)
BETWEEN_VOID = ([0, 255, 0], [1, 0, 1], [1, 0, 2], [0, NO_RANK, 0])
# A float between two cells, the header's no-data number, the same as it is written, and what is written there.
FLOAT_VOIDS = [
    (nan, None, "nan", nan),
    (inf, None, "nan", nan),
    (-inf, "NaN", "nan", nan),
    (inf, "inf", "inf", inf),
    (nan, "-inf", "-inf", -inf),
    (-9999, "-9999", "-9999.0", -9999),
    (nan, -9999, "-9999.0", -9999),
    (-GREATEST, GDAL_LEAST, "-3.4028235e38", -GREATEST),
    (0.1, "0.1000000014901161", "0.1", 0.1),
    (-0.0, "-0", "0.0", 0),
    (LEAST_FLOAT, "1.4e-45", "1e-45", LEAST_FLOAT),
]
MADE = [
    Made(PIT, 3, 3, "B", UNSPELLED, ([5] * 9, *EAST, OVER_FLAT)),
    Made(PIT.with_line("dem", "NODATA 256"), 3, 3, "B", 256, ([5] * 9, *EAST, OVER_FLAT)),
    Made(PIT.with_line("dem", "NODATA -1"), 3, 3, "B", -1, ([5] * 9, *EAST, OVER_FLAT)),
    Made(PIT.with_line("dem", "NODATA 1"), 3, 3, "B", 1, (PIT_Z, *AROUND)),
    Made(ALONE, 3, 3, "B", 5, (PIT_Z, *WITHIN)),
    Made(LISTED, 3, 3, "i", UNSPELLED, (PIT_Z, *INTO_SINK)),
    Made(FALL, 2, 3, "i", UNSPELLED, FALLS),
    Made(SPACED, 2, 3, "i", UNSPELLED, FALLS),
    Made(SPLIT, 1, 3, "h", -9999, ([VOID, -9999, 0], *BETWEEN_VOID)),
    Made(SPLIT.longer(dem=4), 1, 3, "h", -9999, ([VOID, -9999, 0], *BETWEEN_VOID)),
    Made(CLIFF, 1, 3, "i", -9999, ([5, -9999, 5], *BETWEEN_VOID)),
    # Without a sign the bytes of -9999 are a peak, and no pixel is -9999.
    Made(
        replace(CLIFF, dem_header=without_line(CLIFF.dem_header, "PIXELTYPE")), 1, 3, "I", -9999,
        (CLIFF_PEAK, [0, 1, 0], [1, 1, 2], [1, 2, 2], [0] * 3),
    ),
    Made(PEAK, 3, 3, "I", UNSPELLED, (PEAK_Z, *EAST, DOWN)),
    Made(pit_of(2000000000, -2000000000, 0, "i"), 3, 3, "i", UNSPELLED, ([2000000000] * 9, *EAST, OVER_FLAT)),
    Made(pit_of(4294967295, 0, 0, "I"), 3, 3, "I", UNSPELLED, ([4294967295] * 9, *EAST, OVER_FLAT)),
    # The number that means a void of a tile is a height.
    Made(pit_of(VOID, VOID, VOID, "h"), 3, 3, "h", UNSPELLED, ([VOID] * 9, *EAST, OVER_FLAT)),
    Made(one_dem(1, 1, "b", [-1], [-1], [0], [1], [1], [0]), 1, 1, "b", UNSPELLED, ([-1], [0], [1], [1], [0])),
    # Only voids.
    Made(
        one_dem(1, 2, "b", [-7, -7], *[[0, 0]] * 5, nodata=-7), 1, 2, "b", -7,
        ([-7, -7], [255] * 2, [0] * 2, [0] * 2, [NO_RANK] * 2),
    ),
    *(
        Made(ends(kind, order), 1, 2, kind, UNSPELLED, (ends_of(kind), [0, 16], [2, 1], [1, 1], [0, 0]))
        for kind in KINDS for order in "IM"
    ),
    *(
        Made(it, 3, 3, "i", UNSPELLED, (list(struct.unpack("<9i", it.dem)), *(it.numbers[name] for name in PRODUCTS[1:])))
        for it in (slope(1855077841, 1311738121, 1, 4), slope(768398401, 543339720, 2, 3))
    ),
    # Floats are written as they are, but 0 without a sign, and voids as the no-data number.
    Made(PIT_OF_TENTHS, 3, 3, "f", "nan", ([0.2] * 9, *EAST, OVER_FLAT)),
    Made(pit_of(0, -LEAST_FLOAT, 0, "f"), 3, 3, "f", "nan", ([0] * 9, *EAST, OVER_FLAT)),
    Made(pit_of(GREATEST, -GREATEST, 0, "f"), 3, 3, "f", "nan", ([GREATEST] * 9, *EAST, OVER_FLAT)),
    Made(FALL_OF_FLOATS, 2, 3, "f", "nan", FALLS),
    *(
        Made(
            one_dem(1, 2, "f", [-0.0, 1], *[[0, 0]] * 5, order=order), 1, 2, "f", "nan",
            ([0, 1], [0, 16], [2, 1], [1, 1], [0, 0]),
        )
        for order in "IM"
    ),
    *(
        Made(split_by(void, 0, word), 1, 3, "f", written, ([0.5, con, 0.25], *BETWEEN_VOID))
        for void, word, written, con in FLOAT_VOIDS
    ),
    *(
        Made(it, 3, 3, "f", "nan", (it.numbers["con"], *(it.numbers[name] for name in PRODUCTS[1:])))
        for unit in (1, 2.0**-149, 2.0**104)
        for it in (slope(9369319, 6625109, 1, 4, "f", unit), slope(3880899, 2744210, 2, 3, "f", unit))
    ),
]  # fmt: skip

# The line of a refusal and what calls for it, in their order. A change replaces what a later one did.
ORDER = [
    ("refused BadHeader dem NotOneBand", lambda it: it.with_line("dem", "NBANDS 2")),
    ("refused BadPixelSize dem", lambda it: it.with_line("dem", "YDIM -30")),
    ("refused RasterShort dem", lambda it: it.longer(dem=-1)),
    ("refused BadSinkLine 2", lambda it: it.listing("9 9\nx\n")),
    ("refused SinkNotData 1", lambda it: it.listing("9 9\n")),
]
REFUSED = [
    (PIT.with_line("dem", "NROWS 28802"), "refused BadHeader dem BadValue 1"),
    (replace(PIT, dem_header=""), "refused BadHeader dem MissingKey NROWS"),
    (PIT.with_line("dem", "NBITS 24"), "refused BadHeader dem BadBits"),
    (PIT.with_line("dem", "XDIM 0"), "refused BadPixelSize dem"),
    (PIT.longer(dem=-9), "refused RasterShort dem"),
    (PIT.with_line("dem", "NROWS 4"), "refused RasterShort dem"),
    (PIT.with_line("dem", "NODATA 1").listing("0 0\n\n1 1\n"), "refused SinkNotData 3"),
    (PIT.listing("0 0\n0 3\n"), "refused SinkNotData 2"),
    (PIT.listing("0 0 \n0\n"), "refused BadSinkLine 2"),
]
# Files that are missing, and the first of them in the order in which they are opened.
MISSING = [
    (["dem.hdr"], "dem.hdr"),
    (["dem.bil"], "dem.bil"),
    (["dem.bil", "dem.hdr"], "dem.hdr"),
    (["dem.bil", "sinks.txt"], "dem.bil"),
    (["sinks.txt"], "sinks.txt"),
]
# Places to the last digit, and pixels of two sizes.
PLACES = [
    ("500000", "4000000", "30", "30"),
    ("-123456.123456789012345", "0.000000000000001", "0.000277777777778", "27.5"),
    ("1e9", "-0.5", "0.000000000000001", "10000000000"),
]
PLACES_READ = [
    ("500000.000000000000000", "4000000.000000000000000", "30.000000000000000", "30.000000000000000"),
    ("-123456.123456789012345", "0.000000000000001", "0.000277777777778", "27.500000000000000"),
    ("1000000000.000000000000000", "-0.500000000000000", "0.000000000000001", "10000000000.000000000000000"),
]
KEYS = ("ULXMAP", "ULYMAP", "XDIM", "YDIM")


def header(rows: int, cols: int, kind: str, nodata: int | str, place: tuple[str, ...] = PLACES_READ[0]) -> str:
    """The header of a raster with pixels of this kind, as it is written."""
    size = struct.calcsize(kind)
    return (
        f"BYTEORDER I\nLAYOUT BIL\nNROWS {rows}\nNCOLS {cols}\nNBANDS 1\nNBITS {8 * size}\n"
        f"BANDROWBYTES {cols * size}\nTOTALROWBYTES {cols * size}\nSKIPBYTES 0\n"
        f"PIXELTYPE {'FLOAT' if kind == 'f' else 'UNSIGNEDINT' if kind.isupper() else 'SIGNEDINT'}\n"
        + "".join(f"{key} {number}\n" for key, number in zip(KEYS, place, strict=True))
        + f"NODATA {nodata}\n"
    )


def files(made: Made, place: tuple[str, ...] = PLACES_READ[0]) -> dict[str, bytes]:
    """The ten files of products."""
    wanted = {}
    for name, numbers in zip(PRODUCTS, made.numbers, strict=True):
        kind, nodata = BESIDE.get(name, (made.kind, made.nodata))
        wanted[f"{name}.hdr"] = header(made.rows, made.cols, kind, nodata, place).encode()
        wanted[f"{name}.bil"] = struct.pack(f"<{len(numbers)}{kind}", *numbers)
    return wanted


class Runs(Lines):
    """Runs over rasters of elevations that are written into folders of their own; products go into another."""

    def make(self, name: str, it: DemSet, line: str, wanted: dict[str, bytes], missing: tuple[str, ...] = ()) -> None:
        """Expects this line, in which {} stands for the folder, and these files."""
        with tempfile.TemporaryDirectory() as folder, tempfile.TemporaryDirectory() as out:
            words = it.write(Path(folder))
            for file in missing:
                Path(folder, file).unlink()
            given = [*words[:2], *words[4:], "--out", out]
            self.expect(f"make of {name}", line.replace("{}", folder), ["make", *given])
            left = {path.name: path.read_bytes() for path in Path(out).iterdir()}
            others = [file for file in {*left, *wanted} if left.get(file) != wanted.get(file)]
            self.count(f"files of {name}", not others, f"other files than expected: {sorted(others)}")
            if wanted:
                self.accept(name, words[:2], words[4:], out)

    def accept(self, name: str, dem: list[str], sinks: list[str], out: str) -> None:
        """An audit and a check accept what was made."""
        for command in ("audit", "check"):
            ended = self.run([command, *dem, *sinks, "--products", out])
            is_right = ended.returncode == 0 and ended.stdout.startswith(b"accepted ")
            self.count(f"{command} of what was made: {name}", is_right, f"{ended.stdout!r}{ended.stderr!r}")

    def all_made(self) -> None:
        for place, made in enumerate(MADE):
            self.make(f"elevations {place}", made.dem, f"made rows={made.rows} cols={made.cols}", files(made))
        for given, read in zip(PLACES, PLACES_READ, strict=True):
            dem = pixels_of(FALL, *given[2:])
            for line in (f"ULXMAP {given[0]}", f"ULYMAP {given[1]}"):
                dem = dem.with_line("dem", line)
            self.make(f"a place {given}", dem, "made rows=2 cols=3", files(Made(dem, 2, 3, "i", UNSPELLED, FALLS), read))
        self.make("names in capitals", replace(PIT, endings=(".HDR", ".BIL")), "made rows=3 cols=3", files(MADE[0]))

    def nothing_made(self) -> None:
        for it, line in REFUSED:
            self.make(line, it, line, {})
        for (line, change), (later_line, later) in combinations(ORDER, 2):
            self.make(f"{line}, {later_line}", change(later(PIT)), line, {})
        for missing, first in MISSING:
            for it in (PIT, PIT.with_line("dem", "NBANDS 2").listing("x")):
                self.make(f"without {missing}", it, f"failed Open {{}}/{first}", {}, tuple(missing))

    def words(self) -> None:
        """Options in any order, and usage errors, which come before any file is opened."""
        with tempfile.TemporaryDirectory() as folder:
            dem, out = FALL.write(Path(folder))[1], ["--out", folder]
            for given in ([*out, "--dem", dem], [f"--dem={dem}", *out], ["--dem", dem, *out, "--"]):
                self.expect(f"make {given}", "made rows=2 cols=3", ["make", *given])
        for given in [*usage_errors("nothing.bil", ["--out", "nothing"]), *more_usage_errors()]:
            self.expect_usage(["make", *given])


def more_usage_errors() -> Iterator[list[str]]:
    """Words of other commands."""
    yield ["--dem", "nothing.bil", "--out", "nothing", "--products", "nothing"]
    yield ["--dem", "nothing.bil", "--out", "nothing", "--only", "con"]


def main() -> None:
    runs = Runs(Path(sys.argv[1]).resolve())
    runs.all_made()
    runs.nothing_made()
    runs.words()
    print(f"made elevations: {runs.passed} passed, {runs.failed} failed")


if __name__ == "__main__":
    main()
