#!/usr/bin/env python3
"""Makes the files of this folder: a made-up shore in metres, as floats, and two sets of rasters of it.

make_shore.py FOLDER     writes dem, right/ and lake-too-high/

The products are those of tests/program/make_products.py, of exact fractions; it shares nothing with `drain`.
"""

import math
import random
import sys
from fractions import Fraction
from pathlib import Path

sys.dont_write_bytecode = True
sys.path.insert(0, str(Path(__file__).resolve().parents[2] / "tests/program"))
from make_products import PRODUCTS, Terrain, header_at, make, write, write_raster
from plain_inputs import float_at, nearest_float, pattern_of

ROWS, COLS, NODATA = 40, 30, -9999
# The middle of the lake.
LAKE = 20, 11
# The centre of the upper left pixel, in metres of a UTM zone, and pixels of 10 m, in units of 10^-15.
PLACE = tuple(metres * 10**15 for metres in (590005, 5932995, 10, 10))
KINDS = [("con", 32, None, "f", NODATA), *PRODUCTS[1:]]


def is_sea(row: int, col: int) -> bool:
    """West of the shore, which bends."""
    return 24 * col < 96 + (row - 20) ** 2


def is_hole(row: int, col: int) -> bool:
    """Where the survey has no number."""
    return 6 <= row <= 8 and 20 <= col <= 22


def height(row: int, col: int, rough: float) -> Fraction:
    """The float nearest to the ground, in metres: a plain that falls to the west, dunes before the sea, and a lake behind
    them."""
    inland = (24 * col - 96 - (row - 20) ** 2) / 24
    dunes = 1.5 if inland < 3 and not 33 <= row <= 35 else 0.0
    lake = 0.9 if (row - LAKE[0]) ** 2 + (col - LAKE[1]) ** 2 < 20 else 0.0
    return nearest_float(Fraction(0.05 * inland - 0.4 + 0.02 * abs(row - 34) + dunes - lake + 0.03 * rough))


def main() -> None:
    folder = Path(sys.argv[1])
    dice = random.Random(1)
    cells = [(row, col) for row in range(ROWS) for col in range(COLS)]
    ground = [height(*cell, dice.random()) for cell in cells]
    z = [None if is_sea(*cell) or is_hole(*cell) else it for cell, it in zip(cells, ground)]
    numbers = [NODATA if is_sea(*cell) else math.nan if is_hole(*cell) else it for cell, it in zip(cells, ground)]
    write_raster(str(folder / "dem"), header_at(ROWS, COLS, PLACE, 32, None, NODATA), "f", numbers)
    products = make(Terrain(ROWS, COLS, z))
    write(ROWS, COLS, PLACE, products, folder / "right", KINDS)
    level = products["con"][cells.index(LAKE)]
    # The float above one below 0 has the pattern before.
    higher = float_at(pattern_of(level) - 1)
    products["con"] = [higher if con == level != it else con for con, it in zip(products["con"], z)]
    write(ROWS, COLS, PLACE, products, folder / "lake-too-high", [kind for kind in KINDS if kind[0] != "rnk"])


if __name__ == "__main__":
    main()
