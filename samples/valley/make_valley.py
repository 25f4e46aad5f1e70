#!/usr/bin/env python3
"""Makes the files of this folder: a made-up valley in centimetres, and two sets of rasters of it.

make_valley.py FOLDER     writes dem, sinks.txt, right/ and lake-too-high/

The products are those of tests/program/make_products.py, which shares nothing with `drain`.
"""

import random
import sys
from pathlib import Path

sys.dont_write_bytecode = True
sys.path.insert(0, str(Path(__file__).resolve().parents[2] / "tests/program"))
from make_products import PRODUCTS, Terrain, header_at, make, write, write_raster

ROWS, COLS, NODATA = 40, 56, -99999
# The centre of the upper left pixel, in metres of a UTM zone, and pixels of 25 m, in units of 10^-15.
PLACE = tuple(metres * 10**14 for metres in (4310125, 52719875, 250, 250))
# The middle of a square of 7 by 7 cells, and its floor.
LAKE, HOLLOW = ((9, 36), 85_000), ((31, 14), 100_000)
KINDS = [("con", 32, True, "i", NODATA), *PRODUCTS[1:]]


def is_void(row: int, col: int) -> bool:
    """Beyond the north-eastern ridge, and where the survey has a hole."""
    return row + COLS - col < 10 or (26 <= row <= 27 and 40 <= col <= 42)


def is_in(square: tuple[tuple[int, int], int], row: int, col: int) -> bool:
    (middle_row, middle_col), _ = square
    return max(abs(row - middle_row), abs(col - middle_col)) <= 3


def height(row: int, col: int, rough: int) -> int:
    """The ground above the river, which falls to the east in bends, in centimetres."""
    for square in (LAKE, HOLLOW):
        if is_in(square, row, col):
            return square[1] + 50 * rough
    river = 20 + abs(col % 28 - 14) - 7
    away = abs(row - river)
    return 91_250 - 180 * col + 900 * away + 14 * away * away + 50 * rough


def main() -> None:
    folder = Path(sys.argv[1])
    dice = random.Random(1)
    cells = [(row, col) for row in range(ROWS) for col in range(COLS)]
    rough = [int(15 * dice.random()) for _ in cells]
    z = [None if is_void(*cell) else height(*cell, more) for cell, more in zip(cells, rough)]
    _, bottom = min((ground, cell) for ground, cell in zip(z, cells) if is_in(HOLLOW, *cell))
    numbers = [NODATA if ground is None else ground for ground in z]
    write_raster(str(folder / "dem"), header_at(ROWS, COLS, PLACE, 32, True, NODATA), "i", numbers)
    (folder / "sinks.txt").write_text(f"{bottom[0]} {bottom[1]}\n")
    products = make(Terrain(ROWS, COLS, z, [bottom]))
    write(ROWS, COLS, PLACE, products, folder / "right", KINDS)
    products["con"] = [con + 1 if is_in(LAKE, *cell) else con for con, cell in zip(products["con"], cells)]
    write(ROWS, COLS, PLACE, products, folder / "lake-too-high", [kind for kind in KINDS if kind[0] != "rnk"])


if __name__ == "__main__":
    main()
