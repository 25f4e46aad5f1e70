#!/usr/bin/env python3
"""Writes large inputs whose right products and lines follow from their form, without any rule being tried.

large_sets.py funnel FOLDER     12 tiles of side 1201, 3 down and 4 across: each cell drains through one
large_sets.py bends FOLDER      a level tile of side 1201 with products: one path leads through each inner cell
large_sets.py ring FOLDER       the same with directions that lead round a ring of 1,436,402 cells
large_sets.py checkers FOLDER   a level tile of side 449, a void in each odd row and column: 151,425 outlets
large_sets.py scattered FOLDER  the same with labels up to 2^32
large_sets.py listed FOLDER     a level tile of side 201 with each of its cells listed as a sink
large_sets.py reports FOLDER    reports on 10,000 windows of a level tile of side 102, whose cells drain to the north

FOLDER gets the tiles, out/ the products, and sinks.txt a list of sinks.
"""

import struct
import sys
from array import array
from collections.abc import Callable, Iterator
from pathlib import Path

sys.dont_write_bytecode = True
from make_products import PRODUCTS, VOID, header

TILE = "N00E000.hgt"
EAST, SOUTH, WEST, NORTH = 1, 4, 16, 64
FUNNEL_SIDE, BENDS_SIDE, CHECKERS_SIDE, LISTED_SIDE = 1201, 1201, 449, 201
LEVEL = 5
REPORTS_SIDE = 102

Numbers = dict[str, list[int]]


def write_tile(folder: Path, z: list[int]) -> None:
    samples = array("h", z)
    samples.byteswap()
    (folder / TILE).write_bytes(samples.tobytes())


def write_products(folder: Path, side: int, products: Numbers) -> None:
    (folder / "out").mkdir()
    for name, bits, signed, form, nodata in PRODUCTS:
        (folder / f"out/{name}.hdr").write_text(header(side, TILE, bits, signed, nodata))
        (folder / f"out/{name}.bil").write_bytes(array(form, products[name]).tobytes())


def funnel(folder: Path, side: int = FUNNEL_SIDE, tiles_down: int = 3, tiles_across: int = 4) -> None:
    """The height of a cell is its row, or how far it is from the middle column, whichever is more."""
    step = side - 1
    cols = tiles_across * step + 1
    middle = cols // 2
    aside = struct.pack(f">{cols}h", *(abs(col - middle) for col in range(cols)))
    for down in range(tiles_down):
        tiles: list[list[bytes]] = [[] for _ in range(tiles_across)]
        for row in range(down * step, down * step + side):
            near = min(row, middle)
            level = struct.pack(">h", row) * (2 * near + 1)
            heights = aside[: 2 * (middle - near)] + level + aside[2 * (middle + near + 1) :]
            for across, tile in enumerate(tiles):
                tile.append(heights[2 * across * step : 2 * (across * step + side)])
        for across, tile in enumerate(tiles):
            (folder / f"N{tiles_down - 1 - down:02d}E{across:03d}.hgt").write_bytes(b"".join(tile))


def edge(side: int) -> Iterator[int]:
    """The cells of the border in row order."""
    for cell in range(side * side):
        if cell // side in (0, side - 1) or cell % side in (0, side - 1):
            yield cell


def bends(folder: Path, side: int = BENDS_SIDE) -> None:
    """Inner cells lead to and fro, row after row, and the last of them to the border, whose cells are outlets."""
    inner = [cell for row in range(1, side - 1) for cell in bend(side, row, 1)]
    last = inner[-1] + 1
    products = level_products(side, list(edge(side)))
    for steps, cell in enumerate(inner):
        after = inner[steps + 1] if steps + 1 < len(inner) else last
        products["dir"][cell] = {1: EAST, -1: WEST, side: SOUTH}[after - cell]
        products["acc"][cell] = steps + 1
        products["bas"][cell] = products["bas"][last]
        products["rnk"][cell] = len(inner) - steps
    products["acc"][last] += len(inner)
    write_tile(folder, [LEVEL] * side * side)
    write_products(folder, side, products)


def bend(side: int, row: int, first_col: int) -> list[int]:
    """The inner cells of a row from this column on: eastward in odd rows, else westward."""
    cells = list(range(side * row + first_col, side * row + side - 1))
    return cells if row % 2 else cells[::-1]


def ring(folder: Path, side: int = BENDS_SIDE) -> None:
    """All inner rows but the last: to and fro from the third column on, and back north along the second."""
    cells = [side + 1, *(cell for row in range(1, side - 2) for cell in bend(side, row, 2))]
    cells += [side * row + 1 for row in range(side - 3, 1, -1)]
    products = level_products(side, list(edge(side)))
    for cell, after in zip(cells, cells[1:] + cells[:1]):
        products["dir"][cell] = {1: EAST, -1: WEST, side: SOUTH, -side: NORTH}[after - cell]
    write_tile(folder, [LEVEL] * side * side)
    write_products(folder, side, products)


def level_products(side: int, outlets: list[int], label: Callable[[int], int] = lambda number: number) -> Numbers:
    """Products of level ground where these cells are outlets; no other cell leads anywhere yet."""
    cells = side * side
    products = {"con": [LEVEL] * cells, "dir": [0] * cells, "acc": [1] * cells, "bas": [1] * cells, "rnk": [0] * cells}
    for number, cell in enumerate(outlets, 1):
        products["bas"][cell] = label(number)
    return products


def checkers(folder: Path, label: Callable[[int], int] = lambda number: number) -> None:
    """Each cell with data is beside a void or on the border, and as high as the others: an outlet."""
    side = CHECKERS_SIDE
    voids = [side * row + col for row in range(1, side, 2) for col in range(1, side, 2)]
    is_void = bytearray(side * side)
    for cell in voids:
        is_void[cell] = 1
    z = [VOID if it else LEVEL for it in is_void]
    products = level_products(side, [cell for cell in range(side * side) if not is_void[cell]], label)
    for name, _, _, _, nodata in PRODUCTS:
        for cell in voids:
            products[name][cell] = nodata
    write_tile(folder, z)
    write_products(folder, side, products)


def scattered(folder: Path) -> None:
    """Labels that go over all numbers of 32 bits: an odd factor keeps them apart."""
    checkers(folder, lambda number: number * 2654435761 % 2**32)


def listed(folder: Path, side: int = LISTED_SIDE) -> None:
    write_tile(folder, [LEVEL] * side * side)
    write_products(folder, side, level_products(side, list(range(side * side))))
    (folder / "sinks.txt").write_text("".join(f"{row} {col}\n" for row in range(side) for col in range(side)))


def numbers_at(row: int, col: int) -> tuple[int, int, int]:
    """The direction, count and label of a cell of the level tile of the reports: those off the border drain north."""
    last = REPORTS_SIDE - 1
    if row < last and 0 < col < last:
        return NORTH if row else 0, last - row, col + 1
    if row in (0, last):
        return 0, 1, col + 1 + (3 * last - 1 if row else 0)
    return 0, 1, last + 2 * row + (col > 0)


def report(row: int, col: int) -> str:
    """The report on the window of 3 by 3 cells that begins at this cell."""
    last = REPORTS_SIDE - 1
    top, left = 89 * last, 180 * last
    north, south, west, east = row > 0, row + 2 < last, col > 0, col + 2 < last
    places = [(down, across) for down in range(3) for across in range(3)]
    unjudged = {(0, it) for it in range(3) if north} | {(2, it) for it in range(3) if south}
    unjudged |= {(it, 0) for it in range(3) if west} | {(it, 2) for it in range(3) if east}
    near = {it for it in places if north and it[0] < 2 or south and it[0] or west and it[1] < 2 or east and it[1]}
    outlets, seams = [], []
    for down, across in places:
        place = f"{top + row + down} {left + col + across}"
        code, count, label = numbers_at(row + down, col + across)
        if code == 0 and (down, across) not in unjudged:
            outlets.append(f"outlet {label} {place}\n")
        if (down, across) in near:
            seams.append(f"seam {place} {LEVEL} 0 {LEVEL} {code} {count} {label}\n")
    return (
        f"drain-window-report 4\nside {REPORTS_SIDE}\n"
        f"window {top + row} {left + col} 3 3 {north:d} {south:d} {west:d} {east:d}\n"
        f"nodata -32768 255 0 0\naccepted 3 3 {9 - len(unjudged)} 0 {len(outlets)}\n"
        f"tiles 1\ntile {TILE}\nsinks 0\noutlets {len(outlets)}\n{''.join(outlets)}"
        f"seams {len(seams)}\n{''.join(seams)}end\n"
    )


def reports(folder: Path) -> None:
    for row in range(REPORTS_SIDE - 2):
        for col in range(REPORTS_SIDE - 2):
            (folder / f"{row:03d}-{col:03d}.txt").write_text(report(row, col))


SETS = {it.__name__: it for it in (funnel, bends, ring, checkers, scattered, listed, reports)}


def main() -> int:
    if len(sys.argv) != 3 or sys.argv[1] not in SETS:
        sys.exit(__doc__)
    folder = Path(sys.argv[2])
    folder.mkdir(parents=True, exist_ok=True)
    SETS[sys.argv[1]](folder)
    return 0


if __name__ == "__main__":
    sys.exit(main())
