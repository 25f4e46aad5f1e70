"""Sets for explain.py: drawn terrain with the right products of make_products.py, of which some numbers are changed."""

import struct
import sys
from collections.abc import Callable, Iterator
from dataclasses import dataclass, field
from itertools import islice
from pathlib import Path

sys.dont_write_bytecode = True
from make_products import PRODUCTS, VOID, Terrain, header, make

TILE = "N00E000.hgt"
EAST, SOUTH_EAST, SOUTH, WEST, NORTH = 1, 2, 4, 16, 64

Place = tuple[int, int]


@dataclass
class Worked:
    """A tile with a height at each row and column, None for a void, and what is changed of its right products."""

    name: str
    side: int
    height: Callable[[int, int], int | None]
    changes: dict[str, dict[Place, int]]
    sinks: list[Place] = field(default_factory=list)
    nodata: dict[str, int] = field(default_factory=dict)

    def write(self, folder: Path, ranks: bool) -> list[Path]:
        """Writes the tile, a list of sinks and the products into a folder, and returns the path of the tile."""
        z = [self.height(row, col) for row in range(self.side) for col in range(self.side)]
        products = make(Terrain(self.side, self.side, z, self.sinks))
        folder.mkdir()
        (folder / TILE).write_bytes(struct.pack(f">{len(z)}h", *(VOID if it is None else it for it in z)))
        (folder / "sinks.txt").write_text("".join(f"{row} {col}\n" for row, col in self.sinks))
        for name, bits, signed, form, default in PRODUCTS:
            if name == "rnk" and not ranks:
                continue
            nodata = self.nodata.get(name, default)
            numbers = [nodata if number is None else number for number in products[name]]
            for (row, col), number in self.changes.get(name, {}).items():
                numbers[self.side * row + col] = number
            (folder / f"{name}.hdr").write_text(header(self.side, TILE, bits, signed, nodata))
            (folder / f"{name}.bil").write_bytes(struct.pack(f"<{len(numbers)}{form}", *numbers))
        return [folder / TILE]


def border(side: int) -> dict[Place, int]:
    """Codes that lead clockwise along the border of a tile."""
    last = side - 1
    codes = {}
    for step in range(last):
        codes |= {(0, step): EAST, (step, last): SOUTH, (last, last - step): WEST, (last - step, 0): NORTH}
    return codes


def bends(side: int) -> Iterator[tuple[Place, int]]:
    """Codes that lead to and fro, row after row from the north."""
    for row in range(side):
        for step in range(side):
            col = step if row % 2 == 0 else side - 1 - step
            yield (row, col), SOUTH if step == side - 1 else EAST if row % 2 == 0 else WEST


def into_a_ring(side: int, cells: int) -> dict[Place, int]:
    """Codes of a path of so many cells from the north-west corner, and of the ring of four cells behind it."""
    path = dict(islice(bends(side), cells))
    (row, col), code = next(islice(bends(side), cells, None))
    assert code == EAST
    return path | {(row, col): EAST, (row, col + 1): SOUTH, (row + 1, col + 1): WEST, (row + 1, col): NORTH}


def around_a_peak(*heights: int) -> Callable[[int, int], int]:
    """A tile of side 3 by its rows."""
    return lambda row, col: heights[3 * row + col]


WORKED = [
    Worked("a ring along the border", 30, lambda row, col: 5, {"dir": border(30)}),
    Worked("a path of 500 cells into a ring", 30, lambda row, col: 5, {"dir": into_a_ring(30, 500)}),
    # The ways down from the middle, whose direction is no steepest one.
    Worked(
        "drops of five digits, and of a metre across a corner",
        3,
        around_a_peak(32766, 22767, 32766, 32766, 32767, -32767, 32766, 32757, 32766),
        {"dir": {(1, 1): SOUTH_EAST}},
    ),
    Worked(
        "the steepest way between two others",
        3,
        around_a_peak(9, 9, 9, 9, 9, 8, 8, 6, 7),
        {"dir": {(1, 1): EAST}},
    ),
    Worked(
        "two ways equally steep, and two less so",
        3,
        around_a_peak(9, 9, 9, 9, 9, 7, 8, 7, 7),
        {"dir": {(1, 1): SOUTH_EAST}},
    ),
    Worked(
        "a listed sink below the sea that is raised",
        5,
        lambda row, col: -7 if (row, col) == (2, 2) else 3,
        {"con": {(2, 2): -6}},
        sinks=[(2, 2)],
    ),
    Worked(
        "a wrong count beside a listed sink below the sea",
        5,
        lambda row, col: -7 if (row, col) == (2, 2) else 3,
        {"acc": {(1, 1): 8}},
        sinks=[(2, 2)],
    ),
    Worked(
        "numbers at voids, with no-data numbers of each product",
        4,
        lambda row, col: None if (row, col) in [(1, 1), (2, 2)] else 10 * row + col,
        {"con": {(1, 1): -32768}, "dir": {(2, 2): 255}, "acc": {(1, 1): 0, (2, 2): 9}, "rnk": {(2, 2): 6}},
        nodata={"con": -9999, "dir": 99, "acc": 77, "bas": 88, "rnk": 66},
    ),
    Worked(
        "no data at data cells, with no-data numbers of each product",
        4,
        lambda row, col: None if (row, col) == (1, 1) else 10 * row + col,
        {"dir": {(2, 2): 99}, "acc": {(2, 2): 77, (3, 3): 77}, "bas": {(1, 2): 88}, "rnk": {(2, 2): 66}},
        nodata={"con": -9999, "dir": 99, "acc": 77, "bas": 88, "rnk": 66},
    ),
]
