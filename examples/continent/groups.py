"""Plans the merges of a union's reports, a tree: OUT/merges.txt, a line for each.

    NAME LEVEL BYTES MEMBER..

Members are windows, or merges of the level below. A merge reads their reports and writes one of the box that they fill.
The last line, `union`, has the members that remain: their merge gives the verdict. BYTES is about what a merge holds.
"""

from collections.abc import Iterator, Sequence
from dataclasses import dataclass
from itertools import groupby
from math import isqrt

from places import Box, Window

SEAM_CELL_BYTES, OUTLET_BYTES = 128, 32
"""What a merge holds for each cell of a seam of a window, and for each outlet (docs/SCALE.md)."""

CELLS_OF_AN_OUTLET = 10_000
"""Outlets aren't known before windows are judged: a guess, rather too few cells than too many."""

MERGE_BYTES = 600_000_000
"""The most that a merge should hold, where no group is given."""

LEAST_GROUP, SEAM_DEPTH = 2, 2
UNION = "union"


@dataclass(frozen=True)
class Merge:
    """A line of merges.txt."""

    name: str
    level: int
    bytes: int
    members: Sequence[str]

    def __str__(self) -> str:
        return " ".join([self.name, str(self.level), str(self.bytes), *self.members])

    @staticmethod
    def of(words: Sequence[str]) -> "Merge":
        name, level, size, *members = words
        return Merge(name, int(level), int(size), members)


@dataclass(frozen=True)
class Part:
    """A window, or the box of a group: what a merge holds of its report follows from its place."""

    name: str
    place: Box
    inner: str

    def seam_cells(self) -> int:
        """The cells in the two outermost rows or columns of inner sides."""
        rows = self.place.rows - SEAM_DEPTH * sum(side in self.inner for side in "ns")
        cols = self.place.cols - SEAM_DEPTH * sum(side in self.inner for side in "ew")
        return self.place.rows * self.place.cols - max(rows, 0) * max(cols, 0)

    def bytes(self) -> int:
        outlets = self.place.rows * self.place.cols // CELLS_OF_AN_OUTLET
        return SEAM_CELL_BYTES * self.seam_cells() + OUTLET_BYTES * outlets


Grid = Sequence[Sequence[Part]]


def parts_of(grid: Grid) -> Iterator[Part]:
    return (part for row in grid for part in row)


def joined(name: str, grid: Grid) -> Part:
    """The box that parts in rows and columns fill."""
    first, last = grid[0][0], grid[-1][-1]
    rows = last.place.row + last.place.rows - first.place.row
    cols = last.place.col + last.place.cols - first.place.col
    inner = "".join(side for side in "nesw" if side in (first if side in "nw" else last).inner)
    return Part(name, Box(first.place.row, first.place.col, rows, cols), inner)


def cuts(length: int, edge: int) -> list[slice]:
    """Groups of at most this many along one side, as even as can be."""
    count = -(-length // edge)
    return [slice(i * length // count, (i + 1) * length // count) for i in range(count)]


def fitting(grid: Grid) -> int:
    """The edge of groups that a merge can hold."""
    return max(LEAST_GROUP, isqrt(MERGE_BYTES // max(1, *(part.bytes() for part in parts_of(grid)))))


def merge_of(name: str, level: int, grid: Grid) -> Merge:
    parts = list(parts_of(grid))
    return Merge(name, level, sum(part.bytes() for part in parts), [part.name for part in parts])


def tree(windows: Sequence[Window], group: int | None = None) -> list[Merge]:
    """The merges of windows that a plan has, row by row: groups of `group` by `group`, and groups of groups, until one merge
    can take what remains. All windows of a plan's rows and columns are there, so each group is a box."""
    rows = groupby(windows, key=lambda window: window.place.row)
    grid: Grid = [[Part(window.name, window.place, window.inner) for window in row] for _, row in rows]
    merges: list[Merge] = []
    level = 1
    while len(grid) * len(grid[0]) > (edge := group or fitting(grid)) ** 2:
        downs, acrosses = cuts(len(grid), edge), cuts(len(grid[0]), edge)
        digits = len(str(max(len(downs), len(acrosses)) - 1))
        above: list[list[Part]] = []
        for i, down in enumerate(downs):
            above.append([])
            for j, across in enumerate(acrosses):
                name, members = f"g{level}r{i:0{digits}d}c{j:0{digits}d}", [row[across] for row in grid[down]]
                merges.append(merge_of(name, level, members))
                above[-1].append(joined(name, members))
        grid, level = above, level + 1
    return [*merges, merge_of(UNION, level, grid)]
