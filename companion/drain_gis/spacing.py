"""How far apart the cells of a raster are, as `drain` is told, by the ways in which tools measure.

`drain` takes whole numbers, and of each row only their ratio counts. It is exact where the sizes of a header allow it; else the
larger of the two is 10^9.
"""

import re
from dataclasses import dataclass
from fractions import Fraction
from math import cos, radians, sin, sqrt

from .errors import CannotJudge
from .grids import cell_sizes, in_degrees, is_turned
from .layers import Layer, Level

Pair = tuple[int, int]  # width and height
UNIT: Pair = (1, 1)
LARGER, MOST = 10**9, 2**30  # the larger size where a ratio is rounded, and the greatest one of `drain`
SQUARE = 0.0066943799901413165  # of the eccentricity of WGS 84, e^2
# What --spacing takes, in words.
KINDS = {
    "unit": "unit spacing", "cells": "the cell sizes of the header", "sphere": "distances on a sphere, row by row",
    "wgs84": "distances on the ellipsoid, row by row", "middle": "distances on the ellipsoid, one for all rows",
}  # fmt: skip
OTHERS = "Name the sizes (--spacing W,H), or take --spacing unit"
SIZE = r"([0-9]{1,99}(?:\.[0-9]{0,99})?|\.[0-9]{1,99})"
SIZES = re.compile(f"{SIZE},{SIZE}", re.ASCII)


@dataclass(frozen=True)
class Spacing:
    """A kind or `W,H`, and what it comes to: one pair for all rows, or one for each."""

    kind: str = "unit"
    pairs: tuple[Pair, ...] = (UNIT,)
    sides: str = ""  # of turned cells: what their sizes are, in words

    def of_row(self, row: int) -> Pair:
        """The width and the height of the cells of a row."""
        return self.pairs[row if len(self.pairs) > 1 else 0]

    @property
    def is_unit(self) -> bool:
        """Whether it is what `drain` takes unasked."""
        return self.pairs == (UNIT,)

    @property
    def text(self) -> str:
        """A line for each row; "" where all rows are alike."""
        return "".join(f"{width} {height}\n" for width, height in self.pairs) if len(self.pairs) > 1 else ""

    def words(self, folder: str) -> list[str]:
        """The option of `drain` for it. A text by row is in the folder."""
        if self.text:
            return ["--widths", f"{folder}widths.txt"]
        return [] if self.is_unit else ["--spacing", "{},{}".format(*self.pairs[0])]

    def __str__(self) -> str:
        return self.sides or KINDS.get(self.kind, f"cells {self.kind.replace(',', ' by ')}")


def spacing_of(kind: str, layer: Layer) -> Spacing:
    """The spacing of a raster by a kind, or by `W,H`. Raises CannotJudge where the raster doesn't say it."""
    if kind not in KINDS:
        return Spacing(kind, (sizes_of(kind),))
    if kind in GROUND and not in_degrees(layer):
        raise CannotJudge(f"--spacing {kind}: {layer.name} isn't in degrees; its cell sizes are --spacing cells")
    if kind == "unit" or isinstance(layer, Level):
        return Spacing(kind)
    if kind == "cells":
        return by_cells(layer)
    if is_turned(layer):
        raise CannotJudge(f"--spacing {kind}: {layer.name} is turned, so a row has no latitude of its own. {OTHERS}")
    t = layer.transform
    ratio = float(Fraction(repr(abs(t.a))) / Fraction(repr(abs(t.e))))
    middles = [layer.rows / 2] if kind == "middle" else [row + 0.5 for row in range(layer.rows)]
    pairs = tuple(rounded(ratio * GROUND[kind](radians(t.f + at * t.e))) for at in middles)
    return Spacing(kind, pairs[:1] if len(set(pairs)) == 1 else pairs)


def by_cells(layer: Layer) -> Spacing:
    """The sizes of the header; of a turned raster the lengths of the sides of its cells."""
    sizes = cell_sizes(layer)
    if sizes is None:
        why = "rows and columns aren't at right angles" if layer.transform else "it has no georeference"
        raise CannotJudge(f"--spacing cells: the cell sizes of {layer.name} aren't known: {why}. {OTHERS}")
    sides = "the lengths of the sides of its turned cells, {:.9g} by {:.9g}".format(*map(float, sizes))
    return Spacing("cells", (pair_of(sizes[0] / sizes[1]),), sides if is_turned(layer) else "")


def kinds_of(layer: Layer) -> list[str]:
    """The kinds that a raster allows, and that aren't unit spacing on it."""
    sizes = cell_sizes(layer)
    found = ["cells"] if sizes and pair_of(sizes[0] / sizes[1]) != UNIT else []
    return found + (list(GROUND) if in_degrees(layer) and not is_turned(layer) else [])


def sizes_of(word: str) -> Pair:
    """The two whole numbers of `W,H`: decimals, times the least power of ten that makes both whole, as `drain` takes them."""
    found = SIZES.fullmatch(word)
    sizes = [Fraction(f"0{size}") for size in found.groups()] if found else []
    while any(size.denominator > 1 for size in sizes):
        sizes = [size * 10 for size in sizes]
    if not sizes or not all(1 <= size <= MOST for size in sizes):
        raise CannotJudge(f"--spacing {word:.60}: expected {', '.join(KINDS)}, or W,H: two sizes, as 10,12.5")
    return int(sizes[0]), int(sizes[1])


def pair_of(ratio: Fraction) -> Pair:
    """Width and height with this ratio: exact where the numbers aren't too large."""
    exact, near = (ratio.numerator, ratio.denominator), rounded(ratio)
    return exact if max(exact) <= MOST else UNIT if near == (LARGER, LARGER) else near


def rounded(ratio: float | Fraction) -> Pair:
    """Width and height with nearly this ratio; the larger is 10^9."""
    return max(1, round(LARGER * min(ratio, 1))), max(1, round(LARGER / max(ratio, 1)))


def on_ellipsoid(latitude: float) -> float:
    """How wide a degree of longitude is, by how high a degree of latitude is, on WGS 84. The radii of curvature across and along the
    meridian are a / sqrt(w) and a (1 - e^2) / w^(3/2), where w = 1 - e^2 sin^2."""
    return cos(latitude) * (1 - SQUARE * sin(latitude) ** 2) / (1 - SQUARE)


def in_middle(latitude: float) -> float:
    """How wide it is there, by how high a degree is at the equator: what terra 1.7.3 divides by, as its directions show."""
    return cos(latitude) / sqrt(1 - SQUARE * sin(latitude) ** 2) / (1 - SQUARE)


# How wide a cell of a raster in degrees is by its height, if it is as many degrees wide as high.
GROUND = {"sphere": cos, "wgs84": on_ellipsoid, "middle": in_middle}
