"""con by itself: how far it is from the least surface, and whether it drains as its own ground.

Of given elevations one con is right, and what `drain make` writes is it.
"""

from collections.abc import Sequence
from decimal import ROUND_CEILING, Context
from fractions import Fraction

import numpy as np

from .around import Array
from .drain import Finding
from .job import Converted
from .rules import NOT_FILLED, RULES, SOUND, Cell, cells, tally
from .sets import Set

NOT_LEAST = 9


class Surface:
    """con and the least surface of a set, and what is known of their difference."""

    def __init__(self, made: Converted, ground: Set) -> None:
        self.made, self.con = made, made.set["con"]
        self.least = made.job.program.make(ground, made.job.work)["con"]
        self.blank = made.set.kinds["con"][1]

    def off(self, rows: slice) -> Array:
        """How much con is above the least surface, in heights; NaN where one of them has none."""
        con, there = self.con[rows], self.made.data[rows] & (self.con[rows] != self.blank)
        above = self.made.scale.above(np.where(there, con, 0), np.where(there, self.least[rows], 0))
        return np.where(there, above, np.nan)

    def text(self) -> tuple[bool, str]:
        """Whether con is the least surface; in words, with how far it is off."""
        sizes, missing, found = Sizes(), 0, dict[int, tuple[int, Cell]]()
        for top, rows in self.made.dem.windows():
            off = self.off(slice(top, top + rows))
            none = self.made.data[top : top + rows] & np.isnan(off)
            missing += int(none.sum())
            sizes.add(off)
            tally(found, 0, none | (off > 0) | (off < 0), top)
        sloped = "" if self.made.slope is None else f"at most {at_most(self.made.slope)} above the filled surface of dem"
        if not found:
            return True, f"{sloped}, and without depressions" if sloped else "the least surface"
        texts = [*sizes.texts(), *([f"{cells(missing)} without a height"] if missing else [])]
        row, col = found[0][1]
        return False, f"{sloped or 'not the least surface'}: {'; '.join(texts)}; first at row {row}, column {col}"

    def slope(self, bound: Fraction | None = None) -> float | None:
        """How much con is above the least surface at most; None if it is below it, lacks, or exceeds it by more than a bound."""
        most = 0.0
        for top, rows in self.made.dem.windows():
            data = self.made.data[top : top + rows]
            con, least = (a[top : top + rows][data] for a in (self.con, self.least))
            if (con == self.blank).any() or (con < least).any():
                return None
            if bound is not None and self.made.scale.exceeds(con, least, bound).any():
                return None
            most = max(most, float(self.made.scale.above(con, least).max(initial=0)))
        return most

    def own_ground(self, products: Sequence[str] = ()) -> Set:
        """A set with con for its ground, and these products."""
        ground = self.made.set.another(self.made.job.work, self.con, self.made.data, products)
        ground.sinks = [cell for cell in self.made.set.sinks if self.con[cell] != self.blank]
        return ground

    def own_ground_text(self, found: Finding) -> str:
        """Whether con drains at all: judged as its own ground, which a breached or sloped surface passes."""
        made, sizes, ground = self.made, Sizes(), self.own_ground()
        own = Surface(made, ground)
        for top, rows in made.dem.windows():
            sizes.add(own.off(slice(top, top + rows)))
        many, most, _ = sizes.found["too low"]
        if many:
            return f"as its own ground it has depressions at {cells(int(many))}, at most {most:.4g} deep"
        if {n for n in found.rules if RULES[n].raster == "con"} != {NOT_LEAST} or (slope := self.slope()) is None:
            return "as its own ground it has no depressions: breached, carved or raised surfaces are so, and drain"
        text = f"as its own ground it has no depressions: the filled surface plus a slope of at most {at_most(slope)}"
        return f"{text}, which --flatten {at_most(slope)} allows (SAGA adds none with -MINSLOPE 0, Whitebox without --fix_flats)"

    def add_low_cells(self, finding: Finding) -> None:
        """Puts the cells of con alone that are lower than the least surface on the map, and counts them."""
        for top, rows in self.made.dem.windows():
            low, shown = self.off(slice(top, top + rows)) < 0, finding.map[top : top + rows]
            tally(finding.rules, NOT_FILLED, low, top)
            shown[low & (shown == SOUND)] = NOT_FILLED


class Sizes:
    """How many cells are too high, and too low, by how much at most, and in all."""

    def __init__(self) -> None:
        self.found = {word: [0.0, 0.0, 0.0] for word in ("too high", "too low")}

    def add(self, off: Array) -> None:
        """Takes more cells in."""
        for one, bad in zip(self.found.values(), (off > 0, off < 0)):
            sizes = np.abs(off[bad])
            one[:] = one[0] + sizes.size, max(one[1], sizes.max(initial=0)), one[2] + sizes.sum()

    def texts(self) -> list[str]:
        """In words."""
        return [
            f"{cells(int(many))} {word}, by at most {most:.4g} and {total / many:.4g} on average"
            for word, (many, most, total) in self.found.items() if many
        ]  # fmt: skip


def at_most(size: float) -> str:
    """A size rounded up to four digits, in words: no more than this."""
    return f"{float(Context(prec=4, rounding=ROUND_CEILING).create_decimal(repr(float(size)))):.9g}"
