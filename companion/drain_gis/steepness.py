"""How many cells go down a steepest way, by the codes of each tool and by each spacing, and the unit of con, of a sample of rows; and
how much less steep the ways are that are wrong.

It explains an answer, and decides nothing.
"""

import numpy as np

from .around import OUTLET, STEPS, Around, Array, leading
from .job import Converted
from .layers import Level
from .rules import cells
from .spacing import Spacing, kinds_of, spacing_of
from .surface import at_most
from .tools import TOOLS

SAMPLE = 200_000  # about how many cells are looked at
# How much larger a share has to be for a warning: by another tool's codes, and by another spacing.
MUCH_BETTER, BETTER = 0.2, 0.01
# Up to which share less steep a way is by the rounding of a tool in single precision; and the least share that is told from none.
ROUNDING, LEAST_SHARE = 1e-6, 1e-15


def shares(made: Converted, ways: list[tuple[str, Spacing]]) -> list[float]:
    """The share of the cells with a lower neighbour that go a steepest way, by each tool's codes and each spacing."""
    (rows, cols), layer = made.data.shape, made.layers.get("con", made.dem)
    found, lower = [0] * len(ways), 0
    for row in range(0, rows, -(-rows * cols // SAMPLE)):
        top, last = max(0, row - 1), min(rows, row + 2)
        heights = made.set["con"][top:last] if made.is_whole else layer.window(top, last - top)[0]
        numbers, none = made.layers["dir"].window(row, 1)
        at = np.flatnonzero(~none[0] & made.data[row])
        around = Around(np.stack([np.full(at.size, row - top), at], axis=1), heights, made.data[top:last])
        lower += int(around.lower.sum())
        for n, (tool, spacing) in enumerate(ways):
            codes = np.full(at.size, OUTLET, np.uint8)
            for number, code in TOOLS[tool].codes.items():
                codes[numbers[0, at] == number] = code
            found[n] += int(around.is_steepest(codes, spacing.of_row(row)).sum())
    return [many / max(1, lower) for many in found]


def can_sample(made: Converted) -> bool:
    """Whether there are directions and heights, in the user's own rasters."""
    return "dir" in made.layers and not isinstance(made.dem, Level)


def note_shares(made: Converted) -> None:
    """Notes, of a DEM in degrees or with cells that aren't square, how many cells go steepest by each spacing."""
    name, dem, own = made.job.tool, made.dem, made.set.spacing
    if not can_sample(made) or not (kinds := kinds_of(dem)):
        return
    ways = {kind: spacing_of(kind, dem) for kind in ("unit", *kinds)} | {own.kind: own}
    found = dict(zip(ways, shares(made, [(name, way) for way in ways.values()])))
    listed = ", ".join(f"{found[kind]:.1%} by {way}" for kind, way in ways.items())
    text = f"dir: steepest ways, of all cells with a lower neighbour: {listed}"
    best = max(found, key=lambda kind: found[kind])
    if found[best] > found[own.kind] + BETTER:
        text += f". Slopes were judged by {own}: --spacing {best} fits better"
    made.note(text)


def less_steep(made: Converted, around: slice, inner: slice) -> Array:
    """By which share the ways of a band of rows are less steep than a steepest one, in double precision: 1 of what leads not down."""
    con, codes = made.set["con"][around], made.set["dir"][around]
    there_is = made.data[around] & (con != made.set.kinds["con"][1])
    sizes = np.array([made.set.spacing.of_row(row) for row in range(around.start, around.stop)], np.float64)
    own, best = np.zeros(codes.shape), np.full(codes.shape, np.finfo(np.float64).tiny)
    for (here, there, leads), (down, right) in zip(leading(codes), STEPS.values()):
        across = np.hypot(sizes[here[0], :1] * right, sizes[here[0], 1:] * down)
        drops = np.where(there_is[here] & there_is[there], con[here].astype(np.float64) - con[there], 0)
        slopes = np.maximum(drops, 0) / across
        own[here] = np.where(leads, slopes, own[here])
        best[here] = np.maximum(best[here], slopes)
    return np.asarray(np.clip(1 - own / best, LEAST_SHARE, 1)[inner])


class Shares:
    """How many wrong ways are less steep by no more than rounding, and by more; and by which share at most."""

    def __init__(self) -> None:
        self.few, self.more = [0, 0.0], [0, 0.0]

    def add(self, shares: Array) -> None:
        """Takes more cells in."""
        for one, found in ((self.few, shares[shares <= ROUNDING]), (self.more, shares[shares > ROUNDING])):
            one[:] = one[0] + found.size, max(one[1], found.max(initial=0))

    def text(self) -> str:
        """In words."""
        (few, least), (more, most) = self.few, self.more
        if not few:
            return f"less steep by at most {at_most(most)}"
        go = "goes" if few == 1 else "go"
        others = f"{int(more):,} by at most {at_most(most)}" if more else "none by more"
        return f"{cells(int(few))} {go} less steep by at most {at_most(least)} (rounding), {others}"


def other_unit(made: Converted) -> str:
    """Whether con is in another unit than dem: asked after a rejection."""
    if "con" not in made.judged or made.own_ground or made.unit is None:
        return ""
    some = slice(None, None, -(-made.data.size // SAMPLE))
    dem, con = made.set["dem"][some], made.set["con"][some]
    there = made.data[some] & (con != made.set.kinds["con"][1]) & (dem != 0)
    ratio = float(np.median(con[there].astype(np.float64) / dem[there])) if there.any() else 1.0
    return "" if 0.9 < ratio < 1.1 else f"WARNING: con is mostly {ratio:.4g} times dem: are both in one unit?"


def better_codes(made: Converted) -> str:
    """Whether another tool's codes fit much better: asked after a rejection."""
    if not can_sample(made):
        return ""
    fits, own = dict(zip(TOOLS, shares(made, [(name, made.set.spacing) for name in TOOLS]))), made.job.tool
    best = max(fits, key=lambda name: fits[name])
    if fits[best] <= fits[own] + MUCH_BETTER:
        return ""
    alike = " or ".join(name for name, tool in TOOLS.items() if tool.codes == TOOLS[best].codes)
    return (
        f"WARNING: by the codes of {own} {fits[own]:.1%} of the cells with a lower neighbour go down a steepest way, by "
        f"those of {best} {fits[best]:.1%}: is it {alike}?"
    )
