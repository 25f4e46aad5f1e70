"""acc: the tool's numbers become counts of cells, each with the cell itself."""

import math
from fractions import Fraction

import numpy as np

from .around import Array, bands, gets_water, inflow_of, leading
from .errors import CannotJudge, OddRaster
from .flow import Flow
from .grids import cell_area
from .heights import EXACT
from .job import Converted, note_misplaced
from .rules import cells

MOST_COUNT = 1 << 32  # one more than the largest count that 32 bits hold
# By which part of itself a number may differ from a whole one; the same in single precision; the most at all.
SLACK, SLACK_OF_SINGLE, MOST_SLACK = 2.0**-40, 1e-6, 0.01
# An area in single precision may also differ by its last digit, if that says which whole number of cells is meant.
DIGIT, MOST_OF_DIGIT = 2.0**-23, 0.25
NEAR_AREA, SURE = 1e-6, 0.99
MOST_KINDS = 1 << 20
SINGLE = 1 << 24  # from here on single precision doesn't hold all whole numbers
# By which part of itself an addition in single precision may be off; a sixteenth more for what earlier ones were off.
ADDITION = 2.0**-24 * 17 / 16
SAID = 1e-6  # from which part of a cell on the answer says by how much numbers were rounded


def put_counts(made: Converted) -> None:
    """Writes acc, and notes what was done."""
    choose_counting(made)
    counts, near, signs, is_unsure = made.set.add("acc"), 0, 0, False
    refusal: OddRaster | None = None
    is_single, signed = made.layers["acc"].dtype == np.float32, made.job.tool == "grass"
    exact = exact_to(made.per)
    for rows, numbers, none in made.windows("acc"):
        values = np.where(none, numbers.dtype.type(0), numbers)
        signs += int((values < 0).sum()) if signed else 0
        whole, bad, off = cells_of(magnitude(values), made.per)
        never = ~none & ((whole >= MOST_COUNT - made.plus) | ((values < 0) & (not signed)))
        if odd := no_count(rows.start, never, numbers, made.per):
            raise odd
        bad &= ~none
        sums = bad | (whole >= exact) if is_single else bad
        is_unsure |= is_single and bool(sums.any())
        off = np.where(none | sums, 0, off)
        near, made.rounded = near + int((off > 0).sum()), max(made.rounded, float(off.max()))
        refusal = refusal or no_count(rows.start, bad, numbers, made.per)
        counts[rows] = np.where(none | bad, 0, whole + np.uint64(made.plus)).astype(np.uint32)
    if refusal and not is_single:
        raise refusal
    if is_unsure:
        take_sums(made)
    note_misplaced(made, "acc")
    if signs:
        made.note(f"acc: {signs:,} numbers are below 0 (may get water from outside): their sign is dropped")
    if near:
        made.note(f"acc: {near:,} numbers are whole but for a millionth of themselves, and are rounded")


SEVERAL = (
    "Directions into several cells (D-infinity, MFD), weights and unequal areas can't be judged: have the tool count cells "
    "along one direction (SAGA -METHOD 0, r.watershed -s, Whitebox --out_type=cells)"
)
ROUNDED = "It may be a rounded sum in single precision, of an unsure count: drain-gis derive counts along dir"


def no_count(top: int, bad: Array, numbers: Array, per: float) -> OddRaster | None:
    """The refusal of the first bad number of some rows, if there is one."""
    if not bad.any():
        return None
    row, col = np.argwhere(bad)[0]
    value = abs(float(numbers[row, col])) / per
    is_near = numbers.dtype == np.float32 and 0 < abs(value - round(value)) <= SLACK_OF_SINGLE * value
    why = ROUNDED if is_near else SEVERAL
    return OddRaster("acc", f"{numbers[row, col]} at row {top + row}, column {col} is no count. {why}")


def magnitude(numbers: Array) -> Array:
    """The numbers without signs; whole ones as 64 bits without a sign, which hold each."""
    if numbers.dtype.kind == "f":
        return np.abs(numbers)
    wide = numbers.astype(np.uint64)
    return np.where(numbers < 0, ~wide + np.uint64(1), wide)


def cells_of(sizes: Array, per: float) -> tuple[Array, Array, Array]:
    """How many times `per` each number is; where it is no whole number of times; and by how much it differs from one.

    Whole numbers go through no floating-point ones.
    """
    if sizes.dtype.kind != "f" and float(per).is_integer():
        whole, rest = np.divmod(sizes, np.uint64(per))
        return whole, rest != 0, np.zeros(rest.shape)
    with np.errstate(over="ignore"):
        values = np.minimum(sizes.astype(np.float64) / per, MOST_COUNT)
    near, is_single = np.rint(values), sizes.dtype == np.float32
    slack = np.minimum((SLACK_OF_SINGLE if is_single else SLACK) * values, MOST_SLACK)
    if is_single and per != 1:
        slack = np.maximum(slack, np.minimum(DIGIT * values, MOST_OF_DIGIT))
    off = np.abs(near - values)
    return near.astype(np.uint64), off > slack, off


def exact_to(per: float) -> int:
    """Up to which count single precision holds each number times `per`, so that sums of these are exact."""
    whole = Fraction(per).numerator
    return SINGLE // (whole // (whole & -whole))


class Rounding:
    """What rounding of sums in single precision may do to the counts along dir, in cells.

    Where sums aren't exact, each addition may be off by half the last digit, and so may a sum that was stored.
    """

    def __init__(self, flow: Flow, per: float) -> None:
        self.flow, self.inflow, self.exact = flow, inflow_of(flow.codes), exact_to(per)
        self.way = np.empty(flow.acc.shape, np.float32)  # by all sums on the way to a cell
        for band, _, _ in bands(*self.way.shape):
            self.way[band] = self.step(band)
        flow.add_along(self.way)

    def step(self, band: slice) -> Array:
        """By the sum of each cell of some rows alone."""
        counts = self.flow.acc[band].astype(np.float64)
        return np.where(counts > self.exact, np.maximum(self.inflow[band], 2) * (ADDITION * counts), 0)


def take_sums(made: Converted) -> None:
    """Takes numbers that sums in single precision may have rounded for the counts along dir that they stand for.

    A number counts as one if it differs from 1 and its inflow, as the tool has it, by no more than one sum may, and
    from the count along dir by no more than all sums on the way may. If it differs by whole cells it is a wrong count.
    """
    taken, lost, other, layer, flow = 0, 0, 0, made.layers["acc"], Flow(made)
    counts, rounding = made.set["acc"], Rounding(flow, made.per)
    for band, around, inner in bands(*counts.shape):
        numbers, none = layer.window(around.start, around.stop - around.start)
        sizes = np.abs(np.where(none, 0, numbers).astype(np.float64))
        tools = sizes / made.per + made.plus
        rest = tools - 1
        for here, there, leads in leading(flow.codes[around]):
            rest[there] -= np.where(leads, tools[here], 0)
        whole, bad, near = (one[inner] for one in cells_of(sizes.astype(np.float32), made.per))
        off, rest = np.abs(tools - flow.acc[around])[inner], rest[inner]
        is_count = np.abs(rest - np.rint(rest)) <= rounding.step(band)
        if refusal := no_count(band.start, bad & ~is_count & ~none[inner], numbers[inner], made.per):
            raise refusal
        sums = (bad | (whole >= rounding.exact)) & ~none[inner]
        fits = sums & is_count & (np.rint(rest) == 0) & (off <= rounding.way[band])
        counts[band] = np.where(fits, flow.acc[band], np.where(sums, whole + np.uint64(made.plus), counts[band]))
        off = np.where(fits, off, np.where(sums, near, 0))
        made.rounded, other = max(made.rounded, float(off.max())), other + int((off > MOST_OF_DIGIT).sum())
        taken, lost = taken + int(fits.sum()), lost + int((sums & ~fits).sum())
    made.completed["acc"] = other
    if taken:
        made.note(f"acc: {cells(taken)} with a sum in single precision, right but for rounding: counted along dir")
    if lost:
        text = f"{lost:,} numbers of {rounding.exact:,} or more cells in single precision"
        made.note(f"acc: {text}: the tool may have rounded them")


def is_area(number: float, area: float | None) -> bool:
    """Whether a number is this area, but for rounding."""
    return area is not None and 0 < number < EXACT and abs(number - area) <= NEAR_AREA * area


def choose_counting(made: Converted) -> None:
    """How numbers become counts: as the user says, or as the cells that get no water show."""
    choice, area = made.job.options.acc_counts, made.job.options.cell_area
    if area is not None and not (0 < area < EXACT and choice in ("auto", "area")):
        raise CannotJudge(f"--cell-area {area:g}: expected a number above 0, and areas (--acc-counts area or auto)")
    if choice in ("cells", "above"):
        made.plus = int(choice == "above")
        made.note(f"acc: {'1 is added to each' if made.plus else 'taken as it is'} (--acc-counts {choice})")
        return
    found: dict[float, int] = {}
    dry = made.data & ~gets_water(made.set["dir"], made.data)
    for rows, numbers, none in made.windows("acc"):
        for number, many in zip(*np.unique(magnitude(numbers[dry[rows] & ~none]), return_counts=True)):
            found[number.item()] = found.get(number.item(), 0) + int(many)
        if len(found) > MOST_KINDS:
            break
    if found:
        guess_counting(made, found, choice == "area" or area is not None)


def guess_counting(made: Converted, found: dict[float, int], named: bool) -> None:
    """Takes the most frequent number of a cell without water as what one cell counts: 0, 1, or the area of a cell.

    `named`: the user says that it is an area.
    """
    number, known, area = max(found, key=lambda n: found[n]), made.job.options.cell_area, cell_area(made.dem)
    share = found[number] / sum(found.values())
    text = f"{share:.1%} of the cells that get no water have {number:.9g}"
    if number == 0 and named:
        raise CannotJudge(f"acc: {text}: --acc-counts area needs numbers that count the cell's own area too")
    if number in (0, 1) and not named:
        made.plus = int(number == 0)
        way = "isn't counted, and 1 is added to each" if made.plus else "is counted, and each number is taken as it is"
        made.note(f"acc: {text}: the cell itself {way}")
        return
    if not named and share < SURE:
        text = f"cells that get no water have {len(found):,} different numbers, most often {number:.9g}: these are no counts"
        raise OddRaster("acc", f"{text}. {SEVERAL}")
    if known is not None and not is_area(number, known):
        raise OddRaster("acc", f"{text}, not the {known:.9g} that --cell-area names")
    if known is None and not is_area(number, area):
        size = f"a cell has the area {area:.9g}" if area else "the area of a cell isn't known without a georeference"
        raise OddRaster("acc", f"{text}: {size}. If one cell counts for that, name it (--cell-area {number:.9g})")
    made.per = float(number)
    made.note(f"acc: {text}, taken for the area of a cell: each number is divided by it")


def counts_taken(made: Converted) -> str:
    """What the numbers of acc were taken for, as the end of an answer's first line; "" where acc isn't judged."""
    if "acc" not in made.judged:
        return ""
    text = f"{made.per:.9g} a cell, by --cell-area"
    if made.per == 1:
        text = "cells above each, 1 added" if made.plus else "cells"
    elif is_area(made.per, cell_area(made.dem)):
        crs = made.dem.crs
        metric = crs and crs.is_projected and crs.linear_units_factor[1] == 1
        text = f"area of a cell, {made.per:.9g} {'m2' if metric else 'square units of the map'}"
    most = f", rounded by at most {math.ceil(made.rounded * 1000) / 1000:,} cells" if made.rounded > SAID else ""
    return f"; acc counts: {text}{most}"
