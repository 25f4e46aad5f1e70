#!/usr/bin/env python3
"""Audits small random sets of one raster of floats with any spacing, right ones and ones with one number changed, of con often
to the next float, as random_dems.py does; cuts some into windows and merges these (random_dem_windows.py). The others judge
exact fractions (plain_inputs.py).

random_floats.py [DRAIN]                  without the program only the others are compared
random_floats.py --library LIBDRAIN.so    compares what the library says

Prints how many sets passed.
"""

import random
import struct
import sys
from fractions import Fraction
from math import isqrt
from pathlib import Path

sys.dont_write_bytecode = True
sys.path.insert(1, str(Path(__file__).resolve().parents[2] / "crates/drain_c/examples"))
import random_dem_windows
from audit import LISTS
from judge import Drain, Spacing
from plain_inputs import INFINITY, NAN, float_at, float_of, nearest_float, pattern_of
from random_dems import RandomDem, rename_blank, wrong_check, wrong_make
from random_sets import CHANGES, Case, given_program, judge_cases, judge_random, kind_of
from random_spacings import TIES, random_spacing

CASES = 2000
# One of so many cases is cut into windows.
CUT = 4
LEAST_NORMAL, ONE, GREATEST, INFINITE, SIGN = 0x00800000, 0x3F800000, 0x7F7FFFFF, 0x7F800000, 0x80000000
NAN_PARTS = [1, 0x3FFFFF, 0x400000, 0x7FFFFF]
BLANKS = ["-9999", "-3.4028235e+38", "nan", "inf", "-inf", "0", "-32767.1", "0.1", "1e-45", "3.4028235e+38"]
# Words of numbers that Python spells otherwise, or not only so.
WORDS = {
    NAN: ["nan", "NaN", "-nan"],
    INFINITY: ["inf", "Infinity", "1e39"],
    -INFINITY: ["-inf", "-1e39"],
    0: ["0", "-0.0", "1e-46"],
}


def moved(number, steps):
    """The float so many steps above this one, or below it; NaN past infinities."""
    place = pattern_of(abs(number)) * (1 if number >= 0 else -1) + steps
    return NAN if abs(place) > INFINITE else float_at(abs(place)) * (1 if place >= 0 else -1)


def near_ties(dice, sizes):
    """A float and ones below it, for cells beside it and at a corner: the slopes are equal, or differ by a float."""
    width, height = sizes
    along, unit = dice.randint(2, 2 ** dice.choice([4, 12, 22])), Fraction(2) ** dice.randint(-149, 103)
    if along * width < 2**23 and dice.random() < 0.5:
        along *= width
    across, down = (isqrt(along**2 * square // width**2) for square in (width**2 + height**2, height**2))
    # Numbers of 24 bits are floats; beside 0 one can be tiny.
    top = dice.choice([0, 2**23, dice.randint(0, 2**23), along, along])
    tiny = float_at(dice.choice([1, dice.randrange(INFINITE // 4)])) * dice.choice([1, -1])
    drops = [drop for drop in (0, along, across, across + 1, down, down + 1) if drop < 2**23]
    return [unit * (top - drop) for drop in drops] + [tiny] * (top == along)


def random_heights(dice, sizes):
    """Floats of a few kinds."""
    any_floats = [float_at(dice.randrange(INFINITE)) * dice.choice([1, -1]) for _ in range(9)]
    base, tenth = any_floats[0], nearest_float(Fraction(1, 10))
    denormals = [float_at(it) for it in (0, 1, 2, 3, LEAST_NORMAL - 1, LEAST_NORMAL, LEAST_NORMAL + 1)]
    kinds = [
        [float_at(ONE + it) for it in range(-3, 4)],
        [moved(base, it) for it in range(-2, 3) if abs(moved(base, it)) < INFINITY],
        [*denormals, *(-it for it in denormals)],
        [0, 0, float_at(1), -float_at(1)],
        [tenth, tenth, moved(tenth, -1), moved(tenth, 1), *(nearest_float(Fraction(it, 10)) for it in (2, 3, 7))],
        [float_at(GREATEST), -float_at(GREATEST), float_at(GREATEST - 1), 0, float_at(1), 3000],
        [nearest_float(Fraction(dice.uniform(0, 3000))) for _ in range(9)],
        any_floats,
        [float_at(1), 3000, 2999, moved(3000, 1)],
        [0, 1, 2, 3],
        *[near_ties(dice, sizes) for _ in range(4)],
    ]
    return dice.choice(kinds)


class RandomFloats(RandomDem):
    """One raster of floats. With these sizes of cells some slopes are nearly equal."""

    kind, unsaid = "f", NAN

    def __init__(self, dice):
        self.dice = dice
        self.rows, self.cols = dice.choice([1, 2, 3, 3, 4, 5]), dice.choice([1, 3, 3, 4, 5, 6])
        if dice.random() < 0.03:
            # The program tries many cells of a wide row at a time.
            self.rows, self.cols = dice.randint(2, 3), dice.randint(30, 40)
        self.sizes = dice.choice([(1, 1), (1, 1), *TIES])
        heights = random_heights(dice, self.sizes)
        self.nodata = dice.choice([None, None, dice.choice(heights), *map(float_of, BLANKS)])
        voids = [NAN, INFINITY, -INFINITY, *([] if self.nodata is None else [self.nodata] * 2)]
        share = dice.choice([0, 0, 0, 0.1, 0.3])
        self.numbers = [dice.choice(voids if dice.random() < share else heights) for _ in range(self.rows * self.cols)]
        self.z = [None if number == self.nodata or abs(number) >= INFINITY else number for number in self.numbers]
        corner = [dice.randint(-(10**21), 10**21) for _ in range(2)]
        self.place = [*corner, *(dice.choice([30 * 10**15, 10**15 // 1200]) for _ in range(2))]
        self.header_ending, self.ending = dice.choice([(".hdr", ".bil"), (".HDR", ".BIL")])

    def can_spell(self, name, numbers):
        if name != "con":
            return super().can_spell(name, numbers)
        most = float_at(GREATEST)
        return all(it in (NAN, INFINITY, -INFINITY) or (abs(it) <= most and float_at(pattern_of(it)) == it) for it in numbers)

    def blanks_of(self, name):
        return [NAN, NAN, NAN, *map(float_of, BLANKS), *super().blanks_of(name)] if name == "con" else []

    def word_of(self, kind, nodata):
        if kind != "f":
            return nodata
        words = list(WORDS.get(nodata, []))
        if abs(nodata) < INFINITY:
            words += [form.format(float(nodata)) for form in ("{:.7e}", "{:.8e}", "{!r}")]
        return self.dice.choice([word for word in words if float_of(word) == nodata])

    def packed(self, order, kind, numbers):
        if kind != "f":
            return super().packed(order, kind, numbers)
        return struct.pack(f"{order}{len(numbers)}I", *map(self.pattern, numbers))

    def pattern(self, number):
        """The bits of this float, with either sign of 0 and of NaN, and any of NaN's."""
        if number == 0:
            return self.dice.choice([0, SIGN])
        return INFINITE + self.dice.choice(NAN_PARTS) + self.dice.choice([0, SIGN]) if number == NAN else pattern_of(number)

    def raster(self, name, nodata, numbers):
        if name != "con":
            return super().raster(name, nodata, numbers)
        is_told = nodata != NAN or self.dice.random() < 0.5
        return self.spelled("f", self.near_place(), nodata if is_told else None, numbers)


def case_of(number, folder):
    """A case without a spacing, with that of the raster's near ties, or with any."""
    dice = random.Random(number)
    ground = RandomFloats(dice)
    spacings = [None, ground.sizes, ground.sizes, random_spacing(dice, ground.rows)]
    return Case(dice, folder, ground, dice.choice(spacings))


def move_con(case):
    """Moves con of a cell by a float or two, or makes it no height."""
    con = case.products["con"]
    cell = case.dice.randrange(len(con))
    near = [moved(con[cell], steps) for steps in (-2, -1, -1, -1, 1, 1, 1, 2)]
    con[cell] = case.dice.choice([*near, NAN, INFINITY, -INFINITY])


def take_next_way(case):
    """Takes the second steepest way where it is the least behind the steepest, if a cell has two."""
    terrain, con, found = case.terrain, case.products["con"], []
    for cell in terrain.data_cells():
        lower = [(code, con[cell] - con[other]) for code, other in terrain.data_neighbors(cell) if con[other] < con[cell]]
        slopes = sorted(((terrain.slope_square(cell, code, drop), code) for code, drop in lower), reverse=True)
        found += [(less / most, cell, code) for (most, _), (less, code) in zip(slopes[:1], slopes[1:]) if less < most]
    if found:
        case.put_code(*max(found)[1:])


ALL_CHANGES = [*CHANGES, rename_blank, move_con, move_con, take_next_way]


def wrong_windows(case, drain):
    """What is wrong with the answers about windows of a case, None where nothing is or it isn't cut."""
    is_cut = drain and case.dice.randrange(CUT) == 0
    return random_dem_windows.wrong_windows(drain, case)[0] if is_cut else None


def library_line(library, case, given):
    """What the library says of the files of a case."""
    stem, is_text = case.ground.path(case.folder), isinstance(case.spacing, bytes)
    dem = stem.with_suffix(case.ground.header_ending).read_bytes(), stem.read_bytes()
    rasters = {name: tuple((case.folder / f"{name}.{part}").read_bytes() for part in ("hdr", "bil")) for name in given}
    spacing = Spacing(widths=case.spacing) if is_text else case.spacing and Spacing(*case.spacing)
    return library.audit_only_dem(dem, rasters, (case.folder / "sinks.txt").read_bytes(), spacing).line


def judge_by_library(library):
    """Compares its lines with those of audit.py; prints how many cases are right, and returns the status."""

    def judge_case(number, folder):
        case = case_of(number, folder)
        ALL_CHANGES[number % len(ALL_CHANGES)](case)
        case.write()
        lines = {list_: case.line(list_.split(",")) for list_ in LISTS}
        told = {list_: library_line(library, case, list_.split(",")) for list_ in LISTS}
        wrong = [f"{list_}: {told[list_]!r}, not {line!r}" for list_, line in lines.items() if told[list_] != line]
        return wrong, {list_: kind_of(line) for list_, line in lines.items()}

    passed, failed = judge_cases(judge_case, CASES)
    print(f"random floats by the library: {passed} passed, {failed} failed")
    return 1 if failed else 0


def main():
    if sys.argv[1:2] == ["--library"]:
        return judge_by_library(Drain(sys.argv[2]))
    more = [wrong_check, wrong_make, wrong_windows]
    return judge_random(given_program(), "floats", case_of, ALL_CHANGES, more, CASES)


if __name__ == "__main__":
    sys.exit(main())
