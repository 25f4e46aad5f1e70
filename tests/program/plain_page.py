"""Writes the page and the JSON object of an explanation that isn't a refusal, as docs/FORMATS.md describes them.

The order of the page's parts is that of docs/FORMATS.md. Its words and columns are those of the page in docs/GUIDE.md,
of docs/CAUSES.md, and of the pages written by hand in crates/page_tests. Heights of floats are fractions.
"""

import math
import re
import sys
from dataclasses import dataclass
from decimal import Decimal
from fractions import Fraction
from functools import lru_cache

sys.dont_write_bytecode = True
from make_products import PRODUCTS, RULES, STEPS, fixed
from plain_faults import Explained
from plain_inputs import INFINITY, NAN, UNIT, Dem, float_of, nearest_float

PLACES = 10**7
RING_TOLD = 20
LETTERS = {1: "E", 2: "SE", 4: "S", 8: "SW", 16: "W", 32: "NW", 64: "N", 128: "NE"}
OPENINGS = {"sink": "at a listed sink", "edge": "on the edge of the {}", "void": "next to a void"}
LOST = {"no_code": "is no direction code", "outside": "points outside the {}", "void": "points to a void"}
ANY_CODE = [0, *STEPS]
ALL_RULES = sorted([(6, "NoSpill"), (7, "SpillHeight"), (8, "SpillRank"), *((number, name) for number, name, _ in RULES)])


def degrees_text(degrees: Fraction) -> str:
    """Degrees with seven places, rounded to the nearest, halves away from 0."""
    units = (2 * abs(degrees.numerator) * PLACES + degrees.denominator) // (2 * degrees.denominator)
    return f"{'-' if degrees < 0 and units else ''}{units // PLACES}.{units % PLACES:07d}"


@dataclass(frozen=True)
class Words:
    """How a page names a ground and the directions on it, and how many columns a coordinate takes."""

    whole: str
    east: str
    north: str
    columns: int

    def text(self, coordinate: Fraction) -> str:
        """A coordinate: degrees, or with the places of a header."""
        return degrees_text(coordinate) if self == ON_TILES else fixed(int(UNIT * coordinate))


ON_TILES = Words("mosaic", "longitude", "latitude", 14)
ON_RASTER = Words("raster", "x", "y", 26)


def code_text(number: int) -> str:
    """A direction's letters and code, 'outlet 0', or a number that is no code."""
    return f"{'outlet' if number == 0 else LETTERS.get(number, '?')} {number}"


# Decimals of floats, and of doubles, have an exponent below the first of these powers of 10, and from the second on. No
# document says so.
SINGLE_POWERS, DOUBLE_POWERS = (-6, 13), (-5, 16)
# The program computes shares in double precision, by some 8 roundings of at most 2^-53.
SHARE_ERROR = Fraction(1, 10**15)
ROUNDING = Fraction(1, 10**6)
ROUNDING_LINE = "such a difference is rounding of a tool in single precision"


def laid_out(word: str, powers: tuple[int, int]) -> str:
    """A decimal without needless zeros, but with a digit behind a point or an exponent."""
    number = Decimal(word).normalize()
    if number == 0 or powers[0] <= number.adjusted() < powers[1]:
        return f"{number:f}" if number.as_tuple().exponent < 0 else f"{number:f}.0"
    return f"{number:e}".replace("+", "")


@lru_cache(None)
def shortest(number: Fraction) -> str:
    """The shortest decimal that reads as this float; of several the nearest."""
    size, power = abs(number), Decimal(float(number)).adjusted() + 1
    while True:
        unit = Fraction(10) ** power
        near = [it for it in (size // unit, size // unit + 1) if float_of(f"{it}e{power}") == size]
        if near:
            digits = min(near, key=lambda it: (abs(it * unit - size), it % 2))
            return f"{'-' if number < 0 else ''}{digits}e{power}"
        power -= 1


def number_text(number: int | Fraction) -> str:
    """A whole number, or a float."""
    if isinstance(number, int):
        return str(number)
    if abs(number) >= INFINITY:
        return "nan" if number == NAN else "inf" if number > 0 else "-inf"
    return laid_out(shortest(number), SINGLE_POWERS)


def json_number(number: int | Fraction | None) -> int | float | str | None:
    """A number as Python reads it in JSON."""
    if not isinstance(number, Fraction):
        return number
    return float(number_text(number)) if abs(number) < INFINITY else number_text(number)


def drop_text(drop: Fraction) -> str:
    """A drop as the nearest float; as a double beyond the greatest float, of which no document says what stands there."""
    single = nearest_float(drop)
    return number_text(single) if single < INFINITY else laid_out(repr(float(drop)), DOUBLE_POWERS)


def share_below(ratio: Fraction) -> Fraction:
    """By which share a slope is less than another, from the ratio of their squares; 0 only if they are equal."""
    return (1 - ratio) / (1 + Fraction(math.sqrt(ratio)))


def two_digits(share: Fraction, told: float | None) -> float:
    """A share with two digits: those that the program tells, if double precision can make them of it."""
    if told is not None and told > 0:
        word = Decimal(repr(told)).normalize()
        error = Fraction(10) ** (word.adjusted() - 1) / 2 + SHARE_ERROR
        if len(word.as_tuple().digits) <= 2 and abs(Fraction(told) - share) <= error:
            return told
    return float(f"{float(share):.1e}")


PARTS = ["schema", "status", "rule", "name", "row", "col"]


def parts_of(line: str, status: int) -> dict:
    """The parts of an answer with this line: a rejection's rule, its name and its cell."""
    found = re.fullmatch(r"rejected (?:rule=(\d+) )?(\w+) row=(\d+) col=(\d+)", line)
    rule, name, row, col = found.groups() if found else (None, None, None, None)
    numbers = [number and int(number) for number in (rule, row, col)]
    return dict(zip(PARTS, (1, status, numbers[0], name, *numbers[1:])))


def words_of(plain: Explained) -> Words:
    return ON_RASTER if isinstance(plain.ground, Dem) else ON_TILES


class Expected:
    """What the first rule that fails at a cell requires there. Shares are as the program tells them, by code, if these are
    near enough."""

    def __init__(self, plain: Explained, cell: int, told_shares: dict[int, float | None]) -> None:
        self.plain, self.cell, self.rules, self.told_shares = plain, cell, plain.rules, told_shares
        self.rule, self.name, holds = next(rule for rule in plain.tried if not getattr(self.rules, rule[2])(cell))
        self.product: str | None = None
        self.number: int | Fraction | None = None
        self.at_fault: list[str] = []
        self.codes: list[int] = []
        self.ways: list[dict] = []
        self.way_texts: list[str] = []
        self.is_rounding = False
        self.open: str | None = None
        getattr(self, holds)()
        self.found = self.rules.products[self.product][cell] if self.product else None

    def void_cell(self) -> None:
        blanks = zip(self.rules.nodata, self.rules.blanks(self.cell))
        self.at_fault = [name for name, is_blank in blanks if not is_blank]
        self.words = f"no data at a void, in {', '.join(self.at_fault)}"

    def missing(self) -> None:
        self.at_fault = [name for name, is_blank in zip(self.rules.nodata, self.rules.blanks(self.cell)) if is_blank]
        self.words = f"a number at a data cell, in {', '.join(self.at_fault)}"

    def bad_code(self) -> None:
        self.product, self.codes = "dir", ANY_CODE
        self.words = "dir 0, 1, 2, 4, 8, 16, 32, 64 or 128"

    def below_ground(self) -> None:
        self.product, self.number = "con", self.rules.z[self.cell]
        self.words = f"con at least the ground, {number_text(self.number)}"

    def open_raised(self) -> None:
        self.product, self.number, self.open = "con", self.rules.z[self.cell], self.opening()
        self.words = f"con equal to the ground, {number_text(self.number)}, {self.opening_text()}"

    def not_least(self) -> None:
        around = self.plain.terrain.data_neighbors(self.cell)
        self.product = "con"
        self.number = min(max(self.rules.z[self.cell], self.rules.con[other]) for _, other in around)
        self.words = f"con at most {number_text(self.number)}"

    def slope(self) -> None:
        lower = self.rules.lower(self.cell)
        drops = {code: self.rules.con[self.cell] - self.rules.con[other] for code, other in lower}
        slopes = {code: self.plain.terrain.slope_square(self.cell, code, drop) for code, drop in drops.items()}
        self.product, self.words = "dir", "dir of a steepest descent"
        self.codes = [code for code, slope in slopes.items() if slope == max(slopes.values())]
        if self.plain.ground.has_floats:
            self.ways_between_floats(drops, slopes)
        else:
            self.whole_ways(drops, slopes)

    def whole_ways(self, drops: dict[int, int], slopes: dict[int, Fraction]) -> None:
        terrain = self.plain.terrain
        # On square cells a way has a key, twice the square of the slope.
        is_square = terrain.spacings[self.cell // terrain.cols] == (1, 1)
        for code, drop in drops.items():
            by = int(2 * slopes[code]) if is_square else terrain.distance_square(self.cell, code)
            self.ways.append({"code": code, "drop": drop, "key" if is_square else "distance_squared": by})
            steepest = ", steepest" if code in self.codes else ""
            self.way_texts.append(f"drop {drop}, {'key' if is_square else 'distance squared'} {by}{steepest}")

    def ways_between_floats(self, drops: dict[int, Fraction], slopes: dict[int, Fraction]) -> None:
        shares = {code: share_below(slope / max(slopes.values())) for code, slope in slopes.items()}
        for code, drop in drops.items():
            con, drop_word = self.rules.con[self.cell] - drop, drop_text(drop)
            less = two_digits(shares[code], self.told_shares.get(code)) if shares[code] else None
            self.ways.append({"code": code, "con": json_number(con), "drop": float(drop_word), "less_steep": less})
            less_text = f"less steep by {laid_out(repr(less), DOUBLE_POWERS)}" if less else "steepest"
            self.way_texts.append(f"con {number_text(con)}, drop {drop_word}, {less_text}")
        self.is_rounding = 0 < shares.get(self.rules.dir[self.cell], 0) < ROUNDING

    def outlet_code(self) -> None:
        self.product, self.number, self.codes, self.open = "dir", 0, [0], self.opening()
        self.words = f"dir 0, with no lower neighbour, {self.opening_text()}"

    def flat_step(self) -> None:
        level = [
            (code, other)
            for code, other in self.plain.terrain.data_neighbors(self.cell)
            if self.rules.con[other] == self.rules.con[self.cell]
        ]
        smaller = [
            code for code, other in level if self.plain.ranks and self.rules.rnk[other] < self.rules.rnk[self.cell]
        ]
        allowed = smaller if self.plain.ranks else [code for code, _ in level]
        self.product, self.codes = "dir", [code for code in STEPS if code in allowed]
        self.words = f"dir to a neighbour with the same con{' and a smaller rnk' if self.plain.ranks else ''}: "
        self.words += ", ".join(map(code_text, self.codes)) or "none"

    def accumulation(self) -> None:
        back = {code: code << 4 if code < 16 else code >> 4 for code in STEPS}
        around = self.plain.terrain.data_neighbors(self.cell)
        inflow = [self.rules.acc[other] for code, other in around if self.rules.dir[other] == back[code]]
        self.product, self.number = "acc", 1 + sum(inflow)
        self.words = f"acc {self.number}"

    def label(self) -> None:
        self.product = "bas"
        self.number = self.rules.bas[self.rules.named(self.cell, self.rules.dir[self.cell])]
        self.words = f"bas of the cell that dir points to, {self.number}"

    def shared_label(self) -> None:
        self.product = "bas"
        self.words = "bas that no earlier outlet has"

    def opening(self) -> str:
        """Why the cell is open: the first of the three reasons."""
        if self.cell in self.plain.terrain.sinks:
            return "sink"
        return "edge" if None in (self.plain.terrain.beside(self.cell, code) for code in STEPS) else "void"

    def opening_text(self) -> str:
        return OPENINGS[self.open].format(words_of(self.plain).whole)

    def as_object(self) -> dict:
        return {
            "rule": self.rule,
            "name": self.name,
            "product": self.product,
            "found": json_number(self.found),
            "number": json_number(self.number),
            "products": self.at_fault,
            "codes": self.codes,
            "ways": self.ways,
            "open": self.open,
        }

    def lines(self) -> list[str]:
        lines = [f"rule {self.rule} {self.name}", f"expected: {self.words}"]
        lines += [f"  {code_text(way['code'])}: {text}" for way, text in zip(self.ways, self.way_texts)]
        if self.product:
            found = code_text(self.found) if self.product == "dir" else number_text(self.found)
            lines.append(f"found: {self.product} {found}")
        return [*lines, ROUNDING_LINE] if self.is_rounding else lines


class Page:
    """The page of products that aren't refused. The program chooses the first cell of a ring, and rounds shares."""

    def __init__(self, plain: Explained, ring_start: dict | None, told_shares: dict[int, float | None]) -> None:
        self.plain, self.rules, self.words = plain, plain.rules, words_of(plain)
        self.expected = None if plain.first is None else Expected(plain, plain.first, told_shares)
        self.ring: list[int] | None = None
        self.lost: int | None = None
        if not plain.ranks and plain.endless is not None:
            kind, cells = plain.ring_or_lost()
            if kind == "lost":
                self.lost = cells
            else:
                start = ring_start["row"] * plain.terrain.cols + ring_start["col"] if ring_start else cells[0]
                at = cells.index(start) if start in cells else 0
                self.ring = cells[at:] + cells[:at]

    def coordinates(self, place: dict) -> tuple[Fraction, Fraction]:
        """How far east and north a cell lies."""
        ground = self.plain.ground
        if isinstance(ground, Dem):
            west, north, width, height = (Fraction(it, UNIT) for it in ground.place)
        else:
            west, north, width, height = ground.west, ground.north, Fraction(1, ground.side - 1), Fraction(1, ground.side - 1)
        return west + place["col"] * width, north - place["row"] * height

    def lost_by(self) -> str:
        code = self.rules.dir[self.lost]
        if code not in STEPS:
            return "no_code"
        return "outside" if self.plain.terrain.beside(self.lost, code) is None else "void"

    # As JSON

    def elevations(self) -> list[int | Fraction]:
        """The elevations of data cells of a raster of elevations; none of tiles, whose pages don't have them."""
        return [z for z in self.rules.z if z is not None] if self.words == ON_RASTER else []

    def as_object(self) -> dict:
        found = self.elevations()
        elevation = {"least": json_number(min(found)), "greatest": json_number(max(found))} if found else None
        return {
            "answer": self.plain.line,
            "refusal": None,
            "rows": self.plain.terrain.rows,
            "cols": self.plain.terrain.cols,
            **({"elevation": elevation} if self.words == ON_RASTER else {}),
            **self.slopes_object(),
            "ranks": self.plain.ranks,
            "rules": [{"rule": it["rule"], "name": it["name"], **self.faults(it)} for it in self.plain.by_rule],
            "products": [
                {
                    "product": it["product"],
                    "at_voids": self.faults(it["at_voids"]),
                    "at_data": self.faults(it["at_data"]),
                }
                for it in self.plain.by_product
            ],
            "patch": self.patch_object(),
            "expected": self.expected and self.expected.as_object(),
            "run": self.run_object(),
            **parts_of(self.plain.line, self.plain.status()),
        }

    def slopes_object(self) -> dict:
        """The spacing, where it isn't that of square cells; and of an acceptance of directions on tiles, where it is."""
        spacing = self.plain.spacing
        if spacing in (None, (1, 1)):
            is_named = self.words != ON_RASTER and "dir" in self.rules.nodata and self.plain.status() == 0
            return {"slopes": "square cells"} if is_named else {}
        return {"slopes": "widths by row" if isinstance(spacing, bytes) else dict(zip(("width", "height"), spacing))}

    def cell_object(self, place: dict) -> dict:
        east, north = self.coordinates(place)
        return {**place, self.words.east: float(east), self.words.north: float(north)}

    def faults(self, faults: dict) -> dict:
        return {"cells": faults["cells"], "first": faults["first"] and self.cell_object(faults["first"])}

    def around(self) -> list[list[int | None]]:
        """The first cell at which a rule fails and its neighbours, north first."""
        beside = {code: self.plain.terrain.beside(self.plain.first, code) for code in STEPS}
        rows = [[32, 64, 128], [16, 0, 1], [8, 4, 2]]
        return [[self.plain.first if code == 0 else beside[code] for code in row] for row in rows]

    def values_object(self, cell: int) -> dict:
        numbers = {name: self.rules.products[name][cell] for name in self.rules.nodata}
        shown = {name: None if number == self.rules.nodata[name] else number for name, number in numbers.items()}
        return {
            "ground": json_number(self.rules.z[cell]),
            "sink": cell in self.plain.terrain.sinks,
            **{name: json_number(shown.get(name)) for name, *_ in PRODUCTS},
        }

    def patch_object(self) -> dict | None:
        if self.plain.first is None:
            return None
        values = [[cell if cell is None else self.values_object(cell) for cell in row] for row in self.around()]
        return {"cell": self.cell_object(self.plain.place(self.plain.first)), "values": values}

    def run_object(self) -> dict | None:
        ring = lost = None
        if self.ring is not None:
            cells = [self.cell_object(self.plain.place(cell)) for cell in self.ring[:RING_TOLD]]
            ring = {"length": len(self.ring), "cells": cells}
        elif self.lost is not None:
            lost = {"cell": self.cell_object(self.plain.place(self.lost)), "by": self.lost_by()}
        else:
            return None
        return {"from": self.cell_object(self.plain.place(self.plain.endless)), "ring": ring, "lost": lost}

    # As text

    def as_text(self) -> str:
        found = self.elevations()
        range_lines = [f"elevation from {number_text(min(found))} to {number_text(max(found))}"] if found else []
        for slopes in self.slopes_object().values():
            range_lines.append(f"slopes: {slopes if isinstance(slopes, str) else 'cells {width} by {height}'.format(**slopes)}")
        parts = [[self.plain.line], range_lines + self.rule_lines()]
        if self.expected:
            parts.append([*self.patch_lines(), *self.expected.lines()])
        if self.ring is not None or self.lost is not None:
            parts.append(self.run_lines())
        return "\n".join("".join(line + "\n" for line in part) for part in parts)

    def fault_columns(self, faults: dict) -> str:
        first = faults["first"]
        shown = "".join(f" {self.words.text(it):>{self.words.columns - 1}}" for it in self.coordinates(first))
        return f"{faults['cells']:10}{first['row']:7}{first['col']:7}{shown}"

    def rule_lines(self) -> list[str]:
        lines = []
        for rule in self.plain.by_rule:
            if rule["cells"]:
                lines.append(f"{rule['rule']} {rule['name']}".ljust(15) + self.fault_columns(rule))
                part = {1: "at_voids", 2: "at_data"}.get(rule["rule"])
                for product in self.plain.by_product if part else []:
                    if product[part]["cells"]:
                        lines.append(f"  {product['product']:13}" + self.fault_columns(product[part]))
        if lines:
            shown = "".join(word.rjust(self.words.columns) for word in (self.words.east, self.words.north))
            lines.insert(0, f"{'rule':15}{'cells':>10}{'row':>7}{'column':>7}{shown}")
        holding = ", ".join(f"{rule['rule']} {rule['name']}" for rule in self.plain.by_rule if not rule["cells"])
        tried = [number for number, _, _ in self.plain.tried]
        untried = ", ".join(f"{number} {name}" for number, name in ALL_RULES if number not in tried)
        lines += [f"hold: {holding or 'none'}", f"not tried: {untried}"]
        return lines if self.plain.ranks else [*lines, "ranks: not checked"]

    def cell_words(self, cell: int) -> str:
        place = self.plain.place(cell)
        return f"row {place['row']}, column {place['col']}"

    def ground_text(self, cell: int) -> str:
        ground = self.rules.z[cell]
        return f"{'*' if cell in self.plain.terrain.sinks else ''}{'void' if ground is None else number_text(ground)}"

    def product_text(self, product: str, cell: int) -> str:
        number = self.rules.products[product][cell]
        if number == self.rules.nodata[product]:
            return "no data"
        return code_text(number) if product == "dir" else number_text(number)

    def patch_lines(self) -> list[str]:
        east, north = map(self.words.text, self.coordinates(self.plain.place(self.plain.first)))
        lines = [f"first fault: {self.cell_words(self.plain.first)}, {self.words.east} {east}, {self.words.north} {north}"]
        lines.append(f"- outside the {self.words.whole}, * listed as a sink")
        for name in ["ground", *self.rules.nodata]:
            lines.append(name)
            for row in self.around():
                shown = (
                    "-"
                    if cell is None
                    else self.ground_text(cell)
                    if name == "ground"
                    else self.product_text(name, cell)
                    for cell in row
                )
                lines.append("".join(text.rjust(18 if self.plain.ground.has_floats else 13) for text in shown))
        return lines

    def run_lines(self) -> list[str]:
        line = f"path without an end: from {self.cell_words(self.plain.endless)}"
        if self.ring is None:
            return [line, f"  path stops at {self.cell_words(self.lost)}: dir {LOST[self.lost_by()].format(self.words.whole)}"]
        cells = [f"  {self.cell_words(cell)}" for cell in self.ring[:RING_TOLD]]
        rest = ["  and so on"] if len(self.ring) > RING_TOLD else []
        return [f"{line} into a ring of {len(self.ring)} cells", *cells, *rest]
