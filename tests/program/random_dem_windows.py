#!/usr/bin/env python3
"""Cuts small random sets, right ones and ones with one number changed, into windows as a user does: on a raster of elevations
each lies in a part of it with a header of its own, on tiles in the whole mosaic. Judges the windows by the program, merges their
reports, at once and by a random tree of merges, and compares the line with the rules on the whole (audit.py). Reports of a part
at another place, with other pixels, or with another spacing of a row that another one has, must be refused.

random_dem_windows.py DRAIN

Prints how many sets passed.
"""

import copy
import random
import subprocess
import sys
import tempfile
from pathlib import Path

sys.dont_write_bytecode = True
from audit import NO_DATA, AuditRules
from make_products import RULES, verdict
from plain_inputs import MOST_SIZE
from random_audits import RandomTiles
from random_dems import RandomDem, rename_blank
from random_sets import Case, kind_of
from random_spacings import random_spacing
from window_trees import Leaf, Tree

CASES, TILE_CASES = 400, 200
SHARED_LABEL = 15
# The greatest coordinate of a header.
GREATEST = 10**25


def expected(case):
    """The line of a merge: the first fault of the rules but the last at any cell, then that of the last."""
    rules = AuditRules(case.terrain, case.products, case.nodata)
    line = verdict(rules, [rule for rule in RULES if rule[0] != SHARED_LABEL])
    return line if line.startswith("rejected") else verdict(rules)


def cuts(dice, length):
    """Where judged rows begin and end, of one to three windows."""
    inner = dice.sample(range(1, length), min(length - 1, dice.choice([0, 1, 1, 2])))
    return [0, *sorted(inner), length]


def spans(dice, length):
    """Of each window along one way: what its part has, what it has itself, and whether it goes on before and behind."""
    ends = cuts(dice, length)
    for first, end in zip(ends, ends[1:]):
        window = max(first - 1, 0), min(end + 1, length)
        part = max(window[0] - dice.choice([0, 0, 1, 3]), 0), min(window[1] + dice.choice([0, 0, 2]), length)
        # A side that isn't inner has to be an edge of the part, and the union's edge is.
        yield part, window, (first > 0, end < length)


class Part:
    """A part of a case's raster, with its products, its list of sinks, and a window in it."""

    def __init__(self, case, folder, rows, cols):
        self.case, self.folder = case, folder
        (self.rows, self.window_rows, (north, south)), (self.cols, self.window_cols, (west, east)) = rows, cols
        self.inner = "".join(letter for letter, is_inner in zip("nesw", (north, east, south, west)) if is_inner)
        self.ground = self.ground_of(case)
        self.at = [self.rows[0], self.cols[0]]
        self.spacings = case.terrain.spacings[slice(*self.rows)]
        self.report = folder / "report.txt"

    def ground_of(self, case):
        """The part of the raster of elevations."""
        whole = case.ground
        ground = copy.copy(whole)
        ground.rows, ground.cols = self.rows[1] - self.rows[0], self.cols[1] - self.cols[0]
        ground.numbers, ground.z = self.cut(whole.numbers), self.cut(whole.z)
        ulx, uly, xdim, ydim = whole.place
        # Each part may be a two hundredth of a pixel off, so that two differ by a hundredth.
        shift = [case.dice.choice([0, size // 200, -(size // 200)]) for size in (xdim, ydim)]
        ground.place = [ulx + self.cols[0] * xdim + shift[0], uly - self.rows[0] * ydim + shift[1], xdim, ydim]
        return ground

    def place_words(self):
        """The option that gives its place in the raster."""
        return ["--at", ",".join(map(str, self.at))]

    def cut(self, numbers):
        cols = self.case.ground.cols
        return [numbers[row * cols + col] for row in range(*self.rows) for col in range(*self.cols)]

    def write(self):
        self.folder.mkdir(exist_ok=True)
        self.ground.write(self.folder)
        for name in NO_DATA:
            header, body = self.ground.raster(name, self.case.nodata[name], self.cut(self.case.products[name]))
            (self.folder / f"{name}.hdr").write_text(header)
            (self.folder / f"{name}.bil").write_bytes(body)
        inside = [(row, col) for row, col in self.case.sinks if row in range(*self.rows) and col in range(*self.cols)]
        (self.folder / "sinks.txt").write_text("".join(f"{row - self.rows[0]} {col - self.cols[0]}\n" for row, col in inside))
        (self.folder / "widths.txt").write_text("".join(f"{width} {height}\n" for width, height in self.spacings))

    def spacing_words(self):
        """The option that gives the spacing, if one is needed; where all rows are alike either of two."""
        if set(self.spacings) == {(1, 1)} and self.case.dice.random() < 0.5:
            return []
        if len(set(self.spacings)) == 1 and self.case.dice.random() < 0.5:
            return ["--spacing", "{},{}".format(*self.spacings[0])]
        return ["--widths", self.folder / "widths.txt"]

    def listed(self):
        """The width and the height of the cells of each row of the window."""
        return {row: self.spacings[row - self.rows[0]] for row in range(*self.window_rows)}

    def judge(self, drain):
        """What the program ends with and prints."""
        (top, bottom), (left, right) = self.window_rows, self.window_cols
        box = [top - self.rows[0], left - self.cols[0], bottom - top, right - left]
        words = ["window", *self.ground.words(self.folder), *self.place_words(), "--box", ",".join(map(str, box))]
        words += [*(["--inner", self.inner] if self.inner else []), *self.spacing_words()]
        return run(drain, *words, "--products", self.folder, "--sinks", self.folder / "sinks.txt", "--report", self.report)


class TilePart(Part):
    """A window in the mosaic of a case's tiles, which its spacing and its products cover."""

    def __init__(self, case, folder, rows, cols):
        super().__init__(case, folder, ((0, case.ground.rows), *rows[1:]), ((0, case.ground.cols), *cols[1:]))

    def ground_of(self, case):
        return case.ground

    def place_words(self):
        return []


def run(drain, *words):
    ended = subprocess.run([drain, *words], stdout=subprocess.PIPE, stderr=subprocess.PIPE, timeout=120, check=False)
    return ended.returncode, ended.stdout.decode()


def merge(drain, case, parts):
    return run(drain, "merge", "--sinks", case.folder / "sinks.txt", *(part.report for part in parts))


def wrong_verdict(drain, case, parts):
    """What is wrong with the merges, None where nothing is; and the kind of their line."""
    leaves = []
    for part in parts:
        part.write()
        status, line = part.judge(drain)
        if status not in (0, 1):
            return f"window {part.at}: {line!r}", None
        leaves.append(Leaf(part.window_rows, part.window_cols, part.inner, part.report, line))
    line = expected(case)
    right = (int(line.startswith("rejected")), line + "\n")
    answer = merge(drain, case, parts)
    if answer != right:
        return f"{answer}, not {line!r}", kind_of(line)
    tree = Tree(random.Random(f"tree {case.folder.name}"), case.folder, lambda *words: run(drain, "merge", *words))
    reports = tree.last_reports(leaves)
    answer = run(drain, "merge", "--sinks", case.folder / "sinks.txt", *reports)
    return tree.wrong or (None if answer == right else f"a tree: {answer}, not {line!r}"), kind_of(line)


def wrong_spacing(drain, case, parts):
    """What is wrong with the refusal of a part with another spacing of one row, None where nothing is."""
    part = case.dice.choice(parts)
    row = case.dice.choice(list(part.listed())) - part.rows[0]
    kept, (width, height) = part.spacings, part.spacings[row]
    near = [(width + 1, height), (width, height + 1), (width - 1, height), (width, height - 1)]
    other_pair = case.dice.choice([pair for pair in near if min(pair) > 0 and max(pair) <= MOST_SIZE])
    part.spacings = [*kept[:row], other_pair, *kept[row + 1 :]]
    listed = [it.listed() for it in parts]
    differ = (
        later for later, pairs in enumerate(listed) if any(it.get(row, pair) != pair for it in listed[:later] for row, pair in pairs.items())
    )
    other = next(differ, None)
    if other is not None:
        part.write()
        status, line = part.judge(drain)
        answer, refused = merge(drain, case, parts), f"refused OtherSpacing {other}\n"
        part.spacings = kept
        part.write()
        if status not in (0, 1) or answer != (2, refused):
            return f"another spacing: {line!r}, {answer}, not {refused!r}"
        part.judge(drain)
    part.spacings = kept
    return None


def wrong_refusal(drain, case, parts):
    """What is wrong with the refusal of a part that says another place or other pixels, None where nothing is."""
    other = case.dice.randrange(len(parts))
    part = parts[other]
    # A width that isn't the others', by which the part lies elsewhere too if it doesn't begin in column 0.
    change = case.dice.choice(["at", "place", "size"])
    if change == "at":
        part.at[case.dice.randrange(2)] += 1
    elif change == "place":
        part.ground.place[case.dice.randrange(2)] += case.dice.choice([1, -1]) * (max(part.ground.place[2:]) // 50 + 2)
    else:
        part.ground.place[2 + case.dice.randrange(2)] *= 2
    part.write()
    status, line = part.judge(drain)
    if status not in (0, 1):
        return f"window {part.at}: {line!r}"
    answer = merge(drain, case, parts)
    refused = f"refused OtherGrid {max(other, 1)}\n"
    return None if answer == (2, refused) else f"{change} of report {other}: {answer}, not {refused!r}"


def wrong_windows(drain, case, part=Part):
    """What is wrong with the answers about random windows of a case that is written, None where nothing is, and the kind
    of the line."""
    dice, ground = case.dice, case.ground
    places = [(rows, cols) for rows in spans(dice, ground.rows) for cols in spans(dice, ground.cols)]
    parts = [part(case, case.folder / str(place), rows, cols) for place, (rows, cols) in enumerate(places)]
    wrong, kind = wrong_verdict(drain, case, parts)
    if not wrong and len(parts) > 1:
        wrong = wrong_spacing(drain, case, parts) or (None if part is TilePart else wrong_refusal(drain, case, parts))
    return wrong, kind


def judge(number, folder, drain):
    """What is wrong with the answers to a case, None where nothing is, and the kind of the line."""
    dice, is_of_tiles = random.Random(number), number >= CASES
    ground = (RandomTiles if is_of_tiles else RandomDem)(dice)
    if not is_of_tiles and any(place + size * 80 > GREATEST for place, size in zip(map(abs, ground.place), ground.place[2:])):
        ground.place[2:] = [10**15, 10**15 // 1200]
    spacing_dice = random.Random(f"spacing {number}")
    case = Case(dice, folder, ground, spacing_dice.choice([None, random_spacing(spacing_dice, ground.rows)]))
    [lambda _: None, Case.change, Case.change, Case.turn, Case.lower, rename_blank][number % 6](case)
    case.write()
    return wrong_windows(drain, case, TilePart if is_of_tiles else Part)


def main():
    drain = Path(sys.argv[1]).resolve()
    failed, kinds = 0, set()
    with tempfile.TemporaryDirectory() as scratch:
        for number in range(CASES + TILE_CASES):
            folder = Path(scratch) / str(number)
            folder.mkdir()
            wrong, kind = judge(number, folder, drain)
            kinds.add(kind)
            if wrong:
                failed += 1
                print(f"FAILED windows of random set {number}: {wrong}")
    for kind in ("accepted", *(f"rejected rule={rule}" for rule in (1, 2, 4, 5, 9, 10, 11, 12, 13, 14, 15))):
        if kind not in kinds:
            failed += 1
            print(f"FAILED windows of random sets: none is {kind}")
    print(f"windows of random elevations: {CASES + TILE_CASES - failed} passed, {failed} failed")
    return 1 if failed else 0


if __name__ == "__main__":
    sys.exit(main())
