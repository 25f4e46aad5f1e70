"""Random sets of rasters over a ground, and what is right to say of them.

What products mean is judged here by paths, runs and sets (docs/DEFINITIONS.md), and by no rule. Some rasters are right if they
are part of a correct set.

A ground, as RandomTiles and RandomDem, has rows, cols, z (None at voids) and lowest, the least number that a change of a
raster lowers another to; it says which numbers pixels of a product can have (can_spell), chooses no-data numbers
(no_data_of), writes itself (write) and spells rasters (raster), names its files to the program (words) and to the others
(files).
"""

import random
import struct
import subprocess
import sys
import tempfile
from pathlib import Path

sys.dont_write_bytecode = True
from audit import LISTS, NO_DATA, STATUSES, audit
from derive import BLANK, derive
from make_products import STEPS, Terrain, make
from plain_inputs import spacings_of

CASES = 600


def least_surface(terrain):
    """The spill level of each cell: lowered along neighbours until nothing changes."""
    level = [terrain.z[cell] if terrain.is_open(cell) else None for cell in range(len(terrain.z))]
    changed = True
    while changed:
        changed = False
        for cell in terrain.data_cells():
            for _, other in terrain.data_neighbors(cell):
                if level[other] is not None:
                    lowest = max(terrain.z[cell], level[other])
                    if level[cell] is None or lowest < level[cell]:
                        level[cell], changed = lowest, True
    return level


class Meaning:
    """Products without no-data numbers at data cells and with them at voids, and what they mean."""

    def __init__(self, terrain, products):
        self.terrain, self.cells = terrain, terrain.data_cells()
        self.con, self.dir, self.acc, self.bas = (products[name] for name in NO_DATA)

    def way(self, cell):
        """The data neighbour that the code leads to, None where it leads nowhere."""
        return dict(self.terrain.data_neighbors(cell)).get(self.dir[cell])

    def run(self, cell):
        """The cells of a run, None where it has no end."""
        run = [cell]
        while self.dir[run[-1]] != 0:
            run.append(self.way(run[-1]))
            if run[-1] is None or len(run) > len(self.cells):
                return None
        return run

    def square_between(self, cell, other):
        """The square of the distance between the middles of two cells, with the sizes of the first one's row."""
        (width, height), cols = self.terrain.spacings[cell // self.terrain.cols], self.terrain.cols
        return (cell % cols - other % cols) ** 2 * width**2 + (cell // cols - other // cols) ** 2 * height**2

    def is_right_way(self, cell):
        """A lower cell to which no other's slope is greater; where nothing is lower 0 at an open cell, and else along the flat."""
        drops = {other: self.con[cell] - self.con[other] for _, other in self.terrain.data_neighbors(cell)}
        way, lower = self.way(cell), [other for other, drop in drops.items() if drop > 0]
        if lower:
            squares = {other: self.square_between(cell, other) for other in lower}
            return way in lower and all(drops[way] ** 2 * squares[other] >= drops[other] ** 2 * squares[way] for other in lower)
        if self.terrain.is_open(cell):
            return self.dir[cell] == 0
        return drops.get(way) == 0

    def is_correct(self):
        levels = least_surface(self.terrain)
        runs = {cell: self.run(cell) for cell in self.cells}
        if None in runs.values() or any(self.con[cell] != levels[cell] or not self.is_right_way(cell) for cell in self.cells):
            return False
        through = [cell for run in runs.values() for cell in run]
        if any(self.acc[cell] != through.count(cell) for cell in self.cells):
            return False
        pairs = {(self.bas[cell], run[-1]) for cell, run in runs.items()}
        return len(pairs) == len({label for label, _ in pairs}) == len({outlet for _, outlet in pairs})


class Case:
    """A ground, a list of sinks and four rasters, written into a folder. A spacing is None, a pair, or a text by row."""

    def __init__(self, dice, folder, ground, spacing=None):
        self.dice, self.folder, self.ground, self.z, self.spacing = dice, folder, ground, ground.z, spacing
        data = [cell for cell, height in enumerate(self.z) if height is not None]
        listed = dice.sample(data, min(len(data), dice.choice([0, 0, 1, 3])))
        self.sinks = [(cell // ground.cols, cell % ground.cols) for cell in listed]
        self.terrain = Terrain(ground.rows, ground.cols, self.z, self.sinks, spacings_of(spacing, ground.rows))
        self.products = make(self.terrain)
        self.nodata = ground.no_data_of(self.products)
        for name, blank in self.nodata.items():
            self.products[name] = [blank if number is None else number for number in self.products[name]]

    def change(self):
        """Changes one number of a product, as one near it, one of another cell, or any."""
        name = self.dice.choice(list(NO_DATA))
        numbers = self.products[name]
        cell = self.dice.randrange(len(numbers))
        near = [numbers[cell] + 1, max(numbers[cell] - 1, self.ground.lowest)]
        number = self.dice.choice([*near, self.dice.choice(numbers), self.dice.choice([0, 3, *STEPS])])
        if self.ground.can_spell(name, [*numbers, number]):
            numbers[cell] = number

    def turn(self):
        """Turns one direction: rings and needless ways come of it."""
        self.put_code(self.dice.randrange(len(self.z)), self.dice.choice([0, *STEPS]))

    def put_code(self, cell, code):
        """Puts one direction, and counts acc and bas anew where runs still end."""
        self.products["dir"][cell] = code
        meaning = Meaning(self.terrain, self.products)
        runs = [meaning.run(start) for start in meaning.cells]
        if self.z[cell] is not None and None not in runs:
            through = [passed for run in runs for passed in run]
            for run in runs:
                self.products["acc"][run[0]], self.products["bas"][run[0]] = through.count(run[0]), run[-1] + 1000

    def lower(self):
        """Takes depressions as they are, as if nothing was filled: every rule about con alone still holds."""
        self.products["con"] = [self.nodata["con"] if ground is None else ground for ground in self.z]

    def write(self):
        self.ground.write(self.folder)
        (self.folder / "sinks.txt").write_text("".join(f"{row} {col}\n" for row, col in self.sinks))
        for name in NO_DATA:
            header, body = self.ground.raster(name, self.nodata[name], self.products[name])
            (self.folder / f"{name}.hdr").write_text(header)
            (self.folder / f"{name}.bil").write_bytes(body)
        if isinstance(self.spacing, bytes):
            (self.folder / "widths.txt").write_bytes(self.spacing)

    def line(self, given, products=None):
        """The line by audit.py, of these products or of those in another folder."""
        spacing = self.folder / "widths.txt" if isinstance(self.spacing, bytes) else self.spacing
        return audit(self.ground.files(self.folder), products or self.folder, self.folder / "sinks.txt", given, spacing)

    def spacing_words(self):
        """The option that gives the spacing, if there is one."""
        if self.spacing is None:
            return []
        return ["--widths", self.folder / "widths.txt"] if isinstance(self.spacing, bytes) else ["--spacing", "{},{}".format(*self.spacing)]

    def is_part_of_correct(self, given):
        """Whether values of the other products exist that make a correct set with these. If there are any, then those that
        are made of the tiles are such values of dir, and counts and labels by runs are of acc and bas."""
        blanks = {cell: [self.products[name][cell] == self.nodata[name] for name in given] for cell in range(len(self.z))}
        if not all(all(blank) if self.z[cell] is None else not any(blank) for cell, blank in blanks.items()):
            return False
        joined = dict(self.products)
        if "dir" not in given:
            joined |= {name: numbers for name, numbers in make(self.terrain).items() if name in ("dir", "acc", "bas")}
            return Meaning(self.terrain, joined).is_correct()
        counted = self.counted()
        if counted is None:
            return False
        return Meaning(self.terrain, joined | {name: counted[name] for name in ("acc", "bas") if name not in given}).is_correct()

    def counted(self):
        """Counts and labels by the runs of the directions, None where one has no end."""
        meaning = Meaning(self.terrain, self.products)
        runs = {cell: meaning.run(cell) for cell in meaning.cells}
        if None in runs.values():
            return None
        through = [passed for run in runs.values() for passed in run]
        return {"acc": {cell: through.count(cell) for cell in runs}, "bas": {cell: run[-1] for cell, run in runs.items()}}

    def answer(self, drain, *words):
        """What the program ends with and prints. What follows from directions has no spacing."""
        spacing = [] if words[0] == "derive" else self.spacing_words()
        command = [drain, *words, "--products", self.folder, "--sinks", self.folder / "sinks.txt", *spacing, *self.ground.words(self.folder)]
        ended = subprocess.run(command, stdout=subprocess.PIPE, stderr=subprocess.PIPE, timeout=120, check=False)
        return ended.returncode, ended.stdout.decode()


def case_over(ground_of):
    """The random cases over such grounds, by number and folder."""

    def case_of(number, folder):
        dice = random.Random(number)
        return Case(dice, folder, ground_of(dice))

    return case_of


def kind_of(line):
    return " ".join(line.split(" ")[:2]) if line.startswith("rejected") else line.split(" ")[0]


def judge_list(case, list_, drain, is_right):
    """What is wrong with the answers about these products, None where nothing is, and the kind of their line."""
    given = list_.split(",")
    line = case.line(given)
    kind, is_part = kind_of(line), case.is_part_of_correct(given)
    if (kind == "accepted") != is_part:
        return f"{list_}: {line!r}, and the products are {'' if is_part else 'not '}part of a correct set", kind
    if is_right and kind != "accepted":
        return f"{list_}: {line!r} of right products", kind
    words = [["audit", "--only", list_]]
    if list_ == LISTS[-1]:
        words.append(["audit"])
    for command in words if drain else []:
        answer = case.answer(drain, *command)
        if answer != (STATUSES.index(kind.split(" ")[0]), line + "\n"):
            return f"{list_}: {answer}, not {line!r}", kind
    return None, kind


def judge(case, change, is_right, drain):
    """What is wrong with the answers to a case after a change, and the kinds of lines by list."""
    change()
    case.write()
    wrong, kinds = [], {}
    for list_ in LISTS:
        fault, kinds[list_] = judge_list(case, list_, drain, is_right)
        wrong.append(fault)
    return [fault for fault in wrong if fault], kinds


# The kinds of lines that random sets have, by list.
ABOUT_CON = ["accepted", *(f"rejected rule={rule}" for rule in (1, 2, 4, 5, 9))]
ABOUT_DIR = [*ABOUT_CON, "rejected NoEnd", *(f"rejected rule={rule}" for rule in (10, 11, 12))]
KINDS = {
    "con": [*ABOUT_CON, "rejected NotFilled"],
    "con,dir": ABOUT_DIR,
    "con,dir,acc": [*ABOUT_DIR, "rejected rule=13"],
    "con,dir,bas": [*ABOUT_DIR, "rejected rule=14", "rejected rule=15"],
    "con,dir,acc,bas": [*ABOUT_DIR, *(f"rejected rule={rule}" for rule in (13, 14, 15))],
}


def wrong_derivation(case, drain):
    """What is wrong with the rasters that derive.py and the program derive of the directions, None where nothing is."""
    other, out = case.folder / "other", case.folder / "out"
    line = derive(case.ground.files(case.folder), case.folder, case.folder / "sinks.txt", other)
    counted = case.counted()
    if line.startswith("derived") != (counted is not None):
        return f"{line!r}, and runs {'have' if counted else 'have no'} ends"
    if counted and (wrong := wrong_counts(case, other, counted)):
        return wrong
    out.mkdir()
    if drain and case.answer(drain, "derive", "--out", out) != (int(counted is None), line + "\n"):
        return f"{case.answer(drain, 'derive', '--out', out)}, not {line!r}"
    files = [f"{name}.{part}" for name in BLANK for part in ("hdr", "bil")] if drain and counted else []
    if drain and sorted(path.name for path in out.iterdir()) != sorted(files):
        return "other derived files"
    return next((f"{file} derived otherwise" for file in files if (out / file).read_bytes() != (other / file).read_bytes()), None)


def wrong_counts(case, folder, counted):
    """What is wrong with the numbers of derive.py."""
    numbers = {name: struct.unpack(f"<{len(case.z)}I", (folder / f"{name}.bil").read_bytes()) for name in BLANK}
    outlets = sorted(set(counted["bas"].values()))
    for cell, ground in enumerate(case.z):
        expected = (0, 0) if ground is None else (counted["acc"][cell], outlets.index(counted["bas"][cell]) + 1)
        if (numbers["acc"][cell], numbers["bas"][cell]) != expected:
            return f"derive.py has other numbers at cell {cell}"
    return None


def given_program():
    """The path of the program, None if it isn't named."""
    return Path(sys.argv[1]).resolve() if sys.argv[1:] else None


# Functions of a case; the first leaves it right.
CHANGES = [lambda _: None, Case.change, Case.change, Case.turn, Case.lower]


def judge_random(drain, name, case_of, changes, more=(), cases=CASES):
    """Judges random cases, which number and folder make, after one of the changes each, by the program if there is one;
    prints how many are right, and returns the status. Further judgements say what is wrong with a case and the program's
    answers."""

    def judge_case(number, folder):
        case, place = case_of(number, folder), number % len(changes)
        wrong, kinds = judge(case, lambda: changes[place](case), place == 0, drain)
        others = [wrong_of(case, drain) for wrong_of in (wrong_derivation, *more)]
        return [*wrong, *(it for it in others if it)], kinds

    passed, failed = judge_cases(judge_case, cases)
    print(f"random {name}: {passed} passed, {failed} failed")
    return 1 if failed else 0


def judge_cases(judge_case, cases=CASES):
    """Judges the cases by a function of number and folder, and prints what is wrong: how many are right, and wrong."""
    passed, failed = 0, 0
    found = {list_: set() for list_ in LISTS}
    with tempfile.TemporaryDirectory() as scratch:
        for number in range(cases):
            folder = Path(scratch) / str(number)
            folder.mkdir()
            wrong, kinds = judge_case(number, folder)
            for list_, kind in kinds.items():
                found[list_].add(kind)
            passed, failed = passed + (not wrong), failed + bool(wrong)
            for fault in wrong:
                print(f"FAILED random set {number}: {fault}")
    for list_ in LISTS:
        for kind in KINDS[list_]:
            if kind not in found[list_]:
                failed += 1
                print(f"FAILED random sets: none is {kind}, of {list_}")
    return passed, failed
