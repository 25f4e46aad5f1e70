#!/usr/bin/env python3
"""Audits small random sets of tiles, or on one raster of elevations, whose cells aren't square: the same in each row, or of
another width and height in each; compares with audit.py and with the meaning of correct products (random_sets.py).

random_spacings.py [DRAIN]     without the program only the others are compared

Of each set the program also says the same on spacing 1,1 as without an option, byte for byte; refuses a wrong text where
audit.py does; finds as many faults in the raster turned over its diagonal, with width and height exchanged; and makes
products that are correct, which it accepts. Prints how many sets passed.
"""

import copy
import json
import random
import subprocess
import sys
from pathlib import Path

sys.dont_write_bytecode = True
from audit import LISTS, NO_DATA, STATUSES
from make_products import STEPS, Terrain, make
from plain_faults import Explained
from plain_inputs import MOST_SIZE, Header, spacings_of
from random_audits import RandomTiles
from random_dems import RandomDem, rename_blank
from random_sets import Case, Meaning, judge, judge_cases

# Sizes for which ways along a row, along a column and across a corner can be equally steep, and the greatest.
TIES = [(3, 4), (4, 3), (5, 12), (12, 5), (8, 15), (6, 8), (20, 21)]
ENDS = [(1, MOST_SIZE), (MOST_SIZE, 1), (MOST_SIZE, MOST_SIZE - 1), (MOST_SIZE, MOST_SIZE)]
# Where each code leads in a raster that is turned over its diagonal.
TURNED = {code: next(other for other, way in STEPS.items() if way == step[::-1]) for code, step in STEPS.items()}
LINES = [b"0 1", b"1 0", b"1073741825 1", b"1 1073741825", b"1", b"1 1 1", b"+1 1", b"1.5 1", b"1,1", b"x", b"1 -1"]


def random_sizes(dice):
    """A width and a height."""
    near = dice.randint(10**8, 10**9)
    others = [(1, 1), (1, 2), (2, 1), (7, 7), (dice.randint(1, 9), dice.randint(1, 9)), (near, near + 1), (near, 10**9)]
    return dice.choice([*TIES, *TIES, *ENDS, *others])


def text_of(dice, rows):
    """A line for each of these pairs, spelled at random."""
    lines = []
    for pair in rows:
        lines += [dice.choice([b"", b" \t", b"\r"])] * (dice.random() < 0.1)
        width, height = (dice.choice([b"%d", b"%d", b"0%d"]) % size for size in pair)
        lines.append(dice.choice([b"", b"", b" "]) + width + dice.choice([b" ", b"\t", b"  "]) + height + dice.choice([b"", b"", b" ", b"\r"]))
    return b"\n".join(lines) + dice.choice([b"\n", b"\n", b"", b"\n\n"])


def random_spacing(dice, rows):
    """A pair for all rows, or a text."""
    if dice.random() < 0.5:
        return random_sizes(dice)
    kinds = [random_sizes(dice) for _ in range(dice.choice([1, 2, 2, rows]))]
    return text_of(dice, [dice.choice(kinds) for _ in range(rows)])


def take_other_ways(case):
    """Takes the directions of another spacing, with their counts and labels: of squares, of width and height exchanged, or of
    each row's neighbour."""
    spacings = case.terrain.spacings
    exchanged = [(height, width) for width, height in spacings]
    other = case.dice.choice([None, exchanged, exchanged, spacings[1:] + spacings[:1], spacings[-1:] + spacings[:-1]])
    made = make(Terrain(case.ground.rows, case.ground.cols, case.z, case.sinks, other))
    for name in ("dir", "acc", "bas"):
        numbers = [case.nodata[name] if number is None else number for number in made[name]]
        if case.nodata[name] not in (number for number in made[name] if number is not None):
            case.products[name] = numbers


class Program:
    """The program, run on the files of a case."""

    def __init__(self, drain):
        self.drain = drain

    def run(self, *words):
        ended = subprocess.run([self.drain, *words], capture_output=True, timeout=120, check=False)
        return ended.returncode, ended.stdout, ended.stderr

    def judge(self, case, command, spacing_words):
        words = ["--products", case.folder, "--sinks", case.folder / "sinks.txt", *spacing_words, *case.ground.words(case.folder)]
        return self.run(*command, *words)

    def make(self, case, spacing_words, out):
        """What it prints and its status, and the bytes of the files."""
        out.mkdir()
        ended = self.run("make", "--out", out, "--sinks", case.folder / "sinks.txt", *spacing_words, *case.ground.words(case.folder))
        return ended, {path.name: path.read_bytes() for path in sorted(out.iterdir())}


def wrong_unit(case, program):
    """What differs between spacing 1,1 and no option, None where nothing does."""
    ones = case.dice.choice(["1,1", "1.0,1", "0.01,.01", "1000,1000.", "001,1"])
    words = [["--spacing", "1,1"]] if ones == "1000,1000." else [["--spacing", ones]]
    (case.folder / "ones.txt").write_bytes(text_of(case.dice, [(1, 1)] * case.ground.rows))
    words.append(["--widths", case.folder / "ones.txt"])
    map_ = ["--map", case.folder / "faults.bil"]
    commands = [["audit"], ["audit", "--only", case.dice.choice(LISTS[1:])], ["explain"], ["explain", "--json", *map_]]
    for command in commands:
        answers = [program.judge(case, command, option) for option in ([], words[0])]
        if answers[0] != answers[1]:
            return f"{command[:2]} on spacing {ones}: {answers[1]}, not {answers[0]}"
    audits = [program.judge(case, ["audit"], option) for option in ([], words[1])]
    made = [program.make(case, option, case.folder / f"made{place}") for place, option in enumerate(([], *words))]
    if audits[0] != audits[1]:
        return f"audit with widths of 1: {audits[1]}, not {audits[0]}"
    return None if made[0] == made[1] == made[2] else f"make on spacing {ones}: {made[1][0]} {made[2][0]}"


def wrong_text(case, program):
    """What is wrong with what the program says of a wrong text, and maybe of a wrong list of sinks, None where nothing is."""
    dice, other, rows = case.dice, copy.copy(case), case.ground.rows
    listed = rows + dice.choice([0, 0, 0, -1, 1, 3, -rows])
    lines = text_of(dice, [random_sizes(dice) for _ in range(listed)]).split(b"\n")
    if listed == rows or dice.random() < 0.3:
        lines.insert(dice.randrange(len(lines)), dice.choice(LINES))
    other.spacing = b"\n".join(lines)
    other.folder = case.folder / "text"
    other.folder.mkdir()
    if dice.random() < 0.2:
        other.sinks = [*case.sinks, (rows, 0)]
    other.write()
    line = other.line(list(NO_DATA))
    if not line.startswith("refused"):
        return f"{line!r} of a wrong text"
    if not program:
        return None
    wanted = STATUSES.index("refused"), f"{line}\n".encode(), b""
    answer = program.judge(other, ["audit"], other.spacing_words())
    made, files = program.make(other, other.spacing_words(), other.folder / "made")
    page = program.judge(other, ["explain"], other.spacing_words())
    if (answer, made, files) != (wanted, wanted, {}) or page[0] != 2 or page[1].split(b"\n")[0] != line.encode():
        return f"wrong text: {answer}, {made}, {page}, not {line!r}"
    return None


def turned_case(case):
    """The case turned over its diagonal."""
    rows, cols = case.ground.rows, case.ground.cols
    order = [row * cols + col for col in range(cols) for row in range(rows)]
    ground, turned = copy.copy(case.ground), copy.copy(case)
    ground.rows, ground.cols = cols, rows
    ground.numbers, ground.z = ([one[cell] for cell in order] for one in (ground.numbers, ground.z))
    ground.place = [*ground.place[:2], ground.place[3], ground.place[2]]
    turned.ground, turned.z, turned.folder = ground, ground.z, case.folder / "turned"
    turned.folder.mkdir()
    turned.products = {name: [case.products[name][cell] for cell in order] for name in NO_DATA}
    turned.products["dir"] = [TURNED.get(code, code) for code in turned.products["dir"]]
    turned.sinks, turned.spacing = [(col, row) for row, col in case.sinks], case.spacing[::-1]
    turned.terrain = Terrain(cols, rows, ground.z, turned.sinks, spacings_of(turned.spacing, cols))
    turned.write()
    return turned


def wrong_turned(case, program):
    """What differs between a case and the one that is turned, None where nothing does."""
    if isinstance(case.spacing, bytes) or not isinstance(case.ground, RandomDem):
        return None
    turned = turned_case(case)
    found = []
    for it in (case, turned):
        plain = Explained(None, it.terrain, it.folder, list(NO_DATA))
        found.append([plain.line.split(" ")[0], *({rule["name"]: rule["cells"] for rule in plain.by_rule}.items())])
        if program:
            status, text, error = program.judge(it, ["explain", "--json"], it.spacing_words())
            found.append([STATUSES[status], *({rule["name"]: rule["cells"] for rule in json.loads(text)["rules"]}.items())])
    return None if all(it == found[0] for it in found) else f"turned: {found}"


def wrong_made(case, program):
    """What is wrong with the products that the program makes, None where nothing is."""
    out = case.folder / "made"
    (status, line, error), files = program.make(case, case.spacing_words(), out)
    if (status, line, error) != (0, f"made rows={case.ground.rows} cols={case.ground.cols}\n".encode(), b""):
        return f"make: {status} {line} {error}"
    headers = {name: Header(files[f"{name}.hdr"]) for name in (*NO_DATA, "rnk")}
    made, plain = {name: header.pixels(files[f"{name}.bil"]) for name, header in headers.items()}, make(case.terrain)
    if not Meaning(case.terrain, made).is_correct():
        return "make: the products are not correct"
    for cell in case.terrain.data_cells():
        is_lower = any(plain["con"][other] < plain["con"][cell] for _, other in case.terrain.data_neighbors(cell))
        if made["con"][cell] != plain["con"][cell] or (is_lower and made["dir"][cell] != plain["dir"][cell]):
            return f"make: {made['con'][cell]} and {made['dir'][cell]} at cell {cell}, not {plain['con'][cell]} and {plain['dir'][cell]}"
    words = ["--products", out, "--sinks", case.folder / "sinks.txt", *case.spacing_words(), *case.ground.words(case.folder)]
    answers = [program.run(command, *words) for command in ("audit", "check")]
    if any(answer[0] != 0 or not answer[1].startswith(b"accepted ") for answer in answers):
        return f"make: {answers} of what was made"
    return None


CHANGES = [lambda _: None, *[Case.change] * 4, Case.turn, Case.lower, take_other_ways, take_other_ways, rename_blank]


def main():
    drain = Path(sys.argv[1]).resolve() if sys.argv[1:] else None
    program = Program(drain) if drain else None

    def judge_case(number, folder):
        dice = random.Random(number)
        ground = dice.choice([RandomTiles, RandomDem])(dice)
        case, place = Case(dice, folder, ground, random_spacing(dice, ground.rows)), number % len(CHANGES)
        wrong, kinds = judge(case, lambda: CHANGES[place](case), place == 0, drain)
        others = [wrong_text(case, program), wrong_turned(case, program)]
        others += [wrong_unit(case, program), wrong_made(case, program)] if program else []
        return [*wrong, *(it for it in others if it)], kinds

    passed, failed = judge_cases(judge_case)
    print(f"random spacings: {passed} passed, {failed} failed")
    return 1 if failed else 0


if __name__ == "__main__":
    sys.exit(main())
