#!/usr/bin/env python3
"""Explains sets of other tools, real terrain and small random sets, also of floats, whole and by each list of rasters,
and compares each page, object and map with plain ones.

explain.py DRAIN     prints how many explanations passed

plain_page.py writes the pages and objects. The line and status are those of `drain check` or `drain audit`.
"""

import json
import random
import shutil
import subprocess
import sys
import tempfile
from itertools import zip_longest
from pathlib import Path

sys.dont_write_bytecode = True
from audit import LISTS, DemFile, TileFiles
from make_products import PRODUCTS, header_at
from plain_faults import ALL_NO_DATA, Explained, ground_of
from plain_page import ON_RASTER, PARTS, Page
from random_audits import RandomTiles
from random_dems import RandomDem
from random_floats import ALL_CHANGES, case_of, take_next_way
from random_sets import Case
from random_spacings import random_spacing
from worked_sets import WORKED

SAMPLES = Path(__file__).resolve().parents[2] / "samples"
RANDOM_SETS = 240
FLOAT_SETS = 300
CHANGED_SETS = 12
MEMBERS = ["answer", "refusal", "rows", "cols", "elevation", "slopes", "ranks", "rules", "products", "patch", "expected", "run"] + PARTS


class Wrong(Exception):
    """What is wrong with an explanation."""


def same(what, told, wanted):
    if told != wanted:
        raise Wrong(f"{what}: {told!r}, not {wanted!r}")


class Explanation:
    """What the program reports of a set, next to what is expected."""

    def __init__(self, drain, words, plain, scratch):
        self.drain, self.words, self.plain = drain, words, plain
        self.map = scratch / "faults.bil"

    def output(self, command, *more):
        ended = subprocess.run([self.drain, command, *self.words, *more], stdout=subprocess.PIPE, stderr=subprocess.PIPE, timeout=120, check=False)
        same("standard error", ended.stderr, b"")
        return ended.returncode, ended.stdout.decode("ascii")

    def compare(self):
        status, text = self.output("explain")
        line = text.split("\n")[0]
        same("the status", status, self.plain.status())
        same("check or audit", self.output("check" if self.plain.ranks else "audit"), (status, line + "\n"))
        status, object_text = self.output("explain", "--json", "--map", self.map)
        same("the status with JSON", status, self.plain.status())
        page = json.loads(object_text)
        wanted = Page(self.plain, self.ring_start(page), self.shares(page))
        missing = [] if wanted.words == ON_RASTER else ["elevation"]
        missing += [] if wanted.slopes_object() else ["slopes"]
        same("the members", list(page), [it for it in MEMBERS if it not in missing])
        for member, value in wanted.as_object().items():
            same(f"{member} in JSON", page[member], value)
        for told, line in zip_longest(text.split("\n"), wanted.as_text().split("\n")):
            same("a line of the page", told, line)
        same("the map", self.map.read_bytes(), bytes(self.plain.map))
        same("the header of the map", self.map.with_suffix(".hdr").read_text(), header_at(self.plain.terrain.rows, self.plain.terrain.cols, self.plain.ground.place, 8, False, 255))

    def ring_start(self, page):
        """The cell that the program takes for the first of a ring, which is its choice."""
        ring = page["run"] and page["run"]["ring"]
        return ring["cells"][0] if ring else None

    def shares(self, page):
        """By which shares the program says that ways between floats are less steep, by code."""
        ways = page["expected"]["ways"] if page["expected"] else []
        return {way["code"]: way.get("less_steep") for way in ways}


def case_over(ground_of):
    """The random cases over such grounds with any spacing or none, by number and folder."""

    def case_of(number, folder):
        dice, other_dice = random.Random(number), random.Random(f"spacing {number}")
        ground = ground_of(dice)
        return Case(dice, folder, ground, other_dice.choice([None, random_spacing(other_dice, ground.rows)]))

    return case_of


class Sets:
    def __init__(self, drain, scratch):
        self.drain, self.scratch = drain, scratch
        self.passed, self.failed = 0, 0

    def judge_tiles(self, name, side, folder, sinks, tiles, ranks):
        self.judge(name, TileFiles(side, tiles), ["--side", side, *tiles], folder, sinks, ranks)

    def judge(self, name, files, elevations, folder, sinks, ranks, spacing=None):
        """Compares the explanation of all rasters, with ranks or not, and that of each list. The elevations are words of the
        command line, with an option for the spacing, and files."""
        words = [*map(str, elevations), "--products", str(folder), *(["--sinks", str(sinks)] if sinks else [])]
        ground, terrain = ground_of(files, sinks, spacing)
        whole = [name for name in ALL_NO_DATA if ranks or name != "rnk"]
        for given, only in [(whole, []), *((list_.split(","), ["--only", list_]) for list_ in LISTS)]:
            try:
                Explanation(self.drain, [*only, *words], Explained(ground, terrain, folder, given, spacing), self.scratch).compare()
                self.passed += 1
            except Wrong as wrong:
                self.failed += 1
                print(f"FAILED {' '.join([name, *only])}: {wrong}")

    def samples(self):
        for folder in sorted((SAMPLES / "other-tools").iterdir()):
            if folder.is_dir():
                self.judge_tiles(f"other tools, {folder.name}", 51, folder, None, [SAMPLES / "other-tools/N36W085.hgt"], ranks=False)
        self.judge_tiles("pit-3", 3, SAMPLES / "pit-3", None, [SAMPLES / "pit-3/N00E000.hgt"], ranks=True)
        self.judge_tiles("jacksboro", 121, SAMPLES / "jacksboro", None, [SAMPLES / "jacksboro/N36W085.hgt"], ranks=True)

    def changed(self):
        """Real terrain with many numbers of one product changed."""
        for number in range(CHANGED_SETS):
            dice = random.Random(number)
            folder = self.scratch / "changed"
            shutil.rmtree(folder, ignore_errors=True)
            shutil.copytree(SAMPLES / "jacksboro", folder)
            name, bits = dice.choice([(name, bits) for name, bits, *_ in PRODUCTS])
            path = folder / f"{name}.bil"
            path.chmod(0o644)
            pixels = bytearray(path.read_bytes())
            for _ in range(dice.choice([1, 20, 2000])):
                pixels[bits // 8 * dice.randrange(121 * 121)] = dice.choice([0, 1, 4, 16, 64, 255])
            path.write_bytes(pixels)
            ranks = dice.random() < 0.5
            if not ranks:
                (folder / "rnk.hdr").unlink()
                (folder / "rnk.bil").unlink()
            self.judge_tiles(f"changed terrain {number}", 121, folder, None, [folder / "N36W085.hgt"], ranks)

    def worked(self):
        """Drawn sets, with ranks and without."""
        for number, it in enumerate(WORKED):
            for ranks in (True, False):
                folder = self.scratch / f"worked{number}{ranks}"
                tiles = it.write(folder, ranks)
                self.judge_tiles(f"{it.name}, ranks {ranks}", it.side, folder, folder / "sinks.txt", tiles, ranks)

    def valley(self):
        """Sets of one raster of elevations."""
        valley = SAMPLES / "valley"
        for folder in sorted(it for it in valley.iterdir() if it.is_dir()):
            dem = valley / "dem.bil"
            ranks = (folder / "rnk.bil").exists()
            self.judge(f"valley, {folder.name}", DemFile(dem), ["--dem", dem], folder, valley / "sinks.txt", ranks)

    def random(self, name, sets, case_of, changes):
        """So many small sets of a kind, most of them after some of these changes."""
        for number in range(sets):
            folder = self.scratch / f"{name}{number}"
            folder.mkdir()
            case = case_of(number, folder)
            for _ in range(case.dice.choice([0, 1, 1, 3, 10])):
                case.dice.choice(changes)(case)
            case.write()
            ranks = number % 2 == 0
            if ranks:
                self.write_ranks(case)
            words = [*case.spacing_words(), *case.ground.words(folder)]
            files, sinks = case.ground.files(folder), folder / "sinks.txt"
            self.judge(f"random {name} {number}", files, words, folder, sinks, ranks, case.spacing)
            shutil.rmtree(folder)

    def write_ranks(self, case):
        """Ranks of the right products, some of them changed."""
        numbers = [4294967295 if rank is None else rank for rank in case.products["rnk"]]
        for _ in range(case.dice.choice([0, 0, 1, 5])):
            numbers[case.dice.randrange(len(numbers))] = case.dice.choice([0, 1, 7, 4294967295])
        header, body = case.ground.raster("rnk", 4294967295, numbers)
        (case.folder / "rnk.hdr").write_text(header)
        (case.folder / "rnk.bil").write_bytes(body)


def main():
    if len(sys.argv) != 2:
        sys.exit(__doc__)
    with tempfile.TemporaryDirectory() as scratch:
        sets = Sets(Path(sys.argv[1]).resolve(), Path(scratch))
        sets.samples()
        sets.changed()
        sets.worked()
        sets.valley()
        changes = [Case.change, Case.change, Case.turn]
        sets.random("tiles", RANDOM_SETS, case_over(RandomTiles), changes)
        sets.random("elevations", RANDOM_SETS, case_over(RandomDem), changes)
        # Half of the changes take ways that may be hardly less steep.
        sets.random("floats", FLOAT_SETS, case_of, [*ALL_CHANGES, *[take_next_way] * len(ALL_CHANGES)])
    print(f"explanations: {sets.passed} passed, {sets.failed} failed")
    return 1 if sets.failed else 0


if __name__ == "__main__":
    sys.exit(main())
