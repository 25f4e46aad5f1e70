#!/usr/bin/env python3
"""Audits small random sets of one raster of elevations, right ones and ones with one number changed, whole and by each list of
rasters, checks them by ranks, derives rasters of their directions, and makes products of the elevations; compares with audit.py,
derive.py, the rules and the meaning of correct products (random_sets.py).

random_dems.py [DRAIN]     without the program only the others are compared

Prints how many sets passed.
"""

import struct
import subprocess
import sys

sys.dont_write_bytecode = True
from audit import NO_DATA, STATUSES, DemFile
from dem_sets import KINDS, LINES_ON_PIXELS, UNSPELLED, ends_of
from make_products import PRODUCTS, fixed, header_at, verdict
from plain_faults import ALL_NO_DATA, CheckRules
from plain_inputs import Header, pattern_of
from random_sets import CHANGES, Meaning, case_over, given_program, judge_random

# Widths and heights of pixels, in units of 10^-15.
PIXEL_SIZES = [30 * 10**15, 10**15 // 1200, 1, 25_500_000_000_000_000, 10**24]
# What a header without the line has.
DEFAULT_LINES = {
    "B": ["NBITS 8", "PIXELTYPE UNSIGNEDINT"],
    "h": ["PIXELTYPE SIGNEDINT"],
    "I": ["PIXELTYPE UNSIGNEDINT"],
}


def spells(kind, numbers):
    """Whether pixels of this kind can have these numbers."""
    least, most = ends_of(kind)
    return all(least <= number <= most for number in numbers)


class RandomDem:
    """One raster of elevations. Where it has no no-data number, con that is made of it has `unsaid`."""

    lowest, unsaid = -(2**31), UNSPELLED

    def __init__(self, dice):
        self.dice = dice
        self.rows, self.cols = dice.randint(1, 7), dice.randint(1, 9)
        if dice.random() < 0.1:
            # The program tries many cells of a wide row at a time.
            self.cols = dice.randint(30, 70)
        self.kind = dice.choice(list(KINDS))
        numbers = self.random_numbers()
        self.nodata = self.random_no_data(numbers)
        share = dice.choice([0, 0.1, 0.3]) if self.nodata is not None and spells(self.kind, [self.nodata]) else 0
        self.numbers = [self.nodata if dice.random() < share else number for number in numbers]
        self.z = [None if number == self.nodata else number for number in self.numbers]
        self.place = [dice.randint(-(10**21), 10**21), dice.randint(-(10**21), 10**21), *(dice.choice(PIXEL_SIZES) for _ in range(2))]
        self.header_ending, self.ending = dice.choice([(".hdr", ".bil"), (".hdr", ".bil"), (".HDR", ".BIL")])

    def random_numbers(self):
        """Numbers behind one or two others, which are often the least or nearly the greatest of a pixel, or near -32768."""
        least, most = ends_of(self.kind)
        spread = min(self.dice.choice([1, 3, 3, 9, 9, 70_000, most - least]), most - least)
        last = most - spread
        starts = [least, last, self.dice.randint(least, last), *(it for it in (-32770, -32768, -2, 0) if least <= it <= last)]
        chosen = [self.dice.choice(starts) for _ in range(self.dice.choice([1, 1, 2]))]
        return [self.dice.choice(chosen) + self.dice.randint(0, spread) for _ in range(self.rows * self.cols)]

    def random_no_data(self, numbers):
        """No number, one that no pixel spells, one of these, an end of a pixel's, or a usual one."""
        least, most = ends_of(self.kind)
        unspelled = self.dice.choice([least - 1, most + 1, UNSPELLED, -(2**31) - 1])
        return self.dice.choice([None, None, unspelled, self.dice.choice(numbers), least, most, -9999, -32768, 0])

    def can_spell(self, _, numbers):
        return any(spells(kind, numbers) for kind in KINDS)

    def blanks_of(self, _):
        """No-data numbers that a product may share with the elevations."""
        return [] if self.nodata is None else [self.nodata]

    def no_data_of(self, products):
        """A no-data number for each product that none of its cells has and, if there are voids, pixels can have beside them."""
        chosen = {}
        for name, default in NO_DATA.items():
            numbers = [number for number in products[name] if number is not None]
            others = [default, default, 7, 99, -1, UNSPELLED, *self.blanks_of(name)]
            has_voids = None in self.z
            fitting = [
                it for it in others if it not in numbers and (not has_voids or self.can_spell(name, [*numbers, it]))
            ]
            chosen[name] = self.dice.choice(fitting)
        return chosen

    def near_place(self):
        """A place that a product may have: as far away as allowed, less, or not."""
        _, _, xdim, ydim = self.place
        most = [xdim // 100, ydim // 100, xdim // (100 * self.cols), ydim // (100 * self.rows)]
        return [it + self.dice.choice([0, far, -far, self.dice.randint(-far, far)]) for it, far in zip(self.place, most)]

    def word_of(self, _, nodata):
        """A no-data number as a header has it."""
        return nodata

    def packed(self, order, kind, numbers):
        """The bytes of pixels, in an order for struct."""
        return struct.pack(f"{order}{len(numbers)}{kind}", *numbers)

    def spelled(self, kind, place, nodata, numbers):
        """A header and the bytes of a raster, with bytes that don't matter before, between and behind the pixels."""
        order, size = self.dice.choice("IM"), struct.calcsize(kind)
        skip, more = self.dice.choice([0, 0, 1, 5]), self.dice.choice([0, 0, 2, 3])
        stride = self.dice.choice(["TOTALROWBYTES", "BANDROWBYTES"])
        lines = [f"NROWS {self.rows}", f"NCOLS {self.cols}", *LINES_ON_PIXELS[kind].splitlines(), f"BYTEORDER {order}"]
        lines += [f"SKIPBYTES {skip}", f"{stride} {self.cols * size + more}"]
        lines += [f"{key} {fixed(units)}" for key, units in zip(("ULXMAP", "ULYMAP", "XDIM", "YDIM"), place)]
        lines += [] if nodata is None else [f"NODATA {self.word_of(kind, nodata)}"]
        needless = ["BYTEORDER I", "SKIPBYTES 0", *DEFAULT_LINES.get(kind, [])]
        lines = [line for line in lines if line not in needless or self.dice.random() < 0.5]
        self.dice.shuffle(lines)
        body = self.dice.randbytes(skip)
        for row in range(self.rows):
            pixels = numbers[row * self.cols : (row + 1) * self.cols]
            body += self.packed("<" if order == "I" else ">", kind, pixels) + self.dice.randbytes(more)
        return "".join(f"{line}\n" for line in lines), self.dice.choice([body, body[: len(body) - more], body + b"\x01\x00"])

    def raster(self, name, nodata, numbers):
        """The header and the bytes of a product. A default no-data number may be left out."""
        kind = self.dice.choice([kind for kind in KINDS if spells(kind, numbers)])
        is_told = nodata != ALL_NO_DATA[name] or self.dice.random() < 0.5
        return self.spelled(kind, self.near_place(), nodata if is_told else None, numbers)

    def path(self, folder):
        return folder / f"dem{self.ending}"

    def write(self, folder):
        header, body = self.spelled(self.kind, self.place, self.nodata, self.numbers)
        (folder / f"dem{self.header_ending}").write_text(header)
        self.path(folder).write_bytes(body)

    def files(self, folder):
        return DemFile(self.path(folder))

    def words(self, folder):
        return ["--dem", self.path(folder)]


def rename_blank(case):
    """Gives a product another no-data number, without a change of a pixel: the default, one that it has, or another."""
    name = case.dice.choice(list(NO_DATA))
    case.nodata[name] = case.dice.choice([NO_DATA[name], case.dice.choice(case.products[name]), UNSPELLED, 5])


def wrong_check(case, drain):
    """What is wrong with the line of a check by the right ranks or by ones of which one is changed, None where nothing is."""
    if not drain:
        return None
    blank = ALL_NO_DATA["rnk"]
    ranks = [blank if rank is None else rank for rank in case.products["rnk"]]
    if case.dice.random() < 0.3:
        ranks[case.dice.randrange(len(ranks))] = case.dice.choice([0, 1, 7, blank])
    line = verdict(CheckRules(case.terrain, {**case.products, "rnk": ranks}, {**case.nodata, "rnk": blank}))
    header, body = case.ground.raster("rnk", blank, ranks)
    (case.folder / "rnk.hdr").write_text(header)
    (case.folder / "rnk.bil").write_bytes(body)
    answer = case.answer(drain, "check")
    is_same = answer == (STATUSES.index(line.split(" ")[0]), line + "\n")
    return None if is_same else f"by ranks: {answer}, not {line!r}"


def made_products(ground, out):
    """The products in a folder and their no-data numbers, and what is wrong with the files: con has the pixels and the
    no-data number of the elevations, and every header their place."""
    con_blank = ground.unsaid if ground.nodata is None else ground.nodata
    kinds = {name: (form, nodata) for name, _, _, form, nodata in PRODUCTS} | {"con": (ground.kind, con_blank)}
    products, wrong = {}, sorted(path.name for path in out.iterdir()) != sorted(f"{name}.{end}" for name in kinds for end in ("hdr", "bil"))
    for name, (form, nodata) in kinds.items():
        size, has_floats = struct.calcsize(form), form == "f"
        told, body = (out / f"{name}.hdr").read_text(), (out / f"{name}.bil").read_bytes()
        # Of floats any word will do that reads as the number.
        word = told.split()[-1] if has_floats else nodata
        signed = None if has_floats else form.islower()
        wanted = header_at(ground.rows, ground.cols, ground.place, 8 * size, signed, word)
        header = Header(told.encode(), has_floats)
        if wrong or (told, header.nodata) != (wanted, nodata) or len(body) != size * len(ground.z):
            return None, None, f"other files of {name}"
        products[name] = header.pixels(body)
        if has_floats and body != struct.pack(f"<{len(ground.z)}I", *map(pattern_of, products[name])):
            return None, None, f"other patterns of {name}"
    return products, {name: nodata for name, (_, nodata) in kinds.items()}, None


def wrong_make(case, drain):
    """What is wrong with the products that the program makes of the elevations, None where nothing is."""
    if not drain:
        return None
    ground, out, sinks = case.ground, case.folder / "made", case.folder / "sinks.txt"
    out.mkdir()
    command = [drain, "make", "--out", out, "--sinks", sinks, *case.spacing_words(), *ground.words(case.folder)]
    ended = subprocess.run(command, capture_output=True, timeout=120, check=False)
    line = f"made rows={ground.rows} cols={ground.cols}\n"
    if (ended.returncode, ended.stdout.decode(), ended.stderr) != (0, line, b""):
        return f"make: {ended}"
    products, nodata, wrong = made_products(ground, out)
    if wrong:
        return f"make: {wrong}"
    if not Meaning(case.terrain, products).is_correct():
        return "make: the products are not correct"
    labels = [products["bas"][cell] for cell in case.terrain.data_cells() if products["dir"][cell] == 0]
    if labels != list(range(1, len(labels) + 1)):
        return f"make: labels {labels}"
    line = verdict(CheckRules(case.terrain, products, nodata))
    lines = [line, case.line(list(NO_DATA), out)]
    judged = ["--products", out, "--sinks", sinks, *case.spacing_words(), *ground.words(case.folder)]
    answers = (subprocess.run([drain, it, *judged], capture_output=True, timeout=120, check=False) for it in ("audit", "check"))
    lines += [answer.stdout.decode().rstrip("\n") for answer in answers]
    return None if line.startswith("accepted") and lines == [line] * 4 else f"make: {lines}"


if __name__ == "__main__":
    changes, more = [*CHANGES, rename_blank], [wrong_check, wrong_make]
    sys.exit(judge_random(given_program(), "elevations", case_over(RandomDem), changes, more))
