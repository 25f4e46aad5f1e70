#!/usr/bin/env python3
"""Compares what programs answer and write that are compiled of the same sources for different processors.

Each makes products of random elevations: rows of 1 to 2,049 cells, many of which are tried at a time, of each kind of pixel, with the
least and the greatest numbers. Each then judges these products, explains them and derives rasters of them: the right ones, and ones
with bits changed. Lines, statuses and the bytes of files have to be the same.

Usage: tests/same_answers.py PROGRAM OTHER...

Prints the inputs to which one answers otherwise, and how many passed.
"""

import random
import struct
import subprocess
import sys
import tempfile
from pathlib import Path

SEED, SETS, CHANGED = 20261129, 60, 2
WIDTHS = [1, 2, 5, 7, 8, 9, 15, 16, 17, 31, 32, 33, 63, 64, 65, 100, 127, 128, 129, 255, 257, 513, 1025, 2049]
# The kinds of pixels by their form for struct: bits, and whether they are signed.
KINDS = {"b": (8, True), "B": (8, False), "h": (16, True), "H": (16, False), "i": (32, True), "I": (32, False)}
PARTS = ["con", "con,dir", "con,dir,acc", "con,dir,bas"]


class Elevations:
    """A raster of random elevations, with what a run is told of it."""

    def __init__(self, dice: random.Random, folder: Path) -> None:
        self.dice = dice
        self.rows, self.cols = dice.randint(1, 9), dice.choice(WIDTHS)
        kind = dice.choice(list(KINDS))
        bits, signed = KINDS[kind]
        self.least, self.most = (-(2 ** (bits - 1)), 2 ** (bits - 1) - 1) if signed else (0, 2**bits - 1)
        numbers = self.numbers()
        nodata = dice.choice([None, self.least, self.most, numbers[0]])
        share = dice.choice([0, 0.01, 0.2])
        if nodata is not None:
            numbers = [nodata if dice.random() < share else it for it in numbers]
        lines = [f"NROWS {self.rows}", f"NCOLS {self.cols}", f"NBITS {bits}", f"PIXELTYPE {'SIGNEDINT' if signed else 'UNSIGNEDINT'}"]
        order = dice.choice("IM")
        lines += [f"BYTEORDER {order}", "ULXMAP 500000", "ULYMAP 4000000", "XDIM 30", "YDIM 30"]
        lines += [] if nodata is None else [f"NODATA {nodata}"]
        (folder / "dem.hdr").write_text("".join(f"{it}\n" for it in lines))
        (folder / "dem.bil").write_bytes(struct.pack(f"{'<' if order == 'I' else '>'}{len(numbers)}{kind}", *numbers))
        self.words = ["--dem", "../in/dem.bil"]
        self.spacing = ["--spacing", dice.choice(["30,30", "30.5,17.25", "0.001,9000"])] if dice.random() < 0.3 else []
        data = [cell for cell, number in enumerate(numbers) if number != nodata]
        if data and dice.random() < 0.3:
            listed = sorted(dice.sample(data, min(len(data), 3)))
            (folder / "sinks.txt").write_text("".join(f"{cell // self.cols} {cell % self.cols}\n" for cell in listed))
            self.words += ["--sinks", "../in/sinks.txt"]

    def numbers(self) -> list[int]:
        """Numbers of any size, of a few sizes, at the ends of what a pixel has, in steps, or nearly level."""
        dice, cells = self.dice, range(self.rows * self.cols)
        spread = min(dice.choice([1, 3, 9, 300, 70_000]), self.most - self.least)
        start = dice.choice([self.least, self.most - spread, dice.randint(self.least, self.most - spread)])
        ends = [self.least, self.least + 1, self.most - 1, self.most]
        return dice.choice(
            [
                lambda: [dice.randint(self.least, self.most) for _ in cells],
                lambda: [start + dice.randint(0, spread) for _ in cells],
                lambda: [dice.choice(ends) for _ in cells],
                lambda: [start + (cell % self.cols // 3 + cell // self.cols) % (spread + 1) for cell in cells],
                lambda: [start + (dice.random() < 0.02) for _ in cells],
            ]
        )()


def changed(dice: random.Random, files: dict[str, bytes]) -> dict[str, bytes]:
    """The same files with one to four bits of one raster changed."""
    name = f"{dice.choice(['con', 'dir', 'acc', 'bas', 'rnk'])}.bil"
    pixels = bytearray(files[name])
    for _ in range(dice.randint(1, 4)):
        pixels[dice.randrange(len(pixels))] ^= 1 << dice.randrange(8)
    return {**files, name: bytes(pixels)}


def answer_of(program: str, folder: Path, words: list[str]) -> tuple[int, bytes, bytes, dict[str, bytes]]:
    """What a run prints, its status, and what is in its folder then, which was empty before."""
    folder.mkdir()
    ran = subprocess.run([program, *words], cwd=folder, stdin=subprocess.DEVNULL, capture_output=True, timeout=120, check=False)
    files = {it.name: it.read_bytes() for it in sorted(folder.iterdir())}
    for name in files:
        (folder / name).unlink()
    folder.rmdir()
    return ran.returncode, ran.stdout, ran.stderr, files


def runs_of(dice: random.Random, given: Elevations) -> list[list[str]]:
    """The runs on products."""
    products = [*given.words, "--products", "../in/products"]
    judged = [*products, *given.spacing]
    judging = [["check"], ["audit"], ["audit", "--only", dice.choice(PARTS)], ["explain", "--map", "map.bil"]]
    return [*([*it, *judged] for it in judging), ["derive", *products, "--out", "."]]


class Comparison:
    """Programs, and what came of their runs."""

    def __init__(self, programs: list[str]) -> None:
        self.programs = programs
        self.passed = self.failed = 0
        self.answers = set[bytes]()

    def run(self, number: int, scratch: Path, words: list[str]) -> dict[str, bytes]:
        """Has each program answer the same, and returns the files that the first wrote."""
        first, *others = (answer_of(it, scratch / "run", words) for it in self.programs)
        differ = [it for it, other in zip(self.programs[1:], others, strict=True) if other != first]
        self.passed, self.failed = self.passed + (not differ), self.failed + bool(differ)
        if differ:
            print(f"FAILED set {number}: {' '.join(words)}: {first[:3]}, and otherwise by {' '.join(differ)}")
        self.answers.add(b"".join(first[1].split()[:1]))
        return first[3]

    def run_set(self, number: int, dice: random.Random, scratch: Path) -> None:
        """Has them make products of one raster, and answer to these and to changed ones."""
        products = scratch / "in/products"
        products.mkdir(parents=True)
        given = Elevations(dice, scratch / "in")
        right = self.run(number, scratch, ["make", *given.words, *given.spacing, "--out", "."])
        for version in range(1 + CHANGED if right else 0):
            for name, pixels in (changed(dice, right) if version else right).items():
                (products / name).write_bytes(pixels)
            for words in runs_of(dice, given):
                self.run(number, scratch, words)


def main() -> int:
    if len(sys.argv) < 3:
        sys.exit("usage: tests/same_answers.py PROGRAM OTHER...")
    compared, dice = Comparison([str(Path(it).resolve()) for it in sys.argv[1:]]), random.Random(SEED)
    for number in range(SETS):
        with tempfile.TemporaryDirectory() as scratch:
            compared.run_set(number, dice, Path(scratch))
    missing = sorted({b"made", b"accepted", b"rejected", b"derived"} - compared.answers)
    for answer in missing:
        print(f"FAILED no run has the answer {answer.decode()}")
    failed = compared.failed + len(missing)
    print(f"{compared.passed} passed, {failed} failed")
    return int(failed > 0)


if __name__ == "__main__":
    sys.exit(main())
