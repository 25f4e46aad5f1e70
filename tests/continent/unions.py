"""A small union with its products, and the runs by which it is judged: by windows, and whole.

DRAIN in the environment names the program.
"""

import os
import shutil
import struct
import subprocess
import sys
from collections.abc import Iterable, Iterator, Sequence
from concurrent.futures import ThreadPoolExecutor
from dataclasses import dataclass
from pathlib import Path

from scripts import EXAMPLE

import audit
from make_products import RULES, Terrain, verdict
from plain_inputs import Mosaic
from windows import Corner, Window

STEPS = 10
SIDE = STEPS + 1
DOWN, ACROSS = 5, 5
ROWS, COLS = DOWN * STEPS + 1, ACROSS * STEPS + 1
FORMS = {"con": "h", "dir": "B", "acc": "I", "bas": "I"}
MISSING = {(0, 4), (3, 1)}
"""Tiles that aren't there, by their row and column in the union: a corner of it, and one inside."""

LEVELS = (0, 0, 4, 9, 9, 12, 12, 15)
"""Heights of blocks of 5 by 5 cells: the lowest ones have no way out."""

VOID = -32768
Cell = tuple[int, int]


def mixed(row: int, col: int, seed: int) -> int:
    """A number of 16 bits that looks random."""
    number = (row * 73_856_093 ^ col * 19_349_663 ^ seed * 83_492_791) & 0xFFFFFFFF
    number = (number ^ number >> 13) * 0x5BD1E995 & 0xFFFFFFFF
    return (number ^ number >> 15) & 0xFFFF


def ground(row: int, col: int) -> int:
    """Blocks that make depressions, many over seams, fine noise of few heights, and some voids."""
    if mixed(row, col, 3) % 197 == 0:
        return VOID
    level = LEVELS[mixed((row + 2) // 5, (col + 2) // 5, 1) % len(LEVELS)]
    return level + mixed(row // 2, col // 3, 2) % 4 + mixed(row, col, 4) % 2


def corner(down: int, across: int) -> Corner:
    """The tile in this row and column of the union, which lies on both sides of the equator and the meridian."""
    return Corner(2 - down, across - 3)


def write_tiles(folder: Path) -> list[Path]:
    folder.mkdir(parents=True)
    for down in range(DOWN):
        for across in range(ACROSS):
            rows = range(down * STEPS, down * STEPS + SIDE)
            cols = range(across * STEPS, across * STEPS + SIDE)
            samples = [ground(row, col) for row in rows for col in cols]
            if (down, across) not in MISSING:
                (folder / f"{corner(down, across)}.hgt").write_bytes(struct.pack(f">{SIDE * SIDE}h", *samples))
    return sorted(folder.glob("*.hgt"))


def run(*words: object) -> str:
    """The line that the program prints, checked against its status."""
    command = [os.environ["DRAIN"], *map(str, words)]
    done = subprocess.run(command, capture_output=True, text=True, check=False)
    statuses = {"accepted": 0, "made": 0, "rejected": 1, "refused": 2, "failed": 3}
    if done.returncode != statuses.get(done.stdout.split(" ")[0]) or done.stderr or done.stdout.count("\n") != 1:
        raise AssertionError(f"{command}: {done}")
    return done.stdout.rstrip("\n")


@dataclass
class Union:
    """Tiles and rasters of a union, below a folder."""

    folder: Path
    sinks: Path | None = None

    @property
    def rasters(self) -> Path:
        return self.folder / "rasters"

    @property
    def tiles(self) -> list[Path]:
        return sorted((self.folder / "tiles").glob("*.hgt"))

    def with_sinks(self) -> list[object]:
        return ["--sinks", self.sinks] if self.sinks else []

    def audit(self) -> str:
        """What an audit of the whole says."""
        return run("audit", "--side", SIDE, "--products", self.rasters, *self.with_sinks(), *self.tiles)

    def numbers(self, name: str) -> list[int]:
        return list(struct.unpack(f"<{ROWS * COLS}{FORMS[name]}", (self.rasters / f"{name}.bil").read_bytes()))

    def write(self, name: str, numbers: Sequence[int]) -> None:
        (self.rasters / f"{name}.bil").write_bytes(struct.pack(f"<{ROWS * COLS}{FORMS[name]}", *numbers))

    def put(self, name: str, cell: Cell, number: int) -> None:
        numbers = self.numbers(name)
        numbers[cell[0] * COLS + cell[1]] = number
        self.write(name, numbers)

    def terrain(self) -> Terrain:
        """The elevations of the union, for a plain check of its rules."""
        mosaic = Mosaic(SIDE, [os.fsencode(path.name) for path in self.tiles])
        z = mosaic.elevations([path.read_bytes() for path in self.tiles])
        lines = self.sinks.read_text().splitlines() if self.sinks else []
        cells = [tuple(map(int, line.split())) for line in lines if line.split()]
        return Terrain(mosaic.rows, mosaic.cols, z, cells)

    def expected(self) -> str:
        """What a merge has to say, by the rules on the whole: the first fault of rules 1 to 14, else of rule 15."""
        rules = audit.AuditRules(self.terrain(), {name: self.numbers(name) for name in FORMS}, audit.NO_DATA)
        line = verdict(rules, [rule for rule in RULES if rule[0] != 15])
        return verdict(rules, RULES[-1:]) if line.startswith("accepted") else line

    def copy(self, folder: Path) -> "Union":
        """The same tiles with a copy of the rasters."""
        folder.mkdir()
        (folder / "tiles").symlink_to(self.folder / "tiles")
        shutil.copytree(self.rasters, folder / "rasters")
        return Union(folder, self.sinks)


def make_union(folder: Path, sinks: str | None = None) -> Union:
    """The union with the products that `drain make` makes of it, as one mosaic."""
    write_tiles(folder / "tiles")
    union = Union(folder)
    if sinks is not None:
        union.sinks = folder / "sinks.txt"
        union.sinks.write_text(sinks)
    union.rasters.mkdir()
    line = run("make", "--side", SIDE, "--out", union.rasters, *union.with_sinks(), *union.tiles)
    assert line == f"made rows={ROWS} cols={COLS}", line
    return union


class Windows:
    """The windows of a union, and the answers to them in a folder."""

    def __init__(self, union: Union, out: Path, width: int = 1, *more: object) -> None:
        self.union, self.out = union, out
        words = ["--side", SIDE, "--width", width, *more, union.folder / "tiles", out]
        command = [sys.executable, "-B", EXAMPLE / "windows.py", *words]
        subprocess.run(list(map(str, command)), check=True, stdout=subprocess.DEVNULL)
        lines = (out / "windows.txt").read_text().splitlines()
        self.windows = {window.name: window for window in (Window.of(line.split()) for line in lines)}

    def env(self, **more: object) -> dict[str, str]:
        known: dict[str, object] = {"SIDE": SIDE, "RASTERS": self.union.rasters, "OUT": self.out}
        if self.union.sinks:
            known["SINKS"] = self.union.sinks
        return {**os.environ, **{name: str(value) for name, value in {**known, **more}.items()}}

    def job(self, name: str, **env: object) -> str:
        """Judges one window, and returns its line."""
        words = [str(EXAMPLE / "job.sh"), *str(self.windows[name]).split()]
        done = subprocess.run(words, env=self.env(**env), capture_output=True, text=True, check=False)
        line = self.line(name) if done.returncode == 0 else ""
        if not line or done.stderr != (f"{name}: {line} (status 2)\n" if line.startswith("refused ") else ""):
            raise AssertionError(f"{words}: {done}")
        return line

    def line(self, name: str) -> str:
        return (self.out / f"lines/{name}.txt").read_text().rstrip("\n")

    def judge(self) -> dict[str, str]:
        """Judges all windows that have no answer, four at a time; answers from other rasters stay."""
        with ThreadPoolExecutor(4) as pool:
            list(pool.map(self.job, [name for name in self.windows if not (self.out / f"inputs/{name}.txt").exists()]))
        return {name: self.line(name) for name in self.windows}

    def forget(self, names: Iterable[str]) -> None:
        """Drops answers."""
        for name in names:
            for folder in ("inputs", "lines", "reports"):
                (self.out / f"{folder}/{name}.txt").unlink(missing_ok=True)

    def reports(self) -> list[Path]:
        """The reports, row by row."""
        return sorted((self.out / "reports").glob("*.txt"))

    def merge(self) -> str:
        return run("merge", *self.union.with_sinks(), *self.reports())

    def copy(self, union: Union, out: Path) -> "Windows":
        """The same windows of another union, with all answers."""
        shutil.copytree(self.out, out, symlinks=True)
        copied = object.__new__(Windows)
        copied.union, copied.out, copied.windows = union, out, self.windows
        return copied

    def cells(self, name: str, margin: int = 0) -> set[Cell]:
        """The union's cells of a window; with a margin without so many rows and columns at inner sides."""
        box, mosaic, inner = self.windows[name].box, self.windows[name].mosaic, self.windows[name].inner
        top, left = mosaic.row + box.row, mosaic.col + box.col
        rows = range(top + margin * ("n" in inner), top + box.rows - margin * ("s" in inner))
        cols = range(left + margin * ("w" in inner), left + box.cols - margin * ("e" in inner))
        return {(row, col) for row in rows for col in cols}

    def with_cell(self, cell: Cell) -> list[str]:
        """The windows that show a cell."""
        return [name for name in self.windows if cell in self.cells(name)]

    def shared(self, name: str) -> Iterator[Cell]:
        """The cells of a window that another one shows too, in row order."""
        others = set().union(*(self.cells(other) for other in self.windows if other != name))
        yield from sorted(self.cells(name) & others)
