#!/usr/bin/env python3
"""Runs each command on 64 tiles, 10,000 reports, lists of sinks of 361,201 lines and more than 2 MiB, texts of widths
of 28,801 lines and of 2^21 bytes, and a raster of 20 million cells. The lines follow from the form of the inputs
(large_sets.py): a command that fails by size, or leaves something out, doesn't print them.

sizes.py DRAIN              the tiles have a side of 13
sizes.py DRAIN --largest    64 tiles of side 1251 alone, 100 million cells: 4 GB of disk, 2 GB of memory, some minutes

Prints how many runs passed.
"""

import argparse
import os
import shutil
import subprocess
import sys
import tempfile
import time
from array import array
from collections.abc import Callable, Iterable, Iterator
from pathlib import Path

sys.dont_write_bytecode = True
from audit import LISTS
from large_sets import NORTH, TILE, WEST, funnel, listed, reports

SIDE, LARGEST_SIDE = 13, 1251
LIST_SIDE = 601
MOST_ROWS, MOST_WIDTHS = 28801, 1 << 21
MOST_SECONDS = 3600
STATUSES = {"accepted": 0, "made": 0, "derived": 0, "rejected": 1, "refused": 2, "failed": 3}
MADE = [f"{name}.{part}" for name in ("con", "dir", "acc", "bas", "rnk") for part in ("hdr", "bil")]
PIECE = 1 << 24


class Runs:
    """Runs of the program, each beside the line that it has to print first."""

    def __init__(self, drain: Path, prints_times: bool) -> None:
        self.drain, self.prints_times = drain, prints_times
        self.passed = self.failed = 0

    def count(self, name: str, is_right: bool, came: object = "") -> None:
        self.passed, self.failed = self.passed + is_right, self.failed + (not is_right)
        if not is_right:
            print(f"FAILED {name}: {came}")

    def run(self, *words: object) -> "subprocess.CompletedProcess[str]":
        command = [self.drain, *map(str, words)]
        return subprocess.run(command, capture_output=True, text=True, timeout=MOST_SECONDS, check=False)

    def judge(self, name: str, line: str, *words: object) -> None:
        """Compares the first line of a run and its status."""
        began = time.monotonic()
        ended = self.run(*words)
        came = ended.returncode, ended.stdout.partition("\n")[0], ended.stderr
        self.count(f"{name}, {words[0]}", came == (STATUSES[line.split()[0]], line, ""), came)
        if self.prints_times:
            print(f"{words[0]}, {name}: {time.monotonic() - began:.1f} s", flush=True)


class Tiles:
    """A funnel of 64 tiles: each cell drains through the middle one of the northern edge, the last one by way of its
    northern neighbour."""

    def __init__(self, runs: Runs, folder: Path, side: int) -> None:
        self.runs, self.folder = runs, folder
        self.out, self.report = folder / "out", folder / "report.txt"
        funnel(folder, side, 8, 8)
        self.side, self.size = side, 8 * (side - 1) + 1
        self.cells = self.size**2
        self.words = ["--side", side, "--products", self.out, *sorted(folder.glob("*.hgt"))]
        self.box = ["--box", f"0,0,{self.size},{self.size}", "--report", self.report]
        self.accepted = f"accepted rows={self.size} cols={self.size} data={self.cells} raised=0 outlets=1"

    def judge(self, name: str, line: str, *words: object) -> None:
        self.runs.judge(f"64 tiles of side {self.side}, {name}", line, *words, *self.words)

    def judge_lists(self, name: str, lines: dict[str, str]) -> None:
        """Compares audits of each list and of all four, explanations, and a window. Of the largest tiles only all four
        are explained: that takes the most time."""
        for list_, line in lines.items():
            self.judge(f"{name}, {list_}", line, "audit", "--only", list_)
            if self.side != LARGEST_SIDE:
                self.judge(f"{name}, {list_}", line, "explain", "--only", list_)
        self.judge(name, lines[LISTS[-1]], "audit")
        self.judge(name, lines[LISTS[-1]], "explain")
        self.judge(name, lines[LISTS[-1]], "window", *self.box)

    def accepted_of(self, list_: str) -> str:
        """The line of an acceptance as it is for a list: con alone has no outlets."""
        return self.accepted.rpartition(" ")[0] if list_ == "con" else self.accepted

    def right(self) -> None:
        shape = f"rows={self.size} cols={self.size}"
        self.out.mkdir()
        self.runs.judge("64 tiles", f"made {shape}", "make", "--out", self.out, *self.words[:2], *self.words[4:])
        with open(self.out / "acc.bil", "rb") as acc:
            acc.seek(4 * (self.size // 2))
            self.runs.count("the count at the outlet", int.from_bytes(acc.read(4), "little") == self.cells)
        self.judge("right", self.accepted, "check")
        self.judge_lists("right", {list_: self.accepted_of(list_) for list_ in LISTS})
        self.runs.judge("64 tiles in one window", self.accepted, "merge", self.report)
        self.judge("right, with a map", self.accepted, "explain", "--map", self.folder / "faults.bil")
        self.runs.count("a map of 64 tiles", is_zero(self.folder / "faults.bil", self.cells))
        derived = self.folder / "derived"
        derived.mkdir()
        self.judge("right", f"derived {shape}", "derive", "--out", derived)
        for name in ("acc.bil", "bas.bil"):
            self.runs.count(f"derived {name}", is_same(derived / name, self.out / name))
        shutil.rmtree(derived)

    def wrong(self) -> None:
        """One number changed at the last cell, and the first cell at which a rule fails, by the rasters that are given.
        Where directions are wrong, so are the counts of the two cells north of it."""
        last = self.size - 1
        at_last = f"row={last} col={last}"
        inflow = f"rejected rule=13 Accumulation row={last - 1} col={last - 1}"
        self.changed("con", 2, last - 1, {"con": f"rejected rule=4 BelowGround {at_last}"})
        self.changed("dir", 1, 32, {"acc": inflow, "dir": f"rejected rule=10 Slope {at_last}"})
        self.changed("acc", 4, 2, {"acc": f"rejected rule=13 Accumulation row={last - 1} col={last}"})
        self.changed("bas", 4, 2, {"bas": f"rejected rule=14 Label {at_last}"})

    def changed(self, product: str, width: int, number: int, lines: dict[str, str]) -> None:
        """Judges products in which one's last pixel has another number. A list has the line of the first product here
        that it has."""
        expected = {}
        for list_ in LISTS:
            found = [line for name, line in lines.items() if name in list_.split(",")]
            expected[list_] = found[0] if found else self.accepted_of(list_)
        with open(self.out / f"{product}.bil", "r+b", buffering=0) as file:
            file.seek(-width, os.SEEK_END)
            before = file.read(width)
            file.seek(-width, os.SEEK_END)
            file.write(number.to_bytes(width, "little"))
            self.judge_lists(f"{product} changed", expected)
            file.seek(-width, os.SEEK_END)
            file.write(before)


def is_zero(path: Path, length: int) -> bool:
    """Whether a file has this many bytes, each 0."""
    if path.stat().st_size != length:
        return False
    with open(path, "rb") as file:
        return not any(any(piece) for piece in iter(lambda: file.read(PIECE), b""))


def is_same(one: Path, other: Path) -> bool:
    return subprocess.run(["cmp", "-s", one, other], check=False).returncode == 0


class Lists:
    """A level tile with each cell listed as a sink, so each is an outlet; and lists with other last lines."""

    def __init__(self, runs: Runs, folder: Path) -> None:
        self.runs, self.folder = runs, folder
        self.list, self.report, self.made = folder / "list.txt", folder / "report.txt", folder / "made"
        listed(folder, LIST_SIDE)
        self.made.mkdir()
        self.text = (folder / "sinks.txt").read_text()
        self.number = self.text.count("\n")
        runs.count("a list of 100,000 lines and 2 MiB", self.number > 100_000 and len(self.text) > 2 << 20)
        self.shape = f"rows={LIST_SIDE} cols={LIST_SIDE}"
        self.con_accepted = f"accepted {self.shape} data={self.number} raised=0"
        self.accepted = f"{self.con_accepted} outlets={self.number}"
        self.tile = ["--side", LIST_SIDE, folder / TILE]
        self.products = ["--products", folder / "out", *self.tile]
        self.box = ["--box", f"0,0,{LIST_SIDE},{LIST_SIDE}", "--report", self.report]

    def judge(self, name: str, line: str, *words: object) -> None:
        self.runs.judge(f"{self.number} sinks, {name}", line, *words, "--sinks", self.list)

    def judge_all(self, name: str, text: str, line: str, con_line: str, is_refused: bool = False) -> None:
        """Compares the lines of all commands but a merge with a list of this text."""
        self.list.write_text(text)
        for command in ("audit", "check", "explain"):
            self.judge(name, line, command, *self.products)
        for list_ in LISTS:
            list_line = con_line if list_ == "con" else line
            self.judge(f"{name}, {list_}", list_line, "audit", "--only", list_, *self.products)
        self.judge(name, line, "window", *self.box, *self.products)
        self.judge(name, line if is_refused else f"derived {self.shape}", "derive", "--out", self.made, *self.products)
        self.judge(name, line if is_refused else f"made {self.shape}", "make", "--out", self.made, *self.tile)

    def all(self) -> None:
        self.judge_all("right", self.text, self.accepted, self.con_accepted)
        for name in MADE:
            is_right = is_same(self.made / name, self.folder / "out" / name)
            self.runs.count(f"made of {self.number} sinks: {name}", is_right)
        self.judge("right", self.accepted, "merge", self.report)
        for name, line in ("a bad last line", "x"), ("a last line outside", f"{LIST_SIDE} 0"):
            refused = f"refused {'BadSinkLine' if line == 'x' else 'SinkNotData'} {self.number + 1}"
            self.judge_all(name, f"{self.text}{line}\n", refused, refused, is_refused=True)
            self.judge(name, refused.replace("SinkNotData", "SinkLeftOut"), "merge", self.report)
        self.without_the_last()

    def without_the_last(self) -> None:
        """Without the last cell that isn't on the border, which then is a flat without a way out."""
        last = LIST_SIDE - 2
        fault = f"rejected rule=12 FlatStep row={last} col={last}"
        whole = self.folder / "whole.txt"
        shutil.copy(self.report, whole)
        self.judge_all("without one", self.text.replace(f"\n{last} {last}\n", "\n"), fault, self.con_accepted)
        self.judge("without one", fault, "merge", self.report)
        self.judge("without one", f"refused SinkNotListed row={last} col={last}", "merge", whole)


def judge_reports(runs: Runs, folder: Path) -> None:
    """10,000 reports, right and with a change in the last one."""
    reports(folder)
    paths = sorted(folder.glob("*.txt"))
    text = paths[-1].read_text()
    runs.count("10,000 reports", len(paths) == 10_000)
    runs.judge("right", "accepted rows=102 cols=102 data=10404 raised=0 outlets=404", "merge", *paths)
    runs.judge("without the last", "refused LeftOut row=100 col=100", "merge", *paths[:-1])
    outlet, outlets = "outlet 404 9090 18281\n", "outlets 3\n"
    again = text.replace(outlet, "").replace(outlets, outlets + outlet.replace("404", "1"))
    seam = text.replace("seam 9088 18279 5 0 5", "seam 9088 18279 5 0 6")
    fault = text.replace("accepted 3 3 4 0 3", "rejected 13 1 1")
    for name, changed, line in (
        ("a label again", again, "rejected rule=15 SharedLabel row=101 col=101"),
        ("another seam", seam, "refused SeamsDiffer row=99 col=99"),
        ("a fault", fault, "rejected rule=13 Accumulation row=100 col=100"),
    ):
        paths[-1].write_text(changed)
        runs.judge(name, line, "merge", *paths)


class Slope:
    """One raster whose heights are row and column together, on cells of 8 by 1 and of 9 by 1, row after row: each cell
    leads north, and those of the first row west, to the first of all."""

    def __init__(self, runs: Runs, folder: Path, rows: int, cols: int) -> None:
        self.runs, self.folder, self.rows, self.cols = runs, folder, rows, cols
        self.out, self.widths = folder / "out", folder / "widths.txt"
        self.out.mkdir(parents=True)
        self.text = "".join(f"{8 + row % 2} 1\n" for row in range(rows))
        self.widths.write_text(self.text)
        grid = f"NROWS {rows}\nNCOLS {cols}\nULXMAP 500000\nULYMAP 4000000\nXDIM 30\nYDIM 30\n"
        (folder / "dem.hdr").write_text(f"{grid}NBITS 16\nPIXELTYPE SIGNEDINT\n")
        with open(folder / "dem.bil", "wb") as dem:
            dem.writelines(self.heights())
        self.dem = ["--dem", folder / "dem.bil"]
        self.words = ["--products", self.out, *self.dem, "--widths", self.widths]
        self.shape = f"rows={rows} cols={cols}"
        self.accepted = f"accepted {self.shape} data={rows * cols} raised=0 outlets=1"

    def heights(self) -> Iterator[bytes]:
        return (array("h", range(row, row + self.cols)).tobytes() for row in range(self.rows))

    def numbers(self, form: str, first: Iterable[int], others: Callable[[int], int]) -> Iterator[bytes]:
        """The rows of a product: the first one, and others of one number each."""
        yield array(form, first).tobytes()
        for row in range(1, self.rows):
            yield array(form, [others(row)]).tobytes() * self.cols

    def judge(self, name: str, line: str, *words: object) -> None:
        self.runs.judge(f"a slope of {self.shape}, {name}", line, *words)

    def is_raster(self, path: Path, rows: Iterable[bytes]) -> None:
        with open(path, "rb") as file:
            is_right = all(file.read(len(row)) == row for row in rows) and not file.read(1)
        self.runs.count(f"a slope of {self.shape}: {path.parent.name}/{path.name}", is_right)

    def are_counts(self, folder: Path) -> None:
        """Compares accumulation and labels."""
        first = range(self.rows * self.cols, 0, -self.rows)
        self.is_raster(folder / "acc.bil", self.numbers("I", first, lambda row: self.rows - row))
        self.is_raster(folder / "bas.bil", self.numbers("I", [1] * self.cols, lambda _: 1))

    def made(self) -> None:
        """What is made, derived and said of it; and what is said where the last row is of cells of 1 by 9, which lead
        west."""
        self.judge("made", f"made {self.shape}", "make", *self.dem, "--widths", self.widths, "--out", self.out)
        self.is_raster(self.out / "con.bil", self.heights())
        self.is_raster(self.out / "dir.bil", self.numbers("B", [0] + [WEST] * (self.cols - 1), lambda _: NORTH))
        self.are_counts(self.out)
        derived = self.folder / "derived"
        derived.mkdir()
        self.judge("made", f"derived {self.shape}", "derive", "--products", self.out, *self.dem, "--out", derived)
        self.are_counts(derived)
        shutil.rmtree(derived)
        self.judge("made", self.accepted, "audit", *self.words)
        self.widths.write_text(self.text[: -len("9 1\n")] + "1 9\n")
        self.judge("a last row", f"rejected rule=10 Slope row={self.rows - 1} col=1", "audit", *self.words)
        self.widths.write_text(self.text)

    def judged(self) -> None:
        """By ranks, with a page, and by two windows, north and south, merged at once and by the report of their box."""
        self.judge("made", self.accepted, "check", *self.words)
        self.judge("made", self.accepted, "explain", *self.words)
        half, reports = self.rows // 2, [self.folder / "north.txt", self.folder / "south.txt"]
        for report, inner, top, height, outlets in (
            (reports[0], "s", 0, half + 1, 1),
            (reports[1], "n", half - 1, self.rows - half + 1, 0),
        ):
            line = f"accepted rows={height} cols={self.cols} data={(height - 1) * self.cols} raised=0 outlets={outlets}"
            box = ["--at", "0,0", "--box", f"{top},0,{height},{self.cols}", "--inner", inner]
            self.judge(report.stem, line, "window", *self.words, *box, "--report", report)
        both = self.folder / "both.txt"
        self.judge("two windows", self.accepted, "merge", *reports)
        self.judge("two windows", self.accepted, "merge", "--report", both, *reports)
        self.judge("their box", self.accepted, "merge", both)

    def texts(self) -> None:
        """A text of widths of 2^21 bytes is read, and one of a byte more is a failure with words."""
        out, report = self.folder / "again", self.folder / "whole.txt"
        out.mkdir()
        box = ["--at", "0,0", "--box", f"0,0,{self.rows},{self.cols}", "--report", report]
        commands = [["audit", *self.words], ["check", *self.words], ["explain", *self.words]]
        commands += [["window", *self.words, *box], ["make", *self.words[2:], "--out", out]]
        for words in commands:
            self.widths.write_text(self.text.ljust(MOST_WIDTHS, "\n"))
            self.judge("2^21 bytes", f"made {self.shape}" if words[0] == "make" else self.accepted, *words)
            self.widths.write_text(self.text.ljust(MOST_WIDTHS + 1, "\n"))
            ended = self.runs.run(*words)
            is_failure = (ended.returncode, ended.stdout[:7]) == (3, "failed ") and ended.stderr != ""
            self.runs.count(f"a byte more than 2^21, {words[0]}", is_failure, ended)
        self.runs.count("a byte more than 2^21: files", len(list(out.iterdir())) == len(MADE))


def main() -> int:
    words = argparse.ArgumentParser(description=__doc__, formatter_class=argparse.RawDescriptionHelpFormatter)
    words.add_argument("drain", type=Path)
    words.add_argument("--largest", action="store_true")
    given = words.parse_args()
    runs = Runs(given.drain.resolve(), given.largest)
    with tempfile.TemporaryDirectory() as scratch:
        folders = [Path(scratch) / name for name in ("tiles", "list", "reports")]
        for folder in folders:
            folder.mkdir()
        tiles = Tiles(runs, folders[0], LARGEST_SIDE if given.largest else SIDE)
        tiles.right()
        tiles.wrong()
        if not given.largest:
            Lists(runs, folders[1]).all()
            judge_reports(runs, folders[2])
            tall = Slope(runs, Path(scratch) / "tall", MOST_ROWS, 3)
            tall.made()
            tall.judged()
            tall.texts()
            Slope(runs, Path(scratch) / "wide", 701, MOST_ROWS).made()
    print(f"sizes: {runs.passed} passed, {runs.failed} failed")
    return 1 if runs.failed else 0


if __name__ == "__main__":
    sys.exit(main())
