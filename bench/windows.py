#!/usr/bin/python3
"""Measures how a union is judged by windows, beside an audit of the whole: seconds, cells a second, memory.

The union is 8 by 8 tiles of real terrain (samples/N36W085.hgt) enlarged by mirroring, so that `drain make` makes its
products as one mosaic. Its windows go through examples/continent, one at a time and four at a time.

Usage: bench/windows.py DRAIN [--side N] [--width W] [--jobs J] [--folder DIR]     (1201, 3, 4; DIR keeps the inputs)
It needs 17 bytes of disk a cell for tiles and products, 11 for cut rasters, and 22 bytes of memory a cell for `drain make`.
Memory counts from some 30 MiB, which this script itself takes.
"""

import argparse
import os
import shutil
import subprocess
import sys
import tempfile
import time
from collections.abc import Sequence
from concurrent.futures import ThreadPoolExecutor
from dataclasses import dataclass
from math import isqrt
from pathlib import Path

ROOT = Path(__file__).resolve().parent.parent
EXAMPLE = ROOT / "examples/continent"
TILES, SAMPLE, MIB = 8, 2, 1024


@dataclass(frozen=True)
class Run:
    """What a process and its children took."""

    line: str
    seconds: float
    processor: float
    kib: int
    """The most memory of one process."""

    def __str__(self) -> str:
        return f"{self.seconds:.2f} s, of processors {self.processor:.2f} s, {self.kib / MIB:.1f} MiB"


def measured(words: Sequence[object], env: dict[str, str] | None = None) -> Run:
    start = time.monotonic()
    with tempfile.TemporaryFile() as out:
        process = subprocess.Popen(list(map(str, words)), stdout=out, env=env)
        _, status, used = os.wait4(process.pid, 0)
        process.returncode = os.waitstatus_to_exitcode(status)
        out.seek(0)
        line = out.read().decode().strip()
    if process.returncode:
        sys.exit(f"status {process.returncode}: {' '.join(map(str, words))}: {line}")
    return Run(line, time.monotonic() - start, used.ru_utime + used.ru_stime, used.ru_maxrss)


def mirrored(cell: int, length: int) -> int:
    """Where a cell lies in something of this length that goes on beyond each end as in a mirror."""
    cell %= 2 * length - 2
    return min(cell, 2 * length - 2 - cell)


def write_tiles(folder: Path, side: int) -> None:
    """Tiles of the bundled terrain, mirrored at its edges."""
    samples = (ROOT / "samples/N36W085.hgt").read_bytes()
    length = isqrt(len(samples) // SAMPLE)
    cells = [mirrored(cell, length) for cell in range(TILES * (side - 1) + 1)]
    terrain = [samples[row * length * SAMPLE :][: length * SAMPLE] for row in range(length)]
    rows = [b"".join(row[SAMPLE * cell :][:SAMPLE] for cell in cells) for row in terrain]
    folder.mkdir()
    for down in range(TILES):
        for across in range(TILES):
            first = SAMPLE * across * (side - 1)
            tile = (rows[cell][first : first + SAMPLE * side] for cell in cells[down * (side - 1) :][:side])
            (folder / f"N{TILES - 1 - down:02d}E{across:03d}.hgt").write_bytes(b"".join(tile))


def judge(out: Path, env: dict[str, str], jobs: int) -> list[Run]:
    """Judges all windows of a plan, this many at a time."""
    lines = (out / "windows.txt").read_text().splitlines()
    with ThreadPoolExecutor(jobs) as pool:
        return list(pool.map(lambda line: measured([EXAMPLE / "job.sh", *line.split()], env), lines))


def make_union(drain: Path, side: int, folder: Path) -> None:
    """Tiles and products in a folder, unless they are there."""
    if (folder / "rasters").exists():
        return
    folder.mkdir(exist_ok=True)
    write_tiles(folder / "tiles", side)
    (folder / "rasters").mkdir()
    tiles = sorted((folder / "tiles").iterdir())
    report("make", measured([drain, "make", "--side", side, "--out", folder / "rasters", *tiles]))


def report(name: str, run: Run) -> None:
    print(f"{name}: {run}\n    {run.line}", flush=True)


def compare(drain: Path, side: int, width: int, most_jobs: int, folder: Path) -> bool:
    """Whether windows and an audit of the whole say the same; prints what each took."""
    rasters, out, cut = folder / "rasters", folder / "out", folder / "cut"
    cells = (TILES * (side - 1) + 1) ** 2
    tiles = sorted((folder / "tiles").iterdir())
    whole = measured([drain, "audit", "--side", side, "--products", rasters, *tiles])
    report("audit of the whole", whole)
    known = {"DRAIN": drain, "SIDE": side, "RASTERS": rasters, "OUT": out}
    env = {**os.environ, **{name: str(value) for name, value in known.items()}}
    for jobs in (1, most_jobs):
        shutil.rmtree(out, ignore_errors=True)
        measured([EXAMPLE / "windows.py", "--side", side, "--width", width, folder / "tiles", out])
        start = time.monotonic()
        runs = judge(out, env, jobs)
        seconds = time.monotonic() - start
        sums = Run("", seconds, sum(run.processor for run in runs), max(run.kib for run in runs))
        report(f"{len(runs)} windows, {jobs} at a time", sums)
        print(f"    {cells / seconds:,.0f} cells a second; the memory is the most of a job")
    cut.mkdir(exist_ok=True)
    first = (out / "windows.txt").read_text().splitlines()[0].split()
    report("cutting the first window", measured([EXAMPLE / "cut.py", "--side", side, rasters, cut, *first]))
    merged = measured([EXAMPLE / "merge.sh"], env)
    report("merge", merged)
    print(f"    of {sum(os.path.getsize(path) for path in (out / 'reports').iterdir()):,} bytes of reports")
    return merged.line == whole.line


def main() -> None:
    parser = argparse.ArgumentParser(description=__doc__, formatter_class=argparse.RawDescriptionHelpFormatter)
    parser.add_argument("drain", type=Path)
    parser.add_argument("--side", type=int, default=1201)
    parser.add_argument("--width", type=int, default=3)
    parser.add_argument("--jobs", type=int, default=4)
    parser.add_argument("--folder", type=Path)
    given = parser.parse_args()
    drain = given.drain.resolve()
    with tempfile.TemporaryDirectory() as scratch:
        folder = (given.folder or Path(scratch) / "union").resolve()
        make_union(drain, given.side, folder)
        if not compare(drain, given.side, given.width, given.jobs, folder):
            sys.exit("the merge differs from the audit of the whole")


if __name__ == "__main__":
    main()
