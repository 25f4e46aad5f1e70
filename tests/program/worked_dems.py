#!/usr/bin/env python3
"""Runs `drain audit` and `drain check` on small rasters of elevations, and compares the lines, which were worked out by hand
from the rules (dem_sets.py).

worked_dems.py DRAIN

A set of one tile (worked_lines.py) has to have the same line where the tile is one raster. Prints the cases that failed
and, in its last line, how many passed.
"""

import struct
import sys
import tempfile
from collections.abc import Callable, Iterator
from dataclasses import replace
from itertools import combinations, product
from pathlib import Path

sys.dont_write_bytecode = True
from dem_sets import FALL, FALL_LINE, FALL_OF_FLOATS, KINDS, NO_VOIDS, NO_VOIDS_LINES, PIT, SETS
from small_sets import VOID, DemSet, Lines, Set
from worked_lines import CHECKED, PIT_LINE

COMMANDS = ("audit", "check")
Change = Callable[[DemSet], DemSet]


def with_line(file: str, line: str) -> Change:
    return lambda it: it.with_line(file, line)


def short(file: str) -> Change:
    return lambda it: it.longer(**{file: -1})


def listing(sinks: str) -> Change:
    return lambda it: it.listing(sinks)


# Each refusal with what calls for it, in their order, and a rejection. A change replaces what a later one did.
ORDER: list[tuple[str, Change]] = [
    ("refused BadHeader dem NotOneBand", with_line("dem", "NBANDS 2")),
    ("refused BadPixelSize dem", with_line("dem", "YDIM 0")),
    ("refused BadHeader con BadBits", with_line("con", "NBITS 12")),
    ("refused WrongShape con", with_line("con", "NCOLS 4")),
    ("refused Misplaced con", with_line("con", "ULXMAP 500001")),
    ("refused BadHeader dir NotOneBand", with_line("dir", "NBANDS 2")),
    ("refused WrongShape acc", with_line("acc", "NROWS 2")),
    ("refused Misplaced bas", with_line("bas", "YDIM 31")),
    ("refused Misplaced rnk", with_line("rnk", "ULYMAP 0")),
    ("refused RasterShort dem", short("dem")),
    ("refused RasterShort con", short("con")),
    ("refused RasterShort bas", short("bas")),
    ("refused RasterShort rnk", short("rnk")),
    ("refused BadSinkLine 2", listing("9 9\nx\n")),
    ("refused SinkNotData 1", listing("9 9\n")),
    ("rejected rule=5 OpenRaised row=0 col=0", lambda it: it.changed(con={0: 9})),
]
# A line about ranks says nothing to an audit.
ABOUT_RANKS = " rnk"
# Lines that no raster of elevations has; and where a raster may lie is another matter.
ABOUT_TILES = (
    "BadSide", "BadName", "NoTiles", "RepeatedTile", "BoxTooLarge", "BadTileLength", "SeamMismatch", "Misplaced",
)  # fmt: skip


# Two windows of two rows and three columns, each with the side on which the other is.
BOXES = [(("0,0,2,2", "e"), ("0,0,2,3", "w")), (("0,0,2,3", "s"), ("0,0,2,3", "n"))]
# Of whole heights and of floats, con with a no-data number that is one in both.
OF_BOTH_KINDS = [it.with_line("con", "NODATA 0") for it in (FALL, FALL_OF_FLOATS)]


class Runs(Lines):
    """Runs over sets that are written into folders of their own."""

    def judge(self, name: str, products: DemSet, audit_line: str, check_line: str) -> None:
        for command, line in zip(COMMANDS, (audit_line, check_line), strict=True):
            with tempfile.TemporaryDirectory() as folder:
                self.expect(f"{command} of {name}", line, [command, *products.write(Path(folder))])

    def sets(self) -> None:
        for place, (products, line) in enumerate(SETS):
            self.judge(f"elevations {place}", products, line, line)
        self.judge("elevations without a no-data number", NO_VOIDS, *NO_VOIDS_LINES)
        self.judge("a misplaced rnk", FALL.with_line("rnk", "ULXMAP 0"), FALL_LINE, "refused Misplaced rnk")

    def order(self) -> None:
        """Of two refusals, and of a refusal and a rejection, the first is printed."""
        for (line, change), (later_line, later) in combinations(ORDER, 2):
            lines = [it for it in (line, later_line) if not it.endswith(ABOUT_RANKS)]
            audit_line = lines[0] if lines else PIT_LINE
            self.judge(f"{line}, {later_line}", change(later(PIT)), audit_line, line)

    def unions(self) -> None:
        """Two windows of one raster, beside or above each other. If one is of floats and one of whole heights, they aren't
        merged."""
        for boxes in BOXES:
            for kinds in product(OF_BOTH_KINDS, repeat=2):
                with tempfile.TemporaryDirectory() as folder:
                    reports = []
                    for it, (box, inner) in zip(kinds, boxes, strict=True):
                        reports.append(f"{folder}/{inner}.txt")
                        words = ["--at", "0,0", "--box", box, "--inner", inner, "--report", reports[-1]]
                        ended = self.run(["window", *words, *it.write(Path(folder))])
                        self.count(f"window {box}", ended.returncode == 0, f"{ended.stdout!r}{ended.stderr!r}")
                    line = FALL_LINE if kinds[0] is kinds[1] else "refused OtherSpacing 1"
                    self.expect(f"a merge of {boxes}", line, ["merge", *reports])

    def tiles(self) -> None:
        """The line of one tile, where it is one raster. What an audit says of the tile it says of the raster."""
        for place, (products, line) in enumerate(CHECKED):
            if len(products.tiles) != 1 or line.split()[1] in ABOUT_TILES:
                continue
            with tempfile.TemporaryDirectory() as folder:
                audited = self.run(["audit", *products.write(Path(folder))]).stdout.decode().rstrip("\n")
            self.judge(f"tile {place}", as_dem(products), audited, line)


def as_dem(products: Set) -> DemSet:
    """The samples of the one tile as a raster of elevations in the tile's place."""
    samples = products.tiles[0][1]
    return DemSet(
        numbers=products.numbers,
        grid=products.grid,
        sinks=products.sinks,
        headers=products.headers,
        lengths=products.lengths,
        dem_header=f"{products.grid}{KINDS['h']}BYTEORDER M\nNODATA {VOID}\n",
        dem=struct.pack(f">{len(samples)}h", *samples),
    )


# Files that are missing, and the first of them in the order in which they are opened.
MISSING = [
    (["dem.hdr"], "dem.hdr"),
    (["dem.bil"], "dem.bil"),
    (["dem.bil", "dem.hdr"], "dem.hdr"),
    (["con.hdr", "dem.bil"], "dem.bil"),
    (["con.hdr", "dem.hdr"], "dem.hdr"),
    (["con.hdr", "con.bil"], "con.hdr"),
    (["bas.bil", "sinks.txt"], "bas.bil"),
    (["sinks.txt"], "sinks.txt"),
]
UPPER = (".HDR", ".BIL")


def judge_files(runs: Runs) -> None:
    """Files are opened before any refusal, in this order; the header is the one whose name ends alike."""
    for products in (PIT, PIT.with_line("dem", "NBANDS 2").longer(con=-1)):
        for missing, first in MISSING:
            for command in COMMANDS:
                with tempfile.TemporaryDirectory() as folder:
                    words = products.write(Path(folder))
                    for name in missing:
                        Path(folder, name).unlink()
                    runs.expect(f"{command} without {missing}", f"failed Open {folder}/{first}", [command, *words])
    runs.judge("names in capitals", replace(PIT, endings=UPPER), PIT_LINE, PIT_LINE)
    for endings, wanted in (
        ((".hdr", ".BIL"), "dem.HDR"),
        ((".HDR", ".bil"), "dem.hdr"),
        ((".bil.hdr", ".bil"), "dem.hdr"),
    ):
        for command in COMMANDS:
            with tempfile.TemporaryDirectory() as folder:
                words = replace(PIT, endings=endings).write(Path(folder))
                runs.expect(f"{command} with {endings}", f"failed Open {folder}/{wanted}", [command, *words])


def judge_words(runs: Runs) -> None:
    """Options in any order, and usage errors, which come before any file is opened."""
    with tempfile.TemporaryDirectory() as folder:
        words = FALL.write(Path(folder))
        dem, products, con = words[1], words[2:4], str(Path(folder, "con.bil"))
        for command in COMMANDS:
            for given in (
                [*words[2:], *words[:2]],
                [f"--dem={dem}", *products],
                ["--dem", con, *products],
                [*words, "--"],
            ):
                runs.expect(f"{command} {given}", FALL_LINE, [command, *given])
        for given in [*usage_errors(dem, products), *usage_errors("nothing.bil", ["--products", "nothing"])]:
            for command in (["audit"], ["check"], ["explain"], ["derive", "--out", folder]):
                runs.expect_usage([*command, *given])
        for only in ("con", "con,dir", "con,dir,acc", "con,dir,bas", "con,dir,acc,bas"):
            line = FALL_LINE.rpartition(" ")[0] if only == "con" else FALL_LINE
            runs.expect(f"audit --only {only}", line, ["audit", "--only", only, *words])


def usage_errors(dem: str, products: list[str]) -> Iterator[list[str]]:
    """Wrong words: another name, tiles or a side beside the raster, no folder, no name, two names."""
    for name in ("", "dem", "dem.tif", "dem.hdr", "dem.Bil", "dem.bIL", "dembil", "dem.bil.gz", "dem.bil/", "-"):
        yield ["--dem", name, *products]
    yield ["--dem", dem, *products, "--side", "3"]
    yield ["--side", "1201", "--dem", dem, *products]
    yield ["--dem", dem, *products, "N00E000.hgt"]
    yield [*products, "N00E000.hgt", "--dem", dem]
    yield ["--dem", dem, *products, "--", "N00E000.hgt"]
    yield ["--dem", dem, *products, dem]
    yield ["--dem", dem]
    yield [*products, "--dem"]
    yield ["--dem", dem, "--dem", dem, *products]


def main() -> None:
    runs = Runs(Path(sys.argv[1]).resolve())
    runs.sets()
    runs.order()
    runs.unions()
    runs.tiles()
    judge_files(runs)
    judge_words(runs)
    print(f"worked elevations: {runs.passed} passed, {runs.failed} failed")


if __name__ == "__main__":
    main()
