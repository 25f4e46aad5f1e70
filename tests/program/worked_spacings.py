#!/usr/bin/env python3
"""Runs `drain audit`, `check` and `make` on small sets whose cells aren't square, and compares lines and files, which were worked
out by hand from the rules.

worked_spacings.py DRAIN

Prints the cases that failed and, in its last line, how many passed.
"""

import json
import sys
import tempfile
from dataclasses import dataclass
from itertools import combinations
from pathlib import Path

sys.dont_write_bytecode = True
import made_dems
import worked_dems
from dem_sets import FALL, FALL_LINE, LEAST_FLOAT, PIT, one_dem, pixels_of
from small_sets import DemSet, Lines, Set, one_tile
from worked_lines import PIT as PIT_TILE
from worked_lines import PIT_LINE

EAST, SOUTH_EAST, SOUTH = 1, 2, 4
MOST = 2**30
LINE, SLOPE = "accepted rows=2 cols=2 data=4 raised=0 outlets=1", "rejected rule=10 Slope row=0 col=0"


@dataclass
class Corner:
    """Of four cells the first falls by these drops to the east, to the south-east and to the south, where cells are apart as the
    option says, and each of these codes is right; south-east of it is the lowest cell, so the others lead there."""

    spacing: str
    drops: tuple[int, int, int]
    right: set[int]

    def products(self, code: int) -> list[list[int]]:
        """con, dir, acc, bas and rnk with this code of the first cell."""
        east, south_east, south = self.drops
        counts = [1, 1 + (code == EAST), 1 + (code == SOUTH), 4]
        return [[south_east, south_east - east, south_east - south, 0], [code, 4, 1, 0], counts, [1] * 4, [0] * 4]

    def sets(self, code: int) -> list[Set | DemSet]:
        """A raster of elevations, and a tile where 16 bits hold them, and a raster of floats where these are exact."""
        con, *others = self.products(code)
        sets: list[Set | DemSet] = [one_dem(2, 2, "I", con, con, *others)]
        if max(con) < 2**24:
            floats = [it * LEAST_FLOAT for it in con]
            sets.append(one_dem(2, 2, "f", floats, floats, *others))
        return [*sets, one_tile(2, con, con, *others)] if max(con) < 2**15 else sets

    def words(self, folder: Path) -> list[str]:
        """`W,H`, or two lines of a text."""
        if "\n" not in self.spacing:
            return ["--spacing", self.spacing] if self.spacing else []
        (folder / "widths.txt").write_text(self.spacing)
        return ["--widths", str(folder / "widths.txt")]


# Drops over distances: with width 3 and height 4 a corner is 5 away. 1268860318^2 is 5 * 567451585^2 less 1, and 299537289^2
# is 5 * 133957148^2 and 1; a corner of 1 by 2 is the root of 5 away. The last pairs differ by one in 10^9.
CORNERS = [
    *(Corner(spacing, (3, 5, 4), {EAST, SOUTH_EAST, SOUTH}) for spacing in ("3,4", "0.3,.4", "30,40.0", "0.0003,0.0004", "3 4\n3 4\n")),
    *(Corner(spacing, (3, 5, 4), {SOUTH}) for spacing in ("", "1,1", "4,3", "7,7", "1 1\n3 4\n", "4 3\n3 4\n")),
    Corner("3 4\n1 1\n", (3, 5, 4), {EAST, SOUTH_EAST, SOUTH}),
    Corner("3,4", (3, 6, 4), {SOUTH_EAST}),
    Corner("3,4", (4, 5, 4), {EAST}),
    Corner("3,4", (3, 6, 5), {SOUTH}),
    Corner("300000001,400000000", (3, 5, 4), {SOUTH}),
    Corner("300000000,400000001", (3, 5, 4), {EAST}),
    Corner("299999999,400000000", (3, 5, 4), {EAST}),
    Corner("5,12", (5, 13, 12), {EAST, SOUTH_EAST, SOUTH}),
    Corner("12,5", (5, 13, 12), {SOUTH}),
    Corner("20,21", (2000000000, 2900000000, 2100000000), {EAST, SOUTH_EAST, SOUTH}),
    Corner("20,21", (2000000000, 2900000001, 2100000000), {SOUTH_EAST}),
    Corner("20,21", (2000000000, 2899999999, 2100000000), {EAST, SOUTH}),
    Corner("1,2", (10, 22, 20), {EAST, SOUTH}),
    Corner("1,2", (10, 23, 20), {SOUTH_EAST}),
    Corner("1,2", (567451585, 1268860318, 1), {EAST}),
    Corner("1,2", (133957148, 299537289, 1), {SOUTH_EAST}),
    Corner("2,1", (1, 1268860318, 567451585), {SOUTH}),
    Corner("2,1", (1, 299537289, 133957148), {SOUTH_EAST}),
    Corner(f"{MOST},1", (MOST, MOST + 1, 1), {SOUTH_EAST}),
    Corner(f"1,{MOST}", (1, MOST + 1, MOST), {SOUTH_EAST}),
    Corner(f"{MOST - 1},{MOST}", (1000, 1001, 1000), {EAST}),
    Corner(f"{MOST},{MOST - 1}", (1000, 1001, 1000), {SOUTH}),
    Corner(f"{MOST},{MOST}", (1000, 1001, 1000), {EAST, SOUTH}),
]

# Widths and heights of pixels in a header, and the right codes for drops of 3, 5 and 4; none where no two whole numbers up to
# 2^30 have their ratio, nor that of two sizes which are rounded to these. Of a decimal 15 places count.
HEADERS = [
    ("3", "4", {EAST, SOUTH_EAST, SOUTH}),
    ("30", "40", {EAST, SOUTH_EAST, SOUTH}),
    ("3e-4", ".00040", {EAST, SOUTH_EAST, SOUTH}),
    ("0.000000000000003", "0.0000000000000049", {EAST, SOUTH_EAST, SOUTH}),
    ("3221225469", "4294967292", {EAST, SOUTH_EAST, SOUTH}),
    ("0.000833333333333", "0.000833333333333", {SOUTH}),
    ("4", "3", {SOUTH}),
    ("1", "1.000000000000001", {SOUTH}),
    ("0.000000000000001", "0.000001073741825", {EAST}),
    ("1", "1073741825", set()),
    ("1073741825", "1", set()),
    ("0.000000000000001", "0.000001073741824", {EAST}),
]

THREE = "1 1\n1 1\n1 1\n"
# Texts for three rows.
TEXTS = [
    (THREE, PIT_LINE),
    ("3 4\n1 1\n1000 7", PIT_LINE),
    (f"{MOST} {MOST}\n1 {MOST}\n{MOST} 1\n", PIT_LINE),
    ("\n\n1 1\n \t\r\n\t1   1 \r\n1\t1\r", PIT_LINE),
    ("00000000000000000000001 01\n1 1\n1 1", PIT_LINE),
    ("", "refused SpacingRows 0"),
    ("\r\n\n", "refused SpacingRows 0"),
    ("1 1", "refused SpacingRows 1"),
    ("1 1\n1 1\n", "refused SpacingRows 2"),
    (f"{THREE}1 1", "refused SpacingRows 4"),
    (f"{THREE}\n\n9 9\n9 9", "refused SpacingRows 5"),
    ("x", "refused BadSpacingLine 1"),
    *(
        (f"1 1\n\n{line}\n1 1", "refused BadSpacingLine 3")
        for line in (
            "0 1", "1 0", "0 0", f"{MOST + 1} 1", f"1 {MOST + 1}", "4294967296 1", "4294967297 1", "18446744073709551617 1",
            "1", "1 1 1", "+1 1", "1 -1", "1.0 1", "1,1", "1e0 1", "1 1\r\r", "1\x0b1", "x 1", "1 x", "0x1 1",
        )
    ),
    (f"{THREE}1 1\n0 0", "refused BadSpacingLine 5"),
    ("0 1\nx", "refused BadSpacingLine 1"),
]  # fmt: skip

# What is explained of a text for three rows: what stands below the line, and the object's member `refusal`.
PAGES = [
    (
        "1 1\n\n0 \t1\n", "BadSpacingLine 3", "expected: line 3: a width and a height, such as 30 20\nfound: line 3: 0 \\x091",
        {"about": "spacing_line", "line": 3, "found": "0 \\x091", "bytes": 4},
    ),
    ("1 1\n1 1\n", "SpacingRows 2", "expected: a line for each of 3 rows\nfound: lines for 2 rows", {"about": "spacing_rows", "expected": 3, "found": 2}),
]  # fmt: skip

# Words that are no spacing.
NO_SPACINGS = [
    "", ",", "1", "1,", ",1", "1,1,1", "1 1", "1;1", "0,1", "1,0", "0.0,1", "-1,1", "+1,1", "1e0,1", "1 ,1", "1, 1", "x,1", "1..0,1",
    "0x1,1", f"{MOST + 1},1", f"1,{MOST + 1}", "0.1,107374182.5", "0.0000000001,1", "18446744073709551617,1", ".,1", "nan,1",
]  # fmt: skip
LEAST_AND_MOST = ["0.1,107374182.4", "0.000000001,1", f"{MOST},{MOST}", f"{MOST}.000,1", "0000000001,1", "0.000000000000001,0.000000000000002"]


class Runs(Lines):
    def expect_set(self, name: str, line: str, command: str, products: Set | DemSet, text: str) -> None:
        """Expects this line of products on the spacing of a text."""
        with tempfile.TemporaryDirectory() as folder:
            words = products.write(Path(folder))
            Path(folder, "widths.txt").write_text(text, newline="")
            self.expect(f"{command} {name}", line, [command, *words, "--widths", f"{folder}/widths.txt"])

    def corners(self) -> None:
        """Each right code, and each other one; and what is made has the first right one."""
        for corner in CORNERS:
            for code in (EAST, SOUTH_EAST, SOUTH):
                for products in corner.sets(code):
                    with tempfile.TemporaryDirectory() as folder:
                        words = [*products.write(Path(folder)), *corner.words(Path(folder))]
                        for command in (["audit"], ["audit", "--only", "con,dir"], ["check"]):
                            self.expect(f"{command} {corner}, {code}", LINE if code in corner.right else SLOPE, [*command, *words])
                        self.made(corner, words, Path(folder, "made"))

    def headers(self) -> None:
        """Pixel sizes of the elevations' header, and the place of a raster that is refused."""
        for width, height, right in HEADERS:
            for code in (EAST, SOUTH_EAST, SOUTH):
                corner = Corner("", (3, 5, 4), right)
                con, *others = corner.products(code)
                products = pixels_of(one_dem(2, 2, "i", con, con, *others), width, height)
                with tempfile.TemporaryDirectory() as folder:
                    words = [*products.write(Path(folder)), "--spacing", "header"]
                    if right:
                        self.expect(f"header {width} {height}, {code}", LINE if code in right else SLOPE, ["audit", *words])
                        self.made(corner, words, Path(folder, "made"))
                    else:
                        self.expect_usage(["audit", *words])
        for line, change in (("NBANDS 2", "BadHeader dem NotOneBand"), ("YDIM 0", "BadPixelSize dem"), ("XDIM -30", "BadPixelSize dem")):
            with tempfile.TemporaryDirectory() as folder:
                words = FALL.with_line("dem", line).write(Path(folder))
                self.expect(f"header {line}", f"refused {change}", ["audit", *words, "--spacing", "header"])

    def made(self, corner: Corner, words: list[str], out: Path) -> None:
        out.mkdir()
        given = list(words)
        at = given.index("--products")
        del given[at : at + 2]
        self.expect(f"make {corner}", "made rows=2 cols=2", ["make", "--out", str(out), *given])
        path = out / "dir.bil"
        found = path.read_bytes() if path.exists() else b""
        wanted = bytes(corner.products(min(corner.right))[1])
        self.count(f"directions made {corner}", found == wanted, f"{found!r}, not {wanted!r}")

    def texts(self) -> None:
        for text, line in TEXTS:
            for products in (PIT, PIT_TILE):
                for command in ("audit", "check"):
                    self.expect_set(repr(text), line, command, products, text)

    def pages(self) -> None:
        for text, line, below, refusal in PAGES:
            for products in (PIT, PIT_TILE):
                with tempfile.TemporaryDirectory() as folder:
                    words = [*products.write(Path(folder)), "--widths", f"{folder}/widths.txt"]
                    Path(folder, "widths.txt").write_text(text, newline="")
                    page, told = (self.run(["explain", *more, *words]).stdout.decode() for more in ([], ["--json"]))
                    self.count(f"page of {text!r}", page == f"refused {line}\n\n{below}\n", repr(page))
                    self.count(f"object of {text!r}", json.loads(told or "{}").get("refusal") == refusal, told)

    def order(self) -> None:
        """What is refused before a text, the least bad line, the number of rows, and a rejection, in this order."""
        *earlier, rejection = worked_dems.ORDER
        texts = [("refused BadSpacingLine 2", "1 1\n0 1\n"), ("refused SpacingRows 2", "1 1\n1 1\n")]
        for line, text in texts:
            for earlier_line, change in earlier:
                lines = [it for it in (earlier_line, line) if not it.endswith(worked_dems.ABOUT_RANKS)]
                self.expect_set(f"{earlier_line}, {line}", lines[0], "audit", change(PIT), text)
                self.expect_set(f"{earlier_line}, {line}", earlier_line, "check", change(PIT), text)
            for command in ("audit", "check"):
                self.expect_set(f"{line}, a rejection", line, command, rejection[1](PIT), text)
        for (line, change), (_, text) in combinations([*made_dems.ORDER, *texts], 2):
            if callable(change) and isinstance(text, str):
                self.make_refused(line, change(PIT), text)
        for line, text in texts:
            self.make_refused(line, PIT, text)

    def make_refused(self, line: str, products: DemSet, text: str) -> None:
        """Expects that nothing is made."""
        with tempfile.TemporaryDirectory() as folder:
            words = products.write(Path(folder))
            Path(folder, "widths.txt").write_text(text)
            Path(folder, "out").mkdir()
            command = ["make", "--out", f"{folder}/out", *words[:2], *words[4:], "--widths", f"{folder}/widths.txt"]
            self.expect(f"make {line}", line, command)
            self.count(f"make {line}", not any(Path(folder, "out").iterdir()), "files are left")

    def words(self) -> None:
        """Usage errors, which come before any file is opened; the least and the greatest sizes; a file that is missing."""
        with tempfile.TemporaryDirectory() as folder:
            words = FALL.write(Path(folder))
            widths = Path(folder, "widths.txt")
            widths.write_text("3 4\n4 3\n")
            for word in LEAST_AND_MOST:
                self.expect(f"--spacing {word}", FALL_LINE, ["audit", *words, "--spacing", word])
            for given in (["--widths", str(widths)], [f"--widths={widths}"], ["--spacing=3,4"], ["--spacing", "header"]):
                for command in ("audit", "check"):
                    self.expect(f"{command} {given}", FALL_LINE, [command, *given, *words])
            self.expect("no widths", f"failed Open {folder}/none", ["audit", *words, "--widths", f"{folder}/none"])
            for command in (["audit"], ["check"], ["explain"]):
                for word in NO_SPACINGS:
                    self.expect_usage([*command, "--spacing", word, "--products", "nothing", "--dem", "nothing.bil"])
                for given in (["--spacing", "1,1", "--spacing", "1,1"], ["--spacing", "1,1", "--widths", str(widths)], ["--widths"]):
                    self.expect_usage([*command, *words, *given])
            self.expect_usage(["derive", "--out", folder, *words, "--spacing", "1,1"])
            self.expect_usage(["derive", "--out", folder, *words, "--widths", str(widths)])
            tile = PIT_TILE.write(Path(folder))
            self.expect_usage(["audit", "--spacing", "header", *tile])


def main() -> None:
    runs = Runs(Path(sys.argv[1]).resolve())
    runs.corners()
    runs.headers()
    runs.texts()
    runs.pages()
    runs.order()
    runs.words()
    print(f"worked spacings: {runs.passed} passed, {runs.failed} failed")


if __name__ == "__main__":
    main()
