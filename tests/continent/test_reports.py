"""Reports that don't go together, and windows cut from several versions of a union.

DRAIN in the environment names the program.
"""

import os
import re
import shutil
import struct
import subprocess
import unittest

from judged_union import UnionCase, judged, right
from unions import COLS, SIDE, STEPS, Cell, Union, Windows, corner, run

from make_products import STEPS as CODES


def beside(cell: Cell, code: int) -> Cell:
    down, across = CODES[code]
    return cell[0] + down, cell[1] + across


class Reports(UnionCase):
    """Reports that don't go together."""

    def test_a_window_left_out(self) -> None:
        """The first cell that it judges is the first that none does."""
        for name, expected in [
            ("r0c0", (0, 0)),
            ("r0c2", (0, 22)),
            ("r2c3", (22, 32)),
            ("r4c4", (42, 42)),
            ("r4c0", (42, 0)),
        ]:
            with self.subTest(name):
                reports = [path for path in judged.reports() if path.stem != name]
                self.assertEqual(run("merge", *reports), f"refused LeftOut row={expected[0]} col={expected[1]}")

    def test_windows_of_the_north_west(self) -> None:
        """The union is the box that holds the windows, and its last column is the ring of two of them."""
        reports = [path for path in judged.reports() if path.stem in ("r0c0", "r0c1", "r1c0", "r1c1")]
        self.assertEqual(run("merge", *reports), f"refused LeftOut row=0 col={2 * STEPS + 2}")

    def test_a_window_given_twice(self) -> None:
        reports = judged.reports()
        self.assertEqual(run("merge", *reports, reports[7]), "refused Overlap 7 25")
        self.assertEqual(run("merge", reports[24], *reports), "refused Overlap 0 25")

    def test_windows_of_two_columns(self) -> None:
        """A window in its own seams judges a column, or none between two inner sides."""
        tile = right.folder / f"tiles/{corner(1, 1)}.hgt"
        made = self.folder / "made"
        made.mkdir()
        run("make", "--side", SIDE, "--out", made, tile)
        reports = []
        for left, cols, inner in [(0, 2, "e"), (0, SIDE, "w"), (3, 2, "ew")]:
            reports.append(self.folder / f"{inner}.txt")
            words = ["--box", f"0,{left},{SIDE},{cols}", "--inner", inner, "--report", reports[-1], tile]
            run("window", "--side", SIDE, "--products", made, *words)
        column, rest, rings = reports
        self.assertEqual(run("merge", column, rest), run("audit", "--side", SIDE, "--products", made, tile))
        self.assertEqual(run("merge", column, rest, column), "refused Overlap 0 2")
        self.assertEqual(run("merge", column, rings, rest), "refused JudgesNothing 1")

    def test_windows_of_two_plans(self) -> None:
        other = Windows(right, self.folder / "out", 2)
        other.judge()
        self.assertEqual(run("merge", *judged.reports(), other.reports()[0]), "refused Overlap 0 25")

    def test_a_tile_judged_as_a_whole_area(self) -> None:
        """Two of its sides aren't inner, and no edge of the union."""
        tile = right.folder / f"tiles/{corner(0, 0)}.hgt"
        (self.folder / "made").mkdir()
        run("make", "--side", SIDE, "--out", self.folder / "made", tile)
        report = self.folder / "report"
        box = f"0,0,{SIDE},{SIDE}"
        run("window", "--side", SIDE, "--products", self.folder / "made", "--box", box, "--report", report, tile)
        self.assertEqual(run("merge", *judged.reports()[1:], report), "refused OutsideUnion 24")
        self.assertEqual(run("merge", report), run("audit", "--side", SIDE, "--products", self.folder / "made", tile))

    def test_a_report_named_as_a_product(self) -> None:
        """A later run would take it for that product: a usage error, by any way to the folder."""
        tile = right.folder / f"tiles/{corner(1, 1)}.hgt"
        made = self.folder / "made"
        made.mkdir()
        run("make", "--side", SIDE, "--out", made, tile)
        ranks = [made / f"rnk.{ending}" for ending in ("hdr", "bil")]
        for path in ranks:
            path.unlink(missing_ok=True)
        (self.folder / "linked").symlink_to("made")
        box = f"0,0,{SIDE},{SIDE}"
        words = ["window", "--side", str(SIDE), "--products", made, "--box", box, tile, "--report"]
        for report in [*ranks, self.folder / "linked/rnk.bil", made / "../made/rnk.hdr"]:
            with self.subTest(report):
                done = subprocess.run(
                    [os.environ["DRAIN"], *words, report], capture_output=True, text=True, check=False
                )
                self.assertEqual((done.returncode, done.stdout), (2, ""))
                self.assertIn("would be taken for a product", done.stderr)
                self.assertFalse(report.exists())
        for report in [self.folder / "rnk.bil", made / "report.bil", made / "rnk"]:
            with self.subTest(report):
                self.assertEqual(run(*words, report), run("audit", "--side", SIDE, "--products", made, tile))

    def test_no_reports(self) -> None:
        self.assertEqual(run("merge"), "refused NoReports")

    def test_another_side(self) -> None:
        tile = self.folder / f"{corner(4, 4)}.hgt"
        tile.write_bytes(struct.pack(">9h", *range(9)))
        (self.folder / "made").mkdir()
        run("make", "--side", 3, "--out", self.folder / "made", tile)
        report = self.folder / "report"
        run("window", "--side", 3, "--products", self.folder / "made", "--box", "0,0,3,3", "--report", report, tile)
        self.assertEqual(run("merge", *judged.reports(), report), "refused OtherSide 25")
        self.assertEqual(run("merge", report, *judged.reports()), "refused OtherSide 1")

    def test_other_no_data_numbers(self) -> None:
        """A window without voids, whose header names another number that it doesn't have."""
        z = right.terrain().z
        names = list(judged.windows)[1:]
        name = next(name for name in names if all(z[row * COLS + col] is not None for row, col in judged.cells(name)))
        union, windows = self.changed("other")
        header = union.rasters / "acc.hdr"
        header.write_text(header.read_text().replace("NODATA 0", "NODATA 4294967295"))
        windows.forget([name])
        self.assertTrue(windows.job(name).startswith("accepted "))
        self.assertEqual(windows.merge(), f"refused OtherNoData {list(windows.windows).index(name)}")

    def test_a_header_without_no_data(self) -> None:
        """Two windows of a tile, one with con's NODATA line and one without, which means the same number."""
        tile = right.folder / f"tiles/{corner(1, 1)}.hgt"
        reports = []
        for name, box, inner in [("with", f"0,0,7,{SIDE}", "s"), ("without", f"5,0,{SIDE - 5},{SIDE}", "n")]:
            made = self.folder / name
            made.mkdir()
            run("make", "--side", SIDE, "--out", made, tile)
            header = made / "con.hdr"
            lines = header.read_text().splitlines(keepends=True)
            kept = [line for line in lines if name == "with" or not line.startswith("NODATA ")]
            self.assertEqual(len(kept), len(lines) - (name == "without"))
            header.write_text("".join(kept))
            reports.append(self.folder / f"{name}.txt")
            words = ["--products", made, "--box", box, "--inner", inner, "--report", reports[-1], tile]
            run("window", "--side", SIDE, *words)
        whole = run("audit", "--side", SIDE, "--products", self.folder / "with", tile)
        for given in (reports, reports[::-1]):
            self.assertEqual(run("merge", *given), whole)

    def test_texts_that_are_no_reports(self) -> None:
        reports = judged.reports()
        text = reports[3].read_text()
        lines = text.splitlines(keepends=True)
        report = self.folder / "report"
        for name, changed, fault in [
            ("another version", re.sub("report [0-9]+", "report 2", text, count=1), "WrongVersion"),
            ("nothing", "", "WrongVersion"),
            ("cut behind a line", "".join(lines[:-1]), f"MissingLine {len(lines)}"),
            ("cut within a line", text[:-1], f"MissingLine {len(lines)}"),
            ("a word that isn't there", text.replace("\nnodata ", "\ndata ", 1), "BadLine 4"),
            ("a line more", f"{text}end\n", "AfterEnd"),
        ]:
            with self.subTest(name):
                report.write_text(changed)
                self.assertEqual(run("merge", *reports[:3], report, *reports[4:]), f"refused BadReport 3 {fault}")


class Versions(UnionCase):
    """One window cut from another version of the union, with which it is accepted."""

    def judge_other(self, name: str, other: Union, cell: Cell) -> None:
        windows = judged.copy(right, other.folder / "out")
        windows.forget([name])
        self.assertTrue(windows.job(name, RASTERS=other.rasters).startswith("accepted "))
        self.assertEqual(windows.merge(), f"refused SeamsDiffer row={cell[0]} col={cell[1]}")

    def first_shared_data(self, name: str) -> Cell:
        z = right.terrain().z
        return next((row, col) for row, col in judged.shared(name) if z[row * COLS + col] is not None)

    def test_other_labels(self) -> None:
        """All labels are others. The first data cell that another window shows differs."""
        other = right.copy(self.folder / "other")
        other.write("bas", [label + 1_000 if label else 0 for label in right.numbers("bas")])
        for name in ("r0c0", "r2c2", "r4c1"):
            with self.subTest(name):
                self.judge_other(name, other, self.first_shared_data(name))
                shutil.rmtree(other.folder / "out")

    def test_a_number_of_the_ring(self) -> None:
        """A count, or a label, in the ring of one window, which none of its judged cells depends on."""
        name = "r2c2"
        inside = judged.cells(name, 1)
        codes, z = right.numbers("dir"), right.terrain().z
        ring = [cell for cell in sorted(judged.cells(name) - inside) if z[cell[0] * COLS + cell[1]] is not None]
        code = {cell: codes[cell[0] * COLS + cell[1]] for cell in judged.cells(name)}
        counted = next(cell for cell in ring if code[cell] == 0 or beside(cell, code[cell]) not in inside)
        entered = {beside(cell, code[cell]) for cell in inside if code[cell] in CODES}
        labelled = next(cell for cell in reversed(ring) if cell not in entered)
        for product, cell in (("acc", counted), ("bas", labelled)):
            with self.subTest(product):
                other = right.copy(self.folder / product)
                other.put(product, cell, 5_000)
                self.judge_other(name, other, cell)

    def test_other_tiles(self) -> None:
        """A tile with a void more, or with a void less: the windows that show it differ from the others."""
        z = right.terrain().z
        listed = right.terrain().is_open
        codes = right.numbers("dir")
        # A ring cell of r1c1 is in no other tile than that of r1c2, so that tile alone is changed.
        cell = next(
            cell
            for cell in sorted(judged.cells("r1c1") - judged.cells("r1c1", 1))
            if z[cell[0] * COLS + cell[1]] is not None and cell[1] % STEPS and cell[0] % STEPS
        )
        self.assertFalse(listed(cell[0] * COLS + cell[1]) and codes[cell[0] * COLS + cell[1]] == 0)
        tile = right.folder / f"tiles/{corner(cell[0] // STEPS, cell[1] // STEPS)}.hgt"
        samples = bytearray(tile.read_bytes())
        at = 2 * (cell[0] % STEPS * SIDE + cell[1] % STEPS)
        samples[at : at + 2] = struct.pack(">h", z[cell[0] * COLS + cell[1]] - 1)
        changed = self.folder / tile.name
        changed.write_bytes(samples)
        windows = judged.copy(right, self.folder / "out")
        windows.forget(["r1c1"])
        windows.windows = {**windows.windows}
        words = str(windows.windows["r1c1"]).replace(os.path.abspath(tile), str(changed)).split()
        windows.windows["r1c1"] = type(windows.windows["r1c1"]).of(words)
        line = windows.job("r1c1")
        # The ground of a ring cell is in no rule of its neighbours, as long as it is no void.
        self.assertTrue(line.startswith("accepted "), line)
        self.assertEqual(windows.merge(), f"refused SeamsDiffer row={cell[0]} col={cell[1]}")


if __name__ == "__main__":
    unittest.main()
