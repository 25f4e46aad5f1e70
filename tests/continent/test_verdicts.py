"""Verdicts on a union by its windows, beside an audit of the whole and a plain check of the rules.

DRAIN in the environment names the program.
"""

import os
import shutil
import struct
import subprocess
import unittest

from job_case import ENGINES
from judged_union import UnionCase, judged, right
from scripts import EXAMPLE, SHELL_LOOP, SLOPES, beside_slopes
from unions import ACROSS, COLS, DOWN, FORMS, MISSING, ROWS, SIDE, STEPS, Cell, Windows, corner, run

import audit


class Right(UnionCase):
    """Right products."""

    def test_the_union_is_hard(self) -> None:
        """Depressions and paths cross seams, so that the tests below test them."""
        con, codes = right.numbers("con"), right.numbers("dir")
        z = right.terrain().z
        seam = [row * COLS + col for row in range(ROWS) for col in range(STEPS, COLS - 1, STEPS)]
        raised = [
            cell
            for cell in seam
            if z[cell] is not None and z[cell + 1] is not None and con[cell] > z[cell] and con[cell + 1] > z[cell + 1]
        ]
        self.assertGreater(len(raised), 20)
        self.assertGreater(sum(codes[cell] in (1, 2, 128) for cell in seam), 20)
        self.assertGreater(max(right.numbers("acc")), 2 * SIDE * SIDE)
        self.assertGreater(sum(height is None for height in z), SIDE * SIDE)

    def test_accepted(self) -> None:
        whole = right.audit()
        self.assertTrue(whole.startswith(f"accepted rows={ROWS} cols={COLS} data="))
        self.assertEqual(len(judged.windows), 25)
        self.assertTrue(all(line.startswith("accepted ") for line in judged.judge().values()))
        self.assertEqual(judged.merge(), whole)

    def test_windows_of_other_widths(self) -> None:
        for width, count in [(2, 9), (3, 4), (4, 4), (5, 1), (7, 1)]:
            windows = Windows(right, self.folder / str(width), width)
            self.assertEqual(len(windows.judge()), count)
            self.assertEqual(windows.merge(), right.audit())

    def test_the_order_of_reports(self) -> None:
        self.assertEqual(run("merge", *reversed(judged.reports())), right.audit())

    def test_counts_of_windows(self) -> None:
        """Each window counts its judged cells."""
        z, con, codes = right.terrain().z, right.numbers("con"), right.numbers("dir")
        for name, line in judged.judge().items():
            box = judged.windows[name].box
            data = [at for row, col in judged.cells(name, 1) if z[at := row * COLS + col] is not None]
            raised, outlets = sum(con[at] > z[at] for at in data), sum(codes[at] == 0 for at in data)
            expected = f"accepted rows={box.rows} cols={box.cols} data={len(data)} raised={raised} outlets={outlets}"
            self.assertEqual(line, expected, name)

    def test_a_loop_of_the_shell(self) -> None:
        windows = Windows(right, self.folder / "out")
        done = subprocess.run(
            ["sh", "-c", SHELL_LOOP], env=windows.env(HERE=EXAMPLE), capture_output=True, text=True, check=False
        )
        self.assertEqual((done.returncode, done.stdout, done.stderr), (0, f"{right.audit()}\n", SLOPES))
        self.same_reports(windows)

    @unittest.skipUnless(shutil.which("parallel"), "GNU parallel isn't installed")
    def test_parallel(self) -> None:
        windows = Windows(right, self.folder / "out")
        words = [EXAMPLE / "parallel.sh", "4"]
        done = subprocess.run(words, env=windows.env(), capture_output=True, text=True, check=False)
        self.assertEqual((done.returncode, done.stdout, done.stderr), (0, f"{right.audit()}\n", SLOPES))
        self.same_reports(windows)

    def same_reports(self, windows: Windows) -> None:
        for one, other in zip(judged.reports(), windows.reports(), strict=True):
            self.assertEqual(one.read_text(), other.read_text())

    def test_an_interrupted_job(self) -> None:
        """A job whose program is killed leaves no answer; the next run gives that of a run without an interruption."""
        windows = Windows(right, self.folder / "out")
        killed = self.folder / "drain"
        drain = os.environ["DRAIN"]
        killed.write_text(f'#!/bin/sh\n[ "$1" != --version ] || exec "{drain}" "$@"\n"{drain}" "$@" >/dev/null\nkill -9 $$\n')
        killed.chmod(0o755)
        words = [EXAMPLE / "job.sh", *str(windows.windows["r2c2"]).split()]
        done = subprocess.run(words, env=windows.env(DRAIN=killed), capture_output=True, text=True, check=False)
        self.assertEqual((done.returncode, done.stdout), (3, ""))
        self.assertEqual(list(windows.out.glob("*/*.txt")) + list(windows.out.glob("work/*")), [])
        windows.judge()
        self.same_reports(windows)


class Again(UnionCase):
    """Files that change between runs of all windows."""

    def setUp(self) -> None:
        super().setUp()
        self.union = right.copy(self.folder / "union")
        (self.union.folder / "tiles").unlink()
        shutil.copytree(right.folder / "tiles", self.union.folder / "tiles")
        self.windows = Windows(self.union, self.folder / "union/out", 3)

    def merged(self, engine: str) -> tuple[str, str]:
        """The verdict, and what stands on standard error."""
        env = self.windows.env(HERE=EXAMPLE)
        done = subprocess.run(ENGINES[engine], env=env, capture_output=True, text=True, check=False)
        return done.stdout.rstrip("\n"), beside_slopes(done.stderr)

    def test_a_cell_and_a_tile(self) -> None:
        """Another count at a cell; a tile cut short; and each time all as before."""
        count = self.union.numbers("acc")[26 * COLS + 27]
        tile = self.union.tiles[3]
        samples = tile.read_bytes()
        accepted = (right.audit(), "")
        for engine in ("loop", "parallel") if shutil.which("parallel") else ("loop",):
            with self.subTest(engine):
                self.assertEqual(self.merged(engine), accepted)
                self.union.put("acc", (26, 27), count + 1)
                self.assertEqual(self.merged(engine), (self.union.expected(), ""))
                self.union.put("acc", (26, 27), count)
                self.assertEqual(self.merged(engine), accepted)
                tile.write_bytes(samples[:-2])
                verdict, said = self.merged(engine)
                self.assertEqual(verdict.split(" row=")[0], "refused LeftOut")
                self.assertIn(f"refused BadTileLength {tile.name} (status 2)\n", said)
                tile.write_bytes(samples)
                self.assertEqual(self.merged(engine), accepted)

    def test_a_report_cut_short(self) -> None:
        self.assertEqual(self.merged("loop"), (right.audit(), ""))
        report = self.windows.reports()[0]
        os.truncate(report, report.stat().st_size - 5)
        self.assertTrue(self.windows.merge().startswith("refused BadReport 0 "))
        self.assertEqual(self.merged("loop"), (right.audit(), ""))


class Changed(UnionCase):
    """One number of the union changed, and the windows that show it judged again."""

    # Each by where it lies in a window of width 1, whose judged rows and columns are 12 to 21, 22 to 31 and so on.
    CELLS = {
        "inside": (26, 27),
        "a seam": (21, 26),
        "behind a seam": (22, 35),
        "a ring": (33, 24),
        "a corner": (31, 32),
        "an edge": (0, 22),
    }

    def numbers(self, name: str, cell: Cell) -> list[int]:
        """Other numbers for a product at a data cell."""
        number = right.numbers(name)[cell[0] * COLS + cell[1]]
        others = {
            "con": [number + 1, number - 1],
            "dir": [0 if number else 4, 3],
            "acc": [number + 1, 7_000],
            "bas": [number + 1, 999],
        }
        return [*others[name], audit.NO_DATA[name]]

    def data_cell(self, near: Cell) -> Cell:
        """The next data cell in its row."""
        z = right.terrain().z
        return next((near[0], col) for col in range(near[1], COLS) if z[near[0] * COLS + col] is not None)

    def test_each_product(self) -> None:
        for place, near in self.CELLS.items():
            cell = self.data_cell(near)
            for name in FORMS:
                for count, number in enumerate(self.numbers(name, cell)):
                    with self.subTest(place=place, cell=cell, product=name, number=number):
                        union, windows = self.changed(f"{place}-{name}-{count}")
                        union.put(name, cell, number)
                        windows.forget(windows.with_cell(cell))
                        expected = union.expected()
                        self.assertTrue(expected.startswith("rejected "))
                        self.judge(union, windows, expected)
                        shutil.rmtree(union.folder)

    def test_a_number_in_a_void(self) -> None:
        """In each of the missing tiles, and on a seam of one."""
        for cell in ((5, 45), (35, 15), (31, 15)):
            with self.subTest(cell):
                self.assertIsNone(right.terrain().z[cell[0] * COLS + cell[1]])
                union, windows = self.changed(f"{cell[0]}-{cell[1]}")
                union.put("acc", cell, 1)
                windows.forget(windows.with_cell(cell))
                self.judge(union, windows, f"rejected rule=1 VoidCell row={cell[0]} col={cell[1]}")

    def test_faults_in_two_windows(self) -> None:
        """The first in row order counts, also where its window comes later."""
        union, windows = self.changed("two")
        for cell in ((28, 5), (26, 47)):
            union.put("acc", cell, 7_000)
            windows.forget(windows.with_cell(cell))
        self.judge(union, windows, union.expected())

    def test_labels_shared_far_apart(self) -> None:
        """A basin gets the label of one in a window that lies apart, and none in between has it."""
        union, windows = self.changed("shared")
        codes, labels = union.numbers("dir"), union.numbers("bas")
        outlets = [at for at, code in enumerate(codes) if code == 0]
        first = next(at for at in outlets if (at // COLS, at % COLS) in windows.cells("r0c1", 1))
        later = next(at for at in outlets if (at // COLS, at % COLS) in windows.cells("r4c3", 1))
        union.write("bas", [labels[first] if label == labels[later] else label for label in labels])
        windows.forget(windows.windows)
        expected = f"rejected rule=15 SharedLabel row={later // COLS} col={later % COLS}"
        self.assertEqual((windows.judge(), windows.merge())[1], expected)
        self.assertEqual(union.audit(), expected)
        self.assertEqual(union.expected(), expected)
        self.assertTrue(all(line.startswith("accepted ") for line in windows.judge().values()))

    def test_tiles_side_by_side(self) -> None:
        """Products of single tiles, put side by side, with labels that no two tiles share."""
        union, windows = self.changed("side-by-side")
        numbers = {name: union.numbers(name) for name in FORMS}
        for down in range(DOWN):
            for across in range(ACROSS):
                if (down, across) in MISSING:
                    continue
                single = self.folder / f"{corner(down, across)}"
                single.mkdir()
                run("make", "--side", SIDE, "--out", single, union.folder / f"tiles/{corner(down, across)}.hgt")
                for name, form in FORMS.items():
                    tile = struct.unpack(f"<{SIDE * SIDE}{form}", (single / f"{name}.bil").read_bytes())
                    for at, number in enumerate(tile):
                        cell = (down * STEPS + at // SIDE) * COLS + across * STEPS + at % SIDE
                        more = 1_000 * (1 + down * ACROSS + across) if name == "bas" and number else 0
                        numbers[name][cell] = number + more
        for name in FORMS:
            union.write(name, numbers[name])
        windows.forget(windows.windows)
        self.assertIn("rejected rule=", union.expected())
        self.judge(union, windows, union.expected())


if __name__ == "__main__":
    unittest.main()
