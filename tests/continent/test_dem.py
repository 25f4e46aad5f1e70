"""Windows of one DEM in boxes of pixels, beside an audit of it whole, and distances by row, of tiles too. DRAIN in the
environment names the program."""

import os
import re
import struct
import subprocess
import sys
import tempfile
import unittest
from decimal import Decimal
from pathlib import Path

from scripts import EXAMPLE, SHELL_LOOP, SLOPES, beside_slopes
from unions import FORMS, SIDE, Union, Windows, ground, run, write_tiles

from cut import cut_window
from rasters import NO_DATA, CannotCut
from windows import Box, Window

ROWS, COLS, PIXELS = 41, 67, 20
BOTTOM = 2**15
"""What is added to the heights, so that they need more than 16 bits."""

VOID = -9999
PLACE = "ULXMAP 431012.5\nULYMAP 5271987.5\nXDIM 25\nYDIM 30\n"


class Dem(unittest.TestCase):
    """A DEM of whole heights with pixels that aren't square, which are judged as if they were."""

    def setUp(self) -> None:
        scratch = tempfile.TemporaryDirectory()
        self.addCleanup(scratch.cleanup)
        self.folder = Path(scratch.name)
        self.dem, self.rasters, self.out = self.folder / "dem.bil", self.folder / "rasters", self.folder / "out"
        cells = [ground(row, col) for row in range(ROWS) for col in range(COLS)]
        numbers = [VOID if height == -32768 else height + BOTTOM for height in cells]
        self.dem.write_bytes(struct.pack(f"<{ROWS * COLS}i", *numbers))
        header = f"NROWS {ROWS}\nNCOLS {COLS}\nNBITS 32\nPIXELTYPE SIGNEDINT\nNODATA {VOID}\n{PLACE}"
        self.dem.with_suffix(".hdr").write_text(header)
        self.sinks = self.folder / "sinks.txt"
        self.rasters.mkdir()
        self.made()
        con = self.numbers("con")
        deep = sorted((number - con[at], at) for at, number in enumerate(numbers) if VOID != number < con[at])
        self.sinks.write_text("".join(f"{at // COLS} {at % COLS}\n" for _, at in deep[:4]))
        self.made("--sinks", self.sinks)
        self.env = {**os.environ, "OUT": str(self.out), "RASTERS": str(self.rasters), "SINKS": str(self.sinks)}
        self.env |= {"HERE": str(EXAMPLE)}

    def made(self, *words: object) -> None:
        line = run("make", "--dem", self.dem, "--out", self.rasters, *words)
        self.assertEqual(line, f"made rows={ROWS} cols={COLS}")

    def numbers(self, name: str) -> list[int]:
        form = "i" if name == "con" else FORMS[name]
        return list(struct.unpack(f"<{ROWS * COLS}{form}", (self.rasters / f"{name}.bil").read_bytes()))

    def plan(self, *words: str) -> subprocess.CompletedProcess[str]:
        command = [sys.executable, "-B", EXAMPLE / "windows.py", "--dem", self.dem, *words, self.out]
        return subprocess.run(list(map(str, command)), capture_output=True, text=True, check=False)

    def judge(self, slopes: str = SLOPES, **env: object) -> tuple[str, str]:
        given = {**self.env, **{name: str(value) for name, value in env.items()}}
        done = subprocess.run(["sh", "-c", SHELL_LOOP], env=given, capture_output=True, text=True, check=False)
        return done.stdout.rstrip("\n"), beside_slopes(done.stderr, slopes)

    def whole(self, *words: object) -> str:
        return run("audit", "--dem", self.dem, "--products", self.rasters, "--sinks", self.sinks, *words)

    def test_plan(self) -> None:
        run_ = self.plan("--pixels", str(PIXELS))
        self.assertEqual((run_.returncode, run_.stderr), (0, ""))
        lines = [line.split() for line in (self.out / "windows.txt").read_text().splitlines()]
        self.assertEqual([line[0] for line in lines], [f"r{i}c{j}" for i in range(3) for j in range(4)])
        boxes = [
            f"{top},{left},{rows},{cols}" for top, rows in [(0, 20), (18, 20), (36, 5)] for left, cols in [(0, 20)]
        ]
        self.assertEqual([line[3] for line in lines[::4]], boxes)
        self.assertEqual([line[3] for line in lines[:4]], ["0,0,20,20", "0,18,20,20", "0,36,20,20", "0,54,20,13"])
        self.assertEqual({line[1] for line in lines[8:]}, {"0,0,5,20", "0,0,5,13"})
        self.assertEqual([lines[at][2] for at in (0, 5, 11)], ["es", "nesw", "nw"])
        self.assertEqual({line[4] for line in lines}, {str(self.dem)})

    def test_verdicts(self) -> None:
        """In one merge, and by groups; right, and with another number on a seam."""
        self.assertEqual(self.plan("--pixels", str(PIXELS)).returncode, 0)
        self.assertTrue(self.whole().startswith("accepted "))
        self.assertEqual(self.judge(), (self.whole(), ""))
        self.assertEqual(self.plan("--pixels", str(PIXELS), "--group", "2").returncode, 0)
        self.assertEqual(self.judge(), (self.whole(), ""))
        self.assertEqual(len(list((self.out / "merges/reports").iterdir())), 4)
        numbers = self.numbers("acc")
        numbers[19 * COLS + 30] += 1
        (self.rasters / "acc.bil").write_bytes(struct.pack(f"<{ROWS * COLS}I", *numbers))
        self.assertTrue(self.whole().startswith("rejected "))
        self.assertEqual(self.judge(), (self.whole(), ""))

    def test_distances(self) -> None:
        """Those of all cells, those of the header, and those of each row: without them another slope is the steepest."""
        self.assertEqual(self.plan("--pixels", "30").returncode, 0)
        widths = self.folder / "widths.txt"
        widths.write_text("".join(f"{20 + row} 30\n" for row in range(ROWS)))
        for words, said, *given in [
            (("--spacing", "25,30"), "spacing 25,30", {"SPACING": "25,30"}),
            (("--spacing", "header"), "spacing header", {"SPACING": "header"}),
            (("--widths", widths), f"widths by row, {widths}", {"WIDTHS": widths}),
        ]:
            with self.subTest(said):
                self.made("--sinks", self.sinks, *words)
                self.assertTrue(self.whole(*words).startswith("accepted "))
                self.assertEqual(self.judge(f"slopes: {said}\n", **given[0]), (self.whole(*words), ""))
                self.assertTrue(self.whole().startswith("rejected rule=10 "))
        self.assertEqual(self.judge(), (self.whole(), ""))
        widths.write_text("".join(f"{20 + row} 30\n" for row in range(ROWS + 1)))
        _, said = self.judge(f"slopes: widths by row, {widths}\n", WIDTHS=widths)
        self.assertIn(f"r1c0: {widths}: it has {ROWS + 1} rows, and the union {ROWS}\n", said)

    def test_a_dem_that_changes(self) -> None:
        """Its windows are judged again, also after a change of its header alone."""
        self.plan("--pixels", str(PIXELS))
        self.judge()
        for path in (self.dem, self.dem.with_suffix(".hdr")):
            before = [file.stat().st_mtime_ns for file in sorted((self.out / "reports").iterdir())]
            os.utime(path)
            run_ = subprocess.run([EXAMPLE / "merge.sh"], env=self.env, capture_output=True, text=True, check=False)
            self.assertEqual((run_.returncode, run_.stdout), (3, ""))
            self.assertIn(f"r0c0: {path} changed after", run_.stderr)
            self.assertEqual(self.judge(), (self.whole(), ""))
            after = [file.stat().st_mtime_ns for file in sorted((self.out / "reports").iterdir())]
            self.assertFalse(set(before) & set(after))

    def test_rasters_that_lie_elsewhere(self) -> None:
        """Cut by pixels, they need the DEM's rows and columns, and its place."""
        self.plan("--pixels", str(PIXELS))
        header = self.rasters / "bas.hdr"
        text = header.read_text()
        for key, number in [
            ("NROWS", ROWS - 1),
            ("ULXMAP", 431013.5),
            ("ULXMAP", 431012.5 - 10 * 25),
            ("ULYMAP", 5271987.5 - 10 * 30),
            ("YDIM", 30.1),
            ("YDIM", 5 * 30),
        ]:
            header.write_text(re.sub(rf"^{key} .*$", f"{key} {number}", text, flags=re.MULTILINE))
            self.assertNotEqual(header.read_text(), text)
            line = (self.out / "windows.txt").read_text().splitlines()[0]
            job = subprocess.run(
                [EXAMPLE / "job.sh", *line.split()], env=self.env, capture_output=True, text=True, check=False
            )
            self.assertEqual(job.returncode, 3)
            self.assertIn(f"bas.bil: it doesn't lie where {self.dem} does", job.stderr)

    def test_words_that_are_refused(self) -> None:
        for words, said in [
            (["--pixels", "3"], "--pixels 3"),
            (["--pixels", "28802"], "--pixels 28802"),
            (["--group", "1"], "--group 1"),
            ([str(self.folder)], "either TILES or --dem"),
        ]:
            run_ = self.plan(*words)
            self.assertNotEqual(run_.returncode, 0)
            self.assertIn(said, run_.stderr)
            self.assertFalse((self.out / "windows.txt").exists())
        self.dem.with_suffix(".hdr").unlink()
        self.assertIn("dem.hdr", self.plan().stderr)


class Tiles(unittest.TestCase):
    """A union of tiles, whose rows have other widths."""

    def test_widths(self) -> None:
        with tempfile.TemporaryDirectory() as scratch:
            union = Union(Path(scratch))
            write_tiles(union.folder / "tiles")
            union.rasters.mkdir()
            widths = union.folder / "widths.txt"
            widths.write_text("".join(f"{100 + 3 * row} 200\n" for row in range(51)))
            words = ["--side", SIDE, "--widths", widths, *union.tiles]
            run("make", "--out", union.rasters, *words)
            whole = run("audit", "--products", union.rasters, *words)
            self.assertTrue(whole.startswith("accepted "))
            self.assertTrue(union.audit().startswith("rejected rule=10 "))
            env = Windows(union, union.folder / "out", 3).env(HERE=EXAMPLE, WIDTHS=widths)
            done = subprocess.run(["sh", "-c", SHELL_LOOP], env=env, capture_output=True, text=True, check=False)
            self.assertEqual((done.stdout, done.stderr), (f"{whole}\n", f"slopes: widths by row, {widths}\n"))


class Places(unittest.TestCase):
    """Rasters that lie on a DEM, and such that don't, in degrees and in metres."""

    PLACES = [
        ("degrees", "-84.5", "36.25", "0.001", "0.0025"),
        ("metres", "431012.5", "5271987.5", "25", "30"),
    ]

    def setUp(self) -> None:
        scratch = tempfile.TemporaryDirectory()
        self.addCleanup(scratch.cleanup)
        self.folder, self.cut = Path(scratch.name), Path(scratch.name, "cut")
        self.cut.mkdir()
        for name in ("dem", *NO_DATA):
            (self.folder / f"{name}.bil").write_bytes(bytes(ROWS * COLS))

    def write(self, name: str, place: list[Decimal]) -> None:
        lines = [f"{key} {number}\n" for key, number in zip(("ULXMAP", "ULYMAP", "XDIM", "YDIM"), place)]
        header = f"NROWS {ROWS}\nNCOLS {COLS}\nNBITS 8\nNODATA 0\n{''.join(lines)}"
        (self.folder / f"{name}.hdr").write_text(header)

    def lies_there(self, place: list[Decimal]) -> bool:
        """Whether windows are cut out of a raster of this place."""
        self.write("acc", place)
        box = Box(18, 36, 20, 20)
        window = Window("w", Box(0, 0, 20, 20), "nesw", box, [str(self.folder / "dem.bil")])
        try:
            cut_window(window, 0, self.folder, self.cut)
        except CannotCut as error:
            self.assertIn("acc.bil: it doesn't lie where", str(error))
            return False
        return True

    def test_each_axis(self) -> None:
        """A hundredth of a pixel at the first one, and another over all rows or columns, to both sides."""
        for unit, *numbers in self.PLACES:
            place = [Decimal(number) for number in numbers]
            for name in ("dem", *NO_DATA):
                self.write(name, place)
            for axis, cells in ((0, COLS), (1, ROWS)):
                for share in ("-10", "-1", "-0.4", "-0.011", "-0.009", "0", "0.009", "0.011", "0.4", "1", "10"):
                    lies = abs(Decimal(share)) < Decimal("0.01")
                    shifted, sized = list(place), list(place)
                    shifted[axis] += Decimal(share) * place[axis + 2]
                    sized[axis + 2] *= 1 + Decimal(share) / cells
                    with self.subTest(unit=unit, axis=axis, share=share):
                        self.assertEqual((self.lies_there(shifted), self.lies_there(sized)), (lies, lies))
                for factor in ("0.001", "0.2", "0.999", "1.001", "5"):
                    sized = list(place)
                    sized[axis + 2] *= Decimal(factor)
                    with self.subTest(unit=unit, axis=axis, factor=factor):
                        self.assertFalse(self.lies_there(sized))


if __name__ == "__main__":
    unittest.main()
