"""The plan of windows: each cell is judged once, and each window shows what the union has there."""

import itertools
import os
import re
import subprocess
import sys
import tempfile
import unittest
from collections import Counter
from pathlib import Path

from scripts import EXAMPLE, void_tile
from windows import MOST_TILES, Box, Corner, Tiles, Window, corner_of, plain, plan, raster_plan, spans


def judged(first: int, cells: int, before: bool, behind: bool) -> range:
    """The cells that a window judges: all but the outermost ones of inner sides."""
    return range(first + before, first + cells - behind)


class Spans(unittest.TestCase):
    """Windows along one side."""

    def test_cells_are_judged_once(self) -> None:
        for tiles, width, steps in itertools.product(range(1, 25), range(1, MOST_TILES), (3, 4, 10)):
            found = spans(tiles, width, steps)
            cells = [cell for span in found for cell in judged(span.first, span.cells, span.before, span.behind)]
            self.assertEqual(cells, list(range(tiles * steps + 1)), (tiles, width, steps))

    def test_neighbours_overlap_by_two_cells(self) -> None:
        for tiles, width, steps in itertools.product(range(2, 25), range(1, MOST_TILES), (3, 4, 10)):
            shown = Counter(
                cell for span in spans(tiles, width, steps) for cell in range(span.first, span.first + span.cells)
            )
            seams = len(spans(tiles, width, steps)) - 1
            expected = {1: tiles * steps + 1 - 2 * seams} | ({2: 2 * seams} if seams else {})
            self.assertEqual(Counter(shown.values()), expected, (tiles, width, steps))

    def test_tiles_over_a_window_are_its_mosaic(self) -> None:
        for tiles, width, steps in itertools.product(range(1, 25), range(1, MOST_TILES), (3, 4, 10)):
            for span in spans(tiles, width, steps):
                over = {
                    tile
                    for tile in range(tiles)
                    for cell in (span.first, span.first + span.cells - 1)
                    if 0 <= cell - tile * steps <= steps
                }
                self.assertLessEqual(over, set(range(span.tile, span.tile + span.tiles)))
                self.assertLessEqual(span.tiles, MOST_TILES)
                # A side that isn't inner is an edge of the mosaic.
                self.assertTrue(span.before or span.first == span.tile * steps == 0)
                self.assertTrue(
                    span.behind or span.first + span.cells - 1 == (span.tile + span.tiles) * steps == tiles * steps
                )


class Parts(unittest.TestCase):
    """Windows of a DEM."""

    def test_cells_are_judged_once(self) -> None:
        """Of each number of rows and columns; none is larger than it may be, and neighbours share two rows or columns."""
        for rows, pixels in itertools.product(range(1, 61), range(4, 21)):
            cols = 61 - rows
            windows = raster_plan("/dem.bil", rows, cols, pixels)
            cells = [
                (row, col)
                for window in windows
                for row in judged(window.place.row, window.place.rows, "n" in window.inner, "s" in window.inner)
                for col in judged(window.place.col, window.place.cols, "w" in window.inner, "e" in window.inner)
            ]
            self.assertEqual(sorted(cells), list(itertools.product(range(rows), range(cols))), (rows, pixels))
            self.assertLessEqual({window.box for window in windows}, {window.mosaic._replace(row=0, col=0) for window in windows})
            self.assertLessEqual(max(max(window.place[2:]) for window in windows), pixels)


class Plans(unittest.TestCase):
    """Windows of tiles in a folder."""

    def setUp(self) -> None:
        scratch = tempfile.TemporaryDirectory()
        self.addCleanup(scratch.cleanup)
        self.folder = Path(scratch.name)
        self.tiles = self.folder / "tiles"
        self.tiles.mkdir()

    def add(self, *names: str) -> None:
        for name in names:
            (self.tiles / name).touch()

    def run_script(
        self, *words: str, tiles: Path | None = None, out: Path | None = None
    ) -> subprocess.CompletedProcess[str]:
        command = [
            sys.executable,
            "-B",
            str(EXAMPLE / "windows.py"),
            *words,
            str(tiles or self.tiles),
            str(out or self.folder / "out"),
        ]
        return subprocess.run(command, capture_output=True, text=True, check=False)

    def windows(self, *words: str) -> list[Window]:
        run = self.run_script(*words)
        self.assertEqual((run.returncode, run.stderr), (0, ""))
        lines = (self.folder / "out/windows.txt").read_text(encoding="utf-8").splitlines()
        return [Window.of(line.split()) for line in lines]

    def test_lines_by_hand(self) -> None:
        self.add("N01E000.hgt", "N01E001.hgt", "N00E000.hgt", "N00E001.hgt", "readme.txt", "N00E001.zip")
        found = self.windows("--side", "5", "--width", "1")
        names = [[os.path.basename(tile)[:7] for tile in window.tiles] for window in found]
        self.assertEqual([window.name for window in found], ["r0c0", "r0c1", "r1c0", "r1c1"])
        self.assertEqual([window.inner for window in found], ["es", "sw", "ne", "nw"])
        self.assertEqual(
            [window.box for window in found], [Box(0, 0, 7, 7), Box(0, 1, 7, 4), Box(1, 0, 4, 7), Box(1, 1, 4, 4)]
        )
        self.assertEqual(
            [window.mosaic for window in found], [Box(0, 0, 9, 9), Box(0, 4, 9, 5), Box(4, 0, 5, 9), Box(4, 4, 5, 5)]
        )
        self.assertEqual(
            names,
            [["N01E000", "N01E001", "N00E000", "N00E001"], ["N01E001", "N00E001"], ["N00E000", "N00E001"], ["N00E001"]],
        )

    def test_one_window(self) -> None:
        self.add("N00W001.hgt", "S01E000.hgt")
        (window,) = self.windows("--side", "11", "--width", "2")
        self.assertEqual((window.inner, window.box, window.mosaic), ("", Box(0, 0, 21, 21), Box(0, 0, 21, 21)))
        self.assertEqual(str(window).split()[2], "-")
        self.assertEqual([os.path.basename(tile) for tile in window.tiles], ["N00W001.hgt", "S01E000.hgt"])

    def test_folders_of_tiles_that_are_refused(self) -> None:
        for names, said in (
            (("N01E002.hgt", "n01e002.HGT"), "are one tile"),
            (("S00E002.hgt",), "no tile has this name: it is N00E002"),
            (("N01W000.hgt",), "it is N01E000"),
        ):
            for path in self.tiles.iterdir():
                path.unlink()
            self.add(*names)
            run = self.run_script("--side", "5")
            self.assertEqual((run.returncode, said in run.stderr), (1, True), run.stderr)
        self.assertFalse((self.folder / "out").exists())

    def test_paths_that_a_shell_would_change(self) -> None:
        """They are refused by name: in a tile's path, and in that of OUT."""
        for sign in " \t\n!\"#$&'()*:;<>?[\\]^`{|}~\x7fäſ٣":
            with self.subTest(sign), self.assertRaisesRegex(SystemExit, f"^{re.escape(f'/t{sign}x')}: "):
                plain(Path(f"/t{sign}x"))
        self.add("N01E002.hgt")
        for name in ("t$(touch x)", "R&D", "g[12]"):
            folder = self.folder / name
            run = self.run_script("--side", "5", out=folder)
            self.assertEqual((run.returncode, f"{folder}: " in run.stderr), (1, True), run.stderr)
            self.assertFalse(folder.exists())
            folder.mkdir()
            (folder / "N01E002.hgt").touch()
            run = self.run_script("--side", "5", tiles=folder)
            self.assertEqual((run.returncode, f"{folder}/N01E002.hgt: " in run.stderr), (1, True), run.stderr)
        # A long s is an S to a pattern that takes small letters too.
        self.add("ſ01E002.hgt")
        run = self.run_script("--side", "5")
        self.assertEqual((run.returncode, f"{self.tiles}/ſ01E002.hgt: " in run.stderr), (1, True), run.stderr)
        self.assertFalse((self.folder / "out").exists())
        # The others may be there.
        tiles = self.folder / "-aZ09_./+,=@%-"
        tiles.mkdir(parents=True)
        (tiles / "N01E002.hgt").touch()
        run = self.run_script("--side", "5", tiles=tiles, out=tiles / "out")
        self.assertEqual((run.returncode, run.stderr), (0, ""))
        self.assertEqual((tiles / "out/windows.txt").read_text().split()[4:], [f"{tiles}/N01E002.hgt"])

    def test_voids_of_another_side_are_written_again(self) -> None:
        self.add("N01E001.hgt", "N00E002.hgt")
        (self.folder / "out/voids").mkdir(parents=True)
        (self.folder / "out/voids/voids").write_bytes(b"part")
        found = self.windows("--side", "5", "--width", "1")
        voids = {tile for window in found for tile in window.tiles if "/voids/" in tile}
        self.assertTrue(voids)
        for tile in voids:
            self.assertEqual(Path(tile).read_bytes(), b"\x80\x00" * 25)

    def test_voids_stand_in_at_corners(self) -> None:
        self.add("N01E000.hgt", "N00E001.hgt")
        found = {window.name: window for window in self.windows("--side", "5", "--width", "1")}
        voids = {name: [tile for tile in window.tiles if "/voids/" in tile] for name, window in found.items()}
        names = {name: [os.path.basename(tile)[:7] for tile in tiles] for name, tiles in voids.items()}
        self.assertEqual(names, {"r0c0": [], "r0c1": ["N01E001"], "r1c0": ["N00E000"], "r1c1": []})
        for tile in itertools.chain(*voids.values()):
            self.assertEqual(Path(tile).read_bytes(), void_tile(5))

    def test_mosaics_are_the_boxes_of_their_tiles(self) -> None:
        corners = [Corner(lat, lon) for lat in range(3, -5, -1) for lon in range(-4, 5) if (7 * lat + 3 * lon) % 3]
        self.add(*(f"{corner}.hgt" for corner in corners))
        for width in range(1, MOST_TILES):
            tiles = Tiles(self.tiles, self.folder / "voids", 5)
            for window in plan(tiles, Corner(3, -4), Corner(-4, 4), width):
                handed = [corner for tile in window.tiles if (corner := corner_of(os.path.basename(tile)))]
                top, left = max(corner.lat for corner in handed), min(corner.lon for corner in handed)
                down, across = top - min(corner.lat for corner in handed), max(corner.lon for corner in handed) - left
                self.assertEqual(window.mosaic, Box((3 - top) * 4, (left + 4) * 4, down * 4 + 5, across * 4 + 5))
                self.assertLessEqual(max(down, across), MOST_TILES - 1)
                inside = {
                    corner
                    for corner in corners
                    if top - down <= corner.lat <= top and left <= corner.lon <= left + across
                }
                self.assertLessEqual(inside, set(handed))

    def test_another_plan_in_a_folder_that_has_one(self) -> None:
        self.add("N01E000.hgt", "N00E001.hgt")
        first = self.windows("--side", "5", "--width", "1")
        run = self.run_script("--side", "5", "--width", "2")
        self.assertEqual(run.returncode, 1)
        self.assertIn("is another plan", run.stderr)
        self.assertEqual(self.windows("--side", "5", "--width", "1"), first)

    def test_a_box(self) -> None:
        self.add("N01E000.hgt", "N00E000.hgt", "N00E003.hgt")
        found = self.windows("--side", "5", "--width", "1", "--box", "N01E000", "N00E001")
        self.assertEqual([window.name for window in found], ["r0c0", "r0c1", "r1c0", "r1c1"])
        self.assertTrue(found[1].tiles[0].endswith("/voids/N01E001.hgt"))

    def test_names_sort_in_row_order(self) -> None:
        self.add("N00E000.hgt", "S11E002.hgt")
        names = [window.name for window in self.windows("--side", "5", "--width", "1")]
        self.assertEqual(names, sorted(names))
        self.assertEqual((names[0], names[-1], len(names)), ("r00c00", "r11c02", 36))

    def test_words_that_are_refused(self) -> None:
        self.add("N00E000.hgt")
        (self.folder / "empty").mkdir()
        for words, tiles, said in [
            (["--width", "8"], None, "--width 8"),
            (["--width", "0"], None, "--width 0"),
            (["--side", "3"], None, "--side 3"),
            (["--side", "3602"], None, "--side 3602"),
            (["--box", "N00E000", "N0E1"], None, "no tile's name: N00E000 N0E1"),
            ([], self.folder / "empty", "no tiles in"),
        ]:
            with self.subTest(words=words, tiles=tiles):
                run = self.run_script(*words, tiles=tiles)
                self.assertEqual(run.returncode, 1)
                self.assertIn(said, run.stderr)
                self.assertFalse((self.folder / "out/windows.txt").exists())


if __name__ == "__main__":
    unittest.main()
