"""Rasters and lists of sinks that are cut out of those of a union, compared with slices of arrays."""

import re
import subprocess
import sys
import tempfile
import unittest
from collections.abc import Callable, Sequence
from dataclasses import replace
from pathlib import Path

import numpy as np
from osgeo import gdal
from scripts import EXAMPLE

from answers import Answers
from cut import NO_DATA, cut_sinks, cut_widths, opened
from rasters import CannotCut
from windows import Box, Window

gdal.UseExceptions()
STEPS = 10
ROWS, COLS = 31, 41
WEST, NORTH = -3, 2
"""The union: 3 by 4 tiles of side 11, from N01W003 to S01E000."""

KINDS = {"con": np.dtype("i2"), "dir": np.dtype("u1"), "acc": np.dtype("u4"), "bas": np.dtype("u4")}
GDAL_KINDS = {
    "i1": gdal.GDT_Int16,
    "i2": gdal.GDT_Int16,
    "u1": gdal.GDT_Byte,
    "u4": gdal.GDT_UInt32,
    "i4": gdal.GDT_Int32,
    "f4": gdal.GDT_Float32,
}
MIDDLE = Window(
    "r1c1", Box(1, 1, 12, 12), "nesw", Box(10, 10, 21, 21), ["x/N00W002.hgt", "x/N00W001.hgt", "x/S01W001.hgt"]
)
CORNER = Window("r2c3", Box(1, 1, 10, 10), "nw", Box(20, 30, 11, 11), ["x/S01E000.hgt"])
ONE_ROW = Window("w", Box(0, 0, 1, 9), "", Box(0, 0, 1, 9), ["x.bil"])


def numbers(kind: np.dtype, seed: int) -> np.ndarray:
    limits = np.iinfo(kind)
    return np.random.default_rng(seed).integers(limits.min, limits.max, (ROWS, COLS), kind, endpoint=True)


def write_bil(
    path: Path, array: np.ndarray, order: str = "I", skipped: int = 0, padding: int = 0, more: str = ""
) -> None:
    pixels = array.astype(array.dtype.newbyteorder("<" if order == "I" else ">"))
    path.write_bytes(b"s" * skipped + b"".join(row.tobytes() + b"p" * padding for row in pixels))
    rows, cols = array.shape
    kind = "SIGNEDINT" if array.dtype.kind == "i" else "UNSIGNEDINT"
    path.with_suffix(".hdr").write_text(
        f"nrows {rows}\nNCOLS {cols}\r\nNBITS {8 * array.itemsize}\nPIXELTYPE {kind}\nBYTEORDER {order}\n"
        f"SKIPBYTES {skipped}\n"
        f"TOTALROWBYTES {cols * array.itemsize + padding}\nULXMAP {WEST}.0\nULYMAP {NORTH}\nXDIM 0.1\nYDIM 0.1\n{more}"
    )


def write_tif(
    path: Path,
    array: np.ndarray,
    nodata: float | None = None,
    west: float = WEST,
    north: float = NORTH,
    step: float = 0.1,
    options: Sequence[str] = (),
    height: float | None = None,
) -> None:
    rows, cols = array.shape
    name = array.dtype.str[1:]
    file = gdal.GetDriverByName("GTiff").Create(str(path), cols, rows, 1, GDAL_KINDS[name], list(options))
    height = height or step
    file.SetGeoTransform([west - step / 2, step, 0, north + height / 2, 0, -height])
    file.GetRasterBand(1).WriteArray(array)
    if nodata is not None:
        file.GetRasterBand(1).SetNoDataValue(nodata)


class Cuts(unittest.TestCase):
    """The script, on small rasters."""

    def setUp(self) -> None:
        scratch = tempfile.TemporaryDirectory()
        self.addCleanup(scratch.cleanup)
        self.folder = Path(scratch.name)
        self.rasters, self.cut = self.folder / "rasters", self.folder / "cut"
        self.rasters.mkdir()
        self.cut.mkdir()
        self.arrays = {name: numbers(kind, seed) for seed, (name, kind) in enumerate(KINDS.items())}
        for name, array in self.arrays.items():
            write_bil(self.rasters / f"{name}.bil", array)

    def run_script(self, window: Window, *words: str) -> str:
        command = [
            sys.executable,
            "-B",
            str(EXAMPLE / "cut.py"),
            "--side",
            str(STEPS + 1),
            *words,
            self.rasters,
            self.cut,
        ]
        run = subprocess.run([*command, *str(window).split()], capture_output=True, text=True, check=False)
        self.assertEqual(run.returncode, 1 if run.stderr else 0)
        return run.stderr.strip()

    def judge(self, window: Window, arrays: dict[str, np.ndarray]) -> None:
        """Compares what was cut, as GDAL reads it, with slices of these arrays."""
        top, left, rows, cols = window.mosaic
        for name, array in arrays.items():
            # Without PIXELTYPE GDAL takes 8 and 32 bits for unsigned, as drain does.
            file = gdal.Open(str(self.cut / f"{name}.bil"))
            found = file.ReadAsArray()
            self.assertEqual((found.shape, found.dtype), ((rows, cols), array.dtype), name)
            np.testing.assert_array_equal(found, array[top : top + rows, left : left + cols], name)
            expected = [WEST + left / STEPS - 0.05, 0.1, 0, NORTH - top / STEPS + 0.05, 0, -0.1]
            np.testing.assert_allclose(file.GetGeoTransform(), expected, rtol=0, atol=1e-12)

    def test_bil(self) -> None:
        for window in (MIDDLE, CORNER):
            self.assertEqual(self.run_script(window), "")
            self.judge(window, self.arrays)

    def test_bil_of_other_forms(self) -> None:
        self.arrays = {
            name: numbers(np.dtype(kind), 9)
            for name, kind in [("con", "i4"), ("dir", "i2"), ("acc", "u2"), ("bas", "i4")]
        }
        for skipped, (name, array) in enumerate(self.arrays.items()):
            write_bil(self.rasters / f"{name}.bil", array, "IM"[skipped % 2], 5 * skipped, 3 * (3 - skipped))
        self.assertEqual(self.run_script(MIDDLE), "")
        self.judge(MIDDLE, self.arrays)

    def test_headers_with_other_words(self) -> None:
        """BANDROWBYTES in place of TOTALROWBYTES; no PIXELTYPE, which is signed for 16 bits alone."""
        self.arrays = {
            name: numbers(np.dtype(kind), 9) for name, kind in [("con", "i2"), ("dir", "u1"), ("acc", "u4"), ("bas", "i2")]
        }
        for padding, (name, array) in enumerate(self.arrays.items()):
            write_bil(self.rasters / f"{name}.bil", array, padding=padding)
            header = self.rasters / f"{name}.hdr"
            text = header.read_text().replace("TOTALROWBYTES", "BANDROWBYTES")
            header.write_text(re.sub(r"PIXELTYPE .*\n", "", text))
        self.assertEqual(self.run_script(MIDDLE), "")
        self.judge(MIDDLE, self.arrays)

    def test_no_data_numbers(self) -> None:
        write_bil(self.rasters / "con.bil", self.arrays["con"], more="NODATA -9999.0\n")
        self.assertEqual(self.run_script(MIDDLE), "")
        for name, nodata in {**NO_DATA, "con": -9999}.items():
            file = gdal.Open(str(self.cut / f"{name}.bil"))
            self.assertEqual(file.GetRasterBand(1).GetNoDataValue(), nodata)

    def test_rasters_that_gdal_reads(self) -> None:
        for path in self.rasters.iterdir():
            path.unlink()
        tiled = ["TILED=YES", "BLOCKXSIZE=16", "BLOCKYSIZE=16", "COMPRESS=DEFLATE"]
        for name in ("con", "dir", "acc"):
            write_tif(self.rasters / f"{name}.tif", self.arrays[name], options=tiled)
        bas = self.arrays["bas"]
        write_tif(self.folder / "west.tif", bas[:, :20])
        write_tif(self.folder / "east.tif", bas[:, 20:], west=WEST + 2)
        gdal.BuildVRT(
            str(self.rasters / "bas.vrt"), [str(self.folder / "west.tif"), str(self.folder / "east.tif")]
        ).FlushCache()
        for window in (MIDDLE, CORNER):
            self.assertEqual(self.run_script(window), "")
            self.judge(window, self.arrays)

    def test_files_of_rasters(self) -> None:
        """Those by which one sees that a raster changed: headers, and all parts of a VRT, in VRTs too."""
        con = self.arrays["con"]
        parts = [self.folder / name for name in ("west.tif", "east.tif", "inner.vrt")]
        write_tif(parts[0], con[:, :20])
        write_tif(parts[1], con[:, 20:], west=WEST + 2)
        gdal.BuildVRT(str(parts[2]), [str(parts[1])]).FlushCache()
        gdal.BuildVRT(str(self.rasters / "con.vrt"), [str(parts[0]), str(parts[2])]).FlushCache()
        for name in ("con.bil", "con.hdr", "acc.bil", "acc.hdr"):
            (self.rasters / name).unlink()
        write_tif(self.rasters / "acc.tif", self.arrays["acc"])
        for name, files in [
            ("con", [self.rasters / "con.vrt", *parts]),
            ("dir", [self.rasters / "dir.bil", self.rasters / "dir.hdr"]),
            ("acc", [self.rasters / "acc.tif"]),
        ]:
            found = opened(self.rasters, name).files
            self.assertEqual((found[0], sorted(found)), (files[0], sorted(files)))
        env = {"OUT": "out", "RASTERS": str(self.rasters), "DRAIN": "/bin/true"}
        before = Answers(env).states
        parts[1].touch()
        self.assertNotEqual(Answers(env).states, before)

    def test_cells_that_a_raster_lacks(self) -> None:
        """Rasters of 15 by 12 cells from the union's cell (12, 14) on, in a mosaic of 21 by 21 from (10, 10) on."""
        for name, array in self.arrays.items():
            write_bil(self.rasters / f"{name}.bil", array[12:27, 14:26])
            header = self.rasters / f"{name}.hdr"
            header.write_text(
                header.read_text().replace("ULXMAP -3.0", "ULXMAP -1.6").replace("ULYMAP 2", "ULYMAP 0.8")
            )
        self.assertEqual(self.run_script(MIDDLE), "")
        for name, array in self.arrays.items():
            expected = np.full_like(array, NO_DATA[name])
            expected[12:27, 14:26] = array[12:27, 14:26]
            self.judge(MIDDLE, {name: expected})

    def test_a_raster_elsewhere(self) -> None:
        for header in self.rasters.glob("*.hdr"):
            header.write_text(header.read_text().replace("ULYMAP 2", "ULYMAP 12"))
        self.assertEqual(self.run_script(MIDDLE), "")
        self.judge(MIDDLE, {name: np.full_like(array, NO_DATA[name]) for name, array in self.arrays.items()})
        for name, array in self.arrays.items():
            (self.rasters / f"{name}.bil").unlink()
            write_tif(self.rasters / f"{name}.tif", array, west=WEST + 50)
        self.assertEqual(self.run_script(MIDDLE), "")
        self.judge(MIDDLE, {name: np.full_like(array, NO_DATA[name]) for name, array in self.arrays.items()})

    def test_rasters_off_the_tiles(self) -> None:
        """By 0.4 cells to each side; such a raster is refused by its name."""
        for name, array in self.arrays.items():
            bil, header, tif = (self.rasters / f"{name}.{kind}" for kind in ("bil", "hdr", "tif"))
            pixels, text = bil.read_bytes(), header.read_text()
            for key, place in (("ULXMAP", WEST), ("ULYMAP", NORTH)):
                for shift in (-0.04, 0.04):
                    with self.subTest(name=name, key=key, shift=shift):
                        header.write_text(re.sub(rf"{key} \S+", f"{key} {place + shift}", text))
                        self.assertIn(f"{bil}: ", found := self.run_script(MIDDLE))
                        self.assertIn("aren't whole cells", found)
                        bil.unlink()
                        write_tif(tif, array, **{"west" if key == "ULXMAP" else "north": place + shift})
                        self.assertIn(f"{tif}: ", found := self.run_script(MIDDLE))
                        self.assertIn("aren't whole cells", found)
                        tif.unlink()
                        bil.write_bytes(pixels)
            header.write_text(text)
        self.assertEqual(self.run_script(MIDDLE), "")

    def test_rasters_that_are_refused(self) -> None:
        con, header = self.rasters / "con.bil", self.rasters / "con.hdr"
        text, pixels = header.read_text(), con.read_bytes()
        for name, old, new, said in [
            ("half a pixel off", "ULXMAP -3.0", "ULXMAP -3.05", "aren't whole cells"),
            ("smaller pixels", "DIM 0.1", "DIM 0.05", "0.05 degrees wide"),
            ("larger pixels", "DIM 0.1", "DIM 0.2", "0.2 degrees wide"),
            ("pixels too high", "YDIM 0.1", "YDIM 0.2", "aren't square"),
            ("pixels too wide", "YDIM 0.1", "YDIM 0.05", "aren't square"),
            ("a key twice", "NBITS 16", "NBITS 16\nNBITS 8", "NBITS stands twice"),
            ("part of a number", "NBITS 16", "NBITS 16\nNODATA -9999.5", "isn't whole"),
            ("not a number", "NBITS 16", "NBITS 16\nNODATA nan", "isn't whole"),
            ("a long number", "NBITS 16", "NBITS 16\nNODATA 1e999999999", "isn't whole, or has more than 32 bits"),
            ("no place", "ULYMAP 2\n", "", "no header of a raster: 'ULYMAP'"),
            ("floating point", "SIGNEDINT", "FLOAT", "not one band of whole numbers"),
            ("64 bits", "NBITS 16", "NBITS 64", "not one band of whole numbers"),
            ("no number", "nrows 31", "nrows x", "no header of a raster"),
        ]:
            with self.subTest(name):
                self.assertIn(old, text)
                header.write_text(text.replace(old, new))
                self.assertIn(said, self.run_script(MIDDLE))
        header.write_text(text + "NODATA 70000\n")
        self.assertIn(
            "don't hold the no-data number 70000",
            self.run_script(Window("w", Box(0, 0, 9, 9), "", Box(30, 0, 11, 11), ["S02W003.hgt"])),
        )
        header.write_text(text)
        con.write_bytes(pixels[: 31 * COLS * 2 - 23])
        self.assertIn("con.bil: row 30 is cut short", self.run_script(MIDDLE))
        con.unlink()
        self.assertIn("no con.bil, con.vrt or con.tif", self.run_script(MIDDLE))
        write_tif(self.rasters / "con.tif", np.zeros((ROWS, COLS), "f4"))
        self.assertIn("1 bands of Float32; one of whole numbers is needed", self.run_script(MIDDLE))
        (self.rasters / "con.tif").write_bytes(b"none")
        self.assertIn("con.tif", self.run_script(MIDDLE))

    def test_tifs_that_are_refused(self) -> None:
        """Pixels are cut as they are: what says that they mean other numbers, or none, is refused, of a DEM too."""
        changes: list[tuple[str, Callable[[gdal.Dataset, gdal.Band], object], str]] = [
            ("a scale", lambda _, band: band.SetScale(10), "a scale or an offset"),
            ("an offset", lambda _, band: band.SetOffset(-5), "a scale or an offset"),
            ("a mask", lambda _, band: band.CreateMaskBand(gdal.GMF_PER_DATASET), "a mask"),
            ("part of a number", lambda _, band: band.SetNoDataValue(-9999.5), "isn't whole"),
            ("not a number", lambda _, band: band.SetNoDataValue(float("nan")), "isn't whole"),
            ("no bound", lambda _, band: band.SetNoDataValue(float("-inf")), "isn't whole"),
            ("south above", lambda file, _: file.SetGeoTransform([-3.05, 0.1, 0, -1.05, 0, 0.1]), "north above"),
            ("turned", lambda file, _: file.SetGeoTransform([-3.05, 0.1, 0.01, 2.05, 0.01, -0.1]), "north above"),
            ("sheared", lambda file, _: file.SetGeoTransform([-3.05, 0.1, 0, 2.05, 0.01, -0.1]), "north above"),
            ("neither", lambda _, band: (band.SetScale(1), band.SetOffset(0), band.SetNoDataValue(-9999)), ""),
        ]
        for number, (name, change, said) in enumerate(changes):
            with self.subTest(name):
                dem = self.folder / f"{number}.tif"
                write_tif(dem, self.arrays["con"])
                file = gdal.Open(str(dem), gdal.GA_Update)
                change(file, file.GetRasterBand(1))
                file = None
                for bil in self.rasters.glob("con.*"):
                    bil.unlink()
                for beside in self.folder.glob(f"{number}.tif*"):
                    (self.rasters / beside.name.replace(str(number), "con", 1)).write_bytes(beside.read_bytes())
                self.assertIn(said, found := self.run_script(MIDDLE))
                self.assertEqual(bool(found), bool(said), found)
                write_bil(self.rasters / "con.bil", self.arrays["con"])
                window = Window("w", Box(0, 0, 9, 9), "", Box(0, 0, 9, 9), [str(dem)])
                self.assertIn(said, found := self.run_script(window))
                self.assertEqual(bool(found), bool(said), found)

    def test_tifs_off_a_dem(self) -> None:
        """By this share of a pixel along each axis."""
        write_bil(self.folder / "dem.bil", self.arrays["con"])
        (self.rasters / "con.bil").unlink()
        window = Window("w", Box(0, 0, 9, 9), "", Box(0, 0, 9, 9), [str(self.folder / "dem.bil")])
        for key, place in (("west", WEST), ("north", NORTH)):
            for shift in (-10, -1, -0.4, 0, 0.4, 1, 10):
                with self.subTest(key=key, shift=shift):
                    write_tif(self.rasters / "con.tif", self.arrays["con"], **{key: place + shift / STEPS})
                    self.assertEqual("con.tif: it doesn't lie where" in self.run_script(window), shift != 0)

    def test_parts_of_a_dem(self) -> None:
        """Boxes of pixels of any size, with and without a no-data number, out of BIL files and what GDAL reads."""
        self.arrays["dem"] = numbers(np.dtype("i4"), 7)
        write_bil(self.folder / "dem.bil", self.arrays["dem"], "M", 3, 5)
        for header in [self.folder / "dem.hdr", *self.rasters.glob("*.hdr")]:
            header.write_text(header.read_text().replace("YDIM 0.1\n", "YDIM 0.25\n"))
        write_tif(self.folder / "dem.tif", self.arrays["dem"], nodata=-7, step=0.1, height=0.25)
        for source, nodata in (("dem.bil", None), ("dem.tif", -7)):
            for box in (Box(0, 0, 9, 12), Box(7, 10, 24, 31), Box(12, 5, 1, 3)):
                window = Window("w", Box(0, 0, box.rows, box.cols), "", box, [str(self.folder / source)])
                self.assertEqual(self.run_script(window), "")
                for name, array in self.arrays.items():
                    file = gdal.Open(str(self.cut / f"{name}.bil"))
                    rows = array[box.row : box.row + box.rows, box.col : box.col + box.cols]
                    np.testing.assert_array_equal(file.ReadAsArray(), rows, name)
                    expected = [WEST + box.col / 10 - 0.05, 0.1, 0, NORTH - box.row / 4 + 0.125, 0, -0.25]
                    np.testing.assert_allclose(file.GetGeoTransform(), expected, rtol=0, atol=1e-12)
                self.assertEqual("NODATA" in (self.cut / "dem.hdr").read_text(), nodata is not None)
                dem = gdal.Open(str(self.cut / "dem.bil"))
                self.assertEqual(dem.GetRasterBand(1).GetNoDataValue(), nodata)

    def test_a_list_of_sinks(self) -> None:
        (self.folder / "sinks.txt").write_bytes(b"10 10\n11 11\n30 30\n\n22 22")
        self.assertEqual(self.run_script(MIDDLE, "--sinks", str(self.folder / "sinks.txt")), "")
        self.assertEqual((self.cut / "sinks.txt").read_bytes(), b"\n1 1\n\n\n12 12\n")


class Sinks(unittest.TestCase):
    """Lines of a list, in a window of rows and columns 11 to 22 of the union, counted from row and column 10."""

    def test_lines(self) -> None:
        for line, expected in [
            (b"11 11\n", b"1 1\n"),
            (b" \t012  13 \r\n", b"2 3\n"),
            (b"22 22", b"12 12\n"),
            (b"10 11\n", b"\n"),
            (b"11 23\n", b"\n"),
            (b"4294967295 0\n", b"\n"),
            (b"4294967296 0\n", b"4294967296 0\n"),
            (b"\n", b"\n"),
            (b"-1 11\n", b"-1 11\n"),
            (b"11\n", b"11\n"),
            (b"11 11 11\n", b"11 11 11\n"),
            (b"x", b"x"),
            (b"9" * 5_000 + b" 11\n", b"9" * 5_000 + b" 11\n"),
            (b"0" * 5_000 + b"11 11\n", b"1 1\n"),
        ]:
            with self.subTest(line):
                self.assertEqual(list(cut_sinks(iter([line]), MIDDLE)), [expected])


class Widths(unittest.TestCase):
    """Texts by row, in a mosaic of rows 10 to 30, beyond which the union goes on, or ends."""

    ROWS = [b"%d 2000\n" % (1_000 + row) for row in range(40)]
    SOUTH = replace(MIDDLE, inner="new")

    def test_rows(self) -> None:
        """Those of the mosaic, however their lines are written; empty lines are no rows."""
        text = [b"\n", *self.ROWS[:10], b" \t\r\n", b" 01010\t2000\r\n", b"\n", *self.ROWS[11:30], b"1030 2000"]
        for window, more in ((MIDDLE, []), (self.SOUTH, []), (MIDDLE, [b"\n", *self.ROWS[31:]])):
            self.assertEqual(list(cut_widths([*text, *more], window)), self.ROWS[10:31])

    def test_texts_that_are_refused(self) -> None:
        first, ends = self.ROWS[:3], (b"1 0\n", b"0 1\n", b"1073741825 1\n", b"1 1073741825", b"x", b"1", b"1 2 3\n")
        texts = [([*first, end, *self.ROWS[4:31]], MIDDLE, "line 4 isn't a width") for end in ends]
        texts += [([*first, end], MIDDLE, "line 4 isn't") for end in (b"-1 2\n", b"1.5 2\n", b"9" * 5_000 + b" 1\n")]
        texts += [(self.ROWS[:30], MIDDLE, "it has 30 rows, and the union at least 31$")]
        texts += [(self.ROWS[:count], self.SOUTH, f"it has {count} rows, and the union 31$") for count in (0, 30, 32)]
        for text, window, said in texts:
            with self.subTest(said=said, text=text[-1:]), self.assertRaisesRegex(CannotCut, f"^{said}"):
                list(cut_widths(text, window))
        self.assertEqual(list(cut_widths([b"1073741824 01\n"], ONE_ROW)), [b"1073741824 1\n"])


if __name__ == "__main__":
    unittest.main()
