"""Which files are read: formats that name no other file or server, sizes before pixels, names as they are."""

import os
import socket
import struct
import subprocess
import sys
import time
from collections.abc import Callable, Iterator
from contextlib import contextmanager
from pathlib import Path
from typing import Any

import numpy as np
import pytest
import rasterio
import rasterio.shutil
import worlds
from conftest import COMPANION, Printed, start
from conftest import drain_gis as command
from drain_gis.errors import OddRaster
from drain_gis.layers import DRIVERS, layer_of

SOURCE = (
    '<VRTDataset rasterXSize="31" rasterYSize="23"><Metadata><MDI key="INTERNAL_MASK_FLAGS_1">2</MDI></Metadata>'
    '<VRTRasterBand dataType="{kind}" band="1"><SimpleSource><SourceFilename>{path}</SourceFilename>'
    "<SourceBand>1</SourceBand></SimpleSource></VRTRasterBand></VRTDataset>"
)
OVERVIEW = '<PAMDataset><Metadata domain="OVERVIEWS"><MDI key="OVERVIEW_FILE">{path}</MDI></Metadata></PAMDataset>'


@pytest.fixture
def level(tmp_path: Path) -> dict[str, str]:
    """A set without voids, as files."""
    return worlds.write_set(tmp_path, worlds.random_world(seed=4, voids=0))


def each(paths: dict[str, str], odd: Path | str) -> Iterator[Printed]:
    """Each command that reads rasters, with an odd one: none of them judges or writes it."""
    out = Path(paths["dem"]).parent / "out"
    yield command("judge", "--con", odd)
    yield command("judge", "--from", "esri", "--dir", odd)
    yield command("judge", "--dem", odd, "--con", odd)
    yield command("import", "--dem", odd, "--con", paths["con"], out)
    yield command("make", odd, f"{out}-con.tif")
    yield command("derive", "--from", "esri", odd, f"{out}-acc.tif")
    assert not [path for path in out.parent.iterdir() if path.name.startswith("out")]
    done = command("judge", *worlds.words({**paths, "bas": str(odd)}))
    assert done.status == 2 and "not judged: bas: " in done.out and "judged: con, dir, acc over" in done.out, done


def test_a_raster_that_names_others_is_refused(tmp_path: Path, level: dict[str, str]) -> None:
    """A VRT, whatever its name is: rasterio and GDAL themselves would read it."""
    for name in ("elsewhere.vrt", "disguised.tif", "N10E010.asc"):
        odd = tmp_path / name
        odd.write_text(SOURCE.format(path=level["dem"], kind="Int16"))
        with rasterio.open(odd) as file:
            assert file.driver == "VRT"
        for done in each(level, odd):
            assert (done.status, done.out) == (2, "") and odd.name in done.error, done


def test_a_tile_that_is_a_vrt_too_stays_a_tile(tmp_path: Path, level: dict[str, str]) -> None:
    """A file of the size and name of a tile, whose samples begin with the text of a VRT."""
    content = SOURCE.format(path=level["dem"], kind="Int16").encode()
    tile = tmp_path / "N10E010.hgt"
    tile.write_bytes(content + b"\n" * (2 * 1201 * 1201 - len(content)))
    done = command("judge", "--dem", tile, "--con", level["con"])
    assert done.status == 2 and "con: 23 rows and 31 columns, dem has 1201 and 1201" in done.error, done


@contextmanager
def server() -> Iterator[tuple[str, Callable[[], bool]]]:
    """GDAL's name of a file of a server here, and whether it was asked. It never answers: GDAL gives up after a second."""
    with socket.create_server(("127.0.0.1", 0)) as listening, rasterio.Env(GDAL_HTTP_TIMEOUT=1):
        listening.setblocking(False)

        def was_asked() -> bool:
            try:
                listening.accept()[0].close()
                return True
            except BlockingIOError:
                return False

        yield f"/vsicurl/http://127.0.0.1:{listening.getsockname()[1]}/secret.tif", was_asked


def test_no_server_is_asked(tmp_path: Path, level: dict[str, str]) -> None:
    with server() as (address, was_asked):
        for name in ("v.tif", "dem.tif.msk", "dem.tif.ovr", "dem.tif.aux.xml"):
            text = OVERVIEW.format(path=address) if name.endswith("xml") else SOURCE.format(path=address, kind="Byte")
            (tmp_path / name).write_text(text)
            words = worlds.words({**level, "dem": str(tmp_path / name) if name == "v.tif" else level["dem"]})
            command("judge", *words, "--out", tmp_path / "r.html")
            command("import", *words, "--overwrite", tmp_path / "out")
            os.remove(tmp_path / name)
            assert not was_asked(), name
        (tmp_path / "dem.tif.aux.xml").write_text(OVERVIEW.format(path=address))
        with rasterio.open(level["dem"]) as file:
            file.files  # pylint: disable=pointless-statement
        assert was_asked(), "GDAL itself asks it"


@pytest.mark.parametrize("name", ["dem.tif.msk", "dem.tif.MSK", "con.tif.msk", "dem.tif.ovr", "dem.aux"])
def test_a_mask_or_overviews_of_another_format_change_nothing(tmp_path: Path, level: dict[str, str], name: str) -> None:
    """GDAL takes a mask beside a raster, in whatever format: here a VRT by which nothing has data."""
    zero = worlds.write_tif(tmp_path / "zero.tif", np.zeros((23, 31), np.uint8))
    (tmp_path / name).write_text(SOURCE.format(path=zero, kind="Byte"))
    done = command("judge", *worlds.words(level))
    assert done.status == 0 or (done.status == 2 and f"{name} " in done.out and "not judged: " in done.out), done


@pytest.mark.parametrize("name", ["con.tif.msk", "con.tif.ovr", "con.tif.aux", "con.tif.aux.xml", "con.tfw", "CON.aux"])
def test_a_pipe_beside_a_raster_is_refused(tmp_path: Path, level: dict[str, str], name: str) -> None:
    """Who opens it waits for ever. Another file's pipe, a folder and a link that leads nowhere don't count."""
    os.mkfifo(tmp_path / "confluence.msk")
    (tmp_path / "con.d").mkdir()
    (tmp_path / "con.prj").symlink_to("nowhere")
    words = [sys.executable, "-m", "drain_gis", "judge", *worlds.words(level)]
    assert subprocess.run(words, cwd=COMPANION, timeout=100).returncode == 0
    os.mkfifo(tmp_path / name)
    done = subprocess.run(words, cwd=COMPANION, timeout=100, capture_output=True, encoding="utf-8")
    assert done.returncode == 2 and f"not judged: con: {tmp_path / name} is no plain file" in done.stdout, done


@pytest.mark.parametrize(
    "path", "GTIFF_DIR:1:{dem} /vsisubfile/0,{dem} zip://{dem} https://x/{dem} /dev/zero .".split()
)
def test_names_that_are_no_file_are_refused(level: dict[str, str], path: str) -> None:
    done = command("judge", "--con", path.format(**level))
    assert (done.status, done.out) == (2, ""), done


ODD = b"caf\xe9 \x1b[31m.tif|a#b.tif|a?b.tif|https:x.tif|zip!a.tif|<img src=x>.tif|$x_{.tif|H\xc3\xb6hen \xce\xa9.tif".split(
    b"|"
)


@pytest.mark.parametrize("name", ODD, ids=repr)
def test_odd_names(tmp_path: Path, files: dict[str, str], name: bytes) -> None:
    """Each is read, is escaped in the report, and turns no terminal red."""
    odd, report = tmp_path / os.fsdecode(name), tmp_path / "r.html"
    os.rename(files["dem"], odd)
    acc = worlds.write_tif(tmp_path / "wrong.tif", np.full((23, 31), 7, np.int32))
    words = ["judge", *worlds.words({**files, "dem": str(odd), "acc": acc}), "--acc-counts", "cells", "--out", report]
    done = command(*words, "--picture", tmp_path / "p.png")
    assert done.status == 1 and "\x1b" not in done.out + done.error, done
    text = report.read_text(encoding="utf-8")
    assert "\x1b" not in text and "<img src=x>" not in text and text.count("<img ") == 1
    if not name.isascii():
        for encoding in ("utf-8", "ascii"):
            done = start(*words, PYTHONIOENCODING=encoding)
            assert (done.status, done.error) == (1, "") and "\x1b" not in done.out, done


def block_of(path: Path, side: int, tile: int) -> Path:
    """A TIFF of one tile, compressed by LZW, that isn't in the file."""
    pairs = ((256, side), (257, side), (258, 8), (259, 5), (262, 1), (322, tile), (323, tile), (324, 0), (325, 0))
    tags = b"".join(struct.pack("<HHII", tag, 4, 1, number) for tag, number in pairs)
    path.write_bytes(struct.pack("<2sHIH", b"II", 42, 8, len(pairs)) + tags + bytes(4))
    return path


@pytest.mark.parametrize(
    ("side", "text"), [(28_801, "blocks of 830,361,856 bytes"), (28_802, "28,801"), (10**9, "28,801")]
)
def test_sizes_are_refused_before_a_pixel_is_read(tmp_path: Path, level: dict[str, str], side: int, text: str) -> None:
    odd, begun = block_of(tmp_path / "block.tif", side, min(28_816, (side + 15) // 16 * 16)), time.monotonic()
    for done in each(level, odd):
        assert done.status == 2 and text in done.error, done
    assert time.monotonic() - begun < 10


def test_a_file_that_stores_next_to_nothing_is_refused(tmp_path: Path, level: dict[str, str]) -> None:
    """400 million pixels in 146 bytes."""
    odd, begun = block_of(tmp_path / "sparse.tif", 20_000, 20_000), time.monotonic()
    assert odd.stat().st_size < 200
    for done in each(level, odd):
        assert done.status == 2 and "claims 400,000,000 bytes of pixels, and holds next to none" in done.out + done.error, done
    assert time.monotonic() - begun < 20


@pytest.mark.parametrize("how", ["deflate", "zstd", "lzw", "lzma", "packbits"])
def test_compressed_and_sparse_rasters_are_read(tmp_path: Path, how: str) -> None:
    """One number packed as tightly as it can be; and a raster of which one tile of 32 is stored."""
    shape: dict[str, Any] = {"height": 2048, "width": 4096, "count": 1, "dtype": "int16", "tiled": True, "sparse_ok": True}
    tile = np.random.default_rng(1).integers(1, 30_000, (512, 512), np.int16)
    for name, numbers in (("full", np.full((2048, 4096), 7, np.int16)), ("sparse", tile)):
        path = tmp_path / f"{name}.tif"
        with rasterio.open(path, "w", driver="GTiff", compress=how, blockxsize=512, blockysize=512, **shape) as file:
            file.write(numbers, 1, window=((0, numbers.shape[0]), (0, numbers.shape[1])))
        found = layer_of("dem", path).window(511, 2)[0][:, [0, 511, 4095]]
        assert found.tolist() == ([[7] * 3] * 2 if name == "full" else [[tile[511, 0], tile[511, 511], 0], [0] * 3])


@pytest.mark.parametrize(
    ("kind", "numbers"),
    [("Int64", (-(2**53) - 1, -5, 2**62 + 1)), ("UInt64", (1, 2**53 + 1, 2**64 - 2)), ("Int32", (-(2**31), -1, 5))],
)
def test_whole_numbers_keep_their_sign(tmp_path: Path, kind: str, numbers: tuple[int, ...]) -> None:
    """As GDAL's own programs read and write them."""
    np.array([numbers], kind.lower()).tofile(tmp_path / "x.raw")
    band = f'<VRTRasterBand dataType="{kind}" band="1" subClass="VRTRawRasterBand"><SourceFilename relativetoVRT="1">x.raw'
    text = f'<VRTDataset rasterXSize="3" rasterYSize="1">{band}</SourceFilename></VRTRasterBand></VRTDataset>'
    (tmp_path / "x.vrt").write_text(text)
    subprocess.run(["gdal_translate", "-q", tmp_path / "x.vrt", tmp_path / "x.tif"], check=True)
    found, blank = layer_of("dem", tmp_path / "x.tif").window(0, 1)
    assert (found.dtype.name, found[0].tolist(), blank.any()) == (kind.lower(), list(numbers), False)
    words = ["--dir", worlds.write_tif(tmp_path / "dir.tif", np.zeros((1, 3), np.uint8), None, None, None)]
    done = command("judge", *words, "--from", "esri", "--bas", tmp_path / "x.tif")
    assert done.status == 0 and f"labels from {numbers[0]} to {numbers[2]} are numbered" in done.out, done


def test_heights_of_64_bits_are_made_and_judged(tmp_path: Path) -> None:
    """Some are below 0."""
    world = worlds.random_world(voids=0)
    dem = worlds.write_tif(tmp_path / "dem.tif", world.dem.astype(np.int64) - 9)
    assert command("make", dem, tmp_path / "con.tif").status == 0
    assert command("judge", "--dem", dem, "--con", tmp_path / "con.tif").status == 0
    with rasterio.open(tmp_path / "con.tif") as file:
        assert np.array_equal(file.read(1), world.con - 9)


def test_formats_of_the_tools_are_read(tmp_path: Path, level: dict[str, str]) -> None:
    """Each is written by GDAL, read, and has the numbers that were written."""
    endings = {"GTiff": "tif", "EHdr": "bil", "ENVI": "img", "SAGA": "sdat", "AAIGrid": "asc", "GSBG": "grd", "GS7BG": "grd", "RST": "rst", "PCRaster": "map"}  # fmt: skip
    for driver, ending in endings.items():
        paths = {}
        for name in ("dem", "con"):
            paths[name] = f"{tmp_path}/{driver}-{name}.{ending}"
            kind = "Float32" if driver in ("PCRaster", "GSBG", "GS7BG") else "Int16"
            more = ["-co", "PCRASTER_VALUESCALE=VS_SCALAR"] if driver == "PCRaster" else []
            subprocess.run(
                ["gdal_translate", "-q", "-of", driver, "-ot", kind, *more, level[name], paths[name]], check=True
            )
        done = command("judge", *worlds.words(paths))
        assert (done.status, done.error) == (0, "") and driver in DRIVERS, (driver, done)
    grass = tmp_path / "grass.txt"
    with rasterio.open(level["dem"]) as file:
        rows = file.read(1).tolist()
    head = "north: 4000000\nsouth: 3999310\neast: 500930\nwest: 500000\nrows: 23\ncols: 31\n"
    grass.write_text(head + "\n".join(" ".join(map(str, row)) for row in rows) + "\n")
    assert command("judge", "--dem", grass, "--con", level["con"]).status == 0


def test_made_heights_have_the_scale_of_the_elevations(tmp_path: Path, level: dict[str, str]) -> None:
    with rasterio.open(level["dem"], "r+") as file:
        file.scales, file.offsets = [0.01], [100]
    made = {"con": tmp_path / "made-con.tif", "dir": tmp_path / "made-dir.tif"}
    assert command("make", level["dem"], *made.values()).status == 0
    done = command("judge", *worlds.words({"dem": level["dem"], **made}))
    assert done.status == 0 and "dem names the scale 0.01 and the offset 100: its numbers are judged as" in done.out, done
    with rasterio.open(made["con"]) as con, rasterio.open(made["dir"]) as codes:
        assert (con.scales, con.offsets, codes.scales) == ((0.01,), (100.0,), (1.0,))


def test_bands_and_scales_are_refused(tmp_path: Path, level: dict[str, str]) -> None:
    with rasterio.open(tmp_path / "two.tif", "w", driver="GTiff", height=23, width=31, count=2, dtype="uint8") as file:
        file.write(np.ones((2, 23, 31), np.uint8))
    for done in each(level, tmp_path / "two.tif"):
        assert done.status == 2 and "2 bands" in done.error, done
    with rasterio.open(level["con"], "r+") as file:
        file.scales = [0.1]
    done = command("judge", *worlds.words(level))
    assert done.status == 2 and "the scale and offset (0.1, 0.0)" in done.out + done.error, done


@pytest.mark.parametrize(
    ("scale", "offset"), [(-1, 0), (0, 0), ("inf", 0), ("nan", 0), (-0.01, 5), (1, "inf"), (1, "-inf"), (2, "nan")]
)
def test_a_scale_that_is_no_number_above_0_is_refused(tmp_path: Path, level: dict[str, str], scale: Any, offset: Any) -> None:
    """Though dem and con name the same: by -1 the lowest surface would be the highest."""
    for name in ("dem", "con"):
        with rasterio.open(level[name], "r+") as file:
            file.scales, file.offsets = [float(scale)], [float(offset)]
    for given in ({n: level[n] for n in ("dem", "con")}, level):
        done = command("judge", *worlds.words(given))
        text = done.error + done.out
        assert done.status == 2 and f"the scale {float(scale):g} and the offset {float(offset):g}: a scale is" in text, done
    assert command("make", level["dem"], tmp_path / "m-con.tif").status == 2
