"""A raster is the same whatever it comes from, and in whatever windows it is read; tiles lie where they lie."""

import subprocess
from itertools import permutations
from pathlib import Path
from tempfile import TemporaryDirectory
from typing import Any

import drain_gis
import numpy as np
import pytest
import rasterio
import rioxarray  # noqa: F401  pylint: disable=unused-import
import worlds
import xarray
from conftest import drain_gis as command
from drain_gis import layers
from drain_gis.drain import Program
from drain_gis.layers import layer_of
from hypothesis import given, settings
from hypothesis import strategies as st
from test_random_sets import terrains

SOURCES = ("path", "Path", "dataset", "array", "masked", "data array", "placed data array", "tiles")
NODATA = -9999


def as_source(kind: str, name: str, a: np.ndarray, void: np.ndarray, folder: Path) -> tuple[Any, int | None]:
    """The raster as this kind of source, and the no-data number that a caller then has to name."""
    numbers = np.where(void, NODATA, a).astype(np.int32)
    if kind == "array":
        return numbers, NODATA
    if kind == "masked":
        return np.ma.array(a, mask=void), None
    if kind == "data array":
        return xarray.DataArray(numbers, dims=("y", "x"), attrs={"_FillValue": NODATA}), None
    if kind == "tiles" and min(a.shape) > 1:
        made = ((0, np.s_[:1]), (1, np.s_[1:]))
        places = [worlds.UTM * worlds.Affine.translation(0, row) for row, _ in made]
        return [worlds.write_tif(folder / f"{name}-{n}.tif", numbers[p], NODATA, places[n]) for n, p in made], None
    path = worlds.write_tif(folder / f"{name}.tif", numbers, NODATA)
    if kind == "dataset":
        return rasterio.open(path), None
    if kind == "placed data array":
        return rioxarray.open_rasterio(path), None
    return (path if kind == "path" else Path(path)), None


@settings(max_examples=12)
@given(terrains(6), st.sampled_from(worlds.PRODUCTS), st.integers(0, 3), st.randoms())
def test_each_source_gives_one_verdict(terrain: Any, changed: str, by: int, random: Any) -> None:
    z, void, _ = terrain
    world = worlds.world_of(z, void)
    cell = random.choice(world.cells())
    products = {name: getattr(world, name).copy() for name in worlds.PRODUCTS}
    products[changed][cell] += by if changed != "dir" else 64 - int(products["dir"][cell])
    seen = set()
    with TemporaryDirectory() as folder:
        for kinds in ([kind] * 5 for kind in SOURCES), [[random.choice(SOURCES) for _ in range(5)]]:
            for chosen in kinds:
                rasters = {"dem": z, **products}
                made = {n: as_source(k, n, a, void, Path(folder)) for (n, a), k in zip(rasters.items(), chosen)}
                nodata = {name: number for name, (_, number) in made.items() if number is not None}
                sources = {name: source for name, (source, _) in made.items()}
                verdict = drain_gis.audit(**sources, codes="esri", acc_counts="cells", nodata=nodata)
                faults = None if verdict.faults is None else np.asarray(verdict.faults).tobytes()
                seen.add((verdict.line, str(verdict.rules), faults))
    assert len(seen) == 1


def test_faults_of_a_data_array_are_one(tmp_path: Path, world: worlds.World) -> None:
    dem = rioxarray.open_rasterio(worlds.write_set(tmp_path, world)["dem"]).squeeze("band")
    faults = drain_gis.audit(dem, con=world.masked("dem")).faults
    assert isinstance(faults, xarray.DataArray) and faults.rio.crs.to_epsg() == 32616
    assert np.array_equal(faults.x, dem.x) and np.array_equal(faults.y, dem.y)


def test_rows_of_a_data_array_that_are_turned_over_are_seen(tmp_path: Path, world: worlds.World) -> None:
    """rioxarray keeps the place that the file had: coordinates count."""
    dem = rioxarray.open_rasterio(worlds.write_set(tmp_path, world)["dem"])
    assert layer_of("dem", dem[:, 3:, ::2]).transform == worlds.UTM * worlds.Affine(2, 0, -0.5, 0, 1, 3)
    with pytest.raises(drain_gis.CannotJudge, match="first row is the southernmost"):
        drain_gis.audit(dem[:, ::-1], con=world.masked("con"))


def part(folder: Path, name: str, a: np.ndarray, row: int, col: int, **more: Any) -> str:
    """A tile whose first cell lies there."""
    place = worlds.UTM * worlds.Affine.translation(col, row)
    return worlds.write_tif(folder / f"{name}.tif", a, more.pop("nodata", NODATA), **{"place": place, **more})


def test_tiles_are_laid_where_they_lie(tmp_path: Path, world: worlds.World) -> None:
    z = np.where(world.void, NODATA, world.dem).astype(np.int16)
    parts = [
        part(tmp_path, "c", z[10:, 12:], 10, 12), part(tmp_path, "a", z[:11, :20], 0, 0),
        part(tmp_path, "d", z[11:, :12], 11, 0), part(tmp_path, "b", z[:10, 18:], 0, 18),
    ]  # fmt: skip
    dem = layer_of("dem", parts)
    assert (dem.rows, dem.cols, dem.transform) == (23, 31, worlds.UTM)
    for top, rows in ((0, 23), (9, 3), (22, 1)):
        numbers, blank = dem.window(top, rows)
        assert np.array_equal(blank, world.void[top : top + rows])
        assert np.array_equal(numbers[~blank], z[top : top + rows][~blank])


def test_a_gap_has_no_data_and_a_void_takes_the_other_number(tmp_path: Path) -> None:
    one, two = np.array([[5, 5, 5], [5, NODATA, 6]], np.int16), np.array([[5, NODATA, 7]], np.int16)
    tiles = [part(tmp_path, "a", one, 0, 0), part(tmp_path, "b", two, 1, 1)]
    for order in (tiles, tiles[::-1]):
        numbers, blank = layer_of("dem", order).window(0, 2)
        assert np.where(blank, -1, numbers).tolist() == [[5, 5, 5, -1], [5, 5, 6, 7]]


@pytest.mark.parametrize("kind", ["i2", "f4"])
def test_tiles_that_differ_where_they_overlap_are_refused(tmp_path: Path, kind: str) -> None:
    """Whichever comes first; the first cell in the order of rows is named."""
    z = np.add.outer(np.arange(9, 4, -1), np.arange(7)).astype(kind)
    a, b, c = z[:, :4], z[:, 3:].copy(), z[3:, 2:4].copy()
    names = [part(tmp_path, name, tile, row, col) for name, tile, row, col in (("a", a, 0, 0), ("b", b, 0, 3), ("c", c, 3, 2))]
    con = part(tmp_path, "con", z, 0, 0)
    for tiles in permutations(names):
        dem = [word for name in tiles for word in ("--dem", name)]
        assert command("judge", *dem, "--con", con).status == 0
    b[4, 0], c[1, 0] = b[4, 0] + 1, c[1, 0] - 1  # at row 4, columns 3 and 2
    part(tmp_path, "b", b, 0, 3), part(tmp_path, "c", c, 3, 2)
    for tiles in permutations(names):
        dem = [word for name in tiles for word in ("--dem", name)]
        done = command("judge", *dem, "--con", con)
        assert done.status == 2 and "dem: SeamMismatch row=4 col=2: a tile has " in done.error, done
        assert " 7, and " in done.error and " has 6. " in done.error or " 6, and " in done.error and " has 7. " in done.error


@pytest.mark.parametrize(
    "other",
    [
        {"place": worlds.UTM * worlds.Affine.translation(0.5, 0)},
        {"place": worlds.UTM * worlds.Affine.scale(31 / 30)},
        {"place": None, "epsg": None},
        {"epsg": 32617},
        {"a": np.zeros((4, 4), np.float32)},
        {"place": worlds.UTM * worlds.Affine.translation(10**6, 0)},
    ],
    ids=["half a cell off", "wider", "without a place", "another zone", "another kind", "far apart"],
)
def test_tiles_of_other_grids_and_kinds_are_refused(tmp_path: Path, other: dict[str, Any]) -> None:
    z = np.zeros((4, 4), np.int16)
    parts = [part(tmp_path, "first", z, 0, 0), part(tmp_path, "other", other.pop("a", z), 0, 3, **other)]
    done = command("judge", "--dem", parts[0], "--dem", parts[1], "--con", parts[0])
    assert done.status == 2 and "dem" in done.out + done.error and "judged: con over" not in done.out, done


def test_hgt_tiles_side_by_side(tmp_path: Path) -> None:
    """Two tiles of side 1201 as one raster of 1201 by 2401."""
    z = np.add.outer(np.arange(1201), np.arange(2401)).astype(">i2")
    z[600:, 1000:1300] -= 300
    tiles = [tmp_path / "N10E010.hgt", tmp_path / "N10E011.hgt"]
    z[:, :1201].tofile(tiles[0])
    z[:, 1200:].tofile(tiles[1])
    place = worlds.Affine(1 / 1200, 0, 10 - 0.5 / 1200, 0, -1 / 1200, 11 + 0.5 / 1200)
    con = worlds.write_tif(tmp_path / "con.tif", z.astype(np.int16), -32768, place, 4326)
    for words in (["--dem", *tiles], ["--dem", tiles[0], "--dem", tiles[1]]):
        done = command("import", *words, "--con", con, "--overwrite", tmp_path / "out")
        assert (done.status, "1201 rows, 2401 columns" in done.out) == (0, True), done
    z[700, 1200] += 1
    z[:, :1201].tofile(tiles[0])
    done = subprocess.run([Program().path, "make", "--out", tmp_path, *tiles], capture_output=True, text=True)
    seam = "SeamMismatch row=700 col=1200"
    assert done.stdout == f"refused {seam}\n", "as drain says of them"
    done = command("judge", "--dem", *tiles, "--con", con)
    assert done.status == 2 and seam in done.error, done


@pytest.mark.parametrize(("kind", "nodata"), [("u1", -99999.0), ("i2", 1e30), ("u1", float("nan"))])
def test_a_no_data_number_that_no_pixel_holds_means_nothing(kind: str, nodata: float) -> None:
    layer = layers.Layer("dem", np.array([[97, 1]]).astype(kind))
    layer.nodata = nodata
    assert not layer.window(0, 1)[1].any()


def test_a_mask_beside_a_raster_is_taken(tmp_path: Path, world: worlds.World) -> None:
    paths = worlds.write_set(tmp_path, worlds.random_world(voids=0))
    with rasterio.open(paths["dem"], "r+") as file:
        file.write_mask(np.where(np.arange(31) == 0, 0, 255).astype(np.uint8) * np.ones((23, 1), np.uint8))
    assert (tmp_path / "dem.tif.msk").exists()
    assert layer_of("dem", paths["dem"]).window(0, 23)[1][:, 0].all()
