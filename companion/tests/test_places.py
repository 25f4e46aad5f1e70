"""Georeference: in metres, feet and degrees, turned, south up, shifted, none; where a fault lies, and its map."""

import re
from pathlib import Path
from typing import Any
from xml.etree import ElementTree

import libraries
import numpy as np
import pytest
import rasterio
import worlds
from conftest import drain_gis as command
from conftest import outputs
from drain_gis.errors import OddRaster
from drain_gis.grids import PLAIN, check_grid, metres_per_cell, place_of
from drain_gis.layers import Layer, layer_of
from drain_gis.rules import RULES
from rasterio.crs import CRS
from worlds import UTM, Affine

DEGREES = Affine(1 / 1200, 0, 10, 0, -1 / 1200, 50)
TURNED = Affine(24, 18, 500000, 18, -24, 4000000)


def wrong_set(folder: Path, world: worlds.World, cell: worlds.Cell, *place: Any, by: int = 3) -> list[str]:
    """The arguments of a set with a wrong count at a cell."""
    acc = world.acc.astype(np.int32)
    acc[cell] += by
    return worlds.words(worlds.write_set(folder, world, *place, acc=acc))


@pytest.mark.parametrize(("place", "epsg"), [(UTM, 32616), (DEGREES, 4326), (TURNED, 32616), (None, None)], ids=str)
def test_the_map_lies_where_the_source_does(tmp_path: Path, world: worlds.World, place: Any, epsg: Any) -> None:
    """Of an acceptance too: then it takes the place of an older one, and shows no fault."""
    for by in (3, 0):
        done = command("judge", *wrong_set(tmp_path, world, (2, 3), place, epsg, by=by), "--map", tmp_path / "m.tif")
        assert (done.status, "longitude" in done.out) == (int(by > 0), bool(place and by)), done
        with rasterio.open(tmp_path / "m.tif") as file:
            faults, colours = file.read(1), file.colormap(1)
            assert file.transform == (place or Affine.identity()) and (file.crs and file.crs.to_epsg()) == epsg
            assert file.nodata == 255 and faults.dtype == np.uint8
        assert faults[2, 3] == (13 if by else 0) and np.array_equal(faults == 255, world.void)
        assert by or (set(np.unique(faults)) == {0, 255} and "no rule fails: map and picture show no fault" in done.out)
    assert all("#%02x%02x%02x" % colours[n][:3] == rule.colour for n, rule in RULES.items())
    names = [one.text for one in ElementTree.parse(tmp_path / "m.tif.aux.xml").iter("Category")]
    assert names[13] == RULES[13].label and {n for n, name in enumerate(names) if name} == {0, *RULES, 255}


def test_where_a_fault_lies(tmp_path: Path) -> None:
    """By the series for the meridian arc on WGS 84 and the length of the parallel, 15 m east of -87."""
    world = worlds.random_world(seed=4, voids=0)
    out = command("judge", *wrong_set(tmp_path, world, (0, 0), UTM, 32616)).out
    assert "x 500015, y 3999985" in out and "longitude -86.999833, latitude 36.144583" in out
    out = command("judge", *wrong_set(tmp_path, world, (2, 3), DEGREES, 4326)).out
    row, col = (int(number) for number in re.findall(r"(?:row|col)=(\d+)", out))
    assert f"longitude {10 + (col + 0.5) / 1200:.6f}, latitude {50 - (row + 0.5) / 1200:.6f}" in out


@pytest.mark.parametrize(
    ("place", "text"),
    [
        (UTM * Affine.scale(1, -1), "southernmost"), (UTM * Affine.scale(-1, 1), "mirrored|easternmost"),
        *((UTM._replace(**odd), "coordinates") for odd in ({"a": 0.0, "e": 0.0}, {"c": float("nan")}, {"a": float("inf")})),
        (UTM._replace(a=1e308, e=-1e308), "coordinates"),
    ],
    ids=str,
)  # fmt: skip
def test_places_that_are_no_map_are_refused(tmp_path: Path, world: worlds.World, place: Affine, text: str) -> None:
    done = command("judge", *wrong_set(tmp_path, world, (2, 3), place))
    assert done.status == 2 and re.search(text, done.error), done


@pytest.mark.parametrize(
    ("place", "epsg", "text"),
    [
        (UTM * Affine.translation(0.5, 0), 32616, "0.5 pixels off"), (UTM * Affine.scale(30.5 / 30, 1), 32616, "pixels off"),
        *((UTM, epsg, "coordinate system") for epsg in (32617, 26716, 3857, 4326)),
        (UTM * Affine.translation(0.005, 0), 32616, None), (UTM, 26916, None), (UTM, None, None),
    ],
    ids=str,
)  # fmt: skip
def test_another_grid_is_not_judged(tmp_path: Path, world: worlds.World, place: Affine, epsg: Any, text: Any) -> None:
    """NAD 83 lies where WGS 84 does, and a raster without a system lies where the others do."""
    right = worlds.write_set(tmp_path, world)
    for name in worlds.PRODUCTS:
        a = np.where(world.void, -9999, getattr(world, name)).astype(np.int32)
        other = worlds.write_tif(tmp_path / "o.tif", a, -9999, place, epsg)
        done = command("judge", *worlds.words({**right, name: other}))
        assert done.status == (2 if text else 0), done
        assert not text or re.search(f"not judged: {name}: .*{text}", done.out), done


def along(make: Any, rest: int, *numbers: float) -> list[Affine]:
    """Moves or changes of size by each of these numbers along rows, and along columns."""
    return [make(*by) for n in numbers for by in ((n, rest), (rest, n))]


# A hundredth of a pixel at a corner of 23 rows and 31 columns is 0.00043 of their number and 0.00032.
OFF = along(Affine.translation, 0, -1, -0.4, -0.011, 0.011, 0.4, 1) + along(Affine.scale, 1, 0.99, 0.9995, 1.0005, 1.01)
NEAR = along(Affine.translation, 0, -0.009, 0, 0.009) + along(Affine.scale, 1, 0.9998, 1.0002)
PLACES = [
    (UTM, 32616), (UTM, None), (TURNED, 32616), (DEGREES, 4326), (DEGREES * Affine.rotation(180), 4326),
    (DEGREES * Affine.rotation(-90), 4326),
]  # fmt: skip


def lying(place: Affine, epsg: int | None, name: str = "con") -> Layer:
    """A raster of 23 rows and 31 columns that lies there."""
    layer = Layer(name, np.zeros((23, 31), np.int16))
    layer.transform, layer.crs = place, CRS.from_epsg(epsg) if epsg else None
    return layer


@pytest.mark.parametrize(("place", "epsg"), PLACES, ids=str)
def test_a_hundredth_of_a_pixel_to_each_side(place: Affine, epsg: int | None) -> None:
    """Of degrees that aren't turned after whole turns too."""
    dem, turns = lying(place, epsg, "dem"), (0, -360, 720) if epsg == 4326 and place.a else (0,)
    for turn in turns:
        there = Affine.translation(turn, 0) * place
        for by in NEAR:
            check_grid(dem, lying(there * by, epsg))
        for by in OFF:
            with pytest.raises(OddRaster, match="pixels off dem"):
                check_grid(dem, lying(there * by, epsg))


@pytest.mark.parametrize("place", [UTM, TURNED, UTM * Affine.rotation(180)], ids=str)
def test_tiles_a_hundredth_of_a_cell_off_to_each_side(tmp_path: Path, place: Affine) -> None:
    """Of a tile of 4 by 4 cells a hundredth of a cell at its far corner is 0.0025 of their number."""
    first, tile = np.zeros((23, 31), np.int16), np.zeros((4, 4), np.int16)
    paths = [worlds.write_tif(tmp_path / "first.tif", first, None, place), str(tmp_path / "tile.tif")]
    off = along(Affine.translation, 0, -0.4, -0.011, 0.011, 0.4) + along(Affine.scale, 1, 0.99, 0.997, 1.003, 1.01)
    for at in ((31, 0), (0, -4)):
        there = place * Affine.translation(*at)
        for by in NEAR:
            worlds.write_tif(Path(paths[1]), tile, None, there * by)
            side = layer_of("dem", paths)
            assert (side.rows, side.cols) == ((23, 35) if at[0] else (27, 31))
        for by in off:
            worlds.write_tif(Path(paths[1]), tile, None, there * by)
            with pytest.raises(OddRaster, match="isn't on the grid of"):
                layer_of("dem", paths)


@pytest.mark.parametrize("shape", [(3, 3), (31, 23), (24, 31)])
def test_another_size_is_not_judged(tmp_path: Path, world: worlds.World, shape: tuple[int, int]) -> None:
    other = worlds.write_tif(tmp_path / "o.tif", np.zeros(shape, np.int16))
    for name, text in (("bas", "judged: con, dir, acc over dem"), ("con", "con: can't be judged, so drain's own")):
        done = command("judge", *worlds.words({**worlds.write_set(tmp_path, world), name: other}))
        assert done.status == 2 and text in done.out, done
        assert f"{name}: {shape[0]} rows and {shape[1]} columns, dem has 23 and 31" in done.out, done


def test_longitudes_modulo_360(tmp_path: Path, world: worlds.World) -> None:
    paths = {}
    for name, west in (("dem", -80), ("con", 280)):
        a = np.where(world.void, -9999, getattr(world, name)).astype(np.int16)
        paths[name] = worlds.write_tif(tmp_path / f"{name}.tif", a, -9999, Affine(0.01, 0, west, 0, -0.01, 9), 4326)
    assert command("judge", *worlds.words(paths)).status == 0


def test_directions_by_distances_on_the_ground_are_told_apart(tmp_path: Path) -> None:
    """At 60 degrees north a degree of longitude is half as long as one of latitude."""
    z = np.random.default_rng(2).integers(0, 900, (30, 30)).astype(np.int32)
    place, made = Affine(0.001, 0, 10, 0, -0.001, 60.015), libraries.make(
        z, z < 0, np.random.default_rng(3), sizes=(1, 2)
    )
    arrays = {"dem": z, "dir": made["dir"].astype(np.uint8)}
    paths = {n: worlds.write_tif(tmp_path / f"{n}.tif", a, None, place, 4326) for n, a in arrays.items()}
    done = command("judge", *worlds.words(paths))
    best = next(line for line in done.out.splitlines() if "steepest ways" in line)
    assert done.status == 1 and "rule 10 Slope" in done.out and "100.0% by distances on a sphere" in best, done
    assert "Slopes were judged by unit spacing: --spacing sphere fits better" in best, done
    ground = command("judge", *worlds.words(paths), "--spacing", "sphere")
    assert ground.status == 0 and "fits better" not in ground.out, ground
    assert "slopes by distances on a sphere" in ground.out


LOCAL = 'LOCAL_CS["a quarry",UNIT["metre",1],AXIS["Easting",EAST],AXIS["Northing",NORTH]]'
ENGINEERING = 'ENGCRS["a quarry",EDATUM["its corner"],CS[Cartesian,2],AXIS["x",east],AXIS["y",north],LENGTHUNIT["metre",1]]'


@pytest.mark.parametrize("system", [LOCAL, ENGINEERING, "EPSG:4978"])
def test_a_system_without_metres_has_a_report(tmp_path: Path, world: worlds.World, system: str) -> None:
    """A local system, and a geocentric one: with a picture, but without its scale bar."""
    words = wrong_set(tmp_path, world, (2, 3), UTM, None)
    for path in words[3::2]:
        with rasterio.open(path, "r+") as file:
            file.crs = CRS.from_user_input(system)
    assert metres_per_cell(layer_of("dem", words[3])) is None
    done = command("judge", *words, *outputs(tmp_path))
    assert (done.status, done.error) == (1, "") and "longitude" not in done.out and "row=2 col=3" in done.out, done
    assert all((tmp_path / name).stat().st_size for name in ("r.html", "m.tif", "p.png"))


@pytest.mark.parametrize("member", ["c", "f"])
@pytest.mark.parametrize("sign", [1, -1])
def test_a_header_has_places_up_to_ten_billion(member: str, sign: int) -> None:
    """The bound of a header of `drain` (docs/FORMATS.md): beyond it a plain frame."""
    for number, is_plain in ((9.9e9, False), (1.1e10, True)):
        assert (place_of(UTM._replace(**{member: sign * number})) == PLAIN) == is_plain


@pytest.mark.parametrize("turn", [0, 30, 90, 135, 180, -60])
def test_metres_of_a_turned_raster(turn: int) -> None:
    """Of degrees that are turned they differ by row and column: then there are none."""
    layer = lying(UTM * Affine.rotation(turn) * Affine.scale(1, 2 / 3), 32616)
    assert metres_per_cell(layer) == pytest.approx((30, 20))
    layer = lying(DEGREES * Affine.rotation(turn), 4326)
    assert (metres_per_cell(layer) is None) == (turn not in (0, 180))
