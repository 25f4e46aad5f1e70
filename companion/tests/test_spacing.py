"""How far apart cells are: what `drain` is told by each kind, and that it judges by it."""

import json
import os
import shutil
from pathlib import Path
from typing import Any

import drain_gis
import libraries
import numpy as np
import pytest
import rasterio
import worlds
import xarray
from conftest import FIXTURES
from conftest import drain_gis as command
from drain_gis.layers import layer_of
from drain_gis.spacing import KINDS, spacing_of
from drain_gis.tools import TOOLS, spacing_of_tool
from rasterio.transform import Affine

# Latitude, and the length of a degree of latitude and of longitude there on WGS 84 in km, as tables have them.
DEGREES = (
    (0, 110.574, 111.320),
    (15, 110.649, 107.551),
    (30, 110.852, 96.486),
    (45, 111.132, 78.847),
    (60, 111.412, 55.800),
)
NARROW, IN_DEGREES = (1, 2), Affine(
    0.001, 0, 10, 0, -0.001, 60.0115
)  # width to height of its middle row is 1 to 2 on a sphere


def pair(kind: str, folder: Path, width: float, height: float, top: float, rows: int = 1, epsg: int = 4326) -> Any:
    """The spacing of a raster in degrees with such cells."""
    path = worlds.write_tif(
        folder / "x.tif", np.zeros((rows, 2), np.int16), None, Affine(width, 0, 0, 0, -height, top), epsg
    )
    return spacing_of(kind, layer_of("dem", path))


@pytest.mark.parametrize(("latitude", "high", "wide"), DEGREES)
def test_rows_on_the_ellipsoid(tmp_path: Path, latitude: float, high: float, wide: float) -> None:
    for south in (1, -1):
        ((width, height),) = pair("wgs84", tmp_path, 0.001, 0.001, south * latitude + 0.0005).pairs
        assert max(width, height) == 10**9 and width / height == pytest.approx(wide / high, rel=2e-5)
    ((width, height),) = pair("middle", tmp_path, 0.001, 0.001, latitude + 0.0005).pairs
    assert width / height == pytest.approx(wide / DEGREES[0][1], rel=2e-5)


def test_rows_on_a_sphere(tmp_path: Path) -> None:
    assert pair("sphere", tmp_path, 1, 1, 60.5).pairs == ((500000000, 10**9),)
    assert pair("sphere", tmp_path, 2, 0.5, 60.25).pairs == ((10**9, 500000000),)
    rows = pair("sphere", tmp_path, 1, 1, 61, 3)
    assert rows.pairs == tuple((round(10**9 * np.cos(np.radians(lat))), 10**9) for lat in (60.5, 59.5, 58.5))
    assert rows.text.splitlines()[0] == "492423560 1000000000" and rows.words("a/") == ["--widths", "a/widths.txt"]
    assert (
        pair("sphere", tmp_path, 1e-3, 1, 90.4, 1).pairs[0][0] >= 1
        and pair("wgs84", tmp_path, 1, 1, 90.5, 1).pairs[0][0] >= 1
    )


@pytest.mark.parametrize(("top", "first", "last"), [(0.5 / 3600, 0, 1), (1 + 0.5 / 3600, 1, 0)], ids=["S01", "N00"])
def test_rows_of_a_tile_at_the_equator(tmp_path: Path, top: float, first: int, last: int) -> None:
    """At one arc second the rows next to the equator are alike, for 10^9 steps, and the others aren't. cos 1 degree is 0.9998477."""
    sizes, rows = {0: 10**9, 1: 999847695}, pair("sphere", tmp_path, 1 / 3600, 1 / 3600, top, 3601)
    assert len(rows.pairs) == 3601 and rows.text.count("\n") == 3601
    assert (rows.of_row(0), rows.of_row(3600)) == ((sizes[first], 10**9), (sizes[last], 10**9))
    alike = [rows.of_row(row) for row in ((0, 1) if first == 0 else (3599, 3600))]
    assert alike == [(10**9, 10**9)] * 2 and rows.of_row(1800) == (999961923, 10**9)  # cos 0.5 degrees: 0.99996192


def test_sizes_of_a_header(tmp_path: Path) -> None:
    """Exact, so that ties stay ties."""
    for width, height, sizes in (
        (30, 10, (3, 1)), (0.1, 0.3, (1, 3)), (12.5, 20, (5, 8)), (90, 90, (1, 1)), (10, 10.000009, (10**7, 10**7 + 9)),
    ):  # fmt: skip
        assert pair("cells", tmp_path, width, height, 0, 2, 32616).pairs == (sizes,)
    ((width, height),) = pair("cells", tmp_path, 1 / 1201, 1 / 7001, 0).pairs
    assert width == 10**9 and height == pytest.approx(10**9 * 1201 / 7001, abs=1)
    assert pair("cells", tmp_path, 89.994067349451, 89.994067349446, 0, 2, 32616).is_unit  # they differ by less than 10^-9


SIDE, PLACE = Affine.scale(30, -20), Affine.translation(500000, 4000000)


@pytest.mark.parametrize("turn", [0, 30, 45, 90, 135, 180, -30, -90, -120])
def test_sizes_of_a_turned_raster(tmp_path: Path, turn: int) -> None:
    """The lengths of the sides of its cells, and of degrees none by row."""
    layer = layer_of("dem", worlds.write_tif(tmp_path / "x.tif", np.zeros((3, 4)), None, PLACE * Affine.rotation(turn) * SIDE))
    found = spacing_of("cells", layer)
    assert found.pairs == ((3, 2),) and ("turned cells, 30 by 20" in str(found)) == (turn not in (0, 180))
    place = Affine.translation(10, 50) * Affine.rotation(turn) * Affine.scale(0.003, -0.002)
    layer = layer_of("dem", worlds.write_tif(tmp_path / "d.tif", np.zeros((3, 4)), None, place, 4326))
    assert spacing_of("cells", layer).pairs == ((3, 2),)
    for kind in ("sphere", "wgs84", "middle"):
        if turn not in (0, 180):
            with pytest.raises(drain_gis.CannotJudge, match=f"--spacing {kind}: dem is turned"):
                spacing_of(kind, layer)
        else:
            width, height = spacing_of(kind, layer).of_row(0)
            assert width / height == pytest.approx(1.5 * 0.6428, rel=0.01)  # cos 50 degrees: 0.6428


@pytest.mark.parametrize("slant", [0.001, -0.001])
def test_sizes_that_are_not_known(tmp_path: Path, slant: float) -> None:
    """Without a place, and of cells that are no rectangles: neither asked for nor by a preset."""
    paths = {"array": np.zeros((3, 4)), "file": worlds.write_tif(tmp_path / "x.tif", np.zeros((3, 4)), None, None, None)}
    for name, place in (("right", Affine(1, slant, 0, 0, 1, 0)), ("down", Affine(1, 0, 0, slant, 1, 0))):
        paths[name] = worlds.write_tif(tmp_path / f"{name}.tif", np.zeros((3, 4)), None, PLACE * place * SIDE)
        slanting = Affine.translation(10, 50) * place * Affine.scale(0.001, -0.001)
        dem = layer_of("dem", worlds.write_tif(tmp_path / "d.tif", np.zeros((30, 40)), None, slanting, 4326))
        with pytest.raises(drain_gis.CannotJudge, match="--spacing wgs84: dem is turned"):
            spacing_of("wgs84", dem)
    for name, source in paths.items():
        why = "it has no georeference" if name in ("array", "file") else "aren't at right angles"
        for kind, tool in (("cells", "drain"), (None, "taudem"), (None, "grass")):
            with pytest.raises(drain_gis.CannotJudge, match=f"--spacing cells: the cell sizes of dem aren't known: .*{why}"):
                spacing_of_tool(tool, layer_of("dem", source), kind)


def test_an_answer_where_sizes_are_not_known() -> None:
    """Arrays, with a preset of cell sizes: by sizes that are named, and where slopes aren't judged."""
    world = worlds.random_world(voids=0)
    codes = worlds.in_codes_of(TOOLS["taudem"], world.dir)
    given = {"dem": world.dem, "con": world.con, "dir": codes, "codes": "taudem"}
    for more in ({}, {"spacing": "cells"}):
        with pytest.raises(drain_gis.CannotJudge, match="no georeference. Name the sizes .--spacing W,H., or take --spacing unit"):
            drain_gis.audit(**given, **more)
    assert drain_gis.audit(**given, spacing="unit") and drain_gis.audit(**given, spacing="30,30")
    assert drain_gis.audit(dir=codes, acc=world.acc, codes="taudem")


def wide_world() -> worlds.World:
    """Right rasters of cells that are 3 wide and 2 high, wrong ones of square cells."""
    z, void = np.random.default_rng(5).integers(0, 900, (12, 14)).astype(np.int32), np.zeros((12, 14), bool)
    return worlds.World(z, void, **libraries.make(z, void, np.random.default_rng(1), sizes=(3, 2)))


@pytest.mark.parametrize("turn", [0, 30, 90])
def test_a_turned_raster_is_judged_by_its_sides(tmp_path: Path, turn: int) -> None:
    codes = worlds.in_codes_of(TOOLS["taudem"], wide_world().dir).astype("i2")
    paths = worlds.write_set(tmp_path, wide_world(), PLACE * Affine.rotation(turn) * SIDE, dir=codes)
    words = worlds.words(paths, "taudem")
    done = command("judge", *words, "--out", tmp_path / "r.html")
    assert done.status == 0, done
    sides = "slopes: by the lengths of the sides of its turned cells, 30 by 20, the preset of taudem"
    for text in (done.out, (tmp_path / "r.html").read_text(encoding="utf-8")):
        assert (sides in text and "grid: turned" in text) == (turn != 0), text
    unit = command("judge", *words, "--spacing", "unit")
    assert unit.status == 1 and "rule 10 Slope" in unit.out and "--spacing cells fits better" in unit.out, unit


def placed(a: np.ndarray, x: object, y: object) -> xarray.DataArray:
    """A DataArray with coordinates, and without a coordinate system."""
    return xarray.DataArray(a, dims=("y", "x"), coords={"y": y, "x": x})


def test_coordinates_without_a_system() -> None:
    """Of which most NetCDF files are: sizes are those of the coordinates, in their own precision."""
    rows, cols = np.arange(12), np.arange(14)
    numbers = placed(wide_world().dem, 500015 + 30 * cols, 4000000 - 20 * rows)
    given = {"con": wide_world().con, "dir": wide_world().dir, "codes": "drain"}
    assert drain_gis.audit(numbers, **given, spacing="cells")
    assert drain_gis.audit(numbers, **given, spacing="unit").name == "Slope"
    for x, y, sizes in (
        (0.1 * cols, 7 - 0.3 * rows, (1, 3)), (10 + cols / 1200, 50 - rows / 1200, (1, 1)),
        ((500000 + 30.1 * cols).astype("f4"), (4000 - 30.1 * rows).astype("f4"), (1, 1)),
        ((-500000 + 30.1 * cols).astype("f4"), (-4000 - 30.1 * rows).astype("f4"), (1, 1)),
    ):  # fmt: skip
        assert spacing_of("cells", layer_of("dem", placed(numbers.values, x, y))).pairs == (sizes,)
    for x, y, text in (
        (cols, -rows, None), (cols, rows, "no georeference"), (cols + 0.5, rows + 0.5, "no georeference"),
        (cols**2, -rows, "x aren't evenly"), (cols, np.where(rows > 5, -rows, 1 - rows), "y aren't evenly"),
    ):  # fmt: skip
        if text is None:
            assert spacing_of("cells", layer_of("dem", placed(numbers.values, x, y))).is_unit
            continue
        with pytest.raises(drain_gis.CannotJudge, match=text):
            spacing_of("cells", layer_of("dem", placed(numbers.values, x, y)))
    with pytest.raises(drain_gis.CannotJudge, match="first row is the southernmost"):
        drain_gis.audit(placed(numbers.values, 30 * cols, 20 * rows), con=numbers.values)


def test_cells_that_are_nearly_square(tmp_path: Path) -> None:
    """10 by 10.000009: a drop of 1 is steeper to the east than to the south, and both are right on square cells."""
    arrays = {"dem": [[2, 1, 1], [1, 1, 1], [1, 1, 1]], "dir": [[4, 0, 0], [0, 4, 0], [0, 0, 0]]}
    place, paths = Affine(10, 0, 0, 0, -10.000009, 0), {}
    for name, numbers in arrays.items():
        paths[name] = worlds.write_tif(tmp_path / f"{name}.tif", np.array(numbers, np.int16), None, place)
    for spacing, status in (("cells", 1), ("unit", 0)):
        done = command("judge", *worlds.words(paths), "--spacing", spacing)
        assert (done.status, "rule 10 Slope: 1 cell" in done.out) == (status, status == 1), done


def test_two_sizes() -> None:
    layer = layer_of("dem", np.zeros((2, 2)))
    for word, sizes in (("3,4", (3, 4)), ("0.5,1.25", (50, 125)), (".3,4.", (3, 40)), ("1073741824,1", (2**30, 1))):
        assert spacing_of(word, layer).words("") == ["--spacing", "{},{}".format(*sizes)]
    for word in (
        "",
        "3",
        "3,",
        "0,1",
        "-1,2",
        "1e3,1",
        "1,2,3",
        "1073741825,1",
        "0.1,1073741824",
        "ground",
        "3 4",
        "٣,4",
    ):
        with pytest.raises(drain_gis.CannotJudge, match="--spacing .*: expected unit, cells, "):
            spacing_of(word, layer)


@pytest.fixture
def narrow(tmp_path: Path) -> dict[str, str]:
    """Right rasters in degrees, whose cells are half as wide as high, in files."""
    return write_narrow(tmp_path)


def write_narrow(folder: Path) -> dict[str, str]:
    """The first of random rasters whose steepest ways are the same for cells a little wider or narrower."""
    void, rng = np.zeros((9, 11), bool), np.random.default_rng(1)
    while True:
        z = rng.integers(0, 1000, void.shape).astype(np.int32)
        made, *others = (libraries.make(z, void, np.random.default_rng(1), sizes=(n, 1000)) for n in (500, 497, 508))
        if all(np.array_equal(made["dir"], other["dir"]) for other in others):
            return worlds.write_set(folder, worlds.World(z, void, **made), IN_DEGREES, 4326)


def test_each_kind_judges_by_its_own(narrow: dict[str, str], tmp_path: Path) -> None:
    words = worlds.words(narrow, "drain")
    for kind, status in (("sphere", 0), ("wgs84", 0), ("1,2", 0), ("unit", 1), ("cells", 1), ("2,1", 1), ("middle", 0)):
        done = command("judge", *words, "--spacing", kind, "--out", tmp_path / "r.html")
        assert (done.status, "Slope" in done.out) == (status, status == 1), (kind, done)
        named = KINDS.get(kind, f"cells {kind.replace(',', ' by ')}")
        assert f"slopes: by {named} (" in done.out and named in (tmp_path / "r.html").read_text()
    assert command("judge", *words).status == 1  # the preset's


def test_what_cannot_be_is_told(narrow: dict[str, str], tmp_path: Path) -> None:
    flat = worlds.write_set(tmp_path, worlds.random_world())
    for words, text in (
        (worlds.words(flat), "dem isn't in degrees"),
        ([*worlds.words(narrow), "--spacing", "1"], "expected unit"),
    ):
        done = command("judge", *words, *([] if "--spacing" in words else ["--spacing", "wgs84"]))
        assert done.status == 2 and text in done.error, done


def test_a_folder_has_the_widths(narrow: dict[str, str], tmp_path: Path) -> None:
    out, words = tmp_path / "set", worlds.words(narrow, "drain")
    done = command("import", *words, "--spacing", "sphere", out)
    lines = (out / "widths.txt").read_text().splitlines()
    assert done.status == 0 and len(lines) == 9 and lines[0].split()[1] == "1000000000", done
    assert json.loads((out / "import.json").read_text())["spacing"] == "sphere"
    line = next(line for line in done.out.splitlines() if "drain audit" in line)
    program = f"{os.environ.get('DRAIN', 'drain')} audit"
    assert "--widths widths.txt" in line and os.popen(line.replace("drain audit", program)).read().startswith(
        "accepted "
    )
    judged = command("judge", out)
    assert judged.status == 0 and "slopes by distances on a sphere" in judged.out, judged
    assert command("judge", out, "--spacing", "unit").status == 2
    for spoilt in (None, "1 1\n" * 9, "\n".join([*lines, ""]).replace("1000000000", "999999999", 1)):
        shutil.copytree(out, tmp_path / "other", dirs_exist_ok=True)
        (tmp_path / "other/widths.txt").unlink()
        if spoilt is not None:
            (tmp_path / "other/widths.txt").write_text(spoilt)
        assert command("judge", tmp_path / "other").status == 2
    again = command("import", *words, "--overwrite", out)
    assert again.status == 0 and not (out / "widths.txt").exists(), again
    assert command("judge", out).status == 1


def test_parts_of_a_rejected_set(tmp_path: Path) -> None:
    """con, paths, counts and labels are judged apart, by `make` and `derive` too."""
    paths = write_narrow(tmp_path)
    with rasterio.open(paths["acc"], "r+") as file:
        counts = file.read(1)
        counts[4, 5] += 1
        file.write(counts, 1)
    done = command("judge", *worlds.words(paths, "drain"), "--spacing", "sphere")
    assert (
        done.status == 1 and "con: the least surface" in done.out and "dir: each rule about dir holds" in done.out
    ), done
    assert "acc differs at 1 cell" in done.out and "Slope" not in done.out, done


def test_the_rim_is_completed_by_it(tmp_path: Path) -> None:
    paths = write_narrow(tmp_path)
    with rasterio.open(paths["dir"], "r+") as file:
        codes = file.read(1)
        codes[[0, -1], :], codes[:, [0, -1]] = -9999, -9999
        file.write(codes, 1)
    given = ["--dem", paths["dem"], "--con", paths["con"], "--dir", paths["dir"], "--from", "drain", "--complete-rim"]
    assert command("judge", *given, "--spacing", "wgs84").status == 0
    assert command("judge", *given, "--spacing", "unit").status == 1


@pytest.mark.parametrize(
    ("tool", "words"), [("drain", ["--spacing", "sphere"]), ("taudem", []), ("terra", []), ("drain", [])]
)
def test_what_is_made_goes_steepest_by_it(tmp_path: Path, tool: str, words: list[str]) -> None:
    paths = write_narrow(tmp_path)
    outs = {name: tmp_path / f"made-{name}.tif" for name in worlds.PRODUCTS}
    done = command("make", "--to", tool, *words, paths["dem"], *outs.values())
    assert done.status == 0 and ("slopes by distances" in done.out) == (tool != "drain" or bool(words)), done
    given = [word for name, path in outs.items() for word in (f"--{name}", path)]
    judged = command("judge", "--dem", paths["dem"], *given, "--from", tool, *words)
    assert judged.status == 0, judged
    other = ["--spacing", "sphere" if (tool, words) == ("drain", []) else "unit"]
    assert command("judge", "--dem", paths["dem"], *given, "--from", tool, *other).status == 1


def test_what_terra_makes_in_degrees(tmp_path: Path) -> None:
    """By terra's own distances each cell goes a steepest way, but for some that lead into a void beside them."""
    place, paths = Affine(0.01, 0, 20, 0, -0.01, 60.47), {}
    for name, file in (("dem", "dem"), ("con", "saga-con")):
        with rasterio.open(FIXTURES / f"{file}.tif") as source:
            paths[name] = worlds.write_tif(tmp_path / f"{name}.tif", source.read(1), source.nodata, place, 4326)
    paths["dir"] = str(FIXTURES / "terra-degrees-dir.tif")
    found = {
        kind: drain_gis.audit(**paths, codes="terra", complete_rim=True, spacing=kind)
        for kind in (None, "unit", "sphere")
    }
    own, unit, sphere = (int((verdict.map == 10).sum()) for verdict in found.values())
    beside = [
        found[None].made.data[row - 1 : row + 2, col - 1 : col + 2] for row, col in np.argwhere(found[None].map == 10)
    ]
    assert all(not around.all() for around in beside) and own == len(beside) < sphere < unit
    assert "one for all rows" in found[None].made.scope
    told = {kind: "--spacing middle fits better" in str(verdict.notes) for kind, verdict in found.items()}
    assert told == {None: False, "unit": True, "sphere": False}
