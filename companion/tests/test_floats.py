"""Floats of single precision are handed over as they are: what is judged and made of them, by libraries and fractions; other types."""

import json
import re
from pathlib import Path
from tempfile import TemporaryDirectory
from typing import Any

import drain_gis
import libraries
import numpy as np
import pytest
import rasterio
import worlds
from conftest import drain_gis as command
from drain_gis import heights
from drain_gis.layers import Layer, layer_of
from drain_gis.makes import NO_HEIGHT
from hypothesis import given, settings
from hypothesis import strategies as st
from libraries import BLANK
from test_random_sets import SPACINGS

SINGLE, LEAST, MOST = np.float32, float(np.finfo("f4").min), float(np.finfo("f4").max)
NEAR_1 = [1 + k * 2**-23 for k in range(-3, 4)]
# Down from 10 across a corner nearly as steep as down to 7 along a row.
NEAR_ROOT = [float(SINGLE(10 - 3 * 2**0.5)) + k * 2**-21 for k in range(-2, 3)]
PALETTES = [
    NEAR_1, [*NEAR_ROOT, 10, 7, 8.5], [k * 2.0**-149 for k in range(-3, 4)], [0.0, -0.0, 2.0**-149, -(2.0**-149), 1e-38, 3000],
    [0.1, 0.2, 0.3, float(np.float32(0.1)) + 2**-27, 0.15], [570.11, 570.12, 571.3, 2771, 1999.99, 570.115], [LEAST, -1, 0, 1e-30, 3e38],
    [-0.02, 0.01, 0.005, 20, 0],
]  # fmt: skip


@st.composite
def float_worlds(draw: Any) -> tuple[worlds.World, str, np.random.Generator]:
    """A right set of floats that are hard to tell apart or to subtract, in Esri's codes, and its spacing."""
    shape = draw(st.tuples(st.integers(1, 7), st.integers(1, 7)))
    rng = np.random.default_rng(draw(st.integers(0, 2**32 - 1)))
    z = np.array(draw(st.sampled_from(PALETTES)), SINGLE)
    z = rng.choice(z, shape) if draw(st.booleans()) else (rng.random(shape) * 40 + 570).astype(SINGLE)
    void = rng.random(shape) < draw(st.sampled_from([0, 0.1]))
    void.flat[rng.integers(void.size)] = False
    spacing = draw(st.sampled_from(list(SPACINGS)))
    return worlds.World(z, void, **libraries.make(z, void, rng, sizes=SPACINGS[spacing])), spacing, rng


def spoilt(world: worlds.World, name: str, rng: np.random.Generator) -> dict[str, np.ndarray]:
    """The products, one of them changed by the least that there is."""
    products = {n: getattr(world, n).copy() for n in worlds.PRODUCTS}
    cell = world.cells()[rng.integers(len(world.cells()))]
    if name in ("higher", "lower"):
        height = np.nextafter(products["con"][cell], SINGLE(np.inf if name == "higher" else -np.inf))
        products["con"][cell] = height if np.isfinite(height) else 0
    elif name == "dir":
        products["dir"][cell] = rng.choice(list(libraries.STEP))
    return products


def faults(world: worlds.World, products: dict[str, np.ndarray], spacing: str) -> set[str]:
    """What libraries find wrong."""
    wide = {name: a if a.dtype.kind == "f" else a.astype(np.int64) for name, a in products.items()}
    blank = {name: np.where(world.void, BLANK, a).astype(a.dtype) for name, a in wide.items()}
    return libraries.faults(world.dem, world.void, blank, SPACINGS[spacing])


@settings(max_examples=150)
@given(float_worlds(), st.sampled_from(["no", "higher", "lower", "dir"]), st.sampled_from(["f4", "f8"]), st.booleans())
def test_floats_are_judged_exactly(case: Any, changed: str, kind: str, as_nan: bool) -> None:
    """Also in the type of doubles, and with NaN and infinities for voids."""
    world, spacing, rng = case
    products = spoilt(world, changed, rng)
    given = {name: np.ma.array(a, mask=world.void) for name, a in {"dem": world.dem, **products}.items()}
    given |= {name: given[name].astype(kind) for name in ("dem", "con")}
    if as_nan:
        odd = rng.choice(np.array([np.nan, np.inf, -np.inf]), world.void.shape)
        given |= {name: np.where(world.void, odd, given[name].data).astype(kind) for name in ("dem", "con")}
    verdict = drain_gis.audit(**given, codes="esri", acc_counts="cells", ends="keep", spacing=spacing, parts=True)
    assert bool(verdict) == (not faults(world, products, spacing)), str(verdict)
    assert verdict.judged == worlds.PRODUCTS and not verdict.dropped and not verdict.made.taken
    assert "heights: taken as they are, in single precision" in verdict.notes and "order" not in verdict.made.scope
    if changed in ("higher", "lower"):
        con = drain_gis.audit(given["dem"], con=given["con"])
        alone = faults(world, {"con": products["con"], "dir": products["dir"]}, spacing)
        assert con.accepted == ("con" not in alone), str(con)


@settings(max_examples=60)
@given(float_worlds(), st.sampled_from(["f4", "f8"]), st.booleans())
def test_what_is_made_of_floats_is_right(case: Any, kind: str, by_files: bool) -> None:
    """con has the type of dem and its floats."""
    world, spacing, _ = case
    dem: Any = np.ma.array(world.dem.astype(kind), mask=world.void)
    with TemporaryDirectory() as folder:
        if by_files:
            dem = worlds.write_tif(Path(folder) / "dem.tif", np.where(world.void, np.nan, dem.data).astype(kind))
        outs = {name: Path(folder) / f"made-{name}.tif" for name in worlds.PRODUCTS}
        drain_gis.make(dem, outs, "esri", spacing=spacing)
        assert drain_gis.audit(dem, **outs, codes="esri", acc_counts="cells", spacing=spacing)
        made = {name: layer_of(name, path).window(0, len(world.void)) for name, path in outs.items()}
    assert made["con"][0].dtype == kind and np.array_equal(made["con"][0][~world.void], world.con[~world.void])
    assert all(np.array_equal(blank, world.void) for _, blank in made.values())
    assert not faults(world, {name: numbers for name, (numbers, _) in made.items()}, spacing)


@settings(max_examples=60)
@given(float_worlds())
def test_a_rim_of_floats_is_completed_exactly(case: Any) -> None:
    """By the steepest of ways whose slopes double precision doesn't tell apart, or overflows."""
    world, spacing, _ = case
    rim = libraries.open_cells(world.void)
    dir_ = np.ma.array(world.dir, mask=world.void | rim)
    given = {"con": world.masked("con"), "dir": dir_, "codes": "esri", "spacing": spacing}
    verdict = drain_gis.audit(world.masked("dem"), **given, complete_rim=True)
    assert verdict, str(verdict)


@pytest.mark.parametrize("scale", [2.0**-60, 1, 2.0**120])
def test_near_ties_at_the_rim(scale: float) -> None:
    """Drops that are one number in double precision: the steeper way isn't the first one."""
    dem = np.array([[1, 2e-20], [1e-20, 1]], SINGLE) * SINGLE(scale)
    codes = np.ma.array([[9, 8], [0, 16]], mask=[[True, False], [False, False]])
    verdict = drain_gis.audit(dem, dir=codes, codes="esri", complete_rim=True)
    assert verdict.made.set["dir"].tolist() == [[4, 8], [0, 16]] and verdict, str(verdict)


def test_floats_in_a_folder(tmp_path: Path) -> None:
    """To the bit, with a number for no data that no height has; judged later as they are."""
    z = np.array([[3, 2, np.nan], [LEAST, 0.1, -0.0], [2.0**-149, 5, 3000]], SINGLE)
    dem = worlds.write_tif(tmp_path / "dem.tif", z)
    assert command("make", dem, *(tmp_path / f"{name}.tif" for name in worlds.PRODUCTS)).status == 0
    paths = {name: str(tmp_path / f"{name}.tif") for name in ("dem", *worlds.PRODUCTS)}
    done = command("import", *worlds.words(paths, "drain"), tmp_path / "o")
    assert done.status == 0 and "heights: taken as they are, in single precision" in done.out, done
    for name in ("dem", "con"):
        header = dict(line.split() for line in (tmp_path / f"o/{name}.hdr").read_text().splitlines())
        assert header.items() >= {"PIXELTYPE": "FLOAT", "NBITS": "32", "NODATA": repr(MOST), "BYTEORDER": "I"}.items()
    assert (tmp_path / "o/dem.bil").read_bytes() == np.where(np.isnan(z), SINGLE(MOST), z).astype("<f4").tobytes()
    assert command("judge", tmp_path / "o").status == 0
    facts = json.loads((tmp_path / "o/import.json").read_text())
    for heights_are in (["<f4", MOST / 2], ["<f4", LEAST], ["<i4", 2**31 - 1]):
        (tmp_path / "o/import.json").write_text(json.dumps({**facts, "heights": heights_are}, indent=1) + "\n")
        assert command("judge", tmp_path / "o").status == 2


def test_every_float_taken(tmp_path: Path) -> None:
    """Then there is no number for no data: con is judged by order, and it is said that dir isn't."""
    z = np.array([[LEAST, 0, MOST]], SINGLE)
    for least, right in ((z, True), (np.array([[LEAST, 0, 1]], SINGLE), False)):
        verdict = drain_gis.audit(z, con=least, dir=np.array([[0, 16, 16]]), codes="esri")
        assert verdict.accepted == right and set(verdict.dropped) == {"dir"}
    with pytest.raises(drain_gis.CannotJudge, match="which 32 bits don't hold"):
        drain_gis.make(z, {"con": tmp_path / "con.tif"})


@pytest.mark.parametrize("number", [-9999.0, LEAST, -32767.1])
def test_no_data_is_the_nearest_float(tmp_path: Path, number: float) -> None:
    """GDAL writes decimals that aren't the float itself."""
    z = np.array([[3, number, 4], [3, 2, 4]], SINGLE)
    dem = worlds.write_tif(tmp_path / "dem.tif", z, number)
    verdict = drain_gis.audit(dem, con=dem)
    assert verdict and verdict.answer.counts["data"] == 5


@pytest.mark.parametrize(
    ("drops", "text"),
    [
        ([1 + 2**-23], "1 cell goes less steep by at most {} (rounding), none by more"),
        ([1 + 2**-23, 1 + 2**-22], "2 cells go less steep by at most {} (rounding), none by more"),
        ([1 + 2**-23, 1.25], "1 cell goes less steep by at most {} (rounding), 1 by at most 0.2"),
        ([1.25], "less steep by at most 0.2"),
    ],
)
def test_how_much_less_steep_ways_are_is_told(drops: list[float], text: str) -> None:
    """Of cells that go south by a drop of 1, and have a larger one to the east."""
    z = np.full((3 * len(drops), 4), 3, SINGLE)
    for n, drop in enumerate(drops):
        z[3 * n + 1, 1:], z[3 * n + 2, 1] = (2, 2 - drop, 0), 1
    codes = worlds.World(z, z != z, **libraries.make(z, z != z, np.random.default_rng(1))).dir.astype(np.uint8)
    assert (codes[1::3, 1] == 1).all()
    assert drain_gis.audit(z, dir=codes, codes="esri")
    codes[1::3, 1] = 4
    verdict = drain_gis.audit(z, dir=codes, codes="esri", parts=True)
    least = max((1 - 1 / drop for drop in drops if drop < 1.01), default=0)
    found = re.fullmatch(re.escape(text).replace(r"\{\}", "([0-9.e-]+)"), verdict.sizes[10])
    assert found and verdict.rules[10][0] == len(drops), verdict.sizes
    assert all(least <= float(number) < least * 1.001 for number in found.groups())
    whole = drain_gis.audit((z * 2**23).astype(np.int32), dir=codes, codes="esri", parts=True)
    assert whole.rules[10][0] == len(drops) and 10 not in whole.sizes, "of whole heights nothing is said"


@pytest.mark.parametrize("kind", ["i1", "i2", "u2", "i4", "i8"])
def test_whole_elevations_beside_a_surface_of_floats(kind: str) -> None:
    """Whole numbers go as they are while con is whole too; else both as floats."""
    dem = np.array([[9, 9, 9, 9], [9, 2, 5, 3], [9, 9, 9, 9]], kind)
    con = np.array([[9, 9, 9, 9], [9, 5, 5, 3], [9, 9, 9, 9]], SINGLE)
    whole = drain_gis.audit(dem, con=con)
    own = kind if kind != "i8" else "i4"
    assert whole and whole.made.set.kinds["con"][0] == np.dtype(own).newbyteorder("<").str
    high = drain_gis.audit(dem, con=con + (con == 5) / SINGLE(4), parts=True)
    assert high.made.set.kinds["dem"][0] == "<f4" and "too high, by at most 0.25 " in high.parts["con"]
    assert (high.name, high.row, high.col) == ("NotLeast", 1, 2) and "--flatten 0.25 allows" in high.parts["con"]
    assert drain_gis.audit(dem, con=con + (con == 5) / SINGLE(4), flatten=0.25).accepted


def test_elevations_above_2_to_24_stay_whole() -> None:
    """Where a float is told from each whole number beside it they aren't; a con of doubles is then compared in a step."""
    dem = np.array([[2**24 + 1, 3, 4]], np.int32)
    assert heights.find_unit(Layer("dem", dem), Layer("con", dem / 2))[0] == heights.Unit(twos=1)
    dem[0, 0] -= 1
    assert heights.find_unit(Layer("dem", dem), Layer("con", dem / 2))[0] == heights.Floats()


SLOPE = np.array([[3, 2, 1]], SINGLE) / SINGLE(3)
WAYS = np.array([[1, 1, 0]], np.uint8)


def test_a_surface_of_doubles_is_never_rounded() -> None:
    """con is judged as it is, by order; of dir it is said why not, and what to do."""
    con = SLOPE.astype(np.float64)
    con[0, 1] += 1e-12
    for flatten, right in ((None, False), (1, True)):
        verdict = drain_gis.audit(SLOPE, con=con, dir=WAYS, codes="esri", flatten=flatten)
        assert verdict.accepted == right and set(verdict.dropped) == {"dir"} and "rounded" not in verdict.line
        text = "as they are, in single precision, those of con, float64, can't: round it to single precision (gdal_tr"
        assert text in "\n".join(verdict.notes)
    assert drain_gis.audit(SLOPE, con=con.astype(SINGLE), dir=WAYS, codes="esri")
    assert drain_gis.audit(SLOPE, con=SLOPE.astype(np.float64), dir=WAYS, codes="esri")


@pytest.mark.parametrize(
    ("dem", "con", "said", "unit"),
    [
        (SLOPE.astype("f8"), None, "", "they are, in single precision"), (SLOPE.astype("f2"), None, "", "they are, in single precision"),
        (np.array([[2.0**-20 + 64, 2, 1]]), None, "", "steps of 2^-20"), (np.array([[2.0**31, 2, 1]]), None, "", "they are, in single precision"),
        (np.array([[2.0**31 + 1, 2, 1]]), None, "", "whole numbers"), (np.array([[0.3, 0.2, 0.1]]), None, "heights taken as tenths", "tenths"),
        (np.array([[0.3, 0.2, 0.1]]), "f4", "dem rounded to float32", "they are, in single precision"),
        (np.array([[0.3, 0.2, 0.1]]), "f8 of f4", "dem rounded to float32", "they are, in single precision"),
        (np.array([[3, 2, 1]]) * np.pi, "f8 of f4", "dem rounded to float32", "they are, in single precision"),
        (np.array([[3, 2, 1]]) * np.pi, "f4", "dem rounded to float32", "they are, in single precision"),
    ],
)  # fmt: skip
def test_what_is_done_to_doubles_is_in_the_first_line(dem: Any, con: str | None, said: str, unit: str) -> None:
    """Nothing, where nothing is rounded."""
    given = {"con": dem if con is None else dem.astype("f4") if con == "f4" else dem.astype("f4").astype("f8")}
    verdict = drain_gis.audit(dem, **given, dir=WAYS, codes="esri")
    assert verdict and verdict.line.partition("; ")[2] == said, verdict
    assert f"heights: taken as {unit}" in verdict.notes and not any("order" in note for note in verdict.notes)


def test_minus_0_is_0(tmp_path: Path) -> None:
    dem, con = np.array([[1, -0.0, 1, 0.0, 2]], SINGLE), np.array([[1, 0.0, 1, -0.0, 2]], SINGLE)
    assert drain_gis.audit(dem, con=con, dir=np.array([[1, 0, 1, 0, 16]]), codes="esri")
    assert drain_gis.audit(dem, con=con, dir=np.array([[1, 0, 16, 0, 16]]), codes="esri")


def test_made_floats_have_the_type_and_no_data_number_of_dem(tmp_path: Path) -> None:
    z = np.array([[3, 3, 3], [3, 0.1, 3], [3, 3, NO_HEIGHT]], SINGLE)
    for nodata in (NO_HEIGHT, LEAST, float("nan")):
        dem = worlds.write_tif(tmp_path / "dem.tif", np.where(z == NO_HEIGHT, SINGLE(nodata), z), nodata)
        assert command("make", dem, tmp_path / "con.tif").status == 0
        with rasterio.open(tmp_path / "con.tif") as file:
            assert file.dtypes == ("float32",) and file.read(1)[1, 1] == SINGLE(0.1 if nodata else 0)
            assert np.array_equal(file.read_masks(1) == 0, z == NO_HEIGHT)
