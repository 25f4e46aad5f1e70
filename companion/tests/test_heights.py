"""Heights as whole numbers, and doubles: units, ranges, precision, a slope that is allowed. test_floats.py: single precision."""

from pathlib import Path
from typing import Any

import drain_gis
import libraries
import numpy as np
import pytest
import rasterio
import worlds
from conftest import drain_gis as command
from drain_gis import heights, sets
from drain_gis.layers import Layer, layer_of
from drain_gis.rules import NOT_FILLED
from worlds import BIG, CODES, DEM


def unit_of(a: Any) -> heights.Unit:
    """The unit of an array."""
    return heights.find_unit(Layer("dem", a))[0]


@pytest.mark.parametrize("kind", ["f4", "f8"])
@pytest.mark.parametrize("per", [1, 2, 10, 100, 1000, 128])
def test_all_numbers_stay_apart_and_exact_in_each_unit(kind: str, per: int) -> None:
    a = (np.arange(-(1 << 15) + 1, 1 << 15) / per).astype(kind).reshape(5, -1)
    unit = unit_of(a)
    whole = unit.put(a, a != a).ravel()
    assert (np.diff(whole) > 0).all() and np.array_equal((whole / unit.per).astype(kind), a.ravel())


@pytest.mark.parametrize(
    ("factor", "plus", "kind"),
    [
        (0.1, 0, "f8"), (0.01, 5.0, "f8"), (0.001, -3.0, "f8"), (1, 40000, "f8"), (0.5, 0, "f8"), (2**-7, 90, "f8"), (1e-4, 9000, "f8"),
        (1, 9_000_000, "i4"), (0.1, 385, "f4"), (0.01, -400, "f8"), (2**-9, 3, "f4"),
    ],
)  # fmt: skip
def test_a_whole_set_in_each_unit(tmp_path: Path, factor: float, plus: float, kind: str) -> None:
    """It is judged, and made anew."""
    world = worlds.random_world(seed=12)
    dem, con = (np.ma.array((a * factor + plus).round(7).astype(kind), mask=world.void) for a in (world.dem, world.con))
    rest = {name: world.masked(name) for name in ("dir", "acc", "bas")}
    assert drain_gis.audit(dem, con=con, **rest, codes="esri")
    outs = {name: tmp_path / f"{name}.tif" for name in worlds.PRODUCTS}
    drain_gis.make(dem, outs, "esri")
    assert drain_gis.audit(dem, **outs, codes="esri", acc_counts="cells")
    assert np.array_equal(layer_of("con", outs["con"]).window(0, len(con))[0][~world.void], con.compressed())
    con[world.cells()[40]] += np.array(factor, kind)
    assert not drain_gis.audit(dem, con=con, **rest, codes="esri")


@pytest.mark.parametrize(
    ("low", "high", "own", "expected"),
    [
        (0, 254, "u1", ("|u1", 255)), (1, 255, "u1", ("|u1", 0)), (0, 255, "u1", ("<i4", -(2**31))), (-9, 40, "i1", ("|i1", -128)),
        (-32768, 5, ">i2", ("<i2", 32767)), (-32768, 32767, "i2", ("<i4", -(2**31))), (-5, 70_000, "u2", ("<i4", -(2**31))),
        (-(2**31), 9, None, ("<i4", 2**31 - 1)), (-(2**31), 2**31 - 1, None, None), (0, 2**31, None, ("<u4", 2**32 - 1)),
        (1, 2**32 - 1, None, ("<u4", 0)), (0, 2**32 - 1, None, None), (-1, 2**31, None, None),
    ],
)  # fmt: skip
def test_pixels_hold_the_heights_and_one_number_more(low: int, high: int, own: Any, expected: Any) -> None:
    assert sets.heights_kind(low, high, own and np.dtype(own)) == expected


def test_floats_of_single_precision_need_no_unit() -> None:
    a = np.array([[385.3, 0.1]], np.float32)
    assert unit_of(a) == unit_of(a.astype(np.float64)) == heights.Floats() != unit_of(np.array([[385.3, 0.1]]))
    a = np.array([[16.000002, 17.1]], np.float32)
    assert drain_gis.audit(a, con=a) and not drain_gis.audit(a, con=np.nextafter(a, np.float32(99)))


def test_heights_without_a_unit_are_judged_but_for_steepness() -> None:
    """con by the order of the heights, acc and bas along dir; whether dir is the steepest way is not, and is said."""
    world = worlds.random_world(seed=3)
    rasters = {**world.given(), "dem": world.masked("dem") * np.pi, "con": world.masked("con") * np.pi}
    verdict = drain_gis.audit(**rasters, codes="esri", parts=True)
    assert verdict.accepted and not verdict and verdict.judged == ("con", "acc", "bas")
    assert "steepest" in verdict.dropped["dir"] and "above" not in verdict.dropped["dir"]
    assert any("-ot Float32" in note for note in verdict.notes) and "not judged: dir" in str(verdict)
    for name in ("con", "acc", "bas"):
        wrong = {**rasters, name: rasters[name].copy()}
        wrong[name][world.cells()[-30]] += 1
        assert not drain_gis.audit(**wrong, codes="esri", acc_counts="cells").accepted
    low = drain_gis.audit(**{**rasters, "con": rasters["dem"]}, codes="esri", acc_counts="cells")
    assert low.name == "NotFilled" and set(low.rules) == {NOT_FILLED}


def test_slopes_that_a_tool_gave_to_flats_are_named() -> None:
    """In double precision: SAGA's own option is told, and --flatten."""
    world = worlds.random_world(seed=3)
    con = world.masked("con") + np.random.default_rng(1).random(world.con.shape) / 100
    notes = "\n".join(drain_gis.audit(world.masked("dem"), con=con, dir=world.masked("dir"), codes="saga").notes)
    assert "heights: those of dem can be taken as whole numbers, those of con, float64, can't" in notes
    assert "-MINSLOPE 0" in notes and "--flatten" in notes


def test_heights_without_data_do_not_count() -> None:
    assert unit_of(np.array([[1.0, np.nan, np.inf]])).per == 1
    assert unit_of(np.ma.array([[1.0, np.pi]], mask=[[False, True]])).per == 1


def test_ranges() -> None:
    """All whole numbers of 32 bits but one, with a sign or without; heights are judged at both ends."""
    floats, least = [(400.0, 900.01), (-600.5, 40.26), (300.0, 955.34)], -(2**31) + 1
    for low, high in (*floats, (0, 2**32 - 2), (1, 2**32 - 1), (least, 2**31 - 1)):
        a = np.array([[low, high, low]])
        first, last, _ = unit_of(a).put(a, a != a)[0].tolist()
        assert last - first == round((high - low) * unit_of(a).per)
        for kind in ("f8", "i8") if isinstance(low, int) else ("f8",):
            dem = a.astype(kind)
            assert drain_gis.audit(dem, con=dem, dir=np.array([[0, 1, 0]]), codes="esri").answer.counts["outlets"] == 2
            assert drain_gis.audit(dem, con=dem, dir=np.array([[0, 0, 0]]), codes="esri").rule == 10
    with pytest.raises(drain_gis.CannotJudge, match=f"are {2**32 - 1:,} whole numbers, which 32 bits don't hold. "):
        unit_of(np.array([[0, 2**32 - 1]], np.int64))


@pytest.mark.parametrize(("kind", "plus"), [("i8", 2**60), ("i8", -(2**63) + 1), ("u8", 2**64 - 9)])
def test_whole_heights_of_64_bits_stay_apart(kind: str, plus: int) -> None:
    """Heights that 32 bits don't hold are judged by their order."""
    dem = DEM.astype(kind) + np.array(plus, kind)
    verdict = drain_gis.audit(dem, con=dem, dir=CODES, codes="esri")
    assert verdict.accepted and "steepest" in verdict.dropped["dir"]
    for cell, by in (((0, 1), 1), ((0, 2), -1)):
        con = dem.copy()
        con[cell] += np.array(by).astype(kind)
        verdict, text = (
            drain_gis.audit(dem, con=con, parts=True),
            f"1 cell too {'high' if by > 0 else 'low'}, by at most 1 ",
        )
        assert not verdict.accepted and text in verdict.parts["con"]
    spread = np.where(DEM == 3, np.array(2**62, kind), dem)
    assert drain_gis.audit(spread, con=spread)
    assert not drain_gis.audit(spread, con=np.where(DEM == 3, spread + np.array(1, kind), spread)).accepted


GROUND = np.cumsum(np.random.default_rng(8).random((17, 40)) - 0.45, axis=1) * 60
DEGREES = worlds.Affine(1 / 3600, 0, 11.5, 0, -1 / 3600, 47.25)


@pytest.mark.parametrize(
    ("z", "per", "place", "epsg", "unit"),
    [
        pytest.param((GROUND + 900).astype("f4"), 2**16, worlds.UTM, 32616, "single precision", id="float32 in UTM"),
        pytest.param((GROUND + 900).astype("f4"), 2**16, DEGREES, 4326, "single precision", id="float32 in degrees"),
        pytest.param((GROUND + 900).round(6), 10**6, worlds.UTM, 32616, "10^-6", id="micrometres"),
        pytest.param(np.rint(GROUND * 2**20) / 2**20, 2**20, worlds.UTM, 32616, "steps of 2^-20", id="steps"),
        pytest.param((GROUND + 2500).round(2), 100, worlds.UTM, 32616, "hundredths", id="hundredths"),
        pytest.param((GROUND + 2500).round(4), 10_000, DEGREES, 4326, "10^-4", id="10^-4 in degrees"),
        pytest.param((GROUND * 1e6).astype("i4"), 1, worlds.UTM, 32616, "whole numbers", id="signed"),
        pytest.param((GROUND * 1e5 + 3e9).astype("u4"), 1, None, None, "whole numbers", id="unsigned"),
    ],
)
def test_elevations_of_32_bits_are_judged_whole(
    tmp_path: Path, z: Any, per: int, place: Any, epsg: Any, unit: str
) -> None:
    """A rectangle with faults of steepness and without: each raster is judged, and a way that is less steep is found.

    What drain-gis make writes of it is accepted, and has the surface of libraries.
    """
    steps = np.rint(z.astype(np.float64) * per).astype(np.int64)
    steps -= steps.min()
    assert np.ptp(steps) > (20_000 if per == 100 else 65_535)
    world = worlds.world_of(steps, np.zeros(z.shape, bool))
    heights_of = dict(zip(steps.ravel().tolist(), z.ravel().tolist()))
    con = np.vectorize(heights_of.get, otypes=[z.dtype])(world.con)
    arrays = {"dem": z, "con": con, **{name: getattr(world, name).astype("i4") for name in ("dir", "acc", "bas")}}
    paths = {name: worlds.write_tif(tmp_path / f"{name}.tif", a, None, place, epsg) for name, a in arrays.items()}
    done = command("judge", *worlds.words(paths))
    assert (done.status, f"accepted rows=17 cols=40 data={z.size} " in done.out) == (0, True), done
    assert "judged: con, dir, acc, bas over dem, 17 rows by 40 columns" in done.out
    assert unit in done.out.split("heights: ")[1]
    made = {name: str(tmp_path / f"made-{name}.tif") for name in worlds.PRODUCTS}
    assert command("make", "--to", "saga", paths["dem"], *made.values()).status == 0
    done = command("judge", *worlds.words({"dem": paths["dem"], **made}, "saga"))
    assert (done.status, "accepted rows=17 cols=40" in done.out) == (0, True), done
    with rasterio.open(made["con"]) as file, rasterio.open(paths["dem"]) as dem:
        assert np.array_equal(file.read(1), con)
        assert (file.crs, file.transform, file.shape, file.dtypes) == (dem.crs, dem.transform, dem.shape, dem.dtypes)
    keys = libraries.slopes(world.con, world.void)
    best, codes = np.max(list(keys.values()), axis=0), world.dir.copy()
    row, col = np.argwhere(sum((0 < key) & (key < best) for key in keys.values()) > 0)[-1]
    codes[row, col] = next(code for code, key in keys.items() if 0 < key[row, col] < best[row, col])
    paths["dir"] = worlds.write_tif(tmp_path / "odd.tif", codes.astype("u1"), None, place, epsg)
    for names in (("dem", "con", "dir"), ("dem", "dir")):
        done = command("judge", "--no-parts", *worlds.words({name: paths[name] for name in names}))
        assert done.status == 1 and f"rule 10 Slope: 1 cell, first at row {row}, column {col}" in done.out, done


@pytest.mark.parametrize("kind", "? i1 u1 i2 u2 i4 u4 i8 u8 f2 f4 f8".split())
def test_rasters_of_each_kind_of_numbers_are_made(tmp_path: Path, kind: str) -> None:
    outs, world = {name: tmp_path / f"{name}.tif" for name in worlds.PRODUCTS}, worlds.random_world(seed=8)
    dem = np.ma.array(world.dem.astype(kind), mask=world.void)
    drain_gis.make(dem, outs)
    assert drain_gis.audit(dem, **outs, codes="drain", acc_counts="cells")


def test_a_no_data_number_is_none_of_the_heights(tmp_path: Path) -> None:
    outs = {"con": tmp_path / "con.tif"}
    for row, void in (([0, 255, 9], False), ([0, 9, 9], True), ([255, 9, 9], True)):
        dem = np.ma.array([row], np.uint8, mask=[[False, False, void]])
        drain_gis.make(dem, outs)
        assert np.array_equal(layer_of("con", outs["con"]).window(0, 1)[1], dem.mask)
    with pytest.raises(drain_gis.CannotJudge, match="no number left for no data"):
        drain_gis.make(np.ma.array([[0, 255, 9]], np.uint8, mask=[[False, False, True]]), outs)


def test_heights_that_32_bits_do_not_hold_are_not_made(tmp_path: Path) -> None:
    """All but one of the numbers of 32 bits are; one step more is refused."""
    outs = {"con": tmp_path / "con.tif"}
    drain_gis.make(np.array([[1, 2**32 - 1]]), outs)
    with pytest.raises(drain_gis.CannotJudge, match=f"{2**32 - 1:,} whole numbers, which 32 bits"):
        drain_gis.make(np.array([[0, 2**32 - 1]]), outs)
    with pytest.raises(drain_gis.CannotJudge, match="Rounded to single precision"):
        drain_gis.make(np.array([[0.1, 4e9]]), outs)


def test_a_surface_in_another_unit_is_named() -> None:
    """As of a tool that ran on centimetres: the answer asks for the unit."""
    world = worlds.random_world(seed=3)
    for dem, con, plus, text in (
        (1, 100, 0, "100 times"),
        (10, 1, 0, "0.1 times"),
        (1, 3.25, 0, "3.25 times"),
        (1, 1, 1, ""),
    ):
        verdict = drain_gis.audit(world.masked("dem") * dem + 0.0, con=world.masked("con") * con + plus)
        assert not verdict and (f"WARNING: con is mostly {text} dem" in str(verdict)) == bool(text), str(verdict)


@pytest.mark.parametrize("height", [2.0**53, 2.0**60, 1e300])
def test_heights_too_large_to_be_told_apart(height: float) -> None:
    a = np.full((1, 5), height)
    for con, right in ((a, True), (np.full((1, 5), np.nextafter(height, 0)), False), (DEM + BIG + 1, False)):
        try:
            assert drain_gis.audit(a, con=con).accepted == right
        except drain_gis.CannotJudge:
            pass


def test_elevations_in_double_precision_beside_a_surface_in_single() -> None:
    """The tool read the elevations as floats of 32 bits: a right surface is no fault at every cell."""
    world = worlds.random_world(seed=3)
    dem = world.masked("dem") / 10 + 0.123456789012
    con = libraries.least_surface(dem.data.astype(np.float32), world.void)
    verdict = drain_gis.audit(dem, con=np.ma.array(con, mask=world.void))
    assert verdict and any("compared as float32" in note for note in verdict.notes)


# A channel behind an outlet of height 3; and filled with a slope of a quarter a cell. The filled surface has 3 in the channel.
CHANNEL = np.array([[9, 9, 9, 9, 9, 9], [9, 2, 2, 2, 2, 3], [9, 9, 9, 9, 9, 9]], np.float32)
SLOPED = np.array([[9, 9, 9, 9, 9, 9], [9, 4, 3.75, 3.5, 3.25, 3], [9, 9, 9, 9, 9, 9]], np.float32)


def with_slope(changed: dict[tuple[int, int], float] | None = None, plus: float = 0) -> dict[str, Any]:
    """The channel, a con with some heights changed, and what follows from that con by libraries."""
    con = SLOPED + np.float32(plus)
    for cell, height in (changed or {}).items():
        con[cell] = height
    world = worlds.world_of((con * 1000).astype(np.int64), np.zeros(con.shape, bool))
    rest = {name: getattr(world, name) for name in ("dir", "acc", "bas")}
    return {"dem": CHANNEL, "con": con, **rest, "codes": "esri", "acc_counts": "cells", "parts": True}


@pytest.mark.parametrize(
    ("flatten", "changed", "plus", "most"),
    [
        (1, {}, 0, "1"), (1.5, {}, 0, "1"), (0.999, {}, 0, ""), (0, {}, 0, ""), (None, {}, 0, ""),
        (1.25, {}, 0.5, ""), (1.5, {}, 0.5, "1.5"), (1.5, {}, -0.25, ""),
        (1, {(0, 2): 9.5}, 0, "1"), (1, {(0, 2): 10.5}, 0, ""), (9, {(1, 2): 2.999}, 0, ""), (9, {(1, 5): 2.5}, 0, ""),
        (9, {(1, 2): 3.25}, 0, ""), (9, {(1, 3): 3.25}, 0, "1"),
    ],
)  # fmt: skip
def test_a_slope_is_allowed_as_far_as_the_user_says(flatten: float | None, changed: Any, plus: float, most: str) -> None:
    """con has to be within the bound above the filled surface at each cell, and without a depression."""
    verdict = drain_gis.audit(**with_slope(changed, plus), flatten=flatten)
    assert bool(verdict) == bool(most), verdict
    assert (f"; con at most {most} above the filled surface" in verdict.line) == bool(most), verdict.line
    assert most or verdict.rule or verdict.name == "NoEnd"


def test_directions_are_judged_on_the_slope_and_not_on_the_level() -> None:
    """On the level (1, 1) may go south-east to (2, 2), on the slope only east is steepest."""
    dem = np.array([[9, 9, 9, 9], [9, 2, 2, 3], [9, 2, 2, 9], [9, 9, 9, 9]], np.float32)
    con = dem + np.array([[0, 0, 0, 0], [0, 1.5, 1.25, 0], [0, 1.5, 1.25, 0], [0, 0, 0, 0]], np.float32)
    for z, plus, flatten, right in ((con, 100, 1, (1,)), (np.where(dem == 2, 3, dem), 1, None, (1, 2))):
        codes = worlds.world_of((z * plus).astype(int), np.zeros(dem.shape, bool)).dir
        for code in (1, 2):
            codes[1, 1], codes[1, 2], codes[2, 2] = code, 1, 128
            verdict = drain_gis.audit(dem, con=z, dir=codes, codes="esri", flatten=flatten)
            assert bool(verdict) == (code in right) and (verdict or (verdict.rule, verdict.row, verdict.col) == (10, 1, 1))


def test_what_follows_from_a_slope_is_judged_too() -> None:
    rasters = with_slope()
    for name in ("acc", "bas"):
        wrong = rasters[name].copy()
        wrong[1, 2] += 1
        verdict = drain_gis.audit(**{**rasters, name: wrong}, flatten=1)
        assert not verdict and "; con at most 1 above the filled surface; acc" in verdict.line
        assert verdict.parts["con"] == "at most 1 above the filled surface of dem, and without depressions"
    gap = np.ma.masked_equal(rasters["con"], 3.5)
    verdict = drain_gis.audit(**{**rasters, "con": gap}, flatten=1)
    assert 2 in verdict.rules and "above the filled surface" not in verdict.line


def test_a_slope_on_heights_without_a_unit() -> None:
    """con by the order of the heights; the bound by the heights themselves."""
    dem, con = CHANNEL.astype(np.float64) * np.pi, SLOPED.astype(np.float64) * np.pi
    for most, right in ((3.15, True), (3.14, False)):
        verdict = drain_gis.audit(dem, con=con, flatten=most)
        assert bool(verdict) == right and ("con at most 3.142 above the filled surface" in verdict.line) == right
    con[1, 3] = con[1, 1] + 0.1
    assert not drain_gis.audit(dem, con=con, flatten=9)
    whole = SLOPED.astype(np.uint64) + np.uint64(2**62)
    for most in (0, 1, 2**60):
        assert drain_gis.audit(CHANNEL.astype(np.uint64) + np.uint64(2**62), con=whole, flatten=most).accepted == (most > 0)


def test_a_surface_with_a_slope_is_named(tmp_path: Path) -> None:
    """Of two rasters of one unit too: how large the slope is at most, and the answer on con as its own ground."""
    rasters = with_slope()
    for right in (True, False):
        rasters["acc"][1, 2] += not right
        verdict = drain_gis.audit(**rasters)
        text = "as its own ground it has no depressions: the filled surface plus a slope of at most 1, which --flatten 1 allows"
        assert verdict.name == "NotLeast" and text in verdict.parts["con"]
        assert verdict.parts["as its own ground"].startswith("accepted" if right else "rejected rule=13 Accumulation row=1")
    rasters["acc"][1, 2] -= 1
    paths = {name: worlds.write_tif(tmp_path / f"{name}.tif", rasters[name].astype("f4")) for name in ("dem", *worlds.PRODUCTS)}
    done = command("judge", *worlds.words(paths))
    assert done.status == 1 and "  as its own ground: accepted rows=3 cols=6 data=18 raised=0" in done.out
    out, text = ("--out", tmp_path / "r.html"), "con at most 1 above the filled surface; acc counts: cells\n"
    done = command("judge", "--flatten", "1", *worlds.words(paths), *out)
    assert done.status == 0 and text in done.out and "over dem as far as --flatten allows" in done.out, done
    assert "is at most 1 above the lowest such surface, by --flatten" in (tmp_path / "r.html").read_text()
    assert command("judge", "--flatten", "0.9", *worlds.words(paths)).status == 1
    carved = drain_gis.audit(CHANNEL, con=np.minimum(SLOPED, 3 - (SLOPED < 9) * SLOPED / 100), parts=True).parts["con"]
    assert "plus a slope" not in carved


def test_whitebox_needs_a_slope() -> None:
    """It gives cells of a level fill 0; of a fill with a slope the answer is right by the slope that is allowed, or without dem."""
    rasters = {**with_slope(), "codes": "whitebox", "spacing": "unit"}
    rasters["dir"] = worlds.in_codes_of(drain_gis.TOOLS["whitebox"], rasters["dir"])
    channel = CHANNEL == 2
    level = {"con": np.where(channel, 3, CHANNEL), "dir": np.where(channel, 0, rasters["dir"])}
    assert drain_gis.audit(CHANNEL, **level, codes="whitebox", spacing="unit").name == "FlatStep"
    assert drain_gis.audit(**rasters).name == "NotLeast"
    assert drain_gis.audit(**rasters, flatten=np.float32(1)) and drain_gis.audit(**{**rasters, "dem": None})


@pytest.mark.parametrize("flatten", [True, -1, float("nan"), float("inf"), "1"])
def test_bounds_that_are_none(flatten: Any) -> None:
    with pytest.raises(drain_gis.CannotJudge, match="flatten"):
        drain_gis.audit(CHANNEL, con=SLOPED, flatten=flatten)


def test_a_bound_needs_elevations_and_a_surface() -> None:
    for given in ({"con": SLOPED}, {"dem": CHANNEL, "dir": with_slope()["dir"], "codes": "esri"}):
        with pytest.raises(drain_gis.CannotJudge, match="--flatten compares con with dem: give both"):
            drain_gis.audit(**given, flatten=1)


DECIMALS = np.array([[0.1, 0.1, 0.1, 100.1], [0.1, 0.1, 0.1, 100.1], [0.1, 0.1, 0.1, 100.1]])
SINGLE = DECIMALS.astype(np.float32).astype(np.float64)  # 0.1 is 1.5e-9 higher
INSIDE = np.pad([[True]], ((1, 1), (1, 2)))
PIT, BUMP = np.where(INSIDE, DECIMALS, SINGLE), np.where(INSIDE, SINGLE, DECIMALS)


@pytest.mark.parametrize(
    ("dem", "con", "right", "said"),
    [
        (DECIMALS, DECIMALS, True, "; heights taken as tenths"), (SINGLE, SINGLE, True, ""), (DECIMALS, SINGLE, True, "; dem rounded to float32"),
        (SINGLE, DECIMALS, False, ""), (PIT, PIT, False, ""), (PIT, SINGLE, True, "; dem rounded to float32"), (BUMP, BUMP, True, ""), (SINGLE, PIT, False, ""),
    ],
)  # fmt: skip
def test_doubles_are_rounded_to_the_precision_of_the_surface_or_not_at_all(dem: Any, con: Any, right: bool, said: str) -> None:
    """Else a pit of 1.5e-9 is one. The first line says so."""
    verdict = drain_gis.audit(dem, con=con)
    assert bool(verdict) == right and verdict.line == verdict.answer.line + said, verdict


@pytest.mark.parametrize(
    ("dem", "con"),
    [(np.uint64, np.int64), (np.int64, np.uint64), (np.int64, np.float64), (np.float64, np.uint64)],
)  # fmt: skip
def test_whole_heights_that_no_common_type_holds(dem: Any, con: Any) -> None:
    """Up to 2^53 they are compared; above it they aren't, as one of them may be rounded: here a pit of 1 isn't filled."""
    z = np.array([[9, 9, 9], [9, 8, 9], [9, 9, 9]])
    ground = (z + BIG).astype(dem)
    with pytest.raises(drain_gis.CannotJudge, match="heights beyond 2\\^53 in .*64 and .*64: no type holds both exactly"):
        drain_gis.audit(ground, con=ground.astype(con))
    for height, right in ((8, False), (9, True)):
        con_of = np.where(z == 8, height, z) + BIG - 9
        assert drain_gis.audit((z + BIG - 9).astype(dem), con=con_of.astype(con)).accepted == right


def test_elevations_that_are_rounded_to_the_type_of_the_surface_are_counted() -> None:
    """In the first line too; not where nothing is rounded."""
    dem = np.array([[2.0**24 + 1, 5.0, 2.0**24 + 3]])
    for kind in (np.float64, np.int64):
        verdict = drain_gis.audit(dem.astype(kind), con=dem.astype(np.float32))
        assert verdict.line.endswith("; dem rounded to float32") and any("2 cells rounded, by at most 1" in n for n in verdict.notes)
        verdict = drain_gis.audit(np.minimum(dem, 9).astype(kind), con=np.minimum(dem, 9).astype(np.float32))
        assert verdict and "rounded" not in verdict.line and not any("rounded" in n for n in verdict.notes)
    with pytest.raises(drain_gis.CannotJudge, match="float16 doesn't hold the heights of dem"):
        drain_gis.audit(dem, con=dem.astype(np.float16))
