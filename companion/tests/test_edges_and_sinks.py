"""Where water leaves: codes that lead off, rims without directions, listed and inland sinks, flat worlds; one odd cell."""

from typing import Any

import drain_gis
import libraries
import numpy as np
import pytest
import worlds
from drain_gis import around
from scipy import ndimage

BOWL = np.maximum.outer(np.abs(np.arange(5) - 2), np.abs(np.arange(5) - 2)) * 10
DOWN = libraries.random_steepest(BOWL, np.zeros(BOWL.shape, bool), np.random.default_rng(1))
"""Directions of the bowl: 0 in its middle."""


def test_outlets_that_lead_off_get_0() -> None:
    world = worlds.random_world(seed=3)
    rasters = {**world.given("con", "acc"), "dir": np.ma.array(world.leading_off(), mask=world.void)}
    verdict, outlets = drain_gis.audit(**rasters, codes="esri"), int((world.dir[~world.void] == 0).sum())
    assert verdict and verdict.answer.counts["outlets"] == outlets
    assert any(f"{outlets} outlets had a code that leads off" in note for note in verdict.notes)
    assert f"; {outlets} cells whose dir leads off taken for outlets" in verdict.line
    verdict = drain_gis.audit(**rasters, ends="keep", parts=True, codes="esri")
    assert verdict.name == "NoEnd" and verdict.parts["con"] == "the least surface"


def test_a_cell_with_a_lower_neighbour_keeps_a_code_that_leads_off() -> None:
    world = worlds.random_world(seed=3)
    rim = [cell for cell in world.cells() if world.dir[cell] and len(world.beside(cell)) < 8]
    lower = next(cell for cell in rim if min(world.con[c] for c in world.beside(cell).values()) < world.con[cell])
    world.dir[lower] = next(code for code in worlds.STEP if code not in world.beside(lower))
    assert drain_gis.audit(**world.given("con", "dir"), codes="esri").name == "NoEnd"


def test_a_rim_without_directions_is_completed_only_on_request() -> None:
    world = worlds.random_world(seed=3)
    rim = libraries.open_cells(world.void)
    rasters = {**world.given("con"), "dir": np.ma.array(world.dir, mask=world.void | rim)}
    assert not drain_gis.audit(**rasters, codes="esri")
    verdict = drain_gis.audit(**rasters, complete_rim=True, codes="esri")
    assert verdict and any(f"{rim.sum()} cells at the rim" in note for note in verdict.notes)
    assert verdict.line.endswith(f"; dir at {rim.sum()} cells of the rim completed")


def test_a_rim_is_completed_by_drops_of_32_bits() -> None:
    """Twice the square of the first drop has 65 bits."""
    dem = np.array([[2**32 - 2, 0], [2**31, 2**31]])
    bare = np.ma.masked_all(dem.shape, np.uint8)
    verdict = drain_gis.audit(dem, con=dem, dir=bare, complete_rim=True, codes="esri")
    assert verdict and any("4 cells at the rim" in note for note in verdict.notes), verdict


def test_sinks() -> None:
    assert drain_gis.audit(BOWL, con=BOWL, dir=DOWN, sinks=[(2, 2)], codes="esri")
    assert not drain_gis.audit(BOWL, con=BOWL, dir=DOWN, codes="esri")
    assert drain_gis.audit(BOWL, con=np.full(BOWL.shape, 20))
    assert not drain_gis.audit(BOWL, con=np.full(BOWL.shape, 20), sinks=[(2, 2)])
    rough = BOWL * np.pi
    assert drain_gis.audit(rough, con=rough, sinks=[(2, 2)]) and not drain_gis.audit(rough, con=rough)
    dem = np.ma.masked_array(BOWL, mask=np.arange(25).reshape(5, 5) == 7)
    for row, col in ((9, 9), (5, 0), (1, 2), (-1, 0)):
        with pytest.raises(drain_gis.CannotJudge, match=f"row {row}, column {col} has no elevation"):
            drain_gis.audit(dem, con=dem, sinks=[(2, 2), (row, col)])


def test_inland_sinks_of_a_tool() -> None:
    codes, dem = DOWN.copy(), np.ma.masked_array(BOWL, mask=np.arange(25).reshape(5, 5) == 0)
    codes[2, 2] = 255
    for given in ({"dem": BOWL, "con": BOWL}, {"con": BOWL}):
        assert drain_gis.audit(**given, dir=codes, codes="hydrosheds", inland_sinks=True)
        assert not drain_gis.audit(**given, dir=codes, codes="hydrosheds")
    verdict = drain_gis.audit(BOWL, dir=codes, codes="hydrosheds", inland_sinks=True)
    assert verdict and any("drain's own filled surface" in note for note in verdict.notes), "made with these sinks"
    codes[0, 0] = 255
    verdict = drain_gis.audit(dem, con=dem, dir=codes, codes="hydrosheds", inland_sinks=True)
    assert (verdict.name, verdict.row, verdict.col) == ("VoidCell", 0, 0), "a void is no sink"
    with pytest.raises(drain_gis.CannotJudge, match="saga has no number for inland sinks"):
        drain_gis.audit(BOWL, con=BOWL, dir=codes, codes="saga", inland_sinks=True)


def test_what_is_not_given() -> None:
    """con that isn't given is drain's own; without dem con is its own ground; without both dir is judged by its paths."""
    world = worlds.random_world(seed=3)
    verdict = drain_gis.audit(**world.given("dir", "acc", "bas"), codes="esri")
    assert verdict and verdict.judged == ("dir", "acc", "bas")
    verdict = drain_gis.audit(con=world.masked("con"), dir=world.masked("dir"), codes="esri")
    assert verdict and any("its own ground" in note for note in verdict.notes)
    assert not drain_gis.audit(con=world.masked("dem"), dir=world.masked("dir"), codes="esri")
    assert not any("own ground" in note for note in drain_gis.audit(world.masked("dem"), con=world.masked("dem")).notes)
    assert drain_gis.audit(dir=world.masked("dir"), bas=world.masked("bas"), codes="esri")


@pytest.mark.parametrize("shape", [(1, 1), (1, 7), (6, 1), (2, 2), (9, 12)])
@pytest.mark.parametrize("height", [0, -32767, 32767, 250.5])
def test_flat_worlds(shape: tuple[int, int], height: float) -> None:
    world = worlds.world_of(np.full(shape, height), np.zeros(shape, bool))
    verdict = drain_gis.audit(**world.given(), acc_counts="cells", codes="esri")
    assert verdict and verdict.answer.counts["raised"] == 0
    if min(shape) > 2:
        world.dir[shape[0] // 2, shape[1] // 2] = 0
        assert not drain_gis.audit(**world.given("con", "dir"), codes="esri")


@pytest.mark.parametrize("shape", [(1, 1), (1, 9), (2, 2), (3, 40), (13, 9), (61, 61)])
def test_codes_along_the_edge_of_every_shape(shape: tuple[int, int]) -> None:
    """Codes of the last row and column that lead off lead nowhere."""
    world, options = worlds.random_world(*shape, seed=6, voids=0), {"ends": "keep", "acc_counts": "cells"}
    options["codes"] = "esri"
    assert drain_gis.audit(**world.given(), **options)
    world.dir[-1], world.dir[:, -1] = 4, 1
    verdict = drain_gis.audit(**world.given(), **options)
    assert verdict.name == "NoEnd" and verdict.row < shape[0] and verdict.col < shape[1]


@pytest.mark.parametrize(
    ("given", "text"),
    [
        ({"dem": BOWL}, "nothing to judge"), ({"dem": BOWL, "acc": BOWL}, "give dir"), ({"acc": BOWL}, "give dir"),
        ({"dem": BOWL, "con": BOWL[:4]}, "con: 4 rows and 5 columns, dem has 5 and 5"),
        ({"dem": np.full((2, 2), np.nan), "con": np.ones((2, 2))}, "no cell with an elevation"),
        ({"con": BOWL[0]}, "two dimensions"), ({"con": BOWL[:0]}, "shape"), ({"con": BOWL * 1j}, "complex"),
        ({"dem": BOWL, "con": BOWL, "nodata": {"conn": 1}}, "conn: expected names of dem, con"),
        ({"dem": BOWL, "con": BOWL, "acc_counts": "pixels"}, "acc_counts"), ({"con": BOWL, "ends": "no"}, "ends"),
        ({"con": BOWL.astype("i2"), "nodata": {"con": 70000}}, "can't hold it"),
        *(({"con": BOWL, "sinks": [cell]}, "sinks: expected whole numbers") for cell in ((1,), (1.5, 2), 7, "ab")),
    ],
)  # fmt: skip
def test_what_cannot_be_judged_is_refused(given: dict[str, Any], text: str) -> None:
    with pytest.raises(drain_gis.CannotJudge, match=text):
        drain_gis.audit(**given, codes="esri")


ROWS, COLS, RIDGE, PIT = 3500, 310, 3300, (3450, 150)
"""A slope on each side of a ridge, of two windows at least: the cells below the ridge are all in the last."""

ROW = np.arange(ROWS)[:, None]
Z = np.broadcast_to(RIDGE - np.abs(ROW - RIDGE), (ROWS, COLS)).astype(np.int32)
SLOPES = {
    "dem": Z,
    "con": Z,
    "dir": np.where(ROW % (ROWS - 1) == 0, 0, np.where(ROW < RIDGE, 64, 4)).astype(np.int16) * np.ones(COLS, np.int16),
    "acc": np.where(ROW < RIDGE, RIDGE - ROW, ROW - RIDGE + 1) * np.ones(COLS, np.int64),
    "bas": np.where(ROW < RIDGE, 1, 601) + np.arange(COLS),
}


def with_cell(name: str, number: Any, kind: Any = None) -> dict[str, np.ndarray]:
    """The right set, with another number at one cell of its last window."""
    a = SLOPES[name].astype(kind or SLOPES[name].dtype)
    a[PIT] = number
    return {**SLOPES, name: a}


@pytest.mark.parametrize(
    ("rasters", "text"),
    [
        (SLOPES, "accepted"), ({**SLOPES, "bas": np.where(SLOPES["bas"] == SLOPES["bas"][PIT], -7, SLOPES["bas"])}, "accepted"),
        (with_cell("con", Z[PIT] + 0.5, "f4"), "rejected"), (with_cell("con", Z[PIT] - 0.25, "f8"), "rejected"),
        (with_cell("dir", 3), "rejected"), (with_cell("bas", 9000), "rejected"),
        *((with_cell("acc", n, "f8"), f"row {PIT[0]}, column {PIT[1]} is no count") for n in (1.5, -1)),
        (with_cell("bas", 1.5, "f8"), f"1.5 at row {PIT[0]}, column {PIT[1]} is no label"),
    ],
)  # fmt: skip
def test_one_odd_cell_in_the_last_window_is_seen(rasters: dict[str, np.ndarray], text: str) -> None:
    verdict = drain_gis.audit(**rasters, codes="esri")
    assert verdict.line.startswith(text) or text in "".join(verdict.dropped.values())
    assert verdict.accepted or verdict.map[PIT] not in (0, 255)


def test_a_rim_is_not_completed_in_silence_where_no_way_is_known_to_be_the_steepest() -> None:
    world = worlds.random_world(seed=3)
    given = {"dem": world.masked("dem") * np.pi, "dir": world.masked("dir")}
    options = {"codes": "terra", "complete_rim": True, "spacing": "unit"}
    for rasters in (given, {**given, "dem": None}):
        notes = "\n".join(drain_gis.audit(**rasters, **options).notes)
        assert "dir: --complete-rim gives none, as which way is steepest isn't known" in notes, notes


def picture_of(rows: str) -> np.ndarray:
    """Where a drawing has data: # is a void."""
    return np.array([[letter != "#" for letter in row] for row in rows.split()])


@pytest.mark.parametrize(
    ("rows", "cells", "groups"),
    [
        ("...", 0, 0), ("###", 0, 0), ("... ... ...", 0, 0), ("... .#. ...", 1, 1), ("... .#. ..#", 0, 0), ("...# .#.. .... ....", 1, 1),
        ("..... .#.#. ..#.. .....", 3, 1), (".......... .##.#..#.. .##....#.. ..........", 7, 3), ("..... .###. .#.#. .###. .....", 8, 1),
        ("...... .####. .#..#. .#.##. .#.... .#####", 0, 0), ("####### #.....# #.###.# #.###.# #.....# #######", 6, 1),
        (".#. .#. ...", 0, 0), ("..... ###.. .....", 0, 0), ("..... ..### .....", 0, 0), ("... .#. .#.", 0, 0),
    ],
)  # fmt: skip
def test_voids_inside_the_land(rows: str, cells: int, groups: int) -> None:
    """Those that no chain of voids joins to the edge, across corners too."""
    assert around.inner_voids(picture_of(rows)) == (cells, groups)


def test_voids_inside_the_land_are_those_of_scipy() -> None:
    rng = np.random.default_rng(1)
    for share in (0.1, 0.3, 0.45, 0.6) * 30:
        data = rng.random(rng.integers(1, 30, 2)) >= share
        label, _ = ndimage.label(~data, np.ones((3, 3)))
        outer = np.unique(np.concatenate([label[0], label[-1], label[:, 0], label[:, -1]]))
        inner = ~data & ~np.isin(label, outer)
        assert around.inner_voids(data) == (inner.sum(), np.unique(label[inner]).size)


def test_a_void_in_a_lake_is_noted() -> None:
    """It lets water out, so that nothing is filled."""
    dem = np.pad(np.ones((2, 2)), 2, constant_values=9)
    void = np.ma.masked_array(dem, np.arange(dem.size).reshape(dem.shape) == 14)  # a cell of the lake
    for z, con, raised, noted in ((dem, np.full(dem.shape, 9), 4, False), (void, void, 0, True)):
        verdict = drain_gis.audit(z, con=con)
        assert verdict and f"raised={raised}" in verdict.line, verdict
        text = "dem: 1 void inside the land, in 1 group: water may leave there"
        assert any(note.startswith(text) for note in verdict.notes) == noted, verdict.notes
