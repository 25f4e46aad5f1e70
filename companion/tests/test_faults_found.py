"""Every planted fault of con, dir, acc and bas is found: by the verdict, on the map, and in the part that it is in."""

from typing import Any

import drain_gis
import libraries
import numpy as np
import pytest
import worlds
from conftest import FIXTURES
from hypothesis import given, settings
from hypothesis import strategies as st
from test_random_sets import terrains

PLAIN: dict[str, Any] = {"codes": "esri", "acc_counts": "cells"}


@settings(max_examples=30)
@given(terrains(7), st.sampled_from(worlds.PRODUCTS), st.randoms())
def test_a_number_in_a_void_and_none_in_a_data_cell_are_found(terrain: Any, name: str, random: Any) -> None:
    z, void, _ = terrain
    world = worlds.world_of(z, void)
    missing, over = world.masked(name), world.masked(name)
    missing[random.choice(world.cells())] = np.ma.masked
    verdict = drain_gis.audit(**{**world.given(), name: missing}, **PLAIN, parts=True)
    assert not verdict and (2 in verdict.rules or verdict.name == "NoEnd")
    assert any(note.startswith(f"{name}: no data at 1 cell") for note in verdict.notes), verdict.notes
    if void.any():
        cell = tuple(map(int, random.choice(np.argwhere(void).tolist())))
        over[cell] = 1
        verdict = drain_gis.audit(**{**world.given(), name: over}, **PLAIN)
        assert (verdict.name, verdict.row, verdict.col) == ("VoidCell", *cell)
        assert any(note.startswith(f"{name}: a number at 1 cell without") for note in verdict.notes)


@pytest.mark.parametrize("name", worlds.PRODUCTS)
def test_a_raster_without_any_number_is_noted(name: str) -> None:
    world = worlds.random_world(seed=9)
    verdict = drain_gis.audit(**{**world.given(), name: np.ma.masked_all_like(world.masked(name))}, **PLAIN)
    text = f"{name}: no data at {(~world.void).sum()} cells with an elevation (rule Missing): it has no number at all"
    assert not verdict and any(text in note for note in verdict.notes), verdict.notes


@pytest.mark.parametrize(
    ("name", "change", "part", "text", "size"),
    [
        ("con", 3, "con", "1 cell too high, by at most 3 ", "NotLeast: 1 cell, "),
        ("con", -1, "con", "1 cell too low, by at most 1 ", ""),
        ("acc", -7, "acc, bas", "acc differs at 1 cell", "at most 7 cells lost"),
        ("bas", 10**6, "acc, bas", "at 1 cell", ""),
    ],
)
def test_the_part_with_the_fault_and_its_size_are_told(name: str, change: int, part: str, text: str, size: str) -> None:
    world = worlds.random_world(seed=9)
    raised = np.argwhere((world.con > world.dem) & ~world.void)
    mouth = np.unravel_index(np.where(world.void, 0, world.acc).argmax(), world.acc.shape)
    cell = {"con": tuple(raised[3]), "acc": mouth, "bas": next(c for c in world.cells() if world.acc[c] == 1)}[name]
    wrong = world.masked(name)
    wrong[cell] += change
    verdict = drain_gis.audit(**{**world.given(), name: wrong}, **PLAIN, parts=True)
    assert not verdict and text in verdict.parts[part]
    assert name == "bas" or f"row {cell[0]}, column {cell[1]}" in verdict.parts[part]
    others = verdict.parts["con"].startswith("the least surface") and "each rule" in verdict.parts["dir"]
    assert name == "con" or others
    assert all(line in str(verdict) for line in (verdict.line, verdict.where, *verdict.parts.values(), size))


def test_where_con_is_too_low_nobody_says_that_it_is_too_high() -> None:
    """Rule 9 fails beside cells that are too low: cells that are too high and too low are counted apart."""
    world = worlds.random_world(seed=9)
    raised = (world.con > world.dem) & ~world.void
    verdict = drain_gis.audit(**{**world.given(), "con": world.masked("con") - raised}, **PLAIN, parts=True)
    assert "too low, by at most 1 " in verdict.parts["con"] and "too high" not in verdict.parts["con"]
    assert 9 not in verdict.sizes or "too high" not in verdict.sizes[9]
    assert "a neighbour's too low" in drain_gis.rules.RULES[9].label


def test_sizes_of_fewer_cells_than_fail_say_so() -> None:
    world = worlds.random_world(seed=9)
    rasters, inside = world.given(), np.where(world.void | (world.dir == 0), 0, world.acc)
    for name in ("acc", "bas"):
        rasters[name][np.unravel_index(inside.argmax(), inside.shape)] += 10**6
    verdict = drain_gis.audit(**rasters, **PLAIN, parts=True)
    text = f"(of {verdict.rules[14][0] - 1} that fail no rule with a smaller number)"
    assert text in verdict.sizes[14] and "smaller" not in verdict.sizes[13], verdict.sizes


def test_a_surface_that_drains_as_its_own_ground_is_told() -> None:
    """As of a tool that breaches or carves: it isn't the least surface, and has no depressions."""
    world = worlds.random_world(seed=9)
    raised = np.where(world.void, 0, libraries.least_surface(world.dem + (world.dem > 5), world.void))
    text = drain_gis.audit(world.masked("dem"), con=np.ma.array(raised, mask=world.void), parts=True).parts["con"]
    assert "not the least surface" in text and "as its own ground it has no depressions" in text
    low = drain_gis.audit(world.masked("dem"), con=world.masked("dem"), parts=True).parts["con"]
    assert "not the least surface" in low and "as its own ground it has no depressions" not in low


def test_paths_without_an_end() -> None:
    """How many cells don't drain, and the ring, on the map too."""
    world = worlds.random_world(seed=9)
    row, col = next(cell for cell in world.cells() if world.dir[cell] == 1)
    world.dir[row, col + 1] = 16
    lost, grown = {(row, col), (row, col + 1)}, True
    while grown:
        more = {c for c in world.cells() if world.beside(c).get(int(world.dir[c])) in lost} - lost
        lost, grown = lost | more, bool(more)
    verdict = drain_gis.audit(**world.given(), codes="esri", parts=True)
    assert verdict.name == "NoEnd" and f"{len(lost)} cells of {(~world.void).sum()} don't drain" in str(verdict)
    assert "ring of 2 cells" in str(verdict) and all(verdict.map[row, col + i] not in (0, 255) for i in (0, 1))
    flow = drain_gis.audit(dir=world.masked("dir"), codes="esri")
    assert flow.name == "NoEnd" and f"{len(lost)} cells of" in flow.ends and "ring of 2 cells" in flow.ends


def test_what_flows_to_an_end_inside_the_grid_does_not_drain() -> None:
    """An inner cell gets 0: all that drains through it is lost, and acc is compared at the other cells alone."""
    world, rim = worlds.random_world(seed=9), libraries.open_cells(worlds.random_world(seed=9).void)
    stop = np.unravel_index(np.where(world.void | rim, 0, world.acc).argmax(), world.acc.shape)
    lost, row, col, below = int(world.acc[stop]), *stop, 0
    while world.dir[row, col]:
        (row, col), below = world.beside((int(row), int(col)))[int(world.dir[row, col])], below + 1
    upstream = next(c for c in world.cells() if world.beside(c).get(int(world.dir[c])) == tuple(map(int, stop)))
    world.dir[stop], acc = 0, world.masked("acc")
    acc[upstream] += 5
    given, ends = {**world.given(), "acc": acc}, f"first at row {stop[0]}, column {stop[1]}"
    text = f"{lost} cells of {(~world.void).sum()} don't drain: 0 cells in rings, 1 at which a path stops, {ends}"
    part = drain_gis.audit(**given, **PLAIN, parts=True).parts["acc, bas"]
    assert text in part and f"acc differs at {below} cell" in part and lost > 20, part
    verdict = drain_gis.audit(world.masked("dem") * np.pi, dir=given["dir"], codes="esri")
    text = f"dir: {lost} cells of {(~world.void).sum()} drain to 1 ends inside the grid"
    assert any(note.startswith(text) for note in verdict.notes), verdict.notes
    listed = drain_gis.audit(world.masked("dem") * np.pi, dir=given["dir"], sinks=[stop], codes="esri")
    assert not any("ends inside the grid" in note for note in listed.notes)


def test_how_many_cells_do_not_drain_is_told_once() -> None:
    """r.fill.dir's rim leads off the grid though a neighbour is lower: no part says that every path ends."""
    files = {"con": FIXTURES / "saga-con.tif", "dir": FIXTURES / "grass-fill-dir-dir.tif"}
    verdict = drain_gis.audit(FIXTURES / "dem.tif", **files, codes="grass-fill-dir", parts=True)
    lost = verdict.ends.split(";")[0]
    assert "222 at which a path stops" in lost and "it leads off the grid" in verdict.ends
    assert verdict.parts["paths"].startswith(lost) and "every path ends" not in str(verdict)
    assert any("lead off the grid, even if a neighbour is lower" in note for note in verdict.notes)
