"""The tools' codes: each table against a drawing, each on a right and a wrong set, and what real tools made."""

from pathlib import Path
from typing import Any

import drain_gis
import libraries
import numpy as np
import pytest
import worlds
from conftest import FIXTURES
from conftest import drain_gis as command
from drain_gis import layers
from drain_gis.layers import layer_of
from drain_gis.tools import TOOLS, spacing_of_tool, tool_list

ESRI = "32 64 128 / 16 . 1 / 8 4 2"

# Each table as a manual draws it: north-west, north, .. south-east.
DRAWN = dict.fromkeys(("esri", "terraflow", "terra", "whitebox-esri", "pysheds", "hydrosheds", "drain"), ESRI) | {
    "saga": "7 0 1 / 6 . 2 / 5 4 3",
    "grass": "3 2 1 / 4 . 8 / 5 6 7",
    "grass-fill-dir": "135 90 45 / 180 . 360 / 225 270 315",
    "grass-agnps": "8 1 2 / 7 . 3 / 6 5 4",
    "taudem": "4 3 2 / 5 . 1 / 6 7 8",
    "whitebox": "64 128 1 / 32 . 2 / 16 8 4",
    "richdem": "2 3 4 / 1 . 5 / 8 7 6",
    "pcraster": "7 8 9 / 4 . 6 / 1 2 3",
}

# The presets whose tool was run: these, and no others, may say so.
RUN = {"saga": "SAGA 8.5.0", "terra": "terra 1.7.3", "drain": "drain 0.2.0"}
RUN |= dict.fromkeys(("grass", "grass-fill-dir", "grass-agnps", "terraflow"), "GRASS 8.2.1")

# Fixture, tool, products, with SAGA's con if they have none: the line of an audit, and the cells at which each rule fails. Worked out by
# tests/program/audit.py and plain_faults.py, which know the rules and nothing of the program. Rules of rasters that
# weren't given aren't counted, and a cell without a direction only by rule 2. 16: cells at which a path stops (a walk
# along each path finds them, also those with 0 inside the grid) or that a ring has.
LINES = (
    ("saga", "saga", "dir", "accepted rows=47 cols=61 data=2842 raised=35 outlets=17", {}),
    ("saga", "saga", "dir acc", "rejected rule=13 Accumulation row=0 col=1", {13: 229}),
    ("saga", "saga", "dir bas", "rejected rule=14 Label row=0 col=8", {14: 52, 15: 1}),
    ("saga", "saga", "dir acc bas", "rejected rule=13 Accumulation row=0 col=1", {13: 229, 14: 52, 15: 1}),
    ("grass", "grass", "dir", "rejected rule=10 Slope row=0 col=13", {10: 27}),
    ("grass", "grass", "dir acc", "rejected rule=13 Accumulation row=0 col=1", {10: 27, 13: 197}),
    ("grass-stream", "grass", "dir", "rejected rule=10 Slope row=0 col=13", {10: 1157}),
    ("grass-fill-dir", "grass-fill-dir", "dir", "rejected NoEnd row=0 col=0", {1: 1, 10: 222, 16: 222}),
    ("grass-agnps", "grass-agnps", "dir", "rejected NoEnd row=0 col=0", {1: 1, 10: 222, 16: 222}),
    ("terraflow", "terraflow", "dir", "rejected NoEnd row=0 col=0", {1: 25, 10: 222, 12: 42, 16: 264}),
    (
        "terraflow", "terraflow", "dir acc bas", "rejected NoEnd row=0 col=0",
        {1: 25, 10: 222, 12: 42, 13: 36, 14: 4, 15: 52, 16: 264},
    ),
    ("terra", "terra", "dir", "rejected NoEnd row=0 col=0", {2: 206, 10: 196, 11: 17, 16: 227}),
    ("floats/saga", "saga", "con dir", "accepted rows=24 cols=30 data=696 raised=12 outlets=8", {}),
    ("floats/terraflow", "terraflow", "con dir", "rejected NoEnd row=0 col=0", {1: 24, 10: 112, 12: 16, 16: 128}),
)  # fmt: skip

# What each tool divides drops by, of projected cells and in degrees: as its manual or its source says, or as its
# rasters showed. `unit` where neither does.
DISTANCES = dict.fromkeys(("esri", "saga", "terraflow", "richdem", "pcraster", "hydrosheds", "drain"), ("unit", "unit"))
DISTANCES |= dict.fromkeys(("grass-fill-dir", "grass-agnps"), ("unit", "unit"))
DISTANCES |= dict.fromkeys(("whitebox", "whitebox-esri", "pysheds"), ("cells", "cells"))
DISTANCES |= {"grass": ("cells", "unit"), "taudem": ("cells", "wgs84"), "terra": ("cells", "middle")}
# Width to height of cells of 30 by 20 m, and of 0.0003 by 0.0002 degrees at 60 degrees, where a degree of longitude is
# 55.800 km long, and one of latitude 111.412; at the equator 110.574. On a sphere it would be 0.5 times as long.
PROJECTED = {"unit": 1, "cells": 1.5}
IN_DEGREES = {"unit": 1, "cells": 1.5, "wgs84": 1.5 * 55.800 / 111.412, "middle": 1.5 * 55.800 / 110.574}

CODE = {step: code for code, step in worlds.STEP.items()}  # Esri's


def test_tables_are_those_that_manuals_draw() -> None:
    assert set(DRAWN) == set(TOOLS)
    for tool, picture in DRAWN.items():
        lines = [line.split() for line in picture.split("/")]
        places = ((int(n), (i - 1, j - 1)) for i, line in enumerate(lines) for j, n in enumerate(line) if n != ".")
        assert TOOLS[tool].codes == {number: CODE[step] for number, step in places}, tool


@pytest.mark.parametrize("tool", TOOLS)
def test_each_preset_has_the_distances_of_its_tool(tmp_path: Path, tool: str) -> None:
    sizes, number = dict(zip((32616, 4326), zip(DISTANCES[tool], (PROJECTED, IN_DEGREES)))), np.zeros((1, 2), np.int16)
    for epsg, place in ((32616, (30, 0, 0, 0, -20, 0)), (4326, (0.0003, 0, 10, 0, -0.0002, 60.0001))):
        layer = layer_of("dem", worlds.write_tif(tmp_path / "x.tif", number, None, worlds.Affine(*place), epsg))
        ((width, height),), (kind, ratios) = spacing_of_tool(tool, layer, None).pairs, sizes[epsg]
        assert width / height == pytest.approx(ratios[kind], rel=2e-5)


def test_the_list_says_what_was_run() -> None:
    assert {name: tool.run for name, tool in TOOLS.items() if tool.run} == RUN
    for name in TOOLS:
        line = next(line for line in tool_list().splitlines() if line.split()[:1] == [name])
        assert (f"run: {RUN[name]}" if name in RUN else "not run, by its documentation") in line
        assert line in command("tools").out


@pytest.mark.parametrize("codes", [None, "arc", ""])
def test_directions_need_codes(codes: str | None) -> None:
    world = worlds.random_world()
    for given in (world.given("con", "dir"), {"dir": world.masked("dir")}):
        with pytest.raises(drain_gis.CannotJudge, match=f"codes=TOOL.*{'not .arc.*' if codes else ''}taudem"):
            drain_gis.audit(**given, codes=codes)


@pytest.mark.parametrize(("fixture", "tool", "given", "line", "rules"), LINES)
def test_what_real_tools_made(fixture: str, tool: str, given: str, line: str, rules: dict[int, int]) -> None:
    """What they made of dem.tif beside it, as they left it: fixtures/make.sh has the versions and the commands."""
    files: dict[str, Any] = {"con": FIXTURES / "saga-con.tif"}
    files |= {name: FIXTURES / f"{fixture}-{name}.tif" for name in given.split()}
    verdict = drain_gis.audit((FIXTURES / fixture).parent / "dem.tif", **files, codes=tool, parts=True)
    assert verdict.answer.line == line
    assert {number: cells for number, (cells, _) in verdict.rules.items()} == rules
    assert verdict or verdict.parts["con"].startswith("the least surface")
    remark = TOOLS[tool].remark
    assert verdict.warning == "" and any(note.lower().endswith(remark.lower()) for note in verdict.notes)
    assert tool != "grass" or "a label for each segment of a stream, not for each outlet" in remark


def test_counts_that_a_tool_leaves_out_at_the_rim_are_told_apart() -> None:
    """SAGA's edge cells pass nothing on, and so do those beside voids: edge contamination."""
    files = {name: FIXTURES / f"saga-{name}.tif" for name in ("con", "dir", "acc")}
    paths = (FIXTURES / "dem.tif", files["dir"], files["acc"])
    (_, void), codes, acc = (layers.layer_of("dem", path).window(0, 47) for path in paths)
    meaning = TOOLS["saga"].meaning()
    graph, _ = libraries.graph_of(np.vectorize(lambda n: meaning.get(int(n), 0))(codes[0]), void)
    wrong = ~void & (acc[0] != 1 + (graph.T @ np.where(void, 0, acc[0]).ravel()).reshape(void.shape))
    rim = int((wrong & libraries.open_cells(void)).sum())
    verdict = drain_gis.audit(FIXTURES / "dem.tif", **files, codes="saga", parts=True)
    assert 0 < rim < wrong.sum() == verdict.rules[13][0]
    assert f"{rim} at the rim (edge contamination)" in verdict.sizes[13], verdict.sizes


@pytest.mark.parametrize(
    ("fixture", "tool"), [(f, t) for f, t, given, *_ in LINES if given == "dir" and f != "grass-stream"]
)
def test_each_preset_fits_its_tool_and_no_other(fixture: str, tool: str) -> None:
    """By other codes a set of its is rejected, and the warning names the tool's own."""
    files = {"con": FIXTURES / "saga-con.tif", "dir": FIXTURES / f"{fixture}-dir.tif"}
    for other in TOOLS:
        verdict = drain_gis.audit(FIXTURES / "dem.tif", **files, codes=other)
        alike = TOOLS[other].codes == TOOLS[tool].codes
        assert bool(verdict) == (tool == "saga" and alike)
        assert ("WARNING" in str(verdict)) == (not alike), (other, str(verdict))
        assert alike or f"is it {tool}" in str(verdict) or f"or {tool}" in str(verdict)
