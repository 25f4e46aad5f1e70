"""Random sets in random conventions: the verdict is what scipy and scikit-image find in the arrays as they were before.

A failing case is shrunk to a few cells.
"""

from dataclasses import dataclass
from pathlib import Path
from tempfile import TemporaryDirectory
from typing import Any

import drain_gis
import libraries
import numpy as np
import pytest
import worlds
from drain_gis import layers
from drain_gis.drain import Program
from drain_gis.rules import NOT_FILLED
from drain_gis.tools import TOOLS
from hypothesis import given, settings
from hypothesis import strategies as st
from hypothesis.extra.numpy import arrays

BLANK, NODATA, AREA = libraries.BLANK, -9999, 250
PLACE = worlds.Affine(25, 0, 500000.5, 0, -10, 4e6)
CHANGES = ("none", "con", "dir", "acc", "label", "merge", "blank", "filled void")
SPACINGS = {"unit": (1, 1), "3,4": (3, 4), "2,1": (2, 1), "0.5,1.2": (5, 12)}


@dataclass
class Case:
    """A set as libraries see it, and as it is given to the companion."""

    change: str
    z: np.ndarray
    void: np.ndarray
    seen: dict[str, np.ndarray]
    given: dict[str, np.ndarray]
    options: dict[str, Any]

    def faults(self) -> set[str]:
        """What libraries find wrong in what is given."""
        seen = {name: a for name, a in self.seen.items() if name in self.given}
        return libraries.faults(self.z, self.void, seen, SPACINGS[self.options["spacing"]])


@st.composite
def terrains(draw: Any, most: int = 9) -> tuple[np.ndarray, np.ndarray, np.random.Generator]:
    """Heights and voids, at least one cell with data; and a source of choices."""
    shape = draw(st.tuples(st.integers(1, most), st.integers(1, most)))
    high = draw(st.sampled_from([1, 3, 9, 40]))
    z = draw(arrays(np.int32, shape, elements=st.integers(0, high), fill=st.nothing()))
    z += draw(st.sampled_from([0, -5, 3000]))
    void = draw(arrays(np.bool_, shape, elements=st.booleans(), fill=st.just(False)))
    void.flat[draw(st.integers(0, void.size - 1))] = False
    return z, void, np.random.default_rng(draw(st.integers(0, 2**32 - 1)))


def change(name: str, products: dict[str, np.ndarray], void: np.ndarray, rng: np.random.Generator) -> None:
    """Makes one change."""
    cells = np.argwhere(~void)
    cell, other = (tuple(cells[rng.integers(len(cells))]) for _ in range(2))
    bas = products["bas"]
    if name in ("con", "acc"):
        products[name][cell] += rng.choice([-1, 1, 5])
    elif name == "dir":
        products["dir"][cell] = rng.choice(list(libraries.STEP))
    elif name == "label":
        bas[cell] = rng.integers(1, bas.max() + 2)
    elif name == "merge":
        bas[bas == bas[cell]] = bas[other]
    elif name == "blank":
        products[str(rng.choice(list(products)))][cell] = BLANK
    elif name == "filled void" and void.any():
        products["con"][tuple(np.argwhere(void)[0])] = 7


def led_off(codes: np.ndarray, void: np.ndarray, rng: np.random.Generator) -> np.ndarray:
    """Some outlets get a code that leads off the grid or into a void."""
    codes = codes.copy()
    for code, nowhere in libraries.shifted(void, True).items():
        codes[(codes == 0) & ~void & nowhere & (rng.random(codes.shape) < 0.7)] = code
    return codes


def ends_at_0(codes: np.ndarray, con: np.ndarray, void: np.ndarray) -> np.ndarray:
    """Codes of open cells without a lower neighbour that lead off become 0."""
    codes = codes.copy()
    level = np.max(list(libraries.slopes(con, void).values()), axis=0) == 0
    for code, nowhere in libraries.shifted(void, True).items():
        codes[(codes == code) & ~void & level & nowhere] = 0
    return codes


@st.composite
def cases(draw: Any, spacings: tuple[str, ...] = ("unit", *SPACINGS)) -> Case:
    """A set in other codes, units, kinds of numbers, spacings and ways of counting, mostly with one change."""
    z, void, rng = draw(terrains())
    spacing = draw(st.sampled_from(spacings))
    products = libraries.make(z, void, rng, sizes=SPACINGS[spacing])
    changed, tool = draw(st.sampled_from(CHANGES)), TOOLS[codes := draw(st.sampled_from(list(TOOLS)))]
    for a in products.values():
        a[void] = BLANK
    change(changed, products, void, rng)
    seen, written = dict(products), products["dir"]
    if draw(st.booleans()):
        ends, seen["dir"] = "zero", ends_at_0(products["dir"], products["con"], void)
        written = led_off(seen["dir"], void, rng) if draw(st.booleans()) else written
    else:
        ends = "keep"
    counting = draw(st.sampled_from(["cells", "above", "area"])) if changed != "acc" else "cells"
    numbers = {code: number for number, code in tool.codes.items()}
    numbers[0], numbers[BLANK] = tool.ends[0], NODATA
    per = draw(st.sampled_from([1, 2, 4, 10, 100, 1000])) if np.abs(z).max() < 300 else 1
    heights = draw(st.sampled_from(["float32", "float64"] + ["int16"] * (per == 1)))
    acc = {"cells": seen["acc"], "above": seen["acc"] - 1, "area": seen["acc"] * AREA}[counting]
    arrays_of = {
        "dem": (np.where(void, BLANK, z) / per, [heights]),
        "con": (seen["con"] / per, [heights]),
        "dir": (np.vectorize(numbers.get, otypes=[np.int64])(written), ["int16", "int32", "float32", "float64"]),
        "acc": (acc, ["int32", "float32", "float64"]),
        "bas": (seen["bas"] - draw(st.integers(0, 1)), ["int32", "int64", "float64"]),
    }
    blank = {"dem": void, **{name: a == BLANK for name, a in seen.items()}}
    kinds = {name: draw(st.sampled_from(kinds)) for name, (_, kinds) in arrays_of.items()}
    given = {name: np.where(blank[name], NODATA, a).astype(kinds[name]) for name, (a, _) in arrays_of.items()}
    if heights == "float32":  # judged as they are: tenths that tie don't as floats
        z = np.where(void, BLANK, z / per).astype("f4")
        seen["con"] = np.where(blank["con"], BLANK, seen["con"] / per).astype("f4")
    if changed in ("none", "con", "dir"):
        for name in draw(st.sets(st.sampled_from(["acc", "bas"]))):
            del given[name]
    options = {
        "codes": codes,
        "ends": ends,
        "acc_counts": counting,
        "nodata": dict.fromkeys(given, NODATA),
        "spacing": spacing,
    }
    return Case(changed, z, void, seen, given, options)


@settings(max_examples=150)
@given(cases(), st.sampled_from([1, 30, 10**6]), st.booleans())
def test_a_verdict_is_that_of_libraries(case: Case, window: int, by_files: bool) -> None:
    sources, options = dict(case.given), dict(case.options)
    with pytest.MonkeyPatch.context() as patch, TemporaryDirectory() as folder:
        patch.setattr(layers, "WINDOW_CELLS", window)
        if by_files:
            # rasterio writes no number below 0 as that without data of 64 bits
            files = {n: a.astype("i4") if a.dtype == np.int64 else a for n, a in sources.items()}
            sources = {n: worlds.write_tif(Path(folder) / f"{n}.tif", a, NODATA, PLACE) for n, a in files.items()}
            options["nodata"] = None
        elif options["acc_counts"] == "area" and "acc" in sources:
            options["cell_area"] = AREA
        verdict = drain_gis.audit(**sources, **options)
    assert bool(verdict) == (not case.faults()), (str(verdict), case.faults())
    if not verdict.accepted:
        assert verdict.row < case.z.shape[0] and verdict.col < case.z.shape[1]
        assert not case.void[verdict.row, verdict.col] or case.change == "filled void"
        assert verdict.map[verdict.row, verdict.col] not in (0, 255) or verdict.name == "NoEnd"
        assert np.array_equal(verdict.map == 255, case.void & (verdict.map != 1))


@settings(max_examples=100)
@given(cases(("unit",)), st.booleans(), st.booleans())
def test_library_and_program_give_the_same(alone: str, case: Case, without_heights: bool, parts: bool) -> None:
    """Of arrays in memory, judged by the library, and by a program that has none beside it: the whole verdict, and the map."""
    if Program().library is None:
        pytest.skip("no libdrain.so of this version beside the program")
    sources = {name: a for name, a in case.given.items() if not (without_heights and name in ("dem", "con"))}
    options = {**case.options, "nodata": dict.fromkeys(sources, NODATA), "parts": parts}
    if options["acc_counts"] == "area":
        options["cell_area"] = AREA
    one, other = (drain_gis.audit(**sources, **options, program=program) for program in (None, alone))
    assert one.made.set.is_held and not other.made.set.is_held
    assert (str(one), one.notes, one.rules, one.sizes) == (str(other), other.notes, other.rules, other.sizes)
    assert (one.map is None) == (other.map is None) and np.array_equal(one.shown, other.shown)


@settings(max_examples=100)
@given(terrains(), st.sampled_from(["none", "off", "blank", "any code", "no code", "acc", "label", "merge"]))
def test_flow_is_that_of_libraries(terrain: Any, changed: str) -> None:
    """Directions with rings and without; counts and labels right or changed. No surface takes part."""
    _, void, rng = terrain
    codes = libraries.random_steepest(rng.permutation(void.size).reshape(void.shape), void, rng)
    some = ~void & (rng.random(void.shape) < 0.2)
    if changed == "off":
        for code, nowhere in libraries.shifted(void, True).items():
            codes[nowhere & some] = code
    elif changed == "any code":
        codes[some] = rng.choice(list(libraries.STEP))
    elif changed in ("blank", "no code"):
        codes[tuple(np.argwhere(~void)[0])] = {"blank": BLANK, "no code": 3}[changed]
    graph, _ = libraries.graph_of(codes, void)
    acc = (~void).astype(np.int64) if libraries.has_ring(graph) else libraries.accumulation(graph, void)
    products = {"acc": acc, "bas": libraries.basins(graph, void.shape)}
    if changed in ("acc", "label", "merge"):
        change(changed, products, void, rng)
    masked = {name: np.ma.array(a, mask=void) for name, a in products.items()}
    masked["dir"] = np.ma.array(codes, mask=void | (codes == BLANK))
    verdict = drain_gis.audit(**masked, codes="drain", acc_counts="cells")
    assert bool(verdict) == (not libraries.flow_faults(codes, products, void)), str(verdict)


@settings(max_examples=60)
@given(terrains(), st.integers(0, 20), st.sampled_from(["f4", "f8"]), st.sampled_from(["none", "con", "dir", "acc"]))
def test_steepness_of_floats_is_that_of_libraries(terrain: Any, twos: int, kind: str, changed: str) -> None:
    """Each a float of 32 bits: all four rasters are judged."""
    _, void, rng = terrain
    z = rng.integers(-(10**6), 9 * 10**6, void.shape)
    products = libraries.make(z, void, rng)
    change(changed, products, void, rng)
    given = {name: np.ma.array(a, mask=void) for name, a in {"dem": z, **products}.items()}
    given |= {name: (given[name] / 2**twos).astype(kind) for name in ("dem", "con")}
    verdict = drain_gis.audit(**given, codes="esri", acc_counts="cells", ends="keep")
    blank = {name: np.where(void, BLANK, a) for name, a in products.items()}
    assert bool(verdict) == (not libraries.faults(z, void, blank)), str(verdict)
    assert verdict.judged == ("con", "dir", "acc", "bas") and not verdict.dropped


@settings(max_examples=40)
@given(
    terrains(),
    st.integers(0, 20),
    st.sampled_from(["f4", "f8"]),
    st.sampled_from(list(TOOLS)),
    st.booleans(),
    st.sampled_from(list(SPACINGS)),
)
def test_what_is_made_is_right_by_libraries(
    terrain: Any, twos: int, kind: str, tool: str, has_sink: bool, spacing: str
) -> None:
    """con, dir, acc and bas of floats of 32 bits, on rectangles with voids, and with an inland sink."""
    _, void, rng = terrain
    steps = rng.integers(-(10**6), 9 * 10**6, void.shape)
    dem = np.ma.array((steps / 2**twos).astype(kind), mask=void)
    sinks = (tuple(map(int, np.argwhere(~void)[0])),) if has_sink else ()
    with TemporaryDirectory() as folder:
        outs = {name: Path(folder) / f"{name}.tif" for name in worlds.PRODUCTS}
        drain_gis.make(dem, outs, tool, sinks=sinks, spacing=spacing)
        assert drain_gis.audit(dem, **outs, sinks=sinks, codes=tool, acc_counts="cells", spacing=spacing)
        made = {name: layers.layer_of(name, path).window(0, len(void)) for name, path in outs.items()}
    assert all(np.array_equal(blank, void) for _, blank in made.values())
    numbers = {name: np.where(void, BLANK, a) for name, (a, _) in made.items()}
    numbers["con"] = np.where(void, BLANK, np.ldexp(made["con"][0].astype(np.float64), twos)).astype(np.int64)
    meaning = {**TOOLS[tool].meaning(), BLANK: BLANK}
    numbers["dir"] = np.vectorize(meaning.get, otypes=[np.int64])(numbers["dir"])
    assert np.array_equal(numbers["con"][~void], libraries.least_surface(steps, void, sinks)[~void])
    assert sinks or not libraries.faults(steps, void, numbers, SPACINGS[spacing])


@settings(max_examples=35)
@given(terrains(), st.sampled_from(["f4", "f8"]), st.sampled_from(["none", "higher", "lower"]))
def test_surfaces_of_any_heights_are_that_of_libraries(terrain: Any, kind: str, changed: str) -> None:
    """Floats as they are, doubles without a unit by their ranks."""
    _, void, rng = terrain
    z = (rng.random(void.shape) * 100).astype(kind)
    least = libraries.least_surface(z.astype(np.float64), void).astype(kind)
    con, cell = least.copy(), tuple(np.argwhere(~void)[rng.integers((~void).sum())])
    if changed != "none":
        con[cell] = np.nextafter(con[cell], np.array(1e9 if changed == "higher" else -1e9, kind))
    verdict = drain_gis.audit(np.ma.array(z, mask=void), con=np.ma.array(con, mask=void), parts=True)
    assert bool(verdict) == (changed == "none")
    if not verdict:
        others = {tuple(at): verdict.map[tuple(at)] for at in np.argwhere(verdict.map % 255)}
        assert others.pop(cell) and verdict.rules.get(NOT_FILLED, (1, cell)) == (1, cell)
        # What was filled through a cell that is too low may be higher than it has to be.
        assert set(others.values()) <= ({9} if changed == "lower" else set())
        assert (verdict.row, verdict.col) == cell or (verdict.row, verdict.col) in others
        assert f"1 cell too {'high' if changed == 'higher' else 'low'}" in verdict.parts["con"]
