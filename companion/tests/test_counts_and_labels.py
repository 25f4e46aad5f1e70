"""What acc counts, labels of any size, and numbers that are none."""

import math
from pathlib import Path
from typing import Any

import drain_gis
import numpy as np
import pytest
import worlds
from conftest import drain_gis as command
from drain_gis.tools import TOOLS
from worlds import BIG, CODES, DEM

ACC = np.array([[3, 2, 1, 1, 2]], np.int64)
BAS = np.array([[1, 1, 1, 2, 2]], np.int64)
FEET, DEGREES = 2277, worlds.Affine(0.5, 0, 10, 0, -0.5, 50)
"""A projected system in US survey feet (EPSG); cells of half a degree."""


def audit(**given: Any) -> drain_gis.Verdict:
    """The verdict on the two slopes."""
    return drain_gis.audit(DEM, con=DEM, dir=CODES, codes="esri", **given)


def refused(name: str, text: str, **given: Any) -> bool:
    """Whether a raster is dropped for such a reason, and the others are accepted."""
    verdict = audit(**given)
    return verdict.accepted and not verdict and text in verdict.dropped.get(name, "")


def counted(folder: Path, world: worlds.World, acc: np.ndarray, *place: Any) -> list[str]:
    """The arguments for a set with these counts."""
    return worlds.words(worlds.write_set(folder, world, *place, acc=acc.astype(np.float64)))


@pytest.mark.parametrize(
    ("factor", "plus", "place", "text"),
    [
        (1, 0, (), "cells"),
        (1, -1, (), "cells above each, 1 added"),
        (900, 0, (), "area of a cell, 900 m2"),
        (900, 0, (worlds.UTM, FEET), "area of a cell, 900 square units of the map"),
        (0.25, 0, (DEGREES, 4326), "area of a cell, 0.25 square units of the map"),
    ],
)
def test_the_first_line_says_what_was_taken(
    tmp_path: Path, world: Any, factor: Any, plus: int, place: Any, text: str
) -> None:
    words, wrong = counted(tmp_path, world, world.acc * factor + plus, *place), world.acc.copy()
    done = command("judge", "--quiet", *words, "--out", tmp_path / "r.html")
    assert done.status == 0 and done.out.splitlines()[0].endswith(f"; acc counts: {text}"), done
    assert f"; acc counts: {text}" in (tmp_path / "r.html").read_text()
    assert f"; acc counts: {text}" in command("judge", *words[:2], *words[6:]).out, "along dir alone too"
    wrong[world.cells()[33]] += 1
    done = command("judge", "--quiet", *counted(tmp_path, world, wrong * factor + plus, *place))
    assert done.status == 1 and done.out.splitlines()[0].endswith(f"; acc counts: {text}"), done


@pytest.mark.parametrize("factor", [2, 899, 900.01, 30, 0.5])
def test_another_factor_is_refused_unless_it_is_named(tmp_path: Path, world: worlds.World, factor: float) -> None:
    words = counted(tmp_path, world, world.acc * float(factor))
    for more in ((), ("--acc-counts", "area")):
        done = command("judge", *words, *more)
        assert done.status == 2 and "900" in done.out and "judged: con, dir, bas" in done.out, done
    done = command("judge", *words, "--cell-area", factor)
    assert (done.status, f"; acc counts: {factor:g} a cell, by --cell-area" in done.out) == (0, True), done
    for area in ("3", "0", "-2", "nan", "inf"):
        assert command("judge", *words, "--cell-area", area).status == 2, area


@pytest.mark.parametrize(
    ("acc", "options"),
    [
        (ACC, {}), (ACC - 1, {}), (ACC - 1, {"acc_counts": "above"}), (ACC, {"acc_counts": "cells"}), (ACC.astype("f4"), {}),
        *(((ACC * n).astype(k), {"cell_area": n}) for n in (900, 0.01, 1 / 3, 812.25, 7e-7) for k in ("f4", "f8")),
    ],
)  # fmt: skip
def test_each_way_of_counting(acc: np.ndarray, options: dict[str, Any]) -> None:
    assert audit(acc=acc, **options)
    wrong = acc.copy()
    wrong[0, 0] += options.get("cell_area", 1)
    assert not audit(acc=wrong, **options)


def test_a_way_that_is_named_is_taken() -> None:
    assert not audit(acc=ACC - 1, acc_counts="cells") and not audit(acc=ACC, acc_counts="above")
    assert refused("acc", "georeference", acc=ACC * 900)
    with pytest.raises(drain_gis.CannotJudge, match="own area too"):
        audit(acc=(ACC - 1) * 900, acc_counts="area", cell_area=900)


@pytest.mark.parametrize("kind", ["f4", "f8"])
@pytest.mark.parametrize("number", [3.5, 3.00001, 20_000.03125, 500_000.5, 500_000.03125])
def test_a_fraction_is_no_count_at_any_size(number: float, kind: str) -> None:
    for times, options in ((1, {}), (900, {"cell_area": 900})):
        acc = (ACC * times).astype(kind)
        acc[0, 0] = number * times
        sure = kind == "f8" or number != 500_000.03125  # of a large sum in single precision the last digits may be lost
        is_refused = refused("acc", "at row 0, column 0 is no count", acc=acc, **options)
        assert is_refused or not (sure or audit(acc=acc, **options))


@pytest.mark.parametrize("number", [-1, -(2**63), 2**32, BIG + 1, 2**63 - 1, 2**64 - 1])
def test_numbers_that_are_no_counts_of_32_bits(number: int) -> None:
    acc = ACC.astype(np.uint64 if number > 2**63 else np.int64)
    acc[0, 0] = number
    assert refused("acc", f"{number} at row 0, column 0 is no count", acc=acc)


@pytest.mark.parametrize("number", [2701, 900 * 600_000 + 450, 900 * 2**31 + 1, 900 * 2**40 + 1])
def test_whole_areas_are_divided_exactly(number: int) -> None:
    acc = ACC * 900
    acc[0, 0] = number
    assert refused("acc", f"{number} at row 0, column 0 is no count", acc=acc, cell_area=900)


def test_directions_into_several_cells_are_no_counts(world: worlds.World) -> None:
    acc = world.masked("acc") + np.random.default_rng(1).random(world.acc.shape) * 5 + 2
    verdict = drain_gis.audit(**{**world.given(), "acc": acc}, codes="esri")
    assert not verdict and "no counts" in verdict.dropped["acc"] and verdict.judged == ("con", "dir", "bas")


def test_sums_in_single_precision_are_taken_within_their_rounding() -> None:
    """As of r.terraflow, which adds up in single precision: a long slope whose last sums lost their last digits."""
    cells = 6000
    z = np.arange(cells, 0, -1)[None] % 30000
    codes, right = np.where(np.arange(cells) < cells - 1, 1, 0)[None], np.arange(1, cells + 1)[None]
    off = np.where(right > 9, right.astype(np.float32) * np.float32(1 + 2**-22), right).astype(np.float32)
    verdict = drain_gis.audit(z, con=z, dir=codes, acc=off, codes="esri")
    assert verdict.accepted and any("single precision" in note or "millionth" in note for note in verdict.notes)
    off[0, 5000:] += 1
    assert not drain_gis.audit(z, con=z, dir=codes, acc=off, codes="esri")
    near = np.where(ACC == 3, 25468.988, ACC).astype("f4")
    assert refused("acc", "25468.98828125 at row 0, column 0 is no count. It may be a rounded sum", acc=near)
    large = ACC.astype(np.float32)
    large[0, 0] = 2.0**25
    verdict = audit(acc=large)
    assert not verdict and any("16,777,216 or more" in note for note in verdict.notes)


def along_a_row(cells: int) -> np.ndarray:
    """Directions along a row, with an outlet at its end."""
    return np.where(np.arange(cells) < cells - 1, 1, 0)[None]


def areas(cells: int, bias: float) -> np.ndarray:
    """Areas along a row as a tool in single precision adds them up, each sum too large by so many halves of a digit."""
    sums = np.full((1, cells), 812.3, np.float32)
    for i in range(1, cells):
        sums[0, i] = (sums[0, i - 1].astype(np.float64) + sums[0, 0]) * (1 + bias * 2.0**-24)
    return sums


@pytest.mark.parametrize("bias", [0, 0.9, -0.9])
def test_the_first_line_says_by_how_much_sums_were_rounded(bias: float) -> None:
    acc = areas(8000, bias)
    off = np.abs(acc / acc[0, 0].astype(np.float64) - np.arange(1, 8001)).max()
    verdict = drain_gis.audit(dir=along_a_row(8000), acc=acc, codes="esri", cell_area=812.3)
    assert verdict and verdict.line.endswith(f", rounded by at most {math.ceil(off * 1000) / 1000} cells"), verdict.line
    assert not any("millionth" in note for note in verdict.notes), "they were counted along dir"


@pytest.mark.parametrize("bias", [6.5, -6.5])
def test_more_than_rounding_is_no_count(bias: float) -> None:
    verdict = drain_gis.audit(dir=along_a_row(3000), acc=areas(3000, bias), codes="esri", cell_area=812.3)
    assert not verdict and "is no count" in verdict.dropped["acc"]


@pytest.mark.parametrize("cells", [1, -1, 100])
def test_a_count_that_is_lost_among_rounded_sums_is_found(cells: int) -> None:
    acc = areas(3000, 0)
    acc[0, 2000:] -= np.float32(cells * 812.3)
    verdict = drain_gis.audit(dir=along_a_row(3000), acc=acc, codes="esri", cell_area=812.3, parts=True)
    assert verdict.rule == 13 and (verdict.row, verdict.col) == (0, 2000)
    assert "acc differs at 1,000 cells" in verdict.parts["acc"] and ", rounded by at most 0." in verdict.line


@pytest.mark.parametrize("bias", [6.5, -6.5])
def test_sums_of_whole_numbers_that_single_precision_holds_are_not_rounded(bias: float) -> None:
    """A river into which a row of 2,000 cells flows at each step: in the end it has 28,000.08, or 27,999.92."""
    codes, acc = np.ones((14, 2000), np.int16), np.tile(np.arange(1, 2001, dtype=np.float32), (14, 1))
    codes[:, -1] = [4] * 13 + [0]
    for row in range(1, 14):
        acc[row, -1] = (acc[row - 1, -1].astype(np.float64) + 2000) * (1 + bias * 2.0**-24)
    assert 0.05 < abs(acc[13, -1] - 28000) < 0.1
    verdict = drain_gis.audit(dir=codes, acc=acc, codes="esri")
    assert not verdict and "column 1999 is no count" in verdict.dropped["acc"]


@pytest.mark.parametrize(("kind", "part"), [("f4", 1e-6), ("f8", 2.0**-40)])
@pytest.mark.parametrize("sign", [1, -1])
def test_a_count_may_be_off_by_a_small_part_of_itself_up_and_down(kind: str, part: float, sign: int) -> None:
    near, far = (np.where(ACC == 3, 3 * (1 + sign * part * n), ACC).astype(kind) for n in (0.8, 1.6))
    assert (near != ACC).sum() == (far != ACC).sum() == 1
    verdict, text = audit(acc=near), "; acc counts: cells, rounded by at most 0.001 cells"
    assert verdict and verdict.line.endswith(text if kind == "f4" else "; acc counts: cells"), verdict.line
    assert any("1 numbers are whole but for a millionth" in note for note in verdict.notes)
    assert refused("acc", "at row 0, column 0 is no count", acc=far)


def test_a_folder_says_by_how_much_sums_were_rounded(tmp_path: Path) -> None:
    dem, codes = np.arange(4000, 0, -1, np.int16)[None], along_a_row(4000).astype(np.uint8)
    rasters = {"dem": dem, "dir": codes, "acc": areas(4000, 0.9)}
    words = worlds.words({name: worlds.write_tif(tmp_path / f"{name}.tif", a) for name, a in rasters.items()})
    direct = command("judge", "--quiet", *words, "--cell-area", 812.3)
    done = command("import", *words, "--cell-area", 812.3, tmp_path / "out")
    assert (direct.status, done.status) == (0, 0) and "rounded by at most 0." in direct.out, done
    assert direct.out.splitlines()[0] in command("judge", tmp_path / "out").out


def test_signs_of_grass_are_dropped(world: worlds.World) -> None:
    codes = np.ma.array(worlds.in_codes_of(TOOLS["grass"], world.dir), mask=world.void)
    given = {**world.given("con"), "dir": codes, "acc": -world.masked("acc")}
    verdict = drain_gis.audit(**given, codes="grass", spacing="unit")
    assert verdict and any("their sign is dropped" in note for note in verdict.notes)


@pytest.mark.parametrize("first", [-1, -100, 0, 1, 5, 10**6, -BIG - 5, 1 - BIG, -(2**63), 2**63 - 2, 2**32])
@pytest.mark.parametrize("kind", ["i4", "i8", "f8"])
def test_labels_of_any_size_stay_apart(first: int, kind: str) -> None:
    if kind == "i4" and abs(first) >= 2**31:
        return
    one = np.array([[first] * 3 + [first + (1 if kind != "f8" or abs(first) < BIG else 4096)] * 2]).astype(kind)
    two = one.copy()
    two[0, 1] = one[0, 4]
    assert audit(bas=one) and audit(bas=two).name == "Label"
    assert audit(bas=np.full((1, 5), one[0, 0])).name == "SharedLabel"


@pytest.mark.parametrize(("labels", "name"), [([1, 1], "SharedLabel"), ([2, 2], "SharedLabel"), ([1, 2], None)])
def test_each_outlet_has_a_label_of_its_own_without_heights_too(labels: list[int], name: str | None) -> None:
    bas = np.where(BAS == 1, *labels)
    assert drain_gis.audit(dir=CODES, bas=bas, codes="esri").name == name
    assert drain_gis.audit(DEM * np.pi, dir=CODES, acc=ACC, bas=bas, codes="esri").name == name


@pytest.mark.parametrize("name", ["dir", "acc", "bas"])
def test_numbers_in_voids_and_none_in_data_cells_where_heights_have_no_unit(name: str) -> None:
    """Each raster may be the only one with the fault."""
    void = np.arange(5)[None] == 4
    plain = {"dir": np.array([[0, 16, 16, 16, 0]]), "acc": np.array([[4, 3, 2, 1, 9]]), "bas": np.array([[7] * 5])}
    dem = np.ma.array(DEM * np.pi, mask=void)
    for rule, col, mask in ((0, 0, void), (1, 4, False), (2, 3, void | (np.arange(5)[None] == 3))):
        rasters = {n: np.ma.array(a, mask=mask if n == name else void) for n, a in plain.items()}
        verdict = drain_gis.audit(dem, **rasters, codes="esri", acc_counts="cells")
        assert verdict.accepted == (not rule) and verdict.rules.get(rule, (1, (0, col))) == (1, (0, col)), verdict
        assert list(verdict.dropped) == ["dir"] and (rule in verdict.rules or not rule)


def test_no_direction_at_any_cell_is_missing() -> None:
    verdict = drain_gis.audit(dir=np.ma.masked_all(ACC.shape, "u1"), acc=np.ones_like(ACC), codes="esri")
    assert not verdict and (verdict.name, verdict.rules) == ("Missing", {2: (5, (0, 0))})


@pytest.mark.parametrize("kind", ["f4", "f8"])
def test_directions_that_are_angles_are_not_judged(kind: str) -> None:
    """As of TauDEM's D-infinity: radians. Whole numbers in floating point are codes."""
    angles = np.array([[np.pi, np.pi, 3, 0, 0]], kind)
    verdict = drain_gis.audit(DEM, con=DEM, dir=angles, acc=ACC, codes="taudem", spacing="unit")
    assert verdict.accepted and not verdict and verdict.judged == ("con",)
    assert "at row 0, column 0 is no code. Directions into several cells (D-infinity)" in verdict.dropped["dir"]
    assert drain_gis.audit(DEM, con=DEM, dir=CODES.astype(kind), codes="esri")


def test_what_is_no_label() -> None:
    for number in (1.5, -0.25):
        assert refused("bas", f"{number} at row 0, column 3 is no label", bas=np.where(BAS == 2, number, BAS))


@pytest.mark.parametrize("none", [-BIG - 1, BIG + 1, 2**63 - 1])
def test_no_data_numbers_and_labels_of_64_bits_are_exact(none: int, tmp_path: Path) -> None:
    bas = np.where(BAS == 1, 5, none - 1)
    plain = {"dem": DEM.astype("i2"), "con": DEM.astype("i2"), "dir": CODES, "bas": bas}
    paths = {name: worlds.write_tif(tmp_path / f"{name}.tif", a) for name, a in plain.items()}
    assert command("judge", *worlds.words(paths), "--nodata", f"bas={none}").status == 0
    done = command("judge", *worlds.words(paths), "--nodata", f"bas={none - 1}")
    assert (done.status, "bas: no data at 2 cells" in done.out) == (1, True), done
    paths["bas"] = worlds.write_tif(tmp_path / "mixed.tif", np.array([[none - 2, none - 1, none - 2, none, none]]))
    assert "rejected rule=14 Label" in command("judge", *worlds.words(paths)).out, "floats would merge two labels"
    paths["bas"] = worlds.write_tif(tmp_path / "blank.tif", bas, 5)
    assert "bas: no data at 3 cells" in command("judge", *worlds.words(paths)).out


def test_a_no_data_number_that_is_not_named_is_suggested(world: worlds.World) -> None:
    given = {**world.given(), "bas": np.where(world.void, 10**6, world.bas)}
    verdict = drain_gis.audit(**given, codes="esri")
    assert not verdict and any("--nodata bas=1000000" in note for note in verdict.notes)
    assert drain_gis.audit(**given, codes="esri", nodata={"bas": 10**6})
    given = {"dem": np.where(world.void, -9999, world.dem), "con": world.masked("con")}
    assert any(note.endswith("--nodata dem=-9999") for note in drain_gis.audit(**given).notes)
    assert drain_gis.audit(**given, nodata={"dem": -9999})
