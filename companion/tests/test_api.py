"""The package as a tool's developer uses it: assertions, the library that judges arrays, and little memory."""

import ctypes
import os
import subprocess
import sys
from pathlib import Path
from typing import Any

import drain_gis
import numpy as np
import pytest
import worlds
from conftest import COMPANION
from drain_gis import library
from drain_gis.drain import Program

SLOPE = np.array([[3, 2, 1]] * 3, np.int16)
RIGHT: dict[str, Any] = {
    "con": SLOPE, "dir": np.array([[1, 1, 0]] * 3, np.uint8), "acc": np.array([[1, 2, 3]] * 3),
    "bas": np.array([[1] * 3, [2] * 3, [3] * 3]), "codes": "esri",
}  # fmt: skip
WRONG = {**RIGHT, "acc": np.array([[1, 2, 4], [1, 2, 3], [1, 2, 3]])}


def test_an_assertion_says_where() -> None:
    drain_gis.assert_correct(SLOPE, **RIGHT)
    with pytest.raises(AssertionError, match=r"Accumulation row=0 col=2[\s\S]*rule 13 Accumulation: 1 cell") as caught:
        drain_gis.assert_correct(SLOPE, **WRONG)
    lines = [line.split() for line in str(caught.value).splitlines()]
    at = next(number for number, words in enumerate(lines) if words[0] == "acc" and words[1] == "row")
    assert [words[-2:] for words in lines[at : at + 2]] == [["2", "*4"], ["2", "3"]]
    with pytest.raises(AssertionError, match="not judged: acc: 1.5 at row 0"):
        drain_gis.assert_correct(SLOPE, **{**RIGHT, "acc": RIGHT["acc"] + 0.5}, acc_counts="cells")


def test_verdicts_are_true_exactly_if_right() -> None:
    world = worlds.random_world(voids=0)
    assert drain_gis.audit(world.dem, con=world.con) and drain_gis.audit(dir=world.dir, acc=world.acc, codes="esri")
    low = drain_gis.audit(world.dem, con=world.dem)
    assert not low and low.name == "NotFilled" and np.array_equal(low.map > 0, world.con > world.dem)
    assert not drain_gis.audit(dir=world.dir, acc=world.acc + (world.acc > 5), codes="esri")


def test_nothing_of_the_caller_is_changed() -> None:
    rasters = {name: a.copy() for name, a in worlds.random_world(seed=5).given().items()}
    before = {name: a.copy() for name, a in rasters.items()}
    for a in rasters.values():
        a.data.flags.writeable = False
    drain_gis.audit(**rasters, codes="esri", parts=True)
    for name, a in rasters.items():
        assert np.array_equal(a.data, before[name].data) and np.array_equal(a.mask, before[name].mask)


def test_sinks_may_be_an_array() -> None:
    """A pit of one cell, which a sink drains; no cell at all is no sink."""
    z = np.full((3, 3), 5, np.int16)
    z[1, 1] = 1
    assert drain_gis.audit(z, con=z, sinks=np.argwhere(z == 1))
    assert drain_gis.audit(z, con=z, sinks=np.argwhere(z == 0)).name == "NotFilled"


@pytest.mark.parametrize(
    ("given", "reason"),
    [
        ({"dem": [[1, 2], [3]], "con": SLOPE}, "dem: not numbers of two dimensions"),
        ({"con": SLOPE, "nodata": {"con": 10**400}}, "can't hold it"), ({"con": SLOPE, "nodata": {"con": -(10**5000)}}, "can't hold it"),
        ({"con": SLOPE / 2, "nodata": {"con": 10**400}}, "can't hold it"), ({"con": SLOPE, "spacing": "9" * 5000 + ",1"}, "--spacing 999"),
        ({"con": SLOPE, "sinks": np.ones((2, 3), int)}, "a row and a column"), ({"con": SLOPE, "sinks": [(0.5, 1)]}, "a row and a column"),
    ],
)  # fmt: skip
def test_arguments_that_are_none(given: dict[str, Any], reason: str) -> None:
    try:
        assert reason in str(drain_gis.audit(**given))
    except drain_gis.CannotJudge as error:
        assert reason in str(error)


class StandIn:
    """A shared object that accepts anything, of a version, with the places of members that it gives."""

    def __init__(
        self, version: str, answer: tuple[int, ...], faults: tuple[int, ...], request: dict[int, int]
    ) -> None:
        def put(at: int, content: bytes) -> None:
            ctypes.memmove(at, content, len(content))

        def layout(places: tuple[int, ...]) -> Any:
            return lambda at: put(at, np.array(places[1:], "<u4").tobytes()) or places[0]

        def explain(*places: Any) -> int:
            put(places[-1], bytes(16) + b"accepted rows=3 cols=3 data=9 raised=0 outlets=3 by=0\0")
            return 0

        self.drain_version = lambda at, size: put(at, version.encode() + b"\0") or len(version)
        self.drain_answer_layout, self.drain_faults_layout = layout(answer), layout(faults)
        words = [request.get(place, 0) for place in range(0, 376, 4)]
        self.drain_request_layout = layout((request[-1], *words))
        self.drain_explain_request, self.drain_derive_request = explain, lambda *places: 3


# Of drain.h: the size, then the places of status, rule, row, col and line; the size, and that of a rule's three numbers.
ANSWER, FAULTS = (180, 0, 4, 8, 12, 16), (180, 0, 4, 8, 12)
# Of a request: what stands in each place, and the size.
REQUEST = {place: place for place in (4, 96, 100, 368, 40, 64, 88, 120, *range(144, 368, 24))} | {-1: 376}


@pytest.mark.parametrize(
    ("other", "is_used"),
    [
        ({}, True), ({"version": ("0.", "1.")}, False), ({"version": ("logic ", "logic 0")}, False), ({"needed": {"sse4_2", "no_such_word"}}, False),
        ({"answer": (184, *ANSWER[1:])}, False), ({"answer": (180, 0, 8, 4, 12, 16)}, False), ({"faults": (192, *FAULTS[1:])}, False),
        ({"request": REQUEST | {-1: 368}}, False), ({"request": REQUEST | {368: 372}}, False), ({"request": REQUEST | {40: 32}}, False),
    ],
)  # fmt: skip
def test_a_library_of_another_version_or_processor_judges_nothing(
    tmp_path: Path, monkeypatch: Any, other: Any, is_used: bool
) -> None:
    """The program answers then: it rejects what the stand-in accepts."""
    (tmp_path / "drain").symlink_to(os.path.realpath(Program().path))
    (tmp_path / "libdrain.so").write_bytes(b"")
    version = Program().version.removeprefix("drain ").replace(*other.get("version", ("", "")))
    one = StandIn(version, other.get("answer", ANSWER), other.get("faults", FAULTS), other.get("request", REQUEST))
    monkeypatch.setattr(library.ctypes, "CDLL", lambda path: one)
    monkeypatch.setattr(library, "NEEDED", other.get("needed", {"fpu"}))
    verdict = drain_gis.audit(SLOPE, **WRONG, program=str(tmp_path / "drain"))
    assert (" by=0" in verdict.line) is is_used is verdict.accepted, verdict
    assert is_used or verdict.name == "Accumulation"


MEMORY = """
import resource, sys
import numpy as np
import drain_gis
rows, cols = 6000, 5000
z = np.tile(np.arange(cols, dtype=np.int16), (rows, 1))
whole = {"dir": np.where(z > 0, 16, 0).astype(np.uint8), "acc": (cols - z).astype(np.uint32), "codes": "esri"}
whole["bas"] = np.repeat(np.arange(1, rows + 1, dtype=np.uint32), cols).reshape(rows, cols)
whole, con = whole if sys.argv[1] == "whole" else {}, z.copy()
con[4000, 3000] += int(sys.argv[2])
before = sum(a.nbytes for a in whole.values() if hasattr(a, "nbytes"))
print(drain_gis.audit(z, con=con, **whole, parts=True).line)
print(resource.getrusage(resource.RUSAGE_SELF).ru_maxrss // 1024 - before // 2**20)
"""


@pytest.mark.large
@pytest.mark.parametrize("given", ["con", "whole"])
@pytest.mark.parametrize("change", [0, 1])
def test_30_million_cells_take_less_than_700_megabytes(given: str, change: int) -> None:
    """Beside the caller's own dir, acc and bas; those of dem and con are counted."""
    words = [sys.executable, "-c", MEMORY, given, str(change)]
    done = subprocess.run(words, cwd=COMPANION, capture_output=True, text=True, check=True)
    line, most = done.stdout.splitlines()
    assert line.startswith("rejected" if change else "accepted") and int(most) < 700, (line, most)


def test_examples_run() -> None:
    """What companion/examples shows can be done as it is written."""
    for path in sorted((COMPANION / "examples").glob("test_*.py")):
        words = [sys.executable, "-m", "pytest", "-q", "-p", "no:cacheprovider", "-c", "/dev/null", str(path)]
        place = {**os.environ, "PYTHONPATH": str(Path(drain_gis.__file__).parents[1])}
        done = subprocess.run(words, env=place, capture_output=True, text=True)
        assert done.returncode == 0, done.stdout
