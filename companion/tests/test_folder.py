"""The folder of an import, by plain file reading: headers, rasters, sinks and import.json; and one passed on.

Nothing of the package's readers takes part. What is expected is worked out here from the arrays that were written.
"""

import hashlib
import json
import os
import re
import struct
from collections.abc import Iterator
from pathlib import Path
from typing import Any

import numpy as np
import pytest
import worlds
from conftest import drain_gis as command
from conftest import left
from drain_gis import sets
from drain_gis.tools import TOOLS

FORMS = dict.fromkeys(("dem", "con"), ("<f", "FLOAT", -(2.0**128 - 2.0**104)))
FORMS |= {"dir": ("<B", "UNSIGNEDINT", 255)} | dict.fromkeys(("acc", "bas"), ("<I", "UNSIGNEDINT", 0))
PLACE = {"ULXMAP": 500015, "ULYMAP": 3999985, "XDIM": 30, "YDIM": 30}  # of the middle of the first cell, and of cells
ROWS, COLS, SINK = 17, 26, (8, 11)


class Imported:
    """An import of decimetres, PCRaster's codes with an inland sink, areas, and labels from -3."""

    def __init__(self, base: Path) -> None:
        self.out, rng = base / "out", np.random.default_rng(17)
        z, self.void = rng.integers(5000, 5090, (ROWS, COLS)).astype(np.int32), rng.random((ROWS, COLS)) < 0.05
        self.void[8, 9:14], self.void[7:10, 10:13], z[SINK] = False, False, 4000
        world = self.world = worlds.world_of(z, self.void, sinks=(SINK,))
        rasters = {
            "dem": (z / 10 + 4000, "f4"), "con": (world.con / 10 + 4000, "f4"), "acc": (world.acc * 900, "i4"),
            "dir": (worlds.in_codes_of(TOOLS["pcraster"], world.dir), "i2"), "bas": (world.bas - 4, "i4"),
        }  # fmt: skip
        self.paths = {
            name: worlds.write_tif(base / f"{name}.tif", np.where(self.void, -9999, a).astype(kind), -9999)
            for name, (a, kind) in rasters.items()
        }
        self.done = command("import", *worlds.words(self.paths, "pcraster"), "--inland-sinks", self.out)
        assert self.done.status == 0, self.done
        self.text = (self.out / "import.json").read_text(encoding="utf-8")
        self.facts = json.loads(self.text)

    def header(self, name: str) -> dict[str, str]:
        """The lines of a header."""
        return dict(line.split() for line in (self.out / f"{name}.hdr").read_text("ascii").splitlines())


@pytest.fixture(scope="module")
def imported(tmp_path_factory: pytest.TempPathFactory) -> Imported:
    """It is read, and put back where it is changed."""
    return Imported(tmp_path_factory.mktemp("import"))


@pytest.mark.parametrize("name", FORMS)
def test_rasters(imported: Imported, name: str) -> None:
    (form, kind, nodata), fields, world, data = FORMS[name], imported.header(name), imported.world, ~imported.void
    expected = {"BYTEORDER": "I", "LAYOUT": "BIL", "NBANDS": "1", "PIXELTYPE": kind, "NODATA": str(nodata)}
    expected |= {"NBITS": str(8 * struct.calcsize(form)), "NROWS": str(ROWS), "NCOLS": str(COLS)}
    assert expected.items() <= fields.items() and all(float(fields[key]) == number for key, number in PLACE.items())
    pixels = (imported.out / f"{name}.bil").read_bytes()
    found = np.array([number for (number,) in struct.iter_unpack(form, pixels)]).reshape(ROWS, COLS)
    right = getattr(world, name)
    assert np.array_equal(found == nodata, imported.void)
    if name == "bas":
        pairs = set(zip(found[data].tolist(), right[data].tolist()))
        assert len(pairs) == len({a for a, _ in pairs}) == len({b for _, b in pairs})
    else:
        right = (right / 10 + 4000).astype(np.float32) if name in ("dem", "con") else right
        assert np.array_equal(found[data], right[data])


def test_sinks_and_facts(imported: Imported) -> None:
    """PCRaster has one number for outlets and sinks: all cells where water ends are listed."""
    ends = np.argwhere((imported.world.dir == 0) & ~imported.void)
    assert list(SINK) in ends.tolist()
    assert (imported.out / "sinks.txt").read_text() == "".join(f"{row} {col}\n" for row, col in ends)
    hashes = [[n, path, hashlib.sha256(Path(path).read_bytes()).hexdigest()] for n, path in imported.paths.items()]
    assert sorted(imported.facts["inputs"]) == sorted(hashes) and imported.facts["data"] == (~imported.void).sum()
    notes = [line[2:] for line in imported.done.out.split("wrote ")[0].splitlines()]
    assert notes and notes == imported.facts["notes"]
    rasters = {name: (imported.out / f"{name}.bil").read_bytes() for name in FORMS}
    assert imported.facts["sums"] == {name: hashlib.sha256(content).hexdigest() for name, content in rasters.items()}


def test_the_program_accepts_it_by_the_line_that_is_printed(imported: Imported) -> None:
    line = next(line for line in imported.done.out.splitlines() if "drain audit" in line)
    program = f"{os.environ.get('DRAIN', 'drain')} audit"
    assert os.popen(line.replace("drain audit", program)).read().startswith("accepted ")


@pytest.fixture
def changed(imported: Imported) -> Iterator[Imported]:
    """The folder, to be spoilt; it is put back."""
    before = {path: path.read_bytes() for path in imported.out.rglob("*") if path.is_file()}
    yield imported
    for path in imported.out.rglob("*"):
        path.unlink()
    for path, content in before.items():
        path.write_bytes(content)


WRONG = [
    ("rows", 0), ("rows", 10**9), ("rows", 17.0), ("rows", True), ("rows", "17"), ("rows", 16), ("cols", 30_000), ("cols", -1), ("data", -1),
    ("judged", []), ("judged", ["con", "con"]), ("judged", ["dem"]), ("judged", "con"), ("products", ["con", "dir"]), ("data", 7),
    ("tool", "arc"), ("tool", "--from"), ("sinks", "--only"), ("sinks", [[1]]), ("sinks", [["a", "b"]]), ("sinks", [[9, 9]]), ("notes", [1]), ("taken", [1]),
    ("notes", {"a": 1}), ("transform", [0] * 6), ("transform", ["a", 1, 0, 0, 0, -1]), ("transform", [0, 1]), ("crs", "no WKT"),
    ("inputs", [["dem", "/d.tif", "no hash"]]), ("inputs", [["dem"]]), ("unit", {}), ("unit", {"tens": 9, "twos": 0}), ("per", 0),
    *(("heights", odd) for odd in ([], ["<f4", 0], ["<i4", 7], ["<i8", -(2**63)], ["<u4", 0], ["<i4", -(2.0**31)], 4, [["<i4"], 0])),
    ("spacing", "sphere"), ("spacing", "1,0"), ("spacing", 1), ("per", "1"), ("plus", 2), ("rounded", 0), ("rounded", -0.5), ("rounded", "a"), ("own_ground", 1), ("dem", 3), ("drain_gis", "0"), ("judged", ["dir", "con"]), ("crs", None),
    ("sums", {}), ("sums", []), ("sums", dict.fromkeys(FORMS, "0" * 64)), ("taken", 3), ("taken", [1]), ("taken", {"a": 1}),
]  # fmt: skip


def put_facts(changed: Imported, facts: Any) -> Any:
    """Judges the folder with other facts, written as an import writes them."""
    (changed.out / "import.json").write_text(json.dumps(facts, indent=1) + "\n", encoding="utf-8")
    return command("judge", changed.out)


@pytest.mark.parametrize(("name", "value"), WRONG)
def test_each_member_of_import_json_is_looked_at(changed: Imported, name: str, value: Any) -> None:
    """A folder may come from elsewhere: what isn't as an import writes it is refused."""
    assert set(changed.facts) == {name for name, _ in WRONG}
    done = put_facts(changed, {**changed.facts, name: value})
    if (name, value) == ("crs", None):  # of a set without a coordinate system
        assert (done.status, "longitude" in done.out) == (0, False), done
        return
    assert (done.status, done.out, "Traceback" in done.error) == (2, "", False), done
    for facts in ({n: v for n, v in changed.facts.items() if n != name}, {**changed.facts, "more": value}):
        assert put_facts(changed, facts).status == 2
    assert put_facts(changed, changed.facts).status == 0


@pytest.mark.parametrize("text", ["{}", "[]", "null", "no json", "", "[" * 10**5, '{"rows": ' + "9" * 5000 + "}", '{"rows": NaN}', "\udcff"])  # fmt: skip
def test_what_is_no_import_is_not_judged(changed: Imported, text: str) -> None:
    (changed.out / "import.json").write_text(text, errors="surrogateescape")
    done = command("judge", changed.out)
    assert (done.status, done.out, "import" in done.error) == (2, "", True), done


@pytest.mark.parametrize("name", ["dem.bil", "con.bil", "bas.bil", "import.json", "dir.hdr", "dem.hdr", "sinks.txt"])
def test_a_file_that_is_missing_or_changed(changed: Imported, name: str) -> None:
    for spoilt in (None, b"1 1\n"):
        (changed.out / name).unlink(missing_ok=True)
        if spoilt is not None:
            (changed.out / name).write_bytes(spoilt)
        done = command("judge", changed.out)
        assert done.status in (2, 3) and done.out == "" and "Traceback" not in done.error, done


@pytest.mark.parametrize("name", FORMS)
def test_a_raster_of_other_bytes_is_refused(changed: Imported, name: str) -> None:
    """One bit of a folder's raster, which keeps its length."""
    path, pixels = changed.out / f"{name}.bil", bytearray((changed.out / f"{name}.bil").read_bytes())
    pixels[len(pixels) // 2] ^= 1
    path.write_bytes(pixels)
    done = command("judge", changed.out)
    assert (done.status, done.out, f"{name}.bil isn't" in done.error) == (2, "", True), done


OPTIONS = "--complete-rim|--flatten 1|--inland-sinks|--acc-counts auto|--ends zero|--cell-area 900|--allow-drivers VRT|--spacing unit"
OPTIONS += "|--nodata dem=1|--from esri|--sinks {dem}|--con {dem}"


@pytest.mark.parametrize("words", OPTIONS.split("|"))
def test_what_an_import_settled_is_no_option_of_its_folder(changed: Imported, words: str) -> None:
    done, option = command("judge", *words.format(**changed.paths).split(), changed.out), words.split()[0]
    assert (done.status, done.out, f"leave out {option}" in done.error) == (2, "", True), done
    assert command("judge", "--quiet", "--no-parts", "--progress", changed.out).status == 0


@pytest.mark.parametrize("name", ["import.json", "con.hdr", "dem.bil"])
def test_a_pipe_in_a_folder_is_refused(changed: Imported, name: str) -> None:
    (changed.out / name).unlink()
    os.mkfifo(changed.out / name)
    done = command("judge", changed.out)
    assert (done.status, done.out, f"{name} is no plain file" in done.error) == (2, "", True), done


def test_a_note_begins_no_line(changed: Imported) -> None:
    note = "x\naccepted rows=9\r\x85\u2028accepted rows=8"
    done = put_facts(changed, {**changed.facts, "notes": [note]})
    lines = [line for line in done.out.splitlines() if line.startswith("accepted ")]
    assert done.status == 0 and len(lines) == 1 and f"rows={ROWS} cols={COLS}" in lines[0], done
    assert "x\\x0aaccepted rows=9\\x0d\\x85\\u2028accepted rows=8" in done.out


def test_no_output_replaces_a_file_of_the_import(changed: Imported) -> None:
    for path in [*changed.out.iterdir(), *map(Path, changed.paths.values())]:
        before = path.read_bytes()
        assert command("judge", changed.out, "--out", path).status == 2 and path.read_bytes() == before, path
    assert command("judge", changed.out, "--out", changed.out / "faults.tif").status == 2


def test_an_acceptance_of_other_cells_is_none(changed: Imported) -> None:
    """All rasters voided alike would be accepted: of other cells than those that were imported."""
    sums = {}
    for name, (form, _, nodata) in FORMS.items():
        path = changed.out / f"{name}.bil"
        path.write_bytes(struct.pack(form, nodata) * (path.stat().st_size // struct.calcsize(form)))
        sums[name] = hashlib.sha256(path.read_bytes()).hexdigest()
    assert command("judge", changed.out).status == put_facts(changed, {**changed.facts, "sums": sums}).status == 2


def test_what_is_there_is_kept(tmp_path: Path, files: dict[str, str]) -> None:
    out, words = tmp_path / "out", worlds.words(files)
    out.mkdir()
    assert command("import", *words, out).status == 0, "an empty folder is filled"
    assert "is there already" in command("import", *words, out).error
    odd, before = worlds.write_tif(tmp_path / "odd.tif", np.full((23, 31), 7.5, np.float32)), left(out)
    done = command("import", *worlds.words({**files, "acc": odd}), "--overwrite", out)
    assert done.status == 2 and left(out) == before
    assert command("import", *words, "--overwrite", out).status == 0
    (tmp_path / "link").symlink_to(out)
    for inside in (out / "con.bil", tmp_path / "link/con.bil"):
        done = command("import", "--dem", files["dem"], "--con", inside, "--overwrite", out)
        assert done.status == 2 and inside.exists(), done
    (out / "notes.txt").write_text("mine")
    done = command("import", *words, "--overwrite", out)
    assert done.status == 2 and "notes.txt is in the way" in done.error and (out / "notes.txt").read_text() == "mine"
    (out / "notes.txt").unlink()
    (out / "import.json").unlink()
    assert command("import", *words, "--overwrite", out).status == 2
    assert {path.name for path in tmp_path.iterdir() if "out" in path.name} == {"out"}


@pytest.mark.parametrize("wrong", [*worlds.PRODUCTS, "one label"])
def test_a_conversion_that_is_wrong_is_noticed(
    monkeypatch: Any, tmp_path: Path, files: Any, world: Any, wrong: str
) -> None:
    """The read-back knows none of the import's conversions; the import leaves nothing."""
    plain, spoilt, name = sets.Set.add, [], wrong if wrong in worlds.PRODUCTS else "bas"
    alone = next(c for c in world.cells() if (world.bas[~world.void] == world.bas[c]).sum() == 1)

    class Off(np.ndarray):
        """The middle number of the first window is put as another; or the only cell of a basin as a label of nobody's."""

        def __setitem__(self, key: Any, value: Any) -> None:
            value = np.array(value)
            middle, odd = value.size // 2, value.flat[value.size // 2] ^ 1
            if wrong != name:
                middle, odd = np.ravel_multi_index(alone, value.shape), 9999
            value.flat[middle] = value.flat[middle] if spoilt else odd
            spoilt.append(True)
            super().__setitem__(key, value)

    monkeypatch.setattr(sets.Set, "add", lambda one, n: plain(one, n).view(Off if n == name else np.ndarray))
    done = command("import", *worlds.words(files), tmp_path / "out")
    assert done.status == 2 and re.search(f"fault of drain-gis itself.*{name}: ", done.error), done
    assert not [path for path in tmp_path.iterdir() if "out" in path.name]


@pytest.mark.parametrize(
    ("umask", "folder", "file"), [(0o077, 0o700, 0o600), (0o027, 0o750, 0o640), (0o022, 0o755, 0o644)]
)
def test_modes_are_those_of_the_umask(tmp_path: Path, files: Any, umask: int, folder: int, file: int) -> None:
    words, inputs, before = ["--dem", files["dem"], "--con", files["dem"]], set(tmp_path.iterdir()), os.umask(umask)
    outs = ["--map", tmp_path / "m.tif", "--picture", tmp_path / "p.png", "--out", tmp_path / "r.html"]
    try:
        for _ in range(2):
            assert command("import", *words, "--overwrite", tmp_path / "o").status == 0
        assert command("judge", *words, *outs).status == command("judge", tmp_path / "o").status == 1
    finally:
        os.umask(before)
    written = {path for path in tmp_path.rglob("*") if path not in inputs}
    names = {path.name for path in written if path.parent == tmp_path}
    assert names == {"o", "m.tif", "m.tif.aux.xml", "p.png", "r.html"}
    for path in written:
        assert oct(path.stat().st_mode & 0o777) == oct(folder if path.is_dir() else file), path
