"""The commands: what they print and write, their statuses, and what they refuse."""

import json
import os
import shlex
import stat
import subprocess
import sys
from pathlib import Path
from typing import Any

import drain_gis
import numpy as np
import pytest
import rasterio
import worlds
from conftest import COMPANION, Printed, outputs, start
from conftest import drain_gis as command
from matplotlib.image import imread

COMMANDS = ("judge", "import", "make", "derive", "tools")


@pytest.fixture
def wrong(files: dict[str, str], tmp_path: Path, world: worlds.World) -> list[str]:
    """The arguments of the set with a wrong acc."""
    acc = world.acc.astype(np.int32)
    acc[world.cells()[33]] += 7
    path = worlds.write_tif(tmp_path / "wrong.tif", np.where(world.void, -9999, acc).astype(np.int32), -9999)
    return worlds.words({**files, "acc": path})


def test_judge(files: dict[str, str], wrong: list[str], tmp_path: Path, world: worlds.World) -> None:
    done = command("judge", *wrong, *outputs(tmp_path))
    assert done.status == 1 and "rejected rule=13 Accumulation" in done.out and "con: the least surface" in done.out
    assert "data:image/png;base64," in (tmp_path / "r.html").read_text()
    with rasterio.open(tmp_path / "m.tif") as file:
        assert file.read(1)[world.cells()[33]] == 13
    picture = imread(tmp_path / "p.png")
    done = command("judge", *worlds.words(files), *outputs(tmp_path))
    assert (done.status, done.error) == (0, "") and "\naccepted " in done.out
    assert "judged: con, dir, acc, bas over dem, 23 rows by 31 columns\n" in done.out
    assert "no rule fails: map and picture show no fault" in done.out and "ACCEPTED" not in done.out
    assert not np.array_equal(imread(tmp_path / "p.png"), picture), "no older picture stays that looks like this one's"
    assert not [path for path in tmp_path.iterdir() if path.name.startswith(".")]
    done = command("judge", "--quiet", "--no-parts", *wrong)
    assert done.out.startswith("rejected") and "the least surface" not in done.out


@pytest.mark.parametrize(
    ("names", "over"),
    [
        ("dem con", "dem"), ("dem dir", "dem"), ("con", "itself"), ("con dir", "itself"),
        ("dem con dir", "dem"), ("dem dir acc", "dem"), ("dem dir bas", "dem"), ("dem con dir bas", "dem"), ("dir", ""),
        ("dir acc", ""), ("dir bas", ""), ("dir acc bas", ""),
    ],
)  # fmt: skip
def test_any_rasters_together(
    files: dict[str, str], tmp_path: Path, world: worlds.World, names: str, over: str
) -> None:
    given = {name: files[name] for name in names.split()}
    done, judged = command("judge", *worlds.words(given)), ", ".join(name for name in names.split() if name != "dem")
    assert done.status == 0 and f"judged: {judged} over {over}" in done.out, done
    a = np.where(world.void, -9999, getattr(world, names.split()[-1]))
    a[world.cells()[-33]] += -50 if names.endswith("con") else 1
    given[names.split()[-1]] = worlds.write_tif(tmp_path / "odd.tif", a.astype(np.int32), -9999)
    done = command("judge", *worlds.words(given), "--acc-counts", "cells", *outputs(tmp_path))
    assert done.status == 1 and {"r.html", "m.tif", "p.png"} <= {path.name for path in tmp_path.iterdir()}, done


def test_import_then_judge(wrong: list[str], files: dict[str, str], tmp_path: Path) -> None:
    out = tmp_path / "a set"
    done = command("import", *wrong, out)
    assert done.status == 0 and f"cd {shlex.quote(str(out))} && drain audit --products ." in done.out
    direct, done = command("judge", *wrong, *outputs(tmp_path)), command("judge", out)
    line = next(line for line in direct.out.splitlines() if line.startswith("rejected"))
    assert done.status == 1 and line in done.out and files["dem"] in done.out
    assert (tmp_path / "m.tif").read_bytes() == (out / "faults.tif").read_bytes() and (out / "report.html").exists()
    done = command("import", "--con", files["con"], "--dem", files["dem"], tmp_path / "b")
    assert done.status == 0, "--dem swallows no OUT"


def test_make_and_derive(files: dict[str, str], tmp_path: Path) -> None:
    """GeoTIFFs in the source's grid and coordinate system and in the user's codes, and they are right."""
    made = {name: str(tmp_path / f"made-{name}.tif") for name in worlds.PRODUCTS}
    assert command("make", "--to", "taudem", files["dem"], *made.values()).status == 0
    assert command("judge", *worlds.words({"dem": files["dem"], **made}, "taudem")).status == 0
    with rasterio.open(made["con"]) as file, rasterio.open(files["dem"]) as dem:
        assert (file.crs, file.transform, file.shape, file.dtypes) == (dem.crs, dem.transform, dem.shape, dem.dtypes)
    again = {name: str(tmp_path / f"{name}.tif") for name in ("acc", "bas")}
    assert command("derive", "--from", "taudem", "--dem", files["dem"], made["dir"], *again.values()).status == 0
    assert command("judge", *worlds.words({"dem": files["dem"], "dir": made["dir"], **again}, "taudem")).status == 0
    before = Path(files["dem"]).read_bytes()
    (tmp_path / "link-con.tif").symlink_to(files["dem"])
    for out in (files["dem"], str(tmp_path / "link-con.tif"), str(tmp_path / "odd.tif")):
        assert command("make", files["dem"], out).status == 2 and Path(files["dem"]).read_bytes() == before
    with pytest.raises(drain_gis.CannotJudge, match="doesn't end"):
        drain_gis.derive(np.array([[1, 16]]), {"acc": tmp_path / "ring-acc.tif"}, "esri")


@pytest.mark.parametrize(
    ("low", "kind", "nodata", "text"),
    [
        (-9999, "i2", None, "have -9999, the next height is 100, and no number for no data is named: --nodata dem=-9999 if it means no data"),
        (-9999.0, "f4", None, "--nodata dem=-9999 if"), (-32768, "i2", None, "--nodata dem=-32768 if"),
        (np.float32(-3.4028235e38), "f4", None, "--nodata dem=-3.4028234663852886e+38 if"), (-999, "i4", None, "--nodata dem=-999 if"),
        (0, "i2", None, "--nodata dem=0 if"), (99, "i2", None, ""), (90, "i2", None, ""), (-9999, "i2", -9999, ""), (-9999, "i2", -1, ""),
    ],
)  # fmt: skip
def test_a_lowest_height_that_may_mean_no_data_is_noted(low: float, kind: str, nodata: float | None, text: str) -> None:
    """A usual number, or one that is further below the next one than all others are apart."""
    dem = np.arange(100, 120).reshape(4, 5).astype(kind)
    dem[1, 2:4] = low
    notes = drain_gis.audit(dem, con=dem, nodata={"dem": nodata, "con": nodata} if nodata else None).notes
    found = [note for note in notes if note.startswith("dem: 2 cells have")]
    assert len(found) == bool(text) and all(text in note for note in found), notes


def test_each_command_notes_what_may_be_no_ground(tmp_path: Path) -> None:
    dem = np.arange(100, 125).reshape(5, 5).astype("i2")
    dem[0, 0] = -9999
    path, con = worlds.write_tif(tmp_path / "dem.tif", dem), tmp_path / "con.tif"
    text = "  dem: 1 cell has -9999, the next height is 101, and no number for no data is named: --nodata dem=-9999"
    done = command("make", path, con)
    assert done.status == 0 and text in done.out and "\nwrote" in done.out, done
    for words in (("judge",), ("import", tmp_path / "out")):
        done = command(words[0], "--dem", path, "--con", con, *words[1:])
        assert done.status == 0 and text in done.out, done
    done = command("make", "--nodata", "dem=-9999", path, tmp_path / "other-con.tif")
    assert done.status == 0 and "-9999" not in done.out


@pytest.mark.parametrize("option", ["--out", "--map", "--picture"])
def test_no_output_takes_the_place_of_an_input(
    files: dict[str, str], wrong: list[str], tmp_path: Path, option: str
) -> None:
    before = Path(files["dem"]).read_bytes()
    (tmp_path / "link.tif").symlink_to(files["dem"])
    os.link(files["dem"], tmp_path / "hard.tif")
    for name in ("dem.tif", "link.tif", "hard.tif", f"../{tmp_path.name}/dem.tif"):
        done = command("judge", *wrong, option, tmp_path / name)
        assert (done.status, Path(files["dem"]).read_bytes() == before) == (2, True), done
    assert (tmp_path / "link.tif").is_symlink()
    other = "--out" if option == "--map" else "--map"
    assert command("judge", *wrong, option, tmp_path / "one", other, tmp_path / "one").status == 2


ODD_OUTPUTS = ("pipe", "device", "link to a file", "link to nothing", "link to a device", "folder")


def put_odd(kind: str, place: Path) -> None:
    """Puts something that is no plain file. Devices are made in the test's folder: none of the machine's is named."""
    if kind.endswith("device"):
        try:
            os.mknod(device := place.with_name("device"), 0o600 | stat.S_IFCHR, os.makedev(1, 3))
        except PermissionError:
            pytest.skip("only root makes devices")
        device.rename(place) if kind == "device" else place.symlink_to(device)
    elif kind == "pipe":
        os.mkfifo(place)
    elif kind == "folder":
        place.mkdir()
    else:
        place.symlink_to(place.with_name("other"))
        if kind == "link to a file":
            place.with_name("other").write_text("mine")


@pytest.mark.parametrize("kind", ODD_OUTPUTS)
@pytest.mark.parametrize(
    ("words", "name"),
    [
        ("judge --con {con} --out {out}", "r.html"), ("judge --con {con} --map {out}", "m.tif"), ("judge --con {con} --picture {out}", "p.png"),
        ("judge --con {con} --map {base}/m.tif", "m.tif.aux.xml"), ("make {dem} {out}", "con.tif"), ("make {dem} {base}/con.tif {out}", "dir.tif"),
        ("derive --from esri {dir} {out}", "acc.tif"), ("import --con {con} {out}", "OUT"), ("import --con {con} --overwrite {out}", "OUT"), ("judge {set}", "report.html"),
    ],
)  # fmt: skip
def test_an_output_that_is_no_plain_file_is_kept(
    files: dict[str, str], tmp_path: Path, kind: str, words: str, name: str
) -> None:
    """A file that took the place of a device would do so for the whole machine."""
    base = tmp_path / "out"
    if "{set}" in words:
        assert command("import", "--con", files["con"], base).status == 0
    else:
        base.mkdir()
    put_odd(kind, base / name)
    if name == "OUT" and kind in ("folder", "link to nothing"):
        return  # an import writes a folder: into an empty one, or to where a link leads
    before = {path.name: (path.lstat().st_mode, path.lstat().st_ino) for path in base.iterdir()}
    done = command(*words.format(**files, base=base, out=base / name, set=base).split())
    assert done.status == 2 and done.error and "Traceback" not in done.error, done
    assert {path.name: (path.lstat().st_mode, path.lstat().st_ino) for path in base.iterdir()} == before
    assert kind != "link to a file" or (base / "other").read_text() == "mine"


@pytest.mark.parametrize(
    "words",
    [
        "judgement", "judge", "judge --dem {dem}", "judge --dem {dem} --dir {dir}", "judge --con {con} --con {con}",
        "judge --con nothere.tif", "judge --con {con} --nodata x=1", "judge --con {con} --nodata con", "judge --from arc --con {con}",
        "judge --con {con} --nodata con=nan", "judge --con {con} --nodata con=1e300", "judge --con {con} --sinks nothere",
        "judge --from saga --dem {dem} --con {con} --dir {dir} --inland-sinks", "judge {base}/nothere", "judge {base}", "judge {con}",
        "judge --from hydrosheds --con {con} --inland-sinks", "import --con {con}",
        "judge --flatten 1 --con {con}", "judge --flatten x --dem {dem} --con {con}", "judge --flatten -1 --dem {dem} --con {con}",
        "judge --flatten --dem {dem} --con {con}", "import --flatten 1 --dem {dem} --con {con} {base}/o", "judge --acc {acc}", "make {dem}", "make {dem} {base}/x.tif", "derive {dir} {base}/acc.tif", "surface --con {con}",
        "judge --con {con} --out {base}/none/r.html", "make {dem} {base}/none/con.tif", "make {dem} {base}/con.bil",
        "judge --con {con} --map {base}/m.png", "judge --con {con} --map {base}/m", "judge --con {con} --picture {base}/p.tif",
        "judge --con {con} --spacing " + "9" * 5000 + ",1", "judge --con {con} --spacing 1,." + "9" * 5000,
    ],
)  # fmt: skip
def test_faults_of_the_command_line(files: dict[str, str], tmp_path: Path, words: str) -> None:
    before = set(tmp_path.iterdir())
    done = command(*words.format(**files, base=tmp_path).split())
    assert (done.status, done.out) == (2, "") and done.error, done
    assert "Traceback" not in done.error and set(tmp_path.iterdir()) == before


@pytest.mark.parametrize(
    ("text", "reason"),
    [
        ("1 1\nx y\n", "line 2"), ("\n1\n", "line 2"), ("1 2 3", "line 1"), ("-1 2", "line 1"), ("1 1\n\n23 0", "row 23, column 0"),
        ("9" * 5000 + " 1", "line 1"), ("\udcff 1", ""), ("٣ 1", ""),
    ],
)  # fmt: skip
def test_lists_of_sinks(files: dict[str, str], tmp_path: Path, text: str, reason: str) -> None:
    (tmp_path / "lakes").write_bytes(text.encode("utf-8", "surrogateescape"))
    done = command("judge", "--dem", files["dem"], "--con", files["con"], "--sinks", tmp_path / "lakes")
    assert done.status == 2 and reason in done.error and "Traceback" not in done.error, done


def test_names_and_locales(files: dict[str, str], tmp_path: Path) -> None:
    """GDAL takes names in UTF-8 alone: another is refused by what helps, before anything is judged."""
    odd, plain, umlaut = (tmp_path / os.fsdecode(name) for name in (b"caf\xe9", b"OUT", b"H\xc3\xb6he.tif"))
    assert command("import", "--con", files["con"], odd).status == 0
    done = command("judge", odd)
    assert (done.status, done.out, "isn't a name in UTF-8: rename it" in done.error) == (2, "", True), done
    for out in (odd / "m.tif", odd.with_suffix(".tif")):
        done = command("judge", "--con", files["con"], "--map", out)
        assert (done.status, done.out, "rename it" in done.error) == (2, "", True), done
    os.rename(odd, plain)
    os.rename(files["con"], umlaut)
    assert command("judge", plain).status == 0
    for words in (["--con", umlaut], ["--con", files["dem"], "--map", tmp_path / "\u00fc.tif"]):
        done = start("judge", *words, LC_ALL="C", PYTHONUTF8="0")
        assert (done.status, done.out) == (2, "") and "set PYTHONUTF8=1" in done.error and "rename" not in done.error, done
        assert start("judge", *words, LC_ALL="C", PYTHONUTF8="1").status in (0, 1)


def test_a_name_begins_no_line(files: dict[str, str], wrong: list[str], tmp_path: Path) -> None:
    """Of a file and of an output: no line is like an acceptance."""
    os.rename(files["dem"], odd := tmp_path / "x\naccepted rows=9.tif")
    words = [str(odd) if word == files["dem"] else word for word in wrong]
    done = command("judge", *words, "--out", tmp_path / "y\naccepted rows=9.html")
    assert done.status == 1 and "x\\x0aaccepted rows=9.tif" in done.out and "y\\x0aaccepted" in done.out
    assert [line for line in done.out.splitlines() if line.startswith("accepted")] == []
    assert "\naccepted" not in str(drain_gis.audit(odd, con=files["acc"]))
    for fault in (command("judge", "--con", f"{odd}x"), command("judge", odd)):
        assert fault.status == 2 and "\naccepted" not in fault.error, fault


def test_pixels_and_headers_that_are_none(files: dict[str, str], tmp_path: Path) -> None:
    """GDAL's complex whole numbers, which numpy hasn't; and the header of a grid of SAGA, which its users know."""
    for kind in ("CInt16", "CInt32", "CFloat32"):
        subprocess.run(["gdal_translate", "-q", "-ot", kind, files["con"], tmp_path / "c.tif"], check=True)
        done = command("judge", *worlds.words({**files, "con": str(tmp_path / "c.tif")}))
        assert (done.status, "not judged: con: complex numbers" in done.out, done.error) == (2, True, ""), done
    subprocess.run(["gdal_translate", "-q", "-of", "SAGA", files["con"], tmp_path / "fill.sdat"], check=True)
    done = command("judge", "--con", tmp_path / "fill.sgrd")
    assert done.status == 2 and f"name {tmp_path}/fill.sdat" in done.error, done
    assert command("judge", "--con", tmp_path / "fill.sdat").status == 0


KEYS = ["schema", "status", "answer", "rule", "name", "row", "col", "judged", "not_judged", "notes"]


def test_json(files: dict[str, str], wrong: list[str], tmp_path: Path, world: worlds.World) -> None:
    """One object on a line, of each end of a run; files are written as without it."""
    row, col = world.cells()[33]
    ring = np.where(world.void, -9999, np.where(np.arange(31) % 2 == 0, 1, 16)).astype(np.int32)
    first = min(cell for cell in world.cells() if ring[cell] == 1)  # to the east and back
    ring_path, alone = worlds.write_tif(tmp_path / "ring.tif", ring, -9999), ["--from", "esri", "--dir"]
    table: list[tuple[list[Any], int, str, dict[str, Any], str]] = [
        (worlds.words(files), 0, "accepted rows=23 cols=31", {"judged": list(worlds.PRODUCTS)}, ""),
        (wrong, 1, f"rejected rule=13 Accumulation row={row} col={col}", {"rule": 13, "name": "Accumulation", "row": row, "col": col}, ""),
        ([*alone, ring_path], 1, f"rejected NoEnd row={first[0]} col={first[1]}", {"rule": None, "name": "NoEnd", "row": first[0], "col": first[1]}, ""),
        (["--con", files["con"], "--acc", tmp_path / "none.tif"], 2, "accepted rows=23", {"judged": ["con"]}, "acc"),
        (["--con", tmp_path / "none.tif"], 2, "can't judge: con: ", {"judged": [], "notes": []}, ""),
        (["--con", files["con"], "--drain", "/no/drain"], 3, "failed: no program /no/drain", {"judged": [], "row": None}, ""),
    ]  # fmt: skip
    (tmp_path / "none.tif").write_bytes(b"no raster")
    for words, status, answer, members, lacking in table:
        done = command("judge", "--json", *words, "--out", tmp_path / "r.html")
        found = json.loads(done.out)
        assert list(found) == KEYS and done.out.count("\n") == 1 and done.status == status == found["status"], done
        assert found["answer"].startswith(answer) and members.items() <= found.items() and found["schema"] == 1, found
        assert list(found["not_judged"]) == ([lacking] if lacking else []) and all(found["not_judged"].values())
    assert (tmp_path / "r.html").exists()
    plain = [line[2:] for line in command("judge", *worlds.words(files)).out.splitlines() if line.startswith("  ")]
    notes = json.loads(command("judge", "--json", "--quiet", *worlds.words(files)).out)["notes"]
    assert notes and notes == plain[:-1]


def test_help_and_version() -> None:
    overview = command("--help")
    assert overview.status == 0 and "Tested, not proved" in overview.out
    for name in COMMANDS:
        assert f"  {name} " in overview.out and command(name, "--help").status == 0
    assert drain_gis.__version__ in command("--version").out


def test_statuses_of_a_program_of_its_own(files: dict[str, str], wrong: list[str], tmp_path: Path) -> None:
    """Nobody reads on, standard output is full, a package is missing: none of them ends with 1, a rejection."""
    program, piped = [sys.executable, "-m", "drain_gis", "judge"], {"cwd": COMPANION, "stderr": subprocess.PIPE}
    for arguments, status in ((worlds.words(files), 0), (wrong, 1)):
        with subprocess.Popen([*program, *arguments], stdout=subprocess.PIPE, **piped) as child:
            child.stdout.close()
            assert child.wait() == status and child.stderr.read() == b""
        with open("/dev/full", "wb") as full:
            done = subprocess.run([*program, *arguments], stdout=full, **piped)
        assert (done.returncode, b"failed: " in done.stderr) == (3, True)
    (tmp_path / "rasterio.py").write_text("raise ImportError('No module named rasterio')")
    launched = subprocess.run(
        [COMPANION / "drain-gis", "judge", *wrong], env={**os.environ, "PYTHONPATH": str(tmp_path)}, capture_output=True, text=True
    )  # fmt: skip
    assert (launched.returncode, "rasterio" in launched.stderr) == (3, True), launched
    assert start("judge", *worlds.words(files), DRAIN="/no/drain").status == 3


def test_what_draws_is_loaded_where_something_is_drawn(files: dict[str, str], tmp_path: Path) -> None:
    (tmp_path / "matplotlib.py").write_text("raise ImportError('No module named matplotlib')")
    words = ["judge", *worlds.words(files), "--map", tmp_path / "m.tif"]
    assert start(*words, "--out", tmp_path / "r.html", PYTHONPATH=str(tmp_path)).status == 0
    done = start(*words, "--picture", tmp_path / "p.png", PYTHONPATH=str(tmp_path))
    assert (done.status, "failed: No module" in done.error, "Traceback" in done.error) == (3, True, False), done


def by(
    folder: Path, files: dict[str, str], audit: bytes, explain: str, status: int = 1, faults: bytes = b""
) -> Printed:
    """Judges with a program that prints these bytes."""
    for name, content in (("audit", audit), ("explain", explain.encode("latin-1")), ("faults", faults)):
        (folder / name).write_bytes(content)
    script = folder / "program"
    script.write_text(
        f'#!/bin/sh\ncase "$1" in --version) echo drain;; audit) cat {folder}/audit; exit {status};;\n'
        f'explain) while [ "$1" != --map ]; do shift; done; cp {folder}/faults "$2"; cat {folder}/explain; exit 1;;\n*) exit 3;; esac\n'
    )
    script.chmod(0o755)
    return command("judge", "--no-parts", "--drain", script, *worlds.words(files))


RULE, FIRST = '{"rules": [{"rule": %s, "name": %s, "cells": %s, "first": %s}]}', '{"row": 0, "col": 0}'
PAGE, REJECTED = RULE % (10, '"Slope"', 1, FIRST), b"rejected rule=10 Slope row=0 col=0"


@pytest.mark.parametrize(
    ("line", "page", "faults"),
    [
        *((line, PAGE, b"") for line in (
            b"", b"\n", b"\xff\xfe\x00odd", b"accepted", b"accepted data=1", b"accepted data=x raised=0 outlets=1", b"rejected Slope",
            b"accepted data=" + b"9" * 5000 + b" raised=0 outlets=1", b"\x1b[2Jaccepted", b"accepted rows=1 cols=1 data=1 raised=0",
        )),
        *((REJECTED, page, b"") for page in (
            "", "\xff", "[]", "null", "{}", '{"rules": 3}', '{"rules": [3]}', "[" * 10**5, RULE % ('"x"', '"Slope"', 1, FIRST),
            RULE % (10, '"Slope"', -1, FIRST), RULE % (10, '"Slope"', "NaN", FIRST), RULE % (10, '"Slope"', 1, "{}"),
        )),
        *((REJECTED, PAGE, faults) for faults in (b"\x0a", b"\x0a" * 10**6, b"\x07" * 23 * 31)),
    ],
    ids=lambda value: repr(value[:30]),
)  # fmt: skip
def test_answers_that_are_none(files: dict[str, str], tmp_path: Path, line: bytes, page: str, faults: bytes) -> None:
    for status in (0, 1, 3) if page is PAGE and not faults else (1,):
        done = by(tmp_path, files, line, page, status, faults)
        assert done.status == 3 and "Traceback" not in done.error and done.out == "", done


@pytest.mark.parametrize("name", ["/no/such", "/bin/false", "/etc/passwd"])
def test_no_program_is_a_failure(files: dict[str, str], name: str) -> None:
    done = command("judge", *worlds.words(files), "--drain", name)
    assert done.status == 3 and "failed: " in done.error and "Traceback" not in done.error, done


def test_one_odd_raster_does_not_stop_the_others(files: dict[str, str], tmp_path: Path, world: worlds.World) -> None:
    """What can't be read or converted is dropped with a sentence, and the rest is judged: status 2, and the report says so."""
    (tmp_path / "broken.tif").write_bytes(b"no raster")
    odd = worlds.write_tif(tmp_path / "odd.tif", world.acc + np.random.default_rng(1).random(world.acc.shape))
    small = worlds.write_tif(tmp_path / "small.tif", np.ones((3, 3), np.int16))
    for name, path in (("bas", str(tmp_path / "broken.tif")), ("acc", odd), ("bas", small)):
        done = command("judge", *worlds.words({**files, name: path}), "--out", tmp_path / "r.html")
        others = ", ".join(n for n in worlds.PRODUCTS if n != name)
        assert (
            done.status == 2 and f"judged: {others} over dem" in done.out and f"not judged: {name}: " in done.out
        ), done
        head, inputs = (tmp_path / "r.html").read_text().split("What was judged")[0], (tmp_path / "r.html").read_text()
        assert f'<header class="partly"><p class="answer">accepted; not judged: {name}</p>' in head
        assert f"<b>{name}</b></td>" in inputs.split("<h2>Inputs")[1] and f"{path}; not judged: " in inputs
