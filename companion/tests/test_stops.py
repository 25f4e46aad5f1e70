"""Full disks and signals: nothing is left half written, and no program outlives the run."""

import os
import signal
import subprocess
import sys
import time
from pathlib import Path

import pytest
import worlds
from conftest import COMPANION, FIXTURES, left, outputs, start

SAGA = worlds.words(
    {"dem": str(FIXTURES / "dem.tif")} | {n: str(FIXTURES / f"saga-{n}.tif") for n in worlds.PRODUCTS}, "saga"
)

# A step of a run, at which it waits: the signal then comes within it.
PAUSE = """
import importlib, sys, time
from drain_gis import cli
module = importlib.import_module("drain_gis.{module}")
plain = module.{function}
def waiting(*words, **more):
    result = plain(*words, **more)
    print("waiting", flush=True)
    time.sleep(60)
    return result
module.{function} = waiting
if hasattr(cli, "{function}"):
    cli.{function} = waiting
cli.run()
"""


def test_a_full_disk_leaves_nothing(tmp_path: Path) -> None:
    out, temporary = tmp_path / "out", tmp_path / "tmp"
    temporary.mkdir()
    for room in (0, 200, 4000):
        made = ["make", FIXTURES / "dem.tif", tmp_path / "con.tif", tmp_path / "dir.tif"]
        for words in (["import", *SAGA, out], ["judge", *SAGA, *outputs(tmp_path)], made):
            done = start(*words, room=room, TMPDIR=str(temporary))
            assert (done.status, "failed: " in done.error) == (3, True), (room, done)
            assert list(tmp_path.iterdir()) == [temporary] and not list(temporary.iterdir()), (room, words[0])
    assert start("import", *SAGA, out, room=1 << 20, TMPDIR=str(temporary)).status == 0
    before = left(out)
    assert start("import", *SAGA, "--overwrite", out, room=4000, TMPDIR=str(temporary)).status == 3
    assert left(out) == before


STEPS = [
    ("import", "convert", "put_ground"), ("import", "convert", "put_labels"), ("import", "folder", "record_of"),
    ("judge", "convert", "put_counts"), ("judge", "picture", "write_picture"), ("judge", "maps", "write_map"),
    ("judge", "report", "write_report"),
]  # fmt: skip


@pytest.mark.parametrize(("name", "module", "function"), STEPS)
def test_a_signal_leaves_nothing(tmp_path: Path, name: str, module: str, function: str) -> None:
    number = (signal.SIGTERM, signal.SIGINT, signal.SIGHUP)[len(function) % 3]
    temporary = tmp_path / "tmp"
    temporary.mkdir()
    words = [name, *SAGA, *([str(tmp_path / "out")] if name == "import" else outputs(tmp_path))]
    with subprocess.Popen(
        [sys.executable, "-c", PAUSE.format(module=module, function=function), *words],
        cwd=COMPANION, env={**os.environ, "TMPDIR": str(temporary)}, stdout=subprocess.PIPE, stderr=subprocess.PIPE, text=True,
    ) as run:  # fmt: skip
        for line in run.stdout or ():
            if line == "waiting\n":
                break
        begun = time.monotonic()
        run.send_signal(number)
        _, error = run.communicate(timeout=30)
        assert time.monotonic() - begun < 20, "it didn't stop"
    assert run.returncode == 3 and "Traceback" not in error, (run.returncode, error)
    assert not list(temporary.iterdir())
    whole = {"p.png", "m.tif", "m.tif.aux.xml", "r.html"}
    assert {path.name for path in tmp_path.iterdir()} - {"tmp"} <= whole, "no file of another name"
    assert not (tmp_path / "out").exists()


def test_a_signal_stops_the_program_too(tmp_path: Path) -> None:
    """A program that takes its time is ended with the companion."""
    slow = tmp_path / "slow"
    slow.write_text(f"#!/bin/sh\necho $$ >{tmp_path}/new && mv {tmp_path}/new {tmp_path}/pid\nexec sleep 60\n")
    slow.chmod(0o755)
    words = [sys.executable, "-m", "drain_gis", "judge", *SAGA, "--drain", slow]
    for number in (signal.SIGTERM, signal.SIGINT, signal.SIGHUP):
        with subprocess.Popen(
            words, cwd=COMPANION, stdout=subprocess.DEVNULL, stderr=subprocess.PIPE, text=True
        ) as run:
            for _ in range(300):
                if (tmp_path / "pid").exists():
                    break
                time.sleep(0.1)
            pid = int((tmp_path / "pid").read_text())
            run.send_signal(number)
            _, error = run.communicate(timeout=30)
        assert run.returncode == 3 and "Traceback" not in error, error
        with pytest.raises(ProcessLookupError):
            os.kill(pid, 0)
        (tmp_path / "pid").unlink()
