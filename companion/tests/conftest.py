"""What the tests have in common: a command in this process or as a program of its own, a set in files, a full disk."""

import contextlib
import io
import os
import resource
import signal
import subprocess
import sys
from collections.abc import Callable, Iterator
from pathlib import Path
from typing import NamedTuple

import pytest
import worlds
from drain_gis import cli
from drain_gis.drain import Program
from hypothesis import HealthCheck, settings

COMPANION = Path(__file__).resolve().parents[1]
FIXTURES = COMPANION / "tests/fixtures"
settings.register_profile("gate", deadline=None, derandomize=True, suppress_health_check=list(HealthCheck))
settings.load_profile("gate")


class Printed(NamedTuple):
    """The end of a command."""

    status: int
    out: str
    error: str


def drain_gis(*words: object) -> Printed:
    """Runs drain-gis in this process: seconds are saved, as nothing is loaded anew."""
    out, error, status = io.StringIO(), io.StringIO(), 0
    handlers = {number: signal.getsignal(number) for number in (signal.SIGTERM, signal.SIGHUP, signal.SIGINT)}
    try:
        with contextlib.redirect_stdout(out), contextlib.redirect_stderr(error):
            cli.run([str(word) for word in words])
    except SystemExit as end:
        status = int(end.code or 0)
    finally:
        for number, handler in handlers.items():
            signal.signal(number, handler)
    return Printed(status, out.getvalue(), error.getvalue())


def start(*words: object, room: int | None = None, **environment: str) -> Printed:
    """Runs it as a program of its own; with `room` no file gets longer than this: as on a full disk, a write fails."""
    limit = None if room is None else lambda: resource.setrlimit(resource.RLIMIT_FSIZE, (room, room))
    done = subprocess.run(
        [sys.executable, "-m", "drain_gis", *map(str, words)], cwd=COMPANION, env={**os.environ, **environment},
        capture_output=True, encoding="utf-8", errors="surrogateescape", preexec_fn=limit,
    )  # fmt: skip
    return Printed(done.returncode, done.stdout, done.stderr)


def outputs(folder: Path) -> list[str]:
    """The options that write an answer's files."""
    names = {"out": "r.html", "map": "m.tif", "picture": "p.png"}
    return [word for option, name in names.items() for word in (f"--{option}", str(folder / name))]


def left(folder: Path) -> dict[str, int]:
    """Path to size, of all files below a folder."""
    return {str(path.relative_to(folder)): path.stat().st_size for path in folder.rglob("*") if path.is_file()}


@pytest.fixture(scope="session")
def world() -> worlds.World:
    """A world with voids. Nobody changes it."""
    return worlds.random_world(seed=4)


@pytest.fixture
def files(tmp_path: Path, world: worlds.World) -> dict[str, str]:
    """A right set in Esri's codes, as files."""
    return worlds.write_set(tmp_path, world)


@pytest.fixture(scope="session")
def alone(tmp_path_factory: pytest.TempPathFactory) -> str:
    """The program in a folder without the library."""
    path = tmp_path_factory.mktemp("alone") / "drain"
    path.symlink_to(os.path.realpath(Program().path))
    return str(path)


@pytest.fixture
def small_disk() -> Iterator[Callable[[int], None]]:
    """From a call on no file of this process can grow above so many bytes."""
    old_signal, old = signal.signal(signal.SIGXFSZ, signal.SIG_IGN), resource.getrlimit(resource.RLIMIT_FSIZE)
    yield lambda size: resource.setrlimit(resource.RLIMIT_FSIZE, (size, old[1]))
    resource.setrlimit(resource.RLIMIT_FSIZE, old)
    signal.signal(signal.SIGXFSZ, old_signal)


# A shell has what runs in the background ignore an interrupt, and a program inherits that; then no test could interrupt one.
signal.signal(signal.SIGINT, signal.default_int_handler)


@pytest.fixture(autouse=True)
def at_most_ten_minutes() -> Iterator[None]:
    """A test that doesn't end fails."""

    def late(number: int, frame: object) -> None:
        raise TimeoutError("ten minutes are over")

    before = signal.signal(signal.SIGALRM, late)
    signal.alarm(600)
    yield
    signal.alarm(0)
    signal.signal(signal.SIGALRM, before)
