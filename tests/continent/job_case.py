"""A plan of 9 windows, and a stand-in for `drain` that judges them."""

import os
import re
import shutil
import subprocess
import sys
import tempfile
import unittest
from collections.abc import Sequence
from pathlib import Path

from scripts import EXAMPLE, SHELL_LOOP

SIDE = 5
PROGRAM = """#!/bin/sh
# Stands in for `drain`: notes its words in $OUT/words, writes a report, and does what $OUT/answer says.
# --version prints what $0.version has. A merge does what $OUT/merged says, that of a group what $OUT/joined says. While a window is judged, the file $grows grows.
[ "$1" != --version ] || exec cat "$0.version"
echo "$*" >>"$OUT/words"
if [ "$1" = merge ]; then
    said=merged
    [ "$2" != --report ] || said=joined
    read -r status line <"$OUT/$said"
    [ "$said$status" != joined0 ] || echo report >"$3"
    echo "$line"
    exit "$status"
fi
[ -z "${grows:-}" ] || echo >>"$grows"
while [ "$1" != --report ]; do shift; done
[ "$answer" != hang ] || cat "$OUT/hang"
read -r status line <"$OUT/answer"
[ "$status" -ge 2 ] || echo report >"$2"
[ -z "$line" ] || echo "$line"
exit "$status"
"""


def plain(words: str) -> str:
    """Paths without the random endings of a job's folders."""
    return re.sub(r"\b(r1c1|w)(\.cut)?\.\w{6}\b", r"\1\2", words)


def reports_of(out: Path) -> list[str]:
    return sorted(path.name for path in (out / "reports").glob("*"))


ENGINES = {
    "loop": ["sh", "-c", SHELL_LOOP],
    "parallel": [EXAMPLE / "parallel.sh", "3"],
    "array": ["sh", "-c", '"$HERE/slurm.sh" && "$HERE/merge.sh"'],
    "snakemake": ["snakemake", "--snakefile", EXAMPLE / "Snakefile", "--cores", "2", "--keep-going"]
    + ["--rerun-incomplete", "--nolock"],
}
"""How all windows are judged, and their reports merged."""


class JobCase(unittest.TestCase):
    """A union of 3 by 3 tiles, in 9 windows."""

    PLAN: Sequence[str] = ()
    """More words for windows.py."""

    def setUp(self) -> None:
        scratch = tempfile.TemporaryDirectory()
        self.addCleanup(scratch.cleanup)
        self.folder = Path(scratch.name)
        self.out = self.folder / "out"
        for folder in ("tiles", "rasters"):
            (self.folder / folder).mkdir()
        for lat in range(3):
            for lon in range(3):
                (self.folder / f"tiles/N{lat:02d}E{lon:03d}.hgt").touch()
        cells = 3 * (SIDE - 1) + 1
        for name in ("con", "dir", "acc", "bas"):
            (self.folder / f"rasters/{name}.bil").write_bytes(bytes(4 * cells**2))
            header = f"NROWS {cells}\nNCOLS {cells}\nNBITS 32\nULXMAP 0\nULYMAP 3\nXDIM 0.25\nYDIM 0.25\nNODATA 0\n"
            (self.folder / f"rasters/{name}.hdr").write_text(header)
        self.program = self.folder / "drain"
        self.program.write_text(PROGRAM)
        self.program.chmod(0o755)
        self.program.with_suffix(".version").write_text("drain 9\nlogic 1\n")
        command = [sys.executable, "-B", EXAMPLE / "windows.py", "--side", str(SIDE), "--width", "1"]
        subprocess.run([*command, *self.PLAN, self.folder / "tiles", self.out], check=True, stdout=subprocess.DEVNULL)
        self.lines = (self.out / "windows.txt").read_text().splitlines()
        known = {"DRAIN": self.program, "SIDE": SIDE, "RASTERS": self.folder / "rasters", "OUT": self.out}
        self.env = {**os.environ, **{key: str(value) for key, value in known.items()}}
        self.env |= {"HERE": str(EXAMPLE), "SLURM_ARRAY_TASK_COUNT": "1", "SLURM_ARRAY_TASK_ID": "1"}
        self.env |= {"SLURM_ARRAY_TASK_MIN": "1", "SLURM_ARRAY_TASK_MAX": "1"}
        self.answer("0 accepted rows=1")
        self.merged("0 accepted of all")
        self.joined("0 accepted of a group")

    def answer(self, text: str) -> None:
        (self.out / "answer").write_text(f"{text}\n")

    def merged(self, text: str) -> None:
        (self.out / "merged").write_text(f"{text}\n")

    def joined(self, text: str) -> None:
        (self.out / "joined").write_text(f"{text}\n")

    def run_script(self, name: str, *words: str, **env: str) -> subprocess.CompletedProcess[str]:
        env = {**self.env, **env}
        return subprocess.run([EXAMPLE / name, *words], env=env, capture_output=True, text=True, check=False)

    def job(self, window: int = 4, **env: str) -> int:
        return self.run_script("job.sh", *self.lines[window].split(), **env).returncode

    def engines(self) -> list[str]:
        return [name for name, command in ENGINES.items() if shutil.which(command[0])]

    def run_engine(self, engine: str) -> tuple[str, str]:
        """The verdict on the union, empty if there is none, and what stands on standard error."""
        command, verdict = ENGINES[engine], self.out / "verdict.txt"
        run = subprocess.run(command, cwd=self.folder, env=self.env, capture_output=True, text=True, check=False)
        if engine == "snakemake":
            return verdict.read_text() if verdict.exists() else "", run.stderr
        return run.stdout.splitlines(keepends=True)[-1], run.stderr

    def shorten_plan(self) -> list[str]:
        """Leaves three windows, and returns their names."""
        (self.out / "windows.txt").write_text("".join(f"{self.lines[window]}\n" for window in (0, 4, 8)))
        return ["r0c0", "r1c1", "r2c2"]

    def calls(self) -> list[str]:
        """The words with which the program was called since the last time."""
        path = self.out / "words"
        found = path.read_text().splitlines() if path.exists() else []
        path.unlink(missing_ok=True)
        return found

    def window_calls(self) -> dict[str, str]:
        """The words for each window that was judged since the last time."""
        return {found[1]: words for words in self.calls() if (found := re.search(r"/work/(\w+)\.\w+/report ", words))}

    def judged(self) -> list[str]:
        return sorted(self.window_calls())

    def kept(self) -> dict[str, str]:
        """What is there of answers, and of folders for work."""
        folders = ("lines", "reports", "work")
        return {
            f"{name}/{plain(path.name)}": path.read_text() if path.is_file() else ""
            for name in folders
            for path in (self.out / name).glob("*")
        }
