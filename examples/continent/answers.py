#!/usr/bin/python3
"""The answers to windows and merges, each with a record of the files that it rests on.

    answers.py begin WORK WORD..  does nothing if there is an answer that counts; else drops it, and writes WORK/inputs
    answers.py keep WORK WORD..   keeps WORK/line and WORK/report as the answer, if the files are those of WORK/inputs
    answers.py drop               drops records of answers that don't count, and the verdict if it rests on one
    answers.py shared             prints the files that are read for each window, without the parts of VRTs

WORD.. is the line of a window in OUT/windows.txt. The record, OUT/inputs/NAME.txt, has this line, then size, mtime, ctime
(both in nanoseconds), inode and path of each file: tiles, rasters with headers, the lists of sinks and widths, the program
and the answer's own line and report. SPACING and the program's version are in lines of this form too. The answer counts as
long as all of it is the same. No program sets a ctime, so a change in place is seen also if it puts the mtime back. Merges
have the same in OUT/merges: their records have the line of OUT/merges.txt, the program and the reports that they take; a
refused merge has no report. The environment is that of job.sh. The verdict is OUT/verdict.txt, which Snakemake writes; a
refused one is dropped too.
"""

import os
import shutil
import subprocess
import sys
from collections.abc import Mapping, Sequence
from functools import cache, cached_property
from hashlib import sha256
from pathlib import Path

sys.dont_write_bytecode = True
from groups import UNION, Merge
from places import Window
from rasters import NO_DATA, CannotCut, opened, raster_at

Answered = Window | Merge


def state(path: Path) -> str:
    """What shows that a file is the same: its size, times and inode."""
    found = path.stat()
    return f"{found.st_size} {found.st_mtime_ns} {found.st_ctime_ns} {found.st_ino} {path}"


def said(value: str, name: str) -> str:
    """The same of what is no file."""
    return f"- - - {'_'.join(value.split())} {name}"


def program_states(program: str) -> list[str]:
    """Those of the program's file and of its version."""
    if not (found := shutil.which(program)):
        raise CannotCut(f"{program}: no program")
    path = os.path.abspath(found)
    run = subprocess.run([path, "--version"], capture_output=True, text=True, check=False)
    if run.returncode or not run.stdout:
        raise CannotCut(f"{path} --version: status {run.returncode} {run.stderr}".rstrip())
    return [state(Path(path)), said(run.stdout, f"{path} --version")]


def changed(record: Sequence[str], now: Sequence[str]) -> str:
    """The first thing that isn't as it was recorded; empty if all is."""
    if record[:1] != now[:1]:
        return "its line of the plan"
    before, after = set(record), set(now)
    other = [line for line in now if line not in before] or [line for line in record if line not in after]
    return other[0].split(" ", 4)[-1] if other else ""


def states(files: Sequence[Path]) -> list[str]:
    """Those of a raster and its header. A VRT may have thousands of parts: these have one sum, and its name."""
    if len(files) <= 2:
        return [state(path) for path in files]
    parts = "\n".join(map(state, files[1:]))
    return [state(files[0]), said(f"{len(files)} files {sha256(os.fsencode(parts)).hexdigest()}", str(files[0]))]


class Answers:
    """The answers to the windows of a plan, with the files as they are when this is made; by the environment of job.sh."""

    def __init__(self, env: Mapping[str, str]) -> None:
        self.out = Path(os.path.abspath(env["OUT"]))
        shared = [opened(Path(os.path.abspath(env["RASTERS"])), name).files for name in NO_DATA]
        lists = {name: os.path.abspath(env[name]) for name in ("SINKS", "WIDTHS") if env.get(name)}
        shared += [[Path(path)] for path in lists.values()]
        self.shared = [path for files in shared for path in (files if len(files) <= 2 else files[:1])]
        self.program = program_states(env["DRAIN"])
        self.states = [line for files in shared for line in states(files)]
        said_of = {**lists, "SPACING": env.get("SPACING", "")}
        self.states += [said(value, name) for name, value in said_of.items() if value]
        self.known: dict[str, str] = {}
        """What is at fault with answers to windows that were looked at."""

    @cached_property
    def windows(self) -> dict[str, Window]:
        plan = (self.out / "windows.txt").read_text(encoding="utf-8")
        return {window.name: window for window in (Window.of(line.split()) for line in plan.splitlines())}

    @cached_property
    def merges(self) -> dict[str, Merge]:
        """Each after its members; the last one is that of the union."""
        plan = (self.out / "merges.txt").read_text(encoding="utf-8")
        return {merge.name: merge for merge in (Merge.of(line.split()) for line in plan.splitlines())}

    @property
    def groups(self) -> list[Merge]:
        return [merge for merge in self.merges.values() if merge.name != UNION]

    def paths(self, of: Answered) -> list[Path]:
        """The files of an answer: its record, line and report."""
        out = self.out / "merges" if isinstance(of, Merge) else self.out
        return [out / folder / f"{of.name}.txt" for folder in ("inputs", "lines", "reports")]

    def inputs(self, of: Answered) -> list[str]:
        """The record of an answer without its own files, as they are now."""
        if isinstance(of, Merge):
            return [str(of), *map(state, self.taken(of)), *self.program]
        tiles = dem_states(of.dem) if of.dem else [state(Path(tile)) for tile in of.tiles]
        return [str(of), *tiles, *self.states, *self.program]

    def taken(self, merge: Merge) -> list[Path]:
        """The reports that a merge takes. In place of a group that has none it takes what this one would."""
        found = []
        for part in self.parts(merge):
            report = self.paths(part)[2]
            if not self.fault(part) and report.exists():
                found.append(report)
            elif isinstance(part, Merge):
                found += self.taken(part)
        return found

    def parts(self, merge: Merge) -> list[Answered]:
        """The members that the plans have."""
        named = [self.merges.get(name) or self.windows.get(name) for name in merge.members]
        return [part for part in named if part]

    def is_whole(self, merge: Merge) -> bool:
        """Whether each window of a group has an answer, so that they fill a box."""
        parts = self.parts(merge)
        return len(parts) == len(merge.members) and all(
            self.is_whole(part) if isinstance(part, Merge) else not self.fault(part) for part in parts
        )

    def fault(self, of: Answered) -> str:
        """Why a window, or a merge, has no answer that counts; empty if it has one."""
        if isinstance(of, Merge):
            return self.look_at(of)
        if of.name not in self.known:
            self.known[of.name] = self.look_at(of)
        return self.known[of.name]

    def look_at(self, of: Answered) -> str:
        record, line, report = self.paths(of)
        if not record.exists():
            said = line.read_text().rstrip("\n") if line.exists() else ""
            return said if said.startswith("refused ") else "no answer yet"
        try:
            has_report = isinstance(of, Window) or report.exists()
            name = changed(read(record), [*self.inputs(of), state(line), *([state(report)] if has_report else [])])
        except OSError as error:
            return f"{error.filename}: {error.strerror}"
        return f"{name} changed after the window was judged" if name else ""

    def begin(self, of: Answered, work: Path) -> None:
        if self.fault(of):
            for path in self.paths(of):
                path.unlink(missing_ok=True)
            write(work / "inputs", self.inputs(of))

    def keep(self, of: Answered, work: Path) -> None:
        record, line, report = self.paths(of)
        given = read(work / "inputs")
        if name := changed(given, self.inputs(of)):
            sys.exit(f"{of.name}: {name} changed while the window was judged")
        has_report = isinstance(of, Window) or (work / "report").exists()
        answer = [(report, "report"), (line, "line")] if has_report else [(line, "line")]
        for path, source in answer:
            put(work / source, path)
        # A new name is a new ctime. The record comes last: without it an answer doesn't count.
        write(work / "inputs", [*given, *(state(path) for path, _ in reversed(answer))])
        put(work / "inputs", record)

    def tell_missing(self) -> None:
        """Names windows without an answer. It fails if one has an answer that doesn't count any longer."""
        stale = False
        for window in self.windows.values():
            if fault := self.fault(window):
                stale |= self.paths(window)[0].exists()
                print(f"{window.name}: {fault}", file=sys.stderr)
        if stale:
            sys.exit("judge these windows again")

    def drop(self) -> None:
        verdict = self.out / "verdict.txt"
        is_void = verdict.exists() and verdict.read_text().startswith("refused ")
        answered: list[Answered] = [*self.windows.values(), *self.groups]
        for of in answered:
            record, _, _ = self.paths(of)
            # A job that runs has no record, and may get one now.
            had_record = record.exists()
            if self.fault(of):
                is_void = True
                if had_record:
                    record.unlink(missing_ok=True)
        if is_void:
            verdict.unlink(missing_ok=True)


@cache
def dem_states(dem: Path) -> list[str]:
    return states(raster_at(dem).files)


def read(path: Path) -> list[str]:
    return os.fsdecode(path.read_bytes()).removesuffix("\n").split("\n")


def write(path: Path, lines: Sequence[str]) -> None:
    path.write_bytes(os.fsencode("".join(f"{line}\n" for line in lines)))


def put(source: Path, path: Path) -> None:
    path.parent.mkdir(parents=True, exist_ok=True)
    os.replace(source, path)


def main(words: Sequence[str]) -> None:
    name = words[2] if len(words) > 2 else "answers.py"
    try:
        answers = Answers(os.environ)
        match words:
            case ["begin", work, *window]:
                answers.begin(Window.of(window), Path(work))
            case ["keep", work, *window]:
                answers.keep(Window.of(window), Path(work))
            case ["drop"]:
                answers.drop()
            case ["shared"]:
                print(*answers.shared, sep="\n")
            case _:
                sys.exit(__doc__)
    except (CannotCut, OSError) as error:
        sys.exit(f"{name}: {error}")


if __name__ == "__main__":
    main(sys.argv[1:])
