"""What makes an answer void, and the windows that are judged again, with a stand-in for `drain`."""

import os
import re
import shlex
import shutil
import string
import subprocess
import tempfile
import time
import unittest
from collections.abc import Callable
from pathlib import Path
from unittest import mock

from job_case import JobCase
from scripts import EXAMPLE, SLOPES
from snakefile import rules_of

from answers import Answers
from windows import Window


def grow(path: Path) -> None:
    """Another size, with the same time and inode."""
    before = path.stat()
    with open(path, "ab") as file:
        file.write(b"\n")
    os.utime(path, ns=(before.st_atime_ns, before.st_mtime_ns))


def date_back(path: Path) -> None:
    """A time that is a nanosecond older."""
    before = path.stat()
    os.utime(path, ns=(before.st_atime_ns, before.st_mtime_ns - 1))


def replace(path: Path) -> None:
    """Another file of the same size and time."""
    copy = path.with_name("copy")
    shutil.copy2(path, copy)
    os.replace(copy, path)


def rewrite(path: Path) -> None:
    """Bytes written in place, and the time put back, as `touch -r` does."""
    before = path.stat()
    time.sleep(0.02)  # The clock of files may stand still for a hundredth of a second.
    with open(path, "r+b") as file:
        file.write(path.read_bytes()[:1])
    os.utime(path, ns=(before.st_atime_ns, before.st_mtime_ns))


CHANGES: list[Callable[[Path], None]] = [grow, date_back, replace, rewrite]


class Changes(JobCase):
    """Files that change after a window was judged."""

    def setUp(self) -> None:
        super().setUp()
        self.sinks = self.folder / "sinks.txt"
        self.sinks.write_text("1 1\n")
        self.widths = self.folder / "widths.txt"
        self.widths.write_text("2 1\n" * 13)
        self.version = self.folder / "drain.version"
        self.env |= {"SINKS": str(self.sinks), "WIDTHS": str(self.widths)}
        self.con = self.folder / "rasters/con.bil"

    def inputs(self) -> list[Path]:
        """The files that the middle window, r1c1, is judged of."""
        rasters = [self.folder / f"rasters/{name}" for name in ("con.bil", "con.hdr", "acc.bil", "bas.hdr")]
        tiles = [self.folder / f"tiles/{name}.hgt" for name in ("N01E001", "N01E002", "N00E001", "N00E002")]
        return [*rasters, *tiles, self.sinks, self.widths, self.program]

    def answers(self) -> Answers:
        return Answers(self.env)

    def refused_by(self, said: str) -> None:
        """The merge says why an answer doesn't count, and nothing else."""
        run = self.run_script("merge.sh")
        self.assertEqual((run.returncode, run.stdout, self.calls()), (3, "", []))
        self.assertIn(f"r1c1: {said}", run.stderr)

    def test_each_file(self) -> None:
        """An answer names the first file that isn't the same, by size, times or inode."""
        window = Window.of(self.lines[4].split())
        for path in [*self.inputs(), self.out / "lines/r1c1.txt", self.out / "reports/r1c1.txt"]:
            for change in CHANGES:
                with self.subTest(path=path.name, change=change.__name__):
                    work = Path(tempfile.mkdtemp(dir=self.folder))
                    self.answers().begin(window, work)
                    for name in ("line", "report"):
                        (work / name).write_text("text\n")
                    self.answers().keep(window, work)
                    self.assertEqual(self.answers().fault(window), "")
                    change(path)
                    self.assertEqual(self.answers().fault(window), f"{path} changed after the window was judged")

    def test_jobs_and_merges(self) -> None:
        """A merge refuses the answer, by the file's name, and the window is judged again."""
        self.job()
        self.calls()
        for path, change in [
            (self.con, date_back),
            (self.folder / "tiles/N00E002.hgt", replace),
            (self.con, rewrite),
            (self.sinks, grow),
            (self.widths, rewrite),
            (self.program, replace),
            (self.out / "reports/r1c1.txt", replace),
        ]:
            with self.subTest(path.name):
                change(path)
                self.refused_by(f"{path} changed after the window was judged\n")
                self.assertEqual((self.job(), self.judged()), (0, ["r1c1"]))
                self.assertEqual((self.run_script("merge.sh").returncode, self.job()), (0, 0))
                self.assertEqual(self.judged(), [])

    def test_files_that_are_gone(self) -> None:
        for path in (self.con, self.folder / "rasters/bas.hdr", self.folder / "tiles/N00E002.hgt", self.sinks):
            with self.subTest(path.name):
                self.job()
                self.calls()
                path.rename(self.folder / "gone")
                run = self.run_script("merge.sh")
                self.assertEqual((run.returncode, run.stdout), (3, ""))
                self.assertIn(path.name, run.stderr)
                self.assertEqual((self.job(), self.calls()), (3, []))
                (self.folder / "gone").rename(path)

    def test_other_files(self) -> None:
        """Another list of sinks, none, other rasters, other distances, and another program."""
        shutil.copytree(self.folder / "rasters", self.folder / "other")
        (self.folder / "other.txt").write_text("1 1\n")
        self.sinks.write_text("1 1\n" * 13)
        program = self.folder / "program"
        shutil.copy2(self.program, program)
        shutil.copy2(self.version, self.folder / "program.version")
        for env, name in [
            ({"WIDTHS": ""}, self.widths),
            ({"WIDTHS": "", "SPACING": "2,1"}, "SPACING"),
            ({"SINKS": str(self.widths), "WIDTHS": str(self.sinks)}, "SINKS"),
            ({"DRAIN": str(program)}, program),
            ({"SINKS": str(self.folder / "other.txt")}, self.folder / "other.txt"),
            ({"SINKS": ""}, self.sinks),
            ({"RASTERS": str(self.folder / "other")}, self.folder / "other/con.bil"),
        ]:
            with self.subTest(env):
                self.job()
                self.calls()
                run = self.run_script("merge.sh", **env)
                self.assertEqual((run.returncode, run.stdout, self.calls()), (3, "", []))
                self.assertIn(f"r1c1: {name} changed", run.stderr)
                self.assertEqual((self.job(**env), self.judged()), (0, ["r1c1"]))

    def test_another_version(self) -> None:
        """Of a program whose file is the same, and one that has none."""
        self.job()
        self.calls()
        self.version.write_text("drain 10\nlogic 1\n")
        self.refused_by(f"{self.program} --version changed after the window was judged\n")
        self.assertEqual((self.job(), self.judged()), (0, ["r1c1"]))
        path = f"{self.folder}:{os.environ['PATH']}"
        self.assertEqual((self.job(DRAIN="drain", PATH=path), self.judged()), (0, []))
        self.version.unlink()
        for program in (str(self.program), str(self.version)):
            run = self.run_script("job.sh", *self.lines[4].split(), DRAIN=program)
            self.assertEqual((run.returncode, self.calls()), (3, []))
            self.assertIn(f"r1c1: {program}", run.stderr)

    def test_another_line_of_the_plan(self) -> None:
        self.job()
        plan = self.out / "windows.txt"
        plan.write_text(plan.read_text().replace(self.lines[4], self.lines[4].replace(" 1,1,6,6 ", " 1,1,5,6 ")))
        self.calls()
        self.refused_by("its line of the plan changed")
        words = plan.read_text().splitlines()[4].split()
        self.assertEqual((self.run_script("job.sh", *words).returncode, self.judged()), (0, ["r1c1"]))
        self.assertEqual(self.run_script("merge.sh").returncode, 0)

    def test_files_that_change_while_a_window_is_judged(self) -> None:
        """There is no answer, and none is left of before."""
        for path in (self.con, self.folder / "rasters/bas.hdr", self.folder / "tiles/N00E002.hgt", self.sinks):
            with self.subTest(path.name):
                self.job()
                date_back(path)
                run = self.run_script("job.sh", *self.lines[4].split(), grows=str(path))
                self.assertEqual((run.returncode, self.kept()), (3, {}))
                self.assertEqual(run.stderr, f"r1c1: {path} changed while the window was judged\n")

    def test_engines(self) -> None:
        """All windows that read a changed file are judged again, and only these; each over the distances of its rows."""
        names = self.shorten_plan()
        for engine in self.engines():
            for path, change, windows in [
                (self.con, rewrite, names),
                (self.folder / "rasters/acc.hdr", date_back, names),
                (self.program, rewrite, names),
                (self.widths, date_back, names),
                (self.folder / "tiles/N02E000.hgt", date_back, ["r0c0"]),
                (self.out / "reports/r1c1.txt", date_back, ["r1c1"]),
            ]:
                with self.subTest(engine=engine, path=path.name):
                    change(path)
                    verdict, said = self.run_engine(engine)
                    self.assertEqual((verdict, self.judged()), ("accepted of all\n", windows), said)

    def test_distances_by_each_engine(self) -> None:
        """Widths by row, cut for each window, one spacing, and none."""
        names = self.shorten_plan()
        for engine in self.engines():
            for env, words, slopes in [
                ({}, "--widths /widths.txt", f"widths by row, {self.widths}"),
                ({"SPACING": "2,1", "WIDTHS": ""}, "--spacing 2,1", "spacing 2,1"),
                ({"WIDTHS": ""}, "", "square cells"),
            ]:
                with self.subTest(engine=engine, slopes=slopes), mock.patch.dict(self.env, env):
                    verdict, said = self.run_engine(engine)
                    self.assertEqual((verdict, f"slopes: {slopes}\n" in said), ("accepted of all\n", True), said)
                    calls = self.window_calls()
                    self.assertEqual(sorted(calls), names)
                    for call in calls.values():
                        found = " ".join(re.findall(r"--(?:widths|spacing) \S+", call))
                        self.assertEqual(re.sub(r"\S+/work/\w+\.cut\.\w+", "", found), words)


class Refusals(JobCase):
    """Windows that are refused, and reports that can't be read."""

    def test_a_refused_window(self) -> None:
        """Its line is kept, without a report, and is no answer."""
        self.answer("2 refused BadTileLength N01E001.hgt")
        for _ in range(2):
            run = self.run_script("job.sh", *self.lines[4].split())
            self.assertEqual((run.returncode, run.stderr), (0, "r1c1: refused BadTileLength N01E001.hgt (status 2)\n"))
            self.assertEqual(self.kept(), {"lines/r1c1.txt": "refused BadTileLength N01E001.hgt\n"})
            self.assertEqual(self.judged(), ["r1c1"])
            self.assertIn("r1c1: refused BadTileLength N01E001.hgt\n", self.run_script("merge.sh").stderr)
            self.calls()
        self.answer("0 accepted rows=1")
        self.assertEqual((self.job(), self.judged()), (0, ["r1c1"]))
        self.assertEqual(self.kept(), {"lines/r1c1.txt": "accepted rows=1\n", "reports/r1c1.txt": "report\n"})

    def test_an_answer_before_a_refusal(self) -> None:
        """Its report goes."""
        self.job()
        date_back(self.folder / "rasters/con.bil")
        self.answer("2 refused BadHeader con BadBits")
        self.job()
        self.assertEqual(self.kept(), {"lines/r1c1.txt": "refused BadHeader con BadBits\n"})

    def test_engines(self) -> None:
        """Refused windows are named, and judged again; no verdict of before is left."""
        names = self.shorten_plan()
        for engine in self.engines():
            with self.subTest(engine):
                date_back(self.folder / "rasters/con.bil")
                self.answer("2 refused BadTileLength N01E001.hgt")
                self.merged("2 refused LeftOut row=0 col=0")
                verdict, said = self.run_engine(engine)
                self.assertEqual(verdict, "" if engine == "snakemake" else "refused LeftOut row=0 col=0\n")
                self.assertIn("r1c1: refused BadTileLength N01E001.hgt (status 2)\n", said)
                self.assertEqual(self.judged(), names)
                self.answer("0 accepted rows=1")
                self.merged("0 accepted of all")
                self.assertEqual((self.run_engine(engine)[0], self.judged()), ("accepted of all\n", names))

    def test_a_report_cut_short(self) -> None:
        self.shorten_plan()
        self.run_engine("loop")
        self.calls()
        report = self.out / "reports/r1c1.txt"
        os.truncate(report, 3)
        run = self.run_script("merge.sh")
        self.assertEqual((run.returncode, run.stdout), (3, ""))
        self.assertIn(f"r1c1: {report} changed after the window was judged\n", run.stderr)
        self.assertEqual((self.run_engine("loop"), self.judged()), (("accepted of all\n", SLOPES), ["r1c1"]))
        self.assertEqual(report.read_text(), "report\n")

    def test_a_report_that_a_merge_cannot_read(self) -> None:
        """Its file is named, and its window is judged again: here that of another report by each engine."""
        names = self.shorten_plan()
        for index, engine in enumerate(self.engines()):
            with self.subTest(engine):
                date_back(self.folder / "rasters/con.bil")
                self.merged(f"2 refused BadReport {index % 3} WrongVersion")
                verdict, said = self.run_engine(engine)
                self.assertEqual(verdict, f"refused BadReport {index % 3} WrongVersion\n")
                self.assertIn(f"{self.out}/reports/{names[index % 3]}.txt is no report", said)
                self.assertEqual(self.judged(), names)
                self.merged("0 accepted of all")
                self.assertEqual(self.run_engine(engine)[0], "accepted of all\n")
                self.assertEqual(self.judged(), [names[index % 3]])


class Words(string.Formatter):
    """Spells the fields of a command as Snakemake does: q quotes each word of a list."""

    def format_field(self, value: object, format_spec: str) -> str:
        words = [str(word) for word in value] if isinstance(value, list) else [str(value)]
        return " ".join(map(shlex.quote, words) if format_spec == "q" else words)


class Snakefile(JobCase):
    """The rules of the Snakefile, without Snakemake."""

    def test_words_that_a_shell_would_change(self) -> None:
        """A command gives each word of a line as it stands in the plan."""
        here = self.folder / "here $(touch x) R&D"
        here.mkdir()
        for name in ("answers.py", "cut.py", "windows.py"):
            (here / name).symlink_to(EXAMPLE / name)
        (here / "job.sh").write_text('#!/bin/sh\nprintf "%s\\n" "$@" >"$OUT/got"\necho record >"$OUT/inputs/w.txt"\n')
        (here / "job.sh").chmod(0o755)
        (self.out / "inputs").mkdir()
        words = ["w", "0,0,5,5", "-", "0,0,5,5", "t$(touch${IFS}x)", "R&D", "a;b", "`touch", "x`", "*", "'\"\\", ">x"]
        (self.out / "windows.txt").write_text(f"{' '.join(words)}\n")
        rules = rules_of(EXAMPLE / "Snakefile", here, self.env)
        window = rules["window"].of("w")
        command = Words().format(window.shell, params=window.params, output=window.output, HERE=str(here))
        before = sorted(self.folder.iterdir())
        subprocess.run(["sh", "-c", command], cwd=self.folder, env=self.env, check=True)
        self.assertEqual((self.out / "got").read_text().splitlines(), words)
        self.assertEqual(sorted(self.folder.iterdir()), before)

    def test_inputs(self) -> None:
        """Tiles, rasters with their headers, the lists and the scripts."""
        sinks = self.folder / "sinks.txt"
        sinks.write_text("1 1\n")
        widths = self.folder / "widths.txt"
        widths.write_text("2 1\n" * 13)
        lists = {"SINKS": str(sinks), "WIDTHS": str(widths)}
        rules = rules_of(EXAMPLE / "Snakefile", EXAMPLE, {**self.env, **lists})
        tiles = [f"{self.folder}/tiles/{name}.hgt" for name in ("N01E001", "N01E002", "N00E001", "N00E002")]
        rasters = [
            f"{self.folder}/rasters/{name}.{kind}" for name in ("con", "dir", "acc", "bas") for kind in ("bil", "hdr")
        ]
        scripts = [f"{EXAMPLE}/{name}" for name in ("job.sh", "cut.py", "windows.py")]
        self.assertLessEqual({*tiles, *rasters, *scripts, *lists.values()}, set(rules["window"].of("r1c1").input))
        self.assertIn(f"{EXAMPLE}/merge.sh", rules["verdict"].of("").input)

    def test_answers_that_do_not_count(self) -> None:
        """Snakemake knows times alone: records of other changes are gone before it looks."""
        for window in range(9):
            self.job(window)
        verdict = self.out / "verdict.txt"
        records = sorted((self.out / "inputs").iterdir())
        self.assertEqual(len(records), 9)
        verdict.write_text("accepted of all\n")
        rules_of(EXAMPLE / "Snakefile", EXAMPLE, self.env)
        self.assertEqual((sorted((self.out / "inputs").iterdir()), verdict.exists()), (records, True))
        verdict.write_text("refused BadReport 0 WrongVersion\n")
        rules_of(EXAMPLE / "Snakefile", EXAMPLE, self.env)
        self.assertEqual((sorted((self.out / "inputs").iterdir()), verdict.exists()), (records, False))
        verdict.write_text("accepted of all\n")
        date_back(self.folder / "tiles/N02E000.hgt")
        rules_of(EXAMPLE / "Snakefile", EXAMPLE, self.env)
        left = [path for path in records if path.stem != "r0c0"]
        self.assertEqual((sorted((self.out / "inputs").iterdir()), verdict.exists()), (left, False))


if __name__ == "__main__":
    unittest.main()
