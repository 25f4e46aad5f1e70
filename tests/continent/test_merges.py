"""The tree of merges: its plan, and the groups that each change merges again, with a stand-in for `drain`."""

import os
import re
import unittest
from collections.abc import Iterator
from pathlib import Path

from job_case import JobCase
from scripts import EXAMPLE, SLOPES, beside_slopes
from snakefile import rules_of

from answers import state
from groups import LEAST_GROUP, MERGE_BYTES, OUTLET_BYTES, SEAM_CELL_BYTES, Merge, Part, joined, tree
from places import Window
from windows import raster_plan, raster_spans

Cell = tuple[int, int]


def cells(part: Part | Window, margin: int) -> set[Cell]:
    """The cells of a box without so many rows and columns of inner sides."""
    place, inner = part.place, part.inner
    rows = range(place.row + margin * ("n" in inner), place.row + place.rows - margin * ("s" in inner))
    cols = range(place.col + margin * ("w" in inner), place.col + place.cols - margin * ("e" in inner))
    return {(row, col) for row in rows for col in cols}


def leaves(merge: Merge, merges: dict[str, Merge]) -> Iterator[str]:
    for name in merge.members:
        yield from leaves(merges[name], merges) if name in merges else [name]


class Spans(unittest.TestCase):
    """Windows along one side of a DEM."""

    def test_cells_are_judged_once_and_two_are_shared(self) -> None:
        for cells_, most in [(cells_, most) for cells_ in range(1, 60) for most in (4, 5, 9, 30)]:
            found = raster_spans(cells_, most)
            judged = [
                cell
                for first, count in found
                for cell in range(first + (first > 0), first + count - (first + count < cells_))
            ]
            self.assertEqual(judged, list(range(cells_)), (cells_, most))
            self.assertTrue(all(first + count - later == 2 for (first, count), (later, _) in zip(found, found[1:])))
            self.assertLessEqual(max(count for _, count in found), most)


class Trees(unittest.TestCase):
    """Plans of merges."""

    def test_groups_are_boxes(self) -> None:
        """Each window is merged once, and the cells that a group's windows judge are those that its box judges."""
        for rows, cols, group in [(9, 9, 2), (30, 44, 2), (30, 44, 3), (9, 90, 2), (62, 9, 4), (3, 3, 2)]:
            windows = {window.name: window for window in raster_plan("/dem.tif", rows, cols, 9)}
            merges = {merge.name: merge for merge in tree(list(windows.values()), group)}
            *groups, union = merges.values()
            self.assertEqual(union.name, "union")
            self.assertEqual(sorted(leaves(union, merges)), sorted(windows))
            self.assertLessEqual(max(len(merge.members) for merge in merges.values()), group**2)
            for merge in groups:
                parts = [windows[name] for name in leaves(merge, merges)]
                ends = [Part(part.name, part.place, part.inner) for part in (parts[0], parts[-1])]
                box = joined(merge.name, [ends])
                self.assertEqual(cells(box, 1), set().union(*(cells(part, 1) for part in parts)), merge)
                levels = {merges[name].level if name in merges else 0 for name in merge.members}
                self.assertEqual(levels, {merge.level - 1})

    def test_what_a_merge_holds(self) -> None:
        """Of each window the cells of its seams, and a guess of outlets."""
        windows = raster_plan("/dem.tif", 260, 500, 100)
        (merge,) = tree(windows)
        seams = sum(len(cells(window, 0)) - len(cells(window, 2)) for window in windows)
        outlets = sum(window.place.rows * window.place.cols // 10_000 for window in windows)
        self.assertEqual(merge.bytes, SEAM_CELL_BYTES * seams + OUTLET_BYTES * outlets)
        self.assertEqual(str(merge).split()[:4], ["union", "1", str(merge.bytes), "r0c0"])
        self.assertEqual(Merge.of(str(merge).split()), merge)

    def test_a_small_union_has_one_merge(self) -> None:
        for rows, cols in [(5, 5), (40, 90)]:
            self.assertEqual([merge.name for merge in tree(raster_plan("/d.tif", rows, cols, 9))], ["union"])

    def test_a_merge_of_the_earth(self) -> None:
        """No merge of windows holds more than it should, and few reports remain for the last."""
        windows = raster_plan("/d.tif", 39 * 10_800 + 2, 120 * 10_800 + 2, 10_802)
        *groups, union = tree(windows)
        self.assertLessEqual(max(merge.bytes for merge in groups if merge.level == 1), MERGE_BYTES)
        self.assertLessEqual(max(merge.bytes for merge in [*groups, union]), 4 * MERGE_BYTES)
        self.assertLess(len(union.members), 10)
        self.assertGreater(len(groups[0].members), LEAST_GROUP**2)


class Groups(JobCase):
    """9 windows in groups of 2 by 2: of 1, 2 and 4 windows."""

    PLAN = ("--group", "2")

    def joins(self) -> list[str]:
        """The groups that were merged since the last time, and the union, each with what it took."""
        found = []
        for words in self.calls():
            if words.startswith("merge "):
                name = re.search(r"--report \S*/work/(\w+)\.", words)
                taken = " ".join(Path(word).stem for word in words.split() if word.endswith(".txt"))
                found.append(f"{name[1] if name else 'union'}: {taken}")
        return sorted(found)

    ALL = [
        "g1r0c0: r0c0",
        "g1r0c1: r0c1 r0c2",
        "g1r1c0: r1c0 r2c0",
        "g1r1c1: r1c1 r1c2 r2c1 r2c2",
        "union: g1r0c0 g1r0c1 g1r1c0 g1r1c1",
    ]

    def test_engines(self) -> None:
        """All groups once; then the union alone; then the one group whose report changed, or one of whose windows did."""
        for engine in self.engines():
            with self.subTest(engine):
                (self.folder / "rasters/con.hdr").touch()
                self.assertEqual(self.run_engine(engine)[0], "accepted of all\n")
                self.assertEqual(self.joins(), self.ALL)
                self.assertEqual(self.run_engine(engine)[0], "accepted of all\n")
                self.assertEqual(self.joins(), [] if engine == "snakemake" else self.ALL[-1:])
                for changed in ("reports/r1c2.txt", "merges/reports/g1r1c1.txt", "merges/lines/g1r1c1.txt"):
                    (self.out / changed).write_text("other\n")
                    self.assertEqual(self.run_engine(engine)[0], "accepted of all\n")
                    self.assertEqual(self.joins(), self.ALL[-2:], changed)

    def test_tasks_of_an_array(self) -> None:
        """Level 0 is that of windows; the verdict is left to merge.sh."""
        tasks = {"SLURM_ARRAY_TASK_COUNT": "2", "SLURM_ARRAY_TASK_MAX": "2"}
        for level, counts in (("0", [4, 5]), ("1", [2, 2]), ("2", [0, 0])):
            for task, count in zip("12", sorted(counts, reverse=True) if level == "0" else counts):
                run = self.run_script("slurm.sh", level, **tasks, SLURM_ARRAY_TASK_ID=task)
                self.assertEqual((run.returncode, run.stderr), (0, ""))
                self.assertEqual(len(self.calls()), count)
        self.assertEqual(self.run_script("merge.sh").stdout, "accepted of all\n")
        self.assertEqual(self.joins(), self.ALL[-1:])

    def test_a_window_without_an_answer(self) -> None:
        """Its group isn't merged: the others of it go to the last merge as they are."""
        for window in range(8):
            self.job(window)
        self.calls()
        run = self.run_script("merge.sh")
        self.assertEqual((run.returncode, run.stdout), (0, "accepted of all\n"))
        self.assertEqual(beside_slopes(run.stderr), "r2c2: no answer yet\n")
        self.assertEqual(self.joins(), [*self.ALL[:3], "union: g1r0c0 g1r0c1 g1r1c0 r1c1 r1c2 r2c1"])
        self.job(8)
        self.calls()
        self.run_script("merge.sh")
        self.assertEqual(self.joins(), self.ALL[3:])
        # A window that loses its answer takes the group's with it.
        (self.out / "inputs/r0c1.txt").unlink()
        self.run_script("merge.sh")
        self.assertEqual(self.joins(), ["union: g1r0c0 r0c2 g1r1c0 g1r1c1"])

    def test_a_group_that_is_refused(self) -> None:
        """The last merge gets all its reports, and says why. It isn't tried again before one of them changes."""
        for engine in self.engines():
            with self.subTest(engine):
                (self.folder / "rasters/con.hdr").touch()
                self.joined("2 refused SeamsDiffer row=3 col=4")
                self.merged("2 refused SeamsDiffer row=7 col=8")
                verdict, said = self.run_engine(engine)
                self.assertEqual(verdict, "refused SeamsDiffer row=7 col=8\n", said)
                self.assertIn("g1r1c1: refused SeamsDiffer row=3 col=4 (status 2)\n", said)
                last = "union: r0c0 r0c1 r0c2 r1c0 r2c0 r1c1 r1c2 r2c1 r2c2"
                self.assertEqual(self.joins(), [*self.ALL[:-1], last])
                self.assertEqual(self.run_engine(engine)[0], "refused SeamsDiffer row=7 col=8\n")
                self.assertEqual(self.joins(), [last])
                self.joined("0 accepted of a group")
                self.merged("0 accepted of all")
                (self.out / "reports/r0c0.txt").write_text("other\n")
                self.run_engine(engine)
                self.assertEqual(self.joins(), [self.ALL[0], last.replace("r0c0", "g1r0c0")])

    def test_a_group_that_fails(self) -> None:
        """Nothing of it is kept, and there is no verdict; the next run tries again."""
        for window in range(9):
            self.job(window)
        for answer in ("3 failed OutOfMemory", "3", "2", "137", "101 panicked", "0", "1 rejected without a report"):
            self.calls()
            self.joined(answer)
            run = self.run_script("merge.sh")
            self.assertEqual((run.returncode, run.stdout), (3, ""), answer)
            self.assertIn("g1r0c0: ", run.stderr)
            self.assertEqual([self.joins(), list((self.out / "work").iterdir())], [self.ALL[:1], []])
        self.joined("0 accepted of a group")
        self.assertEqual(self.run_script("merge.sh").stdout, "accepted of all\n")
        self.assertEqual(self.joins(), self.ALL)

    def test_a_report_that_changes_meanwhile(self) -> None:
        report = self.out / "reports/r0c2.txt"
        slow = self.folder / "slow"
        slow.write_text(f'#!/bin/sh\ncase "$*" in merge*r0c2*) echo >>"{report}" ;; esac\nexec "{self.program}" "$@"\n')
        slow.chmod(0o755)
        for window in range(9):
            self.job(window, DRAIN=str(slow))
        run = self.run_script("merge.sh", DRAIN=str(slow))
        self.assertEqual((run.returncode, run.stdout), (3, ""))
        self.assertIn(f"g1r0c1: {report} changed while", run.stderr)
        self.assertFalse((self.out / "merges/inputs/g1r0c1.txt").exists())

    def test_a_report_of_a_group_that_cannot_be_read(self) -> None:
        """It is named, and made again."""
        for window in range(9):
            self.job(window)
        self.merged("2 refused BadReport 1 WrongVersion")
        run = self.run_script("merge.sh")
        self.assertEqual((run.returncode, run.stdout), (2, "refused BadReport 1 WrongVersion\n"))
        self.assertIn(f"{self.out}/merges/reports/g1r0c1.txt is no report", run.stderr)
        self.joins()
        self.run_script("merge.sh")
        self.assertEqual(self.joins(), [self.ALL[1], self.ALL[-1]])

    def test_groups_by_name(self) -> None:
        for window in range(9):
            self.job(window)
        self.calls()
        run = self.run_script("merge.sh", "g1r0c1", "g1r1c1")
        self.assertEqual((run.returncode, run.stdout, run.stderr), (0, "", ""))
        self.assertEqual(self.joins(), [self.ALL[1], self.ALL[3]])

    def test_inputs_of_the_snakefile(self) -> None:
        rules = rules_of(EXAMPLE / "Snakefile", EXAMPLE, self.env)
        given = rules["merge"].of("g1r0c1")
        self.assertLessEqual({f"{self.out}/inputs/r0c1.txt", f"{self.out}/inputs/r0c2.txt"}, set(given.input))
        self.assertEqual(given.output, [f"{self.out}/merges/inputs/g1r0c1.txt"])
        groups = {f"{self.out}/merges/inputs/g1r{i}c{j}.txt" for i in range(2) for j in range(2)}
        self.assertLessEqual(groups, set(rules["verdict"].of("").input))

    def test_another_plan_of_groups(self) -> None:
        """Windows keep their answers."""
        self.run_engine("loop")
        self.calls()
        plan = self.out / "merges.txt"
        plan.write_text(re.sub(r"^(g1r0c0 1) \d+", r"\1 5", plan.read_text()))
        self.run_engine("loop")
        self.assertEqual(self.joins(), [self.ALL[0], self.ALL[-1]])


class ManyReports(JobCase):
    """As many windows as the Earth has, in one merge."""

    def test_one_merge(self) -> None:
        names = [f"r{i:03d}c{j:03d}" for i in range(39) for j in range(120)]
        words = self.lines[4].split()
        (self.out / "windows.txt").write_text("".join(f"{' '.join([name, *words[1:]])}\n" for name in names))
        (self.out / "merges.txt").write_text(f"union 1 0 {' '.join(names)}\n")
        self.run_script("job.sh", *[names[0], *words[1:]])
        self.calls()
        record = (self.out / f"inputs/{names[0]}.txt").read_text().splitlines()[:-2]
        for name in names[1:]:
            for folder in ("lines", "reports"):
                os.link(self.out / f"{folder}/{names[0]}.txt", self.out / f"{folder}/{name}.txt")
        # A link changes the ctime of its file.
        for name in names:
            of = [state(self.out / f"{folder}/{name}.txt") for folder in ("lines", "reports")]
            text = "".join(f"{line}\n" for line in [record[0].replace(names[0], name), *record[1:], *of])
            (self.out / f"inputs/{name}.txt").write_text(text)
        run = self.run_script("merge.sh")
        self.assertEqual((run.returncode, run.stdout, run.stderr), (0, "accepted of all\n", SLOPES))
        (call,) = self.calls()
        self.assertEqual(call.split(), ["merge", *(f"{self.out}/reports/{name}.txt" for name in names)])


if __name__ == "__main__":
    unittest.main()
