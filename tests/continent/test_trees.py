"""Verdicts on a union by merges of merges, beside one merge of all reports. DRAIN in the environment names the program."""

import subprocess
import unittest
from pathlib import Path

from judged_union import UnionCase, right
from scripts import EXAMPLE, beside_slopes
from unions import COLS, Union, Windows, make_union, run

from answers import state
from groups import SEAM_CELL_BYTES, UNION, Merge, tree

CORNERS = {"in the first group": (11, 14), "between groups": (22, 26), "in the last one": (47, 46)}


def merged(windows: Windows, *words: object) -> tuple[str, str]:
    """The verdict of merge.sh, and what it says beside it."""
    done = subprocess.run(
        [EXAMPLE / "merge.sh", *words], env=windows.env(), capture_output=True, text=True, check=False
    )
    return done.stdout.rstrip("\n"), beside_slopes(done.stderr)


def by_tree(windows: Windows, reports: dict[str, Path], folder: Path, group: int) -> str:
    """The verdict by groups of `group` by `group` windows, and groups of groups; of these reports, by their windows."""
    folder.mkdir(exist_ok=True)
    *groups, union = tree(list(windows.windows.values()), group)
    assert union.name == UNION and groups
    found = dict(reports)
    for merge in groups:
        found[merge.name] = folder / f"{merge.name}.txt"
        line = run("merge", "--report", found[merge.name], *(found[name] for name in merge.members))
        assert line.split()[0] in ("accepted", "rejected"), line
    return run("merge", *windows.union.with_sinks(), *(found[name] for name in union.members))


class Trees(UnionCase):
    """25 windows, by groups of 2 by 2 in three levels, and of 3 by 3 in two."""

    def planned(self, union: Union, name: str, group: int = 2) -> Windows:
        return Windows(union, self.folder / name, 1, "--group", group)

    def judge_trees(self, windows: Windows, expected: str) -> None:
        """By both trees without scripts, and by one merge."""
        reports = {path.stem: path for path in windows.reports()}
        self.assertEqual(windows.merge(), expected)
        for group in (2, 3):
            self.assertEqual(by_tree(windows, reports, windows.out / f"by{group}", group), expected, group)

    def test_accepted(self) -> None:
        windows = self.planned(right, "out")
        self.assertTrue(all(line.startswith("accepted ") for line in windows.judge().values()))
        self.assertEqual(merged(windows), (right.audit(), ""))
        groups = sorted(path.stem for path in (windows.out / "merges/reports").iterdir())
        self.assertEqual(len(groups), 9 + 4)
        # Each group counts what its windows do.
        for name, of in [("g1r0c0", ["r0c0"]), ("g1r1c1", ["r1c1", "r1c2", "r2c1", "r2c2"])]:
            line = (windows.out / f"merges/lines/{name}.txt").read_text()
            for at in (3, 4, 5):
                counts = [int(words.split()[at].split("=")[1]) for words in [line, *(windows.line(one) for one in of)]]
                self.assertEqual(counts[0], sum(counts[1:]), name)
        # The plan knows how many cells of seams each merge reads.
        folders = {"r": windows.out / "reports", "g": windows.out / "merges/reports"}
        for merge in map(Merge.of, map(str.split, (windows.out / "merges.txt").read_text().splitlines())):
            texts = [(folders[name[0]] / f"{name}.txt").read_text() for name in merge.members]
            seams = sum(
                int(line.split()[1]) for text in texts for line in text.splitlines() if line.startswith("seams ")
            )
            self.assertEqual(SEAM_CELL_BYTES * seams, merge.bytes, merge.name)
        self.judge_trees(windows, right.audit())

    def test_one_number(self) -> None:
        """In a group, and on a border between groups: the window that shows it is rejected, or reports differ."""
        for place, cell in CORNERS.items():
            z = right.terrain().z
            cell = next((cell[0], col) for col in range(cell[1], COLS) if z[cell[0] * COLS + col] is not None)
            with self.subTest(place):
                union = right.copy(self.folder / place.replace(" ", "-"))
                union.put("acc", cell, 7_000)
                windows = self.planned(union, f"{union.folder.name}/out")
                windows.judge()
                expected = union.expected()
                self.assertTrue(expected.startswith("rejected "))
                self.assertEqual(merged(windows), (expected, ""))
                self.judge_trees(windows, expected)

    def test_a_label_shared_by_windows_far_apart(self) -> None:
        """Only the last merge sees it, also where both are in one group."""
        for other in ("r0c2", "r4c3"):
            with self.subTest(other):
                union = right.copy(self.folder / other)
                windows = self.planned(union, f"{other}/out")
                codes, labels = union.numbers("dir"), union.numbers("bas")
                outlets = [at for at, code in enumerate(codes) if code == 0]
                first, later = (
                    next(at for at in outlets if (at // COLS, at % COLS) in windows.cells(name, 1))
                    for name in ("r0c1", other)
                )
                union.write("bas", [labels[first] if label == labels[later] else label for label in labels])
                windows.judge()
                expected = union.expected()
                self.assertIn("rule=15 SharedLabel", expected)
                self.assertEqual(merged(windows), (expected, ""))
                self.judge_trees(windows, expected)

    def test_windows_of_two_versions(self) -> None:
        """The groups in which reports differ are named; the cell that the last merge names is that of one merge."""
        other = right.copy(self.folder / "other")
        other.write("bas", [label + 1_000 if label else 0 for label in right.numbers("bas")])
        for name, groups in (("r2c2", ["g1r1c1", "g2r1c1"]), ("r0c0", [])):
            with self.subTest(name):
                windows, mixed = self.planned(right, name), self.planned(other, f"{name}-other")
                windows.judge()
                self.assertTrue(mixed.job(name).startswith("accepted "))
                # The report gets the other's content, and its record says so.
                report, record = windows.out / f"reports/{name}.txt", windows.out / f"inputs/{name}.txt"
                report.write_text((mixed.out / f"reports/{name}.txt").read_text())
                record.write_text(
                    "".join(f"{line}\n" for line in [*record.read_text().splitlines()[:-1], state(report)])
                )
                expected = windows.merge()
                self.assertTrue(expected.startswith("refused SeamsDiffer "))
                verdict, said = merged(windows)
                self.assertEqual((verdict, [line.split(": ")[0] for line in said.splitlines()]), (expected, groups))

    def test_a_window_left_out(self) -> None:
        """What remains of its group goes to the last merge, which names the cell that one merge does."""
        windows = self.planned(right, "out")
        windows.judge()
        windows.forget(["r2c3"])
        self.assertEqual(merged(windows), (windows.merge(), "r2c3: no answer yet\n"))
        self.assertTrue(windows.merge().startswith("refused LeftOut "))
        windows.judge()
        self.assertEqual(merged(windows), (right.audit(), ""))

    def test_sinks(self) -> None:
        """The last merge compares the list with the sinks of all groups."""
        con, z = right.numbers("con"), right.terrain().z
        deep = sorted((height - con[at], at) for at, height in enumerate(z) if height is not None and con[at] > height)
        cells = [(at // COLS, at % COLS) for _, at in deep[:6]]
        union = make_union(self.folder / "sunk", "".join(f"{row} {col}\n" for row, col in cells))
        windows = self.planned(union, "sunk/out")
        windows.judge()
        whole = union.audit()
        self.assertNotEqual(whole, right.audit())
        self.assertEqual(merged(windows), (whole, ""))
        self.judge_trees(windows, whole)
        assert union.sinks
        union.sinks.write_text("".join(f"{row} {col}\n" for row, col in [*cells, (25, 25)]))
        self.judge_trees(windows, "refused SinkLeftOut 7")
        union.sinks.write_text("".join(f"{row} {col}\n" for row, col in cells[1:]))
        self.judge_trees(windows, "refused SinkNotListed row={} col={}".format(*cells[0]))


if __name__ == "__main__":
    unittest.main()
