"""A union with listed sinks, by its windows. DRAIN in the environment names the program."""

import unittest

from judged_union import UnionCase, right
from unions import COLS, ROWS, STEPS, Windows, corner, make_union, run


class Sinks(UnionCase):
    """A union with listed sinks: the lowest cells of depressions, some in overlaps, and a cell of the union's edge."""

    EDGE = (0, 26)

    def setUp(self) -> None:
        super().setUp()
        z = right.terrain().z
        self.assertIsNotNone(z[self.EDGE[0] * COLS + self.EDGE[1]])
        con = right.numbers("con")
        # The deepest cells, and the deepest ones of the overlap of two windows.
        deep = sorted(
            (z[at] - con[at], at // COLS, at % COLS)
            for at in range(ROWS * COLS)
            if z[at] is not None and con[at] > z[at]
        )
        seams = [cell for cell in deep if cell[1] % STEPS in (1, 2) or cell[2] % STEPS in (1, 2)]
        cells = {(row, col) for _, row, col in [*deep[:4], *seams[:4]]}
        self.cells = [self.EDGE, *sorted(cells)]
        self.union = make_union(self.folder / "sunk", "\n".join(f"{row} {col}" for row, col in self.cells))
        self.windows = Windows(self.union, self.folder / "sunk/out")
        self.windows.judge()

    def test_accepted(self) -> None:
        whole = self.union.audit()
        self.assertTrue(whole.startswith("accepted "))
        self.assertNotEqual(whole, right.audit())
        self.assertEqual(self.windows.merge(), whole)
        # Without the list the sinks are those that the windows took.
        self.assertEqual(run("merge", *self.windows.reports()), whole)

    def test_a_line_lost_in_cutting(self) -> None:
        """A window isn't told of a sink that is open anyway: it is accepted, and the list shows it."""
        less = self.folder / "less.txt"
        less.write_text("\n" + "\n".join(f"{row} {col}" for row, col in self.cells[1:]))
        (name,) = self.windows.with_cell(self.EDGE)
        self.windows.forget([name])
        self.assertTrue(self.windows.job(name, SINKS=less).startswith("accepted "))
        self.assertEqual(self.windows.merge(), "refused SinkLeftOut 1")
        self.assertEqual(run("merge", "--sinks", less, *self.windows.reports()), self.union.audit())

    def test_a_line_of_a_ring_lost_in_cutting(self) -> None:
        """Only the window that judges the cell is told of the sink. The other one shows it, and is accepted."""
        name, cell = next(
            (name, cell)
            for name in self.windows.windows
            for cell in self.cells
            if cell in self.windows.cells(name) - self.windows.cells(name, 1)
        )
        less = self.folder / "less.txt"
        less.write_text("".join(f"{row} {col}\n" for row, col in self.cells if (row, col) != cell))
        self.windows.forget([name])
        self.assertTrue(self.windows.job(name, SINKS=less).startswith("accepted "))
        self.assertEqual(self.windows.merge(), f"refused SeamsDiffer row={cell[0]} col={cell[1]}")

    def test_each_sink_is_in_one_report(self) -> None:
        """That of the window that judges it, counted from 90 degrees north and 180 degrees west."""
        top, left = (90 - corner(0, 0).lat - 1) * STEPS, (180 + corner(0, 0).lon) * STEPS
        for report in self.windows.reports():
            found = [line.split()[1:] for line in report.read_text().splitlines() if line.startswith("sink ")]
            judged_cells = self.windows.cells(report.stem, 1)
            expected = [[str(top + row), str(left + col)] for row, col in self.cells if (row, col) in judged_cells]
            self.assertEqual(sorted(found), sorted(expected), report.stem)

    def test_lists_of_a_merge(self) -> None:
        lines = [f"{row} {col}" for row, col in self.cells]
        first, second = (f"row={row} col={col}" for row, col in self.cells[:2])
        # The first sink in the order of the reports.
        names = (
            name
            for name in self.windows.windows
            for row, col in sorted(self.cells)
            if (row, col) in self.windows.cells(name, 1)
        )
        inside = self.windows.cells(next(names), 1)
        taken = next(f"row={row} col={col}" for row, col in sorted(self.cells) if (row, col) in inside)
        listed = self.folder / "listed.txt"
        for name, text, expected in [
            ("the list", "\n".join(lines), self.union.audit()),
            (
                "in another order, twice, with empty lines",
                "\n\n".join([*reversed(lines), lines[0]]),
                self.union.audit(),
            ),
            ("without its first line", "\n".join(lines[1:]), f"refused SinkNotListed {first}"),
            ("without its second line", "\n".join([lines[0], *lines[2:]]), f"refused SinkNotListed {second}"),
            ("an empty list", "", f"refused SinkNotListed {taken}"),
            ("a cell outside", "\n".join([*lines, f"{ROWS} 0"]), f"refused SinkLeftOut {len(lines) + 1}"),
            ("a cell that no window took", "\n".join([lines[0], "25 25", *lines[1:]]), "refused SinkLeftOut 2"),
            ("a line with three words", "\n".join([*lines, "1 1 1"]), f"refused BadSinkLine {len(lines) + 1}"),
        ]:
            with self.subTest(name):
                self.assertNotIn((25, 25), self.cells)
                listed.write_text(text)
                self.assertEqual(run("merge", "--sinks", listed, *self.windows.reports()), expected)

    def test_the_union_without_its_list(self) -> None:
        """The windows are judged without any list: what an audit of the whole says without it."""
        self.union.sinks = None
        self.windows.forget(self.windows.windows)
        self.windows.judge()
        self.assertTrue(self.union.audit().startswith("rejected "))
        self.assertEqual(self.windows.merge(), self.union.expected())

    def test_a_bad_line(self) -> None:
        """Each window refuses it by its number in the union's list."""
        assert self.union.sinks
        self.union.sinks.write_text("\n\n1 x\n")
        self.windows.forget(["r1c1"])
        self.assertEqual(self.windows.job("r1c1"), "refused BadSinkLine 3")
        self.assertFalse((self.windows.out / "reports/r1c1.txt").exists())


if __name__ == "__main__":
    unittest.main()
