"""Merges of merges: windows side by side, of which groups, and groups of groups, are merged into reports of boxes before a last
merge. The line of a group is worked from those of its windows.
"""

import re
from itertools import groupby

ACCEPTED = re.compile(r"accepted rows=(\d+) cols=(\d+) data=(\d+) raised=(\d+) outlets=(\d+)\n")
REJECTED = re.compile(r"rejected rule=(\d+) (\w+) row=(\d+) col=(\d+)\n")


class Leaf:
    """A window: its rows and columns in the union, those of them that it judges, the path of its report, and its line."""

    def __init__(self, rows, cols, inner, report, line):
        self.rows, self.cols, self.report = rows, cols, report
        self.judged_rows = rows[0] + ("n" in inner), rows[1] - ("s" in inner)
        self.judged_cols = cols[0] + ("w" in inner), cols[1] - ("e" in inner)
        accepted, rejected = ACCEPTED.fullmatch(line), REJECTED.fullmatch(line)
        self.counts = [int(number) for number in accepted.groups()[2:]] if accepted else None
        self.fault = None
        if rejected:
            rule, name, row, col = rejected.groups()
            self.fault = (rows[0] + int(row), cols[0] + int(col), int(rule), name)


def group_line(leaves):
    """The status and the line of the box that these windows fill: their first fault, else the sums of their counts."""
    top, left = min(leaf.rows[0] for leaf in leaves), min(leaf.cols[0] for leaf in leaves)
    faults = sorted(leaf.fault for leaf in leaves if leaf.fault)
    if faults:
        row, col, rule, name = faults[0]
        return 1, f"rejected rule={rule} {name} row={row - top} col={col - left}\n"
    rows, cols = max(leaf.rows[1] for leaf in leaves) - top, max(leaf.cols[1] for leaf in leaves) - left
    data, raised, outlets = (sum(numbers) for numbers in zip(*(leaf.counts for leaf in leaves)))
    return 0, f"accepted rows={rows} cols={cols} data={data} raised={raised} outlets={outlets}\n"


class Tree:
    """A random tree of merges over a table of windows."""

    def __init__(self, dice, folder, merge):
        self.dice, self.folder, self.merge, self.groups = dice, folder, merge, 0
        self.wrong = None

    def last_reports(self, leaves):
        """The reports of the last merge of these windows, which are listed row by row."""
        table = [list(line) for _, line in groupby(leaves, lambda leaf: leaf.judged_rows)]
        return self.reports(table) if len(leaves) > 1 else [self.report(table)]

    def parts(self, table):
        """The table in two boxes: cut between its lines, or between columns that all lines have."""
        cuts = set.intersection(*({leaf.judged_cols[0] for leaf in line[1:]} for line in table))
        if len(table) > 1 and (not cuts or self.dice.random() < 0.5):
            cut = self.dice.randrange(1, len(table))
            return [table[:cut], table[cut:]]
        cut = self.dice.choice(sorted(cuts))
        return [[[leaf for leaf in line if (leaf.judged_cols[0] < cut) == before] for line in table] for before in (True, False)]

    def report(self, table):
        """The path of the report on all windows of the table, which is merged of reports on its parts."""
        leaves = [leaf for line in table for leaf in line]
        if len(leaves) == 1 and self.dice.random() < 0.8:
            return leaves[0].report
        flat = len(leaves) == 1 or self.dice.random() < 0.3
        reports = [leaf.report for leaf in leaves] if flat else self.reports(table)
        self.groups += 1
        path = self.folder / f"group-{self.groups}.txt"
        answer, right = self.merge("--report", path, *reports), group_line(leaves)
        if answer != right:
            self.wrong = self.wrong or f"a group of {len(leaves)}: {answer}, not {right}"
        return path

    def reports(self, table):
        """The reports of the two parts of the table, in any order."""
        reports = [self.report(part) for part in self.parts(table)]
        self.dice.shuffle(reports)
        return reports
