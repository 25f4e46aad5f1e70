"""The union with its right products, judged by 25 windows, and what tests of verdicts on it need."""

import tempfile
import unittest
from pathlib import Path

from unions import Union, Windows, make_union

SCRATCH = tempfile.TemporaryDirectory()
FOLDER = Path(SCRATCH.name)
right = make_union(FOLDER / "right")
judged = Windows(right, FOLDER / "right/out")
judged.judge()


class UnionCase(unittest.TestCase):
    """Each test has a folder of its own."""

    def setUp(self) -> None:
        self.folder = FOLDER / "-".join(self.id().split(".")[-2:])
        self.folder.mkdir()

    def changed(self, name: str) -> tuple[Union, Windows]:
        """A copy of the union, with the answers to its windows."""
        union = right.copy(self.folder / name)
        return union, judged.copy(union, self.folder / f"{name}/out")

    def judge(self, union: Union, windows: Windows, expected: str) -> None:
        """Judges the windows without an answer, and compares the verdict with a plain check, and with an audit that
        looks at rules alone."""
        windows.judge()
        self.assertEqual(windows.merge(), expected)
        whole = union.audit()
        if "NoEnd" not in whole and "SharedLabel" not in whole:
            self.assertEqual(whole, expected)
