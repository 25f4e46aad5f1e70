#!/usr/bin/env python3
"""Tests of tools/gate_edits.py: which wrong bodies the gate tries, run after run. No prover is run.

Usage: tests/edits_are_chosen.py
"""

import pathlib
import shutil
import subprocess
import sys
import tempfile
import unittest
from collections.abc import Iterable
from typing import NamedTuple

sys.dont_write_bytecode = True
sys.path.insert(0, str(pathlib.Path(__file__).resolve().parent.parent / "tools"))
import gate_edits  # noqa: E402


class Named(NamedTuple):
    """A wrong body of a made-up crate."""

    name: str
    file: str
    text: str


USES = {"a": [], "b": ["memchr"], "c": ["a"], "d": ["c"], "e": []}
FILES = ["src/x", "specs/X", "proofs/x"]
EDITS_OF = {
    crate: [Named(f"{crate}/{name}", f"src/{name[0]}.rt", name) for name in ("x1", "x2", "y1")] for crate in "abcde"
}
ALL = {edit.name for edits in EDITS_OF.values() for edit in edits}


class Choices(unittest.TestCase):
    """Which wrong bodies of five crates the gate tries, in a repository of two commits."""

    def setUp(self) -> None:
        scratch = tempfile.TemporaryDirectory()
        self.addCleanup(scratch.cleanup)
        self.top, self.cache = pathlib.Path(scratch.name) / "top", pathlib.Path(scratch.name) / "cache"
        for crate in USES:
            for file in FILES:
                self.change(f"crates/{crate}/{file}", "before")
        self.git("init", "-q")
        self.commit("one")
        self.commit("two")

    def change(self, file: str, text: str) -> None:
        path = self.top / file
        path.parent.mkdir(parents=True, exist_ok=True)
        path.write_text(text)

    def git(self, *words: str) -> None:
        settings = ["-c", "user.name=a", "-c", "user.email=a@b"]
        subprocess.run(["git", "-C", self.top, *settings, *words], check=True, capture_output=True)

    def commit(self, text: str) -> None:
        """A commit that changes no crate beyond what was changed before."""
        self.change("README.md", text)
        self.git("add", "-A")
        self.git("commit", "-q", "-m", text)

    def choice(self, toolchain: str = "kit 1", uses: dict[str, list[str]] = USES) -> gate_edits.Choice:
        return gate_edits.Choice(gate_edits.Sources(self.top, uses, toolchain), gate_edits.Kept(self.cache), EDITS_OF)

    def names(self, choice: gate_edits.Choice) -> set[str]:
        return {edit.name for edits in choice.chosen.values() for edit in edits}

    def run_gate(self, proved: Iterable[str] = (), **how: str) -> set[str]:
        """A run of the gate in which all but these are refused: what it tried."""
        choice = self.choice(**how)
        names = self.names(choice)
        choice.keep({name: name not in proved for name in names})
        return names

    def run_six(self) -> None:
        for _ in range(6):
            self.run_gate()

    def test_three_runs_try_all(self) -> None:
        runs = [self.run_gate() for _ in range(3)]
        self.assertEqual(set.union(*runs), ALL)
        self.assertEqual(sum(map(len, runs)), len(ALL))

    def test_three_commits_with_nothing_kept_try_all(self) -> None:
        runs = []
        for text in "three", "four", "five":
            self.commit(text)
            runs.append(self.run_gate())
            shutil.rmtree(self.cache)
        self.assertEqual(set.union(*runs), ALL)
        self.assertEqual(sum(map(len, runs)), len(ALL))

    def test_what_was_refused_is_left_out(self) -> None:
        runs = [self.run_gate() for _ in range(6)]
        self.assertEqual(set.union(*runs), ALL)
        self.assertEqual(sum(map(len, runs)), len(ALL))
        self.assertEqual([self.run_gate() for _ in range(3)], [set()] * 3)

    def test_another_key_is_a_new_try(self) -> None:
        before = self.choice().keys
        for crate, above in ("a", "acd"), ("b", "b"), ("c", "cd"), ("d", "d"):
            for file in FILES:
                with self.subTest(f"{crate}/{file}"):
                    self.change(f"crates/{crate}/{file}", "after")
                    after = self.choice().keys
                    others = {name for name in ALL if after[name] != before[name]}
                    self.assertEqual(others, {name for name in ALL if name[0] in above})
                    self.change(f"crates/{crate}/{file}", "before")
        self.assertEqual(self.choice().keys, before)
        scripts = gate_edits.Sources(self.top, USES, "kit 1")
        scripts.scripts[1] += b" "
        same = gate_edits.Sources(self.top, USES, "kit 1")
        for what, other in (
            ("the toolchain", self.choice("kit 2").keys["b/x1"]),
            ("a library of the toolchain", self.choice(uses={**USES, "b": ["memchr", "regex"]}).keys["b/x1"]),
            ("the script", scripts.key("b", EDITS_OF["b"][0])),
            ("the wrong body", same.key("b", Named("b/x1", "src/x.rt", "other"))),
        ):
            with self.subTest(what):
                self.assertNotEqual(other, before["b/x1"])

    def test_all_of_a_crate_whose_contracts_changed(self) -> None:
        for file, crates in ("a/src/x", "a"), ("a/specs/X", "acd"), ("a/proofs/x", ""), ("b/src/new", "b"):
            with self.subTest(file):
                changed = {name for name in ALL if name[0] in crates}
                self.change(f"crates/{file}", f"after {file}")
                self.assertLessEqual(changed, self.names(self.choice()))
                self.commit(file)
                chosen = self.names(self.choice())
                self.assertLessEqual(changed, chosen)
                self.assertLessEqual(len({name[0] for name in chosen - changed}), 2)

    def test_a_branch_of_several_commits(self) -> None:
        self.git("update-ref", "refs/remotes/origin/main", "HEAD")
        self.change("crates/e/src/x", "after")
        self.commit("three")
        self.commit("four")
        self.assertLessEqual({"e/x1", "e/x2", "e/y1"}, self.names(self.choice()))

    def test_contracts_that_changed_since_the_refusal(self) -> None:
        self.run_six()
        self.change("crates/c/specs/X", "after")
        for text in "three", "four":
            self.commit(text)
        changed = {name for name in ALL if name[0] in "cd"}
        self.assertEqual(self.run_gate(), changed)
        self.assertEqual(self.run_gate(), set())

    def test_one_that_was_proved_is_tried_until_it_is_refused(self) -> None:
        self.run_six()
        self.change("crates/e/proofs/x", "after")
        self.commit("three")
        for _ in range(4):
            self.run_gate(proved=["e/x1"])
        self.assertEqual([self.run_gate(proved=["e/x1"]) for _ in range(3)], [{"e/x1"}] * 3)
        self.assertEqual(self.run_gate(), {"e/x1"})
        self.assertEqual(self.run_gate(), set())

    def test_sources_that_change_meanwhile_are_not_kept(self) -> None:
        choice = self.choice()
        self.change("crates/a/src/x", "after")
        choice.keep({name: True for name in self.names(choice)})
        self.assertFalse((self.cache / "a").exists() or (self.cache / "c").exists() or (self.cache / "d").exists())

    def test_without_git_and_without_a_folder(self) -> None:
        shutil.rmtree(self.top / ".git")
        self.cache.write_text("no folder")
        self.assertEqual([self.run_gate() for _ in range(2)], [ALL] * 2)


if __name__ == "__main__":
    unittest.main()
