#!/usr/bin/env python3
"""Tests of tools/try_named_edits.py: which edits it reads, what they change, which of the prover's outputs are a
refusal, and how it ends. No prover is run.

Usage: tests/named_edits.py
"""

import importlib.util
import os
import pathlib
import shutil
import subprocess
import sys
import tempfile
import types
import unittest
from collections.abc import Sequence

ROOT = pathlib.Path(__file__).resolve().parent.parent
sys.dont_write_bytecode = True


def tool() -> types.ModuleType:
    spec = importlib.util.spec_from_file_location("try_named_edits", ROOT / "tools/try_named_edits.py")
    assert spec and spec.loader
    module = importlib.util.module_from_spec(spec)
    spec.loader.exec_module(module)
    return module


try_named_edits = tool()

SOURCE = "fn one() {\n    a();\n    b();\n}\nfn two() {\n    b();\n}\n"

# An edit, and what is reported of it: nothing if it can be put into SOURCE.
EDITS = [
    ("one text", "file: src/lib.rt\nold:     a();\nnew:     c();\n", ""),
    ("no new text", "file: src/lib.rt\nold:     a();\nnew:\n", ""),
    ("its function", "file: src/lib.rt\nold: a()\nnew: c()\nonly: one\n", ""),
    ("two texts", "file: src/lib.rt\nold: a()\nnew: c()\nold: c()\nnew: d()\n", ""),
    ("a text of two lines", "file: src/lib.rt\nold:     a();\n    b();\nnew: c();\n", "line 3 is none of"),
    ("a comment", "-- why\nfile: src/lib.rt\nold: a()\nnew: c()\n", "line 1 is none of"),
    ("an empty line", "file: src/lib.rt\n\nold: a()\nnew: c()\n", "line 2 is none of"),
    ("no file", "old: a()\nnew: c()\n", "line 2: a new text without a file or an old text"),
    ("no old text", "file: src/lib.rt\nnew: c()\n", "line 2: a new text without a file or an old text"),
    ("nothing new", "file: src/lib.rt\nold: a()\n", "no new text"),
    ("a text that is there twice", "file: src/lib.rt\nold: b()\nnew: c()\n", "isn't found exactly once"),
    ("a text that isn't there", "file: src/lib.rt\nold: c()\nnew: d()\n", "isn't found exactly once"),
    (
        "one that an earlier text took",
        "file: src/lib.rt\nold: a()\nnew: c()\nold: a()\nnew: d()\n",
        "isn't found exactly",
    ),
]

DONE = "only=2 proved=1\n"
NOT_PROVED = "fn made::rows::Rows::next: not proved\n"
ANSWERS = "./proofs/rows/Rows/next/Answers.antt:3:9: error: "
INVARIANTS = "./proofs/rows/Rows/next/Invariants.antt:3:9: error: "
NO_NAME = "`loop-init`: record `Given` has no field `col`\n  the fields that can be named here are `row`\n"
GONE = "`loop-init`: `goal.loop-init`: module `Goals` has no `loop-init` that can be named from here\n"
NO_SCOPE = "`loop-init`: `col` is not in scope\n"
BY_ANOTHER = "`returns`: `helper` computes no further\n  `helper` stands by its signature alone, since it was refused\n"
WRONG = "`returns-clause-row`: `omega`: the goal does not follow\n"
FOUND = "note: src/rows.rt:4:5: it is not proved that what the function ensures holds (`returns-clause-row`)\n"
NO_PROOF = "fn made::rows::Rows::next: no proof: expected answers in ./x; `search` did not prove `returns`\n"
ELSEWHERE = "./proofs/rows/Rows/other/Answers.antt:3:9: error: " + WRONG

# What the prover prints, and the verdict on an edit of Rows::next in src/rows.rt.
OUTPUTS = [
    ("proved", "fn made::rows::Rows::next: proved\n" + DONE, "NOT REFUSED"),
    ("no code", "src/rows.rt:4:24: error[unknown-name]: no value named `x`\n", "NOT REFUSED: it does not compile"),
    ("not finished", NOT_PROVED + ANSWERS + WRONG, "NOT REFUSED: the check did not finish"),
    ("a goal of its own", ANSWERS + WRONG + NOT_PROVED + DONE, "refused by returns-clause-row"),
    ("a goal without an answer", FOUND + NOT_PROVED + DONE, "refused by returns-clause-row"),
    ("no answers at all", NO_PROOF + DONE, "refused by returns"),
    ("two goals", ANSWERS + WRONG + ANSWERS + WRONG + NO_PROOF + DONE, "refused by returns-clause-row, returns"),
    ("that of a callee alone", ELSEWHERE + NOT_PROVED + DONE, "NOT REFUSED"),
    ("another function", ANSWERS + WRONG + "fn made::rows::Rows::other: not proved\n" + DONE, "NOT REFUSED"),
    ("a missing field", ANSWERS + NO_NAME + NOT_PROVED + DONE, "NOT REFUSED: only a name in its proof"),
    ("a missing goal", ANSWERS + GONE + NOT_PROVED + DONE, "NOT REFUSED: only a name in its proof"),
    ("a name out of scope", ANSWERS + NO_SCOPE + NOT_PROVED + DONE, "NOT REFUSED: only a name in its proof"),
    (
        "what rests on it",
        ANSWERS + NO_NAME + ANSWERS + BY_ANOTHER + NOT_PROVED + DONE,
        "NOT REFUSED: only a name in its proof",
    ),
    ("a name and a goal", ANSWERS + NO_NAME + ANSWERS + WRONG + NOT_PROVED + DONE, "refused by returns-clause-row"),
    ("an invariant's name", INVARIANTS + NO_NAME + FOUND + NOT_PROVED + DONE, "NOT REFUSED: a name in its invariants"),
    ("an invariant's goal", INVARIANTS + WRONG + NOT_PROVED + DONE, "refused by returns-clause-row"),
]

LEMMA = "./proofs/Lemmas.antt:3:9: error: "
OF_TYPE = "`gap`: expected type `IsGap None`, but this has type `Unit {0}`\n"
LAW = "fn made::laws::law: not proved\n"
UNCHECKED = "./proofs/laws/law/Answers.antt:5:5: error: 1 declaration that depends on `gap` was not checked: returns\n"

# The same of an edit of specs/ on the law.
OUTPUTS_OF_DEFINITIONS = [
    ("a lemma", LEMMA + OF_TYPE + UNCHECKED + LAW + DONE, "refused by gap"),
    ("a lemma's name alone", LEMMA + NO_NAME + UNCHECKED + LAW + DONE, "NOT REFUSED: only a name in its proof"),
    ("proved", "fn made::laws::law: proved\n" + DONE, "NOT REFUSED"),
    ("a definition that is none", "./specs/Open.antt:9:9: error: " + OF_TYPE + LAW + DONE, "NOT REFUSED"),
]

# Texts of a file, and the function that each is in.
PLACES = """//! A file.
pub const ONE: u32 = 1;
fn free(a: u32) -> u32
    ensures { in_free }
{
    body_of_free
}
struct Rows<'a> { field: &'a u8 }
impl<'a> Rows<'a> {
    pub(crate) fn next(&self) {
        body_of_next
    }
}
impl<'a, T: Drop> Source<T> for Rows<'a> {
    fn take(&mut self) {
        body_of_take
    }
}
impl Pixel for u8 {
    fn number(self) -> i64 { body_of_number }
}
"""
FUNCTIONS = [
    ("= 1;", None),
    ("in_free", "rows::free"),
    ("body_of_free", "rows::free"),
    ("field", None),
    ("body_of_next", "Rows::next"),
    ("body_of_take", "RowsSource::take"),
    ("body_of_number", "U8Pixel::number"),
]


class Edits(unittest.TestCase):
    """Edits of a made-up crate."""

    def setUp(self) -> None:
        scratch = tempfile.TemporaryDirectory()
        self.addCleanup(scratch.cleanup)
        self.crate = pathlib.Path(scratch.name) / "made"
        (self.crate / "src").mkdir(parents=True)
        (self.crate / "more-edits").mkdir()
        (self.crate / "src/lib.rt").write_text(SOURCE, encoding="utf-8")
        (self.crate / "src/rows.rt").write_text(SOURCE, encoding="utf-8")

    def edit(self, text: str, name: str = "bug") -> pathlib.Path:
        file = self.crate / "more-edits" / f"{name}.edit"
        file.write_text(text, encoding="utf-8")
        return file

    def test_edits(self) -> None:
        for name, text, expected in EDITS:
            with self.subTest(name):
                self.edit(text)
                if not expected:
                    try_named_edits.edits_of(self.crate)
                    continue
                with self.assertRaises(try_named_edits.BadEdit) as bad:
                    try_named_edits.edits_of(self.crate)
                self.assertTrue(str(bad.exception).startswith("made/bug: "))
                self.assertIn(expected, str(bad.exception))

    def test_later_texts_change_what_earlier_ones_made(self) -> None:
        edit = try_named_edits.Edit(self.edit("file: src/lib.rt\nold: a()\nnew: c()\nold:     c();\nnew:     d();\n"))
        self.assertEqual(edit.applied(self.crate, {}), {"src/lib.rt": SOURCE.replace("a()", "d()")})

    def test_only_those_that_name_a_function_are_tried_one_to_a_file(self) -> None:
        self.edit("file: src/lib.rt\nold: a()\nnew: c()\nonly: one\n", "first")
        self.edit("file: src/lib.rt\nold: two\nnew: three\nonly: two\n", "second")
        self.edit("file: src/rows.rt\nold: a()\nnew: c()\nonly: one\n", "third")
        self.edit("file: src/rows.rt\nold: a()\nnew: d()\n", "unnamed")
        rounds = try_named_edits.rounds_of(self.crate, try_named_edits.edits_of(self.crate))
        names = [[edit.name for edit in found.edits] for found in rounds]
        self.assertEqual(names, [["made/first", "made/third"], ["made/second"]])

    def test_with_a_list_the_others_are_tried_on_the_function_that_they_change(self) -> None:
        self.edit("file: src/lib.rt\nold: a()\nnew: c()\n", "first")
        self.edit("file: src/rows.rt\nold: fn two\nnew: fn three\nonly: rows::two\n", "named")
        (self.crate / "src/rows.rt").write_text(SOURCE + "const ONE: u32 = 1;\n", encoding="utf-8")
        self.edit("file: src/rows.rt\nold: = 1\nnew: = 2\n", "outside")
        left: list[str] = []
        tried = [(edit.name, edit.only) for edit in try_named_edits.edits_of(self.crate, left)]
        self.assertEqual(tried, [("made/first", "one"), ("made/named", "rows::two")])
        self.assertEqual(left, ["made/outside"])

    def test_the_function_of_a_text(self) -> None:
        for text, expected in FUNCTIONS:
            with self.subTest(text):
                found = try_named_edits.function_at("src/rows.rt", PLACES, PLACES.index(text))
                self.assertEqual(found, expected)
        self.assertEqual(try_named_edits.function_at("src/a/b.rt", "fn f() {}", 3), "a::b::f")

    def compare_verdicts(self, edit: str, outputs: Sequence[tuple[str, str, str]]) -> None:
        """Compares what is found of each output of the prover."""
        wrong = try_named_edits.Edit(self.edit(edit))
        for name, said, expected in outputs:
            with self.subTest(name):
                found = try_named_edits.verdict("made", wrong, said)
                self.assertEqual(found, (expected, expected.startswith("refused")))

    def test_verdicts(self) -> None:
        self.compare_verdicts("file: src/rows.rt\nold: a()\nnew: c()\nonly: rows::Rows::next\n", OUTPUTS)

    def test_verdicts_on_definitions(self) -> None:
        (self.crate / "specs").mkdir()
        (self.crate / "specs/Open.antt").write_text("open = a", encoding="utf-8")
        self.compare_verdicts("file: specs/Open.antt\nold: a\nnew: b\nonly: laws::law\n", OUTPUTS_OF_DEFINITIONS)

    def test_a_definition_is_tried_alone(self) -> None:
        (self.crate / "specs").mkdir()
        (self.crate / "specs/Open.antt").write_text("open = a", encoding="utf-8")
        self.edit("file: specs/Open.antt\nold: a\nnew: b\nonly: laws::law\n", "first")
        self.edit("file: src/lib.rt\nold: a()\nnew: c()\nonly: one\n", "second")
        self.edit("file: src/rows.rt\nold: a()\nnew: c()\nonly: one\n", "third")
        rounds = try_named_edits.rounds_of(self.crate, try_named_edits.edits_of(self.crate))
        names = [[edit.name for edit in found.edits] for found in rounds]
        self.assertEqual(names, [["made/first"], ["made/second", "made/third"]])


class Script(unittest.TestCase):
    """The script in a repository of one crate, with a prover that prints a given text."""

    def setUp(self) -> None:
        scratch = tempfile.TemporaryDirectory()
        self.addCleanup(scratch.cleanup)
        self.top = pathlib.Path(scratch.name)
        for name in ("try_named_edits.py", "gate_edits.py"):
            self.write(f"tools/{name}", (ROOT / "tools" / name).read_text())
        self.write("crates.txt", "made:\n")
        self.write("crates/made/src/rows.rt", SOURCE)
        edit = "file: src/rows.rt\nold: a()\nnew: c()\nonly: rows::Rows::next\n"
        self.write("crates/made/more-edits/bug.edit", edit)
        self.write("kit/rt", f'#!/bin/sh\n[ "$1" = doc ] && echo {self.top}/kit/START-HERE.md || echo kit 1\n')
        self.write("kit/bin/rattle", f"#!/bin/sh\necho >>{self.top}/calls\ncat {self.top}/said\n")
        (self.top / "kit/rlibs/core.rlib").mkdir(parents=True)

    def write(self, name: str, text: str) -> None:
        path = self.top / name
        path.parent.mkdir(parents=True, exist_ok=True)
        path.write_text(text)
        path.chmod(0o755)

    def status(self, said: str, *words: str) -> tuple[int, int]:
        """How the script ends if the prover says this, and how often it called the prover."""
        self.write("said", said)
        self.write("calls", "")
        path = f"{self.top}/kit:{os.environ['PATH']}"
        env = {**os.environ, "PATH": path, "XDG_CACHE_HOME": str(self.top / "cache"), "GIT_CEILING_DIRECTORIES": "/"}
        script = [self.top / "tools/try_named_edits.py", *words]
        ended = subprocess.run(script, env=env, capture_output=True, check=False)
        return ended.returncode, len((self.top / "calls").read_text())

    def test_it_fails_where_an_edit_is_not_refused(self) -> None:
        for name, said, expected in OUTPUTS:
            with self.subTest(name):
                for words in [], ["--gate"]:
                    self.assertEqual(self.status(said, *words), (int(not expected.startswith("refused")), 1))
                    shutil.rmtree(self.top / "cache", ignore_errors=True)

    def test_every_fails_where_one_does_not_compile(self) -> None:
        left = str(self.top / "left")
        for name, said, expected in OUTPUTS:
            with self.subTest(name):
                self.assertEqual(self.status(said, "--every", left), (int("compile" in expected), 1))
                is_left = not expected.startswith("refused")
                self.assertEqual((self.top / "left").read_text(), "made/bug\n" if is_left else "")

    def test_the_gate_tries_no_refused_one_again(self) -> None:
        refused = ANSWERS + WRONG + NOT_PROVED + DONE
        proved = "fn made::rows::Rows::next: proved\n" + DONE
        self.assertEqual(self.status(proved, "--gate"), (1, 1))
        self.assertEqual(self.status(refused, "--gate"), (0, 1))
        self.assertEqual(self.status(proved, "--gate"), (0, 0))
        self.assertEqual(self.status(refused), (0, 1))


if __name__ == "__main__":
    unittest.main()
