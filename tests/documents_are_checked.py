#!/usr/bin/env python3
"""Tests of tools/check_docs.py, check_readmes.py and library_example.py: what each finds, and what it passes. And that
all files give one version, and packages need the same.

Usage: tests/documents_are_checked.py
"""

import datetime
import importlib.util
import pathlib
import re
import sys
import tempfile
import types
import unittest

ROOT = pathlib.Path(__file__).resolve().parent.parent
sys.dont_write_bytecode = True


def tool(name: str) -> types.ModuleType:
    spec = importlib.util.spec_from_file_location(name, ROOT / "tools" / f"{name}.py")
    assert spec and spec.loader
    module = importlib.util.module_from_spec(spec)
    spec.loader.exec_module(module)
    return module


check_docs = tool("check_docs")
check_readmes = tool("check_readmes")
library_example = tool("library_example")

PROGRAM = """#!/bin/sh
echo "accepted $*"
echo data
echo "on standard error" >&2
"""

# What a guide says, and what is reported of it.
TEXTS = [
    ("nothing", "See docs/GUIDE.md, [here](#a-title) and `crates/drain_grid/src/cell.rt`.", []),
    ("a path that isn't there", "See docs/NONE.md.", ["no docs/NONE.md"]),
    ("a document alone", "See NONE.md.", ["no NONE.md"]),
    ("a path in a crate", "In `drain_grid/src/none.rt`.", ["no crates/drain_grid/src/none.rt"]),
    ("a path without its ending", "In `drain_grid/src/cell`.", []),
    ("a name after a path", "In `drain_grid/src/cell.rt`, `none.rt`.", ["no none.rt in drain_grid"]),
    ("any crate", "In crates/NAME/src.", []),
    ("a link", "[this](none.md)", ["no link target none.md"]),
    ("a heading", "[this](#none)", ["no heading #none in GUIDE.md"]),
    ("a link in code", "`[this](none.md)`", []),
    ("a target of make", "`make none`", ["no target none of make"]),
    ("targets and a variable", "`make demo PREFIX=x`", []),
    ("make in prose", "to make none of it", []),
    ("a command", "`drain none`", ["no command drain none"]),
    ("an option", "`drain audit --none`", ["no option --none of drain audit"]),
    ("an option of another program", "`drain audit --side 3 | tail --none`", []),
    ("a long line", "x" * 121, ["121 characters, more than 120"]),
    ("a line of a table", "|" + "x" * 199, []),
    ("a long line of a table", "|" + "x" * 200, ["201 characters, more than 200"]),
    ("a long line of code", "```\n" + "x" * 250 + "\n```", []),
    ("a word", "It is\ntold.", ['"is told"']),
    ("a word after another", "The ranks are\nasked for.", ['"are asked for"']),
    ("a word in code", "`noughts`", []),
    ("a command in code", "```\ndrain none\n```", ["no command drain none"]),
]

# An example, and what is reported of it.
EXAMPLES = [
    ("as printed", "$ drain audit x\naccepted audit x\ndata\non standard error", []),
    ("by its path", "$ build/drain audit x\naccepted audit x\ndata\non standard error", []),
    ("other output", "$ drain audit x\naccepted", ["prints: accepted audit x / data / on standard error"]),
    ("no output", "$ drain audit x", ["prints: accepted audit x / data / on standard error"]),
    ("a comment", "$ drain audit x  # this\naccepted audit x    # that\n..", []),
    ("lines left out", "$ drain audit x\n...\non standard error", []),
    ("too few lines", "$ drain audit x\n..\ndata", ["prints: accepted audit x / data / on standard error"]),
    ("two commands", "$ x='a b'\n$ drain audit $x 2>/dev/null | head -n 1\naccepted audit a b", []),
    ("a status", "$ drain audit 2>/dev/null | grep -q none\n$ echo $?\n1", []),
    ("a quotation", "$ drain audit 'a\nb' 2>/dev/null | tail -n 2\nb\ndata", []),
    ("not run", "drain audit x\nother", []),
]


def project(folder: pathlib.Path, guide: str) -> pathlib.Path:
    files = {
        "Makefile": "demo: build/drain\n",
        "README.md": "# drain\n",
        "docs/GUIDE.md": f"# A title\n\n{guide}\n",
        "crates/drain_grid/src/cell.rt": "",
        "samples/one": "",
        "tools/one": "",
        "tests/program/expected/help.txt": "--version\n",
        "tests/program/expected/audit-help.txt": "--side\n",
        "program": PROGRAM,
    }
    for name, text in files.items():
        (folder / name).parent.mkdir(parents=True, exist_ok=True)
        (folder / name).write_text(text, encoding="utf-8")
    (folder / "program").chmod(0o755)
    return folder


class Documents(unittest.TestCase):
    def faults(self, guide: str, run: bool = False, write: bool = False) -> tuple[list[str], str]:
        with tempfile.TemporaryDirectory() as scratch:
            folder = project(pathlib.Path(scratch), guide)
            faults = check_docs.faults_of(folder, folder / "program" if run else None, write)
            text = (folder / "docs/GUIDE.md").read_text(encoding="utf-8")
        return [fault.split(": ", 1)[1] for fault in faults], text

    def test_texts(self) -> None:
        for name, guide, expected in TEXTS:
            with self.subTest(name):
                self.assertEqual(self.faults(guide)[0], expected)

    def test_examples(self) -> None:
        for name, example, expected in EXAMPLES:
            with self.subTest(name):
                self.assertEqual(self.faults(f"```\n{example}\n```", run=True)[0], expected)

    def test_examples_are_not_run_without_a_program(self) -> None:
        self.assertEqual(self.faults("```\n$ drain audit x\nother\n```")[0], [])

    def test_output_is_written(self) -> None:
        faults, text = self.faults("```\n$ drain audit x\nother\n```\n\nend", run=True, write=True)
        self.assertEqual(len(faults), 1)
        self.assertEqual(
            text, "# A title\n\n```\n$ drain audit x\naccepted audit x\ndata\non standard error\n```\n\nend\n"
        )

    def test_a_line_is_named(self) -> None:
        with tempfile.TemporaryDirectory() as scratch:
            folder = project(pathlib.Path(scratch), "one\n\n`drain none`")
            self.assertEqual(check_docs.faults_of(folder), ["docs/GUIDE.md:5: no command drain none"])

    def test_readme(self) -> None:
        with tempfile.TemporaryDirectory() as scratch:
            folder = project(pathlib.Path(scratch), "")
            (folder / "README.md").write_text("x" * 101 + "\n" * 81, encoding="utf-8")
            expected = ["README.md:1: 101 characters, more than 100", "README.md:81: 81 lines, more than 80"]
            self.assertEqual(check_docs.faults_of(folder), expected)

    def test_definitions(self) -> None:
        cell, row = (f"(../crates/{crate}.antt)" for crate in ("drain_grid/specs/Cell", "drain_text/specs/Row"))
        page = f"# D\n\nBy `a`.\n\n- [Cell]{cell}: `a`,\n  `b`\n- [Rows]{row}: `a`, `d`\n"
        page += f"- [Cell]{cell}, [Row]{row}: `a`, `d`\n"
        with tempfile.TemporaryDirectory() as scratch:
            folder = project(pathlib.Path(scratch), "")
            specs = {"drain_grid/specs/Cell": "a ab", "drain_text/specs/Row": "d", "drain_c/specs/Own": ""}
            for name, text in specs.items():
                file = folder / f"crates/{name}.antt"
                file.parent.mkdir(parents=True, exist_ok=True)
                file.write_text(text, encoding="utf-8")
            (folder / "docs/DEFINITIONS.md").write_text(page, encoding="utf-8")
            faults = ["6: no definition b", "7: Rows is Row", "7: no definition a", "8: no definition of drain_c"]
            self.assertEqual(check_docs.faults_of(folder), [f"docs/DEFINITIONS.md:{fault}" for fault in faults])

    def test_claims(self) -> None:
        table = "| `make`: `made`, `none` | `other` |\n| drain_grid, `Cell` | |\n\n`none`\n"
        with tempfile.TemporaryDirectory() as scratch:
            folder = project(pathlib.Path(scratch), "")
            code = "pub struct Cell;\npub fn make()\n    ensures made { a }\n"
            (folder / "crates/drain_grid/src/cell.rt").write_text(code, encoding="utf-8")
            (folder / "docs/PROVED.md").write_text(table, encoding="utf-8")
            self.assertEqual(check_docs.faults_of(folder), ["docs/PROVED.md:1: no call or clause none"])

    def test_the_reading_list(self) -> None:
        specs = {
            "drain_grid/specs/Correct": "use Rattle.drain_grid.specs.Run.{a}\nuse Rattle.drain_grid.specs.declared.cell.Cell.{b}\n",
            "drain_grid/specs/Run": "use Rattle.std.specs.Prelude.{c}\n",
            "drain_grid/specs/Open": "-- not reached\n",
            "drain_verdict/specs/Meaning": "use Rattle.drain_grid.specs.Run.{a}\n",
            "drain_verdict/specs/Inputs": "pub use Rattle.drain_verdict.specs.Given.{d}\n",
            "drain_verdict/specs/Given": "-- e\n",
        }
        lists = [
            ("The 5 files of `specs/` (6 lines).\n\n2. Words (2)\n3. More words (4)\n", []),
            ("The 4 files of `specs/` (6 lines).\n\n2. Words (6)\n", ["1: 5 files of 6 lines are reached"]),
            ("The 5 files of `specs/` (6 lines).\n\n2. Words (5)\n", ["1: the steps have 5 lines in all"]),
        ]
        for page, expected in lists:
            with self.subTest(page), tempfile.TemporaryDirectory() as scratch:
                folder = project(pathlib.Path(scratch), "")
                for name, text in specs.items():
                    file = folder / f"crates/{name}.antt"
                    file.parent.mkdir(parents=True, exist_ok=True)
                    file.write_text(text, encoding="utf-8")
                (folder / "docs/THEOREM.md").write_text(page, encoding="utf-8")
                self.assertEqual(check_docs.faults_of(folder), [f"docs/THEOREM.md:{fault}" for fault in expected])

    def test_words_are_counted(self) -> None:
        with tempfile.TemporaryDirectory() as scratch:
            folder = project(pathlib.Path(scratch), "and two")
            others = {"samples/A.md": 20_000, "crates/drain_grid/DESIGN.md": 21_993}
            built = {"build/B.md": 9, "crates/drain_grid/out/C.md": 9}
            for name, words in (others | built).items():
                (folder / name).parent.mkdir(exist_ok=True)
                (folder / name).write_text("x " * words, encoding="utf-8")
            self.assertEqual(check_docs.faults_of(folder), [])
            (folder / "samples/D.md").write_text("x", encoding="utf-8")
            self.assertEqual(check_docs.faults_of(folder), ["all .md: 42001 words, more than 42000"])


FORM = "# drain_grid\n\n**Job:** a.\n\n**Begin with:** `src/cell`, `specs/Open`.\n\n"
FORM += "**Apart:** b.\n\n**No clause says:** c.\n"
PARTS = "its paragraphs aren't **Job:**, **Begin with:**, **Apart:**, **No clause says:**"

# What is changed in the README of a crate that has these files, and what is reported of it.
READMES = [
    ("the form", "", "", []),
    ("another title", "drain_grid", "grid", ["its title isn't # drain_grid"]),
    ("a part without its label", "**Apart:** ", "", [PARTS]),
    ("parts in another order", "**Job:** a.\n\n**Begin", "**Begin", [PARTS]),
    ("an empty part", "**Apart:** b.", "**Apart:**", [PARTS]),
    ("a part more", "c.\n", "c.\n\n| Where | What |\n", [PARTS]),
    ("a file that isn't there", "src/cell", "src/none.rt", ["no src/none.rt"]),
    ("no file to begin with", "`src/cell`, `specs/Open`", "the code", ["names no file to begin with"]),
    ("120 words", "c.", "c" + " c" * 106, []),
    ("121 words", "c.", "c" + " c" * 107, ["121 words, more than 120"]),
]


class Readmes(unittest.TestCase):
    def test_readmes(self) -> None:
        for name, old, new, expected in READMES:
            with self.subTest(name), tempfile.TemporaryDirectory() as scratch:
                crate = pathlib.Path(scratch) / "drain_grid"
                readme = FORM.replace(old, new, 1)
                for file, text in (("src/cell.rt", ""), ("specs/Open.antt", ""), ("README.md", readme)):
                    (crate / file).parent.mkdir(parents=True, exist_ok=True)
                    (crate / file).write_text(text, encoding="utf-8")
                self.assertEqual(check_readmes.faults_of(crate), expected)

    def test_no_readme(self) -> None:
        with tempfile.TemporaryDirectory() as scratch:
            self.assertEqual(check_readmes.faults_of(pathlib.Path(scratch)), ["no README.md"])


class Example(unittest.TestCase):
    def test_the_first_comment_is_left_out(self) -> None:
        self.assertEqual(library_example.example_of("//! a\n//! b\n\nfn c() {}\n"), "fn c() {}\n")

    def test_the_block_is_replaced(self) -> None:
        for inside in ("", "old\n"):
            document = f"a\n{library_example.FENCE}{inside}```\nb\n```\nc\n```\n"
            expected = f"a\n{library_example.FENCE}new\n```\nb\n```\nc\n```\n"
            self.assertEqual(library_example.with_example(document, "new\n"), expected)

    def test_a_document_without_the_block(self) -> None:
        self.assertIsNone(library_example.with_example("a\n```\nb\n```\n", "new\n"))


# Where the version is given, in the first match; the man pages and packages take it from these.
VERSION = r"([0-9]+(?:\.[0-9]+)+)"
VERSIONS = {
    "crates/drain_answer/src/version.rt": rf'^pub const VERSION: &str = "{VERSION}$',
    "companion/drain_gis/version.py": rf'^VERSION = "{VERSION}"$',
    "companion/conda/meta.yaml": rf'set version = "{VERSION}"',
    "tests/program/expected/version.txt": rf"^drain {VERSION}$",
}
NEEDED = re.compile(r"\b([a-z][a-z0-9]*)(?:-base)? ?>=([0-9.]+)")


class Versions(unittest.TestCase):
    def test_one_version(self) -> None:
        heading = re.search(r"^## (.*) \((.*)\)$|^## ", (ROOT / "CHANGELOG.md").read_text(encoding="utf-8"), re.MULTILINE)
        assert heading and heading[1], "the newest heading isn't `## VERSION (DATE)`"
        datetime.date.fromisoformat(heading[2])
        for name, pattern in VERSIONS.items():
            with self.subTest(name):
                found = re.search(pattern, (ROOT / name).read_text(encoding="utf-8"), re.MULTILINE)
                self.assertEqual(found and found[1], heading[1])

    def test_packages_need_the_same(self) -> None:
        conda, pip = (
            (ROOT / "companion" / name).read_text(encoding="utf-8").split(key)[1].split("]")[0]
            for name, key in (("conda/meta.yaml", "run: [python"), ("pyproject.toml", "\ndependencies = "))
        )
        self.assertEqual(sorted(NEEDED.findall(conda)), sorted(NEEDED.findall(pip)))
        self.assertEqual(len(NEEDED.findall(pip)), pip.count(",") + 1)


if __name__ == "__main__":
    unittest.main()
