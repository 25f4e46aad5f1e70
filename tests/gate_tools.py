#!/usr/bin/env python3
"""Tests of the scripts that the gate runs: each part of the gate runs, none that fails is passed over, and the record
of a proof names what was proved. What these scripts call are stand-ins: nothing is proved or built.

Usage: tests/gate_tools.py
"""

import contextlib
import hashlib
import io
import os
import re
import shutil
import subprocess
import sys
import tempfile
import unittest
from pathlib import Path

ROOT = Path(__file__).resolve().parent.parent
sys.dont_write_bytecode = True
sys.path.insert(0, str(ROOT / "tools"))
import gate_steps  # noqa: E402
from gate_steps import Step  # noqa: E402

# What the gate runs one after the other, and then side by side, in the order in which it begins. The last gets each
# crate of tests.
CHECKS = """tools/check_readmes.py
tools/library_example.py
tests/documents_are_checked.py
tests/named_edits.py
tests/edits_are_chosen.py
tests/gate_tools.py
tools/check_docs.py
tools/check_layout.sh""".splitlines()
PROOFS = ["rt ci", "tools/record_proof.sh build/drain SUM"]
PROVERS = """tools/build.py --over . build/libdrain.a
tools/build.py --over . build/drain-v3
tools/try_named_edits.py --gate""".splitlines()
TESTS = """tests/program/run.sh build/drain
tools/static_program.sh build/drain build/drain-static
tests/program/run.sh build/drain-static
tools/shared_library.sh build/libdrain.a build/libdrain.so.0
tests/companion.sh build/drain
tests/continent.sh build/drain
tests/first_run.sh build/drain
tests/shipping.sh build
tests/library.sh build/libdrain.a
tests/program/random_audits.py crates/drain/out/drain.by-rattle
tests/same_answers.py build/drain crates/drain/out/drain.by-rattle
tests/program/worked_lines.py crates/drain/out/drain.by-rattle
tools/check_docs.py build/drain
tests/refused_memory.sh""".splitlines()
IN_TURN, BESIDE = [*CHECKS, *PROOFS], [*PROVERS, *TESTS]
# Files that are there before, for a run without proofs.
BUILT = ["build/libdrain.a", "build/drain.o", "build/drain-v3.o"]
BUILT += ["crates/drain/out/drain.by-rattle", "crates/cli_tests/out/cli_tests"]

# Writes its name and arguments to $LOG, and ends with 1 if that line begins with $FAILS.
STAND_IN = """#!/bin/sh
case $0 in /*) line=${0##*/} ;; *) line=$0 ;; esac
line="$line${*:+ $*}"
echo "$line" >>"$LOG"
case $line in "$FAILS"*) exit 1 ;; esac
"""
PROVED_SOURCES = "#!/bin/sh\necho SUM\n"
OTHER_SOURCES = '#!/bin/sh\necho x >>"$LOG.sums"\nwc -l <"$LOG.sums"\n'

# A part of a test that counts one run, and a program that does, each under its own name.
PART = "echo 'NAME was read'\n: $((KIND += 1))\n"
COUNTS = "import sys\nprint(sys.argv[1:])\nprint('NAME: PASSED passed, FAILED failed')\n"
# How a program ends that doesn't count its runs, or not all of them.
NO_COUNTS = ["exit 1", "exit 0", "echo '5 passed, 0 failed'; exit 1", "echo '0 passed, 0 failed'"]

# Stands in for a compiler: writes programs that print nothing.
COMPILER = """#!/bin/sh
while [ $# -gt 1 ] && [ "$1" != -o ]; do shift; done
[ "$1" != -o ] || { printf '#!/bin/sh\\n' >"$2" && chmod +x "$2"; }
"""

ONE_TEST = "import unittest\nclass One(unittest.TestCase):\n    def test(self):\n        BODY\n"

# What a test does that doesn't pass, or isn't there.
NO_PASSES = [
    "self.fail()",
    "print('Ran 7 tests in 1s'); print('OK'); raise ValueError",
    "import os; os._exit(0)",
    "import os, sys; sys.stderr.write('Ran 1 test in 1s\\nOK\\n'); sys.stderr.flush(); os._exit(1)",
    "pass\n    test = unittest.expectedFailure(test)",
    "pass\n    del test",
]


def is_counted(file: Path) -> bool:
    """Whether this is a program whose last line has how many of its runs passed."""
    text = file.read_text(encoding="utf-8")
    return os.access(file, os.X_OK) and ("passed, {" in text or "sys.exit(judge_random(" in text)


class Copies(unittest.TestCase):
    """Copies of scripts in a folder of their own."""

    def setUp(self) -> None:
        scratch = tempfile.TemporaryDirectory()
        self.addCleanup(scratch.cleanup)
        self.top, self.bin, self.log = (Path(scratch.name) / name for name in ("top", "bin", "log"))
        self.log.touch()

    def write(self, path: Path, text: str = "") -> None:
        path.parent.mkdir(parents=True, exist_ok=True)
        path.write_text(text, encoding="utf-8")
        path.chmod(0o755)

    def copy(self, *names: str) -> None:
        for name in names:
            self.write(self.top / name, (ROOT / name).read_text(encoding="utf-8"))

    def run_there(self, *words: str, fails: str = "none", **more: str) -> subprocess.CompletedProcess[str]:
        """Runs a command in the copy; programs of its folder bin come first."""
        env = {name: os.environ[name] for name in os.environ if name not in ("FAST", "JOBS", "RT_JOBS", "MAKEFLAGS", "MAKELEVEL")}
        env |= {"LOG": str(self.log), "FAILS": fails, "PATH": f"{self.bin}:{os.environ['PATH']}", **more}
        env["GIT_CEILING_DIRECTORIES"] = str(self.top.parent)
        return subprocess.run(words, cwd=self.top, env=env, capture_output=True, text=True, timeout=600, check=False)

    def last_line(self, ended: subprocess.CompletedProcess[str]) -> str:
        return (ended.stdout.splitlines() or [""])[-1]


class Gate(Copies):
    """tools/gate.sh with a stand-in for each step."""

    def setUp(self) -> None:
        super().setUp()
        for pattern in ("tools/*", "tests/*.sh", "tests/*.py", "tests/program/*.py", "tests/program/run.sh"):
            for file in ROOT.glob(pattern):
                self.write(self.top / file.relative_to(ROOT), STAND_IN)
        self.write(self.top / "tools/sources_sum.sh", PROVED_SOURCES)
        self.copy("tools/gate.sh", "tools/gate_proofs.py", "tools/gate_steps.py")
        self.write(self.top / "crates.txt", (ROOT / "crates.txt").read_text(encoding="utf-8"))
        for program in ("rt", "gcc"):
            self.write(self.bin / program, STAND_IN)
        for name in ("drain", "drain.o"):
            self.write(self.top / "crates/drain/out" / name)
        self.said = ""

    def steps(self, fails: str = "none", **more: str) -> tuple[int, list[str]]:
        """How the gate ends, and the steps that it ran, the last without the crates that it gets."""
        self.log.write_text("")
        ended = self.run_there("tools/gate.sh", fails=fails, **more)
        self.said = ended.stdout
        steps = self.log.read_text().splitlines()
        self.crates = [step for step in steps if step.startswith("tests/refused_memory.sh ")]
        return ended.returncode, [step.split()[0] if step in self.crates else step for step in steps]

    def test_each_step_runs(self) -> None:
        status, steps = self.steps()
        self.assertEqual((status, steps[: len(IN_TURN)]), (0, IN_TURN))
        self.assertEqual(sorted(steps[len(IN_TURN) :]), sorted(BESIDE))
        left = [line for line in self.said.splitlines() if line.startswith("steps left: ")]
        self.assertEqual((len(left), left[-1]), (len(BESIDE), "steps left: 0"))

    def test_each_test_is_a_step_or_is_run_by_one(self) -> None:
        tests = {str(file.relative_to(ROOT)) for file in [*ROOT.glob("tests/*.sh"), *ROOT.glob("tests/*.py")]}
        steps = tests & {step.split()[0] for step in [*IN_TURN, *BESIDE]}
        texts = [(ROOT / step).read_text(encoding="utf-8") for step in steps if step.endswith(".sh")]
        call = r"^add\w* {0} |^ *holds '[^']+' \"\$top/{0}\" "
        called = {test for test in tests for text in texts if re.search(call.format(re.escape(test)), text, re.M)}
        self.assertEqual(tests - steps, called - steps)

    def test_no_test_has_the_name_of_a_tool(self) -> None:
        tests, tools = ({file.name for file in (ROOT / folder).iterdir()} for folder in ("tests", "tools"))
        self.assertEqual(tests & tools, set())

    def test_memory_is_refused_to_each_crate_of_tests(self) -> None:
        crates = re.findall(r"^(\w+_tests)\b", (ROOT / "crates.txt").read_text(), re.M)
        self.steps()
        self.assertEqual(sorted(self.crates[0].split()[1:]), sorted(crates))

    def test_a_step_before_the_last_proof_that_fails_ends_the_gate(self) -> None:
        for number, step in enumerate(IN_TURN):
            with self.subTest(step):
                status, steps = self.steps(fails=step)
                self.assertNotEqual(status, 0)
                self.assertLessEqual(len(steps), number + 1)

    def test_a_step_after_them_that_fails_is_named_last(self) -> None:
        for step in BESIDE:
            with self.subTest(step):
                status, steps = self.steps(fails=step)
                self.assertEqual(status, 1)
                self.assertRegex(self.said.splitlines()[-1], f"^FAILED: (nice -n 3 )?{re.escape(step)}")
                self.assertIn(step, steps)
                makes = [it.makes for it in gate_steps.steps_of(4, 4) if step in it.command and it.makes]
                self.assertEqual(len(steps), len(IN_TURN) + len(BESIDE) - len(self.left_out(makes)))

    def left_out(self, makes: list[str]) -> set[str]:
        """The steps that want what isn't made."""
        found: set[str] = set()
        for _ in range(3):
            for it in gate_steps.steps_of(4, 4):
                if {*it.wants.split(), *it.after.split()} & {*makes}:
                    found.add(it.command)
                    makes = [*makes, it.makes] if it.makes else makes
        return found

    def test_a_program_that_was_built_elsewhere_is_not_linked_again(self) -> None:
        (self.top / "crates/drain/out/drain.o").unlink()
        status, steps = self.steps()
        self.assertEqual(status, 0)
        missing = [step for step in BESIDE if step not in steps]
        self.assertEqual(missing, [step for step in BESIDE if "static" in step or "v3" in step])
        self.assertEqual(self.said.count("left out: "), len(missing))

    def test_without_proofs(self) -> None:
        for name in ("build/drain", *BUILT):
            self.write(self.top / name)
        status, steps = self.steps(FAST="1")
        self.assertEqual((status, steps[: len(CHECKS) + 1]), (0, ["tools/is_proved.sh build/drain", *CHECKS]))
        self.assertEqual(sorted(steps[len(CHECKS) + 1 :]), sorted(TESTS))
        self.assertRegex(self.said.splitlines()[0], "^FAST=1: all proofs are left out, so this is not the merge gate: ")
        for other in ("", "0"):
            self.assertEqual(self.steps(FAST=other)[1][: len(IN_TURN)], IN_TURN)

    def test_without_proofs_and_with_the_program_alone(self) -> None:
        self.write(self.top / "build/drain")
        status, steps = self.steps(FAST="1")
        self.assertEqual((status, len(TESTS) - len(steps[len(CHECKS) + 1 :])), (0, self.said.count("left out: ")))
        for step in ("tests/program/run.sh", "tests/companion.sh", "tools/check_docs.py"):
            self.assertIn(f"{step} build/drain", steps)
        self.assertIn("left out: tests/library.sh build/libdrain.a: there is no build/libdrain.a\n", self.said)

    def test_without_proofs_and_without_a_program(self) -> None:
        ended = self.run_there("tools/gate.sh", fails="tools/is_proved.sh", FAST="1")
        self.assertEqual((ended.returncode, self.log.read_text()), (1, "tools/is_proved.sh build/drain\n"))
        self.assertIn("run make", ended.stderr)

    def test_make_hands_the_setting_on_and_the_gate_of_each_change_drops_it(self) -> None:
        self.copy("Makefile", ".ci/run")
        self.write(self.top / "tools/gate.sh", "#!/bin/sh\necho \"FAST is '$FAST'\"\n")
        for program in ("apt-get", "dpkg-query"):
            self.write(self.bin / program, STAND_IN)
        self.assertEqual(self.last_line(self.run_there("make", "-s", "test", "FAST=1")), "FAST is '1'")
        self.assertEqual(self.last_line(self.run_there("make", "-s", "test")), "FAST is ''")
        settings = {"FAST": "1", "MAKEFLAGS": "s -- FAST=1", "MAKELEVEL": "1"}
        self.assertEqual(self.last_line(self.run_there(".ci/run", **settings)), "FAST is ''")

    def test_sources_that_change_meanwhile(self) -> None:
        self.write(self.top / "tools/sources_sum.sh", OTHER_SOURCES)
        status, steps = self.steps()
        self.assertNotEqual(status, 0)
        self.assertEqual(steps[-1], "rt ci")


# What `rt ci` prints as it proves a crate and the tests of another, and then fails.
CI = """#!/bin/sh
printf '%s\\n' 'rt: a proved' '== b_tests' 'rt: b_tests proved' 'rt: b_tests: its tests are proved' 'rt: c NOT PROVED'
exit 1
"""


class Proofs(Copies):
    """tools/gate_proofs.py with a stand-in for rt."""

    def test_how_far_the_proofs_are(self) -> None:
        self.copy("tools/gate_proofs.py")
        self.write(self.top / "crates.txt", "a: x  # one\nb_tests staticlib: a\n# none: a\nc: a b\n")
        for name, lines in (("a", 1), ("b_tests", 2), ("c", 3)):
            self.write(self.top / f"crates/{name}/src/lib.rt", "\n" * lines)
        self.write(self.bin / "rt", CI)
        ended = self.run_there("tools/gate_proofs.py")
        said = [line for line in ended.stdout.splitlines() if line.startswith("proved: ")]
        self.assertEqual(said, [f"proved: {number} of 3 crates in 0 minutes, about 0 left" for number in (1, 2)])
        self.assertEqual((ended.returncode, ended.stdout.count("\n")), (1, 7))


# A step that writes when it begins and ends, and takes a moment.
SLOW = """#!/bin/sh
echo "begins $1" >>LOG
echo "$1 prints a line"
sleep 0.2
echo "$1 prints another"
echo "ends $1" >>LOG
[ "$1" != "$2" ]
"""
# A step that waits until another one has begun, for ten seconds.
MEETS = """#!/bin/sh
: >"FOLDER/$1"
for i in 1 2 3 4 5 6 7 8 9 10 11 12 13 14 15 16 17 18 19 20; do [ -e "FOLDER/$2" ] && exit 0; sleep 0.5; done
exit 1
"""


class Beside(Copies):
    """Steps that run side by side."""

    def setUp(self) -> None:
        super().setUp()
        self.slow, self.meets = self.top / "slow", self.top / "meets"
        self.write(self.slow, SLOW.replace("LOG", str(self.log)))
        self.write(self.meets, MEETS.replace("FOLDER", str(self.top)))

    def gate(self, steps: list[Step], places: int, provers: int = 1) -> tuple[bool, list[str]]:
        """Whether all passed, and the lines that were printed."""
        said = io.TextIOWrapper(io.BytesIO(), encoding="utf-8")
        with contextlib.redirect_stdout(said):
            passed = gate_steps.Gate(steps, places, provers, self.top / "steps").run()
        said.flush()
        return passed, said.buffer.getvalue().decode().splitlines()

    def most_at_once(self) -> int:
        running = most = 0
        for line in self.log.read_text().splitlines():
            running += 1 if line.startswith("begins") else -1
            most = max(most, running)
        return most

    def test_two_meet_where_there_are_places_for_both(self) -> None:
        self.assertTrue(self.gate([Step(f"{self.meets} a b"), Step(f"{self.meets} b a")], places=2)[0])

    def test_no_more_run_than_there_are_places_and_provers(self) -> None:
        names = "abcde"
        cases = ((1, 1, 0, 1), (2, 1, 0, 2), (5, 2, 0, 2), (2, 5, 0, 1), (9, 1, 1, 2), (1, 0, 3, 1))
        for places, uses, provers, most in cases:
            with self.subTest(places=places, uses=uses, provers=provers):
                self.log.write_text("")
                steps = [Step(f"{self.slow} {name}", places=uses, provers=provers) for name in names]
                self.assertTrue(self.gate(steps, places, provers=2)[0])
                self.assertEqual((self.most_at_once(), len(self.log.read_text().splitlines())), (most, 10))

    def test_one_that_wants_a_file_begins_when_it_is_made(self) -> None:
        made = [Step(f"{self.slow} b", wants="x", makes="y"), Step(f"{self.slow} a", makes="x")]
        self.assertTrue(self.gate([Step(f"{self.slow} c", after="y"), *made], places=3)[0])
        self.assertEqual(self.log.read_text().split()[1::2], list("aabbcc"))

    def test_what_one_prints_comes_whole_with_its_seconds(self) -> None:
        _, lines = self.gate([Step(f"{self.slow} {name}") for name in "abc"], places=3)
        self.assertEqual(lines[:3], [f"begins: {self.slow} {name}" for name in "abc"])
        for name in "abc":
            at = lines.index(f"{name} prints a line")
            self.assertEqual((lines[at - 1], lines[at + 1]), (f"ended: {self.slow} {name}", f"{name} prints another"))
            self.assertRegex(lines[at + 2], rf"{name} took \d+ s, of processors \d+ s and \d+ s of the system$")
        left = [line for line in lines if line.startswith("steps left: ")]
        self.assertEqual([line[12] for line in left], list("210"))
        self.assertRegex(left[0], "^steps left: 2, about 1 minutes, of which run: .*slow [abc]; .*slow [abc]$")

    def test_one_that_fails_comes_last_and_stops_no_other(self) -> None:
        steps = [Step(f"{self.slow} a a", makes="x"), Step(f"{self.slow} b"), Step(f"{self.slow} c", wants="x")]
        passed, lines = self.gate([*steps, Step(f"{self.slow} d")], places=1)
        self.assertFalse(passed)
        self.assertEqual(re.findall("ends (.)", self.log.read_text()), ["a", "b", "d"])
        self.assertEqual(lines[-3:], ["a prints a line", "a prints another", f"FAILED: {self.slow} a a"])
        self.assertIn(f"left out: {self.slow} c: it wants x", lines)
        self.assertEqual(lines.count("a prints a line"), 1)

    def test_one_that_is_not_there_fails(self) -> None:
        passed, lines = self.gate([Step(f"{self.top}/none")], places=1)
        self.assertEqual((passed, lines[-1]), (False, f"FAILED: {self.top}/none"))

    def test_each_step_fits_the_smallest_machine(self) -> None:
        for places in (1, 2, 3, 4):
            self.assertLessEqual({step.places for step in gate_steps.steps_of(places, 1)}, {*range(places + 1)})


class Runs(Copies):
    """tests/program/run.sh and part.sh, with a stand-in for each part, and a program that prints nothing."""

    def setUp(self) -> None:
        super().setUp()
        self.copy("tests/program/run.sh", "tests/program/part.sh", "tests/program/fixtures.sh")
        self.write(self.top / "tests/fail_calls.c", "int nothing;\n")
        here = ROOT / "tests/program"
        self.parts = [file.name for file in here.glob("*.sh") if file.name not in ("run.sh", "part.sh", "fixtures.sh")]
        self.programs = [file.name for file in here.glob("*.py") if is_counted(file)]

    def count(self, program: str, passed: int, **more: str) -> str:
        """The last line of a run in which each script and program counts one that passed or failed."""
        for name in self.parts:
            kind = "passed" if passed else "failed"
            self.write(self.top / "tests/program" / name, PART.replace("NAME", name).replace("KIND", kind))
        for name in self.programs:
            text = COUNTS.replace("PASSED", str(passed)).replace("FAILED", str(1 - passed)).replace("NAME", name)
            self.write(self.top / "tests/program" / name, f"#!{sys.executable}\n{text}")
        ended = self.run_there("tests/program/run.sh", program, **more)
        self.assertEqual(ended.returncode, 1 - passed)
        return self.last_line(ended)

    def test_each_script_and_program_runs(self) -> None:
        everything = len(self.parts) + len(self.programs)
        self.assertGreaterEqual(everything, 17)
        self.assertEqual(self.count("/bin/true", 1), f"{everything} passed, 0 failed")
        self.assertEqual(self.count("/bin/true", 1, JOBS="1"), f"{everything} passed, 0 failed")
        self.assertEqual(self.count("/bin/true", 0), f"0 passed, {everything} failed")

    def test_a_static_program_is_spared_three(self) -> None:
        self.write(self.bin / "static", "#!/bin/sh\n")
        left = len(self.parts) + len(self.programs) - 3
        self.assertEqual(self.count(str(self.bin / "static"), 1), f"{left} passed, 0 failed")

    def test_a_program_that_crashes_and_a_part_that_ends_early(self) -> None:
        self.count("/bin/true", 1)
        explain = self.top / "tests/program/explain.py"
        for text in NO_COUNTS:
            with self.subTest(text):
                self.write(explain, f"#!/bin/sh\n{text}\n")
                ended = self.run_there("tests/program/run.sh", "/bin/true")
                self.assertEqual((ended.returncode, self.last_line(ended).split(", ")[1:]), (1, ["1 failed"]))
        self.write(explain, "#!/bin/sh\necho '1 passed, 0 failed'\n")
        counts = ": $((passed += 1))"
        for text in ("exit", "exit 0", "exit 2", f"{counts}; exit 0", "echo $unset", f"{counts}\nif", ":"):
            with self.subTest(text):
                self.write(self.top / "tests/program/links.sh", f"{text}\n")
                ended = self.run_there("tests/program/run.sh", "/bin/true")
                self.assertEqual((ended.returncode, self.last_line(ended).split(", ")[1:]), (1, ["1 failed"]))
                self.assertIn("FAILED links.sh: status ", ended.stdout)


class Failing(Copies):
    """Scripts whose tests fail, since what they call is missing, or prints nothing."""

    def failed(self, script: str, file: str) -> str:
        """What it prints, whose last line has to count failures."""
        self.copy(script)
        ended = self.run_there(script, file)
        self.assertEqual(ended.returncode, 1)
        self.assertRegex(self.last_line(ended), r"^\d+ passed, [1-9]\d* failed$")
        return ended.stdout

    def test_the_library(self) -> None:
        self.write(self.bin / "cc", COMPILER)
        for text in NO_COUNTS:
            with self.subTest(text):
                self.write(self.top / "tests/library.py", f"#!/bin/sh\n{text}\n")
                said = self.failed("tests/library.sh", "/bin/true")
                self.assertIn("FAILED audit 51 ", said)
                self.assertIn("FAILED tests/library.py: status ", said)

    def test_a_first_run(self) -> None:
        self.assertIn("FAILED a demo of unproved sources ends well", self.failed("tests/first_run.sh", "/bin/true"))

    def test_shipping(self) -> None:
        self.assertIn("FAILED a tarball is made\n", self.failed("tests/shipping.sh", str(self.bin)))


# A program of tests whose one test reports that memory ran out.
REFUSED = """#!/bin/sh
[ "$1" != --list ] || { echo 't: test'; exit; }
echo 'error: OutOfMemory'
echo 'refused 1 alone: 25856'
"""


class RefusedMemory(Copies):
    """tests/refused_memory.sh with programs that say what it reads."""

    def test_each_crate_has_to_pass(self) -> None:
        self.copy("tests/refused_memory.sh", "tests/seams_without_memory.txt")
        for program, text in (("cc", COMPILER), ("rt", "#!/bin/sh\n")):
            self.write(self.bin / program, text)
        crates = ["one", "two", "three"]
        for name in crates:
            (self.top / "crates" / name / "src").mkdir(parents=True)
            self.write(self.top / "crates" / name / f"out/{name}_tests", REFUSED)
        for at_once in "139":
            ended = self.run_there("tests/refused_memory.sh", *crates, JOBS=at_once)
            self.assertEqual((ended.returncode, self.last_line(ended)), (0, "ok: no test hides that memory ran out"))
        for name, text in zip(crates, ("exit 1", REFUSED.split("echo 'refused")[0], REFUSED + "exit 1\n"), strict=True):
            with self.subTest(name):
                self.write(self.top / "crates" / name / f"out/{name}_tests", text)
                ended = self.run_there("tests/refused_memory.sh", *crates, JOBS="2")
                self.assertEqual((ended.returncode, "ok: " in ended.stdout), (1, False))
                self.assertIn(f"FAILED {name}: ", ended.stdout)
                self.write(self.top / "crates" / name / f"out/{name}_tests", REFUSED)


class Modules(Copies):
    """The scripts that run modules of Python, with modules that do nothing."""

    def run_modules(self, script: str) -> str:
        ended = self.run_there(script, "/bin/true")
        if "left out" in ended.stdout or "apt-get install" in ended.stdout or "need python3" in ended.stdout:
            self.skipTest("packages of Python are missing")
        self.assertEqual(ended.returncode, 0)
        return self.last_line(ended)

    def test_each_module_of_the_companion_runs_once(self) -> None:
        self.copy("tests/companion.sh")
        modules = [file.name for file in (ROOT / "companion/tests").glob("test_*.py")]
        for name in modules:
            self.write(self.top / "companion/tests" / name, "def test_one():\n    pass\n")
        self.assertEqual(self.run_modules("tests/companion.sh"), f"{len(modules)} passed, 0 failed")
        self.write(self.top / "companion/tests" / modules[0], "def test_one():\n    assert False\n")
        self.write(self.top / "companion/tests" / modules[-1], "import nothing_of_this_name\n")
        ended = self.run_there("tests/companion.sh", "/bin/true")
        self.assertEqual((ended.returncode, self.last_line(ended)), (1, f"{len(modules) - 2} passed, 2 failed"))

    def test_each_module_of_the_continent_runs(self) -> None:
        self.copy("tests/continent.sh")
        modules = list((ROOT / "tests/continent").glob("test_*.py"))
        for file in modules:
            self.write(self.top / file.relative_to(ROOT), ONE_TEST.replace("BODY", "pass"))
        self.assertEqual(self.run_modules("tests/continent.sh"), f"{len(modules)} passed, 0 failed")
        for body in NO_PASSES:
            with self.subTest(body):
                self.write(self.top / modules[0].relative_to(ROOT), ONE_TEST.replace("BODY", body))
                ended = self.run_there("tests/continent.sh", "/bin/true")
                self.assertEqual((ended.returncode, self.last_line(ended)), (1, f"{len(modules) - 1} passed, 1 failed"))


PARTS = ("src", "specs", "proofs", "include")
SOURCES = ["crates.txt", "HANDLES", *(f"crates/a/{part}/{name}" for part in PARTS for name in ("x", "y/z"))]
OTHERS = ["README.md", "crates/a/README.md", "crates/a/more-edits/x.edit", "tools/x"]


class Record(Copies):
    """tools/sources_sum.sh and tools/record_proof.sh in a small repository."""

    def setUp(self) -> None:
        super().setUp()
        self.copy("tools/sources_sum.sh", "tools/record_proof.sh")
        self.write(self.bin / "rt", '#!/bin/sh\n[ "$1" = version ] && echo "kit 1 logic 2"\n')
        self.write(self.top / "build/drain", "the program\n")
        for name in [*SOURCES, *OTHERS]:
            self.write(self.top / name, "before\n")

    def sum(self) -> str:
        return self.run_there("tools/sources_sum.sh").stdout

    def git(self, *words: str) -> str:
        return self.run_there("git", "-c", "user.name=a", "-c", "user.email=a@b", *words).stdout.strip()

    def recorded(self, sources: str, *cpu: str) -> list[str]:
        """The lines of the record of these sources, and of this processor."""
        self.assertEqual(self.run_there("tools/record_proof.sh", "build/drain", sources.strip(), *cpu).returncode, 0)
        return (self.top / "build/drain.proved").read_text().splitlines()

    def test_the_sum_is_of_all_sources_and_no_more(self) -> None:
        before = self.sum()
        self.assertRegex(before, r"^[0-9a-f]{64}\n$")
        for name in SOURCES:
            with self.subTest(name):
                self.write(self.top / name, "after\n")
                self.assertNotEqual(self.sum(), before)
                self.write(self.top / name, "before\n")
                self.assertEqual(self.sum(), before)
        for name in OTHERS:
            self.write(self.top / name, "after\n")
        self.assertEqual(self.sum(), before)
        self.assertEqual(self.run_there("tools/sources_sum.sh", str(self.top)).stdout, before)
        (self.top / "crates/a/specs/x").rename(self.top / "crates/a/specs/w")
        self.assertNotEqual(self.sum(), before)

    def test_the_record(self) -> None:
        proved = self.sum()
        program = hashlib.sha256(b"the program\n").hexdigest()
        rest = [f"sources  {proved.strip()}", "kit      kit 1 logic 2", f"program  {program}"]
        self.assertEqual(self.recorded(proved), ["commit   -", *rest])
        self.assertEqual(self.recorded(proved, "x86-64-v3"), ["commit   -", *rest, "cpu      x86-64-v3"])
        self.git("init", "-q")
        self.git("add", "crates", "crates.txt", "HANDLES")
        self.git("commit", "-q", "-m", "a")
        head = self.git("rev-parse", "HEAD")
        self.assertEqual(self.recorded(proved), [f"commit   {head}", *rest])

        # A changed tree is no commit's: its record says so, and that of other sources names none.
        for name in SOURCES:
            with self.subTest(name):
                self.write(self.top / name, "after\n")
                self.assertEqual(self.recorded(self.sum())[0], f"commit   {head}-changed")
                self.assertEqual(self.recorded(proved), ["commit   -", *rest])
                self.write(self.top / name, "before\n")
        self.write(self.top / "crates/a/src/new", "after\n")
        self.assertEqual(self.recorded(self.sum())[0], f"commit   {head}-changed")


# The toolchain: rt says where it is, and rattle writes what it is to make and says that it proved it.
KIT_RT = "#!/bin/sh\ncase $1 in doc) echo KIT/page ;; version) echo kit ;; esac\n"
KIT_RATTLE = """#!/bin/sh
line=$*
while [ "$1" != -o ]; do shift; done
case $2 in *.rlib) mkdir -p "$2" ;; *) echo compiled >"$2" ;; esac
echo "$line" >>"$LOG"
echo "logic=proved functions=3 sum=0 native=nat logic-built=trusted$MORE"
"""
KIT_LINK = """#!/bin/sh
while [ "$1" != -o ]; do shift; done
echo linked >"$2"
"""


class Built(Copies):
    """tools/build.py with a stand-in for the toolchain, and three crates: high and drain are above low."""

    def setUp(self) -> None:
        super().setUp()
        self.copy("tools/build.py", "tools/is_proved.sh", "tools/record_proof.sh", "tools/sources_sum.sh")
        self.write(self.top / "crates.txt", "low: std_of_kit\nhigh: low\nother: low\ndrain: high low  # the program\n")
        self.write(self.top / "HANDLES")
        for name in ("low", "high", "other", "drain"):
            self.write(self.top / f"crates/{name}/src/{'main' if name == 'drain' else 'lib'}.rt", name)
        self.write(self.bin / "rt", KIT_RT.replace("KIT", str(self.bin)))
        self.write(self.bin / "bin/rattle", KIT_RATTLE)
        self.write(self.bin / "bin/rattle-link", KIT_LINK)

    def build(self, *words: str, **more: str) -> tuple[int, str, list[list[str]]]:
        """The status, what was printed, and the words of each call of rattle."""
        self.log.write_text("")
        ended = self.run_there("tools/build.py", *words, **more)
        return ended.returncode, ended.stdout + ended.stderr, [line.split() for line in self.log.read_text().splitlines()]

    def crates(self, calls: list[list[str]]) -> list[str]:
        return [call[call.index("--crate-name") + 1] for call in calls]

    def test_all_below_is_proved_once(self) -> None:
        status, said, calls = self.build("build/drain")
        self.assertEqual((status, self.crates(calls)), (0, ["low", "high", "drain"]))
        self.assertIn("Proved and built in 0 seconds: build/drain\n", said)
        self.assertTrue(all("out/incremental" in call and "--statements" not in call for call in calls))
        self.assertEqual((self.top / "build/drain").read_text(), "linked\n")
        self.assertEqual((self.top / "build/drain.o").read_text(), "compiled\n")
        self.assertEqual(self.build("build/drain")[1:], ("Unchanged since it was proved and built: build/drain\n", []))

    def test_what_changed_and_what_is_above_is_proved_again(self) -> None:
        self.build("build/drain")
        for changed, proved in (("drain/src/main", ["drain"]), ("high/src/lib", ["high", "drain"]), ("low/specs/a", ["low", "high", "drain"])):
            with self.subTest(changed):
                self.write(self.top / f"crates/{changed}.rt", "changed")
                self.assertEqual(self.crates(self.build("build/drain")[2]), proved)
        self.assertEqual(self.crates(self.build("--anew", "build/drain")[2]), ["low", "high", "drain"])

    def test_from_nothing(self) -> None:
        _, _, calls = self.build("--anew", "build/drain-v3")
        self.assertEqual(["--statements" in call for call in calls], [True, True, False])
        self.assertFalse(any("--incremental" in call for call in calls))
        self.assertEqual(calls[2][calls[2].index("--cpu") + 1], "x86-64-v3")
        self.assertIn("cpu      x86-64-v3\n", (self.top / "build/drain-v3.proved").read_text())
        self.assertFalse(list((self.top / "build/libraries").iterdir()))

    def test_over_what_was_proved_there(self) -> None:
        status, _, calls = self.build("--over", ".", "build/drain")
        self.assertEqual((status, self.crates(calls)), (0, ["drain"]))
        self.assertIn(f"high={self.top}/crates/high/out/rlib/high.rlib", calls[0])

    def test_no_proof_leaves_the_old_program(self) -> None:
        self.build("build/drain")
        self.write(self.top / "crates/drain/src/main.rt", "changed")
        for more in (" foreign=1", " bugs=1", " may-abort", " main=Wait"):
            status, said, _ = self.build("build/drain", MORE=more)
            self.assertEqual((status, (self.top / "build/drain").read_text()), (1, "linked\n"))
            self.assertIn("drain:\n", said)
        self.assertEqual(self.build("build/drain", MORE=" axioms=3")[0], 0)

    def test_a_target_that_is_none(self) -> None:
        self.assertEqual(self.build("build/other")[0::2], (2, []))


if __name__ == "__main__":
    unittest.main()
