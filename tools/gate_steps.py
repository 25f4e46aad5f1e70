#!/usr/bin/env python3
"""Runs the steps of the merge gate that come after the proofs, side by side.

A step begins once those are done that make what it wants, and where as many processors are idle as it uses; one with
provers waits for their memory too. The longest come first. Wrong bodies run at a lower priority, on what the others leave
idle. What a step prints goes to a file of build/gate, and is shown whole when the step ends; that of steps that failed is
shown last. A step that fails stops no other, but those that want what it makes are left out.

Usage: tools/gate_steps.py [--fast]    (--fast: without provers, and without the steps whose files aren't there)
"""

import argparse
import dataclasses
import math
import os
import re
import shutil
import subprocess
import sys
import time
from concurrent.futures import FIRST_COMPLETED, Future, ThreadPoolExecutor, wait
from pathlib import Path

TOP = Path(__file__).resolve().parent.parent
# The memory that is reckoned for a prover (those seen took 1.5 GiB), and for the tests that run beside.
PROVER, TESTS = 5 * 2**30, 2**30
# What a whole run may do without: the static program and the one for x86-64-v3 need them.
MAY_BE_MISSING = ("build/drain.o", "gcc")
CRATES = "byte_tests cell_tests rules_tests page_tests verdict_tests union_tests maker_tests cli_tests"


@dataclasses.dataclass(frozen=True)
class Step:
    """A command, and what it takes."""

    command: str
    # Files and programs that have to be there, parted by blanks, and files that it uses if they are made in this run.
    wants: str = ""
    after: str = ""
    makes: str = ""
    # How many processors it uses at once: the scripts that start several runs read it as JOBS.
    places: int = 1
    # How many provers it starts at once, each with its memory; read as RT_JOBS.
    provers: int = 0
    # About how many seconds of processors it takes.
    work: int = 60

    def waits_for(self, other: "Step") -> bool:
        return bool(other.makes) and other.makes in [*self.wants.split(), *self.after.split()]


@dataclasses.dataclass(frozen=True)
class Ended:
    """How a step ended: its status, and the seconds on the clock, of processors and of the system."""

    status: int
    clock: float = 0
    user: float = 0
    system: float = 0


def steps_of(places: int, provers: int) -> list[Step]:
    """All steps, the longest first, for so many processors, and memory for so many provers."""
    half, two = max(1, places // 2), min(2, places)
    other = "crates/drain/out/drain.by-rattle"
    static = "build/drain.o gcc build/drain-static"
    return [
        Step("tools/build.py --over . build/libdrain.a", makes="build/libdrain.a", provers=1, work=300),
        Step("tools/build.py --over . build/drain-v3", wants="build/drain.o", makes="build/drain-v3.o", provers=1, work=300),
        # A little lower in priority: much lower ones stand still where other work fills the machine.
        Step("nice -n 3 tools/try_named_edits.py --gate", places=0, provers=provers, work=1100),
        Step("tests/program/run.sh build/drain", places=half, work=330),
        Step(
            "tools/static_program.sh build/drain build/drain-static",
            wants="build/drain.o gcc rt build/drain-v3.o",
            makes="build/drain-static",
        ),
        Step("tests/program/run.sh build/drain-static", wants=static, places=half, work=140),
        Step(
            "tools/shared_library.sh build/libdrain.a build/libdrain.so.0",
            wants="build/libdrain.a",
            makes="build/libdrain.so.0",
        ),
        Step("tests/companion.sh build/drain", after="build/libdrain.so.0", places=two, work=600),
        Step("tests/continent.sh build/drain", places=two, work=200),
        Step("tests/first_run.sh build/drain", wants="rt", work=100),
        Step("tests/shipping.sh build", after="build/libdrain.a build/drain-v3.o", work=200),
        Step("tests/library.sh build/libdrain.a", wants="build/libdrain.a"),
        Step(f"tests/refused_memory.sh {CRATES}", wants="crates/cli_tests/out/cli_tests", places=two),
        # What Rattle's own compiler made of the same proved code, where rt ci left it: it answers as the rules say, and as
        # the other program does.
        Step(f"tests/program/random_audits.py {other}", wants=other),
        Step(f"tests/same_answers.py build/drain {other}", wants=other),
        Step(f"tests/program/worked_lines.py {other}", wants=other),
        Step("tools/check_docs.py build/drain"),
    ]


def provers_held() -> int:
    """How many provers there is memory for, beside the tests."""
    free = re.search(r"MemAvailable:\s+(\d+)", Path("/proc/meminfo").read_text())
    return max(1, (int(free[1]) * 1024 - TESTS) // PROVER if free else 1)


def is_there(wanted: str) -> bool:
    return (TOP / wanted).exists() if "/" in wanted else shutil.which(wanted) is not None


def chosen(steps: list[Step], fast: bool) -> tuple[list[Step], list[str]]:
    """The steps to run, and a line for each that is left out. A whole run leaves out only what may be missing."""
    found, left_out = [step for step in steps if not (fast and step.provers)], []
    for step in list(found):
        made = {each.makes for each in found}
        missing = [it for it in step.wants.split() if it not in made and not is_there(it)]
        missing = missing if fast else [it for it in missing if it in MAY_BE_MISSING]
        if missing:
            found.remove(step)
            left_out.append(f"left out: {step.command}: there is no {', no '.join(missing)}")
    return found, left_out


def run_step(step: Step, output: Path) -> Ended:
    """Runs a step, with what it prints in a file."""
    began = time.monotonic()
    env = {**os.environ, "JOBS": str(step.places), **({"RT_JOBS": str(step.provers)} if step.provers else {})}
    with output.open("wb") as file:
        try:
            run = subprocess.Popen(
                step.command.split(), cwd=TOP, env=env, stdin=subprocess.DEVNULL, stdout=file, stderr=subprocess.STDOUT
            )
        except OSError as error:
            file.write(f"{error}\n".encode())
            return Ended(127)
        _, status, used = os.wait4(run.pid, 0)
        run.returncode = os.waitstatus_to_exitcode(status)
    return Ended(run.returncode, time.monotonic() - began, used.ru_utime, used.ru_stime)


class Gate:
    """Steps, those that wait and those that run, and the places and provers that are left."""

    def __init__(self, steps: list[Step], places: int, provers: int, folder: Path) -> None:
        self.waiting, self.places, self.provers, self.folder = list(steps), places, provers, folder
        self.running: dict[Future[Ended], Step] = {}
        self.began: dict[Step, float] = {}
        self.failed: list[Step] = []

    def file_of(self, step: Step) -> Path:
        return self.folder / f"{re.sub(r'[^0-9A-Za-z.-]+', '_', step.command)[:80]}.txt"

    def say(self, text: str) -> None:
        print(text, flush=True)

    def show(self, step: Step) -> None:
        """Shows what a step printed, whole."""
        sys.stdout.flush()
        sys.stdout.buffer.write(self.file_of(step).read_bytes())
        sys.stdout.flush()

    def leave_out(self, failed: Step) -> None:
        """Leaves out the steps that want what this one should have made."""
        for step in [each for each in self.waiting if each.waits_for(failed)]:
            self.waiting.remove(step)
            self.say(f"left out: {step.command}: it wants {failed.makes}")
            self.leave_out(step)

    def begin(self, pool: ThreadPoolExecutor) -> None:
        """Begins each step that can: a step alone may use more than there is."""
        for step in list(self.waiting):
            used = sum(each.places for each in self.running.values())
            proving = sum(each.provers for each in self.running.values())
            if any(step.waits_for(each) for each in [*self.waiting, *self.running.values()]):
                continue
            if step.places and used and used + step.places > self.places:
                continue
            if step.provers and proving and proving + step.provers > self.provers:
                continue
            self.waiting.remove(step)
            self.say(f"begins: {step.command}")
            self.began[step] = time.monotonic()
            self.running[pool.submit(run_step, step, self.file_of(step))] = step

    def end(self, future: Future[Ended]) -> None:
        """Shows how a step ended, and what is left."""
        step, ended = self.running.pop(future), future.result()
        seconds = f"took {ended.clock:.0f} s, of processors {ended.user:.0f} s and {ended.system:.0f} s of the system"
        if ended.status:
            self.say(f"FAILED: {step.command}: status {ended.status}, {seconds}; what it printed comes last")
            self.failed.append(step)
            self.leave_out(step)
        else:
            self.say(f"ended: {step.command}")
            self.show(step)
            self.say(f"{step.command} {seconds}")
        still = "; ".join(each.command for each in self.running.values())
        left = f", about {self.minutes_left()} minutes, of which run: {still}" if still else ""
        self.say(f"steps left: {len(self.waiting) + len(self.running)}{left}")

    def minutes_left(self) -> int:
        """About how many minutes the steps take that wait or run."""
        now = time.monotonic()
        run = {step: (now - self.began[step]) * max(1, step.places) for step in self.running.values()}
        work = sum(max(0, step.work - run.get(step, 0)) for step in [*self.waiting, *self.running.values()])
        return math.ceil(work / self.places / 60)

    def run(self) -> bool:
        """Runs all steps, and returns whether all passed."""
        shutil.rmtree(self.folder, ignore_errors=True)
        self.folder.mkdir(parents=True)
        with ThreadPoolExecutor(max(1, len(self.waiting))) as pool:
            self.begin(pool)
            while self.running:
                for future in wait(self.running, return_when=FIRST_COMPLETED).done:
                    self.end(future)
                self.begin(pool)
        for step in self.failed:
            self.show(step)
            self.say(f"FAILED: {step.command}")
        return not self.failed


def main() -> int:
    words = argparse.ArgumentParser(description=__doc__, formatter_class=argparse.RawDescriptionHelpFormatter)
    words.add_argument("--fast", action="store_true")
    fast = words.parse_args().fast
    places = len(os.sched_getaffinity(0))
    provers = min(places, provers_held())
    steps, left_out = chosen(steps_of(places, provers), fast)
    for line in left_out:
        print(line)
    print(f"{len(steps)} steps, on {places} processors" + ("" if fast else f", with memory for {provers} provers"), flush=True)
    return int(not Gate(steps, places, provers, TOP / "build/gate").run())


if __name__ == "__main__":
    sys.exit(main())
