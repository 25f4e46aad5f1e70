#!/usr/bin/env python3
"""Proves what is built and all below it, and builds it: the program, the program for x86-64-v3, the library for C.

Crates are proved side by side, those with the longest chain of others above them first; where a processor would be idle,
the first gets it too. What is proved is kept in crates/*/out, where rt keeps its work too, and libraries in
build/libraries; what was kept is taken where its sources and those below are the same. With --anew nothing is taken or
kept. With --over nothing below what is built is proved: `rt ci` did so just now, in that folder.

Each TARGET ends in what is built: drain, drain-v3 or libdrain.a. Beside it come the record of its proof, TARGET.proved, and
of a program the object that it was linked from, TARGET.o. Nothing is done where these fit the sources.

Usage: tools/build.py [--anew] [--over FOLDER] TARGET..
"""

from __future__ import annotations

import argparse
import contextlib
import dataclasses
import fcntl
import functools
import hashlib
import os
import re
import shutil
import subprocess
import sys
import tempfile
import time
from collections.abc import Iterator
from concurrent.futures import FIRST_COMPLETED, Future, ThreadPoolExecutor, wait
from pathlib import Path

TOP = Path(__file__).resolve().parent.parent
TOOLS = TOP / "tools"
# A check takes at most this much memory.
BYTES_OF_A_CHECK = 5 << 30
# The last line of a proof may have these words and no others: they say what was trusted, and which code the proof is of.
PROVED = re.compile(
    r"^logic=proved functions=(\d+)( (axioms|target|cpu|sum|native|logic-built|libraries-built|statements|incremental)=\S+)+$", re.M
)
# Where rt keeps what was proved, in a crate's folder; and where libraries are kept here.
KEPT = ("--incremental", "out/incremental")
LIBRARIES = TOP / "build/libraries"
# What the prover reads of a crate.
PARTS = ("src", "specs", "proofs")


class NotProved(Exception):
    """A crate that was not proved or not built, with what the prover printed."""


@dataclasses.dataclass(frozen=True)
class Product:
    """What is built: its crate, the file that the compiler makes, and the processor where it isn't the usual one."""

    crate: str
    made: str
    words: tuple[str, ...] = ()
    cpu: str = ""


PRODUCTS = {
    "drain": Product("drain", "drain.o"),
    "drain-v3": Product("drain", "drain.o", ("--cpu", "x86-64-v3"), "x86-64-v3"),
    "libdrain.a": Product("drain_c", "libdrain_c.a", ("--crate-type", "staticlib")),
}


@functools.cache
def rt_says(word: str) -> str:
    """What the toolchain prints at a word."""
    return subprocess.run(["rt", word], check=True, capture_output=True, text=True).stdout.strip()


def kit() -> Path:
    """The toolchain's folder."""
    return Path(rt_says("doc")).parent


def read_crates() -> dict[str, list[str]]:
    """The crates of crates.txt, the lowest first, each with the libraries that it names."""
    lines = (line.partition("#")[0].partition(":") for line in (TOP / "crates.txt").read_text().splitlines())
    return {name.split()[0]: rest.split() for name, colon, rest in lines if colon and name.split()}


def with_all_below(tops: set[str], uses: dict[str, list[str]]) -> list[str]:
    """These crates and all that they use, the lowest first."""
    found = set(tops)
    for name in reversed(uses):
        if name in found:
            found |= {low for low in uses[name] if low in uses}
    return [name for name in uses if name in found]


def sources_sum() -> str:
    return subprocess.run([TOOLS / "sources_sum.sh"], check=True, capture_output=True, text=True).stdout.strip()


def is_built(target: Path) -> bool:
    """Whether a target's record fits it and the sources, with the object of a program for x86-64-v3."""
    ran = subprocess.run([TOOLS / "is_proved.sh", target], stderr=subprocess.DEVNULL)
    return ran.returncode == 0 and (target.name != "drain-v3" or target.with_name("drain-v3.o").is_file())


class Progress:
    """One line on a terminal that says how far the proofs are; elsewhere a line in half a minute."""

    def __init__(self, crates: int) -> None:
        self.crates, self.proved, self.functions = crates, 0, 0
        self.started = self.shown = time.monotonic()

    def seconds(self) -> int:
        return int(time.monotonic() - self.started)

    def add(self, functions: int) -> None:
        self.proved += 1
        self.functions += functions

    def show(self) -> None:
        text = f"{self.seconds():3d} s  {self.proved} of {self.crates} crates proved, with {self.functions} functions"
        if sys.stdout.isatty():
            print(f"\r\033[K{text}", end="", flush=True)
        elif time.monotonic() - self.shown >= 30:
            self.shown = time.monotonic()
            print(text, flush=True)

    def end(self) -> None:
        if sys.stdout.isatty():
            print("\r\033[K", end="", flush=True)


@contextlib.contextmanager
def held(crate: str) -> Iterator[None]:
    """Keeps rt out of a crate's folder, as rt keeps others out."""
    folder = os.open(TOP / "crates" / crate, os.O_RDONLY)
    try:
        fcntl.flock(folder, fcntl.LOCK_EX)
        yield
    finally:
        os.close(folder)


def run_kit(words: list[str | Path], what: str = "", cwd: Path = TOP, given: str = "") -> str:
    """Runs a program of the toolchain, and returns what it printed."""
    how = {"stdout": subprocess.PIPE, "stderr": subprocess.STDOUT, "text": True, "errors": "replace"}
    ran = subprocess.run(list(map(str, words)), cwd=cwd, input=given, **how)
    if ran.returncode:
        raise NotProved(what + ran.stdout)
    return ran.stdout


class Prover:
    """Calls of rattle over libraries that are proved: in a folder of their own, or where `rt ci` left them."""

    def __init__(self, uses: dict[str, list[str]], libraries: Path, over: Path | None, keeps: bool) -> None:
        self.uses, self.libraries, self.over, self.keeps = uses, libraries, over, keeps
        self.key = functools.cache(self.sum_of)

    def sum_of(self, crate: str) -> str:
        """A sum of all that decides what a library is: its sources, those below, and the toolchain."""
        found = hashlib.sha256(repr([rt_says("version"), self.uses[crate]]).encode())
        folder = TOP / "crates" / crate
        for file in sorted(it for part in PARTS for it in (folder / part).rglob("*") if it.is_file()):
            found.update(hashlib.sha256(str(file.relative_to(folder)).encode()).digest())
            found.update(hashlib.sha256(file.read_bytes()).digest())
        for low in self.uses[crate]:
            found.update((self.key(low) if low in self.uses else low).encode())
        return found.hexdigest()

    def rlib(self, name: str) -> Path:
        if name not in self.uses:
            return kit() / "rlibs" / f"{name}.rlib"
        return (self.over / "crates" / name / "out/rlib" if self.over else self.libraries) / f"{name}.rlib"

    def build(self, crate: str, made: Path, root: str, *words: str) -> int:
        """Proves a crate and writes what is made of it. Returns how many functions were proved."""
        whole: list[str | Path] = [kit() / "bin/rattle", "build", "--crate-name", crate, root]
        for name in ["std", *self.uses[crate]]:
            whole += ["--extern", f"{name}={self.rlib(name)}"]
        for folder in dict.fromkeys(self.rlib(name).parent for name in ["std", *with_all_below({crate}, self.uses)]):
            whole += ["-L", f"dependency={folder}"]
        whole += ["--antt-project", f"{kit()}/rattle/logic/antt-project.json", "--logic-built", f"{kit()}/logic_built"]
        whole += ["--links", f"{crate}=", *words, "-o", made]
        with held(crate) if self.keeps else contextlib.nullcontext():
            (TOP / "crates" / crate / "out").mkdir(exist_ok=True)
            said = run_kit(whole, cwd=TOP / "crates" / crate, what=f"{crate}:\n")
        proved = PROVED.search(said)
        if not proved:
            raise NotProved(f"{crate}:\n{said}")
        return int(proved[1])

    def prove(self, crate: str, jobs: int) -> int:
        """Proves a library, unless the one that is kept is of these sources."""
        if not self.keeps:
            return self.build(crate, self.rlib(crate), "src/lib.rt", "--jobs", str(jobs), "--statements")
        kept, key = self.libraries / f"{crate}.key", self.key(crate)
        if kept.is_file() and kept.read_text().split()[0] == key and self.rlib(crate).is_dir():
            return int(kept.read_text().split()[1])
        kept.unlink(missing_ok=True)
        functions = self.build(crate, self.rlib(crate), "src/lib.rt", "--jobs", str(jobs), *KEPT)
        kept.write_text(f"{key} {functions}\n")
        return functions

    def compile(self, product: Product, made: Path, jobs: int) -> int:
        """Proves the crate of what is built, and compiles it."""
        root = "src/lib.rt" if "--crate-type" in product.words else "src/main.rt"
        words = [*KEPT] if self.keeps else []
        words += ["--toolchain", f"{kit()}/toolchain", "--backend", "llvm", "--jobs", str(jobs)]
        return self.build(product.crate, made, root, *words, *product.words)


def link(made: Path, whole: Path) -> None:
    """Makes a program, or the library for C, of what was compiled."""
    libraries = [kit() / "c/libos_c.a", kit() / "c/liblibc_c.a"]
    if made.suffix == ".a":
        script = "\n".join([f"create {whole}", f"addlib {made}", f"addlib {libraries[1]}", "save", "end", ""])
        run_kit([kit() / "toolchain/bin/llvm-ar", "-M"], given=script)
    else:
        words = ["--target", "x86_64-unknown-linux-gnu", "--toolchain", kit() / "toolchain"]
        run_kit([kit() / "bin/rattle-link", *words, "-o", whole, made, *libraries])


def put(product: Product, made: Path, target: Path, proved_sum: str) -> None:
    """Puts what was built, with the object of a program and the record of the proof, in place of an earlier one."""
    whole = made.with_name("whole")
    link(made, whole)
    target.parent.mkdir(parents=True, exist_ok=True)
    target.with_name(f"{target.name}.proved").unlink(missing_ok=True)
    files = {whole: target.name} if made.suffix == ".a" else {made: f"{target.name}.o", whole: target.name}
    for file, name in files.items():
        new = target.with_name(f"{name}.new")
        shutil.copy(file, new)
        new.replace(target.with_name(name))
    words = [TOOLS / "record_proof.sh", target, proved_sum, *[product.cpu] * bool(product.cpu)]
    subprocess.run(words, check=True)


def chains(below: dict[str, list[str]]) -> dict[str, int]:
    """The size of the longest chain of crates from each one upwards, by the bytes of their code."""
    longest: dict[str, int] = {}
    for name in reversed(below):
        above = [longest[other] for other in longest if name in below[other]]
        size = sum(it.stat().st_size for it in (TOP / "crates" / name / "src").rglob("*.rt"))
        longest[name] = size + max(above, default=0)
    return longest


def processors() -> int:
    """How many jobs run side by side: one a processor, as many as memory holds."""
    free = re.search(r"MemAvailable:\s+(\d+)", Path("/proc/meminfo").read_text())
    held = int(free[1]) * 1024 // BYTES_OF_A_CHECK if free else 1
    return max(1, min(len(os.sched_getaffinity(0)), held))


def prove_all(prover: Prover, tops: dict[str, list[Path]], made: dict[Path, Path], progress: Progress) -> None:
    """Proves the crates below what is built, each once those that it uses are proved, and then compiles that."""
    crates = with_all_below({*tops}, prover.uses)
    below = {name: [low for low in prover.uses[name] if low in prover.uses] for name in crates}
    chain = chains(below)
    # What is done: a library, or each target of a crate that is built.
    work: list[tuple[str, Path | None]] = [(name, None) for name in crates if name not in tops and not prover.over]
    work += [(name, target) for name in tops for target in tops[name]]
    work.sort(key=lambda it: -chain[it[0]])
    lanes, proved = processors(), {*crates} - {*tops} if prover.over else set[str]()
    running: dict[Future[int], tuple[str, int]] = {}

    def begin(name: str, target: Path | None, jobs: int) -> Future[int]:
        if target is None:
            return pool.submit(prover.prove, name, jobs)
        return pool.submit(prover.compile, PRODUCTS[target.name], made[target], jobs)

    with ThreadPoolExecutor(lanes) as pool:
        while work or running:
            ready = [it for it in work if proved.issuperset(below[it[0]])]
            for at, it in enumerate(ready):
                idle = lanes - sum(jobs for _, jobs in running.values())
                if idle <= 0:
                    break
                jobs = max(1, idle - (len(ready) - at - 1))
                work.remove(it)
                running[begin(*it, jobs)] = it[0], jobs
            for done in wait(running, timeout=1, return_when=FIRST_COMPLETED).done:
                name, _ = running.pop(done)
                progress.add(done.result())
                proved.add(name)
            progress.show()


def build(targets: list[Path], over: Path | None, keeps: bool) -> None:
    """Proves and builds the targets."""
    uses = read_crates()
    tops: dict[str, list[Path]] = {}
    for target in targets:
        tops.setdefault(PRODUCTS[target.name].crate, []).append(target)
    libraries = 0 if over else len(with_all_below({*tops}, uses)) - len(tops)
    progress = Progress(libraries + len(targets))
    print(f"Proving {progress.crates} crates: 40 to 50 minutes with 4 processors the first time ...", flush=True)
    proved_sum = sources_sum()
    LIBRARIES.mkdir(parents=True, exist_ok=True)
    with tempfile.TemporaryDirectory(dir=TOP / "build", prefix="proving-") as folder:
        scratch = Path(folder)
        made = {target: scratch / target.name / PRODUCTS[target.name].made for target in targets}
        for file in made.values():
            file.parent.mkdir()
        try:
            prove_all(Prover(uses, LIBRARIES if keeps else scratch, over, keeps), tops, made, progress)
        finally:
            progress.end()
        if sources_sum() != proved_sum:
            raise NotProved("the sources changed while they were proved: run this again")
        for target in targets:
            put(PRODUCTS[target.name], made[target], target, proved_sum)
            print(f"Proved and built in {progress.seconds()} seconds: {os.path.relpath(target, TOP)}", flush=True)


def main() -> int:
    parser = argparse.ArgumentParser(description=__doc__, formatter_class=argparse.RawDescriptionHelpFormatter)
    parser.add_argument("--anew", action="store_true", help="take nothing that was proved before")
    parser.add_argument("--over", type=Path, metavar="FOLDER", help="take the libraries that rt ci has just proved there")
    parser.add_argument("targets", type=lambda it: Path(it).absolute(), nargs="+", metavar="TARGET")
    words = parser.parse_args()
    for target in words.targets:
        if target.name not in PRODUCTS:
            parser.error(f"{target.name} is none of {', '.join(PRODUCTS)}")
    missing = [target for target in words.targets if words.anew or not is_built(target)]
    for target in words.targets:
        if target not in missing:
            print(f"Unchanged since it was proved and built: {os.path.relpath(target, TOP)}")
    if missing and shutil.which("rt") is None:
        print("built by the Rattle toolchain: put its command rt on the PATH", file=sys.stderr)
        return 1
    keeps = not words.anew and not words.over
    try:
        if missing:
            build(missing, words.over and words.over.absolute(), keeps)
    except NotProved as error:
        lines = str(error).splitlines()
        telling = [it for it in lines if re.search(r": error|no proof|did not prove|not proved", it)]
        print("\n".join((telling or lines[-20:])[:20]), file=sys.stderr)
        return 1
    return 0


if __name__ == "__main__":
    sys.exit(main())
