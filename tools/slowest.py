#!/usr/bin/env python3
"""Prints the modules whose proofs took longest, a line `crate module seconds` each, then the seconds of each crate.

slowest.py [--top N] [TREE]     TREE is this repository where none is given; N is 20

A check that keeps its work writes a file below out/incremental for each module once it is checked. So the time since
the file before is what the module took, and the time from the first file to the last is what the crate took.

That is right of a crate that one job proved from nothing, as `rt check --jobs 1` and `rt lib --jobs 1` do. Several jobs
write side by side: then a module's time is at most that. Where a check began again over what an earlier one kept, the
time between them counts as the first new module's.
"""

import argparse
from collections import Counter
from pathlib import Path

TOP = Path(__file__).resolve().parent.parent


def module_of(file: Path, crate: str) -> str:
    """The module that a file was written for, without the name of its crate."""
    name = file.name.removesuffix(".oantt").removesuffix(".decls")
    return name.removeprefix(f"Rattle-{crate}").lstrip("-.") or crate


def seconds_of(folder: Path, crate: str) -> Counter[str]:
    """The seconds of each module of a crate whose work is kept in this folder."""
    files = sorted((file.stat().st_mtime_ns, file) for file in folder.rglob("*.oantt"))
    seconds: Counter[str] = Counter()
    for (before, _), (ended, file) in zip(files, files[1:]):
        seconds[module_of(file, crate)] += (ended - before) / 1e9
    return seconds


def main() -> None:
    parser = argparse.ArgumentParser(description=__doc__, formatter_class=argparse.RawDescriptionHelpFormatter)
    parser.add_argument("--top", type=int, default=20, metavar="N", help="how many modules are printed")
    parser.add_argument("tree", type=Path, nargs="?", default=TOP, metavar="TREE")
    given = parser.parse_args()
    modules: Counter[tuple[str, str]] = Counter()
    crates: Counter[str] = Counter()
    for folder in given.tree.glob("crates/*/out/incremental"):
        crate = folder.parent.parent.name
        for module, seconds in seconds_of(folder, crate).items():
            modules[crate, module] = seconds
            crates[crate] += seconds
    for (crate, module), seconds in modules.most_common(given.top):
        print(f"{crate} {module} {seconds:.1f}")
    print()
    for crate, seconds in crates.most_common():
        print(f"{crate} {seconds:.1f}")


if __name__ == "__main__":
    main()
