#!/usr/bin/env python3
"""Runs `rt ci`, prints what it prints, and says after each crate how far the proofs are, and about how long the others take.

The time that is left is reckoned by lines of code. Ends as `rt ci` does.

Usage: tools/gate_proofs.py
"""

import re
import subprocess
import sys
import time
from pathlib import Path

TOP = Path(__file__).resolve().parent.parent


def lines_of(crate: Path) -> int:
    """The lines of a crate's code."""
    return sum(file.read_bytes().count(b"\n") for file in (crate / "src").rglob("*.rt"))


def main() -> int:
    names = re.findall(r"^(\w+)[^:#\n]*:", (TOP / "crates.txt").read_text(), re.M)
    # The proof of a crate of tests is that of its tests.
    lines = {f"{name}: its tests are" if name.endswith("_tests") else name: lines_of(TOP / "crates" / name) for name in names}
    proved, began = set[str](), time.monotonic()
    with subprocess.Popen(["rt", "ci"], cwd=TOP, stdout=subprocess.PIPE, text=True, errors="replace") as run:
        for line in run.stdout:
            print(line, end="", flush=True)
            said = re.fullmatch(r"rt: (.+) proved\n", line)
            if said and said[1] in lines:
                proved.add(said[1])
                done, spent = sum(lines[name] for name in proved), (time.monotonic() - began) / 60
                left = spent * (sum(lines.values()) - done) / max(done, 1)
                print(f"proved: {len(proved)} of {len(lines)} crates in {spent:.0f} minutes, about {left:.0f} left", flush=True)
    return run.returncode


if __name__ == "__main__":
    sys.exit(main())
