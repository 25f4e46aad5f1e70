#!/usr/bin/env python3
"""Times a check or an audit beside its explanation, the runs in turn, and prints the least and the middle of each one's user and system seconds.

turns.py TURNS DRAIN COMMAND MAP WORD..     COMMAND is check or audit; the words are those of the run; ends with 1 where the first lines differ
"""

import os
import statistics
import subprocess
import sys
from pathlib import Path


def timed(words):
    """Seconds of user and system, and the first line of a run."""
    with subprocess.Popen(words, stdout=subprocess.PIPE, stderr=subprocess.DEVNULL) as run:
        text = run.stdout.read()
        _, _, used = os.wait4(run.pid, 0)
        run.returncode = 0
    return used.ru_utime + used.ru_stime, text.split(b"\n")[0]


def main():
    turns, drain, command, map_path, words = int(sys.argv[1]), sys.argv[2], sys.argv[3], sys.argv[4], sys.argv[5:]
    runs = {
        command: [drain, command, *words],
        "explain": [drain, "explain", *words],
        "explain --json": [drain, "explain", "--json", *words],
        "explain --map": [drain, "explain", "--map", map_path, *words],
    }
    seconds = {name: [] for name in runs}
    lines = {}
    for _ in range(turns):
        for name, run in runs.items():
            took, lines[name] = timed(run)
            seconds[name].append(took)
    del lines["explain --json"]
    for name, took in seconds.items():
        print(f"{name:15} least {min(took):6.2f}  middle {statistics.median(took):6.2f}")
    print(lines[command].decode())
    for path in (Path(map_path), Path(map_path).with_suffix(".hdr")):
        path.unlink(missing_ok=True)
    return 0 if len(set(lines.values())) == 1 else 1


if __name__ == "__main__":
    sys.exit(main())
