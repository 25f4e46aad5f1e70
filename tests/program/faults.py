#!/usr/bin/env python3
"""Changes the outcome of each open, read, write, query of a file, rename and allocation of the program, one after the
other, and checks its answer.

faults.py DRAIN SHIM     SHIM is tests/fail_calls.c as a shared library

A call is refused, alone or with every later one; is interrupted, once or for ever; moves one byte; or the process is killed in its place.
Files of a check are cut or written over between its reads. A run has to print the right line, or to report the failure with
status 3 and the system's reason: never to crash or to hang. A folder of products or of a map is as it was before a run that
failed, byte for byte, or has all new files; only if a rename fails it may have some of both. Prints how many runs passed.
"""

import json
import os
import re
import shutil
import subprocess
import sys
import tempfile
from pathlib import Path
from typing import NamedTuple

sys.dont_write_bytecode = True
from large_sets import SETS, bends, funnel, ring

PRODUCTS = ["con", "dir", "acc", "bas", "rnk"]
FILES = [f"{product}.{part}" for product in PRODUCTS for part in ("hdr", "bil")]
PIT = Path(__file__).resolve().parents[2] / "samples"
MOST_SECONDS = 120
FAILED = 3
IO_ERROR = "5"
PART = re.compile(r"drain-[0-9]+\.part")
REASON = re.compile(r"error: .+: .+ \(os error [0-9]+\)\n")

# What standard error has beside the line of a failed read: nothing, or that it was a list or a text of widths.
NO_TEXT = re.compile(r"|error: .+: it can't be read, or has more than [0-9]+ bytes\n")

# What `explain` prints below the line of right products.
RIGHT_PAGE = """
slopes: square cells
hold: 1 VoidCell, 2 Missing, 3 BadCode, 4 BelowGround, 5 OpenRaised, 9 NotLeast, 10 Slope, 11 OutletCode, 12 FlatStep, \
13 Accumulation, 14 Label, 15 SharedLabel
not tried: 6 NoSpill, 7 SpillHeight, 8 SpillRank
"""

# What a failure of each kind of call prints; a line that can't be written isn't there.
TELLS = {
    "open": lambda line: line.startswith("failed Open "),
    "read": lambda line: line == "failed ReadFailed\n",
    "write": lambda line: line in ("", "failed WriteFailed\n"),
    "look": lambda line: TELLS["allocation"](line),
    "rename": lambda line: line == "failed WriteFailed\n",
    "allocation": lambda line: line == "failed OutOfMemory\n",
}

# The members of an object of an explanation.
MEMBERS = ["answer", "refusal", "rows", "cols", "ranks", "rules", "products", "patch", "expected", "run"]
MEMBERS += ["schema", "status", "rule", "name", "row", "col"]


def answer_in(output):
    """The line that an object on a line of its own answers. Nothing printed is no line; other text is no answer."""
    if output == "":
        return ""
    try:
        page = json.loads(output) if output.endswith("\n") and output.count("\n") == 1 else {}
    except json.JSONDecodeError:
        page = {}
    return f"{page['answer']}\n" if list(page) == MEMBERS else None


class Ended(NamedTuple):
    """The status of a run, and what it printed."""

    status: int
    line: str
    errors: str


def contents(folder):
    """The files of a folder, by name."""
    return {file.name: file.read_bytes() for file in folder.iterdir()}


class Run:
    """A command of the program, its standard input, and the expected line."""

    def __init__(self, drain, words, line, status=0, stdin=os.devnull):
        self.drain, self.words, self.line, self.status, self.stdin = drain, words, line, status, stdin

    def under(self, **variables):
        """A run with these variables of the environment."""
        with open(self.stdin, "rb") as stdin:
            try:
                ended = subprocess.run([self.drain, *self.words], stdin=stdin, stdout=subprocess.PIPE, stderr=subprocess.PIPE,
                                       timeout=MOST_SECONDS, env={**os.environ, **variables}, check=False)
            except subprocess.TimeoutExpired:
                return Ended(None, f"no end within {MOST_SECONDS} seconds", "")
        return Ended(ended.returncode, ended.stdout.decode(errors="replace"), ended.stderr.decode(errors="replace"))

    def is_right(self, ended):
        return ended == (self.status, self.line, "")

    def tells(self, call, ended, how="refused"):
        """Whether it ended with a failure of this call: as an object, if that is requested. A file that can't be opened or
        written has its reason, unless every later call fails too."""
        line = answer_in(ended.line) if "--json" in self.words else ended.line
        if line is None:
            return False
        names_file = line.startswith(("failed Open ", "failed WriteFailed"))
        has_reason = (REASON if names_file else NO_TEXT).fullmatch(ended.errors)
        return ended.status == FAILED and TELLS[call](line) and bool(has_reason or how == "later")


class Faults:
    def __init__(self, drain, shim, scratch):
        self.drain, self.shim, self.scratch = drain, shim, scratch
        self.mark = scratch / "mark"
        self.passed, self.failed = 0, 0
        self.tile = scratch / "N00E000.hgt"
        self.products = scratch / "products"
        self.made = scratch / "made"
        self.check = Run(drain, ["check", "--side", "3", "--products", str(self.products), str(self.tile)],
                         "accepted rows=3 cols=3 data=9 raised=1 outlets=8\n")
        self.audit = Run(drain, ["audit", *self.check.words[1:]], self.check.line)
        parts = {"con": "accepted rows=3 cols=3 data=9 raised=1\n", "con,dir": self.check.line, "con,dir,bas": self.check.line}
        self.parts = [Run(drain, ["audit", "--only", list_, *self.check.words[1:]], line) for list_, line in parts.items()]
        self.dem = scratch / "dem.bil"
        given = ["--dem", str(self.dem), "--products", str(self.products)]
        self.dems = [Run(drain, [run.words[0], *given], run.line) for run in (self.check, self.audit)]
        self.dems.append(Run(drain, [*self.dems[1].words, "--only", "con"], parts["con"]))
        self.derive, self.derive_over = (Run(drain, ["derive", "--out", str(self.made), *self.check.words[1:]], "derived rows=3 cols=3\n") for _ in range(2))
        self.make, self.make_dem = (Run(drain, ["make", "--out", str(self.made), *words], "made rows=3 cols=3\n") for words in (["--side", "3", str(self.tile)], given[:2]))
        self.list = scratch / "sinks.txt"
        self.list.write_text("0 0\n\n1 1\n")
        self.listing = ["--sinks", str(self.list)]
        self.check_listed = Run(drain, [*self.check.words, *self.listing], "rejected rule=5 OpenRaised row=1 col=1\n", status=1)
        self.audit_listed = Run(drain, [*self.audit.words, *self.listing], self.check_listed.line, status=1)
        self.con_listed = Run(drain, [*self.parts[0].words, *self.listing], self.check_listed.line, status=1)
        self.make_listed = Run(drain, [*self.make.words, *self.listing], self.make.line)
        self.make_over = Run(drain, self.make.words, self.make.line)
        mapped = [*self.check.words[1:], "--map", str(self.made / "faults.bil")]
        self.explain, self.explain_object = (Run(drain, ["explain", *mapped, *form], "") for form in ([], ["--json"]))
        self.explain_over = Run(drain, self.explain.words, "")
        self.other = scratch / "N01E000.hgt"
        self.apart = scratch / "apart"
        words = ["explain", "--side", "3", "--products", str(self.apart), str(self.tile), str(self.other)]
        self.explain_seam, self.seam_object = (Run(drain, [*words, *form], "", status=2) for form in ([], ["--json"]))
        self.window, self.window_over = (self.window_run("0,0,3,2", "e", self.made / "report.txt", "cols=2 data=3 raised=0 outlets=3") for _ in range(2))
        self.window_dem = Run(drain, [*self.window.words[:7], "--at", "7,5", *given], self.window.line)
        self.reports, self.texts = [scratch / "west.txt", scratch / "east.txt"], []
        self.merge = Run(drain, ["merge", *map(str, self.reports)], self.check.line)
        joined = ["merge", "--report", str(self.made / "report.txt"), *map(str, self.reports)]
        self.join, self.join_over = (Run(drain, joined, self.check.line) for _ in range(2))
        self.merge_listed = Run(drain, [*self.merge.words, *self.listing], "refused SinkLeftOut 1\n", status=2)
        self.fill = Run(drain, ["fill", "--side", "3"], "accepted rows=3 cols=3 data=9 raised=1\n", stdin=PIT / "pit-3.fill")
        header = subprocess.run([drain, "header", PIT / "pit-3/con.hdr"], stdout=subprocess.PIPE, check=True).stdout.decode()
        self.header = Run(drain, ["header", str(PIT / "pit-3/con.hdr")], header)

    def window_run(self, box, inner, report, counts):
        """The pit's products in a window of all rows: its box, its inner side, its report and its counts."""
        words = ["window", "--box", box, "--inner", inner, "--report", str(report), *self.check.words[1:]]
        return Run(self.drain, words, f"accepted rows=3 {counts}\n")

    def report(self):
        """The reports of two windows that overlap in columns 0 and 1."""
        self.restore()
        for run in (self.window_run("0,0,3,2", "e", self.reports[0], "cols=2 data=3 raised=0 outlets=3"),
                    self.window_run("0,0,3,3", "w", self.reports[1], "cols=3 data=6 raised=1 outlets=5")):
            if not run.is_right(run.under()):
                sys.exit("FAILED: window does not succeed where no call fails")
        self.texts = [report.read_bytes() for report in self.reports]

    def restore(self, run=None):
        """The pit and its products as they should be, and the folder that a run writes into: empty, or with files of the same
        names and other bytes."""
        for folder in (self.products, self.made):
            shutil.rmtree(folder, ignore_errors=True)
            folder.mkdir()
        if run in self.over:
            for name, bytes_of in self.over[run].items():
                (self.made / name).write_bytes(bytes_of)
        self.before = contents(self.made)
        for name in FILES:
            shutil.copy(PIT / "pit-3" / name, self.products / name)
        shutil.copy(PIT / "pit-3" / "N00E000.hgt", self.tile)
        shutil.copy(self.tile, self.dem)
        self.dem.with_suffix(".hdr").write_text((PIT / "pit-3/con.hdr").read_text().replace("BYTEORDER I", "BYTEORDER M"))
        for report, text in zip(self.reports, self.texts):
            report.write_bytes(text)

    def part(self):
        """A second tile that differs on the seam, and products of the shape of both."""
        self.other.write_bytes(bytes([0, 7] * 9))
        self.apart.mkdir()
        for name in FILES[:-2]:
            if name.endswith(".hdr"):
                text = (PIT / "pit-3" / name).read_text()
                (self.apart / name).write_text(text.replace("NROWS 3", "NROWS 5").replace("ULYMAP 1", "ULYMAP 2"))
            else:
                (self.apart / name).write_bytes(bytes(60))

    def judge(self, name, is_right, ended):
        if is_right:
            self.passed += 1
        else:
            self.failed += 1
            print(f"FAILED {name}: status {ended.status}, {ended.line!r}, {ended.errors!r}")

    def each_call(self, run, call, how, numbers=range(1, 100_000), **variables):
        """Runs until there is no such call any more, and yields the number of the call and how the run ended."""
        for number in numbers:
            self.restore(run)
            self.mark.unlink(missing_ok=True)
            ended = run.under(LD_PRELOAD=str(self.shim), FAIL_CALL=call, FAIL_AT=str(number), FAIL_HOW=how,
                              FAIL_MARK=str(self.mark), **variables)
            if not self.mark.exists():
                self.judge(f"{run.words[0]}, no {call} {number}", run.is_right(ended) and number > 1, ended)
                return
            yield f"{run.words[0]}: {call} {number} {how}", ended

    def refused(self, run):
        """Each call fails, alone and with every later one. A call refused alone may be made again in another way; without
        memory for lanes a check, an audit and a make try each cell alone; and a make looks at its files once more when it
        opens them."""
        for call in TELLS:
            for how in ("refused", "later"):
                if run not in self.calls[call]:
                    continue
                for name, ended in self.each_call(run, call, how):
                    does_without = call == "allocation" and (how == "refused" or run is not self.fill) or call == "look" and run in self.makers
                    self.judge(name, does_without and run.is_right(ended) or run.tells(call, ended, how), ended)
                    self.look_at_what_is_left(run, call, how, name, ended)
        if run in self.calls["look"]:
            for name, ended in self.each_call(run, "look", "refused", FAIL_ERROR=IO_ERROR):
                self.judge(name, run in self.makers and run.is_right(ended) or run.tells("open", ended), ended)
                self.look_at_what_is_left(run, "look", "refused", name, ended)

    def refused_here_and_there(self):
        """On large inputs allocations fail whose numbers grow: 1, 2, 3, 5, 8 and so on. A run answers all the same, or
        reports that memory ran out."""
        for run in self.large_runs():
            numbers = [1, 2]
            while numbers[-1] < 100_000_000:
                numbers.append(numbers[-2] + numbers[-1])
            for how in ("refused", "later"):
                for name, ended in self.each_call(run, "allocation", how, numbers):
                    tells = ended[0] == FAILED and TELLS["allocation"](ended[1])
                    self.judge(f"{name} ({run.line.splitlines()[0]})", tells or run.is_right(ended), ended)

    def large_runs(self):
        """Runs on some 150,000 labels, one after the other and scattered; on a list of 40,401 sinks; on a path and a ring
        of some 40,000 cells; and on twelve tiles."""
        runs = []
        for kind, side, counts in (
            ("checkers", 449, "rows=449 cols=449 data=151425 raised=0 outlets=151425"),
            ("scattered", 449, "rows=449 cols=449 data=151425 raised=0 outlets=151425"),
            ("listed", 201, "rows=201 cols=201 data=40401 raised=0 outlets=40401"),
        ):
            folder = self.scratch / kind
            folder.mkdir()
            SETS[kind](folder)
            listing = ["--sinks", str(folder / "sinks.txt")] if kind == "listed" else []
            words = ["--side", str(side), *listing, str(folder / "N00E000.hgt")]
            judged = ["--products", str(folder / "out"), *words]
            runs += [Run(self.drain, [it, *judged], f"accepted {counts}\n") for it in ("audit", "check")]
            runs.append(Run(self.drain, ["make", "--out", str(self.made), *words], f"made rows={side} cols={side}\n"))
            runs.append(Run(self.drain, ["audit", "--only", "con", *judged], f"accepted {counts.rpartition(' ')[0]}\n"))
            runs.append(Run(self.drain, ["audit", "--only", "con,dir,bas", *judged], f"accepted {counts}\n"))
            runs.append(Run(self.drain, ["derive", "--out", str(self.made), *judged], f"derived rows={side} cols={side}\n"))
            window = ["window", "--box", f"0,0,{side},{side}", "--report"]
            runs.append(Run(self.drain, [*window, str(self.made / "report.txt"), *judged], f"accepted {counts}\n"))
            report = str(folder / "report.txt")
            Run(self.drain, [*window, report, *judged], "").under()
            runs.append(Run(self.drain, ["merge", report, *listing], f"accepted {counts}\n"))
        bends_line = "accepted rows=201 cols=201 data=40401 raised=0 outlets=800"
        for write, answer in ((bends, bends_line), (ring, "rejected NoEnd row=1 col=1")):
            folder = self.scratch / write.__name__
            folder.mkdir()
            write(folder, 201)
            words = ["audit", "--side", "201", "--products", str(folder / "out"), str(folder / "N00E000.hgt")]
            runs.append(Run(self.drain, words, f"{answer}\n", status=int(answer.startswith("rejected"))))
        folder = self.scratch / "funnel"
        folder.mkdir()
        funnel(folder, 51)
        words = ["--side", "51", *(str(tile) for tile in sorted(folder.glob("*.hgt")))]
        make = Run(self.drain, ["make", "--out", str(folder), *words], "made rows=151 cols=201\n")
        make.under()
        counts = "rows=151 cols=201 data=30351 raised=0 outlets=1"
        judged = ["--products", str(folder), *words]
        runs += [Run(self.drain, [it, *judged], f"accepted {counts}\n") for it in ("audit", "check")]
        runs.append(Run(self.drain, ["explain", *judged], f"accepted {counts}\n{RIGHT_PAGE}"))
        return [*runs, make]

    def endless(self, run):
        """Each call to read, and each later one, is interrupted for ever: it is a failed read, or in a second look at files what
        they hold isn't reported."""
        for name, ended in self.each_call(run, "read", "endless"):
            self.judge(name, run.tells("read", ended, "later") or self.is_bare(run, ended), ended)
            self.look_at_what_is_left(run, "read", "endless", name, ended)

    def is_bare(self, run, ended):
        """Whether a refusal was explained without details."""
        if run is self.explain_seam:
            return ended == (2, run.line.splitlines(keepends=True)[0], "")
        bare = {**json.loads(run.line), "refusal": None} if run is self.seam_object else None
        return bare is not None and ended.status == 2 and bool(answer_in(ended.line)) and json.loads(ended.line) == bare

    def harmless(self, run):
        """An interruption, and a call that moves one byte, change nothing."""
        for call in ("read", "write"):
            for how in ("interrupted", "short"):
                for name, ended in self.each_call(run, call, how):
                    self.judge(name, run.is_right(ended), ended)
                    self.look_at_what_is_left(run, call, how, name, ended)

    def killed(self):
        """A run that writes files is killed in place of each call that creates, writes or renames one."""
        for run in (self.make, self.make_over, self.make_dem, self.derive, self.derive_over, self.window, self.window_over, self.join, self.join_over, self.explain_over):
            for call in ("open", "write", "rename"):
                for name, ended in self.each_call(run, call, "killed"):
                    self.judge(name, ended == (-9, "", ""), ended)
                    self.look_at_what_is_left(run, call, "killed", name, ended)

    def changed(self):
        """A tile, a raster or a report is cut or written over between two reads of a check, an audit, a window, a derivation or
        a merge: it answers some line of its own."""
        begins = ("accepted ", "made ", "derived ", "rejected ", "refused RasterShort ", "refused BadTileLength ", "refused BadReport ", "failed ReadFailed")
        rasters = [self.products / f"{product}.bil" for product in PRODUCTS]
        parts = [(self.parts[0], [self.tile, *rasters[:1]]), (self.parts[1], [self.tile, *rasters[:2]]), (self.derive, [self.tile, rasters[1]])]
        parts += [(self.make_dem, [self.dem]), *((run, [self.dem, rasters[0]]) for run in self.dems)]
        four = [self.tile, *rasters[:-1]]
        for run, files in ((self.check, [self.tile, *rasters]), (self.audit, four), (self.window, four), (self.merge, self.reports), (self.join, self.reports), *parts):
            for file in files:
                for how in ("cut", "turned"):
                    for name, ended in self.each_call(run, "read", how, FAIL_FILE=str(file)):
                        self.judge(f"{name} ({file.name})", 0 <= ended.status <= FAILED and ended.line.startswith(begins), ended)

    def look_at_what_is_left(self, run, call, how, name, ended):
        """The files of a run that succeeded are new; of one that failed all are new, or all are as before. If it was killed,
        files with names of their own may be left beside them."""
        if run not in self.right:
            return
        new, left = self.right[run], contents(self.made)
        if how == "killed":
            left = {file: bytes_of for file, bytes_of in left.items() if not PART.fullmatch(file)}
        if ended.status == run.status:
            is_right = left == new
        elif call == "rename":
            is_right = left.keys() <= new.keys() and all(left.get(file) in (self.before.get(file), new[file]) for file in new)
        else:
            is_right = left in (new, self.before)
        self.judge(f"{name}: what is left", is_right, ended)

    def learn(self, run):
        """Runs without a fault, and keeps the files that it leaves."""
        self.restore(run)
        ended = run.under()
        if run.line and not run.is_right(ended):
            sys.exit(f"FAILED: {run.words[0]} does not succeed where no call fails")
        run.line = ended.line
        self.right[run] = contents(self.made)

    def all(self):
        makers = [self.make, self.make_listed, self.make_over, self.make_dem, self.derive, self.derive_over, self.window, self.window_over, self.join, self.join_over]
        explained = [self.explain, self.explain_object, self.explain_over]
        judged = [self.check, self.audit, *self.parts, *self.dems, self.check_listed, self.audit_listed, self.con_listed, self.merge, self.merge_listed]
        makers.append(self.window_dem)
        runs = [*judged, *explained, *makers, self.fill, self.header]
        self.makers = makers
        self.calls = {call: runs for call in TELLS}
        self.calls["open"] = [*judged, *explained, *makers, self.header]
        self.calls["look"] = [*judged, *explained, *makers]
        self.calls["rename"] = [*explained, *makers]
        self.over, self.right = {}, {}
        self.report()
        for run in (self.make, self.make_listed, self.make_dem, self.derive, self.window, self.join, self.explain, self.explain_object):
            self.learn(run)
        self.over[self.make_over] = self.right[self.make_listed]
        self.over[self.derive_over] = {file: b"of before" for file in self.right[self.derive]}
        self.over[self.window_over] = self.over[self.join_over] = {"report.txt": b"of before"}
        self.over[self.explain_over] = {"faults.hdr": b"of before", "faults.bil": b"of before"}
        self.learn(self.window_dem)
        for run in (self.make_over, self.derive_over, self.window_over, self.join_over, self.explain_over):
            self.learn(run)
        self.part()
        for run in (self.explain_seam, self.seam_object):
            self.restore(run)
            run.line = run.under().line
        for run in runs:
            self.refused(run)
            self.harmless(run)
            self.endless(run)
        for run in (self.explain_seam, self.seam_object):
            self.endless(run)
        self.refused_here_and_there()
        self.killed()
        self.changed()
        print(f"faults: {self.passed} passed, {self.failed} failed")
        return 1 if self.failed else 0


def main():
    drain, shim = (Path(word).resolve() for word in sys.argv[1:])
    with tempfile.TemporaryDirectory() as scratch:
        return Faults(drain, shim, Path(scratch)).all()


if __name__ == "__main__":
    sys.exit(main())
