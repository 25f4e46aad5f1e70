#!/usr/bin/env python3
"""Cuts each input of a check and an audit to each shorter length, and replaces lines of a header, and looks at what the program answers.

cut_inputs.py DRAIN

The products are those of a slope to the east, of a pit, and of a tile of voids, written out by hand. What a cut header is owed is worked out here,
line by line, from docs/FORMATS.md. Prints how many runs passed.
"""

import re
import struct
import subprocess
import sys
import tempfile
from fractions import Fraction
from pathlib import Path

FORMS = {"con": "h", "dir": "B", "acc": "I", "bas": "I", "rnk": "I"}
NO_DATA = {"con": -32768, "dir": 255, "acc": 0, "bas": 0, "rnk": 4294967295}
NEEDED = ["NROWS", "NCOLS", "ULXMAP", "ULYMAP", "XDIM", "YDIM"]
DECIMALS = NEEDED[2:] + ["NODATA"]
NUMBERS = ["NROWS", "NCOLS", "NBANDS", "NBITS", "SKIPBYTES", "BANDROWBYTES", "TOTALROWBYTES"]
WORDS = {"BYTEORDER": ["I", "M"], "LAYOUT": ["BIL", "BIP", "BSQ"], "PIXELTYPE": None}


def header(product, side):
    """The header with which this product of the tile N00E000 is written, line by line."""
    bits = 8 * struct.calcsize(FORMS[product])
    spacing = f"{10**15 // (side - 1) / 10**15:.15f}"
    return [
        "BYTEORDER I", "LAYOUT BIL", f"NROWS {side}", f"NCOLS {side}", "NBANDS 1", f"NBITS {bits}", f"BANDROWBYTES {side * bits // 8}",
        f"TOTALROWBYTES {side * bits // 8}", "SKIPBYTES 0", f"PIXELTYPE {'' if product == 'con' else 'UN'}SIGNEDINT", "ULXMAP 0.000000000000000",
        "ULYMAP 1.000000000000000", f"XDIM {spacing}", f"YDIM {spacing}", f"NODATA {NO_DATA[product]}",
    ]


class Example:
    """A tile with its right products, and the line of their check."""

    def __init__(self, side, line, z, **products):
        self.side, self.line = side, line
        self.tile = struct.pack(f">{len(z)}h", *z)
        self.headers = {product: ("\n".join(header(product, side)) + "\n").encode() for product in FORMS}
        self.bodies = {product: struct.pack(f"<{len(z)}{FORMS[product]}", *products[product]) for product in FORMS}


VOIDS = Example(2, "accepted rows=2 cols=2 data=0 raised=0 outlets=0", [-32768] * 4, **{product: [NO_DATA[product]] * 4 for product in FORMS})
PIT = Example(3, "accepted rows=3 cols=3 data=9 raised=1 outlets=8", [5, 5, 5, 5, 1, 5, 5, 5, 5], con=[5] * 9, dir=[0, 0, 0, 0, 1, 0, 0, 0, 0],
              acc=[1, 1, 1, 1, 1, 2, 1, 1, 1], bas=[1, 2, 3, 4, 5, 5, 6, 7, 8], rnk=[0, 0, 0, 0, 1, 0, 0, 0, 0])
SLOPE = Example(4, "accepted rows=4 cols=4 data=16 raised=0 outlets=4", [4, 3, 2, 1] * 4, con=[4, 3, 2, 1] * 4, dir=[1, 1, 1, 0] * 4,
                acc=[1, 2, 3, 4] * 4, bas=[1] * 4 + [2] * 4 + [3] * 4 + [4] * 4, rnk=[3, 2, 1, 0] * 4)


def is_bad(keyword, value):
    """Whether a value is none of this keyword's, of the values that a cut leaves."""
    if not value:
        return True
    if keyword in NUMBERS:
        return not re.fullmatch("[0-9]+", value)
    if keyword in DECIMALS:
        return not re.fullmatch(r"[+-]?([0-9]+\.?[0-9]*|\.[0-9]+)", value)
    return WORDS[keyword] is not None and value not in WORDS[keyword]


def line_of_cut(text):
    """What a check of the slope says of this header of con."""
    values = {}
    for number, line in enumerate(text.split("\n"), 1):
        words = line.split(" ")
        keyword, value = words[0], (words[1] if len(words) > 1 else "")
        if keyword in NUMBERS + DECIMALS + list(WORDS):
            if is_bad(keyword, value):
                return f"refused BadHeader con BadValue {number}"
            values[keyword] = value
    for keyword in NEEDED:
        if keyword not in values:
            return f"refused BadHeader con MissingKey {keyword}"
    if abs(Fraction(values["YDIM"]) - Fraction(1, 3)) > Fraction(1, 10**9):
        return "refused Misplaced con"
    return SLOPE.line


class Cuts:
    def __init__(self, drain, scratch):
        self.drain, self.scratch = drain, scratch
        self.passed, self.failed = 0, 0
        (scratch / "products").mkdir()

    def put(self, example):
        self.write("tile", example.tile)
        for product in FORMS:
            self.write(f"{product}.hdr", example.headers[product])
            self.write(f"{product}.bil", example.bodies[product])

    def write(self, name, contents):
        (self.scratch / ("N00E000.hgt" if name == "tile" else f"products/{name}")).write_bytes(contents)

    def judge(self, name, example, line):
        """A check has to print this line, and so has an audit, unless it is about ranks: then that of the whole files."""
        self.judge_command("check", name, example, line)
        self.judge_command("audit", name, example, example.line if line.endswith(" rnk") else line)

    def judge_command(self, command, name, example, line):
        words = [self.drain, command, "--side", str(example.side), "--products", self.scratch / "products", self.scratch / "N00E000.hgt"]
        ended = subprocess.run(words, stdout=subprocess.PIPE, stderr=subprocess.PIPE, timeout=120, check=False)
        status = ["accepted", "rejected", "refused"].index(line.split(" ")[0])
        if (ended.returncode, ended.stdout.decode()) == (status, line + "\n"):
            self.passed += 1
        else:
            self.failed += 1
            print(f"FAILED {command}, {name}: status {ended.returncode}, {ended.stdout!r}, not {line!r}")

    def cut(self, name, whole, line_of):
        """Cuts a file of the slope to each shorter length."""
        for length in range(len(whole)):
            self.write(name, whole[:length])
            self.judge(f"{name} of {length} bytes", SLOPE, line_of(whole[:length]))
        self.write(name, whole)

    def cuts(self):
        self.put(SLOPE)
        self.judge("a slope", SLOPE, SLOPE.line)
        self.cut("tile", SLOPE.tile, lambda _: "refused BadTileLength N00E000.hgt")
        for product in FORMS:
            self.cut(f"{product}.bil", SLOPE.bodies[product], lambda _, product=product: f"refused RasterShort {product}")
        self.cut("con.hdr", SLOPE.headers["con"], lambda text: line_of_cut(text.decode()))

    def replaced(self, example, line, answer):
        """Replaces the line of this keyword in con's header, or appends one."""
        keyword = line.split(" ")[0]
        lines = [line if old.split(" ")[0] == keyword else old for old in header("con", example.side)]
        self.put(example)
        self.write("con.hdr", ("\n".join(lines) + "\n").encode())
        self.judge(f"{line[:40]} in con.hdr", example, answer)

    def replacements(self):
        for line, answer in [
            ("SKIPBYTES 4294967295", "refused RasterShort con"),
            ("TOTALROWBYTES 4294967295", "refused RasterShort con"),
            ("SKIPBYTES 4294967296", "refused BadHeader con BadValue 9"),
            ("NROWS 28801", "refused WrongShape con"),
            ("ULXMAP 1e10", "refused Misplaced con"),
            ("ULXMAP 1e99", "refused BadHeader con BadValue 11"),
            ("ULXMAP 1" + 60_000 * "0" + "e-99", "refused BadHeader con BadValue 11"),
            ("ULXMAP 0." + 60_000 * "0", PIT.line),
            ("ULXMAP 0." + 60_000 * "9", "refused Misplaced con"),
            ("NODATA 10000000000", PIT.line),
            ("NODATA 10000000001", "refused BadHeader con BadValue 15"),
        ]:
            self.replaced(PIT, line, answer)
        self.replaced(VOIDS, "NODATA -32768", VOIDS.line)
        self.replaced(VOIDS, "NODATA 10000000000", "rejected rule=1 VoidCell row=0 col=0")

    def all(self):
        self.cuts()
        self.replacements()
        print(f"cut inputs: {self.passed} passed, {self.failed} failed")
        return 1 if self.failed else 0


def main():
    with tempfile.TemporaryDirectory() as scratch:
        return Cuts(Path(sys.argv[1]).resolve(), Path(scratch)).all()


if __name__ == "__main__":
    sys.exit(main())
