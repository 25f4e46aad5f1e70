#!/usr/bin/env python3
"""Runs `drain check`, `make` and `fill` on small inputs, and compares the lines, which were worked out by hand from the rules.

worked_lines.py DRAIN

Prints the cases that failed and, in its last line, how many passed.
"""

import struct
import sys
import tempfile
from dataclasses import replace
from pathlib import Path

sys.dont_write_bytecode = True
from small_sets import NO_RANK, PIXELS, VOID, Lines, Set, grid, one_tile

PIT = one_tile(
    3,
    [5, 5, 5, 5, 1, 5, 5, 5, 5],
    [5] * 9,
    [0, 0, 0, 0, 1, 0, 0, 0, 0],
    [1, 1, 1, 1, 1, 2, 1, 1, 1],
    [1, 2, 3, 4, 5, 5, 6, 7, 8],
    [0, 0, 0, 0, 1, 0, 0, 0, 0],
)
LISTED = one_tile(
    3, [5, 5, 5, 5, 1, 5, 5, 5, 5], [5, 5, 5, 5, 1, 5, 5, 5, 5], [2, 4, 8, 1, 0, 16, 128, 64, 32],
    [1, 1, 1, 1, 9, 1, 1, 1, 1], [1] * 9, [0] * 9,
)  # fmt: skip
LEVEL = one_tile(2, [0] * 4, [0] * 4, [0] * 4, [1] * 4, [1, 2, 3, 4], [0] * 4)
VOIDS = one_tile(2, [VOID] * 4, [VOID] * 4, [255] * 4, [0] * 4, [0] * 4, [NO_RANK] * 4)
SLOPE = one_tile(
    4, [4, 3, 2, 1] * 4, [4, 3, 2, 1] * 4, [1, 1, 1, 0] * 4, [1, 2, 3, 4] * 4,
    [1] * 4 + [2] * 4 + [3] * 4 + [4] * 4, [3, 2, 1, 0] * 4,
)  # fmt: skip
# A flat, on which two cells lead to each other.
RING = one_tile(
    4,
    [5] * 16,
    [5] * 16,
    [0, 0, 0, 0, 0, 1, 16, 0, 0, 16, 1, 0, 0, 0, 0, 0],
    [1, 1, 1, 1, 1, 1, 1, 1, 2, 1, 1, 2, 1, 1, 1, 1],
    [1, 2, 3, 4, 5, 13, 13, 6, 7, 7, 8, 8, 9, 10, 11, 12],
    [0, 0, 0, 0, 0, 1, 2, 0, 0, 1, 1, 0, 0, 0, 0, 0],
)
# A pit under a border that is higher in the east, filled needlessly high.
CREST = one_tile(
    3,
    [5, 5, 5, 5, 1, 7, 5, 5, 5],
    [5, 5, 5, 5, 7, 7, 5, 5, 5],
    [0, 0, 0, 0, 4, 4, 0, 0, 0],
    [1, 1, 1, 1, 1, 1, 1, 2, 2],
    [1, 2, 3, 4, 6, 7, 5, 6, 7],
    [0] * 9,
)
# Two flats with a column of voids between them, which no tile covers.
GAP = Set(
    side=3,
    tiles=[("N00E000.hgt", [0] * 9), ("N00E002.hgt", [0] * 9)],
    numbers={
        "con": [0, 0, 0, VOID, 0, 0, 0] * 3,
        "dir": [0, 0, 0, 255, 0, 0, 0, 0, 1, 0, 255, 0, 16, 0, 0, 0, 0, 255, 0, 0, 0],
        "acc": [1, 1, 1, 0, 1, 1, 1, 1, 1, 2, 0, 2, 1, 1, 1, 1, 1, 0, 1, 1, 1],
        "bas": [1, 2, 3, 0, 4, 5, 6, 7, 8, 8, 0, 9, 9, 10, 11, 12, 13, 0, 14, 15, 16],
        "rnk": [0, 0, 0, NO_RANK, 0, 0, 0, 0, 1, 0, NO_RANK, 0, 1, 0, 0, 0, 0, NO_RANK, 0, 0, 0],
    },
    grid=grid(3, 7),
)
# Two tiles of side 2 that differ in the middle of the first row.
TORN = Set(
    side=2,
    tiles=[("N00E000.hgt", [1, 2, 3, 4]), ("N00E001.hgt", [9, 5, 4, 6])],
    numbers={product: [0] * 6 for product in PIXELS},
    grid=grid(2, 3, xdim=1),
)
# The same with a void in every other cell, and no no-data number in the products.
TORN_VOIDS = replace(
    TORN,
    tiles=[("N00E000.hgt", [VOID, 2, VOID, VOID]), ("N00E001.hgt", [9, VOID, VOID, VOID])],
    numbers={product: [7] * 6 for product in PIXELS},
)
SOUTH = replace(PIT, tiles=[("S01E007.hgt", PIT.tiles[0][1])], grid=grid(3, 3, 7, 0))

PIT_LINE = "accepted rows=3 cols=3 data=9 raised=1 outlets=8"
GAP_LINE = "accepted rows=3 cols=7 data=18 raised=0 outlets=16"
SEAM_LINE = "refused SeamMismatch row=0 col=1"
UNLISTED = "rejected rule=12 FlatStep row=1 col=1"


def bare(side: int, names: list[str], lines: str) -> Set:
    """Tiles and rasters without a byte, and this header for each product."""
    tiles: list[tuple[str, list[int]]] = [(name, []) for name in names]
    empty: dict[str, list[int]] = {product: [] for product in PIXELS}
    return Set(side=side, tiles=tiles, numbers=empty, grid="", headers=dict.fromkeys(PIXELS, lines))


ACCEPTED = [
    (PIT, PIT_LINE),
    (LEVEL, "accepted rows=2 cols=2 data=4 raised=0 outlets=4"),
    (VOIDS, "accepted rows=2 cols=2 data=0 raised=0 outlets=0"),
    (SLOPE, "accepted rows=4 cols=4 data=16 raised=0 outlets=4"),
    (GAP, GAP_LINE),
    (LISTED.listing("1 1\n"), "accepted rows=3 cols=3 data=9 raised=0 outlets=1"),
]

# Each rule, and that one is reported before the next.
REJECTED = [
    (VOIDS.changed(acc={2: 1}), "rejected rule=1 VoidCell row=1 col=0"),
    (SLOPE.changed(dir={0: 3}), "rejected rule=3 BadCode row=0 col=0"),
    (SLOPE.changed(con={0: 2}), "rejected rule=4 BelowGround row=0 col=0"),
    (SLOPE.changed(con={0: 5}), "rejected rule=5 OpenRaised row=0 col=0"),
    (PIT.changed(con={4: 6}), "rejected rule=9 NotLeast row=1 col=1"),
    (CREST, "rejected rule=9 NotLeast row=1 col=1"),
    (SLOPE.changed(dir={4: 2}), "rejected rule=10 Slope row=1 col=0"),
    (PIT.changed(con={4: 3}), "rejected rule=10 Slope row=0 col=0"),
    (LEVEL.changed(dir={0: 1}), "rejected rule=11 OutletCode row=0 col=0"),
    (PIT.changed(dir={4: 0}), UNLISTED),
    (PIT.changed(rnk={4: 0}), UNLISTED),
    (RING, UNLISTED),
    (SLOPE.changed(acc={7: 5}), "rejected rule=13 Accumulation row=1 col=3"),
    (SLOPE.changed(bas={0: 9}), "rejected rule=14 Label row=0 col=0"),
    (SLOPE.changed(bas=dict.fromkeys(range(4, 8), 1)), "rejected rule=15 SharedLabel row=1 col=3"),
    # Cells with data whose number is the header's no-data number.
    (LEVEL.headed(con=f"NODATA 0\n{LEVEL.grid}"), "rejected rule=2 Missing row=0 col=0"),
]

# A hair within each tolerance and a hair beyond it; lengths; what comes first.
NEAR = "ULXMAP 7.000001\nULYMAP -0.000001\nXDIM 0.500000001\nYDIM 0.499999999\n"
HEADERS = [
    (SOUTH, PIT_LINE),
    (SOUTH.headed(con=f"NROWS 3\nNCOLS 3\n{NEAR}"), PIT_LINE),
    (SOUTH.headed(con=grid(2, 3, 7, 0)), "refused WrongShape con"),
    (SOUTH.headed(con=grid(3, 3, "7.000001000000001", 0)), "refused Misplaced con"),
    (SOUTH.headed(acc=grid(3, 3, 7, 0, "0.499999998999999", 0.5)), "refused Misplaced acc"),
    (SOUTH.headed(acc="NROWS 3\nNCOLS 3\nULXMAP 7\nULYMAP 0\nXDIM 0.5\n"), "refused BadHeader acc MissingKey YDIM"),
    (PIT.headed(con=grid(3, 3, "0.000001")), PIT_LINE),
    (PIT.headed(con=grid(3, 3, "0.000001000000001")), "refused Misplaced con"),
    (PIT.headed(con=grid(3, 3, xdim="0.500000001", ydim=0.5)), PIT_LINE),
    (PIT.headed(con=grid(3, 3, xdim="0.500000001000001", ydim=0.5)), "refused Misplaced con"),
    (PIT.headed(dir=grid(4, 3)), "refused WrongShape dir"),
    (PIT.headed(dir="NROWS 3\nNCOLS 3\nULYMAP 1\nXDIM 0.5\nYDIM 0.5\n"), "refused BadHeader dir MissingKey ULXMAP"),
    (PIT.headed(con=grid(3, 3, 1), dir=f"NBANDS 2\n{grid(3, 3)}"), "refused Misplaced con"),
    (PIT.headed(con=grid(4, 3, 1)), "refused WrongShape con"),
    (PIT.headed(dir=f"NBANDS 2\n{grid(3, 3)}", rnk=grid(3, 3, 1)), "refused BadHeader dir NotOneBand"),
    (PIT.headed(rnk=grid(3, 3, 1)).longer(tile0=-1), "refused Misplaced rnk"),
]
BODIES = [
    (RING.longer(con=-1), "refused RasterShort con"),
    (PIT.longer(con=-1, tile0=-1), "refused BadTileLength N00E000.hgt"),
    (PIT.longer(con=-1, tile0=1), "refused BadTileLength N00E000.hgt"),
    (PIT.longer(con=6, rnk=3), PIT_LINE),
    (PIT.longer(dir=-1, rnk=-1), "refused RasterShort dir"),
    (TORN, SEAM_LINE),
    (TORN_VOIDS, SEAM_LINE),
    (TORN_VOIDS.longer(rnk=-1), "refused RasterShort rnk"),
    (TORN_VOIDS.longer(con=-1, tile1=-1), "refused BadTileLength N00E001.hgt"),
]
TWO_BANDS = f"NBANDS 2\n{grid(3, 3)}"
NAMES = [
    (bare(1, ["x"], TWO_BANDS), "refused BadSide"),
    (bare(3, ["x"], TWO_BANDS), "refused BadName 0"),
    (bare(3, ["N00E000.hgt", "N00E001.hgt", "x"], TWO_BANDS), "refused BadName 2"),
    (bare(3, [], TWO_BANDS), "refused NoTiles"),
    (bare(3, ["n00e000.hgt", "N00E000.HGT", "N00E009.hgt"], TWO_BANDS), "refused RepeatedTile N00E000.hgt"),
    (bare(3, ["N00E000.hgt", "N00E008.hgt"], TWO_BANDS), "refused BoxTooLarge"),
]

# Lists of sinks: each line is judged before any cell, and a cell before any rule.
LISTS = [
    (PIT, "0 0", PIT_LINE),
    (PIT, "1 1\nx", "refused BadSinkLine 2"),
    (PIT, "+1 1", "refused BadSinkLine 1"),
    (PIT, "1 1 1", "refused BadSinkLine 1"),
    (PIT, "1", "refused BadSinkLine 1"),
    (PIT, "-1 1", "refused BadSinkLine 1"),
    (PIT, "0 4294967296", "refused BadSinkLine 1"),
    (PIT, "0 0\r\r\n", "refused BadSinkLine 1"),
    (PIT, "\n\n0 0\n\r\n0\x0b0\n0", "refused BadSinkLine 5"),
    (PIT, "9 9\nx", "refused BadSinkLine 2"),
    (PIT, "9 9\n\n9 9\n0 0 0\nx", "refused BadSinkLine 4"),
    (PIT, "4294967295 4294967295\n0,0", "refused BadSinkLine 2"),
    (PIT, "0 0\n3 0", "refused SinkNotData 2"),
    (PIT, "0 3", "refused SinkNotData 1"),
    (PIT, "3 3", "refused SinkNotData 1"),
    (PIT, "2 2\n\n\r\n2 3\n3 2", "refused SinkNotData 4"),
    (PIT, "0 0\n0 4294967295", "refused SinkNotData 2"),
    (PIT, "4294967295 0", "refused SinkNotData 1"),
    (PIT, "0 0\n0 0\n9 9\n9 9\n0 0", "refused SinkNotData 3"),
    (PIT, "2 2\n9 9\n0 3", "refused SinkNotData 2"),
    (VOIDS, "0 0", "refused SinkNotData 1"),
    (VOIDS, "1 1\n0 0", "refused SinkNotData 1"),
    (VOIDS, "\n1 1\n\n0 0", "refused SinkNotData 2"),
    (VOIDS, "\n2 2\n\n0 0", "refused SinkNotData 2"),
    (VOIDS, "0 1\n0 1", "refused SinkNotData 1"),
    (VOIDS, "0 0\nx", "refused BadSinkLine 2"),
    (GAP, "0 0\n2 6\n1 2", GAP_LINE),
    (GAP, "0 3", "refused SinkNotData 1"),
    (GAP, "1 3", "refused SinkNotData 1"),
    (GAP, "2 3", "refused SinkNotData 1"),
    (GAP, "2 3\n0 3", "refused SinkNotData 1"),
    (GAP, "0 0\n\n2 3\n\n0 3\n9 9", "refused SinkNotData 3"),
    (GAP, "0 0\n9 9\n0 3", "refused SinkNotData 2"),
    (GAP, "0 0\n0 3\n9 9", "refused SinkNotData 2"),
    (GAP, "\n0 7\n1 3", "refused SinkNotData 2"),
    (GAP.changed(con={0: 1}), "", "rejected rule=5 OpenRaised row=0 col=0"),
    (GAP.changed(con={0: 1}), "0 0\n2 6", "rejected rule=5 OpenRaised row=0 col=0"),
    (GAP.changed(con={0: 1}), "0 3", "refused SinkNotData 1"),
    (GAP.changed(con={0: 1}), "0 0\n2 3", "refused SinkNotData 2"),
    (GAP.changed(con={0: 1}), "3 0", "refused SinkNotData 1"),
    (GAP.changed(con={0: 1}), "0 0\n\n-", "refused BadSinkLine 3"),
    (LISTED, "2 2", UNLISTED),
    (LISTED, "2 2\nx", "refused BadSinkLine 2"),
    (LISTED, "2 2\n\n2 3", "refused SinkNotData 3"),
]
# Each other refusal comes before that of a list, whatever is wrong with the list.
BEFORE_A_LIST = [
    (replace(LISTED, side=1), "refused BadSide"),
    (replace(LISTED, headers={"rnk": ""}), "refused BadHeader rnk MissingKey NROWS"),
    (LISTED.longer(tile0=-1), "refused BadTileLength N00E000.hgt"),
    (LISTED.longer(tile0=1), "refused BadTileLength N00E000.hgt"),
    (LISTED.longer(rnk=-1), "refused RasterShort rnk"),
    (bare(3, ["x"], ""), "refused BadName 0"),
    (bare(3, [], ""), "refused NoTiles"),
    (TORN, SEAM_LINE),
]

# Lists for which nothing is made, of tiles with the files of a set in their place.
NOT_MADE = [
    (TORN, "x", SEAM_LINE),
    (PIT.longer(tile0=-1), "x", "refused BadTileLength N00E000.hgt"),
    (PIT, "1 1\nx", "refused BadSinkLine 2"),
    (PIT, "9 9\n\n1\n1 1", "refused BadSinkLine 3"),
    (PIT, "0 0\n3 0", "refused SinkNotData 2"),
    (PIT, "\n0 3\n3 3\n", "refused SinkNotData 2"),
    (VOIDS, "0 0", "refused SinkNotData 1"),
    (LEVEL, "1 1\n2 0", "refused SinkNotData 2"),
]


def fill_input(side: int, *changes: tuple[int, int], z: list[int] = PIT.tiles[0][1]) -> bytes:
    """The input of `drain fill`: tile, con, spill parents and ranks of the filled pit, with other bytes at some places."""
    filled = [5 if it == 1 else it for it in z]
    parents, ranks = ([int(place == 4) for place in range(side * side)] for _ in range(2))
    parts = ((">h", z), (">h", filled), (">B", parents), (">I", ranks))
    text = bytearray(b"".join(struct.pack(form, it) for form, its in parts for it in its))
    for place, byte in changes:
        text[place] = byte
    return bytes(text)


NINES = [9] * 6 + [3] + [9] * 18
FILLED = [
    (3, fill_input(3), "accepted rows=3 cols=3 data=9 raised=1"),
    (3, fill_input(3, (19, 4)), "rejected rule=4 BelowGround row=0 col=0"),
    (3, fill_input(3, (19, 6)), "rejected rule=5 OpenRaised row=0 col=0"),
    (3, fill_input(3, (40, 0)), "rejected rule=6 NoSpill row=1 col=1"),
    (3, fill_input(3, (27, 6)), "rejected rule=7 SpillHeight row=1 col=1"),
    (3, fill_input(3, (64, 0)), "rejected rule=8 SpillRank row=1 col=1"),
    (3, fill_input(3, (11, 7), (29, 7), (27, 7)), "rejected rule=9 NotLeast row=1 col=1"),
    (2, bytes(36), "accepted rows=2 cols=2 data=4 raised=0"),
    (3, b"", "refused BadLength"),
    (3, fill_input(3)[:80], "refused BadLength"),
    (3, bytes(82), "refused BadLength"),
    (2, fill_input(3), "refused BadLength"),
    (0, b"", "refused BadSide"),
    (1, b"", "refused BadSide"),
    (3602, fill_input(3), "refused BadSide"),
    (3, struct.pack(">9h", *[VOID] * 9) + bytes(63), "accepted rows=3 cols=3 data=0 raised=0"),
    # A cell of height 3 within nines needs a way out: through a void beside it, or over a spill parent.
    (
        5,
        struct.pack(">25h", *NINES[:12], VOID, *NINES[13:]) * 2 + bytes(125),
        "accepted rows=5 cols=5 data=24 raised=0",
    ),
    (5, struct.pack(">25h", *NINES) * 2 + bytes(125), "rejected rule=6 NoSpill row=1 col=1"),
]

CHECKED = [
    *ACCEPTED,
    *REJECTED,
    *HEADERS,
    *BODIES,
    *NAMES,
    *((products.listing(text), line) for products, text, line in LISTS),
    *((wrong.listing(text), line) for wrong, line in BEFORE_A_LIST for text in ("x", "9 9", "1 1\n9 9\nx", "0 1")),
]


def main() -> None:
    lines = Lines(Path(sys.argv[1]).resolve())
    for place, (products, line) in enumerate(CHECKED):
        with tempfile.TemporaryDirectory() as folder:
            lines.expect(f"check {place}", line, ["check", *products.write(Path(folder))])
    for place, (products, text, line) in enumerate(NOT_MADE):
        with tempfile.TemporaryDirectory() as folder:
            words = products.listing(text).write(Path(folder))
            out = Path(folder, "out")
            out.mkdir()
            lines.expect(f"make {place}", line, ["make", "--out", str(out), *words[:2], *words[4:]])
            if any(out.iterdir()):
                lines.failed += 1
                print(f"FAILED make {place}: files are left")
    for place, (side, stream, line) in enumerate(FILLED):
        lines.expect(f"fill {place}", line, ["fill", "--side", str(side)], stream)
    print(f"worked lines: {lines.passed} passed, {lines.failed} failed")


if __name__ == "__main__":
    main()
