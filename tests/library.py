#!/usr/bin/env python3
"""Tests of libdrain from Python: where the members of an answer lie, each call once or more, and arrays.

Usage: tests/library.py LIBDRAIN.so    (the repository's examples and samples are read)

It prints a line for each test that failed, and in its last line 'N passed, M failed'.
"""

from __future__ import annotations

import ctypes
import itertools
import sys
from pathlib import Path

ROOT = Path(__file__).resolve().parent.parent
sys.path.insert(0, str(ROOT / "crates/drain_c/examples"))

import judge  # noqa: E402

SETS = ROOT / "samples/other-tools"
SIDE = 51
TILE = ("N36W085.hgt", (SETS / "N36W085.hgt").read_bytes())


def read_rasters() -> list[tuple[bytes, bytes]]:
    """Header and pixels of the four rasters of a correct set."""
    files = [SETS / "saga-counted" / product for product in judge.AUDITED]
    return [(file.with_suffix(".hdr").read_bytes(), file.with_suffix(".bil").read_bytes()) for file in files]


def is_layout_right(drain: judge.Drain) -> bool:
    """Whether the library writes the members of an answer where RawAnswer has them."""
    raw = judge.RawAnswer.from_buffer(ctypes.create_string_buffer(256))
    size = drain._library.drain_answer_layout(ctypes.byref(raw))
    places = (raw.status, raw.rule, raw.row, raw.col)
    line = judge.RawAnswer.line
    return (
        places == (0, 4, 8, 12)
        and (line.offset, line.size, raw.line) == (16, 164, b"\xff" * 164)
        and size == ctypes.sizeof(raw) == 180
    )


def is_request_layout_right(drain: judge.Drain) -> bool:
    """Whether the library writes the numbers of a request where Request has them, over odd bytes."""
    odd = ctypes.create_string_buffer(b"\x5b" * 512, 512)
    request = judge.Request.from_buffer(odd)
    size = drain._library.drain_request_layout(ctypes.byref(request))
    texts = [(72, request.sinks), (104, request.spacing.widths)]
    for place, pair in [(24, request.dem), *((128 + 48 * n, raster) for n, raster in enumerate(request.rasters))]:
        texts += [(place, pair.text), (place + 24, pair.data)]
    numbers = (request.side, request.has_dem, request.spacing.width, request.spacing.height, request.judged)
    return (
        numbers == (0, 4, 96, 100, 368)
        and request.tile_count == 0
        and all(text.length == 0 and text.missing == place + 16 for place, text in texts)
        and size == ctypes.sizeof(judge.Request) == 376
        and odd.raw[size:] == b"\x5b" * (512 - size)
    )


def are_requests_right(drain: judge.Drain) -> bool:
    """A request with tiles and a raster is over the raster; ranks are explained; NULL is seen in sinks and tiles."""
    con, dir_, (header, counts), bas = read_rasters()
    derived = [bytearray(4 * SIDE * SIDE) for _ in range(3)]
    drain.derive(SIDE, [TILE], dir_, *derived)
    header = header[:header.index(b"NODATA")]
    five = dict(zip(judge.CHECKED, (con, dir_, *((header, bytes(numbers)) for numbers in derived))))
    tiles, drawn = judge.Ground(SIDE, [TILE]), bytearray(b"x" * (SIDE * SIDE))
    ranked = judge.Request(tiles, five)
    explained, faults = drain.explain_request(ranked, drawn)
    both = judge.Request(judge.Ground(SIDE, [TILE], (b"", b"")), five)
    null_sinks, null_tile = judge.Request(tiles, five), judge.Request(tiles, five)
    null_sinks.sinks = judge.Bytes(None, 7)
    null_tile.tiles[0].data = judge.Bytes(None, 3)
    unread = judge.Request(tiles, {name: five[name] for name in ("con", "dir")})
    unread.rasters[4].data = judge.Bytes(None, 9)
    accepted = "accepted rows=51 cols=51 data=2601 raised=59 outlets=10"
    return (
        (drain.judge(ranked).line, explained.line) == (accepted, accepted)
        and not any(drawn)
        and not any(bytes(faults))
        and drain.judge(both).line == "refused BadHeader dem MissingKey NROWS"
        and drain.judge(null_sinks).line == drain.judge(null_tile).line == "refused NullBytes"
        and drain.judge(unread).line == accepted
    )


def is_rejection_right(drain: judge.Drain) -> bool:
    """acc counts one cell too many at row 3, column 7. That cell flows south, so no earlier one is wrong by rule 13."""
    con, dir_, (header, counts), bas = read_rasters()
    wrong = bytearray(counts)
    wrong[4 * (3 * SIDE + 7)] += 1
    answer = drain.audit(SIDE, [TILE], [con, dir_, (header, bytes(wrong)), bas])
    return answer == judge.Answer(1, 13, 3, 7, "rejected rule=13 Accumulation row=3 col=7")


def are_choices_right(drain: judge.Drain) -> bool:
    """Each choice of rasters accepts the set, and another is refused."""
    rasters = dict(zip(judge.AUDITED, read_rasters()))
    lines = {
        names: drain.audit_only(SIDE, [TILE], {name: rasters[name] for name in names.split()}).line
        for names in ("con", "con dir", "con dir acc", "con dir bas", "con dir acc bas", "dir", "con acc")
    }
    surface = "accepted rows=51 cols=51 data=2601 raised=59"
    whole = surface + " outlets=10"
    return list(lines.values()) == [surface, whole, whole, whole, whole, "refused BadChoice", "refused BadChoice"]


def is_explanation_right(drain: judge.Drain) -> bool:
    """A wrong count at row 3, column 7 breaks rule 13 there and at the cell south of it, to which that one flows."""
    rasters = dict(zip(judge.AUDITED, read_rasters()))
    wrong = bytearray(rasters["acc"][1])
    wrong[4 * (3 * SIDE + 7)] += 1
    rasters["acc"] = (rasters["acc"][0], bytes(wrong))
    drawn = bytearray(SIDE * SIDE)
    answer, faults = drain.explain(SIDE, [TILE], rasters, drawn)
    found = [(rule + 1, cells.cells, cells.row, cells.col) for rule, cells in enumerate(faults.rules) if cells.cells]
    cells = [divmod(place, SIDE) for place, number in enumerate(drawn) if number]
    short, _ = drain.explain(SIDE, [TILE], rasters, bytearray(SIDE * SIDE - 1))
    return (
        answer.line == "rejected rule=13 Accumulation row=3 col=7"
        and found == [(13, 2, 3, 7)]
        and cells == [(3, 7), (4, 7)]
        and short == judge.Answer(2, 0, 0, 0, "refused BadMapLength")
    )


def is_derivation_right(drain: judge.Drain) -> bool:
    """The set's own counts follow from its directions, and a check accepts what was derived."""
    con, dir_, (header, counts), _ = read_rasters()
    acc, bas, rnk = (bytearray(4 * SIDE * SIDE) for _ in range(3))
    answer = drain.derive(SIDE, [TILE], dir_, acc, bas, rnk)
    without = header[:header.index(b"NODATA")]
    checked = drain.check(SIDE, [TILE], [con, dir_, *((without, bytes(numbers)) for numbers in (acc, bas, rnk))])
    short = drain.derive(SIDE, [TILE], dir_, acc, bas, rnk[:-4])
    return (
        answer == judge.Answer(0, 0, 0, 0, "derived rows=51 cols=51")
        and bytes(acc) == counts
        and checked.line == "accepted rows=51 cols=51 data=2601 raised=59 outlets=10"
        and short.line == "refused BadRasterLength"
    )


def are_arrays_right(drain: judge.Drain) -> bool:
    """The set as arrays of rows by columns is accepted, con with the high byte first."""
    kinds = {1: "B", 2: "h", 4: "I"}
    arrays = [memoryview(pixels).cast(kinds[len(pixels) // SIDE**2], (SIDE, SIDE)) for _, pixels in read_rasters()]
    turned = ((ctypes.c_int16.__ctype_be__ * SIDE) * SIDE)(*(tuple(row) for row in arrays[0].tolist()))
    given = [
        judge.raster_of(array, nodata, SIDE, [TILE[0]])
        for array, nodata in zip([turned, *arrays[1:]], (-32768, 255, 0, 0))
    ]
    return drain.audit(SIDE, [TILE], given).line == "accepted rows=51 cols=51 data=2601 raised=59 outlets=10"


def is_dem_right(drain: judge.Drain) -> bool:
    """The tile's samples as one raster have the answers of the tile, with what follows from the directions, and a map."""
    con, dir_, acc, bas = read_rasters()
    samples = memoryview((ctypes.c_int16.__ctype_be__ * SIDE * SIDE).from_buffer_copy(TILE[1]))
    dem = judge.raster_of(samples, -32768, SIDE, [TILE[0]])
    header = acc[0][:acc[0].index(b"NODATA")]
    derived = [bytearray(4 * SIDE * SIDE) for _ in range(3)]
    of_tile = [bytearray(4 * SIDE * SIDE) for _ in range(3)]
    drain.derive(SIDE, [TILE], dir_, *of_tile)
    drawn = bytearray(b"x" * (SIDE * SIDE))
    line = drain.derive_dem(dem, dir_, *derived).line
    explained, faults = drain.explain_dem(dem, dict(zip(judge.AUDITED, (con, dir_, acc, bas))), drawn)
    ranked = [con, dir_, *((header, bytes(numbers)) for numbers in derived)]
    accepted = "accepted rows=51 cols=51 data=2601 raised=59 outlets=10"
    return (
        line == "derived rows=51 cols=51"
        and derived == of_tile
        and explained.line == accepted
        and not any(drawn)
        and not any(bytes(faults))
        and drain.audit_dem(dem, [con, dir_, acc, bas]).line == accepted
        and drain.check_dem(dem, ranked).line == accepted
        and drain.audit_only_dem(dem, {"con": con}).line == "accepted rows=51 cols=51 data=2601 raised=59"
        and drain.audit_dem(dem, [con, dir_, acc, bas], b"51 0").line == "refused SinkNotData 1"
        and drain.check_dem((dem[0], dem[1][:-1]), ranked).line == "refused RasterShort dem"
        and drain.audit_dem((b"", dem[1]), [con, dir_, acc, bas]).line == "refused BadHeader dem MissingKey NROWS"
    )


# Nine cells whose ways all lead to the middle one, a listed sink: so on cells of 1 by 2. On cells of 2 by 1 the corners
# in the east fall more steeply along their column. Without the sink the middle cell has no way out.
WELL_HEADER = b"NROWS 3\nNCOLS 3\nNBITS 8\nULXMAP 0\nULYMAP 1\nXDIM 0.5\nYDIM 0.5\n"
WELL_Z = [9, 9, 9, 9, 1, 5, 9, 9, 9]
WELL = {name: (WELL_HEADER, bytes(z)) for name, z in (("con", WELL_Z), ("dir", [2, 4, 8, 1, 0, 16, 128, 64, 32]))}


def are_spacings_right(drain: judge.Drain) -> bool:
    """What is said of the well on each spacing, over a tile and over one raster, and which cells are wrong."""
    tile, dem = ("N00E000.hgt", bytes(byte for z in WELL_Z for byte in (0, z))), WELL["con"]
    accepted, flat = "accepted rows=3 cols=3 data=9 raised=0 outlets=1", "rejected rule=12 FlatStep row=1 col=1"
    steep = "rejected rule=10 Slope row=0 col=2"
    cases = [
        (None, b"1 1", accepted, {}),
        (judge.Spacing(1, 2), b"1 1", accepted, {}),
        (judge.Spacing(widths=b"1 2\n" * 3), b"1 1", accepted, {}),
        (judge.Spacing(1, 2), b"", flat, {12: (1, 1, 1)}),
        (judge.Spacing(2, 1), b"1 1", steep, {10: (2, 0, 2)}),
        (judge.Spacing(widths=b"2 1\n" * 3), b"1 1", steep, {10: (2, 0, 2)}),
        (judge.Spacing(widths=b"1 2\n1 2\n2 1"), b"1 1", "rejected rule=10 Slope row=2 col=2", {10: (1, 2, 2)}),
    ]
    for spacing, sinks, line, faults in cases:
        audited = [drain.audit_only(3, [tile], WELL, sinks, spacing), drain.audit_only_dem(dem, WELL, sinks, spacing)]
        explained = [
            drain.explain(3, [tile], WELL, bytearray(9), sinks, spacing),
            drain.explain_dem(dem, WELL, bytearray(9), sinks, spacing),
        ]
        lines = {it.line for it in [*audited, *(answer for answer, _ in explained)]}
        found = [
            {rule: (it.cells, it.row, it.col) for rule, it in enumerate(all_.rules, 1) if it.cells}
            for _, all_ in explained
        ]
        if lines != {line} or found != [faults] * 2:
            return False
    return True


# Of each kind of number the first, the no-data number and the last.
KINDS = {
    "ubyte": (200, 255, 3),
    "byte": (-2, -128, 3),
    "uint16": (65534, 65535, 258),
    "int16": (-2, -9999, 258),
    "uint32": (4294967294, 4294967295, 16909060),
    "int32": (-2, -2147483648, 16909060),
}


def are_kinds_right(drain: judge.Drain) -> bool:
    """Arrays of three numbers in a row or in a column, the middle one a void, are con of the same elevations."""
    for name, (first, nodata, last) in KINDS.items():
        for order, (rows, cols) in itertools.product(("le", "be"), ((1, 3), (3, 1))):
            number = getattr(getattr(ctypes, f"c_{name}"), f"__ctype_{order}__")
            array = ((number * cols) * rows)()
            for place, value in enumerate((first, nodata, last)):
                array[place // cols][place % cols] = value
            heights = b"".join((it % 2**32).to_bytes(4, "little") for it in (first, 7, last))
            kind = "UNSIGNEDINT" if name.startswith("u") else "SIGNEDINT"
            header = f"NROWS {rows}\nNCOLS {cols}\nNBITS 32\nPIXELTYPE {kind}\nNODATA 7\n"
            dem = f"{header}ULXMAP 0\nULYMAP 1\nXDIM 1\nYDIM 1\n".encode(), heights
            con = judge.raster_of(array, nodata, 2, ["N00E000.hgt"])
            if drain.audit_only_dem(dem, {"con": con}).line != f"accepted rows={rows} cols={cols} data=2 raised=0":
                return False
    return True


def is_version_right(drain: judge.Drain) -> bool:
    """Whether the library has the version that the program prints."""
    return f"drain {drain.version()}\n" == (ROOT / "tests/program/expected/version.txt").read_text()


def line_with(drain: judge.Drain, data: judge.Bytes) -> str:
    """The line of an audit that is passed these bytes for the pixels of bas."""
    request = judge.Request(judge.Ground(SIDE, [TILE]), judge.named(judge.AUDITED, read_rasters()))
    request.rasters[3].data = data
    return drain.judge(request).line


def main(path: str) -> int:
    drain = judge.Drain(path)
    tests = {
        "where members lie": is_layout_right(drain),
        "where members of a request lie": is_request_layout_right(drain),
        "requests": are_requests_right(drain),
        "a rejection": is_rejection_right(drain),
        "choices of rasters": are_choices_right(drain),
        "an explanation": is_explanation_right(drain),
        "a derivation": is_derivation_right(drain),
        "arrays": are_arrays_right(drain),
        "one raster of elevations": is_dem_right(drain),
        "spacings": are_spacings_right(drain),
        "arrays of each kind": are_kinds_right(drain),
        "the version": is_version_right(drain),
        "NULL for no bytes": line_with(drain, judge.Bytes(None)) == "refused RasterShort bas",
        "NULL for 5 bytes": line_with(drain, judge.Bytes(None, 5)) == "refused NullBytes",
    }
    failed = [name for name, passed in tests.items() if not passed]
    for name in failed:
        print(f"FAILED {name} from Python")
    print(f"{len(tests) - len(failed)} passed, {len(failed)} failed")
    return bool(failed)


if __name__ == "__main__":
    sys.exit(main(sys.argv[1]))
