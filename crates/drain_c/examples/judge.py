#!/usr/bin/env python3
"""Audits or checks rasters in files by libdrain, called by ctypes: prints the line of the answer and ends with its status.

    cc -shared -o libdrain.so -Wl,--whole-archive libdrain.a -Wl,--no-whole-archive
    judge.py LIBDRAIN.so audit|check SIDE DIRECTORY TILE...

DIRECTORY has con.hdr, con.bil and so on, and for a check rnk.hdr and rnk.bil too. `Drain` serves as a module too.
"""
from __future__ import annotations

import ctypes
import sys
from collections.abc import Mapping, Sequence
from dataclasses import dataclass
from pathlib import Path

AUDITED = ("con", "dir", "acc", "bas")
CHECKED = (*AUDITED, "rnk")


class Bytes(ctypes.Structure):
    """drain_bytes: bytes that Python holds. They live as long as this object."""

    _fields_ = [("at", ctypes.c_char_p), ("length", ctypes.c_size_t), ("missing", ctypes.c_size_t)]

    def __init__(self, data: bytes | None, missing: int = 0) -> None:
        """None is NULL, where this many bytes should be."""
        super().__init__(data or b"", len(data or b""), missing if data is None else 0)


class Pair(ctypes.Structure):
    """drain_tile, a name and samples, or drain_raster, a header and pixels."""

    _fields_ = [("text", Bytes), ("data", Bytes)]

    def __init__(self, text: bytes = b"", data: bytes = b"") -> None:
        super().__init__(Bytes(text), Bytes(data))


class Spacing(ctypes.Structure):
    """drain_spacing: the width and the height of all cells, or a text of lines `WIDTH HEIGHT`, one for each row."""

    _fields_ = [("width", ctypes.c_uint32), ("height", ctypes.c_uint32), ("widths", Bytes)]

    def __init__(self, width: int = 0, height: int = 0, widths: bytes = b"") -> None:
        super().__init__(width, height, Bytes(widths))


class Request(ctypes.Structure):
    """drain_request. What it points to lives as long as this object."""

    _fields_ = [
        ("side", ctypes.c_uint32),
        ("has_dem", ctypes.c_uint32),
        ("tiles", ctypes.POINTER(Pair)),
        ("tile_count", ctypes.c_size_t),
        ("dem", Pair),
        ("sinks", Bytes),
        ("spacing", Spacing),
        ("rasters", Pair * len(CHECKED)),
        ("judged", ctypes.c_uint32),
    ]

    def __init__(self, ground: Ground, rasters: Mapping[str, tuple[bytes, bytes]], sinks: bytes = b"",
                 spacing: Spacing | None = None) -> None:
        """Asks about rasters, by name, each a header and pixels. Without a spacing cells are square."""
        four = [Pair(*rasters.get(name, (b"", b""))) for name in CHECKED]
        judged = sum(1 << CHECKED.index(name) for name in rasters)
        count = len(ground.tiles)
        tiles = (Pair * max(count, 1))(*(Pair(name.encode(), samples) for name, samples in ground.tiles))
        has_dem, dem = ground.dem is not None, Pair(*(ground.dem or (b"", b"")))
        super().__init__(ground.side, has_dem, tiles, count, dem, Bytes(sinks), spacing or Spacing(1, 1),
                         (Pair * len(CHECKED))(*four), judged)


@dataclass(frozen=True)
class Ground:
    """Elevations: tiles of a side, each a name and samples, or one raster, a header and pixels."""

    side: int = 0
    tiles: Sequence[tuple[str, bytes]] = ()
    dem: tuple[bytes, bytes] | None = None


class RawAnswer(ctypes.Structure):
    """drain_answer."""

    _fields_ = [(name, ctypes.c_uint32) for name in ("status", "rule", "row", "col")] + [("line", ctypes.c_char * 164)]


class FaultCells(ctypes.Structure):
    """drain_fault_cells: at how many cells a rule fails, and the first."""

    _fields_ = [(name, ctypes.c_uint32) for name in ("cells", "row", "col")]


class Faults(ctypes.Structure):
    """drain_faults: rules[12] is rule 13."""

    _fields_ = [("rules", FaultCells * 15)]


@dataclass(frozen=True)
class Answer:
    """The status (0 accepted, 1 rejected, 2 refused, 3 failed), the rule and the cell of a rejection, the line."""

    status: int
    rule: int
    row: int
    col: int
    line: str


class Drain:
    """The library, from a shared object."""

    def __init__(self, path: str) -> None:
        self._library = ctypes.CDLL(path)
        given, answer = ctypes.POINTER(Request), ctypes.POINTER(RawAnswer)
        for name, kinds in (
            ("judge", []),
            ("explain_request", [ctypes.c_void_p, ctypes.c_size_t, ctypes.POINTER(Faults)]),
            ("derive_request", [ctypes.c_void_p, ctypes.c_size_t] * 3),
        ):
            call = getattr(self._library, f"drain_{name}")
            call.restype, call.argtypes = ctypes.c_uint32, [given, *kinds, answer]
        self._library.drain_version.argtypes = [ctypes.c_char_p, ctypes.c_size_t]
        self._library.drain_version.restype = ctypes.c_size_t

    def version(self) -> str:
        """The version, and the logic of the toolchain in a second line."""
        text = ctypes.create_string_buffer(256)
        self._library.drain_version(text, 256)
        return text.value.decode("ascii")

    def judge(self, request: Request) -> Answer:
        """The verdict on the rasters of a request."""
        raw = RawAnswer()
        self._library.drain_judge(request, raw)
        return answer_of(raw)

    def explain_request(self, request: Request, fault_map) -> tuple[Answer, Faults]:
        """The same with what explains it. fault_map: a bytearray or an array of a byte for each cell, to be written."""
        raw, faults = RawAnswer(), Faults()
        cells = memoryview(fault_map).nbytes
        self._library.drain_explain_request(request, (ctypes.c_uint8 * cells).from_buffer(fault_map), cells, faults, raw)
        return answer_of(raw), faults

    def derive_request(self, request: Request, *rasters) -> Answer:
        """Writes acc, bas and rnk of directions into three arrays of an unsigned number of 32 bits for each cell."""
        raw, places = RawAnswer(), []
        for numbers in rasters:
            count = memoryview(numbers).nbytes // 4
            places += [(ctypes.c_uint32 * count).from_buffer(numbers), count]
        self._library.drain_derive_request(request, *places, raw)
        return answer_of(raw)

    def audit(self, side: int, tiles: Sequence[tuple[str, bytes]], rasters: Sequence[tuple[bytes, bytes]],
              sinks: bytes = b"") -> Answer:
        """Audits con, dir, acc and bas for tiles, each a name and samples."""
        return self.judge(Request(Ground(side, tiles), named(AUDITED, rasters), sinks))

    def audit_only(self, side: int, tiles: Sequence[tuple[str, bytes]], rasters: Mapping[str, tuple[bytes, bytes]],
                   sinks: bytes = b"", spacing: Spacing | None = None) -> Answer:
        """Audits some rasters, by name: con, con and dir, these with acc or with bas, or all four."""
        return self.judge(Request(Ground(side, tiles), rasters, sinks, spacing))

    def explain(self, side: int, tiles: Sequence[tuple[str, bytes]], rasters: Mapping[str, tuple[bytes, bytes]],
                fault_map, sinks: bytes = b"", spacing: Spacing | None = None) -> tuple[Answer, Faults]:
        """The same with what explains it."""
        return self.explain_request(Request(Ground(side, tiles), rasters, sinks, spacing), fault_map)

    def derive(self, side: int, tiles: Sequence[tuple[str, bytes]], directions: tuple[bytes, bytes],
               *rasters) -> Answer:
        """Writes acc, bas and rnk of directions."""
        return self.derive_request(Request(Ground(side, tiles), {"dir": directions}), *rasters)

    def check(self, side: int, tiles: Sequence[tuple[str, bytes]], rasters: Sequence[tuple[bytes, bytes]],
              sinks: bytes = b"") -> Answer:
        """Checks con, dir, acc, bas and rnk."""
        return self.judge(Request(Ground(side, tiles), named(CHECKED, rasters), sinks))

    def audit_dem(self, dem: tuple[bytes, bytes], rasters: Sequence[tuple[bytes, bytes]], sinks: bytes = b"") -> Answer:
        """Audits con, dir, acc and bas for one raster of elevations."""
        return self.judge(Request(Ground(dem=dem), named(AUDITED, rasters), sinks))

    def audit_only_dem(self, dem: tuple[bytes, bytes], rasters: Mapping[str, tuple[bytes, bytes]],
                       sinks: bytes = b"", spacing: Spacing | None = None) -> Answer:
        """Audits some rasters, by name, for one raster of elevations."""
        return self.judge(Request(Ground(dem=dem), rasters, sinks, spacing))

    def explain_dem(self, dem: tuple[bytes, bytes], rasters: Mapping[str, tuple[bytes, bytes]], fault_map,
                    sinks: bytes = b"", spacing: Spacing | None = None) -> tuple[Answer, Faults]:
        """The same with what explains it."""
        return self.explain_request(Request(Ground(dem=dem), rasters, sinks, spacing), fault_map)

    def derive_dem(self, dem: tuple[bytes, bytes], directions: tuple[bytes, bytes], *rasters) -> Answer:
        """Writes acc, bas and rnk of directions on one raster of elevations."""
        return self.derive_request(Request(Ground(dem=dem), {"dir": directions}), *rasters)

    def check_dem(self, dem: tuple[bytes, bytes], rasters: Sequence[tuple[bytes, bytes]], sinks: bytes = b"") -> Answer:
        """Checks con, dir, acc, bas and rnk for one raster of elevations."""
        return self.judge(Request(Ground(dem=dem), named(CHECKED, rasters), sinks))


def named(names: Sequence[str], rasters: Sequence[tuple[bytes, bytes]]) -> dict[str, tuple[bytes, bytes]]:
    """The rasters by name."""
    if len(rasters) != len(names):
        raise ValueError(f"{len(names)} rasters are needed")
    return dict(zip(names, rasters))


def answer_of(raw: RawAnswer) -> Answer:
    """The answer that C wrote."""
    return Answer(raw.status, raw.rule, raw.row, raw.col, raw.line.decode("ascii"))


def raster_of(array, nodata: int, side: int, tiles: Sequence[str]) -> tuple[bytes, bytes]:
    """Header and pixels of an array of rows by columns, as of numpy, that lies where the tiles of these names do.

    Its numbers are whole ones of 8, 16 or 32 bits, in either order of bytes.
    """
    view = memoryview(array)
    rows, cols = view.shape
    kind = view.format[-1]
    if kind.lower() not in "bhilq":
        raise ValueError(f"not whole numbers: {view.format}")
    corners = [(int(name[4:7]) * (1 if name[3] in "Ee" else -1), int(name[1:3]) * (1 if name[0] in "Nn" else -1))
               for name in tiles]
    lines = [
        f"BYTEORDER {'M' if view.format[0] in '>!' else 'I'}",
        f"NROWS {rows}",
        f"NCOLS {cols}",
        f"NBITS {8 * view.itemsize}",
        f"PIXELTYPE {'SIGNEDINT' if kind.islower() else 'UNSIGNEDINT'}",
        f"ULXMAP {min(west for west, _ in corners)}",
        f"ULYMAP {max(south for _, south in corners) + 1}",
        f"XDIM {1 / (side - 1):.15f}",
        f"YDIM {1 / (side - 1):.15f}",
        f"NODATA {nodata}",
    ]
    return "\n".join(lines).encode(), view.tobytes()


def main(words: Sequence[str]) -> int:
    if len(words) < 5 or words[1] not in ("audit", "check"):
        print("usage: judge.py LIBDRAIN.so audit|check SIDE DIRECTORY TILE...", file=sys.stderr)
        return 2
    library, command, side, directory, *paths = words
    drain = Drain(library)
    products = AUDITED if command == "audit" else CHECKED
    rasters = [tuple(Path(directory, product + end).read_bytes() for end in (".hdr", ".bil")) for product in products]
    tiles = [(Path(path).name, Path(path).read_bytes()) for path in paths]
    if not 0 <= int(side) < 2**32:
        raise ValueError(f"a side has 32 bits: {side}")
    answer = (drain.audit if command == "audit" else drain.check)(int(side), tiles, rasters)
    print(answer.line, flush=True)
    return answer.status


if __name__ == "__main__":
    try:
        sys.exit(main(sys.argv[1:]))
    except (OSError, ValueError) as error:
        # Python's own status would be 1, which means rejected.
        print(error, file=sys.stderr)
        sys.exit(4)
