"""libdrain: `drain` as a library, called where the arrays of a set lie. The only module that knows its calls."""

import ctypes
from collections.abc import Mapping
from pathlib import Path
from typing import Any

import numpy as np

from .around import Array
from .sets import PRODUCTS, Set

NEEDED = {"ssse3", "sse4_1", "sse4_2", "popcnt", "cx16"}  # what the library uses of a processor, and doesn't test
PLACES = ("libdrain.so", "libdrain.so.0", "../lib/libdrain.so.0", "../lib/x86_64-linux-gnu/libdrain.so.0")
# drain_request; drain_answer; and drain_faults: of each rule the number of cells, and the row and the column of the first.
# Bytes are an address, a length and 0, a raster is the bytes of its header and of its pixels.
REQUEST = np.dtype(
    [("side", "<u4"), ("has_dem", "<u4"), ("tiles", "<u8", 2), ("dem", "<u8", 6), ("sinks", "<u8", 3), ("cell", "<u4", 2)]
    + [("widths", "<u8", 3), ("rasters", "<u8", (5, 6)), ("judged", "<u4", 2)]
)
# The places of its numbers, of each bytes that of the last.
NUMBERS = [0, 4, 96, 100, 368, *(at + 16 for at in (72, 104, *range(24, 72, 24), *range(128, 368, 24)))]
ANSWER = np.dtype([*((name, "<u4") for name in ("status", "rule", "row", "col")), ("line", "S164")])
FAULTS = np.dtype([("rules", "<u4", (15, 3))])
NONE = np.zeros(1, np.uint8)[:0]


class Library:
    """A shared object."""

    def __init__(self, path: Path) -> None:
        self.calls: Any = ctypes.CDLL(str(path))
        at, size, number = ctypes.c_void_p, ctypes.c_size_t, ctypes.c_uint32
        for name, kind, kinds in (
            ("version", size, [at, size]),
            ("answer_layout", size, [at]),
            ("faults_layout", size, [at]),
            ("request_layout", size, [at]),
            ("explain_request", number, [at, at, size, at, at]),
            ("derive_request", number, [at, *[at, size] * 3, at]),
        ):
            call = getattr(self.calls, f"drain_{name}")
            call.restype, call.argtypes = kind, kinds

    def is_of(self, version: str) -> bool:
        """Whether it is of this version of the program, and has the layouts that are declared here."""
        text = np.zeros((), "S256")
        self.calls.drain_version(text.ctypes.data, 255)
        found = [f"drain {text.item().decode()}" == version]
        for call, kind in ((self.calls.drain_answer_layout, ANSWER), (self.calls.drain_faults_layout, FAULTS)):
            places = np.zeros(64, "<u4")
            found += [call(places.ctypes.data) == kind.itemsize, places[:4].tolist() == [0, 4, 8, 12]]
        asked = np.zeros(128, "<u4")
        found += [self.calls.drain_request_layout(asked.ctypes.data) == REQUEST.itemsize]
        return all(found) and all(asked[place // 4] == place for place in NUMBERS)

    def explain(self, one: Set, names: list[str]) -> tuple[str, int, Array, Array]:
        """The answer to these products, a line and a status; the map; of each rule cells, and row and column of the first."""
        shown, faults, answer = np.zeros(one.shape, np.uint8), np.zeros((), FAULTS), np.zeros((), ANSWER)
        asked = Request(one, {name: one.arrays[name] for name in names})
        status = self.calls.drain_explain_request(
            asked.at, shown.ctypes.data, shown.size, faults.ctypes.data, answer.ctypes.data
        )
        return answer["line"].item().decode(), status, shown, faults["rules"]

    def derive(self, one: Set, codes: Array) -> tuple[str, int, Array, Array]:
        """The answer, and acc and bas along these codes."""
        acc, bas, rnk = (np.zeros(one.shape, "<u4") for _ in range(3))
        answer = np.zeros((), ANSWER)
        asked = Request(one, {"dir": codes})
        places = [number for made in (acc, bas, rnk) for number in (made.ctypes.data, made.size)]
        status = self.calls.drain_derive_request(asked.at, *places, answer.ctypes.data)
        return answer["line"].item().decode(), status, acc, bas


class Request:
    """drain_request about these arrays over the set's elevations, on square cells: while this object lives, so do they."""

    def __init__(self, one: Set, given: Mapping[str, Array]) -> None:
        self.kept: list[Array] = []
        table = np.zeros((), REQUEST)
        none = self.place(NONE)
        table["has_dem"], table["cell"], table["widths"], table["tiles"] = 1, 1, none, none[:2]
        table["dem"] = self.raster(one.header("dem"), one.arrays["dem"])
        table["sinks"] = self.place(np.frombuffer(one.sink_text().encode(), np.uint8))
        table["rasters"] = [
            self.raster(one.header(name), given[name]) if name in given else none * 2 for name in (*PRODUCTS, "rnk")
        ]
        table["judged"] = sum(1 << PRODUCTS.index(name) for name in given), 0
        self.table, self.at = table, table.ctypes.data

    def raster(self, header: str, pixels: Array) -> list[int]:
        return self.place(np.frombuffer(header.encode(), np.uint8)) + self.place(pixels)

    def place(self, part: Array) -> list[int]:
        """drain_bytes of these."""
        assert part.flags.c_contiguous
        self.kept.append(part)
        return [part.ctypes.data, part.nbytes, 0]


def library_beside(program: str) -> Library | None:
    """The library that is installed with a program, if the processor is new enough."""
    path = next((one for place in PLACES if (one := Path(program).parent / place).is_file()), None)
    try:
        flags = Path("/proc/cpuinfo").read_text(encoding="ascii", errors="replace").partition("flags")[2].split("\n")[0]
        return Library(path) if path and NEEDED <= set(flags.split()) else None
    except (OSError, AttributeError):  # it can't be loaded, or is an older one without these calls
        return None
