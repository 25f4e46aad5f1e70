"""Windows and where they lie: what a line of the plan says (windows.py)."""

import re
from collections.abc import Sequence
from dataclasses import dataclass
from pathlib import Path
from typing import NamedTuple

TILE = re.compile(r"([NS])(\d\d)([EW])(\d\d\d)(?:\.hgt)?", re.IGNORECASE)


class Corner(NamedTuple):
    """The south-west corner of a tile, in whole degrees north and east."""

    lat: int
    lon: int

    def __str__(self) -> str:
        north, east = "NS"[self.lat < 0], "EW"[self.lon < 0]
        return f"{north}{abs(self.lat):02d}{east}{abs(self.lon):03d}"


class Box(NamedTuple):
    """The first row and column of a box of cells, and its size."""

    row: int
    col: int
    rows: int
    cols: int

    def __str__(self) -> str:
        return ",".join(map(str, self))


@dataclass(frozen=True)
class Window:
    """A line of the plan."""

    name: str
    box: Box
    """The window in the mosaic of its tiles."""

    inner: str
    mosaic: Box
    """The mosaic in the union."""

    tiles: Sequence[str]
    """In place of tiles one raster of elevations, the DEM: then the mosaic is a part of it."""

    @property
    def dem(self) -> Path | None:
        """The DEM; None of a window of tiles."""
        return None if self.tiles[0].lower().endswith(".hgt") else Path(self.tiles[0])

    @property
    def place(self) -> Box:
        """The window in the union."""
        return Box(self.mosaic.row + self.box.row, self.mosaic.col + self.box.col, self.box.rows, self.box.cols)

    def __str__(self) -> str:
        return " ".join([self.name, str(self.box), self.inner or "-", str(self.mosaic), *self.tiles])

    @staticmethod
    def of(words: Sequence[str]) -> "Window":
        """The window of a line's words."""
        name, box, inner, mosaic, *tiles = words
        return Window(name, box_of(box), inner.replace("-", ""), box_of(mosaic), tiles)


def box_of(text: str) -> Box:
    row, col, rows, cols = map(int, text.split(","))
    return Box(row, col, rows, cols)


def corner_of(name: str) -> Corner | None:
    """The corner that a tile's name has; None of another name."""
    if not (match := TILE.fullmatch(name)):
        return None
    north, lat, east, lon = match.groups()
    return Corner(int(lat) * (1 if north in "Nn" else -1), int(lon) * (1 if east in "Ee" else -1))
