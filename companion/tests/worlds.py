"""Terrain for the tests, right products of it by libraries, and sets as files."""

from dataclasses import dataclass
from pathlib import Path
from typing import Any

import libraries
import numpy as np
import rasterio
from drain_gis.layers import SWAPPED
from libraries import STEP
from rasterio.transform import Affine

UTM = Affine(30, 0, 500000, 0, -30, 4000000)
PRODUCTS = ("con", "dir", "acc", "bas")
Cell = tuple[int, int]
BIG = 2**53  # from here on double precision no longer holds all whole numbers
# Two basins: a ridge between two slopes.
DEM = np.array([[1, 2, 3, 2, 1]], np.int32)
CODES = np.array([[0, 16, 16, 1, 0]], np.uint8)


@dataclass
class World:
    """Elevations and right products; numbers in voids mean nothing."""

    dem: np.ndarray
    void: np.ndarray
    con: np.ndarray
    dir: np.ndarray
    acc: np.ndarray
    bas: np.ndarray

    def masked(self, name: str) -> np.ndarray:
        """A copy of a raster with its voids masked."""
        return np.ma.array(getattr(self, name), mask=self.void, copy=True)

    def given(self, *names: str) -> dict[str, np.ndarray]:
        """The rasters as the arguments of an audit: dem, and these."""
        return {name: self.masked(name) for name in ("dem", *(names or PRODUCTS))}

    def cells(self) -> list[Cell]:
        """The data cells, row by row."""
        return [(int(row), int(col)) for row, col in np.argwhere(~self.void)]

    def beside(self, cell: Cell) -> dict[int, Cell]:
        """Code to cell of the neighbours with data."""
        there = libraries.shifted(~self.void, False)
        return {code: (cell[0] + r, cell[1] + c) for code, (r, c) in STEP.items() if there[code][cell]}

    def leading_off(self) -> np.ndarray:
        """The directions with a code that leads off the grid or into a void at each outlet, as many tools write them."""
        codes = self.dir.copy()
        for code, nowhere in libraries.shifted(self.void, True).items():
            codes[~self.void & (self.dir == 0) & nowhere] = code
        return codes


def world_of(z: np.ndarray, void: np.ndarray, seed: int = 0, sinks: tuple[Cell, ...] = ()) -> World:
    """Right products of these elevations."""
    return World(z, void, **libraries.make(z, void, np.random.default_rng(seed), sinks))


def random_world(rows: int = 23, cols: int = 31, seed: int = 1, voids: float = 0.03) -> World:
    """A rough slope with voids."""
    rng = np.random.default_rng(seed)
    z = np.add.outer(np.arange(rows), np.arange(cols)) // 3 + rng.integers(0, 9, (rows, cols))
    return world_of(z.astype(np.int32), rng.random((rows, cols)) < voids)


def in_codes_of(tool: Any, codes: np.ndarray) -> np.ndarray:
    """Esri's codes as a tool writes them."""
    numbers = {code: number for number, code in tool.codes.items()}
    numbers[0] = ([number for number in tool.ends if number not in tool.inland] or list(tool.ends))[0]
    return np.vectorize(lambda code: numbers[int(code)], otypes=[np.int32])(codes)


def write_tif(
    path: Path, numbers: np.ndarray, nodata: float | None = None, place: Affine | None = UTM, epsg: int | None = 32616
) -> str:
    """A GeoTIFF of one band. Returns its path."""
    numbers = numbers.view(SWAPPED.get(numbers.dtype.name, numbers.dtype))  # as rasterio calls what it writes
    shape = {"height": numbers.shape[0], "width": numbers.shape[1], "count": 1, "dtype": numbers.dtype}
    where = {"transform": place} if place else {}
    with rasterio.open(path, "w", driver="GTiff", nodata=nodata, crs=epsg and f"EPSG:{epsg}", **shape, **where) as file:
        file.write(numbers, 1)
    return str(path)


def write_set(folder: Path, world: World, *place: Any, **changed: np.ndarray) -> dict[str, str]:
    """A world as GeoTIFFs with -9999 for no data, some rasters changed. Returns name to path."""
    kinds = {"dem": "i2", "con": "i2", "dir": "i2", "acc": "i4", "bas": "i4"}
    arrays = {name: changed.get(name, getattr(world, name).astype(kind)) for name, kind in kinds.items()}
    return {
        name: write_tif(folder / f"{name}.tif", np.where(world.void, -9999, a).astype(a.dtype), -9999, *place)
        for name, a in arrays.items()
    }


def words(paths: dict[str, str], tool: str = "esri") -> list[str]:
    """The arguments that name a set."""
    return ["--from", tool, *(word for name, path in paths.items() for word in (f"--{name}", str(path)))]
