#!/usr/bin/env python3
"""Audits small random sets of tiles, right ones and ones with one number changed, whole and by each list of rasters, and derives
rasters of their directions; compares with audit.py, derive.py and with the meaning of correct products (random_sets.py).

random_audits.py [DRAIN]     without the program only the others are compared

Prints how many sets passed.
"""

import struct
import sys

sys.dont_write_bytecode = True
from audit import NO_DATA, TileFiles
from make_products import VOID, header_at
from plain_inputs import Mosaic
from random_sets import CHANGES, case_over, given_program, judge_random

# A tile, two beside each other or at a corner, four in a square, and eight in a row or a column.
TILES = [
    ["N00E000.hgt"],
    ["N00E000.hgt"],
    ["N00E000.hgt"],
    ["N00E000.hgt", "N00E001.hgt"],
    ["N01E000.hgt", "N00E000.hgt"],
    ["N00E001.hgt", "N01E000.hgt"],
    ["N01E001.hgt", "N00E000.hgt", "N01E000.hgt", "N00E001.hgt"],
    [f"N00E00{lon}.hgt" for lon in range(8)],
    [f"N0{lat}E000.hgt" for lat in range(8)],
]


class RandomTiles:
    """One to eight tiles whose common edges agree."""

    lowest = 0

    def __init__(self, dice):
        self.dice = dice
        self.side = dice.choice([2, 3, 3, 4, 5])
        self.names = dice.choice(TILES)
        self.mosaic = Mosaic(self.side, [name.encode() for name in self.names])
        self.rows, self.cols = self.mosaic.rows, self.mosaic.cols
        self.tiles = self.random_tiles()
        self.z = self.mosaic.elevations(self.tiles)

    def random_tiles(self):
        """Tiles whose common edges agree: samples by the place of a cell in the box."""
        most, voids = self.dice.choice([1, 3, 9]), self.dice.choice([0, 0, 0.1, 0.3])
        box = [VOID if self.dice.random() < voids else self.dice.randrange(most + 1) for _ in range(self.mosaic.rows * self.mosaic.cols)]
        tiles = []
        for lat, lon in self.mosaic.corners:
            top, left = (self.mosaic.north - lat - 1) * (self.side - 1), (lon - self.mosaic.west) * (self.side - 1)
            rows = (box[(top + row) * self.mosaic.cols + left:][:self.side] for row in range(self.side))
            tiles.append(struct.pack(f">{self.side**2}h", *(sample for row in rows for sample in row)))
        return tiles

    def no_data_of(self, products):
        nodata = {name: self.dice.choice([number, number, 7, 99]) for name, number in NO_DATA.items()}
        return dict(NO_DATA) if any(nodata[name] in products[name] for name in NO_DATA) else nodata

    def can_spell(self, *_):
        return True

    def raster(self, name, nodata, numbers):
        """The header and the bytes of a raster."""
        form, order = "I" if name == "rnk" else self.dice.choice("hi"), self.dice.choice("IM")
        header = header_at(self.rows, self.cols, self.mosaic.place, 8 * struct.calcsize(form), form != "I", nodata)
        body = struct.pack(f"{'<' if order == 'I' else '>'}{len(numbers)}{form}", *numbers)
        return header.replace("BYTEORDER I", f"BYTEORDER {order}"), body

    def write(self, folder):
        for name, tile in zip(self.names, self.tiles):
            (folder / name).write_bytes(tile)

    def paths(self, folder):
        return [folder / name for name in self.names]

    def files(self, folder):
        return TileFiles(self.side, self.paths(folder))

    def words(self, folder):
        return ["--side", str(self.side), *self.paths(folder)]


if __name__ == "__main__":
    sys.exit(judge_random(given_program(), "audits", case_over(RandomTiles), CHANGES))
