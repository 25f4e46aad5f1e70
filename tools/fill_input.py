#!/usr/bin/env python3
"""Writes the input of `drain fill` for one tile from right con and dir rasters, as `drain make` writes them: con in 16 bits,
dir in 8, 255 for a void.

fill_input.py SIDE TILE FOLDER     FOLDER has con.bil and dir.bil; the input goes to standard output

The spill parent of a cell that isn't open is its direction, and its rank the number of steps to the outlet. There are no
listed sinks, as in `drain fill`.
"""

import array
import sys

VOID = 255


class Directions:
    """The codes of a square, row after row."""

    def __init__(self, side, codes):
        self.side, self.codes = side, codes
        self.steps = {1: 1, 2: side + 1, 4: side, 8: side - 1, 16: -1, 32: -side - 1, 64: -side, 128: 1 - side}

    def is_open(self, cell):
        row, col = divmod(cell, self.side)
        at_the_edge = row in (0, self.side - 1) or col in (0, self.side - 1)
        return at_the_edge or any(self.codes[cell + step] == VOID for step in self.steps.values())

    def spill_parents(self):
        return bytes(0 if code == VOID or self.is_open(cell) else code for cell, code in enumerate(self.codes))

    def ranks(self):
        ranks = array.array("I", bytes(4 * len(self.codes)))
        for cell in range(len(ranks)):
            way = []
            while self.codes[cell] in self.steps and ranks[cell] == 0:
                way.append(cell)
                if len(way) > len(ranks):
                    sys.exit(f"directions go round in a ring from row {cell // self.side}, column {cell % self.side}")
                cell += self.steps[self.codes[cell]]
            for rank, passed in enumerate(reversed(way), ranks[cell] + 1):
                ranks[passed] = rank
        return ranks


def read(path):
    with open(path, "rb") as file:
        return file.read()


def main():
    if len(sys.argv) != 4:
        sys.exit(__doc__)
    side, tile, folder = int(sys.argv[1]), sys.argv[2], sys.argv[3]
    directions = Directions(side, read(f"{folder}/dir.bil"))
    con, ranks = array.array("h", read(f"{folder}/con.bil")), directions.ranks()
    con.byteswap()
    if sys.byteorder == "little":
        ranks.byteswap()
    sys.stdout.buffer.write(read(tile) + con.tobytes() + directions.spill_parents() + ranks.tobytes())


if __name__ == "__main__":
    main()
