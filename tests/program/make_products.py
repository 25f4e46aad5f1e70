#!/usr/bin/env python3
"""Makes the five products of one tile, or checks such products: slow and plain, for sides up to about 400. Elevations may be
of any width for those who call `make`.

make_products.py [--sinks LIST] SIDE TILE FOLDER             writes con, dir, acc, bas and rnk, each a .hdr and a .bil
make_products.py --verify [--sinks LIST] SIDE TILE FOLDER    prints the right line of `drain check` for these rasters

LIST is a file of lines ROW COL, each a data cell that is open too.

Conditioned elevations come from Priority-Flood (Barnes, Lehman and Mulla 2014), which starts at the open cells. The check
is written rule by rule from docs/RULES.md and knows nothing of floods; it reads only rasters of the form written here.
"""

import heapq
import os
import struct
import sys
from fractions import Fraction

VOID = -32768
STEPS = {1: (0, 1), 2: (1, 1), 4: (1, 0), 8: (1, -1), 16: (0, -1), 32: (-1, -1), 64: (-1, 0), 128: (-1, 1)}
UNIT_SPACING = (1, 1)

# Name, bits of a pixel, whether it is signed, its form for struct, and the no-data number.
PRODUCTS = [
    ("con", 16, True, "h", -32768),
    ("dir", 8, False, "B", 255),
    ("acc", 32, False, "I", 0),
    ("bas", 32, False, "I", 0),
    ("rnk", 32, False, "I", 4294967295),
]


def opposite(code):
    return code << 4 if code < 16 else code >> 4


def distance_square(spacing, code):
    """The square of the distance to the neighbour that a code leads to, where cells have this width and this height."""
    (width, height), (down, right) = spacing, STEPS[code]
    return (right * width) ** 2 + (down * height) ** 2


class Terrain:
    """Elevations in row order, None at voids; and of each row the width and the height of its cells, in a unit of its own."""

    def __init__(self, rows, cols, z, sinks=(), spacings=None):
        self.rows, self.cols, self.z = rows, cols, z
        self.spacings = spacings or [UNIT_SPACING] * rows
        self.around = {}
        self.sinks = {row * cols + col for row, col in sinks}

    @classmethod
    def of_tile(cls, side, path, sinks=()):
        with open(path, "rb") as file:
            samples = struct.unpack(f">{side * side}h", file.read())
        return cls(side, side, [None if sample == VOID else sample for sample in samples], sinks)

    def data_cells(self):
        return [cell for cell, ground in enumerate(self.z) if ground is not None]

    def beside(self, cell, code):
        """The cell one step away, None outside the grid."""
        row, col = cell // self.cols + STEPS[code][0], cell % self.cols + STEPS[code][1]
        return row * self.cols + col if 0 <= row < self.rows and 0 <= col < self.cols else None

    def data_neighbors(self, cell):
        """The neighbours with data, each after the code that leads to it; kept, since every rule needs them."""
        if cell not in self.around:
            found = ((code, self.beside(cell, code)) for code in STEPS)
            self.around[cell] = [(code, other) for code, other in found if other is not None and self.z[other] is not None]
        return self.around[cell]

    def is_open(self, cell):
        return self.z[cell] is not None and (cell in self.sinks or len(self.data_neighbors(cell)) < 8)

    def distance_square(self, cell, code):
        """The square of the distance to the neighbour that a code leads to, by the row of the cell that water leaves."""
        return distance_square(self.spacings[cell // self.cols], code)

    def slope_square(self, cell, code, drop):
        """The square of a slope: of drop over distance."""
        return Fraction(drop * drop, self.distance_square(cell, code))


# Making


def flood(terrain):
    """con, the code of the way back over which the flood came (0 at open cells), and rnk: how many cells the flood visited before."""
    con, back, rnk = list(terrain.z), [None] * len(terrain.z), [None] * len(terrain.z)
    queue = []
    for cell in terrain.data_cells():
        if terrain.is_open(cell):
            back[cell] = 0
            queue.append((con[cell], len(queue), cell))
    heapq.heapify(queue)
    found = len(queue)
    visited = 0
    while queue:
        level, _, cell = heapq.heappop(queue)
        rnk[cell] = visited
        visited += 1
        for code, other in terrain.data_neighbors(cell):
            if back[other] is None:
                back[other] = opposite(code)
                con[other] = max(terrain.z[other], level)
                heapq.heappush(queue, (con[other], found, other))
                found += 1
    return con, back, rnk


def direct(terrain, con, back):
    """dir: the first of the steepest ways down; on flats 0 at open cells, and else the way back over which the flood came."""
    dir_ = [None] * len(con)
    for cell in terrain.data_cells():
        drops = {code: con[cell] - con[other] for code, other in terrain.data_neighbors(cell) if con[other] < con[cell]}
        if drops:
            dir_[cell] = max(drops, key=lambda code: terrain.slope_square(cell, code, drops[code]))
        else:
            dir_[cell] = back[cell]
    return dir_


def make(terrain):
    """All products, None at voids. Each direction leads to a smaller rank, so ranks order both sums and labels."""
    con, back, rnk = flood(terrain)
    dir_ = direct(terrain, con, back)
    acc, bas = [None] * len(con), [None] * len(con)
    visits = sorted(terrain.data_cells(), key=lambda cell: rnk[cell])
    outlets = [cell for cell in terrain.data_cells() if dir_[cell] == 0]
    for label, cell in enumerate(outlets, 1):
        bas[cell] = label
    for cell in visits:
        acc[cell] = 1
        if dir_[cell] != 0:
            bas[cell] = bas[terrain.beside(cell, dir_[cell])]
    for cell in reversed(visits):
        if dir_[cell] != 0:
            acc[terrain.beside(cell, dir_[cell])] += acc[cell]
    return {"con": con, "dir": dir_, "acc": acc, "bas": bas, "rnk": rnk}


# Files


def fixed(units):
    """A number of units of 10^-15 as a decimal with 15 places."""
    sign, units = ("-" if units < 0 else ""), abs(units)
    return f"{sign}{units // 10**15}.{units % 10**15:015d}"


# By whether pixels have a sign; None is of floats.
PIXEL_TYPES = {True: "SIGNEDINT", False: "UNSIGNEDINT", None: "FLOAT"}


def header_at(rows, cols, place, bits, signed, nodata):
    """The header of a raster at a place (ULXMAP, ULYMAP, XDIM, YDIM, in units of 10^-15), as `drain header` prints it."""
    row_bytes = cols * bits // 8
    lines = [
        "BYTEORDER I",
        "LAYOUT BIL",
        f"NROWS {rows}",
        f"NCOLS {cols}",
        "NBANDS 1",
        f"NBITS {bits}",
        f"BANDROWBYTES {row_bytes}",
        f"TOTALROWBYTES {row_bytes}",
        "SKIPBYTES 0",
        f"PIXELTYPE {PIXEL_TYPES[signed]}",
        *(f"{key} {fixed(units)}" for key, units in zip(("ULXMAP", "ULYMAP", "XDIM", "YDIM"), place)),
        f"NODATA {nodata}",
    ]
    return "".join(line + "\n" for line in lines)


def place_of(side, tile):
    """The place of the tile of this name."""
    name = os.path.basename(tile).upper()
    south = int(name[1:3]) * (1 if name[0] == "N" else -1)
    west = int(name[4:7]) * (1 if name[3] == "E" else -1)
    step = 10**15 // (side - 1)
    return west * 10**15, (south + 1) * 10**15, step, step


def header(side, tile, bits, signed, nodata):
    """The header of a raster over the tile of this name."""
    return header_at(side, side, place_of(side, tile), bits, signed, nodata)


def write_raster(stem, header, form, numbers):
    """Writes a header and the pixels of a raster, least significant byte first."""
    with open(stem + ".hdr", "w", newline="\n") as file:
        file.write(header)
    with open(stem + ".bil", "wb") as file:
        file.write(struct.pack(f"<{len(numbers)}{form}", *numbers))


def write(rows, cols, place, products, folder, kinds=tuple(PRODUCTS)):
    os.makedirs(folder, exist_ok=True)
    for name, bits, signed, form, nodata in kinds:
        numbers = [nodata if number is None else number for number in products[name]]
        write_raster(os.path.join(folder, name), header_at(rows, cols, place, bits, signed, nodata), form, numbers)


def read(side, folder):
    """The numbers of each product as they are, no-data numbers too."""
    products = {}
    for name, _, _, form, _ in PRODUCTS:
        with open(os.path.join(folder, name + ".bil"), "rb") as file:
            products[name] = struct.unpack(f"<{side * side}{form}", file.read())
    return products


# Judging


class Rules:
    """The rules of a check, each a method that answers whether it holds at a cell."""

    def __init__(self, terrain, products):
        self.terrain = terrain
        self.products = products
        self.z = terrain.z
        self.nodata = {name: nodata for name, _, _, _, nodata in PRODUCTS}
        self.con, self.dir, self.acc, self.bas, self.rnk = (products.get(name) for name, *_ in PRODUCTS)
        self.first_with_label = {}
        for cell in terrain.data_cells() if self.bas is not None else []:
            if self.dir[cell] == 0:
                self.first_with_label.setdefault(self.bas[cell], cell)

    def lower(self, cell):
        return [(code, other) for code, other in self.terrain.data_neighbors(cell) if self.con[other] < self.con[cell]]

    def is_closed(self, cell):
        return self.z[cell] is not None and not self.terrain.is_open(cell)

    def named(self, cell, code):
        """The data neighbour that a code names, None where it names none."""
        other = self.terrain.beside(cell, code) if code in STEPS else None
        return other if other is not None and self.z[other] is not None else None

    def blanks(self, cell):
        return [self.products[name][cell] == nodata for name, nodata in self.nodata.items()]

    def void_cell(self, cell):
        return self.z[cell] is not None or all(self.blanks(cell))

    def missing(self, cell):
        return self.z[cell] is None or not any(self.blanks(cell))

    def bad_code(self, cell):
        return self.z[cell] is None or self.dir[cell] == 0 or self.dir[cell] in STEPS

    def below_ground(self, cell):
        return self.z[cell] is None or self.con[cell] >= self.z[cell]

    def open_raised(self, cell):
        return not self.terrain.is_open(cell) or self.con[cell] == self.z[cell]

    def not_least(self, cell):
        return self.z[cell] is None or all(
            self.con[cell] <= max(self.z[cell], self.con[other]) for _, other in self.terrain.data_neighbors(cell)
        )

    def slope(self, cell):
        if self.z[cell] is None or not self.lower(cell):
            return True
        slopes = {code: self.terrain.slope_square(cell, code, self.con[cell] - self.con[other]) for code, other in self.lower(cell)}
        return slopes.get(self.dir[cell]) == max(slopes.values())

    def outlet_code(self, cell):
        return not self.terrain.is_open(cell) or bool(self.lower(cell)) or self.dir[cell] == 0

    def flat_step(self, cell):
        if not self.is_closed(cell) or self.lower(cell):
            return True
        other = self.named(cell, self.dir[cell])
        return other is not None and self.con[other] == self.con[cell] and self.rnk[other] < self.rnk[cell]

    def accumulation(self, cell):
        if self.z[cell] is None:
            return True
        inflow = (self.acc[other] for code, other in self.terrain.data_neighbors(cell) if self.dir[other] == opposite(code))
        return self.acc[cell] == 1 + sum(inflow)

    def label(self, cell):
        other = self.named(cell, self.dir[cell]) if self.z[cell] is not None else None
        return other is None or self.bas[cell] == self.bas[other]

    def shared_label(self, cell):
        return self.z[cell] is None or self.dir[cell] != 0 or self.first_with_label[self.bas[cell]] == cell


# Rules 6 to 8 are those of `drain fill` alone.
RULES = [
    (1, "VoidCell", "void_cell"),
    (2, "Missing", "missing"),
    (3, "BadCode", "bad_code"),
    (4, "BelowGround", "below_ground"),
    (5, "OpenRaised", "open_raised"),
    (9, "NotLeast", "not_least"),
    (10, "Slope", "slope"),
    (11, "OutletCode", "outlet_code"),
    (12, "FlatStep", "flat_step"),
    (13, "Accumulation", "accumulation"),
    (14, "Label", "label"),
    (15, "SharedLabel", "shared_label"),
]


def verdict(rules, tried=tuple(RULES)):
    """The line of the verdict: the first cell in row order at which a rule fails, and the first such rule."""
    terrain = rules.terrain
    for cell in range(len(terrain.z)):
        for number, name, holds in tried:
            if not getattr(rules, holds)(cell):
                return f"rejected rule={number} {name} row={cell // terrain.cols} col={cell % terrain.cols}"
    data = terrain.data_cells()
    raised = sum(rules.con[cell] > rules.z[cell] for cell in data)
    line = f"accepted rows={terrain.rows} cols={terrain.cols} data={len(data)} raised={raised}"
    return line if rules.dir is None else f"{line} outlets={sum(rules.dir[cell] == 0 for cell in data)}"


def read_sinks(path):
    """The row and the column of each line."""
    with open(path, encoding="ascii") as file:
        return [tuple(int(word) for word in line.split()) for line in file if line.split()]


def main():
    words = sys.argv[1:]
    judging = words[:1] == ["--verify"]
    listing = words[judging:judging + 1] == ["--sinks"]
    if len(words) != 3 + judging + 2 * listing:
        sys.exit(__doc__)
    side, tile, folder = int(words[-3]), words[-2], words[-1]
    terrain = Terrain.of_tile(side, tile, read_sinks(words[-4]) if listing else ())
    if judging:
        print(verdict(Rules(terrain, read(side, folder))))
    else:
        write(side, side, place_of(side, tile), make(terrain), folder)


if __name__ == "__main__":
    main()
