#!/usr/bin/env python3
"""Prints the right line of `drain derive`, and writes its six files: slow and plain, for up to some 20,000 cells.

derive.py --side N --products DIR --out OUT [--sinks FILE] TILE..     ends with the status that goes with the line
derive.py --dem FILE --products DIR --out OUT [--sinks FILE]          elevations come from one raster

It follows the path of each cell, step by step: a cell's accumulation is the number of paths that it lies on, its label
the number of the outlet at the end of its own, its rank how many steps lead there. Headers are those of docs/FORMATS.md.
"""

import argparse
import os
import struct
import sys

sys.dont_write_bytecode = True
from audit import STATUSES, DemFile, TileFiles, contents, headers_of
from make_products import STEPS, Terrain, header_at
from plain_inputs import Refused, listed_sinks

BLANK = {"acc": 0, "bas": 0, "rnk": 4294967295}


def path_of(terrain, codes, cell):
    """The cells of a path to the cell with code 0 that ends it, None if it doesn't end at one."""
    path, seen = [cell], {cell}
    while codes[path[-1]] != 0:
        code = codes[path[-1]]
        there = terrain.beside(path[-1], code) if code in STEPS else None
        if there is None or terrain.z[there] is None or there in seen:
            return None
        path.append(there)
        seen.add(there)
    return path


def derived(terrain, codes):
    """The three rasters, or the first data cell whose path doesn't end."""
    rasters = {name: [blank] * len(terrain.z) for name, blank in BLANK.items()}
    cells = terrain.data_cells()
    numbers = {cell: number for number, cell in enumerate((cell for cell in cells if codes[cell] == 0), 1)}
    for cell in cells:
        rasters["acc"][cell] = 0
    for cell in cells:
        path = path_of(terrain, codes, cell)
        if path is None:
            return cell
        rasters["rnk"][cell] = len(path) - 1
        rasters["bas"][cell] = numbers[path[-1]]
        for passed in path:
            rasters["acc"][passed] += 1
    return rasters


def read(files, folder, sinks):
    """The ground of these files, its terrain, and the directions at these paths."""
    files.read()
    text, body = (contents(os.path.join(folder, "dir" + ending)) for ending in (".hdr", ".bil"))
    listing = contents(sinks) if sinks else b""
    ground = files.ground()
    headers = headers_of(ground, {"dir": text})
    ground.judge_lengths(files.body)
    codes = headers["dir"].pixels(body)
    if codes is None:
        raise Refused("RasterShort dir")
    z = ground.elevations(files.body)
    for number, row, col in listed_sinks(listing):
        if row >= ground.rows or col >= ground.cols or z[row * ground.cols + col] is None:
            raise Refused(f"SinkNotData {number}")
    return ground, Terrain(ground.rows, ground.cols, z), codes


def derive(files, folder, sinks, out):
    """The line; files are written if it is `derived`."""
    try:
        ground, terrain, codes = read(files, folder, sinks)
    except FileNotFoundError as fault:
        return f"failed Open {fault.filename}"
    except Refused as fault:
        return f"refused {fault}"
    rasters = derived(terrain, codes)
    if isinstance(rasters, int):
        return f"rejected NoEnd row={rasters // ground.cols} col={rasters % ground.cols}"
    os.makedirs(out, exist_ok=True)
    for name, numbers in rasters.items():
        with open(os.path.join(out, name + ".hdr"), "w", newline="\n") as file:
            file.write(header_at(ground.rows, ground.cols, ground.place, 32, False, BLANK[name]))
        with open(os.path.join(out, name + ".bil"), "wb") as file:
            file.write(struct.pack(f"<{len(numbers)}I", *numbers))
    return f"derived rows={ground.rows} cols={ground.cols}"


def main():
    words = argparse.ArgumentParser(description=__doc__, formatter_class=argparse.RawDescriptionHelpFormatter)
    words.add_argument("--side", type=int, default=1201)
    words.add_argument("--dem")
    words.add_argument("--products", required=True)
    words.add_argument("--out", required=True)
    words.add_argument("--sinks")
    words.add_argument("tiles", nargs="*")
    given = words.parse_args()
    files = DemFile(given.dem) if given.dem else TileFiles(given.side, given.tiles)
    line = derive(files, given.products, given.sinks, given.out)
    print(line)
    return (["derived", *STATUSES[1:]]).index(line.split(" ")[0])


if __name__ == "__main__":
    sys.exit(main())
