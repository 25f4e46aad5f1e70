#!/usr/bin/env python3
"""Prints the right line of `drain audit` for four rasters, or some of them, by docs/RULES.md: slow and plain, for up to
some 200,000 cells.

audit.py --side N --products DIR [OPTIONS] TILE..     ends with the status that goes with the line
audit.py --dem FILE --products DIR [OPTIONS]          elevations come from one raster

OPTIONS are [--only LIST] [--sinks FILE] [--spacing W,H | --widths FILE]. It knows nothing of ranks: it follows each run of directions to its end. LIST has the given rasters, as con,dir; files of
others aren't opened.
"""

import argparse
import os
import sys

sys.dont_write_bytecode = True
from make_products import PRODUCTS, RULES, Rules, Terrain, flood, verdict
from plain_inputs import Dem, Header, Mosaic, Refused, listed_sinks, spacing_of, spacings_of

NO_DATA = {name: nodata for name, _, _, _, nodata in PRODUCTS if name != "rnk"}
STATUSES = ["accepted", "rejected", "refused", "failed"]
LISTS = ["con", "con,dir", "con,dir,acc", "con,dir,bas", "con,dir,acc,bas"]
# The rules that are tried if a raster is given. Rules 1 and 2 are tried of the given ones.
RULES_ABOUT = {"con": {1, 2, 4, 5, 9}, "dir": {3, 10, 11, 12}, "acc": {13}, "bas": {14, 15}}


class AuditRules(Rules):
    """The rules of an audit: those of a check without ranks, of the given products."""

    def __init__(self, terrain, products, nodata):
        super().__init__(terrain, products)
        self.nodata = nodata

    def flat_step(self, cell):
        if not self.is_closed(cell) or self.lower(cell):
            return True
        other = self.named(cell, self.dir[cell])
        return other is not None and self.con[other] == self.con[cell]


def first_endless(rules):
    """The first data cell whose run of directions doesn't come to code 0, None where each does."""
    ends = set()
    for cell in rules.terrain.data_cells():
        run, here = [], cell
        seen = set()
        while here not in ends and rules.dir[here] != 0:
            seen.add(here)
            run.append(here)
            here = rules.named(here, rules.dir[here])
            if here is None or here in seen:
                return cell
        ends.update([*run, here])
    return None


def line_of(terrain, products, nodata):
    """The line for products of the right shape, without refusals."""
    rules = AuditRules(terrain, products, nodata)
    if "dir" in products:
        endless = first_endless(rules)
        if endless is not None:
            return f"rejected NoEnd row={endless // terrain.cols} col={endless % terrain.cols}"
    tried = set().union(*(RULES_ABOUT[name] for name in products))
    line = verdict(rules, [rule for rule in RULES if rule[0] in tried])
    low = first_not_filled(rules) if "dir" not in products and line.startswith("accepted") else None
    return line if low is None else f"rejected NotFilled row={low // terrain.cols} col={low % terrain.cols}"


def first_not_filled(rules):
    """The first data cell at which con is below the filled surface, None where none is."""
    filled, _, _ = flood(rules.terrain)
    return next((cell for cell in rules.terrain.data_cells() if rules.con[cell] < filled[cell]), None)


class TileFiles:
    """The tiles at these paths, with this side."""

    def __init__(self, side, paths):
        self.side, self.paths = side, paths

    def read(self):
        self.body = [contents(path) for path in self.paths]

    def ground(self):
        return Mosaic(self.side, [os.fsencode(path).split(b"/")[-1] for path in self.paths])


class DemFile:
    """The raster of elevations at this path, with its header beside it."""

    def __init__(self, path):
        self.path = str(path)

    def read(self):
        ending = {".bil": ".hdr", ".BIL": ".HDR"}[self.path[-4:]]
        self.header, self.body = contents(self.path[:-4] + ending), contents(self.path)

    def ground(self):
        return Dem(self.header)


def headers_of(ground, texts):
    """The headers of the given products, each of the shape and place of the ground."""
    headers = {}
    for name, text in texts.items():
        try:
            headers[name] = header = Header(text, name == "con" and ground.has_floats)
        except Refused as fault:
            raise Refused(f"BadHeader {name} {fault}") from None
        if (header.rows, header.cols) != (ground.rows, ground.cols):
            raise Refused(f"WrongShape {name}")
        if not ground.holds(header):
            raise Refused(f"Misplaced {name}")
    return headers


def audited(ground, body, texts, bodies, sinks, spacing=None):
    """The line for these bytes: of the elevations, of the headers and rasters by product, of a list of sinks, and of the
    spacing: None, a pair, or a text by row."""
    headers = headers_of(ground, texts)
    ground.judge_lengths(body)
    products = {name: headers[name].pixels(bodies[name]) for name in texts}
    for name, pixels in products.items():
        if pixels is None:
            raise Refused(f"RasterShort {name}")
    z = ground.elevations(body)
    listed = listed_sinks(sinks)
    for number, row, col in listed:
        if row >= ground.rows or col >= ground.cols or z[row * ground.cols + col] is None:
            raise Refused(f"SinkNotData {number}")
    spacings = spacings_of(spacing, ground.rows)
    terrain = Terrain(ground.rows, ground.cols, z, [(row, col) for _, row, col in listed], spacings)
    nodata = {name: header.nodata_or(NO_DATA[name]) for name, header in headers.items()}
    return line_of(terrain, products, nodata)


def contents(path):
    with open(path, "rb") as file:
        return file.read()


def audit(files, folder, sinks, given=tuple(NO_DATA), spacing=None):
    """The line for these files of elevations and the products at these paths, read in the order of the program. The spacing
    is None, a pair, or the path of a text by row."""
    try:
        files.read()
        texts, bodies = {}, {}
        for name in given:
            texts[name] = contents(os.path.join(folder, name + ".hdr"))
            bodies[name] = contents(os.path.join(folder, name + ".bil"))
        list_ = contents(sinks) if sinks else b""
        spacing = spacing if spacing is None or isinstance(spacing, tuple) else contents(spacing)
        return audited(files.ground(), files.body, texts, bodies, list_, spacing)
    except FileNotFoundError as fault:
        return f"failed Open {fault.filename}"
    except Refused as fault:
        return f"refused {fault}"


def main():
    words = argparse.ArgumentParser(description=__doc__, formatter_class=argparse.RawDescriptionHelpFormatter)
    words.add_argument("--side", type=int, default=1201)
    words.add_argument("--dem")
    words.add_argument("--products", required=True)
    words.add_argument("--only", choices=LISTS, default=LISTS[-1])
    words.add_argument("--sinks")
    words.add_argument("--spacing", type=spacing_of)
    words.add_argument("--widths")
    words.add_argument("tiles", nargs="*")
    given = words.parse_args()
    files = DemFile(given.dem) if given.dem else TileFiles(given.side, given.tiles)
    line = audit(files, given.products, given.sinks, given.only.split(","), given.widths or given.spacing)
    print(line)
    return STATUSES.index(line.split(" ")[0])


if __name__ == "__main__":
    sys.exit(main())
