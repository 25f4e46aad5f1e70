"""Counts the faults of given products rule by rule, as docs/RULES.md has the rules: slow and plain, for grids of up to
some 200,000 cells."""

import sys

sys.dont_write_bytecode = True
from audit import RULES_ABOUT, STATUSES, AuditRules, contents, first_endless, line_of
from make_products import PRODUCTS, RULES, Rules, Terrain, verdict
from plain_inputs import Header, listed_sinks, spacings_of

ALL_NO_DATA = {name: nodata for name, _, _, _, nodata in PRODUCTS}
SOUND, SOUND_VOID = 0, 255


class CheckRules(Rules):
    """The rules of a check, with the no-data numbers of headers."""

    def __init__(self, terrain, products, nodata):
        super().__init__(terrain, products)
        self.nodata = nodata


def ground_of(files, sinks, spacing=None):
    """The ground of these files, and its terrain with the listed sinks, and with a spacing: None, a pair or a text by row."""
    files.read()
    ground = files.ground()
    listed = listed_sinks(contents(sinks) if sinks else b"")
    spacings = spacings_of(spacing, ground.rows)
    return ground, Terrain(ground.rows, ground.cols, ground.elevations(files.body), [(row, col) for _, row, col in listed], spacings)


class Explained:
    """What there is to report of given products that aren't refused, as con and dir; with rnk it is a check. The terrain has
    this spacing: None, a pair or a text by row."""

    def __init__(self, ground, terrain, folder, given, spacing=None):
        self.ground, self.terrain, self.spacing = ground, terrain, spacing
        self.ranks = "rnk" in given
        has_floats = ground is not None and ground.has_floats
        headers = {name: Header(contents(folder / f"{name}.hdr"), name == "con" and has_floats) for name in given}
        products = {name: headers[name].pixels(contents(folder / f"{name}.bil")) for name in given}
        blank = {name: headers[name].nodata_or(ALL_NO_DATA[name]) for name in given}
        self.rules = (CheckRules if self.ranks else AuditRules)(terrain, products, blank)
        about = set().union(*(RULES_ABOUT.get(name, set()) for name in given))
        self.tried = [rule for rule in RULES if rule[0] in about]
        self.line = verdict(self.rules) if self.ranks else line_of(terrain, products, blank)
        self.endless = first_endless(self.rules) if "dir" in given else None
        self.count()

    def place(self, cell):
        return {"row": cell // self.terrain.cols, "col": cell % self.terrain.cols}

    def faults(self, cells):
        """How many cells, and the first."""
        return {"cells": len(cells), "first": self.place(cells[0]) if cells else None}

    def count(self):
        """The cells at which each rule fails, and the least rule that fails at each cell."""
        cells = range(len(self.terrain.z))
        failing = {number: [cell for cell in cells if not getattr(self.rules, holds)(cell)] for number, _, holds in self.tried}
        self.by_rule = [{"rule": number, "name": name, **self.faults(failing[number])} for number, name, _ in self.tried]
        self.map = bytearray(SOUND_VOID if ground is None else SOUND for ground in self.terrain.z)
        for number, _, _ in reversed(self.tried):
            for cell in failing[number]:
                self.map[cell] = number
        self.by_product = []
        for name, nodata in self.rules.nodata.items():
            is_blank = [number == nodata for number in self.rules.products[name]]
            at_voids = [cell for cell in cells if self.terrain.z[cell] is None and not is_blank[cell]]
            at_data = [cell for cell in cells if self.terrain.z[cell] is not None and is_blank[cell]]
            self.by_product.append({"product": name, "at_voids": self.faults(at_voids), "at_data": self.faults(at_data)})
        failing_cells = [cell for cells_of_rule in failing.values() for cell in cells_of_rule]
        self.first = min(failing_cells, default=None)

    def status(self):
        return STATUSES.index(self.line.split(" ")[0])

    def ring_or_lost(self):
        """The first run without an end: the ring that it reaches, from its first cell on, or the cell where it leads nowhere."""
        run, seen = [], {}
        here = self.endless
        while here is not None and here not in seen:
            seen[here] = len(run)
            run.append(here)
            here = self.rules.named(here, self.rules.dir[here])
        return ("lost", run[-1]) if here is None else ("ring", run[seen[here]:])
