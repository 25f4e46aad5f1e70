"""Rasters that are made: right ones by `drain make` and `drain derive`, on the source's grid and in a tool's codes."""

import tempfile
from collections.abc import Iterable, Iterator, Mapping
from pathlib import Path
from typing import Any

import numpy as np

from .around import NO_DIRECTION, OUTLET, Array
from .convert import convert, put_ground
from .drain import Program
from .errors import CannotJudge
from .flow import Flow
from .grids import PLAIN, check_grid
from .heights import Unit, find_unit
from .job import Converted, Job
from .layers import Layer, Level, drivers_of, holds, layer_of
from .maps import check_plain, check_raster, write_raster, written_whole
from .sets import PRODUCTS, Set, bounds
from .spacing import Spacing
from .tools import TOOLS, spacing_of_tool

NO_CODE, NO_HEIGHT = -32768, -9999  # what a made dir, and made heights, have where there is no data
Written = tuple[str, float | None, Iterator[tuple[int, Array]]]  # type, no-data number, rows


def make(
    dem: Any, outs: Mapping[str, Path], codes: str = "drain", *, nodata: Any = None, sinks: Any = None,
    spacing: str | None = None, program: str | None = None, allow_drivers: str | None = None,
) -> tuple[Spacing, list[str]]:  # fmt: skip
    """Writes the right con, dir, acc and bas of elevations: `outs` has a path for each that is wanted.

    con has the unit of dem, and its type or one of 32 bits; dir has the codes of a tool, and goes steepest by a spacing, which is
    returned: the tool's own unless one is named; with what was noted of dem. Raises CannotJudge, or DrainFailed.
    """
    layer = layer_of("dem", dem, nodata, drivers_of(allow_drivers))
    check_outs(outs, PRODUCTS, [layer], codes)
    check_grid(layer, layer)
    unit, kind, text = find_unit(layer)
    with tempfile.TemporaryDirectory(prefix="drain-gis-") as work:
        job, one = Job(Program(program), Path(work), codes), Set(Path(work), (layer.rows, layer.cols), PLAIN)
        one.take_heights(kind)
        one.spacing = spacing_of_tool(codes, layer, spacing)
        job.sinks = [] if sinks is None else list(sinks)
        made = Converted(job, one, {"dem": layer}, (), {}, False, unit, [text] if unit.tens else [])
        put_ground(made)
        products = job.program.make(one, job.work)
        for name, path in outs.items():
            with written_whole(path) as new:
                done = heights(made, unit, products["con"]) if name == "con" else numbers(made, name, products[name])
                write_raster(new, layer, *done, is_scaled=name == "con")
        return one.spacing, made.notes


def heights(made: Converted, unit: Unit, con: Array) -> Written:
    """con in the numbers of dem: each height of the filled surface is one of the elevations."""
    kind = made.dem.dtype
    if kind.kind == "f":
        kind = np.promote_types(kind, np.float32)
    elif kind.itemsize == 8:  # rasterio writes no no-data number of 64 bits, and mixes up their signs (layers.py)
        kind = np.dtype(made.set.kinds["con"][0])
    ends = (NO_HEIGHT, bounds(kind)[0]) if kind.kind == "f" else bounds(kind)
    free = [number for number in (made.dem.nodata, *ends) if number is not None and holds(kind, number)]
    for _, found, void in made.windows("dem"):
        there = found[~void]
        free = [number for number in free if not (there == number).any()]
    if not free and not made.data.all():
        raise CannotJudge(f"dem has no number left for no data: the least and the greatest of {kind} are heights")
    nodata = free[0] if free else None

    def parts() -> Iterator[tuple[int, Array]]:
        for rows, found, void in made.windows("dem"):
            filled = con[rows]
            raised = filled / unit.per if unit.per > 1 else filled
            filled = np.where(filled == unit.put(found, void), found, raised).astype(kind)
            filled[void] = nodata or 0
            yield rows.start, filled

    return str(kind), nodata, parts()


def numbers(made: Converted, name: str, product: Array) -> Written:
    """dir in the codes of a tool; acc and bas as they are, 0 for no data."""
    tool, table = TOOLS[made.job.tool], np.full(256, NO_CODE, np.int16)
    for number, code in tool.codes.items():
        table[code] = number
    table[OUTLET], table[NO_DIRECTION] = tool.ends[0], NO_CODE
    parts = ((top, product[top : top + rows]) for top, rows in made.dem.windows())
    return ("int16", NO_CODE, ((top, table[a]) for top, a in parts)) if name == "dir" else ("uint32", 0, parts)


def derive(
    dir: Any, outs: Mapping[str, Path], codes: str, *, dem: Any = None, nodata: Any = None,
    program: str | None = None, allow_drivers: str | None = None,
) -> None:  # fmt: skip
    """Writes the acc and bas that follow from directions, whatever surface these came from; dem says where data is.

    Raises CannotJudge, also where a path doesn't end, or DrainFailed.
    """
    drivers, given = drivers_of(allow_drivers), {"dem": dem, "dir": dir}
    if unknown := set(nodata or {}) - set(given):
        raise CannotJudge(f"nodata of {', '.join(sorted(unknown))}: expected dem or dir")
    layers = {n: layer_of(n, one, (nodata or {}).get(n), drivers) for n, one in given.items() if one is not None}
    check_outs(outs, ("acc", "bas"), list(layers.values()), codes)
    layers |= {"dem": Level([layers["dem"]])} if dem is not None else {}
    with tempfile.TemporaryDirectory(prefix="drain-gis-") as work:
        made = convert(Job(Program(program), Path(work), codes), layers, {})
        flow = Flow(made)
        if flow.endless:
            raise CannotJudge(f"dir: the path from row {flow.endless.row}, column {flow.endless.col} doesn't end")
        for name, path in outs.items():
            with written_whole(path) as new:
                write_raster(new, layers["dir"], *numbers(made, name, flow.acc if name == "acc" else flow.bas))


def check_outs(outs: Mapping[str, Path], names: tuple[str, ...], layers: list[Layer], codes: str) -> None:
    """Refuses what can't be written, and a file that is read."""
    if not outs or set(outs) - set(names):
        raise CannotJudge(f"nothing to write, or what isn't made here: expected {', '.join(names)}")
    if codes not in TOOLS:
        raise CannotJudge(f"no preset is called {codes}: there are {', '.join(TOOLS)}")
    for out in outs.values():
        check_raster(out)
    check_apart(outs.values(), [path for layer in layers for path in layer.files()])


def check_apart(outs: Iterable[str | Path], sources: Iterable[str | Path]) -> None:
    """Refuses to replace a file that is read, what is no plain file, or one output by another."""
    outs, sources = list(outs), list(sources)
    if len({Path(out).resolve() for out in outs}) < len(outs):
        raise CannotJudge(f"{', '.join(map(str, outs))}: each output needs a name of its own")
    for out in outs:
        if not Path(out).absolute().parent.is_dir():
            raise CannotJudge(f"{out}: there is no such folder: make it first")
        if Path(out).exists() and any(Path(out).samefile(source) for source in sources):
            raise CannotJudge(f"{out} is read, and would be replaced: name another")
    check_plain(path for out in outs for path in (Path(out), Path(f"{out}.aux.xml")))
