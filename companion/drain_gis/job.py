"""A conversion while it runs: the options, the set, and what is needed to talk of it in the user's terms."""

from collections import Counter
from collections.abc import Callable, Iterable, Iterator
from dataclasses import dataclass, field
from math import inf
from numbers import Real
from pathlib import Path

import numpy as np

from .around import Array, bands
from .drain import Program
from .errors import CannotJudge
from .heights import Ranks, Unit
from .layers import Layer, Level
from .rules import Cell, cells
from .sets import Set
from .tools import TOOLS

MOST_LOOKED_AT = 1 << 16  # numbers in voids of each window that may name the one for no data
MOST_HELD = 1 << 23  # cells of a set in memory, which take fifty bytes each
Progress = Callable[[str, int, int], None]
# Control characters and separators, which a terminal would obey or which begin a line, and what is printed for them.
CONTROLS = {code: f"\\x{code:02x}" for code in (*range(32), *range(127, 160))} | {0x2028: "\\u2028", 0x2029: "\\u2029"}
CHOICES = {"ends": ("zero", "keep"), "acc_counts": ("auto", "cells", "above", "area")}


def no_progress(name: str, done: int, total: int) -> None:
    """No progress is shown."""


def one_line(text: object) -> str:
    """A text with names and notes in it, as one line."""
    return str(text).translate(CONTROLS)


@dataclass(frozen=True)
class Options:
    """What a user may choose."""

    ends: str = "zero"
    complete_rim: bool = False
    flatten: float | None = None  # the most that a slope on flats may raise con by
    inland_sinks: bool = False
    acc_counts: str = "auto"
    cell_area: float | None = None
    spacing: str | None = None  # of spacing.KINDS, or W,H; the tool's own if it is None
    allow_drivers: str | None = None

    def __post_init__(self) -> None:
        for name, words in CHOICES.items():
            if getattr(self, name) not in words:
                raise CannotJudge(f"{name}={getattr(self, name)!r}: expected one of {', '.join(words)}")
        most = self.flatten
        if most is not None and (isinstance(most, bool) or not (isinstance(most, Real) and 0 <= most < inf)):
            raise CannotJudge(f"flatten={most!r}: expected the most that con may be too high by, in the unit of dem")


@dataclass
class Job:
    """What is asked for, beside the rasters."""

    program: Program
    work: Path  # a temporary folder, which is there until all is done
    tool: str = "drain"
    options: Options = Options()
    sinks: list[Cell] = field(default_factory=list)
    folder: Path | None = None  # where the set is written, if not in `work`
    sources: dict[str, str] = field(default_factory=dict)  # raster to where it is from, in words
    progress: Progress = no_progress

    def holds(self, layers: Iterable[Layer]) -> bool:
        """Whether these layers are judged in memory: arrays, that aren't too large, where there is a library."""
        are_small = all(not layer.paths and layer.rows * layer.cols <= MOST_HELD for layer in layers)
        return are_small and self.folder is None and self.program.library is not None


@dataclass
class Converted:
    """A set, what was done to numbers, and what is needed to talk of it in the user's terms."""

    job: Job
    set: Set
    layers: dict[str, Layer]
    judged: tuple[str, ...]
    dropped: dict[str, str]  # name to the reason, of each raster that was given and can't be judged
    own_ground: bool
    scale: Unit | Ranks = Ranks(np.zeros(0))  # what turns heights into the numbers of the set
    notes: list[str] = field(default_factory=list)
    taken: list[str] = field(default_factory=list)  # what was changed in favour of the rasters: said in the first line
    slope: float | None = None  # how much con is above the filled surface of dem, where that is allowed
    data: Array = field(default_factory=lambda: np.zeros((0, 0), bool))
    plus: int = 0
    per: float = 1  # a count is the tool's number / per + plus
    rounded: float = 0.0  # the most cells by which a number that was taken differs from the count that it was taken for
    # Product to the number of cells that don't say what the source says.
    completed: dict[str, int] = field(default_factory=dict)
    # Raster, path and SHA-256 of each file, of a folder that was imported before.
    inputs: list[tuple[str, str, str]] | None = None

    @property
    def dem(self) -> Layer:
        """The elevations."""
        return self.layers["dem"]

    @property
    def unit(self) -> Unit | None:
        """None where no heights were given, or none that `drain` takes: then con is judged by ranks, dir isn't."""
        return self.scale if isinstance(self.scale, Unit) else None

    @property
    def many(self) -> int:
        """How many cells have an elevation."""
        return int(self.data.sum())

    @property
    def scope(self) -> str:
        """What is judged over what, in words, and over how many rows and columns."""
        ground = "itself" if self.own_ground else "dem" if self.unit else "the order of the heights of dem"
        ground += " as far as --flatten allows" if self.slope is not None else ""
        ground = "no heights" if isinstance(self.dem, Level) else ground
        slopes = "" if self.set.spacing.is_unit else f", slopes by {self.set.spacing}"
        return f"{', '.join(self.judged) or 'paths'} over {ground}, {self.dem.rows:,} rows by {self.dem.cols:,} columns{slopes}"

    @property
    def is_whole(self) -> bool:
        """Whether heights are given that `drain` takes, so that it judges all of it at once."""
        return self.unit is not None and "con" in self.set.arrays

    def windows(self, name: str) -> Iterator[tuple[slice, Array, Array]]:
        """(slice of rows, numbers, where they are none) of each window of a layer."""
        layer = self.layers[name]
        for top, rows in layer.windows():
            yield slice(top, top + rows), *layer.window(top, rows)
            self.job.progress(name, top + rows, layer.rows)

    def note(self, text: str) -> None:
        """Says what was done, or found."""
        self.notes.append(text)

    def drop(self, name: str, reason: str) -> None:
        """Says that a raster isn't judged."""
        self.dropped[name] = reason
        self.judged = tuple(one for one in self.judged if one != name)


def note_misplaced(made: Converted, name: str) -> None:
    """Notes no-data numbers in cells with an elevation, and numbers in voids: both stay, and are rejected."""
    product, (_, blank), missing, over = made.set[name], made.set.kinds[name], 0, 0
    ground, bare, lowest = made.set["dem"], set[int | float](), list[int | float]()
    for band, _, _ in bands(*made.data.shape):
        none, data = product[band] == blank, made.data[band]
        missing, over = missing + int((none & data).sum()), over + int((~none & ~data).sum())
        bare.update(np.unique(ground[band][none & data][:MOST_LOOKED_AT]).tolist())
        lowest += [ground[band][data].min().item()] if data.any() else []
    if missing:
        rim = name == "dir" and TOOLS[made.job.tool].blank_rim and made.is_whole and not made.job.options.complete_rim
        hint = "; this tool leaves the rim without directions: --complete-rim gives it some" if rim else ""
        hint = hint if missing < made.many else ": it has no number at all. Is its no-data number right?"
        if made.unit and made.dem.nodata is None and bare == {min(lowest)}:
            number = f"{min(lowest) / made.unit.per:.9g}"
            hint += f"; there dem has {number}, its lowest height. If that means no data: --nodata dem={number}"
        made.note(f"{name}: no data at {cells(missing)} with an elevation (rule Missing){hint}")
    if over:
        found, used = Counter[float](), set[float]()
        for rows, numbers, none in made.windows(name):
            found.update(numbers[~none & ~made.data[rows]][:MOST_LOOKED_AT].tolist())
            used.update(np.unique(numbers[~none & made.data[rows]]).tolist())
        likely, where = found.most_common(1)[0][0], f"{cells(over)} without an elevation (rule VoidCell)"
        text = f"{name}: a number at {where}, most often {likely:.12g}"
        named = made.layers[name].nodata is not None or likely in used
        made.note(text + ("" if named else f". It names no number for no data; --nodata {name}={likely} does"))
