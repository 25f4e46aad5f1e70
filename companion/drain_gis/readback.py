"""What an import wrote, read back: from a number of the folder to the numbers of the source that it stands for.

It goes the other way than convert.py and counts.py, and shares no rule with them.
"""

from collections.abc import Iterator
from typing import Any

import numpy as np

from .around import Array
from .heights import Unit
from .job import Converted
from .rules import tally
from .sets import PRODUCTS
from .tools import TOOLS


def differences(made: Converted) -> Iterator[str]:
    """A text for each raster that doesn't say what its source says, at other cells than were reported."""
    for name in (n for n in ("dem", *PRODUCTS) if n in made.layers):
        found, labels = dict[int, Any](), dict[Any, int]()
        for rows, numbers, none in made.windows(name):
            have, blank = made.set[name][rows], made.set.kinds[name][1]
            numbers = np.where(none, numbers.dtype.type(0), numbers)
            right = are_labels(have, numbers, none, labels) if name == "bas" else are(made, name, have, numbers)
            tally(found, 0, np.where(none, have != blank, ~right), rows.start)
        many, first = found.get(0, (0, "none"))
        if many != made.completed.get(name, 0):
            text = f"{many:,} cells differ from the source, the first at {first}"
            yield f"{name}: {text}; {made.completed.get(name, 0):,} were reported"
        listed = sorted(labels.items())
        plain = bool(listed) and 1 <= listed[0][0] and listed[-1][0] < 1 << 32
        if any(label != (number if plain else n) for n, (number, label) in enumerate(listed, 1)):
            yield f"{name}: labels that are neither the source's nor their places among them"


def are(made: Converted, name: str, have: Array, numbers: Array) -> Array:
    """Where numbers of the folder stand for those of a source: of decimals the nearest of double precision.

    Whole counts are compared as such, modulo 2^64.
    """
    if name == "dir":
        meaning = TOOLS[made.job.tool].meaning()
        right = (have == 254) & ~np.isin(numbers, list(meaning))
        for number, code in meaning.items():
            right |= (have == code) & (numbers == number)
        return np.asarray(right)
    if name in ("dem", "con"):
        return np.asarray(have / (made.unit or Unit()).per == numbers)
    below, per, plus = made.job.tool == "grass", made.per, made.plus
    if numbers.dtype.kind != "f" and float(per).is_integer():
        here, there = (have.astype(np.int64) - plus).astype(np.uint64) * np.uint64(per), numbers.astype(np.uint64)
        return np.asarray((here == there) | (below & (here == np.uint64(0) - there)))
    sizes = np.abs(numbers.astype(np.float64)) if below else numbers.astype(np.float64)
    return np.asarray(np.abs((have.astype(np.int64) - plus) * per - sizes) <= per / (4 if per != 1 else 64))


def are_labels(have: Array, numbers: Array, none: Array, labels: dict[Any, int]) -> Array:
    """Where a label is the one that its number in the source had at first; `labels` takes up each number's."""
    kinds, first, at = np.unique(numbers[~none], return_index=True, return_inverse=True)
    found = [labels.setdefault(*both) for both in zip(kinds.tolist(), have[~none][first].tolist())]
    right = np.ones(have.shape, bool)
    right[~none] = have[~none] == np.array(found, have.dtype)[at]
    return right
