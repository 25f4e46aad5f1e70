"""Makes and judges products by scipy and scikit-image, with nothing of the package and nothing of `drain`.

The least surface is scikit-image's morphological reconstruction; counts are summed up along the powers of a sparse matrix,
labels are the weak components of the graph of directions, rings its strong components.
"""

from collections.abc import Mapping
from fractions import Fraction

import numpy as np
import scipy.sparse
import scipy.sparse.csgraph as graphs
from skimage.morphology import reconstruction

STEP = {1: (0, 1), 2: (1, 1), 4: (1, 0), 8: (1, -1), 16: (0, -1), 32: (-1, -1), 64: (-1, 0), 128: (-1, 1)}
"""Esri's codes."""

BLANK, HIGH = -99, 10**9
"""No data in an array that is judged, and more than any height."""
SQUARE = (1, 1)
"""The width and the height of cells; they and drops may be so large that 64 bits hold `slopes`."""


def shifted(a: np.ndarray, outside: int | bool) -> dict[int, np.ndarray]:
    """Code to the raster of the neighbours that way."""
    padded = np.pad(a, 1, constant_values=outside)
    rows, cols = a.shape
    return {code: padded[1 + r : 1 + r + rows, 1 + c : 1 + c + cols] for code, (r, c) in STEP.items()}


def open_cells(void: np.ndarray) -> np.ndarray:
    """Data cells where water may leave: at the edge or beside a void."""
    return ~void & np.any(list(shifted(void, True).values()), axis=0)


def least_surface(z: np.ndarray, void: np.ndarray, sinks: tuple[tuple[int, int], ...] = ()) -> np.ndarray:
    """By reconstruction from the open cells and the sinks, of the places of the heights in their order."""
    levels, places = np.unique(np.where(void, z[~void].min(), z), return_inverse=True)
    mask, starts = np.where(void, HIGH, places.reshape(z.shape)).astype(np.float64), open_cells(void)
    for sink in sinks:
        starts[sink] = True
    seed = np.where(starts, mask, HIGH)
    least = np.where(void, 0, reconstruction(seed, mask, "erosion", np.ones((3, 3)))).astype(np.int64)
    return np.where(void, 0, levels[least]).astype(z.dtype)


def slopes(con: np.ndarray, void: np.ndarray, sizes: tuple[int, int] = SQUARE) -> dict[int, np.ndarray]:
    """Code to the square of the slope down that way, times the product of the three squared distances; 0 where it isn't down.

    Of floats it is a fraction.
    """
    exact = np.frompyfunc(Fraction, 1, 1)(con.astype(np.float64)) if con.dtype.kind == "f" else con.astype(np.int64)
    there = shifted(~void, False)
    squares = {code: (right * sizes[0]) ** 2 + (down * sizes[1]) ** 2 for code, (down, right) in STEP.items()}
    found = {}
    for code, beside in shifted(exact, 0).items():
        drop = np.where(~void & there[code], np.maximum(exact - beside, 0), 0)
        found[code] = drop**2 * (squares[1] * squares[2] * squares[4] // squares[code])
    return found


def graph_of(codes: np.ndarray, void: np.ndarray) -> tuple[scipy.sparse.csr_matrix, np.ndarray]:
    """An edge from each cell to the one that its code leads to; and whether it leads to one."""
    cells, goes, there = np.arange(codes.size).reshape(codes.shape), np.zeros(codes.shape, bool), shifted(~void, False)
    following = cells.copy()
    for code, beside in shifted(cells, -1).items():
        here = ~void & (codes == code) & there[code]
        following[here], goes[here] = beside[here], True
    start = np.flatnonzero(goes)
    edges = (np.ones(start.size, np.int64), (start, following.ravel()[start]))
    return scipy.sparse.csr_matrix(edges, shape=(codes.size, codes.size)), goes


def has_ring(graph: scipy.sparse.csr_matrix) -> bool:
    """Whether some path comes back to where it was."""
    return graphs.connected_components(graph, directed=True, connection="strong")[0] < graph.shape[0]


def accumulation(graph: scipy.sparse.csr_matrix, void: np.ndarray) -> np.ndarray:
    """How many data cells drain through each, itself included; without rings."""
    counts = (~void).ravel().astype(np.int64)
    moved = counts.copy()
    while moved.any():
        moved = graph.T @ moved
        counts += moved
    return counts.reshape(void.shape)


def basins(graph: scipy.sparse.csr_matrix, shape: tuple[int, int]) -> np.ndarray:
    """The weak component of each cell, from 1."""
    return graphs.connected_components(graph, directed=True, connection="weak")[1].reshape(shape).astype(np.int64) + 1


def are_labels(bas: np.ndarray, components: np.ndarray, void: np.ndarray) -> bool:
    """Whether two cells share a label exactly if they share a component."""
    pairs = np.unique(np.stack([components[~void], bas[~void]]), axis=1)
    return bool(pairs.shape[1] == np.unique(pairs[0]).size == np.unique(pairs[1]).size)


def right_codes(con: np.ndarray, codes: np.ndarray, void: np.ndarray, sizes: tuple[int, int] = SQUARE) -> np.ndarray:
    """Where a code keeps its rule: a steepest way if a neighbour is lower, 0 at an outlet, level on a flat."""
    keys, ends = slopes(con, void, sizes), open_cells(void)
    best = np.max(list(keys.values()), axis=0)
    right = ~void & (best == 0) & ends & (codes == 0)
    for code, beside in shifted(con, HIGH).items():
        here = ~void & (codes == code)
        right |= here & (best > 0) & (keys[code] == best)
        right |= here & (best == 0) & ~ends & (beside == con) & shifted(~void, False)[code]
    return right


def flow_faults(codes: np.ndarray, products: Mapping[str, np.ndarray], void: np.ndarray) -> set[str]:
    """What is wrong with paths, acc and bas along directions, whatever surface these came from."""
    graph, _ = graph_of(codes, void)
    if has_ring(graph) or not np.isin(codes[~void], [0, BLANK, *STEP]).all():
        return {"path"}
    if (codes[~void] == BLANK).any():
        return {"no data"}
    right = {
        "acc": "acc" not in products or (products["acc"] == accumulation(graph, void))[~void].all(),
        "bas": "bas" not in products or are_labels(products["bas"], basins(graph, void.shape), void),
    }
    return {name for name, is_right in right.items() if not is_right}


def faults(
    z: np.ndarray, void: np.ndarray, products: Mapping[str, np.ndarray], sizes: tuple[int, int] = SQUARE
) -> set[str]:
    """What is wrong with these products: BLANK means no data in them. acc or bas may be left out."""
    if any(((a == BLANK) != void).any() for a in products.values()):
        return {"no data"}
    found = {"con"} if (products["con"] != least_surface(z, void))[~void].any() else set()
    found |= {"dir"} if not right_codes(products["con"], products["dir"], void, sizes)[~void].all() else set()
    _, goes = graph_of(products["dir"], void)
    stops = (~void & ~goes & (products["dir"] != 0)).any()
    return found | ({"path"} if stops else flow_faults(products["dir"], products, void))


def random_steepest(
    con: np.ndarray, void: np.ndarray, rng: np.random.Generator, sizes: tuple[int, int] = SQUARE
) -> np.ndarray:
    """A steepest way of each cell, any of those that are; 0 where no neighbour is lower."""
    keys = slopes(con, void, sizes)
    best, codes = np.max(list(keys.values()), axis=0), np.zeros(con.shape, np.int64)
    for code in rng.permutation(list(STEP)):
        codes[(keys[code] == best) & (best > 0)] = code
    return codes


def make(
    z: np.ndarray, void: np.ndarray, rng: np.random.Generator, sinks: tuple[tuple[int, int], ...] = (),
    sizes: tuple[int, int] = SQUARE,
) -> dict[str, np.ndarray]:  # fmt: skip
    """Right products, any of those that are: over flats along a shortest way of a random graph."""
    con = least_surface(z, void, sinks)
    codes = random_steepest(con, void, rng, sizes)
    reached = ~void & ((codes > 0) | open_cells(void))
    for sink in sinks:
        reached[sink] = True
    while not (reached | void).all():
        there, grown = shifted(np.where(reached, con, HIGH), HIGH), np.zeros(z.shape, bool)
        for code in rng.permutation(list(STEP)):
            step = ~void & ~reached & (there[code] == con)
            codes[step], grown = code, grown | step
        reached |= grown
    graph, _ = graph_of(codes, void)
    return {"con": con, "dir": codes, "acc": accumulation(graph, void), "bas": basins(graph, z.shape)}
