"""Paths along dir, and the counts and labels that `drain` derives for them, whatever surface dir came from.

Where a path can't go on (a number that is no code, a cell of a ring), it is cut, so that the other cells are counted.
"""

from collections.abc import Iterator

import numpy as np

from .around import CODES, NO_CODE, NO_DIRECTION, OUTLET, STEPS, Array, bands, inflow_of, is_open, leading
from .drain import Answer, Finding, accepted, rejected
from .errors import DrainFailed
from .job import Converted
from .rules import NO_END, SOUND, Cell, Counted, cells, tally
from .sets import release

STOPS = {NO_CODE: "its number is no code", NO_DIRECTION: "it has no direction"}


class Flow:
    """acc and bas along the dir of a set. Paths are cut in a copy of dir."""

    def __init__(self, made: Converted) -> None:
        self.made, self.data, self.ring = made, made.data, np.zeros(0, np.int64)
        self.codes = np.where(self.data, made.set["dir"], np.uint8(NO_DIRECTION))
        goes = self.codes == OUTLET
        for here, there, leads in leading(self.codes):
            goes[here] |= leads & self.data[there]
        self.strange = np.flatnonzero(self.codes == NO_CODE)
        # Cells whose code leads off the grid or into no data, or that have none, and ends inside the grid. They may be
        # meant, but for those that were left by `complete_open`: where heights are known, a path stops there.
        off = np.flatnonzero(self.data & ~goes & (self.codes != NO_CODE))
        self.inside = np.flatnonzero(self.ends_inside())
        self.stops = np.concatenate([self.strange, off, self.inside] if made.is_whole else [self.strange])
        self.codes.flat[off] = OUTLET
        self.endless: Answer | None = None
        found = self.derive()
        if isinstance(found, Answer):
            self.endless, self.ring = found, ring_cells(self.codes)
            self.codes.flat[np.concatenate([self.ring, self.strange])] = OUTLET
            found = self.derive()
        if isinstance(found, Answer):
            raise DrainFailed(f"drain derive: {found.line}, where each path was cut")
        self.acc, self.bas = found
        self.lost = np.unique(np.concatenate([self.stops, self.ring]))  # cells that end a path, and aren't outlets
        # The labels of the cells that don't drain.
        self.cut = np.unique(self.bas.flat[self.lost])

    def ends_inside(self) -> Array:
        """Where paths end though water can't leave: not at the edge, not beside a void, and at no listed sink."""
        found = self.codes == OUTLET
        for band, around, inner in bands(*found.shape):
            found[band] &= ~is_open(self.data, around, inner)
        if self.made.set.sinks:
            found[tuple(np.array(self.made.set.sinks).T)] = False
        return found

    def add_along(self, sizes: Array) -> None:
        """Adds to what each cell has what all cells have that drain through it."""
        flat = sizes.reshape(-1)
        for front, to in waves(self.codes):
            np.add.at(flat, to, flat[front])

    def derive(self) -> Answer | tuple[Array, Array]:
        """Has `drain` derive acc and bas; or the answer where a path doesn't end."""
        return self.made.job.program.derive(self.made.set, self.codes, self.made.job.work)

    def lost_text(self) -> str:
        """How many cells don't drain, and why; "" where each does."""
        if not len(self.lost):
            return ""
        many, stops = int(self.acc.flat[self.lost].sum(dtype=np.int64)), len(self.stops)
        text = f"{cells(many)} of {self.made.many:,} don't drain: {cells(len(self.ring))} in rings, {stops:,} at which a path stops"
        row, col = divmod(int(self.lost[0]), self.codes.shape[1])
        return f"{text}, first at row {row}, column {col}"

    def inside_text(self) -> str:
        """How many cells drain to ends inside the grid; "" where none does."""
        many = int(self.acc.flat[self.inside].sum(dtype=np.int64))
        text = f"dir: {cells(many)} of {self.made.many:,} drain to {len(self.inside):,} ends inside the grid"
        return f"{text}, where water can't leave: not at its edge, beside a void or at a listed sink" if many else ""

    def way_text(self, row: int, col: int) -> str:
        """Where the path from a cell goes round, or stops."""
        seen, codes = dict[Cell, int](), self.made.set["dir"]
        while (row, col) not in seen:
            seen[row, col], code = len(seen), int(codes[row, col])
            if code not in STEPS:
                return f"the first stops at row {row}, column {col}: {STOPS.get(code, 'it is no outlet')}"
            down, right = row + STEPS[code][0], col + STEPS[code][1]
            if not (0 <= down < codes.shape[0] and 0 <= right < codes.shape[1]):
                return f"the first stops at row {row}, column {col}: it leads off the grid"
            if not self.data[down, right]:
                return f"the first stops at row {row}, column {col}: it leads into a void"
            row, col = down, right
        ring = list(seen)[seen[row, col] :]
        listed = ", ".join(map(str, ring[:20])) + (", .." if len(ring) > 20 else "")
        return f"the first reaches a ring of {cells(len(ring))}, at {listed}"

    def drains(self, band: slice) -> Array:
        """The cells with data whose path ends where water leaves."""
        return np.asarray(self.data[band] & ~np.isin(self.bas[band], self.cut))

    def wrong_counts(self, band: slice, around: slice, inner: slice) -> Array:
        """Where, in a band of rows, a count isn't 1 plus the counts that flow in: where a loss begins."""
        excess = self.made.set["acc"][around].astype(np.int64) - self.acc[around]
        rest = excess.copy()
        for here, there, leads in leading(self.codes[around]):
            rest[there] -= np.where(leads & self.data[around][here], excess[here], 0)
        return np.asarray((rest != 0)[inner] & self.drains(band))

    def wrong_labels(self, band: slice, around: slice, inner: slice) -> Array:
        """Where, in a band of rows, a label isn't that of the next cell downstream."""
        labels = self.made.set["bas"][around]
        wrong = np.zeros(labels.shape, bool)
        for here, there, leads in leading(self.codes[around]):
            wrong[here] |= leads & (labels[here] != labels[there])
        return np.asarray(wrong[inner] & self.data[band])

    def shared_labels(self) -> Array:
        """The outlets whose label an earlier one has."""
        end = np.flatnonzero((self.codes == OUTLET) & self.data)
        end = end[~np.isin(end, self.lost) & ~np.isin(self.bas.flat[end], self.cut)]
        label, later = self.made.set["bas"].flat[end], np.ones(end.size, bool)
        later[np.unique(label, return_index=True)[1]] = False
        return np.asarray(end[later & (label != 0)])

    def text(self) -> str:
        """Whether all paths end, and acc and bas are those along dir; in words."""
        along = [name for name in ("acc", "bas") if name in self.made.set.products and name in self.made.judged]
        wrong = self.acc_texts() if "acc" in along else []
        if "bas" in along:
            missing, shared = int((self.data & (self.made.set["bas"] == 0)).sum()), len(self.shared_labels())
            differ = sum(int(self.wrong_labels(*three).sum()) for three in bands(*self.codes.shape))
            wrong += [f"bas has no label at {cells(missing)}"] if missing else []
            wrong += [f"bas differs from that of the next cell downstream at {cells(differ)}"] if differ else []
            wrong += [f"bas: outlets with the label of an earlier one: {shared:,}"] if shared else []
        right = f"{' and '.join(along)} {'are those' if len(along) > 1 else 'is that'} of dir" if along else ""
        ends = int(((self.codes == OUTLET) & self.data).sum()) - len(self.lost)
        paths = self.lost_text() or ("" if wrong else f"every path ends; water ends at {cells(ends)}")
        return "; ".join(filter(None, [paths, *wrong, "" if wrong else right]))

    def acc_texts(self) -> list[str]:
        """How acc differs from the counts along dir, at cells that drain."""
        counts, many, lost, over, first = self.made.set["acc"], 0, 0, 0, ""
        for band, _, _ in bands(*counts.shape):
            less = np.where(self.drains(band), self.acc[band].astype(np.int64) - counts[band], 0)
            if not first and less.any():
                row, col = np.argwhere(less)[0]
                through = int(self.acc[band][row, col])
                through_text = f"{through:,} {'cell drains' if through == 1 else 'cells drain'} through it"
                first = f"first at row {band.start + row}, column {col}: {counts[band][row, col]:,}, and {through_text}"
            many, lost, over = many + int((less != 0).sum()), max(lost, int(less.max())), max(over, -int(less.min()))
        release([counts, self.acc, self.bas])
        sizes = [f"at most {cells(n)} {word}" for n, word in ((lost, "lost"), (over, "too many")) if n > 0]
        return [f"acc differs at {cells(many)}, {', '.join(sizes)}; {first}"] if many else []

    def judge(self) -> Finding:
        """Accepted exactly if every path ends, and acc and bas are those of dir at each cell with data and no other."""
        shown, found = np.zeros(self.data.shape, np.uint8), dict[int, tuple[int, Cell]]()
        for band, number, where in self.faults():
            tally(found, number, where, band.start)
            shown[band][where & ((shown[band] == SOUND) | (shown[band] > number))] = number
        if self.endless:
            return Finding(self.endless, shown, found)
        if not found:
            ends = int(((self.codes == OUTLET) & self.data).sum())
            return accepted(self.data.shape, {"data": self.made.many, "outlets": ends})
        row, col = divmod(int((shown != SOUND).argmax()), shown.shape[1])
        return rejected(int(shown[row, col]), (row, col), shown, found)

    def faults(self) -> Iterator[tuple[slice, int, Array]]:
        """Where each rule about dir, acc and bas fails, band by band."""
        has = self.made.set.products
        numbers = [(self.made.set[name], self.made.set.kinds[name][1]) for name in ("dir", "acc", "bas") if name in has]
        shared, cols = self.shared_labels() if "bas" in has else self.ring[:0], self.data.shape[1]
        for band, around, inner in bands(*self.data.shape):
            data = self.data[band]
            blank = [one[band] == none for one, none in numbers]
            yield band, 1, ~data & ~np.logical_and.reduce(blank)
            yield band, 2, data & np.logical_or.reduce(blank)
            yield band, 3, data & (self.made.set["dir"][band] == NO_CODE)
            if "acc" in has:
                yield band, 13, self.wrong_counts(band, around, inner)
            if "bas" in has:
                yield band, 14, self.wrong_labels(band, around, inner)
            for number, listed in ((15, shared), (NO_END, self.ring)):
                here, at = np.zeros(data.shape, bool), listed - band.start * cols
                here.flat[at[(at >= 0) & (at < here.size)]] = True
                yield band, number, here


def waves(codes: Array) -> Iterator[tuple[Array, Array]]:
    """The cells that lead on, each after all that lead to it, and where each leads. Cells of rings never come."""
    steps = np.zeros(256, np.int32)
    for code, (down, right) in STEPS.items():
        steps[code] = down * codes.shape[1] + right
    flat, moving, inflow = codes.ravel(), np.isin(codes, CODES).ravel(), inflow_of(codes).ravel()
    front = np.flatnonzero(moving & (inflow == 0)).astype(np.int32)
    while front.size:
        to = front + steps[flat[front]]
        yield front, to
        np.subtract.at(inflow, to, 1)
        to = np.unique(to)
        front = to[(inflow[to] == 0) & moving[to]]


def ring_cells(codes: Array) -> Array:
    """The cells of all rings."""
    left = np.isin(codes, CODES).ravel()
    for front, _ in waves(codes):
        left[front] = False
    return np.flatnonzero(left)


def stream_least(made: Converted) -> int:
    """How many cells drain through a cell of a stream, at least."""
    return max(20, made.many // 1000)
