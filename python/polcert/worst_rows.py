"""Rows of probabilities near those of a model, and the worst of them: those with the least mean of given values.

A row is near if it sums to one and each probability above 0 lies within a distance of the model's. A probability of 0 stays 0. The worst
row gives each probability the least that it may have, and what is left to the cells of the least values, as much as each may have.
"""
from typing import List, NamedTuple, Sequence

import numpy as np
from numpy.typing import NDArray

from polcert.arrays import Floats, Integers, Matrix, rows_of_cells
from polcert.distances import Spread
from polcert.points import Weights


class _Block(NamedTuple):
    """R rows of about the same length, with K cells each. Those that a row lacks have no room."""

    # the place of each cell among the cells of all rows, and whether the row has it (R by K)
    cells: Integers
    is_cell: NDArray[np.bool_]
    # the least probability of each cell, and how much more it may have (R by K)
    low: Floats
    room: Floats
    # what is left of each row (R by 1)
    rest: Floats


class RowsNear:
    """The rows near those of a matrix, whose weights are whole parts of a scale. No row is empty."""

    def __init__(self, matrix: Matrix, by: Spread, scale: int) -> None:
        self._by, self._scale = by, scale
        self.columns: Integers = matrix.indices
        self.begins: Integers = matrix.indptr[:-1]
        lengths = np.diff(matrix.indptr)
        self.rows = rows_of_cells(matrix)
        self.longest = int(lengths.max())
        # (a row of one cell has nothing to choose)
        sizes = np.ceil(np.log2(lengths)).astype(np.int64)
        self._blocks: List[_Block] = [self._block(matrix.data, np.flatnonzero(sizes == size), lengths) for size in np.unique(sizes) if size]

    def _block(self, chances: Floats, rows: Integers, lengths: Integers) -> _Block:
        places = np.arange(lengths[rows].max())
        is_cell = places < lengths[rows, None]
        cells = self.begins[rows, None] + np.where(is_cell, places, 0)
        weights = np.where(is_cell, chances[cells], 0)
        whole = np.rint(weights * self._scale).astype(np.int64)
        distance = self._by.of(whole) / self._scale
        low = np.maximum(weights - distance, 0)
        room = np.where(is_cell, np.minimum(weights + distance, 1) - low, 0)
        return _Block(cells, is_cell, low, room, 1 - low.sum(axis=1, keepdims=True))

    def worst(self, values: Floats) -> Floats:
        """The weights of the worst rows, for the values of all cells in each of N cases (N by cells)."""
        weights = np.ones_like(values)
        for cells, is_cell, low, room, rest in self._blocks:
            order = values[:, cells].argsort(axis=2)
            rooms = np.take_along_axis(np.broadcast_to(room, order.shape), order, 2)
            taken = np.empty_like(rooms)
            np.put_along_axis(taken, order, np.clip(rest - (rooms.cumsum(axis=2) - rooms), 0, rooms), 2)
            weights[:, cells[is_cell]] = (low + taken)[:, is_cell]
        return weights

    def means(self, weights: Floats, values: Floats) -> Floats:
        """The mean of each row (N by rows)."""
        return np.asarray(np.add.reduceat(weights * values, self.begins, axis=1))


def least_mean(weights: Weights, scale: int, by: Spread, values: Sequence[int]) -> int:
    """The mean of the worst row, exactly, times the scale: the row sums to the scale, and each of its weights may have this more or less."""
    lows = [max(0, weight - by.of(weight)) for _, weight in weights]
    rest, total = scale - sum(lows), 0
    for value, low, (_, weight) in sorted(zip(values, lows, weights)):
        more = min(weight + by.of(weight) - low, rest)
        rest -= more
        total += (low + more) * value
    return total
