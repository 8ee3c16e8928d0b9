"""The upper bound of a solver: informed vectors, and belief points with a value for each action (a sawtooth of them).

The bound at a belief is that of the best cover: a point as often as it fits, and what is left by the vectors, with one next action for both.
"""
from typing import Any, Dict, List, Tuple

import numpy as np
from numpy.typing import NDArray

from polcert.arrays import Floats, Integers, numbers_from
from polcert.belief_nodes import Batch, BeliefNode

# A value has to fall by more than this part of its size.
LEAST_MOVE = 1e-10
# Points that others make needless are cleared away once there are so many, and then once there are this many times those that are left.
FIRST_CLEARING, GROWTH = 1_000, 1.5


class Growing:
    """An array that grows at its end."""

    def __init__(self, kind: type, *width: int) -> None:
        self._array: NDArray[Any] = np.zeros((1024, *width), kind)
        self.size = 0

    def extend(self, values: Any) -> None:
        """Adds the rows of an array."""
        end = self.size + len(values)
        while end > len(self._array):
            self._array = np.concatenate([self._array, np.zeros_like(self._array)])
        self._array[self.size : end] = values
        self.size = end

    @property
    def all(self) -> NDArray[Any]:
        return self._array[: self.size]


class PointRows:
    """Points in rows one after the other."""

    def __init__(self, actions: int) -> None:
        # for each cell of a row the state, its weight and one divided by that; for each row the first cell, and the end after the last one
        self.states, self.weights, self.inverses = Growing(np.int64), Growing(np.float64), Growing(np.float64)
        self.begins = Growing(np.int64)
        # for each row its likeliest state with the weight there; each action's value, and by how much it is below the vector
        self.likeliest, self.largest = Growing(np.int64), Growing(np.float64)
        self.values, self.drops = Growing(np.float64, actions), Growing(np.float64, actions)
        self.begins.extend([0])

    def add(self, states: Integers, weights: Floats, values: Floats) -> None:
        self.states.extend(states)
        self.weights.extend(weights)
        self.inverses.extend(1 / weights)
        self.begins.extend([self.states.size])
        self.likeliest.extend([states[weights.argmax()]])
        self.largest.extend([weights.max()])
        self.values.extend([values])
        self.drops.extend([values])

    def charge(self, charges: Floats, point: slice) -> None:
        """Finds again by how much values are below the vectors."""
        begins = self.begins.all[:-1][point]
        if len(begins):
            cells = slice(begins[0], self.begins.all[1:][point][-1])
            plain = np.add.reduceat(self.weights.all[cells] * charges[:, self.states.all[cells]], begins - begins[0], axis=1)
            self.drops.all[point] = np.minimum(0.0, self.values.all[point] - plain.T)

    def times(self, rows: Integers, weights: Floats) -> Floats:
        """How often points fit into beliefs, of which a column has the weight of each state: a row for each point."""
        begins = self.begins.all[rows]
        sizes = self.begins.all[rows + 1] - begins
        cells = numbers_from(begins, sizes)
        times = weights[self.states.all[cells]]
        times *= self.inverses.all[cells, None]
        return np.asarray(np.minimum.reduceat(times, np.cumsum(sizes) - sizes))


class Sawtooth:
    """Points, and the vectors lowered at each state that is a point alone (a corner)."""

    def __init__(self, vectors: Floats) -> None:
        """`vectors` is A by S."""
        self.vectors, self.charges = vectors, vectors.copy()
        self.points: List[BeliefNode] = []
        self._rows, self._changes = PointRows(len(vectors)), Growing(np.int64)
        self._lowered: Dict[int, Floats] = {}
        # how often corners fell or the points were numbered again
        self.falls = 0
        self._clearing = FIRST_CLEARING

    @property
    def count(self) -> int:
        return len(self.points)

    def is_corner(self) -> NDArray[np.bool_]:
        """For each state, whether a value there is below the vector's."""
        return np.asarray((self.charges < self.vectors).any(axis=0))

    def look(self, batch: Batch) -> None:
        """Brings the bounds and covers of these beliefs up to date with points that changed."""
        changes = self._changes.all
        if batch.falls == self.falls and batch.seen_changes == len(changes):
            return
        if batch.falls != self.falls:
            batch.base = self.charges[:, batch.states] @ batch.weights
            batch.high, batch.falls = batch.base.max(axis=0), self.falls
            batch.point, batch.times = np.full(len(batch.high), -1), np.zeros(len(batch.high))
            rows = np.arange(self.count)
        else:
            rows = changes[batch.seen_changes :]
            rows = np.unique(rows) if len(rows) < self.count else np.arange(self.count)
        batch.seen_changes = len(changes)
        if len(rows):
            self._look(batch, rows)

    def _look(self, batch: Batch, rows: Integers) -> None:
        rows, most = self._with_likeliest(batch, rows)
        if not len(rows):
            return
        best, plain, drops = batch.base.argmax(axis=0), batch.base.max(axis=0), self._rows.drops.all[rows]
        fitting = np.flatnonzero((plain + drops[:, best] * most < batch.high).any(axis=1))
        if not len(fitting):
            return
        rows, drops = rows[fitting], drops[fitting]
        weights = np.zeros((self.vectors.shape[1], len(plain)))
        weights[batch.states] = batch.weights
        times = self._rows.times(rows, weights)
        least = plain + drops[:, best] * times
        # (the point that seems best first, so that few others are looked at)
        self._take_best(batch, rows, drops, (times, least.argmin(axis=0), np.arange(len(plain))))
        place, column = np.nonzero(least < batch.high)
        self._take_best(batch, rows, drops, (times, place, column))

    @staticmethod
    def _take_best(batch: Batch, rows: Integers, drops: Floats, pairs: Tuple[Floats, Integers, Integers]) -> None:
        """Takes the best of the points for each belief, of pairs of a place in `rows` and a column. How often they fit is given first."""
        times, place, column = pairs
        often = times[place, column]
        worth = (batch.base[:, column] + often * drops[place].T).max(axis=0)
        order = np.lexsort((worth, column))
        first = order[np.unique(column[order], return_index=True)[1]]
        first = first[worth[first] < batch.high[column[first]]]
        here = column[first]
        batch.high[here], batch.point[here], batch.times[here] = worth[first], rows[place[first]], often[first]

    def _with_likeliest(self, batch: Batch, rows: Integers) -> Tuple[Integers, Floats]:
        """The points whose likeliest state is one of the beliefs', and how often each fits into each belief at most."""
        likeliest = self._rows.likeliest.all[rows]
        place = np.searchsorted(batch.states, likeliest)
        place[place == len(batch.states)] = 0
        is_there = batch.states[place] == likeliest
        rows = rows[is_there]
        return rows, batch.weights[place[is_there]] / self._rows.largest.all[rows, None]

    def value(self, node: BeliefNode) -> float:
        self.look(node.own)
        return float(node.own.high[0])

    def lower(self, node: BeliefNode, values: Floats) -> None:
        """Lowers the values of the actions at a belief, and with that the bound at all beliefs that it covers. A corner is lowered later."""
        most, states = float(values.max()), node.own.states
        if len(states) == 1:
            self._lowered[int(states[0])] = values
        elif node.point >= 0:
            old = self._rows.values.all[node.point]
            if (old - values > LEAST_MOVE * (1 + abs(values))).any():
                old[:] = np.minimum(old, values)
                self._change(node.point)
        elif self.value(node) - most > LEAST_MOVE * (1 + abs(most)):
            node.point = self.count
            self.points.append(node)
            self._rows.add(states, node.own.weights[:, 0], values)
            self._change(node.point)
            if self.count > self._clearing:
                self._clear()

    def _change(self, point: int) -> None:
        self._rows.charge(self.charges, slice(point, point + 1))
        self._changes.extend([point])

    def lower_corners(self, least: float = 0.0) -> None:
        """Takes the values of corners for the vectors there, if one falls by more than `least`."""
        moved = False
        for state, values in self._lowered.items():
            charge = self.charges[:, state]
            if (charge - values > np.maximum(least, LEAST_MOVE * (1 + abs(values)))).any():
                charge[:] = np.minimum(charge, values)
                moved = True
        self._lowered = {}
        if moved:
            self._rows.charge(self.charges, slice(0, self.count))
            self.falls += 1

    def _clear(self) -> None:
        """Clears points away that others make needless: of those that do the same the newest one stays."""
        old, values = self.points, self._rows.values.all
        self.points, self._rows, self._changes = [], PointRows(len(self.vectors)), Growing(np.int64)
        self.falls, self._clearing = self.falls + 1, len(old)
        for node, row in zip(old[::-1], values[::-1]):
            node.point = -1
            self.lower(node, row)
        self._clearing = max(FIRST_CLEARING, int(GROWTH * self.count))
