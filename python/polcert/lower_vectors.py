"""The lower bound of a solver: vectors of policies, kept with the graph of their backups.

Each vector has an action and, for each observation, the vector that follows. A vector that is nowhere above another one is dropped, and
the other takes its place wherever it follows, so that no vector gets worse. So the vectors are at all times the nodes of a policy graph
that is worth at least what they say.
"""
from typing import List, Optional

import numpy as np

from polcert.arrays import Arrays, Floats, Integers, rows_of_cells
from polcert.belief_nodes import Batch, BeliefNode, BeliefNodes, BeliefStep
from polcert.evaluation import ArrayGraph, Sweeper, evaluate_until, lowered
from polcert.stopping import IsOver, Stopping

# A vector has to be worth more than all others by this part of its size.
LEAST_MOVE = 1e-10
BLIND_PRECISION, MOST_BLIND_SWEEPS = 1e-9, 20_000
# Whether a vector is nowhere above another one is seen at so many states first.
SCREENED = 8
# How exactly graphs are evaluated during a search, for values of size 1, and with how many sweeps at most.
ROUGH, ROUGH_SWEEPS = 1e-6, 500
# Columns of dropped vectors are cleared away once they are this part of all.
DROPPED_PART = 0.25


class LowerVectors:
    """Vectors in a table with a column for each. A number belongs to a vector for ever, and the columns are in the order of numbers."""

    def __init__(self, nodes: BeliefNodes) -> None:
        self.nodes, self.arrays = nodes, nodes.arrays
        states = nodes.arrays.rewards.shape[1]
        self._table = np.zeros((states, 64))
        self._numbers = np.zeros(64, np.int64)
        # how many columns are used, and how often the values of old vectors rose
        self.count, self.rises = 0, 0
        self._dropped, self._sweeper = 0, Sweeper(nodes.arrays)
        # by number: the action, the successors (-1 for none), and the vector that took its place (-1 for none)
        self._actions: List[int] = []
        self._successors: List[Integers] = []
        self._heirs: List[int] = []
        # by number: the belief for which the vector was added
        self._witnesses: List[BeliefNode] = []
        self._screen = np.unique(np.linspace(0, states - 1, SCREENED).astype(np.int64))
        for action in range(nodes.actions):
            successors = np.full(nodes.arrays.observing[0].shape[1], -1)
            successors[nodes.possible(action)] = action
            self._add(nodes.start, action, successors, blind_values(nodes.arrays, action))

    def values(self) -> Floats:
        """The values of all vectors: a column for each."""
        return self._table[:, : self.count]

    # What beliefs are worth

    def look(self, batch: Batch) -> None:
        """Looks whether vectors that these beliefs have not seen are worth more there."""
        first = 0
        if batch.rises == self.rises and batch.seen_vectors == len(self._actions):
            return
        if batch.rises != self.rises:
            batch.low = np.full(len(batch.low), -np.inf)
        else:
            first = int(np.searchsorted(self._numbers[: self.count], batch.seen_vectors))
        if first < self.count:
            table = self._table[:, first : self.count]
            worths = batch.weights.T @ (table if len(batch.states) == len(table) else table[batch.states])
            best = worths.argmax(axis=1)
            found = worths[np.arange(len(best)), best]
            higher = found > batch.low
            batch.low[higher] = found[higher]
            batch.vector[higher] = self._numbers[first + best[higher]]
        batch.seen_vectors, batch.rises = len(self._actions), self.rises

    def value(self, node: BeliefNode) -> float:
        self.look(node.own)
        return float(node.own.low[0])

    # Vectors that are added

    def back_up(self, node: BeliefNode) -> bool:
        """Adds the vector of the best action at a belief, if it is worth more there than all vectors so far."""
        least, step = self.value(node), self.nodes.step(node)
        self.look(step.batch)
        worths = step.gains + self.arrays.discount * step.sums(step.batch.low)
        action = int(worths.argmax())
        if worths[action] <= least + LEAST_MOVE * (1 + abs(least)):
            return False
        successors = self._successors_at(step, action)
        self._add(node, action, successors, self._vector(action, successors))
        return True

    def _successors_at(self, step: BeliefStep, action: int) -> Integers:
        """The vector after each observation: the best one at the belief there, or if that can't come at this belief, the best one if all
        states were equally likely before."""
        successors, columns = np.full(self.arrays.observing[0].shape[1], -1), step.columns(action)
        if columns.stop - columns.start < len(self.nodes.possible(action)):
            anywhere = self.nodes.anywhere()
            self.look(anywhere.batch)
            others = anywhere.columns(action)
            successors[anywhere.observations[others]] = anywhere.batch.vector[others]
        successors[step.observations[columns]] = step.batch.vector[columns]
        return np.array([number if number < 0 else self.heir(number) for number in successors.tolist()])

    def _vector(self, action: int, successors: Integers) -> Floats:
        """What an action is worth in each state, if these vectors follow."""
        observing = self.arrays.observing[action]
        columns = np.searchsorted(self._numbers[: self.count], successors)
        columns[columns == self.count] = 0  # (no such observation can come)
        ends = rows_of_cells(observing)
        weighted = observing.data * self._table[ends, columns[observing.indices]]
        later = np.bincount(ends, weighted, observing.shape[0])
        return np.asarray(self.arrays.rewards[action] + self.arrays.discount * (self.arrays.transitions[action] @ later))

    def heir(self, number: int) -> int:
        """The vector that has the place of a vector by now: itself, if none took it."""
        while self._heirs[number] >= 0:
            number = self._heirs[number]
        return number

    def _add(self, witness: BeliefNode, action: int, successors: Integers, values: Floats) -> None:
        self._drop_below(values)
        if self.count == self._table.shape[1]:
            self._table = np.concatenate([self._table, np.zeros_like(self._table)], axis=1)
            self._numbers = np.concatenate([self._numbers, np.zeros_like(self._numbers)])
        self._table[:, self.count] = values
        self._numbers[self.count] = len(self._actions)
        self.count += 1
        self._actions.append(action)
        self._witnesses.append(witness)
        self._successors.append(successors)
        self._heirs.append(-1)

    def _drop_below(self, values: Floats) -> None:
        """Drops the vectors that the next one is nowhere below: it takes their place. Their columns are cleared away later."""
        some = np.flatnonzero((self._table[self._screen, : self.count] <= values[self._screen, None]).all(axis=0))
        if len(some):
            some = some[(self._table[:, some] <= values[:, None]).all(axis=0)]
            for number in self._numbers[some].tolist():
                if self._heirs[number] < 0:
                    self._heirs[number] = len(self._actions)
                    self._dropped += 1
        if self._dropped > DROPPED_PART * self.count + 16:
            self._clear()

    def _clear(self) -> None:
        """Clears the columns of vectors away that were dropped."""
        kept = [column for column, number in enumerate(self._numbers[: self.count].tolist()) if self._heirs[number] < 0]
        self._table[:, : len(kept)] = self._table[:, kept]
        self._numbers[: len(kept)] = self._numbers[kept]
        self.count, self._dropped = len(kept), 0

    # The graph

    def graph(self) -> ArrayGraph:
        """The policy graph of all vectors that are left, in the order of `values`."""
        self._clear()
        numbers = self._numbers[: self.count]
        heirs = np.array(self._heirs)
        successors = np.array([self._successors[number] for number in numbers])
        while True:
            later = np.where(successors >= 0, heirs[successors], -1)
            if not (later >= 0).any():
                break
            successors = np.where(later >= 0, later, successors)
        columns = np.where(successors >= 0, np.searchsorted(numbers, successors), -1)
        return ArrayGraph(np.array([self._actions[number] for number in numbers]), columns)

    def rise(self, sweeps: int) -> None:
        """Lets the values rise towards what their graph is worth."""
        graph = self.graph()
        for _ in range(sweeps):
            np.maximum(self.values(), self._sweeper.sweep(graph, self.values().T).T, out=self.values())
        self.rises += 1

    def relink(self, is_over: IsOver) -> bool:
        """Chooses the successors of each vector again at the belief for which it was added, by what all vectors are worth as a graph. Takes
        these successors, and returns True, if their graph is worth more from the start."""
        graph = self.graph()
        witnesses = [self._witnesses[number] for number in self._numbers[: self.count].tolist()]
        values = self._from_below(graph, self.values(), is_over)
        successors = self._relinked(graph, values, witnesses, is_over)
        if successors is None:
            return False
        other = ArrayGraph(graph.actions, successors)
        new = self._from_below(other, values, is_over)
        before, after = (float((self.arrays.start @ it).max()) for it in (values, new))
        is_better = after > before + LEAST_MOVE * (1 + abs(before))
        self._take(*(other, new) if is_better else (graph, values))
        return is_better

    def _from_below(self, graph: ArrayGraph, values: Floats, is_over: IsOver) -> Floats:
        """What a graph is worth, or a little less."""
        stopping = Stopping(ROUGH * max(1e-3, float(abs(values).max())), ROUGH_SWEEPS, is_over)
        worth = evaluate_until(self.arrays, graph, values.T, stopping)[0]
        return np.ascontiguousarray(lowered(self._sweeper, graph, worth).T)

    def _relinked(self, graph: ArrayGraph, values: Floats, witnesses: List[BeliefNode], is_over: IsOver) -> Optional[Integers]:
        """The successors that are worth most at the beliefs after each vector's own; None if the time is over before."""
        successors = graph.successors.copy()
        for column, (witness, action) in enumerate(zip(witnesses, graph.actions.tolist())):
            if self._numbers[column] >= self.nodes.actions:  # (blind policies stay)
                step = self.nodes.step(witness)
                some = step.columns(action)
                worths = step.batch.weights[:, some].T @ values[step.batch.states]
                rows, seen = np.arange(len(worths)), step.observations[some]
                best, old = worths.argmax(axis=1), successors[column, seen]
                more = worths[rows, best] > worths[rows, old] + LEAST_MOVE
                successors[column, seen] = np.where(more, best, old)
            if is_over():
                return None
        return successors

    def _take(self, graph: ArrayGraph, values: Floats) -> None:
        """Takes successors and values of all vectors."""
        numbers = self._numbers[: self.count]
        for number, row in zip(numbers.tolist(), graph.successors):
            self._successors[number] = np.where(row >= 0, numbers[row], -1)
        self.values()[:] = values
        self.rises += 1


def blind_values(arrays: Arrays, action: int) -> Floats:
    """What is earned by the same action for ever, from below."""
    rewards, transitions, discount = arrays.rewards[action], arrays.transitions[action], arrays.discount
    values = np.full(len(rewards), rewards.min() / (1 - discount))
    for _ in range(MOST_BLIND_SWEEPS):
        new = rewards + discount * (transitions @ values)
        moved = abs(new - values).max()
        values = new
        if moved <= BLIND_PRECISION * (1 - discount):
            break
    return np.asarray(values)
