"""Vectors of a policy graph for the worst of all models near one: what each node is worth in each state whichever of them is true.

    vectors = worst_case_vectors(model, graph, Distances(Fraction(1, 100)), Watch(is_quiet=True))

A model is near if each probability above 0 lies within a distance of the given model's, and each reward too. Worst rows are found in
floating point, and values are rounded down until all pairs of a node and a state pass the check of polcert_robust: the pairs that are too
near for floating point are decided in integers. From above, for the best case, rewards and values are negated, and all else is the same.
"""
from math import ceil
from typing import Callable, Dict, Iterator, List, NamedTuple, Optional, Sequence, Tuple

import numpy as np
from numpy.typing import NDArray
from scipy import sparse

from polcert.arrays import Arrays, Floats, Integers, Matrix, arrays_of, blocks_of_rewards, cells_of_row
from polcert.command import Refusal
from polcert.distances import Distances, Spread, spread_at
from polcert.evaluation import BLOCK_NUMBERS, MOST_SOLVING, MOST_SWEEPS, ROUNDING, ArrayGraph, array_graph, evaluate, nearly_solved
from polcert.files import Graph, Model
from polcert.points import WholeCells
from polcert.stopping import Stopping
from polcert.tables import RewardBlock
from polcert.tokens import MILLION
from polcert.watch import Watch
from polcert.worst_rows import RowsNear, least_mean

# How near values come to those of the worst case before they are rounded, and in how many rounds their rows are held to solve equations.
PRECISION, MOST_ROUNDS = 1e-10, 40
# So many weights are held at most to solve equations.
MOST_HELD = 5_000_000
# So many sweeps round values at most, and so many pairs of a sweep are decided in integers.
MOST_ROUNDING, MOST_EXACT = 2_000, 200_000
# What floating point may err by in a sum, for each number in it and values of size 1.
ERROR = 16 * 2.0**-52

Step = Callable[[Floats], Floats]


class WorstModel(NamedTuple):
    """A model, and the models near it in whole parts: of the scales of T and of O, and in millionths of reward. The sign is that of rewards as
    the worst case is about them."""

    cells: WholeCells
    arrays: Arrays
    t_by: Spread
    o_by: Spread
    r_by: int
    sign: int


def worst_model(model: Model, near: Distances) -> WorstModel:
    """Distances are rounded up to parts, as polcert_robust does."""
    cells = WholeCells(model)
    t_by, o_by = spread_at(near, cells.t_scale), spread_at(near, cells.o_scale)
    return WorstModel(cells, arrays_of(model), t_by, o_by, ceil(near.rewards * MILLION), -1 if near.is_above != model.is_cost else 1)


# One step, in floating point


class StartStates(NamedTuple):
    """Start states of an action for which each observation is rewarded in the same way."""

    states: Integers
    # their rows of T
    moves: RowsNear
    # what the cells of these rows earn; and those of O, if the observation matters
    of_ends: Floats
    of_seen: Optional[Floats]


class WorstRows(NamedTuple):
    """The worst rows of O and of T for nodes (N by cells)."""

    seen: Floats
    moved: Floats


class WorstAction:
    """Backs up nodes of one action in the worst case."""

    def __init__(self, worst: WorstModel, action: int) -> None:
        self.discount, self._worst, self._action = worst.arrays.discount, worst, action
        observing = worst.arrays.observing[action]
        self.observing = RowsNear(observing, worst.o_by, worst.cells.o_scale)
        self.states = observing.shape[0]
        self.observations, self.ends = self.observing.columns, self.observing.rows
        self.parts = list(self._parts(observing))
        self.width = max(self.states, len(self.ends), *(len(part.moves.columns) for part in self.parts))
        # the most numbers of a sum, and the largest reward
        self.longest = self.observing.longest + max(part.moves.longest for part in self.parts)
        rewards = [numbers for part in self.parts for numbers in (part.of_ends, part.of_seen) if numbers is not None]
        self.largest = max(float(abs(numbers).max()) for numbers in rewards)

    def _parts(self, observing: Matrix) -> Iterator[StartStates]:
        """Those where the observation matters one by one, and all others together."""
        moves, plain, earned = self._worst.arrays.transitions[self._action], [], []
        for block, states in blocks_of_rewards(self._worst.cells.model, self._action):
            rows = moves[states]
            by_end, by_cell = self._rewards(block, np.unique(rows.indices), observing)
            if by_cell is None:
                plain.append(states)
                earned.append(by_end[rows.indices])
            else:
                yield self._part(states, rows, np.zeros(rows.nnz), by_cell)
        if plain:
            states = np.concatenate(plain)
            yield self._part(states, moves[states], np.concatenate(earned), None)

    def _part(self, states: Integers, rows: Matrix, of_ends: Floats, of_seen: Optional[Floats]) -> StartStates:
        moves = RowsNear(rows, self._worst.t_by, self._worst.cells.t_scale)
        return StartStates(states, moves, of_ends - self._worst.r_by / MILLION, of_seen)

    def _rewards(self, block: RewardBlock, reached: Sequence[int], observing: Matrix) -> Tuple[Floats, Optional[Floats]]:
        """What is earned by end state, and by cell of O if the observation matters."""
        by_end, by_cell, is_plain = np.zeros(self.states), np.zeros(observing.nnz), True
        for end in reached:
            row, constant = cells_of_row(observing, end), block.constant(end)
            numbers = [block.at(end, z) for z in observing.indices[row].tolist()] if constant is None else [constant]
            is_plain = is_plain and len(set(numbers)) == 1
            by_end[end] = self._worst.sign * float(numbers[0])
            by_cell[row] = [self._worst.sign * float(number) for number in numbers]
        return by_end, None if is_plain else by_cell

    def worth(self, values: Floats, successors: Integers) -> Tuple[Floats, List[WorstRows]]:
        """What nodes with these successors are worth, and for each part the rows that are worst. The last row of the values is that of a missing
        successor: zeros."""
        follow = values[successors[:, self.observations], self.ends]
        follow *= self.discount
        worth, rows = np.empty((len(successors), self.states)), []
        for part in self.parts:
            later = follow if part.of_seen is None else follow + part.of_seen
            seen = self.observing.worst(later)
            ends = part.of_ends + self.observing.means(seen, later)[:, part.moves.columns]
            moved = part.moves.worst(ends)
            worth[:, part.states] = part.moves.means(moved, ends)
            rows.append(WorstRows(seen, moved))
        return worth, rows


class _Weights:
    """The cells of a sparse matrix, block by block."""

    def __init__(self) -> None:
        self._blocks: List[Tuple[Integers, Integers, Floats]] = []

    def add(self, rows: Integers, columns: Integers, weights: Floats) -> None:
        self._blocks.append((np.broadcast_to(rows, weights.shape).ravel(), np.broadcast_to(columns, weights.shape).ravel(), weights.ravel()))

    def matrix(self, height: int, width: int) -> Matrix:
        rows, columns, weights = (np.concatenate(parts) for parts in zip(*self._blocks))
        return sparse.csr_matrix((weights, (rows, columns)), shape=(height, width))


class WorstSweeper:
    """Backs all nodes of a graph up at once, in the worst case."""

    def __init__(self, worst: WorstModel, graph: ArrayGraph) -> None:
        self.worst, self.graph = worst, graph
        self.nodes, self.states = len(graph.actions), len(worst.arrays.start)
        self.actions: Dict[int, WorstAction] = {int(action): WorstAction(worst, int(action)) for action in np.unique(graph.actions)}
        weights = (len(part.moves.columns) + len(backup.ends) for backup in self.actions.values() for part in backup.parts)
        self.is_held = self.nodes * sum(weights) <= MOST_HELD

    def sweep(self, values: Floats) -> Floats:
        """What each node is worth in each state, if its successors are worth `values`, and a missing one nothing."""
        new = np.empty_like(values)
        for _, nodes, worth, _ in self._blocks(values):
            new[nodes] = worth
        return new

    def _blocks(self, values: Floats) -> Iterator[Tuple[WorstAction, Integers, Floats, List[WorstRows]]]:
        after = np.concatenate([values, np.zeros((1, values.shape[1]))])
        for action, backup in self.actions.items():
            nodes = np.flatnonzero(self.graph.actions == action)
            size = max(1, BLOCK_NUMBERS // backup.width)
            for some in (nodes[i : i + size] for i in range(0, len(nodes), size)):
                yield backup, some, *backup.worth(after, self.graph.successors[some])

    def with_rows_held(self, values: Floats) -> Tuple[Floats, Step]:
        """What a sweep makes of values, and the linear step of the rows that are worst for them."""
        new, count, moves, observing = np.empty_like(values), 0, _Weights(), _Weights()
        for backup, nodes, worth, rows in self._blocks(values):
            new[nodes] = worth
            after = self.graph.successors[nodes][:, backup.observations]
            for part, (seen, moved) in zip(backup.parts, rows):
                middle = count + np.arange(len(nodes))[:, None] * self.states
                observing.add(middle + backup.ends, np.maximum(after, 0) * self.states + backup.ends, np.where(after < 0, 0, backup.discount * seen))
                moves.add(nodes[:, None] * self.states + part.states[part.moves.rows], middle + part.moves.columns, moved)
                count += len(nodes) * self.states
        size = self.nodes * self.states
        first, second = observing.matrix(count, size), moves.matrix(size, count)
        fixed = new.ravel() - second @ (first @ values.ravel())
        return new, lambda worth: np.asarray(fixed + second @ (first @ worth.ravel())).reshape(worth.shape)


def worst_case(sweeper: WorstSweeper, values: Floats, watch: Watch) -> Floats:
    """What each node is worth in the worst case (N by S), from given values on. The rows that are worst for values are held until the values
    are solved for them (policy iteration, of the opponent). Ends early if the watch is over. Raises Refusal if the values do not settle."""
    least = PRECISION * (1 - sweeper.worst.arrays.discount)
    for sweeps in range(MOST_SWEEPS):
        new, step = sweeper.with_rows_held(values) if sweeper.is_held and sweeps < MOST_ROUNDS else (sweeper.sweep(values), None)
        moved = float(abs(new - values).max())
        if moved <= least + ROUNDING * float(abs(values).max()) or watch.is_over():
            return new
        watch.report(f"sweep {sweeps + 1:,} moved a value by {moved:.3g}")
        values = new if step is None else nearly_solved(step, values, Stopping(least, MOST_SOLVING, watch.is_over))
    raise Refusal("what the graph is worth in the worst case does not settle")


# Whole millionths


class PairCheck:
    """The inequality of polcert_robust at a pair of a node and a state, in integers."""

    def __init__(self, worst: WorstModel, graph: ArrayGraph) -> None:
        self._worst, self._graph = worst, graph

    def passes(self, node: int, state: int, values: Integers) -> bool:
        """Whether a value, of vectors in millionths, is at most what backs it in the worst case."""
        worst, cells, action = self._worst, self._worst.cells, int(self._graph.actions[node])
        moves, block = cells.moves(action, state), cells.model.rewards.of(action, state)
        means = [self._mean(node, end, block, values) for end, _ in moves]
        return int(values[node, state]) * MILLION * cells.step_scale <= least_mean(moves, cells.t_scale, worst.t_by, means)

    def _mean(self, node: int, end: int, block: RewardBlock, values: Integers) -> int:
        worst, cells, constant = self._worst, self._worst.cells, block.constant(end)
        seen = cells.seen(int(self._graph.actions[node]), end)
        numbers = []
        for z, _ in seen:
            reward = worst.sign * int((block.at(end, z) if constant is None else constant) * MILLION) - worst.r_by
            after = int(self._graph.successors[node, z])
            numbers.append(MILLION * reward + cells.discount * (0 if after < 0 else int(values[after, end])))
        return least_mean(seen, cells.o_scale, worst.o_by, numbers)


def rounded_down(sweeper: WorstSweeper, values: Floats, watch: Watch) -> Floats:
    """The greatest vectors in millionths that pass the check, from values of the worst case. If rounding does not end, or the watch is over, one
    constant less."""
    check, found = PairCheck(sweeper.worst, sweeper.graph), np.asarray(np.ceil(values * MILLION))
    largest = max(action.largest for action in sweeper.actions.values()) * MILLION + float(abs(found).max())
    noise = ERROR * (8 + max(action.longest for action in sweeper.actions.values())) * largest
    if sweeper.is_held:  # (rows that are held are cheaper, and promise no less than the worst ones)
        found = settled(sweeper.with_rows_held(values)[1], found, noise, watch)
    for _ in range(MOST_ROUNDING):
        worth = sweeper.sweep(found / MILLION) * MILLION
        watch.report("rounding values down")
        new = np.asarray(np.minimum(found, np.floor(worth + noise)))
        if np.array_equal(new, found):
            short = short_pairs(check, found, found > worth - noise)
            if not short:
                return found
            new[tuple(np.array(short).T)] -= 1
        found = new
        if watch.is_over():
            break
    lack = float((found - sweeper.sweep(found / MILLION) * MILLION).max()) + noise
    return np.asarray(found - ceil(lack / (1 - sweeper.worst.arrays.discount)))


def settled(step: Step, found: Floats, noise: float, watch: Watch) -> Floats:
    """The greatest vectors in millionths that a step does not take lower, or what so many steps leave."""
    for _ in range(MOST_ROUNDING):
        new = np.asarray(np.minimum(found, np.floor(step(found / MILLION) * MILLION + noise)))
        if np.array_equal(new, found) or watch.is_over():
            break
        found = new
    return found


def short_pairs(check: PairCheck, found: Floats, is_near: NDArray[np.bool_]) -> List[Tuple[int, int]]:
    """Those pairs near the bound that fail; all of them if they are too many to decide."""
    pairs, values = [(int(node), int(state)) for node, state in np.argwhere(is_near)], found.astype(np.int64)
    return pairs if len(pairs) > MOST_EXACT else [(node, state) for node, state in pairs if not check.passes(node, state, values)]


def worst_case_vectors(model: Model, graph: Graph, near: Distances, watch: Watch) -> List[List[float]]:
    """Vectors with six decimals that pass the check of polcert_robust, or with `is_above` its check from above. Raises Refusal if values do not
    settle. The discount is below 1."""
    worst, nodes = worst_model(model, near), array_graph(graph)
    side = -1 if near.is_above else 1
    sweeper = WorstSweeper(worst, nodes)
    values = evaluate(worst.arrays, nodes, is_over=watch.is_over)
    found = rounded_down(sweeper, worst_case(sweeper, side * values, watch), watch)
    return [[float(value) for value in row] for row in (side * found / MILLION + 0.0).tolist()]  # (no -0)
