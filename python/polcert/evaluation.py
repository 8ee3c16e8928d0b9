"""Evaluates policy graphs with numpy and scipy: what each node is worth in each state, in floating point, and in millionths that pass
polcert's check."""
from math import ceil
from typing import Callable, Dict, List, NamedTuple, Optional, Sequence, Tuple

import numpy as np

from polcert.arrays import Arrays, Floats, Integers, rows_of_cells
from polcert.command import Refusal
from polcert.files import Graph
from polcert.stopping import IsOver, Stopping, never
from polcert.tokens import MILLION

PRECISION, MOST_SWEEPS, MOST_ROUNDING = 1e-10, 100_000, 1_000
# The most steps of the method that solves the equations, which ends if it has strayed so far from the best values.
MOST_SOLVING, STRAYED = 2_000, 1e4
# So few equations are solved by elimination if that method does not (as with discounts very near 1).
MOST_DIRECT = 300
# So many numbers are held at most for a block of nodes.
BLOCK_NUMBERS = 1_000_000
# What rounding may move a value by in a sweep, for values of size 1, and what floating point may add to a value, in millionths.
ROUNDING, NOISE = 1e-14, 1e-6
# Observations that can come from fewer end states than this, on average, are summed cell by cell.
FEW_ENDS = 12


class ArrayGraph(NamedTuple):
    """A policy graph of N nodes as arrays: the action of each (N), and its successor for each observation, -1 for none (N by Z)."""

    actions: Integers
    successors: Integers


def array_graph(graph: Graph) -> ArrayGraph:
    rows = [[-1 if m is None else m for m in row] for row in graph.successors]
    return ArrayGraph(np.array(graph.actions, dtype=np.int64), np.array(rows, dtype=np.int64))


def listed_graph(graph: ArrayGraph) -> Graph:
    """The graph as polcert's files have it."""
    rows: List[List[Optional[int]]] = [[None if m < 0 else m for m in row] for row in graph.successors.tolist()]
    return Graph(graph.actions.tolist(), rows)


class ActionBackup:
    """Backs up nodes of one action."""

    def __init__(self, arrays: Arrays, action: int) -> None:
        self.discount, self.rewards, self.moves = arrays.discount, arrays.rewards[action], arrays.transitions[action]
        by_end, by_observation = arrays.observing[action].tocsr(), arrays.observing[action].tocsc()
        self.states = len(self.rewards)
        self.observations, self.chances = by_end.indices, by_end.data
        self.begins = by_end.indptr[:-1]
        self.ends = rows_of_cells(by_end)
        seen = np.flatnonzero(np.diff(by_observation.indptr))
        self.by_cell = by_end.nnz < FEW_ENDS * len(seen)
        self.columns = [] if self.by_cell else [(int(z), by_observation[:, z].toarray().ravel()) for z in seen]

    @property
    def width(self) -> int:
        """How many numbers a node takes while it is backed up."""
        return max(self.states, len(self.ends) if self.by_cell else 0)

    def worth(self, values: Floats, successors: Integers) -> Floats:
        """What nodes with these successors are worth in each state. The last row of the values is that of a missing successor: zeros."""
        if self.by_cell:
            cells = values[successors[:, self.observations], self.ends]
            cells *= self.chances
            after = np.add.reduceat(cells, self.begins, axis=1)
        else:
            after = np.zeros((len(successors), self.states))
            for z, chances in self.columns:
                after += values[successors[:, z]] * chances
        earned: Floats = (self.moves @ after.T).T
        earned *= self.discount
        earned += self.rewards
        return earned


class Sweeper:
    """Backs all nodes of graphs up at once."""

    def __init__(self, arrays: Arrays) -> None:
        self.arrays = arrays
        self._backups: Dict[int, ActionBackup] = {}

    def sweep(self, graph: ArrayGraph, values: Floats) -> Floats:
        """What each node is worth in each state (N by S), if its successors are worth `values`, and a missing one nothing."""
        after, new = np.concatenate([values, np.zeros((1, values.shape[1]))]), np.empty_like(values)
        for action in np.unique(graph.actions).tolist():
            if action not in self._backups:
                self._backups[action] = ActionBackup(self.arrays, action)
            backup, nodes = self._backups[action], np.flatnonzero(graph.actions == action)
            size = max(1, BLOCK_NUMBERS // backup.width)
            for some in (nodes[i : i + size] for i in range(0, len(nodes), size)):
                new[some] = backup.worth(after, graph.successors[some])
        return new


def evaluate(
    arrays: Arrays, graph: ArrayGraph, values: Optional[Floats] = None, precision: float = PRECISION, is_over: IsOver = never
) -> Floats:
    """What each node is worth in each state (N by S), from given values on, until no value is further off than the precision (and than
    rounding allows), or until it is over. Raises Refusal if the values do not settle."""
    begin = np.zeros((len(graph.actions), len(arrays.start))) if values is None else values
    found, is_settled = evaluate_until(arrays, graph, begin, Stopping(precision, MOST_SWEEPS, is_over))
    if not is_settled and not is_over():
        raise Refusal("what the graph is worth does not settle")
    return found


def evaluate_until(arrays: Arrays, graph: ArrayGraph, values: Floats, stopping: Stopping) -> Tuple[Floats, bool]:
    """The same, or what is found after about so many sweeps, and whether the values settled."""
    sweeper, least = Sweeper(arrays), stopping.near * (1 - arrays.discount)
    solving = stopping._replace(near=least, rounds=min(stopping.rounds, MOST_SOLVING))
    values = nearly_solved(lambda worth: sweeper.sweep(graph, worth), values, solving)
    for _ in range(stopping.rounds):
        new = sweeper.sweep(graph, values)
        moved, values = float(abs(new - values).max()), new
        if moved <= least + ROUNDING * float(abs(values).max()):
            return values, True
        if stopping.is_over():
            break
    return values, False


def evaluate_below(arrays: Arrays, graph: ArrayGraph, values: Floats, stopping: Stopping) -> Floats:
    """The same, but less if the values do not settle: those given or those found, whichever promise more from the start less the constant that
    makes them hold."""
    found, is_settled = evaluate_until(arrays, graph, values, stopping)
    if is_settled:
        return found
    both = [lowered(Sweeper(arrays), graph, some) for some in (values, found)]
    return max(both, key=lambda some: float((some @ arrays.start).max()))


def nearly_solved(step: Callable[[Floats], Floats], values: Floats, stopping: Stopping) -> Floats:
    """Values that a linear step moves by little, if they are found from given values on before the end; else those that it moved least. (The
    method is BiCGSTAB: van der Vorst, SIAM Journal on Scientific and Statistical Computing 1992.)"""
    fixed = step(np.zeros_like(values))
    left = step(values) - values
    shadow, direction, image = left, np.zeros_like(values), np.zeros_like(values)
    rho = alpha = omega = 1.0
    best, best_left = values, float(abs(left).max())
    for _ in range(stopping.rounds // 2):
        if best_left <= stopping.near or stopping.is_over():
            break
        before, rho = rho, float(np.vdot(shadow, left))
        direction = left + rho / before * alpha / omega * (direction - omega * image)
        image = direction - (step(direction) - fixed)
        alpha = rho / (float(np.vdot(shadow, image)) or np.inf)
        half = left - alpha * image
        turned = half - (step(half) - fixed)
        omega = float(np.vdot(turned, half)) / (float(np.vdot(turned, turned)) or np.inf)
        values = values + alpha * direction + omega * half
        left = half - omega * turned
        size = float(abs(left).max())
        if not size < STRAYED * best_left or rho == 0 or omega == 0:
            break
        if size < best_left:
            best, best_left = values, size
    if best_left > stopping.near and values.size <= MOST_DIRECT:
        values = directly_solved(step, fixed)
        best = values if float(abs(step(values) - values).max()) < best_left else best
    return best


def directly_solved(step: Callable[[Floats], Floats], fixed: Floats) -> Floats:
    """The values that a linear step does not move, by elimination. `fixed` is the step of zeros."""
    columns = [(step(unit.reshape(fixed.shape)) - fixed).ravel() for unit in np.eye(fixed.size)]
    found: Floats = np.linalg.solve(np.eye(fixed.size) - np.array(columns).T, fixed.ravel()).reshape(fixed.shape)
    return found


def in_millionths(arrays: Arrays, graph: ArrayGraph, values: Floats, is_over: IsOver = never) -> Floats:
    """The greatest values with six decimals below `values` (N by S) that no sweep takes below them, up to floating point: polcert's check
    passes with these, or with a constant of a millionth or so less. If they are not found soon, or it is over, one constant less."""
    sweeper, found, rounds = Sweeper(arrays), np.ceil(values * MILLION), 0

    def swept() -> Floats:
        return np.asarray(np.minimum(found, np.floor(sweeper.sweep(graph, found / MILLION) * MILLION + NOISE)))

    new = swept()
    while not np.array_equal(new, found) and rounds < MOST_ROUNDING and not is_over():
        found, rounds = new, rounds + 1
        new = swept()
    return np.asarray((found - ceil(float((found - new).max()) / (1 - arrays.discount))) / MILLION)


def lowered(sweeper: Sweeper, graph: ArrayGraph, values: Floats) -> Floats:
    """Values (N by S) less the constant with which no sweep takes them lower, up to floating point."""
    above = max(0.0, float((values - sweeper.sweep(graph, values)).max()))
    return np.asarray(values - above / (1 - sweeper.arrays.discount))


def reached_nodes(graph: ArrayGraph, roots: Sequence[int]) -> List[int]:
    """Nodes, and all those to which they lead, each once."""
    order = dict.fromkeys(roots)
    queue = list(order)
    for node in queue:
        for successor in graph.successors[node].tolist():
            if successor >= 0 and successor not in order:
                order[successor] = None
                queue.append(successor)
    return queue


def renumbered(graph: ArrayGraph, nodes: Sequence[int]) -> ArrayGraph:
    """The graph of some nodes, which lead to one another alone."""
    number = np.full(len(graph.actions) + 1, -1, dtype=np.int64)
    number[list(nodes)] = np.arange(len(nodes))
    return ArrayGraph(graph.actions[list(nodes)], number[graph.successors[list(nodes)]])
