"""Solves models in numpy: a policy graph with values that pass polcert's check, and an upper bound on what any policy earns."""
from math import floor
from typing import Callable, List, NamedTuple, Tuple

import numpy as np

from polcert.arrays import Arrays, Floats, Integers, arrays_of
from polcert.certificate import Ends, certified_points, informed_vectors
from polcert.command import Refusal
from polcert.evaluation import MOST_SWEEPS, ArrayGraph, evaluate, evaluate_below, in_millionths, listed_graph, reached_nodes, renumbered
from polcert.files import Graph, Model
from polcert.graph_limits import GraphLimits
from polcert.graphs import graph_of_vectors
from polcert.informed import by_state, informed_bound
from polcert.points import Points, WholeCells, most_from_points, points_text, start_shares
from polcert.reach import Policy, Reach
from polcert.solver import Limits, Solver
from polcert.stopping import IsOver, Stopping, after, part_of, spent_seconds
from polcert.tokens import MILLION
from polcert.values import ROUNDS, TOLERANCE, vectors_text
from polcert.watch import Watch

# How exactly the graph is evaluated.
PRECISION = 1e-9
# The vectors of the bound are found in at most this part of the time, and the search has what is left of it.
INFORMED_PART = 0.5
# After the search values fall for at most this part of what it took, and settle for that one in all, after an interrupt too: if they do not,
# most of the bound is lost. The graph is evaluated for at most the last one.
FALLING_PART, SETTLING_PART, EVALUATING_PART = 0.25, 3.0, 0.25
# A better graph is evaluated for at most this part of the time that it took.
EVALUATED_PART = 1.0

Report = Callable[[Solver], None]


class UpperBound(NamedTuple):
    """A certificate of an upper bound: vectors in millionths, and points that pass their check with these; and the lower bound at the start
    that was found with it."""

    vectors: List[List[int]]
    points: Points
    low: float

    def vectors_text(self) -> bytes:
        return vectors_text(range(len(self.vectors)), [[value / MILLION for value in vector] for vector in self.vectors])

    def texts(self, cells: WholeCells) -> Tuple[bytes, bytes]:
        """Both files."""
        return self.vectors_text(), points_text(cells, self.points)

    def most(self, cells: WholeCells) -> int:
        """What every policy earns at most from the start, in millionths."""
        return most_from_points(cells, self.vectors, self.points)


class Solution(NamedTuple):
    """A graph of N nodes, of which the first is the best at the start; its values (N by S), with six decimals; and what the best node earns
    from the start, in millionths, rounded down."""

    graph: Graph
    values: Floats
    low: int


def searched(cells: WholeCells, limits: Limits, is_stopped: IsOver, report: Report) -> Tuple[Solver, UpperBound]:
    """A search, with exact vectors, and the bound from it."""
    begin, arrays = spent_seconds(), arrays_of(cells.model)
    stopping = Stopping(TOLERANCE, ROUNDS, part_of(INFORMED_PART * limits.seconds, is_stopped))
    vectors = informed_vectors(cells, informed_bound(arrays, stopping)[0])
    found = UpperBound(vectors, Points([], [], []), 0.0)
    found.vectors_text()  # (which may be refused)
    solver = Solver(arrays, np.array(vectors) / MILLION)
    solver.run(limits._replace(seconds=max(0.0, limits.seconds - (spent_seconds() - begin))), is_stopped, report)
    spent = spent_seconds() - begin
    ends = Ends(after(FALLING_PART * spent, is_stopped), part_of(SETTLING_PART * spent))
    points = certified_points(solver, cells, vectors, ends, lambda: report(solver))
    return solver, UpperBound(vectors, points, solver.low)


def upper_bound(cells: WholeCells, limits: Limits, is_stopped: IsOver, report: Report) -> UpperBound:
    """An upper bound on what every policy earns, if the discount is below 1: that of a search, and for an MDP that of the vectors."""
    return bound_of_mdp(cells, part_of(limits.seconds, is_stopped)) if cells.is_mdp else searched(cells, limits, is_stopped, report)[1]


def solve(cells: WholeCells, limits: Limits, is_stopped: IsOver, report: Report) -> Tuple[Solution, UpperBound]:
    """A policy and an upper bound, if the discount is below 1: an MDP is solved by value iteration, any other model by one search."""
    if cells.is_mdp:
        found, arrays = bound_of_mdp(cells, part_of(limits.seconds, is_stopped)), arrays_of(cells.model)
        graph = graph_of_actions(np.array(found.vectors).argmax(axis=0))
        values = np.zeros((len(graph.actions), len(arrays.start)))
    else:
        solver, found = searched(cells, limits, is_stopped, report)
        arrays, graph, values = solver.arrays, solver.lower.graph(), solver.lower.values().T
    return solution(cells.model, arrays, Valued(graph, values), part_of(EVALUATING_PART * limits.seconds, is_stopped)), found


def bound_of_mdp(cells: WholeCells, is_over: IsOver) -> UpperBound:
    """The vectors of an MDP, which are sharp without points. One backup says how far above the optimum they are at most."""
    arrays = arrays_of(cells.model)
    vectors = informed_bound(arrays, Stopping(TOLERANCE, ROUNDS, is_over))[0]
    values, backups = vectors.max(axis=0), by_state(arrays)(vectors).max(axis=0)
    above = float((values - backups).max()) / (1 - arrays.discount)
    return UpperBound(informed_vectors(cells, vectors), Points([], [], []), float(arrays.start @ values) - above)


def graph_of_actions(best: Integers) -> ArrayGraph:
    """The graph of an MDP's policy: a node for each action that is the best one in some state; what is seen is the state."""
    actions, nodes = np.unique(best, return_inverse=True)
    return ArrayGraph(actions, np.tile(nodes, (len(actions), 1)))


def better_solution(model: Model, found: Solution, watch: Watch) -> Solution:
    """The graph that follows the policy of a graph's vectors, again as long as it is worth more from the start."""
    reach = Reach(arrays_of(model))
    while not watch.is_over():
        try:
            begin = spent_seconds()
            graph = graph_of_vectors(reach, Policy(np.array(found.graph.actions), found.values), GraphLimits(), watch)
            is_over = part_of(EVALUATED_PART * (spent_seconds() - begin))
            values = evaluate(reach.arrays, graph, precision=PRECISION, is_over=is_over)
            other = solution(model, reach.arrays, Valued(graph, values), is_over)
        except Refusal:  # (the values of a graph that is tried do not settle)
            break
        if other.low <= found.low:
            break
        found = other
    return found


class Valued(NamedTuple):
    """A graph, and about what its nodes are worth (N by S)."""

    graph: ArrayGraph
    values: Floats


def solution(model: Model, arrays: Arrays, found: Valued, is_over: IsOver) -> Solution:
    """The part of a graph that its best node at the start leads to, with its own values, or if it is over before they are found, less."""
    nodes = reached_nodes(found.graph, [int((found.values @ arrays.start).argmax())])
    graph, stopping = renumbered(found.graph, nodes), Stopping(PRECISION, MOST_SWEEPS, is_over)
    values = in_millionths(arrays, graph, evaluate_below(arrays, graph, found.values[nodes], stopping), is_over)
    shares = start_shares(model)
    worths = [sum(share * round(row[state] * MILLION) for state, share in shares.items()) for row in values]
    return Solution(listed_graph(graph), values, floor(max(worths) / sum(shares.values())))
