"""Points with whole weights and values that pass their exact check, from the upper bound of a search.

Values are rounded up to millionths, and those that fail the exact check are raised until it passes.
"""
from math import inf
from typing import Callable, List, NamedTuple, Optional, Sequence

import numpy as np
from numpy.typing import NDArray

from polcert.arrays import Floats
from polcert.command import Refusal
from polcert.covers import LEAST_LEFT, CoverGraph
from polcert.files import MILLION
from polcert.points import PointCheck, Points, WholeCells, ceil_quotient, least_raise
from polcert.solver import Solver
from polcert.stopping import IsOver, after
from polcert.tokens import LARGEST

# So often covers are chosen again after values have fallen.
STAGES = 6
# A stage is the last one if it moves the start's bound by less than this part of its size.
LEAST_GAIN = 1e-8
# What floating point may add to a value, in millionths.
NOISE = 1e-6
# So many sweeps raise values in floating point at most. If some fail the exact check after so many sweeps, one constant is added to all.
MOST_FLOAT_RAISES, MOST_RAISES = 1_000, 20
# Values settle for so long if there is no time to follow more actions.
LATE_SECONDS = 1.0
# Floating point is wrong by less than this in what follows an action, for values of size 1, if covers leave no weight out. (It rounds by 1.2e-16
# at most, three times for each state and observation, which are 10,000 at most. The exact check takes points a whole number of times: once less,
# in 9e11 or more.)
FLOATING = 1e-10


def informed_vectors(cells: WholeCells, vectors: Floats) -> List[List[int]]:
    """Vectors in millionths, raised until they pass their check."""
    found = [[round(value * MILLION) for value in vector] for vector in vectors.tolist()]
    constant = least_raise(cells, found)
    while constant:
        found = [[value + constant for value in vector] for vector in found]
        constant = least_raise(cells, found)
    return found


class Ends(NamedTuple):
    """When covers are chosen again no more, and when values have to be settled."""

    falling: IsOver
    settling: IsOver


def certified_points(
    solver: Solver, cells: WholeCells, vectors: Sequence[Sequence[int]], ends: Ends, report: Callable[[], None]
) -> Points:
    """The points that the start needs, which pass their check with these vectors, in millionths. `report` is called from time to time."""

    def reporting(is_over: IsOver) -> IsOver:
        def reported() -> bool:
            report()
            return is_over()

        return reported

    worth = inf
    for _ in range(STAGES):
        graph, before = CoverGraph(solver.nodes, solver.upper), worth
        graph.settle(reporting(ends.falling))
        solver.take(graph)
        worth = graph.start_worth
        if ends.falling() or before - worth <= LEAST_GAIN * (1 + abs(worth)):
            break
    graph.reset_others()
    graph.settle(reporting(ends.settling))
    if ends.settling():  # (the values that were found are too low then, or one constant made them too high)
        graph.is_closed = True
        graph.settle(after(LATE_SECONDS))
    round_up(graph, ends.settling)
    check = PointCheck(cells, vectors, whole(graph))
    return passing(check, FloatCheck(graph, check))


def round_up(graph: CoverGraph, is_over: IsOver) -> None:
    """Rounds values to millionths: down first, then up until no backup is above them, up to floating point. If that takes long, they are all
    raised by one constant at the end."""
    graph.values.all[:] = np.where(graph.rows.all < 0, np.ceil(graph.values.all * MILLION - NOISE), np.floor(graph.values.all * MILLION)) / MILLION
    for _ in range(MOST_FLOAT_RAISES):
        values = graph.row_values()
        raised = np.maximum(values, np.ceil(graph.backups() * MILLION - NOISE) / MILLION)
        if np.array_equal(values[1:], raised[1:]):
            break
        graph.set_row_values(raised)
        if is_over():
            above = float((graph.backups() - raised)[1:].max(initial=0.0))
            graph.set_row_values(raised + np.ceil(above * MILLION / (1 - graph.discount)) / MILLION)
            break


def whole(graph: CoverGraph) -> Points:
    """The points in integers. For each action that is followed, an observation has the number of the point that covers the belief after it."""
    points = Points([], np.rint(graph.values.all * MILLION).astype(np.int64).tolist(), [])
    for belief in graph.beliefs:
        assert belief.whole is not None
        points.beliefs.append(dict(zip(belief.own.states.tolist(), belief.whole.tolist())))
        points.following.append([{} for _ in range(graph.actions)])
    covers = graph.covers
    for row, z, point in zip(covers.row.all.tolist(), covers.observation.all.tolist(), covers.point.all.tolist()):
        if row and point >= 0:
            points.following[graph.row_belief.all[row]][graph.row_action.all[row]][z] = point
    return points


class FloatCheck:
    """Finds in floating point which inequalities of a check hold by more than that may be wrong by."""

    def __init__(self, graph: CoverGraph, check: PointCheck) -> None:
        """The points of the check are those of the graph."""
        self.graph, self.check = graph, check
        self._points, self._actions = graph.row_belief.all[1:], graph.row_action.all[1:]
        # (exact up to one rounding: numbers of R of both signs may nearly cancel each other)
        scale, pairs = check.cells.step_scale * MILLION, zip(self._points.tolist(), self._actions.tolist())
        self._gains = np.array([check.reward(point, action) / (check.masses[point] * scale) for point, action in pairs])

    def undecided(self) -> NDArray[np.bool_]:
        """Whether the inequality at each point and action needs the exact check, with the values that the check has now. Those of actions that
        are not followed do."""
        graph, shape = self.graph, self.graph.values.all.shape
        graph.values.all[:] = np.array(self.check.points.values).reshape(shape) / MILLION
        largest = max(float(abs(numbers).max(initial=0.0)) for numbers in (graph.values.all, graph.upper.vectors, self._gains))
        wrong = largest * (LEAST_LEFT * graph.upper.vectors.shape[1] + FLOATING)
        found = np.ones(shape, np.bool_)
        found[self._points, self._actions] = graph.backups()[1:] - graph.gains.all[1:] + self._gains > graph.row_values()[1:] - wrong
        return found


def passing(check: PointCheck, quick: Optional[FloatCheck] = None) -> Points:
    """Raises values until the check passes. With a check in floating point few inequalities are computed exactly."""
    everything, sweeps = np.ones((len(check.points.beliefs), check.cells.actions), np.bool_), 0
    while raise_each(check, quick.undecided() if quick else everything):
        sweeps += 1
        if sweeps == MOST_RAISES:
            raise_all(check)
    if any(abs(value) > LARGEST * MILLION for values in check.points.values for value in values):
        raise Refusal("a value is beyond 10,000,000, which polcert does not read: scale the rewards down")
    return check.points


def raise_each(check: PointCheck, pairs: NDArray[np.bool_]) -> bool:
    """Raises each value of these points and actions that fails to its backup, and tells whether there was one. An action that is not followed
    passes with the value of its vector."""
    is_raised = False
    for point, action in np.argwhere(pairs)[::-1].tolist():
        belief, mass = check.points.beliefs[point], check.masses[point]
        vector, value = check.vectors[action], mass * check.points.values[point][action]
        is_plain = not check.points.following[point][action] and value >= sum([weight * vector[state] for state, weight in belief.items()])
        excess = 0 if is_plain else check.excess(point, action)
        if excess > 0:
            check.points.values[point][action] += ceil_quotient(excess, mass * check.cells.step_scale * MILLION)
            is_raised = True
    check.charge_again()
    return is_raised


def raise_all(check: PointCheck) -> None:
    """Raises all values by the least constant with which they pass. The discount is below 1."""
    scale = check.cells.step_scale * (MILLION - check.cells.discount)
    constant = 0
    for point, mass in enumerate(check.masses):
        for action in range(check.cells.actions):
            constant = max(constant, ceil_quotient(check.excess(point, action), scale * mass))
    for values in check.points.values:
        values[:] = [value + constant for value in values]
    check.charge_again()
