"""The points that cover the start, those that cover the beliefs that follow them, and so on: their values settle all together.

An action at a point is followed only if it is the best next action where the point covers a belief; the others keep their values.
"""
from typing import Dict, List, Tuple

import numpy as np
from scipy import sparse

from polcert.arrays import Floats, Integers, Matrix
from polcert.belief_nodes import Batch, BeliefNode, BeliefNodes
from polcert.evaluation import nearly_solved
from polcert.points import MOST_POINTS
from polcert.sawtooth import Growing, Sawtooth
from polcert.stopping import IsOver, Stopping

# What is left of a belief is charged at a corner only if it is more than this.
LEAST_LEFT = 1e-12
# Values have settled once none moves by more than this part of its size, or after so many choices of actions.
LEAST_MOVE, MOST_CHOICES = 1e-10, 200
# The most steps that find values for chosen actions, and sweeps after these; and how near they come, for values of size 1.
MOST_STEPS, MOST_SWEEPS, SOLVED = 2_000, 100, 1e-12


class Covers:
    """Beliefs that follow an action, as points taken so many times and what is left of them, in the order of the actions that they follow."""

    def __init__(self) -> None:
        # for each cover the row of the action that it follows, the observation, the point (-1 for none) and how often it is taken
        self.row, self.observation = Growing(np.int64), Growing(np.int64)
        self.point, self.times = Growing(np.int64), Growing(np.float64)
        # what is left: the cover, the state and the weight
        self.left, self.state, self.weight = Growing(np.int64), Growing(np.int64), Growing(np.float64)

    @property
    def count(self) -> int:
        return self.row.size

    def add(self, row: int, observations: Integers, points: Integers, times: Floats) -> None:
        self.row.extend(np.full(len(points), row))
        self.observation.extend(observations)
        self.point.extend(points)
        self.times.extend(times)

    def add_left(self, covers: Integers, states: Integers, weights: Floats) -> None:
        self.left.extend(covers)
        self.state.extend(states)
        self.weight.extend(weights)


class CoverGraph:
    """The points and corners that the start needs, in the order in which they are found, with a value for each action. Row 0 is the start;
    the others are the actions that are followed."""

    def __init__(self, nodes: BeliefNodes, upper: Sawtooth) -> None:
        self.nodes, self.upper, self.discount = nodes, upper, nodes.arrays.discount
        self.actions, states = upper.vectors.shape
        self.beliefs: List[BeliefNode] = []
        self._number: Dict[BeliefNode, int] = {}
        self._is_corner, self._corner = upper.is_corner(), np.full(states, -1)
        # for each belief the values of the actions, and the rows of those that are followed, else -1
        self.values, self.rows = Growing(np.float64, self.actions), Growing(np.int64, self.actions)
        # for each row the belief, the action and the reward at once
        self.row_belief, self.row_action, self.gains = Growing(np.int64), Growing(np.int64), Growing(np.float64)
        self.covers = Covers()
        # whether actions that are not followed have the values of the search, and whether no more are followed
        self._is_guess, self.is_closed = True, False
        self._add_row(-1, 0, 0.0)
        self._cover(0, np.zeros(1, np.int64), nodes.start.own, slice(0, 1))

    def _add_row(self, belief: int, action: int, gain: float) -> int:
        self.row_belief.extend([belief])
        self.row_action.extend([action])
        self.gains.extend([gain])
        return self.gains.size - 1

    def _cover(self, row: int, observations: Integers, batch: Batch, some: slice) -> None:
        """Adds the covers of some beliefs of a batch."""
        self.upper.look(batch)
        points = np.array([-1 if point < 0 else self._add(self.upper.points[point]) for point in batch.point[some].tolist()])
        weights, first = batch.weights[:, some], self.covers.count
        times, left = np.where(points < 0, 0.0, batch.times[some]), weights.copy()
        for column in np.flatnonzero(points >= 0).tolist():
            point = self.beliefs[points[column]].own
            left[np.searchsorted(batch.states, point.states), column] -= times[column] * point.weights[:, 0]
        place, column = np.nonzero((left > LEAST_LEFT * weights.sum(axis=0)).T)[::-1]
        states = batch.states[place]
        for state in np.unique(states[self._is_corner[states] & (self._corner[states] < 0)]).tolist():
            self._corner[state] = self._add(self.nodes.at_state(state))
        self.covers.add(row, observations, points, times)
        self.covers.add_left(first + column, states, left[place, column])

    def _add(self, belief: BeliefNode) -> int:
        """The number of a point; -1 if there are as many as a file may have."""
        if belief not in self._number:
            if len(self.beliefs) >= MOST_POINTS:
                return -1
            self._number[belief] = len(self.beliefs)
            self.beliefs.append(belief)
            values = self.by_vectors(belief)
            self.values.extend([np.minimum(values, belief.most) if self._is_guess and belief.most is not None else values])
            self.rows.extend(np.full((1, self.actions), -1))
        return self._number[belief]

    def by_vectors(self, belief: BeliefNode) -> Floats:
        """What each action is worth at most at a belief by the vectors."""
        return np.asarray(self.upper.vectors[:, belief.own.states] @ belief.own.weights[:, 0])

    def reset_others(self) -> None:
        """Takes the vectors' values for actions that are not followed, from now on, so that all values follow from each other and these."""
        self._is_guess = False
        for number, belief in enumerate(self.beliefs):
            others = self.rows.all[number] < 0
            self.values.all[number, others] = self.by_vectors(belief)[others]

    # Values

    def worths(self, first: int = 0) -> Floats:
        """What covers are worth with each next action, from one on (covers by A)."""
        covers, values = self.covers, self.values.all
        charges, corners = self.upper.vectors.copy(), np.flatnonzero(self._corner >= 0)
        charges[:, corners] = np.minimum(charges[:, corners], values[self._corner[corners]].T)
        begin = int(np.searchsorted(covers.left.all, first))
        places = covers.left.all[begin:] - first, covers.state.all[begin:]
        left = sparse.csr_matrix((covers.weight.all[begin:], places), shape=(covers.count - first, charges.shape[1]))
        worths, points = left @ charges.T, covers.point.all[first:]
        has_point = points >= 0
        worths[has_point] += covers.times.all[first:][has_point, None] * values[points[has_point]]
        return np.asarray(worths)

    def backups(self) -> Floats:
        """What each row is worth if all covers have the best next action."""
        later = np.bincount(self.covers.row.all, self.worths().max(axis=1), self.gains.size)
        found = self.gains.all + self.discount * later
        return np.asarray(found)

    @property
    def start_worth(self) -> float:
        return float(self.worths()[0].max())

    def row_values(self) -> Floats:
        """The values of the rows; that of the start is 0."""
        found = self.values.all[self.row_belief.all[1:], self.row_action.all[1:]]
        return np.concatenate([[0.0], found])

    def set_row_values(self, found: Floats) -> None:
        self.values.all[self.row_belief.all[1:], self.row_action.all[1:]] = found[1:]

    def settle(self, is_over: IsOver) -> None:
        """Follows the best next actions, and finds values that follow from each other with these: an upper bound, also if it ends early."""
        for _ in range(MOST_CHOICES):
            best = self._follow_best(is_over)
            before = self.row_values()
            found = self._solved(best, is_over)
            self.set_row_values(found)
            moved = abs(found - before)[1:] / (1 + abs(found[1:]))
            if is_over() or moved.max(initial=0.0) <= LEAST_MOVE:
                break
        found = self.row_values()
        above = (self.backups() - found)[1:].max(initial=0.0)
        self.set_row_values(found + above / (1 - self.discount))

    def _follow_best(self, is_over: IsOver) -> Integers:
        """Follows the best next action of each cover at its point and its corners, until there is nothing new. Returns these actions."""
        first, best = 0, np.zeros(0, np.int64)
        while first < self.covers.count and not self.is_closed and not is_over():
            new = self.worths(first).argmax(axis=1)
            best = np.concatenate([best, new])
            pairs = self._needed(best, first)
            first = len(best)
            for belief, action in np.unique(pairs[self.rows.all[pairs[:, 0], pairs[:, 1]] < 0], axis=0).tolist():
                if is_over():
                    break
                step = self.nodes.step(self.beliefs[belief])
                self.rows.all[belief, action] = row = self._add_row(belief, action, float(step.gains[action]))
                some = step.columns(action)
                self._cover(row, step.observations[some], step.batch, some)
        return np.asarray(np.concatenate([best, self.worths(first).argmax(axis=1)]) if first < self.covers.count else best)

    def _needed(self, best: Integers, first: int) -> Integers:
        """The points and corners of covers, from one on, with their best next actions: pairs."""
        covers = self.covers
        begin = int(np.searchsorted(covers.left.all, first))
        left = covers.left.all[begin:]
        points, corners = covers.point.all[first : len(best)], self._corner[covers.state.all[begin:]]
        pairs = np.concatenate([np.column_stack([points, best[first:]]), np.column_stack([corners, best[left]])])
        return np.asarray(pairs[pairs[:, 0] >= 0])

    def _solved(self, best: Integers, is_over: IsOver) -> Floats:
        """The values of the rows with these next actions."""
        matrix, constant = self._equations(best)
        least = SOLVED * (1 + float(abs(constant).max()) / (1 - self.discount))

        def step(values: Floats) -> Floats:
            return np.asarray(constant + matrix @ values)

        values = nearly_solved(step, self.row_values(), Stopping(least, MOST_STEPS, is_over))
        for _ in range(MOST_SWEEPS):  # (the method may have found none that are better)
            before, values = values, step(values)
            if abs(values - before).max() <= least:
                break
        return values

    def _equations(self, best: Integers) -> Tuple[Matrix, Floats]:
        """The matrix and the constant of a step: each row by the rows that its covers need, and by what does not change."""
        covers, values, vectors = self.covers, self.values.all, self.upper.vectors
        cover, points = np.flatnonzero(covers.point.all >= 0), covers.point.all[covers.point.all >= 0]
        left, state = covers.left.all, covers.state.all
        corners, charges = self._corner[state], vectors[best[left], state]
        at_corner = np.where(corners < 0, np.inf, values[corners, best[left]]) if len(values) else np.full(len(left), np.inf)
        belief = np.concatenate([points, np.where(at_corner < charges, corners, -1)])
        action = np.concatenate([best[cover], best[left]])
        amount = self.discount * np.concatenate([covers.times.all[cover], covers.weight.all])
        known = np.concatenate([values[points, best[cover]], np.minimum(at_corner, charges)])
        source = covers.row.all[np.concatenate([cover, left])]
        target = np.where(belief < 0, -1, self.rows.all[belief, action]) if len(values) else np.full(len(belief), -1)
        is_row = target >= 0
        matrix = sparse.csr_matrix((amount[is_row], (source[is_row], target[is_row])), shape=(self.gains.size,) * 2)
        constant = np.bincount(source[~is_row], (amount * known)[~is_row], self.gains.size)
        return matrix, np.asarray(self.gains.all + constant)
