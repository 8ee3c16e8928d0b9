"""Beliefs that a solver meets, in numpy: each kept once, with the beliefs that follow it and the bounds that were found there last."""
from collections import OrderedDict
from typing import Dict, List, Optional, Tuple

import numpy as np
from scipy import sparse

from polcert.arrays import Arrays, Floats, Integers, cells_of_rows
from polcert.informed import observations_that_can_come
from polcert.tokens import MILLION

# What floating point may take off a whole number of millionths.
NOISE = 1e-6
# What follows beliefs is kept up to so many numbers, else forgotten for those that were not visited for longest.
MOST_NUMBERS = 60_000_000


class Batch:
    """Weights over some states, which need not sum to one: a column for each belief, and bounds of each as they were found last."""

    __slots__ = (
        "states", "weights", "low", "vector", "seen_vectors", "rises", "high", "base", "point", "times", "seen_changes", "falls",
    )

    def __init__(self, states: Integers, weights: Floats) -> None:
        """`states` are M states in order, `weights` is M by K."""
        count = weights.shape[1]
        self.states, self.weights = states, weights
        # the best lower vector (K) and its worth, of the vectors before `seen_vectors`, with their values after so many rises
        self.low, self.vector = np.full(count, -np.inf), np.zeros(count, np.int64)
        self.seen_vectors, self.rises = 0, -1
        # the upper bound (K) and the worth of each action by the vectors alone (A by K); the point that covers the belief best, -1 for none,
        # and how often; as they were after so many changes of points, and so many falls of the corners
        self.high, self.base = np.full(count, np.inf), np.zeros((0, count))
        self.point, self.times = np.full(count, -1), np.zeros(count)
        self.seen_changes, self.falls = 0, -1


class BeliefStep:
    """All actions at a belief: their expected rewards (A), and the beliefs that can follow, as a batch whose columns sum to their
    probabilities. The columns are in the order of the actions, and for each action in that of the observations."""

    __slots__ = ("gains", "begins", "observations", "batch", "masses", "children")

    def __init__(self, gains: Floats, begins: Integers, observations: Integers, batch: Batch) -> None:
        """`begins` has the first column of each action, and the end after the last one."""
        self.gains, self.begins, self.observations, self.batch = gains, begins, observations, batch
        self.masses = batch.weights.sum(axis=0)
        self.children: List[Optional["BeliefNode"]] = [None] * len(observations)

    def columns(self, action: int) -> slice:
        return slice(int(self.begins[action]), int(self.begins[action + 1]))

    def sums(self, worths: Floats) -> Floats:
        """The sum of each action's columns."""
        return np.asarray(np.add.reduceat(worths, self.begins[:-1]))


class BeliefNode:
    """A belief with what its actions are worth at most, and what follows them (forgotten if there is little room)."""

    __slots__ = ("own", "whole", "point", "most", "step")

    def __init__(self, states: Integers, weights: Floats, whole: Optional[Integers] = None) -> None:
        """`whole` are millionths of which the weights are made."""
        self.own, self.whole = Batch(states, weights[:, None]), whole
        # its number as a point of the upper bound, -1 for none
        self.point = -1
        # an upper bound on what each action is worth (A), once it is asked for
        self.most: Optional[Floats] = None
        self.step: Optional[BeliefStep] = None


class BeliefNodes:
    """The beliefs of a model that were met so far."""

    def __init__(self, arrays: Arrays) -> None:
        self.arrays, self.actions = arrays, len(arrays.rewards)
        self._known: Dict[Tuple[bytes, bytes], BeliefNode] = {}
        self._recent: "OrderedDict[int, Tuple[BeliefNode, int]]" = OrderedDict()
        self._numbers = 0
        self._possible = observations_that_can_come(arrays)
        self._anywhere: Optional[BeliefStep] = None
        # one action after the other: end states by start state (S by A * S), observations by end state (A * S by Z)
        self._transitions = sparse.hstack(arrays.transitions, format="csr")
        self._observing = sparse.vstack(arrays.observing, format="csr")
        self.start = BeliefNode(np.flatnonzero(arrays.start), arrays.start[arrays.start > 0])

    def rounded(self, states: Integers, weights: Floats) -> BeliefNode:
        """The nearest belief of millionths to weights, which need not sum to one: each is rounded down."""
        whole = (weights * (MILLION / weights.sum()) + NOISE).astype(np.int64)
        kept = whole > 0
        return self.of_whole(states[kept], whole[kept])

    def of_whole(self, states: Integers, whole: Integers) -> BeliefNode:
        """The belief of millionths, which need not sum to a million."""
        whole = whole if len(whole) > 1 else np.array([MILLION])
        key = states.tobytes(), whole.tobytes()
        if key not in self._known:
            self._known[key] = BeliefNode(states, whole / whole.sum(), whole)
        return self._known[key]

    def at_state(self, state: int) -> BeliefNode:
        return self.of_whole(np.array([state]), np.array([MILLION]))

    def step(self, node: BeliefNode) -> BeliefStep:
        """What the actions do at a belief, computed on first use."""
        if node.step is None:
            node.step = self._step(node.own.states, node.own.weights[:, 0])
            self._keep(node, node.step.batch.weights.size)
        return node.step

    def visit(self, node: BeliefNode) -> None:
        """Takes note that a node was visited, so that others are forgotten first."""
        if id(node) in self._recent:
            self._recent.move_to_end(id(node))

    def _keep(self, node: BeliefNode, size: int) -> None:
        self._recent[id(node)] = node, size
        self._numbers += size
        while self._numbers > MOST_NUMBERS and len(self._recent) > 1:
            oldest, freed = self._recent.popitem(last=False)[1]
            oldest.step = None
            self._numbers -= freed

    def child(self, step: BeliefStep, column: int) -> BeliefNode:
        """The belief after an observation, given by its column, in millionths."""
        child = step.children[column]
        if child is None:
            child = step.children[column] = self.rounded(step.batch.states, step.batch.weights[:, column])
        return child

    def anywhere(self) -> BeliefStep:
        """What the actions do if all states are equally likely. Their observations are all that can come from any state."""
        if self._anywhere is None:
            states = np.arange(self.arrays.rewards.shape[1])
            self._anywhere = self._step(states, np.full(len(states), 1 / len(states)))
        return self._anywhere

    def possible(self, action: int) -> Integers:
        """The observations that can come from any state."""
        return self._possible[action]

    def _step(self, states: Integers, weights: Floats) -> BeliefStep:
        count, observations = len(self.arrays.start), self._observing.shape[1]
        ends, arrived, repeats = cells_of_rows(self._transitions, states)
        sums = np.bincount(ends, arrived * np.repeat(weights, repeats), self.actions * count)
        places = np.flatnonzero(sums)
        seen, chances, repeats = cells_of_rows(self._observing, places)
        places, sums = np.repeat(places, repeats), np.repeat(sums[places], repeats)
        after, columns = np.unique(places // count * observations + seen, return_inverse=True)
        found, rows = np.unique(places % count, return_inverse=True)
        joint = np.zeros((len(found), len(after)))
        joint[rows, columns] = chances * sums
        begins = np.searchsorted(after, observations * np.arange(self.actions + 1))
        return BeliefStep(self.arrays.rewards[:, states] @ weights, begins, after % observations, Batch(found, joint))
