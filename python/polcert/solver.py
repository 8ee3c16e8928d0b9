"""Heuristic search value iteration in numpy, with the graph of its backups.

Source: Smith and Simmons, Point-based POMDP algorithms: improved analysis and implementation, UAI 2005 (HSVI2). The lower vectors are the
nodes of a policy graph. From time to time their values rise together to what that graph is worth, and the values of all points of the upper
bound fall together, by the covers that they have, which a backup at a time does slowly.
"""
from typing import Callable, Dict, List, NamedTuple, Optional

import numpy as np

from polcert.arrays import Arrays, Floats
from polcert.belief_nodes import BeliefNode, BeliefNodes
from polcert.covers import CoverGraph
from polcert.files import MOST_NODES
from polcert.lower_vectors import LowerVectors
from polcert.sawtooth import Sawtooth
from polcert.stopping import IsOver, spent_seconds

# A trial adds at most so many vectors.
MOST_DEPTH = 300
# A trial looks for gaps below this part of the start's.
TRIAL_PART = 0.5
# Values rise for at most this part of the time, by so many sweeps at once.
RISING_PART, RISING_SWEEPS = 0.03, 10
# Successors are chosen again for at most this part of the time, and for less if that did not help last; at the end as long as it helps.
RELINKING_PART, IDLE_PART, LAST_PART = 0.2, 0.05, 0.1
# Corners are backed up for this part of the time if there are at most so many states; else those alone that are met.
CORNER_PART, MOST_CORNERS = 0.03, 300
# The values of points fall together for this part of the time; vectors are added at these points for that, for so many seconds at once.
FALLING_PART, ADDING_PART, ADDING_SECONDS = 0.15, 0.05, 1.0
# Up to so many vectors and points together the time does not decide which work is done after a trial.
SMALL = 100
# Corners are charged again if they fell by this part of the gap.
CHARGE_PART = 0.002
# A search has settled if so many trials move neither bound by more than this part of its size.
SETTLED_TRIALS, LEAST_MOVE = 40, 1e-9


class Limits(NamedTuple):
    """When a search ends: after so many seconds, if the gap is this part of the lower bound, or with so many points. (It ends too if the
    vectors are as many as polcert reads nodes.)"""

    seconds: float
    gap: float
    points: float = float("inf")


class Solver:
    """Both bounds of a model, and the trials that bring them together."""

    def __init__(self, arrays: Arrays, vectors: Floats) -> None:
        """`vectors` is A by S: an upper bound, such as the informed one."""
        self.arrays, self.nodes = arrays, BeliefNodes(arrays)
        self.start = self.nodes.start
        self.lower, self.upper = LowerVectors(self.nodes), Sawtooth(vectors)
        # the states, if there are few
        self.corners = [self.nodes.at_state(state) for state in range(len(arrays.start))] if len(arrays.start) <= MOST_CORNERS else []
        self.trials = 0
        # the points that the start needed when values fell last: vectors are added there, in turn
        self._needed: List[BeliefNode] = []
        # when the search began, and the time that was spent with each kind of work
        self._begin = spent_seconds()
        self._spent: Dict[str, float] = {}
        self._relinking_part = RELINKING_PART
        self._is_over: IsOver = lambda: False

    @property
    def low(self) -> float:
        return self.lower.value(self.start)

    @property
    def high(self) -> float:
        return max(self.low, self.upper.value(self.start))

    @property
    def gap(self) -> float:
        """The gap as a part of the lower bound."""
        return (self.high - self.low) / max(1e-9, abs(self.low))

    def run(self, limits: Limits, is_stopped: IsOver, report: Callable[["Solver"], None]) -> None:
        """Searches until a limit is reached, nothing moves any more, or it is stopped. `report` is called first, and after each trial."""
        self._begin, before = spent_seconds(), (0.0, 0.0)
        begin = self._begin
        self._is_over = lambda: is_stopped() or spent_seconds() > begin + (1 - LAST_PART) * limits.seconds
        report(self)
        while not self._is_over() and self.gap > limits.gap and self.has_room(limits):
            self.trial()
            self.settle()
            report(self)
            if self.trials % SETTLED_TRIALS == 0:
                if all(abs(x - y) <= LEAST_MOVE * (1 + abs(x)) for x, y in zip((self.low, self.high), before)):
                    break
                before = self.low, self.high
        self._is_over = lambda: is_stopped() or spent_seconds() > begin + limits.seconds
        while self.gap > limits.gap and not self._is_over() and self.lower.relink(self._is_over):
            report(self)

    def has_room(self, limits: Limits) -> bool:
        return self.lower.count + MOST_DEPTH <= MOST_NODES and self.upper.count < limits.points

    def settle(self) -> None:
        """Does other work than trials, each kind for a part of the time since the search began."""
        self.share(CORNER_PART, self.back_up_corners)
        self.share(FALLING_PART, self.fall)
        self.share(ADDING_PART, self.add_vectors)
        self.share(RISING_PART, self.rise)
        self.share(self._relinking_part, self.relink)

    def share(self, part: float, work: Callable[[], None]) -> None:
        """Does work, unless it has taken more than this part of the time so far. While there is little, the time does not decide: vectors are
        not linked again, and all else is done."""
        before, name = spent_seconds(), work.__name__
        spent, is_small = self._spent.get(name, 0.0), self.lower.count + self.upper.count <= SMALL
        if (work != self.relink if is_small else spent <= part * (before - self._begin)) and not self._is_over():
            work()
            self._spent[name] = spent + spent_seconds() - before

    def rise(self) -> None:
        """Lets the values of the vectors rise."""
        self.lower.rise(RISING_SWEEPS)

    def relink(self) -> None:
        """Links the vectors again."""
        self._relinking_part = RELINKING_PART if self.lower.relink(self._is_over) else IDLE_PART

    def back_up_corners(self) -> None:
        for node in self.corners:
            self.best_action(node)
            if self._is_over():
                break
        self.upper.lower_corners(CHARGE_PART * (self.high - self.low))

    def fall(self) -> None:
        """Lets the values of the points that the start needs fall together."""
        late = spent_seconds() + max(1.0, FALLING_PART * (spent_seconds() - self._begin))
        graph = CoverGraph(self.nodes, self.upper)
        graph.settle(lambda: self._is_over() or spent_seconds() > late)
        self.take(graph)

    def take(self, graph: CoverGraph) -> None:
        """Lowers the upper bound to the values of a graph."""
        for node, values in zip(graph.beliefs, graph.values.all):
            node.most = values.copy() if node.most is None else np.minimum(node.most, values)
            self.upper.lower(node, node.most)
        self.upper.lower_corners()
        self._needed = [node for node in graph.beliefs if len(node.own.states) > 1]

    def add_vectors(self) -> None:
        """Adds vectors at the points that the start needs."""
        late = spent_seconds() + ADDING_SECONDS
        for _ in range(len(self._needed)):
            node = self._needed.pop()
            self._needed.insert(0, node)
            self.back_up(node)
            if spent_seconds() > late or self._is_over():
                break

    def trial(self) -> None:
        """Follows the best action by the upper bound and the observation with the widest gap, and backs up on the way back."""
        path: List[BeliefNode] = []
        node: Optional[BeliefNode] = self.nodes.rounded(self.start.own.states, self.start.own.weights[:, 0])
        wide = TRIAL_PART * (self.high - self.low)
        while node is not None and len(path) < MOST_DEPTH and not self._is_over():
            path.append(node)
            wide /= self.arrays.discount or 1
            node = self.widest(node, wide)
        for node in path[::-1]:
            self.back_up(node)
        self.upper.lower_corners(CHARGE_PART * (self.high - self.low))
        self.trials += 1

    def widest(self, node: BeliefNode, wide: float) -> Optional[BeliefNode]:
        """The belief after the best action whose gap is furthest above `wide`, weighted by its observation; None if no gap is."""
        self.nodes.visit(node)
        action, step = self.best_action(node), self.nodes.step(node)
        self.lower.look(step.batch)
        some = step.columns(action)
        excess = (step.batch.high - step.batch.low - wide * step.masses)[some]
        column = int(excess.argmax())
        return self.nodes.child(step, some.start + column) if excess[column] > 0 else None

    def best_action(self, node: BeliefNode) -> int:
        """The action that is worth most by the upper bound, which is lowered at the belief."""
        step = self.nodes.step(node)
        self.upper.look(step.batch)
        worths = step.gains + self.arrays.discount * step.sums(step.batch.high)
        node.most = worths if node.most is None else np.minimum(node.most, worths)
        self.upper.lower(node, node.most)
        return int(node.most.argmax())

    def back_up(self, node: BeliefNode) -> None:
        """Backs both bounds up at a belief."""
        self.best_action(node)
        self.lower.back_up(node)
