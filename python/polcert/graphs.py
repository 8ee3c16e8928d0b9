"""Makes policy graphs of a solver's vectors: a node for each vector or for each belief, successors by what the nodes are worth.

Nodes that stand for a belief are linked again and again: each observation leads to the node that is worth most at the belief after it.
"""
from heapq import heappop, heappush
from typing import Dict, List, NamedTuple, Sequence, Tuple

import numpy as np
from scipy import sparse

from polcert.arrays import Floats, Integers, Matrix, stacked
from polcert.evaluation import ArrayGraph, Sweeper, evaluate, lowered, reached_nodes, renumbered
from polcert.graph_limits import GraphLimits
from polcert.reach import NODE_DECIMALS, Ahead, BeliefStep, Met, Point, Policy, Reach, best_of, met_vectors, points_after, together
from polcert.tokens import quantity
from polcert.watch import Watch

# How exactly the graphs are evaluated of which the best one is chosen, for values of size 1. A new node has to be worth more by so much of
# that.
ROUGH, LEAST_GAIN = 1e-5, 0.1
# So few beliefs are tried to have a node each, and then so many times more.
FEWEST_BELIEFS, LEAST_GROWTH = 5, 4
# So many rounds of linking in which the start is worth no more end it.
IDLE_ROUNDS = 2


class Candidate(NamedTuple):
    """A graph with the values of its nodes, the node that is worth most at the start, and how much that is."""

    worth: float
    root: int
    graph: ArrayGraph
    values: Floats


class Links(NamedTuple):
    """Nodes that stand for beliefs: the action and the belief of each, the successors that are given (-1: the best one), and values to
    begin with."""

    actions: Integers
    beliefs: Matrix
    given: Integers
    values: Floats


def candidate(reach: Reach, graph: ArrayGraph, values: Floats) -> Candidate:
    most, root = best_of(reach.start, values)
    return Candidate(float(most[0]), int(root[0]), graph, values)


def evaluated(reach: Reach, graph: ArrayGraph, values: Floats, precision: float, watch: Watch) -> Floats:
    """What the nodes are worth, from given values on, or if the watch is over, less."""
    found = evaluate(reach.arrays, graph, values, precision, watch.is_over)
    return lowered(Sweeper(reach.arrays), graph, found) if watch.is_over() else found


def better_candidate(one: Candidate, two: Candidate) -> Candidate:
    return two if two.worth > one.worth else one


def links_of_vectors(reach: Reach, met: Met, policy: Policy) -> Links:
    """A node for each vector that is met."""
    given = np.full((len(met.vectors), reach.observations), -1, dtype=np.int64)
    return Links(policy.actions[met.vectors], met.beliefs, given, policy.vectors[met.vectors])


class Unroller:
    """Follows the policy of vectors from the start, with a node for each belief that is met, the likelier ones first."""

    def __init__(self, reach: Reach, policy: Policy, most_nodes: int) -> None:
        self.reach, self.policy, self.most_nodes = reach, policy, most_nodes
        self.points: List[Point] = []
        self.given = np.full((most_nodes, reach.observations), -1, dtype=np.int64)
        self._node_of: Dict[bytes, int] = {}
        self._queue: List[Tuple[float, int]] = []

    def run(self, watch: Watch) -> Links:
        """Makes the nodes. An observation leads to the node of the belief after it, if that has one."""
        self.node(1.0, (self.reach.start.indices, self.reach.start.data), b"")
        while self._queue and not watch.is_over():
            watch.report(f"unrolling, {len(self.points):,} beliefs")
            count = min(together(len(self.points)), len(self._queue))
            self.follow([heappop(self._queue) for _ in range(count)])
        beliefs = stacked(self.points, self.reach.states)
        best = best_of(beliefs, self.policy.vectors)[1]
        return Links(self.policy.actions[best], beliefs, self.given[: len(best)], self.policy.vectors[best])

    def follow(self, taken: Sequence[Tuple[float, int]]) -> None:
        """Makes the nodes after some nodes, the likeliest first."""
        points, discount = [self.points[node] for _, node in taken], self.reach.arrays.discount
        best = best_of(stacked(points, self.reach.states), self.policy.vectors)[1]
        found = points_after(self.reach, points, self.policy.actions[best], NODE_DECIMALS)
        rows = [(taken[number][0] * belief.chance * discount, taken[number][1], z, belief) for number, z, belief in found]
        for weight, node, z, belief in sorted(rows, key=lambda row: row[:3]):
            self.given[node, z] = self.node(-weight, belief.point, belief.key)

    def node(self, weight: float, point: Point, key: bytes) -> int:
        """The node of a belief, a new one if there may be more; -1 if there is none."""
        if key not in self._node_of and len(self.points) < self.most_nodes:
            self._node_of[key] = len(self.points)
            heappush(self._queue, (-weight, len(self.points)))
            self.points.append(point)
        return self._node_of.get(key, -1)


class Linker:
    """Links nodes: an observation leads to the given node, or to the one that is worth most at the belief there."""

    def __init__(self, reach: Reach, links: Links) -> None:
        self.reach, self.links = reach, links
        rows = [(action, np.flatnonzero(links.actions == action)) for action in np.unique(links.actions).tolist()]
        self.ahead, self.nodes = Ahead(reach, links.beliefs, rows), dict(rows)

    def linked(self, values: Floats) -> ArrayGraph:
        links, successors = self.links, np.full_like(self.links.given, -1)
        for action, nodes in self.nodes.items():
            anywhere = self.reach.anywhere(action)
            successors[nodes[:, None], anywhere.observation[None, :]] = best_of(anywhere.joint, values)[1]
        for _, nodes, after in self.ahead:
            here = nodes[after.belief]
            is_open = links.given[here, after.observation] < 0
            successors[here[is_open], after.observation[is_open]] = best_of(after.joint[is_open], values)[1]
        return ArrayGraph(links.actions, np.where(links.given < 0, successors, links.given))


def linked_best(reach: Reach, links: Links, rounds: int, precision: float, watch: Watch) -> Candidate:
    """Chooses the successors by what the nodes are worth, as long as the start is worth more, and returns the best graph of these rounds."""
    linker, idle = Linker(reach, links), 0
    graph = linker.linked(links.values)
    best = candidate(reach, graph, evaluated(reach, graph, links.values, precision, watch))
    values = best.values
    for _ in range(rounds - 1):
        watch.report(f"{quantity(len(graph.actions), 'node')}, worth {best.worth:.6f}")
        before, graph = graph, linker.linked(values)
        if watch.is_over() or np.array_equal(graph.successors, before.successors):
            break
        values = evaluated(reach, graph, values, precision, watch)
        found = candidate(reach, graph, values)
        idle = 0 if found.worth > best.worth else idle + 1
        best = better_candidate(best, found)
        if idle == IDLE_ROUNDS:
            break
    return best


def graph_of_vectors(reach: Reach, policy: Policy, limits: GraphLimits, watch: Watch) -> ArrayGraph:
    """The best graph of a solver's vectors that is found: with a node for each vector, or for each of some beliefs; made better at the
    beliefs."""
    rough = ROUGH * max(1e-3, float(np.abs(policy.vectors).max()))
    gain = LEAST_GAIN * rough
    met = met_vectors(reach, policy, limits.nodes, limits.beliefs, watch)
    best, beliefs = linked_best(reach, links_of_vectors(reach, met, policy), limits.rounds, rough, watch), met.beliefs
    for size in unrolled_sizes(limits.nodes):
        if watch.is_over():
            break
        links = Unroller(reach, policy, size).run(watch)
        beliefs = sparse.vstack([met.beliefs, links.beliefs[: limits.points]], format="csr")
        found = linked_best(reach, links, limits.rounds, rough, watch)
        best = found if found.worth > best.worth + gain else best
        if len(links.actions) < size:
            break
    best = improved(Improver(reach, beliefs, gain), best, limits, rough, watch)
    return without_copies(best.graph, best.root)


def unrolled_sizes(most: int) -> List[int]:
    """How many beliefs have a node each in the graphs that are tried: more are not always better."""
    sizes = [most]
    while sizes[-1] >= LEAST_GROWTH * FEWEST_BELIEFS:
        sizes.append(sizes[-1] // LEAST_GROWTH)
    return sizes[::-1]


class Improver:
    """Finds nodes that are worth more at some beliefs than all nodes of a graph: an action, and the best node after each observation."""

    def __init__(self, reach: Reach, beliefs: Matrix, least_gain: float) -> None:
        self.reach, self.beliefs, self.least_gain = reach, beliefs, least_gain
        rows = np.arange(beliefs.shape[0])
        self.ahead = Ahead(reach, beliefs, [(action, rows) for action in range(len(reach.arrays.rewards))])

    def new_nodes(self, values: Floats) -> ArrayGraph:
        """The new nodes. They have no successor for an observation that can't come from any state."""
        most = best_of(self.beliefs, values)[0] + self.least_gain
        actions = np.full(len(most), -1, dtype=np.int64)
        successors = np.full((len(most), self.reach.observations), -1, dtype=np.int64)
        for step in self.ahead:
            self.back_up(step, values, (most, actions, successors))
        found = np.flatnonzero(actions >= 0)
        _, first = np.unique(np.column_stack([actions, successors])[found], axis=0, return_index=True)
        kept = found[np.sort(first)]
        return ArrayGraph(actions[kept], successors[kept])

    def back_up(self, step: BeliefStep, values: Floats, found: Tuple[Floats, Integers, Integers]) -> None:
        """Puts the action in at the beliefs at which it is worth more than what is found there."""
        (action, rows, after), (most, actions, successors), arrays = step, found, self.reach.arrays
        worth, best = best_of(after.joint, values)
        total = self.beliefs[rows] @ arrays.rewards[action] + arrays.discount * np.bincount(after.belief, worth, len(rows))
        is_better = total > most[rows]
        chosen, anywhere = rows[is_better], self.reach.anywhere(action)
        if len(chosen):
            most[chosen], actions[chosen], successors[chosen] = total[is_better], action, -1
            successors[chosen[:, None], anywhere.observation[None, :]] = best_of(anywhere.joint, values)[1]
            is_chosen = is_better[after.belief]
            successors[rows[after.belief[is_chosen]], after.observation[is_chosen]] = best[is_chosen]


def improved(improver: Improver, best: Candidate, limits: GraphLimits, precision: float, watch: Watch) -> Candidate:
    """Adds nodes that are worth more at the beliefs, and drops those that are not needed there any more: no belief gets worse."""
    reach, graph, values = improver.reach, best.graph, best.values
    for _ in range(limits.rounds):
        if watch.is_over():
            break
        new = improver.new_nodes(values)
        if not len(new.actions) or watch.is_over():
            break
        graph = ArrayGraph(*(np.concatenate(parts) for parts in zip(graph, new)))
        begin = np.concatenate([values, np.tile(values[best_of(reach.start, values)[1]], (len(new.actions), 1))])
        values = evaluated(reach, graph, begin, precision, watch)
        found = candidate(reach, graph, values)
        small = without_copies(graph, found.root)
        watch.report(f"{quantity(len(small.actions), 'node')}, worth {found.worth:.6f}")
        if len(small.actions) > limits.nodes:
            break
        best = better_candidate(best, found)
        graph, values = needed(graph, values, improver.beliefs)
    return best


def needed(graph: ArrayGraph, values: Floats, beliefs: Matrix) -> Tuple[ArrayGraph, Floats]:
    """The nodes that are best at one of the beliefs, and those that they lead to."""
    nodes = reached_nodes(graph, list(dict.fromkeys(best_of(beliefs, values)[1].tolist())))
    return renumbered(graph, nodes), values[nodes]


def without_copies(graph: ArrayGraph, root: int) -> ArrayGraph:
    """The same controller from a node on, which becomes node 0, with one node for those that do the same for ever."""
    kinds, count = np.unique(graph.actions, return_inverse=True)[1], 0
    while count < kinds.max() + 1:
        count = int(kinds.max()) + 1
        after = np.where(graph.successors < 0, -1, kinds[graph.successors])
        kinds = np.unique(np.column_stack([kinds, after]), axis=0, return_inverse=True)[1]
    first: Dict[int, int] = {}
    for node, kind in enumerate(kinds.tolist()):
        first.setdefault(kind, node)
    first[int(kinds[root])] = root
    leaders = np.array([first[kind] for kind in range(count)])
    one = ArrayGraph(graph.actions, np.where(graph.successors < 0, -1, leaders[kinds[graph.successors]]))
    return renumbered(one, reached_nodes(one, [root]))
