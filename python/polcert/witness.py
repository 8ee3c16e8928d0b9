"""A policy graph for a solver's own vectors: the witness that polcert asks for, so that a yes holds of the policy that runs these vectors.

Each vector is a node, with its own values. A vector is *backed* if it has a successor among the vectors for each observation, such that its
values are at most the worth of one step, in every state. Rounded vectors are short by a little: `polcert lower` takes a constant off.
"""
from itertools import islice, product
from typing import Dict, Iterator, List, NamedTuple, Optional, Sequence, Tuple

import numpy as np
from scipy import sparse

from polcert.arrays import Floats, Integers, Matrix, stacked
from polcert.command import Refusal
from polcert.evaluation import ActionBackup
from polcert.files import Graph
from polcert.policies import Solved
from polcert.reach import Point, Reach, best_of, followed, policy_of
from polcert.watch import Watch

# By how much a vector may be short of one step, if nothing else is said: this part of the greatest value.
USUAL_PART = 1e-4
# Successors are chosen at beliefs: so many that the policy of the vectors meets, those in one state, and so many in two; so many for one
# vector.
MOST_MET, MOST_BETWEEN, MOST_OF_A_VECTOR = 2_000, 500, 10
# A step of the search for successors counts as at least so many tries.
LEAST_STEP = 500
# So many numbers are kept of what vectors add to the worth of actions.
MOST_KEPT = 20_000_000
LEAST_GAIN = 1e-12


class Choice(NamedTuple):
    """How short a vector is of one step at the worst state, and its successors: one for each observation that can come."""

    short: float
    successors: Tuple[int, ...]


class Witness(NamedTuple):
    """A graph with a node for each vector that is kept, the numbers of these and of the others, and how short one is at most."""

    graph: Graph
    kept: List[int]
    left_out: List[int]
    short: float


def find_witness(reach: Reach, solved: Sequence[Solved], within: Optional[float], tries: int, watch: Watch) -> Witness:
    """A graph in which each vector is short of one step by at most `within`. Vectors that no successors back so far are left out, the worst
    one first. For a vector so many successors are tried, times the states; only those that are best at beliefs, if these tries are too few
    for each vector and observation."""
    most = USUAL_PART * max(abs(value) for vector in solved for value in vector.values) if within is None else within
    search, kept = WitnessSearch(reach, solved, tries), list(range(len(solved)))
    choices: Dict[int, Choice] = {}
    while kept:
        for n in kept:
            if n not in choices:
                choices[n] = search.choice(n, np.array(kept))
                watch.report(f"{len(choices):,} of {len(kept):,} vectors have successors")
        worst = max(kept, key=lambda n: choices[n].short)
        if choices[worst].short <= most + LEAST_GAIN:
            break
        kept.remove(worst)
        choices = {n: choices[n] for n in kept if worst not in choices[n].successors}
    if not kept:
        raise Refusal(f"no successors back a vector within {most:.6f} of one step: let --within be larger")
    left_out = sorted(set(range(len(solved))) - set(kept))
    return Witness(search.graph(kept, choices), kept, left_out, max(0.0, *(choices[n].short for n in kept)))


class WitnessSearch:
    """Chooses the successors of vectors: those that are best at beliefs where the vector is best, and better ones by branch and bound."""

    def __init__(self, reach: Reach, solved: Sequence[Solved], tries: int) -> None:
        self.reach, self.policy, self.tries = reach, policy_of(solved), tries
        self.values = np.vstack([self.policy.vectors, np.zeros(reach.states)])
        self.backups = {action: ActionBackup(reach.arrays, action) for action in np.unique(self.policy.actions).tolist()}
        self.seen = {action: reach.anywhere(action).observation for action in self.backups}
        self.beliefs = self._beliefs()
        self._added: Dict[Tuple[int, int], Floats] = {}

    def _beliefs(self) -> List[Matrix]:
        """Beliefs at which each vector is the best one; that in which all states are equally likely for a vector without any."""
        points: List[List[Point]] = [[] for _ in self.policy.vectors]
        between = list(islice(beliefs_between(self.reach.states), MOST_BETWEEN))
        simple = [sparse.identity(self.reach.states, format="csr"), *([stacked(between, self.reach.states)] if between else [])]
        for found, best in followed(self.reach, self.policy, MOST_MET):
            for n, point in zip(best.tolist(), found):
                points[n].append(point)
        for beliefs in simple:
            for row, n in enumerate(best_of(beliefs, self.policy.vectors)[1].tolist()):
                points[n].append((beliefs[row].indices, beliefs[row].data))
        uniform = np.arange(self.reach.states), np.full(self.reach.states, 1 / self.reach.states)
        return [stacked(found[:MOST_OF_A_VECTOR] or [uniform], self.reach.states) for found in points]

    def choice(self, n: int, kept: Integers) -> Choice:
        """The best successors that are found for a vector, among those that are kept."""
        action = int(self.policy.actions[n])
        found = np.unique(self.best_successors(action, self.beliefs[n], kept), axis=0)
        short = self.short(n, found)
        best = Choice(float(short.min()), tuple(found[short.argmin()].tolist()))
        is_small = len(kept) * found.shape[1] * self.reach.states <= self.tries
        return Branching(self, n, kept, best).run() if is_small else best

    def best_successors(self, action: int, beliefs: Matrix, kept: Integers) -> Integers:
        """For each belief and each observation the vector that is best at the belief after it; or at this belief, if it can't come here."""
        vectors, seen, after = self.policy.vectors[kept], self.seen[action], self.reach.after(action, beliefs)
        here = best_of(beliefs, vectors)[1]
        successors = np.repeat(kept[here][:, None], len(seen), axis=1)
        successors[after.belief, np.searchsorted(seen, after.observation)] = kept[best_of(after.joint, vectors)[1]]
        return successors

    def short(self, n: int, successors: Integers) -> Floats:
        """How short a vector is of one step at the worst state, for each row of successors."""
        action = int(self.policy.actions[n])
        rows = np.full((len(successors), self.reach.observations), -1, dtype=np.int64)
        rows[:, self.seen[action]] = successors
        worst: Floats = (self.policy.vectors[n] - self.backups[action].worth(self.values, rows)).max(axis=1)
        return worst

    def added(self, action: int, z: int) -> Floats:
        """What each vector adds to the worth of an action in each state, if it follows an observation."""
        if (action, z) not in self._added:
            if (len(self._added) + 1) * self.policy.vectors.size > MOST_KEPT:
                self._added.clear()
            arrays = self.reach.arrays
            chances = arrays.observing[action][:, z].toarray().ravel()
            self._added[action, z] = arrays.discount * (arrays.transitions[action] @ (self.policy.vectors * chances).T).T
        return self._added[action, z]

    def graph(self, kept: Sequence[int], choices: Dict[int, Choice]) -> Graph:
        """The graph of these choices. A node has no successor for an observation that can't come from any state."""
        node, rows = {n: number for number, n in enumerate(kept)}, []
        actions = self.policy.actions[list(kept)].tolist()
        for n, action in zip(kept, actions):
            successors = dict(zip(self.seen[action].tolist(), choices[n].successors))
            rows.append([node[successors[z]] if z in successors else None for z in range(self.reach.observations)])
        return Graph(actions, rows)


class Branching:
    """Branch and bound over the successors of a vector, one observation after another, until the search has taken long."""

    def __init__(self, search: WitnessSearch, n: int, kept: Integers, best: Choice) -> None:
        action = int(search.policy.actions[n])
        self.best, self.kept, self.left = best, kept, search.tries
        self.step = max(LEAST_STEP, len(kept) * search.reach.states)
        self.added = [search.added(action, z)[kept] for z in search.seen[action].tolist()]
        self.first = search.policy.vectors[n] - search.reach.arrays.rewards[action]
        most = [np.zeros(search.reach.states)]
        for added in reversed(self.added):
            most.append(most[-1] + added.max(axis=0))
        self.most = most[::-1]  # of the observations from one on

    def run(self) -> Choice:
        branches = [self.branch((), self.first)]
        while branches:
            found = next(branches[-1], None)
            if found is None:
                branches.pop()
            elif len(found[0]) == len(self.added):
                self.best = Choice(float(found[1].max()), found[0])
            else:
                branches.append(self.branch(*found))
        return self.best

    def branch(self, successors: Tuple[int, ...], short: Floats) -> Iterator[Tuple[Tuple[int, ...], Floats]]:
        """All successors for the next observation, the most hopeful first, and how short the vector is with each so far, in each state."""
        added, most = self.added[len(successors)], self.most[len(successors) + 1]
        self.left -= self.step
        least = (short - added - most).max(axis=1)
        for m in np.argsort(least, kind="stable").tolist():
            if least[m] >= self.best.short - LEAST_GAIN or self.left < 0:
                return
            yield (*successors, int(self.kept[m])), short - added[m]


def beliefs_between(states: int) -> Iterator[Point]:
    """Beliefs between two states."""
    for part, state, other in product((0.5, 0.75), range(states), range(states)):
        if state != other:
            yield np.array([state, other]), np.array([part, 1 - part])
