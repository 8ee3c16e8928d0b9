"""Beliefs that a policy of vectors reaches, with numpy and scipy: a belief is a row of a sparse matrix."""
from heapq import heapify, heappop, heappush, nsmallest
from typing import Any, Dict, Iterator, List, NamedTuple, Sequence, Set, Tuple

import numpy as np
from scipy import sparse

from polcert.arrays import Arrays, Floats, Integers, Matrix, SparseRow, joint_cells, stacked
from polcert.policies import Solved
from polcert.watch import Watch


# Beliefs of a smaller probability are not followed, and smaller weights of a belief that is followed are dropped.
LEAST_WEIGHT = 1e-9
# Beliefs that are the same to so many decimals get one node, or are followed once.
NODE_DECIMALS, FOLLOWED_DECIMALS = 3, 6
# So many beliefs are followed together: the likeliest ones.
TOGETHER = 64
# So many numbers are held at most for a block of rows.
BLOCK_NUMBERS = 2_000_000
# What follows beliefs is kept for so many weights.
KEPT_NUMBERS = 20_000_000
# So few rows are multiplied as dense ones.
FEW_ROWS = 8
# Rows are multiplied as dense ones if more than this part of their weights is above 0.
DENSE_PART = 0.2


class After(NamedTuple):
    """What follows an action at beliefs: rows, each for a belief and an observation that can come there."""

    belief: Integers
    observation: Integers
    # the probability of each end state together with the observation
    joint: Matrix


class Reach:
    """What follows the actions of a model at beliefs."""

    def __init__(self, arrays: Arrays) -> None:
        self.arrays = arrays
        self.states, self.observations = arrays.observing[0].shape
        self.start = sparse.csr_matrix(arrays.start[None, :])
        self._anywhere: Dict[int, After] = {}

    def after(self, action: int, beliefs: Matrix) -> After:
        """What follows an action at some beliefs, by Bayes' rule."""
        pairs, ends, weights = joint_cells(beliefs @ self.arrays.transitions[action], self.arrays.observing[action])
        is_there = weights > 0
        found, places = np.unique(pairs[is_there], return_inverse=True)
        joint = sparse.csr_matrix((weights[is_there], (places, ends[is_there])), shape=(len(found), self.states))
        return After(found // self.observations, found % self.observations, joint)

    def anywhere(self, action: int) -> After:
        """What follows an action if all states are equally likely: all observations that can come at all."""
        if action not in self._anywhere:
            uniform = sparse.csr_matrix(np.full((1, self.states), 1 / self.states))
            self._anywhere[action] = self.after(action, uniform)
        return self._anywhere[action]

    def blocks(self, action: int, rows: Integers) -> List[Integers]:
        """Rows in blocks for which what follows the action takes little memory."""
        size = max(1, BLOCK_NUMBERS // max(self.states, self.arrays.observing[action].nnz))
        return [rows[i : i + size] for i in range(0, len(rows), size)]


def best_of(beliefs: Matrix, values: Floats) -> Tuple[Floats, Integers]:
    """The most that a row of values is worth at each belief, and its number: the least one, of several."""
    count, states = beliefs.shape
    is_dense = count <= FEW_ROWS or beliefs.nnz > DENSE_PART * count * states
    most, best = np.zeros(count), np.zeros(count, dtype=np.int64)
    size, columns = max(1, BLOCK_NUMBERS // max(len(values), states)), values.T if is_dense else np.ascontiguousarray(values.T)
    for i in range(0, count, size):
        block = beliefs[i : i + size]
        worth = (block.toarray() if is_dense else block) @ columns
        best[i : i + size] = worth.argmax(axis=1)
        most[i : i + size] = worth[np.arange(len(worth)), best[i : i + size]]
    return most, best


class BeliefStep(NamedTuple):
    """An action at some rows of a matrix of beliefs, and what follows it there."""

    action: int
    rows: Integers
    after: After


class Ahead:
    """What follows actions at rows of a matrix of beliefs, computed once if that takes no more than so much memory."""

    def __init__(self, reach: Reach, beliefs: Matrix, rows: Sequence[Tuple[int, Integers]]) -> None:
        self.reach, self.beliefs = reach, beliefs
        self.blocks = [(action, block) for action, numbers in rows for block in reach.blocks(action, numbers)]
        self._kept: List[BeliefStep] = []
        self._size = 0

    def __iter__(self) -> Iterator[BeliefStep]:
        yield from self._kept
        for action, block in self.blocks[len(self._kept) :]:
            step = BeliefStep(action, block, self.reach.after(action, self.beliefs[block]))
            self._size += step.after.joint.nnz
            if self._size <= KEPT_NUMBERS:
                self._kept.append(step)
            yield step


# A belief of the frontier: its states and weights.
Point = SparseRow


class Follower(NamedTuple):
    """A belief after an action and an observation: its probability, and its key, which nearly the same beliefs share."""

    chance: float
    point: Point
    key: bytes


def followers(after: After, decimals: int) -> List[Follower]:
    """The beliefs of rows, without their least weights."""
    joint, counts = after.joint, np.diff(after.joint.indptr)
    chances = np.add.reduceat(joint.data, joint.indptr[:-1])
    weights = joint.data / np.repeat(chances, counts)
    whole = np.rint(weights * 10**decimals).astype(np.int32)
    points, keys = parts(joint, weights, weights > LEAST_WEIGHT), parts(joint, whole, whole > 0)
    whole_keys = (places.tobytes() + numbers.tobytes() for places, numbers in keys)
    return [Follower(*row) for row in zip(chances.tolist(), points, whole_keys)]


def parts(matrix: Matrix, numbers: Any, is_kept: Any) -> List[Tuple[Any, Any]]:
    """For each row of a matrix the columns and the numbers that are kept there."""
    ends = np.concatenate([[0], np.cumsum(is_kept)])[matrix.indptr].tolist()
    columns, numbers = matrix.indices[is_kept], numbers[is_kept]
    return [(columns[begin:end], numbers[begin:end]) for begin, end in zip(ends, ends[1:])]


def together(seen: int) -> int:
    """How many beliefs are followed together after so many were seen."""
    return min(TOGETHER, 1 + seen // TOGETHER)


class Frontier:
    """Beliefs that are still to be followed, with what each weighs: the likeliest ones come first."""

    def __init__(self, start: Point, most: int) -> None:
        self.left = most
        self._heap: List[Tuple[float, int, Point]] = [(-1.0, 0, start)]
        self._seen: Set[bytes] = set()

    def take(self) -> List[Tuple[float, Point]]:
        """The next beliefs that are followed together, few at first; none at the end."""
        count = min(together(len(self._seen)), self.left, len(self._heap))
        self.left -= count
        return [(-weight, point) for weight, _, point in (heappop(self._heap) for _ in range(count))]

    def add(self, weight: float, belief: Follower) -> None:
        if weight > LEAST_WEIGHT and belief.key not in self._seen:
            self._seen.add(belief.key)
            heappush(self._heap, (-weight, len(self._seen), belief.point))

    def trim(self) -> None:
        """Drops beliefs that can't be followed any more."""
        if len(self._heap) > 4 * self.left + 1000:
            self._heap = nsmallest(self.left, self._heap)
            heapify(self._heap)


class Policy(NamedTuple):
    """Vectors: the action of each, and its values, one row for each."""

    actions: Integers
    vectors: Floats


def policy_of(solved: Sequence[Solved]) -> Policy:
    """The policy of a solver's vectors."""
    return Policy(np.array([vector.action for vector in solved]), np.array([vector.values for vector in solved]))


def followed(reach: Reach, policy: Policy, most: int) -> Iterator[Tuple[List[Point], Integers]]:
    """Follows the policy of vectors from the start, the likeliest beliefs first: some beliefs at a time, and the best vector at each."""
    frontier = Frontier((reach.start.indices, reach.start.data), most)
    for taken in iter(frontier.take, []):
        points = [point for _, point in taken]
        best = best_of(stacked(points, reach.states), policy.vectors)[1]
        yield points, best
        for number, _, belief in points_after(reach, points, policy.actions[best], FOLLOWED_DECIMALS):
            frontier.add(taken[number][0] * belief.chance * reach.arrays.discount, belief)
        frontier.trim()


def points_after(reach: Reach, points: Sequence[Point], actions: Integers, decimals: int) -> Iterator[Tuple[int, int, Follower]]:
    """What follows an action at each belief: its number, an observation, and the belief after it."""
    for action in np.unique(actions).tolist():
        numbers = np.flatnonzero(actions == action)
        after = reach.after(action, stacked([points[i] for i in numbers], reach.states))
        yield from zip(numbers[after.belief].tolist(), after.observation.tolist(), followers(after, decimals))


class Met(NamedTuple):
    """Vectors that are the best ones at beliefs that their policy meets, and the likeliest belief of each."""

    vectors: Integers
    beliefs: Matrix


def met_vectors(reach: Reach, policy: Policy, most_vectors: int, most_beliefs: int, watch: Watch) -> Met:
    """The vectors that their policy meets: so many at most, and while so many beliefs are followed."""
    first: Dict[int, Point] = {}
    count, total = 0, len(policy.vectors)
    for points, best in followed(reach, policy, most_beliefs):
        count += len(points)
        for vector, point in zip(best.tolist(), points):
            if len(first) < most_vectors:
                first.setdefault(vector, point)
        watch.report(f"{count:,} beliefs followed, {len(first):,} of {total:,} vectors met")
        if len(first) == min(most_vectors, total) or watch.is_over():
            break
    return Met(np.array(list(first), dtype=np.int64), stacked(list(first.values()), reach.states))
