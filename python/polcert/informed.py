"""The fast informed bound in numpy: a vector for each action, an upper bound on what any policy earns that sees the observations alone.

Source: Hauskrecht, Value-function approximations for partially observable Markov decision processes, JAIR 2000.
"""
from typing import Callable, List, NamedTuple, Tuple

import numpy as np
from scipy import sparse

from polcert.arrays import Arrays, Floats, Integers, Matrix, joint_cells
from polcert.command import say
from polcert.signals import program_name
from polcert.stopping import IsOver, Stopping
from polcert.tokens import MILLION
from polcert.values import ROUNDS, TOLERANCE

# Takes a vector for each action (A by S); returns what each action earns at once, and after that with the best of these vectors.
Backup = Callable[[Floats], Floats]
# If more products of a transition's and an observation's probability are above 0, only the bound of a policy that sees the states is found.
MOST_PRODUCTS = 5_000_000
# So many products are added up at most to round values up. If that is not enough, a raise adds a few millionths.
MOST_ROUNDING = 5_000_000_000
# What floating point may add to a value, in millionths.
NOISE = 1e-6


class Joint(NamedTuple):
    """The transitions of an action by what is observed: a row for each start state and observation that can follow, with the probability of
    the observation and each end state."""

    rows: Matrix
    # the first row of each start state
    begins: Integers

    def sums(self, values: Floats) -> Floats:
        """The sum of the values of the rows of each start state."""
        return np.asarray(np.add.reduceat(values, self.begins))


def joint(transitions: Matrix, observing: Matrix) -> Joint:
    """The transitions of an action by what is observed."""
    pairs, ends, weights = joint_cells(transitions, observing)
    found, row = np.unique(pairs, return_inverse=True)
    rows = sparse.csr_matrix((weights, (row, ends)), shape=(len(found), transitions.shape[1]))
    return Joint(rows, np.searchsorted(found, np.arange(transitions.shape[0]) * np.int64(observing.shape[1])))


def products(arrays: Arrays) -> int:
    """How many products of a transition's and an observation's probability are above 0."""
    return sum(int(np.diff(o.indptr)[t.indices].sum()) for t, o in zip(arrays.transitions, arrays.observing))


def by_state(arrays: Arrays) -> Backup:
    """The backup of a policy that sees the end state."""

    def backup(vectors: Floats) -> Floats:
        best = vectors.max(axis=0)
        return np.array([gain + arrays.discount * (t @ best) for gain, t in zip(arrays.rewards, arrays.transitions)])

    return backup


def informed(arrays: Arrays) -> Backup:
    """The backup of the fast informed bound: for each observation the vector that is best for all end states together."""
    joints = [joint(t, o) for t, o in zip(arrays.transitions, arrays.observing)]

    def backup(vectors: Floats) -> Floats:
        columns = np.ascontiguousarray(vectors.T)
        later = [it.sums((it.rows @ columns).max(axis=1)) for it in joints]
        return arrays.rewards + arrays.discount * np.array(later)

    return backup


def settle(backup: Backup, vectors: Floats, discount: float, stopping: Stopping) -> Tuple[Floats, float]:
    """Backs vectors up until no value is further above the limit than is near enough (and than rounding allows). Returns them, and how far
    above it they may be.

    A constant is added in each round, so that no value of the next backup is greater: after any number of rounds they are a bound.
    """
    factor, above = discount / (1 - discount), float("inf")
    for _ in range(stopping.rounds):
        if stopping.is_over():
            break
        new = backup(vectors)
        moves = new - vectors
        spread = float(moves.max() - moves.min())
        vectors, above = new + factor * moves.max(), factor * spread
        if above <= stopping.near or spread <= 1e-14 * abs(vectors).max():
            break
    return vectors, above


def millionths_above_backups(backup: Backup, vectors: Floats, rounds: int, is_over: IsOver) -> Floats:
    """The least vectors with six decimals, from the given ones rounded down on, of which no backup is greater, up to floating point. If that
    takes more rounds, or it is over, those that are found so far."""
    values = np.floor(vectors * MILLION)
    for _ in range(rounds):
        if is_over():
            break
        new = np.maximum(values, np.ceil(backup(values / MILLION) * MILLION - NOISE))
        if np.array_equal(new, values):
            break
        values = new
    return np.asarray(values / MILLION)


def informed_bound(arrays: Arrays, stopping: Stopping = Stopping(TOLERANCE, ROUNDS)) -> Tuple[Floats, float]:
    """The vectors of the bound (A by S), with six decimals, and how far above their limit they may be. They pass their check, or if it is over
    early, raised by a constant. The discount has to be below 1."""
    backup, size = by_state(arrays), products(arrays)
    vectors, above = settle(backup, np.zeros_like(arrays.rewards), arrays.discount, stopping)
    if size <= MOST_PRODUCTS:
        backup = informed(arrays)
        vectors, above = settle(backup, vectors, arrays.discount, stopping)
    else:
        say(f"{program_name()}: {size:,} products of T and O are too many: this bounds policies that see the states, too")
    rounds = max(1, min(stopping.rounds, MOST_ROUNDING // (size * len(vectors))))
    return millionths_above_backups(backup, vectors, rounds, stopping.is_over), above


def observations_that_can_come(arrays: Arrays) -> List[Integers]:
    """For each action the observations that can come from any state, in order."""
    found = []
    for transitions, observing in zip(arrays.transitions, arrays.observing):
        ends = np.unique(transitions.indices[transitions.data > 0])
        found.append(np.unique(observing[ends].indices).astype(np.int64))
    return found
