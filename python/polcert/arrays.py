"""Models as arrays of numpy and scipy, for programs that compute in floating point.

    arrays = arrays_of(read_model(read_source("tiger.POMDP")))
    arrays.transitions[action] @ values          the expected value after an action, for each start state
    arrays.observing[action][end, observation]   a probability

For an MDP the end state is what is observed.
"""
from fractions import Fraction
from itertools import chain, groupby
from typing import Any, Iterable, Iterator, List, NamedTuple, Optional, Sequence, Tuple

import numpy as np
from numpy.typing import NDArray
from scipy import sparse

from polcert.files import Model
from polcert.tables import RewardBlock, Row, Table

Floats = NDArray[np.float64]
Integers = NDArray[np.int64]
# A scipy.sparse.csr_matrix: scipy has no types.
Matrix = Any


# A row of a matrix: the columns of its cells, and their values.
SparseRow = Tuple[NDArray[Any], Floats]


class Arrays(NamedTuple):
    """A model with S states, A actions and Z observations, in floating point."""

    discount: float
    # the probability of each state at the start (S)
    start: Floats
    # for each action the probabilities of end states by start state (S by S)
    transitions: List[Matrix]
    # for each action the probabilities of observations by end state (S by Z)
    observing: List[Matrix]
    # the expected reward of each action in each start state (A by S); costs are negative rewards
    rewards: Floats


def arrays_of(model: Model) -> Arrays:
    """The arrays of a model. Actions whose rows are given by the same entries share a matrix. A discount of 1 is not refused."""
    start = np.zeros(model.states.count)
    for state, weight in model.start_weights().items():
        start[state] = float(weight)
    transitions = _matrices(model.transitions)
    observing = _observing(model)
    rewards = np.array([_expected_rewards(model, *action) for action in zip(range(model.actions.count), transitions, observing)])
    return Arrays(float(model.discount), start / start.sum(), transitions, observing, -rewards if model.is_cost else rewards)


def _observing(model: Model) -> List[Matrix]:
    if model.is_mdp:
        return [sparse.identity(model.states.count, format="csr")] * model.actions.count
    return _matrices(model.observing)


def _matrices(table: Table) -> List[Matrix]:
    """The matrix of each action."""
    named, shared = table.layers.named_actions(), None
    matrices = []
    for action in range(table.actions):
        if action in named:
            matrices.append(_matrix(table, action))
        else:
            shared = _matrix(table, action) if shared is None else shared
            matrices.append(shared)
    return matrices


def _matrix(table: Table, action: int) -> Matrix:
    """The matrix of an action."""
    rows: List[SparseRow] = []
    last: Optional[Row] = None
    for _, row in table.row_from_all(action):
        rows.append(rows[-1] if row is last else _converted(row))  # (equal rows may be one object)
        last = row
    return stacked(rows, table.columns)


def _converted(row: Row) -> SparseRow:
    """The columns of a row in order, and its values."""
    columns = np.fromiter(row, np.int32, len(row))
    values = np.fromiter(map(float, row.values()), np.float64, len(row))
    order = np.argsort(columns)
    return columns[order], values[order]


# Rows of sparse matrices


def stacked(rows: Sequence[SparseRow], columns: int) -> Matrix:
    """The matrix that has these rows."""
    begins = np.cumsum([0, *(len(places) for places, _ in rows)])
    parts = np.concatenate([values for _, values in rows]), np.concatenate([places for places, _ in rows]), begins
    return sparse.csr_matrix(parts, shape=(len(rows), columns))


def cells_of_row(matrix: Matrix, row: int) -> slice:
    """Where the cells of a row are among those of the matrix."""
    return slice(matrix.indptr[row], matrix.indptr[row + 1])


def rows_of_cells(matrix: Matrix) -> Integers:
    """The row of each cell."""
    return np.repeat(np.arange(matrix.shape[0], dtype=np.int64), np.diff(matrix.indptr))


def numbers_from(begins: Integers, sizes: Integers) -> Integers:
    """So many numbers from each begin on, one run after the other."""
    return np.asarray(np.arange(sizes.sum()) + np.repeat(begins - (np.cumsum(sizes) - sizes), sizes))


def cells_of_rows(matrix: Matrix, rows: Integers) -> Tuple[Integers, Floats, Integers]:
    """The columns and the values of the cells of some rows, one row after the other, and how many cells each row has."""
    sizes = matrix.indptr[rows + 1] - matrix.indptr[rows]
    cells = numbers_from(matrix.indptr[rows], sizes)
    return matrix.indices[cells], matrix.data[cells], sizes


def joint_cells(moved: Matrix, observing: Matrix) -> Tuple[Integers, Integers, Floats]:
    """The products of the weights of end states, in rows, and of the probabilities of observations there. Of each: the number of its row and
    observation (row * Z + observation), the end state, and the product."""
    observations, chances, counts = cells_of_rows(observing, moved.indices)
    pairs = np.repeat(rows_of_cells(moved), counts) * observing.shape[1] + observations
    return pairs, np.repeat(moved.indices, counts), np.repeat(moved.data, counts) * chances


# Rewards


def _expected_rewards(model: Model, action: int, transitions: Matrix, observing: Matrix) -> Floats:
    """The mean of the numbers of R in each start state."""
    rewards = np.zeros(model.states.count)
    sums = np.asarray(transitions.sum(axis=1)).ravel()
    for block, states in blocks_of_rewards(model, action):
        others = block.at_other_ends()
        if others is not None and len(others) == 1 and not block.named_ends():
            rewards[states] = float(others[0]) * sums[states]
        else:
            rows = transitions if len(states) == len(rewards) else transitions[states]
            rewards[states] = rows @ _rewards_by_end(block, others, np.unique(rows.indices), observing)
    return rewards


def blocks_of_rewards(model: Model, action: int) -> Iterator[Tuple[RewardBlock, Integers]]:
    """The rewards of an action, each with the start states that have them: those that follow one another."""
    blocks = ((state, model.rewards.of(action, state)) for state in range(model.states.count))
    for _, group in groupby(blocks, key=lambda pair: id(pair[1])):
        first = next(group)
        yield first[1], np.fromiter((state for state, _ in chain([first], group)), np.int64)


def _rewards_by_end(block: RewardBlock, others: Optional[Sequence[Fraction]], reached: Iterable[int], observing: Matrix) -> Floats:
    """The mean over the observations of what is written for each end state, as far as it is reached."""
    values = np.zeros(observing.shape[0])
    if others is not None:
        reached = block.named_ends()
        values[:] = float(others[0]) if len(others) == 1 else observing @ np.array([float(number) for number in others])
    for end in reached:
        constant = block.constant(end)
        if constant is not None:
            values[end] = float(constant)
        else:
            row = cells_of_row(observing, end)
            values[end] = sum(q * float(block.at(end, z)) for z, q in zip(observing.indices[row].tolist(), observing.data[row]))
    return values
