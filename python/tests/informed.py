"""The inequality of the fast informed bound in exact fractions, over the cells of a model. Nothing here comes from values."""
from fractions import Fraction
from math import ceil
from typing import Dict, List, NamedTuple, Sequence, Tuple, Union

from models import Cell, Cells, Entries
from polcert.files import Model

Millionths = List[int]


class Exact(NamedTuple):
    """A model: its cells of T, O and R that are not 0 (R as worth), its counts of actions and states, its discount and its start, and
    whether it is an MDP."""

    t: Cells
    o: Cells
    r: Cells
    actions: int
    states: int
    discount: Fraction
    start: Dict[int, Fraction]
    is_mdp: bool

    def seen(self) -> Dict[Tuple[int, int], List[Tuple[int, Fraction]]]:
        """For each action and end state the observations that can come, with their probabilities."""
        seen: Dict[Tuple[int, int], List[Tuple[int, Fraction]]] = {}
        for (action, end, z), q in self.o.items():
            seen.setdefault((action, end), []).append((z, q))
        return seen

    def backups(self, vectors: Sequence[Sequence[Union[int, Fraction]]]) -> Dict[Tuple[int, int], Fraction]:
        """For each action and state, in millionths, what the action earns if the best vector follows each observation."""
        seen = self.seen()
        earned = {(action, state): Fraction(0) for action in range(self.actions) for state in range(self.states)}
        after: Dict[Cell, List[Fraction]] = {}
        for (action, state, end), p in self.t.items():
            for z, q in seen[action, end]:
                earned[action, state] += p * q * self.r.get((action, state, end, z), 0) * 10**6
                sums = after.setdefault((action, state, z), [Fraction(0)] * len(vectors))
                sums[:] = [total + p * q * vector[end] for total, vector in zip(sums, vectors)]
        for (action, state, _), sums in after.items():
            earned[action, state] += self.discount * max(sums)
        return earned

    def excess(self, vectors: Sequence[Millionths]) -> Dict[Tuple[int, int], Fraction]:
        """For each action and then each state, by how much the backup is above the vector."""
        return {(a, s): value - vectors[a][s] for (a, s), value in sorted(self.backups(vectors).items())}

    def first_exceeded(self, vectors: Sequence[Millionths]) -> Tuple[int, ...]:
        """The first action and state whose backup is above the vector; nothing if there is none."""
        return next((pair for pair, excess in self.excess(vectors).items() if excess > 0), ())

    def constant(self, vectors: Sequence[Millionths]) -> int:
        """The least constant that raises the vectors to a bound. The discount is below 1."""
        return max(0, *(ceil(excess / (1 - self.discount)) for excess in self.excess(vectors).values()))

    def at_start(self, vectors: Sequence[Millionths]) -> int:
        """The greatest worth of a vector at the start, rounded up."""
        return max(ceil(sum((weight * vector[state] for state, weight in self.start.items()), Fraction(0))) for vector in vectors)

    def most_at_start(self, vectors: Sequence[Millionths]) -> int:
        """What a policy earns at most from the start by informed vectors, rounded up: in an MDP it sees the start state."""
        return self.at_start([list(map(max, zip(*vectors)))] if self.is_mdp else vectors)


def raised(vectors: Sequence[Millionths], constant: int) -> List[Millionths]:
    return [[value + constant for value in values] for values in vectors]


def exact_model(model: Model) -> Exact:
    """The cells of a model, by its reader."""
    actions, states, sign = range(model.actions.count), range(model.states.count), -1 if model.is_cost else 1
    t: Cells = {(a, s, e): p for a in actions for s in states for e, p in model.transitions.row(a, s).items()}
    o: Cells = {(a, e, z): q for a in actions for e in states for z, q in model.observing.row(a, e).items()}
    r: Cells = {}
    for a, s, e in t:
        block = model.rewards.of(a, s)
        r.update(((a, s, e, z), sign * block.at(e, z)) for z in model.observing.row(a, e))
    return Exact(t, o, r, len(actions), len(states), model.discount, model.start_weights(), model.is_mdp)


def exact_entries(entries: Entries) -> Exact:
    """The cells of a random model, as its tables were filled."""
    actions, states = entries.sizes["T"][:2]
    start = {state: Fraction(1, states) for state in range(states)}
    return Exact(*entries.tables(), actions, states, Fraction(9, 10), start, entries.is_mdp)
