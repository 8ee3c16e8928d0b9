"""What the programs print of accepted texts, a second time: in exact numbers, straight from the definitions in crates/*/specs.

The cells are those that python/polcert/files.py reads, values and rewards are in millionths, and a pair is a node and a state (of
polcert_bound: an action and a state).
"""
from fractions import Fraction
from math import ceil, floor
from typing import Callable, Dict, Iterator, List, NamedTuple, Optional, Sequence, Tuple

from runner import Ran
from informed import Exact, Millionths, raised
from polcert.files import Graph, Model, Vector
from polcert.points import PointCheck, Points, WholeCells, ceil_quotient, check_vectors, informed_excess
from polcert.tokens import MILLION, decimal

Pair = Tuple[int, int]
Gaps = Dict[Pair, Fraction]  # in the order of the pairs: how far each is from passing; 0 or less if it passes
LARGEST = 10_000_000 * MILLION
BELOW, ABOVE = 1, -1  # a bound from below is lowered, and one from above is raised


class Controller(NamedTuple):
    """A model and a policy graph."""

    exact: Exact
    graph: Graph

    def steps(self) -> Iterator[Tuple[int, int, int, int, Fraction]]:
        """Each step of positive probability: its node, state, end state, observation and probability."""
        seen = self.exact.seen()
        for node, action in enumerate(self.graph.actions):
            for (a, state, end), p in self.exact.t.items():
                if a == action:
                    yield from ((node, state, end, z, p * q) for z, q in seen[action, end])

    def lacks(self) -> List[Tuple[int, int, int]]:
        """Each node, state and observation that can come and has no successor."""
        return sorted({(n, s, z) for n, s, _, z, _ in self.steps() if self.graph.successors[n][z] is None})

    def backing(self, values: Sequence[Millionths]) -> Dict[Pair, Fraction]:
        """The expected reward and discounted value of one step from each pair, over the observations that have a successor."""
        backing = {(n, s): Fraction(0) for n in range(len(self.graph.actions)) for s in range(self.exact.states)}
        for n, s, e, z, weight in self.steps():
            after = self.graph.successors[n][z]
            if after is not None:
                reward = self.exact.r.get((self.graph.actions[n], s, e, z), 0) * MILLION
                backing[n, s] += weight * (reward + self.exact.discount * values[after][e])
        return backing

    def gaps(self, values: Sequence[Millionths], side: int) -> Gaps:
        """By how much each pair is short, from below, or long, from above."""
        return {(n, s): side * (values[n][s] - worth) for (n, s), worth in self.backing(values).items()}


# How far a weight may lie from its own.
Spread = Callable[[Fraction], Fraction]


class Near(NamedTuple):
    """How far models may lie from one, as it was typed: each probability above 0, or so many percent of it, and each reward."""

    within: str
    rewards_within: str
    is_percent: bool = False

    def spread(self, scale: int) -> Spread:
        """In a row of this scale, rounded up to a whole part of it."""
        distance = Fraction(self.within)
        return lambda weight: Fraction(ceil((distance / 100 * weight if self.is_percent else distance) * scale), scale)

    def start_spread(self, start: Dict[int, Fraction]) -> Spread:
        """In a start, whose scale is the most copies of the total of whole shares that 10 ** 10 has."""
        total = len(start) if len(set(start.values())) == 1 else MILLION
        return self.spread(10 ** 10 // total * total)

    def yes(self, worths: Sequence[Fraction], side: int) -> str:
        rewards = f', rewards within {self.rewards_within}' if Fraction(self.rewards_within) else ''
        return f'yes: every model within {self.within}{" %" if self.is_percent else ""}{rewards}, {start_words(worths, side)}'


def least_mean(row: Sequence[Tuple[Fraction, Fraction]], by: Spread) -> Fraction:
    """The least mean of values over all rows whose weights above 0 lie so near: least values first, each with as much weight as it can have.
    A row has the weight and the value of each cell above 0."""
    lows = [max(Fraction(0), weight - by(weight)) for weight, _ in row]
    left, mean = 1 - sum(lows), sum((low * value for low, (_, value) in zip(lows, row)), Fraction(0))
    for value, room in sorted((value, weight + by(weight) - low) for low, (weight, value) in zip(lows, row)):
        taken = min(left, room)
        mean, left = mean + taken * value, left - taken
    return mean


class NearController(NamedTuple):
    """A controller, in all models near its own."""

    controller: Controller
    observations: int
    near: Near

    def gaps(self, values: Sequence[Millionths], side: int) -> Gaps:
        """By how much each pair is short, from below, or long, from above, in the worst model for it."""
        exact, graph = self.controller
        ends: Dict[Tuple[int, int], List[Tuple[int, Fraction]]] = {}
        for (a, s, e), p in exact.t.items():
            ends.setdefault((a, s), []).append((e, p))
        seen, gaps = exact.seen(), {}
        for n, action in enumerate(graph.actions):
            for s in range(exact.states):
                means = [(p, self.of_end((n, s, e), seen[action, e], values, side)) for e, p in ends[action, s]]
                gaps[n, s] = side * values[n][s] - least_mean(means, self.near.spread(exact.states * MILLION))
        return gaps

    def of_end(self, move: Tuple[int, int, int], seen: Sequence[Tuple[int, Fraction]], values: Sequence[Millionths], side: int) -> Fraction:
        """The least mean, for a node, a state and an end state, of what is earned there and after it; from above of its opposite."""
        (exact, graph), (n, s, e) = self.controller, move
        row = []
        for z, q in seen:
            after = graph.successors[n][z]
            worth = Fraction(0)
            if after is not None:
                reward = side * exact.r.get((graph.actions[n], s, e, z), 0) - Fraction(self.near.rewards_within)
                worth = reward * MILLION + exact.discount * side * values[after][e]
            row.append((q, worth))
        return least_mean(row, self.near.spread(self.observations * MILLION))


def rounded_values(vectors: Sequence[Vector], side: int) -> List[Millionths]:
    """The values as they are read: rounded down for a bound from below, and up for one from above."""
    return [[(floor if side == BELOW else ceil)(value * MILLION) for value in vector.values] for vector in vectors]


def first_failing(gaps: Gaps) -> Optional[Pair]:
    return next((pair for pair, gap in gaps.items() if gap > 0), None)


def least_constant(gaps: Gaps, discount: Fraction) -> Optional[int]:
    """The least constant by which moved values pass: each gap becomes less by the constant times 1 - discount, in the worst model too, since
    all rows sum to one."""
    most = max(gaps.values())
    if most <= 0:
        return 0
    return ceil(most / (1 - discount)) if discount < 1 else None


def answer(status: int, line: str) -> Ran:
    return Ran(status, f'{line}\n'.encode(), b'')


def refusal(status: int, line: str) -> Ran:
    return Ran(status, b'', f'{line}\n'.encode())


# (Six parameters: all that the line and the vectors name.)
def move(gaps: Gaps, values: Sequence[Millionths], actions: Sequence[int], discount: Fraction, side: int, pair: str) -> Ran:
    """The answer of `lower` and `raise`: the moved vectors in full form and the constant, or why there is none."""
    word, code = ('lower', 'L') if side == BELOW else ('raise', 'U')
    constant = least_constant(gaps, discount)
    if constant is None:
        return refusal(1, f'{word}: {code}1 at {pair} %d, state %d' % first_failing(gaps))
    moved = raised(values, -side * constant)
    if any(abs(value) > LARGEST for vector in moved for value in vector):
        return refusal(1, f'{word}: {code}2')
    text = ''.join(f'{action}\n{" ".join(map(decimal, vector))}\n\n' for action, vector in zip(actions, moved))
    return Ran(0, text.encode(), f'{word.rstrip("e")}ed by {decimal(constant)}\n'.encode())


def graph_move(controller: Controller, lacks: Sequence[Tuple[int, int, int]], gaps: Gaps, values: Sequence[Millionths], side: int) -> Ran:
    """The answer of `lower` and `raise` for the vectors of a graph: no constant mends a missing successor."""
    if lacks:
        code = 'lower: L3' if side == BELOW else 'raise: U3'
        return refusal(1, f'{code} at node %d, state %d, observation %d' % lacks[0])
    return move(gaps, values, controller.graph.actions, controller.exact.discount, side, 'node')


def verdict(gaps: Gaps, lacks: Sequence[Tuple[int, int, int]], yes: str, side: int) -> Ran:
    """The answer of `polcert check`: the first pair that fails, and of a pair that lacks successors the first lack."""
    failing = first_failing(gaps)
    if lacks and (failing is None or lacks[0][:2] <= failing):
        return answer(1, 'no: node %d, state %d, observation %d has no successor' % lacks[0])
    if failing is None:
        return answer(0, yes)
    amount = decimal(ceil(gaps[failing]))
    return answer(1, f'no: node {failing[0]}, state {failing[1]}, {"short" if side == BELOW else "long"} by {amount}')


def start_words(worths: Sequence[Fraction], side: int) -> str:
    """What a yes says of the start, if the nodes are worth so much there."""
    if side == ABOVE:
        return f'every start node, at most {decimal(ceil(max(worths)))}'
    return f'start node {worths.index(max(worths))}, at least {decimal(floor(max(worths)))}'


def start_line(exact: Exact, values: Sequence[Millionths], side: int) -> str:
    return 'yes: ' + start_words([sum((weight * vector[state] for state, weight in exact.start.items()), Fraction(0)) for vector in values], side)


def summary_of(model: Model) -> bytes:
    """The line of an accepted model."""
    counts = b'%d states, %d actions' % (model.states.count, model.actions.count)
    kind, seen = (b'mdp', b'') if model.is_mdp else (b'pomdp', b', %d observations' % model.observations.count)
    discount = decimal(int(model.discount * MILLION)).encode()
    return b'%s: %s%s, discount %s, %s\n' % (kind, counts, seen, discount, b'cost' if model.is_cost else b'reward')


def polcert_answers(exact: Exact, graph: Graph, vectors: Sequence[Vector]) -> Dict[str, Ran]:
    """What polcert answers to each word."""
    controller = Controller(exact, graph)
    lacks, found = controller.lacks(), {}
    for side, check, word in ((BELOW, 'check', 'lower'), (ABOVE, 'check --at-most', 'raise')):
        values = rounded_values(vectors, side)
        gaps = controller.gaps(values, side)
        found[f'polcert {check}'] = verdict(gaps, lacks, start_line(exact, values, side), side)
        found[f'polcert {word}'] = graph_move(controller, lacks, gaps, values, side)
    return found


def near_answer(command: str, controller: Controller, vectors: Sequence[Vector], observations: int, near: Near) -> Ran:
    """What polcert_robust answers to a word."""
    side = ABOVE if command.endswith(('raise', '--at-most')) else BELOW
    exact, values = controller.exact, rounded_values(vectors, side)
    lacks, gaps = controller.lacks(), NearController(controller, observations, near).gaps(values, side)
    if not command.startswith('polcert_robust check'):
        return graph_move(controller, lacks, gaps, values, side)
    by = near.start_spread(exact.start)
    worths = [side * least_mean([(weight, Fraction(side * vector[state])) for state, weight in exact.start.items()], by) for vector in values]
    return verdict(gaps, lacks, near.yes(worths, side), side)


def bound_answers(exact: Exact, vectors: Sequence[Vector]) -> Dict[str, Ran]:
    """What polcert_bound answers to each word."""
    values = rounded_values(vectors, ABOVE)
    gaps = exact.excess(values)
    failing = first_failing(gaps)
    if failing is None:
        check = answer(0, f'yes: every policy, at most {decimal(exact.most_at_start(values))}')
    else:
        check = answer(1, f'no: action {failing[0]}, state {failing[1]}, exceeded by {decimal(ceil(gaps[failing]))}')
    moved = move(gaps, values, range(exact.actions), exact.discount, ABOVE, 'action')
    return {'polcert_bound check': check, 'polcert_bound raise': moved}


def points_answer(cells: WholeCells, vectors: List[Millionths], points: Points) -> Tuple[str, Ran]:
    """What polcert_bound answers to a check of points, after the kind of answer."""
    excess = check_vectors(cells, vectors)
    if excess:
        state, action, _ = excess
        by = ceil_quotient(informed_excess(cells, vectors, action, state), MILLION * cells.step_scale)
        return 'vectors', answer(1, f'no: action {action}, state {state}, exceeded by {decimal(by)}')
    check = PointCheck(cells, vectors, points)
    excess = check.first_excess()
    if excess:
        by = ceil_quotient(excess.amount, cells.step_scale * check.masses[excess.point])
        return 'points', answer(1, f'no: point {excess.point}, action {excess.action}, exceeded by {decimal(by)}')
    if cells.is_mdp:  # the vectors alone: the start state is seen
        total = sum(share * max(vector[state] for vector in vectors) for state, share in cells.start.items())
        return 'yes', answer(0, f'yes: every policy, at most {decimal(ceil_quotient(total, sum(cells.start.values())))}')
    return 'yes', answer(0, f'yes: every policy, at most {decimal(check.most_from_start())}')
