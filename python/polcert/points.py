"""Belief points (.points): read and written, and checked exactly, by the definitions of `crates/polcert_points/specs`.

    cells = WholeCells(read_model(read_source("tiger.POMDP")))
    points = read_points(read_source("tiger.points"), cells)
    check_points(cells, vectors, points)         None, or the first point and action whose value is too low, and by how much
    most_from_points(cells, vectors, points)     what every policy earns at most from the start

All numbers are integers: weights, values and vectors are in millionths, and vectors have the action for their first index.
"""
from dataclasses import dataclass
from fractions import Fraction
from typing import Dict, Iterable, List, NamedTuple, Optional, Sequence, Tuple

from polcert.files import (
    BAD, END, MILLION, NUMERAL, SIGN, Cursor, FileError, Model, NumberFault, Row, Source, Token, number_after,
)
from polcert.tokens import decimal

# A weight for each state, those above 0 alone.
Belief = Dict[int, int]
Vectors = Sequence[Sequence[int]]
# The columns of a row of T or O and their weights.
Weights = List[Tuple[int, int]]
MOST_POINTS = 10_000
# How often the start is taken, so that points divide it finely.
START_TIMES = 10**12


@dataclass
class Points:
    """Beliefs, with a value for each action, and for each action and observation the point that covers the belief that follows, if one is
    named. Observations without a point may be left out."""

    beliefs: List[Belief]
    values: List[List[int]]
    following: List[List[Dict[int, int]]]


class Excess(NamedTuple):
    """A point and an action whose value is below its backup, and by how much: in millionths times the point's weight and the scale of a
    step, rounded up."""

    point: int
    action: int
    amount: int


class WholeCells:
    """A model in integers: rows of T sum to t_scale, rows of O to o_scale, and rewards are in millionths."""

    def __init__(self, model: Model) -> None:
        self.model, self.is_mdp = model, model.is_mdp
        self.states, self.actions, self.observations = model.states.count, model.actions.count, model.observations.count
        self.discount = int(model.discount * MILLION)
        self.t_scale, self.o_scale = MILLION * self.states, MILLION * self.observations
        self.step_scale = self.t_scale * self.o_scale
        self.start = start_shares(model)
        self._moves: Dict[Tuple[int, int], Weights] = {}
        self._seen: Dict[Tuple[int, int], Weights] = {}
        self._rewards: Dict[Tuple[int, int], int] = {}
        self._last: Tuple[Row, Weights] = {}, []

    def moves(self, action: int, state: int) -> Weights:
        """The end states and their weights."""
        key = action, state
        if key not in self._moves:
            self._moves[key] = self._weights(self.model.transitions.row(action, state), self.t_scale)
        return self._moves[key]

    def seen(self, action: int, end: int) -> Weights:
        """The observations and their weights."""
        key = action, end
        if key not in self._seen:
            self._seen[key] = self._weights(self.model.observing.row(action, end), self.o_scale)
        return self._seen[key]

    def _weights(self, row: Row, scale: int) -> Weights:
        """The cells of a row in integers. Rows that follow one another and are one object are one list."""
        if row is not self._last[0]:
            self._last = row, [(column, int(p * scale)) for column, p in row.items()]
        return self._last[1]

    def reward(self, action: int, state: int) -> int:
        """The expected reward, on the scale of a step."""
        key = action, state
        if key not in self._rewards:
            block, total = self.model.rewards.of(action, state), 0
            for end, p in self.moves(action, state):
                constant = block.constant(end)
                if constant is None:
                    total += p * sum(q * int(block.at(end, z) * MILLION) for z, q in self.seen(action, end))
                else:
                    total += p * self.o_scale * int(constant * MILLION)
            self._rewards[key] = -total if self.model.is_cost else total
        return self._rewards[key]

    def beliefs_after(self, belief: Belief, action: int) -> Dict[int, Belief]:
        """For each observation that can come, the belief after it. Its weights sum to the belief's, times the observation's probability, on
        the scale of a step."""
        arrived: Belief = {}
        for state, weight in belief.items():
            for end, p in self.moves(action, state):
                arrived[end] = arrived.get(end, 0) + weight * p
        after: Dict[int, Belief] = {}
        for end, weight in arrived.items():
            for z, q in self.seen(action, end):
                after.setdefault(z, {})[end] = weight * q
        return after


def start_shares(model: Model) -> Belief:
    """The share of each state in the start: 1 for each if all are equal, else millionths."""
    weights = model.start_weights()
    is_even = len(set(weights.values())) == 1
    return {state: 1 if is_even else int(weight * MILLION) for state, weight in weights.items()}


# The check


def least_charges(vectors: Vectors, points: Points) -> List[List[int]]:
    """For each action and state the least of the vector's value and of the values of the points that are this state alone."""
    charges = [list(vector) for vector in vectors]
    for belief, values in zip(points.beliefs, points.values):
        if len(belief) == 1:
            (state,) = belief
            for charge, value in zip(charges, values):
                charge[state] = min(charge[state], value)
    return charges


class Cover(NamedTuple):
    """A belief as a point, taken so many times, and what is left of it."""

    point: Optional[int]
    times: int
    left: List[Tuple[int, int]]


def cover_by(points: Points, belief: Belief, named: Optional[int]) -> Cover:
    """The cover by the named point, taken as often as the belief allows; by none if it does not fit once."""
    point = {} if named is None else points.beliefs[named]
    times = min((belief.get(state, 0) // weight for state, weight in point.items()), default=0)
    if not times:
        return Cover(None, 0, list(belief.items()))
    left = ((state, weight - times * point.get(state, 0)) for state, weight in belief.items())
    return Cover(named, times, [(state, weight) for state, weight in left if weight])


class PointCheck:
    """The inequality at each point and action. Covers depend on the weights alone, so that values may change in between."""

    def __init__(self, cells: WholeCells, vectors: Vectors, points: Points) -> None:
        self.cells, self.vectors, self.points = cells, vectors, points
        self.masses = [sum(belief.values()) for belief in points.beliefs]
        self._steps: Dict[Tuple[int, int], Tuple[int, List[Cover]]] = {}
        self.charge_again()

    def charge_again(self) -> None:
        """Takes the charges of the values as they are now."""
        self.charges = least_charges(self.vectors, self.points)

    def step(self, point: int, action: int) -> Tuple[int, List[Cover]]:
        """The expected reward, and a cover of each belief that can follow."""
        if (point, action) not in self._steps:
            named, after = self.points.following[point][action], self.cells.beliefs_after(self.points.beliefs[point], action)
            covers = [cover_by(self.points, it, named.get(z)) for z, it in after.items()]
            self._steps[point, action] = self.reward(point, action), covers
        return self._steps[point, action]

    def reward(self, point: int, action: int) -> int:
        """The expected reward, on the scale of a step times the point's weight."""
        return sum([weight * self.cells.reward(action, state) for state, weight in self.points.beliefs[point].items()])

    def best_worth(self, cover: Cover) -> int:
        """The most that a belief is worth by its cover, with the best next action."""
        worths = [sum([weight * charge[state] for state, weight in cover.left]) for charge in self.charges]
        if cover.point is not None:
            times = cover.times * self.masses[cover.point]
            worths = [worth + times * value for worth, value in zip(worths, self.points.values[cover.point])]
        return max(worths)

    def excess(self, point: int, action: int) -> int:
        """By how much the backup is above the value, on the scale of a step times the point's weight times a million."""
        reward, covers = self.step(point, action)
        later = sum(map(self.best_worth, covers))
        worth = self.masses[point] * self.points.values[point][action]
        return MILLION * reward + self.cells.discount * later - MILLION * self.cells.step_scale * worth

    def first_excess(self) -> Optional[Excess]:
        """The first point and action where the inequality fails."""
        for point in range(len(self.points.beliefs)):
            for action in range(self.cells.actions):
                excess = self.excess(point, action)
                if excess > 0:
                    return Excess(point, action, ceil_quotient(excess, MILLION))
        return None

    def most_from_start(self) -> int:
        """What every policy earns at most from the start, rounded up: the least by a cover of one point or of none. In an MDP without
        points the start state is seen."""
        start, total = self.cells.start, sum(self.cells.start.values())
        if self.cells.is_mdp and not self.points.beliefs:
            best = {state: max(charge[state] for charge in self.charges) for state in start}
            return ceil_quotient(sum(share * best[state] for state, share in start.items()), total)
        scaled = {state: START_TIMES * share for state, share in start.items()}
        named = [None, *range(len(self.points.beliefs))]
        least = min(self.best_worth(cover_by(self.points, scaled, point)) for point in named)
        return ceil_quotient(least, START_TIMES * total)


def check_points(cells: WholeCells, vectors: Vectors, points: Points) -> Optional[Excess]:
    """None if the inequality holds at every point and action: with informed vectors the points are a bound then. Else the first excess."""
    return PointCheck(cells, vectors, points).first_excess()


def most_from_points(cells: WholeCells, vectors: Vectors, points: Points) -> int:
    """What every policy earns at most from the start, in millionths, if the points pass their check and the vectors theirs."""
    return PointCheck(cells, vectors, points).most_from_start()


def check_vectors(cells: WholeCells, vectors: Vectors) -> Optional[Excess]:
    """The first state (in the place of a point) and action where the informed inequality fails, action by action; None if it holds."""
    for action in range(cells.actions):
        for state in range(cells.states):
            excess = informed_excess(cells, vectors, action, state)
            if excess > 0:
                return Excess(state, action, ceil_quotient(excess, MILLION))
    return None


def least_raise(cells: WholeCells, vectors: Vectors) -> int:
    """The least constant that raises vectors to informed ones, in millionths. The discount has to be below 1."""
    pairs = ((action, state) for action in range(cells.actions) for state in range(cells.states))
    worst = max(informed_excess(cells, vectors, action, state) for action, state in pairs)
    return max(0, ceil_quotient(worst, cells.step_scale * (MILLION - cells.discount)))


def informed_excess(cells: WholeCells, vectors: Vectors, action: int, state: int) -> int:
    """By how much the informed backup is above the vector, on the scale of a step times a million."""
    after = cells.beliefs_after({state: 1}, action).values()
    later = 0
    for belief in after:
        later += max(sum([weight * vector[end] for end, weight in belief.items()]) for vector in vectors)
    return MILLION * cells.reward(action, state) + cells.discount * later - MILLION * cells.step_scale * vectors[action][state]


def ceil_quotient(value: int, scale: int) -> int:
    return -(-value // scale)


# The text


def points_text(cells: WholeCells, points: Points) -> bytes:
    """Points as polcert_bound reads them."""
    lines: List[str] = []
    for number, (belief, values, following) in enumerate(zip(points.beliefs, points.values, points.following)):
        lines.append(f"{number} {written(belief.get(state, 0) for state in range(cells.states))}")
        for value, named in zip(values, following):
            names = " ".join(str(named.get(z, "-")) for z in range(cells.observations))
            lines.append(f"{decimal(value)}  {names}")
        lines.append("")
    return "\n".join(lines).encode()


def written(millionths: Iterable[int]) -> str:
    return " ".join(map(decimal, millionths))


def read_points(source: Source, cells: WholeCells) -> Points:
    """Reads points: weights rounded down to millionths, values rounded up. Raises FileError where polcert_bound refuses them."""
    return _PointReader(source, cells).read()


class Name(NamedTuple):
    """A named point, where it is named, and the byte."""

    named: int
    point: int
    action: int
    observation: int
    byte: int


class _PointReader:
    def __init__(self, source: Source, cells: WholeCells) -> None:
        self.cursor, self.source, self.cells = Cursor(source), source, cells
        self.points = Points([], [], [])
        self.greater_names: List[Name] = []  # (each is greater than all before it)

    def fault(self, code: str, byte: int, why: str) -> FileError:
        return FileError(self.source, code, byte, why, f"points: {code} at byte {byte}")

    def unexpected(self, expected: str, byte: Optional[int] = None, code: str = "B3") -> FileError:
        token = self.cursor.next
        why = f"expected {expected}, found {token.shown()}"
        if token.kind == BAD:
            return self.fault(f"B1 {token.text.decode()}", token.begin, why)
        return self.fault("B7" if token.kind == END else code, token.begin if token.kind == END or byte is None else byte, why)

    def read(self) -> Points:
        while self.cursor.next.kind != END:
            self.read_point(len(self.points.beliefs))
        self.refuse_missing_points()
        return self.points

    def read_point(self, number: int) -> None:
        if number == MOST_POINTS and self.cursor.next.kind != BAD:
            raise self.fault("B8", self.cursor.next.begin, f"there are more than {MOST_POINTS:,} points")
        self.number_of_point(number)
        self.points.beliefs.append(self.belief(number))
        self.points.values.append([])
        self.points.following.append([])
        for action in range(self.cells.actions):
            self.points.values[-1].append(self.value(f"the value of action {action} at point {number}"))
            self.points.following[-1].append(self.names(number, action))

    def number_of_point(self, number: int) -> None:
        token, expected = self.cursor.next, f"the number of point {number}"
        if not token.is_digits():
            raise self.unexpected(expected)
        if int(token.text) != number:
            raise self.unexpected(expected, code="B4")
        self.cursor.take()

    def belief(self, number: int) -> Belief:
        belief: Belief = {}
        for state in range(self.cells.states):
            begin, weight = self.cursor.next.begin, self.weight(f"the weight of state {state} in point {number}")
            if weight:
                belief[state] = weight
        if not 0 < sum(belief.values()) <= MILLION:
            raise self.fault("B5", begin, f"the weights of point {number} do not sum to a number above 0 and at most 1")
        return belief

    def weight(self, expected: str) -> int:
        """The millionths of a number from 0 to 1, rounded down."""
        begin = self.cursor.next.begin
        if self.cursor.next.kind != NUMERAL:
            raise self.unexpected(expected)
        value = self.number(begin, None)
        if value > 1:
            raise self.fault("B2 N3", begin, f"expected {expected}, which is at most 1")
        return value.numerator * MILLION // value.denominator

    def value(self, expected: str) -> int:
        """The millionths of a number, rounded up."""
        begin = self.cursor.next.begin
        sign = self.cursor.take() if self.cursor.next.kind == SIGN else None
        if self.cursor.next.kind != NUMERAL:
            raise self.unexpected(expected, begin)
        value = self.number(begin, sign)
        return ceil_quotient(value.numerator * MILLION, value.denominator)

    def number(self, begin: int, sign: Optional[Token]) -> Fraction:
        try:
            return number_after(self.cursor, sign)[0]
        except NumberFault as fault:
            raise self.fault(f"B2 {fault.code}", begin, str(fault)) from None

    def names(self, point: int, action: int) -> Dict[int, int]:
        found: Dict[int, int] = {}
        for z in range(self.cells.observations):
            byte = self.cursor.next.begin
            named = self.name(f"the point after point {point}, action {action} and observation {z}: a point, `-` or `X`")
            if named is not None:
                found[z] = named
                if not self.greater_names or named > self.greater_names[-1].named:
                    self.greater_names.append(Name(named, point, action, z, byte))
        return found

    def name(self, expected: str) -> Optional[int]:
        token, is_none = self.cursor.next, self.cursor.is_at_none()
        if not is_none and not token.is_digits():
            raise self.unexpected(expected)
        self.cursor.take()
        return None if is_none else int(token.text)

    def refuse_missing_points(self) -> None:
        """Refuses a name of no point: the first by point, action and observation."""
        for name in self.greater_names:
            if name.named >= len(self.points.beliefs):
                refusal = f"points: B6 at point {name.point}, action {name.action}, observation {name.observation}"
                raise FileError(self.source, "B6", name.byte, f"there is no point {name.named}", refusal)
