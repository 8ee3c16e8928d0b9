"""Models for the tests: random ones with their tables filled entry after entry, and one of the size of Tag."""
import random
from fractions import Fraction
from itertools import product
from math import prod
from typing import Dict, NamedTuple, Optional, Sequence, Tuple

Cell = Tuple[int, ...]
Cells = Dict[Cell, Fraction]

# An MDP: a step continues to the next state with 0.9, and earns 1 if it takes action 0 in state 0.
RING = b"discount: 0.999999 values: reward states: 11 actions: 2 T: *\n" + b"".join(
    b" ".join({s: b"0.1", (s + 1) % 11: b"0.9"}.get(e, b"0") for e in range(11)) + b"\n" for s in range(11)) + b"R: 0 : 0 : * 1\n"


class Head(NamedTuple):
    """What stands before the entries of a model, and the numbers of which its rewards are made."""

    discount: str = "0.9"
    values: str = "reward"
    start: str = ""
    rewards: Tuple[str, ...] = ("0", "1", "-2.5", "7")


class Entries:
    """The entries of a model, as text and as filled tables."""

    def __init__(self, states: int, actions: int, observations: Optional[int], head: Head = Head()) -> None:
        self.is_mdp, self.rewards = observations is None, head.rewards
        # (in an MDP the end state is what is observed)
        seen = states if observations is None else observations
        self.sizes: Dict[str, Tuple[int, ...]] = {"T": (actions, states, states), "O": (actions, states, seen)}
        self.sizes["R"] = (actions, states, states) if self.is_mdp else (actions, states, states, seen)
        self.lines = [f"discount: {head.discount}", f"values: {head.values}", f"states: {states}", f"actions: {actions}"]
        self.lines += [] if self.is_mdp else [f"observations: {observations}"]
        self.lines += [head.start] if head.start else []
        self.cells: Dict[str, Cells] = {"T": {}, "O": {}, "R": {}}

    def add(self, table: str, places: Sequence[Optional[int]], body: str) -> None:
        """An entry: the body is a word, or numbers for all cells that the places leave open."""
        sizes = self.sizes[table]
        spans = [range(size) if place is None else [place] for place, size in zip(places, sizes)]
        left = list(product(*map(range, sizes[len(places):])))
        numbers = [Fraction(word) for word in body.split()] if body not in ("uniform", "identity") else []
        for front in product(*spans):
            for i, back in enumerate(left):
                cell = front + back
                words = {"uniform": Fraction(1, sizes[-1]), "identity": Fraction(cell[-1] == cell[-2])}
                self.cells[table][cell] = words[body] if body in words else numbers[i]
        self.lines.append(f"{table}: {' : '.join('*' if place is None else str(place) for place in places)} {body}")

    def text(self) -> bytes:
        return "\n".join(self.lines).encode() + b"\n"

    def tables(self) -> Tuple[Cells, Cells, Cells]:
        """The cells of T, O and R that are not 0; in an MDP, as if the end state were observed."""
        actions, states = self.sizes["T"][:2]
        t, o, r = ({cell: value for cell, value in self.cells[table].items() if value} for table in "TOR")
        if self.is_mdp:
            o = {(a, e, e): Fraction(1) for a in range(actions) for e in range(states)}
            r = {(*cell, z): value for cell, value in r.items() for z in range(states)}
        return t, o, r


def random_row(random_: random.Random, count: int, exact: bool) -> str:
    """Probabilities; with `exact` they sum to one."""
    if not exact:
        return " ".join(random_.choice(["0", "1", f"{random_.random():.{random_.randint(1, 9)}f}"]) for _ in range(count))
    cuts = sorted(random_.choice([0, 250000, random_.randrange(1000001), 1000000]) for _ in range(count - 1))
    return " ".join(f"{(b - a) / 1e6:.6f}" for a, b in zip([0, *cuts], [*cuts, 1000000]))


def random_head(random_: random.Random, states: int) -> Head:
    """Any discount, rewards or costs, and a start of each form."""
    starts = ["", "start: uniform", f"start: {random_.randrange(states)}", f"start: {random_row(random_, states, True)}"]
    starts.append("start include: " + " ".join(map(str, random_.choices(range(states), k=random_.randint(1, states)))))
    starts.append("start exclude: " + " ".join(map(str, random_.sample(range(states), random_.randrange(states)))))
    rewards = ["0"], ["0", "1", "7"], ["0", "-1", "-2.5"], ["0", "1", "-2.5", "7"], ["0.333333", "-0.000001"], ["10000000", "-10000000"]
    discounts = ["0", "1", "1", "0.5", "0.95", "0.999999", "0.000001", f"{random_.random():.6f}"]
    values = random_.choice(["reward", "cost"])
    return Head(random_.choice(discounts), values, random_.choice(starts), tuple(random_.choice(rewards)))


def random_model(random_: random.Random, exact: bool = False, varied: bool = False) -> Entries:
    """A model of a few states with entries of all forms. With `exact` its rows sum to one; with `varied` its head is random too."""
    states, actions = random_.randint(1, 4), random_.randint(1, 3)
    observations = random_.choice([None, None, 1, 2, 3] if varied else [None, 1, 2, 3])
    entries = Entries(states, actions, observations, random_head(random_, states) if varied else Head())
    tables = "TR" if observations is None else "TOR"
    for table in tables[:-1]:
        entries.add(table, [None], "uniform")
    for _ in range(random_.randint(0, 14)):
        add_random(entries, random_, random_.choice(tables), exact)
    return entries


def add_random(entries: Entries, random_: random.Random, table: str, exact: bool) -> None:
    sizes = entries.sizes[table]
    fewest = 2 if table == "R" and not entries.is_mdp else 1
    count = random_.randint(fewest, len(sizes) if table == "R" or not exact else 2)
    places = [random_.choice([None, random_.randrange(size)]) for size in sizes[:count]]
    left = prod(sizes[count:])
    if table == "R":
        body = " ".join(random_.choice(entries.rewards) for _ in range(left))
    elif count < 3 and random_.random() < 0.3:
        body = "identity" if table == "T" and count == 1 and random_.random() < 0.5 else "uniform"
    else:
        width, rows = (sizes[-1], left // sizes[-1]) if count < 3 else (1, 1)
        body = " ".join(random_row(random_, width, exact and count < 3) for _ in range(rows))
    entries.add(table, places, body)


CELLS = [(x, y) for y in range(2) for x in range(10)] + [(x, y) for y in (2, 3, 4) for x in (5, 6, 7)]
MOVES = [(0, 1), (0, -1), (1, 0), (-1, 0)]


def step(place: Tuple[int, int], move: Tuple[int, int]) -> Tuple[int, int]:
    """Where a move leads: nowhere at a wall."""
    after = place[0] + move[0], place[1] + move[1]
    return after if after in CELLS else place


def apart(one: Tuple[int, int], two: Tuple[int, int]) -> int:
    return abs(one[0] - two[0]) + abs(one[1] - two[1])


def flight(robot: Tuple[int, int], other: Tuple[int, int]) -> Dict[int, float]:
    """Where the other goes: it stays with 0.2, else it steps somewhere that is not nearer."""
    ways = [after for after in (step(other, move) for move in MOVES) if apart(robot, after) >= apart(robot, other)]
    chances = {CELLS.index(other): 1.0 if not ways else 0.2}
    for after in ways:
        chances[CELLS.index(after)] = chances.get(CELLS.index(after), 0) + 0.8 / len(ways)
    return chances


def tag(digits: str = ".6f") -> bytes:
    """A game of tag on 29 cells: 870 states, 5 actions, 30 observations, rewards with `*`. Some rows do not sum to one."""
    n = len(CELLS)
    lines = ["discount: 0.95", "values: reward", f"states: {n * n + n}", "actions: north south east west tag", f"observations: {n + 1}"]
    lines.append("start exclude: " + " ".join(str(n * n + robot) for robot in range(n)))
    for action, robot in product(range(5), range(n)):
        after = robot if action == 4 else CELLS.index(step(CELLS[robot], MOVES[action]))
        for other in range(n):
            chances = {} if action == 4 and robot == other else flight(CELLS[robot], CELLS[other])
            lines += [f"T: {action} : {robot * n + other} : {after * n + end} {format(p, digits)}" for end, p in chances.items()]
            lines += [] if chances else [f"T: tag : {robot * n + other} : {n * n + robot} 1"]
        lines.append(f"T: {action} : {n * n + robot} : {n * n + after} 1")
    for robot in range(n):
        lines += [f"O: * : {robot * n + other} : {n if robot == other else robot} 1" for other in range(n)]
        lines.append(f"O: * : {n * n + robot} : {n} 1")
    lines += ["R: * : * : * : * -1", "R: tag : * : * : * -10"]
    for robot in range(n):
        lines += [f"R: tag : {robot * n + robot} : * : * 10", f"R: * : {n * n + robot} : * : * 0"]
    return "\n".join(lines).encode() + b"\n"
