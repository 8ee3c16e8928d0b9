"""Writes a model of variables (POMDPX) as a .POMDP file: a state for each combination of values, in the order of the variables, the first one
slowest; actions and observations likewise."""
import re
from fractions import Fraction
from itertools import product
from typing import Dict, Iterable, Iterator, List, Optional, Sequence, Tuple

from polcert.command import Refusal
from polcert.factored import ONE, Function, Values, Variable
from polcert.files import ITEM_WORDS, LARGE_TABLE, OTHER_RESERVED
from polcert.observability import StateVariable, comment_of
from polcert.pomdpx import Factored, count_of, place_of, set_values
from polcert.version import VERSION

_NAME = re.compile(r"[A-Za-z][A-Za-z0-9_-]{0,399}")
# A number with more decimals is rounded: no more bytes than these fit into a token.
_MOST_DECIMALS, _ROUNDED_DECIMALS = 380, 17
Row = Dict[int, Fraction]


def decimal_of(value: Fraction) -> str:
    """A number as a decimal: exactly if it is one, else rounded to 17 places."""
    rest, places = value.denominator, 0
    for prime in (2, 5):
        count = 0
        while rest % prime == 0:
            rest, count = rest // prime, count + 1
        places = max(places, count)
    places = places if rest == 1 and places <= _MOST_DECIMALS else _ROUNDED_DECIMALS
    digits = f"{abs(round(value * 10**places)):0{places + 1}}"
    text = f"{digits[:-places]}.{digits[-places:]}".rstrip("0").rstrip(".") if places else digits
    return f"-{text}" if value < 0 and text != "0" else text


def labels_of(variables: Sequence[Variable]) -> Optional[List[str]]:
    """A name for each combination of values, or None if these are no names of a model."""
    for with_names in (False, True):
        parts = [[f"{variable.name}-{label}" if with_names else label for label in variable.labels] for variable in variables]
        labels = [re.sub(r"[^A-Za-z0-9_-]", "-", "-".join(words)) for words in product(*parts)]
        is_reserved = any(label.encode() in ITEM_WORDS | OTHER_RESERVED for label in labels)
        if len(set(labels)) == len(labels) and not is_reserved and all(map(_NAME.fullmatch, labels)):
            return labels
    return None


class Flattener:
    """Writes the text of a model. Raises FileError, and Refusal if it has too many cells."""

    def __init__(self, model: Factored) -> None:
        self.model = model
        self.before, self.after = [part.before for part in model.parts], [part.after for part in model.parts]
        self.states, self.actions = count_of(self.before), count_of(model.actions)
        self.names = {"s": labels_of(self.before), "a": labels_of(model.actions), "o": labels_of(model.seen)}
        self.values: Values = [0] * len(model.variables)
        self.cells = 0

    def text(self) -> bytes:
        return ("\n".join([*self.head(), self.start(), *self.transitions(), *self.seen(), *self.rewards()]) + "\n").encode()

    def name(self, kind: str, number: int) -> str:
        names = self.names[kind]
        return names[number] if names else str(number)

    def head(self) -> List[str]:
        parts = [StateVariable(len(part.before.labels), part.is_seen) for part in self.model.parts]
        comment = comment_of([variable.name for variable in self.before], parts)
        lines = [f"# Made by polcert-convert {VERSION} of a model in POMDPX.", comment, ""]
        lines += [f"discount: {decimal_of(self.model.discount)}", "values: reward"]
        kinds = [("states", "s", self.states), ("actions", "a", self.actions)]
        if not self.model.is_mdp:
            kinds.append(("observations", "o", count_of(self.model.seen)))
        return lines + [f"{word}: {' '.join(self.names[kind] or [str(count)])}" for word, kind, count in kinds]

    def runs(self, functions: Sequence[Function], weight: Fraction = ONE) -> Iterator[Fraction]:
        """Puts all combinations of the functions' variables into the values, one after another, and yields the probability of each."""
        if not functions:
            yield weight
            return
        own = functions[0].own
        assert own is not None
        for value, part in functions[0].row(self.values):
            self.values[own.number] = value
            yield from self.runs(functions[1:], part if weight == 1 else weight * part)

    def row(self, functions: Sequence[Function], variables: Sequence[Variable]) -> Row:
        """The probability of each combination, by its number."""
        cells: Row = {}
        for weight in self.runs(functions):
            cells[place_of(self.values, variables)] = weight
        self.count_cells(len(cells))
        return cells

    def count_cells(self, cells: int) -> None:
        """Counts cells of the text. Raises Refusal if they are too many by now."""
        self.cells += cells
        if self.cells > LARGE_TABLE:
            raise Refusal(f"{self.model.source.name}: the model has more than {LARGE_TABLE:,} cells other than 0, of which no more are read")

    # The parts of the text

    def start(self) -> str:
        row = self.row(self.model.start, self.before)
        if len(set(row.values())) == 1 and sum(row.values()) == 1:
            states = " ".join(self.name("s", state) for state in sorted(row))
            return "start: uniform" if len(row) == self.states else f"start include: {states}"
        return f"start: {' '.join(decimal_of(row.get(state, Fraction(0))) for state in range(self.states))}"

    def transitions(self) -> Iterable[str]:
        for action in range(self.actions):
            set_values(action, self.model.actions, self.values)
            lines: List[str] = []
            is_identity = True
            for state in range(self.states):
                set_values(state, self.before, self.values)
                row = self.row(self.model.moves, self.after)
                is_identity &= row == {state: ONE}
                lines += row_lines(f"T: {self.name('a', action)} : {self.name('s', state)}", row, self.states, self.names["s"])
            yield from [f"T: {self.name('a', action)} identity"] if is_identity else lines

    def seen(self) -> Iterable[str]:
        """The entries of O: for all actions together if no observation depends on the action."""
        model, seen = self.model, self.model.seen
        if model.is_mdp:
            return
        depends = any(parent.kind == "action" for function in model.sees for parent in function.parents)
        for action in range(self.actions if depends else 1):
            set_values(action, model.actions, self.values)
            for state in range(self.states):
                set_values(state, self.after, self.values)
                row = self.row(model.sees, seen)
                place = f"{self.name('a', action) if depends else '*'} : {self.name('s', state)}"
                yield from row_lines(f"O: {place}", row, count_of(seen), self.names["o"])

    def rewards(self) -> Iterable[str]:
        kinds = {parent.kind for function in self.model.earns for parent in function.parents}
        for action in range(self.actions):
            set_values(action, self.model.actions, self.values)
            lines, by_state = [], []  # type: List[str], List[Optional[Fraction]]
            for state in range(self.states):
                set_values(state, self.before, self.values)
                found = self.reward_lines(kinds, f"R: {self.name('a', action)} : {self.name('s', state)}")
                lines += found[0]
                by_state.append(found[1])
            if by_state[0] is not None and len(set(by_state)) == 1:
                lines = [f"R: {self.name('a', action)} : * : *{self.any_seen()} {decimal_of(by_state[0])}"] if by_state[0] else []
            self.count_cells(len(lines))
            yield from lines

    def any_seen(self) -> str:
        return "" if self.model.is_mdp else " : *"

    def reward(self) -> Fraction:
        """The sum of the rewards for the values."""
        return sum((number for function in self.model.earns for _, number in function.row(self.values)), Fraction(0))

    def reward_lines(self, kinds: Iterable[str], place: str) -> Tuple[List[str], Optional[Fraction]]:
        """The entries of an action and a state, and the reward if it is the same for all that can follow."""
        if not {"current", "observation"}.intersection(kinds):
            number = self.reward()
            return [f"{place} : *{self.any_seen()} {decimal_of(number)}"] if number else [], number
        found: Dict[Tuple[int, Optional[int]], Fraction] = {}
        for _ in self.runs(self.model.moves):
            end = place_of(self.values, self.after)
            if "observation" in kinds:
                for _ in self.runs(self.model.sees):
                    found[end, place_of(self.values, self.model.seen)] = self.reward()
            else:
                found[end, None] = self.reward()
        if len(set(found.values())) == 1:
            number = next(iter(found.values()))
            return [f"{place} : *{self.any_seen()} {decimal_of(number)}"] if number else [], number
        lines = []
        for (end, observation), number in found.items():
            last = self.any_seen() if observation is None else f" : {self.name('o', observation)}"
            lines += [f"{place} : {self.name('s', end)}{last} {decimal_of(number)}"] if number else []
        return lines, None


def row_lines(place: str, row: Row, size: int, names: Optional[List[str]]) -> List[str]:
    """The entries of a row."""
    if len(row) == size and set(row.values()) == {Fraction(1, size)}:
        return [f"{place} uniform"]
    return [f"{place} : {names[column] if names else column} {decimal_of(number)}" for column, number in sorted(row.items())]
