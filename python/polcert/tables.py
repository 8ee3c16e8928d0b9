"""The tables of a model, kept as the entries of its text: of several entries that cover a cell the last one holds."""
from array import array
from dataclasses import dataclass, field
from fractions import Fraction
from typing import Dict, Iterator, List, Optional, Sequence, Set, Tuple

from polcert.tokens import Token

Row = Dict[int, Fraction]
Places = Tuple[Optional[int], ...]


@dataclass
class Elements:
    """The states, actions or observations of a model: how many, and their names if the text gives names."""

    kind: str
    count: int
    names: Optional[List[str]] = None
    index_of: Dict[bytes, int] = field(default_factory=dict)

    def label(self, index: int) -> str:
        """The name of an element, or its number."""
        return self.names[index] if self.names else str(index)


@dataclass
class Numbers:
    """Numbers of a text with their places: the sign's or the numeral's first byte, the numeral's, and the byte after it."""

    values: List[Fraction] = field(default_factory=list)
    begins: "array[int]" = field(default_factory=lambda: array("Q"))
    numerals: "array[int]" = field(default_factory=lambda: array("Q"))
    ends: "array[int]" = field(default_factory=lambda: array("Q"))

    def add(self, value: Fraction, begin: int, numeral: Token) -> None:
        self.values.append(value)
        self.begins.append(begin)
        self.numerals.append(numeral.begin)
        self.ends.append(numeral.end)


@dataclass
class Entry:
    """An entry of T, O or R. A place is None for `*`; the word is `uniform`, `identity` or nothing, if numbers stand there."""

    table: str
    number: int
    begin: int
    places: Places
    word: str
    numbers: Numbers

    def is_for_each_row(self) -> bool:
        """Whether what the entry gives depends on the row: a matrix or `identity`."""
        return len(self.places) == 1 and self.word != "uniform"


@dataclass
class Start:
    """The start of a model. The kind is `uniform`, `states` (each listed state has one share) or `numbers`."""

    kind: str
    begin: int
    states: List[int] = field(default_factory=list)
    numbers: Numbers = field(default_factory=Numbers)


class Layers:
    """The entries of a table by action and row, each of them perhaps `*`."""

    def __init__(self) -> None:
        self._entries: Dict[Tuple[Optional[int], Optional[int]], List[Entry]] = {}
        self.count = 0

    def add(self, entry: Entry) -> None:
        row = entry.places[1] if len(entry.places) > 1 else None
        self._entries.setdefault((entry.places[0], row), []).append(entry)
        self.count += 1

    def of(self, action: int, row: int) -> List[Entry]:
        """The entries that cover cells of a row, in the order of the text."""
        keys = ((action, row), (action, None), (None, row), (None, None))
        found = [self._entries[key] for key in keys if key in self._entries]
        if len(found) < 2:
            return found[0] if found else []
        return sorted((entry for entries in found for entry in entries), key=lambda entry: entry.number)

    def named_actions(self) -> Set[int]:
        """The actions that an entry names: all others have the same entries."""
        return {action for action, _ in self._entries if action is not None}


class Table:
    """The rows of T (by action and start state) or of O (by action and end state). Of entries that cover a cell the last one holds."""

    def __init__(self, letter: str, actions: int, rows: int, columns: int) -> None:
        self.letter, self.actions, self.rows, self.columns = letter, actions, rows, columns
        self.layers = Layers()
        self._shared: Dict[Tuple[int, ...], Row] = {}

    def add(self, entry: Entry) -> None:
        self.layers.add(entry)

    def visible(self, action: int, row: int) -> List[Entry]:
        """The last entry that gives the whole row, if there is one, and those after it that give cells of it."""
        layers = self.layers.of(action, row)
        first = len(layers) - 1
        while first > 0 and len(layers[first].places) == 3 and layers[first].places[2] is not None:
            first -= 1
        return layers[first:] if first > 0 else layers

    def row(self, action: int, row: int) -> Row:
        """The cells above or below 0 of a row. Equal rows may be one object: do not change it."""
        visible = self.visible(action, row)
        if any(entry.is_for_each_row() or None not in entry.places[:2] and len(entry.places) > 1 for entry in visible):
            return self._cells(visible, row)
        key = tuple(entry.number for entry in visible)
        if key not in self._shared:
            self._shared[key] = self._cells(visible, row)
        return self._shared[key]

    def row_from_all(self, action: int) -> Iterator[Tuple[int, Row]]:
        """Each row of an action."""
        return ((row, self.row(action, row)) for row in range(self.rows))

    def origins(self, action: int, row: int) -> Dict[int, Tuple[Entry, Optional[int]]]:
        """For each cell that an entry gives: the entry, and the index of its number; None if its word gives the cell."""
        cells: Dict[int, Tuple[Entry, Optional[int]]] = {}
        for entry in self.visible(action, row):
            if len(entry.places) == 3 and entry.places[2] is not None:
                cells[entry.places[2]] = entry, 0
            elif len(entry.places) == 3:
                cells = dict.fromkeys(range(self.columns), (entry, 0))
            elif entry.word:
                cells = dict.fromkeys(self._whole_row(entry, row), (entry, None))
            else:
                first = row * self.columns if len(entry.places) == 1 else 0
                cells = {column: (entry, first + column) for column in range(self.columns)}
        return cells

    def _cells(self, visible: Sequence[Entry], row: int) -> Row:
        cells: Row = {}
        for entry in visible:
            if len(entry.places) == 3 and entry.places[2] is not None:
                cells[entry.places[2]] = entry.numbers.values[0]
            else:
                cells = self._whole_row(entry, row)
        return {column: value for column, value in cells.items() if value}

    def _whole_row(self, entry: Entry, row: int) -> Row:
        if entry.word == "identity":
            return {row: Fraction(1)}
        if entry.word == "uniform":
            return dict.fromkeys(range(self.columns), Fraction(1, self.columns))
        if len(entry.places) == 3:
            return dict.fromkeys(range(self.columns), entry.numbers.values[0])
        first = row * self.columns if len(entry.places) == 1 else 0
        return dict(enumerate(entry.numbers.values[first : first + self.columns]))


class SeenEnds(Table):
    """What is observed in an MDP: the end state."""

    def row(self, action: int, row: int) -> Row:
        return {row: Fraction(1)}


class RewardBlock:
    """The rewards of an action and a start state."""

    def __init__(self, layers: Sequence[Entry], state: int, states: int, observations: int, is_mdp: bool) -> None:
        self._state, self._states, self._observations, self._is_mdp = state, states, observations, is_mdp
        self._layers: Dict[Optional[int], List[Entry]] = {}
        for entry in layers:
            self._layers.setdefault(entry.places[2] if len(entry.places) > 2 else None, []).append(entry)
        self._rows: Dict[int, Tuple[Dict[int, Fraction], Optional[Entry]]] = {}

    def at(self, end: int, observation: int) -> Fraction:
        """The number that is written for an end state and an observation (under `values: cost`, a cost)."""
        cells, base = self._row(end)
        if observation in cells:
            return cells[observation]
        return self._value(base, end, observation) if base else Fraction(0)

    def constant(self, end: int) -> Optional[Fraction]:
        """The number of an end state if it is the same for every observation, as far as that is seen at once."""
        cells, base = self._row(end)
        if cells or (base and not self._is_mdp and len(base.places) < 4):
            return None
        return self._value(base, end, 0) if base else Fraction(0)

    def named_ends(self) -> List[int]:
        """The end states that an entry names."""
        return [end for end in self._layers if end is not None]

    def at_other_ends(self) -> Optional[List[Fraction]]:
        """The numbers of an end state that no entry names: one, or one for each observation. None if they depend on the end state."""
        cells, base = self._row_of(self._layers.get(None, []))
        numbers = base.numbers.values if base else [Fraction(0)]
        if base and len(numbers) > 1 and (self._is_mdp or len(base.places) < 3):
            return None
        if cells and len(numbers) == 1:
            numbers = numbers * self._observations
        return [cells.get(z, number) for z, number in enumerate(numbers)] if cells else numbers

    def _row(self, end: int) -> Tuple[Dict[int, Fraction], Optional[Entry]]:
        """Single cells of an end state, and the entry that gives its other cells."""
        if end not in self._rows:
            self._rows[end] = self._row_of(self._layers.get(end, []) + self._layers.get(None, []))
        return self._rows[end]

    def _row_of(self, layers: Sequence[Entry]) -> Tuple[Dict[int, Fraction], Optional[Entry]]:
        """Single cells that these entries give, and the entry that gives all other cells."""
        cells: Dict[int, Fraction] = {}
        for entry in sorted(layers, key=lambda entry: entry.number, reverse=True):
            if self._is_mdp or len(entry.places) < 4 or entry.places[3] is None:
                return cells, entry
            cells.setdefault(entry.places[3], entry.numbers.values[0])
        return cells, None

    def _value(self, entry: Entry, end: int, observation: int) -> Fraction:
        values, places = entry.numbers.values, len(entry.places)
        if len(values) == 1:
            return values[0]
        if self._is_mdp:
            return values[end if places == 2 else self._state * self._states + end]
        return values[observation if places == 3 else end * self._observations + observation]


class Rewards:
    """The numbers of R, as they are written: under `values: cost` they are costs."""

    def __init__(self, states: int, observations: int, is_mdp: bool) -> None:
        self._states, self._observations, self._is_mdp = states, observations, is_mdp
        self.layers = Layers()
        self._last: Tuple[Tuple[int, ...], RewardBlock] = (), RewardBlock([], 0, states, observations, is_mdp)

    def add(self, entry: Entry) -> None:
        self.layers.add(entry)

    def of(self, action: int, state: int) -> RewardBlock:
        """The rewards of an action and a start state."""
        layers = self.layers.of(action, state)
        key = (*(entry.number for entry in layers), state if any(len(entry.places) == 1 for entry in layers) else -1)
        if self._last[0] != key:
            self._last = key, RewardBlock(layers, state, self._states, self._observations, self._is_mdp)
        return self._last[1]
