"""Models, policy graphs and vectors, read exactly as polcert reads them (docs/FORMAT.md), for the scripts of this folder. Files are read by
read_source of command.

    model = read_model(read_source("tiger.POMDP"))
    model.transitions.row(action, state)         {end state: probability}, cells above 0 alone
    model.observing.row(action, end)             {observation: probability}
    model.rewards.of(action, state).at(end, observation)
    graph = read_graph(read_source("tiger.pg"), model)
    vectors = read_vectors(read_source("tiger.alpha"), model)

Every number is a Fraction. Tables are kept as the entries of the text, and a row is found when it is asked for: a model with 870 states
and `*` in its entries takes little memory. A text that is refused raises FileError, which knows polcert's own line for it.
With `tolerant=True` a model may have numbers with any number of decimals, and rows and a start that do not sum to one.
"""
from dataclasses import dataclass
from fractions import Fraction
from math import prod
from typing import Dict, List, NamedTuple, Optional, Sequence, Tuple

from polcert.tables import Elements, Entry, Numbers, Places, Rewards, Row, SeenEnds, Start, Table
from polcert.tokens import (
    BAD, COLON, END, MILLION, NAME, NUMERAL, SIGN, STAR, Cursor, FileError, NumberFault, Source, Token, is_millionths, number_after, quantity,
)

# What others take from here, of which some stands in tables and tokens.
__all__ = [
    "BAD", "END", "ITEM_WORDS", "MENDABLE", "MILLION", "MOST_NODES", "NAME", "NUMERAL", "SIGN", "Cursor", "Entry", "FileError", "Graph", "Model",
    "NumberFault", "Numbers", "Row", "Source", "Table", "Token", "Vector", "is_millionths", "number_after", "place_of_row", "read_graph",
    "read_model", "read_vectors",
]

ITEM_WORDS = frozenset(b"discount values states actions observations start T O R".split())
OTHER_RESERVED = frozenset(b"reward cost include exclude uniform identity reset".split())
PREAMBLE = (b"discount", b"values", b"states", b"actions", b"observations")
# The refusals of a model that mending may answer: numbers of more decimals, `reset`, rows and the start.
MENDABLE = ("M2 N4", "M14", "M17", "M18")
LIMITS = {b"states": 10_000, b"actions": 1_000, b"observations": 10_000}
MOST_PAIRS = 5_000_000
LARGE_TABLE = 16_777_216
MOST_REWARD_ENTRIES = 1_048_576
MOST_NODES = 10_000


class Model:
    """A model: its counts and names, its discount, its start and its tables."""

    def __init__(self, source: Source) -> None:
        self.source = source
        self.discount, self.discount_token = Fraction(0), Token(END, 0, 0, b"")
        self.is_cost = self.is_mdp = False
        self.states = self.actions = self.observations = Elements("state", 0)
        self.start = Start("uniform", 0)
        self.entries: List[Entry] = []
        self.transitions = self.observing = Table("T", 0, 0, 0)
        self.rewards = Rewards(0, 0, False)

    def make_tables(self) -> None:
        """Makes the empty tables, once all counts are known."""
        actions, states = self.actions.count, self.states.count
        if self.is_mdp:
            self.observations = Elements("state", states, self.states.names, self.states.index_of)
        observations = self.observations.count
        self.transitions = Table("T", actions, states, states)
        self.observing = (SeenEnds if self.is_mdp else Table)("O", actions, states, observations)
        self.rewards = Rewards(states, observations, self.is_mdp)

    def tables(self) -> List[Table]:
        """The tables whose rows have to sum to one."""
        return [self.transitions] if self.is_mdp else [self.transitions, self.observing]

    def start_weights(self) -> Row:
        """What each state that the start gives a share weighs, as it is written: weights need not sum to one."""
        if self.start.kind == "numbers":
            return {state: value for state, value in enumerate(self.start.numbers.values) if value}
        states = range(self.states.count) if self.start.kind == "uniform" else self.start.states
        return {state: Fraction(1, len(states)) for state in states}


def read_model(source: Source, tolerant: bool = False) -> Model:
    """Reads a model. Raises FileError where polcert refuses it; with `tolerant`, not for decimals and for sums (M2 N4, M17, M18)."""
    model = _ModelReader(source, tolerant).read()
    if not tolerant:
        _refuse_wrong_sums(model)
    return model


def _refuse_wrong_sums(model: Model) -> None:
    for table, action in ((table, action) for table in model.tables() for action in range(table.actions)):
        last = None  # (equal rows may be one object)
        for row, cells in table.row_from_all(action):
            if cells is not last and sum(cells.values()) != 1:
                refusal = f"model: M17 in {table.letter}, action {action}, row {row}"
                why = f"the row of {table.letter} for action {action} and state {row} does not sum to one"
                raise FileError(model.source, "M17", place_of_row(model, table, action, row), why, refusal)
            last = cells


def place_of_row(model: Model, table: Table, action: int, row: int) -> int:
    """The byte of the last entry that gives cells of a row, in a matrix that of the row's first number; the text's end if none does."""
    visible = table.visible(action, row)
    if not visible:
        return len(model.source.text)
    last = visible[-1]
    is_matrix = len(last.places) == 1 and not last.word
    return last.numbers.begins[row * table.columns] if is_matrix else last.begin


def is_item_end(token: Token) -> bool:
    """Whether an item ends before a token: at the next item's word, or at the text's end."""
    return token.kind == END or token.kind == NAME and token.text in ITEM_WORDS


class _ModelReader:
    """Reads the items of a model in order, and refuses the first token that may not stand at its place."""

    def __init__(self, source: Source, tolerant: bool) -> None:
        self.cursor, self.source, self.tolerant = Cursor(source), source, tolerant
        self.model = Model(source)
        self.item = 0
        self.seen: Dict[bytes, int] = {}
        self.has_tables = False
        self.covered = {"T": 0, "O": 0}

    def read(self) -> Model:
        if not self.at_item_end():
            raise self.unexpected("M3", "a word that begins an item (`discount`, `values`, ...)")
        while self.cursor.next.kind != END:
            self.item += 1
            self.read_item(self.cursor.next)
        self.item += 1
        self.begin_entries(self.cursor.next)
        return self.model

    # What is refused

    def fault(self, code: str, byte: int, why: str) -> FileError:
        return FileError(self.source, code, byte, why, f"model: {code} in item {self.item} at byte {byte}")

    def unexpected(self, code: str, expected: str, byte: Optional[int] = None) -> FileError:
        """The refusal of the next token: the code, unless its bytes are no token (M1) or it is `reset` (M14)."""
        token = self.cursor.next
        why = f"expected {expected}, found {token.shown()}"
        if token.kind == BAD:
            return self.fault(f"M1 {token.text.decode()}", token.begin, why)
        if token.text == b"reset" and token.kind == NAME and code != "M3":
            return self.fault("M14", token.begin, "the word `reset` is not read")
        return self.fault(code, token.begin if byte is None else byte, why)

    def at_item_end(self) -> bool:
        return is_item_end(self.cursor.next)

    def colon(self) -> None:
        if self.cursor.next.kind != COLON:
            raise self.unexpected("M4", "a colon")
        self.cursor.take()

    def end_of_body(self) -> None:
        if not self.at_item_end():
            raise self.unexpected("M4", "the end of the item")

    def end_of_numbers(self, expected: str = "the end of the item") -> None:
        if not self.at_item_end():
            raise self.unexpected("M12" if self.cursor.next.kind in (NUMERAL, SIGN) else "M4", expected)

    # Items

    def read_item(self, word: Token) -> None:
        is_preamble = word.text in PREAMBLE
        if (is_preamble or word.text == b"start") and any(key in self.seen for key in (b"T", b"O", b"R")):
            raise self.fault("M6", word.begin, f"{word.shown()} has to stand before all entries of T, O and R")
        if is_preamble and b"start" in self.seen:
            raise self.fault("M6", word.begin, f"{word.shown()} has to stand before the start item")
        if (is_preamble or word.text == b"start") and word.text in self.seen:
            raise self.fault("M5", word.begin, f"{word.shown()} stands for the second time")
        if not is_preamble:
            self.begin_entries(word)
        if word.text == b"O" and self.model.is_mdp:
            raise self.fault("M4", word.begin, "an MDP (a text without `observations:`) has no entries of O")
        self.seen[word.text] = word.begin
        self.cursor.take()
        readers = {b"discount": self.discount, b"values": self.values, b"start": self.start}
        if word.text in readers:
            readers[word.text](word)
        elif is_preamble:
            self.elements(word)
        else:
            self.entry(word)

    def begin_entries(self, word: Token) -> None:
        """At the start item, the first entry or the end: all lines have to be there, and the tables are made."""
        if self.has_tables:
            return
        missing = [line.decode() for line in PREAMBLE[:4] if line not in self.seen]
        if missing:
            raise self.fault("M7", word.begin, f"expected the line `{missing[0]}:` before this, found {word.shown()}")
        model = self.model
        model.is_mdp = b"observations" not in self.seen
        model.make_tables()
        if model.states.count * model.observations.count > MOST_PAIRS:
            raise self.fault("M16", word.begin, f"the model has more than {MOST_PAIRS:,} pairs of a state and an observation")
        self.has_tables = True

    def discount(self, word: Token) -> None:
        self.colon()
        value, begin, numeral = self.number()
        if not 0 <= value <= 1:
            raise self.fault("M15", begin, "the discount is below 0 or above 1")
        self.model.discount, self.model.discount_token = value, numeral
        self.end_of_numbers()

    def values(self, word: Token) -> None:
        self.colon()
        if self.cursor.next.text not in (b"reward", b"cost") or self.cursor.next.kind != NAME:
            raise self.unexpected("M4", "`reward` or `cost`")
        self.model.is_cost = self.cursor.take().text == b"cost"
        self.end_of_body()

    def elements(self, word: Token) -> None:
        self.colon()
        first, limit = self.cursor.next, LIMITS[word.text]
        expected = f"a count from 1 to {limit:,} or names"
        if self.at_item_end():
            raise self.unexpected("M8", expected)
        if first.kind == NUMERAL:
            if not first.is_digits() or not 1 <= int(first.text) <= limit:
                raise self.unexpected("M8", expected)
            self.cursor.take()
            self.end_of_body()
            elements = Elements(word.text[:-1].decode(), int(first.text))
        else:
            elements = self.names(word, limit)
        setattr(self.model, word.text.decode(), elements)

    def names(self, word: Token, limit: int) -> Elements:
        index_of: Dict[bytes, int] = {}
        while not self.at_item_end():
            token = self.cursor.next
            if token.kind != NAME or token.text in OTHER_RESERVED:
                raise self.unexpected("M4", "a name")
            if len(index_of) == limit:
                raise self.unexpected("M8", f"at most {limit:,} names")
            if token.text in index_of:
                raise self.fault("M9", token.begin, f"the name {token.shown()} stands for the second time")
            index_of[token.text] = len(index_of)
            self.cursor.take()
        return Elements(word.text[:-1].decode(), len(index_of), [name.decode() for name in index_of], index_of)

    # Numbers

    def number(self) -> Tuple[Fraction, int, Token]:
        """A number, the byte of its sign or numeral, and the numeral."""
        first = self.cursor.next
        if self.at_item_end():
            raise self.unexpected("M12", "a number")
        sign = self.cursor.take() if first.kind == SIGN else None
        if self.cursor.next.kind != NUMERAL:
            raise self.unexpected("M4", "a number")
        try:
            value, numeral = number_after(self.cursor, sign)
        except NumberFault as fault:
            raise self.fault(f"M2 {fault.code}", first.begin, str(fault)) from None
        if not self.tolerant and not is_millionths(value):
            raise self.fault("M2 N4", first.begin, f"{numeral.shown()} has a non-zero digit after the sixth decimal place")
        return value, first.begin, numeral

    def probability(self, value: Fraction, begin: int) -> None:
        """Refuses what is no probability; a tolerant reader rounds it to millionths first."""
        rounded = Fraction(round(value * MILLION), MILLION) if self.tolerant else value
        if not 0 <= rounded <= 1:
            raise self.fault("M13", begin, "the probability is below 0 or above 1")

    def numbers(self, count: int, are_probabilities: bool) -> Numbers:
        numbers = Numbers()
        for _ in range(count):
            if self.at_item_end() and count > 1:
                raise self.unexpected("M12", f"{count} numbers, of which this is number {len(numbers.values) + 1}")
            value, begin, numeral = self.number()
            if are_probabilities:
                self.probability(value, begin)
            numbers.add(value, begin, numeral)
        self.end_of_numbers(f"no more than {quantity(count, 'number')}")
        return numbers

    # The start

    def start(self, word: Token) -> None:
        if self.cursor.next.text in (b"include", b"exclude") and self.cursor.next.kind == NAME:
            states, kind = self.listed_states(self.cursor.take()), "states"
            self.model.start = Start(kind, word.begin, states)
            return
        self.colon()
        first = self.cursor.next
        if first.kind == NAME and first.text == b"uniform":
            self.cursor.take()
            self.end_of_body()
            self.model.start = Start("uniform", word.begin)
        elif first.kind in (NUMERAL, SIGN) or self.at_item_end():
            self.start_numbers(word)
        else:
            state = self.element(self.model.states)
            self.end_of_body()
            self.model.start = Start("states", word.begin, [state])

    def listed_states(self, word: Token) -> List[int]:
        self.colon()
        listed: Dict[int, None] = {}
        while not self.at_item_end():
            listed[self.element(self.model.states)] = None
        is_included = word.text == b"include"
        states = [state for state in range(self.model.states.count) if (state in listed) == is_included]
        if not states:
            raise self.fault("M19", self.cursor.next.begin, "no state is left to start in")
        return states

    def start_numbers(self, word: Token) -> None:
        numbers, count = Numbers(), self.model.states.count
        first = self.cursor.next
        if first.is_digits() and count > 1 and is_item_end(self.cursor.after_next()):
            state = self.element(self.model.states)
            self.model.start = Start("states", word.begin, [state])
            return
        while len(numbers.values) < count or len(numbers.values) == 0:
            if self.at_item_end():
                raise self.unexpected("M12", f"a probability for each of {count} states, or one state")
            value, begin, numeral = self.number()
            numbers.add(value, begin, numeral)
            if self.cursor.next.kind in (NUMERAL, SIGN) or len(numbers.values) > 1:
                self.probability(numbers.values[0], numbers.begins[0])
                self.probability(value, begin)
            elif not self.at_item_end():
                raise self.unexpected("M4", "a number or the end of the item")
        self.end_of_numbers(f"no more than {quantity(count, 'number')}")
        self.finish_start(word, numbers)

    def finish_start(self, word: Token, numbers: Numbers) -> None:
        count = self.model.states.count
        if count == 1 and numbers.values[0] in (0, 1):
            self.model.start = Start("states", word.begin, [0])
            return
        if sum(numbers.values) != 1 and not self.tolerant or count == 1 and not 0 <= numbers.values[0] <= 1:
            raise self.fault("M18", self.cursor.next.begin, "the probabilities of the start do not sum to one")
        self.model.start = Start("numbers", word.begin, numbers=numbers)

    # Entries

    def place(self, elements: Elements) -> Optional[int]:
        """The index of an element, or None for `*`."""
        if self.cursor.next.kind == STAR:
            self.cursor.take()
            return None
        return self.element(elements)

    def element(self, elements: Elements) -> int:
        """The index of an element."""
        token = self.cursor.next
        if token.is_digits():
            if int(token.text) >= elements.count:
                raise self.fault("M11", token.begin, f"there is no {elements.kind} {token.shown()}: numbers begin at 0")
            return int(self.cursor.take().text)
        if token.kind != NAME or token.text in OTHER_RESERVED or self.at_item_end():
            raise self.unexpected("M4", f"the name or the number of {'an' if elements.kind[0] in 'ao' else 'a'} {elements.kind}")
        if token.text not in elements.index_of:
            raise self.fault("M10", token.begin, f"there is no {elements.kind} {token.shown()}")
        return elements.index_of[self.cursor.take().text]

    def entry(self, word: Token) -> None:
        model, letter = self.model, word.text.decode()
        kinds = [model.actions, model.states, model.observations if letter == "O" else model.states]
        sizes = [kind.count for kind in kinds]
        if letter == "R" and not model.is_mdp:
            kinds, sizes = kinds + [model.observations], sizes + [model.observations.count]
        places = self.places(kinds)
        self.skip_star_of_mdp(letter, len(places))
        if letter == "R" and not model.is_mdp and len(places) == 1:
            raise self.unexpected("M4", "a colon: `R: a` with a matrix is read in an MDP alone")
        text = self.body_word(letter, len(places))
        numbers = Numbers() if text else self.numbers(prod(sizes[len(places):]), letter != "R")
        entry = Entry(letter, self.item, word.begin, places, text, numbers)
        self.refuse_too_many_cells(entry, sizes)
        model.entries.append(entry)
        if letter == "R":
            model.rewards.add(entry)
        else:
            (model.transitions if letter == "T" else model.observing).add(entry)

    def places(self, kinds: Sequence[Elements]) -> Places:
        self.colon()
        places = [self.place(kinds[0])]
        while self.cursor.next.kind == COLON and len(places) < len(kinds):
            self.cursor.take()
            places.append(self.place(kinds[len(places)]))
        return tuple(places)

    def skip_star_of_mdp(self, letter: str, places: int) -> None:
        if letter == "R" and self.model.is_mdp and places == 3 and self.cursor.next.kind == COLON:
            self.cursor.take()
            if self.cursor.next.kind != STAR:
                raise self.unexpected("M4", "`*`: in an MDP a reward does not depend on what is observed")
            self.cursor.take()

    def body_word(self, letter: str, places: int) -> str:
        """Takes `uniform` or `identity`, if it stands where it is read."""
        token = self.cursor.next
        is_uniform = token.text == b"uniform" and letter != "R" and places < 3
        is_identity = token.text == b"identity" and letter == "T" and places == 1
        if token.kind != NAME or not (is_uniform or is_identity):
            return ""
        self.cursor.take()
        self.end_of_body()
        return token.text.decode()

    def refuse_too_many_cells(self, entry: Entry, sizes: Sequence[int]) -> None:
        if prod(sizes) <= LARGE_TABLE:
            return
        byte = self.cursor.next.begin
        if entry.table == "R":
            if self.model.rewards.layers.count >= MOST_REWARD_ENTRIES:
                raise self.fault("M16", byte, f"there are more than {MOST_REWARD_ENTRIES:,} entries of R")
            return
        self.covered[entry.table] += covered_cells(entry, sizes)
        if self.covered[entry.table] > LARGE_TABLE:
            raise self.fault("M16", byte, f"entries of {entry.table} give more than {LARGE_TABLE:,} cells a probability above 0")


def covered_cells(entry: Entry, sizes: Sequence[int]) -> int:
    """How many cells an entry gives a weight above 0."""
    stars = prod(size for place, size in zip(entry.places, sizes) if place is None)
    if entry.word == "uniform":
        return stars * prod(sizes[len(entry.places):])
    return stars * (sizes[1] if entry.word else sum(1 for value in entry.numbers.values if value))


@dataclass
class Graph:
    """A policy graph: the action of each node, and its successor for each observation, None if there is none."""

    actions: List[int]
    successors: List[List[Optional[int]]]


def read_graph(source: Source, model: Model) -> Graph:
    """Reads the policy graph of a model. Raises FileError where polcert refuses it."""
    return _GraphReader(source, model.actions.count, model.observations.count).read()


class _GraphReader:
    def __init__(self, source: Source, actions: int, observations: int) -> None:
        self.cursor, self.source = Cursor(source), source
        self.actions, self.observations = actions, observations
        self.graph = Graph([], [])

    def fault(self, code: str, why: str) -> FileError:
        byte = self.cursor.next.begin
        return FileError(self.source, code, byte, why, f"graph: {code} at byte {byte}")

    def digits(self, expected: str) -> int:
        """A number of digits only; the cursor stays at it."""
        token = self.cursor.next
        if token.kind == END:
            raise self.fault("G6", f"expected {expected}, found the end of the text")
        if token.kind == BAD:
            raise self.fault(f"G1 {token.text.decode()}", f"expected {expected}, found {token.shown()}")
        if not token.is_digits():
            raise self.fault("G2", f"expected {expected}, found {token.shown()}")
        return int(token.text)

    def read(self) -> Graph:
        while self.cursor.next.kind != END:
            self.read_node(len(self.graph.actions))
        if not self.graph.actions:
            raise self.fault("G7", "expected a node, found the end of the text")
        self.refuse_missing_nodes()
        return self.graph

    def read_node(self, node: int) -> None:
        if node == MOST_NODES and self.cursor.next.kind != BAD:
            raise self.fault("G8", f"there are more than {MOST_NODES:,} nodes")
        expected = f"the number of node {node}"
        if self.digits(expected) != node:
            raise self.fault("G3", f"expected {expected}, found {self.cursor.next.shown()}")
        self.cursor.take()
        if self.digits("an action") >= self.actions:
            raise self.fault("G4", f"there is no action {self.cursor.next.shown()}")
        self.graph.actions.append(int(self.cursor.take().text))
        self.graph.successors.append([self.successor(z) for z in range(self.observations)])

    def successor(self, observation: int) -> Optional[int]:
        if self.cursor.is_at_none():
            self.cursor.take()
            return None
        number = self.digits(f"the successor for observation {observation}: a node, `-` or `X`")
        self.cursor.take()
        return number

    def refuse_missing_nodes(self) -> None:
        count = len(self.graph.actions)
        for node, successors in enumerate(self.graph.successors):
            for observation, successor in enumerate(successors):
                if successor is not None and successor >= count:
                    byte = byte_of_token(self.source, node * (2 + self.observations) + 2 + observation)
                    refusal = f"graph: G5 at node {node}, observation {observation}"
                    raise FileError(self.source, "G5", byte, f"there is no node {successor}", refusal)


def byte_of_token(source: Source, number: int) -> int:
    """The first byte of a token, counted from 0."""
    cursor = Cursor(source)
    for _ in range(number):
        cursor.take()
    return cursor.next.begin


class Vector(NamedTuple):
    """An action and a number for each state."""

    action: int
    values: List[Fraction]


def read_vectors(source: Source, model: Model, graph: Optional[Graph] = None) -> List[Vector]:
    """Reads vectors, exactly as they are written. With a graph they have to be those of its nodes, else those of any actions. Raises
    FileError where polcert refuses them, and if there is no vector."""
    return _VectorReader(source, model, graph).read()


class _VectorReader:
    def __init__(self, source: Source, model: Model, graph: Optional[Graph]) -> None:
        self.cursor, self.source, self.graph = Cursor(source), source, graph
        self.actions, self.states = model.actions.count, model.states.count

    def fault(self, code: str, byte: int, why: str) -> FileError:
        return FileError(self.source, code, byte, why, f"vectors: {code} at byte {byte}")

    def unexpected(self, code: str, byte: int, expected: str) -> FileError:
        token = self.cursor.next
        why = f"expected {expected}, found {token.shown()}"
        if token.kind == BAD:
            return self.fault(f"V1 {token.text.decode()}", token.begin, why)
        return self.fault("V5" if token.kind == END else code, token.begin if token.kind == END else byte, why)

    def read(self) -> List[Vector]:
        vectors: List[Vector] = []
        while self.cursor.next.kind != END:
            action = self.action(len(vectors))
            vectors.append(Vector(action, [self.number(len(vectors), state) for state in range(self.states)]))
        if not vectors or self.graph and len(vectors) < len(self.graph.actions):
            nodes = f"{len(self.graph.actions)} vectors, one for each node" if self.graph else "a vector"
            raise self.fault("V6", self.cursor.next.begin, f"expected {nodes}, found {len(vectors)}")
        return vectors

    def action(self, vector: int) -> int:
        token = self.cursor.next
        if self.graph and vector == len(self.graph.actions) and token.kind != BAD:
            raise self.fault("V6", token.begin, f"there are more vectors than nodes, which are {vector}")
        if not token.is_digits():
            raise self.unexpected("V3", token.begin, f"the action of vector {vector}, a number")
        action = int(token.text)
        if self.graph and action != self.graph.actions[vector]:
            raise self.fault("V4", token.begin, f"expected action {self.graph.actions[vector]} of node {vector}, found {token.shown()}")
        if not self.graph and action >= self.actions:
            raise self.fault("", token.begin, f"there is no action {token.shown()} in the model, which has {self.actions}")
        self.cursor.take()
        return action

    def number(self, vector: int, state: int) -> Fraction:
        first, expected = self.cursor.next, f"the value of vector {vector} in state {state}"
        sign = self.cursor.take() if first.kind == SIGN else None
        if self.cursor.next.kind != NUMERAL:
            raise self.unexpected("V3", first.begin, expected)
        try:
            return number_after(self.cursor, sign)[0]
        except NumberFault as fault:
            raise self.fault(f"V2 {fault.code}", first.begin, str(fault)) from None
