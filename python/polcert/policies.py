"""Policies as solvers write them: lists of vectors, SARSOP's `.policy` files, the tables of R's `pomdp`, the policies of AI-Toolbox, and an
action for each state of an MDP."""
import re
from collections import deque
from fractions import Fraction
from itertools import islice
from math import isfinite
from typing import Deque, Dict, Iterator, List, NamedTuple, Optional, Sequence, Tuple, Union

from polcert.files import END, NAME, NUMERAL, Cursor, FileError, Graph, Model, Source, read_vectors
from polcert.observability import states_by_seen
from polcert.tables import Elements
from polcert.tokens import LARGEST, Token, quoted, whole_number
from polcert.xml_parser import XmlParser, is_xml

_NUMBER = re.compile(r"[+-]?(?:[0-9]+\.?[0-9]*|\.[0-9]+)(?:[eE][+-]?[0-9]+)?")
_STEP_END = re.compile(rb"^[ \t]*@[ \t\r]*$", re.M)
_STEP_WORD = re.compile(rb"[^\s@]+")
_TABLE_WORD = re.compile(rb'"([^"\r\n]*)"|([^\s,"]+)')
_WORD = re.compile(r"\S+")
_LIST_MARK = re.compile(r"\[\[[0-9]+\]\]")
# The bytes of a text from the first one up to the second.
Span = Tuple[int, int]
# What R and pomdp-solve write for a successor that is missing.
_NO_NODE = ("NA", "-", "X")


class Solved(NamedTuple):
    """A vector of a solver: an action, and a number for each state."""

    action: int
    values: List[float]


GraphOrVectors = Union[Graph, List[Solved]]


class Word(NamedTuple):
    """A word of a text and its first byte."""

    begin: int
    text: str


def rewards_of(model: Model) -> Iterator[Fraction]:
    """The numbers that entries of R give, costs as rewards below 0: each reward is one of these, or 0."""
    sign = -1 if model.is_cost else 1
    return (sign * value for entry in model.entries if entry.table == "R" for value in entry.numbers.values)


def read_solved(source: Source, model: Model, are_costs: bool = False) -> GraphOrVectors:
    """What a solver wrote: a graph, if the text is a table of nodes, else vectors, whose numbers are negated if they are costs. Raises
    FileError; never answers no vector at all."""
    sign = -1 if are_costs else 1
    if is_xml(source):
        return _PolicyReader(source, model, sign).read()
    if _STEP_END.search(source.text):
        return _StepsReader(source, model, sign).read()
    if is_table(source):
        return _TableReader(source, model, sign).read()
    return [Solved(vector.action, [sign * float(value) for value in vector.values]) for vector in read_vectors(source, model)]


class _Reader:
    """What the readers of policies share."""

    def __init__(self, source: Source, model: Model, sign: int) -> None:
        self.source, self.model, self.sign = source, model, sign

    def fault(self, byte: int, why: str) -> FileError:
        return FileError(self.source, "", byte, why)

    def whole(self, word: Word, count: int, kind: str) -> int:
        number = whole_number(word.text)
        if number is None or number >= count:
            expected = f"the number of {'an' if kind[0] in 'ao' else 'a'} {kind} from 0 to {count - 1}"
            raise self.fault(word.begin, f"expected {expected}, found {quoted(word.text)}")
        return number

    def number(self, word: Word) -> float:
        if not _NUMBER.fullmatch(word.text) or not isfinite(float(word.text)):
            raise self.fault(word.begin, f"expected a number, found {quoted(word.text)}")
        return self.sign * float(word.text)


class _SeenVector(NamedTuple):
    """A vector of SARSOP: for states with these seen values a number each, in the order of the unseen ones."""

    action: int
    seen: int
    values: List[float]


class _PolicyReader(_Reader, XmlParser):
    """Reads the `<Vector>` and `<SparseVector>` elements of SARSOP's policy. A vector of mixed observability is over the states with the seen
    values that it names, in a model that polcert-convert wrote."""

    def __init__(self, source: Source, model: Model, sign: int) -> None:
        _Reader.__init__(self, source, model, sign)
        XmlParser.__init__(self, source, "policy")
        self.states = states_by_seen(model.source.text, model.states.count)
        self.found: List[_SeenVector] = []
        self.sparse: Optional[_SeenVector] = None
        self.dense: Optional[_SeenVector] = None

    def read(self) -> List[Solved]:
        self.parse()
        if not self.found:
            raise self.fault(len(self.source.text), "expected a `<Vector>` or a `<SparseVector>` of a policy, found none")
        if len(self.states) == 1:
            return [Solved(vector.action, vector.values) for vector in self.found]
        low = self.below_all()
        return [self.over_all_states(vector, low) for vector in self.found]

    def begin(self, name: str, attributes: Dict[str, str]) -> None:
        if name in ("Vector", "SparseVector"):
            action = self.whole(Word(self.byte, attributes.get("action", "nothing")), self.model.actions.count, "action")
            vector = _SeenVector(action, self.seen(attributes.get("obsValue", "0")), [])
            self.dense, self.sparse = (vector, None) if name == "Vector" else (self.dense, vector)
            if self.sparse:
                self.sparse.values.extend([0.0] * len(self.states[vector.seen]))
        elif name == "Entry" and self.sparse is None:
            raise self.fault(self.byte, "an `<Entry>` stands outside of a `<SparseVector>`")

    def seen(self, word: str) -> int:
        """The number of a combination of seen values."""
        if len(self.states) == 1 and word != "0":
            why = "this policy is of mixed observability (obsValue): its vectors are not over all states of this model"
            raise self.fault(self.byte, f"{why}; take the one that polcert-convert makes of the model in POMDPX")
        return self.whole(Word(self.byte, word), len(self.states), "combination of seen values")

    def end(self, name: str, text: str) -> None:
        if name == "Vector" and self.dense:
            states = len(self.states[self.dense.seen])
            words = self.words(text, states, f"{states} numbers, one for each state{self.of_model()}", "")
            self.found.append(self.dense._replace(values=[self.number(word) for word in words]))
        elif name == "Entry":
            state, number = self.words(text, 2, "a state and a number in an `<Entry>`", " words")
            values = self.sparse_vector().values
            values[self.whole(state, len(values), "state")] = self.number(number)
        elif name == "SparseVector":
            self.found.append(self.sparse_vector())
            self.sparse = None

    def of_model(self) -> str:
        return " of the model" if len(self.states) == 1 else " with the seen values"

    def sparse_vector(self) -> _SeenVector:
        """The vector that is read. Raises FileError if another vector stands inside of it."""
        if self.sparse is None:
            raise self.fault(self.byte, "a vector stands inside of a `<SparseVector>`")
        return self.sparse

    def below_all(self) -> float:
        """Less than any policy earns and any vector says: what a vector is worth where its seen values are not."""
        model, least = self.model, min(min(vector.values) for vector in self.found)
        if model.discount < 1:
            least = min(least, float(min(rewards_of(model), default=Fraction(0)) / (1 - model.discount)))
        return max(least - 1, -float(LARGEST))

    def over_all_states(self, vector: _SeenVector, low: float) -> Solved:
        values = [low] * self.model.states.count
        for state, value in zip(self.states[vector.seen], vector.values):
            values[state] = value
        return Solved(vector.action, values)

    def words(self, text: str, count: int, expected: str, unit: str) -> List[Word]:
        """The words of an element, which have to be so many."""
        found = sum(1 for _ in _WORD.finditer(text))
        if found != count:
            raise self.fault(self.byte, f"expected {expected}, found {found}{unit}")
        return [Word(self.byte, word) for word in text.split()]


class _StepsReader(_Reader):
    """Reads the policy of AI-Toolbox: a list of vectors for each number of steps, the fewest first, with `@` after each list. A vector is a
    number for each state, an action and, for each observation, the vector of the list before that follows."""

    def read(self) -> List[Solved]:
        """The vectors of the last list: those of the most steps."""
        lists = self.last_lists()
        if not lists:
            raise self.fault(0, "expected vectors before the first `@`, found none")
        states, observations = self.model.states.count, self.model.observations.count
        width = states + 1 + observations
        counts = [sum(1 for _ in self.words(span)) for span in lists]
        words = self.words(lists[-1])
        if counts[-1] % width:
            parts = f"{states} numbers, an action and {observations} successors"
            why = f"expected {parts} for each vector of the last list, which has {counts[-1]} words"
            raise self.fault(next(words).begin, why)
        nodes = max(1, counts[0] // width if len(lists) > 1 else 0)
        return [self.vector(list(islice(words, width)), nodes) for _ in range(counts[-1] // width)]

    def last_lists(self) -> Deque[Span]:
        """Where the last two lists stand that have words."""
        text, begin = self.source.text, 0
        spans: Deque[Span] = deque(maxlen=2)
        while begin < len(text):
            end = text.find(b"@", begin)
            end = len(text) if end < 0 else end
            if _STEP_WORD.search(text, begin, end):
                spans.append((begin, end))
            begin = end + 1
        return spans

    def words(self, span: Span) -> Iterator[Word]:
        """The words of a list."""
        found = _STEP_WORD.finditer(self.source.text, *span)
        return (Word(match.start(), match[0].decode(errors="replace")) for match in found)

    def vector(self, words: Sequence[Word], nodes: int) -> Solved:
        states = self.model.states.count
        values = [self.number(word) for word in words[:states]]
        action = self.whole(words[states], self.model.actions.count, "action")
        for word in words[states + 1 :]:
            self.whole(word, nodes, "vector of the list before")
        return Solved(action, values)


def table_lines(source: Source) -> Iterator[List[Word]]:
    """The words of each line that is not empty, without quotation marks and without R's `[[1]]`."""
    for line in re.finditer(rb"[^\r\n]+", source.text):
        found = _TABLE_WORD.finditer(line[0])
        words = [Word(line.start() + word.start(), (word[2] or word[1] or b"").decode(errors="replace")) for word in found]
        if words and not _LIST_MARK.fullmatch(words[0].text):
            yield words


def is_table(source: Source) -> bool:
    """Whether the first line names columns, and `action` is one of them."""
    words = [word.text for word in next(table_lines(source), [])] if b"action" in source.text else []
    return "action" in words and not words[0].startswith("#")


class _TableReader(_Reader):
    """Reads a data frame of R's `pomdp`: nodes (`node`, `action`, a column for each observation) or vectors (a column for each state,
    `action`). The nodes are numbered from 1, and a number of the row may stand first."""

    def __init__(self, source: Source, model: Model, sign: int) -> None:
        super().__init__(source, model, sign)
        self.columns = [word for word in next(table_lines(source)) if word.text]
        self.count = sum(1 for _ in self.rows())
        self.at_action = [word.text for word in self.columns].index("action")

    def rows(self) -> Iterator[List[Word]]:
        """The words of each row below the names of the columns."""
        return islice(table_lines(self.source), 1, None)

    def read(self) -> Union[Graph, List[Solved]]:
        before, after = self.columns[: self.at_action], self.columns[self.at_action + 1 :]
        if not self.count:
            raise self.fault(len(self.source.text), "expected a row below the names of the columns, found the end of the text")
        if [word.text for word in before] == ["node"]:
            self.compare(after, self.model.observations)
            return self.graph()
        self.compare(before, self.model.states)
        if after:
            expected = "`action` as the last column after those of the states"
            raise self.fault(after[0].begin, f"expected {expected}, found {quoted(after[0].text)}")
        return [self.vector(self.cells(row)) for row in self.rows()]

    def compare(self, words: Sequence[Word], elements: Elements) -> None:
        """Refuses columns that are not those of the states or the observations. R may have made a point of each `-`."""
        if len(words) != elements.count:
            why = f"expected a column for each {elements.kind} of the model, which are {elements.count}, found {len(words)}"
            raise self.fault(self.columns[self.at_action].begin, why)
        for word, name in zip(words, elements.names or []):
            if word.text not in (name, name.replace("-", ".")):
                raise self.fault(word.begin, f"expected the column of {elements.kind} `{name}`, found {quoted(word.text)}")

    def cells(self, row: Sequence[Word]) -> Sequence[Word]:
        """The words of a row, without its number."""
        width = len(self.columns)
        if [word.text for word in row] == [word.text for word in self.columns]:
            why = "a second table begins here: the graph of a finite horizon has one for each step, and is no controller that runs on"
            raise self.fault(row[0].begin, why)
        if len(row) not in (width, width + 1):
            raise self.fault(row[0].begin, f"expected {width} words, one for each column, found {len(row)}")
        return row[-width:]

    def graph(self) -> Graph:
        graph = Graph([], [])
        for number, row in enumerate(self.rows(), 1):
            node, action, *successors = self.cells(row)
            if node.text != str(number):
                raise self.fault(node.begin, f"expected node {number}, as nodes are numbered 1, 2, .. in order, found {quoted(node.text)}")
            graph.actions.append(self.action(action))
            graph.successors.append([self.successor(word) for word in successors])
        return graph

    def action(self, word: Word) -> int:
        action = self.model.actions.index_of.get(word.text.encode())
        if action is None:
            raise self.fault(word.begin, f"expected the name of an action of the model, found {quoted(word.text)}")
        return action

    def successor(self, word: Word) -> Optional[int]:
        if word.text in _NO_NODE:
            return None
        number = whole_number(word.text)
        if number is None or not 1 <= number <= self.count:
            raise self.fault(word.begin, f"expected a node from 1 to {self.count}, or `NA`, found {quoted(word.text)}")
        return number - 1

    def vector(self, cells: Sequence[Word]) -> Solved:
        return Solved(self.action(cells[-1]), [self.number(word) for word in cells[:-1]])


def is_action_word(token: Token) -> bool:
    return token.is_digits() or token.kind == NAME


def is_policy_of_mdp(source: Source, model: Model) -> bool:
    """Whether a text has as many names and numbers as an MDP has states, and no others: an action for each state."""
    cursor, count = Cursor(source), 0
    while model.is_mdp and is_action_word(cursor.next):
        cursor.take()
        count += 1
    return model.is_mdp and cursor.next.kind == END and count == model.states.count


def fault_of_action_count(source: Source, model: Model) -> Optional[FileError]:
    """The fault of a list of an MDP's actions that are not as many as its states. None if a text is surely no such list: one of numbers alone
    is taken for one only if it is too short for a vector."""
    cursor, actions, states = Cursor(source), model.actions, model.states.count
    count, first_surplus, has_name, are_numbers = 0, 0, False, True
    while model.is_mdp and is_action_word(cursor.next):
        word = cursor.take()
        has_name = has_name or word.text in actions.index_of
        are_numbers = are_numbers and word.kind != NAME and int(word.text) < actions.count
        first_surplus = word.begin if count == states else first_surplus
        count += 1
    if cursor.next.kind != END or not (has_name or are_numbers and 0 < count < states):
        return None
    byte = first_surplus if count > states else cursor.next.begin
    return FileError(source, "", byte, f"expected an action for each state of the model, which are {states}, found {count}")


def read_policy_of_mdp(source: Source, model: Model) -> List[int]:
    """The action of each state, in the order of the states: names or numbers."""
    cursor, actions = Cursor(source), []
    while cursor.next.kind != END:
        token = cursor.take()
        action = int(token.text) if token.kind == NUMERAL else model.actions.index_of.get(token.text, model.actions.count)
        if action >= model.actions.count:
            raise FileError(source, "", token.begin, f"there is no action {token.shown()}")
        actions.append(action)
    return actions
