"""Functions of the variables of a POMDPX model: tables and decision diagrams, with exact numbers."""
import re
from fractions import Fraction
from math import prod
from typing import Dict, Iterator, List, NamedTuple, Optional, Sequence, Set, Tuple, Union

from polcert.tokens import NumberFault, exact_value, is_numeral, quoted
from polcert.xml_parser import Element, tag

# What one variable takes with which probability; and the value of each variable, by the variable's number.
Distribution = List[Tuple[int, Fraction]]
Values = List[int]
# So many answers of a function are kept.
_MOST_KEPT = 1_000_000
ONE = Fraction(1)


class Variable(NamedTuple):
    """A variable at one time: `kind` is `previous`, `current`, `action` or `observation`. A state variable is two."""

    number: int
    name: str
    kind: str
    labels: List[str]

    def value_of(self, label: str, where: Element) -> int:
        """The number of a value. Raises FileError."""
        if label not in self.labels:
            raise where.fault(f"{quoted(self.name)} has no value {quoted(label)}, but {quoted(' '.join(self.labels[:8]))}")
        return self.labels.index(label)


Names = Dict[str, Variable]


def number_of(word: str, where: Element) -> Fraction:
    """A number of a text. Raises FileError."""
    size = word[1:] if word[:1] in ("+", "-") else word
    if not (size.isascii() and is_numeral(size.encode()) and re.search("[0-9]", size)):
        raise where.fault(f"expected a number, found {quoted(word)}")
    try:
        return exact_value(size.encode(), word[0] == "-")
    except NumberFault as fault:
        raise where.fault(f"{quoted(word)}: {fault}") from None


class FactoredEntry(NamedTuple):
    """An entry of a table: for each place a value, None for `*` or -1 for `-`; and numbers for all values of the places with `-`. `word` is
    `identity`, `uniform` or nothing."""

    order: int
    places: List[Optional[int]]
    numbers: List[Fraction]
    word: str


class FactoredTable:
    """A function that a table gives: of the parents, and of the variable `own` unless it is a reward. Of entries that give a value the last
    one holds; what none gives is 0."""

    def __init__(self, parameter: Element, parents: Sequence[Variable], own: Optional[Variable]) -> None:
        self._places, self._parents, self._own = [*parents, *([own] if own else [])], len(parents), own
        self._numbers = numbers = "ProbTable" if own else "ValueTable"
        # (entries by the parents of which they name a value, and by these values)
        self._entries: Dict[Tuple[int, ...], Dict[Tuple[Optional[int], ...], List[FactoredEntry]]] = {}
        for order, element in enumerate(parameter.all("Entry")):
            element.all("Instance", numbers)
            self._add(self._read(order, element))

    def _read(self, order: int, element: Element) -> FactoredEntry:
        instance, table = element.one("Instance"), element.one(self._numbers)
        words = instance.text.split()
        if len(words) != len(self._places):
            names = " ".join(place.name for place in self._places)
            raise instance.fault(f"expected {len(self._places)} words, one for each of {quoted(names)}, found {len(words)}")
        signs: Dict[str, Optional[int]] = {"*": None, "-": -1}
        places = [signs[word] if word in signs else place.value_of(word, instance) for word, place in zip(words, self._places)]
        sizes = [len(place.labels) for place, value in zip(self._places, places) if value == -1]
        found = table.text.split()
        if found in (["identity"], ["uniform"]) and not self._own:
            raise table.fault(f"{quoted(found[0])} gives no rewards")
        if found == ["identity"]:
            if len(sizes) != 2 or sizes[0] != sizes[1]:
                raise table.fault("`identity` needs two `-` in its `<Instance>`, of variables with as many values")
            return FactoredEntry(order, places, [], "identity")
        if found == ["uniform"]:
            if places[-1] is not None and places[-1] >= 0:
                raise table.fault("`uniform` needs a `-` or a `*` as the last word of its `<Instance>`")
            return FactoredEntry(order, places, [], "uniform")
        if len(found) != prod(sizes):
            raise table.fault(f"expected {prod(sizes)} numbers, found {len(found)}")
        return FactoredEntry(order, places, [number_of(word, table) for word in found], "")

    def _add(self, entry: FactoredEntry) -> None:
        named = tuple(i for i, value in enumerate(entry.places[: self._parents]) if value is not None and value >= 0)
        key = tuple(entry.places[i] for i in named)
        self._entries.setdefault(named, {}).setdefault(key, []).append(entry)

    def entries(self, values: Sequence[int]) -> List[FactoredEntry]:
        """The entries for these values of the parents, in the order of the text."""
        found = [by_key.get(tuple(values[i] for i in named), []) for named, by_key in self._entries.items()]
        return sorted(entry for entries in found for entry in entries)

    def row(self, values: Sequence[int]) -> Distribution:
        """What the variable takes, or the reward as the number of 0, for these values of the parents: each number above or below 0."""
        cells: Dict[int, Fraction] = {}
        for entry in self.entries(values):
            last = entry.places[-1] if self._own else 0
            for value in range(len(self._own.labels)) if self._own and (last is None or last < 0) else (last,):
                cells[value or 0] = self._number(entry, [*values, value or 0])
        return [(value, number) for value, number in sorted(cells.items()) if number]

    def _number(self, entry: FactoredEntry, values: Sequence[int]) -> Fraction:
        free = [i for i, place in enumerate(entry.places) if place == -1]
        if entry.word == "uniform":
            return Fraction(1, len(self._places[-1].labels))
        if entry.word == "identity":
            return Fraction(values[free[0]] == values[free[1]])
        at = 0
        for i in free:
            at = at * len(self._places[i].labels) + values[i]
        return entry.numbers[at]


class Leaf(NamedTuple):
    """A number, or what a `<SubDAG>` says: `uniform`, `persistent` or `deterministic`, of a variable by its number; `other` is the value of the
    last, or the variable before."""

    kind: str
    number: Fraction = Fraction(0)
    variable: int = 0
    other: int = 0

    def value(self, values: Values) -> Fraction:
        if self.kind == "persistent":
            return Fraction(values[self.variable] == values[self.other])
        if self.kind == "deterministic":
            return Fraction(values[self.variable] == self.other)
        return self.number


class Node(NamedTuple):
    """A node of a diagram: a variable, and what follows each of its values."""

    variable: int
    edges: "Dict[int, Union[Node, Leaf]]"


class Diagram:
    """A function that a decision diagram gives. A value without an edge gives 0."""

    def __init__(self, parameter: Element, names: Names, before: Dict[str, str]) -> None:
        self._names, self._before = names, before
        self._open: Set[str] = set()
        parameter.all("DAG", "SubDAGTemplate")
        self._templates = {child.attribute("id"): child for child in parameter.children if child.name == "SubDAGTemplate"}
        self.root = self._child(parameter.one("DAG"))

    def value(self, values: Values) -> Fraction:
        """What the function gives for these values of all variables."""
        part: Union[Node, Leaf, None] = self.root
        while isinstance(part, Node):
            part = part.edges.get(values[part.variable])
        return part.value(values) if part else Fraction(0)

    def _variable(self, where: Element) -> Variable:
        name = where.attribute("var")
        if name not in self._names:
            raise where.fault(f"{quoted(name)} is neither the variable nor a parent of it")
        return self._names[name]

    def _child(self, element: Element) -> Union[Node, Leaf]:
        """The only child of an element."""
        if len(element.all("Node", "Terminal", "SubDAG")) != 1:
            raise element.fault(f"expected one `<Node>`, `<Terminal>` or `<SubDAG>` inside of {tag(element.name)}, found {len(element.children)}")
        child = element.children[0]
        if child.name == "Terminal":
            return Leaf("number", number_of(child.text.strip(), child))
        return self._leaf(child) if child.name == "SubDAG" else self._node(child)

    def _node(self, element: Element) -> Node:
        variable = self._variable(element)
        edges: Dict[int, Union[Node, Leaf]] = {}
        for edge in element.all("Edge"):
            value = variable.value_of(edge.attribute("val"), edge)
            if value in edges:
                raise edge.fault(f"{quoted(variable.labels[value])} has an `<Edge>` for the second time")
            edges[value] = self._child(edge)
        return Node(variable.number, edges)

    def _leaf(self, element: Element) -> Union[Node, Leaf]:
        kind = element.attribute("type")
        if kind == "template":
            return self._template(element)
        if kind not in ("uniform", "persistent", "deterministic"):
            raise element.fault(f"expected `uniform`, `persistent`, `deterministic` or `template`, found {quoted(kind)}")
        variable = self._variable(element)
        if kind == "uniform":
            return Leaf(kind, number=Fraction(1, len(variable.labels)))
        if kind == "deterministic":
            return Leaf(kind, variable=variable.number, other=variable.value_of(element.attribute("val"), element))
        before = self._names.get(self._before.get(variable.name, ""))
        if before is None:
            raise element.fault(f"{quoted(variable.name)} persists only if its own previous value is a parent")
        return Leaf(kind, variable=variable.number, other=before.number)

    def _template(self, element: Element) -> Union[Node, Leaf]:
        name = element.attribute("idref")
        if name not in self._templates:
            raise element.fault(f"there is no `<SubDAGTemplate>` {quoted(name)}")
        if name in self._open:
            raise element.fault(f"{quoted(name)} stands inside of itself")
        self._open.add(name)
        found = self._child(self._templates[name])
        self._open.remove(name)
        return found


class Function:
    """What `<CondProb>` or `<Func>` gives: for values of the parents, the distribution of a variable, or the number of a reward."""

    def __init__(self, element: Element, own: Optional[Variable], parents: Sequence[Variable], before: Dict[str, str]) -> None:
        self.element, self.own, self.parents = element, own, parents
        parameter = element.one("Parameter")
        kind = parameter.attributes.get("type", "TBL")
        self._kept: Dict[Tuple[int, ...], Distribution] = {}
        self._table: Optional[FactoredTable] = None
        self._diagram: Optional[Diagram] = None
        if kind == "TBL":
            self._table = FactoredTable(parameter, parents, own)
        elif kind == "DD":
            self._diagram = Diagram(parameter, {place.name: place for place in [*parents, *([own] if own else [])]}, before)
        else:
            raise parameter.fault(f"expected the type `TBL` or `DD`, found {quoted(kind)}")

    def row(self, values: Values) -> Distribution:
        """The distribution of the variable; for a reward, its number as that of 0."""
        key = tuple(values[parent.number] for parent in self.parents)
        found = self._kept.get(key)
        if found is None:
            if len(self._kept) >= _MOST_KEPT:
                self._kept.clear()
            found = self._kept[key] = self._table.row(key) if self._table else list(self._row_of_diagram(values))
            if self.own and not found:
                place = ", ".join(f"{parent.name} {parent.labels[value]}" for parent, value in zip(self.parents, key))
                raise self.element.fault(f"nothing gives the probabilities of {quoted(self.own.name)}{' for ' + place if place else ''}")
        return found

    def _row_of_diagram(self, values: Values) -> Iterator[Tuple[int, Fraction]]:
        assert self._diagram is not None
        of_all = list(values)
        for value in range(len(self.own.labels) if self.own else 1):
            if self.own:
                of_all[self.own.number] = value
            number = self._diagram.value(of_all)
            if number:
                yield value, number
