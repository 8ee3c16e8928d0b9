"""Models in POMDPX, the XML of APPL (SARSOP): variables of the state, of what is done and of what is seen, and their functions."""
import re
from fractions import Fraction
from math import prod
from typing import Dict, List, NamedTuple, Sequence

from polcert.factored import Function, Values, Variable, number_of
from polcert.files import LIMITS, MOST_PAIRS, Source
from polcert.tokens import quoted, whole_number
from polcert.xml_parser import Element, is_xml, read_tree, tag

_ROOT = re.compile(rb"<pomdpx\b")
# Of XML so many bytes are looked at for its first element.
_HEAD_BYTES = 10_000
# How values are named that are only counted.
_LETTERS = {"StateVar": "s", "ObsVar": "o", "ActionVar": "a"}
_PARTS = ("Variable", "InitialStateBelief", "StateTransitionFunction", "ObsFunction", "RewardFunction")


class StatePart(NamedTuple):
    """A state variable: before a step and after it, and whether it is seen."""

    before: Variable
    after: Variable
    is_seen: bool


class Factored:
    """A model of variables. Of functions those stand first on which others depend."""

    def __init__(self, source: Source) -> None:
        self.source, self.discount = source, Fraction(0)
        self.variables: List[Variable] = []
        self.parts: List[StatePart] = []
        self.actions: List[Variable] = []
        self.observations: List[Variable] = []
        self.rewards: List[str] = []
        self.start: List[Function] = []
        self.moves: List[Function] = []
        self.sees: List[Function] = []
        self.earns: List[Function] = []

    @property
    def is_mdp(self) -> bool:
        """Whether all of the state is seen, and nothing else."""
        return not self.observations and all(part.is_seen for part in self.parts)

    @property
    def seen(self) -> List[Variable]:
        """What an observation has: the seen variables of the state, and those of the observation."""
        return [*(part.after for part in self.parts if part.is_seen), *self.observations]


def is_pomdpx(source: Source) -> bool:
    """Tells whether a text is XML with `<pomdpx` among its first bytes. (Names of XML are case-sensitive.)"""
    return is_xml(source) and _ROOT.search(source.text, 0, _HEAD_BYTES) is not None


def count_of(variables: Sequence[Variable]) -> int:
    return prod(len(variable.labels) for variable in variables)


def read_pomdpx(source: Source) -> Factored:
    """Reads a model. Raises FileError, with the place."""
    return _PomdpxReader(source).read()


class _PomdpxReader:
    def __init__(self, source: Source) -> None:
        self.model = Factored(source)
        self.names: Dict[str, Variable] = {}
        self.before: Dict[str, str] = {}

    def read(self) -> Factored:
        model, root = self.model, read_tree(self.model.source, "model")
        if root.name != "pomdpx":
            raise root.fault(f"expected `<pomdpx>`, found {tag(root.name)}")
        root.all("Description", "Discount", *_PARTS)
        discount = root.one("Discount")
        model.discount = number_of(discount.text.strip(), discount)
        if not 0 <= model.discount <= 1:
            raise discount.fault("the discount is below 0 or above 1")
        self.read_variables(root.one("Variable"))
        befores, afters = [part.before for part in model.parts], [part.after for part in model.parts]
        model.start = self.functions(root.one("InitialStateBelief"), befores, ["previous"])
        model.moves = self.functions(root.one("StateTransitionFunction"), afters, ["action", "previous", "current"])
        if model.observations:
            model.sees = self.functions(root.one("ObsFunction"), model.observations, ["action", "current", "observation"])
        self.read_rewards([child for child in root.children if child.name == "RewardFunction"])
        return model

    # Variables

    def read_variables(self, element: Element) -> None:
        model = self.model
        for child in element.all("StateVar", "ObsVar", "ActionVar", "RewardVar"):
            if child.name == "StateVar":
                self.read_state_variable(child)
            elif child.name == "RewardVar":
                model.rewards.append(child.attribute("vname"))
            else:
                kind, found = ("action", model.actions) if child.name == "ActionVar" else ("observation", model.observations)
                found.append(self.variable(child, child.attribute("vname"), kind, self.labels(child)))
        if not model.parts or not model.actions:
            raise element.fault(f"expected a {tag('ActionVar' if model.parts else 'StateVar')}, found none")
        if not model.observations and not any(part.is_seen for part in model.parts):
            raise element.fault("nothing is seen: expected an `<ObsVar>`, or a `<StateVar>` with `fullyObs`")
        self.refuse_sizes(element)

    def read_state_variable(self, element: Element) -> None:
        is_seen = element.attributes.get("fullyObs", "false").strip()
        if is_seen not in ("true", "false"):
            raise element.fault(f"expected `true` or `false` for `fullyObs`, found {quoted(is_seen)}")
        labels = self.labels(element)
        before = self.variable(element, element.attribute("vnamePrev"), "previous", labels)
        after = self.variable(element, element.attribute("vnameCurr"), "current", labels)
        self.before[after.name] = before.name
        self.model.parts.append(StatePart(before, after, is_seen == "true"))

    def variable(self, element: Element, name: str, kind: str, labels: List[str]) -> Variable:
        if name in self.names or not re.fullmatch(r"\S+", name) or name == "null":
            why = "stands for the second time" if name in self.names else "is no name of a variable"
            raise element.fault(f"{quoted(name)} {why}")
        found = Variable(len(self.model.variables), name, kind, labels)
        self.model.variables.append(found)
        self.names[name] = found
        return found

    def labels(self, element: Element) -> List[str]:
        """The values of a variable: as they are listed, or s0, s1 .. if they are counted."""
        element.all("NumValues", "ValueEnum")
        if len(element.children) != 1:
            raise element.fault(f"expected one `<NumValues>` or `<ValueEnum>` inside of {tag(element.name)}, found {len(element.children) or 'none'}")
        child, most = element.children[0], LIMITS[b"states"]
        words = child.text.split()
        if child.name == "ValueEnum":
            wrong = next((word for i, word in enumerate(words) if word in ("*", "-") or word in words[:i]), None)
            if not 1 <= len(words) <= most or wrong:
                why = f"{quoted(wrong)} twice, or as a name" if wrong else f"{len(words)}"
                raise child.fault(f"expected from 1 to {most:,} different values, found {why}")
            return words
        count = whole_number(words[0]) if len(words) == 1 else None
        if count is None or not 1 <= count <= most:
            raise child.fault(f"expected a count from 1 to {most:,}, found {quoted(child.text.strip())}")
        return [f"{_LETTERS[element.name]}{i}" for i in range(count)]

    def refuse_sizes(self, element: Element) -> None:
        """Refuses a model with more states, actions or observations than polcert reads."""
        model = self.model
        states, seen = count_of([part.before for part in model.parts]), count_of(model.seen)
        for count, kind in ((states, b"states"), (count_of(model.actions), b"actions"), (seen, b"observations")):
            if count > LIMITS[kind]:
                raise element.fault(f"the variables have {count:,} {kind.decode()} together, of which at most {LIMITS[kind]:,} are read")
        if states * seen > MOST_PAIRS:
            raise element.fault(f"the model has more than {MOST_PAIRS:,} pairs of a state and an observation")

    # Functions

    def functions(self, element: Element, owns: Sequence[Variable], kinds: Sequence[str]) -> List[Function]:
        """The functions of these variables, each after those on which it depends."""
        found: Dict[str, Function] = {}
        for child in element.all("CondProb"):
            own = self.own(child, {variable.name: variable for variable in owns})
            if own.name in found:
                raise child.fault(f"{quoted(own.name)} has a `<CondProb>` for the second time")
            found[own.name] = Function(child, own, self.parents(child, kinds), self.before)
        for variable in owns:
            if variable.name not in found:
                raise element.fault(f"no `<CondProb>` gives {quoted(variable.name)}")
        return in_order(found, element)

    def own(self, element: Element, names: Dict[str, Variable]) -> Variable:
        element.all("Var", "Parent", "Parameter")
        child = element.one("Var")
        name = child.text.strip()
        if name not in names:
            raise child.fault(f"expected one of {quoted(' '.join(names))}, found {quoted(name)}")
        return names[name]

    def parents(self, element: Element, kinds: Sequence[str]) -> List[Variable]:
        child = element.one("Parent")
        words = child.text.split()
        names = [] if words == ["null"] else words
        for i, name in enumerate(names):
            if name not in self.names or self.names[name].kind not in kinds or name in names[:i]:
                raise child.fault(f"{quoted(name)} is no variable that may be a parent here, or stands there twice")
        return [self.names[name] for name in names]

    def read_rewards(self, elements: Sequence[Element]) -> None:
        model, found = self.model, []  # type: Factored, List[str]
        for child in [child for element in elements for child in element.all("Func")]:
            child.all("Var", "Parent", "Parameter")
            name = child.one("Var").text.strip()
            if name not in model.rewards or name in found:
                raise child.one("Var").fault(f"{quoted(name)} is no `<RewardVar>`, or has a `<Func>` for the second time")
            found.append(name)
            parents = self.parents(child, ["action", "previous", "current", "observation"])
            model.earns.append(Function(child, None, parents, self.before))


def in_order(functions: Dict[str, Function], element: Element) -> List[Function]:
    """Functions, each after those of its parents. Raises FileError if there is no such order."""
    done: List[Function] = []
    left = list(functions.values())
    while left:
        names = {function.own.name for function in left if function.own}
        ready = [function for function in left if not names.intersection(parent.name for parent in function.parents)]
        if not ready:
            raise left[0].element.fault(f"{quoted(' '.join(sorted(names)))}: each depends on another one of them, or on itself")
        done += ready
        left = [function for function in left if function not in ready]
    return done


def place_of(values: Sequence[int], variables: Sequence[Variable]) -> int:
    """The number of a combination of values: the first variable is the slowest."""
    number = 0
    for variable in variables:
        number = number * len(variable.labels) + values[variable.number]
    return number


def set_values(number: int, variables: Sequence[Variable], values: Values) -> None:
    """Puts the values of a combination, by its number, into a list that has a value for each variable."""
    for variable in reversed(variables):
        number, values[variable.number] = divmod(number, len(variable.labels))
