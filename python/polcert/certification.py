"""From a model, and a policy if there is one, to certificates: what is computed here is written as texts, and the proved programs answer."""
import os
from dataclasses import dataclass, field
from decimal import ROUND_CEILING, Context, Decimal
from fractions import Fraction
from math import floor
from time import monotonic
from typing import Callable, Dict, List, NamedTuple, Optional, Union

from polcert import programs
from polcert.answers import EveryModel, Moved, No, Refused, Yes
from polcert.command import Refusal
from polcert.controllers import Controller
from polcert.conversion import converted, summary_of_conversion
from polcert.files import MENDABLE, Model, read_graph, read_model, read_vectors
from polcert.gaps import gap_between
from polcert.mending import Mended, mended, summary
from polcert.nearby import Nearby, vectors_near
from polcert.points import start_shares
from polcert.pomdpx import is_pomdpx
from polcert.tokens import MILLION, FileError, Source, six_decimals
from polcert.values import vectors_text
from polcert.watch import Watch


class Uncertified(Exception):
    """A program answers no, or no constant helps: its line."""


class Step(NamedTuple):
    """What was done, what came of it in one line, and how many seconds it took."""

    name: str
    line: str
    seconds: float


@dataclass
class Certificate:
    """The files by their names; the steps; and what the programs answered, exactly: started in `node` the controller earns at least `low`,
    started in any node at most `high`, and every policy at most `most`. A side that has no certificate is None. In an MDP it earns at least
    `seen` if it starts in the best node for the state that is seen. `near` is about every model so near, if that was asked. If `is_mended`, all
    of it is about the mended model, and `written` is about the model as it was written. `missing` says why a side has no certificate."""

    name: str
    files: Dict[str, bytes] = field(default_factory=dict)
    steps: List[Step] = field(default_factory=list)
    low: Optional[Fraction] = None
    node: Optional[int] = None
    high: Optional[Fraction] = None
    seen: Optional[Fraction] = None
    most: Optional[Fraction] = None
    is_cost: bool = False  # (whether the model's numbers are costs)
    is_mended: bool = False
    written: Optional[Nearby] = None
    near: Optional[Nearby] = None
    missing: List[str] = field(default_factory=list)

    @property
    def gap(self) -> Optional[Fraction]:
        """How much more than the controller another policy earns at most."""
        return None if self.best is None or self.most is None else self.most - self.best

    @property
    def best(self) -> Optional[Fraction]:
        """What the controller earns at least if it starts as well as it can."""
        return self.low if self.low is None or self.seen is None else max(self.low, self.seen)

    def refuse_contradictions(self) -> None:
        """Raises Refusal if an upper bound is below what the controller earns at least, which proved programs cannot answer."""
        for low, high in ((self.low, self.high), (self.best, self.most)):
            if low is not None and high is not None:
                gap_between(low, high)

    def sentences(self) -> List[str]:
        """What is certified, in words."""
        lines = []
        if self.low is not None and self.best is not None:
            low = six_decimals(self.low)
            earned = f"at least {low}" if self.high is None else f"between {low} and {six_decimals(self.high)}"
            seen = f", in the best node for the state that is seen at least {six_decimals(self.best)}" if self.best > self.low else ""
            lines.append(f"started in node {self.node}, this controller earns {earned}{seen}")
        if self.most is not None:
            lines.append(f"every policy at most {six_decimals(self.most)}")
        if self.gap is not None and self.best is not None:
            lines.append(f"within {six_decimals(self.gap)}{percent(self.gap, self.best)}")
        if self.is_cost and lines:
            lines.append("the model's numbers are costs: to earn -x is to cost x")
        if self.near is not None and self.near.low is not None:
            lines.append(f"in every model {self.near.distances()}, started in node {self.near.node}, at least {six_decimals(self.near.low)}")
        if self.written is not None and self.written.low is not None:
            lines.append(f"in the model as it was written, started in node {self.written.node}, at least {six_decimals(self.written.low)}")
        return lines


def percent(gap: Fraction, low: Fraction) -> str:
    """A gap in percent of the lower bound, two digits, rounded up. Above 100 % it says little: nothing."""
    if not low or gap > abs(low):
        return ""
    part = 100 * gap / abs(low)
    up = Context(prec=2, rounding=ROUND_CEILING).divide(Decimal(part.numerator), Decimal(part.denominator))
    return f", {up:f} %"


def mean_of_greatest(model: Model, vectors: bytes) -> Fraction:
    """The start's mean of each state's greatest value, rounded down to millionths: what a graph with these vectors, if they pass, earns at
    least that starts in the node that is worth most in the state that is seen."""
    found, shares = read_vectors(Source("the vectors", vectors), model), start_shares(model)
    total = sum((share * max(vector.values[state] for vector in found) for state, share in shares.items()), Fraction(0))
    return Fraction(floor(total * MILLION / sum(shares.values())), MILLION)


class About(NamedTuple):
    """What a certificate of every model near is about, and how its file of vectors ends."""

    words: str
    ending: str


WRITTEN = About("the model as it was written", "written.alpha")
NEAR = About("every model near", "near.alpha")


class Certifier:
    """Takes a model to its certificate step by step. `report` is called with each step that is done."""

    def __init__(self, name: str, within: Fraction, folder: str, report: Callable[[Step], None]) -> None:
        """`folder` has the programs, or is empty if they are on the path."""
        self.found, self.within, self.report = Certificate(name), within, report
        names = "polcert", "polcert_bound", "polcert_robust"
        self.polcert, self.polcert_bound, self.polcert_robust = (os.path.join(folder, program) for program in names)
        self.made: Optional[Mended] = None
        self._begin = monotonic()

    def done(self, name: str, line: str) -> None:
        now = monotonic()
        self.found.steps.append(Step(name, line, now - self._begin))
        self._begin = now
        self.report(self.found.steps[-1])

    def lacks(self, name: str, fault: Uncertified) -> None:
        """Keeps which certificate there is none of, and why."""
        self.done(name, str(fault))
        self.found.missing.append(f"{name}: {fault}")

    def keep(self, ending: str, text: bytes) -> bytes:
        self.found.files[f"{self.found.name}.{ending}"] = text
        return text

    # The model

    def read_model(self, source: Source) -> Model:
        """The model, mended if it is refused for rows that sum to one only nearly, or for more than six decimals. Raises FileError, and
        ProgramError if a program is missing."""
        if is_pomdpx(source):
            source = Source(source.name, converted(source))
            self.done("convert", f"{summary_of_conversion(source)}; what follows is about the converted model")
        try:
            model = read_model(source)
        except FileError as fault:
            if fault.code not in MENDABLE:
                raise
            made = self.made = mended(source, self.within)
            self.found.is_mended = True
            self.done("mend", f"{'; '.join(summary(made.model, made.mend))}; what follows is about the mended model")
            model = read_model(Source(source.name, made.text))
        answer = programs.model(model.source.text, program=self.polcert)
        if isinstance(answer, Refused):  # (by this package's reader it is none)
            raise Refusal(f"{source.name}: {answer.line}")
        programs.found(self.polcert_bound)  # (before anything takes long)
        self.found.is_cost = model.is_cost
        self.keep("POMDP", model.source.text)
        self.done("model", answer.line)
        return model

    # The controller, from below and from above

    def certify(self, read: Model, controller: Controller) -> None:
        """Lowers and raises the vectors, and checks them. Raises Uncertified if there is no lower bound."""
        model = read.source.text
        self.keep("pg", controller.graph)
        self.keep("alpha", controller.vectors)
        lowered = self.moved("lower", programs.lower(model, controller.graph, controller.vectors, program=self.polcert))
        self.keep("lowered.alpha", lowered.vectors)
        yes = self.yes("check", programs.check(model, controller.graph, lowered.vectors, program=self.polcert))
        self.found.low, self.found.node = yes.amount, yes.node
        if read.is_mdp:
            self.found.seen = mean_of_greatest(read, lowered.vectors)
        try:
            raised = self.moved("raise", programs.raise_(model, controller.graph, controller.vectors, program=self.polcert))
            self.keep("raised.alpha", raised.vectors)
            answer = programs.check(model, controller.graph, raised.vectors, above=True, program=self.polcert)
            self.found.high = self.yes("check --at-most", answer).amount
        except Uncertified as fault:
            self.lacks("no upper bound", fault)
        self.found.refuse_contradictions()

    def certify_bound(self, model: bytes, vectors: bytes, points: Optional[bytes]) -> None:
        """Checks a bound on every policy; the vectors are raised first if they are too low."""
        answer = programs.bound(model, vectors, points, program=self.polcert_bound)
        if isinstance(answer, No) and answer.point is None:
            vectors = self.moved("raise the bound", programs.raise_bound(model, vectors, program=self.polcert_bound)).vectors
            answer = programs.bound(model, vectors, points, program=self.polcert_bound)
        self.found.most = self.yes("check the bound", answer).amount
        self.found.refuse_contradictions()
        self.keep("bound.alpha", vectors)
        if points is not None:
            self.keep("bound.points", points)

    # Models near

    def certify_written(self, model: Model, watch: Watch) -> None:
        """Certifies from below what the controller earns in the model as it was written, if that was mended."""
        if self.made is None:
            return
        near = Nearby(*self.made.mend.written.texts())
        if self.made.mend.lost:
            self.found.written = self.failed(near, WRITTEN, f"`{self.made.mend.lost}` became 0")
        else:
            self.found.written = self.certified_near(near, WRITTEN, model, watch)

    def certify_near(self, within: str, model: Model, watch: Watch) -> None:
        """Certifies from below what the controller earns in every model within this distance."""
        self.found.near = self.certified_near(Nearby(within), NEAR, model, watch)

    def certified_near(self, near: Nearby, about: About, model: Model, watch: Watch) -> Nearby:
        try:
            every = self.every_near(near, about, model, watch)
            return near._replace(low=every.amount, node=every.node)
        except (Uncertified, programs.ProgramError, Refusal) as fault:
            return self.failed(near, about, str(fault))

    def failed(self, near: Nearby, about: About, why: str) -> Nearby:
        self.done(about.words, f"no certificate: {why}")
        self.found.missing.append(f"no certificate of {about.words}: {why}")
        return near._replace(why_not=why)

    def every_near(self, near: Nearby, about: About, model: Model, watch: Watch) -> EveryModel:
        """The yes about what the controller earns at least. Raises Uncertified, ProgramError, and Refusal if vectors do not settle."""
        programs.found(self.polcert_robust)
        text = self.found.files[f"{self.found.name}.pg"]
        graph = read_graph(Source("the graph", text), model)
        files = model.source.text, text, vectors_text(graph.actions, vectors_near(model, graph, near, watch))
        every = programs.check_near(files, near.within, near.rewards_within, program=self.polcert_robust)
        if not isinstance(every, EveryModel):
            raise Uncertified(every.line)
        self.keep(about.ending, files[2])
        self.done(about.words, every.line)
        return every

    def moved(self, name: str, answer: Union[Moved, Refused]) -> Moved:
        if isinstance(answer, Refused):
            raise Uncertified(f"{answer.line}: {answer.meaning}")
        self.done(name, answer.line)
        return answer

    def yes(self, name: str, answer: Union[Yes, No, Refused]) -> Yes:
        """A yes. Raises Uncertified for any other answer."""
        if not isinstance(answer, Yes):
            raise Uncertified(answer.line)
        self.done(name, answer.line)
        return answer
