"""The lines that the programs print, as what they say: a yes, a no, a summary, a constant, or a refusal with its code and place."""
import re
from dataclasses import dataclass
from fractions import Fraction
from typing import NamedTuple, Optional, Union

from polcert.codes import CODES
from polcert.tokens import whole_number


@dataclass(frozen=True)
class Summary:
    """A model that was accepted. An MDP has no observations of its own."""

    line: str
    is_mdp: bool
    states: int
    actions: int
    observations: Optional[int]
    discount: Fraction
    is_cost: bool


@dataclass(frozen=True)
class Yes:
    """The vectors are a lower bound, or with `is_above` an upper bound: `amount` is the bound from the model's start. A lower bound is that
    of the start node `node`; an upper one is of every node, or of every policy."""

    line: str
    amount: Fraction
    is_above: bool
    node: Optional[int] = None


@dataclass(frozen=True)
class EveryModel:
    """The vectors are a bound in every model within these distances (`is_percent`: so many percent of each probability): `amount` is the bound
    from every start within. A lower bound is that of the start node `node`; an upper one is of every node."""

    line: str
    within: Fraction
    rewards_within: Fraction
    amount: Fraction
    node: Optional[int] = None
    is_percent: bool = False


@dataclass(frozen=True)
class No:
    """The first place that fails. `reason` is `short`, `long` or `exceeded`, each by the amount, or `no successor`, without one."""

    line: str
    reason: str
    amount: Optional[Fraction]
    node: Optional[int] = None
    state: Optional[int] = None
    action: Optional[int] = None
    observation: Optional[int] = None
    point: Optional[int] = None

    def __bool__(self) -> bool:
        return False


@dataclass(frozen=True)
class Moved:
    """Vectors that were lowered or raised by the amount, as the text of a file."""

    line: str
    amount: Fraction
    vectors: bytes


class Place(NamedTuple):
    """Where a text is refused. Items are counted from 1, everything else from 0."""

    item: Optional[int] = None
    byte: Optional[int] = None
    table: Optional[str] = None
    action: Optional[int] = None
    row: Optional[int] = None
    node: Optional[int] = None
    state: Optional[int] = None
    observation: Optional[int] = None
    point: Optional[int] = None


@dataclass(frozen=True)
class Refused:
    """A text that is refused, or vectors that cannot be lowered or raised. `subject` is the text (`model`, `graph`, `vectors`, `points`) or the
    command (`lower`, `raise`, `print`), `inner` a code after the first one, and `where` the words of the place."""

    line: str
    subject: str
    code: str
    inner: Optional[str]
    where: str
    place: Place

    def __bool__(self) -> bool:
        return False

    @property
    def meaning(self) -> str:
        return CODES[self.inner or self.code].meaning

    @property
    def mend(self) -> str:
        """What to do."""
        return CODES[self.inner or self.code].mend


_AMOUNT = r"-?[0-9]+(?:\.[0-9]+)?"
_SUMMARY = re.compile(
    rf"(?:mdp|pomdp): ([0-9]+) states, ([0-9]+) actions, (?:([0-9]+) observations, )?discount ({_AMOUNT}), (reward|cost)"
)
_YES = re.compile(rf"yes: (?:start node ([0-9]+), at least|every (?:start node|policy), at most) ({_AMOUNT})")
_EVERY = re.compile(
    rf"yes: every model within ({_AMOUNT})( %)?(?:, rewards within ({_AMOUNT}))?"
    rf", (?:start node ([0-9]+), at least|every start node, at most) ({_AMOUNT})"
)
_NO = re.compile(
    rf"no: (?:node [0-9]+, state [0-9]+, (?P<off>short|long) by (?P<by>{_AMOUNT})|(?:action [0-9]+, state|point [0-9]+, action) [0-9]+, "
    rf"(?P<exceeded>exceeded) by (?P<more>{_AMOUNT})|node [0-9]+, state [0-9]+, observation [0-9]+ has (?P<missing>no successor))"
)
_MOVED = re.compile(rf"(?:lowered|raised) by ({_AMOUNT})")
_REFUSED = re.compile(
    r"(model|graph|vectors|points|lower|raise|print): ([A-Z][0-9]+)(?: ([KN][0-9]))?"
    r"((?: in item [0-9]+)?(?: at byte [0-9]+)?| in [TO], action [0-9]+, row [0-9]+"
    r"| at (?:node|action) [0-9]+(?:, state [0-9]+)?(?:, observation [0-9]+)?| at point [0-9]+, action [0-9]+, observation [0-9]+)"
)


def _number(words: str, kind: str) -> Optional[int]:
    """The number that follows a word."""
    found = re.search(rf"\b{kind} ([0-9]+)", words)
    return whole_number(found[1]) if found else None


def summary_of(line: str) -> Optional[Summary]:
    """The answer of `polcert model`, or None if the line is none."""
    found = _SUMMARY.fullmatch(line)
    if not found or (found[3] is None) != line.startswith("mdp"):
        return None
    observations = None if found[3] is None else int(found[3])
    return Summary(line, observations is None, int(found[1]), int(found[2]), observations, Fraction(found[4]), found[5] == "cost")


def verdict_of(line: str) -> Union[Yes, No, None]:
    """The answer of a check, or None if the line is none."""
    yes, no = _YES.fullmatch(line), _NO.fullmatch(line)
    if yes:
        return Yes(line, Fraction(yes[2]), yes[1] is None, None if yes[1] is None else int(yes[1]))
    if no:
        amount = no["by"] or no["more"]
        place = (_number(line, kind) for kind in ("node", "state", "action", "observation", "point"))
        return No(line, no["off"] or no["exceeded"] or no["missing"], Fraction(amount) if amount else None, *place)
    return None


def every_model_of(line: str) -> Optional[EveryModel]:
    """A yes of polcert_robust, or None if the line is none."""
    found = _EVERY.fullmatch(line)
    if not found:
        return None
    node = None if found[4] is None else int(found[4])
    return EveryModel(line, Fraction(found[1]), Fraction(found[3] or 0), Fraction(found[5]), node, found[2] is not None)


def moved_of(line: str, vectors: bytes) -> Optional[Moved]:
    """The constant that lowering or raising names, with the vectors, or None if the line is none."""
    found = _MOVED.fullmatch(line)
    return Moved(line, Fraction(found[1]), vectors) if found else None


def refused_of(line: str) -> Optional[Refused]:
    """The refusal that a line is, or None if it is none."""
    found = _REFUSED.fullmatch(line)
    if not found or found[2] not in CODES or (found[3] or "K1") not in CODES:
        return None
    where, table = found[4], re.match(r" in ([TO]),", found[4])
    numbers = {kind: _number(where, kind) for kind in ("item", "byte", "action", "row", "node", "state", "observation", "point")}
    if found[1] == "graph" and numbers["node"] is not None and numbers["observation"] is None:
        return None
    places = Place(table=table[1] if table else None, **numbers)
    return Refused(line, found[1], found[2], found[3], where, places)
