"""Which variables of the state are seen, in a model that polcert-convert wrote: a comment of its text says so."""
import re
from math import prod
from typing import List, NamedTuple, Sequence

MARK = "# Parts of a state, the first one slowest:"
_LINE = re.compile(rb"^" + re.escape(MARK.encode()) + rb" (.*)$", re.M)
_PART = re.compile(rb"\S+ ([0-9]{1,5})( seen)?")
_FIRST_BYTES = 1_000_000


class StateVariable(NamedTuple):
    """A variable of the state: how many values it has, and whether it is seen."""

    size: int
    is_seen: bool


def comment_of(names: Sequence[str], parts: Sequence[StateVariable]) -> str:
    """The line that a converted model has."""
    words = (f"{name} {part.size}{' seen' if part.is_seen else ''}" for name, part in zip(names, parts))
    return f"{MARK} {', '.join(words)}".encode("ascii", "replace").decode()


def parts_of(text: bytes) -> List[StateVariable]:
    """The variables that a text names; none if it was not converted."""
    line = _LINE.search(text, 0, _FIRST_BYTES)
    found = [_PART.fullmatch(part.strip()) for part in line[1].split(b",")] if line else []
    return [StateVariable(int(match[1]), match[2] is not None) for match in found if match]


def states_by_seen(text: bytes, states: int) -> List[List[int]]:
    """The states for each combination of the seen values, in the order of the unseen ones: all of them in one list if nothing is known."""
    parts = parts_of(text) if prod(part.size for part in parts_of(text)) == states else []
    found: List[List[int]] = [[0]]
    for size, is_seen in parts:
        if is_seen:
            found = [[state * size + value for state in group] for group in found for value in range(size)]
        else:
            found = [[state * size + value for state in group for value in range(size)] for group in found]
    return found if parts else [list(range(states))]
