"""Texts of models, made of arrays of numpy or nested lists of numbers."""
from fractions import Fraction
from math import isfinite
from numbers import Real
from typing import Any, Iterator, List, Sequence, Tuple, Union

# An array of numpy, or nested lists of numbers.
Array = Any


# (Seven parameters: the parts of a model, and how it is mended.)
def model_text(
    transitions: Array, observations: Array, rewards: Array, discount: float, *,
    start: Array = None, is_cost: bool = False, within: Union[str, Fraction, None] = None,
) -> bytes:
    """Writes a model, for the functions of polcert.programs.

    T[a][s][e] is the probability of the end state e, and O[a][e][z] that of the observation z there; for an MDP O is None. R[a][s], R[a][s][e]
    or R[a][s][e][z] is the reward, or if `is_cost` the cost. `start` has a probability for each state; without it they are the same.

    Each number gets the fewest decimals that read back as the same double. polcert refuses more than six, and rows whose decimals do not sum
    to one exactly. With `within`, such as "0.00001", the model is made exact as by `polcert-mend --within`; then all answers are about the
    model that this function returns.

    Raises ValueError if a shape is wrong, a number is not finite, or the model is not to be mended.
    """
    t, o, r = _nested(transitions), _nested(observations), _nested(rewards)
    actions, states, kinds = len(t), len(t[0]), None if o is None else len(o[0][0])
    lines = [f"discount: {_decimal(discount)}", f"values: {'cost' if is_cost else 'reward'}", f"states: {states}", f"actions: {actions}"]
    if kinds is not None:
        lines.append(f"observations: {kinds}")
    if start is not None:
        lines.append(f"start: {_row(_checked('start', _nested(start), [states]))}")
    lines += _rows("T", _checked("T", t, [actions, states, states]))
    if kinds is not None:
        lines += _rows("O", _checked("O", o, [actions, states, kinds]))
    lines += _rewards(r, [actions, states, states] if kinds is None else [actions, states, states, kinds])
    text = ("\n".join(lines) + "\n").encode()
    return text if within is None else _mended(text, Fraction(within))


def _nested(array: Array) -> Array:
    """The nested lists of an array of numpy; other sequences as they are."""
    return array.tolist() if hasattr(array, "tolist") else array


def _checked(name: str, array: Array, shape: Sequence[int]) -> Array:
    """Nested sequences, if they have a shape. Raises ValueError."""
    if isinstance(array, Real) if shape else not isinstance(array, Real):
        raise ValueError(f"{name} has the wrong number of dimensions, or something else than numbers")
    if shape and len(array) != shape[0]:
        raise ValueError(f"{name} has {len(array)} parts where the model has {shape[0]}")
    for part in array if shape else ():
        _checked(name, part, shape[1:])
    return array


def _decimal(number: float) -> str:
    if not isfinite(number):
        raise ValueError(f"{number} is no number of a model")
    return "0" if number == 0 else repr(float(number))


def _row(numbers: Sequence[float]) -> str:
    return " ".join(map(_decimal, numbers))


def _rows(letter: str, table: Array) -> List[str]:
    return [f"{letter}: {action} : {row} {_row(numbers)}" for action, rows in enumerate(table) for row, numbers in enumerate(rows)]


def _rewards(table: Array, sizes: Sequence[int]) -> Iterator[str]:
    """The entries of R, which has at least two of these dimensions. A reward of 0 needs none."""
    dimensions, part = 0, table
    while not isinstance(part, Real):
        dimensions, part = dimensions + 1, part[0]
    if not 2 <= dimensions <= len(sizes):
        raise ValueError(f"R has {dimensions} dimensions")
    stars = " : *" * (len(sizes) - dimensions)
    for place, reward in _cells(_checked("R", table, sizes[:dimensions])):
        if reward != 0:
            yield f"R: {' : '.join(map(str, place))}{stars} {_decimal(reward)}"


def _cells(part: Array, place: Tuple[int, ...] = ()) -> Iterator[Tuple[Tuple[int, ...], float]]:
    """The cells below a place, each with its own."""
    if isinstance(part, Real):
        yield place, float(part)
    else:
        for number, below in enumerate(part):
            yield from _cells(below, (*place, number))


def _mended(text: bytes, within: Fraction) -> bytes:
    from polcert.command import Refusal  # (which with the mender takes longer to import than all else here)
    from polcert.mending import mended
    from polcert.tokens import FileError, Source

    try:
        return mended(Source("the model", text), within).text
    except (FileError, Refusal) as fault:
        raise ValueError(str(fault)) from fault
