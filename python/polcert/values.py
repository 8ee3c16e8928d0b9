"""Values of nodes and vectors as texts, and the discounts with which there are none."""
from math import isfinite
from typing import Callable, Iterable, List

from polcert.command import Refusal
from polcert.files import FileError, Graph, Model

Values = List[float]
LARGEST_VALUE = 10_000_000.0
# How near the iteration of a bound comes to its limit, and its most rounds.
TOLERANCE, ROUNDS = 1e-7, 100_000


def refuse_undiscounted(model: Model) -> None:
    """Raises FileError if the discount is 1, with which the values of nodes are not found here."""
    if model.discount == 1:
        why = "the discount is 1, and what a graph is worth is found here only for a discount below 1"
        raise FileError(model.source, "", model.discount_token.begin, why)


def refuse_discount_of_1(model: Model) -> None:
    """Raises FileError if the discount is 1, with which vectors are not raised to a bound."""
    if model.discount == 1:
        why = "the discount is 1, so that no constant raises vectors to a bound: take a discount just below 1"
        raise FileError(model.source, "", model.discount_token.begin, why)


def vectors_text(actions: Iterable[int], worth: Iterable[Values], written: Callable[[float], str] = "{:.6f}".format) -> bytes:
    """Vectors as solvers write them: with six decimals, or with each value as `written` gives it. Raises Refusal if polcert does not read a
    value."""
    lines: List[str] = []
    for action, values in zip(actions, worth):
        if not all(isfinite(value) and abs(value) <= LARGEST_VALUE for value in values):
            raise Refusal("a value is beyond 10,000,000, which polcert does not read: scale the rewards down")
        lines += [str(action), " ".join(map(written, values)), ""]
    return ("\n".join(lines) + "\n").encode()


def graph_text(graph: Graph) -> bytes:
    """A policy graph as polcert reads it."""
    lines = []
    for node, (action, successors) in enumerate(zip(graph.actions, graph.successors)):
        lines.append(" ".join([str(node), str(action), *("-" if m is None else str(m) for m in successors)]))
    return ("\n".join(lines) + "\n").encode()
