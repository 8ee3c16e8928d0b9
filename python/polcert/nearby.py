"""Certificates for models near the one that is certified: vectors for the worst of all near ones hold in each."""
from fractions import Fraction
from typing import List, NamedTuple, Optional

from polcert.distances import distances_of
from polcert.files import Graph, Model
from polcert.watch import Watch


class Nearby(NamedTuple):
    """What is certified of every model within these distances: what the controller, started in the node, earns in each at least, or why that is
    not known. The first distance is of probabilities, or with % at its end how far each may lie from itself."""

    within: str
    rewards_within: str = "0"
    low: Optional[Fraction] = None
    why_not: str = ""
    node: Optional[int] = None

    def distances(self) -> str:
        return f"within {self.within.replace('%', ' %')}" + (f", rewards within {self.rewards_within}" if self.rewards_within != "0" else "")


def vectors_near(model: Model, graph: Graph, near: Nearby, watch: Watch) -> List[List[float]]:
    """Vectors of a graph for the worst of all models so near. Raises Refusal if they do not settle."""
    from polcert.worst_case import worst_case_vectors  # (which imports numpy)

    return worst_case_vectors(model, graph, distances_of(near.within, near.rewards_within), watch)
