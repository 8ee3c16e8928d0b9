"""Limits of the graphs that are made of vectors."""
from typing import NamedTuple


class GraphLimits(NamedTuple):
    """How many nodes a graph has at most, how many beliefs are followed to meet vectors, at how many more beliefs nodes are added, and how
    often that is done, and successors are chosen again."""

    nodes: int = 1000
    beliefs: int = 5000
    points: int = 100
    rounds: int = 20
