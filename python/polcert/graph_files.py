"""Makes the files of polcert-graph: a policy graph and its vectors, of what a solver wrote."""
import argparse
from typing import List, NamedTuple, Optional, Sequence, Union

from polcert.arrays import arrays_of
from polcert.command import say, show, write_files
from polcert.drawing import dot_of
from polcert.evaluation import ArrayGraph, array_graph, evaluate, listed_graph
from polcert.files import Graph, Model
from polcert.graph_limits import GraphLimits
from polcert.graphs import graph_of_vectors
from polcert.json_output import json_text
from polcert.policies import Solved
from polcert.reach import Reach, best_of, policy_of
from polcert.tokens import quantity
from polcert.values import graph_text, vectors_text
from polcert.watch import Watch
from polcert.witness import find_witness

# How exactly the graph that is written is evaluated.
FINE = 1e-7


def write_graph_files(model: Model, found: Union[Graph, List[Solved]], names: Sequence[str], words: argparse.Namespace) -> None:
    """Writes the graph and the vectors that the words of polcert-graph ask for, of what was read."""
    reach = Reach(arrays_of(model))
    if isinstance(found, Graph):
        write_graph(reach, array_graph(found), None, Output(model, names, words.json))
        return
    if words.own_vectors:
        write_witness(reach, found, Output(model, names, words.json), words)
        return
    policy, watch = policy_of(found), Watch(words.quiet)
    limits = GraphLimits(words.nodes, words.beliefs, words.points, words.rounds)
    graph = graph_of_vectors(reach, policy, limits, watch)
    if watch.is_over():
        say("polcert-graph: interrupted: the best graph so far is written")
    write_graph(reach, graph, float(best_of(reach.start, policy.vectors)[0][0]), Output(model, names, words.json))


class Output(NamedTuple):
    """The model, the names of the files, of which the last may be for Graphviz, and whether the result is JSON."""

    model: Model
    names: Sequence[str]
    is_json: bool

    def write(self, graph: Graph, vectors: bytes) -> None:
        """Writes the files: all of them or none."""
        write_files(dict(zip(self.names, (graph_text(graph), vectors, dot_of(self.model, graph).encode()))))


def write_graph(reach: Reach, graph: ArrayGraph, claim: Optional[float], output: Output) -> None:
    """Writes a graph and what its nodes are worth."""
    values, names = evaluate(reach.arrays, graph, precision=FINE), output.names
    output.write(listed_graph(graph), vectors_text(graph.actions.tolist(), values.tolist()))
    earned = float(best_of(reach.start, values)[0][0])
    if output.is_json:
        show_result(names, len(graph.actions), worth=round(earned, 6), claim=None if claim is None else round(claim, 6))
        return
    claimed = "" if claim is None else f"; the vectors claim {claim:.6f}, {difference(claim - earned)}"
    say(f"{names[0]}: {quantity(len(graph.actions), 'node')}, worth {earned:.6f} from the start{claimed}")


def write_witness(reach: Reach, solved: Sequence[Solved], output: Output, words: argparse.Namespace) -> None:
    """Writes a graph for a solver's own vectors, and those of them that it backs."""
    found = find_witness(reach, solved, words.within, words.tries, Watch(words.quiet, can_end_early=False))
    vectors, names = [solved[n] for n in found.kept], output.names
    # (with all digits, which polcert rounds down as it reads them)
    output.write(found.graph, vectors_text((vector.action for vector in vectors), (vector.values for vector in vectors), repr))
    claim = best_of(reach.start, policy_of(vectors).vectors)[0][0]
    if output.is_json:
        left_out = [int(n) for n in found.left_out]
        show_result(names, len(vectors), worth=None, claim=round(float(claim), 6), short=round(float(found.short), 6), left_out=left_out)
        return
    say(f"{names[0]}: {len(vectors)} of {len(solved)} vectors, short by at most {found.short:.6f}, claim {claim:.6f} from the start")
    if found.left_out:
        say(f"{names[0]}: left out, and not to be run: {numbers(found.left_out)} of {words.solved}, counted from 0")


def show_result(names: Sequence[str], nodes: int, **fields: object) -> None:
    """Writes the result as JSON. What the graph earns and what the vectors claim is computed in floating point."""
    show(json_text("polcert-graph", files=list(names), nodes=nodes, **fields))


def numbers(vectors: Sequence[int]) -> str:
    return f"vector{'' if len(vectors) == 1 else 's'} {', '.join(map(str, vectors))}"


def difference(more: float) -> str:
    """By how much the vectors claim more than the graph earns."""
    return "the same" if abs(more) < 5e-7 else f"{abs(more):.6f} {'more' if more > 0 else 'less'}"
