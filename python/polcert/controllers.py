"""Controllers for a certificate: solved, or made of what was given."""
from typing import TYPE_CHECKING, Callable, NamedTuple, Optional, Tuple

from polcert.command import Refusal
from polcert.files import Graph, Model, read_graph
from polcert.points import WholeCells
from polcert.policies import GraphOrVectors, fault_of_action_count, is_policy_of_mdp, read_policy_of_mdp, read_solved
from polcert.stopping import Stopping, part_of
from polcert.tokens import FileError, Source, quantity
from polcert.values import graph_text, vectors_text
from polcert.xml_parser import is_xml

if TYPE_CHECKING:
    from polcert.solutions import Solution, UpperBound

# After the search its graph is made better for at most this part of its time, unless the gap is so small a part of the lower bound.
BETTER_PART, SMALL_GAP = 0.25, 1e-4
# A graph is made of a solver's vectors in at most this part of the time, and evaluated until that one. The search for a bound then has what is
# left, and at least the last one.
GRAPH_PART, EVALUATED_PART, BOUND_PART = 0.7, 0.8, 0.5


class Controller(NamedTuple):
    """A policy graph and its vectors as texts, and what they are, in one line."""

    graph: bytes
    vectors: bytes
    line: str


def read_controller(source: Source, model: Model, are_costs: bool) -> GraphOrVectors:
    """A graph, or a solver's vectors, whatever the form of the text; the numbers of vectors are negated if they are costs. Raises FileError:
    for a file named .pg that of a graph; and Refusal if a graph is said to be costs."""
    found = _controller_in(source, model, are_costs)
    if are_costs and isinstance(found, Graph):
        raise Refusal(f"--costs takes vectors, and {source.name} has none")
    return found


def _controller_in(source: Source, model: Model, are_costs: bool) -> GraphOrVectors:
    if source.name.endswith(".pg"):
        return read_graph(source, model)
    if is_policy_of_mdp(source, model):
        return graph_of_policy(source, model)
    try:
        return read_solved(source, model, are_costs)
    except FileError as fault:
        if is_xml(source):
            raise
        try:
            return read_graph(source, model)
        except FileError:
            raise fault_of_action_count(source, model) or fault from None


def graph_of_policy(source: Source, model: Model) -> Graph:
    """The graph of an MDP's policy: a node for each action, and for each state that is seen the node of its action. Node 0 is that of the
    likeliest start state."""
    actions = read_policy_of_mdp(source, model)
    first = max(model.start_weights().items(), key=lambda item: item[1])[0]
    nodes = list(dict.fromkeys([actions[first], *actions]))
    return Graph(nodes, [[nodes.index(action) for action in actions]] * len(nodes))


class Search(NamedTuple):
    """How long to search, and until which gap, as a part of the lower bound."""

    seconds: float
    gap: float
    is_stopped: Callable[[], bool]
    is_quiet: bool


class BoundTexts(NamedTuple):
    """Vectors that bound every policy and, unless the model is an MDP, whose vectors are sharp, points; and what they are, in one line."""

    vectors: bytes
    points: Optional[bytes]
    line: str


def bound_texts(cells: WholeCells, found: "UpperBound") -> BoundTexts:
    vectors, points = found.texts(cells)
    return BoundTexts(vectors, None if cells.is_mdp else points, quantity(len(found.points.beliefs), "point"))


def solved(cells: WholeCells, search: Search) -> Tuple["Solution", "UpperBound"]:
    """What is found within the time, or before an interrupt: by a search, whose graph is made better unless it is near enough to the bound."""
    from polcert.search_progress import SearchProgress
    from polcert.solutions import better_solution, solve
    from polcert.solver import Limits
    from polcert.watch import Watch

    found, bound = solve(cells, Limits(search.seconds, search.gap), search.is_stopped, SearchProgress(search.is_quiet).report)
    if cells.is_mdp or bound.most(cells) - found.low <= max(search.gap, SMALL_GAP) * abs(found.low):
        return found, bound
    return better_solution(cells.model, found, Watch(search.is_quiet, seconds=BETTER_PART * search.seconds)), bound


def solved_controller(cells: WholeCells, search: Search) -> Tuple[Controller, BoundTexts]:
    """The controller that polcert-solve finds, and the bound of the same search."""
    found, bound = solved(cells, search)
    line = f"{quantity(len(found.graph.actions), 'node')}, worth {found.low / 1e6:.6f} from the start"
    controller = Controller(graph_text(found.graph), vectors_text(found.graph.actions, found.values.tolist()), line)
    return controller, bound_texts(cells, bound)


def bound_for(cells: WholeCells, search: Search) -> BoundTexts:
    """The bound that polcert-points finds."""
    from polcert.search_progress import SearchProgress
    from polcert.solutions import upper_bound
    from polcert.solver import Limits

    return bound_texts(cells, upper_bound(cells, Limits(search.seconds, search.gap), search.is_stopped, SearchProgress(search.is_quiet).report))


def left_after(search: Search, seconds: float) -> Search:
    """The search for a bound after a graph took so many seconds."""
    return search._replace(seconds=max(BOUND_PART * search.seconds, search.seconds - seconds))


def given_controller(found: GraphOrVectors, model: Model, search: Search) -> Controller:
    """The controller of what was read: a graph as it is, or one that polcert-graph makes of a solver's vectors. If its values do not settle in
    the time, they are lowered."""
    import numpy as np

    from polcert.arrays import arrays_of
    from polcert.evaluation import MOST_SWEEPS, PRECISION, array_graph, evaluate_below, listed_graph
    from polcert.graph_limits import GraphLimits
    from polcert.graphs import graph_of_vectors
    from polcert.reach import Reach, best_of, policy_of
    from polcert.watch import Watch

    reach, claim = Reach(arrays_of(model)), ""
    is_over = part_of(EVALUATED_PART * search.seconds, search.is_stopped)
    if isinstance(found, Graph):
        graph = array_graph(found)
    else:
        policy = policy_of(found)
        claim = f"; the vectors claim {float(best_of(reach.start, policy.vectors)[0][0]):.6f}"
        watch = Watch(search.is_quiet, seconds=GRAPH_PART * search.seconds)
        graph = graph_of_vectors(reach, policy, GraphLimits(), watch)
    begin = np.zeros((len(graph.actions), reach.states))
    values = evaluate_below(reach.arrays, graph, begin, Stopping(PRECISION, MOST_SWEEPS, is_over))
    listed: Graph = listed_graph(graph)
    line = f"{quantity(len(listed.actions), 'node')}, worth {float(best_of(reach.start, values)[0][0]):.6f} from the start{claim}"
    return Controller(graph_text(listed), vectors_text(listed.actions, values.tolist()), line)
