"""Makes a policy graph, and its vectors, of what a solver found.

    polcert-graph M.POMDP SOLVED -o M        writes M.pg and M.alpha
    polcert lower M.POMDP M.pg M.alpha > M.lowered.alpha

SOLVED is one of these:

    a list of vectors: an action and a number for each state, as pomdp-solve writes them
    a policy of SARSOP (.policy)
    a table of R's pomdp: the vectors, or the nodes of a graph, numbered from 1
    a policy of AI-Toolbox, of which the vectors of the most steps are taken
    for an MDP, an action for each state, by name or number
    a policy graph (.pg), which is written as it is, with its vectors

Vectors mean a policy that keeps a belief. Graphs follow that policy from the start: one has a node for each vector that is the best one at
a belief that is met, others a node for each of the likeliest beliefs. An observation leads to the node that is worth most at the belief
after it, chosen again as long as the start is worth more. The graph that is worth most is taken, and nodes are added that are worth more at
the beliefs. It may be worth less than the vectors claim, or more; standard error says so.

More nodes, beliefs, points and rounds take longer and find more. Standard error has a line every few seconds. An interrupt (Ctrl-C) ends
the search early, and the best graph so far is written, unless a second one comes.

With --own-vectors M.alpha has the solver's own vectors and M.pg a node for each of them. Once they are lowered, polcert's yes holds of
a policy that keeps a belief and takes the action of the best of these vectors there. Vectors that no successors back are left out and named:
they must not be run.
"""
import argparse

from polcert.arguments import add_costs, add_json_and_quiet, integer_from_1, number_from_0
from polcert.command import Parser, Refusal, read_source, refuse_overwriting, refuse_unwritable, say
from polcert.controllers import read_controller
from polcert.costs import sign_advice
from polcert.files import MOST_NODES, Graph, read_model
from polcert.graph_limits import GraphLimits
from polcert.needs import needs_numpy
from polcert.values import LARGEST_VALUE, refuse_undiscounted

LIMITS, TRIES = GraphLimits(), 20_000_000


def arguments() -> argparse.Namespace:
    parser = Parser("polcert-graph", __doc__)
    parser.add_argument("model", metavar="MODEL", help="a model (.POMDP) with a discount below 1")
    parser.add_argument("solved", metavar="SOLVED", help="vectors, a policy, or a graph of a solver")
    parser.add_argument("-o", "--output", metavar="NAME", required=True, help="write NAME.pg and NAME.alpha")
    nodes = f"the most nodes of the graph; default {LIMITS.nodes}"
    parser.add_argument("--nodes", metavar="N", type=integer_from_1(MOST_NODES), default=LIMITS.nodes, help=nodes)
    followed = f"how many beliefs are followed to meet vectors; default {LIMITS.beliefs}"
    parser.add_argument("--beliefs", metavar="N", type=integer_from_1(), default=LIMITS.beliefs, help=followed)
    points = f"at how many beliefs nodes are added, beside one for each vector; default {LIMITS.points}"
    parser.add_argument("--points", metavar="N", type=integer_from_1(), default=LIMITS.points, help=points)
    rounds = f"how often at most successors are chosen again, and nodes are added; default {LIMITS.rounds}"
    parser.add_argument("--rounds", metavar="N", type=integer_from_1(), default=LIMITS.rounds, help=rounds)
    add_costs(parser, "SOLVED")
    parser.add_argument("--own-vectors", action="store_true", help="write the solver's own vectors, and a graph that backs them")
    short = "how short of one step a vector of --own-vectors may be; default a ten-thousandth of the greatest value"
    parser.add_argument("--within", metavar="W", type=number_from_0(LARGEST_VALUE), help=short)
    tries = f"how many successors are tried for a vector of --own-vectors, times the states; default {TRIES}"
    parser.add_argument("--tries", metavar="N", type=integer_from_1(), help=tries)
    parser.add_argument("--dot", action="store_true", help="write NAME.dot too, the graph for Graphviz")
    add_json_and_quiet(parser)
    words = parser.parse_args()
    for word in ("within", "tries"):
        if getattr(words, word) is not None and not words.own_vectors:
            parser.error(f"--{word} goes with --own-vectors")
    words.tries = words.tries or TRIES
    return words


def main() -> int:
    words = arguments()
    names = [f"{words.output}.{ending}" for ending in ("pg", "alpha", *(["dot"] if words.dot else []))]
    refuse_overwriting([words.model, words.solved], names)
    refuse_unwritable(names)
    model = read_model(read_source(words.model))
    refuse_undiscounted(model)
    source = read_source(words.solved)
    found = read_controller(source, model, words.costs)
    advice = sign_advice(source, found, model, words.costs)
    if advice:
        say(f"polcert-graph: {advice}")
    if words.own_vectors and isinstance(found, Graph):
        raise Refusal("--own-vectors takes vectors, and these are the nodes of a graph")
    with needs_numpy():
        from polcert.graph_files import write_graph_files
    write_graph_files(model, found, names, words)
    return 0
