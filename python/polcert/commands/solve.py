"""Solves a model: writes a policy graph with its vectors, and vectors and belief points of an upper bound. It needs numpy and scipy.

    polcert-solve M.POMDP -o NAME            writes NAME.pg, NAME.alpha, NAME.bound.alpha and NAME.bound.points
    polcert check M.POMDP NAME.pg NAME.alpha
    polcert_bound check M.POMDP NAME.bound.alpha NAME.bound.points

The solver is a heuristic search (HSVI) that keeps the graph of its backups: the vectors are what this graph is worth, rounded down so that
the check passes. (If it names a shortfall of a millionth or so, which floating point can leave, run lower, or raise, first.) The bound has
passed an exact check here. The search ends by time, by the gap between its bounds, or if nothing moves any more. An interrupt (Ctrl-C) ends
it early, and what was found so far is written, unless a second one comes. MDPs are solved by value iteration, and have no points.

Standard error has both bounds every few seconds. The last line, on standard output, has what is written.
"""
import argparse
from typing import TYPE_CHECKING, Tuple

from polcert.arguments import add_json_and_quiet, add_search_limits
from polcert.command import Parser, read_source, refuse_overwriting, refuse_unwritable, say, show, write_files
from polcert.controllers import Search, solved
from polcert.files import read_model
from polcert.gaps import gap_in_words
from polcert.json_output import json_text
from polcert.needs import needs_numpy
from polcert.points import WholeCells
from polcert.signals import Interrupt
from polcert.tokens import MILLION, decimal, quantity
from polcert.values import graph_text, refuse_discount_of_1, vectors_text

if TYPE_CHECKING:
    from polcert.solutions import Solution, UpperBound


def found_within(cells: WholeCells, words: argparse.Namespace) -> Tuple["Solution", "UpperBound"]:
    """What is found within the limits, or before an interrupt."""
    interrupt = Interrupt()
    found = solved(cells, Search(words.seconds, words.gap / 100, lambda: interrupt.is_there, words.quiet))
    if interrupt.is_there:
        say("polcert-solve: interrupted: what was found so far is written")
    return found


def arguments() -> argparse.Namespace:
    parser = Parser("polcert-solve", __doc__)
    parser.add_argument("model", metavar="MODEL", help="a model (.POMDP) with a discount below 1")
    parser.add_argument("-o", "--output", metavar="NAME", required=True, help="write NAME.pg, NAME.alpha and the files of the bound")
    add_search_limits(parser, seconds=60.0)
    add_json_and_quiet(parser)
    return parser.parse_args()


def main() -> int:
    words = arguments()
    names = [f"{words.output}.{ending}" for ending in ("pg", "alpha", "bound.alpha", "bound.points")]
    refuse_overwriting([words.model], names)
    refuse_unwritable(names)
    model = read_model(read_source(words.model))
    refuse_discount_of_1(model)
    cells = WholeCells(model)
    with needs_numpy():
        found, bound = found_within(cells, words)
    vectors = vectors_text(found.graph.actions, found.values.tolist())
    write_files(dict(zip(names, (graph_text(found.graph), vectors, *bound.texts(cells)))))
    size, most = len(found.graph.actions), bound.most(cells)
    if words.json:
        bound_of_all = {"at_most": decimal(most)}
        show(json_text("polcert-solve", files=names, nodes=size, worth=decimal(found.low), every_policy=bound_of_all))
        return 0
    nodes, within = quantity(size, "node"), gap_in_words(found.low / MILLION, most / MILLION)
    show(f"{names[0]}: {nodes}, worth {decimal(found.low)} from the start; every policy at most {decimal(most)} (gap {within})\n")
    return 0
