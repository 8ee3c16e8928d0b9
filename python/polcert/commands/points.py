"""Computes belief points: an upper bound on what any policy earns that sees the observations alone, sharper than vectors alone. It needs
numpy and scipy.

    polcert-points M.POMDP -o bound          writes bound.alpha and bound.points

bound.alpha has the vectors of polcert-bound-vectors, and bound.points beliefs with a value for each action. Together they have passed an
exact check here. Points are searched at the beliefs that good policies reach, by the search of polcert-solve. The search ends by time, by
the number of points, by the gap between the bounds, or if nothing moves any more. An interrupt (Ctrl-C) ends it early, and what was
found so far is written, unless a second one comes. For an MDP the vectors are sharp, and there are no points.

Standard error has both bounds every few seconds. The last line, on standard output, names the upper bound that was checked. The lower bound
in it is computed in floating point and not certified.
"""
import argparse
from typing import TYPE_CHECKING

from polcert.arguments import add_json_and_quiet, add_search_limits, integer_from_1
from polcert.command import Parser, read_source, refuse_overwriting, refuse_unwritable, say, show, write_files
from polcert.files import MILLION, read_model
from polcert.gaps import gap_in_words
from polcert.json_output import json_text
from polcert.needs import needs_numpy
from polcert.points import MOST_POINTS, WholeCells
from polcert.search_progress import SearchProgress
from polcert.signals import Interrupt
from polcert.tokens import decimal, quantity
from polcert.values import refuse_discount_of_1

if TYPE_CHECKING:
    from polcert.solutions import UpperBound


def bound_of(cells: WholeCells, words: argparse.Namespace) -> "UpperBound":
    """The bound that is found within the limits, or before an interrupt."""
    from polcert.solutions import upper_bound
    from polcert.solver import Limits

    interrupt, limits = Interrupt(), Limits(words.seconds, words.gap / 100, words.points)
    found = upper_bound(cells, limits, lambda: interrupt.is_there, SearchProgress(words.quiet).report)
    if interrupt.is_there:
        say("polcert-points: interrupted: what was found so far is written")
    return found


def arguments() -> argparse.Namespace:
    parser = Parser("polcert-points", __doc__)
    parser.add_argument("model", metavar="MODEL", help="a model (.POMDP) with a discount below 1")
    parser.add_argument("-o", "--output", metavar="NAME", required=True, help="write NAME.alpha and NAME.points")
    add_search_limits(parser, seconds=40.0)
    most = f"search so many points at most; default {MOST_POINTS:,}"
    parser.add_argument("--points", metavar="N", type=integer_from_1(MOST_POINTS), default=MOST_POINTS, help=most)
    add_json_and_quiet(parser)
    return parser.parse_args()


def main() -> int:
    words = arguments()
    names = [f"{words.output}.{ending}" for ending in ("alpha", "points")]
    refuse_overwriting([words.model], names)
    refuse_unwritable(names)
    model = read_model(read_source(words.model))
    refuse_discount_of_1(model)
    cells = WholeCells(model)
    with needs_numpy():
        found = bound_of(cells, words)
    write_files(dict(zip(names, found.texts(cells))))
    most, size = found.most(cells), len(found.points.beliefs)
    if words.json:
        bound_of_all = {"at_most": decimal(most)}
        show(json_text("polcert-points", files=names, points=size, every_policy=bound_of_all, uncertified_lower_bound=round(found.low, 6)))
        return 0
    bounds = f"lower bound {found.low:.6f}, gap {gap_in_words(found.low, most / MILLION)}"
    show(f"{names[1]}: {quantity(size, 'point')}, every policy at most {decimal(most)} ({bounds})\n")
    return 0
