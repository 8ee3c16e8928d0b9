"""Computes one vector for each action: an upper bound on what any policy earns that sees the observations alone.

    polcert-bound-vectors M.POMDP -o bound.alpha
    polcert_bound raise M.POMDP bound.alpha > bound.raised.alpha
    polcert_bound check M.POMDP bound.raised.alpha

The bound is the fast informed bound: what the action earns at once and, for each observation, the discounted worth of the action that is
best for all end states together. If T and O have more than 5,000,000 products above 0, it is the bound of a policy that sees the states,
which is less sharp. It is computed in floating point, with numpy and scipy, and rounded up to six decimals. So some values may be a little
too low: raise them.
"""
import argparse

from polcert.arguments import integer_from_1, number_above_0
from polcert.command import Parser, read_source, refuse_overwriting, say, write
from polcert.files import read_model
from polcert.needs import needs_numpy
from polcert.stopping import Stopping
from polcert.values import ROUNDS, TOLERANCE, refuse_discount_of_1, vectors_text


def arguments() -> argparse.Namespace:
    parser = Parser("polcert-bound-vectors", __doc__)
    parser.add_argument("model", metavar="MODEL", help="a model (.POMDP) with a discount below 1")
    parser.add_argument("-o", "--output", metavar="FILE", help="write the vectors there, and not to standard output")
    near = f"how near the iteration comes to its limit; default {TOLERANCE}"
    parser.add_argument("--tolerance", metavar="X", type=number_above_0, default=TOLERANCE, help=near)
    parser.add_argument("--rounds", metavar="N", type=integer_from_1(), default=ROUNDS, help=f"the most rounds of each iteration; default {ROUNDS:,}")
    return parser.parse_args()


def main() -> int:
    words = arguments()
    refuse_overwriting([words.model], [words.output])
    model = read_model(read_source(words.model))
    refuse_discount_of_1(model)
    with needs_numpy():
        from polcert.arrays import arrays_of
        from polcert.informed import informed_bound
    vectors, above = informed_bound(arrays_of(model), Stopping(words.tolerance, words.rounds))
    write(vectors_text(range(len(vectors)), vectors.tolist()), words.output)
    if above > words.tolerance:
        say(f"polcert-bound-vectors: stopped early, so that values may be {above:.6f} higher than they have to be")
    return 0
