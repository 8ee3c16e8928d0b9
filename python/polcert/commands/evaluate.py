"""Computes what each node of a policy graph is worth in each state, as vectors for `polcert lower`, `raise` and `check`.

    polcert-evaluate M.POMDP M.pg -o M.alpha
    polcert lower M.POMDP M.pg M.alpha > M.lowered.alpha

The vectors are computed in floating point and written with six decimals, so they may promise a little too much: lower them.

With --within or --percent they are for the worst of all models near: each probability above 0 may lie so far from the model's, or so many
percent of itself, and each reward as far as --rewards-within says. They are rounded down so that this check says yes:

    polcert-evaluate --within 0.01 M.POMDP M.pg -o M.worst.alpha
    polcert_robust check --within 0.01 M.POMDP M.pg M.worst.alpha
"""
import argparse
from fractions import Fraction

from polcert.command import Parser, read_source, refuse_overwriting, write
from polcert.distances import Distances, percent_distance, probability_distance, reward_distance
from polcert.files import read_graph, read_model
from polcert.needs import needs_numpy
from polcert.values import refuse_undiscounted, vectors_text


def arguments() -> argparse.Namespace:
    parser = Parser("polcert-evaluate", __doc__)
    parser.add_argument("model", metavar="MODEL", help="a model (.POMDP) with a discount below 1")
    parser.add_argument("graph", metavar="PG", help="a policy graph (.pg)")
    parser.add_argument("-o", "--output", metavar="FILE", help="write the vectors there, and not to standard output")
    near = parser.add_mutually_exclusive_group()
    near.add_argument("--within", metavar="X", type=probability_distance, help="for the worst model whose probabilities lie so near")
    near.add_argument("--percent", metavar="P", type=percent_distance, help="or within so many percent of themselves")
    parser.add_argument("--rewards-within", metavar="Y", type=reward_distance, help="and whose rewards lie so near; default 0")
    parser.add_argument("--at-most", action="store_true", help="for the best model near, rounded up, to be checked from above")
    words = parser.parse_args()
    if words.within is None and words.percent is None and (words.rewards_within is not None or words.at_most):
        parser.error("--rewards-within and --at-most need --within or --percent")
    return words


def main() -> int:
    words = arguments()
    refuse_overwriting([words.model, words.graph], [words.output])
    model = read_model(read_source(words.model))
    refuse_undiscounted(model)
    graph = read_graph(read_source(words.graph), model)
    with needs_numpy():
        from polcert.arrays import arrays_of
        from polcert.evaluation import array_graph, evaluate
    if words.within is None and words.percent is None:
        values = evaluate(arrays_of(model), array_graph(graph)).tolist()
    else:
        from polcert.watch import Watch
        from polcert.worst_case import worst_case_vectors

        within, percent, rewards = (value or Fraction(0) for value in (words.within, words.percent, words.rewards_within))
        near = Distances(within, rewards, words.at_most, percent)
        values = worst_case_vectors(model, graph, near, Watch(is_quiet=False, can_end_early=False))
    write(vectors_text(graph.actions, values), words.output)
    return 0
