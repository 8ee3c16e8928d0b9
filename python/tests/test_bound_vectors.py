"""polcert-bound-vectors: its vectors against values by hand, exact fractions, plain iteration, and polcert's check of all choices."""
import random
from itertools import product
from math import ceil, floor
from typing import Dict, List, Sequence, Tuple
from unittest.mock import patch

from support import EXAMPLES, HAS_NUMPY, NAMES, FolderTest, Said, needs_numpy, needs_program, polcert, run_script
from informed import Exact, Millionths, exact_entries, exact_model, raised
from models import random_model, tag
from polcert.command import read_source
from polcert.files import MILLION, Model, Source, read_model, read_vectors
from polcert.stopping import Stopping
from polcert.tokens import decimal

if HAS_NUMPY:
    import numpy as np
    from polcert import informed as script
    from polcert.arrays import arrays_of

ONE_STATE = b"discount: 0.5 values: %s states: 1 actions: 2 observations: 1 T: * identity O: * uniform R: 0:*:*:* 1 R: 1:*:*:* 3"


def millionths(text: bytes, model: Model) -> List[Millionths]:
    """The vectors of a text, rounded up as polcert_bound reads them. Each has to be that of its action."""
    vectors = read_vectors(Source("out", text), model)
    assert [vector.action for vector in vectors] == list(range(model.actions.count))
    return [[ceil(value * MILLION) for value in vector.values] for vector in vectors]


def iterated(exact: Exact) -> Dict[Tuple[int, int], int]:
    """What 300 backups make of zeros, each rounded down: no more than the informed bound, if no reward is below 0."""
    vectors = [[0] * exact.states for _ in range(exact.actions)]
    for _ in range(300):
        found = exact.backups(vectors)
        vectors = [[floor(found[action, state]) for state in range(exact.states)] for action in range(exact.actions)]
    return {pair: vectors[pair[0]][pair[1]] for pair in found}


class BoundVectors(FolderTest):
    def run_on(self, model: str, *words: str) -> Said:
        said = run_script("polcert-bound-vectors", model, *words)
        self.assertEqual(said.status, 0, said.err)
        return said

    def certified(self, exact: Exact, vectors: Sequence[Millionths]) -> int:
        """What raised vectors are worth at the start, in millionths, after an exact check of each inequality."""
        most = raised(vectors, exact.constant(vectors))
        self.assertEqual(exact.first_exceeded(most), ())
        return exact.at_start(most)

    def bound_of(self, name: str) -> int:
        said = self.run_on(name)
        self.assertEqual(said.err, "")
        model = read_model(read_source(name))
        return self.certified(exact_model(model), millionths(said.out, model))


@needs_numpy
class Values(BoundVectors):
    def near(self, found: Sequence[int], limits: Sequence[float], within: int) -> None:
        """Each value is its limit, or as many millionths above it."""
        for value, limit in zip(found, limits):
            self.assertLessEqual(limit * MILLION - 1e-3, value)
            self.assertLessEqual(value, limit * MILLION + within)

    def test_the_tiger_by_hand(self) -> None:
        # listening is worth x = -1 + 0.95 y, and the better door y = 10 + 0.95 x, since what is heard does not show which door that is
        x, y = 3400 / 39, 3620 / 39
        model = read_model(read_source(str(EXAMPLES / "tiger.POMDP")))
        found = millionths(self.run_on(str(EXAMPLES / "tiger.POMDP")).out, model)
        for values, limits in zip(found, ([x, x], [y - 110, y], [y, y - 110])):
            self.near(values, limits, 20)

    def test_examples_by_a_study(self) -> None:
        # certified with the graphs of all choices by a script of its own, robot's in floating point alone; each is at most 0.00002 too high
        for name, expected, within in (("tiger", 87.1795, 21), ("machine", 14.6889, 21), ("stock", 68.55, 0), ("robot", 3.5367, 100)):
            found = self.bound_of(str(EXAMPLES / f"{name}.POMDP"))
            self.assertLessEqual(abs(found - round(expected * MILLION)), within, name)

    def test_one_state_by_hand(self) -> None:
        model = self.file("M", ONE_STATE % b"reward")
        self.assertEqual(self.run_on(model).out, b"0\n4.000000\n\n1\n6.000000\n\n")

    def test_costs_are_losses(self) -> None:
        model = self.file("M", ONE_STATE % b"cost")
        self.assertEqual(self.run_on(model).out, b"0\n-2.000000\n\n1\n-4.000000\n\n")

    def test_a_discount_of_0(self) -> None:
        model = self.file("M", (ONE_STATE % b"reward").replace(b"0.5", b"0"))
        self.assertEqual(self.run_on(model).out, b"0\n1.000000\n\n1\n3.000000\n\n")

    def test_a_value_is_rounded_up(self) -> None:
        # 3 / 0.9 is 3.3333.., and 3 + 0.1 * 3.333334 is no more than 3.333334
        model = self.file("M", (ONE_STATE % b"reward").replace(b"0.5", b"0.1"))
        self.assertEqual(self.run_on(model).out, b"0\n1.333334\n\n1\n3.333334\n\n")

    def test_random_models_against_fractions(self) -> None:
        for seed in range(40):
            entries = random_model(random.Random(seed), exact=True)
            said = self.run_on(self.file("M", entries.text()))
            exact, model = exact_entries(entries), read_model(Source("M", entries.text()))
            vectors = millionths(said.out, model)
            self.certified(exact, vectors)
            self.assertLessEqual(exact.constant(vectors), 1)
            lower = iterated(exact)
            self.assertTrue(all(lower[a, s] <= vectors[a][s] <= lower[a, s] + 25 for a, s in lower), seed)


@needs_numpy
class Limits(BoundVectors):
    def test_few_rounds_give_a_bound_that_is_less_sharp(self) -> None:
        machine = str(EXAMPLES / "machine.POMDP")
        model = read_model(read_source(machine))
        found = []
        for rounds in ("1", "2", "5", "1000"):
            said = self.run_on(machine, "--rounds", rounds)
            self.assertEqual("stopped early" in said.err, rounds != "1000")
            found.append(self.certified(exact_model(model), millionths(said.out, model)))
        self.assertEqual(found, sorted(found, reverse=True))
        self.assertGreater(found[0], found[-1])

    def test_each_round_leaves_a_bound_and_says_how_far_above_it_is(self) -> None:
        backup = script.by_state(arrays_of(read_model(read_source(str(EXAMPLES / "machine.POMDP")))))
        for rounds in range(1, 9):
            vectors, above = script.settle(backup, np.zeros((3, 2)), 0.95, Stopping(1e-9, rounds))
            values, backups = vectors.max(axis=0), backup(vectors).max(axis=0)
            self.assertTrue(all(x <= y + 1e-9 for x, y in zip(backups, values)), rounds)
            limits = script.settle(backup, vectors, 0.95, Stopping(1e-9, 1000))[0].max(axis=0)
            self.assertTrue(all(-1e-9 <= x - y <= above + 1e-9 for x, y in zip(values, limits)), rounds)

    def test_the_tolerance(self) -> None:
        machine = str(EXAMPLES / "machine.POMDP")
        exact = exact_model(read_model(read_source(machine)))
        rough, fine = (millionths(self.run_on(machine, "--tolerance", x).out, read_model(read_source(machine))) for x in ("0.5", "1e-7"))
        excess = self.certified(exact, rough) - self.certified(exact, fine)
        self.assertTrue(0 < excess <= 0.5 * MILLION + 21, excess)

    def test_too_many_products(self) -> None:
        # the worth of the machine for who sees its state is 16.07306 by the study, rounded as above
        model = read_model(read_source(str(EXAMPLES / "machine.POMDP")))
        with patch.object(script, "MOST_PRODUCTS", 13), patch.object(script, "say") as say:
            vectors, above = script.informed_bound(arrays_of(model), Stopping(1e-7, 1000))
        self.assertIn("14 products of T and O are too many", say.call_args[0][0])
        self.assertLessEqual(above, 1e-7)
        found = self.certified(exact_model(model), [[round(value * MILLION) for value in values] for values in vectors])
        self.assertLessEqual(abs(found - 16_073_060), 21)

    def test_few_rounds_to_round_up_leave_the_rest_to_a_raise(self) -> None:
        model = read_model(read_source(str(EXAMPLES / "tiger.POMDP")))
        exact, most = exact_model(model), script.MOST_ROUNDING
        found = []
        for script.MOST_ROUNDING in (0, most):
            vectors = [[round(value * MILLION) for value in values] for values in script.informed_bound(arrays_of(model), Stopping(1e-7, 1000))[0]]
            found.append((exact.constant(vectors), self.certified(exact, vectors)))
        self.assertEqual(found[1][0], 0)
        self.assertGreater(found[0][0], 0)
        self.assertTrue(found[1][1] <= found[0][1] <= found[1][1] + 20, found)

    def test_a_model_of_the_size_of_tag(self) -> None:
        mended = run_script("polcert-mend", "-q", self.file("rough", tag()))
        self.assertGreater(self.bound_of(self.file("tag", mended.out)), -20 * MILLION)

    def test_what_is_refused(self) -> None:
        tiger = (EXAMPLES / "tiger.POMDP").read_bytes()
        for model, reason in (
            (tiger.replace(b"0.95", b"1"), "M:1:11: the discount is 1, so that no constant raises vectors to a bound: take"),
            (tiger.replace(b"0.85 0.15", b"0.85 0.14"), "M:13:1: M17: the row of O"),
            (tiger.replace(b"listen", b"listen listen", 1), "M:4:"),
            (tiger.replace(b": * 10", b": * 9999999"), "a value is beyond 10,000,000"),
        ):
            said = run_script("polcert-bound-vectors", self.file("M", model), "-o", str(self.folder / "out"))
            self.assertEqual((said.status, said.out), (2, b""))
            self.assertIn(reason, said.err)
            self.assertFalse((self.folder / "out").exists())

    def test_words(self) -> None:
        tiger = str(EXAMPLES / "tiger.POMDP")
        self.assertIn(b"polcert_bound raise", run_script("polcert-bound-vectors", "--help").out)
        wrong = [("--rounds", "0"), ("--rounds", "x"), ("--tolerance", "0"), ("--tolerance", "nan"), (tiger,)]
        for words in [(), *((tiger, *more) for more in wrong)]:
            said = run_script("polcert-bound-vectors", *words)
            self.assertEqual((said.status, said.out), (2, b""), words)
        self.assertIn("No such file", run_script("polcert-bound-vectors", str(self.folder / "none")).err)
        self.run_on(tiger, "-o", str(self.folder / "out"))
        self.assertEqual((self.folder / "out").read_bytes(), self.run_on(tiger).out)


@needs_numpy
@needs_program
class EachChoice(BoundVectors):
    """polcert's check from above of the graph with a node for each action and each choice of an action after each observation."""

    def verdict(self, name: str, vectors: Sequence[Millionths]) -> bytes:
        model = read_model(read_source(name))
        actions = range(model.actions.count)
        choices = list(product(actions, repeat=model.observations.count))
        nodes = [(action, [len(choices) * after for after in choice]) for action in actions for choice in choices]
        graph = "\n".join(f"{i} {action} {' '.join(map(str, row))}" for i, (action, row) in enumerate(nodes))
        alpha = "\n".join(f"{action}\n{' '.join(map(decimal, vectors[action]))}" for action, _ in nodes)
        return polcert("check", "--at-most", name, self.file("graph", graph.encode()), self.file("alpha", alpha.encode())).out

    def check(self, name: str) -> None:
        model = read_model(read_source(name))
        exact, vectors = exact_model(model), millionths(self.run_on(name).out, model)
        most = raised(vectors, exact.constant(vectors))
        expected = f"yes: every start node, at most {decimal(exact.at_start(most))}\n"
        self.assertEqual(self.verdict(name, most), expected.encode())
        less = raised(most, -1)
        self.assertEqual(self.verdict(name, less).startswith(b"yes"), exact.first_exceeded(less) == ())

    def test_examples(self) -> None:
        for name in NAMES[:3]:
            self.check(str(EXAMPLES / f"{name}.POMDP"))

    def test_random_models(self) -> None:
        for seed in range(15):
            self.check(self.file("M", random_model(random.Random(seed), exact=True).text()))
