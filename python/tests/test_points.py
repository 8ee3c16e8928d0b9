"""polcert-points and the exact check of points: rows worked by hand, policies of three steps in exact fractions, and what is written."""
import contextlib
import random
import re
import signal
import subprocess
import sys
from fractions import Fraction
from itertools import product
from math import ceil
from typing import Any, Dict, Iterator, List, NamedTuple, Optional, Sequence, Tuple
from unittest.mock import patch

from models import random_model
from support import EXAMPLES, HAS_NUMPY, SCRIPTS, FolderTest, Said, needs_numpy, run_script
from test_outputs import NO_FILES, OutputTest, disk
from polcert.command import Refusal, read_source
from polcert.files import MILLION, FileError, Model, Source, read_model, read_vectors
from polcert.points import (
    Excess, PointCheck, Points, WholeCells, check_points, check_vectors, least_raise, most_from_points, points_text, read_points,
)

if HAS_NUMPY:
    import numpy as np
    import polcert.certificate
    from polcert.arrays import arrays_of
    from polcert.certificate import Ends, FloatCheck, certified_points, informed_vectors, passing
    from polcert.evaluation import evaluate
    from polcert.informed import informed_bound
    from polcert.solver import Limits, Solver
    from polcert.stopping import never

TIGER = str(EXAMPLES / "tiger.POMDP")
TIGER_VECTORS = [[87_179_494, 87_179_494], [-17_179_480, 92_820_520], [92_820_520, -17_179_480]]
TIGER_POINTS = b"""0 0.85 0.15
21.443557  0 1
-65.097189  1 1
11.902811  1 1

1 0.5 0.5
19.37138  0 3
-26.597189  1 1
-26.597189  1 1

2 0 1
25.982671  - -
28.402811  1 1
-81.597189  1 1

3 0.15 0.85
21.443557  1 3
11.902811  1 1
-65.097189  1 1

4 1 0
25.982671  - -
-81.597189  1 1
28.402811  1 1
"""

# Nothing moves and nothing is seen: state 0 earns 1 each step and state 1 earns nothing, so that their values are 2 and 0.
STILL = b"discount: 0.5 values: reward states: 2 actions: 1 observations: 1 T: 0 identity O: 0 uniform R: 0 : 0 : * : * 1"
# Two actions, which earn 1 and 3 in the only state, so that its value is 6.
CHOICE = b"discount: 0.5 values: %s states: 1 actions: 2 observations: 1 T: * identity O: * uniform R: 0:*:*:* 1 R: 1:*:*:* 3"


def cells_of(text: bytes) -> WholeCells:
    return WholeCells(read_model(Source("M", text)))


class Row(NamedTuple):
    """Vectors and points for a model, the point, the action and the backup above its value where the check fails first (in units of a point
    with weight 1, in millionths), or what it says of the start."""

    name: str
    vectors: List[List[int]]
    points: bytes
    fails: Optional[Tuple[int, int, Fraction]]
    most: int


# The backup of (0.5 0.5) is 0.5 + 0.5 * what follows is worth.
STILL_ROWS = [
    Row("the vectors alone", [[2_000_000, 0]], b"", None, 1_000_000),
    Row("looser vectors alone", [[4_000_000, 1_000_000]], b"", None, 2_500_000),
    Row("a point by sharp vectors", [[2_000_000, 0]], b"0 0.5 0.5  1 -", None, 1_000_000),
    Row("a point by itself", [[4_000_000, 1_000_000]], b"0 0.5 0.5  1 0", None, 1_000_000),
    Row("a value that is too low", [[4_000_000, 1_000_000]], b"0 0.5 0.5  0.999998 0", (0, 0, Fraction(1)), 0),
    Row("half a millionth", [[4_000_000, 1_000_000]], b"0 0.5 0.5  0.999999 0", (0, 0, Fraction(1, 2)), 0),
    Row("no point is named", [[4_000_000, 1_000_000]], b"0 0.5 0.5  1 -", (0, 0, Fraction(750_000)), 0),
    Row("corners in place of the vectors", [[4_000_000, 1_000_000]], b"0 0.5 0.5  1 -  1 1 0  2 1  2 0 1  0 2", None, 1_000_000),
    Row("one corner alone", [[4_000_000, 1_000_000]], b"0 0.5 0.5  1 -  1 1 0  2 1", (0, 0, Fraction(250_000)), 0),
    Row("a corner above the vector is not charged", [[4_000_000, 1_000_000]], b"0 1 0  9 -", None, 2_500_000),
    Row("the least of two corners is charged", [[4_000_000, 1_000_000]], b"0 1 0  3 -  1 1 0  2 1  2 0.5 0.5  1.25 -", None, 1_250_000),
    Row("the first corner that is too low", [[4_000_000, 1_000_000]], b"0 1 0  2 0  1 1 0  1.9 1", (1, 0, Fraction(50_000)), 0),
    Row("weights that do not sum to one", [[4_000_000, 1_000_000]], b"0 0.1 0.1  1 0", None, 1_000_000),
    Row("a point that does not fit", [[4_000_000, 1_000_000]], b"0 0.5 0.5  1 0  1 1 0  2 0", None, 1_000_000),
    Row("and does not help", [[4_000_000, 1_000_000]], b"0 0.5 0.5  1 0  1 1 0  1.8 0", (1, 0, Fraction(100_000)), 0),
    # (0.75 0.25) is (0.5 0.5) and a half of state 0 more: 0.75 + 0.5 * (0.5 * 1 + 0.5 * 4), and by the corner 2 there 0.75 + 0.5 * 1.5
    Row("a point that fits in part", [[4_000_000, 1_000_000]], b"0 0.5 0.5  1 0  1 0.75 0.25  2 0", None, 1_000_000),
    Row("and what is left at a corner", [[4_000_000, 1_000_000]], b"0 0.5 0.5  1 0  1 0.75 0.25  1.5 0  2 1 0  2 2", None, 1_000_000),
    Row("and a value below that", [[4_000_000, 1_000_000]], b"0 0.5 0.5  1 0  1 0.75 0.25  1.999 0", (1, 0, Fraction(1_000)), 0),
]


class CheckByHand(FolderTest):
    def test_rows(self) -> None:
        cells = cells_of(STILL)
        for row in STILL_ROWS:
            points = read_points(Source("P", row.points), cells)
            self.assertIsNone(check_vectors(cells, row.vectors), row.name)
            excess = check_points(cells, row.vectors, points)
            if row.fails is None:
                self.assertIsNone(excess, row.name)
                self.assertEqual(most_from_points(cells, row.vectors, points), row.most, row.name)
            else:
                assert excess is not None, row.name
                scale = cells.step_scale * sum(points.beliefs[excess.point].values())
                self.assertEqual((excess.point, excess.action, Fraction(excess.amount, scale)), row.fails, row.name)

    def test_actions_and_costs(self) -> None:
        # action 1 is worth 3 + 3, and action 0 then 1 + 3; as costs 0 is worth -1 - 1 and 1 then -3 - 1
        for values, right in ((b"reward", (4, 6)), (b"cost", (-2, -4))):
            cells, vectors = cells_of(CHOICE % values), [[8_000_000], [9_000_000]]
            for wrong in (None, 0, 1):
                typed = [value - (0.25 if action == wrong else 0) for action, value in enumerate(right)]
                points = read_points(Source("P", b"0 1  %g 0  %g 0" % tuple(typed)), cells)
                excess = check_points(cells, vectors, points)
                self.assertEqual(excess and excess.action, wrong, (values, wrong))
                if wrong is None:
                    self.assertEqual(most_from_points(cells, vectors, points), max(right) * MILLION)

    def test_a_start_that_a_point_covers(self) -> None:
        text = STILL.replace(b" T: 0", b" start: 0.3 0.7 T: 0")
        cells, vectors = cells_of(text), [[4_000_000, 1_000_000]]
        for given, most in (
            (b"", 1_900_000), (b"0 0.3 0.7  0.6 0", 600_000), (b"0 0.15 0.35  0.6 0", 600_000),
            # 0.6 of the start is (0.5 0.5), and what is left is state 1; 0.3 is state 0, and what is left has the vector's 1
            (b"0 0.5 0.5  1 0", 1_000_000), (b"0 1 0  2 0", 1_300_000), (b"0 1 0  2 0  1 0 1  0 1", 600_000),
        ):
            points = read_points(Source("P", given), cells)
            self.assertIsNone(check_points(cells, vectors, points))
            self.assertEqual(most_from_points(cells, vectors, points), most)
        # 0.3 of a millionth is rounded up
        self.assertEqual(most_from_points(cells, [[1, 0]], Points([], [], [])), 1)

    def test_informed_vectors(self) -> None:
        cells = cells_of(STILL)
        self.assertIsNone(check_vectors(cells, [[2_000_000, 0]]))
        # by a millionth too low: the backup is half a millionth above
        self.assertEqual(check_vectors(cells, [[1_999_999, 0]]), Excess(0, 0, cells.step_scale // 2))
        self.assertEqual(least_raise(cells, [[1_999_999, 0]]), 1)
        self.assertEqual(least_raise(cells, [[2_000_000, -3]]), 3)
        self.assertEqual(least_raise(cells, [[4_000_000, 0]]), 0)

    def test_the_tiger(self) -> None:
        cells = WholeCells(read_model(read_source(TIGER)))
        points = read_points(Source("P", TIGER_POINTS), cells)
        self.assertIsNone(check_vectors(cells, TIGER_VECTORS))
        self.assertIsNone(check_points(cells, TIGER_VECTORS, points))
        self.assertEqual(most_from_points(cells, TIGER_VECTORS, points), 19_371_380)
        points.values[1][0] -= 10
        excess = check_points(cells, TIGER_VECTORS, points)
        assert excess is not None
        self.assertEqual((excess.point, excess.action), (1, 0))
        self.assertEqual(ceil(Fraction(excess.amount, cells.step_scale * MILLION)), 10)

    def test_a_text_that_is_read_is_written(self) -> None:
        cells = WholeCells(read_model(read_source(TIGER)))
        self.assertEqual(points_text(cells, read_points(Source("P", TIGER_POINTS), cells)), TIGER_POINTS)


class Refused(FolderTest):
    def test_texts(self) -> None:
        cells = cells_of(STILL)
        for text, refusal, reason in (
            (b"1 0.5 0.5 1 -", "B4 at byte 0", "P:1:1: B4: expected the number of point 0, found `1`"),
            (b"0 0.5 0.5 1 - 2", "B4 at byte 14", "P:1:15: B4: expected the number of point 1, found `2`"),
            (b"x", "B3 at byte 0", "P:1:1: B3: expected the number of point 0, found `x`"),
            (b"0 0.5 -0.5 1 -", "B3 at byte 6", "P:1:7: B3: expected the weight of state 1 in point 0, found `-`"),
            (b"0 1.0000001 0 1 -", "B2 N3 at byte 2", "P:1:3: B2 N3: expected the weight of state 0 in point 0, which is at most 1"),
            (b"0 0.5 0.500001 1 -", "B5 at byte 6", "P:1:7: B5: the weights of point 0 do not sum to a number above 0 and at most 1"),
            (b"0 0 0.0000009 1 -", "B5 at byte 4", "P:1:5: B5: the weights of point 0 do not sum"),
            (b"0 0.5", "B7 at byte 5", "P:1:6: B7: expected the weight of state 1 in point 0, found the end of the text"),
            (b"0 0.5 0.5 - -", "B3 at byte 10", "P:1:11: B3: expected the value of action 0 at point 0, found `-`"),
            (b"0 0.5 0.5 -1e8 -", "B2 N3 at byte 10", "P:1:11: B2 N3: the number is beyond 10,000,000"),
            (b"0 0.5 0.5 1e999 -", "B2 N2 at byte 10", "P:1:11: B2 N2: the exponent"),
            (b"0 0.5 0.5 1", "B7 at byte 11", "P:1:12: B7: expected the point after point 0, action 0 and observation 0: a point, `-`"),
            (b"0 0.5 0.5 1 -1", "B3 at byte 12", "P:1:13: B3: expected the point after point 0, action 0 and observation 0: a point, `-`"),
            (b"0 0.5 0.5 1 1", "B6 at point 0, action 0, observation 0", "P:1:13: B6: there is no point 1"),
            (b"0 0.5 0.5 1 0 1 1 0 -1 2 2 1 0 1 5", "B6 at point 2, action 0, observation 0", "P:1:34: B6: there is no point 5"),
            (b"0 0.5,", "B1 K1 at byte 5", "P:1:6: B1 K1: expected the weight of state 1 in point 0, found a byte that begins"),
            (b"0 0.5 0.5 1 X x", "B3 at byte 14", "P:1:15: B3: expected the number of point 1, found `x`"),
        ):
            with self.assertRaises(FileError) as caught:
                read_points(Source("P", text), cells)
            self.assertTrue(str(caught.exception).startswith(reason), f"{text!r}: {caught.exception}")
            self.assertEqual(caught.exception.refusal, f"points: {refusal}")

    def test_too_many_points(self) -> None:
        text = b"".join(b"%d 1 0 2 -\n" % number for number in range(10_001))
        cells = cells_of(STILL)
        self.assertEqual(len(read_points(Source("P", text[: text.rindex(b"10000")]), cells).beliefs), 10_000)
        with self.assertRaisesRegex(FileError, "B8: there are more than 10,000 points"):
            read_points(Source("P", text), cells)

    def test_weights_are_rounded_down_and_values_up(self) -> None:
        points = read_points(Source("P", b"# two states\n0 0.3333333333 6.666669e-1 -0.9999999 -\n"), cells_of(STILL))
        self.assertEqual(points, Points([{0: 333_333, 1: 666_666}], [[-999_999]], [[{}]]))


# Policies


Fractions = Dict[int, Fraction]
# A belief, and for each action a bound on what policies earn that begin with it.
Bounded = Tuple[Fractions, List[Fraction]]
# An action, and for each observation the policy that follows; for no step nothing.
Policy = Tuple[Any, ...]


def after(model: Model, belief: Fractions, action: int) -> Dict[int, Fractions]:
    """For each observation the belief after it, weighted by its probability."""
    found: Dict[int, Fractions] = {}
    for state, weight in belief.items():
        for end, p in model.transitions.row(action, state).items():
            for z, q in model.observing.row(action, end).items():
                ends = found.setdefault(z, {})
                ends[end] = ends.get(end, 0) + weight * p * q
    return found


def gain(model: Model, belief: Fractions, action: int) -> Fraction:
    """The expected reward of an action, weighted as the belief."""
    total = Fraction(0)
    for state, weight in belief.items():
        block = model.rewards.of(action, state)
        for end, p in model.transitions.row(action, state).items():
            total += weight * p * sum(q * block.at(end, z) for z, q in model.observing.row(action, end).items())
    return -total if model.is_cost else total


def policies(model: Model, steps: int) -> Iterator[Policy]:
    """Every policy of so many steps."""
    if steps == 0:
        yield ()
        return
    later = list(policies(model, steps - 1))
    for action in range(model.actions.count):
        for following in product(later, repeat=model.observations.count if steps > 1 else 0):
            yield (action, *following)


def earned(model: Model, belief: Fractions, policy: Policy) -> Fraction:
    if not policy:
        return Fraction(0)
    action, *following = policy
    total = gain(model, belief, action)
    if following:
        total += model.discount * sum(earned(model, ends, following[z]) for z, ends in after(model, belief, action).items())
    return total


def most_earned(model: Model, belief: Fractions, steps: int) -> List[Fraction]:
    """For each first action, what the best policy of so many steps earns: the best one goes on after each observation."""
    found = []
    for action in range(model.actions.count):
        later = after(model, belief, action).values() if steps > 1 else ()
        found.append(gain(model, belief, action) + model.discount * sum(max(most_earned(model, ends, steps - 1)) for ends in later))
    return found


def certified(model: Model, trials: int) -> Tuple[WholeCells, List[List[int]], Points, "Solver"]:
    """A certificate from a few trials, which has passed its checks."""
    cells, arrays = WholeCells(model), arrays_of(model)
    vectors = informed_vectors(cells, informed_bound(arrays)[0])
    solver = Solver(arrays, np.array(vectors) / MILLION)
    solver.run(Limits(20.0, 1e-7, 1000), lambda: solver.trials >= trials, lambda it: None)
    points = certified_points(solver, cells, vectors, Ends(never, never), lambda: None)
    assert check_vectors(cells, vectors) is None and check_points(cells, vectors, points) is None
    return cells, vectors, points, solver


@needs_numpy
class EveryPolicy(FolderTest):
    """Rewards of policies of three steps, in exact fractions, are at most what the definition of the bound says."""

    def models(self, most_actions: int, most_observations: int, count: int) -> Iterator[Model]:
        seed = 0
        while count:
            model = read_model(Source("M", random_model(random.Random(seed), exact=True).text()))
            seed += 1
            are_few = model.actions.count <= most_actions and model.observations.count <= most_observations
            if are_few and not model.is_mdp and min(model.states.count, model.actions.count, model.observations.count) > 1:
                count -= 1
                yield model

    def beliefs(self, model: Model, vectors: Sequence[Sequence[int]], points: Points, most: int) -> Iterator[Bounded]:
        """The points and the start, with what policies of three steps earn at most by first action: the bound less discount ^ 3 times the
        lowest value."""
        low = min(most, *(min(values) for values in [*vectors, *points.values]))
        for belief, values in zip(points.beliefs, points.values):
            mass = sum(belief.values())
            bounds = [(value - model.discount**3 * low) / MILLION for value in values]
            yield {state: Fraction(weight, mass) for state, weight in belief.items()}, bounds
        yield model.start_weights(), [(most - model.discount**3 * low) / MILLION] * model.actions.count

    def test_every_policy_alone(self) -> None:
        for model in self.models(2, 2, 6):
            cells, vectors, points, _ = certified(model, 6)
            most, all_policies = most_from_points(cells, vectors, points), list(policies(model, 3))
            self.assertEqual(len(all_policies), 2 * (2 * 2**2) ** 2)
            for belief, bounds in list(self.beliefs(model, vectors, points, most))[-4:]:
                for policy in all_policies:
                    self.assertLessEqual(earned(model, belief, policy), bounds[policy[0]])

    def test_the_best_policy_at_every_point(self) -> None:
        for model in self.models(3, 3, 20):
            cells, vectors, points, solver = certified(model, 12)
            most = most_from_points(cells, vectors, points)
            for belief, bounds in self.beliefs(model, vectors, points, most):
                self.assertTrue(all(earned <= bound for earned, bound in zip(most_earned(model, belief, 3), bounds)))
            self.assertLessEqual(solver.low, most / MILLION + 1e-9)

    def test_a_bound_that_is_lowered_is_none(self) -> None:
        # (so that the comparison above can fail: what is certified is near what is earned)
        tried = 0
        for model in self.models(2, 2, 8):
            cells, vectors, points, solver = certified(model, 60)
            self.assertLess(most_from_points(cells, vectors, points) / MILLION - solver.low, 1e-2)
            if points.beliefs:
                lowered = [[value - 100 for value in values] for values in points.values]
                self.assertIsNotNone(check_points(cells, vectors, Points(points.beliefs, lowered, points.following)))
                tried += 1
        self.assertGreater(tried, 2)


@needs_numpy
class Certificates(FolderTest):
    def test_values_that_are_too_low_are_raised_until_they_pass(self) -> None:
        cells = WholeCells(read_model(read_source(TIGER)))
        for most_raises in (1000, 3):
            for seed in range(5):
                random_, points = random.Random(seed), read_points(Source("P", TIGER_POINTS), cells)
                points.values = [[value - random_.randrange(2000) for value in values] for values in points.values]
                with patch.object(polcert.certificate, "MOST_RAISES", most_raises):
                    passing(PointCheck(cells, TIGER_VECTORS, points))
                self.assertIsNone(check_points(cells, TIGER_VECTORS, points))
                most = most_from_points(cells, TIGER_VECTORS, points)
                self.assertTrue(19_371_368 <= most <= 19_371_380 + (0 if most_raises == 1000 else 40_000), most)

    def float_checks(self) -> Iterator[FloatCheck]:
        """Those of searches in a model of 256 states and in random ones, of the smallest and the largest numbers too."""
        models = [read_model(read_source(str(EXAMPLES / "machine.POMDP")))]
        models += [read_model(Source("M", random_model(random.Random(seed), exact=True).text())) for seed in range(50)]
        for model in models:
            with patch.object(polcert.certificate, "FloatCheck", side_effect=FloatCheck) as made, contextlib.suppress(Refusal):
                if not model.is_mdp and model.discount < 1:
                    certified(model, 6)
            if made.called and made.call_args[0][1].points.beliefs:
                yield FloatCheck(*made.call_args[0])

    def count_decided(self, quick: FloatCheck) -> int:
        """The pairs that floating point decides, which all pass the exact check, and not just so."""
        quick.check.charge_again()
        pairs = np.argwhere(~quick.undecided()).tolist()
        for point, action in pairs:
            self.assertLess(quick.check.excess(point, action), 0)
        return len(pairs)

    def test_one_constant_for_all(self) -> None:
        # by itself (0.5 0.5) is worth 0.5 + 0.5 * 0.5, which is 0.25 more than 0.5; the least constant is 0.25 / (1 - 0.5)
        cells, vectors = cells_of(STILL), [[4_000_000, 1_000_000]]
        check = PointCheck(cells, vectors, read_points(Source("P", b"0 0.5 0.5  0.5 0"), cells))
        polcert.certificate.raise_all(check)
        self.assertEqual((check.points.values, check.first_excess()), ([[1_000_000]], None))

    @patch("polcert.certificate.MOST_RAISES", 1_000_000)
    def test_what_floating_point_decides_is_right(self) -> None:
        decided, total = 0, 0
        for seed, quick in enumerate(self.float_checks()):
            points, random_ = quick.check.points, random.Random(seed)
            decided, total = decided + self.count_decided(quick), total + sum(map(len, points.values))
            for most in (1, 3, 1000):
                lowered = [[value - random_.randint(0, most) for value in values] for values in points.values]
                points.values = [list(values) for values in lowered]
                self.count_decided(quick)
                if quick.check.cells.discount <= 950_000:  # (others need many sweeps)
                    with_floats = passing(quick.check, quick).values
                    points.values = [list(values) for values in lowered]
                    quick.check.charge_again()
                    self.assertEqual(with_floats, passing(quick.check).values)
        self.assertGreater(decided, total / 2)

    def test_few_points_are_kept_if_no_more_fit(self) -> None:
        model = read_model(read_source(str(EXAMPLES / "machine.POMDP")))
        with patch.object(sys.modules["polcert.covers"], "MOST_POINTS", 5):
            cells, vectors, points, _ = certified(model, 30)
        self.assertLessEqual(len(points.beliefs), 5)
        self.assertLess(most_from_points(cells, vectors, points), 14_688_885)

    def test_lower_vectors_are_backed_by_their_successors(self) -> None:
        for name in ("tiger", "machine"):
            lower = certified(read_model(read_source(str(EXAMPLES / f"{name}.POMDP"))), 25)[3].lower
            worth = evaluate(lower.arrays, lower.graph())
            self.assertTrue((lower.values().T <= worth + 1e-7).all())


@needs_numpy
class Writes(OutputTest):
    def points(self, model: str, *words: str) -> Tuple[Said, WholeCells, List[List[int]], Points]:
        """Runs the script, and reads and checks what it writes."""
        name = str(self.folder / "m")
        said = run_script("polcert-points", model, "-o", name, *words)
        self.assertEqual(said.status, 0, said.err)
        return (said, *self.written(model))

    def written(self, model: str) -> Tuple[WholeCells, List[List[int]], Points]:
        name, cells = str(self.folder / "m"), WholeCells(read_model(read_source(model)))
        vectors = [[ceil(value * MILLION) for value in vector.values] for vector in read_vectors(read_source(f"{name}.alpha"), cells.model)]
        points = read_points(read_source(f"{name}.points"), cells)
        self.assertIsNone(check_vectors(cells, vectors))
        self.assertIsNone(check_points(cells, vectors, points))
        return cells, vectors, points

    def test_the_tiger(self) -> None:
        said, cells, vectors, points = self.points(TIGER, "-q")
        most = most_from_points(cells, vectors, points)
        self.assertTrue(19_371_368 <= most <= 19_371_380, most)
        name = re.escape(str(self.folder / "m"))
        line = rf"{name}\.points: \d+ points, every policy at most {most / MILLION} \(lower bound 19\.37136\d, gap 0\.0000\d %\)\n"
        self.assertRegex(said.out.decode(), rf"\A{line}\Z")
        self.assertEqual(said.err, "")
        self.assertLess(len(points.beliefs), 12)

    def test_limits(self) -> None:
        machine, found = str(EXAMPLES / "machine.POMDP"), []
        for words in (["--seconds", "0"], ["--points", "20"], ["--gap", "1"], ["--points", "120"]):
            said, cells, vectors, points = self.points(machine, *words)
            found.append(most_from_points(cells, vectors, points))
            self.assertRegex(said.err, r"\Apolcert-points: [0-9]+ s, [0-9]+ vectors, 0 points: from -?[0-9.]+ to 14\.688885, gap [0-9.]+\n")
        self.assertEqual(found[0], 14_688_885)
        self.assertTrue(14_688_885 > found[1] > found[3] and 11_391_180 <= found[3] <= 11_500_000, found)
        self.assertLess(found[2], 11_391_180 * 1.011)

    def test_an_mdp_has_no_points(self) -> None:
        said, cells, vectors, points = self.points(str(EXAMPLES / "stock.POMDP"))
        self.assertEqual(points, Points([], [], []))
        self.assertIn(b"m.points: 0 points, every policy at most 68.55 (lower bound 68.5", said.out)

    def test_what_is_refused(self) -> None:
        tiger = (EXAMPLES / "tiger.POMDP").read_bytes()
        for model, reason in (
            (tiger.replace(b"0.95", b"1"), "M:1:11: the discount is 1, so that no constant raises vectors to a bound: take"),
            (tiger.replace(b"0.85 0.15", b"0.85 0.14"), "M:13:1: M17: the row of O"),
            (tiger.replace(b": * 10", b": * 9999999"), "a value is beyond 10,000,000"),
        ):
            said = run_script("polcert-points", self.file("M", model), "-o", str(self.folder / "m"))
            self.assertEqual((said.status, said.out), (2, b""))
            self.assertIn(reason, said.err)
            self.assertEqual(list(self.listed()), ["M"])

    def test_words(self) -> None:
        self.assertIn(b"not certified", run_script("polcert-points", "--help").out)
        out = "-o", str(self.folder / "m")
        wrong = ("--seconds", "-1"), ("--seconds", "nan"), ("--gap", "x"), ("--points", "0"), ("--points", "10001")
        for words in [(), (TIGER,), out, *((TIGER, *out, *more) for more in wrong)]:
            said = run_script("polcert-points", *words)
            self.assertEqual((said.status, said.out), (2, b""), words)
        self.assertIn("No such file", run_script("polcert-points", str(self.folder / "none"), *out).err)
        (self.folder / "folder.points").mkdir()
        for name, reason in (("none/m", "none/m.alpha: No such file or directory"), ("folder", "folder.points: Is a directory")):
            self.refused(self.run_with(["polcert-points", TIGER, "-o", str(self.folder / name)]), reason, 3)
        (self.folder / "folder.points").rmdir()
        model = self.file("m.points", (EXAMPLES / "tiger.POMDP").read_bytes())
        self.assertIn("the file is also read", run_script("polcert-points", model, *out).err)
        self.assertEqual(list(self.listed()), ["m.points"])

    def test_a_full_disk(self) -> None:
        for old in (NO_FILES, {"m.alpha": b"vectors", "m.points": b"points"}):
            for name, text in old.items():
                self.file(name, text)
            # the vectors have 75 bytes, and the points have more
            words = ["polcert-points", TIGER, "-q", "-o", str(self.folder / "m")]
            self.refused(self.run_with(words, limits=disk(100)), "m.points: File too large", 3)
            self.assertEqual(self.listed(), old)

    def test_an_interrupt(self) -> None:
        machine = str(EXAMPLES / "machine.POMDP")
        words = [sys.executable, str(SCRIPTS / "polcert-points"), machine, "-o", str(self.folder / "m"), "--seconds", "600"]
        with subprocess.Popen(words, stdout=subprocess.PIPE, stderr=subprocess.PIPE) as child:
            assert child.stderr is not None
            self.assertRegex(child.stderr.readline(), rb"polcert-points: [0-9]+ s, [0-9]+ vectors, 0 points")
            child.stderr.readline()
            child.send_signal(signal.SIGINT)
            out, err = child.communicate()
        self.assertEqual(child.returncode, 0, err)
        self.assertTrue(err.endswith(b"polcert-points: interrupted: what was found so far is written\n"), err)
        cells, vectors, points = self.written(machine)
        self.assertLess(most_from_points(cells, vectors, points), 12_000_000)

    def test_interrupts_at_once(self) -> None:
        # Python code before the script: the handler of a first interrupt gets one when it is set, and in the second run that after it, too
        kill = """import os, signal
real, seen = signal.signal, []
def set_handler(number, handler):
    before = real(number, handler)
    seen.append(getattr(handler, "__name__", ""))
    if seen[-1] == "_note" or "_note" in seen and {}:
        os.kill(os.getpid(), signal.SIGINT)
    return before
signal.signal = set_handler
"""
        words = ["polcert-points", TIGER, "-q", "-o", str(self.folder / "m")]
        said = self.run_with(words, patched=kill.format(True))
        self.refused(said, "interrupted", 130)
        self.assertEqual(self.listed(), {})
        said = self.run_with(words, patched=kill.format(False))
        lines = "ending early; a second interrupt ends it at once", "interrupted: what was found so far is written"
        self.assertEqual((said.status, said.err), (0, "".join(f"polcert-points: {line}\n" for line in lines)))
        self.assertIn(b"0 points, every policy at most 87.179494 ", said.out)
        self.written(TIGER)
