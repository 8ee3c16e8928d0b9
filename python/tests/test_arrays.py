"""Models as arrays, against tables that are typed, tables that are filled here, and the exact tables of the reader."""
import random
import unittest
from fractions import Fraction
from itertools import product
from typing import Dict, List

from models import Entries, random_model, tag
from support import EXAMPLES, HAS_NUMPY, NAMES, count_calls, needs_numpy
from polcert.command import read_source
from polcert.files import Model, Source, read_model

if HAS_NUMPY:
    from polcert.arrays import Arrays, arrays_of

# Two states that are left for each other with 0.25 and 0.5, and an observation of the end state that is right with 0.9 and 0.6.
SMALL = b"""discount: 0.5 values: %s states: 2 actions: 2 observations: 2 start: 0.25 0.75
T: 0 0.75 0.25 0.5 0.5 T: 1 : * 1 0
O: * 0.9 0.1 0.4 0.6
R: 0 : 0 : * : * 8  R: 0 : * : 1 : 1 4  R: 1 : 1 1 2 3 4  R: 1 : 0 : * 10 20
"""
# 0.75 * 8 + 0.25 * (0.4 * 8 + 0.6 * 4); 0.5 * 0.6 * 4; 0.9 * 10 + 0.1 * 20; 0.9 * 1 + 0.1 * 2
SMALL_REWARDS = [[7.4, 1.2], [11.0, 1.1]]


def read(text: bytes) -> Model:
    return read_model(Source("M", text))


def mean_rewards(entries: Entries) -> List[List[Fraction]]:
    """The expected rewards, from filled tables."""
    t, o, r = entries.tables()
    actions, states = entries.sizes["T"][:2]
    means = [[Fraction(0)] * states for _ in range(actions)]
    for (a, s, e, z), reward in r.items():
        means[a][s] += t.get((a, s, e), 0) * o.get((a, e, z), 0) * reward
    return means


@needs_numpy
class ArraysTest(unittest.TestCase):
    def compare(self, arrays: "Arrays", model: Model, rewards: List[List[Fraction]]) -> None:
        """Compares arrays with the exact tables, and with rewards."""
        states, sign = range(model.states.count), -1 if model.is_cost else 1
        self.assertEqual(arrays.discount, float(model.discount))
        weights = model.start_weights()
        for state in states:
            self.assertAlmostEqual(arrays.start[state], float(weights.get(state, 0)), delta=1e-15)
        for action, state in product(range(model.actions.count), states):
            for matrices, table in ((arrays.transitions, model.transitions), (arrays.observing, model.observing)):
                row = matrices[action][state]
                found: Dict[int, float] = dict(zip(row.indices.tolist(), row.data.tolist()))
                self.assertEqual(list(found), sorted(found))
                self.assertEqual(found, {column: float(value) for column, value in table.row(action, state).items()})
            right, size = sign * rewards[action][state], 1 + sum(abs(reward) for reward in rewards[action])
            self.assertAlmostEqual(arrays.rewards[action, state], float(right), delta=1e-13 * size)

    def test_a_model_by_hand(self) -> None:
        for values, sign in ((b"reward", 1), (b"cost", -1)):
            arrays = arrays_of(read(SMALL % values))
            self.assertEqual(arrays.transitions[0].toarray().tolist(), [[0.75, 0.25], [0.5, 0.5]])
            self.assertEqual(arrays.transitions[1].toarray().tolist(), [[1, 0], [1, 0]])
            self.assertEqual(arrays.observing[0].toarray().tolist(), [[0.9, 0.1], [0.4, 0.6]])
            self.assertIs(arrays.observing[0], arrays.observing[1])
            self.assertEqual(arrays.start.tolist(), [0.25, 0.75])
            for found, right in zip(arrays.rewards.ravel(), sum(SMALL_REWARDS, [])):
                self.assertAlmostEqual(found, sign * right, delta=1e-14)

    def test_random_models_against_filled_tables(self) -> None:
        random_ = random.Random(75)
        for _ in range(400):
            entries = random_model(random_, exact=True, varied=True)
            model = read(entries.text())
            self.compare(arrays_of(model), model, mean_rewards(entries))

    def test_examples(self) -> None:
        for name in NAMES:
            model = read_model(read_source(str(EXAMPLES / f"{name}.POMDP")))
            arrays = arrays_of(model)
            for action, state in product(range(model.actions.count), range(0, model.states.count, 7)):
                block, total = model.rewards.of(action, state), Fraction(0)
                for end, p in model.transitions.row(action, state).items():
                    total += p * sum(q * block.at(end, z) for z, q in model.observing.row(action, end).items())
                right = float(-total if model.is_cost else total)
                self.assertAlmostEqual(arrays.rewards[action, state], right, delta=1e-12 * (1 + abs(right)))

    def test_a_large_model_takes_no_call_for_each_cell(self) -> None:
        model = read_model(Source("tag", tag("+.6f")), tolerant=True)
        wide = b"discount: 0.9 values: reward states: 2000 actions: 3 observations: 5 T: 0 uniform T: 1 identity T: 2 : * uniform O: * uniform "
        wide += b"R: 0 : * : 7 : * 1 R: 1 : * : * 1 2 3 4 5 " + b" ".join(b"R: 2 : %d : * : * %d" % (s, s) for s in range(2000))
        large = read(wide)
        self.assertLess(count_calls(lambda: arrays_of(model)), 1_000_000)
        self.assertLess(count_calls(lambda: arrays_of(large)), 1_000_000)
        arrays = arrays_of(large)
        self.assertEqual(arrays.transitions[0].nnz, 4_000_000)
        for action, state, right in ((0, 3, 1 / 2000), (1, 3, 3.0), (2, 1234, 1234.0)):
            self.assertAlmostEqual(arrays.rewards[action, state], right, delta=1e-10)


if __name__ == "__main__":
    unittest.main()
