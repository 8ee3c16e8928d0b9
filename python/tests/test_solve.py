"""polcert-solve: values of the literature, of policies that are enumerated and of beliefs that are followed, and what is written."""
import random
import re
import signal
import subprocess
import sys
import unittest
from fractions import Fraction
from itertools import product
from math import floor
from typing import Any, List, NamedTuple, Optional, Sequence, Tuple
from unittest.mock import patch

from models import RING, Entries, Head, random_model, random_row
from support import EXAMPLES, HAS_NUMPY, NAMES, SCRIPTS, Said, needs_numpy, needs_program, polcert, present, run_script
from informed import Exact, exact_model
from test_outputs import OutputTest, disk
from polcert.command import Refusal, read_source
from polcert.files import MILLION, Graph, Model, Source, read_graph, read_model, read_vectors
from polcert.points import WholeCells, check_points, check_vectors, read_points

if HAS_NUMPY:
    import numpy as np
    from polcert.arrays import arrays_of
    from polcert.belief_nodes import Batch, BeliefNode, BeliefNodes
    from polcert.informed import informed_bound
    from polcert import evaluation
    from polcert.sawtooth import Sawtooth
    from polcert.solutions import Solution, UpperBound, better_solution, solve
    from polcert.solver import Limits
    from polcert.watch import Watch

TIGER, MACHINE = str(EXAMPLES / "tiger.POMDP"), str(EXAMPLES / "machine.POMDP")
Rows = Sequence[Sequence[float]]


class Dense(NamedTuple):
    """A model's tables, filled in floating point, with the rewards that are expected at once."""

    start: List[float]
    moves: Sequence[Rows]
    seen: Sequence[Rows]
    gains: Rows
    discount: float


def dense(entries: Entries, discount: float) -> Dense:
    t, o, r = entries.tables()
    actions, states, observations = entries.sizes["O"]
    moves = [[[float(t.get((a, s, e), 0)) for e in range(states)] for s in range(states)] for a in range(actions)]
    seen = [[[float(o.get((a, e, z), 0)) for z in range(observations)] for e in range(states)] for a in range(actions)]
    gains = [[0.0] * states for _ in range(actions)]
    for (a, s, e, z), reward in r.items():
        gains[a][s] += moves[a][s][e] * seen[a][e][z] * float(reward)
    return Dense([1 / states] * states, moves, seen, gains, discount)


def best_of_steps(model: Dense, belief: Sequence[float], steps: int) -> float:
    """The most that can be earned in so many steps from weights of states."""
    if steps == 0 or not any(belief):
        return 0.0
    best = float("-inf")
    for moves, seen, gains in zip(model.moves, model.seen, model.gains):
        arrived = [sum(b * row[e] for b, row in zip(belief, moves)) for e in range(len(belief))]
        worth = sum(b * gain for b, gain in zip(belief, gains))
        for z in range(len(seen[0])):
            worth += model.discount * best_of_steps(model, [p * row[z] for p, row in zip(arrived, seen)], steps - 1)
        best = max(best, worth)
    return best


def best_of_mdp(model: Dense) -> float:
    """The most that a policy of an MDP earns: all policies are tried, whose values solve linear equations."""
    states, best = range(len(model.start)), float("-inf")
    for policy in product(range(len(model.moves)), repeat=len(states)):
        moves = np.array([model.moves[policy[s]][s] for s in states])
        values = np.linalg.solve(np.eye(len(states)) - model.discount * moves, [model.gains[policy[s]][s] for s in states])
        best = max(best, float(np.dot(model.start, values)))
    return best


def shortfall(model: Model, graph: Graph, values: List[List[Fraction]]) -> Fraction:
    """By how much a value is above what its node earns by these values, at most, in exact fractions."""
    most = Fraction(-1)
    for (action, row), node in zip(zip(graph.actions, graph.successors), values):
        for state, value in enumerate(node):
            block, worth = model.rewards.of(action, state), Fraction(0)
            moves = model.transitions.row(action, state).items()
            for end, z, p in ((end, z, p * q) for end, p in moves for z, q in model.observing.row(action, end).items()):
                reward = -block.at(end, z) if model.is_cost else block.at(end, z)
                following = row[z]
                assert following is not None
                worth += p * (reward + model.discount * values[following][end])
            most = max(most, value - worth)
    return most


def informed_vectors(exact: Exact) -> List[List[float]]:
    """What 600 backups make of zeros, in fractions that are rounded to billionths."""
    vectors = [[Fraction(0)] * exact.states for _ in range(exact.actions)]
    for _ in range(600):
        found = exact.backups(vectors)
        vectors = [[Fraction(round(found[action, state] * 1000), 1000) for state in range(exact.states)] for action in range(exact.actions)]
    return [[float(value / MILLION) for value in vector] for vector in vectors]


def dense_values(exact: Exact, graph: Graph) -> "np.ndarray[Any, np.dtype[np.float64]]":
    """What each node of a graph is worth in each state: the solution of the linear equations."""
    pairs = list(product(range(len(graph.actions)), range(exact.states)))
    place, matrix, rewards = {pair: i for i, pair in enumerate(pairs)}, np.eye(len(pairs)), np.zeros(len(pairs))
    for (node, state), i in place.items():
        action = graph.actions[node]
        for end, z in product(range(exact.states), range(len(graph.successors[node]))):
            p = float(exact.t.get((action, state, end), 0) * exact.o.get((action, end, z), 0))
            after = graph.successors[node][z]
            if p and after is not None:
                matrix[i, place[after, end]] -= float(exact.discount) * p
            rewards[i] += p * float(exact.r.get((action, state, end, z), 0))
    return np.linalg.solve(matrix, rewards).reshape(len(graph.actions), exact.states)


class Found(NamedTuple):
    """What a solver finds, with the bound on every policy."""

    solution: "Solution"
    bound: "UpperBound"
    most: float


def solved(model: Model, seconds: float = 60, gap: float = 1e-7) -> Found:
    cells = WholeCells(model)
    solution, bound = solve(cells, Limits(seconds, gap), lambda: False, lambda _: None)
    return Found(solution, bound, bound.most(cells) / MILLION)


@needs_numpy
class Values(unittest.TestCase):
    def certified(self, model: Model, solved: Found) -> None:
        """What is found passes both checks, exact ones of this file and of the points."""
        found, bound, most = solved
        values = [[Fraction(round(value * MILLION), MILLION) for value in node] for node in found.values.tolist()]
        self.assertLessEqual(shortfall(model, found.graph, values), Fraction(1, 10**9))
        weights = model.start_weights()
        worths = [sum(weight * node[state] for state, weight in weights.items()) for node in values]
        self.assertEqual(found.low, floor(max(worths) * MILLION / sum(weights.values())))
        self.assertIsNone(check_vectors(WholeCells(model), bound.vectors))
        self.assertIsNone(check_points(WholeCells(model), bound.vectors, bound.points))
        self.assertLessEqual(found.low / MILLION, most)

    def test_the_tiger(self) -> None:
        # Cassandra, Kaelbling and Littman 1994 have 19.37 for discount 0.95
        model = read_model(read_source(TIGER))
        found = solved(model)
        self.certified(model, found)
        low = found.solution.low / MILLION
        self.assertEqual((floor(low * 100), floor(found.most * 100)), (1937, 1937))
        self.assertLess(found.most - low, 0.00003)
        self.assertEqual(len(found.solution.graph.actions), 5)

    def test_a_graph_is_made_better(self) -> None:
        cells = WholeCells(read_model(read_source(TIGER)))
        found, bound = solve(cells, Limits(0, 0), lambda: False, lambda _: None)
        other = better_solution(cells.model, found, Watch(True, can_end_early=False))
        self.certified(cells.model, Found(other, bound, bound.most(cells) / MILLION))
        # listening for ever is worth -20
        self.assertEqual((found.low, floor(other.low / 10_000)), (-20 * MILLION, 1937))
        self.assertIs(better_solution(cells.model, found, Watch(True, can_end_early=False, seconds=0)), found)
        with patch("polcert.solutions.evaluate", side_effect=Refusal("what the graph is worth does not settle")):
            self.assertIs(better_solution(cells.model, found, Watch(True, can_end_early=False)), found)

    def test_without_any_time(self) -> None:
        """What has to be found is cut off at once, each part of it: it passes its checks all the same."""
        random_ = random.Random(12)
        texts = [(EXAMPLES / f"{name}.POMDP").read_bytes() for name in ("tiger", "machine", "stock")]
        texts += [random_model(random_, exact=True, varied=True).text() for _ in range(10)]
        with patch("polcert.stopping.LEAST_SECONDS", 0.0), patch("polcert.certificate.LATE_SECONDS", 0.0):
            for text in texts:
                model = read_model(Source("M", text))
                if model.discount < Fraction("0.99"):
                    cells = WholeCells(model)
                    found, bound = solve(cells, Limits(0, 0), lambda: True, lambda _: None)
                    self.certified(model, Found(found, bound, bound.most(cells) / MILLION))

    def test_no_more_time_than_is_given(self) -> None:
        """A discount so near 1 takes 100,000 rounds, each of which looks at the clock: here it is a thousandth of a second later each time."""
        cells, asked = WholeCells(read_model(Source("ring", RING))), {}
        for limit in (1, 600):
            clock = map(Fraction, range(10_000_000))
            with patch("polcert.stopping.thread_time", lambda: float(next(clock) / 1000)):
                solve(cells, Limits(limit, 0), lambda: False, lambda _: None)
            asked[limit] = next(clock)
        self.assertTrue(1_000 < asked[1] < 3_000 and 100_000 < asked[600], asked)

    def test_beliefs_that_are_followed(self) -> None:
        random_, steps = random.Random(7), 7
        for _ in range(12):
            entries = Entries(2, 2, 2, Head("0.2", rewards=("0", "1", "-2.5", "7")))
            for table, action in product("TO", range(2)):
                entries.add(table, [action], " ".join(random_row(random_, 2, True) for _ in range(2)))
            for action, state in product(range(2), range(2)):
                entries.add("R", [action, state], " ".join(random_.choice(entries.rewards) for _ in range(4)))
            model, tables = read_model(Source("M", entries.text())), dense(entries, 0.2)
            found, near, late = solved(model), best_of_steps(tables, tables.start, steps), 7 / 0.8 * 0.2**steps
            self.certified(model, found)
            self.assertAlmostEqual(found.solution.low / MILLION, near, delta=late + 3e-6, msg=entries.text().decode())
            self.assertAlmostEqual(found.most, near, delta=late + 3e-6)

    def test_mdps_whose_policies_are_enumerated(self) -> None:
        random_ = random.Random(8)
        for _ in range(20):
            entries = Entries(3, 2, None, Head("0.9"))
            for action in range(2):
                entries.add("T", [action], " ".join(random_row(random_, 3, True) for _ in range(3)))
                entries.add("R", [action], " ".join(random_.choice(entries.rewards) for _ in range(9)))
            model, tables = read_model(Source("M", entries.text())), dense(entries, 0.9)
            found = solved(model)
            self.certified(model, found)
            most = best_of_mdp(tables)
            self.assertLessEqual(most, found.most + 1e-9)
            self.assertLess(found.most, most + 2e-5)
            self.assertLess(found.solution.low / MILLION, most + 1e-9)

    def test_random_models_are_certified(self) -> None:
        random_, count = random.Random(9), 0
        for _ in range(60):
            model = read_model(Source("M", random_model(random_, exact=True, varied=True).text()))
            if model.discount < Fraction("0.99") and abs(float(max(arrays_of(model).rewards.ravel(), key=abs))) < 1000:
                self.certified(model, solved(model, 0.2))
                count += 1
        self.assertGreater(count, 25)

    def test_successors_are_missing_only_where_nothing_can_come(self) -> None:
        # what is observed says which action was taken
        text = "discount: 0.5 values: reward states: 2 actions: 2 observations: 3 T: 0 identity T: 1 uniform O: 0 : * 0 1 0 O: 1 : * 1 0 0"
        model = read_model(Source("M", (text + " R: 0 : 0 : * : * 1 R: 1 : 1 : * : * 1").encode()))
        found = solved(model)
        self.certified(model, found)
        for action, row in zip(found.solution.graph.actions, found.solution.graph.successors):
            self.assertEqual([z for z, node in enumerate(row) if node is not None], [1 - action])


@needs_numpy
class Parts(unittest.TestCase):
    """What is computed in numpy, against fractions and by hand."""

    def test_informed_vectors(self) -> None:
        for name in NAMES:
            if name != "robot":
                model = read_model(read_source(str(EXAMPLES / f"{name}.POMDP")))
                right = informed_vectors(exact_model(model))
                self.assertLess(abs(informed_bound(arrays_of(model))[0] - right).max(), 1e-5, name)

    def test_values_of_graphs(self) -> None:
        for name in ("tiger", "machine"):
            model = read_model(read_source(str(EXAMPLES / f"{name}.POMDP")))
            graph = read_graph(read_source(str(EXAMPLES / f"{name}.pg")), model)
            arrays, found_graph = arrays_of(model), evaluation.array_graph(graph)
            right = dense_values(exact_model(model), graph)
            for begin in (None, np.full((len(right), model.states.count), 100.0)):
                self.assertLess(abs(evaluation.evaluate(arrays, found_graph, begin) - right).max(), 1e-8)

    def test_what_follows_a_belief(self) -> None:
        for name in ("tiger", "machine"):
            model = read_model(read_source(str(EXAMPLES / f"{name}.POMDP")))
            exact, nodes, shares = exact_model(model), BeliefNodes(arrays_of(model)), (0.25, 0.75)
            step = nodes.step(BeliefNode(np.arange(2), np.array(shares)))
            for action in range(exact.actions):
                some = step.columns(action)
                found = np.zeros((exact.states, model.observations.count))
                found[np.ix_(step.batch.states, step.observations[some])] = step.batch.weights[:, some]
                for end, z in product(range(exact.states), range(model.observations.count)):
                    arrived = sum(share * float(exact.t.get((action, state, end), 0)) for state, share in enumerate(shares))
                    self.assertAlmostEqual(found[end, z], arrived * float(exact.o.get((action, end, z), 0)), delta=1e-12)

    def test_corners_that_fall_by_little_are_charged_later(self) -> None:
        upper, node = Sawtooth(np.array([[2.0, 1.0]])), BeliefNode(np.array([0]), np.ones(1))
        for value, least, right in ((1.9, 0.2, 2.0), (1.7, 0.2, 1.7), (1.6, 0.2, 1.7), (1.6, 0.0, 1.6)):
            upper.lower(node, np.array([value]))
            upper.lower_corners(least)
            self.assertEqual(upper.charges.tolist(), [[right, 1.0]])

    def test_the_sawtooth(self) -> None:
        random_ = random.Random(10)
        for _ in range(20):
            corners = np.array([random_.uniform(1, 2) for _ in range(4)])
            upper = Sawtooth(corners[None, :])
            points: List[Tuple[BeliefNode, float]] = []
            for _ in range(30):
                states = np.array(sorted(random_.sample(range(4), random_.choice([1, 2, 3, 4]))))
                weights = np.array([random_.random() for _ in states])
                node, value = BeliefNode(states, weights / weights.sum()), random_.uniform(0, 1.5)
                before = self.by_hand(upper, points, node)
                self.assertAlmostEqual(upper.value(node), before, delta=1e-12)
                upper.lower(node, np.array([value]))
                upper.lower_corners()
                if len(states) > 1 and value < before:
                    points.append((node, value))
                self.assertAlmostEqual(upper.value(node), min(before, value), delta=1e-12)

    def by_hand(self, upper: "Sawtooth", points: List[Tuple["BeliefNode", float]], node: "BeliefNode") -> float:
        """The least value by a point and the corners."""
        at = np.zeros(4)
        at[node.own.states] = node.own.weights[:, 0]
        least = plain = float(at @ upper.charges[0])
        for point, value in points:
            weights = point.own.weights[:, 0]
            times = min(at[point.own.states] / weights)
            least = min(least, plain + times * (value - float(weights @ upper.charges[0, point.own.states])))
        return least

    def test_points_that_others_make_needless(self) -> None:
        upper, random_ = Sawtooth(np.ones((1, 3))), random.Random(11)
        seen = []
        for number in range(1500):
            weights = np.array([random_.random() + 0.01 for _ in range(3)])
            node = BeliefNode(np.arange(3), weights / weights.sum())
            upper.lower(node, np.array([1 - number / 1500 * float(node.own.weights.min())]))
            seen.append((node, upper.value(node)))
        self.assertLess(upper.count, 1001)
        for node, value in seen:
            batch = Batch(node.own.states, node.own.weights)
            upper.look(batch)
            self.assertLessEqual(float(batch.high[0]), value + 1e-9)


@needs_numpy
class Written(OutputTest):
    def solve(self, model: str, *words: str) -> Said:
        said = run_script("polcert-solve", model, "-o", str(self.folder / "m"), *words)
        self.assertEqual(said.status, 0, said.err)
        self.written(model)
        return said

    def written(self, model: str) -> Fraction:
        """What the written graph earns from the start, once it has passed an exact check."""
        name, read = str(self.folder / "m"), read_model(read_source(model))
        graph = read_graph(read_source(f"{name}.pg"), read)
        values = [vector.values for vector in read_vectors(read_source(f"{name}.alpha"), read, graph)]
        self.assertLessEqual(shortfall(read, graph, values), Fraction(1, 10**9))
        vectors = [[int(value * MILLION) for value in vector.values] for vector in read_vectors(read_source(f"{name}.bound.alpha"), read)]
        cells = WholeCells(read)
        self.assertIsNone(check_vectors(cells, vectors))
        self.assertIsNone(check_points(cells, vectors, read_points(read_source(f"{name}.bound.points"), cells)))
        return max(sum((weight * node[state] for state, weight in read.start_weights().items()), Fraction(0)) for node in values)

    def test_the_last_line(self) -> None:
        said = self.solve(TIGER)
        name = re.escape(str(self.folder / "m"))
        bounds = r"worth 19\.3713\d+ from the start; every policy at most 19\.3713\d+ \(gap 0\.000\d\d %\)"
        self.assertRegex(said.out.decode(), rf"\A{name}\.pg: 5 nodes, {bounds}\n\Z")
        self.assertRegex(said.err, r"\Apolcert-solve: [0-9]+ s, 3 vectors, 0 points: from -20\.000000 to 87\.179494, gap 107\.179494\n")
        self.assertEqual(self.solve(TIGER, "-q").err, "")

    @needs_program
    def test_the_program_agrees(self) -> None:
        for model, words in ((TIGER, ()), (MACHINE, ("--seconds", "2")), (str(EXAMPLES / "stock.POMDP"), ())):
            said = self.solve(model, "-q", *words)
            claim = float(present(re.search(rb"worth (-?[0-9.]+) from", said.out))[1])
            names = [model, *(str(self.folder / f"m.{ending}") for ending in ("pg", "alpha"))]
            lowered = polcert("lower", *names)
            self.assertEqual(lowered.status, 0, lowered.err)
            names[2] = self.file("lowered", lowered.out)
            yes = present(re.fullmatch(rb"yes: start node \d+, at least (-?[0-9.]+)\n", polcert("check", *names).out))
            self.assertLess(abs(float(yes[1]) - claim), 0.00002, model)

    def test_limits(self) -> None:
        self.assertIn(b"worth 4.7586", self.solve(MACHINE, "--seconds", "0").out)
        gap = present(re.search(rb"\(gap ([0-9.]+) %\)", self.solve(MACHINE, "--gap", "20").out))
        self.assertTrue(1 < float(gap[1]) <= 20, gap[0])

    def test_an_interrupt(self) -> None:
        words = [sys.executable, str(SCRIPTS / "polcert-solve"), MACHINE, "-o", str(self.folder / "m"), "--seconds", "600", "--gap", "0"]
        with subprocess.Popen(words, stdout=subprocess.PIPE, stderr=subprocess.PIPE) as child:
            assert child.stderr is not None
            self.assertRegex(child.stderr.readline(), rb"polcert-solve: [0-9]+ s, 3 vectors, 0 points")
            child.stderr.readline()
            child.send_signal(signal.SIGINT)
            out, err = child.communicate()
        self.assertEqual(child.returncode, 0, err)
        self.assertTrue(err.endswith(b"polcert-solve: interrupted: what was found so far is written\n"), err)
        self.assertGreater(self.written(MACHINE), 11)
        self.assertIn(b" worth 11.", out)

    def test_outputs(self) -> None:
        (self.folder / "folder.alpha").mkdir()
        for name, reason in (("none/m", "none/m.pg: No such file or directory"), ("folder", "folder.alpha: Is a directory")):
            self.refused(self.run_with(["polcert-solve", TIGER, "-o", str(self.folder / name)]), reason, 3)
        (self.folder / "folder.alpha").rmdir()
        for ending in ("pg", "alpha", "bound.alpha", "bound.points"):
            model = self.file(f"m.{ending}", (EXAMPLES / "tiger.POMDP").read_bytes())
            self.refused(self.run_with(["polcert-solve", model, "-o", str(self.folder / "m")]), "the file is also read")
            (self.folder / f"m.{ending}").unlink()
        old = {"m.alpha": b"vectors", "m.bound.alpha": b"bound"}
        for name, text in old.items():
            self.file(name, text)
        # the graph has 40 bytes, and the vectors have more
        self.refused(self.run_with(["polcert-solve", TIGER, "-q", "-o", str(self.folder / "m")], limits=disk(60)), "m.alpha: File too large", 3)
        self.assertEqual(self.listed(), old)


class Refused(OutputTest):
    def refused_model(self, model: Optional[bytes], reason: str, patched: str = "") -> None:
        name = TIGER if model is None else self.file("M", model)
        self.refused(self.run_with(["polcert-solve", name, "-o", str(self.folder / "m")], patched=patched), reason)
        self.assertEqual(set(self.listed()), set() if model is None else {"M"})

    @needs_numpy
    def test_models(self) -> None:
        tiger = (EXAMPLES / "tiger.POMDP").read_bytes()
        self.refused_model(tiger.replace(b"0.95", b"1"), "M:1:11: the discount is 1, so that no constant raises")
        self.refused_model(tiger.replace(b"0.85 0.15", b"0.85 0.14"), "M:13:1: M17: the row of O")
        self.refused_model(tiger.replace(b": * 10", b": * 9999999"), "a value is beyond 10,000,000")

    def test_words(self) -> None:
        self.assertIn(b"numpy and scipy", run_script("polcert-solve", "--help").out)
        out = "-o", str(self.folder / "m")
        wrong = ("--seconds", "-1"), ("--seconds", "nan"), ("--gap", "x")
        for words in [(), (TIGER,), out, *((TIGER, *out, *more) for more in wrong)]:
            said = run_script("polcert-solve", *words)
            self.assertEqual((said.status, said.out), (2, b""), words)

    def test_without_numpy(self) -> None:
        for missing, named in ((("numpy", "scipy"), "numpy"), (("scipy",), "scipy")):
            lines = "".join(f"sys.modules[{name!r}] = None\n" for name in missing)
            if HAS_NUMPY or named == "numpy":
                reason = rf"this command needs {named}: install numpy and scipy \(Debian: python3-numpy python3-scipy\)"
                self.refused_model(None, reason, patched=f"import sys\n{lines}")
        self.assertIn(b"--gap", self.run_with(["polcert-solve", "--help"], patched="import sys\nsys.modules['numpy'] = None\n").out)


if __name__ == "__main__":
    unittest.main()
