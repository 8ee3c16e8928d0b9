"""Vectors for the worst of all models near: against every order in which a row can be filled, against the worst model, and what they cost."""
import random
from fractions import Fraction
from itertools import permutations
from math import ceil, inf
from typing import Dict, List, NamedTuple, Optional, Sequence, Tuple
from unittest.mock import patch

from models import random_model
from support import EXAMPLES, HAS_NUMPY, NAMES, PROGRAM, TOP, Said, needs_numpy, needs_program, polcert, run_program, run_script
from test_outputs import PG, TIGER, OutputTest
from polcert.command import read_source
from polcert.mending import mended
from polcert.distances import Distances, distances_of
from polcert.files import Graph, Model, Row, Source, read_graph, read_model
from polcert.nearby import Nearby, vectors_near
from polcert.tokens import MILLION, decimal
from polcert.watch import Watch
from runner import programs_beside

if HAS_NUMPY:
    from polcert import worst_case
    from polcert.worst_case import worst_case_vectors

ROBUST = programs_beside(PROGRAM)["polcert_robust"] if PROGRAM else ""
# What each probability within 0.0000005 costs the value at the start, by study `robust`.
PRICES = {"tiger": 0.000157, "machine": 0.000183, "stock": 0.000108, "robot": 0.0000235}


class Near(NamedTuple):
    """Models near one, a graph, and vectors in millionths. The sign is -1 for the best case."""

    model: Model
    graph: Graph
    distances: Distances

    @property
    def sign(self) -> int:
        return -1 if self.distances.is_above else 1

    def rows(self, row: Row, columns: int) -> List[Row]:
        """The rows near one that fill its cells in some order: all corners of the set, and so the worst for any values among them. The distance
        is rounded up as polcert_robust does."""
        scale = columns * MILLION
        parts, percent = ceil(self.distances.probabilities * scale), self.distances.percent
        near = {column: Fraction(parts + ceil(p * scale * percent / 100), scale) for column, p in row.items()}
        return [filled(row, near, order) for order in permutations(row)]

    def worst(self, row: Row, columns: int, values: Dict[int, Fraction]) -> Row:
        return min(self.rows(row, columns), key=lambda other: mean(other, values))

    def ends(self, node: int, state: int, vectors: Sequence[Sequence[int]]) -> Dict[int, Tuple[Row, Fraction]]:
        """For each end state of a pair its worst row of O, and the mean under it."""
        model, action = self.model, self.graph.actions[node]
        block, found = model.rewards.of(action, state), {}
        for end in model.transitions.row(action, state):
            row, values = model.observing.row(action, end), {}
            for z in row:
                gain, after = (-1 if model.is_cost else 1) * block.at(end, z), self.graph.successors[node][z]
                later = Fraction(0) if after is None else Fraction(vectors[after][end], MILLION)
                values[z] = self.sign * (gain + model.discount * later) - self.distances.rewards
            worst = self.worst(row, model.observations.count, values)
            found[end] = worst, mean(worst, values)
        return found

    def lack(self, node: int, state: int, vectors: Sequence[Sequence[int]]) -> Fraction:
        """By how much a value is beyond what backs it in the worst case."""
        means = {end: value for end, (_, value) in self.ends(node, state, vectors).items()}
        row = self.model.transitions.row(self.graph.actions[node], state)
        return Fraction(self.sign * vectors[node][state], MILLION) - mean(self.worst(row, self.model.states.count, means), means)

    def first_short(self, vectors: Sequence[Sequence[int]]) -> Optional[Tuple[int, int]]:
        pairs = ((node, state) for node in range(len(vectors)) for state in range(self.model.states.count))
        return next((pair for pair in pairs if self.lack(*pair, vectors) > 0), None)

    def vectors(self, seconds: float = inf) -> List[List[int]]:
        found = worst_case_vectors(self.model, self.graph, self.distances, Watch(is_quiet=True, can_end_early=False, seconds=seconds))
        return [[round(value * MILLION) for value in row] for row in found]

    def raised(self, vectors: Sequence[Sequence[int]]) -> List[List[int]]:
        """Vectors that claim a millionth more."""
        return [[value + self.sign for value in row] for row in vectors]


def mean(row: Row, values: Dict[int, Fraction]) -> Fraction:
    return sum((p * values[column] for column, p in row.items()), Fraction(0))


def filled(row: Row, near: Row, order: Sequence[int]) -> Row:
    """The row whose cells have the least that they may have, and as much more as they can in this order."""
    found = {column: max(Fraction(0), p - near[column]) for column, p in row.items()}
    rest = 1 - sum(found.values())
    for column in order:
        more = min(row[column] + near[column] - found[column], rest)
        found[column] += more
        rest -= more
    return found


def random_near(seed: int) -> Near:
    chance = random.Random(seed)
    text = random_model(chance, exact=True).text().replace(b"values: reward", chance.choice([b"values: reward", b"values: cost"]))
    model = read_model(Source("m", text))
    rows: List[List[Optional[int]]] = [[chance.randrange(3) for _ in range(model.observations.count)] for _ in range(3)]
    within = chance.choice(["0", "0.0000015", "0.01", "0.3", f"0.{chance.randrange(10**12):012}", "1"])
    rewards = chance.choice([Fraction(0), Fraction(1, 2), Fraction(1, MILLION)])
    graph = Graph([chance.randrange(model.actions.count) for _ in range(3)], rows)
    percent = chance.choice(["0", "0", "5", "0.3", "0.000001", "100"])
    distance = Fraction(0 if percent != "0" else within)
    return Near(model, graph, Distances(distance, rewards, chance.random() < 0.4, Fraction(percent)))


@needs_numpy
class Vectors(OutputTest):
    def test_they_are_the_greatest_that_pass(self) -> None:
        for seed in range(60):
            near = random_near(seed)
            vectors = near.vectors()
            self.assertIsNone(near.first_short(vectors), seed)
            self.assertIsNotNone(near.first_short(near.raised(vectors)), seed)
            self.assertIsNone(near.first_short(near.vectors(seconds=0)), seed)

    def test_within_all_limits(self) -> None:
        for name, value in (("MOST_HELD", 0), ("BLOCK_NUMBERS", 1), ("MOST_ROUNDING", 1), ("MOST_EXACT", 0)):
            with patch.object(worst_case, name, value):
                for seed in range(60, 70):
                    near = random_near(seed)
                    self.assertIsNone(near.first_short(near.vectors()), (name, seed))

    def test_a_missing_successor_that_no_run_needs(self) -> None:
        text = b"discount: 0.5 values: reward states: 2 actions: 1 observations: 2 T: 0 0.5 0.5 0 1 O: 0 1 0 1 0 R: 0 : * : 1 : * 1\n"
        model = read_model(Source("m", text))
        near = Near(model, Graph([0], [[0, None]]), Distances(Fraction(1, 10)))
        # at the second state 2; at the first x = 0.6 * 0.5 x + 0.4 * 2
        self.assertEqual(near.vectors(), [[1142857, 2000000]])

    def test_what_is_refused(self) -> None:
        words = ["polcert-evaluate", TIGER, PG]
        for more, reason in (
            (["--within", "1.1"], "1.1 is no number from 0 to 1 with at most 12 decimals"),
            (["--within", "0.0000000000001"], "with at most 12 decimals"), (["--within", "1e-3"], "1e-3 is no number"),
            (["--within", "-1"], "-1 is no number"), (["--within", "0.1", "--rewards-within", "0.0000001"], "with at most 6 decimals"),
            (["--within", "0.1", "--rewards-within", "2000000"], "from 0 to 1000000"), (["--at-most"], "need --within"),
            (["--rewards-within", "1"], "need --within"), (["--percent", "100.1"], "100.1 is no number from 0 to 100 with at most 6 decimals"),
            (["--within", "0.1", "--percent", "5"], "not allowed with"),
        ):
            said = self.run_with([*words, *more])
            self.assertEqual((said.status, said.out), (2, b""))
            self.assertIn(reason, said.err.splitlines()[-1])

    def test_what_certainty_costs(self) -> None:
        for name, price in PRICES.items():
            model = read_model(read_source(str(EXAMPLES / f"{name}.POMDP")))
            graph = read_graph(read_source(str(EXAMPLES / f"{name}.pg")), model)
            worths = []
            for within in (Fraction(0), Fraction(1, 2 * MILLION)):
                vectors = Near(model, graph, Distances(within)).vectors()
                start = model.start_weights()
                worths.append(max(sum(weight * row[state] for state, weight in start.items()) / sum(start.values()) / MILLION for row in vectors))
            self.assertTrue(0.5 * price < worths[0] - worths[1] < 2 * price, (name, worths))


@needs_numpy
@needs_program
class Programs(OutputTest):
    def robust(self, near: Near, *files: str) -> Said:
        probabilities, rewards, _, percent = near.distances
        distances = [*(["--percent", fixed(percent)] if percent else ["--within", fixed(probabilities)]), "--rewards-within", fixed(rewards)]
        return run_program(ROBUST, "check", *distances, *(["--at-most"] if near.distances.is_above else []), *files)

    def files(self, near: Near, vectors: Sequence[Sequence[int]], model: bytes) -> List[str]:
        """The names of a model, the graph and vectors."""
        graph = "".join(f"{n} {a} {' '.join(map(str, row))}\n" for n, (a, row) in enumerate(zip(near.graph.actions, near.graph.successors)))
        values = "".join(f"{a}\n{' '.join(map(decimal, row))}\n\n" for a, row in zip(near.graph.actions, vectors))
        return [self.file("m.POMDP", model), self.file("m.pg", graph.encode()), self.file("m.alpha", values.encode())]

    def test_the_robust_program_agrees(self) -> None:
        for seed in range(20):
            near = random_near(seed)
            vectors = near.vectors()
            said = self.robust(near, *self.files(near, vectors, near.model.source.text))
            self.assertTrue(said.out.startswith(b"yes: every model within "), (seed, said))
            said = self.robust(near, *self.files(near, near.raised(vectors), near.model.source.text))
            self.assertTrue(said.out.startswith(b"no: "), (seed, said))

    def test_the_worst_model(self) -> None:
        """polcert says yes to the vectors in the model whose rows are worst for a pair, and no to vectors a millionth beyond."""
        for name in ("tiger", "machine", "stock"):
            for within, is_above in (("0.000001", False), ("0.01", False), ("0.05", True)):
                model = read_model(read_source(str(EXAMPLES / f"{name}.POMDP")))
                graph = read_graph(read_source(str(EXAMPLES / f"{name}.pg")), model)
                near = Near(model, graph, Distances(Fraction(within), is_above=is_above))
                vectors = near.vectors()
                beyond = near.raised(vectors)
                text = model.source.text + self.worst_rows(near, beyond)
                words = ["check", *(["--at-most"] if is_above else [])]
                self.assertTrue(polcert(*words, *self.files(near, vectors, text)).out.startswith(b"yes: "), (name, within))
                self.assertTrue(polcert(*words, *self.files(near, beyond, text)).out.startswith(b"no: "), (name, within))

    def worst_rows(self, near: Near, vectors: Sequence[Sequence[int]]) -> bytes:
        """Entries that make the worst model of the first pair that fails."""
        pair = near.first_short(vectors)
        assert pair is not None
        (node, state), model = pair, near.model
        action, ends = near.graph.actions[node], near.ends(node, state, vectors)
        means = {end: value for end, (_, value) in ends.items()}
        moves = near.worst(model.transitions.row(action, state), model.states.count, means)
        lines = [f"T: {action} : {state} : {end} {fixed(p)}" for end, p in moves.items()]
        if not model.is_mdp:
            lines += [f"O: {action} : {end} : {z} {fixed(p)}" for end, (row, _) in ends.items() for z, p in row.items()]
        return "\n".join(["", *lines, ""]).encode()

    def test_mended_models(self) -> None:
        """Those of the recipes and of the benchmark, with a graph of nodes that repeat their action: the vectors hold in the written model."""
        count = 0
        for path in [*EXAMPLES.glob("recipes/*/*.POMDP"), *TOP.glob("tests/bench/models/*.POMDP")]:
            made = mended(read_source(str(path)), Fraction(1, 100_000))
            if made.mend.lines:
                model, count = read_model(Source("mended", made.text)), count + 1
                actions = list(range(model.actions.count))
                graph = Graph(actions, [[action] * model.observations.count for action in actions])
                written = Nearby(*made.mend.written.texts())
                near = Near(model, graph, distances_of(written.within, written.rewards_within))
                found = vectors_near(model, graph, written, Watch(is_quiet=True, can_end_early=False))
                vectors = [[round(value * MILLION) for value in row] for row in found]
                said = self.robust(near, *self.files(near, vectors, made.text))
                self.assertTrue(said.out.startswith(b"yes: every model within "), (path.name, said))
        self.assertGreater(count, 6)

    def test_the_commands_of_the_page(self) -> None:
        for name in NAMES:
            model, graph = (str(EXAMPLES / f"{name}.{ending}") for ending in ("POMDP", "pg"))
            out = str(self.folder / "out.alpha")
            self.assertEqual(run_script("polcert-evaluate", "--within", "0.0000005", model, graph, "-o", out).status, 0)
            said = run_program(ROBUST, "check", "--within", "0.0000005", model, graph, out).out
            self.assertTrue(said.startswith(b"yes: every model within 0.0000005, start node "), (name, said))


def fixed(value: Fraction) -> str:
    """A decimal of at most twelve places, exactly."""
    assert value * 10**12 == int(value * 10**12)
    return f"{int(value * 10**12) // 10**12}.{int(value * 10**12) % 10**12:012}".rstrip("0").rstrip(".")
