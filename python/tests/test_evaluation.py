"""The evaluation of graphs with numpy, and what the commands that need numpy say where it is missing or where they are interrupted."""
import random
from unittest.mock import patch

from models import random_model
from support import EXAMPLES, HAS_NUMPY, needs_numpy
from test_mend import values
from test_outputs import ALPHA, PG, TIGER, OutputTest
from polcert.command import Refusal, read_source
from polcert.files import Graph, Source, read_graph, read_model, read_vectors
from polcert.stopping import Stopping

if HAS_NUMPY:
    import numpy as np
    from polcert import evaluation
    from polcert.arrays import arrays_of
    from polcert.evaluation import Sweeper, array_graph, evaluate, evaluate_below, in_millionths, listed_graph

# The first observation comes with 0.25, and only it has a successor: the value is 1 + 0.5 * 0.25 * itself.
ENDS = b"discount: 0.5 values: reward states: 1 actions: 1 observations: 2 T: 0 identity O: * 0.25 0.75 R: 0 : * : * : * 1\n"
# Sends an interrupt once the command takes note of it.
INTERRUPT = """import os, signal
real = signal.signal
def note(number, handler):
    before = real(number, handler)
    if getattr(handler, "__name__", "") == "_note":
        os.kill(os.getpid(), signal.SIGINT)
    return before
signal.signal = note
"""


@needs_numpy
class Evaluation(OutputTest):
    def test_by_cell_and_by_row(self) -> None:
        for few_ends in (0, 1_000_000):
            with patch.object(evaluation, "FEW_ENDS", few_ends):
                self.values_of_random_graphs()
                graph = array_graph(Graph([0], [[0, None]]))
                self.assertAlmostEqual(float(evaluate(arrays_of(read_model(Source("M", ENDS))), graph)[0, 0]), 8 / 7, 9)

    def values_of_random_graphs(self) -> None:
        for seed in range(10):
            random_ = random.Random(seed)
            model = read_model(Source("m", random_model(random_, exact=True).text()))
            rows = [[random_.randrange(3) for _ in range(model.observations.count)] for _ in range(3)]
            graph = Graph([random_.randrange(model.actions.count) for _ in range(3)], [list(row) for row in rows])
            found, expected = evaluate(arrays_of(model), array_graph(graph)), values(model, list(zip(graph.actions, rows)))[0]
            self.assertLess(max(abs(x - y) for one, two in zip(found.tolist(), expected) for x, y in zip(one, two)), 1e-4)

    def test_blocks_of_one_node(self) -> None:
        model = read_model(read_source(TIGER))
        graph = array_graph(read_graph(read_source(PG), model))
        whole = evaluate(arrays_of(model), graph)
        with patch.object(evaluation, "BLOCK_NUMBERS", 1):
            self.assertLess(float(abs(evaluate(arrays_of(model), graph) - whole).max()), 1e-9)

    def test_a_discount_near_1(self) -> None:
        """Each of 11 states is left with 0.9 for the next one, and the first one earns 1 a step: in the mean 1 / 11, or 1,000,000 / 11 in all."""
        moves = "".join(" ".join({s: "0.1", (s + 1) % 11: "0.9"}.get(e, "0") for e in range(11)) + "\n" for s in range(11))
        text = f"discount: 0.999999 values: reward states: 11 actions: 1 observations: 1 T: 0\n{moves}O: 0 uniform R: 0 : 0 : * : * 1\n"
        model, graph = read_model(Source("m", text.encode())), array_graph(Graph([0], [[0]]))
        self.assertAlmostEqual(float(evaluate(arrays_of(model), graph).mean()), 1_000_000 / 11, 4)
        with patch.object(evaluation, "MOST_DIRECT", 0), patch.object(evaluation, "MOST_SOLVING", 2), patch.object(evaluation, "MOST_SWEEPS", 3):
            with self.assertRaisesRegex(Refusal, "does not settle"):
                evaluate(arrays_of(model), graph)

    def test_what_ends_early_promises_no_more_than_graphs_are_worth(self) -> None:
        for seed in range(20):
            random_ = random.Random(seed)
            model = read_model(Source("m", random_model(random_, exact=True).text()))
            rows = [[random_.randrange(3) for _ in range(model.observations.count)] for _ in range(3)]
            graph = Graph([random_.randrange(model.actions.count) for _ in range(3)], [list(row) for row in rows])
            arrays, worth = arrays_of(model), np.array(values(model, list(zip(graph.actions, rows)))[0], dtype=float)
            for begin, rounds in ((0.0, 0), (0.0, 3), (1000.0, 0), (-1000.0, 3)):
                given = np.full(worth.shape, begin)
                found = evaluate_below(arrays, array_graph(graph), given, Stopping(1e-10, rounds, lambda: True))
                self.assertLess(float((found - worth).max()), 1e-4, seed)
                rounded = in_millionths(arrays, array_graph(graph), given + worth, lambda: True)
                self.assertLess(float((rounded - worth).max()), 1e-4, seed)
                backed = Sweeper(arrays).sweep(array_graph(graph), rounded)
                self.assertLess(float((rounded - backed).max()), 1e-8, seed)

    def test_a_graph_there_and_back(self) -> None:
        graph = Graph([0, 1], [[1, None], [None, 0]])
        self.assertEqual(listed_graph(array_graph(graph)), graph)


class Commands(OutputTest):
    def test_numpy_is_missing(self) -> None:
        for library in ("numpy", "scipy"):
            for words in (self.graph, ["polcert-evaluate", TIGER, PG]):
                said = self.run_with(words, patched=f"import sys\nsys.modules['{library}'] = None\n")
                if HAS_NUMPY:
                    self.refused(said, rf"this command needs {library}: install numpy and scipy \(Debian: python3-numpy python3-scipy\)")
            self.assertEqual(self.listed(), {})
        self.assertEqual(self.run_with(["polcert-graph", "--help"], patched="import sys\nsys.modules['numpy'] = None\n").status, 0)

    @needs_numpy
    def test_an_interrupt_writes_the_best_graph_so_far(self) -> None:
        machine, name = str(EXAMPLES / "machine.POMDP"), str(self.folder / "out")
        said = self.run_with(["polcert-graph", machine, str(EXAMPLES / "machine.alpha"), "-o", name], patched=INTERRUPT)
        self.assertEqual(said.status, 0, said.err)
        self.assertIn("polcert-graph: interrupted: the best graph so far is written\n", said.err)
        model = read_model(read_source(machine))
        read_vectors(read_source(f"{name}.alpha"), model, read_graph(read_source(f"{name}.pg"), model))

    @needs_numpy
    def test_the_vectors_alone_are_interrupted_at_once(self) -> None:
        words = ["polcert-graph", TIGER, ALPHA, "-o", str(self.folder / "out"), "--own-vectors"]
        late = "import os, signal, sys\nclass Late:\n    def find_spec(self, name, *_):\n        if name == 'polcert.witness':\n" \
               "            os.kill(os.getpid(), signal.SIGINT)\nsys.meta_path.insert(0, Late())\n"
        self.refused(self.run_with(words, patched=late), "interrupted", 130)
        self.assertEqual(self.listed(), {})
