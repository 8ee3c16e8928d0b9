"""polcert-evaluate and polcert-graph: what they read, write and refuse, and that polcert certifies what they write."""
import random
import re
from typing import List, Optional, Tuple

from models import random_model
from support import EXAMPLES, HAS_NUMPY, PROGRAM, FolderTest, Said, needs_numpy, polcert, present, run_script
from polcert.command import read_source
from polcert.files import Graph, Model, Source, read_graph, read_model, read_vectors
from polcert.policies import Solved, read_solved
from polcert.values import vectors_text
from test_mend import rough_model, values

if HAS_NUMPY:
    from polcert import witness
    from polcert.arrays import arrays_of
    from polcert.evaluation import array_graph, evaluate, listed_graph
    from polcert.graphs import linked_best, links_of_vectors, without_copies
    from polcert.reach import Reach, met_vectors, policy_of
    from polcert.watch import Watch

POLICY = """<?xml version="1.0" encoding="ISO-8859-1"?>
<Policy version="0.1" type="value" model="tiger.POMDP">
<AlphaVector vectorLength="2" numObsValue="1" numVectors="5">
<Vector action="0" obsValue="0">19.371368 19.371368 </Vector>
<SparseVector action="0" obsValue="0"><Entry>0 0.690871</Entry> <Entry>1 25.005493</Entry></SparseVector>
<Vector action="0" obsValue="0">2.5005493e1 0.690871</Vector>
<Vector action="1" obsValue="0">-81.597201 28.402799</Vector>
<Vector action="2" obsValue="0">28.402799 -81.597201</Vector>
</AlphaVector> </Policy>
"""


def example(name: str) -> str:
    return str(EXAMPLES / name)


def read_solved_vectors(name: str, model: Model) -> List[Solved]:
    solved = read_solved(read_source(name), model)
    assert isinstance(solved, list)
    return solved


@needs_numpy
class Evaluate(FolderTest):
    def test_vectors_of_the_examples(self) -> None:
        for name in ("tiger", "machine", "stock", "robot"):
            said = run_script("polcert-evaluate", example(f"{name}.POMDP"), example(f"{name}.pg"))
            self.assertEqual((said.status, said.err), (0, ""))
            self.assertEqual(said.out, (EXAMPLES / f"{name}.alpha").read_bytes())

    def test_a_graph_stays_as_it_is(self) -> None:
        for name in ("tiger", "machine"):
            said = run_script("polcert-graph", example(f"{name}.POMDP"), example(f"{name}.pg"), "-o", str(self.folder / name))
            self.assertEqual(said.status, 0, said.err)
            model = read_model(read_source(example(f"{name}.POMDP")))
            graphs = [read_graph(read_source(file), model) for file in (example(f"{name}.pg"), str(self.folder / f"{name}.pg"))]
            self.assertEqual(graphs[0], graphs[1])
            self.assertEqual((self.folder / f"{name}.alpha").read_bytes(), (EXAMPLES / f"{name}.alpha").read_bytes())

    def test_random_graphs_against_plain_iteration(self) -> None:
        for seed in range(20):
            random_ = random.Random(seed)
            model = read_model(Source("m", random_model(random_, exact=True).text()))
            sizes = model.actions.count, model.observations.count
            graph = [(random_.randrange(sizes[0]), [random_.randrange(3) for _ in range(sizes[1])]) for _ in range(3)]
            worth = evaluate(arrays_of(model), array_graph(Graph([action for action, _ in graph], [list(row) for _, row in graph])))
            moved = max(abs(x - y) for one, two in zip(worth, values(model, graph)[0]) for x, y in zip(one, two))
            self.assertLess(moved, 1e-4)

    def test_what_is_refused(self) -> None:
        tiger = (EXAMPLES / "tiger.POMDP").read_bytes()
        for model, graph, reason in (
            (tiger.replace(b"0.95", b"1"), b"0 0 0 0", "M:1:11: the discount is 1"),
            (tiger.replace(b"0.85 0.15", b"0.85 0.14"), b"0 0 0 0", "M:13:1: M17: the row of O"),
            (tiger, b"0 0 0 0\n1 0 0 2", "G:2:7: G5: there is no node 2"),
            (tiger.replace(b"-100", b"-9000000"), b"0 1 0 0", "a value is beyond 10,000,000"),
        ):
            said = run_script("polcert-evaluate", self.file("M", model), self.file("G", graph), "-o", str(self.folder / "out"))
            self.assertEqual((said.status, said.out), (2, b""))
            self.assertIn(reason, said.err)
            self.assertFalse((self.folder / "out").exists())


@needs_numpy
class GraphTest(FolderTest):
    def graph(self, model: str, solved: str, *words: str) -> Said:
        return run_script("polcert-graph", model, solved, "-o", str(self.folder / "out"), *words)

    def text(self, ending: str) -> bytes:
        return (self.folder / f"out.{ending}").read_bytes()

    def certified(self, model: str) -> Optional[float]:
        """What polcert certifies of the files that were written, after `lower`; None without a program."""
        files = [str(self.folder / f"out.{ending}") for ending in ("pg", "alpha")]
        read = read_model(read_source(model))
        read_vectors(read_source(files[1]), read, read_graph(read_source(files[0]), read))
        if not PROGRAM:
            return None
        lowered = polcert("lower", model, *files)
        self.assertEqual(lowered.status, 0, lowered.err)
        said = polcert("check", model, files[0], self.file("lowered", lowered.out))
        return float(present(re.fullmatch(rb"yes: start node \d+, at least (\S+)\n", said.out)).group(1))


class Vectors(GraphTest):
    def test_the_tiger(self) -> None:
        said = self.graph(example("tiger.POMDP"), example("tiger.alpha"))
        name = str(self.folder / "out")
        self.assertEqual(said.err, f"{name}.pg: 5 nodes, worth 19.371368 from the start; the vectors claim 19.371368, the same\n")
        self.assertIn(self.certified(example("tiger.POMDP")), (None, 19.37136))

    def test_a_node_for_each_belief_is_worth_more_than_one_for_each_vector(self) -> None:
        machine = example("machine.POMDP")
        self.assertEqual(self.graph(machine, example("machine.alpha")).status, 0)
        worth = self.certified(machine)
        self.assertTrue(worth is None or worth > 11.39)
        model, watch = read_model(read_source(machine)), Watch(True)
        reach, policy = Reach(arrays_of(model)), policy_of(read_solved_vectors(example("machine.alpha"), model))
        met = met_vectors(reach, policy, 50, 1000, watch)
        self.assertLess(linked_best(reach, links_of_vectors(reach, met, policy), 20, 1e-3, watch).worth, 11.39)

    def test_nodes_are_added_where_they_are_worth_more(self) -> None:
        machine, solved = example("machine.POMDP"), self.file("solved", b"0 0 0\n")
        earned = []
        for rounds in ("1", "3", "20"):
            said = self.graph(machine, solved, "--rounds", rounds, "--nodes", "40")
            self.assertEqual(said.status, 0, said.err)
            earned.append(float(present(re.search(r"worth (\S+) from", said.err)).group(1)))
            self.assertLessEqual(len(self.text("pg").splitlines()), 40)
        self.assertLess(earned[0], earned[1])
        self.assertLess(earned[1], earned[2])
        self.certified(machine)

    def test_the_most_nodes(self) -> None:
        for most in (1, 3, 12):
            self.assertEqual(self.graph(example("machine.POMDP"), example("machine.alpha"), "--nodes", str(most)).status, 0)
            self.assertLessEqual(len(self.text("pg").splitlines()), most)
            self.certified(example("machine.POMDP"))

    def test_random_models(self) -> None:
        for seed in range(12):
            random_ = random.Random(seed)
            model = read_model(Source("m", random_model(random_, exact=True).text()))
            states, actions = range(model.states.count), range(model.actions.count)
            lines = [f"{a} {' '.join(f'{random_.uniform(0, 9):.3f}' for _ in states)}" for a in actions]
            name = self.file("model", model.source.text)
            said = self.graph(name, self.file("solved", "\n".join(lines).encode()), "--nodes", "8")
            self.assertEqual(said.status, 0, said.err)
            self.certified(name)

    def test_costs(self) -> None:
        text = rough_model(random.Random(3)).replace(b"values: reward", b"values: cost")
        mended = run_script("polcert-mend", self.file("rough", text), "--within", "0.03")
        model = self.file("model", mended.out)
        solved = self.file("solved", b"0 5 5 5\n1 6 6 6\n")
        said = self.graph(model, solved, "--costs")
        self.assertIn("the vectors claim -5.000000", said.err)
        self.certified(model)

    def test_costs_that_are_not_said_to_be_costs(self) -> None:
        text = b"discount: 0.5 values: cost states: 1 actions: 1 observations: 1 T: 0 identity O: 0 uniform R: 0:0:0:0 1\n"
        model, solved = self.file("model", text), self.file("solved", b"0 2\n")
        advice = f"polcert-graph: the numbers of {solved} are above 0, while no reward of the model is: if they are costs, say --costs\n"
        self.assertTrue(self.graph(model, solved).err.startswith(advice))
        self.assertNotIn("polcert-graph: ", self.graph(model, solved, "--costs").err)

    def test_nodes_that_do_the_same(self) -> None:
        graph = Graph([0, 1, 0, 1, 1], [[1, 2], [0, None], [3, 0], [2, None], [0, 0]])
        small = listed_graph(without_copies(array_graph(graph), 2))
        self.assertEqual((small.actions, small.successors), ([0, 1], [[1, 0], [0, None]]))


class Policies(GraphTest):
    def test_a_policy_of_sarsop(self) -> None:
        self.assertEqual(self.graph(example("tiger.POMDP"), self.file("policy", POLICY.encode())).status, 0)
        self.assertIn(self.certified(example("tiger.POMDP")), (None, 19.37136))
        self.assertEqual(self.text("pg"), b"0 0 1 2\n1 0 3 0\n2 0 0 4\n3 2 0 0\n4 1 0 0\n")

    def test_policies_that_are_refused(self) -> None:
        for old, new, reason in (
            ("</Policy>", "", "policy:10:1: this is no XML"),
            ("<Vector", "<Vectors", "this is no XML"),
            (POLICY, "<Policy></Policy>", "policy:1:18: expected a `<Vector>` or a `<SparseVector>` of a policy, found none"),
            ("28.402799 -81.597201", "28.402799", "policy:8:42: expected 2 numbers, one for each state of the model, found 1"),
            ("2.5005493e1", "nan", "expected a number, found `nan`"),
            ("2.5005493e1", "1_0", "expected a number, found `1_0`"),
            ('action="2"', 'action="3"', "policy:8:1: expected the number of an action from 0 to 2, found `3`"),
            ('action="1" obsValue="0"', 'action="1" obsValue="1"', "policy:7:1: this policy is of mixed"),
            ("<Entry>1 ", "<Entry>2 ", "expected the number of a state from 0 to 1, found `2`"),
            ("<Entry>1 ", "<Entry>1 1 ", "expected a state and a number"),
        ):
            said = self.graph(example("tiger.POMDP"), self.file("policy", POLICY.replace(old, new).encode()))
            self.assertEqual((said.status, said.out), (2, b""), new)
            self.assertIn(reason, said.err)
            self.assertFalse((self.folder / "out.pg").exists())

    def test_lists_that_are_refused(self) -> None:
        for text, reason in (
            (b"", "solved:1:1: V6: expected a vector, found 0"),
            (b"0 1", "solved:1:4: V5: expected the value of vector 0 in state 1, found the end of the text"),
            (b"0 1 inf", "solved:1:5: V3: expected the value of vector 0 in state 1, found `inf`"),
            (b"3 1 1", "solved:1:1: there is no action `3`"),
        ):
            said = self.graph(example("tiger.POMDP"), self.file("solved", text))
            self.assertEqual(said.status, 2)
            self.assertIn(reason, said.err)

    def test_policies_of_an_mdp(self) -> None:
        stock = example("stock.POMDP")
        for text in (b"order-two order-one wait # enough\nwait", b"2 1 0 0"):
            self.assertEqual(self.graph(stock, self.file("policy", text)).status, 0)
            self.assertEqual(self.text("pg"), (EXAMPLES / "stock.pg").read_bytes())
            self.assertEqual(self.text("alpha"), (EXAMPLES / "stock.alpha").read_bytes())
            self.assertIn(self.certified(stock), (None, 68.549998))
        for text, reason in ((b"wait wait wait sell", "policy:1:16: there is no action `sell`"), (b"0 0 0 3", "there is no action `3`")):
            said = self.graph(stock, self.file("policy", text))
            self.assertEqual(said.status, 2)
            self.assertIn(reason, said.err)

    def test_policies_of_an_mdp_with_another_number_of_actions(self) -> None:
        expected = "expected an action for each state of the model, which are 4, found"
        for text, reason in (
            (b"order-two order-one wait", f":1:25: {expected} 3\n"), (b"wait\nwait\nwait\n0\nwait\nwait", f":5:1: {expected} 6\n"),
            (b"2 1\n", f":2:1: {expected} 2\n"), (b"wait sell", f":1:10: {expected} 2\n"),
            # no list of actions: no name of one, no number of one, enough numbers for a vector
            (b"sell", ":1:1: V3: "), (b"2 7", ":1:4: V5: "), (b"0 1 2 0 1 2", ":1:12: V5: "), (b"wait 0.5", ":1:1: V3: "), (b"", ":1:1: V6: "),
        ):
            said = self.graph(example("stock.POMDP"), self.file("policy", text))
            self.assertEqual(said.status, 2)
            self.assertIn(f"policy{reason}", said.err)
        self.assertIn(":1:1: V3: ", self.graph(example("tiger.POMDP"), self.file("policy", b"listen")).err)

    def test_words(self) -> None:
        self.assertEqual(run_script("polcert-graph", "--help").status, 0)
        self.assertEqual(run_script("polcert-evaluate", "--help").status, 0)
        self.assertEqual(self.graph(example("tiger.POMDP"), example("tiger.alpha"), "--nodes", "0").status, 2)
        self.assertEqual(self.graph(example("tiger.POMDP"), example("tiger.alpha"), "--nodes", "x").status, 2)
        one = self.file("one", (EXAMPLES / "tiger.POMDP").read_bytes().replace(b"0.95", b"1"))
        self.assertIn("one:1:11: the discount is 1", self.graph(one, example("tiger.alpha")).err)


class OwnVectors(GraphTest):
    """The vectors that are certified are those that the solver wrote, or some of them."""

    def own(self, model: str, solved: str, *words: str) -> Said:
        said = self.graph(model, solved, "--own-vectors", *words)
        self.assertEqual((said.status, said.out), (0, b""), said.err)
        return said

    def written(self, model: str) -> List[Solved]:
        return [Solved(action, [float(value) for value in values])
                for action, values in read_vectors(read_source(str(self.folder / "out.alpha")), read_model(read_source(model)))]

    def solved(self, model: str, name: str) -> List[Solved]:
        return read_solved_vectors(name, read_model(read_source(model)))

    def test_solvers(self) -> None:
        doors = self.file("doors", run_script("polcert-mend", "-q", example("recipes/sarsop/doors.POMDP")).out)
        tiger = example("tiger.POMDP")
        cases: List[Tuple[str, str, List[int], float]] = [
            (doors, "recipes/sarsop/doors.policy", [], 8.084018),
            (tiger, "recipes/pomdp-solve/tiger.alpha", [], 19.371357),
            (tiger, "recipes/ai-toolbox/tiger.solved", [5, 6, 8, 9], 4.42853),
            (example("machine.POMDP"), "machine.alpha", [], 11.151814),
            (example("stock.POMDP"), "stock.alpha", [], 68.549998),
            (example("robot.POMDP"), "robot.alpha", [], 0.343776),
        ]
        for model, name, left_out, worth in cases:
            said, solved = self.own(model, example(name)), self.solved(model, example(name))
            kept = [vector for n, vector in enumerate(solved) if n not in left_out]
            self.assertIn(f"{len(kept)} of {len(solved)} vectors, short by at most", said.err)
            self.assertEqual("left out" in said.err, bool(left_out))
            self.assertIn(f"run: vectors {', '.join(map(str, left_out))} of" if left_out else "", said.err)
            self.assertEqual(self.written(model), kept)
            self.assertIn(self.certified(model), (None, worth))

    def test_vectors_of_random_graphs_back_one_another(self) -> None:
        for seed in range(12):
            random_ = random.Random(seed)
            model = read_model(Source("m", random_model(random_, exact=True).text()))
            actions, observations, nodes = model.actions.count, model.observations.count, random_.randint(1, 4)
            rows: List[List[Optional[int]]] = [[random_.randrange(nodes) for _ in range(observations)] for _ in range(nodes)]
            graph = Graph([random_.randrange(actions) for _ in range(nodes)], rows)
            vectors = [Solved(*vector) for vector in zip(graph.actions, evaluate(arrays_of(model), array_graph(graph)).tolist())]
            random_.shuffle(vectors)
            name = self.file("model", model.source.text)
            text = vectors_text((vector.action for vector in vectors), (vector.values for vector in vectors), repr)
            said = self.own(name, self.file("solved", text), "--within", "0.00001")
            self.assertIn(f"{nodes} of {nodes} vector", said.err)
            self.assertEqual(self.written(name), vectors)
            self.certified(name)

    def test_a_vector_that_promises_too_much(self) -> None:
        tiger = example("tiger.POMDP")
        text = b"0 20 20\n" + (EXAMPLES / "tiger.alpha").read_bytes()
        said = self.own(tiger, self.file("solved", text))
        self.assertIn("5 of 6 vectors", said.err)
        self.assertIn("left out, and not to be run: vector 0 of", said.err)
        self.assertIn(self.certified(tiger), (None, 19.37136))
        said = self.own(tiger, self.file("solved", text), "--within", "2")
        self.assertIn("6 of 6 vectors", said.err)

    def test_without_branch_and_bound(self) -> None:
        tiger = example("tiger.POMDP")
        solved = self.solved(tiger, example("tiger.alpha"))
        found = witness.find_witness(Reach(arrays_of(read_model(read_source(tiger)))), solved, None, 0, Watch(True))
        self.assertEqual((found.kept, found.left_out), (list(range(5)), []))

    def test_observations_that_cannot_come(self) -> None:
        text = b"discount: 0.5 values: reward states: 1 actions: 1 observations: 2 T: 0 identity O: 0 : 0 : 1 1 R: 0 : 0 : 0 : * 1\n"
        model = self.file("model", text)
        self.own(model, self.file("solved", b"0 0\n"))
        self.assertEqual(self.text("pg"), b"0 0 - 0\n")
        self.assertIn(self.certified(model), (None, 0.0))

    def test_costs_and_digits(self) -> None:
        text = b"discount: 0.5 values: cost states: 1 actions: 1 observations: 1 T: 0 identity O: 0 uniform R: 0:0:0:0 1\n"
        model = self.file("model", text)
        self.own(model, self.file("solved", b"0 2.00000000125\n"), "--costs")
        self.assertEqual(self.text("alpha"), b"0\n-2.00000000125\n\n")
        self.assertIn(self.certified(model), (None, -2.000001))

    def test_what_is_refused(self) -> None:
        tiger = example("tiger.POMDP")
        for solved, words, reason in (
            (self.file("table", b"node action tiger-left tiger-right\n1 listen 1 1\n"), (), "--own-vectors takes vectors"),
            (self.file("high", b"0 9 9\n"), (), "no successors back a vector within 0.000900 of one step"),
            (self.file("huge", POLICY.replace("0.690871", "-1e8").encode()), ("--within", "10000000"), "a value is beyond 10,000,000"),
            (example("tiger.alpha"), ("--within", "-1"), "-1 is not from 0 to 10,000,000"),
            (example("tiger.alpha"), ("--within", "x"), "invalid number value"),
        ):
            said = self.graph(tiger, solved, "--own-vectors", *words)
            self.assertEqual((said.status, said.out), (2, b""))
            self.assertIn(reason, said.err)
            self.assertFalse((self.folder / "out.pg").exists())

    def test_a_tolerance_without_own_vectors_is_refused(self) -> None:
        said = self.graph(example("tiger.POMDP"), example("tiger.alpha"), "--within", "0.1")
        self.assertEqual((said.status, said.out), (2, b""))
        self.assertIn("--within goes with --own-vectors", said.err)
        self.assertFalse((self.folder / "out.pg").exists())
