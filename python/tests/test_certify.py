"""polcert-certify: from a model, or a model and a policy, to certificates and a report."""
import json
import os
import pathlib
import re
import signal
import subprocess
import sys
from fractions import Fraction
from hashlib import sha256
from typing import Any, Dict, Tuple

from models import RING
from support import EXAMPLES, PROGRAM, SCRIPTS, FolderTest, Said, load, needs_program, run_script
from polcert.certification import Certificate, Certifier, percent
from polcert.certification_report import markdown_of
from polcert.costs import sign_advice
from polcert.files import Graph, read_model
from polcert.nearby import Nearby
from polcert.policies import GraphOrVectors, Solved
from polcert.tokens import Source
from runner import programs_beside

script = load("polcert-certify")
# The optimum of the tiger, by each point-based solver that is cited: 19.3713.
TIGER = str(EXAMPLES / "tiger.POMDP")
# One state is left with one half of the weight, 0.333333 + 0.333333 + 0.333333 is no 1, and each step earns 1: 10 in all.
ROUGH = b"discount: 0.9 values: reward states: 3 actions: 1 observations: 1 T: 0 : * 0.333333 0.333333 0.333333 O: * uniform R: * : * : * : * 1\n"
# A probability of 0.0000001 becomes 0.
LOST = b"discount: 0.9 values: reward states: 2 actions: 1 observations: 1 T: 0 0.9999999 0.0000001 0 1 O: * uniform R: * : 0 : * : * 1\n"
# Who takes action 1 earns 1 a step, which is 2 in all; action 0 earns nothing.
TWO_ACTIONS = b"discount: 0.5 values: reward states: 1 actions: 2 observations: 1 T: * identity O: * uniform R: 1 : * : * : * 1\n"
# An MDP: from each state the other one follows; a step from the second earns 1. So they are worth 2/3 and 4/3, of which the mean is 1.
MDP = b"discount: 0.5 values: reward states: 2 actions: 1 T: 0 0 1 1 0 R: 0 : 1 : 0 1\n"
# An MDP: a step earns 1 if its action has the state's number.
MDP_OF_TWO = b"discount: 0.5 values: reward states: 2 actions: 2 T: * identity R: 0 : 0 : * 1 R: 1 : 1 : * 1\n"
# Each step costs 1 with action 0 and 3 with action 1: 2 in all, or 3 and then 1 for ever, which is 4.
COSTS = b"discount: 0.5 values: cost states: 1 actions: 2 observations: 1 T: * identity O: * uniform R: 0 : * : * : * 1 R: 1 : * : * : * 3\n"
UNDISCOUNTED = b"discount: 1 values: reward states: 1 actions: 1 observations: 1 T: * identity O: * uniform\n"


class Words(FolderTest):
    def test_percents_are_rounded_up(self) -> None:
        one = Fraction(1)
        for gap, low, said in ((one, 3, ", 34 %"), (one, -4, ", 25 %"), (0 * one, 5, ", 0 %"), (one / 10**6, 19, ", 0.0000053 %")):
            self.assertEqual(percent(gap, Fraction(low)), said)
        for wide, least in ((1, 0), (5, 4), (5, -4)):
            self.assertEqual(percent(Fraction(wide), Fraction(least)), "")

    def test_names_of_files(self) -> None:
        for name, stem in (("a/tiger.POMDP", "tiger"), ("t.POMDP.gz", "t"), ("-", "model"), ("my.model", "my.model"), ("x.mdp", "x")):
            self.assertEqual(script.stem(name), stem)


class Signs(FolderTest):
    """The advice on vectors whose numbers are above 0 while no reward is."""

    def advice(self, model: bytes, found: GraphOrVectors, are_costs: bool = False) -> str:
        return sign_advice(Source("F", b""), found, read_model(Source("m", model)), are_costs) or ""

    def test_numbers_that_no_policy_is_worth(self) -> None:
        costs = [Solved(0, [2.0]), Solved(1, [4.0])]
        said = "the numbers of F are above 0, while no reward of the model is: if they are costs, say --costs"
        for model in (COSTS, COSTS.replace(b"cost", b"reward").replace(b"* 1", b"* -1").replace(b"* 3", b"* -3")):
            self.assertEqual(self.advice(model, costs), said)
        # (numbers are negated as they are read)
        said = "the numbers of F are below 0, while no cost of the model is: if they are no costs, leave out --costs"
        self.assertEqual(self.advice(COSTS, costs, True), said)

    def test_numbers_that_may_be_right(self) -> None:
        one = [Solved(0, [2.0])]
        cases: Tuple[Tuple[bytes, GraphOrVectors], ...] = (
            (COSTS.replace(b"cost", b"reward"), one), (COSTS.replace(b"* 1", b"* -1"), one), (COSTS, [Solved(0, [-2.0]), Solved(1, [-4.0])]),
            (COSTS, [Solved(0, [0.0]), Solved(1, [0.0000009])]), (COSTS, [Solved(0, [2.0]), Solved(1, [-0.1])]), (COSTS, Graph([0], [[0]])),
        )
        for model, found in cases:
            for are_costs in (False, True):
                self.assertEqual(self.advice(model, found, are_costs), "")


class Reports(FolderTest):
    def test_no_more_is_said_than_is_certified(self) -> None:
        found = Certificate("m", {"m.POMDP": b"mended"}, node=4)
        for side, value, first in (("low", 1, "From below"), ("high", 2, "From above"), ("most", 3, "In the long run every policy")):
            self.assertNotIn(f"\n- {first}", markdown_of(found, {"m.POMDP": b"given"}, []))
            setattr(found, side, Fraction(value))
            self.assertIn(f"\n- {first}", markdown_of(found, {"m.POMDP": b"given"}, []))
        text = markdown_of(found, {"m.POMDP": b"given"}, ["p"])
        summary = "Started in node 4, this controller earns between 1 and 2; every policy at most 3; within 2."
        self.assertTrue(text.startswith(f"# m\n\n{summary}\n"), text)
        self.assertIn("this controller, started in node 4,\n  earns at least 1 from the model's start.\n", text)
        self.assertIn("it earns at most 2 from the model's start, started in\n  any node.\n", text)
        for done, bytes_ in (("read", b"given"), ("written", b"mended")):
            self.assertIn(f"| `m.POMDP` | {done} | `{sha256(bytes_).hexdigest()}` |", text)
        self.assertNotIn("was mended", text)
        self.assertIn("was mended", markdown_of(Certificate("m", is_mended=True), {}, []))
        self.assertIn("\n\nNothing is certified.\n", markdown_of(Certificate("m"), {}, []))

    def test_costs(self) -> None:
        said = "the model's numbers are costs: to earn -x is to cost x"
        for found in (Certificate("m", low=Fraction(-2), is_cost=True), Certificate("m", most=Fraction(-2), is_cost=True)):
            self.assertEqual(found.sentences()[1:], [said])
            found.is_cost = False
            self.assertEqual(len(found.sentences()), 1)
        self.assertEqual(Certificate("m", is_cost=True).sentences(), [])

    def test_the_written_model(self) -> None:
        found = Certificate("m", is_mended=True, written=Nearby("0.000001", "0", Fraction(3), node=2))
        text = markdown_of(found, {}, [])
        self.assertTrue(text.startswith("# m\n\nIn the model as it was written, started in node 2, at least 3.\n"), text)
        self.assertIn("\n- The model as it was written lies within 0.000001 of the mended one.", text)
        found.written = Nearby("0.000001", "0.000002", why_not="`T: 0 : 0 : 1` became 0")
        self.assertIn("\n- No certificate of the model as it was written: `T: 0 : 0 : 1` became 0.\n", markdown_of(found, {}, []))
        self.assertEqual(found.written.distances(), "within 0.000001, rewards within 0.000002")

    def test_every_model_near(self) -> None:
        found = Certificate("m", near=Nearby("5%", low=Fraction(3), node=2))
        text = markdown_of(found, {}, [])
        self.assertTrue(text.startswith("# m\n\nIn every model within 5 %, started in node 2, at least 3.\n"), text)
        self.assertIn("lie within 5 % of this one, the first of these holds with the vectors of\n  `m.near.alpha`: ", text)
        found.near = Nearby("0.1", why_not="no: node 0, state 0, short by 1")
        self.assertIn("\n- No certificate of every model near: no: node 0, state 0, short by 1.\n", markdown_of(found, {}, []))


@needs_program
class Certificates(FolderTest):
    def programs(self) -> str:
        """A folder with the programs, which the gate has in one each."""
        folder = self.folder / "programs"
        folder.mkdir(exist_ok=True)
        for name, program in programs_beside(str(PROGRAM)).items():
            if not (folder / name).exists():
                os.symlink(os.path.realpath(program), folder / name)
        return str(folder)

    def certify(self, *words: str, status: int = 0, seconds: str = "60") -> Said:
        said = run_script("polcert-certify", *words, "-o", str(self.folder / "out"), "--seconds", seconds, "--programs", self.programs(), "-q")
        self.assertEqual(said.status, status, said.err)
        return said

    def report(self, name: str) -> Dict[str, Any]:
        found: Dict[str, Any] = json.loads((self.folder / "out" / f"{name}.report.json").read_text())
        return found

    def test_the_tiger_is_solved(self) -> None:
        said = self.certify(TIGER)
        most = r"every policy at most ([0-9.]+); within ([0-9.]+), 0\.0[0-9]* %"
        found = re.fullmatch(rf"tiger: started in node 0, this controller earns between (19\.3713[0-9]*) and ([0-9.]+); {most}\n", said.out.decode())
        self.assertIsNotNone(found, said.out)
        assert found
        low, high, highest, gap = map(Fraction, found.groups())
        self.assertTrue(low <= high <= low + Fraction("0.0001") and low <= highest <= Fraction("19.3724"), found.groups())
        self.assertEqual(gap, highest - low)
        report = self.report("tiger")
        self.assertEqual(report["controller"]["at_least"], found[1])
        self.assertEqual((report["every_policy"]["at_most"], report["gap"], report["certified"]), (found[3], found[4], True))
        written = {path.name for path in (self.folder / "out").iterdir()} - {"tiger.report.md", "tiger.report.json"}
        self.assertEqual({row["name"] for row in report["files"]}, written)
        self.assertEqual(([row["name"] for row in report["read"]], report["mended"]), ([TIGER], False))

    def test_a_graph_that_is_given(self) -> None:
        model, graph = self.file("two.POMDP", TWO_ACTIONS), self.file("lazy.pg", b"0 0 0\n")
        said = self.certify(model, graph)
        self.assertEqual(said.out, b"two: started in node 0, this controller earns between 0 and 0; every policy at most 2; within 2\n")
        good = self.file("good.alpha", b"1\n2\n\n0\n1\n")
        said = self.certify(model, good, seconds="0")
        self.assertTrue(said.out.startswith(b"two: started in node 0, this controller earns between 2 and 2; every policy at most 2; "), said.out)
        said = self.certify(model, good, "--json")
        self.assertEqual(json.loads(said.out)["controller"], {"start_node": 0, "at_least": "2", "at_most": "2"})
        self.assertEqual(json.loads(said.out)["gap"], "0")

    def test_vectors_of_costs(self) -> None:
        model, costs = self.file("toll.POMDP", COSTS), self.file("costs.alpha", b"0 2\n1 4\n")
        said = self.certify(model, costs, "--costs")
        costs_said = "the model's numbers are costs: to earn -x is to cost x"
        line = f"tarted in node 0, this controller earns between -2 and -2; every policy at most -2; within 0, 0 %; {costs_said}"
        self.assertEqual((said.out.decode(), said.err), (f"toll: s{line}\n", ""))
        self.assertIn(f"\nS{line}.\n", (self.folder / "out" / "toll.report.md").read_text())
        self.assertIn("the vectors claim -2.000000", self.report("toll")["steps"][1]["line"])
        self.assertIs(self.report("toll")["costs"], True)
        said = self.certify(model, costs)
        self.assertEqual(said.err, f"polcert-certify: the numbers of {costs} are above 0, while no reward of the model is: if they are costs, "
                                   "say --costs\n")

    def test_no_lower_bound(self) -> None:
        said = self.certify(self.file("two.POMDP", TWO_ACTIONS), self.file("lack.pg", b"0 0 -\n"), status=1)
        self.assertEqual(said.out, b"two: nothing is certified\n")
        self.assertIn("polcert-certify: no lower bound: lower: L3 at node 0, state 0, observation 0: ", said.err)
        self.assertFalse(self.report("two")["certified"])
        self.assertIs(self.report("two")["costs"], False)

    def test_a_bound_that_is_too_low(self) -> None:
        certifier = Certifier("two", Fraction(0), self.programs(), lambda step: None)
        certifier.certify_bound(TWO_ACTIONS, b"0 0\n1 1\n", None)
        self.assertEqual((certifier.found.most, certifier.found.steps[0].line), (2, "raised by 1"))
        self.assertEqual(certifier.found.files["two.bound.alpha"].split(), b"0 1 1 2".split())

    def test_an_mdp(self) -> None:
        said = self.certify(self.file("m.mdp", MDP))
        line = rb"\Am: started in node 0, this controller earns between (1|0\.99999[0-9]) and 1(\.00000[0-9])?; "
        self.assertRegex(said.out, line + rb"every policy at most 1(\.00000[0-9])?; ")

    def test_an_mdp_starts_in_the_best_node_for_its_state(self) -> None:
        """The node of a state is worth 2 there, and in the other state 1."""
        said = self.certify(self.file("m.mdp", MDP_OF_TWO))
        self.assertEqual(said.out, b"m: started in node 0, this controller earns between 1.5 and 1.5, in the best node for the state that is "
                         b"seen at least 2; every policy at most 2; within 0, 0 %\n")
        bounds = {"start_node": 0, "at_least": "1.5", "at_most": "1.5", "at_least_where_the_start_is_seen": "2"}
        self.assertEqual(self.report("m")["controller"], bounds)
        said_so = b"\n- Started in the best node for the state that is seen, it earns at least"
        self.assertIn(said_so, (self.folder / "out" / "m.report.md").read_bytes())

    def test_the_best_of_several_start_nodes(self) -> None:
        """A step earns 1 if its action has the state's number, which stays 0 with 0.25 and 1 with 0.75, unseen. So node 0, which takes action 0
        for ever, is worth (2, 0), node 1 (0, 2), and node 2, which takes action 0 once and then is node 1, (1, 1): from the start 0.5, 1.5 and
        1. Every policy earns 0.75 a step at most."""
        text = b"discount: 0.5 values: reward states: 2 actions: 2 observations: 1 start: 0.25 0.75 T: * identity O: * uniform "
        model = self.file("m.POMDP", text + b"R: 0 : 0 : * : * 1 R: 1 : 1 : * : * 1")
        said = self.certify(model, self.file("m.pg", b"0 0 0 1 1 1 2 0 1"))
        self.assertRegex(said.out, rb"\Am: started in node 1, this controller earns between 1.5 and 1.5; every policy at most 1\.5[0-9]*; within ")
        self.assertEqual(self.report("m")["controller"], {"start_node": 1, "at_least": "1.5", "at_most": "1.5"})
        lines = [step["line"] for step in self.report("m")["steps"]]
        self.assertTrue({"yes: start node 1, at least 1.5", "yes: every start node, at most 1.5"} <= set(lines), lines)

    def test_each_bound_names_its_start_node(self) -> None:
        """In state 0 action 1 earns 1.155 and keeps 0.9 of its weight, for ever 1.155 / (1 - 0.45), which is 2.1; with 0.8 it is 1.925. Action 0
        earns 1 and keeps all, which is 2. Nothing is earned in state 1."""
        text = b"discount: 0.5 values: reward states: 2 actions: 2 observations: 1 start: 0 T: 0 identity T: 1 0.9 0.1 0 1 O: * uniform "
        model = self.file("m.POMDP", text + b"R: 0 : 0 : * : * 1 R: 1 : 0 : * : * 1.155")
        said = self.certify(model, self.file("m.pg", b"0 1 0 1 0 1"), "--near", "0.1")
        self.assertRegex(said.out, rb"\Am: started in node 0, this controller earns between (2\.1|2\.09999[0-9]) and 2\.1(00001)?; every policy ")
        self.assertRegex(said.out, rb"; in every model within 0\.1, started in node 1, at least (2|1\.99999[0-9])\n\Z")
        self.assertEqual((self.report("m")["controller"]["start_node"], self.report("m")["near"]["start_node"]), (0, 1))
        self.assertRegex((self.folder / "out" / "m.report.md").read_text(), r"`m\.near\.alpha`: in the long run this controller, started in node 1, ")

    def certified_ring(self) -> None:
        """A start in each of 11 states is as likely, which stays so: a step earns 1 / 11, in the long run 1,000,000 / 11, or 90,909.0909."""
        report, right = self.report("ring"), Fraction(1_000_000, 11)
        low, high = (Fraction(report["controller"][side]) for side in ("at_least", "at_most"))
        most = Fraction(report["every_policy"]["at_most"])
        self.assertTrue(right - 3 < low <= right <= min(high, most) and max(high, most) < right + 3, (low, high, most))

    def test_an_mdp_that_the_limit_cuts_short(self) -> None:
        self.certify(self.file("ring.mdp", RING), seconds="1")
        self.certified_ring()

    def test_an_interrupt(self) -> None:
        words = [sys.executable, str(SCRIPTS / "polcert-certify"), self.file("ring.mdp", RING), "-o", str(self.folder / "out")]
        words += ["--seconds", "600", "--programs", self.programs()]
        with subprocess.Popen(words, stdout=subprocess.PIPE, stderr=subprocess.PIPE) as child:
            assert child.stderr is not None
            self.assertRegex(child.stderr.readline(), rb"model: mdp: 11 states")
            child.send_signal(signal.SIGINT)
            out, err = child.communicate()
        self.assertEqual(child.returncode, 0, err)
        self.assertRegex(err, rb"\Apolcert-certify: ending early; a second interrupt ends it at once\n")
        self.assertIn(b" interrupt: the search was ended early\n", err)
        self.assertRegex(out, rb"\Aring: started in node 0, this controller earns between 909[0-9.]+ and 909")
        self.certified_ring()

    def test_files_of_an_earlier_run_are_named(self) -> None:
        model, graph, old = self.file("two.POMDP", TWO_ACTIONS), self.file("lazy.pg", b"0 0 0\n"), self.folder / "out" / "two.written.alpha"
        for left in ("", f"polcert-certify: {old} is left from an earlier run\n"):
            said = run_script("polcert-certify", model, graph, "-o", str(self.folder / "out"), "-q", "--programs", self.programs())
            self.assertEqual((said.status, said.err), (0, left))
            old.write_bytes(b"old")
        self.assertEqual(old.read_bytes(), b"old")

    def test_a_model_is_mended(self) -> None:
        said = self.certify(self.file("rough.POMDP", ROUGH))
        line = rb"\Arough \(mended\): started in node 0, this controller earns between (10|9\.9999[0-9]*) and 10(\.0000[0-9]*)?; "
        self.assertRegex(said.out, line + b"every policy at most 10")
        self.assertTrue(self.report("rough")["mended"])
        steps = [step["name"] for step in self.report("rough")["steps"]]
        self.assertEqual(steps[:2], ["mend", "model"])
        self.assertTrue((self.folder / "out/rough.POMDP").read_bytes().endswith(b"T: * : * uniform\n"))

    def test_the_model_as_it_was_written(self) -> None:
        """Of rewards that are the same everywhere, no probability moves anything; of others, each row over its sum is one of those near."""
        said = self.certify(self.file("rough.POMDP", ROUGH))
        self.assertRegex(said.out, rb"; in the model as it was written, started in node 0, at least (10|9\.99999[0-9]*)\n\Z")
        written = self.report("rough")["written"]
        self.assertEqual((written["within"], written["rewards_within"]), ("0", "0"))
        # two states, of which the first earns 1: over its sum a row stays there with 0.9, and 1 / (1 - 0.81) is 5.263157
        text = b"discount: 0.9 values: reward states: 2 actions: 1 observations: 1 start: 0 T: 0 0.9 0.1001 0 1 O: * uniform R: * : 0 : * : * 1\n"
        self.certify(self.file("leaky.POMDP", text), "--within", "0.001", "--json")
        report = self.report("leaky")
        least = 1 / (1 - Fraction("0.9") * Fraction("0.9") / Fraction("1.0001"))
        low, written = Fraction(report["controller"]["at_least"]), report["written"]
        price = 90 * Fraction(written["within"]) * Fraction("0.9") * 10
        self.assertTrue(low - price < Fraction(written["at_least"]) <= least, (low, written, least))
        self.assertIn("leaky.written.alpha", [row["name"] for row in report["files"]])
        self.assertEqual(report["steps"][-1]["name"], "the model as it was written")
        self.assertRegex(report["programs"][-1], r"\Apolcert_robust ")

    def test_every_model_near(self) -> None:
        """Of two states the first earns 1 and keeps 0.9 of its weight, and 0.1 leaves for good: by 10 % of itself that grows to 0.11, and by 0.09
        to 0.19."""
        text = b"discount: 0.9 values: reward states: 2 actions: 1 observations: 1 start: 0 T: 0 0.9 0.1 0 1 O: * uniform R: * : 0 : * : * 1\n"
        for near, said_so, kept in (("10%", "within 10 %", "0.89"), ("0.09", "within 0.09", "0.81")):
            least = 1 / (1 - Fraction("0.9") * Fraction(kept))
            said = self.certify(self.file("leaky.POMDP", text), "--near", near)
            report = self.report("leaky")
            found = report["near"]
            self.assertEqual((found["within"], found["rewards_within"], report["written"]), (near, "0", None))
            self.assertTrue(least - Fraction("0.00001") < Fraction(found["at_least"]) <= least, (found, least))
            line = f"; in every model {said_so}, started in node 0, at least {found['at_least']}\n"
            self.assertTrue(said.out.endswith(line.encode()), said.out)
            self.assertEqual(report["steps"][-1]["line"], f"yes: every model {said_so}, start node 0, at least {found['at_least']}")
            self.assertIn("leaky.near.alpha", [row["name"] for row in report["files"]])
            self.assertRegex(report["programs"][-1], r"\Apolcert_robust ")

    def test_distances_that_are_refused(self) -> None:
        for word in ("1.1", "101%", "5 %", "%", "-0.1", "1e-3"):
            said = self.certify(self.file("rough.POMDP", ROUGH), f"--near={word}", status=2)
            self.assertIn("argument --near: ", said.err)

    def test_why_the_written_model_has_no_certificate(self) -> None:
        said = self.certify(self.file("lost.POMDP", LOST))
        why = "`T: 0 : 0 : 1` became 0"
        self.assertIn(f"polcert-certify: no certificate of the model as it was written: {why}\n", said.err)
        self.assertIsNone(self.report("lost")["written"]["at_least"])
        (self.folder / "programs" / "polcert_robust").unlink()
        (self.folder / "programs" / "polcert_robust").write_text("no program")
        said = self.certify(self.file("rough.POMDP", ROUGH))
        missing = r"[^\n]*polcert_robust: there is no such program: build it [^\n]*\n"
        self.assertRegex(said.err, rf"no certificate of the model as it was written: {missing}")
        self.assertNotIn("written.alpha", str(self.report("rough")["files"]))
        said = self.certify(self.file("rough.POMDP", ROUGH), "--near", "0.01", status=2)
        self.assertRegex(said.err, rf"\Apolcert-certify: {missing}\Z")

    def test_costs_without_a_policy_are_refused(self) -> None:
        self.assertIn("polcert-certify: error: --costs goes with POLICY\n", self.certify(TIGER, "--costs", status=2).err)

    def test_costs_of_a_graph_are_refused(self) -> None:
        graph = self.file("listen.pg", b"0 0 0 0\n")
        self.assertEqual(self.certify(TIGER, graph, "--costs", status=2).err, f"polcert-certify: --costs takes vectors, and {graph} has none\n")

    def test_what_is_refused(self) -> None:
        for text, reason in (
            (b"states: 2", "bad.POMDP:1:10: M7: "), (UNDISCOUNTED, "discount is 1"),
            (ROUGH.replace(b"0.333333 0.333333 0.333333", b"0.3 0.3 0.3"), "the row `T: 0 : 0` sums to 0.9"),
        ):
            said = self.certify(self.file("bad.POMDP", text), status=2)
            self.assertIn(reason, said.err)
            self.assertEqual((said.out, (self.folder / "out").exists()), (b"", False))

    def test_a_policy_that_does_not_fit(self) -> None:
        model, lazy = self.file("two.POMDP", TWO_ACTIONS), self.file("lazy.pg", b"0 0 0\n")
        self.assertIn("lazy.pg:1:1: M3: ", self.certify(lazy, model, status=2).err)
        self.assertIn("; this is no model, as it begins with a number: name the model first, ", self.certify(lazy, model, status=2).err)
        for name, text, advice in (
            ("none.alpha", b"", "the text is empty"), ("none.pg", b"\n", "the text is empty"), ("two", TWO_ACTIONS, "this is a model: name "),
            ("doors.pg", b"0 0 0 0\n", "each node has 2 successors here, and the model another number of observations"),
        ):
            self.assertIn(advice, self.certify(model, self.file(name, text), status=2).err)
        doors = self.file("doors", b"0 0 0 1 1\n1 1 0 1 0\n")
        self.assertIn("this is a graph, in which each node has 3 successors", self.certify(TIGER, doors, status=2).err)

    def test_lines_of_progress(self) -> None:
        model, out = self.file("two.POMDP", TWO_ACTIONS), str(self.folder / "out")
        for words in ([model], [model, self.file("lazy.pg", b"0 0 0\n")]):
            said = run_script("polcert-certify", *words, "-o", out, "--programs", self.programs())
            self.assertRegex(said.err, "(?m)^polcert-certify: [0-9]+ s, [0-9]+ vectors, 0 points: from ")
            self.assertNotRegex(said.err, "polcert-(points|solve)")

    def test_a_program_that_changes(self) -> None:
        """A program that writes to itself as it runs is not the one that is named when it has answered."""
        program, real = self.folder / "programs" / "polcert", os.path.realpath(str(PROGRAM))
        self.programs()
        program.unlink()
        program.write_text(f"#!/bin/sh\necho '#' >> \"$0\"; exec '{real}' \"$@\"\n")
        program.chmod(0o755)
        said = self.certify(self.file("two.POMDP", TWO_ACTIONS), self.file("lazy.pg", b"0 0 0\n"), status=2)
        self.assertIn("polcert: the program changed while the report was written", said.err)
        self.assertFalse((self.folder / "out").exists())

    def stub(self, name: str, answers: str) -> None:
        """A program that answers some commands in its own way, and has the real one answer all others."""
        program = pathlib.Path(self.programs()) / name
        real = os.path.realpath(program)
        program.unlink()
        program.write_text(f"#!/bin/sh\ncase $1 in {answers} esac\nexec '{real}' \"$@\"\n")
        program.chmod(0o755)

    def test_no_upper_bound(self) -> None:
        self.stub("polcert", "raise) echo 'raise: U2' >&2; exit 1;;")
        said = self.certify(self.file("two.POMDP", TWO_ACTIONS), self.file("lazy.pg", b"0 0 0\n"))
        self.assertEqual(said.out, b"two: started in node 0, this controller earns at least 0; every policy at most 2; within 2\n")
        why = "raise: U2: raised by the least constant, a value would be above 10,000,000"
        self.assertEqual(said.err, f"polcert-certify: no upper bound: {why}\n")
        report = self.report("two")
        self.assertEqual(report["controller"], {"start_node": 0, "at_least": "0", "at_most": None})
        self.assertEqual((report["certified"], report["every_policy"], report["gap"]), (True, {"at_most": "2"}, "2"))
        self.assertIn(("no upper bound", why), [(step["name"], step["line"]) for step in report["steps"]])
        self.assertEqual({row["name"] for row in report["files"]}, {f"two.{ending}" for ending in (
            "POMDP", "pg", "alpha", "lowered.alpha", "bound.alpha", "bound.points")})
        text = (self.folder / "out" / "two.report.md").read_text()
        self.assertEqual(("\n- From below" in text, "\n- From above" in text), (True, False))

    def test_no_bound_on_every_policy(self) -> None:
        self.stub("polcert_bound", "check) echo 'no: action 0, state 0, exceeded by 1'; exit 1;; raise) echo 'raise: U2' >&2; exit 1;;")
        said = self.certify(self.file("two.POMDP", TWO_ACTIONS), self.file("lazy.pg", b"0 0 0\n"))
        self.assertEqual(said.out, b"two: started in node 0, this controller earns between 0 and 0\n")
        why = "raise: U2: raised by the least constant, a value would be above 10,000,000"
        self.assertEqual(said.err, f"polcert-certify: no bound on every policy: {why}\n")
        report = self.report("two")
        self.assertEqual(report["controller"], {"start_node": 0, "at_least": "0", "at_most": "0"})
        self.assertEqual((report["certified"], report["every_policy"], report["gap"]), (True, {"at_most": None}, None))
        self.assertIn(("no bound on every policy", why), [(step["name"], step["line"]) for step in report["steps"]])
        self.assertNotIn("bound", "".join(row["name"] for row in report["files"]))
        self.assertNotIn("In the long run every policy", (self.folder / "out" / "two.report.md").read_text())

    def test_answers_that_contradict_each_other(self) -> None:
        """A controller that earns 2 is below no upper bound, of its own or of every policy. The first state is seen by the MDP's policy."""
        busy = [self.file("two.POMDP", TWO_ACTIONS), self.file("busy.pg", b"0 1 0\n")]
        every = "check) echo 'yes: every policy, at most 1.5'; exit;;"
        own = "check) [ $2 = --at-most ] && echo 'yes: every start node, at most 1.5' && exit;;"
        for name, answers, words in (("polcert_bound", every, busy), ("polcert", own, busy), ("polcert_bound", every, [self.file("m", MDP_OF_TWO)])):
            self.stub(name, answers)
            said = self.certify(*words, status=2)
            self.assertEqual(said.err, "polcert-certify: the programs contradict each other: at least 2 and at most 1.5; use programs of which "
                             "a proof is recorded, and report this if they are\n")
            self.assertEqual((said.out, (self.folder / "out").exists()), (b"", False))
            (self.folder / "programs" / name).unlink()

    def test_no_program(self) -> None:
        said = run_script("polcert-certify", TIGER, "-o", str(self.folder / "out"), "--programs", str(self.folder), "-q")
        self.assertEqual((said.status, said.out), (2, b""))
        self.assertRegex(said.err, r"\Apolcert-certify: [^\n]*polcert: there is no such program[^\n]*\n\Z")
        os.symlink(os.path.realpath(str(PROGRAM)), self.folder / "polcert")
        said = run_script("polcert-certify", TIGER, "-o", str(self.folder / "out"), "--programs", str(self.folder))
        self.assertEqual((said.status, said.out), (2, b""))
        self.assertRegex(said.err, r"\Apolcert-certify: [^\n]*polcert_bound: there is no such program[^\n]*\n\Z")
