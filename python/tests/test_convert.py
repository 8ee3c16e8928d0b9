"""polcert-convert: models in POMDPX, typed by hand from the public description of the format, and what they mean, worked by hand."""
import json
import os
import re
import unittest
from fractions import Fraction
from pathlib import Path
from typing import Dict
from unittest.mock import patch

from support import PROGRAM, FolderTest, needs_numpy, needs_program, polcert, present, run_script
from polcert.conversion import converted
from polcert.command import Refusal
from polcert.files import FileError, Model, Source, read_model
from polcert.flattening import decimal_of
from polcert.observability import states_by_seen
from polcert.policies import Solved, read_solved
from runner import programs_beside

DATA = Path(__file__).resolve().parent / "pomdpx"
ROCK = (DATA / "rock.pomdpx").read_text()
LAMPS = (DATA / "lamps.pomdpx").read_text()
HALF = Fraction(1, 2)

# A rock that may be good: go to it, look, take it if it is good, and leave. Worked by hand, backwards from leaving for 10 at s1: taking a good
# rock is worth 10 + 0.95 * 9.5, a bad one -10 + 0.95 * 9.5; looking first 0.95 * 19.025 and 0.95 * 9.5; going there 0.95 times that.
POLICY = """<?xml version="1.0" encoding="ISO-8859-1"?>
<Policy version="0.1" type="value" model="rock.pomdpx">
<AlphaVector vectorLength="2" numObsValue="3" numVectors="6">
<Vector action="3" obsValue="0">19.025 -0.975</Vector>
<Vector action="1" obsValue="0">9.5 9.5</Vector>
<Vector action="2" obsValue="0">18.07375 9.025</Vector>
<SparseVector action="0" obsValue="1"><Entry>0 17.1700625</Entry><Entry>1 8.57375</Entry></SparseVector>
<Vector action="1" obsValue="1">10 10</Vector>
<Vector action="2" obsValue="2">0 0</Vector>
</AlphaVector></Policy>
"""


def text_of(text: str) -> bytes:
    return converted(Source("M", text.encode()))


def model_of(text: str) -> Model:
    return read_model(Source("M", text_of(text)))


def lines_of(text: str) -> Dict[str, str]:
    """The entries of a converted model, by what stands before their last word."""
    return dict(line.rsplit(" ", 1) for line in text_of(text).decode().splitlines() if line and line[0] in "TOR")


class Tables(unittest.TestCase):
    """The rover and the rock: six states, of which the place is seen."""

    def test_the_lines_before_the_entries(self) -> None:
        self.assertEqual(text_of(ROCK).decode().splitlines()[1:10], [
            "# Parts of a state, the first one slowest: rover_0 3 seen, rock_0 2", "", "discount: 0.95", "values: reward",
            "states: s0-good s0-bad s1-good s1-bad s2-good s2-bad", "actions: amw ame ac as",
            "observations: s0-ogood s0-obad s1-ogood s1-obad s2-ogood s2-obad", "start include: s1-good s1-bad", "T: amw : s0-good : s0-good 1",
        ])

    def test_moves(self) -> None:
        model = model_of(ROCK)
        self.assertEqual(model.start_weights(), {2: HALF, 3: HALF})
        for action, ends in enumerate(([0, 1, 0, 1, 4, 5], [2, 3, 4, 5, 4, 5], [0, 1, 2, 3, 4, 5], [1, 1, 4, 5, 4, 5])):
            for state, end in enumerate(ends):
                self.assertEqual(model.transitions.row(action, state), {end: 1}, (action, state))

    def test_what_is_seen(self) -> None:
        model = model_of(ROCK)
        for action in (0, 1, 3):
            self.assertEqual([model.observing.row(action, end) for end in range(6)], [{0: 1}, {0: 1}, {2: 1}, {2: 1}, {4: 1}, {4: 1}])
        often, seldom = Fraction(4, 5), Fraction(1, 5)
        self.assertEqual([model.observing.row(2, end) for end in range(6)],
                         [{0: 1}, {1: 1}, {2: often, 3: seldom}, {2: seldom, 3: often}, {4: 1}, {4: 1}])

    def test_rewards(self) -> None:
        model = model_of(ROCK)
        rewards = [[model.rewards.of(action, state).at(0, 0) for state in range(6)] for action in range(4)]
        self.assertEqual(rewards, [[-100, -100, 0, 0, 0, 0], [0, 0, 10, 10, 0, 0], [0] * 6, [10, -10, -100, -100, 0, 0]])

    def test_later_entries_hold(self) -> None:
        old, new = "<Instance>as s0 bad</Instance><ValueTable>-10<", "<Instance>as s0 -</Instance><ValueTable>7 -7.5<"
        model = model_of(ROCK.replace(old, new))
        self.assertEqual([model.rewards.of(3, state).at(0, 0) for state in (0, 1)], [7, Fraction(-15, 2)])


class Diagrams(unittest.TestCase):
    """Two lamps: pressing changes the first with 0.85 and lets the second follow it; waiting keeps both; a wait may break the second."""

    def test_the_whole_text(self) -> None:
        self.assertEqual(text_of(LAMPS).decode().split("\n", 2)[2], (DATA / "lamps.POMDP").read_text())

    def test_it_is_read(self) -> None:
        model = model_of(LAMPS)
        self.assertEqual(model.transitions.row(0, 0), {2: Fraction(17, 20), 0: Fraction(3, 20)})
        self.assertEqual(model.rewards.of(1, 3).at(3, 0), 2)

    def test_a_table_says_the_same(self) -> None:
        diagram = LAMPS[LAMPS.index('<Parameter type="DD"><DAG><SubDAG type="persistent"') :].split("</Parameter>")[0] + "</Parameter>"
        for table in ({"- -": "identity"}, {"- -": "1 0 0 1"}, {"* *": "0.5", "off -": "1 0", "on on": "1", "on off": "0"}):
            entries = (f"<Entry><Instance>{place}</Instance><ProbTable>{numbers}</ProbTable></Entry>" for place, numbers in table.items())
            self.assertIn(diagram, LAMPS)
            self.assertEqual(text_of(LAMPS.replace(diagram, f"<Parameter>{''.join(entries)}</Parameter>")), text_of(LAMPS), table)


class Forms(unittest.TestCase):
    def test_an_mdp(self) -> None:
        text = (DATA / "clock.pomdpx").read_text()
        self.assertEqual(text_of(text).decode().split("\n", 2)[2], (DATA / "clock.POMDP").read_text())
        self.assertTrue(model_of(text).is_mdp)

    def test_counted_values(self) -> None:
        text = ROCK.replace("<ValueEnum>ogood obad</ValueEnum>", "<NumValues>2</NumValues>")
        self.assertIn("\nobservations: s0-o0 s0-o1 s1-o0 s1-o1 s2-o0 s2-o1\n", text_of(text).decode())

    def test_values_that_are_no_names(self) -> None:
        for values, names in (("1 2", "actions: press-1 wait"), ("T wait", "actions: press-T press-wait"), ("a.b a-b", "actions: 2")):
            text = LAMPS.replace("push wait", values).replace('"push"', f'"{values.split()[0]}"').replace('"wait"', f'"{values.split()[1]}"')
            expected = names.replace(" wait", " press-2") if values == "1 2" else names
            self.assertIn(f"\n{expected}\n", text_of(text).decode())

    def test_numbers(self) -> None:
        for value, text in ((Fraction(1, 8), "0.125"), (Fraction(-3, 2), "-1.5"), (Fraction(0), "0"), (Fraction(70), "70"),
                            (Fraction(1, 3), "0.33333333333333333"), (Fraction(-2, 3), "-0.66666666666666667"), (Fraction(1, 10**9), "0.000000001")):
            self.assertEqual(decimal_of(value), text)

    def test_products_of_many_decimals(self) -> None:
        lines = lines_of(LAMPS.replace(">0.85<", ">0.1234567<").replace(">0.15<", ">0.8765433<"))
        self.assertEqual(lines["T: push : off-off : on-off"], "0.1234567")

    def test_discounts_and_exponents(self) -> None:
        self.assertIn(b"\ndiscount: 0.95\n", text_of(ROCK.replace("0.95<", "9.5e-1<")))

    def test_rewards_of_what_follows(self) -> None:
        old = ROCK[ROCK.index("  <Func>") : ROCK.index(" </RewardFunction>")]
        new = ("<Func><Var>reward_rover</Var><Parent>rover_1 obs_sensor</Parent><Parameter type='TBL'><Entry><Instance>s0 ogood</Instance>"
               "<ValueTable>5</ValueTable></Entry></Parameter></Func>")
        lines = {place: number for place, number in lines_of(ROCK.replace(old, new)).items() if place[0] == "R"}
        # amw leads to s0 from s0 and s1, and sees ogood there surely; ac stays at s0, and sees obad there if the rock is bad
        self.assertEqual(lines, {
            **{f"R: amw : {state} : * : *": "5" for state in ("s0-good", "s0-bad", "s1-good", "s1-bad")},
            "R: ac : s0-good : * : *": "5", "R: as : s0-good : * : *": "5", "R: as : s0-bad : * : *": "5",
        })

    def test_rewards_are_summed(self) -> None:
        text = ROCK.replace('<RewardVar vname="reward_rover"/>', '<RewardVar vname="reward_rover"/><RewardVar vname="toll"/>').replace(
            " </RewardFunction>", "<Func><Var>toll</Var><Parent>action_rover</Parent><Parameter><Entry><Instance>*</Instance>"
            "<ValueTable>-0.5</ValueTable></Entry></Parameter></Func></RewardFunction>")
        lines = lines_of(text)
        self.assertEqual((lines["R: ame : s1-good : * : *"], lines["R: ac : * : * : *"], lines["R: as : s0-bad : * : *"]), ("9.5", "-0.5", "-10.5"))


class Refused(unittest.TestCase):
    """Each with its line, counted by hand in the file."""

    def refused(self, text: str, place: str, reason: str) -> None:
        with self.assertRaises(FileError) as caught:
            text_of(text)
        self.assertTrue(str(caught.exception).startswith(f"M:{place}:"), caught.exception)
        self.assertIn(reason, str(caught.exception))
        self.assertLess(len(str(caught.exception)), 300)

    def test_xml(self) -> None:
        for old, new, line, reason in (
            ("</pomdpx>", "", 53, "this is no XML"), (" <Discount>", " <Discount", 4, "this is no XML"),
            ("<pomdpx ", '<!DOCTYPE a [<!ENTITY b "1">]><pomdpx ', 2, "no entity is read, and `b` is declared here"),
            ("0.95<", "&b;<", 4, "undefined entity"), (" <Discount>", "<a>" * 101 + " <Discount>", 4, "nested more than 100 deep, which no model is"),
            ("ISO-8859-1", "utf-7", 1, "encoding"), ("<Description>", "<Remark/><Description>", 3, "`<Remark>` is not read inside of `<pomdpx>`"),
        ):
            self.assertIn(old, ROCK)
            self.refused(ROCK.replace(old, new), str(line), reason)

    def test_variables(self) -> None:
        for old, new, line, reason in (
            ('"rock_0"', '"rover_0"', 7, "`rover_0` stands for the second time"), ("fullyObs=\"true\"", "fullyObs=\"yes\"", 6, "found `yes`"),
            ("<NumValues>3<", "<NumValues>0<", 6, "expected a count from 1 to 10,000, found `0`"), ("good bad<", "good good<", 7, "`good` twice"),
            ("good bad<", "good *<", 7, "`*` twice, or as a name"), ("<NumValues>3<", "<NumValues>10001<", 6, "expected a count"),
            ("<NumValues>3<", "<NumValues>5001<", 5, "10,002 states together, of which at most 10,000 are read"),
            ("<NumValues>3<", "<NumValues>2000<", 5, "more than 5,000,000 pairs"),
            (' vname="action_rover"', "", 9, "has no attribute `vname`"),
            ("<ValueEnum>amw ame ac as</ValueEnum>", "", 9, "expected one `<NumValues>`"),
            ("0.95<", "1.5<", 4, "the discount is below 0 or above 1"), ("0.95<", "half<", 4, "expected a number, found `half`"),
            ("0.95<", "1e999<", 4, "the exponent is more than 400"),
        ):
            self.assertIn(old, ROCK)
            self.refused(ROCK.replace(old, new), str(line), reason)
        without = ROCK.replace(ROCK[ROCK.index("  <ObsVar") : ROCK.index("  <ActionVar")], "")
        self.refused(without.replace(' fullyObs="true"', ""), "5", "nothing is seen")

    def test_functions(self) -> None:
        for old, new, line, reason in (
            ("amw s0 s0<", "amw s0 s3<", 19, "`rover_1` has no value `s3`, but `s0 s1 s2`"),
            ("amw s0 s0<", "amw s0<", 19, "expected 3 words, one for each of"),
            ("1.0 0.0 0.0 1.0</ProbTable></Entry>\n   <Entry><Instance>ame *", "1.0 0.0 1.0</ProbTable></Entry>\n   <Entry><Instance>ame *", 29,
             "expected 4 numbers, found 3"),
            ("<Instance>as * - -<", "<Instance>as - * -<", 32, "`identity` needs two `-` in its `<Instance>`, of variables with as many values"),
            ("<Instance>ac * - -<", "<Instance>ac * * -<", 31, "`identity` needs two `-`"), ("uniform", "identity", 14, "`identity` needs two `-`"),
            ("<Instance>-</Instance><ProbTable>uniform", "<Instance>bad</Instance><ProbTable>uniform", 14, "`uniform` needs a `-` or a `*`"),
            (" rock_0</Parent><Parameter>", " obs_sensor</Parent><Parameter>", 28, "`obs_sensor` is no variable"),
            (" rock_0</Parent><Parameter>", " rover_0</Parent><Parameter>", 28, "stands there twice"),
            ("<Var>rock_1", "<Var>rover_1", 28, "`rover_1` has a `<CondProb>` for the second time"),
            ("<Var>rock_1", "<Var>rock_0", 28, "expected one of"),
            ("ame s1 *</Instance><ValueTable>10<", "ame s1 *</Instance><ValueTable>ten<", 45, "found `ten`"),
            ("<Parameter>", '<Parameter type="ADD">', 28, "expected the type `TBL` or `DD`, found `ADD`"),
            ("as s1 s2", "as s0 s2", 17, "nothing gives the probabilities of `rover_1` for action_rover as, rover_0 s1"),
            ("<Var>reward_rover", "<Var>reward", 44, "`reward` is no `<RewardVar>`"),
        ):
            self.assertIn(old, ROCK)
            self.refused(ROCK.replace(old, new), str(line), reason)
        start = ROCK.index("  <CondProb><Var>rock_0")
        self.refused(ROCK[:start] + ROCK[ROCK.index(" </InitialStateBelief>") :], "12", "no `<CondProb>` gives `rock_0`")

    def test_a_circle_of_parents(self) -> None:
        text = ROCK.replace("<Parent>action_rover rover_0</Parent>", "<Parent>action_rover rock_1</Parent>").replace(
            "<Parent>action_rover rover_0 rock_0</Parent><Parameter>", "<Parent>action_rover rover_1 rock_0</Parent><Parameter>")
        text = text.replace("* s2 s2<", "* good s2<")
        for state in ("s0", "s1"):
            text = text.replace(f" {state} s", " good s")
        self.refused(text, "17", "`rock_1 rover_1`: each depends on another one of them")

    def test_diagrams(self) -> None:
        for old, new, line, reason in (
            ('idref="flip"', 'idref="flop"', 25, "there is no `<SubDAGTemplate>` `flop`"),
            ('val="push"', 'val="pull"', 25, "`press` has no value `pull`"),
            ('<Terminal>0.85</Terminal>', '<SubDAG type="template" idref="flip"/>', 31, "`flip` stands inside of itself"),
            ('type="uniform"', 'type="even"', 19, "found `even`"), ('<Edge val="wait">', '<Edge val="push">', 26, "for the second time"),
            ('<Node var="press"><Edge val="push"><SubDAG', '<Node var="b0"><Edge val="on"><SubDAG', 25, "`b0` is neither the variable nor"),
            ("<Terminal>0.15</Terminal>", "", 30, "expected one `<Node>`, `<Terminal>` or `<SubDAG>`"),
            ("<Var>b1</Var><Parent>b0<", "<Var>b1</Var><Parent>null<", 39, "`b1` persists only if its own previous value is a parent"),
        ):
            self.assertIn(old, LAMPS)
            self.refused(LAMPS.replace(old, new), str(line), reason)

    def test_too_many_cells(self) -> None:
        # one cell of the start, three and nine of T, and eight of R
        text = (DATA / "clock.pomdpx").read_text()
        for least in (12, 20):
            with patch("polcert.flattening.LARGE_TABLE", least), self.assertRaisesRegex(Refusal, f"more than {least} cells other than 0"):
                text_of(text)
        with patch("polcert.flattening.LARGE_TABLE", 13 + 8):
            text_of(text)


class Policies(unittest.TestCase):
    def test_states_by_what_is_seen(self) -> None:
        mark = b"# Parts of a state, the first one slowest: "
        for parts, states, found in (
            (b"a 2, b 3", 6, [[0, 1, 2, 3, 4, 5]]), (b"a 2 seen, b 3", 6, [[0, 1, 2], [3, 4, 5]]), (b"a 2, b 3 seen", 6, [[0, 3], [1, 4], [2, 5]]),
            (b"a 2 seen, b 2, c 2 seen", 8, [[0, 2], [1, 3], [4, 6], [5, 7]]), (b"a 2 seen, b 3", 5, [[0, 1, 2, 3, 4]]), (b"", 2, [[0, 1]]),
        ):
            self.assertEqual(states_by_seen(b"# text\n" + mark + parts + b"\nstates: 2\n", states), found)

    def test_vectors_over_the_unseen_part(self) -> None:
        # less than any policy earns: -100 a step is -2000, and one less
        low = -2001.0
        self.assertEqual(read_solved(Source("policy", POLICY.encode()), model_of(ROCK)), [
            Solved(3, [19.025, -0.975, low, low, low, low]), Solved(1, [9.5, 9.5, low, low, low, low]),
            Solved(2, [18.07375, 9.025, low, low, low, low]), Solved(0, [low, low, 17.1700625, 8.57375, low, low]),
            Solved(1, [low, low, 10.0, 10.0, low, low]), Solved(2, [low, low, low, low, 0.0, 0.0]),
        ])

    def test_costs_over_the_unseen_part(self) -> None:
        costs = read_solved(Source("policy", POLICY.replace("19.025 ", "5000 ").encode()), model_of(ROCK), are_costs=True)
        assert isinstance(costs, list)
        # (what is not said is less than all that is)
        self.assertEqual(costs[0], Solved(3, [-5000.0, 0.975, -5001.0, -5001.0, -5001.0, -5001.0]))
        self.assertEqual(costs[1], Solved(1, [-9.5, -9.5, -5001.0, -5001.0, -5001.0, -5001.0]))

    def test_what_is_refused(self) -> None:
        for old, new, place, reason in (
            ('obsValue="2">0 0<', 'obsValue="3">0 0<', "9:1", "expected the number of a combination of seen values from 0 to 2, found `3`"),
            (">9.5 9.5<", ">9.5 9.5 9.5<", "5:44", "expected 2 numbers, one for each state with the seen values, found 3"),
            ("<Entry>1 8", "<Entry>2 8", "7:82", "expected the number of a state from 0 to 1, found `2`"),
        ):
            self.assertIn(old, POLICY)
            with self.assertRaises(FileError) as caught:
                read_solved(Source("P", POLICY.replace(old, new).encode()), model_of(ROCK))
            self.assertTrue(str(caught.exception).startswith(f"P:{place}: {reason}"), caught.exception)


class Command(FolderTest):
    def test_files(self) -> None:
        name, out = self.file("rock.pomdpx", ROCK.encode()), str(self.folder / "rock.POMDP")
        said = run_script("polcert-convert", name)
        self.assertEqual((said.status, said.out, said.err), (0, text_of(ROCK), f"{name}: 6 states, 4 actions, 6 observations\n"))
        self.assertEqual(run_script("polcert-convert", name, "-o", out).status, 0)
        self.assertEqual(Path(out).read_bytes(), said.out)
        self.assertEqual(run_script("polcert-mend", out).out, said.out)

    def test_what_is_no_pomdpx(self) -> None:
        for text in (b"discount: 1", POLICY.encode(), ROCK.replace("pomdpx", "POMDPX").encode()):
            said = run_script("polcert-convert", self.file("m", text))
            self.assertEqual((said.status, said.out), (2, b""))
            self.assertRegex(said.err, r"\Apolcert-convert: [^\n]*expected a model in POMDPX, found no `<pomdpx>`\n\Z")

    def test_a_refusal_says_no_more(self) -> None:
        name = self.file("m", b"<pomdpx></pomdpx>")
        said = run_script("polcert-convert", name)
        self.assertEqual((said.status, said.err), (2, f"polcert-convert: {name}:1:1: expected one `<Discount>` inside of `<pomdpx>`, found none\n"))

    def test_numbers_for_the_mender(self) -> None:
        text = LAMPS.replace(">0.85<", ">0.3333333<").replace(">0.15<", ">0.6666667<")
        out = run_script("polcert-convert", self.file("m.pomdpx", text.encode())).out
        mended = run_script("polcert-mend", self.file("m.POMDP", out))
        self.assertEqual(mended.status, 0, mended.err)
        self.assertEqual(read_model(Source("M", mended.out)).transitions.row(0, 0), {2: Fraction(333333, 10**6), 0: Fraction(666667, 10**6)})

    @needs_program
    def test_polcert_reads_it(self) -> None:
        for text, line in ((ROCK, b"pomdp: 6 states, 4 actions, 6 observations, discount 0.95, reward\n"),
                           (LAMPS, b"pomdp: 4 states, 2 actions, 2 observations, discount 0.9, reward\n"),
                           ((DATA / "clock.pomdpx").read_text(), b"mdp: 3 states, 2 actions, discount 0.5, reward\n")):
            self.assertEqual(polcert("model", self.file("m.POMDP", text_of(text))).out, line)

    @needs_program
    @needs_numpy
    def test_the_certifier_takes_it(self) -> None:
        programs = self.folder / "programs"
        programs.mkdir()
        for name, program in programs_beside(str(PROGRAM)).items():
            os.symlink(os.path.realpath(program), programs / name)
        model, words = self.file("rock.pomdpx", ROCK.encode()), ["-o", str(self.folder / "out"), "--seconds", "20", "--programs", str(programs), "-q"]
        for given in ([model], [model, self.file("rock.policy", POLICY.encode())]):
            said = run_script("polcert-certify", *given, *words)
            line = rb"rock: started in node [0-9]+, this controller earns between ([0-9.]+) and ([0-9.]+); every policy at most ([0-9.]+); "
            found = re.match(line, said.out)
            self.assertIsNotNone(found, said)
            # 0.95 * 0.95 * (19.025 + 9.5) / 2, of going there, looking, and doing what is best
            for number in present(found).groups():
                self.assertAlmostEqual(float(number), 12.87190625, delta=0.0001)
        report = json.loads((self.folder / "out" / "rock.report.json").read_text())
        self.assertEqual(report["steps"][0]["name"], "convert")
        self.assertEqual((self.folder / "out" / "rock.POMDP").read_bytes(), text_of(ROCK))
