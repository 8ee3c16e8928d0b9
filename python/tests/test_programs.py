"""The calls of the programs: each line that they print, texts as paths and bytes, models of arrays, and programs that give no answer."""
import os
import random
import re
import subprocess
import sys
import unittest
from fractions import Fraction
from itertools import product
from pathlib import Path
from typing import Any, Callable, Dict, List, Tuple

import numpy

from support import EXAMPLES, PROGRAM, TOP, FolderTest, load_file, needs_program
import polcert
from polcert.answers import every_model_of, moved_of, refused_of, summary_of, verdict_of
from polcert.files import Model, Source, read_model

PAGE = load_file("refusals_page", TOP / "tests" / "refusals-page")
PROGRAMS = PAGE.programs_beside(os.path.abspath(PROGRAM)) if PROGRAM else {}
# The tiger: it is left or right; one listens, or opens left or right; and hears it left or right.
ANYWHERE = [[0.5, 0.5], [0.5, 0.5]]
TIGER: Dict[str, Any] = {
    "transitions": [[[1, 0], [0, 1]], ANYWHERE, ANYWHERE],
    "observations": [[[0.85, 0.15], [0.15, 0.85]], ANYWHERE, ANYWHERE],
    "rewards": [[-1, -1], [-100, 10], [10, -100]],
    "discount": 0.95,
}
# Listening for ever costs 1 / (1 - 0.95); and no step earns more than 10, which is 200 for ever.
LISTEN, LISTEN_VECTORS, MOST = b"0 0 0 0\n", b"0 -20 -20\n", b"0 200 200 1 200 200 2 200 200\n"
TIGER_FILES = [EXAMPLES / f"tiger.{ending}" for ending in ("POMDP", "pg", "lowered.alpha")]


class Lines(unittest.TestCase):
    def test_answers(self) -> None:
        line = "pomdp: 3 states, 1 actions, 2 observations, discount 0.95, reward"
        self.assertEqual(summary_of(line), polcert.Summary(line, False, 3, 1, 2, Fraction(19, 20), False))
        line = "mdp: 4 states, 3 actions, discount 1, cost"
        self.assertEqual(summary_of(line), polcert.Summary(line, True, 4, 3, None, Fraction(1), True))
        line = "yes: start node 7, at least -19.37136"
        self.assertEqual(verdict_of(line), polcert.Yes(line, Fraction(-1937136, 100000), False, 7))
        for line in ("yes: every start node, at most 12", "yes: every policy, at most 12"):
            self.assertEqual(verdict_of(line), polcert.Yes(line, Fraction(12), True, None))
        for line, wanted in {
            "no: node 1, state 2, short by 0.000001": {"reason": "short", "amount": Fraction(1, 10**6), "node": 1, "state": 2},
            "no: node 1, state 2, long by 3": {"reason": "long", "amount": Fraction(3), "node": 1, "state": 2},
            "no: action 1, state 2, exceeded by 0.5": {"reason": "exceeded", "amount": Fraction(1, 2), "action": 1, "state": 2},
            "no: point 1, action 2, exceeded by 0.5": {"reason": "exceeded", "amount": Fraction(1, 2), "action": 2, "point": 1},
            "no: node 1, state 2, observation 3 has no successor":
                {"reason": "no successor", "amount": None, "node": 1, "state": 2, "observation": 3},
        }.items():
            self.assertEqual(verdict_of(line), polcert.No(line, **wanted))  # type: ignore[arg-type]
        line = "yes: every model within 0.0000015, start node 0, at least -2"
        self.assertEqual(every_model_of(line), polcert.EveryModel(line, Fraction(15, 10**7), Fraction(0), Fraction(-2), 0))
        line = "yes: every model within 0.01, rewards within 0.5, start node 3, at least 0.25"
        self.assertEqual(every_model_of(line), polcert.EveryModel(line, Fraction(1, 100), Fraction(1, 2), Fraction(1, 4), 3))
        line = "yes: every model within 0, every start node, at most 7"
        self.assertEqual(every_model_of(line), polcert.EveryModel(line, Fraction(0), Fraction(0), Fraction(7)))
        line = "yes: every model within 5 %, start node 3, at least 7"
        self.assertEqual(every_model_of(line), polcert.EveryModel(line, Fraction(5), Fraction(0), Fraction(7), 3, True))
        for line in ("lowered by 0.25", "raised by 0.25"):
            self.assertEqual(moved_of(line, b"0 1\n"), polcert.Moved(line, Fraction(1, 4), b"0 1\n"))

    def test_refusals(self) -> None:
        for line, subject, codes, place in (
            ("model: M2 N4 in item 6 at byte 73", "model", ("M2", "N4"), polcert.Place(item=6, byte=73)),
            ("model: M17 in O, action 1, row 2", "model", ("M17", None), polcert.Place(table="O", action=1, row=2)),
            ("graph: G5 at node 1, observation 2", "graph", ("G5", None), polcert.Place(node=1, observation=2)),
            ("points: B6 at point 1, action 2, observation 3", "points", ("B6", None), polcert.Place(point=1, action=2, observation=3)),
            ("lower: L3 at node 1, state 2, observation 3", "lower", ("L3", None), polcert.Place(node=1, state=2, observation=3)),
            ("raise: U1 at action 1, state 2", "raise", ("U1", None), polcert.Place(action=1, state=2)),
            ("raise: U2", "raise", ("U2", None), polcert.Place()),
        ):
            refused = refused_of(line)
            assert refused is not None
            self.assertEqual((refused.line, refused.subject, (refused.code, refused.inner), refused.place), (line, subject, codes, place))

    def test_rows_of_the_page(self) -> None:
        """Each refusal of the page has the row's code, and each number of its line once; and each answer is read as one."""
        count = 0
        for item in PAGE.items():
            refused = refused_of(item.line)
            if refused is not None:
                self.assertIn(item.code or refused.code, (refused.code, refused.inner))
                found = sorted(str(value) for value in refused.place if isinstance(value, int))
                self.assertEqual(found, sorted(re.findall(r" (\d+)", item.line)), item.line)
                self.assertTrue(refused.meaning and refused.mend and not refused)
                count += 1
            elif item.line.startswith(("yes", "no")):
                self.assertIsNotNone(verdict_of(item.line), item.line)
            elif item.line.startswith("pomdp"):
                self.assertIsNotNone(summary_of(item.line), item.line)
            else:
                self.assertRegex(item.line, "^(error: |cannot |a (file's name|word) |--(rewards-)?within takes )")
        self.assertGreater(count, 100)

    def test_lines_that_are_none(self) -> None:
        for line in (
            "", "yes", "yes: start node 0, at most 1", "yes: every policy, at least 1", "no: node 0, state 0, short by 1 ", "no: node 0, state 0",
            "model: M99 in item 0 at byte 1", "model: M1 K1 in item 0 at byte 1\n", "graph: G5 at node 1", "lowered by", "out of memory",
            "pomdp: 1 states, 1 actions, discount 1, reward", "mdp: 1 states, 1 actions, 1 observations, discount 1, reward",
            "yes: start node \u0663, at least 1", "yes: every model within", "yes: every model within 1", "yes: every model within 1, start node 0",
        ):
            self.assertEqual((summary_of(line), verdict_of(line), every_model_of(line), moved_of(line, b""), refused_of(line)), (None,) * 5, line)


@needs_program
class Calls(FolderTest):
    def setUp(self) -> None:
        super().setUp()
        folder = self.folder / "bin"
        folder.mkdir()
        for name, program in PROGRAMS.items():
            (folder / name).symlink_to(os.path.abspath(program))
        before = os.environ["PATH"]
        self.addCleanup(os.environ.__setitem__, "PATH", before)
        os.environ["PATH"] = f"{folder}:{before}"

    def test_texts_of_the_page(self) -> None:
        one_node, vectors = PAGE.GIVEN["ONE-NODE"].encode(), PAGE.GIVEN["THREE-VECTORS"].encode()
        tiger, count = str(TIGER_FILES[0]), 0
        calls: Dict[str, Callable[..., Any]] = {
            "model": lambda model: polcert.model(model), "graph": lambda graph: polcert.check(tiger, graph, EXAMPLES / "tiger.alpha"),
            "vectors": lambda text: polcert.check(tiger, one_node, text), "points": lambda points: polcert.bound(tiger, vectors, points),
            "polcert check": polcert.check, "polcert check --at-most": lambda model, graph, vectors: polcert.check(model, graph, vectors, above=True),
            "polcert lower": polcert.lower, "polcert raise": polcert.raise_,
        }
        given: List[str] = []
        for item in PAGE.items():
            if item.kind in calls:
                given = [old if text == "the same" else text for text, old in zip(item.given, [*given, "", "", ""])]
                self.assertEqual(calls[item.kind](*(text.encode() for text in given)).line, item.line, item)
                count += 1
        self.assertGreater(count, 90)

    def test_paths_and_bytes(self) -> None:
        wanted = polcert.Yes("yes: start node 0, at least 19.37136", Fraction("19.37136"), False, 0)
        model, graph, vectors = TIGER_FILES
        self.assertEqual(polcert.check(model, graph, vectors), wanted)
        self.assertEqual(polcert.check(str(model), str(graph), str(vectors)), wanted)
        self.assertEqual(polcert.check(model.read_bytes(), graph.read_bytes(), vectors.read_bytes()), wanted)
        self.assertEqual(polcert.check(model.read_bytes(), graph, vectors), wanted)
        here = os.getcwd()
        self.addCleanup(os.chdir, here)
        os.chdir(self.folder)
        self.file("--help", TIGER_FILES[0].read_bytes())
        self.assertEqual(polcert.check("--help", graph, vectors, program=os.path.abspath(os.path.join(here, str(PROGRAM)))), wanted)

    def test_the_session_of_the_page(self) -> None:
        code = re.findall(r"^```python\n(.*?)^```", (TOP / "README.md").read_text(), re.M | re.S)
        environment = {**os.environ, "PYTHONPATH": str(TOP / "python")}
        done = subprocess.run([sys.executable, "-c", *code], cwd=EXAMPLES, env=environment, stdout=subprocess.PIPE)
        self.assertEqual((done.returncode, done.stdout), (0, b"yes: start node 0, at least 19.37136\n"))

    def test_a_model_of_arrays(self) -> None:
        arrays = {name: numpy.array(value) if isinstance(value, list) else value for name, value in TIGER.items()}
        text = polcert.model_text(**arrays)
        self.assertEqual(text, polcert.model_text(**TIGER))
        self.assertEqual(polcert.check(text, LISTEN, LISTEN_VECTORS), polcert.Yes("yes: start node 0, at least -20", Fraction(-20), False, 0))
        above = polcert.check(text, LISTEN, LISTEN_VECTORS, above=True)
        self.assertEqual(above, polcert.Yes("yes: every start node, at most -20", Fraction(-20), True))
        self.assertEqual(polcert.bound(text, MOST), polcert.Yes("yes: every policy, at most 200", Fraction(200), True))
        no = polcert.check(text, LISTEN, b"0 -20 -19")
        self.assertEqual(no, polcert.No("no: node 0, state 1, short by 0.05", "short", Fraction(1, 20), 0, 1))
        self.assertFalse(no)
        # (whatever is heard, listening costs 1, or as much more as rewards may lie apart)
        every = polcert.check_near([text, LISTEN, LISTEN_VECTORS], "0.5")
        self.assertEqual(every, polcert.EveryModel(every.line, Fraction(1, 2), Fraction(0), Fraction(-20), 0))
        near = polcert.check_near([text, LISTEN, LISTEN_VECTORS], "0", "0.25")
        self.assertEqual(near, polcert.No("no: node 0, state 0, short by 0.25", "short", Fraction(1, 4), 0, 0))
        self.assertTrue(polcert.check_near([text, LISTEN, b"0 -15 -15"], "0", "0.25", above=True))
        # (from -20 and -19 the constant x with -19 - x = -1 + 0.95 * (-19 - x) is 1)
        lowered = polcert.lower(text, LISTEN, b"0 -20 -19")
        self.assertEqual(lowered, polcert.Moved("lowered by 1", Fraction(1), lowered.vectors))  # type: ignore[union-attr]
        self.assertEqual(lowered.vectors.split(), b"0 -21 -20".split())  # type: ignore[union-attr]
        self.assertEqual(polcert.raise_(text, LISTEN, b"0 -21 -20").vectors.split(), b"0 -20 -19".split())  # type: ignore[union-attr]
        raised = polcert.raise_bound(text, b"0 199 199 1 199 199 2 199 199")
        self.assertEqual(raised.amount, 1)  # type: ignore[union-attr]

    def test_thirds(self) -> None:
        thirds: Dict[str, Any] = {
            "transitions": [[[1 / 3] * 3] * 3], "observations": None, "rewards": [[1, 2, 3]], "discount": 0.5, "start": [1 / 3] * 3,
        }
        refused = polcert.model(polcert.model_text(**thirds))
        assert isinstance(refused, polcert.Refused)
        self.assertEqual((refused.code, refused.inner), ("M2", "N4"))
        # (the mean reward is 2, which is 4 for ever)
        answer = polcert.bound(polcert.model_text(**thirds, within="0.00001"), b"0 3 4 5")
        self.assertEqual(answer, polcert.Yes("yes: every policy, at most 4", Fraction(4), True))

    def test_programs_that_give_no_answer(self) -> None:
        def fails(reason: str, status: object, program: str) -> None:
            with self.assertRaisesRegex(polcert.ProgramError, reason) as caught:
                polcert.check(TIGER_FILES[0], TIGER_FILES[1], TIGER_FILES[2], program=program)
            self.assertEqual(caught.exception.status, status)

        fails("^nowhere: there is no such program on the path: build it by `make run`", None, program="nowhere")
        fails("^no/where: there is no such program: build it by `make run`", None, program="no/where")
        for script, reason, status in (
            ("kill -SEGV $$", "no answer", -11), ("echo 'yes: start node 0, at least 1'; exit 1", "no answer", 1), ("exit 0", "no answer", 0),
            ("echo 'no: node 0, state 0, short by 1'", "no answer", 0), ("echo 'out of memory' >&2; exit 4", "out of memory", 4),
            ("echo 'graph: G5 at node 0, observation 1' >&2; exit 0", "graph: G5", 0),
            ("echo 'error: unexpected' >&2; exit 2", "error: unexpected", 2),
            ("echo 'yes: start node 0, at least 1'; echo", "no answer", 0),
        ):
            program = self.file("program", f"#!/bin/sh\n{script}\n".encode())
            os.chmod(program, 0o755)
            fails(reason, status, program=program)
        text = self.file("text", b"no program")
        os.chmod(text, 0o755)
        fails("Exec format error", None, program=text)
        with self.assertRaisesRegex(polcert.ProgramError, "cannot read model") as caught:
            polcert.model(self.folder / "none")
        self.assertEqual(caught.exception.status, 3)


class Arrays(unittest.TestCase):
    def cells(self, model: Model) -> List[List[Fraction]]:
        """All cells of T, O and R, and the start, row after row."""
        actions, states, kinds = (range(elements.count) for elements in (model.actions, model.states, model.observations))
        t = [model.transitions.row(a, s).get(e, Fraction(0)) for a, s, e in product(actions, states, states)]
        o = [model.observing.row(a, e).get(z, Fraction(0)) for a, e, z in product(actions, states, kinds)]
        r = [model.rewards.of(a, s).at(e, z) for a, s, e, z in product(actions, states, states, kinds)]
        return [t, o, r, [model.start_weights().get(s, Fraction(0)) for s in states]]

    def test_random_arrays(self) -> None:
        random_ = random.Random(1)

        def rows(*shape: int) -> Any:
            """Rows with one 1, or of four quarters."""
            if len(shape) > 1:
                return [rows(*shape[1:]) for _ in range(shape[0])]
            parts = [random_.randrange(shape[0]) for _ in range(4)]
            return [parts.count(column) / 4 for column in range(shape[0])]

        for number in range(40):
            actions, states, kinds = (random_.randint(1, 4) for _ in range(3))
            is_mdp, sizes = number % 4 == 0, (actions, states, states, kinds)
            r = numpy.array([random_.choice([0.0, -1.5, 1e-5, 12345.678]) for _ in range(actions * states * states * kinds)]).reshape(sizes)
            dimensions = 2 + number // 4 % (2 if is_mdp else 3)
            r = r[(slice(None),) * dimensions + (0,) * (4 - dimensions)]
            t, o, start = rows(*sizes[:3]), None if is_mdp else rows(actions, states, kinds), rows(states) if number % 3 else None
            text = polcert.model_text(t, o, r, 0.5, start=start, is_cost=number % 5 == 0)
            model = read_model(Source("model", text))
            self.assertEqual((model.is_mdp, model.is_cost, model.discount), (is_mdp, number % 5 == 0, Fraction(1, 2)))
            full = r.reshape(r.shape + (1,) * (4 - r.ndim)) * numpy.ones((actions, states, states, states if is_mdp else kinds))
            seen = numpy.array([numpy.identity(states)] * actions if is_mdp else o)
            weights = start or [Fraction(1, states)] * states
            wanted = [[Fraction(repr(float(x))) for x in numpy.array(array).flat] for array in (t, seen, full)]
            self.assertEqual(self.cells(model), [*wanted, [Fraction(x) for x in weights]], text)

    def test_what_is_refused(self) -> None:
        changes: List[Tuple[Dict[str, Any], str]] = [
            ({"discount": float("nan")}, "nan is no number"), ({"rewards": [[-1, -1], [-100, float("inf")], [10, -100]]}, "inf is no number"),
            ({"transitions": TIGER["transitions"][:2]}, "O has 3 parts where the model has 2"), ({"rewards": [-1, -100, 10]}, "R has 1 dimensions"),
            ({"observations": [[[1], [1, 0]]] * 3}, "O has 2 parts where the model has 1"), ({"start": [0.5, 0.25, 0.25]}, "start has 3 parts"),
            ({"start": [[1, 0]]}, "start has 1 parts"), ({"transitions": [[["1", 0], [0, 1]]] * 3}, "T has the wrong number of dimensions"),
            ({"transitions": [[[0.5, 0.4], [0, 1]]] * 3, "within": "0.00001"}, "sums to 0.9"),
        ]
        for change, reason in changes:
            with self.assertRaisesRegex(ValueError, reason):
                polcert.model_text(**{**TIGER, **change})

    def test_numpy_is_imported_for_no_list(self) -> None:
        code = "import polcert, sys; polcert.model_text([[[1]]], None, [[1]], 0.5); sys.exit('numpy' in sys.modules or 'argparse' in sys.modules)"
        done = subprocess.run([sys.executable, "-c", code], env={**os.environ, "PYTHONPATH": str(TOP / "python")})
        self.assertEqual(done.returncode, 0)


class Names(unittest.TestCase):
    def test_each_name_that_is_exported(self) -> None:
        for name in polcert.__all__:
            self.assertEqual(getattr(polcert, name).__name__, name)
        self.assertRaises(AttributeError, getattr, polcert, "nothing")

    def test_the_types_are_installed(self) -> None:
        self.assertTrue(Path(polcert.__file__).with_name("py.typed").exists())
