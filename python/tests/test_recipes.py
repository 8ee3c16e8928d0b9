"""The recipes of docs/GUIDE.md: files in the forms of each solver, from examples/recipes to a certificate, and what is refused in them."""
import io
import re
from typing import List, Union

from support import EXAMPLES, PROGRAM, TOP, FolderTest, Said, load_file, needs_numpy, polcert, present, run_script
from polcert.command import read_source
from polcert.files import FileError, Graph, Source, read_graph, read_model, read_vectors
from polcert.policies import Solved, read_solved

RECIPES = EXAMPLES / "recipes"
TIGER = EXAMPLES / "tiger.POMDP"

# The tiger with discount 0.75, as R prints data frames: the nodes, and the vectors with the same actions. The numbers are those of an exact
# value iteration, rounded to seven digits.
NODES = """  node     action tiger-left tiger-right
1    1  open-left          3           3
2    2     listen          3           1
3    3     listen          4           2
4    4     listen          5           3
5    5 open-right          3           3
"""
VECTORS = """  tiger-left tiger-right     action
1 -98.549921   11.450079  open-left
2 -10.854299    6.516937     listen
3   1.933439    1.933439     listen
4   6.516937  -10.854299     listen
5  11.450079  -98.549921 open-right
"""
QUOTED = """"node" "action" "tiger-left" "tiger-right"
"1" 1 "open-left" 3 3
"2" 2 "listen" 3 1
"3" 3 "listen" 4 2
"4" 4 "listen" 5 3
"5" 5 "open-right" 3 3
"""
COMMAS = """"","node","action","tiger.left","tiger.right"
"1",1,"open-left",3,3
"2",2,"listen",3,1
"3",3,"listen",4,2
"4",4,"listen",5,3
"5",5,"open-right",3,3
"""
# Two steps of the tiger with discount 0.95, as AI-Toolbox prints a policy.
STEPS = """10 -100 2 0 0
-1 -1 0 0 0
-100 10 1 0 0
@
9.05 -100.95 2 1 1
6.9325 -16.0575 0 0 1
-1.95 -1.95 0 1 1
-16.0575 6.9325 0 1 2
-100.95 9.05 1 1 1
@
"""


class RecipeTest(FolderTest):
    def mended(self, model: str, expected: str) -> str:
        said = run_script("polcert-mend", "-q", str(RECIPES / model))
        self.assertEqual(said.status, 0, said.err)
        self.assertIn(expected, said.err)
        return self.file("mended.POMDP", said.out)

    def graph(self, model: str, solved: str) -> Said:
        return run_script("polcert-graph", model, solved, "-o", str(self.folder / "out"))

    def certified(self, model: str, graph: str, vectors: str, worth: float) -> None:
        """Lowers and checks; the certificate has to be at this worth, up to the rounding of six decimals with these discounts."""
        read = read_model(read_source(model))
        read_vectors(read_source(vectors), read, read_graph(read_source(graph), read))
        if not PROGRAM:
            return
        lowered = polcert("lower", model, graph, vectors)
        self.assertEqual(lowered.status, 0, lowered.err)
        said = polcert("check", model, graph, self.file("lowered", lowered.out))
        bound = float(present(re.fullmatch(rb"yes: start node \d+, at least (\S+)\n", said.out)).group(1))
        self.assertLess(abs(bound - worth), 3e-5)

    def from_graph(self, model: str, solved: str, worth: float) -> str:
        """Makes a graph, certifies it, and returns what standard error said."""
        said = self.graph(model, str(RECIPES / solved))
        self.assertEqual((said.status, said.out), (0, b""), said.err)
        self.certified(model, str(self.folder / "out.pg"), str(self.folder / "out.alpha"), worth)
        return said.err


class Recipes(RecipeTest):
    """From each folder of examples/recipes to a certificate. What the graphs are worth was found by value iteration over lines and beliefs,
    without a script of this repository."""

    def test_pomdp_solve(self) -> None:
        self.certified(str(TIGER), str(RECIPES / "pomdp-solve/tiger.pg"), str(RECIPES / "pomdp-solve/tiger.alpha"), 19.371368)

    @needs_numpy
    def test_sarsop(self) -> None:
        model = self.mended("sarsop/doors.POMDP", "12 rows mended, the start mended")
        self.assertIn("the vectors claim 8.084217", self.from_graph(model, "sarsop/doors.policy", 8.084214))

    @needs_numpy
    def test_pomdps_jl(self) -> None:
        model = self.mended("pomdps-jl/baby.POMDP", "2 numbers rewritten, 0 rows mended")
        self.from_graph(model, "pomdps-jl/baby.solved", -16.305483)

    @needs_numpy
    def test_r_pomdp(self) -> None:
        model = self.mended("r-pomdp/tiger.POMDP", "4 numbers rewritten, 0 rows mended")
        self.assertNotIn("claim", self.from_graph(model, "r-pomdp/tiger.table", 76 / 69))

    def test_pomdp_py(self) -> None:
        model = self.mended("pomdp-py/tiger.pomdp", "nothing to mend")
        self.certified(model, str(RECIPES / "pomdp-py/tiger.pg"), str(RECIPES / "pomdp-py/tiger.alpha"), 19.371368)

    @needs_numpy
    def test_ai_toolbox(self) -> None:
        said = self.from_graph(str(TIGER), "ai-toolbox/tiger.solved", 19.371368)
        self.assertIn("the vectors claim 4.428530, 14.942838 less", said)

    @needs_numpy
    def test_a_program_of_your_own(self) -> None:
        written = load_file("write_model", RECIPES / "python/write_model.py")
        text = io.StringIO()
        written.write_model(text, **written.PRESS)
        said = run_script("polcert-mend", "-q", self.file("press", text.getvalue().encode()))
        self.assertIn("10 numbers rewritten, 0 rows mended", said.err)
        model, graph = self.file("exact", said.out), str(RECIPES / "python/press.pg")
        said = run_script("polcert-evaluate", model, graph)
        self.certified(model, graph, self.file("vectors", said.out), 2320 / 247)

    def test_each_folder_is_in_the_guide_and_says_what_it_holds(self) -> None:
        guide = (TOP / "docs" / "GUIDE.md").read_text()
        for folder in RECIPES.iterdir():
            self.assertRegex(guide, rf"\n\$ .* ?recipes/{folder.name}/")
            page = (folder / "README.md").read_text()
            for file in (file for file in folder.iterdir() if file.is_file() and file.name != "README.md"):
                self.assertIn(f"`{file.name}`", page)


class FormTest(RecipeTest):
    def read(self, text: str, discount: bytes = b"0.75") -> Union[Graph, List[Solved]]:
        model = read_model(Source("model", TIGER.read_bytes().replace(b"0.95", discount)))
        return read_solved(Source("solved", text.encode()), model)

    def refused(self, text: str, reason: str) -> None:
        with self.assertRaises(FileError) as caught:
            self.read(text)
        self.assertEqual(str(caught.exception), reason)

    def refused_change(self, text: str, old: str, new: str, reason: str) -> None:
        self.assertIn(old, text)
        self.refused(text.replace(old, new), f"solved:{reason}")


class Tables(FormTest):
    graph_of_nodes = Graph([1, 0, 0, 0, 2], [[2, 2], [2, 0], [3, 1], [4, 2], [2, 2]])

    def test_nodes(self) -> None:
        for text in (NODES, QUOTED, COMMAS, f"[[1]]\n{NODES}\n", NODES.replace("\n", "\r\n")):
            self.assertEqual(self.read(text), self.graph_of_nodes, text)

    def test_rows_without_numbers(self) -> None:
        rows = [line.split() for line in NODES.splitlines()]
        self.assertEqual(self.read("\n".join(" ".join(row[-4:]) for row in rows)), self.graph_of_nodes)

    def test_successors_that_are_missing(self) -> None:
        for word in ("NA", "-", "X"):
            graph = self.read(NODES.replace("open-left          3", f"open-left          {word}"))
            assert isinstance(graph, Graph)
            self.assertEqual(graph.successors[0], [None, 2])

    def test_nodes_are_worth_what_the_vectors_say(self) -> None:
        model = self.file("model", TIGER.read_bytes().replace(b"0.95", b"0.75"))
        self.assertEqual(self.graph(model, self.file("nodes", NODES.encode())).status, 0)
        written = read_vectors(read_source(str(self.folder / "out.alpha")), read_model(read_source(model)))
        self.assertEqual([Solved(action, [float(value) for value in values]) for action, values in written], self.read(VECTORS))

    def test_vectors(self) -> None:
        vectors = self.read(VECTORS)
        assert isinstance(vectors, list)
        self.assertEqual(vectors[1], Solved(0, [-10.854299, 6.516937]))
        model = self.file("model", TIGER.read_bytes().replace(b"0.95", b"0.75"))
        said = self.graph(model, self.file("vectors", VECTORS.encode()))
        self.assertIn("the vectors claim 1.933439, the same", said.err)

    def test_refused_nodes(self) -> None:
        for old, new, reason in (
            ("tiger-right", "", "1:12: expected a column for each observation of the model, which are 2, found 1"),
            ("left tiger-right", "right tiger-left", "1:19: expected the column of observation `tiger-left`, found `tiger-right`"),
            ("node     action", "action     node", "1:3: expected a column for each state of the model, which are 2, found 0"),
            ("2    2", "2    3", "3:6: expected node 2, as nodes are numbered 1, 2, .. in order, found `3`"),
            ("1    1", "1    0", "2:6: expected node 1, as nodes are numbered 1, 2, .. in order, found `0`"),
            ("open-left ", "open-door ", "2:9: expected the name of an action of the model, found `open-door`"),
            ("   listen          5", "   listen          6", "5:28: expected a node from 1 to 5, or `NA`, found `6`"),
            ("   listen          5", "   listen          0", "5:28: expected a node from 1 to 5, or `NA`, found `0`"),
            (NODES.partition("\n")[2], "", "2:1: expected a row below the names of the columns, found the end of the text"),
        ):
            self.refused_change(NODES, old, new, reason)
        self.refused_change(NODES, "   listen          5           3", "   listen", "5:1: expected 4 words, one for each column, found 3")
        why = "a second table begins here: the graph of a finite horizon has one for each step, and is no controller that runs on"
        self.refused(f"{NODES}\n[[2]]\n{NODES}", f"solved:9:3: {why}")

    def test_refused_vectors(self) -> None:
        for old, new, reason in (
            ("action\n", "action more\n", "1:37: expected `action` as the last column after those of the states, found `more`"),
            ("tiger-left ", "tiger-middle ", "1:3: expected the column of state `tiger-left`, found `tiger-middle`"),
            ("-98.549921", "NA", "2:3: expected a number, found `NA`"),
        ):
            self.refused_change(VECTORS, old, new, reason)


class Steps(FormTest):
    def test_the_vectors_of_the_most_steps(self) -> None:
        expected = [(2, [9.05, -100.95]), (0, [6.9325, -16.0575]), (0, [-1.95, -1.95]), (0, [-16.0575, 6.9325]), (1, [-100.95, 9.05])]
        for text in (STEPS, STEPS + "@\n", STEPS[:-2], STEPS.replace("\n", "\r\n")):
            self.assertEqual(self.read(text), [Solved(*vector) for vector in expected])

    def test_one_step(self) -> None:
        self.assertEqual(self.read("10 -100 2 0 0\n@\n"), [Solved(2, [10, -100])])

    def test_refused(self) -> None:
        numbers = "2 numbers, an action and 2 successors"
        for old, new, reason in (
            (STEPS, "@\n@\n", "1:1: expected vectors before the first `@`, found none"),
            ("9.05 1 1 1", "9.05 1 1", f"5:1: expected {numbers} for each vector of the last list, which has 24 words"),
            ("9.05 -100.95 2", "9.05 -100.95 3", "5:14: expected the number of an action from 0 to 2, found `3`"),
            ("-1.95 -1.95", "-1.95 nan", "7:7: expected a number, found `nan`"),
            ("6.9325 0 1 2", "6.9325 0 1 3", "8:21: expected the number of a vector of the list before from 0 to 2, found `3`"),
        ):
            self.refused_change(STEPS, old, new, reason)
