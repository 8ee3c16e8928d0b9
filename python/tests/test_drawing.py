"""polcert-graph --dot and polcert-report --html: the text for Graphviz, the drawings, and a page that needs no network."""
import os
import re
from typing import List, Optional
from unittest.mock import patch
from xml.etree import ElementTree

from support import EXAMPLES, PROGRAM, FolderTest, Said, needs_numpy, needs_program, run_script
from polcert.drawing import dot_of, drawn, picture_of_values
from polcert.files import Graph, Source, read_model
from polcert.html_report import controller, html_of, values_over_beliefs

MODEL = read_model(Source("m", b"discount: 0.5 values: reward states: 2 actions: go stay observations: x y z T: * identity O: * uniform\n"))
GRAPH = Graph([0, 1], [[1, None, 1], [0, 0, 0]])
DOT = """digraph controller {
  rankdir=LR;
  node [shape=box, style=rounded];
  0 [label="0: go"];
  0 -> 1 [label="x, z"];
  1 [label="1: stay"];
  1 -> 0 [label=""];
}
"""
TIGER = [str(EXAMPLES / f"tiger.{ending}") for ending in ("POMDP", "pg", "alpha")]
SVG = "{http://www.w3.org/2000/svg}"


class Drawings(FolderTest):
    def dot(self, script: str) -> str:
        """A folder with a program named dot."""
        os.chmod(self.file("dot", f"#!/bin/sh\n{script}\n".encode()), 0o755)
        return str(self.folder)

    def test_the_text_for_graphviz(self) -> None:
        self.assertEqual(dot_of(MODEL, GRAPH), DOT)
        many = read_model(Source("m", b"discount: 0.5 values: reward states: 2 actions: 1 observations: 9 T: * identity O: * uniform\n"))
        successors: List[Optional[int]] = [1, 1, 1, 1, 1, 1, 1, 1, 0]
        self.assertIn('0 -> 1 [label="0, 1, 2, 3, 4, 5 and 2 more"];', dot_of(many, Graph([0, 0], [successors, successors])))

    def test_graphviz(self) -> None:
        given = self.folder / "given"
        for script, expected in (
            (f"cat > {given}; echo '<?xml?><!DOCTYPE svg \"http://no\"><svg>drawn</svg>'", "<svg>drawn</svg>\n"),
            ("cat > /dev/null; echo none", None),
            ("cat > /dev/null; echo '<svg/>'; exit 1", None),
        ):
            with patch.dict(os.environ, PATH=f"{self.dot(script)}:/usr/bin:/bin"):
                self.assertEqual(drawn(MODEL, GRAPH), expected)
        self.assertEqual(given.read_text(), DOT)
        with patch.dict(os.environ, PATH=self.dot("echo '<svg/>'")):
            self.assertIsNone(drawn(MODEL, Graph([0] * 201, [[0, 0, 0]] * 201)))
            self.assertIn("<svg", controller(MODEL, GRAPH))

    def test_many_nodes(self) -> None:
        ten, eleven = (Graph([0] * count, [[0, 0, 0]] * count) for count in (10, 11))
        self.assertIn("rankdir=LR;", dot_of(MODEL, ten))
        self.assertIn("rankdir=TB;", dot_of(MODEL, eleven))
        with patch.dict(os.environ, PATH=self.dot("echo '<svg/>'")):
            self.assertNotIn("<table>", controller(MODEL, ten))
            page = controller(MODEL, eleven)
        self.assertIn("<svg/>", page)
        self.assertIn("<tr><td>10</td><td>go</td><td>node 0 after x, y, z</td></tr>", page)

    def test_without_graphviz(self) -> None:
        with patch.dict(os.environ, PATH=str(self.folder)):
            table = controller(MODEL, GRAPH)
        self.assertIn("<tr><td>0</td><td>go</td><td>node 1 after x, z; none after y</td></tr>", table)
        self.assertIn("<tr><td>1</td><td>stay</td><td>node 0 after x, y, z</td></tr>", table)

    def test_values_over_the_belief(self) -> None:
        picture = ElementTree.fromstring(picture_of_values(["a<b", "c"], [[0.0, 10.0], [5.0, 5.0]]))
        lines = [[line.get(name) for name in ("x1", "y1", "x2", "y2")] for line in picture.iter(f"{SVG}line")]
        # from 60 to 580 across, and from 300 for the least value to 60 for the greatest
        self.assertEqual(lines, [["60", "300.0", "580", "60.0"], ["60", "180.0", "580", "180.0"]])
        self.assertIn("surely a<b", [text.text for text in picture.iter(f"{SVG}text")])
        self.assertEqual(values_over_beliefs(read_model(Source("m", (EXAMPLES / "robot.POMDP").read_bytes())), [[0.0]]), "")
        self.assertIn("y1=\"300.0\"", picture_of_values(["a", "b"], [[1.0, 1.0]]))

    def test_html(self) -> None:
        text = "# A <b>\n\nWords & `x|`\nmore.\n\n- one\n- two\n\n| A | B |\n|---|---|\n| `c` | d |\n\n  | E |\n  |---|\n  | f |\n"
        self.assertEqual(html_of(text).splitlines(), [
            "<h1>A &lt;b&gt;</h1>", "<p>Words &amp; <code>x|</code> more.</p>", "<ul><li>one</li><li>two</li></ul>", "<table>",
            "<tr><th>A</th><th>B</th></tr>", "<tr><td><code>c</code></td><td>d</td></tr>", "</table>", "<table>", "<tr><th>E</th></tr>",
            "<tr><td>f</td></tr>", "</table>",
        ])


class Files(FolderTest):
    @needs_numpy
    def test_a_third_file(self) -> None:
        name = str(self.folder / "out")
        for words in (["--dot"], ["--dot", "--own-vectors"]):
            said = run_script("polcert-graph", TIGER[0], TIGER[2], "-q", "-o", name, *words)
            self.assertEqual(said.status, 0, said.err)
            text = (self.folder / "out.dot").read_text()
            nodes = (self.folder / "out.pg").read_text().split("\n")
            self.assertEqual(len(re.findall(r"^  \d+ \[label", text, re.M)), len([node for node in nodes if node]))
            (self.folder / "out.dot").unlink()
        run_script("polcert-graph", TIGER[0], TIGER[2], "-q", "-o", name)
        self.assertFalse((self.folder / "out.dot").exists())


@needs_program
class Pages(FolderTest):
    def page(self, *words: str, status: int) -> Said:
        said = run_script("polcert-report", *words, "--program", PROGRAM, "--html")
        self.assertEqual((said.status, said.err), (status, ""))
        return said

    def cells(self, said: Said) -> List[List[str]]:
        """The cells of the tables, of a page that is well-formed."""
        rows = ElementTree.fromstring(said.out).iter("tr")
        return [["".join(cell.itertext()) for cell in row] for row in rows]

    def test_the_tiger(self) -> None:
        said = self.page(*TIGER, status=1)
        cells = self.cells(said)
        self.assertIn(["4", "open-left", "-26.597208", "-26.597191"], cells)
        self.assertIn(["End state", "Observation", "Probability", "Reward", "Successor", "Its value", "Term"], cells)
        self.assertIn(["tiger-left", "tiger-left", "0.85", "-1", "3"], [row[:5] for row in cells])
        self.assertIn(b"no: node 1, state 0, short by 0.000001", said.out)
        self.assertEqual(len(re.findall(rb"<line ", said.out)), 5)
        self.assertEqual(set(re.findall(rb"https?://[^\"]*", said.out)), {b"http://www.w3.org/2000/svg"})
        self.assertFalse(re.search(rb"<(?:script|link|img)\b", said.out))

    def test_names_that_mislead(self) -> None:
        model = self.file("<b>&.POMDP", (EXAMPLES / "tiger.POMDP").read_bytes())
        said = self.page(model, TIGER[1], str(EXAMPLES / "tiger.lowered.alpha"), status=0)
        self.assertNotIn(b"<b>", said.out)
        self.assertIn(f"{self.folder}/<b>&.POMDP", [row[0] for row in self.cells(said)])

    def test_one_form_alone(self) -> None:
        said = run_script("polcert-report", *TIGER, "--html", "--json")
        self.assertEqual((said.status, said.out), (2, b""))
