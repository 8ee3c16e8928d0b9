"""The reader of models, graphs and vectors, against lines and tables that are typed, tables that are filled here, and the program."""
import importlib
import random
import sys
from fractions import Fraction
from itertools import product
from typing import Optional, Tuple
from unittest.mock import patch

from models import random_model, tag
from support import EXAMPLES, NAMES, TOP, FolderTest, count_calls, mutated, needs_program, polcert, refusals_rows
from polcert.command import read_source
from polcert.files import FileError, Graph, Model, Source, read_graph, read_model, read_vectors


def refusal(text: bytes) -> str:
    """What polcert says of a model's text, as this reader has it; nothing if it is read."""
    try:
        read_model(Source("model", text))
    except FileError as fault:
        return fault.refusal
    return ""


def refusal_of_policy(model: Model, graph: Graph, graph_text: Optional[bytes], vectors: Optional[bytes]) -> str:
    try:
        if graph_text is not None:
            graph = read_graph(Source("graph", graph_text), model)
        if vectors is not None:
            read_vectors(Source("vectors", vectors), model, graph)
    except FileError as fault:
        return fault.refusal
    return ""


def all_cells(model: Model) -> Tuple[object, ...]:
    """Each cell of T, O and R that is not 0."""
    sizes = model.actions.count, model.states.count, model.states.count, model.observations.count
    t = {(a, s, e): p for a in range(sizes[0]) for s in range(sizes[1]) for e, p in model.transitions.row(a, s).items()}
    o = {(a, e, z): p for a in range(sizes[0]) for e in range(sizes[1]) for z, p in model.observing.row(a, e).items()}
    r = {cell: model.rewards.of(*cell[:2]).at(*cell[2:]) for cell in product(*map(range, sizes))}
    return t, o, {cell: value for cell, value in r.items() if value}


class Refusals(FolderTest):
    def test_texts_of_models_that_are_refused(self) -> None:
        for line in (TOP / "tests" / "refused-models").read_bytes().splitlines():
            if not line.startswith(b"#"):
                text, printed = line.split(b"\t")
                self.assertEqual(refusal(text), printed.decode(), text)

    def test_rows_of_the_page(self) -> None:
        tiger = read_model(read_source(str(EXAMPLES / "tiger.POMDP")))
        one_node = read_graph(Source("graph", b"0 0 0 0"), tiger)
        for printed, text in refusals_rows("Model"):
            self.assertEqual(refusal(text) or "pomdp: ", printed if printed.startswith("model") else "pomdp: ", text)
        for printed, text in refusals_rows("Graph"):
            self.assertEqual(refusal_of_policy(tiger, one_node, text, None), printed, text)
        for printed, text in refusals_rows("Vectors"):
            self.assertEqual(refusal_of_policy(tiger, one_node, None, text), printed, text)

    def test_cases_of_the_program(self) -> None:
        with patch.object(sys, "path", [str(TOP / "tests"), *sys.path]):
            cases = importlib.import_module("case_file").case_files("cases")
        refused = [case for case in cases if not case.words and not case.source and case.expected.err.startswith(b"model: ")]
        for case in refused:
            self.assertEqual(refusal(case.given), case.expected.err.decode().strip(), case.name)
        self.assertGreater(len(refused), 20)

    def test_limits_of_large_tables(self) -> None:
        head = b"discount: 1 values: reward states: 2 actions: 1 observations: 1 T: 0 identity O: 0 uniform"
        with patch("polcert.files.LARGE_TABLE", 3), patch("polcert.files.MOST_REWARD_ENTRIES", 1):
            for entries, item in (
                (b"", 0), (b" T: 0 : 0 : 0 1", 0), (b" T: 0 identity", 8), (b" T: 0 : 0 uniform", 8), (b" T: 0 : * : 0 1", 8),
                (b" R: 0:0:0:0 1", 0), (b" R: 0:0:0:0 1 R: 0:0:0:0 1", 9),
            ):
                text = head + entries
                self.assertEqual(refusal(text)[:10], "model: M16" if item else "", text)
                if item:
                    self.assertEqual(refusal(text), f"model: M16 in item {item} at byte {len(text)}")

    def test_lines_and_columns(self) -> None:
        text = bytearray(b"a" * 10_000)
        for byte in (0, 4095, 4096, 8190, 8192):
            text[byte] = ord("\n")
        source = Source("text", bytes(text))
        for byte in (*range(3), *range(4090, 4100), *range(8188, 8196), 10_000):
            before = bytes(text[:byte])
            self.assertEqual(source.position(byte), (before.count(b"\n") + 1, byte - before.rfind(b"\n")), byte)

    def test_messages(self) -> None:
        wanted = {
            b"discount: nan": "model:1:11: M4: expected a number, found `nan`",
            b"discount: 1\nvalues: rewards": "model:2:9: M4: expected `reward` or `cost`, found `rewards`",
            b"discount: 1\n# \xc3\xa9\nstates: \xc3\xa9": "model:3:9: M1 K1: expected a name, found a byte that begins no name, number or sign",
            b"": "model:1:1: M7: expected the line `discount:` before this, found the end of the text",
        }
        for text, message in wanted.items():
            with self.assertRaises(FileError) as caught:
                read_model(Source("model", text))
            self.assertEqual(str(caught.exception), message)

    def test_vectors_that_are_no_numbers(self) -> None:
        tiger = read_model(read_source(str(EXAMPLES / "tiger.POMDP")))
        for word in (b"nan", b"inf", b"-inf", b"1e999", b""):
            with self.assertRaises(FileError) as caught:
                read_vectors(Source("vectors", b"0 1 " + word), tiger)
            self.assertIn("vectors:1:", str(caught.exception))
        with self.assertRaises(FileError):
            read_vectors(Source("vectors", b"# nothing\n"), tiger)


class Tables(FolderTest):
    def test_random_models_against_filled_tables(self) -> None:
        for seed in range(150):
            entries = random_model(random.Random(seed))
            model = read_model(Source("model", entries.text()), tolerant=True)
            self.assertEqual(all_cells(model), entries.tables(), entries.text())

    def test_numbers_keep_all_decimals(self) -> None:
        text = b"discount: 1 values: cost states: 2 actions: 1 observations: 1 T: 0 0.12345678 0.87654322 1 0 O: 0 uniform "
        text += b"R: 0:0:0:0 1e-9"
        model = read_model(Source("model", text), tolerant=True)
        self.assertEqual(model.transitions.row(0, 0), {0: Fraction("0.12345678"), 1: Fraction("0.87654322")})
        self.assertEqual(model.rewards.of(0, 0).at(0, 0), Fraction("0.000000001"))

    def test_starts(self) -> None:
        head = b"discount: 1 values: reward states: a b c actions: 1 observations: 1 "
        tail = b" T: 0 identity O: 0 uniform"
        third = Fraction(1, 3)
        wanted = {
            b"": {0: third, 1: third, 2: third}, b"start: uniform": {0: third, 1: third, 2: third},
            b"start: b": {1: Fraction(1)}, b"start: 2": {2: Fraction(1)}, b"start: 0.25 0 0.75": {0: Fraction(1, 4), 2: Fraction(3, 4)},
            b"start include: a 2 a": {0: Fraction(1, 2), 2: Fraction(1, 2)}, b"start exclude: a": {1: Fraction(1, 2), 2: Fraction(1, 2)},
        }
        for start, weights in wanted.items():
            self.assertEqual(read_model(Source("model", head + start + tail)).start_weights(), weights, start)

    def test_a_model_of_the_size_of_tag_takes_few_calls(self) -> None:
        text = tag()
        self.assertLess(count_calls(lambda: read_model(Source("tag", text), tolerant=True)), 10 * len(text))
        model = read_model(Source("tag", text), tolerant=True)
        block = model.rewards.of(4, 0)
        self.assertEqual((model.states.count, model.observations.count), (870, 30))
        self.assertEqual(block.at(0, 0), 10)
        self.assertEqual(model.rewards.of(0, 1).at(1, 1), -1)


@needs_program
class WithProgram(FolderTest):
    def test_full_forms(self) -> None:
        texts = [(EXAMPLES / f"{name}.POMDP").read_bytes() for name in NAMES[:3]]
        texts += [random_model(random.Random(seed), exact=True).text() for seed in range(40)]
        for text in texts:
            printed = polcert("print", self.file("model", text))
            self.assertEqual(printed.status, 0, text)
            self.assertEqual(all_cells(read_model(Source("model", text))), all_cells(read_model(Source("full", printed.out))))

    def test_changed_models(self) -> None:
        random_ = random.Random(1)
        for _ in range(150):
            text = mutated((EXAMPLES / f"{random_.choice(NAMES[:3])}.POMDP").read_bytes(), random_)
            said = polcert("model", self.file("model", text))
            self.assertEqual(refusal(text), said.err.strip(), text)

    def test_changed_graphs_and_vectors(self) -> None:
        random_ = random.Random(2)
        for _ in range(100):
            name = random_.choice(NAMES[:3])
            files = [(EXAMPLES / f"{name}.{ending}").read_bytes() for ending in ("POMDP", "pg", "alpha")]
            changed = random_.choice((1, 2))
            files[changed] = mutated(files[changed], random_)
            said = polcert("check", *(self.file(str(i), text) for i, text in enumerate(files)))
            model = read_model(Source("model", files[0]))
            graph = read_graph(Source("graph", (EXAMPLES / f"{name}.pg").read_bytes()), model)
            self.assertEqual(refusal_of_policy(model, graph, files[1], files[2]), said.err.strip(), files[changed])
