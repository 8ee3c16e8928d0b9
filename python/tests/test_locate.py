"""polcert-locate: places, lines, carets, and its table of codes against docs/REFUSALS.md."""
import re
from typing import List

from support import TOP, FolderTest, Said, load, refusals_rows, run_script
from polcert.codes import CODES
from polcert.files import Source

script = load("polcert-locate")
HEAD = b"discount: 1\nvalues: reward\nstates: a b\nactions: go\nobservations: 1\n"


def located(text: bytes, line: str) -> List[str]:
    return str(script.located(Source("F", text), script.refusal_of(line)).lines()).splitlines()


class Page(FolderTest):
    def test_the_page_has_the_sentences(self) -> None:
        page = re.sub(r"\n  (?! *- )", " ", (TOP / "docs" / "REFUSALS.md").read_text())
        items = re.findall(r"^- \*\*(\w\d+)\*\*: (.*?)\. \*Mend:\* (.*?)\.(?: There is no tolerance.*)?$", page, re.M)
        self.assertEqual(items, [(code, *sentences) for code, sentences in CODES.items()])

    def test_each_code_that_polcert_prints_has_a_sentence(self) -> None:
        printed = [f"{kind}{number}" for kind, most in (("M", 20), ("G", 8), ("V", 6), ("B", 8), ("L", 3), ("U", 3)) for number in range(1, most + 1)]
        self.assertEqual(sorted(CODES), sorted([*printed, "K1", "K2", "K3", "K4", "N2", "N3", "N4", "C1"]))

    def test_rows_of_the_page(self) -> None:
        count = 0
        for kind in ("Model", "Graph", "Vectors", "Points"):
            for printed, text in refusals_rows(kind):
                lines = located(text, printed) if not printed.startswith("pomdp") else []
                if printed.startswith("points: B6"):
                    self.assertEqual(lines[0], f"F: {printed[8:]}: a named point is no point of the file")
                elif lines:
                    codes = printed.split(": ")[1].split(" in ")[0].split(" at ")[0]
                    self.assertRegex(lines[0], rf"^F:1:\d+: {codes}")
                    byte = re.search(r"byte (\d+)", printed)
                    column = int(lines[0].split(":")[2])
                    self.assertTrue(len(text) > 100 or lines[2].index("^") == 4 + column - 1, lines)
                    self.assertTrue(not byte or column <= int(byte.group(1)) + 1, lines)
                    count += 1
        self.assertGreater(count, 60)


class Places(FolderTest):
    def test_a_row(self) -> None:
        text = HEAD + b"T: go\n0.5 0.5\n0.15 0.84\nO: * uniform\n"
        self.assertEqual(located(text, "model: M17 in T, action 0, row 1"), [
            "F:8:1: M17 in T, action 0, row 1: a row does not sum to one exactly",
            "    0.15 0.84",
            "    ^",
            "The row `T: go : b` sums to 0.99, 0.01 less than 1. It is given in line 6.",
            "How to mend it: if its numbers are rounded ones, `polcert-mend --within 0.005 FILE > NEW` makes it exact, and says how far that "
            "moves any value.",
        ])

    def test_a_row_of_several_entries(self) -> None:
        text = HEAD + b"T: * : b uniform\nT: go : a : a 1\nT: 0 : 1 : 0 0.4\n  T: go : * : b 0.5 # here\nO: * uniform\n"
        lines = located(text, "model: M17 in T, action 0, row 1")
        self.assertEqual(lines[:4], [
            "F:9:3: M17 in T, action 0, row 1: a row does not sum to one exactly", "      T: go : * : b 0.5 # here", "      ^",
            "The row `T: go : b` sums to 0.9, 0.1 less than 1. It is given in lines 6, 8, 9.",
        ])

    def test_a_row_that_is_not_there(self) -> None:
        lines = located(HEAD + b"T: go identity\n", "model: M17 in O, action 0, row 1")
        self.assertEqual(lines[0], "F:7:1: M17 in O, action 0, row 1: a row does not sum to one exactly")
        self.assertEqual(lines[3], "No entry gives the row `O: go : b`.")

    def test_where_an_item_ends_too_early(self) -> None:
        self.assertEqual(located(HEAD + b"T: go : a 0.5 # half\nT: go : b 0 1\n", "model: M12 in item 6 at byte 86")[:3], [
            "F:6:14: M12: too few or too many numbers", "    T: go : a 0.5 # half", "                 ^",
        ])
        self.assertEqual(located(HEAD + b"start: 0.5 0.4\n\n\nT: go identity\n", "model: M18 in item 6 at byte 82")[0][:6], "F:6:15")
        self.assertEqual(located(b"0 0\n1\n\n", "graph: G6 at byte 7")[0][:5], "F:2:2")

    def test_a_word_that_may_not_stand_there(self) -> None:
        text = HEAD + b"T: go identity\nstates: 2\n"
        self.assertEqual(located(text, f"model: M6 in item 7 at byte {text.index(b'states: 2')}")[1], "    states: 2")

    def test_successors(self) -> None:
        text = b"0 0 1 1 # two observations\n1 0 0 7\n"
        self.assertEqual(located(text, "graph: G5 at node 1, observation 1")[:3], [
            "F:2:7: G5 at node 1, observation 1: a successor is no node of the file", "    1 0 0 7", "          ^",
        ])

    def test_long_lines_and_tabs(self) -> None:
        text = HEAD + b"T: go\t: a 0.5 " + b"0.1 " * 100 + b"\n"
        lines = located(text, f"model: M12 in item 6 at byte {text.index(b'0.1 ') + 200}")
        self.assertLess(len(lines[1]), 120)
        self.assertTrue(lines[1].startswith("    ...") and lines[1].endswith("..."))
        self.assertEqual(lines[1][lines[2].index("^"):][:3], "0.1")

    def test_what_would_move_the_cursor(self) -> None:
        text = b"states: a\x1b[2K\r b\n"
        lines = script.located(Source("F\nyes", text), script.refusal_of("model: M1 K1 in item 1 at byte 9")).lines().splitlines()
        self.assertEqual([lines[0].partition(": ")[0], *lines[1:3]], ["F\\nyes:1:10", "    states: a?[2K? b", "             ^"])

    def test_letters_outside_of_ascii(self) -> None:
        text = "# Zürich\nstates: ä b\n".encode()
        lines = located(text, f"model: M1 K1 in item 1 at byte {text.index('ä'.encode())}")
        self.assertEqual(lines[0][:6], "F:2:9:")
        self.assertEqual(lines[1][lines[2].index("^")], "ä")


class Items(FolderTest):
    """The item and the word that are wrong, if the text is the one that was refused."""

    def test_words(self) -> None:
        for text, line, said in (
            (HEAD.replace(b"a b", b"s0.5 b"), "model: M4 in item 3 at byte 37", "In `states` of line 3: expected a name, found `.5`."),
            (HEAD + b"start: a b\n", "model: M4 in item 6 at byte 76", "In `start` of line 6: expected the end of the item, found `b`."),
            (b"horizon: 5\n" + HEAD, "model: M3 in item 0 at byte 0",
             "Expected a word that begins an item (`discount`, `values`, ...), found `horizon`."),
            (HEAD.replace(b"values: reward\n", b"") + b"T: go identity\n", "model: M7 in item 5 at byte 52",
             "In `T` of line 5: expected the line `values:` before this, found `T`."),
        ):
            self.assertEqual(located(text, line)[3], said)

    def test_a_start(self) -> None:
        text = HEAD + b"start: 0.5 0.4\nT: go identity\nO: * uniform\n"
        lines = located(text, "model: M18 in item 6 at byte 82")
        self.assertEqual(lines[3], "The start sums to 0.9, 0.1 less than 1.")
        self.assertEqual(lines[4][:58], "How to mend it: if its numbers are rounded ones, `polcert-mend --within 0.05 FILE"[:58])

    def test_another_text(self) -> None:
        lines = located(HEAD, "model: M4 in item 3 at byte 37")
        self.assertEqual([line[:14] for line in lines[3:]], ["How to mend it"])


class Script(FolderTest):
    def locate(self, text: bytes, *words: str, given: str = "") -> Said:
        return run_script("polcert-locate", self.file("F", text), *words, given=given.encode())

    def test_standard_input(self) -> None:
        said = self.locate(HEAD + b"x", given="model: M4 in item 5 at byte 67\n")
        self.assertEqual((said.status, said.err), (0, ""))
        self.assertIn(b"F:6:1: M4: no form of the item continues like this\n    x\n    ^\n", said.out)
        said = self.locate(HEAD, given="pomdp: 2 states\n")
        self.assertEqual((said.status, said.out), (1, b"pomdp: 2 states\n"))

    def test_what_is_refused(self) -> None:
        for text, line, reason in (
            (HEAD, "model: M99 in item 1 at byte 2", "no refusal of polcert"),
            (HEAD, "yes: start node 0", "no refusal of polcert"),
            (HEAD, "model: M4 in item 5 at byte 6800", "it is not the file that was refused"),
            (HEAD + b"T: go identity\n", "model: M17 in T, action 4, row 1", "it is not the model that was refused"),
            (b"0 0 0 0", "graph: G5 at node 1, observation 1", "it is not the graph that was refused"),
            (b"states: 2 a", "model: M17 in T, action 0, row 1", "F:1:11: M4"),
        ):
            said = self.locate(text, line)
            self.assertEqual((said.status, said.out), (2, b""), line)
            self.assertIn(reason, said.err)
        self.assertEqual(run_script("polcert-locate", str(self.folder / "missing"), "model: M20").status, 3)
        self.assertEqual(run_script("polcert-locate", "--help").status, 0)
