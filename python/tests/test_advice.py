"""What the commands tell a user who does not know the files yet, of models that they refuse."""
import gzip
import unittest
from typing import Optional, Tuple

from support import PROGRAM, FolderTest, needs_program, polcert, run_script
from polcert.advice import advice_on
from polcert.files import FileError, Source, read_graph, read_model, read_vectors

HEAD = b"discount: 0.9\nvalues: reward\nstates: a b c\nactions: go\nobservations: 1\n"
TAIL = b"T: * identity\nO: * uniform\n"
THIRDS = HEAD + b"T: * : * 0.33 0.33 0.33\nO: * uniform\n"
BOM, UTF_16 = b"\xef\xbb\xbf" + HEAD + TAIL, (HEAD + TAIL).decode().encode("utf-16")
POMDPX, POLICY = b'<?xml version="1.0"?>\n<pomdpx version="1.0">', b'<?xml version="1.0"?>\n<Policy version="0.1">'


def advice(text: bytes) -> Optional[str]:
    """The advice on a text that is refused."""
    try:
        read_model(Source("F", text))
    except FileError as fault:
        return advice_on(fault)
    raise AssertionError("the text is accepted")


class Advice(unittest.TestCase):
    """The advice on a model, each text by hand."""

    def told(self, text: bytes, *words: str) -> None:
        said = advice(text) or ""
        for word in words:
            self.assertIn(word, said)

    def test_first_bytes(self) -> None:
        self.told(BOM, "byte order mark", "`tail -c +4 FILE > NEW`")
        self.told(UTF_16, "UTF-16", "`iconv -f UTF-16 -t UTF-8 FILE > NEW`")
        self.told((HEAD + TAIL).decode().encode("utf-16-le"), "UTF-16")
        self.told(gzip.compress(HEAD), "gzip", "`gunzip < FILE > NEW`")
        self.told(POMDPX, "POMDPX", "`polcert-convert FILE > NEW.POMDP`")
        self.told(POLICY, "policy of SARSOP")
        self.told(b"<html>", "XML, which no model")
        self.told(POMDPX.upper(), "XML, which no model")  # (polcert-convert refuses it, too)

    def test_lines(self) -> None:
        for text in (b"horizon: 5\n" + HEAD, HEAD.replace(b"states", b"horizon: 5\nstates"), HEAD.replace(b"actions", b"horizon: 5\nactions")):
            self.told(text, "no horizon", "remove the line")
        self.told(HEAD.replace(b"discount", b"Discount"), "write `discount:`", "upper and lower case")
        self.told(HEAD.replace(b"values", b"gamma: 3\nvalues"), "`gamma:` begins no line")
        self.assertIsNone(advice(HEAD + b"T: go\n: d : a 1\n"))

    def test_missing_lines(self) -> None:
        self.told(HEAD.replace(b"values: reward\n", b"") + TAIL, "add the line `values: reward`, or `values: cost`", "before line 5")
        self.told(HEAD.replace(b"discount: 0.9\n", b"") + TAIL, "add a line such as `discount: 0.95`", "before line 5")
        self.told(HEAD.replace(b"actions: go\n", b"") + TAIL, "add a line such as `actions: 2`")
        self.told(b"", "no line at all")

    def test_names_that_are_reserved(self) -> None:
        for names in (b"a T c", b"T b", b"a T", b"a reward", b"a start b"):
            for text in (HEAD.replace(b"a b c", names) + TAIL, HEAD.replace(b"actions: go\n", b"").replace(b"a b c", names) + TAIL):
                word = next(word for word in ("T", "reward", "start") if word.encode() in names.split())
                self.told(text, f"`{word}` is a word of the format, and names no state", f"`{word}1`")
        self.told(HEAD.replace(b"go", b"up O"), "`O` is a word of the format, and names no action")
        self.assertNotIn("names no", advice(HEAD.replace(b"actions: go\n", b"") + b"start include: a\n") or "")

    def test_names_with_other_signs(self) -> None:
        self.told(HEAD.replace(b"a b c", b"s0.5 s1"), "`s0.5` is no name", "write `s0-5`, everywhere")
        self.told(HEAD.replace(b"a b c", b"s0 s\xc3\xa91"), "write `s-1`")
        self.told(HEAD.replace(b"a b c", b"s0 2nd"), "write `s2nd`")
        self.told(HEAD.replace(b"a b c", b"a, b"), "write `a` for `a,`")
        self.told(HEAD.replace(b"a b c", b"a,b;c"), "write `a b c` for `a,b;c`: blanks alone stand between names")
        self.told(HEAD + b"T: go : a.1 : b 1\n", "`a.1` is no name", "write `a-1`")
        self.assertIsNone(advice(HEAD.replace(b"0.9", b"1.5")))

    def test_starts(self) -> None:
        self.told(HEAD + b"start: a c\n" + TAIL, "write `start include: a c`")
        self.assertIsNone(advice(HEAD + b"start: a 0.5\n" + TAIL))

    def test_numbers(self) -> None:
        self.told(HEAD + b"T: * : * 1/3 1/3 1/3\n", "write `1/3` in decimals", "`uniform`")

    def test_commas(self) -> None:
        for word, right in (("0,97", "`0.97`"), ("-1,5", "`-1.5`"), ("0,125", "`0.125`"), ("1,000", "`1000` or `1.000`")):
            self.told(HEAD + TAIL + b"R: go : * : * : * " + word.encode(), f"write {right} for `{word}`: decimals have a point")
        self.told(HEAD.replace(b"0.9", b"0,9"), "write `0.9` for `0,9`")
        for word, right in (("0.5,0.5,0", "0.5 0.5 0"), ("0.5, 0.5", "0.5"), ("1,0,0", "1 0 0")):
            self.told(HEAD + b"T: go : a " + word.encode(), f"write `{right}` for `{word.split()[0]}`: blanks alone stand between numbers")
        self.assertIsNone(advice(HEAD + b"T: go : a 0.5;0.5 0\n"))

    def test_comments(self) -> None:
        said = "a comment begins with `#`, and not with `//`"
        listed, row = HEAD.replace(b"a b c", b"a b c // doors"), HEAD + b"T: go : a 1 0 0 //1\n"
        for text in (b"// doors\n" + HEAD, listed, HEAD + b"// rows\n" + TAIL, row):
            self.assertEqual(advice(text), said)
        self.told(HEAD + b"T: go : a 1/2 1/2 0\n", "write `1/2` in decimals")

    def test_rewards_without_an_observation(self) -> None:
        two, none = HEAD.replace(b"observations: 1", b"observations: 2"), HEAD.replace(b"observations: 1\n", b"")
        for entry, whole in (
            (b"R: go : * : * 30", "R: go : * : * : * 30"), (b"R: 0 : a : b -0.5 # less", "R: 0 : a : b : * -0.5"),
            (b"R: * : a 1e3", "R: * : a : * : * 1e3"),
        ):
            for after in (b"", b"\nR: go : * : * : 0 1\n"):
                self.assertEqual(advice(two + TAIL + entry + after), f"in a model with observations write `{whole}`")
        for entry, whole in ((b"R: go : a 30", "R: go : a : * 30"), (b"R: * +1", "R: * : * : * +1")):
            self.assertEqual(advice(none + b"T: * identity\n" + entry), f"in an MDP write `{whole}`")
        for entry in (b"R: go : * : *", b"R: go : * : * 1 2 3", b"R: go : a 1 2 3", b"R: go : * : * : * 1 2", b"T: go : a 1", b"O: go : a 1"):
            self.assertIsNone(advice(two + TAIL + entry + b"\n"))

    def test_files_that_are_no_models(self) -> None:
        for text in (b"0 0 1 1\n", b"# tiger\n0\n-20 1\n", b"-1\n"):
            self.assertEqual(advice(text), "this is no model, as it begins with a number: name the model first, and then the other files")
        self.assertIsNone(advice(b"go go go\n"))

    def test_the_mender_where_it_succeeds(self) -> None:
        exact = "`polcert-mend FILE > NEW` makes it exact"
        self.told(HEAD + b"T: * : * 0.333333 0.333333 0.333333\nO: * uniform\n", exact)
        self.told(HEAD + b"start: 0.333 0.333 0.333\n" + TAIL, exact)
        self.told(HEAD + b"T: * : * 0.3333333 0.3333333 0.3333334\nO: * uniform\n", exact)
        self.told(HEAD + b"T: go : * reset\nO: * uniform\n", "`polcert-mend FILE > NEW` writes the row of the start there")
        self.told(THIRDS, "if its numbers are rounded ones, `polcert-mend --within 0.005 FILE > NEW` makes it exact")

    def test_the_mender_where_it_does_not(self) -> None:
        for text, why in (
            (HEAD + b"T: * : * 0.5 0 0\nO: * uniform\n", "sums to 0.5, 0.5 less than 1"),
            (HEAD.replace(b"0.9", b"0.1234567") + TAIL, "another discount is another problem"),
            (THIRDS.replace(b"O: * uniform", b"O: 0 : 0 0.7"), "sums to 0.7, 0.3 less than 1"),
        ):
            self.told(text, "`polcert-mend` does not make it exact: ", why)
            self.assertNotIn("> NEW", advice(text) or "")
        self.told(HEAD + b"T: * identity\nO: * reset\n", "alone: write the row that is meant")


class OtherFiles(unittest.TestCase):
    """The advice on a graph, and on vectors, of a model with three states, two actions and two observations."""

    MODEL = read_model(Source("M", HEAD.replace(b"go", b"go stay").replace(b"observations: 1", b"observations: 2") + TAIL))

    def graph(self, text: bytes) -> Tuple[str, Optional[str]]:
        """The code and the advice."""
        with self.assertRaises(FileError) as caught:
            read_graph(Source("G", text), self.MODEL)
        return caught.exception.code, advice_on(caught.exception)

    def vectors(self, text: bytes) -> Tuple[str, Optional[str]]:
        with self.assertRaises(FileError) as caught:
            read_vectors(Source("V", text), self.MODEL)
        return caught.exception.code, advice_on(caught.exception)

    def test_graphs_of_other_models(self) -> None:
        why = "here, and the model another number of observations: see that graph and model belong together"
        for text, code, each in (
            (b"0 0 1\n1 1 0\n", "G6", "1 successor"), (b"0 0 0 1 1\n1 1 0 1 0\n", "G3", "3 successors"),
            (b"0 0 0 1 -\n1 1 0 1 0\n", "G2", "3 successors"),
            (b"# doors\n\n0 0 0 X 0 0 # node\n", "G3", "4 successors"), (b"0 0\n", "G6", "0 successors"),
        ):
            self.assertEqual(self.graph(text), (code, f"each node has {each} {why}"))
        self.assertEqual(self.graph(b"0 2 0 0\n")[0], "G4")
        self.assertIn("see that graph and model belong together", self.graph(b"0 2 0 0\n")[1] or "")

    def test_graphs_that_may_be_of_this_model(self) -> None:
        for text, code in ((b"0 0 0 0\n1 0 0\n", "G6"), (b"1 0 0 0\n", "G3"), (b"0 0 0 x\n", "G2"), (b"0 0 0 0 1 0 0\n", "G6"), (b"0 0 7 7\n", "G5")):
            self.assertEqual(self.graph(text), (code, None))

    def test_vectors_of_other_models(self) -> None:
        for text, code in ((b"0\n1.5 2.5\n\n1\n2.5 3.5\n", "V3"), (b"0\n1 2 # three\n", "V5")):
            why = "each vector has 2 numbers here, and the model another number of states: see that vectors and model belong together"
            self.assertEqual(self.vectors(text), (code, why))
        for text, code in ((b"0\n1 2 nan\n", "V3"), (b"0 1 2\n", "V5"), (b"0\n1 2 3\n1\n4 5\n", "V5"), (b"0\n1\n", "V5")):
            self.assertEqual(self.vectors(text), (code, None))

    def test_one_in_the_place_of_another(self) -> None:
        self.assertEqual(self.graph(b"0\n1.5 2 3\n")[1], "these are vectors, and no graph: name the graph before them")
        self.assertEqual(self.vectors(b"0 0 0 1\n1 1 - 0\n")[1],
                         "this is a graph, in which each node has 2 successors: see that it belongs to the model, and stands in its place")
        for text in (HEAD, b"# doors\n" + HEAD, b"start include: a\n"):
            for found in (self.graph(text), self.vectors(text)):
                self.assertEqual(found[1], "this is a model: name the model first, and then the other files")

    def test_texts_without_a_token(self) -> None:
        for text, what in ((b"", "is empty"), (b" \n\n", "is empty"), (b"# none\n", "has comments alone")):
            self.assertEqual(self.graph(text), ("G7", f"the text {what}: see that it is the right file"))
            self.assertEqual(self.vectors(text), ("V6", f"the text {what}: see that it is the right file"))

    def test_signs(self) -> None:
        self.assertEqual(self.graph(b"0 0 0,0\n")[1], "write `0 0` for `0,0`: blanks alone stand between numbers")
        self.assertEqual(self.vectors(b"0\n1,5 2 3\n")[1], "write `1.5` for `1,5`: decimals have a point, and thousands have nothing")
        for found in (self.graph(b"// doors\n"), self.vectors(b"0 1 2 // three\n3")):
            self.assertEqual(found[1], "a comment begins with `#`, and not with `//`")


class Commands(FolderTest):
    """What the commands print of such a file: polcert-mend in one line, and polcert-locate after the program's own line."""

    FILES = (
        (BOM, "byte order mark"), (UTF_16, "UTF-16"), (POMDPX, ""), (b"horizon: 5\n" + HEAD, "no horizon"),
        (HEAD + b"start: a b\n" + TAIL, "start include: a b"), (HEAD.replace(b"a b c", b"S T U"), "`T` is a word of the format"),
        (HEAD.replace(b"values: reward\n", b"") + TAIL, "add the line `values: reward`"), (THIRDS, "--within 0.005"),
    )

    def test_the_mender(self) -> None:
        for text, told in self.FILES:
            said = run_script("polcert-mend", self.file("m.POMDP", text))
            self.assertEqual((said.status, said.out, said.err.count("\n")), (2, b"", 1))
            self.assertIn(told, said.err)
        self.assertIn("the row `T: go : a` sums to 0.99, 0.01 less than 1", said.err)

    @needs_program
    def test_after_the_program(self) -> None:
        for text, told in (*self.FILES, (gzip.compress(HEAD), "gunzip < FILE")):
            name = self.file("m.POMDP", text)
            line = polcert("model", name).err
            said = run_script("polcert-locate", name, given=line.encode())
            self.assertEqual((said.status, said.err), (0, ""), line)
            self.assertIn(f"\nHow to mend it: {'' if told != '--within 0.005' else 'if'}", said.out.decode())
            self.assertIn(told, said.out.decode().splitlines()[-1])

    @needs_program
    def test_the_certifier(self) -> None:
        programs = self.folder / "programs"
        programs.mkdir()
        (programs / "polcert").symlink_to(PROGRAM)
        for text, told in self.FILES:
            said = run_script("polcert-certify", self.file("m.POMDP", text), "-q", "-o", str(self.folder / "out"), "--programs", str(programs))
            self.assertEqual((said.status, said.out, said.err.count("\n")), (2, b"", 1), said.err)
            self.assertIn(told, said.err)
