"""polcert-mend: what it changes, what it refuses, and its bound."""
import random
import re
from fractions import Fraction
from typing import Dict, Iterator, List, Tuple

from models import random_model, tag
from support import EXAMPLES, NAMES, PROGRAM, FolderTest, Said, polcert, present, refusals_rows, run_script
from polcert.files import FileError, Model, Row, Source, read_model
from polcert.mending import Mender, mended, mended_text, values_bound

HEAD = b"discount: 0.9\nvalues: reward\nstates: 3\nactions: 2\nobservations: 2\n"
TAIL = b"O: * uniform\nR: * : * : * : * 1\n"
MARK = b"# Rows that did not sum to one, mended by polcert-mend:\n"

WITHIN = Fraction(1, 100000)


def mend_here(text: bytes, within: Fraction = WITHIN) -> Tuple[bytes, str]:
    """The mended text and its bound, without a run of the script. Raises FileError if it is refused."""
    model = read_model(Source("m", text), tolerant=True)
    mend = Mender(model, within).run()
    out = mended_text(model.source, mend)
    read_model(Source("mended", out))
    return out, values_bound(model, mend.moved)


class MendTest(FolderTest):
    def mend(self, text: bytes, *words: str) -> Said:
        return run_script("polcert-mend", self.file("m.POMDP", text), *words)

    def mended(self, text: bytes, *words: str) -> bytes:
        """The mended text, which polcert accepts and which stays as it is when it is mended again."""
        said = self.mend(text, *words)
        self.assertEqual(said.status, 0, said.err)
        read_model(Source("mended", said.out))
        if PROGRAM:
            self.assertEqual(polcert("model", self.file("mended", said.out)).status, 0, said.out)
        again = self.mend(said.out, *words)
        self.assertEqual((again.status, again.out), (0, said.out), again.err)
        self.assertIn("nothing to mend", again.err)
        return said.out

    def added(self, text: bytes) -> bytes:
        """The entries that are written after a text, of which nothing else changes."""
        out = self.mended(text)
        self.assertTrue(out.startswith(text + b"\n" + MARK), out)
        return out[len(text + b"\n" + MARK):]

    def refused(self, text: bytes, reason: str, *words: str) -> None:
        output = self.folder / "not-written"
        said = self.mend(text, "-o", str(output), *words)
        self.assertEqual((said.status, said.out), (2, b""))
        self.assertIn(reason, said.err)
        self.assertEqual(len(said.err.splitlines()), 1, said.err)
        self.assertFalse(output.exists())


class Changes(MendTest):
    def test_thirds(self) -> None:
        text = HEAD + b"T: 0 : 0 0.333333 0.333333 0.333333\nT: 0 : 1 0.333 0.667 0\nT: 0 : 2 0.3333 0.6666 0\nT: 1 identity\n" + TAIL
        self.assertEqual(self.added(text), b"T: 0 : 0 uniform\nT: 0 : 2 : 0 0.33335\nT: 0 : 2 : 1 0.66665\n")

    def test_two_equal_cells_are_not_uniform(self) -> None:
        text = HEAD + b"T: * : * 0.4999995 0.4999995 0\n" + TAIL
        self.assertIn(b"\nT: * : * 0.5 0.5 0\n", self.mended(text))
        self.assertEqual(self.added(HEAD + b"T: * : * 0.499999 0.499999 0\n" + TAIL), b"T: * : * : 0 0.5\nT: * : * : 1 0.5\n")

    def test_sevenths(self) -> None:
        head = b"discount: 0.9 values: reward states: 7 actions: 1 observations: 1\n"
        self.assertEqual(self.added(head + b"T: 0 : *" + 7 * b" 0.142857" + b"\nO: * uniform\n"), b"T: * : * uniform\n")
        text = head + b"T: 0 : * 0.142857 0.285714 0.571428 0 0 0 0\nO: * uniform\n"
        self.assertEqual(self.added(text), b"T: * : * : 2 0.571429\n")

    def test_ninths_of_four_digits(self) -> None:
        head = b"discount: 0.9 values: reward states: 9 actions: 1 observations: 1\n"
        self.assertEqual(self.added(head + b"T: 0 : *" + 9 * b" 0.1111" + b"\nO: * uniform\n"), b"T: * : * uniform\n")

    def test_a_number_with_few_decimals_counts_as_meant(self) -> None:
        head = b"discount: 0.9 values: reward states: 4 actions: 1 observations: 1\n"
        self.assertEqual(self.added(head + b"T: 0 : * 0.9 0.033 0.033 0.033\nO: * uniform\n"),
                         b"T: * : * : 1 0.033333\nT: * : * : 2 0.033333\nT: * : * : 3 0.033334\n")

    def test_all_digits_of_a_double(self) -> None:
        third, rest = b"0.33333333333333331", b"0.66666666666666674"
        out = self.mended(HEAD + b"T: * : * " + third + b" " + rest + b" 0\n" + TAIL)
        self.assertIn(b"T: * : * 0.333333 0.666667 0\n", out)
        self.assertNotIn(MARK, out)
        out = self.mended(HEAD + b"T: * : * 1.0000000000000002 -1e-17 0\n" + TAIL)
        self.assertIn(b"T: * : * 1 -0 0\n", out)

    def test_starts(self) -> None:
        tail = b"T: * identity\n" + TAIL
        for start, new in (
            (b"start: 0.3333 0.3333 0.3333 # anywhere\n", b"start: uniform   # anywhere\n"),
            (b"start: 0 # not there\n 0.49999 +0.49999\n", b"start include:  # not there\n 1  2\n"),
            (b"start: 0.25 -1e-17 0.75000000000000011\n", b"start: 0.25 -0 0.75\n"),
            (b"start: 1.0000000000000002 -1e-17 0\n", b"start include: 0   \n"),
            (b"start: 0.333333 0.166666 0.5\n", b"start: 0.333334 0.166666 0.5\n"),
            (b"start: 0.3333333333 0.1666666666 0.5000000001\n", b"start: 0.333333 0.166667 0.5\n"),
        ):
            self.assertEqual(self.mended(HEAD + start + tail), HEAD + new + tail)

    def test_a_start_of_81_parts(self) -> None:
        head, tail = b"discount: 0.9 values: reward states: 82 actions: 1 observations: 1\nstart:", b"\nT: * identity O: * uniform\n"
        out = self.mended(head + 81 * b" 0.012345679" + b" 0" + tail)
        self.assertEqual(out, head.replace(b"start", b"start include") + b" " + b" ".join(str(i).encode() for i in range(81)) + b" " + tail)

    def test_stars_under_single_cells(self) -> None:
        text = HEAD + b"T: * : * 0.333333 0.333333 0.333333\nT: 0 : 1 : 2 0.333334\nT: 1 : 2 uniform\n" + TAIL
        self.assertEqual(self.added(text), b"T: * : 0 uniform\nT: 0 : 2 uniform\nT: 1 : 1 uniform\n")
        text = HEAD + b"T: * uniform\nT: 1 : 1 : 1 0.3333\n" + TAIL
        self.assertEqual(self.added(text), b"T: 1 : 1 : 0 0.333333\nT: 1 : 1 : 1 0.333333\nT: 1 : 1 : 2 0.333334\n")

    def test_mdps(self) -> None:
        text = b"discount: 0.9\nvalues: cost\nstates: left right\nactions: go\nT: go\n0.33333333 0.66666667\n0.3333 0.6666\n"
        text += b"R: go\n1 2.123456789 3 4\n"
        out = self.mended(text)
        self.assertIn(b"\n0.333333 0.666667\n0.3333 0.6666\nR: go\n1 2.123457 3 4\n", out)
        self.assertTrue(out.endswith(MARK + b"T: go : right : left 0.33335\nT: go : right : right 0.66665\n"), out)

    def test_a_hundred_rows(self) -> None:
        head = b"discount: 0.9 values: reward states: 100 actions: 1 observations: 1\n"
        entry = b"T: 0 : %d : %d 0.%06d\n"
        rows = b"".join(entry % (i, i, 1000 + i) + entry % (i, (i + 1) % 100, 998999 - i) for i in range(100))
        added = self.added(head + rows + b"O: * uniform\n").splitlines()
        self.assertEqual(len(added), 100)
        self.assertEqual(added[7], b"T: 0 : 7 : 8 0.998993")

    def test_rewards_of_eight_decimals(self) -> None:
        text = HEAD + b"T: * identity\nO: * uniform\nR: 0 : * : * : * 1.23456789 # a gain\nR: 1 : * : * : * - 0.00000049\n"
        out = self.mended(text)
        self.assertEqual(out, text.replace(b"1.23456789", b"1.234568").replace(b"0.00000049", b"0"))

    def test_line_ends_of_windows(self) -> None:
        text = (HEAD + b"T: * : * 0.333333 0.333333 0.333333\n" + TAIL).replace(b"\n", b"\r\n")
        self.assertTrue(self.mended(text).startswith(text))

    def test_a_last_line_without_an_end(self) -> None:
        text = HEAD + b"T: * : * 0.333333 0.333333 0.333333\n" + TAIL + b"# end"
        self.assertTrue(self.mended(text).startswith(text + b"\n\n" + MARK))

    def test_names(self) -> None:
        text = b"discount: 0.9\nvalues: reward\nstates: a b\nactions: go\nobservations: x y z\nT: go identity\n"
        text += b"O: go : b 0.333333 0.666666 0\nO: go : a uniform\n"
        self.assertEqual(self.added(text), b"O: go : b : y 0.666667\n")

    def test_models_that_polcert_accepts_stay(self) -> None:
        texts = [(EXAMPLES / f"{name}.POMDP").read_bytes() for name in NAMES]
        texts += [text for printed, text in refusals_rows("Model") if printed.startswith("pomdp")]
        texts += [random_model(random.Random(seed), exact=True).text() for seed in range(20)]
        for text in texts:
            self.assertEqual(mend_here(text)[0], text)

    def test_a_model_of_the_size_of_tag(self) -> None:
        out = self.mend(tag(".17g")).out
        self.assertIn(MARK, out)
        read_model(Source("mended", out))

    def test_random_models(self) -> None:
        mended = 0
        for seed in range(200):
            text = perturbed(random_model(random.Random(seed), exact=True).text(), random.Random(seed))
            try:
                out = mend_here(text)[0]
            except FileError as fault:
                self.assertIn("a number would move by more", str(fault))
                continue
            mended += out != text
            self.assertEqual(mend_here(out)[0], out)
            self.assertLess(most_moved(text, out), Fraction(2, 100000))
            if PROGRAM and seed % 4 == 0:
                self.assertEqual(polcert("model", self.file("mended", out)).status, 0, out)
        self.assertGreater(mended, 100)

    def test_messages(self) -> None:
        text = HEAD + b"start: 0.333 0.333 0.333\nT: 0 : * 0.333333 0.333333 0.333333\nT: 1 : * 0.1234567 0.876543 0\n"
        text += TAIL.replace(b"R: *", b"R: 0")
        said = self.mend(text, "-o", str(self.folder / "out"))
        name = str(self.folder / "m.POMDP")
        self.assertEqual(said.err.replace(name, "M").splitlines(), [
            "M:6: the start summed to 0.999: its equal parts became `start: uniform`",
            "M:7: T: 0 : * summed to 0.999999: became `uniform`",
            "M:8: 0.1234567 became 0.123457",
            "M: 1 number rewritten, 3 rows mended, the start mended",
            # 0.876543 / 0.9999997 is 0.876543263; the start became thirds, and each of its numbers may stand for any from 0.3325 on
            "M: as it was written it lies within 0.000000263; what was rounded to it within 0.000834",
            "M: no value moves by more than 0.0000263",
        ])
        self.assertEqual((said.status, said.out), (0, b""))

    def test_how_far_the_written_model_lies(self) -> None:
        for rows, within in (
            # a row over its sum has 1/3, of which 0.33335 lies 0.0000166.. away; 0.6666 became 0.66665, and may stand for 0.66655
            (b"T: * identity\nT: 0 : 2 0.3333 0.6666 0\n", "as it was written it lies within 0.0000167; what was rounded to it within 0.0001"),
            (b"T: * : * 0.5 0.25 0.25\nT: 1 : 0 0.12345678 0.87654322 0\n",
             "as it was written it lies within 0.00000022; what was rounded to it within 0.000000225"),
            (b"T: * : * 0.5 0.5 0\nT: 1 : 0 0.7 0.2999999 0.0000001\n",
             "`T: 1 : 0 : 2` became 0: the model as it was written lies within no distance"),
            # a probability has to be 12 decimals at most for polcert_robust, and a reward 6
            (b"T: * identity\nT: 0 : 2 0.3 0.7000000000000001 0\n",
             "as it was written it lies within 0.000000000001; what was rounded to it within 0.000000000001"),
            (b"T: * identity\nR: 0 : 1 : * : * 1.2500004\nR: 0 : 2 : * : * 1.500\n",
             "as it was written it lies within 0, rewards within 0.000001; what was rounded to it within 0, rewards within 0.0005"),
        ):
            said = self.mend(HEAD + rows + TAIL)
            self.assertIn(f": {within}", said.err)

    def test_the_distance_is_the_greatest_difference(self) -> None:
        for seed in range(40):
            text = rough_model(random.Random(seed))
            made = mended(Source("m", text), Fraction(3, 100))
            rows = [*rows_of_both(text, made.text), (made.model.start_weights(), read_model(Source("new", made.text)).start_weights())]
            most = max(abs(p / sum(before.values()) - after.get(c, 0)) for before, after in rows for c, p in before.items() if p > 0)
            lost = any(p > 0 and not after.get(c) for before, after in rows for c, p in before.items())
            self.assertEqual((made.mend.written.probabilities, bool(made.mend.lost)), (most, lost), text)

    def test_what_the_start_lost(self) -> None:
        said = self.mend(HEAD + b"start: 0.9999999 0.0000001 0\nT: * identity\n" + TAIL)
        self.assertIn(": `start : 1` became 0: the model as it was written lies within no distance\n", said.err)

    def test_lines_of_rows_with_the_same_change(self) -> None:
        row = b"0.333333 0.333333 0.333333\n"
        said = self.mend(HEAD + b"T: 0 identity\nT: 0 : 1 " + row + b"T: 1 : * " + row + TAIL)
        lines = [re.sub(r"^.*/", "", line) for line in said.err.splitlines()]
        self.assertEqual(lines[:2], [
            "m.POMDP:7: T: 0 : 1 summed to 0.999999: became `uniform`",
            "m.POMDP:8: T: 1 : * summed to 0.999999: became `uniform`",
        ])


class Resets(MendTest):
    """`reset` is the row of the start, as pomdp-solve reads it."""

    def reset(self, start: bytes, row: bytes) -> bytes:
        """What a row of the second state becomes, in a model whose other rows are `identity`."""
        head = HEAD + start + b"T: * identity\n"
        out = self.mended(head + row + b" # again\n" + TAIL)
        self.assertTrue(out.startswith(head), out)
        self.assertIn(b" # again\n" + TAIL, out)
        return out[len(head) : out.index(b" # again")]

    def test_starts(self) -> None:
        for start, row in (
            (b"", b"uniform"), (b"start: uniform\n", b"uniform"), (b"start include: 0 1 2\n", b"uniform"), (b"start: 0.2 0.3 0.5\n", b"0.2 0.3 0.5"),
            (b"start: 2\n", b": * 0 T: 0 : 1 : 2 1"), (b"start exclude: 1\n", b": * 0 T: 0 : 1 : 0 0.5 T: 0 : 1 : 2 0.5"),
        ):
            self.assertEqual(self.reset(start, b"T: 0 : 1 reset"), b"T: 0 : 1 " + row)

    def test_the_rows_of_an_action(self) -> None:
        self.assertEqual(self.reset(b"start: 0.2 0.3 0.5\n", b"T: 1 reset"), b"T: 1 : * 0.2 0.3 0.5")
        self.assertEqual(self.reset(b"start: 1\n", b"T: * reset"), b"T: * : * : * 0 T: * : * : 1 1")

    def test_names(self) -> None:
        text = b"discount: 0.9 values: reward states: a b actions: go observations: 1 start: b T: go : a reset T: go : b uniform O: * uniform\n"
        self.assertEqual(self.mended(text), text.replace(b"reset", b": * 0 T: go : a : b 1"))

    def test_a_start_that_is_mended_too(self) -> None:
        said = self.mend(HEAD + b"start: 0.1 0.2333333 0.6666667\nT: * reset\n" + TAIL)
        self.assertIn(b"start: 0.1 0.233333 0.666667\nT: * : * 0.1 0.233333 0.666667\n", said.out)
        self.assertEqual([line.split("m.POMDP")[1] for line in said.err.splitlines()], [
            ":6: 0.2333333 became 0.233333", ":6: 0.6666667 became 0.666667", ":7: `reset` became the row of the start",
            ":7: 0.2333333 became 0.233333", ":7: 0.6666667 became 0.666667", ": 4 numbers rewritten, 0 rows mended, the start mended, "
            "1 `reset` written out", ": as it was written it lies within 0.0000003; what was rounded to it within 0.00000035",
            ": no value moves by more than 0, and from the start by no more than 0",
        ])

    def test_three_states_of_four(self) -> None:
        text = HEAD.replace(b"states: 3", b"states: 4") + b"start exclude: 0\nT: 1 identity\nT: 0 : * reset\n" + TAIL
        model = read_model(Source("mended", self.mended(text)))
        row = model.transitions.row(0, 3)
        self.assertEqual(sorted(row), [1, 2, 3])
        self.assertLessEqual(max(abs(part - Fraction(1, 3)) for part in row.values()), Fraction(1, 10**6))

    def test_many_words(self) -> None:
        text = HEAD + b"start: 0.2 0.3 0.5\nT: 0 : 0 reset T: 0 : 1 reset # reset\nT: 0 : 2 uniform T: 1 reset\n" + TAIL
        row = b"0.2 0.3 0.5"
        self.assertEqual(self.mended(text), text.replace(b" reset T", b" %s T" % row).replace(b"1 reset #", b"1 %s #" % row).replace(
            b"T: 1 reset", b"T: 1 : * " + row))


class Refusals(MendTest):
    def test_what_it_does_not_mend(self) -> None:
        body = b"T: * identity\n" + TAIL
        for text, reason in (
            (HEAD.replace(b"0.9", b"0.9999999") + body, "m.POMDP:1:11: the discount `0.9999999` has more than six decimals"),
            (HEAD + b"T: * : * 0.15 0.84 0\n" + TAIL, "m.POMDP:6:1: the row `T: 0 : 0` sums to 0.99"),
            (HEAD + b"T: 0 identity\n" + TAIL, "m.POMDP:9:1: the row `T: 1 : 0` is not given"),
            (HEAD + b"start: 0.5 0.25 0.2\n" + body, "m.POMDP:6:1: the start sums to 0.95"),
            (HEAD + b"O: 0 : 0 reset\n" + body, "m.POMDP:6:10: M14: the word `reset` is not read"),
            (HEAD + b"start: reset\n" + body, "m.POMDP:6:8: M14: the word `reset` is not read"),
            (HEAD + b"T: 0 : 0 : 0 reset\n" + body, "m.POMDP:6:14: M14: the word `reset` is not read"),
            (HEAD + b"T: * : * 0.5 0.5000019 -0.000002\n" + TAIL, "M13"),
            (HEAD + b"T: * : * 1/3 1/3 1/3\n" + TAIL, "m.POMDP:6:11: M1 K1"),
            (HEAD + b"T: * : * nan 1 0\n" + TAIL, "found `nan`"),
            (HEAD + body + b"R: 0 : 0 : 0 : 0 1e8\n", "M2 N3"),
            (b"", "M7"),
        ):
            self.refused(text, reason)

    def test_within(self) -> None:
        text = HEAD + b"T: * : * 0.15 0.84 0\n" + TAIL
        self.refused(text, "sums to 0.99", "--within", "0.004")
        self.assertEqual(self.mend(text, "--within", "0.0051").status, 0)
        text = HEAD + b"T: * : * 0.333333 0.333333 0.333332\n" + TAIL
        self.refused(text, "sums to 0.999998", "--within", "0")
        self.assertEqual(self.mend(text).status, 0)

    def test_words(self) -> None:
        self.assertEqual(run_script("polcert-mend").status, 2)
        self.assertEqual(run_script("polcert-mend", "--help").status, 0)
        missing = run_script("polcert-mend", str(self.folder / "missing"))
        self.assertEqual((missing.status, missing.out), (3, b""))
        self.assertIn("No such file", missing.err)
        for within in ("-1", "nan", "1e999", ""):
            self.assertEqual(self.mend(HEAD, "--within", within).status, 2)


def perturbed(text: bytes, random_: random.Random) -> bytes:
    """The probabilities of a model with an error in the sixth decimal or after it."""

    def wrong(match: "re.Match[bytes]") -> bytes:
        value = float(match.group())
        off = random_.choice([0, 1e-6, -1e-6, 3e-7]) if 0.001 < value < 0.999 else 0
        return format(value + off, random_.choice([".6f", ".9f", ".17g"])).encode()

    return re.sub(rb"0\.\d{6}\b", wrong, text)


def most_moved(old: bytes, new: bytes) -> Fraction:
    """The most that a cell of T or O differs between two texts."""
    return max((abs(before.get(c, Fraction(0)) - after.get(c, Fraction(0))) for before, after in rows_of_both(old, new) for c in {*before, *after}),
               default=Fraction(0))


def rows_of_both(old: bytes, new: bytes) -> Iterator[Tuple[Row, Row]]:
    """Each row of T and O in two texts."""
    one, two = read_model(Source("old", old), tolerant=True), read_model(Source("new", new))
    for before, after in zip(one.tables(), two.tables()):
        for action in range(before.actions):
            for row in range(before.rows):
                yield before.row(action, row), after.row(action, row)


class Bound(MendTest):
    def test_no_value_moves_further(self) -> None:
        for seed in range(60):
            random_ = random.Random(seed)
            text = rough_model(random_)
            out, bound = mend_here(text, Fraction(3, 100))
            pattern = r"moves by more than ([\d.]+)(?:, and from the start by no more than ([\d.]+))?"
            bounds = present(re.search(pattern, bound)).groups()
            graph = [(random_.randrange(2), [random_.randrange(3) for _ in range(2)]) for _ in range(3)]
            written, mended = (values(read_model(Source("m", t), tolerant=True), graph) for t in (text, out))
            moved = max(abs(x - y) for one, two in zip(written[0], mended[0]) for x, y in zip(one, two))
            self.assertLessEqual(moved, float(bounds[0]) + 1e-9)
            self.assertGreater(moved, 0)
            self.assertLessEqual(max(abs(x - y) for x, y in zip(written[1], mended[1])), float(bounds[1] or bounds[0]) + 1e-9)

    def test_discount_1(self) -> None:
        said = self.mend(HEAD.replace(b"0.9", b"1") + b"T: * : * 0.333333 0.666666 0\n" + TAIL.replace(b"R: *", b"R: 0"))
        self.assertIn("the discount is 1: no value of k steps moves by more than 0 k + 0.000000167 k (k + 1)", said.err)


def rough_model(random_: random.Random) -> bytes:
    """A model whose rows and start were rounded to two or three decimals after they were moved a little."""

    def row(count: int) -> str:
        cuts = sorted(random_.random() for _ in range(count - 1))
        parts = [b - a for a, b in zip([0.0, *cuts], [*cuts, 1.0])]
        return " ".join(f"{min(1, part + random_.random() * 0.01):.3f}" for part in parts)

    lines = ["discount: 0.8 values: reward states: 3 actions: 2 observations: 2", f"start: {row(3)}"]
    lines += [f"T: {a} : {s} {row(3)}" for a in range(2) for s in range(3)] + [f"O: {a} : {e} {row(2)}" for a in range(2) for e in range(3)]
    lines += [f"R: {a} : {s} : * : {z} {random_.uniform(-5, 5):.8f}" for a in range(2) for s in range(3) for z in range(2)]
    return "\n".join(lines).encode() + b"\n"


def values(model: Model, graph: List[Tuple[int, List[int]]]) -> Tuple[List[List[float]], List[float]]:
    """What each node is worth in each state, and at the start, each row divided by its sum."""
    states = range(model.states.count)

    def part(row: Dict[int, Fraction]) -> Dict[int, float]:
        return {i: float(p / sum(row.values())) for i, p in row.items()}

    steps = {}
    for action in range(model.actions.count):
        for s in states:
            ends = part(model.transitions.row(action, s))
            steps[action, s] = [
                (p * q, e, z, float(model.rewards.of(action, s).at(e, z)))
                for e, p in ends.items() for z, q in part(model.observing.row(action, e)).items()
            ]
    worth = [[0.0] * len(states) for _ in graph]
    for _ in range(150):
        worth = [
            [sum(p * (r + float(model.discount) * worth[after[z]][e]) for p, e, z, r in steps[action, s]) for s in states]
            for action, after in graph
        ]
    start = part(model.start_weights())
    return worth, [sum(p * row[s] for s, p in start.items()) for row in worth]
