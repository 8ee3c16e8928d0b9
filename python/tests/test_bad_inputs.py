"""Inputs that no solver writes: each is refused in one line with its place, in little memory."""
import os
import resource
import threading
import unittest
from typing import Any, List
from unittest.mock import patch

from support import EXAMPLES, FolderTest, load, present
import polcert.command
from polcert.command import Refusal, read_source
from polcert.files import FileError, Source, read_model
from polcert.policies import read_solved
from polcert.tokens import whole_number
from test_outputs import TIGER, OutputTest
from test_recipes import NODES, STEPS

locate = load("polcert-locate")
DIGITS = "1" * 5000
POLICY = """<?xml version="1.0" encoding="utf-8"?>
<Policy><AlphaVector><Vector action="0" obsValue="0">1 2</Vector>
<SparseVector action="0"><Entry>0 1</Entry></SparseVector></AlphaVector></Policy>
"""


class Numbers(unittest.TestCase):
    def test_whole_numbers(self) -> None:
        for text, number in (("0", 0), ("007", 7), ("0" * 5000 + "12", 12), ("", None), ("-1", None), ("1_0", None), ("\u0663", None)):
            self.assertEqual(whole_number(text), number, text)
        self.assertGreater(present(whole_number(DIGITS)), 10**300)


class Solved(FolderTest):
    def refused(self, text: str, place: str, reason: str) -> None:
        tiger = read_model(Source("model", (EXAMPLES / "tiger.POMDP").read_bytes()))
        with self.assertRaises(FileError) as caught:
            read_solved(Source("solved", text.encode()), tiger)
        self.assertTrue(str(caught.exception).startswith(f"solved:{place}"), caught.exception)
        self.assertIn(reason, str(caught.exception))
        self.assertLess(len(str(caught.exception)), 200)

    def test_numbers_of_5000_digits(self) -> None:
        found = f"found `{DIGITS[:37]}...`"
        for text, old, new, place in (
            (POLICY, '"0" obs', f'"{DIGITS}" obs', "2:22"), (POLICY, "0 1<", f"{DIGITS} 1<", "3:5035"),
            (POLICY, "0 1<", f"0 {DIGITS}<", "3:5035"), (STEPS, "-1.95 0", f"-1.95 {DIGITS}", "7:13"),
            (STEPS, "0 1 2", f"0 {DIGITS} 2", "8:19"),
            (NODES, "   listen          5", f"   listen          {DIGITS}", "5:28"), (NODES, "5 open-right", f"{DIGITS} open-right", "6:6"),
        ):
            self.assertIn(old, text)
            self.refused(text.replace(old, new), place, found)

    def test_xml(self) -> None:
        for old, new, place, reason in (
            ("utf-8", "utf-9", "1:", "the encoding that this XML names is not read: unknown encoding: utf-9"),
            ("utf-8", "utf-7", "1:", "the encoding that this XML names is not read"),
            ("<Policy>", '<!DOCTYPE Policy [<!ENTITY much "1 1 1">]><Policy>', "2:", "no entity is read, and `much` is declared here"),
            ("<Policy>", "<!DOCTYPE Policy [<!ENTITY % much SYSTEM 'f'>]><Policy>", "2:", "no entity is read"),
            ("1 2<", "&much;<", "2:", "undefined entity"),
            ("<SparseVector", '<SparseVector action="0"><Vector action="0">1 2</Vector></SparseVector><SparseVector', "3:", "a vector stands inside"),
            ("0 1</Entry>", '0 <Vector action="0">1 2</Vector></Entry>', "3:", "found 0 words"),
            ("0 1</Entry>", '<Vector action="0">1 2</Vector>0 1</Entry>', "3:", "a vector stands inside"),
            ("<Policy>", "<a>" * 200, "2:", "elements are nested more than 100 deep"),
        ):
            self.refused(POLICY.replace(old, new), place, reason)


class Lines(FolderTest):
    def test_refusals_with_5000_digits(self) -> None:
        model, graph = (Source("F", (EXAMPLES / f"tiger.{ending}").read_bytes()) for ending in ("POMDP", "pg"))
        for source, line in (
            (model, f"model: M4 in item 5 at byte {DIGITS}"), (model, f"model: M17 in T, action {DIGITS}, row 0"),
            (model, f"model: M17 in T, action 0, row {DIGITS}"), (graph, f"graph: G5 at node {DIGITS}, observation 0"),
            (graph, f"graph: G5 at node 0, observation {DIGITS}"),
        ):
            with self.assertRaises(Refusal) as caught:
                locate.located(source, locate.refusal_of(line))
            self.assertIn("that was refused", str(caught.exception))
        self.assertIn("F:1:5: M4", locate.located(model, locate.refusal_of(f"model: M4 in item {DIGITS} at byte 4")).lines())

    def test_lines_that_polcert_does_not_print(self) -> None:
        for line in ("graph: G5 at node 0", "graph: G5 at node 0, state 1", "graph: G5 at node \u0663, observation 0"):
            self.assertIsNone(locate.refusal_of(line))


class Files(FolderTest):
    def test_the_limit_of_polcert(self) -> None:
        with patch.object(polcert.command, "TEXT_LIMIT", 5):
            self.assertEqual(read_source(self.file("short", b"12345")).text, b"12345")
            with self.assertRaises(Refusal):
                read_source(self.file("long", b"123456"))

    def read_pipe(self, *pieces: bytes) -> bytes:
        """The text that is read of a pipe which gets these pieces."""
        fifo = str(self.folder / "fifo")
        os.mkfifo(fifo)

        def feed() -> None:
            with open(fifo, "wb", buffering=0) as file:
                for piece in pieces:
                    file.write(piece)

        feeder = threading.Thread(target=feed)
        feeder.start()
        text = read_source(fifo).text
        feeder.join()
        os.unlink(fifo)
        return text

    def test_pipes(self) -> None:
        for text in (b"", b"states: 2\n", b"# \0\nstates: 2\n", b"x" * 3_000_000):
            self.assertEqual(self.read_pipe(text), text)
        begin = b"# \0\n" + b" " * 500_000
        self.assertEqual(self.read_pipe(begin, b"states: \0\0\n"), begin + b"states: \0")

    def test_a_file_of_two_bytes_a_letter_is_read_whole(self) -> None:
        text = POLICY.replace("utf-8", "utf-16").encode("utf-16-le")
        self.assertEqual(read_source(self.file("policy", text)).text, text)


class Memory(OutputTest):
    def refused_in(self, megabytes: int, words: List[str], reason: str, **streams: Any) -> None:
        """The run is refused within so much memory, of which Python itself takes 40 MB (with no large locale)."""
        self.refused(self.run_with(words, limits={resource.RLIMIT_AS: megabytes * 1_000_000}, LC_ALL="C", **streams), reason)

    def test_devices_without_an_end(self) -> None:
        for words in (
            ["polcert-mend", "/dev/full"], ["polcert-evaluate", TIGER, "/dev/full"], ["polcert-graph", TIGER, "/dev/full", "-o", "none"],
            ["polcert-locate", "/dev/full", "model: M4 in item 1 at byte 2"],
        ):
            self.refused_in(100, words, "/dev/full has only 1 bytes" if words[0] == "polcert-locate" else r"/dev/full:1:1: \S+ K1: ")
        said = self.run_with(["polcert-locate", TIGER], given="/dev/full", limits={resource.RLIMIT_AS: 100_000_000})
        self.assertEqual(said.err, "polcert-locate: standard input: a line has more than 1,000,000 bytes\n")

    def test_many_comments_and_lines(self) -> None:
        for text, place in ((b"#\n" * 1_000_000, "1000001:1"), (b"\n" * 2_000_000 + b"?", "2000001:1")):
            name = self.file("text", text)
            for words in (["polcert-mend", name], ["polcert-evaluate", TIGER, name]):
                self.refused_in(60, words, f"text:{place}: ")

    def test_solved_files_of_many_words(self) -> None:
        table = b"tiger-left tiger-right action\n" + b"0 0 listen\n" * 60_000 + b"0 0 nothing\n"
        for text, place in ((b"0 0 0 0 0\n" * 60_000 + b"0 0 0 0\n@\n", "1:1: expected 2 numbers"), (table, "60002:5: expected the name")):
            self.refused_in(60, ["polcert-graph", TIGER, self.file("solved", text), "-o", str(self.folder / "out")], f"solved:{place}")

    def test_an_entity_that_grows(self) -> None:
        entities = '<!ENTITY a "%s"><!ENTITY b "%s">' % ("1 " * 50_000, "&a;" * 4000)
        policy = self.file("policy", POLICY.replace("<Policy>", f"<!DOCTYPE Policy [{entities}]><Policy>").replace("1 2<", "&b;<").encode())
        self.refused_in(60, ["polcert-graph", TIGER, policy, "-o", str(self.folder / "out")], r"policy:2:\d+: no entity is read")

    def test_a_graph_of_many_tokens(self) -> None:
        name = self.file("graph", b"0 " * 500_000)
        self.refused_in(60, ["polcert-locate", name, "graph: G5 at node 1, observation 499998"], "it is not the graph that was refused")
