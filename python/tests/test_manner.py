"""What all commands do in one manner: exit statuses, standard input, compressed files, versions."""
import gzip
import hashlib
import os
import resource
import subprocess
from pathlib import Path
from typing import List, Tuple
from unittest.mock import patch

from support import EXAMPLES, SCRIPTS, TOP, run_script
import polcert.command
from polcert.command import Refusal, read_source
from test_outputs import ALPHA, NAMES, PG, ROUGH, TIGER, OutputTest

# The words of a run of each command that reads a model first, and those after it.
RUNS: Tuple[Tuple[str, List[str]], ...] = (
    ("polcert-bound-vectors", []), ("polcert-certify", ["-q", "-o", "out", "--seconds", "0"]), ("polcert-convert", []),
    ("polcert-evaluate", [PG]), ("polcert-graph", [ALPHA, "-o", "out"]), ("polcert-locate", ["model: M4 in item 1 at byte 9"]), ("polcert-mend", []),
    ("polcert-points", ["-q", "-o", "out", "--seconds", "0"]), ("polcert-report", [PG, ALPHA, "--program", "/bin/true"]),
    ("polcert-solve", ["-q", "-o", "out", "--seconds", "0"]),
)


class Statuses(OutputTest):
    def test_each_command_is_here(self) -> None:
        self.assertEqual(tuple(name for name, _ in RUNS), NAMES)
        self.assertEqual(tuple(sorted(path.name for path in SCRIPTS.glob("polcert-*"))), NAMES)

    def runs(self, model: str) -> List[List[str]]:
        return [[name, model, *(str(self.folder / word) if word == "out" else word for word in words)] for name, words in RUNS]

    def test_a_file_that_is_missing_or_no_file(self) -> None:
        for name, reason in (("none", "No such file or directory"), (".", "Is a directory")):
            for words in self.runs(str(self.folder / name)):
                self.refused(self.run_with(words), reason, 3)

    def test_a_text_that_is_refused(self) -> None:
        for words in self.runs(self.file("text", b"discount: 2")):
            reasons = {"polcert-locate": "has only 1. bytes", "polcert-convert": "found no `<pomdpx>`"}
            reason = reasons.get(words[0], "M15: ")
            if words[0] == "polcert-locate":
                words[2] = "model: M4 in item 1 at byte 900"
            self.refused(self.run_with(words), reason, 2)

    def test_words_that_are_refused(self) -> None:
        for name in NAMES:
            said = self.run_with([name, "--nothing"])
            self.assertEqual((said.status, said.out), (2, b""))
            self.assertIn(f"{name}: error: ", said.err)

    def test_out_of_memory(self) -> None:
        name = self.file("large", b"#" + b" " * 100_000_000)
        self.refused(self.run_with(["polcert-mend", name], limits={resource.RLIMIT_AS: 90_000_000}, LC_ALL="C"), "out of memory", 4)

    def test_versions(self) -> None:
        cited = (TOP / "CITATION.cff").read_text().split("\nversion: ")[1].split()[0]
        for name in NAMES:
            for option in ("--version", "-V"):
                self.assertEqual(self.run_with([name, option]), (0, f"{name} {cited}\n".encode(), ""))
        self.refused(self.run_with(["polcert-mend", "--version"], out="/dev/full"), "standard output: No space left on device", 3)


class Inputs(OutputTest):
    def same(self, words: List[str], changed: List[str], given: str = "/dev/null") -> Tuple[int, bytes]:
        """Runs a command in both manners. The status and the output are the same, and are returned."""
        one, other = self.run_with(words), self.run_with(changed, given=given)
        self.assertEqual((one.status, one.out), (other.status, other.out), other.err)
        return one.status, one.out

    def test_standard_input(self) -> None:
        for words in (["polcert-bound-vectors", TIGER], ["polcert-evaluate", TIGER, PG], ["polcert-mend", TIGER]):
            status, out = self.same(words, ["-" if word == TIGER else word for word in words], given=TIGER)
            self.assertEqual((status, bool(out)), (0, True))
        self.same(["polcert-evaluate", TIGER, PG], ["polcert-evaluate", TIGER, "-"], given=PG)
        said = self.run_with(["polcert-locate", "-", "model: M4 in item 1 at byte 9"], given=TIGER)
        self.assertRegex(said.out, rb"\Astandard input:\d+:\d+: M4: ")
        said = self.run_with(["polcert-graph", TIGER, "-", "-o", str(self.folder / "out")], given=ALPHA)
        self.assertEqual((said.status, sorted(self.listed())), (0, ["out.alpha", "out.pg"]))

    def test_faults_of_standard_input(self) -> None:
        self.refused(self.run_with(["polcert-mend", "-"], closed=[0]), "standard input: Bad file descriptor", 3)
        self.refused(self.run_with(["polcert-mend", "-"], given=self.file("text", b"discount: 2")), "standard input:1:11: M15: ")
        for words in (["polcert-evaluate", "-", "-"], ["polcert-locate", "-"]):
            self.refused(self.run_with(words, given=TIGER), "standard input is named twice")
        model = self.file("model", ROUGH)
        self.refused(self.run_with(["polcert-mend", "-", "-o", model], given=model), r"the file is also read \(-\)")
        self.assertEqual((self.folder / "model").read_bytes(), ROUGH)

    def test_a_file_that_is_named_so(self) -> None:
        here = os.getcwd()
        self.addCleanup(os.chdir, here)
        os.chdir(self.folder)
        self.file("-", (EXAMPLES / "tiger.POMDP").read_bytes())
        self.same(["polcert-mend", TIGER], ["polcert-mend", "./-"])

    def compressed(self, name: str, text: bytes) -> str:
        """A file that gzip compressed, whose name does not say so."""
        return self.file(name, gzip.compress(text))

    def test_compressed_files(self) -> None:
        names = [self.compressed(path.name, path.read_bytes()) for path in map(Path, (TIGER, PG))]
        self.same(["polcert-mend", TIGER], ["polcert-mend", names[0]])
        self.same(["polcert-evaluate", TIGER, PG], ["polcert-evaluate", *names])
        self.same(["polcert-evaluate", TIGER, PG], ["polcert-evaluate", TIGER, "-"], given=names[1])
        parts = [(EXAMPLES / "tiger.POMDP").read_bytes()[part] for part in (slice(0, 50), slice(50, None))]
        self.same(["polcert-mend", TIGER], ["polcert-mend", self.file("parts", b"".join(map(gzip.compress, parts)))])
        fifo = str(self.folder / "fifo")
        os.mkfifo(fifo)
        with subprocess.Popen(["cp", names[0], fifo]):
            self.same(["polcert-mend", TIGER], ["polcert-mend", fifo])

    def test_compressed_files_that_are_damaged(self) -> None:
        whole = gzip.compress((EXAMPLES / "tiger.POMDP").read_bytes())
        sums = whole[:-8] + bytes([whole[-8] ^ 1]) + whole[-7:]
        for text in (whole[:2], whole[:40], whole[:-1], sums, whole[:60] + b"\0" * 40 + whole[100:], whole + b"more"):
            self.refused(self.run_with(["polcert-mend", self.file("text", text)]), "text: what gzip compressed is damaged or not whole")

    def test_a_text_that_grows_beyond_the_limit(self) -> None:
        name = self.file("text", gzip.compress(b" " * 3_000_001))
        with patch.object(polcert.command, "TEXT_LIMIT", 3_000_000):
            self.assertRaisesRegex(Refusal, "text: the text has more than 3,000,000 bytes", read_source, name)
        self.assertEqual(len(read_source(name).text), 3_000_001)

    def test_the_sum_in_a_report(self) -> None:
        text = (EXAMPLES / "tiger.POMDP").read_bytes()
        name = self.compressed("model", text)
        sum_of_text = hashlib.sha256(text).hexdigest()
        program = self.file("program", b"#!/bin/sh\ncase $1 in lower|raise) echo x >&2; exit 1;; *) echo 'yes: start node 0, at least 1';; esac\n")
        os.chmod(program, 0o755)
        said = run_script("polcert-report", name, PG, ALPHA, "--program", program)
        self.assertIn(f"| `{name}` (decompressed) | `{sum_of_text}` |\n", said.out.decode())
