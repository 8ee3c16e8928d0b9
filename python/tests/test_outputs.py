"""What the scripts write: all of it or nothing, with one line and the right status if that fails, or if they are interrupted."""
import os
import resource
import signal
import subprocess
import sys
from typing import Any, Callable, Dict, Optional, Sequence, Tuple, Union
from unittest.mock import patch

from support import EXAMPLES, SCRIPTS, FolderTest, Said, needs_numpy
import polcert.command

TIGER, PG, ALPHA = (str(EXAMPLES / f"tiger.{ending}") for ending in ("POMDP", "pg", "alpha"))
ROUGH = b"discount: 0.9 values: reward states: 3 actions: 1 observations: 1 T: 0 : * 0.333333 0.333333 0.333333 O: * uniform\n"
NAMES = ("polcert-bound-vectors", "polcert-certify", "polcert-convert", "polcert-evaluate", "polcert-graph", "polcert-locate", "polcert-mend",
         "polcert-points", "polcert-report", "polcert-solve")
NO_FILES: Dict[str, bytes] = {}

# An open file, or the name of one.
File = Union[int, str]


class OutputTest(FolderTest):
    """Runs of scripts with streams, limits and modules that are not the usual ones."""

    def setUp(self) -> None:
        super().setUp()
        # a run that writes out.pg and out.alpha
        self.graph = ["polcert-graph", TIGER, ALPHA, "-o", str(self.folder / "out"), "--nodes", "5", "--rounds", "1"]

    # (Eight parameters: what a test changes of a run.)
    def run_with(self, words: Sequence[str], out: File = subprocess.PIPE, err: File = subprocess.PIPE, given: File = "/dev/null",
                 closed: Sequence[int] = (), limits: Optional[Dict[int, int]] = None, patched: str = "", **variables: str) -> Said:
        """Runs a script with these streams, except for those that are closed, and limits of resources. `patched` is Python code that runs
        before the script; the variables are those of the environment."""

        def prepare() -> None:
            for kind, limit in (limits or {}).items():
                resource.setrlimit(kind, (limit, limit))
            for number in closed:
                os.close(number)

        modes = (out, os.O_WRONLY | os.O_APPEND), (err, os.O_WRONLY | os.O_APPEND), (given, os.O_RDONLY)
        files = [os.open(file, mode) if isinstance(file, str) else file for file, mode in modes]
        if patched:
            variables["PYTHONPATH"] = os.path.dirname(self.file("sitecustomize.py", patched.encode()))
        environment = {**os.environ, "PYTHONDONTWRITEBYTECODE": "1", **variables}
        command = [sys.executable, str(SCRIPTS / words[0]), *words[1:]]
        done = subprocess.run(command, stdin=files[2], stdout=files[0], stderr=files[1], env=environment, preexec_fn=prepare)
        for file in files:
            if file >= 0:
                os.close(file)
        return Said(done.returncode, done.stdout or b"", (done.stderr or b"").decode())

    def refused(self, said: Said, reason: str, status: int = 2) -> None:
        """The run has this status, wrote nothing to a pipe, and one line with the reason."""
        self.assertEqual((said.status, said.out), (status, b""), said.err)
        self.assertRegex(said.err, rf"\Apolcert-[a-z-]+: [^\n]*{reason}[^\n]*\n\Z")

    def listed(self) -> Dict[str, bytes]:
        """The files of the folder and their bytes."""
        return {path.name: path.read_bytes() for path in self.folder.iterdir() if path.name != "sitecustomize.py"}


def disk(size: int) -> Dict[int, int]:
    """The limit of a disk on which a file gets no more bytes than these."""
    return {resource.RLIMIT_FSIZE: size}


# Runs that write a file, or standard output.
WRITERS = (["polcert-bound-vectors", TIGER], ["polcert-evaluate", TIGER, PG], ["polcert-mend", TIGER, "-q"])
PRINTERS = (*WRITERS, ["polcert-locate", TIGER, "model: M4 in item 1 at byte 9"], ["polcert-report", "--help"])


class StandardOutput(OutputTest):
    def stopped(self, words: Sequence[str], reason: str, **streams: Any) -> None:
        said = self.run_with(words, **streams)
        self.assertEqual((said.status, said.err.splitlines()[-1:]), (3, [f"{words[0]}: standard output: {reason}"]))
        self.assertNotIn("Traceback", said.err)

    @needs_numpy
    def test_a_full_disk_after_some_bytes(self) -> None:
        for words, buffered in [*((words, "1") for words in PRINTERS), (["polcert-evaluate", TIGER, PG], "")]:
            out = self.file("out", b"")
            self.stopped(words, "File too large", out=out, limits=disk(9), PYTHONUNBUFFERED=buffered)
            self.assertEqual(os.path.getsize(out), 9)

    @needs_numpy
    def test_a_pipe_without_a_reader(self) -> None:
        reader, writer = os.pipe()
        os.close(reader)
        self.stopped(["polcert-evaluate", TIGER, PG], "Broken pipe", out=writer)

    @needs_numpy
    def test_a_closed_one(self) -> None:
        for words in PRINTERS[2:]:
            self.stopped(words, "Bad file descriptor", closed=[1])
        self.assertEqual(self.run_with(self.graph, closed=[0, 1]).status, 0)
        self.assertEqual(sorted(self.listed()), ["out.alpha", "out.pg"])

    def test_letters_that_a_terminal_lacks(self) -> None:
        file = self.file("F", "# Zürich\nstates: ä b\n".encode())
        said = self.run_with(["polcert-locate", file, "model: M1 K1 in item 1 at byte 18"], PYTHONIOENCODING="ascii")
        self.assertEqual((said.status, said.err), (0, ""))
        self.assertIn(b"    states: ? b\n            ^\n", said.out)


class StandardError(OutputTest):
    def test_a_full_or_closed_one(self) -> None:
        rough, out = self.file("rough", ROUGH), str(self.folder / "out")
        lacking: Tuple[Dict[str, Any], ...] = {"err": "/dev/full"}, {"closed": [2]}
        for streams in lacking:
            for words in (["polcert-mend", rough], ["polcert-mend", rough, "-o", out], ["polcert-mend", "none"], ["polcert-mend"]):
                said = self.run_with(words, **streams)
                self.assertEqual((said.status, said.out, said.err), (3 if len(words) > 1 else 2, b"", ""), words)
        self.assertEqual(list(self.listed()), ["rough"])

    @needs_numpy
    def test_one_that_is_closed_and_not_needed(self) -> None:
        said = self.run_with(["polcert-evaluate", TIGER, PG], closed=[2])
        self.assertEqual((said.status, said.out), (0, (EXAMPLES / "tiger.alpha").read_bytes()))

    def test_names_that_are_no_line(self) -> None:
        name = str(self.folder / "a\nyes: start node 0\x1b[2K")
        for words, status in ((["polcert-mend", name], 3), (["polcert-mend", TIGER, name], 2)):
            said = self.run_with(words)
            self.assertEqual(said.status, status)
            self.assertIn("a\\nyes: start node 0\\x1b[2K", said.err.splitlines()[-1])


class Files(OutputTest):
    @needs_numpy
    def test_a_full_disk_leaves_the_file_as_it_was(self) -> None:
        out = self.file("out", b"before")
        for words in WRITERS:
            said = self.run_with([*words, "-o", out], limits=disk(9))
            self.assertEqual((said.status, said.out, said.err.splitlines()[-1]), (3, b"", f"{words[0]}: {out}: File too large"))
            self.assertEqual(self.listed(), {"out": b"before"})

    @needs_numpy
    def test_a_full_disk_of_copies_for_the_programs(self) -> None:
        for name in ("polcert", "polcert_bound"):
            os.chmod(self.file(name, b"#!/bin/sh\n"), 0o755)
        words = ["polcert-certify", TIGER, "-q", "-o", str(self.folder / "out"), "--programs", str(self.folder)]
        self.refused(self.run_with(words, limits=disk(9), TMPDIR=str(self.folder)), rf"{self.folder}/polcert-[^/ ]+/0: File too large", 3)
        self.assertEqual(sorted(self.listed()), ["polcert", "polcert_bound"])

    def test_a_written_file(self) -> None:
        text = (EXAMPLES / "tiger.POMDP").read_bytes()
        old, link, new = self.file("old", b"before"), self.folder / "link", self.folder / "new"
        os.chmod(old, 0o640)
        link.symlink_to("old")
        for name in (str(link), str(new)):
            self.assertEqual(self.run_with(["polcert-mend", TIGER, "-q", "-o", name]).status, 0)
        self.assertTrue(link.is_symlink())
        self.assertEqual(self.listed(), {"old": text, "link": text, "new": text})
        mask = os.umask(0)
        os.umask(mask)
        self.assertEqual([os.stat(path).st_mode & 0o777 for path in (old, str(new))], [0o640, 0o666 & ~mask])

    @needs_numpy
    def test_devices(self) -> None:
        said = self.run_with(["polcert-mend", TIGER, "-q", "-o", "/dev/stdout"])
        self.assertEqual((said.status, said.out), (0, (EXAMPLES / "tiger.POMDP").read_bytes()))
        self.assertEqual(self.run_with(["polcert-mend", TIGER, "-q", "-o", "/dev/null"]).status, 0)
        self.refused(self.run_with(["polcert-evaluate", TIGER, PG, "-o", "/dev/full"]), "/dev/full: No space left on device", 3)
        for name in (str(self.folder), f"{self.folder}/new/"):
            self.refused(self.run_with(["polcert-evaluate", TIGER, PG, "-o", name]), r"\S+ directory", 3)
        self.assertFalse(polcert.command.is_written_in_place("/dev/shm/new"))

    def test_an_output_that_is_an_input(self) -> None:
        model, pg, alpha = (self.file(f"m.{ending}", (EXAMPLES / f"tiger.{ending}").read_bytes()) for ending in ("POMDP", "pg", "alpha"))
        link = self.folder / "link"
        link.symlink_to(model)
        before = self.listed()
        for words in (
            ["polcert-mend", model, "-o", str(link)], ["polcert-evaluate", model, pg, "-o", pg],
            ["polcert-bound-vectors", model, "-o", model], ["polcert-graph", model, alpha, "-o", str(self.folder / "m")],
            ["polcert-report", model, pg, alpha, "-o", alpha], ["polcert-report", model, pg, alpha, "--bound", str(link), "-o", model],
        ):
            self.refused(self.run_with(words), "the file is also read")
        self.refused(self.run_with(["polcert-mend", model], out=model), "standard output: the file is also read")
        self.assertEqual(self.listed(), before)


class TwoFiles(OutputTest):
    @needs_numpy
    def test_a_full_disk(self) -> None:
        for old in (NO_FILES, {"out.pg": b"graph", "out.alpha": b"vectors"}):
            for name, text in old.items():
                self.file(name, text)
            # the graph has 40 bytes, and its vectors have more
            self.refused(self.run_with(self.graph, limits=disk(60)), "out.alpha: File too large", 3)
            self.assertEqual(self.listed(), old)

    def test_a_folder_in_the_way(self) -> None:
        (self.folder / "out.alpha").mkdir()
        self.refused(self.run_with(self.graph), "out.alpha: Is a directory", 3)
        self.assertEqual(os.listdir(self.folder), ["out.alpha"])

    def test_before_it_computes(self) -> None:
        file, folder = self.file("file", b"before"), str(self.folder)
        for output in (file, f"{file}/below"):
            said = self.run_with(["polcert-certify", TIGER, "-o", output, "--programs", folder])
            self.refused(said, f"{output}: Not a directory", 3)
        (self.folder / "tiger.pg").mkdir()
        self.refused(self.run_with(["polcert-certify", TIGER, "-o", folder, "--programs", folder]), "tiger.pg: Is a directory", 3)
        checks: Tuple[Tuple[str, Callable[[], None]], ...] = (
            (file, lambda: polcert.command.refuse_unwritable([file])), (folder, lambda: polcert.command.refuse_unwritable([f"{folder}/new"])),
            (folder, lambda: polcert.command.refuse_unwritable_folder(f"{folder}/new/newer", [])),
        )
        for unwritable, check in checks:
            check()
            with patch.object(os, "access", lambda path, _: path != os.path.realpath(unwritable)), self.assertRaises(PermissionError):
                check()

    def test_a_move_that_fails(self) -> None:
        replace = os.replace

        def no_vectors(source: str, target: str) -> None:
            if target == vectors:
                raise PermissionError(1, "Operation not permitted", target)
            replace(source, target)

        graph, vectors = str(self.folder.resolve() / "x.pg"), str(self.folder.resolve() / "x.alpha")
        for old in (NO_FILES, {"x.pg": b"graph", "x.alpha": b"vectors"}, {"x.pg": b"graph"}):
            for path in self.folder.iterdir():
                path.unlink()
            for name, text in old.items():
                self.file(name, text)
            with patch.object(os, "replace", no_vectors), self.assertRaises(PermissionError):
                polcert.command.write_files({graph: b"1", vectors: b"2"})
            self.assertEqual(self.listed(), old)

    def test_a_file_that_cannot_be_replaced_stays(self) -> None:
        name = self.file("x", b"old")
        with patch.object(os, "replace", side_effect=PermissionError(1, "Operation not permitted")), self.assertRaises(PermissionError):
            polcert.command.write_files({name: b"new"})
        self.assertEqual(self.listed(), {"x": b"old"})

    @needs_numpy
    def test_an_old_file_that_cannot_be_removed(self) -> None:
        broken = "import os\nreal = os.unlink\ndef unlink(path):\n    if '.polcert-' in path and open(path).read() == 'old':\n" \
                 "        raise PermissionError(1, 'Operation not permitted', path)\n    real(path)\nos.unlink = unlink\n"
        for name in ("out.pg", "out.alpha"):
            self.file(name, b"old")
        said = self.run_with(self.graph, patched=broken)
        self.assertEqual(said.status, 0)
        self.assertRegex(said.err.splitlines()[0], r"\Apolcert-graph: .*out\.pg is written, but what was there before is left in "
                         r".*/\.polcert-\S+: Operation not permitted\Z")
        self.assertEqual(sorted(name for name, text in self.listed().items() if text != b"old"), ["out.alpha", "out.pg"])
        self.assertEqual(list(self.listed().values()).count(b"old"), 1)


class Interrupts(OutputTest):
    def test_while_it_imports(self) -> None:
        for name in NAMES:
            self.file("fractions.py", b"import os, signal, time\nos.kill(os.getpid(), signal.SIGINT)\ntime.sleep(9)\n")
            self.refused(self.run_with([name, TIGER], PYTHONPATH=str(self.folder)), "interrupted", 130)

    def test_while_it_waits_for_a_file(self) -> None:
        fifo = str(self.folder / "fifo")
        os.mkfifo(fifo)
        for number, word, status in ((signal.SIGINT, "interrupted", 130), (signal.SIGTERM, "terminated", 143)):
            child = subprocess.Popen([sys.executable, str(SCRIPTS / "polcert-mend"), fifo], stdout=subprocess.PIPE, stderr=subprocess.PIPE)
            with open(fifo, "wb"):  # (which waits until the script has opened it, too)
                child.send_signal(number)
                out, err = child.communicate()
            self.refused(Said(child.returncode, out, err.decode()), word, status)

    @needs_numpy
    def test_while_it_writes(self) -> None:
        kill = "import os, signal\nreal = os.{0}\ndef {0}(*args):\n    os.kill(os.getpid(), signal.SIGINT)\n    real(*args)\nos.{0} = {0}\n"
        self.refused(self.run_with(self.graph, patched=kill.format("fsync")), "interrupted", 130)
        self.assertEqual(self.listed(), {})
        self.refused(self.run_with(self.graph, patched=kill.format("replace")), "interrupted", 130)
        self.assertEqual(sorted(self.listed()), ["out.alpha", "out.pg"])

    @needs_numpy
    def test_while_python_ends(self) -> None:
        # (this object is destroyed when Python has put back the handlers of signals)
        late = "import os, sys\nclass Late:\n    def __del__(self, kill=os.kill, it=os.getpid()):\n        kill(it, 2)\nsys.late = Late()\n"
        said = self.run_with(["polcert-evaluate", TIGER, PG], patched=late)
        self.assertEqual((said.status, said.out, said.err), (0, (EXAMPLES / "tiger.alpha").read_bytes(), ""))
