"""tests/jobs.py: what becomes of jobs that pass, that fail, that fail once, and that do not end as they have to."""
import contextlib
import io
from pathlib import Path
from typing import List, NamedTuple

from support import FolderTest
from jobs import OTHER_STATUS, Job, Jobs, runners


class Ended(NamedTuple):
    """The exit status of a run of jobs, and the lines that it printed."""

    status: int
    lines: List[str]


class JobTest(FolderTest):
    def job(self, name: str, script: str) -> Job:
        return Job(name, ["bash", "-c", script, "job", self.folder])

    def once_failing(self, name: str) -> Job:
        """A job that fails the first time."""
        return self.job(name, 'if [ -e "$1/tried" ]; then echo 2 passed, 0 failed; else touch "$1/tried"; echo 1 passed, 1 failed; false; fi')

    def ended(self, first: List[Job], then: List[Job]) -> Ended:
        out = io.StringIO()
        with contextlib.redirect_stdout(out), self.assertRaises(SystemExit) as end:
            jobs = Jobs()
            jobs.side_by_side(first, lambda: then)
            jobs.finish()
        return Ended(int(end.exception.code or 0), out.getvalue().splitlines())


GOOD, BAD = "echo 3 passed, 0 failed", "echo failed: this; echo 2 passed, 1 failed; false"


class Runs(JobTest):
    def test_all_pass(self) -> None:
        ended = self.ended([self.job("one", GOOD)], [self.job("two", f"echo skipped: that; {GOOD}")])
        self.assertEqual((ended.status, ended.lines[-1]), (0, "6 passed, 0 failed"))
        self.assertIn("skipped: that", ended.lines)
        self.assertNotIn("3 passed, 0 failed", ended.lines)

    def test_one_fails(self) -> None:
        ended = self.ended([self.job("one", GOOD)], [self.job("tables", BAD), self.job("crate-tests polcert", GOOD)])
        status = next(runner.status for runner in runners() if runner.name == "tables")
        self.assertEqual((ended.status, ended.lines[-1]), (status, "8 passed, 1 failed"))
        end = ended.lines[ended.lines.index("== tables"):]
        self.assertEqual(end[:4], ["== tables", "failed: this", "2 passed, 1 failed", "failed: tables"])
        self.assertEqual(self.ended([self.job("crate-tests polcert", BAD)], []).status, 12)
        self.assertEqual(self.ended([self.job("another", BAD)], []).status, OTHER_STATUS)

    def test_one_fails_once(self) -> None:
        for first, then in ([self.job("one", GOOD)], [self.once_failing("two")]), ([self.once_failing("one")], [self.job("two", GOOD)]):
            ended = self.ended(first, then)
            self.assertEqual((ended.status, ended.lines[-1]), (0, "5 passed, 0 failed"))
            self.assertEqual(len([line for line in ended.lines if line.startswith("flaky: ")]), 2, ended.lines)
            Path(self.folder / "tried").unlink()

    def test_one_that_never_ends(self) -> None:
        ended = self.ended([self.job("one", "exec sleep 3600")._replace(seconds=0.1)], [])
        self.assertEqual((ended.status, ended.lines[-1]), (OTHER_STATUS, "0 passed, 1 failed"))

    def test_ends_that_are_none(self) -> None:
        for script in ("true", "echo 3 passed, 0 failed; false", "echo 3 passed; echo no", "echo 2 passed, 1 failed"):
            ended = self.ended([self.job("one", script)], [])
            self.assertEqual(ended.status, OTHER_STATUS, script)
            self.assertNotRegex(ended.lines[-1], " 0 failed")
