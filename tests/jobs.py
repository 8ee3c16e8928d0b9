"""Jobs that run side by side, for tests/run and tests/gate: each ends with a line `N passed, M failed`.

A job that fails runs once more, alone. If it passes then, a line `flaky: NAME` says so, and the run goes on. At the end stand what all failed
jobs said, and the counts of all cases. The exit status is that of the first job that failed, by its line of tests/runners.
"""
import concurrent.futures
import os
import pathlib
import re
import subprocess
import sys
import threading
import time
from typing import Callable, Dict, List, NamedTuple, NoReturn, Optional, Sequence, Union

from runner import TESTS, processors

LAST_LINE = re.compile(r'(\d+) passed, (\d+) failed')
KEPT = 400  # lines of what a failed job said that are printed
OTHER_STATUS = 9  # of a job that tests/runners does not name
SECONDS = 5400  # after which a job is taken for one that never ends


class Job(NamedTuple):
    """A command, and its name in tests/runners."""

    name: str
    words: Sequence[Union[str, 'os.PathLike[str]']]
    folder: Optional[pathlib.Path] = None  # in which it runs, if that is another
    shows: Callable[[str], bool] = lambda line: line.startswith('skipped: ')  # the lines that are printed although it passes
    seconds: float = SECONDS  # that it may take


class Outcome(NamedTuple):
    """What a job said, its counts, and how many seconds it took."""

    said: List[str]
    passed: int
    failed: int
    seconds: float

    def counts(self) -> str:
        return f'{self.passed} passed, {self.failed} failed, in {self.seconds:.0f} seconds'


class Runner(NamedTuple):
    """A line of tests/runners: its exit status, where it runs, its name, and words for `make test` alone."""

    status: int
    where: str  # `test`, `gate` or `both`
    name: str
    words: List[str]


def runners() -> List[Runner]:
    lines = [line.split() for line in (TESTS / 'runners').read_text().splitlines() if not line.startswith('#')]
    return [Runner(int(status), where, name, words) for status, where, name, *words in lines]


def outcome_of(job: Job, show: Callable[[str], None]) -> Outcome:
    """Runs a job, and shows some of its lines as they come. One that ends with another status than its counts say failed once more."""
    begin, said = time.monotonic(), []
    with subprocess.Popen(job.words, cwd=job.folder, stdin=subprocess.DEVNULL, stdout=subprocess.PIPE, stderr=subprocess.STDOUT) as run:
        limit = threading.Timer(job.seconds, run.kill)
        limit.start()
        assert run.stdout
        for line in run.stdout:
            said.append(line.decode(errors='replace').rstrip('\n'))
            if job.shows(said[-1]):
                show(said[-1])
        limit.cancel()
    last = LAST_LINE.fullmatch(said[-1]) if said else None
    passed, failed = (int(last[1]), int(last[2])) if last else (0, 1)
    return Outcome(said, passed, failed if (run.returncode != 0) == (failed > 0) else failed + 1, time.monotonic() - begin)


class Jobs:
    """A run of jobs, and what became of them. Only one of its jobs prints at a time."""

    def __init__(self) -> None:
        self.begin, self.passed, self.failed, self.printing = time.monotonic(), 0, 0, threading.Lock()
        self.lost: Dict[str, Outcome] = {}
        self.flaky: List[str] = []

    def print(self, *lines: str) -> None:
        with self.printing:
            for line in lines:
                print(line, flush=True)

    def run(self, job: Job) -> None:
        """Runs a job, and notes it if it failed."""
        outcome = outcome_of(job, self.print)
        if outcome.failed:
            self.lost[job.name] = outcome
        else:
            self.passed += outcome.passed
        self.print(*(outcome.said[-KEPT:] if outcome.failed else ()), f'{job.name}: {outcome.counts()}')

    def run_again(self, job: Job) -> None:
        """Runs a job that failed; if it passes, it is flaky."""
        self.print(f'{job.name} runs once more')
        outcome = outcome_of(job, self.print)
        self.passed, self.failed = self.passed + outcome.passed, self.failed + outcome.failed
        if outcome.failed:
            self.lost[job.name] = outcome
        else:
            self.flaky.append(job.name)
            self.print(f'flaky: {job.name}: {outcome.counts()}')

    def side_by_side(self, first: Sequence[Job], then: Callable[[], Sequence[Job]] = lambda: ()) -> None:
        """Runs jobs, one on each processor, and once the first one has ended those that it makes possible; then alone those that failed."""
        with concurrent.futures.ThreadPoolExecutor(processors()) as pool:
            begun = [pool.submit(self.run, job) for job in first]
            begun[0].result()
            if first[0].name in self.lost:
                self.run_again(first[0])
            later = then()
            begun += [pool.submit(self.run, job) for job in later]
            for run in begun:
                run.result()
        for job in [*first[1:], *later]:
            if job.name in self.lost:
                self.run_again(job)

    def finish(self) -> NoReturn:
        """Prints what failed once more, and the counts of all; ends with the status of the first job that failed."""
        failed = [name for name in self.lost if name not in self.flaky]
        for name in failed:
            self.print(f'== {name}', *self.lost[name].said[-KEPT:])
        self.print(*(f'flaky: {name}' for name in self.flaky), *(f'failed: {name}' for name in failed))
        self.print(f'In {time.monotonic() - self.begin:.0f} seconds.', f'{self.passed} passed, {self.failed} failed')
        statuses = {runner.name: runner.status for runner in runners()}
        sys.exit(statuses.get(failed[0].split()[0], OTHER_STATUS) if failed else 0)
