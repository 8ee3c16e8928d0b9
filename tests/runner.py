"""What the runners of this folder share: paths, runs with a time limit, and the count of cases.

A runner prints a line `failed: ..` for each case that fails. Its last line is `N passed, M failed`.
"""
import argparse
import os
import pathlib
import subprocess
import sys
from typing import Any, Dict, List, NamedTuple, NoReturn, Sequence, Tuple, Union

TESTS = pathlib.Path(__file__).resolve().parent
TOP = TESTS.parent
EXAMPLES = TOP / 'examples'
SECONDS = 900  # after which a run is taken for one that never ends
sys.path[:0] = [str(TOP / 'python'), str(TOP / 'python/tests')]


class Cases:
    """The cases of a runner."""

    def __init__(self) -> None:
        self.passed = self.failed = 0

    def count(self, is_right: object, *said: object) -> None:
        """Counts a case, and says what is wrong if it failed."""
        if is_right:
            self.passed += 1
        else:
            self.failed += 1
            print('failed:', *said, flush=True)

    def finish(self) -> NoReturn:
        """Prints the last line and ends the runner: with status 1 if a case failed, or there was none."""
        if not self.passed + self.failed:
            self.count(False, 'there is no case')
        print(f'{self.passed} passed, {self.failed} failed')
        sys.exit(self.failed > 0)


class Ran(NamedTuple):
    """The exit status of a run, and what it wrote. A run that took too long has the status 124, as that of timeout(1)."""

    status: int
    out: bytes
    err: bytes


def run(words: Sequence[Union[str, bytes, 'os.PathLike[str]']], **options: Any) -> Ran:
    """Runs a command, with nothing on standard input unless the options say otherwise."""
    usual: Dict[str, Any] = {'stdout': subprocess.PIPE, 'stderr': subprocess.PIPE, 'timeout': SECONDS}
    if 'input' not in options:
        usual['stdin'] = subprocess.DEVNULL
    try:
        done = subprocess.run(words, **{**usual, **options})
    except subprocess.TimeoutExpired as late:
        return Ran(124, late.stdout or b'', late.stderr or b'')
    return Ran(done.returncode, done.stdout or b'', done.stderr or b'')


def processors() -> int:
    """How many processors this process may use."""
    return len(os.sched_getaffinity(0))


def named_program() -> str:
    """The program that the command line names first."""
    return os.path.abspath(sys.argv[1])  # not resolved: what stands beside the program may be links


def random_cases(count: int, first: int) -> Tuple[str, range]:
    """The program that the command line names, and the seeds of random cases: `--cases N` and `--seed S` stand for others than these."""
    words = argparse.ArgumentParser(usage='%(prog)s [--cases N] [--seed S] PROGRAM')
    words.add_argument('--cases', type=int, default=count)
    words.add_argument('--seed', type=int, default=first)
    words.add_argument('program')
    given = words.parse_args()
    return os.path.abspath(given.program), range(given.seed, given.seed + given.cases)


def programs_beside(program: str) -> Dict[str, str]:
    """polcert as it is named, and polcert_bound and polcert_robust, each of which stands beside it or in its crate."""
    found = {'polcert': program}
    for name, crate in (('polcert_bound', 'polcert_bound'), ('polcert_robust', 'polcert_robust_program')):
        beside = pathlib.Path(program).with_name(name)
        found[name] = str(beside if beside.exists() else TOP / 'crates' / crate / 'out' / crate)
    return found


def python() -> str:
    """The Python with which scripts run, which has numpy and scipy."""
    return os.environ.get('PYTHON') or subprocess.run([TOP / 'tools/python'], stdout=subprocess.PIPE, check=True, text=True).stdout.strip()


def shell_with(programs: Dict[str, str], room: pathlib.Path, *folders: pathlib.Path) -> Dict[str, str]:
    """The environment of a shell that finds these programs by name, those of these folders, and `python()`."""
    for name, program in {**programs, 'python3': python()}.items():
        (room / name).write_text(f"#!/bin/sh\nexec '{program}' \"$@\"\n")
        (room / name).chmod(0o755)
    return {**os.environ, 'PATH': ':'.join(map(str, [room, *folders, os.environ['PATH']]))}


def files_below(*folders: str) -> List[pathlib.Path]:
    """The files of the tree below these folders, or all of it, that git knows: nothing that another test leaves is among them."""
    words = ['git', 'ls-files', '-z', '--', *(folders or ['.'])]
    named = subprocess.run(words, cwd=TOP, stdout=subprocess.PIPE, check=True).stdout.split(b'\0')
    return sorted(path for path in {TOP / os.fsdecode(name) for name in named if name} if path.is_file())
