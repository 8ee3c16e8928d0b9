"""What the tests of the scripts share."""
import os
import random
import re
import subprocess
import sys
import tempfile
import unittest
from importlib import import_module
from importlib.machinery import SourceFileLoader
from importlib.util import find_spec, module_from_spec, spec_from_loader
from pathlib import Path
from time import sleep
from types import FrameType, ModuleType
from typing import Callable, Iterator, List, NamedTuple, Optional, Tuple, TypeVar

T = TypeVar("T")

TOP = Path(__file__).resolve().parents[2]
SCRIPTS = TOP / "scripts"
EXAMPLES = TOP / "examples"
NAMES = ("tiger", "machine", "stock", "robot")
PROGRAM = os.environ.get("POLCERT", "")
sys.path[:0] = [str(TOP / "python"), str(TOP / "tests")]
sys.dont_write_bytecode = True

MOST_TRIES = 90_000  # a quarter of an hour
OTHER_WORDS = [b" 0.5 ", b" - ", b" : ", b" * ", b"uniform", b"2", b"nan", b"\xc3\xa9", b"1e9", b"0.1234567"]

needs_program = unittest.skipUnless(PROGRAM, "no program is named")
HAS_NUMPY = all(find_spec(name) for name in ("numpy", "scipy"))
needs_numpy = unittest.skipUnless(HAS_NUMPY, "numpy and scipy are not there: install python3-numpy and python3-scipy")


class Said(NamedTuple):
    """What a run answers."""

    status: int
    out: bytes
    err: str


def run_script(name: str, *words: str, given: bytes = b"") -> Said:
    """Runs a script of scripts/."""
    return run_file(SCRIPTS / name, *words, given=given)


def run_file(path: Path, *words: str, given: bytes = b"") -> Said:
    """Runs a Python file."""
    return _run([sys.executable, str(path), *words], given)


def wait_until(is_so: Callable[[], object]) -> None:
    """Waits until something is so. After MOST_TRIES it is taken for what never will be."""
    for _ in range(MOST_TRIES):
        if is_so():
            return
        sleep(0.01)
    raise AssertionError("what is waited for is never so")


def count_calls(work: Callable[[], object]) -> int:
    """How many functions are called by this work, those of C too: a measure that depends neither on the machine nor on what else runs."""
    count = 0

    def note(_: FrameType, event: str, __: object) -> None:
        nonlocal count
        count += event in ("call", "c_call")

    sys.setprofile(note)
    try:
        work()
    finally:
        sys.setprofile(None)
    return count


def load(name: str) -> ModuleType:
    """The module of a script of scripts/."""
    return import_module(f"polcert.commands.{name[len('polcert-'):].replace('-', '_')}")


def load_file(name: str, path: Path) -> ModuleType:
    """A Python file as a module of this name."""
    loader = SourceFileLoader(name, str(path))
    spec = spec_from_loader(loader.name, loader)
    assert spec is not None
    module = module_from_spec(spec)
    sys.modules[loader.name] = module
    loader.exec_module(module)
    return module


def polcert(*words: str, given: bytes = b"") -> Said:
    """Runs the program."""
    return run_program(PROGRAM, *words, given=given)


def run_program(program: str, *words: str, given: bytes = b"") -> Said:
    """Runs any program."""
    return _run([program, *words], given)


def _run(words: List[str], given: bytes) -> Said:
    done = subprocess.run(words, input=given, stdout=subprocess.PIPE, stderr=subprocess.PIPE)
    return Said(done.returncode, done.stdout, done.stderr.decode())


def present(value: Optional[T]) -> T:
    """Returns a value that has to be there."""
    assert value is not None
    return value


class FolderTest(unittest.TestCase):
    """Tests with a folder of their own."""

    def setUp(self) -> None:
        folder = tempfile.TemporaryDirectory()
        self.addCleanup(folder.cleanup)
        self.folder = Path(folder.name)

    def file(self, name: str, text: bytes) -> str:
        """Writes a file and returns its name."""
        path = self.folder / name
        path.write_bytes(text)
        return str(path)


def refusals_rows(kind: str) -> Iterator[Tuple[str, bytes]]:
    """The printed line and the text of each item of docs/REFUSALS.md for `model`, `graph`, `vectors` or `points`."""
    page = load_file("refusals_page", TOP / "tests" / "refusals-page")
    return ((item.line, item.given[0].encode()) for item in page.items() if item.kind == kind.lower())


def mutated(text: bytes, random_: random.Random) -> bytes:
    """A text with one of its words changed, moved, taken out or put in."""
    words = re.findall(rb"\S+|\s+", text)
    for _ in range(random_.randint(1, 2)):
        at = random_.randrange(len(words))
        other = random_.choice([random_.choice(words), *OTHER_WORDS])
        words[at] = random_.choice([b"", other, words[at] + b" " + other, other + b" " + words[at]])
    return b"".join(words)
