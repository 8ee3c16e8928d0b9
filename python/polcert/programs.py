"""Calls the proved programs: `check`, `lower`, `raise_`, `model`, of polcert_bound `bound` and `raise_bound`, and of polcert_robust `check_near`.

    import polcert
    answer = polcert.check("tiger.POMDP", "tiger.pg", "tiger.lowered.alpha")
    if answer:                           a Yes; a No and a Refused count as false
        print(answer.amount)             19.37136, as a Fraction

A text is the path of a file, or bytes: `polcert.model_text` makes them of arrays. An answer is a dataclass of polcert.answers: a yes, a no
and a refused text are answers. A program that is missing or crashes, a file that cannot be read and a system that is out of memory raise
ProgramError. A program is searched on the path, if `program` is no path.
"""
import os
import shutil
import subprocess
from contextlib import contextmanager
from typing import Callable, Iterator, List, NamedTuple, Optional, Sequence, TypeVar, Union

from polcert.answers import EveryModel, Moved, No, Refused, Summary, Yes, every_model_of, moved_of, refused_of, summary_of, verdict_of

Text = Union[str, bytes, "os.PathLike[str]"]
Answer = TypeVar("Answer")
_TO_BUILD = "build it by `make run` or `make program` in polcert's folder, and put its folder on the path, or name it with --programs"


class ProgramError(Exception):
    """A program gave no answer: why, and its exit status and standard error if it ran."""

    def __init__(self, why: str, status: Optional[int] = None, said: str = "") -> None:
        super().__init__(why)
        self.status, self.said = status, said


class _Ran(NamedTuple):
    status: int
    out: bytes
    err: str


def model(model: Text, *, program: str = "polcert") -> Union[Summary, Refused]:
    """Summarizes a model. Raises ProgramError."""
    return _answer(program, ["model"], [model], _summary)


def check(model: Text, graph: Text, vectors: Text, above: bool = False, *, program: str = "polcert") -> Union[Yes, No, Refused]:
    """Checks that vectors are a lower bound on what the graph earns, or if `above` an upper bound. Raises ProgramError."""
    return _answer(program, ["check", "--at-most"] if above else ["check"], [model, graph, vectors], _verdict)


def lower(model: Text, graph: Text, vectors: Text, *, program: str = "polcert") -> Union[Moved, Refused]:
    """Lowers vectors by the least constant with which they pass `check`. Raises ProgramError."""
    return _answer(program, ["lower"], [model, graph, vectors], _moved)


def raise_(model: Text, graph: Text, vectors: Text, *, program: str = "polcert") -> Union[Moved, Refused]:
    """Raises vectors by the least constant with which they pass `check` from above. Raises ProgramError."""
    return _answer(program, ["raise"], [model, graph, vectors], _moved)


def bound(model: Text, vectors: Text, points: Optional[Text] = None, *, program: str = "polcert_bound") -> Union[Yes, No, Refused]:
    """Checks that vectors, one for each action, and belief points bound what every policy earns. Raises ProgramError."""
    return _answer(program, ["check"], [model, vectors] if points is None else [model, vectors, points], _verdict)


def raise_bound(model: Text, vectors: Text, *, program: str = "polcert_bound") -> Union[Moved, Refused]:
    """Raises vectors, one for each action, by the least constant with which they pass `bound`. Raises ProgramError."""
    return _answer(program, ["raise"], [model, vectors], _moved)


def check_near(
    files: Sequence[Text], within: str, rewards_within: str = "0", above: bool = False, *, program: str = "polcert_robust"
) -> Union[EveryModel, No, Refused]:
    """Checks that vectors are a lower bound in every model near, or if `above` an upper bound. The files are a model, a graph and vectors, and
    the distances decimals; `within` may end with %. Raises ProgramError."""
    near = ["--percent", within.rstrip("% ")] if within.endswith("%") else ["--within", within]
    words = ["check", *near, "--rewards-within", rewards_within]
    return _answer(program, [*words, "--at-most"] if above else words, files, _verdict_near)


def found(program: str) -> str:
    """The path of a program. Raises ProgramError if there is none."""
    path = shutil.which(program)
    if path is None:
        raise ProgramError(f"{program}: there is no such program{'' if os.path.dirname(program) else ' on the path'}: {_TO_BUILD}")
    return path


def _answer(program: str, words: Sequence[str], texts: Sequence[Text], read: Callable[[_Ran], Optional[Answer]]) -> Union[Answer, Refused]:
    """Runs a program on texts, and returns what it answers."""
    path = found(program)
    with _files(texts) as names:
        ran = _run([path, *words, *names])
    answer = read(ran) if ran.status in (0, 1) else None
    if answer is not None:
        return answer
    refused = refused_of(ran.err.rstrip("\n")) if ran.status in (1, 2) and not ran.out else None
    if refused is None:
        raise ProgramError(f"{program} {words[0]}: {ran.err.strip() or 'no answer'} (status {ran.status})", ran.status, ran.err)
    return refused


def _run(words: List[str]) -> _Ran:
    try:
        done = subprocess.run(words, stdin=subprocess.DEVNULL, stdout=subprocess.PIPE, stderr=subprocess.PIPE, check=False)
    except OSError as fault:
        raise ProgramError(f"{words[0]}: {fault.strerror}") from fault
    return _Ran(done.returncode, done.stdout, done.stderr.decode(errors="replace"))


@contextmanager
def _files(texts: Sequence[Text]) -> Iterator[List[str]]:
    """The names of files with these texts. Bytes are in a folder that is removed at the end."""
    if not any(isinstance(text, bytes) for text in texts):
        yield [_name(text) for text in texts if not isinstance(text, bytes)]
        return
    from tempfile import TemporaryDirectory  # (which takes longer than the rest of this module)

    with TemporaryDirectory(prefix="polcert-") as folder:
        yield [_written(text, os.path.join(folder, str(number))) if isinstance(text, bytes) else _name(text) for number, text in enumerate(texts)]


def _name(path: Union[str, "os.PathLike[str]"]) -> str:
    """A path as a word of the command line that is no option."""
    name = os.fspath(path)
    return f"./{name}" if name.startswith("-") else name


def _written(text: bytes, name: str) -> str:
    try:
        with open(name, "wb") as file:
            file.write(text)
    except OSError as fault:
        raise OSError(fault.errno, fault.strerror, name) from None  # (one of a full disk names no file)
    return name


# The answers of each command: None if what was written is none.


def _only_line(text: str) -> Optional[str]:
    return text[:-1] if text.endswith("\n") and text.count("\n") == 1 else None


def _summary(ran: _Ran) -> Optional[Summary]:
    line = _only_line(ran.out.decode(errors="replace"))
    return summary_of(line) if line is not None and ran.status == 0 else None


def _verdict(ran: _Ran) -> Union[Yes, No, None]:
    line = _only_line(ran.out.decode(errors="replace"))
    verdict = verdict_of(line) if line is not None else None
    return verdict if isinstance(verdict, Yes) == (ran.status == 0) else None


def _verdict_near(ran: _Ran) -> Union[EveryModel, No, None]:
    line = _only_line(ran.out.decode(errors="replace"))
    every = every_model_of(line) if line is not None and ran.status == 0 else None
    verdict = verdict_of(line) if line is not None and ran.status == 1 else None
    return every or (verdict if isinstance(verdict, No) else None)


def _moved(ran: _Ran) -> Optional[Moved]:
    line = _only_line(ran.err)
    return moved_of(line, ran.out) if line is not None and ran.status == 0 else None
