"""Ends a script that is interrupted or terminated: one line, none of the files that it has begun, and the status that a shell gives (130, 143).

A script of this folder imports this module before all others, so that this holds while it still imports those.
"""
import os
import signal
import sys
from contextlib import contextmanager
from types import FrameType
from typing import Iterator, List, Optional

_WORDS = {signal.SIGINT: "interrupted", signal.SIGTERM: "terminated"}
# The files and folders that are removed if the script ends early.
unfinished: List[str] = []


def program_name() -> str:
    """The name by which the script was called."""
    return os.path.basename(sys.argv[0])


def _end(number: int, _: Optional[FrameType]) -> None:
    for path in list(unfinished):
        remove(path)
    try:
        os.write(2, f"{program_name()}: {_WORDS[signal.Signals(number)]}\n".encode())
    except OSError:
        pass
    os._exit(128 + number)


def remove(path: str) -> None:
    """Removes an unfinished file, or a folder of files, if it is still there."""
    try:
        if os.path.isdir(path):
            for name in os.listdir(path):
                os.unlink(os.path.join(path, name))
            os.rmdir(path)
        else:
            os.unlink(path)
    except OSError:
        pass
    if path in unfinished:
        unfinished.remove(path)


@contextmanager
def held_back() -> Iterator[None]:
    """Lets an interrupt wait until a block of statements has ended."""
    before = signal.pthread_sigmask(signal.SIG_BLOCK, _WORDS)
    try:
        yield
    finally:
        signal.pthread_sigmask(signal.SIG_SETMASK, before)


class Interrupt:
    """Takes note of the first interrupt of a run, in place of ending the script. The second one ends it. All objects share the first."""

    _is_noted = False

    def __init__(self) -> None:
        if not Interrupt._is_noted and signal.getsignal(signal.SIGINT) == _end:
            signal.signal(signal.SIGINT, self._note)

    @property
    def is_there(self) -> bool:
        return Interrupt._is_noted

    def _note(self, number: int, _: Optional[FrameType]) -> None:
        Interrupt._is_noted = True
        signal.signal(number, _end)
        try:
            os.write(2, f"{program_name()}: ending early; a second interrupt ends it at once\n".encode())
        except OSError:
            pass


def end_at_interrupts() -> None:
    """Lets the first interrupt end the script again, once what was searched is found."""
    if isinstance(getattr(signal.getsignal(signal.SIGINT), "__self__", None), Interrupt):
        signal.signal(signal.SIGINT, _end)


def ignore() -> None:
    """Lets a script end whose work is done: Python itself would die of a signal while it ends, without a line."""
    for number in _WORDS:
        if signal.getsignal(number) == _end or isinstance(getattr(signal.getsignal(number), "__self__", None), Interrupt):
            signal.signal(number, signal.SIG_IGN)


if program_name().startswith("polcert-"):
    for _number in _WORDS:
        if signal.getsignal(_number) in (signal.SIG_DFL, signal.default_int_handler):
            signal.signal(_number, _end)
