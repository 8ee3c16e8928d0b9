"""Watches over long work: lines of progress every few seconds, and an interrupt that ends it early."""
from math import inf
from time import monotonic

from polcert.command import say
from polcert.signals import Interrupt, program_name
from polcert.stopping import spent_seconds

PROGRESS_SECONDS = 5.0


class Watch:
    """Writes a line of progress every few seconds, the first one after so many. The work is over once some seconds of processor time are spent,
    and if it can end early with an interrupt."""

    def __init__(self, is_quiet: bool, can_end_early: bool = True, first: float = PROGRESS_SECONDS, seconds: float = inf) -> None:
        self._begin, self._end = monotonic(), spent_seconds() + seconds
        self._next = inf if is_quiet else self._begin + first
        self._interrupt = Interrupt() if can_end_early else None

    def is_over(self) -> bool:
        return spent_seconds() >= self._end or self._interrupt is not None and self._interrupt.is_there

    def is_due(self) -> bool:
        """Whether it is time for a line."""
        return monotonic() >= self._next

    def report(self, line: str) -> None:
        """Writes a line if it is time for one."""
        if self.is_due():
            now = monotonic()
            self._next = now + PROGRESS_SECONDS
            say(f"{program_name()}: {now - self._begin:.0f} s, {line}")
