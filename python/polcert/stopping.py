"""When iterations end, and the clock by which searches are limited."""
from time import thread_time
from typing import Callable, NamedTuple

# Tells whether the time is over.
IsOver = Callable[[], bool]
# Work that is needed takes so many seconds, with less time or an interrupt too.
LEAST_SECONDS = 1.0


def never() -> bool:
    return False


def spent_seconds() -> float:
    """The processor time of this thread in seconds, from a moment of no meaning. Limits are kept in it, so that what a search finds does not
    depend on what else runs."""
    return thread_time()


class Stopping(NamedTuple):
    """An iteration ends once values are so near what they come to, after so many rounds, or when it is over."""

    near: float
    rounds: int
    is_over: IsOver = never


def after(seconds: float, is_stopped: IsOver = never) -> IsOver:
    """Tells whether so many seconds from now on are spent, or the work was stopped."""
    late = spent_seconds() + seconds
    return lambda: is_stopped() or spent_seconds() >= late


def part_of(seconds: float, is_stopped: IsOver = never) -> IsOver:
    """The same for work that is needed."""
    needed, late = after(LEAST_SECONDS), after(seconds, is_stopped)
    return lambda: needed() and late()
