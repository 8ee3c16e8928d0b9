"""Lines about a search, every few seconds."""
from typing import TYPE_CHECKING

from polcert.gaps import gap_in_words
from polcert.tokens import quantity
from polcert.watch import Watch

if TYPE_CHECKING:
    from polcert.solver import Solver


class SearchProgress:
    """Writes a line about a search at once, and then one every few seconds."""

    def __init__(self, is_quiet: bool) -> None:
        self._watch = Watch(is_quiet, can_end_early=False, first=0.0)

    def report(self, solver: "Solver") -> None:
        if self._watch.is_due():
            bounds = f"from {solver.low:.6f} to {solver.high:.6f}, gap {gap_in_words(solver.low, solver.high)}"
            self._watch.report(f"{quantity(solver.lower.count, 'vector')}, {quantity(solver.upper.count, 'point')}: {bounds}")
