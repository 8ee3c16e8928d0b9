"""polcert from Python: calls of the proved programs, models, policy graphs, value vectors and belief points, and the commands around them."""
from polcert import signals as _signals  # noqa: F401 (first, for an interrupt during the imports)
from importlib import import_module
from typing import TYPE_CHECKING

if TYPE_CHECKING:
    from polcert.answers import EveryModel, Moved, No, Place, Refused, Summary, Yes
    from polcert.programs import ProgramError, bound, check, check_near, lower, model, raise_, raise_bound
    from polcert.texts import model_text

__all__ = [
    "EveryModel", "Moved", "No", "Place", "ProgramError", "Refused", "Summary", "Yes",
    "bound", "check", "check_near", "lower", "model", "model_text", "raise_", "raise_bound",
]


def __getattr__(name: str) -> object:
    """Imports what is asked for, of which the commands need nothing."""
    if name in __all__:
        for module in map(import_module, ("polcert.answers", "polcert.programs", "polcert.texts")):
            if hasattr(module, name):
                return getattr(module, name)
    raise AttributeError(f"module 'polcert' has no attribute {name!r}")
