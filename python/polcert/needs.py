"""Refuses in one line a command that computes with numpy and scipy where they are missing."""
from contextlib import contextmanager
from typing import Iterator

from polcert.command import Refusal


@contextmanager
def needs_numpy() -> Iterator[None]:
    """Raises Refusal if a block imports numpy or scipy, and that is not installed."""
    try:
        yield
    except ModuleNotFoundError as fault:
        library = (fault.name or "").split(".")[0]
        if library not in ("numpy", "scipy"):
            raise
        raise Refusal(f"this command needs {library}: install numpy and scipy (Debian: python3-numpy python3-scipy)") from None
