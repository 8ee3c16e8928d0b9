"""Converts models in POMDPX to the text of a .POMDP file."""
import re
from typing import Dict

from polcert.flattening import Flattener
from polcert.pomdpx import read_pomdpx
from polcert.tokens import Source


def converted(source: Source) -> bytes:
    """The text of a .POMDP file. Raises FileError or Refusal."""
    return Flattener(read_pomdpx(source)).text()


def counts_of(source: Source) -> Dict[str, int]:
    """How many states, actions and observations a converted model has."""
    found = re.findall(rb"^(states|actions|observations): (.*)$", source.text, re.M)
    return {kind.decode(): int(names) if names.isdigit() else len(names.split()) for kind, names in found}


def summary_of_conversion(source: Source) -> str:
    """What a converted model has, in one line."""
    return ", ".join(f"{count:,} {kind}" for kind, count in counts_of(source).items())
