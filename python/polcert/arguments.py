"""Arguments that commands share, and the types of arguments, for argparse."""
import argparse
from fractions import Fraction
from math import inf
from typing import Callable, Optional

from polcert.tokens import NumberFault, exact_value, is_numeral

PERCENT = 0.00001


def add_search_limits(parser: argparse.ArgumentParser, seconds: float) -> None:
    """Adds --seconds, with its default, and --gap."""
    longest = f"search for N seconds of processor time at most, then finish; default {seconds:.0f}"
    parser.add_argument("--seconds", metavar="N", type=number_from_0(), default=seconds, help=longest)
    near = f"search until the gap is so many percent of the lower bound; default {PERCENT:.5f}"
    parser.add_argument("--gap", metavar="PERCENT", type=number_from_0(), default=PERCENT, help=near)


def add_costs(parser: argparse.ArgumentParser, policy: str) -> None:
    """Adds --costs, about the numbers of this argument."""
    parser.add_argument("--costs", action="store_true", help=f"the numbers of {policy} are costs: less is better")


def add_json_and_quiet(parser: argparse.ArgumentParser) -> None:
    parser.add_argument("--json", action="store_true", help="write the result as JSON to standard output")
    parser.add_argument("-q", "--quiet", action="store_true", help="no lines of progress")


def integer_from_1(most: Optional[int] = None) -> Callable[[str], int]:
    """Returns the type of an integer from 1 on, or from 1 to `most`."""

    def integer(word: str) -> int:
        value = int(word)
        if value < 1 or most is not None and value > most:
            raise argparse.ArgumentTypeError(f"{word} is not at least 1" if most is None else f"{word} is not from 1 to {most:,}")
        return value

    return integer


def number_from_0(most: float = inf) -> Callable[[str], float]:
    """Returns the type of a finite number from 0 on, or from 0 to `most`."""

    def number(word: str) -> float:
        value = float(word)
        if not 0 <= value <= most or value == inf:
            raise argparse.ArgumentTypeError(f"{word} is not at least 0" if most == inf else f"{word} is not from 0 to {most:,.0f}")
        return value

    return number


def number_above_0(word: str) -> float:
    """A finite number above 0."""
    value = float(word)
    if not 0 < value < inf:
        raise argparse.ArgumentTypeError(f"{word} is not above 0")
    return value


def exact_number_from_0(word: str) -> Fraction:
    """The exact value of a numeral."""
    try:
        if is_numeral(word.encode()):
            return exact_value(word.encode())
    except (NumberFault, ValueError):
        pass
    raise argparse.ArgumentTypeError(f"{word} is no number from 0 on")
