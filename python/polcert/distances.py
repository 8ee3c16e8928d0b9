"""How far models may lie from one, as polcert_robust takes it."""
import argparse
from fractions import Fraction
from math import ceil
from typing import TYPE_CHECKING, NamedTuple, Optional, TypeVar

from polcert.tokens import MILLION, NumberFault, exact_value, is_numeral

if TYPE_CHECKING:
    from polcert.arrays import Integers

# The most decimals of a distance of probabilities, and the largest distance of rewards.
DECIMALS, MOST_OF_REWARDS = 12, 1_000_000
# The parts of a percent, and the parts of the whole that 100 percent are.
OF_PERCENT, OF_WHOLE = MILLION, 100 * MILLION


WholeWeight = TypeVar("WholeWeight", int, "Integers")


class Distances(NamedTuple):
    """How far models may lie from one: each probability above 0, each reward, and in percent of itself each probability. With `is_above`,
    vectors are upper bounds."""

    probabilities: Fraction
    rewards: Fraction = Fraction(0)
    is_above: bool = False
    percent: Fraction = Fraction(0)


class Spread(NamedTuple):
    """How far a weight of a row may lie from its own: parts of the scale, and of itself millionths of a percent, rounded up."""

    parts: int
    percent: int = 0

    def of(self, weight: WholeWeight) -> WholeWeight:
        """How far this weight may lie from its own, or each weight of an array."""
        return self.parts - (-weight * self.percent) // OF_WHOLE


def spread_at(near: Distances, scale: int) -> Spread:
    """The distance in parts of a scale, rounded up, as polcert_robust does."""
    return Spread(ceil(near.probabilities * scale), int(near.percent * OF_PERCENT))


def probability_distance(word: str) -> Fraction:
    """The argument of --within."""
    value = _value(word)
    if value is None or value > 1 or value * 10**DECIMALS % 1:
        raise argparse.ArgumentTypeError(f"{word} is no number from 0 to 1 with at most {DECIMALS} decimals")
    return value


def percent_distance(word: str) -> Fraction:
    """The argument of --percent."""
    value = _value(word)
    if value is None or value > 100 or value * OF_PERCENT % 1:
        raise argparse.ArgumentTypeError(f"{word} is no number from 0 to 100 with at most 6 decimals")
    return value


def reward_distance(word: str) -> Fraction:
    """The argument of --rewards-within."""
    value = _value(word)
    if value is None or value > MOST_OF_REWARDS or value * MILLION % 1:
        raise argparse.ArgumentTypeError(f"{word} is no number from 0 to {MOST_OF_REWARDS} with at most 6 decimals")
    return value


def nearness(word: str) -> str:
    """An argument that is a distance of probabilities, or with % at its end one in percent of themselves."""
    if word.endswith("%"):
        percent_distance(word[:-1])
    else:
        probability_distance(word)
    return word


def distances_of(within: str, rewards_within: str = "0") -> Distances:
    """The distances that such a word and a distance of rewards say."""
    rewards = Fraction(rewards_within)
    if within.endswith("%"):
        return Distances(Fraction(0), rewards, percent=Fraction(within[:-1]))
    return Distances(Fraction(within), rewards)


def _value(word: str) -> Optional[Fraction]:
    text = word.encode()
    try:
        return exact_value(text) if is_numeral(text) and b"e" not in text.lower() else None
    except NumberFault:
        return None
