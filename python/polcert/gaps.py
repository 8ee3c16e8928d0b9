"""How far certified bounds are apart."""
from fractions import Fraction

from polcert.command import Refusal
from polcert.tokens import six_decimals


def gap_between(low: Fraction, high: Fraction) -> Fraction:
    """The difference of a lower and an upper bound, with six decimals, on the same amount. Raises Refusal if they contradict each other."""
    if low > high:
        bounds = f"at least {six_decimals(low)} and at most {six_decimals(high)}"
        raise Refusal(f"the programs contradict each other: {bounds}; use programs of which a proof is recorded, and report this if they are")
    return high - low


def gap_in_words(low: float, high: float) -> str:
    """The gap between bounds in percent of the lower one, or if it is greater than that as it is."""
    if abs(low) < 1e-9 or high - low > abs(low):
        return f"{max(0.0, high - low):.6f}"
    percent = 100 * max(0.0, high - low) / abs(low)
    return f"{percent:.{5 if percent < 0.01 else 3 if percent < 1 else 1}f} %"
