"""Fields of the reports that polcert-certify and polcert-report write."""
import hashlib
from fractions import Fraction
from typing import Optional

from polcert.tokens import six_decimals


def sha256(text: bytes) -> str:
    return hashlib.sha256(text).hexdigest()


def decimal_or_none(value: Optional[Fraction]) -> Optional[str]:
    """A value with at most six decimals, for JSON: it stays exact as a string."""
    return None if value is None else six_decimals(value)
