"""Tokens, numbers and positions of the texts that polcert reads: models, policy graphs and vectors.

The tokens are names, numerals and the single bytes `:` `*` `+` `-`; blanks, line ends and comments from `#` to the end of the line stand
between them. Offsets are bytes counted from 0, lines and columns are counted from 1, and a column counts characters.
"""
import re
from dataclasses import dataclass
from fractions import Fraction
from functools import cached_property
from itertools import accumulate
from typing import Dict, List, NamedTuple, Optional, Tuple

MILLION = 1_000_000
LARGEST = 10_000_000
LONGEST_TOKEN = 400
LARGEST_EXPONENT = 400

NAME, NUMERAL, SIGN, COLON, STAR, END, BAD = "name", "numeral", "sign", "colon", "star", "end", "bad"
_SINGLE = {b":": COLON, b"*": STAR, b"+": SIGN, b"-": SIGN}
_TOKEN = re.compile(
    rb"[ \t\r\n]*(?:(?P<name>[A-Za-z][A-Za-z0-9_-]*)|(?P<numeral>(?:[0-9]+\.?[0-9]*|\.[0-9]+)(?:[eE][+-]?[0-9]+)?)"
    rb"|(?P<single>[:*+-])|(?P<comment>#[^\n]*))?"
)
_GLUE = re.compile(rb"[A-Za-z_.]")
_NUMERAL = re.compile(rb"([0-9]*)(?:\.([0-9]*))?(?:[eE]([+-]?[0-9]+))?")
_CACHE_SIZE = 100_000
# For places the line ends are counted up to each stretch of so many bytes.
_STRETCH = 4096


class Token(NamedTuple):
    """A token and the bytes from `begin` up to `end`. END has no bytes; the text of BAD is its code (K1 to K3)."""

    kind: str
    begin: int
    end: int
    text: bytes

    def is_digits(self) -> bool:
        return self.kind == NUMERAL and self.text.isdigit()

    def shown(self) -> str:
        """The token as an error names it."""
        if self.kind == END:
            return "the end of the text"
        if self.kind == BAD:
            return BAD_TOKENS[self.text.decode()]
        return quoted(self.text.decode())


BAD_TOKENS = {
    "K1": "a byte that begins no name, number or sign",
    "K2": f"a name or number of more than {LONGEST_TOKEN} bytes",
    "K3": "a number with a letter, `_` or a point directly after it",
}


def quoted(text: str) -> str:
    """A word as an error names it, cut if it is long."""
    return f"`{text if len(text) <= 40 else text[:37] + '...'}`"


def quantity(number: int, noun: str) -> str:
    """How many there are of something that has a plural in -s: `1 node`, `2,000 nodes`."""
    return f"{number:,} {noun}{'' if number == 1 else 's'}"


def whole_number(text: str) -> Optional[int]:
    """The number that digits give, or None if there are others than digits. One that is too long for a token is greater than any count."""
    if not (text.isascii() and text.isdigit()):
        return None
    digits = text.lstrip("0")
    return int(digits or "0") if len(digits) <= LONGEST_TOKEN else 10**LONGEST_TOKEN


def printable(text: str) -> str:
    """The text on one line: what cannot be shown is escaped."""
    return text if text.isprintable() else "".join(sign if sign.isprintable() else _escaped(sign) for sign in text)


def table_cell(text: str) -> str:
    """The text in a cell of a Markdown table, with escapes for what would end the cell, a name in backquotes or the line."""
    return printable("".join(f"\\x{ord(sign):02x}" if sign in "\\`|" else sign for sign in text))


def _escaped(sign: str) -> str:
    """A sign that cannot be shown; a byte of a file's name that is no letter has a lone surrogate in its place."""
    return f"\\x{ord(sign) - 0xDC00:02x}" if "\udc80" <= sign <= "\udcff" else sign.encode("unicode_escape").decode()


@dataclass(frozen=True)
class Source:
    """A text and the name of its file, which may have it compressed."""

    name: str
    text: bytes
    is_compressed: bool = False

    @cached_property
    def _line_ends(self) -> List[int]:
        """How many lines end before each stretch, and before the end."""
        counts = (self.text.count(b"\n", begin, begin + _STRETCH) for begin in range(0, len(self.text), _STRETCH))
        return [0, *accumulate(counts)]

    def position(self, byte: int) -> Tuple[int, int]:
        """The line and the column of a byte."""
        stretch = byte // _STRETCH
        line = self._line_ends[stretch] + self.text.count(b"\n", stretch * _STRETCH, byte) + 1
        line_begin = self.text.rfind(b"\n", 0, byte) + 1
        return line, len(self.text[line_begin:byte].decode(errors="replace")) + 1

    def line_at(self, byte: int) -> str:
        """The line in which a byte stands, without its end."""
        line_begin = self.text.rfind(b"\n", 0, byte) + 1
        line_end = self.text.find(b"\n", byte)
        return self.text[line_begin : line_end if line_end >= 0 else None].rstrip(b"\r").decode(errors="replace")

    def place(self, byte: int) -> str:
        """FILE:LINE:COLUMN of a byte."""
        line, column = self.position(byte)
        return f"{self.name}:{line}:{column}"


class FileError(Exception):
    """A text that is refused: polcert's code for it, the place, and what was expected there."""

    def __init__(self, source: Source, code: str, byte: int, why: str, refusal: str = "") -> None:
        super().__init__(why)
        self.source, self.code, self.byte, self.why, self.refusal = source, code, byte, why, refusal

    def __str__(self) -> str:
        return f"{self.source.place(self.byte)}: {self.code + ': ' if self.code else ''}{self.why}"


def _matched(match: Optional["re.Match[bytes]"]) -> "re.Match[bytes]":
    """A match that is known to be one."""
    assert match is not None
    return match


def token_at(text: bytes, at: int) -> Token:
    """The first token at or after a byte; END if there is none, BAD if the bytes there are no token."""
    match = _matched(_TOKEN.match(text, at))
    while match.lastgroup == "comment":
        match = _matched(_TOKEN.match(text, match.end()))
    kind = match.lastgroup
    if kind is None:
        end = match.end()
        return Token(END, end, end, b"") if end == len(text) else Token(BAD, end, end + 1, b"K1")
    begin, end = match.span(kind)
    if end - begin > LONGEST_TOKEN:
        return Token(BAD, begin, end, b"K2")
    if kind == NUMERAL and _GLUE.match(text, end):
        return Token(BAD, begin, end, b"K3")
    lexeme = text[begin:end]
    return Token(_SINGLE[lexeme] if kind == "single" else kind, begin, end, lexeme)


class Cursor:
    """The tokens of a text, one after another, with the next one in sight."""

    def __init__(self, source: Source, begin: int = 0) -> None:
        self.source = source
        self.next = token_at(source.text, begin)

    def take(self) -> Token:
        """Returns the next token and steps over it."""
        token = self.next
        self.next = token_at(self.source.text, token.end)
        return token

    def after_next(self) -> Token:
        """The token after the next one."""
        return token_at(self.source.text, self.next.end)

    def is_at_none(self) -> bool:
        """Tells whether the next token says that there is no node or point: `X`, or a `-` that is no sign of a numeral directly after it."""
        if self.next.kind != SIGN or self.next.text != b"-":
            return self.next.kind == NAME and self.next.text == b"X"
        after = self.after_next()
        return after.kind != NUMERAL or after.begin != self.next.end


class NumberFault(Exception):
    """A numeral that is no number of a file: N2, N3 or N4."""

    def __init__(self, code: str) -> None:
        super().__init__(NUMBER_FAULTS[code])
        self.code = code


NUMBER_FAULTS = {
    "N2": f"the exponent is more than {LARGEST_EXPONENT} in size",
    "N3": f"the number is beyond {LARGEST:,} in size",
    "N4": "the number has a non-zero digit after the sixth decimal place",
}
_values: Dict[bytes, Fraction] = {}


def is_numeral(text: bytes) -> bool:
    """Whether a text is a numeral without a sign."""
    return _NUMERAL.fullmatch(text) is not None


def exact_value(numeral: bytes, negative: bool = False) -> Fraction:
    """The exact value of a numeral. Raises NumberFault N2 or N3."""
    value = _values.get(numeral)
    if value is None:
        value = _parse(numeral)
        if len(_values) >= _CACHE_SIZE:
            _values.clear()
        _values[numeral] = value
    return -value if negative else value


def _parse(numeral: bytes) -> Fraction:
    whole, decimals, exponent = _matched(_NUMERAL.fullmatch(numeral)).groups()
    shift = int(exponent or 0)
    if abs(shift) > LARGEST_EXPONENT:
        raise NumberFault("N2")
    shift -= len(decimals or b"")
    digits = int(whole + (decimals or b""))
    value = Fraction(digits * 10**shift) if shift >= 0 else Fraction(digits, 10**-shift)
    if value > LARGEST:
        raise NumberFault("N3")
    return value


def written_decimals(numeral: bytes) -> int:
    """How many decimal places a numeral has as it is written: 3 for `0.333`, 5 for `1.5e-4`, 0 for `2e3`."""
    _, decimals, exponent = _matched(_NUMERAL.fullmatch(numeral)).groups()
    return max(0, len(decimals or b"") - int(exponent or 0))


def is_millionths(value: Fraction) -> bool:
    """Whether a value is a whole number of millionths, and so can be written with six decimals."""
    return MILLION % value.denominator == 0


def decimal(millionths: int) -> str:
    """A whole number of millionths as polcert writes it: 250000 is `0.25`."""
    sign, size = ("-" if millionths < 0 else ""), abs(millionths)
    return sign + f"{size // MILLION}.{size % MILLION:06}".rstrip("0").rstrip(".")


def six_decimals(value: Fraction) -> str:
    """A value of the programs' lines, which has at most six decimals, as polcert writes it."""
    return decimal(int(value * MILLION))


def number_after(cursor: Cursor, sign: Optional[Token]) -> Tuple[Fraction, Token]:
    """The value of the numeral that stands next, after the sign if there is one, and the numeral. Raises NumberFault."""
    numeral = cursor.next
    value = exact_value(numeral.text, sign is not None and sign.text == b"-")
    cursor.take()
    return value, numeral
