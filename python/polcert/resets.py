"""The word `reset` of a model, written out: `T: a : s reset` means that all begins again, so that the row is the start's."""
from typing import List, NamedTuple, Optional, Tuple

from polcert.files import Model, is_item_end, read_model
from polcert.tokens import BAD, COLON, END, NAME, Cursor, Source, Token

# The fewest digits with which parts of a start are written that no decimal is: enough to tell what is meant.
_DIGITS = 12


class Reset(NamedTuple):
    """The word, and the places before it as they are written: an action and perhaps a start state."""

    token: Token
    places: List[bytes]


class WrittenOut(NamedTuple):
    """The text without the word, and the bytes of what stands in its places. Lines stay where they were."""

    source: Source
    begins: List[int]


def write_out_resets(source: Source) -> WrittenOut:
    """Writes the row of the start for each `reset` of T. Raises FileError if the text is refused for something else."""
    resets = resets_of(source) if b"reset" in source.text else []
    if not resets:
        return WrittenOut(source, [])
    model = read_model(replaced(source, [(reset, b"uniform") for reset in resets]).source, tolerant=True)
    return replaced(source, [(reset, row_of_start(source, model, reset)) for reset in resets])


def resets_of(source: Source) -> List[Reset]:
    """Each `reset` that stands after the places of a row or of an action of T."""
    cursor = Cursor(source)
    found: List[Reset] = []
    item: List[Token] = []
    while cursor.next.kind not in (END, BAD):
        token = cursor.take()
        if is_item_end(token):
            item = []
        if token.kind == NAME and token.text == b"reset":
            places = places_of(item)
            found += [Reset(token, places)] if places else []
        if len(item) < 6:
            item.append(token)
    return found


def places_of(item: List[Token]) -> Optional[List[bytes]]:
    """The places of `T: a` or `T: a : s`, if these are all tokens of an item."""
    if len(item) not in (3, 5) or item[0].text != b"T" or any(token.kind != COLON for token in item[1::2]):
        return None
    return [token.text for token in item[2::2]]


def replaced(source: Source, rows: List[Tuple[Reset, bytes]]) -> WrittenOut:
    """The text with a row in the place of each word."""
    text, begins, at = bytearray(), [], 0
    for reset, row in rows:
        text += source.text[at : reset.token.begin]
        begins.append(len(text))
        text += row
        at = reset.token.end
    return WrittenOut(Source(source.name, bytes(text) + source.text[at:], source.is_compressed), begins)


def row_of_start(source: Source, model: Model, reset: Reset) -> bytes:
    """What stands for a `reset`: the probabilities of the start as they are written, `uniform`, or entries for the states of the start. A
    text before the first entry is the same in both texts, so the places of numbers are."""
    start, rest = model.start, b": * " * (2 - len(reset.places))
    if start.kind == "uniform" or start.kind == "states" and len(start.states) == model.states.count:
        return b"uniform"
    if start.kind == "numbers":
        numbers = start.numbers
        return rest + b" ".join(source.text[begin:end] for begin, end in zip(numbers.begins, numbers.ends))
    places = b" : ".join([*reset.places, *[b"*"] * (2 - len(reset.places))])
    part = share(len(start.states))
    entries = [b"T: %s : %s %s" % (places, model.states.label(state).encode(), part) for state in start.states]
    return b" ".join([rest + b": * 0", *entries])


def share(states: int) -> bytes:
    """One part in so many, as a decimal."""
    return f"{1 / states:.{_DIGITS}f}".rstrip("0").rstrip(".").encode()
