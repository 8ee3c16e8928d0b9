"""Shows the place that a refusal of polcert names: FILE:LINE:COLUMN, the line, a caret, what the code means, the item and the word that are
wrong, and how to mend it.

    polcert-locate tiger.POMDP "model: M17 in O, action 0, row 1"
    polcert model tiger.POMDP 2>&1 | polcert-locate tiger.POMDP

FILE is the file that is refused: the model, the graph, the vectors or the points. Lines of standard input that are no refusals are printed
as they are.
The exit status is 0 if there is a refusal, 1 if there is none.
"""
from array import array
from fractions import Fraction
from typing import Dict, Iterable, List, NamedTuple, Optional

from polcert.advice import advice
from polcert.answers import Refused, refused_of
from polcert.command import GZIP, Parser, Refusal, read_lines, read_source, show
from polcert.files import ITEM_WORDS, FileError, Model, Table, place_of_row, read_model
from polcert.json_output import json_text
from polcert.mending import nine_digits, off_one
from polcert.tokens import BAD, END, NAME, Cursor, Source, Token, printable, quoted, token_at

WIDEST = 100
# Stands for a token that is no number; greater than any number of a node.
BEYOND = 2**63


class Spot(NamedTuple):
    """A byte of a text, and what more is known of it."""

    byte: int
    notes: List[str]


class Located(NamedTuple):
    """A refusal of a text: the text as polcert got it, the place if there is one, what is known of it, and what to do."""

    source: Source
    refusal: Refused
    byte: Optional[int]
    notes: List[str]
    to_do: str

    @property
    def codes(self) -> str:
        return " ".join(filter(None, (self.refusal.code, self.refusal.inner)))

    def lines(self) -> str:
        """The lines for people."""
        source, byte = self.source, self.byte
        head = f"{self.codes}{self.refusal.where if self.refusal.place.byte is None else ''}: {self.refusal.meaning}"
        where = printable(source.name if byte is None else source.place(byte))
        shown_line = [] if byte is None else pointed(source, byte)
        return "\n".join([f"{where}: {head}", *shown_line, *self.notes, f"How to mend it: {self.to_do}."])

    def fields(self) -> Dict[str, object]:
        """The same for JSON."""
        line, column = (None, None) if self.byte is None else self.source.position(self.byte)
        place = {"file": self.source.name, "line": line, "column": column}
        return {**place, "code": self.codes, "printed": self.refusal.line, "meaning": self.refusal.meaning, "notes": self.notes, "mend": self.to_do}


def located(source: Source, refusal: Refused) -> Located:
    source = as_given(source, refusal)
    codes = " ".join(filter(None, (refusal.code, refusal.inner)))
    spot = spot_of(source, refusal)
    notes = [*(spot.notes if spot else []), *notes_of_item(source, refusal)]
    to_do = advice(source, refusal.subject, codes, refusal.place.byte or 0) if spot else None
    return Located(source, refusal, spot.byte if spot else None, notes, printable(to_do or refusal.mend))


def as_given(source: Source, refusal: Refused) -> Source:
    """The text as polcert got it: the first bytes of what gzip compressed, if polcert refused these."""
    is_first = refusal.place.byte == 0 and refusal.inner == "K1" and token_at(source.text, 0).kind != BAD
    return Source(source.name, GZIP) if source.is_compressed and is_first else source


def notes_of_item(source: Source, refusal: Refused) -> List[str]:
    """What is wrong in which item of a model, if this is the text that was refused."""
    number = refusal.place.item
    if refusal.subject != "model" or number is None:
        return []
    if refusal.code == "M18":
        return notes_of_start(read_model(source, tolerant=True))
    try:
        read_model(source)
    except FileError as fault:
        if fault.refusal == refusal.line:
            word = word_of_item(source, number)
            item = f"In `{word.text.decode()}` of line {source.position(word.begin)[0]}: " if word else ""
            said = f"{item}{fault.why}."
            return [said if item else said[:1].upper() + said[1:]]
    return []


def notes_of_start(model: Model) -> List[str]:
    total = sum(model.start.numbers.values, Fraction(0))
    return [f"The start sums to {nine_digits(total)}, {off_one(total)}."] if total != 1 and model.start.kind == "numbers" else []


def word_of_item(source: Source, number: int) -> Optional[Token]:
    """The first word of an item, counted from 1; None for the text before the first item, and for the end."""
    cursor, items = Cursor(source), 0
    while cursor.next.kind not in (END, BAD):
        items += is_item_word(cursor.next)
        if items == number > 0:
            return cursor.next
        cursor.take()
    return None


def spot_of(source: Source, refusal: Refused) -> Optional[Spot]:
    place = refusal.place
    if place.table is not None and place.action is not None and place.row is not None:
        return spot_of_sum(source, place.table, place.action, place.row)
    if refusal.subject == "graph" and place.node is not None and place.observation is not None:
        return Spot(byte_of_successor(source, place.node, place.observation), [])
    if place.byte is None:
        return None
    if place.byte > len(source.text):
        raise Refusal(f"{source.name} has only {len(source.text)} bytes: it is not the file that was refused")
    return Spot(byte_to_show(source, place.byte, place.item), [])


def byte_to_show(source: Source, byte: int, item: Optional[int]) -> int:
    """The byte itself; if an item or the text ends too early there, the one after the last token before it."""
    cursor, items, last_end = Cursor(source), 0, 0
    while cursor.next.kind not in (END, BAD) and cursor.next.begin < byte:
        last_end = cursor.next.end
        items += is_item_word(cursor.take())
    is_next_item = item is not None and is_item_word(cursor.next) and items == item
    return last_end if byte == len(source.text) or is_next_item else byte


def is_item_word(token: Token) -> bool:
    return token.kind == NAME and token.text in ITEM_WORDS


def spot_of_sum(source: Source, letter: str, action: int, row: int) -> Spot:
    """The last entry that gives a row of T or O."""
    model = read_model(source, tolerant=True)
    tables = {table.letter: table for table in model.tables()}
    if letter not in tables or action >= model.actions.count or row >= model.states.count:
        raise Refusal(f"{source.name} has no such row: it is not the model that was refused")
    table = tables[letter]
    return Spot(place_of_row(model, table, action, row), notes_of_row(model, table, action, row))


def notes_of_row(model: Model, table: Table, action: int, row: int) -> List[str]:
    visible = table.visible(action, row)
    name = f"`{letter_and_names(model, table, action, row)}`"
    if not visible:
        return [f"No entry gives the row {name}."]
    lines = sorted({model.source.position(entry.begin)[0] for entry in visible})
    where = f"line{'s' if len(lines) > 1 else ''} {', '.join(map(str, lines[-5:]))}{' and before' if len(lines) > 5 else ''}"
    total = sum(table.row(action, row).values(), Fraction(0))
    return [f"The row {name} sums to {nine_digits(total)}, {off_one(total)}. It is given in {where}."]


def letter_and_names(model: Model, table: Table, action: int, row: int) -> str:
    return f"{table.letter}: {model.actions.label(action)} : {model.states.label(row)}"


def byte_of_successor(source: Source, node: int, observation: int) -> int:
    """The place of a successor that is no node. How many observations there are follows from the numbers of the nodes."""
    cursor, begins, numbers = Cursor(source), array("Q"), array("Q")
    while cursor.next.kind not in (END, BAD):
        token = cursor.take()
        begins.append(token.begin)
        numbers.append(min(int(token.text), BEYOND - 1) if token.is_digits() else BEYOND)
    for width in range(observation + 3, len(begins) + 1):
        nodes, rest = divmod(len(begins), width)
        if rest == 0 and node < nodes and all(numbers[i * width] == i for i in range(nodes)):
            successor = node * width + 2 + observation
            if nodes <= numbers[successor] < BEYOND:
                return begins[successor]
    raise Refusal(f"{source.name} has no such successor: it is not the graph that was refused")


def pointed(source: Source, byte: int) -> List[str]:
    """The line of a byte, cut if it is long, and a caret."""
    line, column = source.line_at(byte).replace("\t", " "), source.position(byte)[1] - 1
    first = max(0, column - WIDEST // 2) if len(line) > WIDEST else 0
    before, after = "..." if first else "", "..." if len(line) > first + WIDEST else ""
    window = before + "".join(sign if sign.isprintable() else "?" for sign in line[first : first + WIDEST]) + after
    return [f"    {window}", "    " + " " * (len(before) + column - first) + "^"]


def refusal_of(line: str) -> Optional[Refused]:
    """A line as a refusal of polcert, or nothing if it is none."""
    return refused_of(line.strip())


def refusals(lines: Iterable[str], source: Source) -> int:
    """Shows each refusal of standard input, and prints the other lines."""
    found = 0
    for line in lines:
        refusal = refusal_of(line)
        show(f"{line if refusal is None else located(source, refusal).lines()}\n")
        found += refusal is not None
    return 0 if found else 1


def refusals_as_json(lines: Iterable[str], source: Source) -> int:
    """The same as one JSON object."""
    found: List[Dict[str, object]] = []
    others: List[str] = []
    for line in lines:
        refusal = refusal_of(line)
        if refusal is None:
            others.append(line)
        else:
            found.append(located(source, refusal).fields())
    show(json_text("polcert-locate", refusals=found, other_lines=others))
    return 0 if found else 1


def main() -> int:
    parser = Parser("polcert-locate", __doc__)
    parser.add_argument("file", metavar="FILE", help="the file that is refused")
    parser.add_argument("line", metavar="LINE", nargs="?", help="the line that polcert printed; without it, standard input is read")
    parser.add_argument("--json", action="store_true", help="write the places as JSON")
    words = parser.parse_args()
    source = read_source(words.file)
    if words.line is not None and refusal_of(words.line) is None:
        raise Refusal(f"this is no refusal of polcert: {quoted(words.line)}")
    lines = read_lines() if words.line is None else [words.line]
    return refusals_as_json(lines, source) if words.json else refusals(lines, source)
