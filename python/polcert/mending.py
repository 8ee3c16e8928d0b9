"""Mends a model that polcert refuses for its rounding, and says how far that moves it (docs/MEND.md)."""
from dataclasses import dataclass, field
from decimal import Decimal
from fractions import Fraction
from typing import Dict, Iterable, List, NamedTuple, Optional, Sequence, Set, Tuple

from polcert.files import MILLION, Entry, FileError, Model, Numbers, Source, Table, is_millionths, place_of_row, read_model
from polcert.command import Refusal
from polcert.resets import write_out_resets
from polcert.tables import Elements
from polcert.tokens import decimal, quantity, written_decimals

HEAD = "# Rows that did not sum to one, mended by polcert-mend:"
HALF = Fraction(1, 2)
# A number with fewer decimals is taken as it stands: 0.5 is not a rounded 0.54.
FEWEST_DECIMALS = 3
# Of the cells of a row that change, so many are named.
MOST_NAMED = 4
# The most that a probability may move beyond its rounding.
DEFAULT_WITHIN = Fraction(1, 100_000)


# What a row becomes: its cells that change, in millionths; nothing if it becomes `uniform`.
RowChange = Tuple[Tuple[int, int], ...]
UNIFORM: RowChange = ()
# An action and a row, each None for all of them.
Pattern = Tuple[Optional[int], Optional[int]]


class Edit(NamedTuple):
    """The bytes from `begin` up to `end` become other bytes."""

    begin: int
    end: int
    new: bytes


class Cell(NamedTuple):
    """A cell of a row above 0, in millionths: its value, how far off it may be for the rounding of its text, what it counts as, and with how
    many decimals it is written."""

    column: int
    value: Fraction
    rounding: Fraction
    near: Fraction
    decimals: int


class TooFar(FileError):
    """A row or a start whose numbers would move too far; and how far is enough, if its numbers may be rounded ones."""

    def __init__(self, source: Source, byte: int, why: str, enough: Optional[Fraction]) -> None:
        super().__init__(source, "", byte, why)
        self.enough = enough


@dataclass
class Distance:
    """How far a model lies from the mended one: the greatest difference of a probability, and of a reward."""

    probabilities: Fraction = Fraction(0)
    rewards: Fraction = Fraction(0)

    def add(self, probability: Fraction) -> None:
        self.probabilities = max(self.probabilities, probability)

    def add_reward(self, reward: Fraction) -> None:
        self.rewards = max(self.rewards, reward)

    def texts(self) -> Tuple[str, str]:
        """Both as polcert_robust takes them: rounded up to at most twelve and six decimals."""
        return decimal_up(self.probabilities, 12), decimal_up(self.rewards, 6)

    def words(self) -> str:
        probabilities, rewards = self.texts()
        return f"within {probabilities}" + (f", rewards within {rewards}" if self.rewards else "")


@dataclass
class Mend:
    """The changes of a model, and how far they move it: by total variation for a row of T or O and the start, by size for a reward."""

    edits: List[Edit] = field(default_factory=list)
    entries: List[str] = field(default_factory=list)
    lines: List[Tuple[int, str]] = field(default_factory=list)
    numbers: int = 0
    rows: int = 0
    start: int = 0
    resets: int = 0
    moved: Dict[str, Fraction] = field(default_factory=lambda: dict.fromkeys(("T", "O", "start", "R"), Fraction(0)))
    # how far the written model lies, each row divided by its sum; and any whose numbers of three decimals or more round to the written ones
    written: Distance = field(default_factory=Distance)
    rounded: Distance = field(default_factory=Distance)
    # the first probability above 0 that became 0: with it those models lie within no distance
    lost: str = ""

    def move(self, table: str, distance: Fraction) -> None:
        self.moved[table] = max(self.moved[table], distance)

    def move_row(self, table: str, parts: Sequence[Fraction], cells: Sequence[Cell]) -> None:
        """Counts how far a row of T or O or the start moves."""
        self.move(table, total_variation(parts, cells))
        total = total_of(cells)
        for part, cell in zip(parts, cells):
            self.written.add(abs(part / MILLION - cell.value / total))
            self.rounded.add(abs(part - cell.value) / MILLION + half_unit(cell.decimals))


def half_unit(decimals: int) -> Fraction:
    """Half a unit of the last of so many decimals; 0 if they are so few that the number is taken as it stands."""
    return Fraction(1, 2 * 10**decimals) if decimals >= FEWEST_DECIMALS else Fraction(0)


def cell_of(column: int, value: Fraction, numeral: bytes) -> Cell:
    """A cell that was written as a numeral. Its text may stand for any number that rounds to it."""
    decimals = written_decimals(numeral)
    rounding = HALF * Fraction(MILLION, 10 ** min(decimals, 6)) if decimals >= FEWEST_DECIMALS else Fraction(0)
    return Cell(column, value * MILLION, rounding, Fraction(round(value * MILLION)), decimals)


def total_of(cells: Sequence[Cell]) -> Fraction:
    return sum((cell.value for cell in cells), Fraction(0))


def shared(cells: Sequence[Cell], within: Fraction) -> Optional[List[int]]:
    """Whole millionths near the cells that sum to 1,000,000, or None if a cell would move too far.

    What is missing is shared in proportion to the rounding of each cell or, if that is not enough, to all that it may move. What is
    left after rounding down goes to the largest remainders.
    """
    near = [round(cell.near) for cell in cells]
    lack = MILLION - sum(near)
    shares: List[Fraction] = []
    for more in (Fraction(0), within):
        shares = [cell.rounding + more for cell in cells]
        if lack < 0:
            shares = [min(share, Fraction(part - 1)) for share, part in zip(shares, near)]
        if abs(lack) <= sum(shares):
            break
    total = sum(shares, Fraction(0))
    if abs(lack) > total:
        return None
    exact = [part + (lack * share / total if lack else Fraction(0)) for part, share in zip(near, shares)]
    parts = [int(part) for part in exact]
    order = sorted(range(len(parts)), key=lambda i: (parts[i] - exact[i], -near[i], -i))
    for i in order[: MILLION - sum(parts)]:
        parts[i] += 1
    return parts if all(is_near(Fraction(part), cell, within) for part, cell in zip(parts, cells)) else None


def is_near(part: Fraction, cell: Cell, within: Fraction) -> bool:
    """Whether a cell may become this, in millionths."""
    return abs(part - cell.value) <= cell.rounding + within


def mended_parts(cells: Sequence[Cell], equal: Optional[Fraction], within: Fraction) -> Optional[List[Fraction]]:
    """What cells become: parts that are equal if all may become this one, else whole millionths. None if a cell would move too far."""
    if equal is not None and all(is_near(equal, cell, within) for cell in cells):
        return [equal] * len(cells)
    live = [cell for cell in cells if cell.near > 0]
    parts = shared(live, within)
    if parts is None:
        return None
    part_of = dict(zip((cell.column for cell in live), parts))
    return [Fraction(part_of.get(cell.column, 0)) for cell in cells]


def enough_for(cells: Sequence[Cell], equal: Optional[Fraction]) -> Optional[Fraction]:
    """The least half unit of a decimal with which cells are written within which they can be mended. None if none is enough."""
    units = [HALF / 10**decimals for decimals in sorted({cell.decimals for cell in cells if cell.decimals > 0}, reverse=True)]
    return next((unit for unit in units if mended_parts(cells, equal, unit * MILLION) is not None), None)


def total_variation(parts: Iterable[Fraction], cells: Sequence[Cell]) -> Fraction:
    """Total variation between a mended row and the written one divided by its sum."""
    total = total_of(cells)
    return sum((abs(part / MILLION - cell.value / total) for part, cell in zip(parts, cells)), Fraction(0)) / 2


def patterns(rows: Set[Tuple[int, int]], table: Table) -> List[Pattern]:
    """The same rows of a table with as many `*` as there can be."""
    found: List[Pattern] = []
    left = set(rows)
    if len(left) == table.actions * table.rows > 1:
        return [(None, None)]
    for action in range(table.actions):
        if table.rows > 1 and all((action, row) in left for row in range(table.rows)):
            found.append((action, None))
            left.difference_update((action, row) for row in range(table.rows))
    for row in sorted({row for _, row in left}):
        if table.actions > 1 and all((action, row) in left for action in range(table.actions)):
            found.append((None, row))
            left.difference_update((action, row) for action in range(table.actions))
    return found + sorted(left)


def covers(pattern: Pattern, row: Tuple[int, int]) -> bool:
    return all(place in (None, number) for place, number in zip(pattern, row))


class Mender:
    """Finds the changes of one model. Amounts are in millionths."""

    def __init__(self, model: Model, within: Fraction) -> None:
        self.model, self.source, self.within = model, model.source, within * MILLION
        self.mend = Mend()

    def run(self) -> Mend:
        """Returns the changes. Raises FileError if something is not to be mended."""
        self.refuse_discount()
        if self.model.start.kind == "numbers":
            self.mend_start()
        for table in self.model.tables():
            self.mend_table(table)
        for entry in self.model.entries:
            self.round_numbers(entry)
        self.count_roundings()
        return self.mend

    def count_roundings(self) -> None:
        """Counts how far what was rounded to the numbers of the text lies, as far as they stay."""
        tables = [entry.numbers for entry in self.model.entries if entry.table != "R"]
        numerals = {self.numeral(numbers, i) for numbers in [*tables, self.model.start.numbers] for i in range(len(numbers.values))}
        self.mend.rounded.add(max(map(half_unit, map(written_decimals, numerals)), default=Fraction(0)))

    def say(self, byte: int, change: str) -> None:
        self.mend.lines.append((byte, change))

    def numeral(self, numbers: Numbers, i: int) -> bytes:
        return self.source.text[numbers.numerals[i] : numbers.ends[i]]

    def refuse_discount(self) -> None:
        token = self.model.discount_token
        if not is_millionths(self.model.discount):
            why = "has more than six decimals, and another discount is another problem: write the one you mean"
            raise FileError(self.source, "", token.begin, f"the discount {token.shown()} {why}")

    def refuse_sum(self, byte: int, name: str, cells: Sequence[Cell], equal: Optional[Fraction]) -> TooFar:
        allowed, total, enough = decimal_up(self.within / MILLION), total_of(cells) / MILLION, enough_for(cells, equal)
        to_do = "no rounding explains this: correct them"
        if enough:
            to_do = f"if these are rounded numbers, --within {decimal_up(enough)} makes them exact"
        why = f"mended, a number would move by more than {allowed} beyond its rounding; {to_do}"
        return TooFar(self.source, byte, f"{name} sums to {nine_digits(total)}, {off_one(total)}: {why}", enough)

    # Numbers with more than six decimals

    def round_numbers(self, entry: Entry) -> None:
        for i, value in enumerate(entry.numbers.values):
            moved = Fraction(0)
            if not is_millionths(value):
                self.write_number(entry.numbers, i, round(value * MILLION))
                moved = abs(Fraction(round(value * MILLION), MILLION) - value)
            if entry.table == "R":
                self.mend.move("R", moved)
                self.mend.written.add_reward(moved)
                self.mend.rounded.add_reward(moved + half_unit(written_decimals(self.numeral(entry.numbers, i))))

    def write_number(self, numbers: Numbers, i: int, millionths: int) -> None:
        old, new = self.numeral(numbers, i), decimal(abs(millionths))
        self.mend.edits.append(Edit(numbers.numerals[i], numbers.ends[i], new.encode()))
        self.mend.numbers += 1
        self.say(numbers.begins[i], f"{old.decode()} became {new}")

    # Rows

    def mend_table(self, table: Table) -> None:
        changes: Dict[RowChange, Set[Tuple[int, int]]] = {}
        right: Optional[Dict[int, Fraction]] = None
        for action in range(table.actions):
            for row, cells in table.row_from_all(action):
                visible = table.visible(action, row)
                if cells is right or len(visible) == 1 and visible[0].word:
                    continue
                is_right = sum(cells.values()) == 1 and all(map(is_millionths, cells.values()))
                if is_right or not self.mend_row(table, action, row, changes):
                    right = cells
        for change, rows in changes.items():
            for pattern in patterns(rows, table):
                self.write_entries(table, pattern, change, min(row for row in rows if covers(pattern, row)))

    def mend_row(self, table: Table, action: int, row: int, changes: Dict[RowChange, Set[Tuple[int, int]]]) -> bool:
        """Adds what a row becomes to the changes. False if its numbers need no more than six decimals."""
        cells = self.cells(table, action, row)
        if not cells:
            byte = place_of_row(self.model, table, action, row)
            raise FileError(self.source, "", byte, f"the row `{self.label(table, (action, row))}` is not given, or all of it is 0")
        if sum(cell.near for cell in cells) == MILLION:
            self.move_row(table, (action, row), [cell.near for cell in cells], cells)
            return False
        parts = self.mended(table, action, row, cells)
        changed = tuple((cell.column, int(part)) for cell, part in zip(cells, parts) if part != cell.near)
        is_uniform = any(part.denominator > 1 for part in parts) or len(parts) == table.columns and len(set(parts)) == 1
        changes.setdefault(UNIFORM if is_uniform else changed, set()).add((action, row))
        self.move_row(table, (action, row), parts, cells)
        self.mend.rows += 1
        return True

    def move_row(self, table: Table, place: Tuple[int, int], parts: Sequence[Fraction], cells: Sequence[Cell]) -> None:
        self.mend.move_row(table.letter, parts, cells)
        columns = self.model.states if table.letter == "T" else self.model.observations
        self.note_lost(self.label(table, place), columns, parts, cells)

    def note_lost(self, row: str, columns: Elements, parts: Sequence[Fraction], cells: Sequence[Cell]) -> None:
        """Takes note of the first probability that became 0."""
        if not self.mend.lost and not all(parts):
            self.mend.lost = f"{row} : {columns.label(cells[list(map(bool, parts)).index(False)].column)}"

    def cells(self, table: Table, action: int, row: int) -> List[Cell]:
        """The cells of a row above 0. One that `uniform` gives stays one part in the number of columns if that is possible."""
        cells = []
        for column, (entry, i) in sorted(table.origins(action, row).items()):
            if i is None:
                value = MILLION * {"uniform": Fraction(1, table.columns), "identity": Fraction(1)}[entry.word]
                cells.append(Cell(column, value, HALF, value, 6))
            elif entry.numbers.values[i] > 0:
                cells.append(cell_of(column, entry.numbers.values[i], self.numeral(entry.numbers, i)))
        return cells

    def mended(self, table: Table, action: int, row: int, cells: Sequence[Cell]) -> List[Fraction]:
        """What the cells of a row become."""
        is_equal = len(cells) == table.columns and len({cell.value for cell in cells}) == 1
        equal = Fraction(MILLION, table.columns) if is_equal else None
        parts = mended_parts(cells, equal, self.within)
        if parts is None:
            byte = place_of_row(self.model, table, action, row)
            raise self.refuse_sum(byte, f"the row `{self.label(table, (action, row))}`", cells, equal)
        return parts

    def label(self, table: Table, pattern: Pattern) -> str:
        """A row as an entry writes it: `T: listen : tiger-left`."""
        action, row = pattern
        names = "*" if action is None else self.model.actions.label(action), "*" if row is None else self.model.states.label(row)
        return f"{table.letter}: {names[0]} : {names[1]}"

    def write_entries(self, table: Table, pattern: Pattern, change: RowChange, first: Tuple[int, int]) -> None:
        """Adds the entries of mended rows, and says what they change. `first` is one of the rows."""
        label, cells = self.label(table, pattern), self.cells(table, *first)
        columns = self.model.states if table.letter == "T" else self.model.observations
        total = nine_digits(total_of(cells) / MILLION)
        if change is UNIFORM:
            self.mend.entries.append(f"{label} uniform")
            became = "became `uniform`"
        else:
            self.mend.entries += [f"{label} : {columns.label(column)} {decimal(part)}" for column, part in change]
            near_of = {cell.column: nine_digits(cell.near / MILLION) for cell in cells}
            named = change[:MOST_NAMED]
            became = ", ".join(f"{columns.label(column)} {near_of[column]} became {decimal(part)}" for column, part in named)
            became += f", and {len(change) - MOST_NAMED} more" if len(change) > MOST_NAMED else ""
        self.say(place_of_row(self.model, table, *first), f"{label} summed to {total}: {became}")

    # The start

    def mend_start(self) -> None:
        numbers = self.model.start.numbers
        cells = [cell_of(i, value, self.numeral(numbers, i)) for i, value in enumerate(numbers.values) if value > 0]
        if sum(numbers.values) == 1 and all(map(is_millionths, numbers.values)):
            return
        is_equal = len({cell.value for cell in cells}) == 1
        equal = Fraction(MILLION, len(cells)) if is_equal else None
        parts = mended_parts(cells, equal, self.within)
        if parts is None:
            raise self.refuse_sum(self.model.start.begin, "the start", cells, equal)
        if is_equal and parts == [equal] * len(cells):
            self.list_start_states(numbers, [cell.column for cell in cells])
        else:
            self.write_start_numbers(numbers, dict(zip((cell.column for cell in cells), parts)))
        self.mend.move_row("start", parts, cells)
        self.note_lost("start", self.model.states, parts, cells)
        self.mend.start = 1

    def list_start_states(self, numbers: Numbers, states: List[int]) -> None:
        """Puts `start include:` and numbers of states in place of equal probabilities, or `start: uniform`."""
        begin, is_uniform = self.model.start.begin, len(states) == self.model.states.count
        new = {state: str(state).encode() for state in states}
        if is_uniform:
            new = {0: b"uniform"}
        else:
            self.mend.edits.append(Edit(begin, begin + len(b"start"), b"start include"))
        for i, place in enumerate(numbers.numerals):
            if numbers.begins[i] < place:
                self.mend.edits.append(Edit(numbers.begins[i], numbers.begins[i] + 1, b" "))
            self.mend.edits.append(Edit(place, numbers.ends[i], new.get(i, b"")))
        total = nine_digits(sum(numbers.values, Fraction(0)))
        self.say(begin, f"the start summed to {total}: its equal parts became `start{': uniform' if is_uniform else ' include:'}`")

    def write_start_numbers(self, numbers: Numbers, part_of: Dict[int, Fraction]) -> None:
        for i, value in enumerate(numbers.values):
            if part_of.get(i, 0) != value * MILLION:
                self.write_number(numbers, i, int(part_of.get(i, 0)))


# How far values move


def reward_span(model: Model) -> Fraction:
    """The largest reward less the smallest, of all numbers that are written, and of 0 where a cell may have none."""
    rewards = [entry for entry in model.entries if entry.table == "R"]
    values = [value for entry in rewards for value in (min(entry.numbers.values), max(entry.numbers.values))]
    if not any(entry.places.count(None) == len(entry.places) for entry in rewards):
        values.append(Fraction(0))
    return max(values) - min(values)


def values_bound(model: Model, moved: Dict[str, Fraction]) -> str:
    """How far the mend can move a value (the letters are those of docs/MEND.md).

    Take any policy, even one that remembers everything it saw, and any state. Let V(k) and V'(k) be the expected discounted rewards of its
    next k steps in the model as written and as mended, after the same observations. With the probabilities q and rewards r of the end states
    and observations as written, and q' and r' as mended,

        V'(k) - V(k)  =  sum of q' * (r' - r + g * (V'(k-1) - V(k-1)))  +  sum of (q' - q) * (r + g * V(k-1))

    The first sum is at most e plus g times the largest difference for k - 1 steps. In the second, q and q' both sum to one, so it is at most
    their total variation, which is at most d, times the span of the factor after them, which is at most h + g * h * (1 - g^(k-1)) / (1 - g) =
    h * (1 - g^k) / (1 - g). So the largest difference D(k) for k steps obeys D(k) <= g * D(k-1) + e + d * h / (1 - g), and D(0) = 0.
    """
    span, rows, reward, start = reward_span(model), moved["T"] + moved["O"], moved["R"], moved["start"]
    if model.discount == 1:
        steps = f"{decimal_up(reward + start * span)} k + {decimal_up(rows * span / 2)} k (k + 1)"
        return f"the discount is 1: no value of k steps moves by more than {steps}"
    left = 1 - model.discount
    from_state = reward / left + rows * span / left**2
    from_start = from_state + start * span / left
    line = f"no value moves by more than {decimal_up(from_state)}"
    return f"{line}, and from the start by no more than {decimal_up(from_start)}" if start else line


def nine_digits(value: Fraction) -> str:
    """A value for a message: nine digits."""
    return f"{float(value):.9g}"


def off_one(total: Fraction) -> str:
    """How far a sum is from one."""
    return f"{Decimal(nine_digits(abs(1 - total))):f} {'less' if total < 1 else 'more'} than 1"


def decimal_up(value: Fraction, most_decimals: int = 400) -> str:
    """A value from 0 on with three digits, rounded up."""
    places = 0
    while 0 < value * 10**places < 100 and places < most_decimals:
        places += 1
    digits = -(-value * 10**places // 1)
    whole, rest = divmod(int(digits), 10**places)
    return f"{whole:,}.{rest:0{places}}".rstrip("0").rstrip(".") if places else f"{whole:,}"


# The text


def mended_text(source: Source, mend: Mend) -> bytes:
    """The text with its edits, and the new entries after it."""
    pieces, at = [], 0
    for edit in sorted(mend.edits):
        pieces += [source.text[at : edit.begin], edit.new]
        at = edit.end
    pieces.append(source.text[at:])
    text = b"".join(pieces)
    if mend.entries:
        gap = b"" if text.endswith(b"\n") else b"\n"
        text += gap + "\n".join(["", HEAD, *mend.entries, ""]).encode()
    return text


class Mended(NamedTuple):
    """A model as it was read, its changes, and its text with them."""

    model: Model
    mend: Mend
    text: bytes


def mended(source: Source, within: Fraction) -> Mended:
    """Mends a text. Raises FileError, or Refusal if polcert would still refuse it."""
    written = write_out_resets(source)
    model = read_model(written.source, tolerant=True)
    mend = Mender(model, within).run()
    mend.resets = len(written.begins)
    mend.lines += [(byte, "`reset` became the row of the start") for byte in written.begins]
    text = mended_text(written.source, mend)
    try:
        read_model(Source("the mended text", text))
    except FileError as fault:
        raise Refusal(f"{source.name}: not mended, as polcert would still refuse {fault}") from None
    return Mended(model, mend, text)


def summary(model: Model, mend: Mend) -> List[str]:
    """How many changes there are, and how far values move."""
    parts = [f"{quantity(mend.numbers, 'number')} rewritten", f"{quantity(mend.rows, 'row')} mended"]
    parts += ["the start mended"] * mend.start + [f"{mend.resets:,} `reset` written out"] * (mend.resets > 0)
    return [", ".join(parts), distance_of_written(mend), values_bound(model, mend.moved)]


def distance_of_written(mend: Mend) -> str:
    """Within what distance the model lies as it was written."""
    if mend.lost:
        return f"`{mend.lost}` became 0: the model as it was written lies within no distance"
    return f"as it was written it lies {mend.written.words()}; what was rounded to it {mend.rounded.words()}"
