"""Advice on a text that is refused: what its first bytes, or the words at the place, say to a user who does not know the files yet."""
import re
from dataclasses import dataclass, field
from fractions import Fraction
from typing import Iterator, List, Optional, Set

from polcert.files import ITEM_WORDS, MENDABLE, OTHER_RESERVED, PREAMBLE, is_item_end
from polcert.pomdpx import is_pomdpx
from polcert.tokens import BAD, COLON, END, NAME, NUMERAL, SIGN, Cursor, FileError, Source, Token, quoted, token_at, whole_number

# Of an item, so many tokens are kept, and so many names are shown.
_FEW = 8
_LISTS = {b"states": "a state", b"actions": "an action", b"observations": "an observation"}
_LINES = {
    b"discount": "a line such as `discount: 0.95`",
    b"values": "the line `values: reward`, or `values: cost` if the numbers of R are costs",
    b"states": "a line such as `states: 2`, or with a name for each",
    b"actions": "a line such as `actions: 2`, or with a name for each",
}
_WORD_ENDS = re.compile(rb"[\s:#*]")
_NO_LETTER = re.compile(r"[^A-Za-z0-9_-]+")
_PUNCTUATION = re.compile(r"[,;'\"()\[\]{}]+")
_FRACTION = re.compile(r"[0-9.]+/[0-9.]+")
_DECIMAL_COMMA = re.compile(r"([+-]?[0-9]+),([0-9]+)")
_LONGEST_WORD = 400
# An entry of R with one number: its places, and the number.
_REWARD = re.compile(r"R((?: : [^ :]+){1,3}) ((?:[+-] )?[^ :]+)")
_REWARD_TOKENS = 10
# A line of a graph: a node, its action and its successors. Lines of vectors by turns: an action, and two values or more.
_LINE, _NODE = re.compile(rb"[^\n]+"), re.compile(rb"([0-9]+)\s+[0-9]+((?:\s+(?:[0-9]+|-|X))*)")
_VECTOR = re.compile(rb"[0-9]+"), re.compile(rb"[0-9.eE+-]+(?:\s+[0-9.eE+-]+)+")


@dataclass
class Context:
    """The token that is refused, the one before it, and the first tokens of their item; the words of the items so far."""

    word: Token
    after: Token
    before: Optional[Token] = None
    item: List[Token] = field(default_factory=list)
    previous: bytes = b""
    seen: Set[bytes] = field(default_factory=set)

    @property
    def item_word(self) -> bytes:
        return self.item[0].text if self.item else b""


def advice_on(fault: FileError) -> Optional[str]:
    """What to do about a text that was refused, or None if the code's own sentence says all, or it has no code."""
    subject = fault.refusal.partition(":")[0]
    return advice(fault.source, subject, fault.code, fault.byte) if subject else None


def advice(source: Source, subject: str, code: str, byte: int) -> Optional[str]:
    """The same for the code and the byte of a refusal; the subject is `model`, `graph`, `vectors` or `points`."""
    found = (on_first_bytes(source, subject) if byte <= 1 else None) or on_wrong_file(source, subject)
    if found or code in MENDABLE:
        return found or on_mending(source, code)
    if subject != "model":
        token = token_at(source.text, byte)
        return on_comment(source, token) or on_comma(source, token, subject == "graph") or on_other_model(source, code)
    context = context_of(source, byte)
    rules = (on_foreign_sign, on_line, on_reserved_name, on_start, on_name, on_fraction)
    found = next((said for said in (rule(source, context) for rule in rules) if said), None)
    others = {"M7": on_missing_line, "M12": on_missing_place}
    return found or (others[code](source, context) if code in others else None)


# The first bytes


def on_first_bytes(source: Source, subject: str) -> Optional[str]:
    """What a file is that is no text of tokens."""
    text = source.text
    if text.startswith(b"\xef\xbb\xbf"):
        return "the file begins with a byte order mark, which an editor added: save it as UTF-8 without one, or `tail -c +4 FILE > NEW`"
    if text.startswith((b"\xff\xfe", b"\xfe\xff")) or b"\0" in text[:2]:
        return "the file is in UTF-16: save it as UTF-8, or `iconv -f UTF-16 -t UTF-8 FILE > NEW`"
    if text.startswith(b"\x1f\x8b"):
        return "the file is compressed by gzip: `gunzip < FILE > NEW`"
    return on_xml(source, subject) if text.lstrip().startswith(b"<") else None


def on_xml(source: Source, subject: str) -> str:
    """What an XML file is good for: the first element tells."""
    is_policy = re.search(rb"<(?:Policy|AlphaVector)\b", source.text[:10_000]) is not None
    if is_pomdpx(source):
        return "this is a model in POMDPX, the XML of APPL: `polcert-convert FILE > NEW.POMDP` writes it as polcert reads it"
    if not is_policy:
        return "this is XML, which no model, graph or vectors are"
    if subject == "model":
        return "this is a policy of SARSOP, and no model: name the model first, and then the policy"
    return "this is a policy of SARSOP: `polcert-graph MODEL FILE -o NAME` makes a graph and vectors of it"


# Files that are not those that were meant


def on_wrong_file(source: Source, subject: str) -> Optional[str]:
    """A model in the place of another file, or the reverse, or a text without a token: the first tokens tell."""
    cursor = Cursor(source)
    first, after = cursor.next, cursor.next if cursor.next.kind in (END, BAD) else cursor.after_next()
    if subject == "model":
        is_other = first.kind in (NUMERAL, SIGN)
        return "this is no model, as it begins with a number: name the model first, and then the other files" if is_other else None
    if first.kind == END:
        return f"the text {'has comments alone' if source.text.strip() else 'is empty'}: see that it is the right file"
    is_model = first.kind == NAME and first.text in ITEM_WORDS and (after.kind == COLON or after.text in (b"include", b"exclude"))
    return "this is a model: name the model first, and then the other files" if is_model else None


def on_other_model(source: Source, code: str) -> Optional[str]:
    """A graph or vectors for another model, or one in the place of the other."""
    if code == "G4":
        return "use a number below the count of actions; or see that graph and model belong together"
    is_graph = code in ("G2", "G3", "G6")
    if not is_graph and code not in ("V3", "V5"):
        return None
    successors, values = successors_of_lines(source), values_of_lines(source)
    if successors is not None:
        each = f"each node has {successors} successor{'' if successors == 1 else 's'}"
        if is_graph:
            return f"{each} here, and the model another number of observations: see that graph and model belong together"
        return f"this is a graph, in which {each}: see that it belongs to the model, and stands in its place"
    if values is None or is_graph:
        return None if values is None else "these are vectors, and no graph: name the graph before them"
    return f"each vector has {values} numbers here, and the model another number of states: see that vectors and model belong together"


def lines_of(source: Source) -> Iterator[bytes]:
    """The lines that are not empty, without comments."""
    lines = (match[0].partition(b"#")[0].strip() for match in _LINE.finditer(source.text))
    return (line for line in lines if line)


def successors_of_lines(source: Source) -> Optional[int]:
    """How many successors each node has, if the lines are those of a graph, with a node in each. None if they are not."""
    counts, nodes, last = set(), 0, 0
    for line in lines_of(source):
        node = _NODE.fullmatch(line)
        if node is None or whole_number(node[1].decode()) != nodes:
            return None
        words = node[2].decode().split()
        counts.add(len(words))
        last = max([last, *(whole_number(word) or 0 for word in words)])
        nodes += 1
    return counts.pop() if len(counts) == 1 and last < nodes else None


def values_of_lines(source: Source) -> Optional[int]:
    """How many numbers each vector has, if the lines have an action and two numbers or more by turns. None if they do not."""
    counts, lines = set(), 0
    for line in lines_of(source):
        if not _VECTOR[lines % 2].fullmatch(line):
            return None
        if lines % 2:
            counts.add(len(line.split()))
        lines += 1
    return counts.pop() if len(counts) == 1 and lines % 2 == 0 else None


# Rows, starts and numbers that the mender makes exact


def on_mending(source: Source, code: str) -> str:
    """The command that makes a model exact if there is one, else why there is none."""
    from polcert.mending import DEFAULT_WITHIN, TooFar, decimal_up  # (which imports this module's users)

    fault = fault_of_mending(source, DEFAULT_WITHIN)
    exact = "makes it exact, and says how far that moves any value"
    if fault is None:
        return f"`polcert-mend FILE > NEW` {'writes the row of the start there' if code == 'M14' else exact}"
    if isinstance(fault, TooFar) and fault.enough:
        option, fault = f"--within {decimal_up(fault.enough)}", fault_of_mending(source, fault.enough)
        if fault is None:
            return f"if its numbers are rounded ones, `polcert-mend {option} FILE > NEW` {exact}"
    if isinstance(fault, FileError) and fault.code == code == "M14":
        return "`polcert-mend` writes out `reset` after `T: a` or `T: a : s` alone: write the row that is meant"
    return f"`polcert-mend` does not make it exact: {fault}"


def fault_of_mending(source: Source, within: Fraction) -> Optional[Exception]:
    """Why a text cannot be mended, or None if it can."""
    from polcert.command import Refusal
    from polcert.mending import mended

    try:
        mended(source, within)
    except (FileError, Refusal) as fault:
        return fault
    return None


# Words


def context_of(source: Source, byte: int) -> Context:
    """What stands at a byte of a model, and around it."""
    cursor = Cursor(source)
    context = Context(cursor.next, cursor.next)
    while cursor.next.kind not in (END, BAD) and cursor.next.begin < byte:
        token = cursor.take()
        if is_item_end(token):
            context.previous, context.item = context.item_word, []
            context.seen.add(token.text)
        if len(context.item) < _FEW:
            context.item.append(token)
        context.before = token
    context.word = cursor.next
    context.after = cursor.next if cursor.next.kind in (END, BAD) else cursor.after_next()
    return context


def begins_line(source: Source, token: Token) -> bool:
    return not source.text[source.text.rfind(b"\n", 0, token.begin) + 1 : token.begin].strip()


def on_line(source: Source, context: Context) -> Optional[str]:
    """A name with a colon after it that begins no item, such as `horizon:`."""
    name = context.word if context.word.kind == NAME and context.after.kind == COLON else context.before
    if name is None or name.kind != NAME or name.text in ITEM_WORDS or (name is context.before and context.word.kind != COLON):
        return None
    if name.text.lower() == b"horizon":
        return "this format has no horizon, as a certificate holds for every number of steps: remove the line, or put a `#` before it"
    if not begins_line(source, name):
        return None
    right = next((word.decode() for word in (name.text.lower(), name.text.upper()) if word in ITEM_WORDS), None)
    if right:
        return f"write `{right}:`, as upper and lower case differ"
    lines = "discount, values, states, actions, observations, start, T, O and R"
    return f"{quoted(name.text.decode() + ':')} begins no line of this format, which are {lines}: remove it"


def on_reserved_name(source: Source, context: Context) -> Optional[str]:
    """A state, an action or an observation that has the name of an item or of another word of the format."""
    token, item = context.word, context.item_word
    if len(context.item) == 1 and token.kind != COLON and token.text not in (b"include", b"exclude"):
        token, item, follows = context.item[0], context.previous, False
    else:
        follows = context.after.kind == COLON or token.text == b"start" and context.after.text in (b"include", b"exclude")
    if item not in _LISTS or token.kind != NAME or token.text not in ITEM_WORDS | OTHER_RESERVED or follows:
        return None
    name = token.text.decode()
    return f"`{name}` is a word of the format, and names no {_LISTS[item].split()[1]}: write another name, such as `{name}1`, everywhere"


def on_start(source: Source, context: Context) -> Optional[str]:
    """More than one state after `start:`."""
    names = context.item[2:]
    if context.item_word != b"start" or not names or any(token.kind != NAME for token in [*names, context.word]) or is_item_end(context.word):
        return None
    cursor = Cursor(source, names[0].begin)
    listed: List[str] = []
    while cursor.next.kind == NAME and not is_item_end(cursor.next) and len(listed) < _FEW:
        listed.append(cursor.take().text.decode())
    return f"to start in one of several states, write `start include: {' '.join(listed)}`: each has the same probability"


def word_around(text: bytes, token: Token) -> str:
    """The bytes without blanks or colons between them in which a token stands."""
    begin = token.begin
    while begin > 0 and token.begin - begin < _LONGEST_WORD and not _WORD_ENDS.match(text, begin - 1):
        begin -= 1
    end = _WORD_ENDS.search(text, token.begin, token.begin + _LONGEST_WORD)
    return text[begin : end.start() if end else token.begin + _LONGEST_WORD].decode(errors="replace")


def on_name(source: Source, context: Context) -> Optional[str]:
    """A name with a sign that no name has, such as `s0.5` or `left,`."""
    word = word_around(source.text, context.before if context.before and context.word.kind == COLON else context.word)
    is_listed = context.item_word in _LISTS and len(context.item) > 1
    if len(word) < 2 or not (is_listed or word[0].isalpha()) or not _NO_LETTER.search(word) and word[0].isalpha() or is_number(word):
        return None
    bare = " ".join(part for part in _PUNCTUATION.split(word) if part)
    if bare != word and bare and not _NO_LETTER.search(bare.replace(" ", "")):
        return f"write {quoted(bare)} for {quoted(word)}: blanks alone stand between names"
    right = _NO_LETTER.sub("-", word)
    right = right if right[0].isalpha() and right[0].isascii() else f"s{right}"
    return f"{quoted(word)} is no name, which is a letter, then letters, digits, `_` and `-`: write {quoted(right)}, everywhere"


def is_number(word: str) -> bool:
    try:
        float(word)
    except ValueError:
        return False
    return True


def on_foreign_sign(source: Source, context: Context) -> Optional[str]:
    """A comment or a comma as other programs write them. (A comma in a list of names is one for on_name.)"""
    is_listed = context.item_word in _LISTS
    return on_comment(source, context.word) or (None if is_listed else on_comma(source, context.word, False))


def on_comment(source: Source, token: Token) -> Optional[str]:
    is_comment = token.kind == BAD and source.text.startswith(b"//", token.begin)
    return "a comment begins with `#`, and not with `//`" if is_comment else None


def on_comma(source: Source, token: Token, are_whole: bool) -> Optional[str]:
    """A comma in a number, which is none of decimals if the numbers are whole ones, or between numbers."""
    word = word_around(source.text, token) if token.kind == BAD else ""
    comma = None if are_whole else _DECIMAL_COMMA.fullmatch(word)
    if comma:
        point, none = quoted(f"{comma[1]}.{comma[2]}"), quoted(comma[1] + comma[2])
        is_unclear = len(comma[2]) == 3 and comma[1].strip("+-0") != ""
        return f"write {f'{none} or {point}' if is_unclear else point} for {quoted(word)}: decimals have a point, and thousands have nothing"
    parts = [part for part in word.split(",") if part]
    if "," in word and parts and all(map(is_number, parts)):
        return f"write {quoted(' '.join(parts))} for {quoted(word)}: blanks alone stand between numbers"
    return None


def on_fraction(source: Source, context: Context) -> Optional[str]:
    """A number such as `1/3`."""
    word = word_around(source.text, context.word)
    if not _FRACTION.fullmatch(word):
        return None
    return f"write {quoted(word)} in decimals, and run `polcert-mend`; or `uniform` for a row of equal parts"


def on_missing_line(source: Source, context: Context) -> Optional[str]:
    missing = next(word for word in PREAMBLE if word not in context.seen)
    if not context.seen:
        return "the text has no line at all: see that it is the right file"
    return f"add {_LINES[missing]}, before line {source.position(context.word.begin)[0]}"


def on_missing_place(source: Source, context: Context) -> Optional[str]:
    """An entry of R with one number and too few places, such as `R: a : s : e 5` in a model with observations."""
    if context.item_word != b"R" or not is_item_end(context.word):
        return None
    cursor = Cursor(source, context.item[0].begin)
    words: List[str] = []
    while cursor.next.begin < context.word.begin and len(words) < _REWARD_TOKENS:
        words.append(cursor.take().text.decode())
    entry = _REWARD.fullmatch(" ".join(words))
    has_observations = b"observations" in context.seen
    missing = (4 if has_observations else 3) - entry[1].count(":") if entry else 0
    if entry is None or missing < 1:
        return None
    places = entry[1][len(" : ") :] + " : *" * missing
    return f"in {'a model with observations' if has_observations else 'an MDP'} write `R: {places} {entry[2].replace(' ', '')}`"
