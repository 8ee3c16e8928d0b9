"""The functions of a source file, as rt fmt lays it out, with their contracts."""
import re
from typing import Iterator, List, Sequence, Tuple

HEAD = re.compile(r'( *)(?:pub(?:\([^)]*\))? )?(?:unsafe )?fn (\w+)')
CLAUSE = re.compile(r' *(requires|ensures)\b')


class Function:
    """A function of a file: its name, the number of its first line, its head, the lines of its body, and those of its contract with their
    numbers."""

    def __init__(self, name: str, first: int, head: str) -> None:
        self.name, self.first, self.head = name, first, head
        self.body: List[str] = []
        self.contract: List[Tuple[int, str]] = []

    def has_no_body(self) -> bool:
        return self.head.endswith((';', '}'))

    def has_begun(self) -> bool:
        """Tells whether its body begins at the end of the head, or there is none: it has no contract then."""
        return self.head.endswith(' {') or self.has_no_body()

    def count_parameters(self) -> int:
        """Counts the parameters but `self`."""
        depth, part = 0, ''
        found: List[str] = []
        for sign in self.head[self.head.index(f'fn {self.name}') + len(f'fn {self.name}'):]:
            depth += (sign in '([{<') - (sign in ')]}' or (sign == '>' and not part.endswith('-')))
            if depth == 1 and sign in '(,':  # (what comes before, type parameters, is none)
                found, part = (found + [part] if sign == ',' else []), ''
            elif depth == 0 and sign == ')':
                found.append(part)
                break
            else:
                part += sign
        return sum(1 for part in found if part.strip() and not re.match(r"\s*(&('\w+ )?)?(mut )?self\b", part))


def functions(lines: Sequence[str]) -> Iterator[Function]:
    """Finds the functions of a file: a head, the clauses, and a body between braces (none if a trait has none)."""
    at = 0
    while at < len(lines):
        head = HEAD.match(lines[at])
        at += 1
        if not head:
            continue
        function = Function(head[2], at - 1, lines[at - 1])
        opens, closes, deeper = f'{head[1]}{{', f'{head[1]}}}', f'{head[1]}    '
        while lines[at].startswith((deeper, f'{head[1]})')) and not CLAUSE.match(lines[at]) and not function.has_begun():
            function.head += lines[at]
            at += 1
        if not function.has_begun():
            while lines[at].startswith(deeper) or not lines[at] and lines[at + 1].startswith(deeper):
                function.contract.append((at, lines[at]))
                at += 1
            if lines[at] != opens:
                yield function
                continue
            at += 1
        if not function.has_no_body():
            while lines[at] != closes:
                function.body.append(lines[at])
                at += 1
        yield function
