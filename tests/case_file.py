r"""The cases of the programs: a case is one file `NAME.case`, in tests/cases of polcert, in tests/bound-cases of polcert_bound, and in
tests/robust-cases of polcert_robust.

    # Comments, if any, come first.
    $ polcert check files/coin.pomdp files/coin.pg files/coin.alpha
    < a line of standard input
    > a line of standard output
    2> a line of standard error
    status 0

The parts stand in this order, and a part without lines is empty. The command runs in the folder of the case. It is one of a shell: a word
has only letters, digits and `. / _ -`, or stands in `$'..'`. `< FILE` after the words names the file of standard input, for inputs that
are long, `> FILE` that of standard output, and `>&-` closes standard output.

A file is printable ASCII. In lines of a part and in `$'..'` a backslash begins an escape: `\\` is a backslash, `\t` a tab, `\r` a carriage
return, and `\x00` to `\xff` a byte. A `\` at the end of the last line of a part says that no newline follows. No line ends with a blank
(the blank is `\x20` then); a mark alone is an empty line.
"""
import contextlib
import os
import pathlib
import re
import tempfile
from typing import Iterator, List, NamedTuple, Tuple

from runner import TESTS, Ran

CLOSED = '&-'  # in place of a file: standard output is closed
PARTS = re.compile(r'(?:#.*\n)*\$ (.+)\n((?:<.*\n)*)((?:>.*\n)*)((?:2>.*\n)*)status ([0-9]+)\n')
COMMAND = re.compile(r"(polcert(?:_bound|_robust)?)((?: (?:[\w./-]+|\$'[^']*'))*)(?: < ([\w./-]+))?(?: >(?: ([\w./-]+)|(&-)))?", re.ASCII)
WORD = re.compile(r" (?:\$'([^']*)'|(\S+))")
ESCAPE = re.compile(r'\\(?:([\\tr])|x([0-9a-f]{2})|(.?))')
NAMED = {'\\': '\\', 't': '\t', 'r': '\r'}
UNCLEAR = re.compile(r'[^\n -~]| $', re.M)


class CaseFile(NamedTuple):
    """A case: its program and the words for it, standard input (`source`: its file, or ''), the file of standard output (or '', or
    `CLOSED`), and what the run has to give."""

    name: str
    program: str
    words: List[bytes]
    source: str
    given: bytes
    sink: str
    expected: Ran


def decoded(text: str) -> bytes:
    """Returns the bytes of a text with escapes."""
    def byte_of(escape: 're.Match[str]') -> str:
        if escape[3] is not None:
            raise ValueError(f'{escape[0]} is no escape')
        return NAMED[escape[1]] if escape[1] else chr(int(escape[2], 16))

    return ESCAPE.sub(byte_of, text).encode('latin-1')


def bytes_of(part: str, mark: str) -> bytes:
    """Returns the bytes of a part, whose lines begin with this mark."""
    lines = [re.sub('^ ', '', line[len(mark):]) for line in part.splitlines()]
    is_cut = bool(lines) and bool(re.search(r'(?<!\\)(?:\\\\)*\\$', lines[-1]))
    if is_cut:
        lines[-1] = lines[-1][:-1]
    return b'\n'.join(map(decoded, lines)) + b'\n' * (bool(lines) and not is_cut)


def read_case(path: pathlib.Path) -> CaseFile:
    """Reads a case. Raises ValueError at a file of another form."""
    text = path.read_bytes().decode('latin-1')
    parts = PARTS.fullmatch(text)
    command = parts and COMMAND.fullmatch(parts[1])
    if not parts or not command or UNCLEAR.search(text) or re.search('^(?:<|2?>)[^ \n]', text, re.M):
        raise ValueError(f'{path} has not the form of a case')
    words = [decoded(quoted) if plain is None else plain.encode() for quoted, plain in (word.groups() for word in WORD.finditer(command[2]))]
    source, given, sink = command[3] or '', bytes_of(parts[2], '<'), command[4] or command[5] or ''
    if source and given:
        raise ValueError(f'{path} has two inputs')
    return CaseFile(path.stem, command[1], words, source, given, sink, Ran(int(parts[5]), bytes_of(parts[3], '>'), bytes_of(parts[4], '2>')))


def case_files(folder: str) -> List[CaseFile]:
    """Returns the cases of a folder of tests/, by name."""
    return [read_case(path) for path in sorted((TESTS / folder).glob('*.case'))]


@contextlib.contextmanager
def opened_input(case: CaseFile) -> Iterator[int]:
    """Opens the standard input of a case, from the folder of the case."""
    with tempfile.TemporaryFile() as file:
        file.write(case.given)
        file.seek(0)
        source = os.open(case.source, os.O_RDONLY) if case.source else os.dup(file.fileno())
        try:
            yield source
        finally:
            os.close(source)


def refused_models() -> List[Tuple[bytes, bytes]]:
    """Returns the texts of tests/refused-models, each with the line by which it is refused."""
    lines = (TESTS / 'refused-models').read_bytes().splitlines()
    return [(text, said) for text, said in (line.split(b'\t') for line in lines if not line.startswith(b'#'))]
