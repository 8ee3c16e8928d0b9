"""What the commands share at the command line: words, lines, exit statuses, files that are read, and outputs that are written whole."""
import argparse
import errno
import os
import stat
import sys
import tempfile
import zlib
from contextlib import ExitStack, contextmanager, suppress
from io import BytesIO
from itertools import product
from typing import Any, BinaryIO, Callable, Dict, Iterator, List, NamedTuple, NoReturn, Optional, Sequence, Tuple

from polcert.signals import end_at_interrupts, held_back, ignore, program_name, remove, unfinished
from polcert.tokens import FileError, Source, printable
from polcert.version import VERSION

# The most bytes of a text, as polcert has it, and of a piece of a file or a line of standard input.
TEXT_LIMIT = 4_294_967_296
PIECE = 1_000_000
# The exit statuses are polcert's: a text or the command line is refused; a file cannot be read or written; the memory is not enough.
REFUSED, UNREADABLE, OUT_OF_MEMORY = 2, 3, 4
# The name that is standard input, and the bytes with which a text begins that gzip compressed.
STANDARD_INPUT, GZIP = "-", b"\x1f\x8b"


class Refusal(Exception):
    """Something that a script cannot do, in one line for the user."""


class _Version(argparse.Action):
    def __call__(self, parser: argparse.ArgumentParser, *_: Any) -> NoReturn:
        show(f"{parser.prog} {VERSION}\n")
        sys.exit(0)


class Parser(argparse.ArgumentParser):
    """A parser of a script's words. Its help is the script's text."""

    def __init__(self, program: str, text: Optional[str]) -> None:
        super().__init__(prog=program, description=text, formatter_class=argparse.RawDescriptionHelpFormatter)
        self.add_argument("-V", "--version", action=_Version, nargs=0, help="print the version and exit")

    def print_help(self, file: object = None) -> None:
        show(self.format_help())

    def error(self, message: str) -> NoReturn:
        with suppress(OSError):
            for line in [*self.format_usage().splitlines(), f"{self.prog}: error: {message}"]:
                say(line)
        sys.exit(REFUSED)


def run(program: str, action: Callable[[], int]) -> int:
    """Calls an action and returns its exit status, or that of what stopped it, after one line on standard error."""
    _fill_closed_streams()
    try:
        return _status(program, action)
    finally:
        ignore()


def _status(program: str, action: Callable[[], int]) -> int:
    try:
        return action()
    except FileError as fault:
        why, status = with_advice(fault), REFUSED
    except Refusal as fault:
        why, status = str(fault), REFUSED
    except OSError as fault:
        why, status = str(fault) if fault.filename is None else f"{fault.filename}: {fault.strerror}", UNREADABLE
    except MemoryError:
        why, status = "out of memory", OUT_OF_MEMORY
    with suppress(OSError):
        say(f"{program}: {why}")
    return status


def with_advice(fault: FileError) -> str:
    """A fault of a text, and what a new user can do about it."""
    from polcert.advice import advice_on  # (which few need)

    advice = advice_on(fault)
    return f"{fault}; {advice}" if advice else str(fault)


def _fill_closed_streams() -> None:
    """Opens the null device for each standard stream that is closed, so that no file gets its number."""
    number = 0
    while number < 3:
        number = os.open(os.devnull, os.O_RDWR)
    os.close(number)


def _refuse_closed(stream: object, name: str) -> None:
    if stream is None:
        raise OSError(errno.EBADF, os.strerror(errno.EBADF), name)


# Lines


def say(line: str) -> None:
    """Writes a line to standard error. Raises OSError."""
    _refuse_closed(sys.stderr, "standard error")
    _write_all(2, (printable(line) + "\n").encode(sys.stderr.encoding, "backslashreplace"), "standard error")


def show(text: str) -> None:
    """Writes a text for people to standard output; for a letter that cannot be shown there it has a `?`. Raises OSError."""
    write_output(text.encode(sys.stdout.encoding if sys.stdout else "ascii", "replace"))


# Files


def read_source(name: str) -> Source:
    """Reads a file, or standard input if the name is `-`, as far as polcert reads texts. What gzip compressed is decompressed. Raises OSError
    or Refusal."""
    if name == STANDARD_INPUT:
        _refuse_second_reading()
        with open(0, "rb", buffering=0, closefd=False) as file:
            name, text = "standard input", _read(file, "standard input")
    else:
        with _named(name), open(name, "rb", buffering=0) as file:
            text = _read(file, name)
    is_compressed = text.startswith(GZIP)
    return Source(name, _decompressed(text, name) if is_compressed else text, is_compressed)


def _read(file: BinaryIO, name: str) -> bytes:
    text = bytearray()
    with _named(name):
        is_finite = stat.S_ISREG(os.fstat(file.fileno()).st_mode)
        for piece in iter(lambda: file.read(PIECE), b""):
            _add(text, piece, name)
            zero = -1 if is_finite or text.startswith(GZIP) else text.find(b"\0", len(text) - len(piece))
            if zero >= 0 and b"#" not in text[text.rfind(b"\n", 0, zero) + 1 : zero]:
                return bytes(text[: zero + 1])  # a device without an end: its text is refused here or before
    return bytes(text)


def _add(text: bytearray, piece: bytes, name: str) -> None:
    text += piece
    if len(text) > TEXT_LIMIT:
        raise Refusal(f"{name}: the text has more than {TEXT_LIMIT:,} bytes")


def _decompressed(compressed: bytes, name: str) -> bytes:
    from gzip import BadGzipFile, GzipFile  # (which few need)

    text = bytearray()
    try:
        with GzipFile(fileobj=BytesIO(compressed)) as file:
            for piece in iter(lambda: file.read(PIECE), b""):
                _add(text, piece, name)
    except (BadGzipFile, EOFError, zlib.error):
        raise Refusal(f"{name}: what gzip compressed is damaged or not whole") from None
    return bytes(text)


_is_input_read = False


def _refuse_second_reading() -> None:
    """Raises OSError if standard input is closed, and Refusal if it was read before."""
    global _is_input_read
    _refuse_closed(sys.stdin, "standard input")
    if _is_input_read:
        raise Refusal("standard input is named twice, and can be read once: write one of the texts to a file")
    _is_input_read = True


def read_lines() -> Iterator[str]:
    """The lines of standard input without their ends. Raises OSError or Refusal."""
    _refuse_second_reading()
    with _named("standard input"):
        for line in iter(lambda: sys.stdin.buffer.readline(PIECE + 1), b""):
            if len(line) > PIECE:
                raise Refusal(f"standard input: a line has more than {PIECE:,} bytes")
            yield line.rstrip(b"\n").decode(errors="replace")


@contextmanager
def own_folder() -> Iterator[str]:
    """A folder for files that no other user changes. It is removed at the end, or if the script ends early."""
    with held_back():
        folder = tempfile.mkdtemp(prefix="polcert-")
        unfinished.append(folder)
    try:
        yield folder
    finally:
        remove(folder)


def write(text: bytes, name: Optional[str]) -> None:
    """Writes a text to a file, or to standard output if there is no name. Raises OSError."""
    if name is None:
        write_output(text)
    else:
        write_files({name: text})


def write_output(text: bytes) -> None:
    """Writes all of a text to standard output. Raises OSError."""
    _refuse_closed(sys.stdout, "standard output")
    _write_all(1, text, "standard output")


def _write_all(number: int, text: bytes, name: str) -> None:
    left = memoryview(text)
    with _named(name):
        while left:
            left = left[os.write(number, left) :]


@contextmanager
def _named(name: str) -> Iterator[None]:
    """Puts a file's name into each OSError of a block."""
    try:
        yield
    except OSError as fault:
        raise OSError(fault.errno, fault.strerror, name) from None


class _Staged(NamedTuple):
    """A file that is written: its name for the user, the path to which it is moved, and the path beside it where it is now."""

    name: str
    target: str
    beside: str


def write_files(texts: Dict[str, bytes]) -> None:
    """Writes files, all of them or none: each beside its name, to which it is moved once all are written. Raises OSError."""
    end_at_interrupts()
    staged: List[_Staged] = []
    try:
        for name, text in texts.items():
            if is_written_in_place(name):
                _write_in_place(name, text)
            else:
                staged.append(_staged(name))
                _write_beside(staged[-1], text)
        with held_back():
            _move(staged)
    finally:
        for file in staged:
            remove(file.beside)


def is_written_in_place(name: str) -> bool:
    """Tells whether a name is that of an open file, a device, a pipe or a folder, or of nothing."""
    is_open_file = name.startswith(("/dev/std", "/dev/fd/", "/proc/"))
    return is_open_file or not os.path.basename(name) or os.path.exists(name) and not os.path.isfile(name)


def _write_in_place(name: str, text: bytes) -> None:
    number = os.open(name, os.O_WRONLY)
    try:
        _write_all(number, text, name)
    finally:
        os.close(number)


def _staged(name: str) -> _Staged:
    """Chooses the path beside a file. A link stays: the file to which it leads is written."""
    target = os.path.realpath(name)
    file = _Staged(name, target, _beside(target))
    unfinished.append(file.beside)
    return file


def _beside(target: str) -> str:
    return os.path.join(os.path.dirname(target), f".polcert-{os.getpid()}-{os.urandom(6).hex()}")


def _write_beside(file: _Staged, text: bytes) -> None:
    """Writes a text to the path beside a file, with the permissions of the file if it is there."""
    with _named(file.name):
        is_there = os.path.exists(file.target)
        if is_there and not os.access(file.target, os.W_OK):
            raise OSError(errno.EACCES, os.strerror(errno.EACCES))
        number = os.open(file.beside, os.O_WRONLY | os.O_CREAT | os.O_EXCL, 0o666)
        try:
            _write_all(number, text, file.name)
            if is_there:
                os.fchmod(number, stat.S_IMODE(os.stat(file.target).st_mode))
            os.fsync(number)
        finally:
            os.close(number)


def _move(staged: Sequence[_Staged]) -> None:
    """Moves files to their names. If one cannot be moved, those before it become again what they were. What was there before is kept until all are
    moved."""
    olds: List[Tuple[str, str]] = []
    with ExitStack() as undo:
        for file in staged:
            with _named(file.name):
                old = _move_aside(file.target, undo) if file is not staged[-1] else None
                os.replace(file.beside, file.target)
            if old:
                olds.append((file.name, old))
            else:
                undo.callback(os.unlink, file.target)
        undo.pop_all()
    for name, old in olds:
        _remove_old(name, old)


def _move_aside(target: str, undo: ExitStack) -> Optional[str]:
    """Moves a file to a path beside it, which is returned; None if there is no such file."""
    if not os.path.exists(target):
        return None
    old = _beside(target)
    os.rename(target, old)
    undo.callback(os.rename, old, target)
    return old


def _remove_old(name: str, old: str) -> None:
    try:
        os.unlink(old)
    except OSError as fault:
        with suppress(OSError):
            say(f"{program_name()}: {name} is written, but what was there before is left in {old}: {fault.strerror}")


def refuse_unwritable(outputs: Sequence[str]) -> None:
    """Raises OSError if a file cannot be written for its name, its folder or its permissions: before a script computes for long."""
    for name in outputs:
        target = os.path.realpath(name)
        folder = os.path.dirname(target)
        if os.path.isdir(name):
            raise IsADirectoryError(errno.EISDIR, os.strerror(errno.EISDIR), name)
        if not os.path.isdir(folder):
            raise FileNotFoundError(errno.ENOENT, os.strerror(errno.ENOENT), name)
        if not all(os.access(path, os.W_OK) for path in (folder, target) if os.path.exists(path)):
            raise PermissionError(errno.EACCES, os.strerror(errno.EACCES), name)


def refuse_unwritable_folder(name: str, files: Sequence[str]) -> None:
    """The same for a folder with these files, which is made if it is missing, with those above it."""
    if os.path.isdir(name):
        refuse_unwritable(files)
        return
    path = os.path.realpath(name)
    while not os.path.lexists(path):
        path = os.path.dirname(path)
    if not os.path.isdir(path):
        raise NotADirectoryError(errno.ENOTDIR, os.strerror(errno.ENOTDIR), name)
    if not os.access(path, os.W_OK):
        raise PermissionError(errno.EACCES, os.strerror(errno.EACCES), name)


def refuse_json_beside_text(parser: Parser, words: argparse.Namespace) -> None:
    """Ends a run with --json whose text would stand on standard output too."""
    if words.json and words.output in (None, "/dev/stdout"):
        parser.error("--json writes to standard output: name a file for the text with -o")


def refuse_overwriting(inputs: Sequence[str], outputs: Sequence[Optional[str]]) -> None:
    """Raises Refusal if an output is a file that is also an input. None is standard output."""
    for output, name in product(outputs, inputs):
        with suppress(OSError):
            one, other = os.stat(0 if name == STANDARD_INPUT else name), os.stat(1 if output is None else output)
            if stat.S_ISREG(one.st_mode) and os.path.samestat(one, other):
                raise Refusal(f"{output or 'standard output'}: the file is also read ({name}): write to another one")
