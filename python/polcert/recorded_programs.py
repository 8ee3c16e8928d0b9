"""Runs of the proved programs, with their SHA-256, and whether a proof of these bytes is recorded."""
import shutil
import subprocess
from pathlib import Path
from typing import List, NamedTuple

from polcert.command import Refusal, read_source
from polcert.report_fields import sha256
from polcert.tokens import printable


class Ran(NamedTuple):
    """What a program wrote: its exit status, standard output and standard error."""

    status: int
    out: bytes
    err: bytes

    def line(self) -> str:
        """The one line that answers: a verdict or a refusal."""
        return one_line(self.out or self.err)


class Program:
    """A program, and the SHA-256 of its bytes."""

    def __init__(self, name: str) -> None:
        self.name, self.path = name, shutil.which(name) or name
        self.sum = sha256(read_source(self.path).text)

    def run(self, *words: str) -> Ran:
        """A run that has to give a yes or a no, or lowered or raised vectors if there are any."""
        done = subprocess.run([self.path, *words], stdin=subprocess.DEVNULL, stdout=subprocess.PIPE, stderr=subprocess.PIPE)
        ran = Ran(done.returncode, done.stdout, done.stderr)
        if ran.status not in (0, 1) or not ran.line():
            raise Refusal(f"{self.name} {words[0]}: {ran.line() or f'ended with status {ran.status} and no answer'}")
        return ran

    def about(self) -> str:
        """Which program it is, and whether a proof of its bytes is recorded. Raises Refusal if it changed."""
        if sha256(read_source(self.path).text) != self.sum:
            raise Refusal(f"{self.path}: the program changed while the report was written")
        proof = "proved" if self.sum in proved_sums() else "of which no proof is recorded here: write the report again with a proved one"
        version = self.run("--version")
        if version.status:
            raise Refusal(f"{self.name} --version: ended with status {version.status}")
        return f"{version.line()} (SHA-256 `{self.sum}`), {proof}"


def proved_sums() -> List[str]:
    """The sums of the programs of which a proof is recorded: beside the scripts if they are installed, else where `make program` leaves it."""
    top = Path(__file__).resolve().parents[2]
    records = [top / "proved", *(top.glob("crates/*/out/*.proved"))]
    lines = [line.split() for record in records if record.is_file() for line in record.read_text().splitlines()]
    return [words[1] for words in lines if len(words) == 2 and words[0] == "program"]


def one_line(text: bytes) -> str:
    return printable(text.decode(errors="replace").strip())
