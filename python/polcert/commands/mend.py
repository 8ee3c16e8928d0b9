"""Makes a model that polcert refuses for its rounding (M2 N4, M17, M18) exact, and says how far that moves it.

The text stays as it is, comments too, except for this: numbers with more than six decimals are rounded, cells of rows that do not sum to
one are written again after the text (of entries for a cell the last one holds), the numbers of a start that does not sum to one are
replaced, and for `reset` (M14) in a row of T the start is written. A model that polcert accepts stays as it is.

Standard error names each change, the distance within which the model lies as it was written (each row divided by its sum), that of what was
rounded to it, and how far any value moves. `polcert_robust check --within X` answers for every model within a distance.
"""
import argparse

from polcert.arguments import exact_number_from_0
from polcert.command import Parser, read_source, refuse_json_beside_text, refuse_overwriting, say, show, write
from polcert.files import Model
from polcert.json_output import json_text
from polcert.mending import DEFAULT_WITHIN, Mend, mended, summary, values_bound


def mend_json(model: Model, mend: Mend, output: str) -> str:
    """The changes as JSON, and how far values move."""
    lines = [{"line": model.source.position(byte)[0], "change": change} for byte, change in sorted(mend.lines)]
    counts = {"numbers": mend.numbers, "rows": mend.rows, "starts": mend.start, "resets": mend.resets}
    within = {
        name: dict(zip(("probabilities", "rewards"), distance.texts())) for name, distance in (("written", mend.written), ("rounded", mend.rounded))
    }
    found = {"changes": lines, "within": None if mend.lost else within, "bound": values_bound(model, mend.moved)}
    return json_text("polcert-mend", read=model.source.name, file=output, **found, **counts)


def report(model: Model, mend: Mend, is_quiet: bool) -> None:
    """Says each change, and how far values move."""
    source = model.source
    for byte, change in [] if is_quiet else sorted(mend.lines):
        say(f"{source.name}:{source.position(byte)[0]}: {change}")
    if not mend.lines:
        say(f"{source.name}: nothing to mend")
        return
    for line in summary(model, mend):
        say(f"{source.name}: {line}")


def arguments() -> argparse.Namespace:
    parser = Parser("polcert-mend", __doc__)
    parser.add_argument("model", metavar="MODEL", help="a model (.POMDP) whose rows may not sum to one")
    parser.add_argument("-o", "--output", metavar="FILE", help="write the mended model there, and not to standard output")
    parser.add_argument("-q", "--quiet", action="store_true", help="say only how many changes there are, and the bound")
    parser.add_argument("--within", metavar="X", type=exact_number_from_0, default=DEFAULT_WITHIN, help="the most that a probability may move, "
                        "beyond half a unit of its last written decimal (the third or a later one); default 0.00001")
    parser.add_argument("--json", action="store_true", help="write the changes and the bound as JSON to standard output; needs -o")
    words = parser.parse_args()
    refuse_json_beside_text(parser, words)
    return words


def main() -> int:
    words = arguments()
    refuse_overwriting([words.model], [words.output])
    found = mended(read_source(words.model), words.within)
    if not words.json:
        report(found.model, found.mend, words.quiet)
    write(found.text, words.output)
    if words.json:
        show(mend_json(found.model, found.mend, words.output))
    return 0
