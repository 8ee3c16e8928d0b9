"""Writes a model in POMDPX, the XML of APPL (SARSOP), as a .POMDP file.

    polcert-convert M.pomdpx > M.POMDP
    polcert-mend M.POMDP > M.mended.POMDP    if numbers have more than six decimals

A state is a combination of the values of the state variables, in their order, the first one slowest; actions and observations likewise. A
state variable with fullyObs is a part of each observation, but it is not seen before the first action; if all are, and nothing else is seen,
the model is an MDP. Rewards are summed. Numbers are exact decimals, if they are decimals at all.
"""
from polcert.command import Parser, Refusal, read_source, refuse_json_beside_text, refuse_overwriting, say, show, write
from polcert.conversion import converted, counts_of, summary_of_conversion
from polcert.json_output import json_text
from polcert.pomdpx import is_pomdpx
from polcert.tokens import Source


def main() -> int:
    parser = Parser("polcert-convert", __doc__)
    parser.add_argument("model", metavar="MODEL", help="a model in POMDPX (.pomdpx)")
    parser.add_argument("-o", "--output", metavar="FILE", help="write the model there, and not to standard output")
    parser.add_argument("--json", action="store_true", help="write what the model has as JSON to standard output; needs -o")
    words = parser.parse_args()
    refuse_json_beside_text(parser, words)
    refuse_overwriting([words.model], [words.output])
    source = read_source(words.model)
    if not is_pomdpx(source):
        raise Refusal(f"{source.name}: expected a model in POMDPX, found no `<pomdpx>`")
    text = converted(source)
    made = Source(source.name, text)
    if not words.json:
        say(f"{source.name}: {summary_of_conversion(made)}")
    write(text, words.output)
    if words.json:
        show(json_text("polcert-convert", read=source.name, file=words.output, **counts_of(made)))
    return 0
