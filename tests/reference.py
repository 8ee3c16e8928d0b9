"""reference.py PROGRAM WORD ..: answers as polcert, polcert_bound or polcert_robust do, from the second computation of tests/expected.py.

It knows `model`, `check`, `lower` and `raise` of texts that can be read (`raise` without points), and `--version`, which scripts ask for.
To all else the status is 99.
"""
import pathlib
import re
import sys
from fractions import Fraction
from typing import Callable, List, Optional, Sequence, Tuple

from runner import Ran
from expected import ABOVE, Controller, Near, answer, bound_answers, near_answer, points_answer, polcert_answers, refusal, rounded_values, summary_of
from informed import exact_model
from polcert.files import FileError, Graph, Model, Source, read_graph, read_model, read_vectors
from polcert.points import WholeCells, read_points
from polcert.version import VERSION

MOST_STEPS = 5_000_000  # of a model, with those of probability 0: one with more of them is not judged
UNKNOWN = 99
COUNTS = {  # of files
    'polcert model': [1], 'polcert check': [3], 'polcert check --at-most': [3], 'polcert lower': [3], 'polcert raise': [3],
    'polcert_bound check': [2, 3], 'polcert_bound raise': [2], 'polcert_robust check': [3], 'polcert_robust check --at-most': [3],
    'polcert_robust lower': [3], 'polcert_robust raise': [3],
}


def is_large(model: Model) -> bool:
    return model.actions.count * model.states.count ** 2 * (1 if model.is_mdp else model.observations.count) > MOST_STEPS


def answer_to_texts(command: str, texts: Sequence[bytes], near: Near) -> Optional[Ran]:
    """What is answered to texts; None if the model is large. Raises FileError at a text that is refused."""
    model = read_model(Source('model', texts[0]))
    if command == 'polcert model':
        return Ran(0, summary_of(model), b'')
    if is_large(model):
        return None
    if command.startswith('polcert_bound '):
        vectors = read_vectors(Source('vectors', texts[1]), model, Graph(list(range(model.actions.count)), []))
        if len(texts) == 2:
            return bound_answers(exact_model(model), vectors)[command]
        cells = WholeCells(model)
        return points_answer(cells, rounded_values(vectors, ABOVE), read_points(Source('points', texts[2]), cells))[1]
    graph = read_graph(Source('graph', texts[1]), model)
    vectors = read_vectors(Source('vectors', texts[2]), model, graph)
    if command.startswith('polcert_robust '):
        return near_answer(command, Controller(exact_model(model), graph), vectors, model.observations.count, near)
    return polcert_answers(exact_model(model), graph, vectors)[command]


def is_distance(word: str, most: int, decimals: int) -> bool:
    return bool(re.fullmatch(r'[0-9]*\.?[0-9]+', word)) and Fraction(word) <= most and Fraction(word) * 10 ** decimals % 1 == 0


def distances_and_files(words: Sequence[str]) -> Tuple[Optional[Near], List[str]]:
    """The distances among words, and the other words; None in place of distances that are refused."""
    files, found = list(words), {'--within': '', '--percent': '', '--rewards-within': '0'}
    for option in found:
        if option in files[:-1]:
            at = files.index(option)
            found[option] = files[at + 1]
            del files[at:at + 2]
    within, percent, rewards = found.values()
    is_right = is_distance(percent, 100, 6) and not within if percent else is_distance(within, 1, 12)
    return (Near(percent or within, rewards, bool(percent)) if is_right and is_distance(rewards, 1_000_000, 6) else None), files


def answer_to(program: str, words: Sequence[str], given: Callable[[], bytes]) -> Optional[Ran]:
    """What a program answers to words, and standard input that is given; None if there is no second computation, or a file is not read."""
    options = [word for word in words[1:] if word == '--at-most']
    files = [word for word in words[1:] if word != '--at-most']
    near: Optional[Near] = Near('0', '0')
    if program == 'polcert_robust':
        near, files = distances_and_files(files)
    if words == ['--version']:
        return answer(0, f'{program} {VERSION}')
    command = ' '.join([program, *(words[:1] or ['model']), *options])
    if near is None or len(files) not in COUNTS.get(command, []) and words or command not in COUNTS or any(file.startswith('-') for file in files):
        return None
    try:
        return answer_to_texts(command, [pathlib.Path(file).read_bytes() for file in files] if words else [given()], near)
    except FileError as fault:
        return refusal(2, fault.refusal)
    except OSError:
        return None


def main() -> None:
    ran = answer_to(sys.argv[1], sys.argv[2:], sys.stdin.buffer.read) or Ran(UNKNOWN, b'', b'no second computation\n')
    sys.stdout.buffer.write(ran.out)
    sys.stderr.buffer.write(ran.err)
    sys.exit(ran.status)


if __name__ == '__main__':
    main()
