"""Writes a report of a certificate to archive, in Markdown (or HTML, or JSON): the files with their SHA-256, what polcert answers, the
interval at the start and for each node, and what is proved. After a no it lists the terms of the inequality that fails. The same files give
the same bytes.

    polcert-report M.POMDP M.pg M.alpha > report.md

The vectors are lowered and raised as polcert does, so that each node gets a lower and an upper bound. With --bound the report also has what
polcert_bound says of vectors that bound every policy. Nothing of this script is proved: it runs polcert, and computes with its own reader
what it shows of single nodes and terms. The exit status is 1 if `polcert check`, or with --bound polcert_bound, answers no.
"""
import os
from fractions import Fraction
from math import ceil, floor
from typing import Dict, Iterator, List, NamedTuple, Optional, Sequence

from polcert.answers import Yes, verdict_of
from polcert.command import Parser, own_folder, read_source, refuse_overwriting, write
from polcert.files import MILLION, Source, read_graph, read_model, read_vectors
from polcert.gaps import gap_between
from polcert.html_report import controller, html_of, page, values_over_beliefs
from polcert.json_output import json_text
from polcert.recorded_programs import Program, Ran, one_line
from polcert.report_fields import decimal_or_none, sha256
from polcert.tokens import decimal, quantity, table_cell

# Of the terms of an inequality, so many are shown, the largest first.
MOST_TERMS = 20
# The words of the checks of the vectors as they are.
CHECKS = ["check"], ["check", "--at-most"]

PROMISE = """For every number of steps, every node and every state: the expected discounted reward of these steps, plus the discounted vector value
where they end, is at least (for the upper bound: at most) the vector's value, exactly; and no run of positive probability reaches a missing
successor. polcert's checker is formally verified: this sentence is proved about the bytes of the three files, for every yes."""


def row_of_file(source: Source) -> str:
    """A file's row in the table, with the sum of the text that polcert gets."""
    return f"| `{table_cell(source.name)}`{' (decompressed)' if source.is_compressed else ''} | `{sha256(source.text)}` |"


class MovedVectors(NamedTuple):
    """Vectors that polcert moved to pass from one side: the constant in words, the verdict, and the values in millionths."""

    moved: str
    verdict: str
    values: List[List[int]]


class Sides(NamedTuple):
    """Both sides; None if no constant helps."""

    lower: Optional[MovedVectors]
    upper: Optional[MovedVectors]


class Term(NamedTuple):
    """An end state and an observation, with the probability, the reward, the successor and what they add to the right side."""

    end: int
    observation: int
    probability: Fraction
    reward: Fraction
    successor: Optional[int]
    amount: Fraction


class Reporter:
    """Files that are read once, and copies of them in a folder, on which the programs run."""

    def __init__(self, program: str, folder: str, names: Sequence[str], every: Optional[str] = None) -> None:
        self.program, self.folder, self.is_no = Program(program), folder, False
        self.sources = [read_source(name) for name in names]
        self.model = read_model(self.sources[0])
        self.graph = read_graph(self.sources[1], self.model)
        self.vectors = read_vectors(self.sources[2], self.model, self.graph)
        self.copies = [self.copy(kind, source.text) for kind, source in zip(("model", "graph", "vectors"), self.sources)]
        self.every = read_source(every) if every else None
        # polcert_bound stands beside polcert
        self.bound_program = Program(os.path.join(os.path.dirname(program), "polcert_bound")) if every else None

    def copy(self, kind: str, text: bytes) -> str:
        """Writes a text into the folder and returns the file's name."""
        name = os.path.join(self.folder, kind)
        write(text, name)
        return name

    def bound(self, word: str, check: Sequence[str]) -> Optional[MovedVectors]:
        """The vectors lowered or raised, and the verdict on them. None if no constant helps."""
        ran = self.program.run(word, *self.copies)
        if ran.status:
            return None
        verdict = self.program.run("check", *check, *self.copies[:2], self.copy(word, ran.out)).line()
        vectors = read_vectors(Source(word, ran.out), self.model, self.graph)
        return MovedVectors(one_line(ran.err), verdict, [[int(value * MILLION) for value in vector.values] for vector in vectors])

    def report(self) -> str:
        """The report as Markdown."""
        return self.markdown(self.answers(), self.bounds())

    def html(self) -> str:
        """The report as one HTML file, with the controller and, for two states, values over the belief."""
        answers, bounds = self.answers(), self.bounds()
        parts = [html_of(self.markdown(answers, bounds)), controller(self.model, self.graph)]
        if bounds.lower:
            parts.append(values_over_beliefs(self.model, [[value / MILLION for value in values] for values in bounds.lower.values]))
        return page(f"Certificate of {self.sources[0].name}", parts)

    def bounds(self) -> Sides:
        return Sides(self.bound("lower", []), self.bound("raise", ["--at-most"]))

    def markdown(self, answers: str, bounds: Sides) -> str:
        parts = [answers]
        if bounds.lower and bounds.upper:
            parts.append(self.interval(bounds.lower, bounds.upper))
        else:
            parts.append("## The interval\n\nNo constant makes the vectors pass from both sides, so there is none.\n")
        if self.every and self.bound_program:
            parts.append(self.every_policy(self.every, self.bound_program))
        return "\n".join([self.head(), *parts])

    def head(self) -> str:
        lines = ["# Certificate", "", "| File | SHA-256 |", "|---|---|"]
        lines += [row_of_file(source) for source in [*self.sources, *([self.every] if self.every else [])]]
        lines += ["", f"{self.program.run('model', self.copies[0]).line()}.", f"{quantity(len(self.graph.actions), 'node')}.", ""]
        lines += [f"Checked by {self.program.about()}.", "", PROMISE, ""]
        return "\n".join(lines)

    def answers(self) -> str:
        lines = ["## The vectors as they are", ""]
        for words in CHECKS:
            ran = self.verdict(words)
            lines.append(f"- `polcert {' '.join(words)}`: {ran.line()}")
            if ran.status and " by " in ran.line():
                lines += ["", *self.explanation(ran.line(), is_above="--at-most" in words), ""]
        return "\n".join(lines) + "\n"

    # The interval

    def interval(self, lower: MovedVectors, upper: MovedVectors) -> str:
        weights = self.model.start_weights()
        lines = ["## The interval", "", f"- {lower.moved}: {lower.verdict}", f"- {upper.moved}: {upper.verdict}", ""]
        lines += ["What each node is worth at the model's start:", "", "| Node | Action | At least | At most |", "|---|---|---|---|"]
        for node, action in enumerate(self.graph.actions):
            least = floor(mean(weights, lower.values[node]))
            most = ceil(mean(weights, upper.values[node]))
            lines.append(f"| {node} | {self.model.actions.label(action)} | {decimal(least)} | {decimal(most)} |")
        if self.model.discount == 1:
            lines += ["", "The discount is 1, so the vector value at the end does not fade: read the bounds with it."]
        return "\n".join(lines) + "\n"

    def every_policy(self, vectors: Source, program: Program) -> str:
        """What polcert_bound says of vectors with one for each action."""
        ran = self.run_bound(vectors, program)
        about = "Policies that see the observations alone, whatever they remember, from the model's start:"
        return f"## Every policy\n\n{about}\n\n- `polcert_bound check`: {ran.line()}\n\nChecked by {program.about()}.\n"

    def run_bound(self, vectors: Source, program: Program) -> Ran:
        ran = program.run("check", self.copies[0], self.copy("bound", vectors.text))
        self.is_no |= ran.status > 0
        return ran

    # The same as JSON

    def as_json(self) -> str:
        """The report without the terms of a no; exact numbers are strings of decimals."""
        verdicts = [{"command": f"polcert {' '.join(words)}", "line": self.verdict(words).line()} for words in CHECKS]
        lower, upper = self.bounds()
        low, high = (yes_of(found.verdict) if found else None for found in (lower, upper))
        every = self.run_bound(self.every, self.bound_program).line() if self.every and self.bound_program else None
        most = yes_of(every) if every else None
        given = [*self.sources, *([self.every] if self.every else [])]
        programs = [self.program, *([self.bound_program] if self.bound_program else [])]
        return json_text(
            "polcert-report",
            model=self.program.run("model", self.copies[0]).line(),
            verdicts=verdicts,
            lowered=lower and {"line": lower.moved, "verdict": lower.verdict},
            raised=upper and {"line": upper.moved, "verdict": upper.verdict},
            controller={"start_node": low and low.node, "at_least": amount_of(low), "at_most": amount_of(high)},
            width=gap_of(low, high),
            nodes=[self.node_fields(node, lower, upper) for node in range(len(self.graph.actions))],
            every_policy=every and {"line": every, "at_most": amount_of(most)},
            # (with discount 1 each bound counts other vectors' values at the end)
            gap=gap_of(low, most) if self.model.discount < 1 else None,
            files=[{"name": source.name, "sha256": sha256(source.text), "decompressed": source.is_compressed} for source in given],
            programs=[program.about() for program in programs],
        )

    def verdict(self, words: Sequence[str]) -> Ran:
        ran = self.program.run(*words, *self.copies)
        self.is_no |= ran.status > 0 and words == ["check"]
        return ran

    def node_fields(self, node: int, lower: Optional[MovedVectors], upper: Optional[MovedVectors]) -> Dict[str, object]:
        weights = self.model.start_weights()
        least = decimal(floor(mean(weights, lower.values[node]))) if lower else None
        most = decimal(ceil(mean(weights, upper.values[node]))) if upper else None
        return {"node": node, "action": self.model.actions.label(self.graph.actions[node]), "at_least": least, "at_most": most}

    # What a no says

    def explanation(self, line: str, is_above: bool) -> List[str]:
        """The terms of the inequality at the pair that a verdict names."""
        words = line.replace(",", "").split()
        node, state = int(words[words.index("node") + 1]), int(words[words.index("state") + 1])
        value = rounded(self.vectors[node].values[state], is_above)
        terms = sorted(self.terms(node, state, is_above), key=lambda term: (-abs(term.amount), term.end, term.observation))
        total = sum((term.amount for term in terms), Fraction(0))
        name, action = self.model.states.label(state), self.model.actions.label(self.graph.actions[node])
        sign = "at least" if is_above else "at most"
        lines = [f"  In node {node} and state {name} the action is {action}. The vector's value is {decimal(value)}, and it has to be {sign}"]
        lines += [f"  the sum of these terms, {nine_decimals(total / MILLION)}; it is {nine_decimals(abs(value - total) / MILLION)} off.", ""]
        lines += ["  | End state | Observation | Probability | Reward | Successor | Its value | Term |", "  |---|---|---|---|---|---|---|"]
        lines += [self.row(term, is_above) for term in terms[:MOST_TERMS]]
        if len(terms) > MOST_TERMS:
            rest = sum((term.amount for term in terms[MOST_TERMS:]), Fraction(0))
            lines.append(f"  | {len(terms) - MOST_TERMS} more | | | | | | {nine_decimals(rest / MILLION)} |")
        return lines

    def terms(self, node: int, state: int, is_above: bool) -> Iterator[Term]:
        """The end states and observations of positive probability, with amounts in millionths."""
        model, action = self.model, self.graph.actions[node]
        rewards = model.rewards.of(action, state)
        for end, moves in model.transitions.row(action, state).items():
            for observation, sees in model.observing.row(action, end).items():
                reward = rewards.at(end, observation) * (-1 if model.is_cost else 1)
                successor = self.graph.successors[node][observation]
                after = rounded(self.vectors[successor].values[end], is_above) if successor is not None else 0
                amount = moves * sees * (reward * MILLION + model.discount * after)
                yield Term(end, observation, moves * sees, reward, successor, amount)

    def row(self, term: Term, is_above: bool) -> str:
        model, successor = self.model, term.successor
        value = decimal(rounded(self.vectors[successor].values[term.end], is_above)) if successor is not None else ""
        probability, reward, amount = (nine_decimals(number) for number in (term.probability, term.reward, term.amount / MILLION))
        cells = [model.states.label(term.end), model.observations.label(term.observation), probability, reward]
        return "  | " + " | ".join([*cells, "none" if successor is None else str(successor), value, amount]) + " |"


def yes_of(line: str) -> Optional[Yes]:
    """The yes that a line is, or None if it is none."""
    answer = verdict_of(line)
    return answer if isinstance(answer, Yes) else None


def amount_of(yes: Optional[Yes]) -> Optional[str]:
    """The number of a yes."""
    return decimal_or_none(None if yes is None else yes.amount)


def gap_of(low: Optional[Yes], high: Optional[Yes]) -> Optional[str]:
    """The difference of two bounds. Raises Refusal if they contradict each other."""
    return None if low is None or high is None else decimal_or_none(gap_between(low.amount, high.amount))


def mean(weights: Dict[int, Fraction], values: Sequence[int]) -> Fraction:
    """The mean of the values, weighted with the start."""
    return sum((weight * values[state] for state, weight in weights.items()), Fraction(0))


def rounded(value: Fraction, is_above: bool) -> int:
    """A value in millionths, rounded down, or up from above."""
    return ceil(value * MILLION) if is_above else floor(value * MILLION)


def nine_decimals(value: Fraction) -> str:
    """A value with at most nine decimals; one with more is marked."""
    parts = round(value * 10**9)
    whole, rest = divmod(abs(parts), 10**9)
    text = f"{'-' if parts < 0 else ''}{whole}.{rest:09}".rstrip("0").rstrip(".")
    return text if value * 10**9 == parts else f"about {text}"


def main() -> int:
    parser = Parser("polcert-report", __doc__)
    parser.add_argument("model", metavar="MODEL", help="a model (.POMDP)")
    parser.add_argument("graph", metavar="PG", help="a policy graph (.pg)")
    parser.add_argument("vectors", metavar="ALPHA", help="the vectors of its nodes (.alpha)")
    parser.add_argument("--bound", metavar="BOUND", help="vectors of actions (.alpha) that bound every policy, for polcert_bound")
    parser.add_argument("-o", "--output", metavar="FILE", help="write the report there, and not to standard output")
    form = parser.add_mutually_exclusive_group()
    form.add_argument("--json", action="store_true", help="write the report as JSON (the terms of a no are not in it)")
    form.add_argument("--html", action="store_true", help="write the report as one HTML file, with drawings; dot of Graphviz draws the controller")
    parser.add_argument("--program", metavar="FILE", default="polcert", help="the program to run (polcert)")
    words = parser.parse_args()
    names = [words.model, words.graph, words.vectors]
    refuse_overwriting([*names, *([words.bound] if words.bound else [])], [words.output])
    with own_folder() as folder:
        reporter = Reporter(words.program, folder, names, words.bound)
        report = reporter.as_json() if words.json else reporter.html() if words.html else reporter.report()
    write(report.encode(), words.output)
    return 1 if reporter.is_no else 0
