"""The report of a certificate, as Markdown and as JSON."""
from typing import Dict, List, Optional, Sequence

from polcert.certification import Certificate
from polcert.json_output import json_text
from polcert.nearby import Nearby
from polcert.report_fields import decimal_or_none, sha256
from polcert.tokens import printable, six_decimals, table_cell

LOW = """- From below: for every number of steps, every node and every state, the expected discounted reward of these steps, plus the discounted
  vector value where they end, is at least the value of the lowered vectors, exactly. So in the long run this controller, started in node {},
  earns at least {} from the model's start."""
HIGH = """- From above, the same is at most the value of the raised vectors. So in the long run it earns at most {} from the model's start, started in
  any node."""
SEEN = """- Started in the best node for the state that is seen, it earns at least {}: the start's mean of each state's greatest lowered value, since
  the first of these holds for each. That mean is added up here, exactly, and not by a proved program."""
MOST = """- In the long run every policy that sees the observations alone (in an MDP the start state too) earns at most {} from the model's
  start."""
WRITTEN = """- The model as it was written lies {} of the mended one. In every model whose probabilities above 0 and rewards lie so near the first of
  these holds with the vectors of `{}.written.alpha`: in the long run this controller, started in node {}, earns at least {} from the start as it
  was written."""
NEAR = """- In every model whose probabilities above 0, the start's too, lie {} of this one, the first of these holds with the vectors of
  `{}.near.alpha`: in the long run this controller, started in node {}, earns at least {} from that model's start."""
PROVED = """A proved program's yes is a theorem about the bytes of these files; the last lines say whether a proof of these programs is recorded.
What floating point computed beside them is not proved: it only had to pass."""


def markdown_of(found: Certificate, given: Dict[str, bytes], programs: Sequence[str]) -> str:
    """`given` has the texts that were read, by their names; `programs` says which programs answered."""
    sentences = f"{'; '.join(found.sentences()) or 'nothing is certified'}."
    lines = [f"# {printable(found.name)}", "", sentences[0].upper() + sentences[1:], ""]
    if found.is_mended:
        lines += ["The model was mended: all but what is said of the written one is about the mended one, which stands below among the files.", ""]
    promises = [LOW.format(found.node, six_decimals(found.low))] if found.low is not None else []
    seen = found.seen if found.best != found.low else None
    others = ((found.high, HIGH), (seen, SEEN), (found.most, MOST))
    promises += [promise.format(six_decimals(value)) for value, promise in others if value is not None]
    promises += about_near("every model near", NEAR, found.name, found.near)
    promises += about_near("the model as it was written", WRITTEN, found.name, found.written)
    lines += [*promises, *(["", PROVED] if promises else []), "", "| Step | Line | Seconds |", "|---|---|---|"]
    lines += [f"| {step.name} | {table_cell(step.line)} | {step.seconds:.1f} |" for step in found.steps]
    lines += ["", "| File | | SHA-256 |", "|---|---|---|", *rows("read", given), *rows("written", found.files)]
    lines += ["", *(f"Checked by {program}." for program in programs), ""]
    return "\n".join(lines)


def about_near(words: str, promise: str, name: str, near: Optional[Nearby]) -> List[str]:
    """What is certified of models near, or why nothing is."""
    if near is None:
        return []
    if near.low is None:
        return [f"- No certificate of {words}: {printable(near.why_not)}."]
    return [promise.format(near.distances(), name, near.node, six_decimals(near.low))]


def rows(done: str, texts: Dict[str, bytes]) -> List[str]:
    """The rows of files that were read or written."""
    return [f"| `{table_cell(name)}` | {done} | `{sha256(text)}` |" for name, text in texts.items()]


def certificate_json(found: Certificate, given: Dict[str, bytes], programs: Sequence[str]) -> str:
    """The same as JSON; numbers that are exact are strings of decimals."""

    def of_near(near: Optional[Nearby]) -> Optional[Dict[str, object]]:
        distances = {} if near is None else {"within": near.within, "rewards_within": near.rewards_within}
        return None if near is None else {"at_least": decimal_or_none(near.low), "start_node": near.node, **distances}

    seen = {} if found.seen is None else {"at_least_where_the_start_is_seen": decimal_or_none(found.seen)}

    def sums(texts: Dict[str, bytes]) -> List[Dict[str, str]]:
        return [{"name": name, "sha256": sha256(text)} for name, text in texts.items()]

    return json_text(
        "polcert-certify",
        name=found.name,
        certified=found.low is not None,
        mended=found.is_mended,
        costs=found.is_cost,
        controller={"start_node": found.node, "at_least": decimal_or_none(found.low), "at_most": decimal_or_none(found.high), **seen},
        every_policy={"at_most": decimal_or_none(found.most)},
        gap=decimal_or_none(found.gap),
        near=of_near(found.near),
        written=of_near(found.written),
        steps=[{"name": step.name, "line": step.line, "seconds": round(step.seconds, 3)} for step in found.steps],
        read=sums(given),
        files=sums(found.files),
        programs=list(programs),
    )
