"""Drawings of a policy graph: a text for Graphviz, and pictures in SVG."""
import shutil
import subprocess
from html import escape
from typing import Dict, List, Optional, Sequence

from polcert.files import Graph, Model

# Of the observations that lead from one node to another, so many are named.
_MOST_NAMED = 6
# A graph of more nodes is not laid out, and Graphviz gets so many seconds.
_MOST_DRAWN, _SECONDS = 200, 60
# A graph of more nodes is drawn from the top down: from left to right it would be too wide to look at.
MOST_IN_A_ROW = 10
_WIDTH, _HEIGHT, _MARGIN = 640, 360, 60
# What Graphviz declares for links, of which these drawings have none.
_LINKS = ' xmlns:xlink="http://www.w3.org/1999/xlink"'
_COLORS = ("#1b6ca8", "#c0392b", "#27864b", "#8e44ad", "#b9770e", "#16807a", "#555555")


def named(names: Sequence[str]) -> str:
    """Names with commas, and how many there are that do not stand there."""
    more = len(names) - _MOST_NAMED
    return ", ".join(names[:_MOST_NAMED]) + (f" and {more} more" if more > 0 else "")


def successors(model: Model, graph: Graph, node: int) -> Dict[Optional[int], List[str]]:
    """The observations after which each node follows, or none."""
    found: Dict[Optional[int], List[str]] = {}
    for observation, successor in enumerate(graph.successors[node]):
        found.setdefault(successor, []).append(model.observations.label(observation))
    return found


def dot_of(model: Model, graph: Graph) -> str:
    """A graph for Graphviz: nodes with their actions, and an edge for all observations after which the same node follows."""
    direction = "LR" if len(graph.actions) <= MOST_IN_A_ROW else "TB"
    lines = ["digraph controller {", f"  rankdir={direction};", "  node [shape=box, style=rounded];"]
    for node, action in enumerate(graph.actions):
        lines.append(f'  {node} [label="{node}: {model.actions.label(action)}"];')
        for successor, names in successors(model, graph, node).items():
            if successor is not None:
                label = "" if len(names) == len(graph.successors[node]) else named(names)
                lines.append(f'  {node} -> {successor} [label="{label}"];')
    return "\n".join([*lines, "}", ""])


def drawn(model: Model, graph: Graph) -> Optional[str]:
    """The graph as SVG by Graphviz's `dot`; None if that is not there, or does not draw it."""
    program = shutil.which("dot")
    if program is None or len(graph.actions) > _MOST_DRAWN:
        return None
    try:
        text = dot_of(model, graph).encode()
        done = subprocess.run([program, "-Tsvg"], input=text, stdout=subprocess.PIPE, stderr=subprocess.PIPE, timeout=_SECONDS)
    except (OSError, subprocess.TimeoutExpired):
        return None
    picture = done.stdout.decode(errors="replace").replace(_LINKS, "", 1)
    begin = picture.find("<svg")
    return picture[begin:] if done.returncode == 0 and begin >= 0 else None


def picture_of_values(names: Sequence[str], values: Sequence[Sequence[float]]) -> str:
    """What each node is worth over the belief, for two states, as SVG: a line for each node."""
    least, most = min(min(line) for line in values), max(max(line) for line in values)
    span = most - least or 1.0

    def height(value: float) -> float:
        return _HEIGHT - _MARGIN - (value - least) / span * (_HEIGHT - 2 * _MARGIN)

    lines = [f'<svg xmlns="http://www.w3.org/2000/svg" viewBox="0 0 {_WIDTH} {_HEIGHT}" width="{_WIDTH}" font-family="sans-serif" font-size="12">']
    left, right, bottom = _MARGIN, _WIDTH - _MARGIN, _HEIGHT - _MARGIN
    lines.append(f'<rect x="{left}" y="{_MARGIN}" width="{right - left}" height="{bottom - _MARGIN}" fill="none" stroke="#999"/>')
    for node, (first, second) in enumerate(values):
        color = _COLORS[node % len(_COLORS)]
        ends = f'x1="{left}" y1="{height(first):.1f}" x2="{right}" y2="{height(second):.1f}"'
        lines.append(f'<line {ends} stroke="{color}"><title>node {node}</title></line>')
        lines.append(f'<text x="{right + 4}" y="{height(second) + 4:.1f}" fill="{color}">{node}</text>')
    for value in (least, most):
        lines.append(f'<text x="{left - 4}" y="{height(value) + 4:.1f}" text-anchor="end">{value:.6g}</text>')
    for x, name in ((left, names[0]), (right, names[1])):
        lines.append(f'<text x="{x}" y="{bottom + 18}" text-anchor="middle">surely {escape(name)}</text>')
    return "\n".join([*lines, "</svg>"])
