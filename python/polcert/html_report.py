"""The report of polcert-report as one HTML file that needs no network: its Markdown, and drawings."""
import re
from html import escape
from itertools import groupby
from typing import List, Sequence

from polcert.drawing import MOST_IN_A_ROW, drawn, named, picture_of_values, successors
from polcert.files import Graph, Model

_STYLE = """body { font-family: sans-serif; max-width: 60em; margin: 2em auto; padding: 0 1em; line-height: 1.4 }
table { border-collapse: collapse; margin: 1em 0 } td, th { border: 1px solid #bbb; padding: 0.2em 0.6em; text-align: left }
code { overflow-wrap: anywhere } div { overflow: auto }"""


def page(title: str, parts: Sequence[str]) -> str:
    head = f'<!DOCTYPE html>\n<html lang="en">\n<head>\n<meta charset="utf-8"/>\n<title>{escape(title)}</title>\n<style>\n{_STYLE}\n</style>\n</head>'
    return "\n".join([head, "<body>", *parts, "</body>", "</html>", ""])


def html_of(markdown: str) -> str:
    """The HTML of what the report writes: headings, tables, lists, paragraphs and code."""
    parts: List[str] = []
    lines = (line.strip() for line in markdown.splitlines())
    for kind, group in groupby(lines, kind_of):
        block = list(group)
        if kind == "table":
            parts.append(table_of(block))
        elif kind == "list":
            parts.append("<ul>" + "".join(f"<li>{inline(line[2:])}</li>" for line in block) + "</ul>")
        elif kind == "heading":
            for line in block:
                level = len(line) - len(line.lstrip("#"))
                parts.append(f"<h{level}>{inline(line[level:].strip())}</h{level}>")
        elif kind == "text":
            parts.append(f"<p>{inline(' '.join(block))}</p>")
    return "\n".join(parts)


def kind_of(line: str) -> str:
    if not line:
        return ""
    return {"|": "table", "#": "heading"}.get(line[0], "list" if line.startswith("- ") else "text")


def table_of(lines: Sequence[str]) -> str:
    """The table of these lines, of which the second one separates its head."""
    rows = [[cell.strip() for cell in line.strip("|").split("|")] for line in lines]
    head = "".join(f"<th>{inline(cell)}</th>" for cell in rows[0])
    body = ("<tr>" + "".join(f"<td>{inline(cell)}</td>" for cell in row) + "</tr>" for row in rows[2:])
    return "\n".join([f"<table>\n<tr>{head}</tr>", *body, "</table>"])


def inline(text: str) -> str:
    return re.sub(r"`([^`]*)`", r"<code>\1</code>", escape(text, quote=False))


def controller(model: Model, graph: Graph) -> str:
    """The graph as a drawing that scrolls, and as a table if Graphviz is not there or there is more than a drawing shows at a glance."""
    picture = drawn(model, graph)
    parts = ["<h2>The controller</h2>", *([] if picture is None else [f"<div>{picture}</div>"])]
    if picture is None or len(graph.actions) > MOST_IN_A_ROW:
        parts.append(table_of(rows_of_graph(model, graph)))
    return "\n".join(parts)


def rows_of_graph(model: Model, graph: Graph) -> List[str]:
    """The rows of a table of the graph: each node's action, and which node is next after what."""
    rows = ["| Node | Action | Then |", "|---|---|---|"]
    for node, action in enumerate(graph.actions):
        after = (f"{'none' if successor is None else f'node {successor}'} after {named(names)}"
                 for successor, names in successors(model, graph, node).items())
        rows.append(f"| {node} | {model.actions.label(action)} | {'; '.join(after)} |")
    return rows


def values_over_beliefs(model: Model, values: Sequence[Sequence[float]]) -> str:
    """What each node is certified to be worth over the belief, for two states; else nothing."""
    if model.states.count != 2:
        return ""
    picture = picture_of_values([model.states.label(state) for state in (0, 1)], values)
    return f"<h2>What each node is worth over the belief, at least</h2>\n{picture}"
