#!/usr/bin/env python3
"""polcert print tiger.POMDP | python3 tiger.py OUT: a policy for the tiger, as OUT.pg and OUT.alpha.

Listen until the tiger was heard twice more often behind one door than behind the other, open the other door, and begin
again. Each node stands for how much more often it was heard on the left. `controller.py` evaluates the graph.
"""
import sys

import controller

LISTEN, OPEN_LEFT, OPEN_RIGHT = range(3)


def action(more_left):
    return {2: OPEN_RIGHT, -2: OPEN_LEFT}.get(more_left, LISTEN)


def heard(more_left):
    """What follows if the tiger is heard on the left, and if on the right."""
    return [0, 0] if abs(more_left) == 2 else [more_left + 1, more_left - 1]


def graph():
    met = [0]
    for more_left in met:
        met += [after for after in heard(more_left) if after not in met]
    return controller.Graph([action(m) for m in met], [[met.index(after) for after in heard(m)] for m in met])


def main(name):
    model = controller.read_full_form(sys.stdin.read())
    controller.write_graph(graph(), name + ".pg")
    controller.write_vectors(graph(), controller.evaluate(model, graph()), name + ".alpha")


if __name__ == "__main__":
    controller.run(main, "polcert print tiger.POMDP | python3 tiger.py OUT", 1)
