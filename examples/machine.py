#!/usr/bin/env python3
"""polcert print machine.POMDP | python3 machine.py OUT: a policy for the machine, as OUT.pg and OUT.alpha.

Value iteration at six beliefs, from surely working to surely broken, finds vectors as a point-based solver does.
`controller.py` makes a graph of them and evaluates it. With so few beliefs the graph is small, and not the best one.
"""
import sys

import controller


def best(vectors, belief):
    return max(vectors, key=lambda vector: sum(b * value for b, value in zip(belief, vector[1])))


def backup(model, vectors, belief):
    """The best vector of one more step at this belief: its action, and its worth in each state."""
    candidates = []
    for a in range(len(model.moves)):
        after = controller.beliefs_after(model, belief, a)
        chosen = [best(vectors, after.get(z, belief))[1] for z in range(model.observations)]
        candidates.append((a, controller.one_step(model, a, chosen)))
    return best(candidates, belief)


def solve(model, points=6, steps=400):
    vectors = [(0, [0.0, 0.0])]
    for _ in range(steps):
        found = [backup(model, vectors, [1 - i / (points - 1), i / (points - 1)]) for i in range(points)]
        vectors = sorted({(a, tuple(round(value, 9) for value in values)) for a, values in found})
    return vectors


def main(name):
    model = controller.read_full_form(sys.stdin.read())
    graph = controller.graph_of(model, solve(model))
    controller.write_graph(graph, name + ".pg")
    controller.write_vectors(graph, controller.evaluate(model, graph), name + ".alpha")


if __name__ == "__main__":
    controller.run(main, "polcert print machine.POMDP | python3 machine.py OUT", 1)
