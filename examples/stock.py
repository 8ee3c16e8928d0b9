#!/usr/bin/env python3
"""polcert print stock.POMDP | python3 stock.py OUT: a policy for the shop, as OUT.pg and OUT.alpha.

Value iteration finds the best action for each state. The graph has a node for each of these actions, in the order of the
states, and goes to the one of the state that is seen: in an MDP what is observed is the end state.
"""
import sys

import controller


def best_actions(model, steps=2000):
    """The action that is worth most in each state."""
    worth = [0.0] * model.states
    for _ in range(steps):
        by_action = [controller.one_step(model, a, [worth] * model.observations) for a in range(len(model.moves))]
        worth = [max(values) for values in zip(*by_action)]
    return [max(range(len(by_action)), key=lambda a: by_action[a][s]) for s in range(model.states)]


def main(name):
    model = controller.read_full_form(sys.stdin.read())
    best = best_actions(model)
    nodes = list(dict.fromkeys(best))
    graph = controller.Graph(nodes, [[nodes.index(action) for action in best]] * len(nodes))
    controller.write_graph(graph, name + ".pg")
    controller.write_vectors(graph, controller.evaluate(model, graph), name + ".alpha")


if __name__ == "__main__":
    controller.run(main, "polcert print stock.POMDP | python3 stock.py OUT", 1)
