#!/usr/bin/env python3
"""Writes a model of tables of numbers, which may be lists or arrays of numpy. Copy `write_model`; the tables below it are an example.

    python3 write_model.py > press.POMDP
    polcert-mend press.POMDP > exact.POMDP
"""
import sys


# (Six parameters: the parts of a model, and where it is written.)
def write_model(out, discount, start, transitions, observations, rewards):
    """Writes a model with the probabilities start[s], transitions[a][s][e] and observations[a][e][z], e the state where an action ends, and the
    rewards rewards[a][s]."""
    print(f"discount: {discount} values: reward", file=out)
    print(f"states: {len(start)} actions: {len(transitions)} observations: {len(observations[0][0])}", file=out)
    print("start:", *map(float, start), file=out)
    for letter, table in (("T", transitions), ("O", observations)):
        for action, rows in enumerate(table):
            for number, row in enumerate(rows):
                cells = ((column, float(probability)) for column, probability in enumerate(row) if probability != 0)
                out.writelines(f"{letter}: {action} : {number} : {column} {probability}\n" for column, probability in cells)
    for action, values in enumerate(rewards):
        for state, value in enumerate(values):
            print(f"R: {action} : {state} : * : * {float(value)}", file=out)


# A press is right (0) or worn (1). It is run (0) or mended (1), and the last piece looks good (0) or bad (1).
LOOKS = [[5 / 6, 1 / 6], [1 / 6, 5 / 6]]
PRESS = {
    "discount": 0.9,
    "start": [1, 0],
    "transitions": [[[2 / 3, 1 / 3], [0, 1]], [[1, 0], [1, 0]]],
    "observations": [LOOKS, LOOKS],
    "rewards": [[3, -1], [-4, -4]],
}

if __name__ == "__main__":
    write_model(sys.stdout, **PRESS)
