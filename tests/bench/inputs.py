#!/usr/bin/env python3
"""Makes the inputs of the benchmarks: models, policy graphs and vectors of known sizes, the same at each call.

    inputs.py FOLDER            writes all of them into FOLDER, but for those of MOST
    inputs.py FOLDER NAME ..    writes those

Nothing here is a test: `tests/bench/run` and `tests/bench/turns` time the program on them, and docs/BENCHMARKS.md has the times.
"""
import os
import random
import sys
from typing import Callable, Dict, Iterable, Iterator, List, NamedTuple, Sequence, TextIO, Tuple


class Counts(NamedTuple):
    states: int
    actions: int
    observations: int


def preamble(out: TextIO, states: int, actions: int, observations: int) -> None:
    out.write(f'discount: 0.95\nvalues: reward\nstates: {states}\nactions: {actions}\n')
    if observations:
        out.write(f'observations: {observations}\n')


def split(generator: random.Random, parts: int) -> List[int]:
    """So many numbers of millionths above 0 that sum to one."""
    cuts = sorted(generator.sample(range(1, 1_000_000), parts - 1))
    return [b - a for a, b in zip([0] + cuts, cuts + [1_000_000])]


def decimal(millionths: int) -> str:
    text = f'{millionths / 1_000_000:.6f}'.rstrip('0').rstrip('.')
    return text or '0'


# (Six parameters: where, from what and in which form cells are written.)
def single_cells(out: TextIO, table: str, generator: random.Random, rows: Iterable[Tuple[int, int]], columns: int, parts: int) -> None:
    """One line for each cell above 0, `parts` of them in a row."""
    for action, state in rows:
        chosen = sorted(generator.sample(range(columns), parts))
        for column, share in zip(chosen, split(generator, parts)):
            out.write(f'{table}: {action} : {state} : {column} {decimal(share)}\n')


def pairs(actions: int, states: int) -> Iterator[Tuple[int, int]]:
    return ((action, state) for action in range(actions) for state in range(states))


def sparse_cells(folder: str, states: int = 1000) -> None:
    """A plain sparse model: 16 actions, 3 successors each, one line for each cell (1.4 MB with 1,000 states)."""
    generator = random.Random(1)
    with open(f'{folder}/sparse{states}.POMDP', 'w') as out:
        preamble(out, states, 16, 1)
        single_cells(out, 'T', generator, pairs(16, states), states, 3)
        out.write('O: * uniform\nR: * : * : 0 : * 1\n')


def named_rewards(folder: str, lines: int = 700_000) -> None:
    """Reward lines by names, each of a single cell."""
    generator = random.Random(2)
    names = [f's{number}' for number in range(200)]
    with open(f'{folder}/rewards{lines}.POMDP', 'w') as out:
        out.write('discount: 0.95\nvalues: reward\n')
        out.write('states: ' + ' '.join(names) + '\n')
        out.write('actions: left right wait listen\nobservations: ' + ' '.join(f'z{n}' for n in range(20)) + '\n')
        out.write('T: * identity\nO: * uniform\n')
        for _ in range(lines):
            action = generator.choice(['left', 'right', 'wait', 'listen'])
            start, end, seen = generator.choice(names), generator.choice(names), generator.randrange(20)
            out.write(f'R: {action} : {start} : {end} : z{seen} {generator.randrange(-100, 100)}\n')


def million_cells(folder: str, order: str) -> None:
    """1,000,000 single cells of T, in rising or falling order."""
    lines = [f'T: 0 : {s} : {e} 0.001\n' for s in range(1000) for e in range(1000)]
    if order == 'falling':
        lines.reverse()
    with open(f'{folder}/cells_{order}.POMDP', 'w') as out:
        preamble(out, 1000, 1, 1)
        out.writelines(lines)
        out.write('O: * uniform\n')


def graph_and_vectors(stem: str, nodes: int, counts: Counts, seed: int, value: str = '0.5') -> None:
    generator = random.Random(seed)
    with open(f'{stem}.pg', 'w') as graph, open(f'{stem}.alpha', 'w') as vectors:
        for node in range(nodes):
            action = generator.randrange(counts.actions)
            successors = ' '.join(str(generator.randrange(nodes)) for _ in range(counts.observations))
            graph.write(f'{node} {action} {successors}\n')
            vectors.write(f'{action}\n' + ' '.join([value] * counts.states) + '\n\n')


def matrix(out: TextIO, head: str, generator: random.Random, rows: int, columns: int) -> None:
    """An entry with a number for each cell of a matrix, a row a line."""
    out.write(head + '\n')
    for _ in range(rows):
        out.write(' '.join(decimal(share) for share in split(generator, columns)) + '\n')


def rewards(out: TextIO, generator: random.Random, action: int, states: int, ends: str) -> None:
    """One line of a reward for each start state, with these end states (and observations)."""
    for start in range(states):
        out.write(f'R: {action} : {start} : {ends} {generator.randrange(1, 10)}\n')


def dense_check(folder: str, name: str = 'dense') -> None:
    """500 nodes over a dense model of 128 states, 4 actions and 32 observations; every pair passes."""
    generator = random.Random(3)
    with open(f'{folder}/{name}.POMDP', 'w') as out:
        preamble(out, 128, 4, 32)
        for action in range(4):
            matrix(out, f'T: {action}', generator, 128, 128)
            matrix(out, f'O: {action}', generator, 128, 32)
            rewards(out, generator, action, 128, '* : *')
    graph_and_vectors(f'{folder}/{name}', 500, Counts(128, 4, 32), 4)


def single_reward_check(folder: str, lines: int = 400_000) -> None:
    """The same with so many lines of a reward for a single cell of R; every pair passes. With the vectors of `short` one doesn't."""
    dense_check(folder, 'singles')
    with open(f'{folder}/singles.alpha') as vectors, open(f'{folder}/short.alpha', 'w') as short:
        short.write(vectors.read().replace('0.5', '1000', 1))
    generator = random.Random(11)
    with open(f'{folder}/singles.POMDP', 'a') as out:
        for _ in range(lines):
            places = ' : '.join(str(generator.randrange(count)) for count in (4, 128, 128, 32))
            out.write(f'R: {places} {generator.randrange(1, 10)}\n')


def sparse_check(folder: str) -> None:
    """2,000 nodes over a sparse model of 1,000 states, 8 actions and 2 observations (as many as the limit of reward
    cells allows); every pair passes."""
    generator = random.Random(5)
    with open(f'{folder}/wide.POMDP', 'w') as out:
        preamble(out, 1000, 8, 2)
        single_cells(out, 'T', generator, pairs(8, 1000), 1000, 4)
        single_cells(out, 'O', generator, pairs(8, 1000), 2, 2)
        for action in range(8):
            rewards(out, generator, action, 1000, '* : *')
    graph_and_vectors(f'{folder}/wide', 2000, Counts(1000, 8, 2), 6, value='0.500000000000')


def mdp_check(folder: str) -> None:
    """20 nodes over an MDP of 1,000 states and 16 actions, 3 successors each; every pair passes."""
    generator = random.Random(7)
    with open(f'{folder}/mdp.POMDP', 'w') as out:
        preamble(out, 1000, 16, 0)
        single_cells(out, 'T', generator, pairs(16, 1000), 1000, 3)
        for action in range(16):
            rewards(out, generator, action, 1000, '*')
    graph_and_vectors(f'{folder}/mdp', 20, Counts(1000, 16, 1000), 8)


def full_check(folder: str) -> None:
    """2,000 nodes over a model of 1,000 states and 4 actions from each of which every state follows; every pair passes."""
    with open(f'{folder}/full.POMDP', 'w') as out:
        preamble(out, 1000, 4, 2)
        out.write('T: * uniform\nO: * uniform\nR: * : * : * : * 1\n')
    graph_and_vectors(f'{folder}/full', 2000, Counts(1000, 4, 2), 15)


def many_nodes_check(folder: str) -> None:
    """10,000 nodes over a model of 2 states, 3 actions and 2 observations; every pair passes."""
    with open(f'{folder}/nodes.POMDP', 'w') as out:
        preamble(out, 2, 3, 2)
        out.write('T: * uniform\nO: * uniform\nR: * : * : * : * -1\n')
    graph_and_vectors(f'{folder}/nodes', 10_000, Counts(2, 3, 2), 13, value='-20')


def many_actions_check(folder: str) -> None:
    """One node over a model of 5 states, 1,000 actions and 2 observations; every pair passes."""
    with open(f'{folder}/actions.POMDP', 'w') as out:
        preamble(out, 5, 1000, 2)
        out.write('T: * uniform\nO: * uniform\nR: * : * : * : * 1\n')
    graph_and_vectors(f'{folder}/actions', 1, Counts(5, 1000, 2), 14)


def mdp_rewards_check(folder: str) -> None:
    """300 nodes over an MDP of 1,000 states and 16 actions, 5 successors each, and a line of a reward for each successor; every
    pair passes."""
    generator = random.Random(20)
    with open(f'{folder}/mdp_rewards.POMDP', 'w') as out:
        preamble(out, 1000, 16, 0)
        for action, state in pairs(16, 1000):
            for end, share in zip(sorted(generator.sample(range(1000), 5)), split(generator, 5)):
                out.write(f'T: {action} : {state} : {end} {decimal(share)}\nR: {action} : {state} : {end} {generator.randrange(1, 10)}\n')
    graph_and_vectors(f'{folder}/mdp_rewards', 300, Counts(1000, 16, 1000), 21)


def large_text(folder: str) -> None:
    """A text of some 50 MB: six matrices of T of 1,000,000 numbers each."""
    generator = random.Random(9)
    with open(f'{folder}/large.POMDP', 'w') as out:
        preamble(out, 1000, 6, 1)
        for action in range(6):
            matrix(out, f'T: {action}', generator, 1000, 1000)
        out.write('O: * uniform\n')


def six_decimals(out: TextIO, head: str, generator: random.Random, rows: int, columns: int) -> None:
    """An entry like `matrix`, each number with all its six decimals."""
    out.write(head + '\n')
    for _ in range(rows):
        out.write(' '.join(f'0.{share:06d}' for share in split(generator, columns)) + '\n')


def matrices(folder: str) -> None:
    """48 MB of matrices: six of T of 945 rows and columns."""
    generator = random.Random(10)
    with open(f'{folder}/matrices.POMDP', 'w') as out:
        preamble(out, 945, 6, 1)
        for action in range(6):
            six_decimals(out, f'T: {action}', generator, 945, 945)
        out.write('O: * uniform\n')


def signed_rewards(folder: str) -> None:
    """20 MB of matrices of rewards with signs, 700 by 4, over a model of 700 states."""
    generator = random.Random(22)
    with open(f'{folder}/signed.POMDP', 'w') as out:
        preamble(out, 700, 8, 4)
        out.write('T: * identity\nO: * uniform\n')
        for action, state in list(pairs(8, 700))[::4]:
            out.write(f'R: {action} : {state}\n')
            for _ in range(700):
                out.write(' '.join(f'{generator.randrange(-1000, 1000) / 10}' for _ in range(4)) + '\n')


def all_cells(folder: str) -> None:
    """50 MB with a line for each of 2,000,000 cells of T."""
    generator = random.Random(11)
    with open(f'{folder}/cells.POMDP', 'w') as out:
        preamble(out, 1000, 2, 1)
        for action, state in pairs(2, 1000):
            for column, share in enumerate(split(generator, 1000)):
                out.write(f'T: {action} : {state} : {column} 0.{share:06d}\n')
        out.write('O: * uniform\n')


def comments(folder: str) -> None:
    """50 MB of comment, in lines of 80 bytes, before a small model."""
    line = '# ' + 'what a line of a comment may say '.ljust(77, '.') + '\n'
    with open(f'{folder}/comments.POMDP', 'w') as out:
        out.write(line * 625_000)
        preamble(out, 2, 1, 1)
        out.write('T: * identity\nO: * uniform\n')


def long_vectors(folder: str) -> None:
    """120 MB of vectors: 4,300 of 1,000 values of 25 decimals each, for a graph that stays where it is; every pair passes."""
    generator = random.Random(12)
    with open(f'{folder}/vectors.POMDP', 'w') as out:
        preamble(out, 1000, 1, 1)
        out.write('T: * identity\nO: * uniform\nR: * : * : * : * 1\n')
    with open(f'{folder}/vectors.pg', 'w') as graph, open(f'{folder}/vectors.alpha', 'w') as vectors:
        for node in range(4300):
            graph.write(f'{node} 0 {node}\n')
            vectors.write('0\n' + ' '.join(f'0.{generator.randrange(10 ** 25):025d}' for _ in range(1000)) + '\n\n')


def equal_rows(folder: str) -> None:
    """16 actions of 1,000 states, whose rows are all equal and are given cell by cell by 1,000 entries of 21 bytes."""
    with open(f'{folder}/columns.POMDP', 'w') as out:
        preamble(out, 1000, 16, 1)
        out.writelines(f'T: * : * : {column} 0.001\n' for column in range(1000))
        out.write('O: * uniform\n')


def hidden_entries(folder: str) -> None:
    """`T: * uniform` over 16,000,000 cells, and 10,000 entries that cover everything with 0."""
    with open(f'{folder}/hidden.POMDP', 'w') as out:
        preamble(out, 1000, 16, 1)
        out.write('T: * : * : * 0\n' * 10_000)
        out.write('T: * uniform\nO: * uniform\nR: * : * : * : * 1\n')


def many_states_check(folder: str, states: int) -> None:
    """40 nodes over a sparse model of so many states, 4 actions and 30 observations: 4 successors and 3 observations each, and a
    reward for each action and start state; every pair passes."""
    generator = random.Random(16)
    name = f'states{states}'
    with open(f'{folder}/{name}.POMDP', 'w') as out:
        preamble(out, states, 4, 30)
        single_cells(out, 'T', generator, pairs(4, states), states, 4)
        single_cells(out, 'O', generator, pairs(4, states), 30, 3)
        for action in range(4):
            rewards(out, generator, action, states, '* : *')
    graph_and_vectors(f'{folder}/{name}', 40, Counts(states, 4, 30), 17)


def most_cells(folder: str) -> None:
    """As many cells of T above 0 as a large table may have, a line each (some 400 MB): 10,000 states of 1,677 successors each, all
    but the last of the same weight."""
    with open(f'{folder}/most_cells.POMDP', 'w') as out:
        preamble(out, 10_000, 1, 1)
        for state in range(10_000):
            ends = [(state + step) % 10_000 for step in range(1677)]
            out.writelines(f'T: 0 : {state} : {end} 0.000596\n' for end in ends[:-1])
            out.write(f'T: 0 : {state} : {ends[-1]} {decimal(1_000_000 - 1676 * 596)}\n')
        out.write('O: * uniform\n')


def most_rewards(folder: str) -> None:
    """As many entries of R as there may be where R is large: 1,048,576 single rewards at random of 10,000 states."""
    generator = random.Random(18)
    with open(f'{folder}/most_rewards.POMDP', 'w') as out:
        preamble(out, 10_000, 2, 500)
        out.write('T: * identity\nO: * uniform\n')
        for _ in range(1_048_576):
            places = ' : '.join(str(generator.randrange(count)) for count in (2, 10_000, 10_000, 500))
            out.write(f'R: {places} {generator.randrange(1, 10)}\n')


def most_rows(folder: str) -> None:
    """Ten million rows of T and as many of O: 1,000 actions of 10,000 states."""
    with open(f'{folder}/most_rows.POMDP', 'w') as out:
        preamble(out, 10_000, 1000, 1)
        out.write('T: * identity\nO: * uniform\nR: * : * : * : * 1\n')


def most_zeros(folder: str) -> None:
    """The same rows of T over a single cell of weight 0 in each column, for each action and state."""
    with open(f'{folder}/most_zeros.POMDP', 'w') as out:
        preamble(out, 10_000, 1000, 1)
        out.writelines(f'T: * : * : {end} 0\n' for end in range(10_000))
        out.write('T: * identity\nO: * uniform\nR: * : * : * : * 1\n')


def most_hidden(folder: str) -> None:
    """Rows of T of which a newer single cell of weight 0 hides what the identity gives, and over which one cell is 1: 800 actions of 10,000
    states."""
    with open(f'{folder}/most_hidden.POMDP', 'w') as out:
        preamble(out, 10_000, 800, 1)
        out.write('T: * identity\n')
        out.writelines(f'T: * : * : {end} 0\n' for end in range(1, 10_000))
        out.write('T: * : * : 0 1\nO: * uniform\nR: * : * : * : * 1\n')


def most_pairs(folder: str) -> None:
    """As many pairs of a state and an observation as there may be, all of them above 0, in three actions of 10,000 states."""
    with open(f'{folder}/most_pairs.POMDP', 'w') as out:
        preamble(out, 10_000, 3, 500)
        out.write('T: * identity\n')
        out.writelines(f'O: * : * : {seen} 0.002\n' for seen in range(500))
        out.write('R: * : * : * : * 1\n')
    graph_and_vectors(f'{folder}/most_pairs', 20, Counts(10_000, 3, 500), 19)


Input = Callable[[str], None]  # writes it into a folder

# what a text within the limits costs at most; made only where they are named
MOST: Dict[str, Input] = {
    'most_cells': most_cells,
    'most_rewards': most_rewards,
    'most_rows': most_rows,
    'most_zeros': most_zeros,
    'most_hidden': most_hidden,
    'most_pairs': most_pairs,
}

INPUTS: Dict[str, Input] = {
    'sparse': sparse_cells,
    'sparse_half': lambda folder: sparse_cells(folder, 500),
    'rewards': named_rewards,
    'rewards_half': lambda folder: named_rewards(folder, 350_000),
    'cells_rising': lambda folder: million_cells(folder, 'rising'),
    'cells_falling': lambda folder: million_cells(folder, 'falling'),
    'dense': dense_check,
    'singles': single_reward_check,
    'wide': sparse_check,
    'mdp': mdp_check,
    'mdp_rewards': mdp_rewards_check,
    'full': full_check,
    'nodes': many_nodes_check,
    'actions': many_actions_check,
    'large': large_text,
    'matrices': matrices,
    'signed': signed_rewards,
    'cells': all_cells,
    'comments': comments,
    'vectors': long_vectors,
    'columns': equal_rows,
    'hidden': hidden_entries,
    'states1000': lambda folder: many_states_check(folder, 1000),
    'states2500': lambda folder: many_states_check(folder, 2500),
    'states5000': lambda folder: many_states_check(folder, 5000),
    'states10000': lambda folder: many_states_check(folder, 10_000),
}


def main(folder: str, names: Sequence[str]) -> None:
    os.makedirs(folder, exist_ok=True)
    for name in names or INPUTS:
        (INPUTS | MOST)[name](folder)


if __name__ == '__main__':
    main(sys.argv[1], sys.argv[2:])
