"""Names that collide under the first key of `Names` (crates/polcert_cells/src/elements.rt), and others of their length.

A hasher folds the first sixteen bytes of such a name into its state, and its third eight bytes undo what they make of it: so all names
come to the hash of the last eight. The file has the numbers, each less the one before, for which these third bytes are letters.
"""
import itertools
import random
from typing import List

from runner import TESTS

NUMBERS = TESTS / 'cases/files/colliding-names'
LETTERS = b'abcdefghijklmnopqrstuvwxyzABCDEFGHIJKLMNOPQRSTUVWXYZ0123456789_-'
SEED, FACTOR, MASK = 0x243F6A8885A308D3, 0x9E3779B97F4A7C15, 2**64 - 1
FIRST, LAST = b'naaaaaaa', b'aaaaaaaa'


def folded(one: int, other: int) -> int:
    product = one * other
    return product & MASK ^ product >> 64


def word(part: bytes) -> int:
    return int.from_bytes(part, 'little')


def colliding_name(number: int) -> str:
    second = bytes(LETTERS[number >> 6 * at & 63] for at in range(8))
    start = folded(SEED, FACTOR ^ 16)
    third = word(LAST) ^ folded(word(FIRST) ^ start + 32 & MASK, word(second) ^ FACTOR)
    return (FIRST + second + third.to_bytes(8, 'little') + LAST).decode()


def colliding_names() -> List[str]:
    return [colliding_name(number) for number in itertools.accumulate(map(int, NUMBERS.read_text().split()))]


def other_names(count: int) -> List[str]:
    chance = random.Random(2)
    return ['n' + ''.join(chance.choice('abcdefghijklmnopqrstuvwxyz') for _ in range(31)) for _ in range(count)]
