"""Names of 32 bytes that all have one hash under the hasher of the toolchain's maps, whose seed is the same in each run.

A prefix of 24 bytes is looked for behind which the last 8 bytes of a name count for nothing: the hash of a name is folded
from products, and the first factor of the last one is made 0.
"""
import functools
import random

FACTOR, SEED, MASK = 0x9E3779B97F4A7C15, 0x243F6A8885A308D3, (1 << 64) - 1
LETTERS = b"abcdefghijklmnopqrstuvwxyzABCDEFGHIJKLMNOPQRSTUVWXYZ0123456789_"


def folded(one, other):
    product = one * other
    return (product & MASK) ^ (product >> 64)


@functools.lru_cache
def prefix(is_exported):
    """24 letters and digits, the first of them a letter, capital or small."""
    numbers, start, allowed = random.Random(1), (SEED + 32) & MASK, set(LETTERS)
    first = b"ABCDEFGH" if is_exported else b"abcdefgh"
    while True:
        head = bytes([numbers.choice(first)]) + bytes(numbers.choice(LETTERS) for _ in range(15))
        state = folded(int.from_bytes(head[:8], "little") ^ start, int.from_bytes(head[8:], "little") ^ FACTOR)
        rest = state.to_bytes(8, "little")
        if all(it in allowed for it in rest):
            return (head + rest).decode()


def name(number, is_exported=False):
    return f"{prefix(is_exported)}{number:08d}"
