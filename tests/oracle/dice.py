"""Chance and compressed numbers, for `generate` and `record_leaves`."""

import random


class Dice:
    """Chance from getrandbits alone: random's other methods differ between versions of Python."""

    def __init__(self, seed, number):
        self.bits = random.Random((seed << 32) + number).getrandbits

    def below(self, n):
        return self.bits(32) * n >> 32

    def between(self, low, high):
        return low + self.below(high - low + 1)

    def one_in(self, n):
        return self.below(n) == 0

    def pick(self, items):
        return items[self.below(len(items))]

    def data(self, n):
        return bytes(self.bits(8) for _ in range(n))

    def shuffled(self, items):
        left = list(items)
        return [left.pop(self.below(len(left))) for _ in range(len(left))]


# Compressed numbers (II.23.2).

def unsigned(n, size):
    """n in a form of 1, 2 or 4 bytes, which may be longer than it need be."""
    return (n | {1: 0, 2: 0x8000, 4: 0xC0000000}[size]).to_bytes(size, "big")


def shortest(n):
    return unsigned(n, 1 if n < 0x80 else 2 if n < 0x4000 else 4)


def signed(n):
    for size, width in ((1, 7), (2, 14), (4, 29)):
        if -(1 << width - 1) <= n < 1 << width - 1:
            return unsigned((n << 1) % (1 << width) | (n < 0), size)
    raise ValueError(n)


def some_form(dice, n):
    sizes = [size for size, most in ((1, 0x80), (2, 0x4000), (4, 1 << 29)) if n < most]
    return unsigned(n, dice.pick(sizes) if dice.one_in(12) else sizes[0])
