"""Pairs of patterns for the power of a complex sample (document 02, No. 2).

As make.py: drawn from a `random.Random`, and nothing here judges.  `fused` is what the
slip gives that "each rounded once" forbids: a fused multiply-add, which takes one of the
squares into the sum unrounded.
"""

from __future__ import annotations

import functools
import itertools
import random
from typing import Iterator, Optional

from binary32 import SIGN, finite, rounded, worth
from reader import Pair

SEED = 20260
DRAWN = 6_000
# Patterns without their sign, where a power changes its ways.
EDGES = (
    0x00000000, 0x00000001, 0x00000002, 0x007FFFFF, 0x00800000, 0x00800001,  # zero, subnormal, the least normal
    0x19FFFFFF, 0x1A000000, 0x1A000001, 0x1A3504F3,  # a square is about half the least unit: 2^-75
    0x1FFFFFFF, 0x20000000, 0x20000001,  # a square is about the least normal: 2^-63
    0x39800000, 0x3F7FFFFF, 0x3F800000, 0x3F800001, 0x3F800800,  # 2^-12, 1, 1 + 2^-12
    0x5F3504F3, 0x5F3504F4,  # twice the square passes the greatest: the square root of 2^127
    0x5F7FFFFF, 0x5F800000, 0x7F7FFFFF,  # a square passes the greatest: 2^64
    0x7F800000, 0x7F800001, 0x7FBFFFFF, 0x7FC00000, 0x7FFFFFFF,  # infinity, NaNs
)  # fmt: skip


def _square(pattern: int) -> Optional[int]:
    square = rounded(worth(pattern) ** 2)
    return square if finite(square) else None


def fused(one: int, other: int) -> Optional[int]:
    """one times one, unrounded, plus the rounded square of the other; None where a part or the power is not finite."""
    if not (finite(one) and finite(other)):
        return None
    square = _square(other)
    if square is None:
        return None
    power = rounded(worth(one) ** 2 + worth(square))
    return power if finite(power) else None


def _near(rng: random.Random) -> Pair:
    """Two parts of about the same size, so that both squares count in the sum."""
    middle = rng.choice((rng.randrange(0x20800000, 0x5F000000), 0x3F800000, 0x1A000000, 0x5F3504F3, 0x20000000))
    spread = rng.choice((2, 2**12, 2**24, 2**26))
    one, other = (middle + rng.randrange(-spread, spread) for _ in range(2))
    return one, other


def drawn(rng: random.Random) -> Pair:
    """Of about the same size, or any; with any signs."""
    pair = _near(rng) if rng.random() < 0.85 else (rng.randrange(SIGN), rng.randrange(SIGN))
    one, other = (part ^ rng.choice((0, SIGN)) for part in pair)
    return one, other


def edges() -> Iterator[Pair]:
    """Every two of the edges, with every sign."""
    signed = [edge ^ sign for edge in EDGES for sign in (0, SIGN)]
    yield from itertools.product(signed, signed)


@functools.lru_cache(maxsize=1)
def vectors() -> tuple[Pair, ...]:
    """The edges and the drawn pairs, shuffled so that a part of them has some of each."""
    rng = random.Random(SEED)
    pairs = [*edges(), *(drawn(rng) for _ in range(DRAWN))]
    rng.shuffle(pairs)
    return tuple(pairs)
