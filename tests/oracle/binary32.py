"""Single precision in exact rational numbers: document 02, No. 2, "each rounded once in single precision".

Nothing here uses the machine's floating point.  A pattern is the 32 bits as a number;
it is worth a fraction, and a fraction is rounded to the nearest pattern by its definition:
of the two that it lies between the nearer, of two that are as near the even one.
"""

from __future__ import annotations

from fractions import Fraction

SIGN = 2**31
INFINITY = 0x7F800000  # patterns without their sign: from here on none is finite
GREATEST = INFINITY - 1
LEAST_NORMAL = 0x00800000
PLACES = 23  # of the fraction
LEAST = -149  # the least unit is 2^-149
Exact = Fraction


def power_of_two(exponent: int) -> Exact:
    return Exact(2) ** exponent


def finite(pattern: int) -> bool:
    return pattern % SIGN < INFINITY


def worth(pattern: int) -> Exact:
    """What a finite pattern is worth; minus zero is worth 0."""
    assert finite(pattern)
    size, exponent = pattern % 2**PLACES, pattern % SIGN >> PLACES
    if exponent:
        size += 2**PLACES  # the leading one that is not written
    number = size * power_of_two(LEAST + max(exponent, 1) - 1)
    return -number if pattern >= SIGN else number


def _nearest_whole(number: Exact) -> int:
    """The nearest whole number; of two that are as near the even one."""
    below, rest = divmod(number.numerator, number.denominator)
    twice = 2 * rest - number.denominator
    return below + (twice > 0 or (twice == 0 and below % 2 == 1))


def _magnitude(number: Exact) -> int:
    """The e with 2^e <= number < 2^(e + 1)."""
    guess = number.numerator.bit_length() - number.denominator.bit_length()
    return guess if power_of_two(guess) <= number else guess - 1


def rounded(number: Exact) -> int:
    """The pattern nearest to a number that is not below 0; infinity from half a unit past the greatest on.

    The patterns from 0 up are in the order of what they are worth, one unit apart; so a
    number that is rounded up to the next power of two has the next exponent by itself.
    """
    assert number >= 0
    if number == 0:
        return 0
    unit = max(_magnitude(number) - PLACES, LEAST)
    return min(_nearest_whole(number / power_of_two(unit)) + (unit - LEAST << PLACES), INFINITY)
