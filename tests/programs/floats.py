"""How ceos writes a 32-bit float, by the definition and in exact numbers: in the fewest digits that read back as the same
bits, of these the nearest, of two that are as near the even one; what is no finite number as its bits."""
from fractions import Fraction
from typing import Iterator

from binary32 import SIGN, finite, rounded, worth  # tests/oracle is on the path


def _decade(size: Fraction) -> int:
    """The e with 10^e <= size < 10^(e + 1)."""
    e = len(str(size.numerator)) - len(str(size.denominator))
    return e if Fraction(10) ** e <= size else e - 1


def _decimals(size: Fraction) -> Iterator[tuple[int, int, int]]:
    """Of 1 to 9 digits the two decimals that the size lies between, the nearer first: digits, and whole times ten to the power e."""
    for digits in range(1, 10):
        e = _decade(size) - digits + 1
        below = size // Fraction(10) ** e
        for whole in sorted((below, below + 1), key=lambda whole: (abs(whole * Fraction(10) ** e - size), whole % 2)):
            yield digits, whole, e


def spelt_float(bits: int) -> str:
    if not finite(bits):
        return f'0x{bits:08x}'
    sign, size = '-' if bits >= SIGN else '', worth(bits % SIGN)
    if size == 0:
        return f'{sign}0'
    digits, whole, e = next(found for found in _decimals(size) if rounded(found[1] * Fraction(10) ** found[2]) == bits % SIGN)
    return sign + '%.*g' % (digits, float(f'{whole}e{e}'))  # so few digits are exact in a double's


def spelt_rows(parts: list[int]) -> str:
    """A sample in a row: its real part, then its imaginary part."""
    return ''.join(f'{spelt_float(parts[j])} {spelt_float(parts[j + 1])}\n' for j in range(0, len(parts), 2))
