"""The oracle's samples: document 02, No. 2.

"One sample is either a whole count or two 32-bit floats, real then imaginary, high byte
first, bits kept."  A float is its 32 bits here, as a number: every pattern is kept, NaNs
too.  Refusals come "after the line's own": 23, then 15 or 36, then 24.
"""

from __future__ import annotations

from typing import Optional, Sequence, Union

from binary32 import finite, rounded, worth
from reader import COMPLEX, COUNTS, Answer, Pair, View, refused, viewed


def _part(data: bytes, place: int) -> int:
    """Four bytes, high byte first."""
    return int.from_bytes(data[place : place + 4], "big")


def _parts(data: bytes, view: View, index: int) -> Pair:
    """Real, then imaginary."""
    place = view.sample(index)
    return _part(data, place), _part(data, place + 4)


def sample(data: bytes, k: int, index: int) -> Answer:
    """('count', n) | ('complex', real, imaginary) | the line's own wait or refusal, then 36."""
    view = viewed(data, k)
    if not isinstance(view, View):
        return view
    if index >= view.samples:
        return refused(36)
    if view.sort == COMPLEX:
        return ("complex", *_parts(data, view, index))
    place = view.sample(index)
    return ("count", int.from_bytes(data[place : place + 2], "big"))


def power_of(real: int, imaginary: int) -> Optional[int]:
    """"real times real, imaginary times imaginary, then the sum, each rounded once in single precision".

    None where a part or the power is not finite.  A square is never below 0 (minus zero
    times minus zero is zero), so no sign is looked at; a square that is not finite has
    no finite sum.
    """
    if not (finite(real) and finite(imaginary)):
        return None
    squares = [rounded(worth(part) ** 2) for part in (real, imaginary)]
    if not all(map(finite, squares)):
        return None
    power = rounded(sum(map(worth, squares)))
    return power if finite(power) else None


def _complex(data: bytes, k: int) -> Union[View, Answer]:
    """"23 row copy or power asked of the wrong sort"."""
    view = viewed(data, k)
    return refused(23) if isinstance(view, View) and view.sort == COUNTS else view


def power(data: bytes, k: int, index: int) -> Answer:
    """('power', bits) | the line's own, 23 for counts, 36 "after 23", 24 "a part or the power isn't finite, last"."""
    view = _complex(data, k)
    if not isinstance(view, View):
        return view
    if index >= view.samples:
        return refused(36)
    bits = power_of(*_parts(data, view, index))
    return refused(24) if bits is None else ("power", bits)


def complex_row(data: bytes, k: int, row: Sequence[int]) -> tuple[Answer, list[int]]:
    """(('copied', samples) or the line's own, 23 for counts, 15; the row afterwards): two numbers a sample."""
    after = list(row)
    view = _complex(data, k)
    if not isinstance(view, View):
        return view, after
    if len(after) < 2 * view.samples:
        return refused(15), after
    for index in range(view.samples):
        after[2 * index : 2 * index + 2] = _parts(data, view, index)
    return ("copied", view.samples), after
