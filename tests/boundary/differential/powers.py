#!/usr/bin/env python3
"""Holds sbg_power to the exact computation, bit for bit, over every pair of patterns of tests/oracle/make_powers.py.

Document 02, No. 2: "real times real, imaginary times imaginary, then the sum, each rounded once in single precision". The
pairs are drawn with a fixed seed beside edges (subnormals, squares and sums that pass the greatest, infinities, NaNs,
signed zeros). The answers due are the oracle's, in exact fractions; enough of the pairs tell a fused multiply-add, with
the one square unrounded and with the other."""
import subprocess
import sys
import time
from collections import Counter

sys.dont_write_bytecode = True
import run  # noqa: E402
import sorts  # noqa: E402
from asking import TAGS  # noqa: E402
from make_powers import fused, vectors  # noqa: E402
from samples import power_of  # noqa: E402

PAIRS, TELLING = 4_000, 500  # no fewer


def enough() -> bool:
    """How many pairs there are, and how many of them a fused multiply-add would answer with other bits."""
    seen: Counter[str] = Counter()
    for real, imaginary in vectors():
        due = power_of(real, imaginary)
        seen['refused'] += due is None
        seen['one'] += fused(real, imaginary) != due
        seen['other'] += fused(imaginary, real) != due
    print(f'powers: {len(vectors())} pairs, {seen["refused"]} of them 24; a fused multiply-add would give other bits in '
          f'{seen["one"]} with the real square unrounded, in {seen["other"]} with the imaginary one')
    return len(vectors()) >= PAIRS and min(seen['one'], seen['other']) >= TELLING


def main() -> int:
    began = time.monotonic()
    if not enough():
        print(f'powers: there must be {PAIRS} pairs, and {TELLING} that tell a fused multiply-add either way')
        return 1
    try:
        run.build_library()
        batch = run.Batch(run.build('driver'))
    except subprocess.CalledProcessError as failed:
        print(f'powers: could not be built: {" ".join(failed.cmd)}')
        return 2
    asked = sum(batch.add((run.SEED, sorts.powers.__name__, block)) for block in range(sorts.power_blocks()))
    if not batch.right():
        return 1
    tags = batch.ask.tags
    if asked != len(vectors()) or tags[TAGS['power']] + batch.ask.refusals[24] != asked:
        print(f'powers: {asked} asked, {tags[TAGS["power"]]} powers and {batch.ask.refusals[24]} refusals with 24 are due')
        return 1
    print(f'powers: {asked} asked of sbg_power, {tags[TAGS["power"]]} powers bit for bit, in {time.monotonic() - began:.0f} s')
    return 0


if __name__ == '__main__':
    sys.exit(main())
