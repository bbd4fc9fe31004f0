#!/usr/bin/env python3
"""Runs `ceos sample`, `ceos power` and `ceos line` on complex scenes as a user would and holds them to the oracle (tests/oracle/samples.py).

Drawn images of both sorts, whole, damaged and cut; the refusals 23, 24 and 36 and what goes before them, by hand; floats of every
sort in the fewest digits; powers that each rounding decides; a line of the most samples. It says what it tried and how many checks
that were, and exits with 1 at the first difference."""
import os
import random
import re
import subprocess
import sys
import tempfile
import time
from fractions import Fraction
from pathlib import Path
from typing import Callable, Iterator, Sequence

sys.dont_write_bytecode = True
sys.path.insert(0, str(Path(__file__).resolve().parent))
import ceos  # noqa: E402
from ceos import ACCEPTED, REFUSED, WAITING, Case, drawn, filed, line_case, opening, ran, refusal, try_all  # noqa: E402
from running import Ran, all_parts, checks, hold  # noqa: E402
from floats import spelt_float, spelt_rows  # noqa: E402
import make  # noqa: E402  (ceos.py puts tests/oracle on the path)
import samples  # noqa: E402
from binary32 import GREATEST, INFINITY, SIGN, rounded, worth  # noqa: E402
from reader import COMPLEX, COUNTS, IMAGE, Answer  # noqa: E402

ONE, TWO, HALF = 0x3F800000, 0x40000000, 0x3F000000
NAN = 0x7FC00000


def scene(lines: Sequence[Sequence[make.Sample]], sort: int = COMPLEX, left: int = 0, more: int = 0) -> bytes:
    """An image with these data pixels, so many of left fill, so many bytes more ahead of the pixels, and no suffix."""
    w = left + max(1, *map(len, lines))
    plan = make.image_plan(len(lines), w, 0, make.least_length(sort, w, 0) + more, sort)
    fills = [(left, len(line), w - left - len(line)) for line in lines]
    return make.make_image(random.Random(90), plan, fills, lines).data


# What is due ----------------------------------------------------------------------------------------------


def answered(answer: Answer, line: int, index: int) -> tuple[str, int]:
    """The row and the status."""
    if answer[0] == 'refused':
        return refusal(answer)
    if answer[0] == 'wait':
        return f'WAIT {answer[1]} BYTES\n', WAITING
    said = {'count': lambda n: f'COUNT {n}', 'power': lambda bits: f'POWER {spelt_float(bits)}',
            'complex': lambda real, imaginary: f'REAL {spelt_float(real)} IMAGINARY {spelt_float(imaginary)}'}
    return f'SAMPLE {index} LINE {line} {said[answer[0]](*answer[1:])}\n', ACCEPTED


def both(data: bytes, line: int, index: int, closed: bool = True) -> Iterator[Case]:
    yield Case([*opening(closed), 'sample'], [data], [line, index], *answered(samples.sample(data, line, index), line, index))
    yield Case(['power', *opening(closed)], [data], [line, index], *answered(samples.power(data, line, index), line, index))


# Drawn images ---------------------------------------------------------------------------------------------


def drawn_samples() -> str:
    rng, cases = random.Random(91), []
    for data, closed in drawn(rng, IMAGE, 60):
        for line, index in ((1, 0), (1, rng.randint(0, 12)), (rng.randint(0, 6), rng.choice((0, 1, 2 ** 32, 2 ** 64 - 1)))):
            cases += both(data, line, index, closed)
    for number in ('13', '23', '24', '36'):
        hold(f'some are refused with {number}', any(case.rows.startswith(f'REFUSED {number} ') for case in cases), True)
    for row in ('COUNT', 'REAL', 'POWER', 'WAIT'):
        hold(f'some say {row}', any(row in case.rows for case in cases), True)
    return try_all('samples and powers', cases)


# By hand --------------------------------------------------------------------------------------------------


def refusals() -> str:
    """Each with what goes before it: the line's own, then 23, then 36, then 24."""
    data = scene([[(ONE, SIGN | TWO), (NAN, ONE), (ONE, SIGN | INFINITY), (GREATEST, 0)], []], left=2, more=5)
    counts = scene([[513, 7], []], COUNTS)
    cut = data[:-1]
    by_hand = [(data, 'sample', 1, 0, 'SAMPLE 0 LINE 1 REAL 1 IMAGINARY -2\n'), (data, 'power', 1, 0, 'SAMPLE 0 LINE 1 POWER 5\n'),
               (data, 'sample', 1, 1, 'SAMPLE 1 LINE 1 REAL 0x7fc00000 IMAGINARY 1\n'), (data, 'power', 1, 1, 'REFUSED 24'),
               (data, 'sample', 1, 2, 'SAMPLE 2 LINE 1 REAL 1 IMAGINARY 0xff800000\n'), (data, 'power', 1, 2, 'REFUSED 24'),
               (data, 'sample', 1, 3, 'SAMPLE 3 LINE 1 REAL 3.4028235e+38 IMAGINARY 0\n'), (data, 'power', 1, 3, 'REFUSED 24'),
               (data, 'sample', 1, 4, 'REFUSED 36'), (data, 'power', 1, 4, 'REFUSED 36'), (data, 'sample', 2, 0, 'REFUSED 36'),
               (data, 'power', 2, 2 ** 64 - 1, 'REFUSED 36'), (data, 'power', 0, 9, 'REFUSED 13'), (data, 'sample', 3, 0, 'REFUSED 13'),
               (counts, 'sample', 1, 0, 'SAMPLE 0 LINE 1 COUNT 513\n'), (counts, 'sample', 1, 2, 'REFUSED 36'), (counts, 'sample', 2, 0, 'REFUSED 36'),
               (counts, 'power', 1, 0, 'REFUSED 23'), (counts, 'power', 1, 9, 'REFUSED 23'), (counts, 'power', 3, 9, 'REFUSED 13'),
               (cut, 'power', 2, 9, 'WAIT 1 BYTES\n'), (cut, 'sample', 2, 9, 'WAIT 1 BYTES\n'), (cut, 'power', 1, 0, 'SAMPLE 0 LINE 1 POWER 5\n'),
               (cut[:-1], 'power', 2, 0, 'WAIT 2 BYTES\n'), (counts[:-1], 'power', 2, 9, 'WAIT 1 BYTES\n'), (b'', 'power', 1, 0, 'WAIT 12 BYTES\n')]
    cases = []
    for image, command, line, index, due in by_hand:
        rows = f'{due} RECORD 0 AT 0\n' if due.startswith('REFUSED') else due
        status = REFUSED if due.startswith('REFUSED') else WAITING if due.startswith('WAIT') else ACCEPTED
        hold(f'the oracle, {command} {line} {index}', answered(getattr(samples, command)(image, line, index), line, index), (rows, status))
        cases.append(Case([command], [image], [line, index], rows, status))
    return try_all('samples and powers by hand', cases)


def sorts() -> str:
    """The text decides the sort: another one is 8 at 428, and a group that does not fit it 7 at 224. Every command says so."""
    data, counts, cases = scene([[(ONE, TWO)]]), scene([[513]], COUNTS), []
    for image, at, text, due in ((data, 428, b'IU2 ', 'REFUSED 7 RECORD 1 AT 224\n'), (counts, 428, b'C*8 ', 'REFUSED 7 RECORD 1 AT 224\n'),
                                 (data, 224, b'   2', 'REFUSED 7 RECORD 1 AT 224\n'), (data, 428, b'C*8b', 'REFUSED 8 RECORD 1 AT 428\n'),
                                 (data, 428, b'c*8 ', 'REFUSED 8 RECORD 1 AT 428\n'), (data, 725, b'\x0b', 'REFUSED 4 RECORD 2 AT 724\n'),
                                 (counts, 725, b'\x0a', 'REFUSED 4 RECORD 2 AT 724\n'), (data, 280, b'       2', 'REFUSED 8 RECORD 1 AT 0\n')):
        other = image[:at] + text + image[at + len(text):]
        for before, after in ((['sample'], [1, 0]), (['power'], [1, 0]), (['line'], [1]), (['walk', 'image'], [])):
            cases.append(Case(before, [other], after, due, REFUSED))
    cases += [Case(['list'], [data], [], 'IMAGE 1 LINES 1 PIXELS\n1 0 1 0\nCOMPLETE 2 RECORDS 1140 BYTES\n', ACCEPTED),
              Case(['line'], [data], [1], 'LINE 1 START 1132 DATA 1 LEFT 0 RIGHT 0\n1 2\n', ACCEPTED)]
    return try_all('images whose sort is wrong, and two that are right', cases)


# Floats ---------------------------------------------------------------------------------------------------

BY_HAND = {0: '0', SIGN: '-0', ONE: '1', 0x3DCCCCCD: '0.1', 0xBF000000: '-0.5', 1: '1e-45', 0x007FFFFF: '1.1754942e-38', 0x4B800000: '16777216',
           0x4B7FFFFF: '16777215', GREATEST: '3.4028235e+38', INFINITY: '0x7f800000', SIGN | INFINITY: '0xff800000', NAN: '0x7fc00000',
           0x7F800001: '0x7f800001', 0xFFFFFFFF: '0xffffffff', 0x38D1B717: '0.0001', 0x3727C5AC: '1e-05', 0x497423F0: '999999', 0x49742400: '1e+06',
           # powers of two whose fewest digits are not those of the nearest decimal
           0x0F800000: '1.2621775e-29', 0x6B000000: '1.5474251e+26', 0x6C800000: '1.2379401e+27'}


def patterns(rng: random.Random) -> list[int]:
    """Those by hand, every power of two with its neighbours, short decimals, and any."""
    near = [bits + more for bits in range(0x00800000, INFINITY, 0x00800000) for more in (-1, 0, 1)]
    short = [rounded(Fraction(rng.randrange(1, 10 ** rng.randint(1, 9))) * Fraction(10) ** rng.randint(-40, 25)) for _ in range(500)]
    drawn_bits = [rng.randrange(2 ** 32) for _ in range(2000)]
    return [*BY_HAND, *near, *(SIGN | bits for bits in near[::7]), *short, *drawn_bits, *make.PATTERNS]


def digits() -> str:
    """Lines of all these patterns; each is written as is due, and what is a number reads back as its bits."""
    some = patterns(random.Random(92))
    some += [0] * (len(some) % 2)
    for bits, text in BY_HAND.items():
        hold(f'0x{bits:08x}', spelt_float(bits), text)
    for bits in some:
        text = spelt_float(bits)
        if not text.startswith('0x'):
            hold(f'{text} reads back', rounded(abs(Fraction(text))) | (SIGN if text.startswith('-') else 0), bits)
    data = scene([list(zip(some[::2], some[1::2]))])
    found = ran('line', filed('patterns', data), 1, env={**os.environ, 'LC_ALL': 'de_DE.UTF-8'})
    hold('every pattern', (found.status, found.messages, found.rows.split('\n', 1)[1]), (ACCEPTED, '', spelt_rows(some)))
    return f'{len(some)} floats in the fewest digits'


def powers() -> str:
    """Powers that come out otherwise where a product or the sum is rounded twice or not at all; and the least and the greatest."""
    rng, cases, fused = random.Random(93), [], 0
    pairs = [(GREATEST, 0), (0x5F7FFFFF, 0x5F7FFFFF), (0x5F7FFFFF, 0), (0x5F800000, 0), (1, 1), (0x1A000000, 0x1A000000), (0, SIGN), (ONE, HALF)]
    while fused < 20:
        real, imaginary = (rng.randrange(0x3F000000, 0x40800000) for _ in range(2))
        exact = rounded(worth(real) ** 2 + worth(rounded(worth(imaginary) ** 2)))
        if exact != samples.power_of(real, imaginary):
            pairs.append((real, imaginary))
            fused += 1
    data = scene([pairs])
    for index in range(len(pairs)):
        cases += both(data, 1, index)
    return try_all('samples and powers at the edges and where a fused product differs', cases)


def longest() -> str:
    """The most samples that a line can have: L is at most 999,999."""
    w = (999_999 - 412) // 8
    data = scene([[(ONE + j, SIGN | ONE + j) for j in range(w)]])
    start = 720 + 412
    due = f'LINE 1 START {start} DATA {w} LEFT 0 RIGHT 0\n' + spelt_rows([bits for j in range(0, w, 997) for bits in (ONE + j, SIGN | ONE + j)])
    rows = ran('line', filed('longest', data), 1).rows.splitlines(keepends=True)
    hold('the longest line', (len(rows), rows[0] + ''.join(rows[1::997])), (w + 1, due))
    return try_all(f'samples of a line of {w}', [*both(data, 1, w - 1), *both(data, 1, w), line_case(data[:-1], 1)])


def session() -> str:
    """The one of README.md: its commands and what they print."""
    path = ceos.folder / 'IMG'
    subprocess.run([str(ceos.HOME / 'scripts' / 'scene'), 'complex', str(path)], check=True)
    text = (ceos.HOME / 'README.md').read_text()
    shown = re.search(r'```\n\$ (ceos sample .*)\n((?:SAMPLE .*\n)+)```', text)
    assert shown is not None
    rows = ''.join(ran(*command.replace('IMG', str(path)).split()[1:]).rows for command in shown[1].split(' && '))
    hold("README.md's session", rows, shown[2])
    hold('its scene is accepted', ran('walk', 'image', path).status, ACCEPTED)
    return "README.md's session"


def uses() -> str:
    """The help, a name behind `--`, and a sample that is waited for."""
    help_rows = ran('--help').rows
    for part in ('ceos sample IMG K J', 'ceos power IMG K J', 'J counts from 0'):
        hold(f'the help: {part}', part in help_rows, True)
    data = scene([[(ONE, TWO)]])
    hold('behind --', ran('sample', '--', filed('one', data), 1, 0), Ran(ACCEPTED, 'SAMPLE 0 LINE 1 REAL 1 IMAGINARY 2\n', ''))
    path = filed('growing', data[:-1])
    hold('waited for', ran('power', path, 1, 0), Ran(WAITING, 'WAIT 1 BYTES\n', ''))
    path.write_bytes(data)
    hold('and come', ran('power', path, 1, 0), Ran(ACCEPTED, 'SAMPLE 0 LINE 1 POWER 5\n', ''))
    return 'the help, and a sample that comes'


def main() -> int:
    began = time.monotonic()
    with tempfile.TemporaryDirectory() as name:
        ceos.folder = Path(name)
        parts: tuple[Callable[[], str], ...] = (ceos.build, drawn_samples, refusals, sorts, digits, powers, longest, session, uses)
        status = all_parts('tests/programs/ceos_samples.py', parts)
    if status == 0:
        print(f'tests/programs/ceos_samples.py: {checks[0]} checks in {time.monotonic() - began:.0f} s')
    return status


if __name__ == '__main__':
    sys.exit(main())
