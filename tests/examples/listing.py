#!/usr/bin/env python3
"""Makes what the listing is run on: crates/try_listing/stdin and stdout, and document 01's printed example in crates/ceoslist.

The commands build files in a buffer and ask (commands.py); the answers are the oracle's (tests/oracle). Where
an example says what is `due`, that was worked out here from document 01, and the oracle is held to it.
`listing.py` writes the files, `listing.py --check` says whether they are as stored; tests/programs/ceoslist.py runs the program on the same cases.

  #, c, p, b, q   as in commands.py
  l LENGTH PIECE  the listing of the first LENGTH bytes, as if they arrived in pieces of at most PIECE"""
import sys
from dataclasses import dataclass
from typing import Sequence

sys.dont_write_bytecode = True
from commands import (COMPLEX, COUNTS, HELD, MANY, TESTS, File, Fills, Patch, Sort, answers, ask, changed, fill, held, image,  # noqa: E402
                      image_first, keep, line_body, put, refused, store, title, volume)
import reader  # noqa: E402

CRATES = TESTS.parent / 'crates'
PIECES = (1, 7, 12, 4096, MANY)  # the last: as many as are wanted
PRINTED = b'IMAGE 2 LINES 3 PIXELS\n1 0 3 0\n2 1 2 0\nCOMPLETE 3 RECORDS 1116 BYTES\n'  # document 01, with n = 2, w = 3, s = 0, L = 198
TOO_LONG = 'RECORD TOO LONG'


@dataclass(frozen=True)
class Case:
    """A file and the whole output that it brings."""

    data: bytes
    rows: bytes


cases: list[Case] = []  # every file that was asked about, once


# The command, and rows in document 01's words ----------------------------------------------------------


def lists(size: int, due: Sequence[str] = (), pieces: Sequence[int] = PIECES) -> None:
    """The listing of the first bytes, in pieces of each size; due: its rows."""
    assert size <= HELD
    data = bytes(held[:size])
    rows = reader.listing(data)
    wanted = ''.join(row + '\n' for row in due).encode()
    assert not due or rows == wanted, f'{answers[-1].decode()}, {size} bytes: due {wanted!r}, the oracle says {rows!r}'
    cases.append(Case(data, rows))
    for piece in pieces:
        ask(f'l {size} {piece}', rows.decode().removesuffix('\n'), '')


def heading(n: int, w: int = 3) -> str:
    return f'IMAGE {n} LINES {w} PIXELS'


def row(line: int, fills: Fills) -> str:
    return f'{line} {fills[0]} {fills[1]} {fills[2]}'


def ending(records: int, size: int) -> str:
    return f'COMPLETE {records} RECORDS {size} BYTES'


LISTED = [heading(2), '1 0 3 0', '2 1 2 0']  # of the printed image, before its closing row


def lined(w: int, fills: Sequence[Fills], s: int = 0, more: int = 0, filler: int = 0, n: int = 0, sort: Sort = COUNTS) -> File:
    """An image whose lines have these fills; n: lines that it promises, if not as many."""
    file = image_first(n or len(fills), w, s, more, filler, sort)
    for line, some in enumerate(fills, start=1):
        file.record(sort.line, sort.length(w, s, more))
        line_body(file.starts[-2], line, some, filler)
    return file


def shows(w: int, fills: Sequence[Fills], s: int = 0, more: int = 0, filler: int = 0, sort: Sort = COUNTS) -> File:
    """Such an image is listed whole; places are worked out here."""
    file = lined(w, fills, s, more, filler, sort=sort)
    size = 720 + len(fills) * sort.length(w, s, more)
    rows = [row(line, some) for line, some in enumerate(fills, start=1)]
    lists(size, [heading(len(fills), w), *rows, ending(1 + len(fills), size)])
    return file


# Document 01's own examples ----------------------------------------------------------------------------


def printed() -> bytes:
    """The printed example's file, in the buffer too."""
    file = image(2)
    assert file.size == 1116
    return bytes(held[:1116])


def printed_examples() -> None:
    title('the listed image: n = 2, w = 3, s = 0, L = 198')
    printed()
    lists(1116, [*LISTED, 'COMPLETE 3 RECORDS 1116 BYTES'])
    assert cases[-1].rows == PRINTED
    title('with a wrong line number in the last record')
    for wrong in (0, 1, 3, 2 << 24):
        with changed((931, wrong)):
            lists(1116, [*LISTED[:2], 'REFUSED 10 RECORD 3 AT 930'])
    title('with a byte added, and with more')
    lists(1117, [*LISTED, 'REFUSED 9 RECORD 4 AT 1116'])
    for more in (11, 12, 198, 5000):
        lists(1116 + more, [*LISTED, 'REFUSED 9 RECORD 4 AT 1116'])
    title('nothing at all')
    lists(0, ['REFUSED 2 RECORD 1 AT 0'])


def complex_examples() -> None:
    title('a complex image is listed as one of counts: document 02, No. 2')
    file = shows(3, [(0, 3, 0), (1, 2, 0)], sort=COMPLEX)
    assert cases[-1].rows == b'IMAGE 2 LINES 3 PIXELS\n1 0 3 0\n2 1 2 0\nCOMPLETE 3 RECORDS 1592 BYTES\n'
    lists(file.size + 1, [*LISTED, 'REFUSED 9 RECORD 4 AT 1592'])
    with changed((1162, b'\x0b')):
        lists(file.size, [*LISTED[:2], 'REFUSED 4 RECORD 3 AT 1160'])
    with changed((429, 'C*8b')):
        lists(file.size, ['REFUSED 8 RECORD 1 AT 428'])
    with changed((225, '   2')):
        lists(file.size, ['REFUSED 7 RECORD 1 AT 224'])
    shows(2, [(2, 0, 0), (0, 1, 1), (0, 0, 2)], 7, 3, 255, COMPLEX)


# The first record --------------------------------------------------------------------------------------

# due, the bytes from which on it is given (before them it is 2), what is put
FIRST_FAULTS: tuple[tuple[str, int, list[Patch]], ...] = (
    ('3 RECORD 1 AT 0', 12, [(1, 0)]), ('3 RECORD 1 AT 0', 12, [(1, 16777216), (5, 0), (9, 0)]),
    ('4 RECORD 1 AT 4', 12, [(5, b'\x3f')]), ('4 RECORD 1 AT 4', 12, [(8, b'\x14'), (9, 198)]),
    ('5 RECORD 1 AT 8', 12, [(9, 360)]), ('5 RECORD 1 AT 8', 12, [(9, 721), (13, 'x')]),
    ('8 RECORD 1 AT 12', 720, [(13, 'B')]), ('8 RECORD 1 AT 428', 720, [(429, 'IS2 ')]), ('8 RECORD 1 AT 428', 720, [(432, 'b'), (181, '     x')]),
    ('6 RECORD 1 AT 185', 720, [(181, '     x')]), ('6 RECORD 1 AT 191', 720, [(187, '      ')]), ('6 RECORD 1 AT 291', 720, [(289, '  + ')]),
    ('7 RECORD 1 AT 180', 720, [(181, '     0')]), ('7 RECORD 1 AT 224', 720, [(225, '   1')]), ('7 RECORD 1 AT 232', 720, [(233, '   2')]),
    ('7 RECORD 1 AT 236', 720, [(237, '      -2')]), ('7 RECORD 1 AT 248', 720, [(249, '       0'), (281, '       x')]),
    ('8 RECORD 1 AT 0', 720, [(237, '       3')]), ('8 RECORD 1 AT 0', 720, [(281, '       8')]), ('8 RECORD 1 AT 0', 720, [(289, '   1')]),
    ('8 RECORD 1 AT 0', 720, [(187, '   197')]),
)


def first_refusals() -> None:
    title('the first record refused: its row alone, as soon as it can be told; before that the file is too short')
    image(2)
    for due, enough, patches in FIRST_FAULTS:
        with changed(*patches):
            lists(enough - 1, ['REFUSED 2 RECORD 1 AT 0'])
            for size in (enough, 1116):
                lists(size, ['REFUSED ' + due])
    title('a directory is no image')
    lists(volume(3).size, ['REFUSED 4 RECORD 1 AT 4'])


# Cuts and faults of a line's record --------------------------------------------------------------------


def cuts() -> None:
    title('cut in the first record')
    image(2)
    for size in (1, 11, 12, 13, 719):
        lists(size, ['REFUSED 2 RECORD 1 AT 0'])
    for line, start in ((1, 720), (2, 918)):
        title(f'cut before line {line}, in its header, in its body')
        for more in (0, 1, 11, 12, 20, 197):
            lists(start + more, [*LISTED[:line], refused(2, line + 1, start)])
    title('a line cut that has letters for its text, and no zeros')
    file = image(2, filler=88)
    for size in (719, 720, 731, 732, 917, 918, 1115):
        record = sum(start <= size for start in file.starts)
        lists(size, [*LISTED[:record - 1], refused(2, record, file.starts[record - 1])])


# refusal number and byte of the record, how many of its bytes it takes, what is put
LINE_FAULTS: tuple[tuple[int, int, int, list[Patch]], ...] = (
    (3, 1, 12, [(1, 0)]), (3, 1, 12, [(1, 77), (5, 0), (9, 0), (13, 77)]), (4, 5, 12, [(6, b'\xc0')]), (4, 5, 12, [(8, b'\x12'), (9, 199)]),
    (5, 9, 12, [(9, 197)]), (5, 9, 12, [(9, 199)]), (5, 9, 12, [(9, 0)]), (5, 9, 12, [(9, 4294967295), (13, 0)]),
    (10, 13, 198, [(13, 77), (17, 77)]), (10, 17, 198, [(17, 0)]), (10, 17, 198, [(17, 2), (21, 77)]), (10, 21, 198, [(21, 3), (25, 3)]),
    (10, 21, 198, [(21, 4294967295), (25, 4), (29, 0)]), (10, 21, 198, [(21, 0), (25, 0), (29, 4)]), (10, 21, 198, [(21, 0), (25, 0), (29, 0)]),
)


def line_faults() -> None:
    image(2)
    for line, start in ((1, 720), (2, 918)):
        title(f'line {line} refused: from its twelfth byte on, or its last; before that the file is too short')
        for number, byte, enough, patches in LINE_FAULTS:
            with changed(*[(start + at, what) for at, what in patches]):
                lists(start + enough - 1, [*LISTED[:line], refused(2, line + 1, start)])
                for size in (start + enough, 1116):
                    lists(size, [*LISTED[:line], refused(number, line + 1, start + byte - 1)])


def lines_that_are_no_more() -> None:
    title('more lines than promised, fewer, and one said twice')
    file = lined(3, [(0, 3, 0)] * 3, n=2)
    lists(file.size, [heading(2), '1 0 3 0', '2 0 3 0', 'REFUSED 9 RECORD 4 AT 1116'])
    file = lined(3, [(0, 3, 0)] * 2, n=3)
    lists(file.size, [heading(3), '1 0 3 0', '2 0 3 0', 'REFUSED 2 RECORD 4 AT 1116'])
    with changed((919, 2), (931, 1)):
        lists(file.size, [heading(3), '1 0 3 0', 'REFUSED 3 RECORD 3 AT 918'])


# Long records --------------------------------------------------------------------------------------------


def longest() -> None:
    title('L = 32768 is listed')
    for w, s in ((1, 0), (16288, 0), (16000, 576), (1, 9999)):
        shows(w, [(w // 3, w - w // 3, 0)], s, 32768 - 192 - 2 * w - s)
    size = 720 + 32768
    title('and cut: its first byte, its header, its last byte')
    lined(16288, [(16288, 0, 0)])
    for more in (0, 1, 12, 4096, 32767):
        lists(720 + more, [heading(1, 16288), refused(2, 2, 720)])
    lists(size, [heading(1, 16288), '1 16288 0 0', ending(2, size)])
    lists(size + 1, [heading(1, 16288), '1 16288 0 0', refused(9, 3, size)])
    lists(HELD, [heading(1, 16288), '1 16288 0 0', refused(9, 3, size)])


def too_long() -> None:
    title('L = 32769 is not, whatever follows')
    for w, more in ((1, 32769 - 194), (16288, 1)):
        file = lined(w, [(0, w, 0)], more=more)
        assert file.size == 720 + 32769
        for size in (720, 721, 732, 1000, file.size - 1, file.size, file.size + 1, HELD):
            lists(size, [heading(1, w), TOO_LONG])
        lists(719, ['REFUSED 2 RECORD 1 AT 0'])
        with changed((721, 'no record at all')):
            lists(file.size, [heading(1, w), TOO_LONG])
        with changed((13, 'B')):
            lists(file.size, ['REFUSED 8 RECORD 1 AT 12'])
    title('n = L = 999999')
    image_first(999999, 499903, 1)
    for size in (720, HELD):
        lists(size, [heading(999999, 499903), TOO_LONG])


# Numbers and fills ---------------------------------------------------------------------------------------


def smallest() -> None:
    title('one line of one pixel: the words are the same')
    for fills in ((0, 1, 0), (1, 0, 0), (0, 0, 1)):
        shows(1, [fills])
    lists(913, ['IMAGE 1 LINES 1 PIXELS', 'REFUSED 2 RECORD 2 AT 720'])


def fills() -> None:
    title('w = 4: every left, data and right count')
    shows(4, [(left, data, 4 - left - data) for left in range(5) for data in range(5 - left)])
    title('no data pixels')
    shows(3, [(left, 0, 3 - left) for left in range(4)])


def suffixes() -> None:
    for s, more in ((1, 0), (9, 0), (0, 1), (6, 63), (9999, 0)):
        title(f's = {s}, L = 192 + d + s + {more}')
        shows(3, [(0, 3, 0), (1, 1, 1), (3, 0, 0)], s, more, 255 if more else 32)


def many_digits() -> None:
    title('counts of one to five digits')
    shows(16000, [(1, 15990, 9)])
    shows(11111, [(10, 11002, 99), (9999, 1000, 112)])
    title('n = 999999, of which some are there')
    file = lined(100, [(10, 80, 10), (99, 0, 1), (0, 100, 0)], n=999999)
    lists(file.size, [heading(999999, 100), '1 10 80 10', '2 99 0 1', '3 0 100 0', refused(2, 5, 720 + 3 * 392)])


def many_lines() -> None:
    title('as many lines as are held')
    count = (HELD - 720) // 194
    some: list[Fills] = [(line % 3 % 2, int(line % 3 == 0), line % 3 // 2) for line in range(count)]
    file = shows(1, some)
    assert HELD - file.size < 194
    rows = [row(line, one) for line, one in enumerate(some, start=1)]
    title('the same, with its last line cut, and wrong')
    lists(file.size - 1, [heading(count, 1), *rows[:-1], refused(2, count + 1, file.size - 194)], (1, 12, MANY))
    with changed((file.size - 194 + 17, 2)):
        lists(file.size, [heading(count, 1), *rows[:-1], refused(10, count + 1, file.size - 194 + 16)], (7, 4096))
    title('lines 1 to 255 and no more: the bytes of a sequence number carry')
    lists(720 + 255 * 194, [heading(count, 1), *rows[:255], refused(2, 257, 720 + 255 * 194)], (7, MANY))
    title('a buffer of line feeds')
    fill(10)
    put(1, 1)
    lists(HELD, ['REFUSED 4 RECORD 1 AT 4'])


def make_all() -> None:
    for part in (printed_examples, complex_examples, first_refusals, cuts, line_faults, lines_that_are_no_more, longest, too_long, smallest, fills,
                 suffixes, many_digits, many_lines):
        part()


def main() -> int:
    make_all()
    stale = keep(CRATES / 'ceoslist', {'stdin': printed(), 'stdout': PRINTED}, 'the printed example')
    return store(CRATES / 'try_listing') or stale


if __name__ == '__main__':
    sys.exit(main())
