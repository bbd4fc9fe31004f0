#!/usr/bin/env python3
"""Makes crates/try_lines/stdin and stdout: examples of the line view, the row copy and the set check.

The commands build files in a buffer and ask (commands.py); the answers are the oracle's (tests/oracle). Where
an example says what is `due`, that was worked out here from document 01, and the oracle is held to it.
`lines.py` writes the two files, `lines.py --check` says whether they are as stored.

  #, c, p, b, q           as in commands.py
  l LENGTH LINE           the view of a line in the first LENGTH bytes, and the pixels handed out: how many bytes, a check number
  r LENGTH LINE MANY OLD  the row copy to a row of MANY samples that were all OLD, and the row
  s LENGTH COUNT ..       the set check of the first LENGTH bytes"""
import random
import sys
from typing import Any, Callable, Sequence

sys.dont_write_bytecode = True
from commands import (COMPLEX, COUNTS, HELD, MANY, TESTS, Fills, Patch, Sort, answers, ask, changed, draw, fill, header, held, image,  # noqa: E402
                      image_first, line_body, put, refused, said, store, title, volume)
import reader  # noqa: E402
import make  # noqa: E402
from reader import IMAGE, VOLUME  # noqa: E402

HOME = TESTS.parent / 'crates' / 'try_lines'
MOST_ROW, MOST_COUNTS = 256, 16  # what the program has room for
OLD = 7  # what every sample of a row is before, unless said otherwise


# The commands ---------------------------------------------------------------------------------------


def check_of(data: bytes) -> int:
    """One number for the bytes and their order, as the program makes it."""
    number = 0
    for byte in data:
        number = (number * 257 + byte + 1) % 65521
    return number


def pixels_said(data: bytes) -> str:
    return f' PIXELS {len(data)} {check_of(data)}'


def row_said(row: Sequence[int]) -> str:
    return ' ROW' + ''.join(f' {sample}' for sample in row)


def view(size: int, line: int, due: str = '') -> None:
    """The oracle says where the data pixels start and how many there are; two bytes each are handed out, or eight of complex ones."""
    assert size <= HELD
    data = bytes(held[:size])
    seen = reader.viewed(data, line)
    shown = data[seen.sample(0):seen.sample(seen.samples)] if isinstance(seen, reader.View) else b''
    answer = reader.line_view(data, line)
    ask(f'l {size} {line}', said(answer) + pixels_said(shown), due)


def copy(size: int, line: int, many: int, old: int = OLD, due: str = '') -> None:
    assert size <= HELD and many <= MOST_ROW
    answer, row = reader.row_copy(bytes(held[:size]), line, [old] * many)
    ask(f'r {size} {line} {many} {old}', said(answer) + row_said(row), due)


def check(size: int, counts: Sequence[int], due: str = '') -> None:
    assert size <= HELD and len(counts) <= MOST_COUNTS
    command = ' '.join(map(str, ('s', size, *counts)))
    ask(command, said(reader.set_check(bytes(held[:size]), counts)), due)


def stops(size: int, line: int, due: str) -> None:
    """A wait or a refusal: no pixels, and every sample of the row stays. It comes before 15: the first row has no sample."""
    view(size, line, due + pixels_said(b''))
    for many in (0, 2):
        copy(size, line, many, OLD + many, due + row_said([OLD + many] * many))


# Images with their lines put where the plan has them ----------------------------------------------------


def load(byte: int, data: bytes) -> None:
    """Any bytes, in as many commands as a line feed among them asks for."""
    for i, piece in enumerate(data.split(b'\n')):
        if i:
            put(byte, b'\n')
            byte += 1
        if piece:
            put(byte, piece)
        byte += len(piece)


class Scene:
    """An image from place 0 on. Places and samples are worked out here by document 01's words, without the oracle."""

    def __init__(self, n: int, w: int = 3, s: int = 0, more: int = 0, filler: int = 0, sort: Sort = COUNTS) -> None:
        image_first(n, w, s, more, filler, sort)
        self.n, self.w, self.s, self.sort = n, w, s, sort
        self.length = sort.length(w, s, more)
        self.filler = filler
        self.fills: dict[int, Fills] = {}

    def start(self, line: int) -> int:
        return 720 + (line - 1) * self.length

    def end(self, line: int) -> int:
        return self.start(line) + self.length

    @property
    def size(self) -> int:
        return self.end(self.n)

    def pixels(self, line: int) -> int:
        """The place of the line's first pixel, filled or not: L - s - d bytes into the record."""
        return self.start(line) + self.length - self.s - self.sort.group * self.w

    def put(self, line: int, fills: Fills, pixels: bytes = b'') -> None:
        """The line's record, with these bytes for its w pixels."""
        header(self.start(line), line + 1, self.sort.line, self.length)
        self.body(line, fills)
        load(self.pixels(line) + 1, pixels)

    def body(self, line: int, fills: Fills) -> None:
        """Its number, index and fills, written anew if they were there."""
        line_body(self.start(line), line, fills, self.filler or line in self.fills)
        self.fills[line] = fills

    def at(self, line: int, *patches: Patch) -> list[Patch]:
        """Patches by the byte numbers of the line's record."""
        return [(self.start(line) + byte, what) for byte, what in patches]

    def shows(self, line: int, size: int | None = None, rows: Sequence[int] | None = None) -> None:
        """The line is shown and copied; rows: samples lent beside those needed, fewer than 0 is 15.

        A complex line is shown, and its row copy is 23 whatever row is lent."""
        size = self.size if size is None else size
        left, data, _ = self.fills[line]
        first = self.pixels(line) + self.sort.group * left
        shown = bytes(held[first:first + self.sort.group * data])
        view(size, line, f'SHOWN {first} {data} {left}' + pixels_said(shown))
        if self.sort == COMPLEX:
            for many in (0, data, 4 * data + 1):
                copy(size, line, many, due=refused(23) + row_said([OLD] * many))
            return
        samples = [256 * high + low for high, low in zip(shown[::2], shown[1::2])]
        for extra in (0, 1) if rows is None else rows:
            row = [OLD] * (data + extra)
            due = refused(15) if extra < 0 else f'COPIED {data}'
            copy(size, line, data + extra, due=due + row_said(row if extra < 0 else samples + row[data:]))


def letters(count: int, first: int = 97) -> bytes:
    """So many bytes, no two neighbours alike, none a line feed."""
    return bytes(33 + (first - 33 + i) % 90 for i in range(count))


def lettered(n: int, w: int = 3, s: int = 0, more: int = 0, filler: int = 0) -> Scene:
    """Every line whole, its left fills by turns, and letters for pixels, others in each line."""
    scene = Scene(n, w, s, more, filler)
    for line in range(1, n + 1):
        left = (line - 1) % (w + 1)
        scene.put(line, (left, w - left, 0), letters(2 * w, 97 + 7 * line))
    return scene


# Document 01's own examples ----------------------------------------------------------------------------


def worked_examples() -> None:
    title('the listed image: n = 2, w = 3, s = 0, L = 198; P11: bytes 02 01 are 513')
    scene = Scene(2)
    scene.put(1, (0, 3, 0), b'\2\1\xff\xff\0\1')
    scene.put(2, (1, 2, 0), b'\4\4\x80\0\0\xff')
    assert scene.size == 1116
    view(1116, 1, 'SHOWN 912 3 0 PIXELS 6')
    view(1116, 2, 'SHOWN 1112 2 1 PIXELS 4')
    copy(1116, 1, 3, due='COPIED 3 ROW 513 65535 1')
    copy(1116, 2, 2, due='COPIED 2 ROW 32768 255')
    copy(1116, 2, 5, 9, due='COPIED 2 ROW 32768 255 9 9 9')
    copy(1116, 1, 2, due='REFUSED 15 RECORD 0 AT 0 ROW 7 7')
    title('with a wrong line number in the last record: line 1 is shown all the same')
    with changed((931, 3)):
        stops(1116, 2, 'REFUSED 10 RECORD 3 AT 930')
        scene.shows(1)
    title('edges: fills 4294967295, 4, 0 with w = 3 are 10; L = 191 + d + s is 8')
    with changed((741, 4294967295), (745, 4), (749, 0)):
        stops(1116, 1, 'REFUSED 10 RECORD 2 AT 740')
        scene.shows(2)
    with changed((187, '   197')):
        for line in (0, 1, 2, 3):
            stops(1116, line, 'REFUSED 8 RECORD 1 AT 0')


def samples() -> None:
    title('samples of two bytes, high byte first')
    pairs = (0, 1, 2, 10, 255, 256, 257, 513, 2560, 2570, 4096, 32767, 32768, 65280, 65534, 65535)
    for first in (0, 8):
        scene = Scene(1, 8)
        scene.put(1, (0, 8, 0), b''.join(pair.to_bytes(2, 'big') for pair in pairs[first:first + 8]))
        copy(scene.size, 1, 8, due='COPIED 8' + row_said(pairs[first:first + 8]))
        for left in (1, 3):
            scene.body(1, (left, 8 - left, 0))
            scene.shows(1)


# Where the pixels are ----------------------------------------------------------------------------------


def fills() -> None:
    title('w = 5: every left, data and right count')
    every = [(left, data, 5 - left - data) for left in range(6) for data in range(6 - left)]
    scene = Scene(len(every), 5)
    for line, some in enumerate(every, start=1):
        scene.put(line, some, letters(10, 60 + line))
    for line in range(1, scene.n + 1):
        scene.shows(line, scene.end(line), (0, 2))


def places() -> None:
    for w, s, more in ((3, 1, 0), (3, 2, 0), (3, 9, 0), (3, 0, 1), (3, 0, 2), (3, 0, 6), (3, 6, 6), (1, 0, 0), (1, 9999, 0), (2, 4, 1000), (10, 7, 63)):
        title(f'w = {w}, s = {s}, L = 192 + d + s + {more}: pixels start L - s - d bytes into the record')
        scene = Scene(3, w, s, more, 255)
        for line, some in ((1, (0, w, 0)), (2, (w // 2, w - w // 2, 0)), (3, (0, w - w // 3, w // 3))):
            scene.put(line, some, letters(2 * w, 97 + line))
            load(scene.start(line) + 193, letters(min(more, 8), 40))  # what stands at 192 where the pixels do not
            load(scene.end(line) - min(s, 8) + 1, letters(min(s, 8), 50))
        for line in (1, 2, 3):
            scene.shows(line)


def no_pixels() -> None:
    title('data count 0: shown with no pixel, and copied to an empty row too')
    for w, s in ((1, 0), (3, 0), (3, 5)):
        scene = Scene(2, w, s)
        for left in sorted({0, 1, w}):
            for line in (1, 2):
                scene.put(line, (left, 0, w - left), letters(2 * w))
                first = 720 + line * scene.length - s - 2 * w + 2 * left
                view(scene.end(line), line, f'SHOWN {first} 0 {left} PIXELS 0 0')
                copy(scene.end(line), line, 0, due='COPIED 0 ROW')
                copy(scene.end(line), line, 2, due='COPIED 0 ROW 7 7')


# The first record, and the line's number -----------------------------------------------------------------


def first_waits() -> None:
    title('the first record waits, whatever line is asked for; it is never 2')
    scene = lettered(2)
    for size in (0, 1, 11, 12, 13, 719):
        for line in (0, 1, 2, 3, MANY):
            stops(size, line, f'WAIT {12 - size if size < 12 else 720 - size}')
    title('then the first record is whole')
    stops(720, 0, refused(13))
    stops(720, 1, 'WAIT 198')
    stops(720, 2, 'WAIT 396')
    stops(720, 3, refused(13))
    scene.shows(1, 918)


FIRST_FAULTS: tuple[tuple[str, int, list[Patch]], ...] = (  # due, the bytes from which on it is given, what is put
    ('3 RECORD 1 AT 0', 12, [(1, 2)]), ('3 RECORD 1 AT 0', 12, [(1, 16777216), (5, 0), (9, 0)]),
    ('4 RECORD 1 AT 4', 12, [(6, b'\x0b')]), ('4 RECORD 1 AT 4', 12, [(8, b'\x14'), (9, 198)]),
    ('5 RECORD 1 AT 8', 12, [(9, 360)]), ('5 RECORD 1 AT 8', 12, [(9, 721), (13, 'x')]),
    ('8 RECORD 1 AT 12', 720, [(13, 'B')]), ('8 RECORD 1 AT 12', 720, [(14, 'b'), (429, 'x')]),
    ('8 RECORD 1 AT 428', 720, [(432, 'b')]), ('8 RECORD 1 AT 428', 720, [(429, 'IU1 '), (181, '     x')]),
    ('6 RECORD 1 AT 185', 720, [(181, '     x')]), ('6 RECORD 1 AT 291', 720, [(289, '    ')]),
    ('7 RECORD 1 AT 180', 720, [(181, '     0')]), ('7 RECORD 1 AT 224', 720, [(225, '   1')]), ('7 RECORD 1 AT 232', 720, [(233, '   2')]),
    ('8 RECORD 1 AT 0', 720, [(237, '       1')]), ('8 RECORD 1 AT 0', 720, [(281, '       7')]), ('8 RECORD 1 AT 0', 720, [(289, '   1')]),
)


def first_refusals() -> None:
    title('the first record refused: before 13, and before a wait for the line')
    scene = lettered(2)
    for due, enough, patches in FIRST_FAULTS:
        with changed(*patches):
            stops(enough - 1, 1, 'WAIT 1')
            for size, line in ((enough, 0), (scene.size, 1), (720, 3)):
                stops(size, line, 'REFUSED ' + due)
    title('a directory is no image')
    file = volume(3)
    for size, line in ((12, 1), (file.size, 0)):
        stops(size, line, refused(4, 1, 4))


def line_numbers() -> None:
    for n in (1, 2, 5):
        title(f'n = {n}: 13 for lines 0, n + 1 and beyond, before the wait; 1 and n wait')
        scene = lettered(n)
        for line in (0, n + 1, n + 2, 256 + n, 2 ** 32 + 1, 2 ** 63 + 1, MANY):
            for size in (720, scene.size - 1, scene.size, scene.size + 198):
                stops(size, line, 'REFUSED 13 RECORD 0 AT 0')
        for line in sorted({1, n}):
            stops(720, line, f'WAIT {198 * line}')
            scene.shows(line)


# The line's record ---------------------------------------------------------------------------------------


def line_waits() -> None:
    scene = lettered(3, 3, 1, 5)
    for line in (1, 2, 3):
        title(f'line {line} of 3: the bytes still missing to the end of its record')
        start, end = scene.start(line), scene.end(line)
        for size in sorted({720, start - 1, start, start + 1, start + 11, start + 12, start + 32, start + 192, end - 2, end - 1}):
            if size >= 720:
                stops(size, line, f'WAIT {end - size}')
        for size in (end, end + 1, end + 12, scene.size, scene.size + 1, HELD):
            scene.shows(line, size, (0,))


Fault = tuple[tuple[int, int], list[Patch]]  # refusal number and byte of the record, and what is put there
HEADER_FAULTS: list[Fault] = [
    ((3, 1), [(1, 0)]), ((3, 1), [(1, 1)]), ((3, 1), [(1, 2 ** 31)]), ((4, 5), [(5, b'3')]), ((4, 5), [(6, b'\xc0')]), ((4, 5), [(7, b'\x13')]),
    ((4, 5), [(8, b'\x12')]), ((5, 9), [(9, 0)]), ((5, 9), [(9, 197)]), ((5, 9), [(9, 199)]), ((5, 9), [(9, 198 << 16)]),
]
BODY_FAULTS: list[Fault] = [
    ((10, 13), [(13, 0)]), ((10, 13), [(13, 9)]), ((10, 13), [(13, 1 << 24)]), ((10, 13), [(13, 2 << 24)]), ((10, 17), [(17, 0)]), ((10, 17), [(17, 2)]),
    ((10, 17), [(17, 1 << 24)]),
]
BODY_FAULTS += [((10, 21), list(zip((21, 25, 29), some))) for some in (
    (0, 0, 0), (0, 2, 0), (0, 4, 0), (3, 3, 0), (0, 3, 1), (0, 0, 2), (0, 3 << 24, 0), (4294967295, 4, 0), (4, 4294967295, 0), (0, 4294967295, 4),
    (4294967295, 4294967295, 5), (2 ** 31, 2 ** 31, 3), (4294967295, 4294967295, 4294967295))]
# several at once: number, codes, length, then number, index, fills
ORDER_FAULTS: list[Fault] = [
    ((3, 1), [(1, 77), (5, 0), (9, 77), (13, 77), (17, 77), (21, 77)]), ((3, 1), [(1, 77), (9, 77)]), ((3, 1), [(1, 77), (13, 77)]),
    ((4, 5), [(5, 0), (9, 77), (13, 77), (17, 77)]), ((4, 5), [(5, 0), (21, 77)]), ((5, 9), [(9, 77), (13, 77)]), ((5, 9), [(9, 77), (17, 0), (21, 77)]),
    ((10, 13), [(13, 77), (17, 77), (21, 77)]), ((10, 13), [(13, 77), (29, 77)]), ((10, 17), [(17, 77), (25, 77)]),
]


def line_faults() -> None:
    scene = lettered(3)
    for line in (1, 3):
        start, end = scene.start(line), scene.end(line)
        for what, faults in (('header', HEADER_FAULTS), ('number, index and fills', BODY_FAULTS), ('one fault before another', ORDER_FAULTS)):
            title(f'line {line} of 3: {what}; while its record is not whole it is a wait')
            for (number, byte), patches in faults:
                with changed(*scene.at(line, *patches)):
                    view(end - 1, line, 'WAIT 1 PIXELS 0 0')
                    stops(end if len(answers) % 2 else HELD, line, refused(number, line + 1, start + byte - 1))
        scene.shows(line)
    title('a wrong header whose record is not whole, from its first byte on')
    with changed(*scene.at(2, (1, 77), (5, 0), (9, 77))):
        for more in (0, 1, 11, 12, 13, 197):
            stops(scene.start(2) + more, 2, f'WAIT {198 - more}')
        stops(scene.end(2), 2, refused(3, 3, 918))


def other_lines() -> None:
    title('earlier and later lines are not judged, and bytes after the line are not')
    scene = lettered(5)
    with changed(*[patch for line in (1, 2, 4, 5) for patch in scene.at(line, (1, 'x' * 32), (193, '??????'))]):
        for size in (scene.end(3), scene.end(3) + 1, scene.size, HELD):
            scene.shows(3, size)
        for line in (1, 2, 4, 5):
            stops(scene.size, line, refused(3, line + 1, scene.start(line)))
        stops(scene.end(3) - 1, 3, 'WAIT 1')
    title('bytes after the last line: no 9 here')
    for size in (scene.size + 1, scene.size + 198, HELD):
        scene.shows(5, size)
    title('a line of an image that is only half there: the lines before it are shown')
    for line in (1, 2, 3):
        scene.shows(line, scene.end(3), (0,))
    stops(scene.end(3), 4, 'WAIT 198')


# Rows ------------------------------------------------------------------------------------------------------


def rows() -> None:
    title('rows exactly long enough, one sample short (15), longer (later samples stay)')
    scene = lettered(4, 6, 3, 4)
    for line in (1, 2, 3, 4):
        scene.shows(line, rows=(-1, 0, 1, 5))
        for many in (0, 1, 64):
            copy(scene.size, line, many, 65535)
    title('rows of 255, 256 and more samples')
    for data in (255, 256, 257):
        scene = Scene(1, 300)
        scene.put(1, (300 - data, data, 0), letters(600))
        for many in (254, 255, 256):
            copy(scene.size, 1, many, 65534, refused(15) if many < data else f'COPIED {data}')
    title('an old sample that is 0, and one that is 65535')
    scene = lettered(1)
    for old in (0, 1, 65535):
        copy(scene.size, 1, 5, old, f"COPIED 3{row_said([256 * a + b for a, b in ((104, 105), (106, 107), (108, 109))])} {old} {old}")


def fifteen_last() -> None:
    title('15 comes last: not before the first record, 13, a wait, 3, 4, 5 or 10; line 1 is 15 in the same row')
    scene = lettered(2)
    for patches, size, line, due in (
            ([], 719, 1, 'WAIT 1'), ([(1, 2)], 1116, 1, refused(3, 1, 0)), ([(181, '     x')], 1116, 1, refused(6, 1, 185)), ([], 1116, 0, refused(13)),
            ([], 1116, 3, refused(13)), ([], 1115, 2, 'WAIT 1'), ([(919, 9)], 1116, 2, refused(3, 3, 918)), ([(923, 9)], 1116, 2, refused(4, 3, 922)),
            ([(927, 9)], 1116, 2, refused(5, 3, 926)), ([(931, 9)], 1116, 2, refused(10, 3, 930)), ([(947, 9)], 1116, 2, refused(10, 3, 938))):
        with changed(*patches):
            for many in (0, 1):
                copy(size, line, many, 3, due + row_said([3] * many))
    for many in (0, 1, 2):
        copy(1116, 1, many, 3, 'REFUSED 15 RECORD 0 AT 0' + row_said([3] * many))


# Many lines, and long ones -----------------------------------------------------------------------------------


def far_lines() -> None:
    title('n = 334, L = 194: lines far in, with none but themselves put')
    scene = Scene(334, 1)
    assert scene.size <= HELD
    for line in (1, 100, 256, 257, 333, 334):
        scene.put(line, (0, 1, 0), letters(2, 60 + line % 30))
    for line in (1, 100, 256, 257, 333, 334):
        scene.shows(line, scene.end(line), (0, 1))
        stops(scene.end(line) - 1, line, 'WAIT 1')
        stops(720, line, f'WAIT {194 * line}')
    stops(HELD, 255, refused(3, 256, 720 + 254 * 194))
    stops(HELD, 335, refused(13))


def long_lines() -> None:
    title('w = 29904: a line of 60000 bytes')
    scene = Scene(999999, 29904)
    assert scene.length == 60000
    scene.put(1, (29900, 4, 0), b'')
    load(60713, b'abcdefgh')
    scene.shows(1, 60720)
    scene.shows(1, HELD)
    stops(60719, 1, 'WAIT 1')
    scene.body(1, (0, 29904, 0))
    view(60720, 1, 'SHOWN 912 29904 0 PIXELS 59808')
    copy(60720, 1, 4, due='REFUSED 15 RECORD 0 AT 0 ROW 7 7 7 7')
    title('its far lines wait for places past 32 bits')
    stops(60720, 2, 'WAIT 60000')
    stops(HELD, 999999, f'WAIT {720 + 999999 * 60000 - HELD}')
    stops(HELD, 1000000, refused(13))
    title('n = L = 999999')
    scene = Scene(999999, 499903, 1)
    assert scene.length == 999999
    for line in (1, 2, 4295, 999998, 999999):
        for size in (720, HELD):
            stops(size, line, f'WAIT {720 + line * 999999 - size}')
    for line in (0, 1000000, 2 ** 44, MANY):
        stops(720, line, refused(13))


# Complex images ------------------------------------------------------------------------------------------------


def complex_lines() -> None:
    title('a complex image: n = 2, w = 3, s = 0, L = 436: its views skip a left fill of eight bytes a pixel; the row copy is 23')
    scene = Scene(2, sort=COMPLEX)
    scene.put(1, (0, 3, 0), letters(24))
    scene.put(2, (1, 2, 0), letters(24, 50))
    assert scene.size == 1592
    view(1592, 1, 'SHOWN 1132 3 0 PIXELS 24')
    view(1592, 2, 'SHOWN 1576 2 1 PIXELS 16')
    copy(1592, 1, 3, due='REFUSED 23 RECORD 0 AT 0 ROW 7 7 7')
    copy(1592, 1, 0, due='REFUSED 23 RECORD 0 AT 0 ROW')
    copy(1592, 2, 24, 9, due='REFUSED 23 RECORD 0 AT 0 ROW' + ' 9' * 24)
    title('the line\'s own comes before 23')
    for size, line, due in ((719, 1, 'WAIT 1'), (720, 1, 'WAIT 436'), (1155, 1, 'WAIT 1'), (1156, 2, 'WAIT 436'), (1592, 0, refused(13)),
                            (1592, 3, refused(13)), (720, MANY, refused(13))):
        stops(size, line, due)
    for byte, what, number, place in ((1157, 9, 3, 1156), (1162, b'\x0b', 4, 1160), (1165, 437, 5, 1164), (1169, 1, 10, 1168), (1173, 0, 10, 1172),
                                      (1177, 4294967295, 10, 1176)):
        with changed((byte, what)):
            stops(1592, 2, refused(number, 3, place))
            scene.shows(1)
    for byte, text, number, place in ((429, 'C*8b', 8, 428), (429, 'IU2 ', 7, 224), (225, '   2', 7, 224), (281, '       6', 8, 0), (187, '   435', 8, 0)):
        with changed((byte, text)):
            stops(1592, 1, refused(number, 1, place))


def complex_places() -> None:
    for w, s, more in ((1, 0, 0), (3, 1, 0), (3, 0, 1), (2, 5, 8), (7, 9, 63)):
        title(f'complex, w = {w}, s = {s}, L = 412 + d + s + {more}: pixels start L - s - d bytes into the record')
        scene = Scene(3, w, s, more, 255, COMPLEX)
        for line, some in ((1, (0, w, 0)), (2, (w // 2, w - w // 2, 0)), (3, (w, 0, 0))):
            scene.put(line, some, letters(8 * w, 97 + line))
        for line in (1, 2, 3):
            scene.shows(line)
            scene.shows(line, scene.end(line))
            stops(scene.end(line) - 1, line, 'WAIT 1')


# Sets ----------------------------------------------------------------------------------------------------------


def counts_of(pointers: int) -> list[int]:
    """What commands.py writes into a directory of so many pointers."""
    return [7 * pointer for pointer in range(1, pointers + 1)]


def with_count(counts: list[int], pointer: int, count: int) -> list[int]:
    return [count if i == pointer else old for i, old in enumerate(counts, start=1)]


def sets() -> None:
    for pointers in (3, 4, 5, 6):
        file, counts = volume(pointers), counts_of(pointers)
        title(f'{pointers} pointers: a set that agrees, and one that differs at each pointer')
        check(file.size, counts, 'AGREES')
        for pointer in range(1, pointers + 1):
            for count in (7 * pointer - 1, 7 * pointer + 1, 0, 2 ** 32 + 7 * pointer, MANY):
                check(file.size, with_count(counts, pointer, count), refused(12, 0, 360 * pointer + 100))
        title(f'{pointers} pointers: of several that differ the first')
        for first in range(1, pointers):
            for later in range(first + 1, pointers + 1):
                check(file.size, with_count(with_count(counts, first, 5), later, 5), refused(12, 0, 360 * first + 100))
        check(file.size, [count + 1 for count in counts], refused(12, 0, 460))
        check(file.size, counts[::-1], refused(12, 0, 460))
        title(f'{pointers} pointers: a list of the wrong length is 12 at 160, whatever its counts')
        for long in range(9):
            if long != pointers:
                check(file.size, (counts + [1] * 6)[:long], 'REFUSED 12 RECORD 0 AT 160')
        for wrong in ([], [0], [MANY] * 16, counts[1:], counts + [MANY], [0] + counts):
            check(file.size, wrong, 'REFUSED 12 RECORD 0 AT 160')


def written_counts() -> None:
    title('counts as they may be written, 1 and 99999999, and numbers that no directory has')
    file = volume(3)
    for pointer in (1, 2, 3):
        at = 360 * pointer + 101
        for text, count in (('+0000012', 12), ('00000012', 12), ('     +12', 12), ('       1', 1), ('99999999', 99999999), ('+9999999', 9999999),
                            ('10000000', 10000000)):
            with changed((at, text)):
                check(file.size, with_count(counts_of(3), pointer, count), 'AGREES')
                for other in (count - 1, count + 1, 2 ** 64 - count, MANY):
                    check(file.size, with_count(counts_of(3), pointer, other), refused(12, 0, at - 1))
        # refusal, and how far behind the field's first byte: 7 is at it, 6 at the bad byte
        for text, number, on in (('       0', 7, 0), ('      -7', 7, 0), ('      -0', 7, 0), ('        ', 6, 7), ('      7 ', 6, 7),
                                 ('    + 12', 6, 5), ('     1.0', 6, 6)):
            with changed((at, text)):
                for count in (0, 7 * pointer):
                    check(file.size, with_count(counts_of(3), pointer, count), refused(number, pointer + 1, at - 1 + on))


DIRECTORY_FAULTS: tuple[tuple[str, list[Patch]], ...] = (  # of a directory of 4 pointers: due, what is put
    ('3 RECORD 1 AT 0', [(1, 2)]), ('3 RECORD 6 AT 1800', [(1801, 5)]), ('3 RECORD 2 AT 360', [(361, 9), (721, 9), (1801, 9)]),
    ('4 RECORD 1 AT 4', [(5, 0)]), ('4 RECORD 4 AT 1084', [(1085, b'\x12')]), ('4 RECORD 6 AT 1804', [(1805, b'\xdb')]),
    ('5 RECORD 1 AT 8', [(9, 720)]), ('5 RECORD 3 AT 728', [(729, 361)]), ('5 RECORD 6 AT 1808', [(1809, 0)]),
    ('6 RECORD 1 AT 163', [(161, '   x')]), ('6 RECORD 2 AT 474', [(469, '     7 0')]),
    ('7 RECORD 1 AT 160', [(161, '   2')]), ('7 RECORD 1 AT 160', [(161, '   7')]), ('7 RECORD 5 AT 1548', [(1549, '     719')]),
    ('8 RECORD 1 AT 12', [(13, 'a')]), ('8 RECORD 2 AT 424', [(425, 'SART')]), ('8 RECORD 5 AT 1504', [(1505, 'IMOP')]),
    ('8 RECORD 4 AT 1144', [(161, '   3')]), ('8 RECORD 5 AT 1504', [(161, '   5')]),
)


def directory_faults() -> None:
    title("the directory's own refusal, with its record and place, before the list is looked at")
    file = volume(4)
    right = counts_of(4)
    for due, patches in DIRECTORY_FAULTS:
        with changed(*patches):
            for counts in (right, [], with_count(right, 1, 1), [MANY] * 8):
                check(file.size, counts, 'REFUSED ' + due)
    title('an image is no directory')
    image(2)
    check(1116, [1, 2, 3], refused(4, 1, 4))


def directory_cuts() -> None:
    for pointers in (3, 6):
        title(f'{pointers} pointers: a directory cut anywhere is 2, one with bytes added is 9')
        file, counts = volume(pointers), counts_of(pointers)
        for record, start in enumerate(file.starts[:-1], start=1):
            for more in (0, 1, 11, 12, 359):
                check(start + more, counts if more % 2 else [], refused(2, record, start))
        check(file.size, counts, 'AGREES')
        for more in (1, 12, 360):
            for some in (counts, [], counts + [1]):
                check(file.size + more, some, refused(9, pointers + 3, file.size))
        check(HELD, counts, refused(9, pointers + 3, file.size))


# Drawn ---------------------------------------------------------------------------------------------------------


class Dice(random.Random):
    """What make.py draws with: the same in every Python. Bytes that no rule names are all alike, so that a file is few commands."""

    filler = 0

    def random(self) -> float:
        return draw(2 ** 20) / 2 ** 20

    def randrange(self, below: int) -> int:  # type: ignore[override]
        return draw(below)

    def randint(self, low: int, high: int) -> int:
        return low + draw(high - low + 1)

    def choice(self, choices: Sequence[Any]) -> Any:
        return choices[draw(len(choices))]

    def shuffle(self, some: Any) -> None:  # type: ignore[override]
        some[:] = self.sample(some, len(some))

    def sample(self, some: Any, many: int) -> list[Any]:  # type: ignore[override]
        rest = list(some)
        return [rest.pop(draw(len(rest))) for _ in range(many)]

    def randbytes(self, many: int) -> bytes:
        return bytes((self.filler,)) * many


def become(data: bytes) -> None:
    """The buffer's first bytes become these: what differs is put, with the few bytes between two differences."""
    at = 0
    while at < len(data):
        if held[at] == data[at]:
            at += 1
            continue
        end = at + 1
        while data[end:end + 8] != held[end:end + len(data[end:end + 8])]:
            end += 1
        load(at + 1, data[at:end])
        at = end


def broken_record(dice: Dice, made: make.Made) -> bytes:
    """One or two rules of a record after the first broken."""
    record = 2 + draw(made.records - 1)
    rules = [one for one in make.breaks(dice, made) if one.rank[0] == record]
    return make.apply(made.data, *dice.sample(rules, min(1 + draw(2), len(rules))))


def hostile(dice: Dice, made: make.Made) -> bytes:
    """The file damaged, and cut now and then."""
    data = broken_record(dice, made) if draw(2) else dice.choice(make.DAMAGES)(dice, made, made.data)
    return data if draw(6) else make.cut(dice, made, data)


def drawn(kind: int, files: int, questions: Callable[[Dice, make.Made, bytes], None]) -> None:
    """Files as make.py draws them, each asked as it is and then three times damaged; the oracle alone says what is due."""
    dice = Dice()
    for turn in range(files):
        dice.filler = (32, 0, 255)[turn % 3]
        made = make.random_file(dice, kind)
        fill(dice.filler)
        for data in (made.data, *(hostile(dice, made) for _ in range(3))):
            become(data)
            questions(dice, made, data)


def line_touched(made: make.Made, data: bytes) -> int:
    """The line in whose record the first damage lies; 0 for the first record."""
    place = next((place for place in range(len(data)) if made.data[place:place + 1] != data[place:place + 1]), 0)
    return sum(start <= place for start in made.starts) - 1


def image_questions(dice: Dice, made: make.Made, data: bytes) -> None:
    """A line over all the bytes and over a cut, and a row about as long as is needed."""
    n, size = made.plan[reader.N], len(data)
    touched = line_touched(made, data) or 1
    line = dice.choice((touched, touched, touched, 1 + draw(n), draw(n + 2)))
    near = dice.choice(made.starts) + dice.choice((-1, 0, 0, 1, 12))
    for end in (size, max(0, min(near, size))):
        view(end, line)
    need = len(made.lines[min(max(line, 1), n) - 1].pixels)
    copy(size, line, max(0, need + dice.choice((-1, 0, 0, 0, 1, 3))), draw(65536))


def volume_questions(dice: Dice, made: make.Made, data: bytes) -> None:
    """The right list, and one that is not."""
    size = len(data)
    check(size, made.counts)
    some = list(made.counts)
    at = draw(len(some))
    some[at] = dice.choice((some[at] + 1, some[at] - 1, 0, MANY, draw(10 ** 8)))
    check(size, dice.choice((some, some, some[:-1], some + [1])))


def drawn_images() -> None:
    title('images as they are drawn, whole, damaged and cut')
    drawn(IMAGE, 60, image_questions)


def drawn_volumes() -> None:
    title('directories as they are drawn, whole, damaged and cut')
    drawn(VOLUME, 45, volume_questions)


def main() -> int:
    for part in (worked_examples, samples, fills, places, no_pixels, first_waits, first_refusals, line_numbers, line_waits, line_faults, other_lines,
                 rows, fifteen_last, far_lines, long_lines, complex_lines, complex_places, sets, written_counts, directory_faults,
                 directory_cuts, drawn_images, drawn_volumes):
        part()
    return store(HOME)


sys.exit(main())
