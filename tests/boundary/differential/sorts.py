"""The sorts of cases of the differential run: each is a function of drawn numbers that asks a block of questions.

`block` is the number of the block in its sort, from 0; all else comes from `rng`, so that sort, block and seed
give the same questions again."""
import itertools
import random
from typing import Callable, Iterator

from asking import MANY, STATE, Asking

import reader  # the path to tests/oracle is set by asking
import make
import make_cards
import make_powers
from reader import COMPLEX, COUNTS, IMAGE, LEADER, N, PASSED, TRAILER, VOLUME, W
from make import KINDS, Made

OPEN, CLOSED = 0, 1
HUGE = (2 ** 32 - 1, 2 ** 32, 2 ** 63 - 1, 2 ** 63, 2 ** 64 - 192, 2 ** 64 - 2, MANY)
Sort = Callable[[random.Random, Asking, int], None]


def either(rng: random.Random) -> int:
    """Open or closed; closed is any number but 0."""
    return rng.choice((OPEN, CLOSED, CLOSED, rng.choice((2, 255, 256, 2 ** 32, 2 ** 63, MANY))) if rng.random() < 0.3 else (OPEN, CLOSED))


def fresh(ask: Asking, kind: int) -> None:
    ask.set_state(reader.begin(kind)[0])


# Whole files, damage, cuts, pieces ------------------------------------------------------------------------


def whole(rng: random.Random, ask: Asking, block: int) -> None:
    """Valid files of the four kinds: every budget up to two more than the records, open and closed; record by record."""
    made = make.random_file(rng, KINDS[block % 4])
    ask.hold(made.data)
    size = len(made.data)
    budgets = [*range(min(made.records, 12) + 3), made.records - 1, made.records, made.records + 1, rng.choice(HUGE)]
    for budget in budgets:
        for closed in (OPEN, CLOSED):
            fresh(ask, made.kind)
            ask.walk(0, size, closed, budget)
    ask.begin(made.kind)
    for closed in (CLOSED, OPEN):
        for ordinal in range(made.records + 1):
            ask.set_state(made.state(ordinal))
            at = ask.start()
            ask.walk(at, size - at, closed, rng.choice((0, 1, 1, 2, 3, MANY)))


def broken(rng: random.Random, ask: Asking, block: int) -> None:
    """Every rule of a file broken, one at a time: from the state before that record, or from a fresh one."""
    made = make.random_file(rng, KINDS[block % 3] if block % 10 else TRAILER)
    ask.hold(made.data)
    for one in make.breaks(rng, made):
        old = ask.put(one.place, one.patch)
        before = rng.choice((one.rank[0] - 1, one.rank[0] - 1, max(0, one.rank[0] - 2), 0 if made.kind != LEADER else one.rank[0] - 1))
        ask.set_state(made.state(before))
        at = made.starts[before]
        ask.walk(at, len(made.data) - at, either(rng), rng.choice((1, 2, MANY, MANY)))
        ask.put(one.place, old)


def damaged(rng: random.Random, ask: Asking, block: int) -> None:
    """Files damaged in any way, closed and open, cut anywhere; and bytes that are no file."""
    made = make.random_file(rng, rng.choice(KINDS))
    for _ in range(4):
        data = make.damage(rng, made)
        ask.hold(data)
        fresh(ask, made.kind)
        ask.walk(0, len(data), CLOSED)
        ask.walk(0, len(data), OPEN, rng.choice((MANY, rng.randint(0, 6))))
        ask.walk(0, rng.randint(0, len(data)), either(rng), rng.choice((MANY, MANY, rng.randint(0, 6))))
        fresh(ask, rng.choice(KINDS))
        ask.walk(0, len(data), either(rng))
    noise = rng.randbytes(rng.randint(0, 60))
    ask.hold(noise)
    for kind in KINDS:
        fresh(ask, kind)
        ask.walk(0, len(noise), either(rng), rng.choice((0, 1, MANY)))


def either_sort(rng: random.Random) -> int:
    """Of images: counts or complex."""
    return rng.choice((COUNTS, COMPLEX))


def smallest(rng: random.Random, kind: int) -> Made:
    images = {COUNTS: make.image_plan(2, 3, rng.choice((0, 2)), 200), COMPLEX: make.image_plan(2, 2, rng.choice((0, 2)), 430, COMPLEX)}
    plans = {VOLUME: make.volume_plan(3), LEADER: make.leader_shape(rng, 0, 1 << rng.randrange(11)), TRAILER: make.trailer_plan(),
             IMAGE: images[either_sort(rng)]}
    return make.make(rng, plans[kind])


def cuts(rng: random.Random, ask: Asking, block: int) -> None:
    """A small file cut at every byte, open and closed; each second time with one rule broken."""
    made = smallest(rng, KINDS[block % 4])
    data = make.apply(made.data, rng.choice(make.breaks(rng, made))) if block // 4 % 2 else made.data
    ask.hold(data)
    fresh(ask, made.kind)
    for size in range(len(data) + 1):
        ask.walk(0, size, OPEN)
        ask.walk(0, size, CLOSED)


def pieces(rng: random.Random, ask: Asking, block: int) -> None:
    """A file that arrives in pieces: states handed back, any budgets, open until all is there, closed at the end."""
    made = make.random_file(rng, rng.choice((VOLUME, LEADER, IMAGE, IMAGE, TRAILER)))
    data = make.damage(rng, made) if rng.random() < 0.5 else made.data
    ask.hold(data)
    ask.begin(made.kind)
    arrived, at, most = 0, 0, rng.choice((13, 200, 800, 5000))
    for _ in range(60):
        arrived = min(len(data), arrived + rng.choice((0, 1, 11, 12, rng.randint(0, most), rng.randint(0, most))))
        closed = CLOSED if arrived == len(data) and rng.random() < 0.6 else OPEN
        stop = ask.walk(at, max(0, arrived - at), closed, rng.choice((0, 1, 1, 2, 3, 7, MANY, MANY)), keep=True)
        at = ask.start()
        if stop[0] in ('complete', 'refused'):
            ask.walk(at, max(0, arrived - at), closed, MANY, keep=True)  # said again
            break


# States -----------------------------------------------------------------------------------------------


def off(rng: random.Random, number: int) -> Iterator[int]:
    """Other numbers in its place: off by one, 0, huge, any."""
    yield from {(number - 1) % 2 ** 64, (number + 1) % 2 ** 64, 0, rng.choice(HUGE), rng.choice(make.EDGES), rng.randrange(2 ** 64)} - {number}


def states(rng: random.Random, ask: Asking, block: int) -> None:
    """A good state with each of its 43 numbers altered; the walk, its budget of 0, and the start of each."""
    base = make.good_state_of(rng, KINDS[block % 4]) if block % 3 else make.random_file(rng, KINDS[block % 4]).state(1)
    ask.hold(rng.randbytes(40))
    ask.set_state(base)
    ask.start()
    ask.walk(0, 40, CLOSED)
    for index in range(STATE):
        for number in off(rng, base[index]):
            ask.set_number(index, number)
            if rng.random() < 0.3:
                ask.start()
            else:
                ask.walk(0, rng.choice((0, 11, 40)), either(rng), rng.choice((0, 1, MANY)))
        ask.set_number(index, base[index])
    for _ in range(20):
        ask.set_state(make.any_state(rng))
        ask.start()
        ask.walk(0, rng.choice((0, 11, 40)), either(rng), rng.choice((0, 1, MANY)))


def begins(rng: random.Random, ask: Asking, block: int) -> None:
    """Kinds that there are and kinds that there are not, over any state."""
    for kind in (*range(7), 255, 256, 257, 2 ** 32 + 1, 2 ** 32 + 3, *HUGE, rng.randrange(2 ** 64)):
        ask.set_state(make.any_state(rng))
        ask.begin(kind, rng.choice((STATE, STATE, STATE + 1, 60)), rng.choice((5, 5, 6, 9)))
        ask.start()
        ask.walk(0, 0, either(rng), rng.choice((0, 1)))


def far(rng: random.Random, ask: Asking, block: int) -> None:
    """States deep in a huge image, so that places pass 32 bits, with the bytes of their next record alone."""
    size = rng.choice((4_300, 6_000, 12_192)) if block % 12 else rng.choice((99_999, 999_999))
    n, s, sort = rng.randint(900_000, 999_999), rng.choice((0, 7)), either_sort(rng)
    w = rng.choice((1, 3, (size - make.AHEAD[sort] - s) // make.GROUP[sort]))
    line = rng.randint(2 ** 32 // size + 1, n) if n * size > 2 ** 32 else n
    plan = make.image_plan(n, w, s, size, sort)
    maker = make.Maker(rng, plan)
    maker.record((50, make.LINE_CODE[sort], 18, 20), size)
    maker.line_parts(line, make.random_fills(rng, w))
    ask.hold(bytes(maker.data) + b'\0')
    ask.put(0, (line + 1).to_bytes(4, 'big'))
    state = [*plan]
    state[PASSED] = line
    ask.set_state(state)
    ask.start()
    other_code = bytes((make.LINE_CODE[make.other_sort(plan)],))
    for place, text in ((0, b''), (0, b'\1'), (5, other_code), (6, b'\0'), (8, b'\1'), (12, b'\7'), (19, b'\2'), (20, b'\xff' * 4), (28, b'\0\1')):
        old = ask.put(place, text)
        for length in {size + 1, size, size - 1, 12, rng.choice((0, 5, 11, 13, 32))}:
            ask.walk(0, length, either(rng), rng.choice((1, MANY)))
        ask.put(place, old)
    ask.walk(0, size, OPEN, 1, keep=True)
    ask.start()
    state[PASSED] = n + 1
    ask.set_state(state)
    for length, closed in ((0, OPEN), (0, CLOSED), (1, OPEN), (1, CLOSED)):
        ask.walk(0, length, closed)
    ask.start()
    far_leader(rng, ask)


def far_leader(rng: random.Random, ask: Asking) -> None:
    """States in a leader of any size, with the next header alone."""
    for _ in range(6):
        state = make.good_state_of(rng, LEADER)
        ask.set_state(state)
        ask.start()
        if 0 < state[PASSED] < reader.planned(state):
            due = reader._leader_dues(state)[state[PASSED] - 1]
            codes = bytes(rng.randrange(256) if code is None else code for code in due.codes)
            ask.hold((state[PASSED] + 1).to_bytes(4, 'big') + codes + due.length.to_bytes(4, 'big') + rng.randbytes(30))
            for length in (12, rng.randint(0, 42), 42):
                ask.walk(0, length, either(rng), rng.choice((0, 1, MANY)))
            ask.put(rng.randrange(12), bytes((rng.randrange(256),)))
            ask.walk(0, 42, either(rng))


# Written numbers ----------------------------------------------------------------------------------------


def grammar(rng: random.Random, width: int) -> bytes:
    """Letters of the grammar, often right-justified."""
    if rng.random() < 0.5:
        return bytes(rng.choice(b'   +-01290.E') for _ in range(width))
    size = rng.randint(1, width)
    return bytes(rng.choice(b'+-0123456789.E' if rng.random() < 0.3 else b'0123456789') for _ in range(size)).rjust(width)


def extremes(form: str) -> list[bytes]:
    """The widest and the smallest numbers of a form."""
    width, places = make.WIDTH[form], make.PLACES.get(form, 0)
    tails = [b'E+99', b'E-99', b'E+00', b'E-00'] if form[0] == 'E' else [b'']
    point = b'.' if places else b''
    before = width - places - len(point) - len(tails[0])
    texts = []
    for tail in tails:
        for digit in (b'9', b'0', b'1'):
            for sign in (b'', b'+', b'-'):
                texts.append(sign + digit * (before - len(sign)) + point + digit * places + tail)
        if places:
            texts += [(sign + point + b'0' * (places - 1) + b'1' + tail).rjust(width) for sign in (b'', b'+', b'-')]
    return texts


def shapes(rng: random.Random, form: str) -> list[bytes]:
    """Texts of the form's width: blank, extremes, bad ones, drawn ones."""
    width = make.WIDTH[form]
    texts = [b' ' * width, *rng.sample(extremes(form), 5), *rng.sample(make.bad_texts(form), 8)]
    texts += [make.spell_point(rng, form)[0] for _ in range(6)]
    texts += [grammar(rng, width) for _ in range(6)]
    good = bytearray(make.spell_point(rng, form)[0])
    for _ in range(4):
        one = bytearray(good)
        one[rng.randrange(width)] = rng.choice((rng.randrange(256), rng.choice(b' +-.E/:0\t\0e')))
        texts.append(bytes(one))
    return texts


def fields(rng: random.Random, ask: Asking, block: int) -> None:
    """Every listed field in every shape, in records of any length, and numbers that are not listed."""
    size = rng.choice((4096, 2006, 1620, 2100))
    ask.hold(b' ' * size if block % 2 else rng.randbytes(size))
    for number, (first, last, form) in reader.LISTED.items():
        if last > size:
            continue
        for text in shapes(rng, form):
            ask.put(first - 1, text)
            ask.field(0, rng.choice((size, last)), number)
        for length in (last - 1, first - 1, rng.randint(0, size), 0):
            ask.field(0, length, number)
        ask.field(0, rng.choice((0, 1, size, rng.randint(0, size))), rng.choice((0, 14, 15, 256 + number, 2 ** 32 + number, *HUGE)))


def filled(form: str, letters: bytes) -> Iterator[bytes]:
    """The bytes ahead of the point filled with these letters in every way."""
    tail = b'.' + b'5' * make.PLACES[form] + (b'E-05' if form[0] == 'E' else b'')
    return (bytes(lead) + tail for lead in itertools.product(letters, repeat=make.WIDTH[form] - len(tail)))


# Listed fields 1, 5 and 2 (F8.3, E20.13, F16.7): a sign, blanks and digits in every place ahead of the point, and in the exponent.
SIGNED = [(1, text) for text in filled('F8.3', b' +-5')] + [(5, text) for text in filled('E20.13', b' +-5')]
SIGNED += [(5, b' 5.5555555555555E' + bytes(tail)) for tail in itertools.product(b' +-5', repeat=3)]
SIGNED += [(2, text) for sign in (b'-', b'+') for text in filled('F16.7', b' 5' + sign)]
SIGNED_BLOCK = 100


def signs(rng: random.Random, ask: Asking, block: int) -> None:
    """Blanks behind a sign, and every other place of both (document 02, No. 4): so many texts a block, until all were asked."""
    ask.hold(b' ' * 2006)
    for at in range(SIGNED_BLOCK * block, SIGNED_BLOCK * (block + 1)):
        number, text = SIGNED[at % len(SIGNED)]
        ask.put(reader.LISTED[number][0] - 1, text)
        ask.field(0, 2006, number)


def begun_well(rng: random.Random, form: str) -> Iterator[bytes]:
    """A good beginning of every length, then a byte of each letter of the grammar and one of none, then a good end, blanks or anything."""
    width = make.WIDTH[form]
    for at in range(width):
        good = make.spell_listed(rng, form)[0]
        for letter in b' 5+-.Ex':
            rest = rng.choice((good, good, b' ' * width, grammar(rng, width), rng.randbytes(width)))
            yield good[:at] + bytes((letter,)) + rest[at + 1:]


def bad_bytes(rng: random.Random, ask: Asking, block: int) -> None:
    """The place of a 6 (document 02, No. 5): a listed field and a number of the walk that go wrong at each of their bytes."""
    number = 1 + block % 13
    first, _, form = reader.LISTED[number]
    ask.hold(rng.randbytes(2006))
    for text in begun_well(rng, form):
        ask.put(first - 1, text)
        ask.field(0, 2006, number)
    made = smallest(rng, KINDS[block % 3])
    part = rng.choice([part for part in made.parts if part.sort in ('number', 'listed')])
    ask.hold(made.data)
    ask.set_state(made.state(part.record - 1))
    begun, ended = made.starts[part.record - 1], made.starts[part.record]
    for text in (b' ' * part.width, *begun_well(rng, part.form)):
        ask.put(part.place, text)
        ask.walk(begun, ended - begun, either(rng), 1)
    spoilt_files(rng, ask)


def spoilt(rng: random.Random, made: Made) -> bytes:
    """One number of the file badly written."""
    part = rng.choice([part for part in made.parts if part.sort in ('number', 'listed')])
    text = rng.choice(make.bad_texts(part.form))
    return made.data[:part.place] + text + made.data[part.place + part.width:]


def spoilt_files(rng: random.Random, ask: Asking) -> None:
    """A badly written number in an image, whatever is asked of its lines; in a directory; in either file of a scene."""
    image, leader, volume = (smallest(rng, kind) for kind in (IMAGE, LEADER, VOLUME))
    files = [spoilt(rng, image), image.data, spoilt(rng, leader), spoilt(rng, volume)]
    ask.hold(b''.join(files))
    bad_image, good_image, bad_leader, bad_volume = ((sum(map(len, files[:i])), len(data)) for i, data in enumerate(files))
    line = rng.randint(0, 3)
    ask.line(*bad_image, line)
    ask.row(*bad_image, line, 9)
    ask.complex_row(*bad_image, line, 9)
    ask.sample(*bad_image, line, 0)
    ask.power(*bad_image, line, 0)
    ask.set(*bad_volume, volume.counts)
    for one in (bad_image, good_image):
        ask.card_build(one, bad_leader, 400)


def numbers(rng: random.Random, ask: Asking, block: int) -> None:
    """Every number field of the records that the walk reads (I4, I6, I8), in every shape."""
    made = make.random_file(rng, KINDS[block % 3])
    ask.hold(made.data)
    parts = [part for part in made.parts if part.sort in ('number', 'listed')]
    for part in rng.sample(parts, min(len(parts), 8)):
        old = ask.bytes_at(part.place, part.width)
        ask.set_state(made.state(part.record - 1))
        begun, ended = made.starts[part.record - 1], made.starts[part.record]
        texts = shapes(rng, part.form)
        values = (part.low - 1, part.low, part.high, part.high + 1, -part.low, 0, rng.randint(part.low, part.high))
        texts += [make.spell_whole(rng, value, part.width) for value in values if part.sort == 'number' and make.fits_width(value, part.width)]
        for text in texts:
            ask.put(part.place, text)
            ask.walk(begun, ended - begun, either(rng), 1)
        ask.put(part.place, old)


# Lines, rows, sets, listing -------------------------------------------------------------------------------


def with_data(rng: random.Random, w: int) -> make.Fills:
    """Fills of a line with data pixels, but for one in five."""
    if rng.random() < 0.2:
        return make.random_fills(rng, w)
    left = rng.randint(0, w - 1)
    shown = rng.randint(1, w - left)
    return left, shown, w - left - shown


def an_image(rng: random.Random, sort: int, damaged: float = 0.4) -> tuple[Made, bytes]:
    """An image of that sort, most lines with data pixels; or damage of one, as often as is said."""
    plan = make.random_image_plan(rng, sort)
    made = make.make_image(rng, plan, [with_data(rng, plan[W]) for _ in range(plan[N])])
    return made, make.damage(rng, made) if rng.random() < damaged else made.data


def lines(rng: random.Random, ask: Asking, block: int) -> None:
    """Every line, lines that there are not, of prefixes of any length; one line at every byte of a small image."""
    made, data = an_image(rng, either_sort(rng))
    ask.hold(data)
    size = len(data)
    for line in (*range(made.plan[N] + 3), 2 ** 32 + 1, rng.choice(HUGE)):
        ask.line(0, size, line)
        ask.line(0, rng.randint(0, size), line)
    for start in made.starts:
        for length in (start - 1, start, start + 1, start + 11, start + 12, start + 32):
            ask.line(0, max(0, min(size, length)), rng.randint(1, made.plan[N]))
    for one in rng.sample(make.breaks(rng, made), 20):
        if one.place + len(one.patch) <= size:
            old = ask.put(one.place, one.patch)
            ask.line(0, size, max(1, one.rank[0] - 1) + rng.choice((0, 0, 0, 1)))
            ask.put(one.place, old)
    if block % 8 == 7:
        small = smallest(rng, IMAGE)
        ask.hold(small.data)
        for length in range(len(small.data) + 1):
            ask.line(0, length, 1 + length % 2)
    wide_line(rng, ask)


def wide_line(rng: random.Random, ask: Asking) -> None:
    """The first record of an image of any size: how many bytes a far line waits for."""
    plan = make.wide_plan(rng, IMAGE)
    first = make.first_record(rng, plan).data
    ask.hold(first)
    for line in (1, plan[N], plan[N] + 1, rng.randint(1, plan[N])):
        ask.line(0, len(first), line)
        ask.row(0, len(first), line, 3)
        ask.complex_row(0, len(first), line, 3)
        ask.sample(0, len(first), line, rng.choice((0, MANY)))
        ask.power(0, len(first), line, rng.choice((0, MANY)))


def rows(rng: random.Random, ask: Asking, block: int) -> None:
    """Row copies into rows too short, just long enough, and longer; on waits and refusals too; of counts and of complex samples."""
    made, data = an_image(rng, either_sort(rng))
    ask.hold(data)
    size, w = len(data), made.plan[W]
    for copy, each in ((ask.row, 1), (ask.complex_row, 2)):
        for line, shown in enumerate(made.lines, start=1):
            count = each * len(shown.pixels)
            for row_len in {0, count - 1, count, count + 1, count // 2, each * w, each * w + 5, rng.randint(0, each * w)} - {-1}:
                copy(0, size, line, row_len)
            copy(0, rng.randint(0, size), line, each * w)
        for line in (0, made.plan[N] + 1, rng.choice(HUGE)):
            copy(0, size, line, rng.choice((0, each * w)))
    if block % 20 == 0:
        longer = make.make_image(rng, make.image_plan(1, 6_000, 0, sort=block // 20 % 2), [(0, 6_000, 0)])
        ask.hold(longer.data)
        for row_len in (5_999, 6_000, 6_001, 11_999, 12_000, 12_001):
            ask.row(0, len(longer.data), 1, row_len)
            ask.complex_row(0, len(longer.data), 1, row_len)


def indices(rng: random.Random, count: int) -> set[int]:
    """Of samples that there are, and that there are not; some that are one only in 32 bits, or whose eightfold wraps."""
    outside = rng.sample((count, count + 1, 2 ** 32 + rng.randint(0, count), 2 ** 61 + count // 2, rng.choice(HUGE), MANY), 3)
    return {*range(min(count, 6)), max(count - 1, 0), rng.randint(0, count), *outside}


def samples_and_powers(rng: random.Random, ask: Asking, block: int) -> None:
    """Samples and powers of both sorts, and their lines and rows: every line, lines that there are not, damaged images, cut ones, rules broken."""
    made, data = an_image(rng, block % 2, damaged=0.15)
    ask.hold(data)
    size = len(data)
    for line, shown in enumerate(made.lines, start=1):
        count = len(shown.pixels)
        for index in indices(rng, count):
            ask.sample(0, size, line, index)
            ask.power(0, size, line, index)
        ask.line(0, size, line)
        ask.row(0, size, line, rng.choice((0, count, count)))
        ask.complex_row(0, size, line, rng.choice((0, 2 * count, 2 * count, 2 * count + 3, max(2 * count - 1, 0))))
        cut = rng.choice((made.starts[line + 1] - 1, made.starts[line], rng.randint(0, size)))
        for one in (ask.sample, ask.power):
            one(0, min(size, cut), line, rng.choice((0, count, MANY)))
            one(0, size, rng.choice((0, made.plan[N] + 1, *HUGE)), rng.choice((0, MANY)))
    for one in rng.sample(make.breaks(rng, made), 6):
        if one.place + len(one.patch) <= size:
            line = max(1, one.rank[0] - 1) + rng.choice((0, 0, 0, 1))
            old = ask.put(one.place, one.patch)
            ask.sample(0, size, line, rng.choice((0, MANY)))
            ask.power(0, size, line, rng.choice((0, MANY)))
            ask.complex_row(0, size, line, rng.choice((0, 2 * made.plan[W])))
            ask.put(one.place, old)


IN_LINE, IN_IMAGE = 64, 256  # samples


def power_blocks() -> int:
    """So many blocks ask every pair of make_powers.py."""
    return -(-len(make_powers.vectors()) // IN_IMAGE)


def powers(rng: random.Random, ask: Asking, block: int) -> None:
    """The power of drawn pairs and edges, in images of a few lines, by make_powers.py; the block chooses the pairs."""
    first = block % power_blocks() * IN_IMAGE
    pairs = make_powers.vectors()[first:first + IN_IMAGE]
    lines = [pairs[i:i + IN_LINE] for i in range(0, len(pairs), IN_LINE)]
    fills = [(1, len(line), IN_LINE - len(line)) for line in lines]
    made = make.make_image(rng, make.image_plan(len(lines), IN_LINE + 1, 2, sort=COMPLEX), fills, lines)
    ask.hold(made.data)
    for line, some in enumerate(lines, start=1):
        for index in range(len(some)):
            ask.power(0, made.starts[line + 1], line, index)


def sets(rng: random.Random, ask: Asking, block: int) -> None:
    """Directories with their counts: the same, other at each pointer, other lengths; damaged and cut directories."""
    made = make.random_file(rng, VOLUME)
    size, counts = len(made.data), made.counts
    ask.hold(made.data)
    ask.set(0, size, counts)
    for pointer, count in enumerate(counts):
        for other in (count - 1, count + 1, 0, rng.choice(HUGE), count + 2 ** 32, MANY - count + 1):
            ask.set(0, size, [*counts[:pointer], other, *counts[pointer + 1:]])
        two = rng.sample(range(len(counts)), 2)
        ask.set(0, size, [count + (i in two) for i, count in enumerate(counts)])
    for many in range(9):
        ask.set(0, size, (counts * 3)[:many])
    ask.set(0, size, list(reversed(counts)))
    ask.set(0, size, counts * 100)
    ask.set(0, rng.randint(0, size), counts)
    for one in rng.sample(make.breaks(rng, made), 12):
        old = ask.put(one.place, one.patch)
        ask.set(0, size, counts[:rng.choice((0, 1, 9, 9, 9))])
        ask.put(one.place, old)
    for _ in range(2):
        data = make.damage(rng, made)
        ask.hold(data)
        ask.set(0, len(data), counts)


def listed_file(rng: random.Random, block: int) -> bytes:
    """An image, whole, damaged or cut; now and then one with lines too long to list, or as long as they may be."""
    if block % 10 == 9:
        sort = either_sort(rng)
        widest = (32_768 - make.AHEAD[sort]) // make.GROUP[sort]
        plan = make.image_plan(1, rng.choice((1, widest)), 0, rng.choice((32_768, 32_769, 32_770, 40_000)), sort)
        data = make.make(rng, plan).data
        return data[:rng.choice((len(data), 720, 800))]
    made, data = an_image(rng, either_sort(rng))
    return data if rng.random() < 0.8 else data[:rng.randint(0, len(data))]


def listing(rng: random.Random, ask: Asking, block: int) -> None:
    """Whole listings by the boundary: walks with a budget of 1 and the line view."""
    for turn in range(10):
        data = listed_file(rng, turn)
        ask.hold(data)
        ask.listing(0, len(data))


# Cards ------------------------------------------------------------------------------------------------


def cards_read(rng: random.Random, ask: Asking, block: int) -> None:
    """Cards, valid, with each rule broken, damaged, cut, added to; and bytes that are none."""
    made = make_cards.card_like(rng, 3_000, 255) if block == 5 else make_cards.random_card(rng)
    size, breaks = len(made.data), make_cards.breaks(rng, made)
    ask.hold(made.data + b'\0')
    ask.card(0, size)
    ask.card(0, size + 1)
    for cut in {*rng.sample(made.starts, min(8, len(made.starts))), *(rng.randint(0, size) for _ in range(8)), *range(18)}:
        ask.card(0, min(cut, size))
    for one in rng.sample(breaks, min(len(breaks), 60)):
        old = ask.put(one.place, one.patch)
        ask.card(0, size)
        ask.card(0, min(size, one.place + rng.randint(0, 17)))  # cut short as well
        ask.put(one.place, old)
    for data in (*(make_cards.damage(rng, made) for _ in range(10)), make_cards.far_leaders(rng)[0], rng.randbytes(rng.randint(0, 60)), b''):
        ask.hold(data)
        ask.card(0, len(data))


def card_cuts(rng: random.Random, ask: Asking, block: int) -> None:
    """A small card cut at every byte; each second time with one rule broken; with its numbers."""
    made = make_cards.card_like(rng, rng.randint(1, 3), rng.randint(0, 3))
    data = rng.choice(make_cards.breaks(rng, made)).applied(made.data) if block % 2 else made.data
    ask.hold(data)
    for size in range(len(data) + 1):
        ask.card(0, size)
        ask.card_numbers(0, size, len(made.card.numbers()))


def card_numbers(rng: random.Random, ask: Asking, block: int) -> None:
    """All numbers into lists too short, just long enough, and longer; on refusals too."""
    made = make_cards.card_like(rng, 3_000, 50) if block == 5 else make_cards.random_card(rng)
    size, many = len(made.data), len(made.card.numbers())
    ask.hold(made.data)
    for room in (0, 1, 4, many - 2, many - 1, many, many + 1, many + 9, rng.randint(0, many)):
        ask.card_numbers(0, size, room)
    for cut in rng.sample(made.starts, min(len(made.starts), 6)):
        ask.card_numbers(0, cut, rng.choice((many, 0)))
    for one in rng.sample(make_cards.breaks(rng, made), 12):
        old = ask.put(one.place, one.patch)
        ask.card_numbers(0, size, rng.choice((many, many, 0)))
        ask.put(one.place, old)
    for data in (make_cards.damage(rng, made), make_cards.far_leaders(rng)[0]):
        ask.hold(data)
        ask.card_numbers(0, len(data), many + 20)


def cards_built(rng: random.Random, ask: Asking, block: int) -> None:
    """Cards of scenes, into buffers of every length near the card's; either file damaged, or both, cut, or exchanged."""
    image, leader = make.random_file(rng, IMAGE), make.random_file(rng, LEADER)
    if block % 20 == 3:
        image = make.make_image(rng, make.image_plan(300, 2, 0, sort=either_sort(rng)))  # more lines than a byte counts
    size = 17 + 13 * image.plan[N] + 10 * leader.records
    ones, others = [image.data, make.damage(rng, image), image.data + b'\0'], [leader.data, make.damage(rng, leader), leader.data + b'\0']
    ask.hold(b''.join(ones + others))
    places = [sum(map(len, (ones + others)[:i])) for i in range(6)]
    images = [(at, len(data)) for at, data in zip(places[:3], ones)]
    leaders = [(at, len(data)) for at, data in zip(places[3:], others)]
    for card_len in (0, 1, 17, size - 10, size - 1, size, size + 1, size + 70):
        ask.card_build(images[0], leaders[0], card_len)
    for one in images:
        for other in leaders:
            ask.card_build(one, other, rng.choice((size, size + 30, 0)))
    ask.card_build(leaders[0], images[0], size)
    for one, other in ((images[0], (0, 0)), ((0, 0), leaders[0]), ((0, 0), (0, 0))):
        ask.card_build(one, other, size)
    ask.card_build((0, rng.randrange(images[0][1])), leaders[0], rng.choice((size, 0)))
    ask.card_build(images[0], (leaders[0][0], rng.randrange(leaders[0][1])), rng.choice((size, 0)))


# Arrays too short or longer, NULL --------------------------------------------------------------------------


def arrays(rng: random.Random, ask: Asking, block: int) -> None:
    """Every function with arrays of every length up to a little more than needed; NULL where a length is 0."""
    made = make.random_file(rng, KINDS[block % 4])
    image, volume = make.random_file(rng, IMAGE), make.random_file(rng, VOLUME)
    ask.hold(made.data + image.data + volume.data)
    a, b = len(made.data), len(image.data)
    for length in (*range(STATE + 3), 50, 60):
        answer_len = rng.choice((5, 5, 6, 8, rng.randrange(5)))
        ask.set_state(made.state(rng.randint(0, made.records)))
        ask.start(length)
        at = reader.start(ask.state)
        ask.walk(at, a - at, either(rng), rng.choice((0, 1, MANY)), array_len=length, answer_len=answer_len)
        ask.walk(0, 0, either(rng), 1, array_len=length, answer_len=answer_len)
        ask.begin(rng.randint(0, 5), length, answer_len, keep=False)
    for answer_len in range(8):
        for value_len in range(5):
            ask.field(0, rng.choice((0, a)), rng.randint(0, 14), value_len, answer_len)
        ask.line(a, rng.choice((0, b)), rng.randint(0, 2), answer_len)
        ask.row(a, rng.choice((0, b, b)), rng.randint(0, 2), rng.choice((0, 3, image.plan[W])), answer_len)
        ask.set(a + b, rng.choice((0, len(volume.data))), volume.counts[:rng.choice((0, 9))], answer_len)
    card_arrays(rng, ask)
    sample_arrays(rng, ask)


def card_arrays(rng: random.Random, ask: Asking) -> None:
    """A card, its numbers and its building with answers of every length."""
    image, leader, made = make.random_file(rng, IMAGE), make.random_file(rng, LEADER), make_cards.random_card(rng)
    ask.hold(image.data + leader.data + made.data)
    a, b, c = len(image.data), len(leader.data), len(made.data)
    size, many = 17 + 13 * image.plan[N] + 10 * leader.records, len(made.card.numbers())
    for answer_len in range(8):
        ask.card(a + b, rng.choice((0, c)), answer_len)
        ask.card_numbers(a + b, rng.choice((0, c, c)), rng.choice((0, many, many + 2)), answer_len)
        ask.card_build((0, a), (a, rng.choice((0, b, b))), rng.choice((0, size, size + 4)), answer_len)


def sample_arrays(rng: random.Random, ask: Asking) -> None:
    """A sample, a power and a complex row with answers of every length."""
    image = make.random_image(rng, COMPLEX if rng.random() < 0.7 else COUNTS)
    ask.hold(image.data)
    for answer_len in range(8):
        size, line = rng.choice((0, len(image.data), len(image.data))), rng.randint(0, image.plan[N])
        for one in (ask.sample, ask.power):
            one(0, size, line, rng.choice((0, 0, MANY)), answer_len)
        ask.complex_row(0, size, line, rng.choice((0, 2 * image.plan[W])), answer_len)


# sort: its share of a thousand cases
SORTS: dict[Sort, int] = {
    whole: 60, broken: 150, damaged: 110, cuts: 150, pieces: 80, states: 110, begins: 5, far: 40, fields: 100, signs: 100, bad_bytes: 60, numbers: 60,
    lines: 60, rows: 40, sets: 25, listing: 10, arrays: 25, cards_read: 60, card_cuts: 30, card_numbers: 30, cards_built: 40,
    samples_and_powers: 100, powers: 30,
}
BY_NAME: dict[str, Sort] = {sort.__name__: sort for sort in SORTS}
