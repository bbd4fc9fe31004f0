#!/usr/bin/env python3
"""Makes crates/try_walk/stdin and stdout: examples of begin, step, walk and the next record's start.

The commands build files in a buffer and ask (commands.py); the answers are the oracle's (tests/oracle). Where
an example says what is `due`, that was worked out here from document 01, and the oracle is held to it.
`walk.py` writes the two files, `walk.py --check` says whether they are as stored.

  #, c, p, b, q   as in commands.py
  g KIND  begin     w FROM LENGTH CLOSED BUDGET  walk    t FROM LENGTH CLOSED  step
  s  the next record's start      v  the state's 43 numbers      n INDEX VALUE  set one of them"""
import sys
from contextlib import contextmanager
from typing import Iterator

sys.dont_write_bytecode = True
from commands import (COMPLEX, COUNTS, FIRST, HELD, MANY, TESTS, File, Patch, Sort, answers, ask, changed, commands, draw, fill, held,  # noqa: E402
                      image, put, refused, said, store, title, volume)
import reader  # noqa: E402
from reader import D, FACILITIES, IMAGE, KIND, L, LEADER, N, PASSED, POINTERS, S, SLOTS, SORT, TRAILER, VOLUME, W  # noqa: E402

HOME = TESTS.parent / 'crates' / 'try_walk'
OPEN, CLOSED = 0, 1
ALL = 43  # numbers of a state
state: list[int] = [0] * ALL


# The commands ---------------------------------------------------------------------------------------


def begin(kind: int, due: str = '') -> None:
    state[:], answer = reader.begin(kind)
    ask(f'g {kind}', 'BEGUN' if answer == ('fresh',) else said(answer), due)


def walked(size: int, closed: int, budget: int, at: int) -> str:
    """The oracle's answer. Acceptance is told a second way, and the count is the state's difference."""
    assert 0 <= at and 0 <= size and at + size <= HELD
    before, data = list(state), bytes(held[at:at + size])
    state[:], count, stop = reader.walk(before, data, bool(closed), budget)
    assert count == state[PASSED] - before[PASSED] and count <= budget
    if closed and budget == MANY and before == reader.begin(before[KIND])[0]:
        assert (stop == ('complete',)) == reader.accepted(before[KIND], data)
    return f'{said(stop)} COUNT {count} PASSED {state[PASSED]}'


def walk(size: int, closed: int = CLOSED, budget: int = MANY, at: int = 0, due: str = '') -> None:
    ask(f'w {at} {size} {closed} {budget}', walked(size, closed, budget, at), due)


def step(size: int, closed: int = CLOSED, at: int = 0, due: str = '') -> None:
    ask(f't {at} {size} {closed}', walked(size, closed, 1, at), due)


def start(due: int | None = None) -> int:
    place = reader.start(state)
    ask('s', f'START {place}', '' if due is None else f'START {due}')
    return place


def show(due: str = '') -> None:
    ask('v', 'STATE ' + ' '.join(map(str, state)), due)


def number(index: int, value: int) -> None:
    assert 0 <= index < ALL and 0 <= value < 2 ** 64
    commands.append(b'n %d %d' % (index, value))
    state[index] = value


def hold(wanted: list[int]) -> None:
    """The state becomes this one, number by number."""
    for index, value in enumerate(wanted):
        if state[index] != value:
            number(index, value)


def by_turns() -> int:
    """Open and closed by turns, where it must not matter."""
    return len(answers) % 2


# Leaders and trailers, in document 01's words; volumes and images are made by commands.py ---------------

FACILITY = (18, 200, 18, 70)
# slot: code, least and most count, least and most length
SLOT = {1: (10, 1, 1, 4096, 4096), 2: (20, 0, 1, 1620, 1620), 3: (30, 0, 9, 12, 999999), 4: (40, 0, 9, 12, 999999),
        5: (50, 0, 9, 12, 999999), 7: (60, 0, 9, 12, 999999)}
SLOT_INDEX = {slot: SLOTS + 2 * i for i, slot in enumerate(SLOT)}  # its count's index in the state
# listed fields of slot 1 and of slot 2: first byte, width, a number so written
SUMMARY = [(477, 8, '  90.000'), (711, 16, '+1234567.1234567'), (743, 16, '      -0.0000000'), (935, 16, '        .5000000')]
SUMMARY += [(1887 + 20 * i, 20, f' {i}.0000000000000E+0{i}') for i in range(6)]
MAP = [(61, 16, '             -12'), (77, 16, '9999999999999999'), (93, 16, '-9999999.9999999')]


def slot_byte(slot: int) -> int:
    return 181 + 12 * (slot - 1)


def facility_byte(pair: int) -> int:
    return 421 + 14 * (pair - 1)


Pairs = dict[int, tuple[int, int]]  # slot, or facility pair from 1: count and length


def leader(slots: Pairs, facilities: Pairs, filler: int = 32) -> File:
    """Slot 1 is always there. Over a filler that is not a blank each count of 0 is written."""
    fill(filler)
    file = File(LEADER)
    slots = {1: (1, 4096), **slots}
    for slot in range(1, 16):
        if slot in slots:
            file.put(slot_byte(slot), '{:6}{:6}'.format(*slots[slot]))
        elif filler != 32:
            file.put(slot_byte(slot), '     0')
    for pair in range(1, 12):
        if pair in facilities:
            file.put(facility_byte(pair), '{:6}{:8}'.format(*facilities[pair]))
        elif filler != 32:
            file.put(facility_byte(pair), '     0')
    for slot in sorted(slots):
        for _ in range(slots[slot][0]):
            file.record((18, SLOT[slot][0], 18, 20), slots[slot][1])
            for byte, _, text in {1: SUMMARY, 2: MAP}.get(slot, []) if filler != 32 else []:
                file.put(byte, text)
    for pair in sorted(facilities):
        file.record(FACILITY, facilities[pair][1])
    return file


def fullest_leader() -> File:
    """1 + 1 + 1 + 36 + 11 = 50 records."""
    return leader({2: (1, 1620), 3: (9, 12), 4: (9, 12), 5: (9, 12), 7: (9, 12)}, {pair: (1, 12) for pair in range(1, 12)})


def some_leader() -> File:
    return leader({2: (1, 1620), 3: (2, 12)}, {11: (1, 20)})


def trailer(filler: int = 32) -> File:
    fill(filler)
    return File(TRAILER)


def file_of(kind: int) -> File:
    """One file of each kind, of several records where there can be."""
    return {VOLUME: lambda: volume(3), LEADER: some_leader, IMAGE: lambda: image(3), TRAILER: trailer}[kind]()


KINDS = {VOLUME: 'volume', LEADER: 'leader', IMAGE: 'image', TRAILER: 'trailer'}


# Ways to ask -----------------------------------------------------------------------------------------


def to(file: File, passed: int) -> None:
    """The state after so many of the file's records; nothing is asked where it is there already."""
    begun_state = reader.begin(file.kind)[0]
    if state == reader.walk(begun_state, bytes(held[:file.starts[passed]]), False, passed)[0]:
        return
    begin(file.kind, 'BEGUN')
    if passed:
        walk(file.starts[passed], OPEN, passed, due=f'PAUSE COUNT {passed} PASSED {passed}')


def in_file(file: File, record: int, patches: tuple[Patch, ...]) -> list[Patch]:
    return [(file.starts[record - 1] + byte, what) for byte, what in patches]


def broken(file: File, record: int, due: tuple[int, int], *patches: Patch) -> None:
    """The patched record is refused. Byte numbers are the record's; due: refusal number and byte.

    The state stays the one before that record, so the next example may follow at once."""
    to(file, record - 1)
    at = file.starts[record - 1]
    with changed(*in_file(file, record, patches)):
        step(file.size - at, by_turns(), at, refused(due[0], record, at + due[1] - 1) + f' COUNT 0 PASSED {record - 1}')


def fits(file: File, record: int, *patches: Patch, plan: dict[int, int] | None = None) -> None:
    """The patched record is passed; plan: numbers of the state, by index, which is then shown."""
    to(file, record - 1)
    before, at = list(state), file.starts[record - 1]
    with changed(*in_file(file, record, patches)):
        step(file.size - at, by_turns(), at, f'PAUSE COUNT 1 PASSED {record}')
    if plan is not None:
        for index, value in plan.items():
            assert state[index] == value, f'plan number {index} is {state[index]}, due {value}'
        show()
    put_back(before)


def put_back(wanted: list[int]) -> bool:
    """The state becomes this one of the same kind if few numbers differ; it is quieter than to begin anew."""
    few = sum(old != new for old, new in zip(state, wanted)) <= 10
    if few and state[KIND] == wanted[KIND]:
        hold(wanted)
        return True
    return False


def fresh(kind: int) -> None:
    """The fresh state of the kind."""
    if not put_back([kind] + [0] * (ALL - 1)):
        begin(kind, 'BEGUN')


def whole(file: File, due: str = '', size: int | None = None, closed: int = CLOSED, budget: int = MANY) -> None:
    """From a fresh state over the file, or so many bytes."""
    fresh(file.kind)
    walk(file.size if size is None else size, closed, budget, due=due)


def complete(file: File) -> None:
    count = file.records
    whole(file, f'COMPLETE COUNT {count} PASSED {count}')


# Document 01's own examples ----------------------------------------------------------------------------


def begun() -> None:
    title('begin: kinds 1 to 4, and every other is refusal 1 with all zeros')
    for kind in (1, 2, 3, 4):
        begin(kind, 'BEGUN')
        show(f'STATE {kind}' + ' 0' * 42)
        start(0)
    for kind in (0, 5, 6, 255, 256, 257, 2 ** 32 + 1, 2 ** 63 + 2, MANY):
        begin(kind, 'REFUSED 1 RECORD 0 AT 0')
    show('STATE' + ' 0' * 43)
    start(0)
    title('the state after it is bad: 11')
    fill(32)
    for size, closed, budget in ((0, 0, 0), (0, 1, 1), (12, 0, 1), (720, 1, MANY)):
        walk(size, closed, budget, due=refused(11) + ' COUNT 0 PASSED 0')
    title('begin does not look at the state it is called on')
    for kind in (4, 3, 9, 2, 1):
        for index, value in ((0, MANY), (1, 7), (2, 3), (20, 5), (41, MANY), (42, 1)):
            number(index, value)
        begin(kind, 'BEGUN' if kind < 5 else 'REFUSED 1 RECORD 0 AT 0')
        show(f'STATE {kind if kind < 5 else 0}' + ' 0' * 42)


def worked_examples() -> None:
    title('P12: an empty volume')
    fill(32)
    begin(1)
    walk(0, OPEN, due='WAIT 12 COUNT 0 PASSED 0')
    walk(0, CLOSED, due='REFUSED 2 RECORD 1 AT 0 COUNT 0 PASSED 0')
    title('the listed image: n = 2, w = 3, s = 0, L = 198')
    file = image(2)
    assert file.size == 1116
    whole(file, 'COMPLETE COUNT 3 PASSED 3')
    show('STATE 3 3' + ' 0' * 35 + ' 2 198 3 6 0 0')
    start(1116)
    title('open files are never complete')
    whole(file, 'WAIT 0 COUNT 3 PASSED 3', closed=OPEN)
    title('P13: with a byte added, closed and open')
    whole(file, 'REFUSED 9 RECORD 4 AT 1116 COUNT 3 PASSED 3', 1117)
    whole(file, 'REFUSED 9 RECORD 4 AT 1116 COUNT 3 PASSED 3', 1117, OPEN)
    title('with a wrong line number in the last record')
    for line in (0, 1, 3, 2 ** 25, 2 ** 32 - 1):
        with changed((931, line)):
            whole(file, 'REFUSED 10 RECORD 3 AT 930 COUNT 2 PASSED 2', closed=by_turns())
    title('P9: n = 0 is 7')
    for text in ('     0', '    -0', '    +0', '000000', '-00000'):
        with changed((181, text)):
            whole(file, 'REFUSED 7 RECORD 1 AT 180 COUNT 0 PASSED 0')
    title('edges: L = 191 + d + s is 8')
    with changed((187, '   197')):
        whole(file, 'REFUSED 8 RECORD 1 AT 0 COUNT 0 PASSED 0')
    title('edges: fills 4294967295, 4, 0 with w = 3 are 10')
    for record, place in ((2, 740), (3, 938)):
        with changed((place + 1, 4294967295), (place + 5, 4), (place + 9, 0)):
            whole(file, f'REFUSED 10 RECORD {record} AT {place} COUNT {record - 1} PASSED {record - 1}')
    title('edges: pointers 2 and 7 are 7')
    file = volume(3)
    complete(file)
    for text in ('   2', '   7'):
        with changed((161, text)):
            whole(file, 'REFUSED 7 RECORD 1 AT 160 COUNT 0 PASSED 0')


# Refusals by number ------------------------------------------------------------------------------------


Case = tuple[str, int, int, int, list[Patch]]  # due, records passed, bytes (0: the whole file), closed, patches


def refusal_cases(file: File, cases: list[Case]) -> None:
    for due, passed, size, closed, patches in cases:
        with changed(*patches):
            whole(file, f'REFUSED {due} COUNT {passed} PASSED {passed}', size or file.size, closed)


def refusals_of_volumes() -> None:
    title('volume of 3 pointers: 2 3 4 5 6 7 8 9')
    file = volume(3)
    assert file.size == 1800
    refusal_cases(file, [
        ('2 RECORD 1 AT 0', 0, 359, 1, []), ('2 RECORD 1 AT 0', 0, 11, 1, []), ('2 RECORD 2 AT 360', 1, 371, 1, []),
        ('2 RECORD 2 AT 360', 1, 360, 1, []), ('2 RECORD 5 AT 1440', 4, 1799, 1, []), ('2 RECORD 5 AT 1440', 4, 1440, 1, []),
        ('3 RECORD 1 AT 0', 0, 0, 1, [(1, 2)]), ('3 RECORD 5 AT 1440', 4, 0, 0, [(1441, 4)]), ('3 RECORD 2 AT 360', 1, 372, 0, [(361, 3)]),
        ('4 RECORD 1 AT 4', 0, 0, 0, [(8, b'\x14')]), ('4 RECORD 3 AT 724', 2, 0, 1, [(726, b'\xc1')]),
        ('4 RECORD 5 AT 1444', 4, 0, 1, [(1445, b'\xdb')]), ('5 RECORD 1 AT 8', 0, 0, 1, [(9, 720)]),
        ('5 RECORD 4 AT 1088', 3, 0, 0, [(1089, 361)]), ('5 RECORD 5 AT 1448', 4, 0, 1, [(1449, 359)]),
        ('6 RECORD 1 AT 163', 0, 0, 1, [(161, '    ')]), ('6 RECORD 2 AT 467', 1, 0, 0, [(461, '       x')]),
        ('6 RECORD 4 AT 1195', 3, 0, 1, [(1189, '    720 ')]), ('7 RECORD 1 AT 160', 0, 0, 0, [(161, '  -3')]),
        ('7 RECORD 2 AT 468', 1, 0, 1, [(469, '     719')]), ('7 RECORD 3 AT 820', 2, 0, 1, [(821, '       0')]),
        ('8 RECORD 1 AT 12', 0, 0, 1, [(13, 'a ')]), ('8 RECORD 2 AT 424', 1, 0, 0, [(425, 'SART')]),
        ('8 RECORD 3 AT 784', 2, 0, 1, [(785, 'SARL')]), ('8 RECORD 4 AT 1144', 3, 0, 1, [(1145, 'IMOP')]),
        ('9 RECORD 6 AT 1800', 5, 1801, 1, []), ('9 RECORD 6 AT 1800', 5, 1801, 0, []), ('9 RECORD 6 AT 1800', 5, 2160, 1, [(1801, 6)]),
    ])
    bad_after(file)


def refusals_of_leaders() -> None:
    title('the smallest leader: 2 3 4 5 6 7 8 9')
    file = leader({}, {})
    assert file.size == 4816
    complete(file)
    refusal_cases(file, [
        ('2 RECORD 1 AT 0', 0, 719, 1, []), ('2 RECORD 2 AT 720', 1, 720, 1, []), ('2 RECORD 2 AT 720', 1, 4815, 1, []),
        ('3 RECORD 1 AT 0', 0, 0, 1, [(1, 0)]), ('3 RECORD 2 AT 720', 1, 732, 0, [(721, 1)]),
        ('4 RECORD 1 AT 4', 0, 0, 1, [(5, b'\x0b'), (6, b'\xc8')]), ('4 RECORD 2 AT 724', 1, 0, 0, [(726, b'\x14')]),
        ('5 RECORD 1 AT 8', 0, 0, 0, [(9, 360)]), ('5 RECORD 2 AT 728', 1, 0, 1, [(729, 4097)]),
        ('6 RECORD 1 AT 185', 0, 0, 1, [(181, '    1 ')]), ('6 RECORD 1 AT 191', 0, 0, 1, [(187, '      ')]),
        ('6 RECORD 1 AT 561', 0, 0, 0, [(561, '- 0   ')]), ('6 RECORD 2 AT 1196', 1, 0, 1, [(1197, 'x')]),
        ('6 RECORD 2 AT 2725', 1, 0, 0, [(2726, '1')]), ('7 RECORD 1 AT 180', 0, 0, 1, [(181, '      ')]),
        ('7 RECORD 1 AT 192', 0, 0, 0, [(193, '     2')]), ('7 RECORD 1 AT 186', 0, 0, 1, [(187, '  4095')]),
        ('7 RECORD 1 AT 348', 0, 0, 1, [(349, '     1')]), ('8 RECORD 1 AT 12', 0, 0, 1, [(13, ' A')]),
        ('9 RECORD 3 AT 4816', 2, 4817, 1, []), ('9 RECORD 3 AT 4816', 2, 4828, 0, [(4817, 3)]),
    ])
    bad_after(file)


def refusals_of_images() -> None:
    title('the listed image: 2 3 4 5 6 7 8 9 10')
    file = image(2)
    refusal_cases(file, [
        ('2 RECORD 1 AT 0', 0, 12, 1, []), ('2 RECORD 2 AT 720', 1, 917, 1, []), ('2 RECORD 3 AT 918', 2, 929, 1, []),
        ('3 RECORD 1 AT 0', 0, 0, 0, [(1, 16777216)]), ('3 RECORD 2 AT 720', 1, 0, 1, [(721, 1)]), ('3 RECORD 3 AT 918', 2, 930, 0, [(919, 2)]),
        ('4 RECORD 1 AT 4', 0, 0, 1, [(6, b'\x0b')]), ('4 RECORD 2 AT 724', 1, 0, 0, [(728, b'\x12')]),
        ('4 RECORD 3 AT 922', 2, 0, 1, [(923, b'3')]), ('5 RECORD 1 AT 8', 0, 0, 0, [(9, 198)]),
        ('5 RECORD 2 AT 728', 1, 0, 0, [(729, 197)]), ('5 RECORD 3 AT 926', 2, 0, 1, [(927, 720)]),
        ('6 RECORD 1 AT 188', 0, 0, 1, [(187, '19 8  ')]), ('6 RECORD 1 AT 291', 0, 0, 0, [(289, '    ')]),
        ('7 RECORD 1 AT 224', 0, 0, 1, [(225, '   1')]), ('7 RECORD 1 AT 232', 0, 0, 0, [(233, '   2')]),
        ('8 RECORD 1 AT 12', 0, 0, 1, [(14, 'b')]), ('8 RECORD 1 AT 428', 0, 0, 0, [(429, 'IS2 ')]), ('8 RECORD 1 AT 0', 0, 0, 1, [(281, '       7')]),
        ('9 RECORD 4 AT 1116', 3, 1128, 1, [(1117, 4)]), ('9 RECORD 4 AT 1116', 3, 1314, 0, []),
        ('10 RECORD 2 AT 732', 1, 0, 1, [(733, 2)]), ('10 RECORD 2 AT 736', 1, 0, 0, [(737, 0)]), ('10 RECORD 2 AT 740', 1, 0, 1, [(745, 4)]),
        ('10 RECORD 3 AT 930', 2, 0, 0, [(931, 1)]), ('10 RECORD 3 AT 934', 2, 0, 1, [(935, 2)]), ('10 RECORD 3 AT 938', 2, 0, 0, [(947, 1)]),
    ])
    bad_after(file)


def refusals_of_trailers() -> None:
    title('trailer: 2 3 4 5 8 9; there is no number to be 6 or 7')
    file = trailer()
    complete(file)
    refusal_cases(file, [
        ('2 RECORD 1 AT 0', 0, 719, 1, []), ('3 RECORD 1 AT 0', 0, 0, 1, [(1, 16777216)]), ('3 RECORD 1 AT 0', 0, 12, 0, [(1, 2)]),
        ('4 RECORD 1 AT 4', 0, 0, 0, [(5, b'\x5b')]), ('5 RECORD 1 AT 8', 0, 0, 1, [(9, 3490840576)]), ('8 RECORD 1 AT 12', 0, 0, 0, [(13, b'A\0')]),
        ('9 RECORD 2 AT 720', 1, 721, 1, []), ('9 RECORD 2 AT 720', 1, 721, 0, []), ('9 RECORD 2 AT 720', 1, 1440, 1, [(721, 2), (725, 1069551634)]),
    ])
    title('low-resolution records after the trailer are 9')
    for size in (722, 1439, 65536):
        whole(file, 'REFUSED 9 RECORD 2 AT 720 COUNT 1 PASSED 1', size, by_turns())
    bad_after(file)


def bad_after(file: File) -> None:
    """The file's first record passed, then a number of the state spoilt: 11, whatever comes."""
    title(f'{KINDS[file.kind]}: 11')
    to(file, 1)
    for index, value in ((KIND, 0), (KIND, 5), (PASSED, file.records + 1), (PASSED, MANY), (POINTERS, 7), (L, MANY), (S, 10000)):
        bad((index, value), at=file.starts[1], size=min(720, file.size - file.starts[1]))


# States handed in --------------------------------------------------------------------------------------


@contextmanager
def spoilt(changes: tuple[tuple[int, int], ...]) -> Iterator[None]:
    """These numbers of the state for a while; then the state that was."""
    before = list(state)
    for index, value in changes:
        number(index, value)
    yield
    hold(before)


def bad(*changes: tuple[int, int], size: int = 0, at: int = 0, shown: bool = False) -> None:
    """The state so changed breaks the state rule: 11, count 0, and it is handed back as it was."""
    with spoilt(changes):
        given = list(state)
        step(size, by_turns(), at, f'REFUSED 11 RECORD 0 AT 0 COUNT 0 PASSED {state[PASSED]}')
        assert state == given
        if shown:
            show()
            start(0)


def good(*changes: tuple[int, int], due: int, place: int | None = None) -> None:
    """The state so changed keeps the rule: with no byte left it waits for 12, or for 0 after the last record."""
    with spoilt(changes):
        step(0, OPEN, 0, f'WAIT {due} COUNT 0 PASSED {state[PASSED]}')
        if place is not None:
            start(place)


def state_of(kind: int, passed: int, plan: dict[int, int]) -> list[int]:
    return [{KIND: kind, PASSED: passed, **plan}.get(index, 0) for index in range(ALL)]


def leader_numbers(slots: Pairs, facilities: Pairs) -> dict[int, int]:
    numbers = {}
    for slot, pair in {1: (1, 4096), **slots}.items():
        numbers[SLOT_INDEX[slot]], numbers[SLOT_INDEX[slot] + 1] = pair
    for facility, pair in facilities.items():
        at = FACILITIES + 2 * (facility - 1)
        numbers[at], numbers[at + 1] = pair
    return numbers


def image_numbers(n: int, length: int, w: int, s: int, sort: Sort = COUNTS) -> dict[int, int]:
    return {N: n, L: length, W: w, D: sort.group * w, S: s, SORT: sort.number}


# a state inside a file of each kind, and its planned total
INSIDE = {
    VOLUME: (state_of(VOLUME, 3, {POINTERS: 4}), 6),
    LEADER: (state_of(LEADER, 4, leader_numbers({2: (1, 1620), 3: (2, 12), 5: (9, 999999)}, {1: (1, 12), 6: (1, 99999999)})), 16),
    IMAGE: (state_of(IMAGE, 3, image_numbers(5, 300, 10, 7)), 6),
    TRAILER: (state_of(TRAILER, 1, {}), 1),
}


def every_number() -> None:
    for kind, (inside, _) in INSIDE.items():
        title(f'{KINDS[kind]}: each number of a good state at 2^64 - 1')
        hold(inside)
        step(0, OPEN, 0, 'WAIT 0' if kind == TRAILER else 'WAIT 12')
        for index in range(ALL):
            bad((index, MANY), shown=index in (0, 1, 2 + 9 * kind))
        title(f'{KINDS[kind]}: 1 where it must be 0, every third number')
        for index in range(2 + kind % 3, ALL, 3):
            if inside[index] == 0:
                bad((index, 1))
        unused = [index for index in range(2, ALL) if inside[index] == 0]
        bad((unused[0], MANY), (unused[-1], 1))
        bad((unused[1], 2 ** 63), (unused[-2], 2 ** 63))
    for kind in KINDS:
        title(f'{KINDS[kind]}: a plan before the first record, and a first record without one')
        fresh(kind)
        for index in range(1 + kind, ALL, 4):
            bad((index, 1), shown=index > 37)
        if kind == TRAILER:
            good((PASSED, 1), due=0, place=720)
        else:
            bad((PASSED, 1))
        bad((PASSED, 2))


def kinds_and_totals() -> None:
    for kind, (inside, planned) in INSIDE.items():
        title(f'{KINDS[kind]}: the plan of one kind under another, and kinds that are none')
        hold(inside)
        for other in (0, 1, 2, 3, 4, 5, 256 + kind, 2 ** 32 + kind, 2 ** 63 + kind):
            if other != kind:
                bad((KIND, other))
        title(f'{KINDS[kind]}: records passed 0, 1, planned, planned + 1')
        if kind == TRAILER:
            good((PASSED, 0), due=12, place=0)
        else:
            bad((PASSED, 0), shown=True)
            good((PASSED, 1), due=12, place=FIRST[kind][1])
            good((PASSED, planned - 1), due=12)
        good((PASSED, planned), due=0)
        bad((PASSED, planned + 1), shown=True)
        for more in (2 ** 32 + 1, 2 ** 63 + 1):
            bad((PASSED, more))


def bad_before_all() -> None:
    title('bad state before budget 0, and before the bytes; a good one pauses')
    for kind in KINDS:
        file = file_of(kind)
        to(file, 1)
        for budget in (0, MANY):
            for size, closed in ((0, CLOSED), (file.size, OPEN)):
                with spoilt(((PASSED, file.records + 1),)):
                    walk(size, closed, budget, due=f'REFUSED 11 RECORD 0 AT 0 COUNT 0 PASSED {file.records + 1}')
        walk(0, CLOSED, 0, due='PAUSE COUNT 0 PASSED 1')


def ends_of_volumes_and_leaders() -> None:
    title('volume: pointer counts at and around their ends')
    hold(state_of(VOLUME, 1, {POINTERS: 3}))
    for pointers in (0, 2, 7, 2 ** 32 + 3):
        bad((POINTERS, pointers))
    for pointers in (3, 4, 5, 6):
        good((POINTERS, pointers), (PASSED, pointers + 1), due=12, place=360 * (pointers + 1))
        good((POINTERS, pointers), (PASSED, pointers + 2), due=0, place=360 * (pointers + 2))
        bad((POINTERS, pointers), (PASSED, pointers + 3))
    hold(state_of(LEADER, 1, leader_numbers({}, {})))
    for slot, (_, least, most, short, long) in SLOT.items():
        title(f'leader, slot {slot}: counts and lengths at and around their ends')
        at = SLOT_INDEX[slot]
        for pair in ((most, short), (1, long)):
            good((at, pair[0]), (at + 1, pair[1]), due=12)
        faults = [(most + 1, short), (1, short - 1), (1, long + 1), (1, 0), (0, short), (2 ** 32 + 1, short), (1, 2 ** 32 + short)]
        for pair in faults + ([(0, 0)] if least else []):
            bad((at, pair[0]), (at + 1, pair[1]))
    title('leader, each facility pair: counts and lengths at and around their ends')
    for pair in range(1, 12):
        at = FACILITIES + 2 * (pair - 1)
        good((at, 1), (at + 1, (12, 99999999)[pair % 2]), due=12)
        for count, length in ((2, 12), (1, 11), (1, 100000000), (0, 12))[pair % 2::2]:
            bad((at, count), (at + 1, length))


def ends_of_images() -> None:
    title('image: n, L, w, d, s at and around their ends')
    hold(state_of(IMAGE, 1, image_numbers(5, 300, 10, 7)))
    for n in (1, 999999):
        good((N, n), due=12, place=720)
    for index, values in ((N, (0, 1000000, 2 ** 32 + 5, MANY - 1)), (L, (0, 1, 218, 1000000, 2 ** 32 + 300)),
                          (W, (0, 9, 11, 2 ** 32 + 10, 2 ** 63 + 10, 99999999)), (D, (0, 19, 21, 22, 2 ** 32 + 20, 99999999)),
                          (S, (89, 9999, 10000, 2 ** 32 + 7, MANY - 191))):
        for value in values:
            bad((index, value))
    good((L, 219), due=12)
    good((L, 999999), due=12)
    good((S, 0), due=12)
    good((S, 88), due=12)
    title('image: agreements at the ends, where a sum or a product could wrap')
    for length, w, s, fine in ((999999, 499903, 1, True), (999999, 499903, 2, False), (999998, 499903, 0, True), (999997, 499903, 0, False),
                               (10193, 1, 9999, True), (10192, 1, 9999, False), (10194, 1, 10000, False), (194, 1, 0, True), (193, 1, 0, False),
                               (999999, 499904, 0, False), (999999, 49999999, 0, False)):
        changes = ((L, length), (W, w), (D, 2 * w), (S, s))
        good(*changes, due=12) if fine else bad(*changes)
    for length, w, d, s in ((300, 2 ** 63, 0, 7), (300, 2 ** 63 + 10, 20, 7), (300, 2 ** 63 - 96, 2 ** 64 - 192, 7), (300, 10, 20, 2 ** 64 - 212),
                            (300, 50000000, 100000000, 7), (1, 2 ** 63 - 96, 2 ** 64 - 192, 1), (300, 0, 0, 7), (192, 0, 0, 0), (300, 10, 10, 7)):
        bad((L, length), (W, w), (D, d), (S, s))


# Big plans -------------------------------------------------------------------------------------------


def biggest_image() -> None:
    title('image n = L = 999999: places past 32 bits')
    fill(0)
    hold(state_of(IMAGE, 999999, image_numbers(999999, 999999, 499903, 1)))
    start(999997000722)
    step(0, OPEN, due='WAIT 12 COUNT 0 PASSED 999999')
    step(11, OPEN, due='WAIT 1')
    step(0, CLOSED, due='REFUSED 2 RECORD 1000000 AT 999997000722 COUNT 0 PASSED 999999')
    step(11, CLOSED, due='REFUSED 2 RECORD 1000000 AT 999997000722')
    step(12, OPEN, due='REFUSED 3 RECORD 1000000 AT 999997000722')
    put(1, 1000000)
    for size in (12, 65536):
        step(size, by_turns(), due='REFUSED 4 RECORD 1000000 AT 999997000726')
    put(5, 0x320B1214)
    for length in (0, 999998, 1000000):
        with changed((9, length)):
            step(12, by_turns(), due='REFUSED 5 RECORD 1000000 AT 999997000730')
    put(9, 999999)
    for size in (12, 13, 65536):
        step(size, OPEN, due=f'WAIT {999999 - size}')
        step(size, CLOSED, due='REFUSED 2 RECORD 1000000 AT 999997000722')
    title('all its lines passed')
    number(PASSED, 1000000)
    start(999998000721)
    step(0, OPEN, due='WAIT 0 COUNT 0 PASSED 1000000')
    step(0, CLOSED, due='COMPLETE COUNT 0 PASSED 1000000')
    for size in (1, 12, 65536):
        step(size, by_turns(), due='REFUSED 9 RECORD 1000001 AT 999998000721 COUNT 0 PASSED 1000000')
    walk(1, OPEN, 0, due='PAUSE COUNT 0 PASSED 1000000')
    bad((PASSED, 1000001), shown=True)
    bad((N, 1000000))
    bad((L, 1000000))


def far_lines() -> None:
    title('image n = 999999, L = 60000: a whole line past 32 bits')
    fill(0)
    hold(state_of(IMAGE, 999999, image_numbers(999999, 60000, 29904, 0)))
    start(59999880720)
    for byte, value in ((1, 1000000), (5, 0x320B1214), (9, 60000), (13, 999999), (17, 1), (21, 4), (25, 29900)):
        put(byte, value)
    for byte, values in ((13, (999998, 1000000, 0, 0x3F420F00)), (17, (0, 2, 16777216)), (21, (0, 5, 4294967295, 2 ** 32 - 29900))):
        for value in values:
            with changed((byte, value)):
                step(60000, by_turns(), due=f'REFUSED 10 RECORD 1000000 AT {59999880720 + byte - 1} COUNT 0 PASSED 999999')
    step(59999, OPEN, due='WAIT 1')
    step(59999, CLOSED, due='REFUSED 2 RECORD 1000000 AT 59999880720')
    step(60000, OPEN, due='PAUSE COUNT 1 PASSED 1000000')
    start(59999940720)
    number(PASSED, 999999)
    walk(60000, CLOSED, due='COMPLETE COUNT 1 PASSED 1000000')
    number(PASSED, 999999)
    walk(60001, OPEN, due='REFUSED 9 RECORD 1000001 AT 59999940720 COUNT 1 PASSED 1000000')
    title('image n = 999999, L = 30000: its last two lines')
    fill(0)
    hold(state_of(IMAGE, 999998, image_numbers(999999, 30000, 14904, 0)))
    for at, line in ((0, 999998), (30000, 999999)):
        for byte, value in ((1, line + 1), (5, 0x320B1214), (9, 30000), (13, line), (17, 1), (25, 14904)):
            put(at + byte, value)
    walk(60000, CLOSED, 2, due='PAUSE COUNT 2 PASSED 1000000')
    number(PASSED, 999998)
    walk(60000, CLOSED, 3, due='COMPLETE COUNT 2 PASSED 1000000')
    number(PASSED, 999998)
    with changed((30013, 999998)):
        walk(60000, OPEN, due=f'REFUSED 10 RECORD 1000000 AT {720 + 999998 * 30000 + 12} COUNT 1 PASSED 999999')
    step(30000, CLOSED, 30000, due='PAUSE COUNT 1 PASSED 1000000')


def biggest_leader() -> None:
    title('the leader of 50 records of the greatest lengths: each start, and each header')
    slots = {2: (1, 1620), **{slot: (9, 999999) for slot in (3, 4, 5, 7)}}
    fill(0)
    hold(state_of(LEADER, 1, leader_numbers(slots, {pair: (1, 99999999) for pair in range(1, 12)})))
    dues = [(4096, 10), (1620, 20)] + [(999999, code) for code in (30, 40, 50, 60) for _ in range(9)] + [(99999999, 200)] * 11
    assert len(dues) == 49
    put(5, 0x12001214)
    for passed in (1, 2, 3, 12, 21, 30, 39, 49):
        number(PASSED, passed)
        length, code = dues[passed - 1]
        place = 720 + sum(size for size, _ in dues[:passed - 1])
        start(place)
        put(1, passed + 1)
        put(6, bytes((code,)))
        put(9, length)
        step(12, OPEN, due=f'WAIT {length - 12}')
        step(12, CLOSED, due=refused(2, passed + 1, place))
        with changed((6, bytes((code + 1,)))):
            step(12, by_turns(), due=refused(4, passed + 1, place + 4))
        with changed((9, length - 1)):
            step(12, by_turns(), due=refused(5, passed + 1, place + 8))
    number(PASSED, 50)
    start(720 + sum(size for size, _ in dues))
    step(0, CLOSED, due='COMPLETE COUNT 0 PASSED 50')
    step(1, OPEN, due=refused(9, 51, 720 + 4096 + 1620 + 36 * 999999 + 11 * 99999999))
    bad((PASSED, 51))


def starts_of_volumes() -> None:
    title('volume: the start of each next record')
    for pointers in (4, 6):
        hold(state_of(VOLUME, 1, {POINTERS: pointers}))
        for passed in range(1, pointers + 3):
            number(PASSED, passed)
            start(360 * passed)
        number(PASSED, pointers + 3)
        start(0)


# Headers -----------------------------------------------------------------------------------------------


def header_faults(file: File, record: int, free: bool = False) -> None:
    """Its number, codes and length; free: the fourth code byte may be any."""
    title(f'{KINDS[file.kind]}, record {record}: its number, codes and length')
    at, length = file.starts[record - 1], file.starts[record] - file.starts[record - 1]
    for other in (record - 1, record + (256, 2 ** 16, 2 ** 31)[record % 3], record << 24):
        broken(file, record, (3, 1), (1, other))
    codes = bytes(held[at + 4:at + 8])
    for i, code in enumerate(codes):
        if free and i == 3:
            for other in (0, 20, 255):
                fits(file, record, (8, bytes((other,))))
        else:
            broken(file, record, (4, 5), (5 + i, bytes((code ^ 1 << i,))))
    for other in (length - 1, length + 1, length + (2 ** 16, 2 ** 31)[record % 2], int.from_bytes(length.to_bytes(4, 'little'), 'big')):
        broken(file, record, (5, 9), (9, other))


def headers() -> None:
    file = volume(3)
    for record in (1, 2, 4, 5):
        header_faults(file, record)
    file = fullest_leader()
    for record in (1, 2, 3, 4):
        header_faults(file, record)
    for record in (40, 50):
        header_faults(file, record, free=True)
    file = image(4)
    for record in (1, 2, 5):
        header_faults(file, record)
    file = trailer()
    header_faults(file, 1)
    first_texts(file)


def other_kinds() -> None:
    title('a file of one kind walked as another: its codes, before its length')
    for kind in KINDS:
        file = file_of(kind)
        for other in KINDS:
            if other != kind:
                begin(other)
                walk(file.size, by_turns(), due='REFUSED 4 RECORD 1 AT 4 COUNT 0 PASSED 0')


# Volumes -----------------------------------------------------------------------------------------------

# texts of a number that are badly written, and which byte of each is the bad one; they are set to the right of the field
BADLY = {'x': 0, '- 1': 1, '1 ': 1}


def badly(width: int) -> list[tuple[str, int]]:
    """A few for every field, each with its bad byte, from 0 (document 02, No. 5); numbers.py has the rest."""
    return [(text.rjust(width), width - len(text) + bad) for text, bad in BADLY.items()] + [('\0' * width, 0)]


def blank(width: int) -> tuple[str, int]:
    """Where a number is needed, the last of the blanks is the bad byte."""
    return ' ' * width, width - 1


def volumes() -> None:
    for pointers in (3, 4, 5, 6):
        title(f'volume of {pointers} pointers')
        file = volume(pointers)
        complete(file)
        show(f'STATE 1 {pointers + 2} {pointers}' + ' 0' * 40)
        start(360 * (pointers + 2))
        whole(file, f'WAIT 0 COUNT {pointers + 2}', closed=OPEN)
        for other in (pointers - 1, pointers + 1):  # another count than there are pointers: the first class text that is not due
            if 3 <= other <= 6:
                record = min(other, pointers) + 1
                with changed((161, f'{other:4}')):
                    whole(file, refused(8, record, 360 * (record - 1) + 64) + f' COUNT {record - 1}')
    title('the pointer count, as it may and may not be written')
    file = volume(3)
    for text in ('  +3', '0003'):
        fits(file, 1, (161, text), plan={POINTERS: 3})
    for text, pointers in (('   6', 6), ('0004', 4), ('  +5', 5)):
        fits(file, 1, (161, text), plan={POINTERS: pointers})
    for text in ('   2', '   7', '  -0', '0000', '  -3', '9999'):
        broken(file, 1, (7, 161), (161, text))
    for text, bad in [*badly(4), blank(4), ('3   ', 1)]:
        broken(file, 1, (6, 161 + bad), (161, text))
    first_texts(file)


def first_texts(file: File) -> None:
    title(f'{KINDS[file.kind]}: A and a blank at 13-14')
    for text in ('a ', ' A', 'A\0', 'Ab'):
        broken(file, 1, (8, 13), (13, text))


def class_texts() -> None:
    for pointers in (3, 5):
        title(f'volume of {pointers} pointers: class texts exchanged')
        file = volume(pointers)
        for pointer in range(1, pointers + 1):
            due = 'SARL' if pointer == 1 else 'SART' if pointer == pointers else 'IMOP'
            for text in ('SARL', 'IMOP', 'SART'):
                if text != due:
                    broken(file, pointer + 1, (8, 65), (65, text))
    title('each byte of a class text')
    file = volume(3)
    for record, text in ((2, 'SARL'), (3, 'IMOP'), (4, 'SART')):
        for i, letter in enumerate(text):
            broken(file, record, (8, 65), (65 + i, letter.lower()))


def pointer_numbers() -> None:
    file = volume(3)
    for record in (2, 4):
        title(f'volume, record {record}: record count, and first record length')
        for text in ('       1', '99999999'):
            fits(file, record, (101, text))
        for text in ('       0', '      -0', '      -1'):
            broken(file, record, (7, 101), (101, text))
        for text, bad in [*badly(8), blank(8)]:
            broken(file, record, (6, 101 + bad), (101, text))
        for text in ('    +720', '00000720'):
            fits(file, record, (109, text))
        for text in ('     719', '     721', '    -720'):
            broken(file, record, (7, 109), (109, text))
        for text, bad in (blank(8), ('    720 ', 7), ('   + 720', 4)):
            broken(file, record, (6, 109 + bad), (109, text))


# Leaders -----------------------------------------------------------------------------------------------

ZEROS = ('     0', '    -0', '    +0', '000000', '-00000', '      ')
UNREAD = ('GARBAG', '      ', '    11', '999999', '\0\0\0\0\0\0')


def by_turns_of(texts: tuple[str, ...], turn: int, every: int) -> list[str]:
    """Some of the texts, others at each turn, so that not every place tries every text."""
    return [text for i, text in enumerate(texts) if (i + turn) % every == 0]


def admitted_slots() -> None:
    file = leader({}, {})
    for slot, (_, least, most, short, long) in SLOT.items():
        byte, index = slot_byte(slot), SLOT_INDEX[slot]
        title(f'leader, slot {slot}: its count and its length; a length past 999999 has no room')
        for i, text in enumerate(ZEROS):
            if least:
                broken(file, 1, (7, byte), (byte, text + UNREAD[i % 5]))
            elif slot == 2 or i % 4 == slot % 4 or text == ' ' * 6:
                fits(file, 1, (byte, text + UNREAD[(i + slot) % 5]), plan={index: 0, index + 1: 0})
        for text, count in ((f'{most:6}', most), ('+00001', 1)):
            fits(file, 1, (byte, f'{text}{short:6}'), plan={index: count, index + 1: short})
        for count in (most + 1, -1, 999999):
            broken(file, 1, (7, byte), (byte, f'{count:6}{short:6}'))
        for text, bad in badly(6):
            broken(file, 1, (6, byte + bad), (byte, f'{text}{short:6}'))
        for text, length in ((f'{short:6}', short), (f'{long:06}', long)):
            fits(file, 1, (byte, '     1' + text), plan={index: 1, index + 1: length})
        for length in [short - 1, -short] + ([long + 1] if long < 999999 else []):
            broken(file, 1, (7, byte + 6), (byte, f'     1{length:6}'))
        for text, bad in (blank(6), (f'{short} '.rjust(6), 5)):
            broken(file, 1, (6, byte + 6 + bad), (byte, '     1' + text))


def empty_slots() -> None:
    file = leader({}, {})
    title('leader, slots 6 and 8 to 15: count 0 alone, and the length is never read')
    for slot in (6, 8, 9, 10, 11, 12, 13, 14, 15):
        byte = slot_byte(slot)
        for text in ZEROS if slot == 6 else by_turns_of(ZEROS, slot, 5):
            fits(file, 1, (byte, text + UNREAD[slot % 5]))
        for count in (1, -1):
            broken(file, 1, (7, byte), (byte, f'{count:6}    12'))
        for text, bad in (('0     ', 1), ('   - 0', 4)):
            broken(file, 1, (6, byte + bad), (byte, text))
    first_texts(file)


def facility_pairs() -> None:
    file = leader({}, {})
    title('leader, each facility pair; a length past 99999999 has no room')
    for pair in range(1, 12):
        byte, index = facility_byte(pair), FACILITIES + 2 * (pair - 1)
        for text in ZEROS if pair == 1 else by_turns_of(ZEROS, pair, 5):
            fits(file, 1, (byte, text + UNREAD[pair % 5] + '!!'), plan={index: 0, index + 1: 0})
        length = (12, 99999999)[pair % 2]
        fits(file, 1, (byte, f'     1{length:8}'), plan={index: 1, index + 1: length})
        for count in (2, -1)[:1 + pair % 2]:
            broken(file, 1, (7, byte), (byte, f'{count:6}      12'))
        text, bad = (('    1 ', 5), ('     +', 5), ('   1.0', 4), ('\0\0\0\0\0\1', 0))[-pair % 4]
        broken(file, 1, (6, byte + bad), (byte, f'{text}      12'))
        for length in (11, -12)[:2 - pair % 2]:
            broken(file, 1, (7, byte + 6), (byte, f'     1{length:8}'))
        for text, bad in (blank(8), ('     1 2', 6)):
            broken(file, 1, (6, byte + 6 + bad), (byte, '     1' + text))


def leader_files() -> None:
    title('the leader of 50 records')
    file = fullest_leader()
    assert file.size == 7000 and file.records == 50
    complete(file)
    show('STATE 2 50 0 1 4096 1 1620 9 12 9 12 9 12 9 12' + ' 1 12' * 11 + ' 0' * 6)
    start(7000)
    whole(file, 'WAIT 0 COUNT 50 PASSED 50', closed=OPEN)
    whole(file, 'REFUSED 9 RECORD 51 AT 7000 COUNT 50 PASSED 50', 7001)
    whole(file, 'PAUSE COUNT 50 PASSED 50', 7001, budget=50)
    whole(file, 'REFUSED 2 RECORD 50 AT 6988 COUNT 49 PASSED 49', 6999)
    title('the smallest leader')
    file = leader({}, {})
    complete(file)
    show('STATE 2 2 0 1 4096' + ' 0' * 38)
    whole(file, 'WAIT 0 COUNT 2 PASSED 2', closed=OPEN)
    title('each slot alone')
    for slot in (2, 3, 4, 5, 7):
        complete(leader({slot: (1, 1620) if slot == 2 else (9, 10 + slot)}, {}))
    title('a facility pair alone')
    for pair in (1, 2, 6, 11):
        complete(leader({}, {pair: (1, 11 + pair)}))


def slot_order() -> None:
    title('records follow in slot order')
    file = leader({2: (1, 1620), 3: (1, 12), 4: (1, 12), 5: (1, 12), 7: (1, 12)}, {2: (1, 12), 9: (1, 13)})
    complete(file)
    for record in range(2, file.records + 1):
        for code in (10, 20, 30, 40, 50, 60, 200):
            if 10 == abs(code - held[file.starts[record - 1] + 5]) or code == 200 and record < 8:
                broken(file, record, (4, 5), (6, bytes((code,))))
    title('facility records in pair order: the lengths say which')
    broken(file, 8, (5, 9), (9, 13))
    broken(file, 9, (5, 9), (9, 12))


def free_bytes(fields: list[tuple[int, int, str]]) -> list[int]:
    """The bytes just before and just behind the fields that are in none of them."""
    taken = {byte + i for byte, width, _ in fields for i in range(width)}
    return sorted({near for byte, width, _ in fields for near in (byte - 1, byte + width)} - taken)


def listed_in_slots() -> None:
    file = leader({2: (1, 1620), 3: (1, 1620), 4: (1, 4096)}, {})
    for record, fields in ((2, SUMMARY), (3, MAP)):
        beside = [(byte, 'x') for byte in free_bytes(fields)]
        title(f'leader, record {record}: each listed field is blank or a number, whatever stands beside them')
        fits(file, record)
        fits(file, record, *beside)
        fits(file, record, *[(byte, text) for byte, _, text in fields], *beside)
        for byte, width, text in fields:
            point = text.find('.')  # moved to the left, the point is the bad byte; without one, the blank behind the digits
            broken(file, record, (6, byte + 1), (byte, '1'))
            broken(file, record, (6, byte + width - 1), (byte + width - 1, b'\xa0'))
            broken(file, record, (6, byte + (point if point >= 0 else width) - 1), (byte, text[1:] + ' '))
    title('of two badly written fields the first by position')
    for record, fields in ((2, SUMMARY), (3, MAP)):
        for (byte, _, _), (later, _, _) in zip(fields, fields[1:]):
            broken(file, record, (6, byte), (later, 'x'), (byte, 'x'))
    title('other records hold what they like')
    for record in (4, 5):
        fits(file, record, (13, 'xxxx'), (61, 'xxxx'), (93, 'xxxx'), (477, 'xxxx'), (711, 'xxxx'))


# Images ------------------------------------------------------------------------------------------------

# of the listed image: first byte, width, least, most, the number there
NUMBERS = ((181, 6, 1, 999999, 2), (187, 6, 1, 999999, 198), (225, 4, 2, 2, 2), (233, 4, 1, 1, 1), (237, 8, 1, 99999999, 2),
           (249, 8, 1, 99999999, 3), (281, 8, 1, 99999999, 6), (289, 4, 0, 9999, 0))


def image_fields() -> None:
    file = image(2)
    plan = image_numbers(2, 198, 3, 0)
    for byte, width, least, most, value in NUMBERS:
        title(f'image: the number at {byte}')
        fits(file, 1, (byte, f'+{value:0{width - 1}}'), plan=plan)
        for number_there in sorted({least - 1, most + 1, -1}):
            if len(str(number_there)) <= width:
                broken(file, 1, (7, byte), (byte, str(number_there).rjust(width)))
        if least:
            broken(file, 1, (7, byte), (byte, '-0'.rjust(width)))
        for text, bad in [*badly(width), blank(width)]:
            broken(file, 1, (6, byte + bad), (byte, text))
        for end in (least, most):
            if end != value and not (byte == 187 and end == most):
                broken(file, 1, (8, 1), (byte, f'{end:{width}}'))
    fits(file, 1, (289, '  -0'), plan=plan)


def agreements() -> None:
    file = image(2)
    title('image: both line counts equal')
    for n, again, fine in ((1, 1, True), (999999, 999999, True), (1, 2, False), (3, 2, False), (999999, 1999999, False)):
        patches = ((181, f'{n:6}'), (237, f'{again:8}'))
        fits(file, 1, *patches, plan={N: n}) if fine else broken(file, 1, (8, 1), *patches)
    title('image: d = 2w')
    for d in (3, 5, 7, 12):
        broken(file, 1, (8, 1), (281, f'{d:8}'), (187, '   999'))
    for w in (2, 4, 6, 12):
        broken(file, 1, (8, 1), (249, f'{w:8}'), (187, '   999'))
    title('image: 192 + d + s at most L')
    for w, s, length in ((3, 0, 198), (1, 0, 194), (3, 1, 199), (1, 9999, 10193), (499903, 0, 999998), (499903, 1, 999999),
                         (499904, 0, 1000000), (49999999, 0, 1000000), (494904, 9999, 999999)):
        numbers = ((249, f'{w:8}'), (281, f'{2 * w:8}{s:4}'))
        if length <= 999999:
            fits(file, 1, *numbers, (187, f'{length:6}'), plan=image_numbers(2, length, w, s))
        broken(file, 1, (8, 1), *numbers, (187, f'{length - 1:6}'))
        if length < 999999:
            fits(file, 1, *numbers, (187, f'{length + 1:6}'), plan=image_numbers(2, length + 1, w, s))
    title('image: the text IU2')
    for text in ('IU2b', 'IU2\0', 'iU2 ', 'Iu2 ', 'IU1 ', 'IS2 ', ' IU2'):
        broken(file, 1, (8, 429), (429, text))
    first_texts(file)


def line_bodies() -> None:
    file = image(4)
    for record in (2, 5):
        title(f'image, line {record - 1}: number, index, fills')
        line = record - 1
        for other in (line - 1, line + 1, line << 24, line + 256, line + 2 ** 31):
            broken(file, record, (10, 13), (13, other))
        for other in (0, 2, 16777216):
            broken(file, record, (10, 17), (17, other))
        for fills in ((0, 3, 0), (3, 0, 0), (0, 0, 3), (1, 1, 1)):
            fits(file, record, *zip((21, 25, 29), fills))
        for fills in ((0, 0, 0), (0, 2, 0), (0, 4, 0), (0, 3, 1), (0, 3 << 24, 0), (4294967295, 4, 0), (4, 4294967295, 0), (0, 4294967295, 4),
                      (4294967295, 4294967295, 5), (2 ** 31, 2 ** 31, 3), (4294967295, 4294967295, 4294967295)):
            broken(file, record, (10, 21), *zip((21, 25, 29), fills))
    title('image: one after the other in a line')
    for record in (2, 5):
        broken(file, record, (10, 13), (13, 9), (17, 9), (21, 9))
        broken(file, record, (10, 17), (17, 9), (21, 9))
        broken(file, record, (5, 9), (9, 199), (13, 9))
        broken(file, record, (10, 13), (13, 9), (29, 9))


def image_files() -> None:
    title('images of several sizes')
    for n, w, s, more in ((1, 1, 0, 0), (1, 3, 5, 0), (2, 3, 0, 1), (3, 1, 0, 100), (5, 10, 7, 63), (7, 2, 1, 0), (1, 29904, 0, 0), (2, 10, 9999, 17)):
        file = image(n, w, s, more)
        complete(file)
        show(f'STATE 3 {n + 1}' + ' 0' * 35 + f' {n} {192 + 2 * w + s + more} {w} {2 * w} {s} 0')
        whole(file, f'REFUSED 9 RECORD {n + 2} AT {file.size}', file.size + 1, OPEN)
    title('an image of 40 lines: each line in turn has a wrong number')
    file = image(40)
    complete(file)
    begin(IMAGE)
    for line in range(1, 41):
        at, place = reader.start(state), 720 + 198 * (line - 1)
        with changed((place + 13, line % 40 + 1)):
            walk(file.size - at, by_turns(), MANY, at, refused(10, line + 1, place + 12) + f' COUNT 1 PASSED {line}')
    walk(198, CLOSED, MANY, file.starts[40], 'COMPLETE COUNT 1 PASSED 41')
    title('line 1 checked is not enough: each later line once more from the start')
    for line in (2, 3, 20, 39, 40):
        with changed((720 + 198 * (line - 1) + 25, 7)):
            whole(file, refused(10, line + 1, 720 + 198 * (line - 1) + 20) + f' COUNT {line} PASSED {line}')


# Complex images ----------------------------------------------------------------------------------------

OTHER_TEXTS = ('C*8b', 'C*8\0', 'c*8 ', ' C*8', 'C*4 ', 'C*16', 'C8* ', 'I*2 ', 'IU2b', '    ')


def complex_images() -> None:
    title('a complex image: n = 2, w = 3, s = 0, L = 412 + 24')
    file = image(2, sort=COMPLEX)
    assert file.size == 1592
    whole(file, 'COMPLETE COUNT 3 PASSED 3')
    show('STATE 3 3' + ' 0' * 35 + ' 2 436 3 24 0 1')
    start(1592)
    whole(file, 'WAIT 0 COUNT 3 PASSED 3', closed=OPEN)
    whole(file, 'REFUSED 9 RECORD 4 AT 1592 COUNT 3 PASSED 3', 1593)
    whole(file, 'REFUSED 2 RECORD 3 AT 1156 COUNT 2 PASSED 2', 1591)
    for record in (2, 3):
        header_faults(file, record)
    title('complex images of several sizes')
    for n, w, s, more in ((1, 1, 0, 0), (2, 3, 5, 1), (3, 10, 7, 63), (1, 8000, 20, 0), (2, 2, 9999, 17)):
        file = image(n, w, s, more, sort=COMPLEX)
        complete(file)
        show(f'STATE 3 {n + 1}' + ' 0' * 35 + f' {n} {412 + 8 * w + s + more} {w} {8 * w} {s} 1')


def sorts_of_images() -> None:
    """What of one sort may not stand beside the other's text."""
    for sort, other in ((COMPLEX, COUNTS), (COUNTS, COMPLEX)):
        file = image(2, sort=sort)
        title(f'image with the text {sort.text}: another text, and the other sort beside it')
        for text in OTHER_TEXTS:
            broken(file, 1, (8, 429), (429, text))
        broken(file, 1, (8, 429), (429, 'C*8b'), (225, '   x'))
        broken(file, 1, (7, 225), (429, other.text))
        broken(file, 1, (7, 225), (225, f'{other.group:4}'))
        broken(file, 1, (7, 225), (429, other.text), (281, f'{3 * other.group:8}'), (187, '   999'))
        broken(file, 1, (8, 1), (429, other.text), (225, f'{other.group:4}'))
        broken(file, 1, (8, 1), (281, f'{3 * other.group:8}'), (187, '   999'))
        fits(file, 1, (429, other.text), (225, f'{other.group:4}'), (281, f'{3 * other.group:8}'), (187, '   999'),
             plan=image_numbers(2, 999, 3, 0, other))
        broken(file, 2, (4, 5), (6, bytes(other.line[1:2])))
        broken(file, 3, (4, 5), (6, bytes(other.line[1:2])))


def complex_agreements() -> None:
    file = image(2, sort=COMPLEX)
    title('complex image: d = 8w')
    for d in (3, 6, 12, 23, 25, 48):
        broken(file, 1, (8, 1), (281, f'{d:8}'), (187, '   999'))
    title('complex image: 412 + d + s at most L')
    for w, s, length in ((3, 0, 436), (1, 0, 420), (3, 1, 437), (1, 9999, 10419), (124948, 3, 999999), (124948, 4, 1000000), (12499999, 0, 1000000)):
        numbers = ((249, f'{w:8}'), (281, f'{8 * w:8}{s:4}'))
        if length <= 999999:
            fits(file, 1, *numbers, (187, f'{length:6}'), plan=image_numbers(2, length, w, s, COMPLEX))
        broken(file, 1, (8, 1), *numbers, (187, f'{length - 1:6}'))
    broken(file, 1, (8, 1), (187, '   216'))  # 192 + d
    title('complex image: lines')
    for record in (2, 3):
        for byte, value in ((13, 9), (17, 0), (21, 3), (25, 24), (29, 7)):
            broken(file, record, (10, min(byte, 21)), (byte, value))
        broken(file, record, (10, 21), *zip((21, 25, 29), (4294967295, 4, 0)))


def complex_states() -> None:
    title('a complex image: its numbers handed in, the sort 0 or 1')
    hold(state_of(IMAGE, 1, image_numbers(5, 600, 10, 7, COMPLEX)))
    good(due=12, place=720)
    for index, values in ((SORT, (0, 2, 3, 256, 257, 2 ** 32 + 1, 2 ** 63 + 1, MANY)), (L, (498, 0, 1000000)), (W, (9, 11, 40, 2 ** 61 + 10)),
                          (D, (20, 79, 81, 79 + 2 ** 32)), (S, (109, 10000)), (N, (0, 1000000))):
        for value in values:
            bad((index, value))
    good((L, 499), due=12)
    good((S, 108), due=12)
    good((SORT, 0), (D, 20), due=12)
    bad((SORT, 2), (D, 20))
    bad((SORT, 1), (D, 20), (L, 999999))
    title('a complex image: its last line, with places past 32 bits')
    fill(0)
    hold(state_of(IMAGE, 999999, image_numbers(999999, 60000, 7448, 4, COMPLEX)))
    start(59999880720)
    for byte, value in ((1, 1000000), (5, 0x320A1214), (9, 60000), (13, 999999), (17, 1), (21, 4), (25, 7444)):
        put(byte, value)
    with changed((5, 0x320B1214)):
        step(60000, by_turns(), due='REFUSED 4 RECORD 1000000 AT 59999880724 COUNT 0 PASSED 999999')
    step(60000, OPEN, due='PAUSE COUNT 1 PASSED 1000000')
    start(59999940720)


# Two faults --------------------------------------------------------------------------------------------


def orders_of_headers() -> None:
    title('two faults in a header: number before codes before length')
    for kind in KINDS:
        file = file_of(kind)
        for record in sorted({1, file.records}):
            broken(file, record, (3, 1), (1, 77), (5, b'M'))
            broken(file, record, (3, 1), (1, 77), (9, 77))
            broken(file, record, (4, 5), (5, b'M'), (9, 77))
            broken(file, record, (5, 9), (9, 77), (13, 'xxxxxxxxxxxx'))
            broken(file, record, (3, 1), (1, 77), (5, 0), (9, 77), (13, 'xxxxxxxxxxxx'))


def orders_of_shortness() -> None:
    title('fewer than 12 bytes before the header; the header before the rest; the rest before the body')
    for kind in KINDS:
        file = file_of(kind)
        for record in sorted({1, file.records}):
            at = file.starts[record - 1]
            length = file.starts[record] - at
            to(file, record - 1)
            for byte, what, number_due in ((1, 77, 3), (5, b'M', 4), (9, 2 ** 24, 5)):
                with changed((at + byte, what)):
                    if number_due == 3:
                        step(11, OPEN, at, 'WAIT 1')
                        step(11, CLOSED, at, refused(2, record, at))
                    step(12, OPEN, at, refused(number_due, record, at + byte - 1))
                    step(length - 1, CLOSED, at, refused(number_due, record, at + byte - 1))
            with changed((at + 13, 'xx')):
                step(length - 1, OPEN, at, 'WAIT 1')
                step(length - 1, CLOSED, at, refused(2, record, at))


def orders_of_bodies() -> None:
    title('volume: text before number, form before range, field before field')
    file = volume(3)
    broken(file, 1, (8, 13), (13, 'x'), (161, '    '))
    broken(file, 1, (8, 13), (13, 'x'), (161, '   2'))
    broken(file, 2, (8, 65), (65, 'IMOP'), (101, '       x'))
    broken(file, 3, (6, 108), (101, '       x     719'))
    broken(file, 3, (7, 101), (101, '       0       x'))
    broken(file, 4, (6, 108), (101, '               x'))
    broken(file, 4, (7, 101), (101, '       0     719'))
    title('leader: slot before slot, count before length, slots before facilities')
    file = leader({}, {})
    broken(file, 1, (8, 13), (13, 'x'), (181, '     x'))
    broken(file, 1, (7, 181), (181, '     2     x'))
    broken(file, 1, (6, 186), (181, '     x  4095'))
    broken(file, 1, (7, 181), (181, '      GARBAG'))
    for slot in range(1, 15):
        after = slot + 1
        if slot % 2:
            broken(file, 1, (7, slot_byte(slot)), (slot_byte(slot), '    77'), (slot_byte(after), '     x'))
        else:
            broken(file, 1, (6, slot_byte(slot) + 5), (slot_byte(slot), '     x'), (slot_byte(after), '    77'))
        if slot in SLOT:
            broken(file, 1, (7, slot_byte(slot) + 6), (slot_byte(slot), '     1    11'), (slot_byte(after), '     x'))
            broken(file, 1, (6, slot_byte(slot) + 11), (slot_byte(slot), '     1     x'), (slot_byte(after), '    77'))
    broken(file, 1, (7, slot_byte(15)), (slot_byte(15), '     1'), (421, '     x'))
    broken(file, 1, (6, slot_byte(15) + 5), (slot_byte(15), '     x'), (421, '     2'))
    for pair in range(1, 11):
        at, after = facility_byte(pair), facility_byte(pair + 1)
        broken(file, 1, (7, at), (at, '     2       x'))
        if pair % 2:
            broken(file, 1, (6, at + 13), (at, '     1       x'), (after, '     2'))
        else:
            broken(file, 1, (7, at + 6), (at, '     1      11'), (after, '     x'))


def orders_of_images() -> None:
    title('image: both texts before any number, though the second stands behind them')
    file = image(2)
    broken(file, 1, (8, 13), (13, 'x'), (429, 'x'))
    broken(file, 1, (8, 429), (429, 'IU1 '), (181, '     x'))
    broken(file, 1, (8, 429), (432, 'x'), (289, '-  1'))
    for byte, width, least, _, _ in NUMBERS:
        broken(file, 1, (8, 429), (430, 'u'), (byte, 'x'.rjust(width)))
        broken(file, 1, (8, 429), (431, '1'), (byte, str(least - 1).rjust(width)))
    title('image: form of one before range of the next, range of one before form of the next')
    for (byte, width, least, _, _), (after, wide, low, _, _) in zip(NUMBERS, NUMBERS[1:]):
        broken(file, 1, (6, byte + width - 1), (byte, 'x'.rjust(width)), (after, str(low - 1).rjust(wide)))
        broken(file, 1, (7, byte), (byte, str(least - 1).rjust(width)), (after, 'x'.rjust(wide)))
        broken(file, 1, (6, byte + width - 1), (byte, ' ' * width), (after, 'x'.rjust(wide)))
        broken(file, 1, (7, byte), (byte, str(least - 1).rjust(width)), (after, str(low - 1).rjust(wide)))
    title('image: every number before the agreements')
    broken(file, 1, (6, 292), (237, '       1'), (289, '   x'))
    broken(file, 1, (7, 225), (237, '       1'), (225, '   3'))
    broken(file, 1, (7, 289), (281, '       5  -1'))
    broken(file, 1, (7, 281), (187, '   100'), (281, '       0'))
    broken(file, 1, (6, 256), (187, '   197'), (249, '       .'))


def orders_of_records() -> None:
    title('of two records at fault the first; a budget that ends before it pauses')
    for kind in (VOLUME, LEADER, IMAGE):
        file = file_of(kind)
        at = file.starts
        with changed((at[1] + 1, 77), (at[2] + 1, 77)):
            whole(file, refused(3, 2, at[1]) + ' COUNT 1 PASSED 1')
        with changed((at[-2] + 5, 0)):
            last = file.records - 1
            whole(file, refused(4, last + 1, at[-2] + 4) + f' COUNT {last} PASSED {last}', file.size + 1)
            whole(file, f'PAUSE COUNT {last} PASSED {last}', file.size + 1, budget=last)
            whole(file, refused(4, last + 1, at[-2] + 4) + f' COUNT {last} PASSED {last}', file.size + 1, budget=last + 1)
            whole(file, f'WAIT 1 COUNT {last} PASSED {last}', at[-2] + 11, OPEN)
            whole(file, f'REFUSED 2 RECORD {last + 1} AT {at[-2]} COUNT {last}', at[-2] + 11)


# Cuts, budgets, pieces ---------------------------------------------------------------------------------


def cut_due(file: File, size: int, closed: int) -> str:
    """Of a file cut to that size, or with bytes of any sort added."""
    if size > file.size:
        return refused(9, file.records + 1, file.size)
    if size == file.size:
        return 'COMPLETE' if closed else 'WAIT 0'
    record = sum(begins <= size for begins in file.starts)
    at = file.starts[record - 1]
    if closed:
        return refused(2, record, at)
    return f'WAIT {12 - (size - at) if size - at < 12 else file.starts[record] - size}'


def boundaries() -> None:
    for kind in KINDS:
        file = file_of(kind)
        title(f'{KINDS[kind]}: open and closed at every record boundary and a byte to each side')
        for boundary in file.starts:
            for size in (boundary - 1, boundary, boundary + 1):
                if size < 0:
                    continue
                passed = sum(begins <= size for begins in file.starts[1:])
                for closed in (OPEN, CLOSED):
                    whole(file, f'{cut_due(file, size, closed)} COUNT {passed} PASSED {passed}', size, closed)
        title(f'{KINDS[kind]}: arriving in small pieces, the end told of some')
        fresh(kind)
        for size in [begins + more for begins in file.starts[:-1] for more in (11, 12) if begins + more < file.size] + [file.size]:
            at = reader.start(state)
            walk(size - at, OPEN, MANY, at, cut_due(file, size, OPEN))
            at = reader.start(state)
            if size - at == 11:
                walk(size - at, CLOSED, 1, at, cut_due(file, size, CLOSED) + ' COUNT 0')
        start(file.size)


def trailer_cuts() -> None:
    title('every cut of the first 14 bytes of a trailer, open and closed')
    trailer()
    begin(TRAILER)
    for size in range(15):
        step(size, OPEN, due=f'WAIT {12 - size if size < 12 else 720 - size} COUNT 0 PASSED 0')
        step(size, CLOSED, due='REFUSED 2 RECORD 1 AT 0 COUNT 0 PASSED 0')
    title('the same with a wrong record number')
    put(1, 0)
    for size in (0, 1, 4, 11, 12, 13):
        step(size, OPEN, due=f'WAIT {12 - size}' if size < 12 else 'REFUSED 3 RECORD 1 AT 0')
        step(size, CLOSED, due='REFUSED 2 RECORD 1 AT 0' if size < 12 else 'REFUSED 3 RECORD 1 AT 0')


def budgets() -> None:
    for kind in KINDS:
        file = file_of(kind)
        planned = file.records
        title(f'{KINDS[kind]} of {planned} records: budgets 0, 1, planned - 1, planned, planned + 1, 2^64 - 1')
        for budget in sorted({0, 1, planned - 1, planned, planned + 1, MANY}):
            for closed in (OPEN, CLOSED) if budget > 1 else (by_turns(),):
                end = 'COMPLETE' if closed else 'WAIT 0'
                passed = min(budget, planned)
                whole(file, f'{"PAUSE" if budget <= planned else end} COUNT {passed} PASSED {passed}', closed=closed, budget=budget)
        title(f'{KINDS[kind]}: bytes after the last record are seen only past the pause')
        whole(file, f'PAUSE COUNT {planned} PASSED {planned}', file.size + 1, budget=planned)
        for budget, due in ((0, 'PAUSE'), (1, refused(9, planned + 1, file.size))):
            walk(1, by_turns(), budget, file.size, due + f' COUNT 0 PASSED {planned}')
        for closed, budget, due in ((1, 0, 'PAUSE'), (1, 1, 'COMPLETE'), (0, 0, 'PAUSE'), (0, 1, 'WAIT 0')):
            walk(0, closed, budget, file.size, due + f' COUNT 0 PASSED {planned}')
        title(f'{KINDS[kind]}: step by step to the end')
        fresh(kind)
        for record in range(1, planned + 1):
            step(file.size - file.starts[record - 1], by_turns(), file.starts[record - 1], f'PAUSE COUNT 1 PASSED {record}')
        step(0, OPEN, file.size, f'WAIT 0 COUNT 0 PASSED {planned}')
        step(0, CLOSED, file.size, f'COMPLETE COUNT 0 PASSED {planned}')


def pieces() -> None:
    """Calls on ever more bytes, each from the start that the state handed back names."""
    for kind in KINDS:
        file = file_of(kind)
        end, at = file.size, file.starts
        title(f'{KINDS[kind]}: two and three calls')
        cuts = [(at[1], end), (at[1] + 5, end), (11, at[1] + 12, end), (at[1] - 1, at[-2] + 12, end)]
        for sizes in sorted({tuple(sorted(min(size, end) for size in sizes)) for sizes in cuts}):
            fresh(kind)
            passed = 0
            for size in sizes[:-1]:
                walk(size - at[passed], OPEN, MANY, at[passed], cut_due(file, size, OPEN))
                passed = state[PASSED]
                start(at[passed])
            walk(end - at[passed], CLOSED, MANY, at[passed], f'COMPLETE COUNT {file.records - passed} PASSED {file.records}')


def pieces_by_budget() -> None:
    title('pieces by budget: a call of 1, one of 2, the rest')
    for kind in (VOLUME, LEADER, IMAGE):
        file = file_of(kind)
        for first, second in ((1, 2), (2, 1), (0, 3)):
            fresh(kind)
            walk(file.size, OPEN, first, 0, f'PAUSE COUNT {first} PASSED {first}')
            walk(file.size - file.starts[first], by_turns(), second, file.starts[first], f'PAUSE COUNT {second} PASSED 3')
            walk(file.size - file.starts[3], CLOSED, MANY, file.starts[3], f'COMPLETE COUNT {file.records - 3} PASSED {file.records}')
    title('a budget larger than the records that are there')
    file = image(3)
    begin(IMAGE)
    walk(730, OPEN, 3, 0, 'WAIT 2 COUNT 1 PASSED 1')
    walk(198, OPEN, 3, 720, 'WAIT 12 COUNT 1 PASSED 2')
    walk(396, CLOSED, 3, 918, 'COMPLETE COUNT 2 PASSED 4')


def asked_again() -> None:
    title('after a refusal: the same again from the state handed back, with more bytes, and closed')
    for kind in KINDS:
        file = file_of(kind)
        record = min(2, file.records)
        at = file.starts[record - 1]
        byte, number_due = ((1, 3), (5, 4), (9, 5))[kind % 3]
        due = refused(number_due, record, at + byte - 1)
        with changed((at + byte, 77)):
            whole(file, f'{due} COUNT {record - 1}', at + 12, OPEN)
            for size, closed in ((13, CLOSED), (file.size - at, OPEN)):
                walk(size, closed, 1 + size, at, f'{due} COUNT 0 PASSED {record - 1}')
            show()
            walk(12, OPEN, 0, at, 'PAUSE COUNT 0')
        title(f'{KINDS[kind]}: mended, it goes on; a closed 2 goes on when more comes after all')
        walk(file.size - at, CLOSED, MANY, at, f'COMPLETE COUNT {file.records - record + 1} PASSED {file.records}')
        whole(file, refused(2, record, at) + f' COUNT {record - 1}', at + 11)
        start(at)
        walk(file.size - at - 1, CLOSED, MANY, at, refused(2, file.records, file.starts[-2]))
        at = start(file.starts[-2])
        walk(file.size - at, CLOSED, MANY, at, f'COMPLETE COUNT 1 PASSED {file.records}')
        walk(1, OPEN, MANY, file.size, refused(9, file.records + 1, file.size) + ' COUNT 0')
        walk(9, CLOSED, MANY, file.size, refused(9, file.records + 1, file.size) + ' COUNT 0')
        walk(0, CLOSED, MANY, file.size, 'COMPLETE COUNT 0')


def bodies_again() -> None:
    title('a body refused, asked again')
    for make, record, patch, due in ((lambda: volume(3), 3, (65, 'SARL'), (8, 65)), (lambda: volume(3), 1, (161, '   7'), (7, 161)),
                                     (some_leader, 2, (477, 'x'), (6, 477)), (some_leader, 3, (93, 'x'), (6, 93)),
                                     (lambda: image(3), 1, (429, 'x'), (8, 429)), (lambda: image(3), 4, (17, 2), (10, 17)), (trailer, 1, (13, 'x'), (8, 13))):
        file = make()
        at = file.starts[record - 1]
        length = file.starts[record] - at
        answer = refused(due[0], record, at + due[1] - 1)
        with changed((at + patch[0], patch[1])):
            whole(file, f'WAIT 1 COUNT {record - 1}', at + length - 1, OPEN)
            for size, closed in ((length, OPEN), (length + 1, OPEN), (file.size - at, CLOSED)):
                walk(size, closed, MANY, at, f'{answer} COUNT 0 PASSED {record - 1}')
            start(at)
        walk(length, OPEN, 1, at, f'PAUSE COUNT 1 PASSED {record}')


def unjudged() -> None:
    title('bytes that no rule names may be any')
    for filler in (0, 255):
        complete(volume(3, filler))
        complete(leader({2: (1, 1620), 4: (1, 30)}, {3: (1, 40)}, filler))
        complete(image(2, 3, 4, 5, filler))
        complete(trailer(filler))


# Drawn -------------------------------------------------------------------------------------------------

DAMAGE = b' 0123+-.xA\0\1\x12\x32\xc0\xff'
JUDGED = {  # byte numbers of the files of file_of at which a rule looks, beside the headers
    VOLUME: (161, 164, 360 + 65, 360 + 101, 360 + 116, 720 + 68, 1080 + 108),
    LEADER: (181, 186, 192, 198, 204, 246, 342, 421, 426, 434, 561, 720 + 480, 4816 + 76),
    IMAGE: (181, 186, 192, 228, 236, 244, 256, 288, 292, 429, 720 + 16, 720 + 20, 720 + 24, 720 + 32),
    TRAILER: (14, 15, 700),
}


def drawn() -> None:
    """Damage, cuts and budgets drawn by number, each file asked in three calls; the oracle alone says what is due."""
    for kind in KINDS:
        file = file_of(kind)
        title(f'{KINDS[kind]}: drawn damage, cuts and budgets')
        places = [begins + byte for begins in file.starts[:-1] for byte in range(1, 15) if begins + byte <= file.size] + 3 * list(JUDGED[kind])
        for _ in range(4):
            with changed(*[(places[draw(len(places))], DAMAGE[i:i + 1]) for i in (draw(16), draw(16))[:draw(3)]]):
                fresh(kind)
                size = 0
                for call in range(3):
                    at = reader.start(state)
                    cut = min(file.starts[draw(len(file.starts))] + (0, 0, 1, 11, 12, 20)[draw(6)], file.size + 1)
                    size = max(size, at, file.size if call == 2 else cut)
                    walk(size - at, draw(2) if call else OPEN, (1, 2, 3, MANY)[draw(4)], at)
                start()


def main() -> int:
    for part in (begun, worked_examples, refusals_of_volumes, refusals_of_leaders, refusals_of_images, refusals_of_trailers, headers, other_kinds,
                 volumes, class_texts, pointer_numbers, leader_files, slot_order, admitted_slots, empty_slots, facility_pairs, listed_in_slots,
                 image_files, image_fields, agreements, line_bodies, complex_images, sorts_of_images, complex_agreements,
                 orders_of_headers, orders_of_shortness, orders_of_bodies, orders_of_images, orders_of_records,
                 boundaries, trailer_cuts, budgets, pieces, pieces_by_budget, asked_again, bodies_again, unjudged,
                 bad_before_all, every_number, kinds_and_totals, ends_of_volumes_and_leaders, ends_of_images, complex_states, starts_of_volumes,
                 biggest_image, far_lines, biggest_leader, drawn):
        part()
    return store(HOME)


sys.exit(main())
