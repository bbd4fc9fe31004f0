#!/usr/bin/env python3
"""Runs ceos as a user would on files with a badly written number, and holds the marked field that it shows to the oracle (marked.py).

Every number field of every kind of file, badly written in many ways and blank where a number is needed; every byte that can
be the bad one; every command that judges a file; some messages by hand. It says what it tried and how many checks that were,
and exits with 1 at the first difference."""
import itertools
import random
import re
import subprocess
import sys
import tempfile
import time
from pathlib import Path
from typing import Callable, Iterator

sys.dont_write_bytecode = True
sys.path.insert(0, str(Path(__file__).resolve().parent))
import ceos  # noqa: E402
from ceos import REFUSED, WORD, Case, fields_case, filed, line_case, list_case, ran, refusal, set_case, some_set, try_all, walk_case  # noqa: E402
from running import Ran, all_parts, checks, hold  # noqa: E402
import make  # noqa: E402  (ceos.py puts tests/oracle on the path)
import reader  # noqa: E402
from marked import FIELDS, NumberField, fullest  # noqa: E402
from reader import IMAGE, LEADER, TRAILER, VOLUME  # noqa: E402

LEAST = 4  # badly written texts for each field


def put(data: bytes, place: int, text: bytes) -> bytes:
    return data[:place] + text + data[place + len(text):]


def place_of(made: make.Made, field: NumberField) -> int:
    return made.starts[field.record - 1] + field.first - 1


# Every field and every byte -------------------------------------------------------------------------------


def shares() -> dict[str, int]:
    """Of each form, how many texts a field gets, so that its fields try all of them in turn."""
    forms = [field.form for some in FIELDS.values() for field in some]
    return {form: max(LEAST, -(-len(make.bad_texts(form)) // forms.count(form))) for form in make.WIDTH}


def badly(turns: dict[str, Iterator[make.Badly]], share: int, field: NumberField) -> list[make.Badly]:
    """Some texts with their bad bytes, by hand (make.py); a blank where a number is needed is bad at its last byte."""
    blank = [make.Badly(b' ' * field.width, field.width - 1)] if field.needed else []
    return list(itertools.islice(turns[field.form], share)) + blank


def every_field() -> str:
    """Refused at its bad byte, and shown with the mark under it."""
    turns, share = {form: itertools.cycle(make.badly_written(form)) for form in make.WIDTH}, shares()
    cases, tried = [], set()
    for kind, made in ((kind, fullest(kind)) for kind in FIELDS):
        for field in FIELDS[kind]:
            place = place_of(made, field)
            for text, bad in badly(turns, share[field.form], field):
                tried.add((field.form, text))
                due = refusal(('refused', 6, field.record, place + bad))
                cases.append(Case(['walk', WORD[kind]], [put(made.data, place, text)], [], *due))
    hold('number fields', {kind: len(some) for kind, some in FIELDS.items()}, {VOLUME: 13, LEADER: 15 + 6 + 22 + 13, IMAGE: 8})
    hold('every badly written text is tried', [form for form in make.WIDTH for text in make.bad_texts(form) if (form, text) not in tried], [])
    return try_all('badly written and blank fields', cases)


def every_byte() -> str:
    """Of the bad byte its column, and what it is where that cannot be seen; beside others that cannot be printed."""
    made, cases = fullest(VOLUME), []
    for byte in sorted({*range(256)} - {*b'0123456789'}):
        cases.append(walk_case(VOLUME, put(made.data, 160, bytes((0x20, 0x20, 0x20, byte))), True, 'volume'))
        cases.append(walk_case(VOLUME, put(made.data, 460, bytes((0x20, 0x31, byte, 0x80, byte, 0x7C, 0, 0x25))), True, 'volume'))
    hold('all are 6', [case.rows for case in cases if not case.rows.startswith('REFUSED 6 ')], [])
    return try_all('bytes of every value as the bad one', cases)


def out_of_range() -> str:
    """A 7 is at the field's first byte, and nothing in it is marked: -1 is well written, and no range has it."""
    cases = []
    for kind, made in ((kind, fullest(kind)) for kind in FIELDS):
        for field in (field for field in FIELDS[kind] if kind != LEADER or field.record == 1):  # listed fields have no range
            place = place_of(made, field)
            due = refusal(('refused', 7, field.record, place))
            cases.append(Case(['walk', WORD[kind]], [put(made.data, place, b'-1'.rjust(field.width))], [], *due))
    return try_all('fields out of their range, not marked', cases)


# Every command --------------------------------------------------------------------------------------------


def spoilt(rng: random.Random, kind: int, data: bytes) -> bytes:
    """A number field of the file's first record written badly; of a leader a count, as lengths may be unread."""
    field = rng.choice([field for field in FIELDS[kind] if field.record == 1 and field.needed == (kind != LEADER)])
    return put(data, field.first - 1, rng.choice(make.bad_texts(field.form)))


def image_cases(rng: random.Random) -> Iterator[Case]:
    """What reads an image, closed and open: the first record is refused whatever is asked of its lines."""
    data = spoilt(rng, IMAGE, make.random_file(rng, IMAGE).data)
    for closed in (True, False):
        yield walk_case(IMAGE, data, closed, 'image')
        yield list_case(data, closed)
        yield line_case(data, rng.randint(0, 3), closed)
    for command in ('sample', 'power'):
        yield Case([command], [data], [rng.randint(0, 3), rng.randint(0, 3)], *refusal(reader.line_view(data, 1)))


def leader_cases(rng: random.Random) -> Iterator[Case]:
    """A listed field written badly: the fields of the records before it are shown."""
    made = fullest(LEADER)
    field = rng.choice([field for field in FIELDS[LEADER] if field.record > 1])
    data = put(made.data, place_of(made, field), rng.choice(make.bad_texts(field.form)))
    for closed in (True, False):
        yield fields_case(data, closed)
        yield walk_case(LEADER, data, closed, 'leader')


def set_cases(rng: random.Random) -> Iterator[Case]:
    """One file of a set is marked, and several, each under its own row."""
    files = some_set(rng, 2)
    kinds = [VOLUME, LEADER, IMAGE, IMAGE]
    bad = [spoilt(rng, kind, data) for kind, data in zip(kinds, files)]
    for at in range(4):
        yield set_case([*files[:at], bad[at], *files[at + 1:]], rng.random() < 0.5)
    yield set_case([*bad, files[-1]], True)


def card_cases(rng: random.Random) -> Iterator[Case]:
    """The image's refusal, or else the leader's; a card is not put anywhere."""
    image, leader = make.random_file(rng, IMAGE).data, make.random_file(rng, LEADER).data
    bad_image, bad_leader = spoilt(rng, IMAGE, image), spoilt(rng, LEADER, leader)
    _, complete, _ = ceos.walked(IMAGE, image, True)
    for one in (leader, bad_leader):
        yield Case(['card', 'build'], [bad_image, one], [], f'<0>: {ceos.walked(IMAGE, bad_image, True)[1]}', REFUSED)
    yield Case(['card', 'build'], [image, bad_leader], [], f'<0>: {complete}<1>: {ceos.walked(LEADER, bad_leader, True)[1]}', REFUSED)


def every_command() -> str:
    rng, cases = random.Random(61), []
    for _ in range(10):
        for some in (image_cases, leader_cases, set_cases, card_cases):
            cases += some(rng)
    hold('a 6 in each', [case.before for case in cases if 'REFUSED 6 ' not in case.rows], [])
    return try_all('commands on a file with a badly written number', cases)


# By hand --------------------------------------------------------------------------------------------------

WORDS = 'a number is badly written, or blank where one is needed'


def by_hand() -> str:
    """Whole messages, as the operator sees them."""
    volume, leader, image = (fullest(kind).data for kind in (VOLUME, LEADER, IMAGE))
    examples = (
        ('leader', put(leader, 720 + 710, b'-'.ljust(16)), 2, 1438, 'bytes 711 to 726 of record 2 are to be F16.7:',
         '  |-               |', '           ^ byte 719, a blank'),
        ('leader', put(leader, 720 + 710, b'     1.000000000'), 2, 1436, 'bytes 711 to 726 of record 2 are to be F16.7:',  # P8
         '  |     1.000000000|', '         ^ byte 717'),
        ('leader', put(leader, 4816 + 60, b' 12\0'.ljust(16)), 3, 4879, 'bytes 61 to 76 of record 3 are to be I16:',
         '  | 12?            |', '      ^ byte 64, 0x00'),
        ('volume', put(volume, 160, b'    '), 1, 163, 'bytes 161 to 164 of record 1 are to be I4:', '  |    |', '      ^ byte 164, a blank'),
        ('image', put(image, 280, b'x      6'), 1, 280, 'bytes 281 to 288 of record 1 are to be I8:', '  |x      6|', '   ^ byte 281'),
    )
    for kind, data, record, place, field, text, mark in examples:
        path = filed('marked', data)
        due = f'ceos: {path}: refusal 6, record {record}, at {place}: {WORDS}\nceos: {path}: {field}\nceos: {text}\nceos: {mark}\n'
        hold(f'{kind} by hand', ran('walk', kind, path), Ran(REFUSED, f'REFUSED 6 RECORD {record} AT {place}\n', due))
    trailer = make.make(random.Random(62), make.trailer_plan()).data
    hold('a trailer has no number', reader.walk(reader.begin(TRAILER)[0], put(trailer, 180, b'     x'), True, 2)[2], ('complete',))
    return f'{len(examples)} messages by hand'


def session() -> str:
    """The one of README.md, whose scene has a letter O for a zero in w."""
    path = ceos.folder / 'IMG'
    subprocess.run([str(ceos.HOME / 'scripts' / 'scene'), 'palsar', str(path)], check=True)
    scene = path.read_bytes()
    hold("the scene's w", scene[248:256].strip(), b'400')
    path.write_bytes(put(scene, 248, b'     4O0'))
    shown = re.search(r'```\n\$ ceos (walk image IMG)\n((?:.*\n)+?)```', (ceos.HOME / 'README.md').read_text())
    assert shown is not None
    found = ran(*shown[1].split(), cwd=ceos.folder)
    hold("README.md's session", (found.status, found.rows + found.messages), (REFUSED, shown[2]))
    return "README.md's session"


def main() -> int:
    began = time.monotonic()
    with tempfile.TemporaryDirectory() as name:
        ceos.folder = Path(name)
        parts: tuple[Callable[[], str], ...] = (ceos.build, every_field, every_byte, out_of_range, every_command, by_hand, session)
        status = all_parts('tests/programs/ceos_marks.py', parts)
    if status == 0:
        print(f'tests/programs/ceos_marks.py: {checks[0]} checks in {time.monotonic() - began:.0f} s')
    return status


if __name__ == '__main__':
    sys.exit(main())
