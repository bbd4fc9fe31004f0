"""What ceos says behind a refusal 6 (document 02, No. 5): the field's bytes, and a mark under the bad one. For the tests of ceos.

The fields are those that tests/oracle/make.py notes as judged in files that have every pointer, pair and record; the
table of host/ is not looked at."""
import random
from pathlib import Path
from typing import NamedTuple

import make  # the path to tests/oracle is set by who imports this
import reader
from reader import IMAGE, LEADER, VOLUME

CODE = {192: VOLUME, 11: LEADER, 50: IMAGE}  # the first code byte of a file's first record


class NumberField(NamedTuple):
    record: int
    first: int  # byte of the record, from 1
    form: str
    needed: bool  # a blank one is badly written

    @property
    def width(self) -> int:
        return make.WIDTH[self.form]


def fullest(kind: int) -> make.Made:
    """A file with every number field that its kind can have."""
    rng = random.Random(60)
    slots, facilities = [(1, 1620), (1, 12), (2, 12), (1, 13), (1, 14)], [(1, 12)] * 11
    plans = {VOLUME: make.volume_plan(6), LEADER: make.leader_plan(slots, facilities), IMAGE: make.image_plan(2, 3, 1)}
    return make.make(rng, plans[kind])


def number_fields(kind: int) -> list[NumberField]:
    made = fullest(kind)
    return [NumberField(part.record, part.place - made.starts[part.record - 1] + 1, part.form, part.sort == 'number' and not part.blank_is_zero)
            for part in made.parts if part.sort in ('number', 'listed')]


FIELDS = {kind: number_fields(kind) for kind in (VOLUME, LEADER, IMAGE)}


def begun(kind: int, data: bytes) -> int:
    """Where the record starts that the walk refuses."""
    return reader.start(reader.walk(reader.begin(kind)[0], data, True, reader.EVERY_RECORD)[0])


def unseen(byte: int) -> str:
    """What the reader cannot see at the mark."""
    return ', a blank' if byte == 0x20 else '' if 0x20 < byte < 0x7F else f', 0x{byte:02x}'


def lines(name: Path, data: bytes, record: int, place: int) -> list[str]:
    """The three messages of a 6 at that place of a file."""
    kind = CODE[data[4]]
    start = begun(kind, data)
    bad = place - start + 1
    field = next(one for one in FIELDS[kind] if one.record == record and one.first <= bad < one.first + one.width)
    text = data[start + field.first - 1:start + field.first - 1 + field.width]
    shown = ''.join(chr(byte) if 0x20 <= byte < 0x7F else '?' for byte in text)
    return [f'ceos: {name}: bytes {field.first} to {field.first + field.width - 1} of record {record} are to be {field.form}:',
            f'ceos:   |{shown}|',
            'ceos:    ' + ' ' * (bad - field.first) + f'^ byte {bad}' + unseen(data[place])]
