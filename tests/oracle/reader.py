"""An independent oracle for the reader of CEOS SAR products.

Written from document 01 (docs/RULES.md) and, where that leaves something open, from
what was decided there (docs/DECISIONS.md, "Where document 01 is silent"); the complex
images are document 02's, No. 2 (their samples: samples.py).
Rules are quoted in the comments, in the words in which they were first put.  Byte
numbers start at 1 as in the document and are called `byte`; places start at 0 and are
called `place`.
"""

from __future__ import annotations

import functools
import re
from dataclasses import dataclass
from typing import Callable, Iterator, NamedTuple, Optional, Sequence, Union

State = list[int]
Answer = tuple  # ('word', number, ...): every answer is a tuple led by its word
Codes = tuple[Optional[int], ...]  # four code bytes; None is "any"

# --------------------------------------------------------------------------
# Written numbers
# --------------------------------------------------------------------------

BLANK: Answer = ("blank",)
BAD: Answer = ("bad",)

# "blanks, optional sign": in an I field the sign touches what follows.
_LEAD = rb" *(?P<sign>[+-]?)"
# "for F and E a sign may be followed by blanks" (document 02, No. 4).
_POINT_LEAD = _LEAD + rb" *"


def _whole_pattern() -> re.Pattern[bytes]:
    """Iw: blanks, optional sign, one or more digits to the field's end."""
    return re.compile(_LEAD + rb"(?P<digits>[0-9]+)(?P<fraction>)(?P<exponent>)")


def _point_pattern(places: int) -> re.Pattern[bytes]:
    """Fw.d: blanks, optional sign, blanks, any number of digits, a point, exactly d digits, end."""
    return re.compile(_POINT_LEAD + rb"(?P<digits>[0-9]*)\.(?P<fraction>[0-9]{%d})(?P<exponent>)" % places)


def _exponent_pattern(places: int) -> re.Pattern[bytes]:
    """E20.13: as F with 13 places, then `E`, a sign, two digits."""
    return re.compile(
        _POINT_LEAD + rb"(?P<digits>[0-9]*)\.(?P<fraction>[0-9]{%d})E(?P<exponent>[+-][0-9]{2})" % places
    )


FORMS: dict[str, tuple[int, re.Pattern[bytes]]] = {
    "I4": (4, _whole_pattern()),
    "I6": (6, _whole_pattern()),
    "I8": (8, _whole_pattern()),
    "I16": (16, _whole_pattern()),
    "F8.3": (8, _point_pattern(3)),
    "F16.7": (16, _point_pattern(7)),
    "E20.13": (20, _exponent_pattern(13)),
}


def width_of(form: str) -> int:
    return FORMS[form][0]


def decimal(form: str, text: bytes) -> Answer:
    """('value', n, e) | ('blank',) | ('bad',).

    "I and F give one signed whole number of units in the last written place; minus
    zero is 0.  E gives such a number and its exponent."  A slice whose length is not
    the form's width is badly written (docs/DECISIONS.md); a blank is 0x20 alone.
    """
    width, pattern = FORMS[form]
    text = bytes(text)
    if len(text) != width:
        return BAD
    if text == b" " * width:
        return BLANK
    match = pattern.fullmatch(text)
    if match is None:
        return BAD
    units = int(match["digits"] + match["fraction"])
    if match["sign"] == b"-":
        units = -units
    return ("value", units, int(match["exponent"] or b"0"))


# The place of a 6 (document 02, No. 5): "the place of the first byte that no well-written field with the same earlier
# bytes could have there".  Nothing is scanned: a field's first bytes begin a well-written one if they can be completed,
# and it is enough to try two completions.  For what is written behind the first bytes of a number may be digits as far
# as the form lets them go, with the form's own point and exponent; only blanks that reach past the point cannot become
# a number any more, and they may be a blank field.
_FULL: dict[str, bytes] = {
    "I4": b"5" * 4,
    "I6": b"5" * 6,
    "I8": b"5" * 8,
    "I16": b"5" * 16,
    "F8.3": b"5555.555",
    "F16.7": b"55555555.5555555",
    "E20.13": b"55.5555555555555E-55",
}


def begins(form: str, first: bytes) -> bool:
    """Some well-written field of the form, or the blank one, has these first bytes."""
    completed = (first + full[len(first) :] for full in (_FULL[form], b" " * width_of(form)))
    return any(decimal(form, text) != BAD for text in completed)


# The grammar knows digits, signs, blank, point and `E`, and no other byte.
_LETTER = bytes(
    byte if byte in b" .E" else ord("5") if byte in b"0123456789" else ord("-") if byte in b"+-" else ord("x")
    for byte in range(256)
)


@functools.lru_cache(maxsize=1 << 16)
def _first_bad(form: str, letters: bytes) -> int:
    return next(i for i in range(len(letters)) if not begins(form, letters[: i + 1]))


def bad_place(form: str, text: bytes) -> int:
    """The place in a field that is badly written, or blank where a number is needed: there its last byte."""
    if text == b" " * width_of(form):
        return len(text) - 1
    return _first_bad(form, bytes(text).translate(_LETTER))


# --------------------------------------------------------------------------
# Listed fields
# --------------------------------------------------------------------------

# "summary 1: 477-484 F8.3; 2: 711-726; 3: 743-758; 4: 935-950, all F16.7; 5 to 10: six
# E20.13 from 1887. Map record 11: 61-76 I16; 12: 77-92 I16; 13: 93-108 F16.7."
LISTED: dict[int, tuple[int, int, str]] = {  # number: first byte, last byte, form
    1: (477, 484, "F8.3"),
    2: (711, 726, "F16.7"),
    3: (743, 758, "F16.7"),
    4: (935, 950, "F16.7"),
    **{5 + i: (1887 + 20 * i, 1906 + 20 * i, "E20.13") for i in range(6)},
    11: (61, 76, "I16"),
    12: (77, 92, "I16"),
    13: (93, 108, "F16.7"),
}
SUMMARY_FIELDS = range(1, 11)
MAP_FIELDS = range(11, 14)


def refused(number: int, record: int = 0, place: int = 0) -> Answer:
    return ("refused", number, record, place)


def field_at(data: bytes, place: int, form: str) -> Answer:
    """The field reader at a place: 2 at place 0 when the bytes end first, then 6 at the bad byte."""
    end = place + width_of(form)
    if len(data) < end:
        return refused(2)
    answer = decimal(form, data[place:end])
    return refused(6, 0, place + bad_place(form, data[place:end])) if answer == BAD else answer


def field(data: bytes, number: int) -> Answer:
    """The field reader: order 14, 2, 6; ordinal 0; places in the bytes given."""
    if number not in LISTED:
        return refused(14)
    first, _, form = LISTED[number]
    return field_at(data, first - 1, form)


# --------------------------------------------------------------------------
# The sorts of images
# --------------------------------------------------------------------------


@dataclass(frozen=True)
class Sort:
    """What an image's text at 429-432 decides."""

    text: bytes
    group: int  # bytes a group, and of a sample
    ahead: int  # the bytes before the pixels are no fewer
    code: int  # the second code byte of its line records


COUNTS, COMPLEX = 0, 1  # the plan's sort
# 01: `IU2b`, 2 bytes a group, d = 2w, 192 + d + s at most L, lines 50,11,18,20.  02, No. 2: "Admit `C*8b` images:
# 8 bytes a group, d = 8w, line codes 50,10,18,20, at least 412 bytes before the pixels".
SORTS: dict[int, Sort] = {COUNTS: Sort(b"IU2 ", 2, 192, 11), COMPLEX: Sort(b"C*8 ", 8, 412, 10)}


# --------------------------------------------------------------------------
# The state: 43 plain numbers
# --------------------------------------------------------------------------

VOLUME, LEADER, IMAGE, TRAILER = 1, 2, 3, 4

SLOT_NUMBERS = (1, 2, 3, 4, 5, 7)  # the admitted slots
FACILITY_PAIRS = 11

KIND = 0
PASSED = 1
POINTERS = 2
SLOTS = 3  # six pairs of count and length
FACILITIES = SLOTS + 2 * len(SLOT_NUMBERS)  # eleven pairs of count and length
N = FACILITIES + 2 * FACILITY_PAIRS
L = N + 1
W = N + 2
D = N + 3
S = N + 4
SORT = N + 5
STATE_NUMBERS = SORT + 1
PLAN = 2  # the plan's first number

Pair = tuple[int, int]


def _pairs(state: State, first: int, how_many: int) -> list[Pair]:
    return [(state[first + 2 * i], state[first + 2 * i + 1]) for i in range(how_many)]


def slot_pairs(state: State) -> list[Pair]:
    return _pairs(state, SLOTS, len(SLOT_NUMBERS))


def facility_pairs(state: State) -> list[Pair]:
    return _pairs(state, FACILITIES, FACILITY_PAIRS)


def begin(kind: int) -> tuple[State, Answer]:
    """The fresh state of the kind, or refusal 1 with all zeros."""
    state = [0] * STATE_NUMBERS
    if not 1 <= kind <= 4:
        return state, refused(1)
    state[KIND] = kind
    return state, ("fresh",)


# Ranges of document 01, each named once for the walk and the state rule.
POINTER_RANGE = (3, 6)
SLOT_COUNT = {1: (1, 1), 2: (0, 1), 3: (0, 9), 4: (0, 9), 5: (0, 9), 7: (0, 9)}
SLOT_LENGTH = {1: (4096, 4096), 2: (1620, 1620), 3: (12, 999_999), 4: (12, 999_999), 5: (12, 999_999), 7: (12, 999_999)}
SLOT_CODE = {1: 10, 2: 20, 3: 30, 4: 40, 5: 50, 7: 60}
FACILITY_COUNT = (0, 1)
FACILITY_LENGTH = (12, 99_999_999)
UP_TO_SIX_DIGITS = (1, 999_999)
UP_TO_EIGHT_DIGITS = (1, 99_999_999)
SUFFIX_RANGE = (0, 9_999)


def _within(number: int, limits: Pair) -> bool:
    return limits[0] <= number <= limits[1]


def _good_pair(pair: Pair, count: Pair, length: Pair) -> bool:
    """Count in its range; "with count 0 the length ... is 0 in the plan"."""
    if not _within(pair[0], count):
        return False
    return pair[1] == 0 if pair[0] == 0 else _within(pair[1], length)


def _good_volume_plan(state: State) -> bool:
    return _within(state[POINTERS], POINTER_RANGE) and not any(state[SLOTS:])


def _good_leader_plan(state: State) -> bool:
    slots = all(
        _good_pair(pair, SLOT_COUNT[slot], SLOT_LENGTH[slot])
        for slot, pair in zip(SLOT_NUMBERS, slot_pairs(state))
    )
    facilities = all(_good_pair(pair, FACILITY_COUNT, FACILITY_LENGTH) for pair in facility_pairs(state))
    return slots and facilities and state[POINTERS] == 0 and not any(state[N:])


def _agree(sort: Sort, length: int, pixels: int, data_bytes: int, suffix: int) -> bool:
    """"d = 2w; 192 + d + s at most L", and for complex samples d = 8w and 412."""
    return data_bytes == sort.group * pixels and sort.ahead + data_bytes + suffix <= length


def _good_image_plan(state: State) -> bool:
    ranges = (
        _within(state[N], UP_TO_SIX_DIGITS)
        and _within(state[L], UP_TO_SIX_DIGITS)
        and _within(state[W], UP_TO_EIGHT_DIGITS)
        and _within(state[D], UP_TO_EIGHT_DIGITS)
        and _within(state[S], SUFFIX_RANGE)
    )
    sort = SORTS.get(state[SORT])
    return ranges and sort is not None and _agree(sort, state[L], state[W], state[D], state[S]) and not any(state[PLAN:N])


def _good_trailer_plan(state: State) -> bool:
    return not any(state[PLAN:])


_GOOD_PLAN: dict[int, Callable[[State], bool]] = {
    VOLUME: _good_volume_plan,
    LEADER: _good_leader_plan,
    IMAGE: _good_image_plan,
    TRAILER: _good_trailer_plan,
}


def _planned_total(state: State) -> int:
    """Records of the whole file, first record included, by a plan that the rules allow."""
    kind = state[KIND]
    if kind == VOLUME:
        return 1 + state[POINTERS] + 1
    if kind == LEADER:
        return 1 + sum(count for count, _ in slot_pairs(state) + facility_pairs(state))
    if kind == IMAGE:
        return 1 + state[N]
    return 1


def good_state(state: State) -> bool:
    """The state rule, with ordinary sums, for any numbers.

    "kind 1-4; records passed 0 means an all-zero plan; otherwise the plan obeys the
    ranges and agreements below, its unused numbers are 0, and records passed is at
    most the planned total."
    """
    if state[KIND] not in _GOOD_PLAN:
        return False
    if state[PASSED] == 0:
        return not any(state[PLAN:])
    return _GOOD_PLAN[state[KIND]](state) and 1 <= state[PASSED] <= _planned_total(state)


def planned(state: State) -> int:
    """The planned total.  0 where no plan is known: a fresh state, and a bad one."""
    if not good_state(state) or state[PASSED] == 0:
        return 0
    return _planned_total(state)


def start(state: State) -> int:
    """The place in the file of the next record's first byte; 0 for a bad state."""
    passed = state[PASSED]
    if not good_state(state) or passed == 0:
        return 0
    if state[KIND] == VOLUME:
        return 360 * passed
    if state[KIND] == LEADER:
        return 720 + sum(due.length for due in _leader_dues(state)[: passed - 1])
    if state[KIND] == IMAGE:
        return 720 + (passed - 1) * state[L]
    return 720


# --------------------------------------------------------------------------
# What is due: the header and the body of the next record
# --------------------------------------------------------------------------


class Refuse(Exception):
    """A record's refusal: its number and the place in that record."""

    def __init__(self, number: int, place: int) -> None:
        super().__init__(number, place)
        self.number = number
        self.place = place


Body = Callable[[bytes], None]  # raises Refuse


@dataclass(frozen=True)
class Due:
    codes: Codes
    length: int
    body: Body


def _no_body(_record: bytes) -> None:
    return None


def _text(record: bytes, byte: int, due: bytes) -> None:
    """Fixed text wrong: 8 at the text's first byte."""
    place = byte - 1
    if record[place : place + len(due)] != due:
        raise Refuse(8, place)


def _number(record: bytes, byte: int, form: str, limits: Pair, blank: Optional[int] = None) -> int:
    """A number field: form (6 at the bad byte; blank where a number is needed is 6 too), then range (7)."""
    place = byte - 1
    text = record[place : place + width_of(form)]
    answer = decimal(form, text)
    if answer == BLANK and blank is not None:
        number = blank
    elif answer[0] != "value":
        raise Refuse(6, place + bad_place(form, text))
    else:
        number = answer[1]
    if not _within(number, limits):
        raise Refuse(7, place)
    return number


def _listed(record: bytes, numbers: range) -> None:
    """"In slots 1 and 2 the listed fields must each be a value or blank (else 6)." """
    for number in numbers:
        answer = field(record, number)
        if answer[0] == "refused":
            raise Refuse(6, answer[3])


def _agreement(holds: bool) -> None:
    """Agreement broken: 8 at the start of the record."""
    if not holds:
        raise Refuse(8, 0)


def _big_endian(record: bytes, byte: int) -> int:
    """Four bytes, most significant byte first."""
    return int.from_bytes(record[byte - 1 : byte + 3], "big")


# First records: each reads its plan (a state with records passed still 0).


def _first_volume(record: bytes, state: State) -> None:
    _text(record, 13, b"A ")
    state[POINTERS] = _number(record, 161, "I4", POINTER_RANGE)


def _counted_pair(record: bytes, byte: int, length_form: str, count: Pair, length: Pair) -> Pair:
    """"An all-blank count is 0; with count 0 the length isn't read and is 0 in the plan." """
    how_many = _number(record, byte, "I6", count, blank=0)
    if how_many == 0:
        return 0, 0
    return how_many, _number(record, byte + 6, length_form, length)


def _first_leader(record: bytes, state: State) -> None:
    _text(record, 13, b"A ")
    pairs: list[Pair] = []
    for slot in range(1, 16):  # from 181, fifteen pairs of I6 count and I6 length
        byte = 181 + 12 * (slot - 1)
        if slot in SLOT_NUMBERS:
            pairs.append(_counted_pair(record, byte, "I6", SLOT_COUNT[slot], SLOT_LENGTH[slot]))
        else:  # "Other slots: count 0", and they never read their length
            _number(record, byte, "I6", (0, 0), blank=0)
    for facility in range(FACILITY_PAIRS):  # from 421, 14 bytes a pair
        pairs.append(_counted_pair(record, 421 + 14 * facility, "I8", FACILITY_COUNT, FACILITY_LENGTH))
    state[SLOTS:N] = [number for pair in pairs for number in pair]


def _sort_of(record: bytes) -> int:
    """The text at 429-432 decides the sort; another text is 8 at its first byte."""
    for number, sort in SORTS.items():
        if record[428:432] == sort.text:
            return number
    raise Refuse(8, 428)


def _first_image(record: bytes, state: State) -> None:
    _text(record, 13, b"A ")
    number = _sort_of(record)
    sort = SORTS[number]
    lines = _number(record, 181, "I6", UP_TO_SIX_DIGITS)
    length = _number(record, 187, "I6", UP_TO_SIX_DIGITS)
    _number(record, 225, "I4", (sort.group, sort.group))
    _number(record, 233, "I4", (1, 1))
    lines_again = _number(record, 237, "I8", UP_TO_EIGHT_DIGITS)
    pixels = _number(record, 249, "I8", UP_TO_EIGHT_DIGITS)
    data_bytes = _number(record, 281, "I8", UP_TO_EIGHT_DIGITS)
    suffix = _number(record, 289, "I4", SUFFIX_RANGE)
    _agreement(lines == lines_again)
    _agreement(_agree(sort, length, pixels, data_bytes, suffix))  # both are 8 at the same place
    state[N:] = [lines, length, pixels, data_bytes, suffix, number]


def _first_trailer(record: bytes, _state: State) -> None:
    _text(record, 13, b"A ")


_FIRST: dict[int, tuple[Codes, int, Callable[[bytes, State], None]]] = {
    VOLUME: ((192, 192, 18, 18), 360, _first_volume),
    LEADER: ((11, 192, 18, 18), 720, _first_leader),
    IMAGE: ((50, 192, 18, 18), 720, _first_image),
    TRAILER: ((63, 192, 18, 18), 720, _first_trailer),
}


# Later records: what is due is known from the state.


def _pointer_body(text: bytes) -> Body:
    def body(record: bytes) -> None:
        _text(record, 65, text)
        _number(record, 101, "I8", UP_TO_EIGHT_DIGITS)
        _number(record, 109, "I8", (720, 720))

    return body


def _volume_due(state: State) -> Due:
    pointer = state[PASSED]  # record 2 is pointer 1
    if pointer > state[POINTERS]:
        return Due((18, 192, 18, 18), 360, _no_body)
    # "`SARL` first, `SART` last, `IMOP` between"
    text = b"SARL" if pointer == 1 else b"SART" if pointer == state[POINTERS] else b"IMOP"
    return Due((219, 192, 18, 18), 360, _pointer_body(text))


def _slot_body(slot: int) -> Body:
    if slot == 1:
        return lambda record: _listed(record, SUMMARY_FIELDS)
    if slot == 2:
        return lambda record: _listed(record, MAP_FIELDS)
    return _no_body


@functools.lru_cache(maxsize=64)
def _dues_of(slots: tuple[Pair, ...], facilities: tuple[Pair, ...]) -> list[Due]:
    """The records after the first: in slot order, then the facility records."""
    dues: list[Due] = []
    for slot, (count, length) in zip(SLOT_NUMBERS, slots):
        dues += [Due((18, SLOT_CODE[slot], 18, 20), length, _slot_body(slot))] * count
    for count, length in facilities:
        dues += [Due((18, 200, 18, None), length, _no_body)] * count
    return dues


def _leader_dues(state: State) -> list[Due]:
    return _dues_of(tuple(slot_pairs(state)), tuple(facility_pairs(state)))


def _line_body(line: int, pixels: int) -> Body:
    """"Line bodies use 10 instead", at byte 13, 17 or 21."""

    def body(record: bytes) -> None:
        if _big_endian(record, 13) != line:
            raise Refuse(10, 12)
        if _big_endian(record, 17) != 1:
            raise Refuse(10, 16)
        if sum(fills(record)) != pixels:  # the ordinary, unwrapped sum
            raise Refuse(10, 20)

    return body


def fills(record: bytes) -> tuple[int, int, int]:
    """Left fill, data and right fill counts, bytes 21-32."""
    return _big_endian(record, 21), _big_endian(record, 25), _big_endian(record, 29)


def _line_due(state: State, line: int) -> Due:
    return Due((50, SORTS[state[SORT]].code, 18, 20), state[L], _line_body(line, state[W]))


def _due(state: State, plan: State) -> Due:
    """What is due after state; a first record writes the plan it reads into `plan`."""
    if state[PASSED] == 0:
        codes, length, first = _FIRST[state[KIND]]
        return Due(codes, length, lambda record: first(record, plan))
    if state[KIND] == VOLUME:
        return _volume_due(state)
    if state[KIND] == LEADER:
        return _leader_dues(state)[state[PASSED] - 1]
    return _line_due(state, state[PASSED])  # a trailer has no later record


def _judge_header(header: bytes, sequence: int, due: Due) -> None:
    """Step 5: sequence number (3), codes (4), length (5), each at its first byte."""
    if int.from_bytes(header[0:4], "big") != sequence:
        raise Refuse(3, 0)
    if any(want is not None and want != got for want, got in zip(due.codes, header[4:8])):
        raise Refuse(4, 4)
    if int.from_bytes(header[8:12], "big") != due.length:
        raise Refuse(5, 8)


# --------------------------------------------------------------------------
# The walk
# --------------------------------------------------------------------------


def _turn(state: State, data: bytes, at: int, closed: bool, budget: int) -> Answer:
    """One turn in the document's order: a stop, or ('passed', new state, length)."""
    left = len(data) - at
    # 1. bad state: refusal 11
    if not good_state(state):
        return refused(11)
    # 2. budget used up (also 0 at the start): pause
    if budget == 0:
        return ("pause",)
    ordinal, place = state[PASSED] + 1, start(state)
    # 3. all planned records passed: bytes left, 9; none left and closed, complete; open, wait for 0
    if state[PASSED] > 0 and state[PASSED] == _planned_total(state):
        if left > 0:
            return refused(9, ordinal, place)
        return ("complete",) if closed else ("wait", 0)
    # 4. fewer than 12 bytes: closed, 2; open, wait for the missing part of 12
    if left < 12:
        return refused(2, ordinal, place) if closed else ("wait", 12 - left)
    moved = list(state)
    due = _due(state, moved)
    try:
        # 5. header
        _judge_header(data[at : at + 12], ordinal, due)
        # 6. record not whole: closed, 2; open, wait for the rest
        if left < due.length:
            return refused(2, ordinal, place) if closed else ("wait", due.length - left)
        # 7. body
        due.body(data[at : at + due.length])
    except Refuse as no:
        return refused(no.number, ordinal, place + no.place)
    moved[PASSED] += 1
    return ("passed", moved, due.length)


def walk(state: State, data: bytes, closed: bool, budget: int) -> tuple[State, int, Answer]:
    """(new state, records passed by this call, stop).

    `data` are the bytes from the next record's first byte on.  A refused or waiting
    record isn't counted, and the state is the one before that record.
    """
    now, at, count = list(state), 0, 0
    while True:
        answer = _turn(now, data, at, closed, budget - count)
        if answer[0] != "passed":
            return now, count, answer
        now, at, count = answer[1], at + answer[2], count + 1


# --------------------------------------------------------------------------
# Acceptance: the list of a file's records and what each must hold
# --------------------------------------------------------------------------
# Nothing above but the table of listed fields is used here: numbers are read a
# second way, by taking the text apart.


@dataclass(frozen=True)
class Record:
    codes: Codes
    length: int
    holds: Callable[[bytes], bool]


def _digits(text: bytes) -> bool:
    return all(0x30 <= byte <= 0x39 for byte in text)


def _unsigned(text: bytes) -> bytes:
    return text[1:] if text[:1] in (b"+", b"-") else text


def written_whole(text: bytes) -> Optional[int]:
    """The number that the text writes in form Iw; None for a blank or anything else."""
    signed = text.lstrip(b" ")
    digits = _unsigned(signed)
    if digits == b"" or not _digits(digits):
        return None
    size = 0
    for digit in digits:
        size = 10 * size + digit - 0x30
    return -size if signed[:1] == b"-" else size


def _written_point(text: bytes, places: int) -> bool:
    before, point, after = _unsigned(text.lstrip(b" ")).lstrip(b" ").partition(b".")
    return point == b"." and _digits(before) and _digits(after) and len(after) == places


def _written_exponent(text: bytes, places: int) -> bool:
    mantissa, tail = text[:-4], text[-4:]
    return _written_point(mantissa, places) and tail[:2] in (b"E+", b"E-") and _digits(tail[2:])


def well_written(form: str, text: bytes) -> bool:
    """A listed field is blank or writes a number in its form."""
    if text.strip(b" ") == b"":
        return True
    if form[0] == "I":
        return written_whole(text) is not None
    places = int(form.split(".")[1])
    return _written_point(text, places) if form[0] == "F" else _written_exponent(text, places)


def _part(record: bytes, first: int, last: int) -> bytes:
    """Bytes first to last, both included, numbered from 1."""
    return record[first - 1 : last]


def _whole(record: bytes, first: int, last: int, low: int, high: int) -> Optional[int]:
    """The number at first-last if it is written and in its range."""
    number = written_whole(_part(record, first, last))
    return number if number is not None and low <= number <= high else None


def _anything(_record: bytes) -> bool:
    return True


def _fields_written(numbers: range) -> Callable[[bytes], bool]:
    def holds(record: bytes) -> bool:
        places = (LISTED[number] for number in numbers)
        return all(well_written(form, _part(record, first, last)) for first, last, form in places)

    return holds


def _first_of(codes: Codes, length: int, rules: Callable[[bytes], bool]) -> Record:
    """Every file's first record has `Ab` at 13-14."""
    return Record(codes, length, lambda record: _part(record, 13, 14) == b"A " and rules(record))


def _pointer(text: bytes) -> Record:
    def holds(record: bytes) -> bool:
        return (
            _part(record, 65, 68) == text
            and _whole(record, 101, 108, 1, 99_999_999) is not None
            and _whole(record, 109, 116, 720, 720) is not None
        )

    return Record((219, 192, 18, 18), 360, holds)


def _volume_file(data: bytes) -> Iterator[Record]:
    pointers = _whole(data, 161, 164, 3, 6)
    yield _first_of((192, 192, 18, 18), 360, lambda _: pointers is not None)
    assert pointers is not None  # the first record held
    yield _pointer(b"SARL")
    yield from [_pointer(b"IMOP")] * (pointers - 2)
    yield _pointer(b"SART")
    yield Record((18, 192, 18, 18), 360, _anything)


@dataclass(frozen=True)
class Group:
    """A slot or a facility pair of the leader's first record and the records it promises."""

    count_at: Pair
    counts: Pair
    length_at: Pair
    lengths: Pair
    codes: Codes
    holds: Callable[[bytes], bool]

    def count(self, first: bytes) -> Optional[int]:
        text = _part(first, *self.count_at)
        if text == b" " * len(text):
            text = b"0"  # an all-blank count is 0
        return _whole(text, 1, len(text), *self.counts)

    def length(self, first: bytes) -> Optional[int]:
        return _whole(first, *self.length_at, *self.lengths)

    def promised(self, first: bytes) -> bool:
        count = self.count(first)
        return count == 0 or (count is not None and self.length(first) is not None)

    def records(self, first: bytes) -> list[Record]:
        count = self.count(first)
        return [Record(self.codes, self.length(first) or 0, self.holds)] * (count or 0)


def _slot(number: int, code: int, counts: Pair, lengths: Pair, holds: Callable[[bytes], bool] = _anything) -> Group:
    first = 169 + 12 * number
    return Group((first, first + 5), counts, (first + 6, first + 11), lengths, (18, code, 18, 20), holds)


def _facility(number: int) -> Group:
    first = 407 + 14 * number
    return Group((first, first + 5), (0, 1), (first + 6, first + 13), (12, 99_999_999), (18, 200, 18, None), _anything)


_EMPTY: Pair = (0, 0)
LEADER_GROUPS: list[Group] = [
    _slot(1, 10, (1, 1), (4096, 4096), _fields_written(range(1, 11))),
    _slot(2, 20, (0, 1), (1620, 1620), _fields_written(range(11, 14))),
    _slot(3, 30, (0, 9), (12, 999_999)),
    _slot(4, 40, (0, 9), (12, 999_999)),
    _slot(5, 50, (0, 9), (12, 999_999)),
    _slot(6, 0, _EMPTY, _EMPTY),
    _slot(7, 60, (0, 9), (12, 999_999)),
    *(_slot(number, 0, _EMPTY, _EMPTY) for number in range(8, 16)),
    *(_facility(number) for number in range(1, 12)),
]


def _leader_file(data: bytes) -> Iterator[Record]:
    yield _first_of((11, 192, 18, 18), 720, lambda first: all(group.promised(first) for group in LEADER_GROUPS))
    for group in LEADER_GROUPS:
        yield from group.records(data)


def _line(code: int, number: int, length: int, pixels: int) -> Record:
    def holds(record: bytes) -> bool:
        left, shown, right = (int.from_bytes(_part(record, at, at + 3), "big") for at in (21, 25, 29))
        return (
            _part(record, 13, 16) == number.to_bytes(4, "big")
            and _part(record, 17, 20) == bytes((0, 0, 0, 1))
            and left + shown + right == pixels
        )

    return Record((50, code, 18, 20), length, holds)


# text: bytes a group, least bytes before the pixels, second code byte of a line
IMAGE_TEXTS: dict[bytes, tuple[int, int, int]] = {b"IU2 ": (2, 192, 11), b"C*8 ": (8, 412, 10)}


def _image_file(data: bytes) -> Iterator[Record]:
    text = _part(data, 429, 432)
    group, ahead, code = IMAGE_TEXTS.get(text, (0, 0, 0))
    numbers = (
        _whole(data, 181, 186, 1, 999_999),  # lines n
        _whole(data, 187, 192, 1, 999_999),  # record length L
        _whole(data, 225, 228, group, group),  # bytes per group
        _whole(data, 233, 236, 1, 1),  # channels
        _whole(data, 237, 244, 1, 99_999_999),  # lines
        _whole(data, 249, 256, 1, 99_999_999),  # pixels w
        _whole(data, 281, 288, 1, 99_999_999),  # data bytes d
        _whole(data, 289, 292, 0, 9_999),  # suffix s
    )
    n, length, _, _, lines, w, d, s = (number or 0 for number in numbers)

    def rules(first: bytes) -> bool:
        agree = lines == n and d == group * w and ahead + d + s <= length
        return _part(first, 429, 432) in IMAGE_TEXTS and None not in numbers and agree

    yield _first_of((50, 192, 18, 18), 720, rules)
    yield from (_line(code, number, length, w) for number in range(1, n + 1))


def _trailer_file(_data: bytes) -> Iterator[Record]:
    yield _first_of((63, 192, 18, 18), 720, _anything)


FILES: dict[int, Callable[[bytes], Iterator[Record]]] = {
    1: _volume_file,
    2: _leader_file,
    3: _image_file,
    4: _trailer_file,
}


def record_fits(piece: bytes, number: int, record: Record) -> bool:
    """The piece is that record: its number, codes and length, and what it must hold."""
    return (
        len(piece) == record.length
        and _part(piece, 1, 4) == number.to_bytes(4, "big")
        and all(code in (None, byte) for code, byte in zip(record.codes, _part(piece, 5, 8)))
        and _part(piece, 9, 12) == record.length.to_bytes(4, "big")
        and record.holds(piece)
    )


def accepted(kind: int, data: bytes) -> bool:
    """The bytes are exactly the records of a file of that kind, end to end."""
    if kind not in FILES:
        return False
    end = 0
    for number, record in enumerate(FILES[kind](data), start=1):
        piece = data[end : end + record.length]
        if not record_fits(piece, number, record):
            return False
        end += record.length
    return end == len(data)


# --------------------------------------------------------------------------
# Lines, rows, sets
# --------------------------------------------------------------------------

EVERY_RECORD = 2**64 - 1  # a budget that never pauses


class View(NamedTuple):
    """A line's data pixels: what the line view shows, and the sort that its samples have."""

    start: int
    samples: int
    left: int
    sort: int

    def sample(self, index: int) -> int:
        """The place of a sample, from 0 on."""
        return self.start + SORTS[self.sort].group * index


def viewed(data: bytes, k: int) -> Union[View, Answer]:
    """The view of a line, or the line's own wait or refusal.

    "Order: first record as in the walk, open; 13; wait for the bytes still missing to
    the end of that line's record, if any; then 3, 4, 5, 10."
    """
    state, passed, stop = walk(begin(IMAGE)[0], data, False, 1)
    if passed == 0:
        return stop
    if not 1 <= k <= state[N]:
        return refused(13)
    first = 720 + (k - 1) * state[L]
    end = first + state[L]
    if len(data) < end:
        return ("wait", end - len(data))
    record, due = data[first:end], _line_due(state, k)
    try:
        _judge_header(record[:12], k + 1, due)
        due.body(record)
    except Refuse as no:
        return refused(no.number, k + 1, first + no.place)
    left, shown, _ = fills(record)
    # "Pixels start L - s - d bytes into the record; the data pixels skip the left fill."
    group = SORTS[state[SORT]].group
    return View(first + state[L] - state[S] - state[D] + group * left, shown, left, state[SORT])


def line_view(data: bytes, k: int) -> Answer:
    """('shown', start, data count, left fill) | ('wait', missing) | ('refused', ...)."""
    view = viewed(data, k)
    return ("shown", *view[:3]) if isinstance(view, View) else view


def row_copy(data: bytes, k: int, row: Sequence[int]) -> tuple[Answer, list[int]]:
    """(('copied', samples) or the view's answer or 15, the row afterwards).

    "16-bit numbers, high byte first, to the row's start; later samples stay.  15 comes last."  "The row copy stays
    for counts": 23 for another sort, before 15.
    """
    after = list(row)
    view = viewed(data, k)
    if not isinstance(view, View):
        return view, after
    if view.sort != COUNTS:
        return refused(23), after
    if len(after) < view.samples:
        return refused(15), after
    for j in range(view.samples):
        high, low = data[view.sample(j)], data[view.sample(j) + 1]
        after[j] = 256 * high + low
    return ("copied", view.samples), after


def set_check(data: bytes, counts: Sequence[int]) -> Answer:
    """('agrees',) | the directory's own refusal | 12 at 160 (length) or 360p + 100 (pointer p)."""
    state, _, stop = walk(begin(VOLUME)[0], data, True, EVERY_RECORD)
    if stop != ("complete",):
        return stop
    if len(counts) != state[POINTERS]:
        return refused(12, 0, 160)
    for p, count in enumerate(counts, start=1):
        if field_at(data, 360 * p + 100, "I8") != ("value", count, 0):
            return refused(12, 0, 360 * p + 100)
    return ("agrees",)


# --------------------------------------------------------------------------
# The listing program
# --------------------------------------------------------------------------

LONGEST_LISTED = 32_768


def _line_row(data: bytes, state: State, line: int) -> str:
    first = 720 + (line - 1) * state[L]
    return " ".join(str(number) for number in (line, *fills(data[first : first + 32])))


def _closing_row(data: bytes, count: int, stop: Answer) -> str:
    if stop == ("complete",):
        return f"COMPLETE {count} RECORDS {len(data)} BYTES"
    _, number, record, place = stop
    return f"REFUSED {number} RECORD {record} AT {place}"


def _rows(data: bytes) -> Iterator[str]:
    state, count, stop = walk(begin(IMAGE)[0], data, True, EVERY_RECORD)
    if count >= 1:  # "A refusal in the first record prints its refused row alone."
        yield f"IMAGE {state[N]} LINES {state[W]} PIXELS"
        if state[L] > LONGEST_LISTED:
            yield "RECORD TOO LONG"
            return
        yield from (_line_row(data, state, line) for line in range(1, count))
    yield _closing_row(data, count, stop)


def listing(data: bytes) -> bytes:
    """The whole standard output, each row ending in one line feed; input's end closes the file."""
    return "".join(row + "\n" for row in _rows(data)).encode("ascii")
