"""Makers of valid CEOS files of all four kinds, and of damage.

Everything is drawn from a `random.Random`, so a seed gives the same bytes again.
Nothing here judges: the makers write what document 01 asks for, and note which bytes
they wrote as judged parts.  Of the oracle only the layout of the 43 numbers is used.
"""

from __future__ import annotations

import random
from dataclasses import dataclass, field
from typing import Iterator, NamedTuple, Optional, Sequence, Union

from reader import (
    BLANK,
    COMPLEX,
    COUNTS,
    D,
    FACILITIES,
    FACILITY_PAIRS,
    IMAGE,
    KIND,
    L,
    LEADER,
    N,
    PASSED,
    POINTERS,
    S,
    SLOTS,
    SORT,
    STATE_NUMBERS,
    TRAILER,
    VOLUME,
    W,
    Answer,
    State,
)

KINDS = (VOLUME, LEADER, IMAGE, TRAILER)
WIDTH = {"I4": 4, "I6": 6, "I8": 8, "I16": 16, "F8.3": 8, "F16.7": 16, "E20.13": 20}
PLACES = {"F8.3": 3, "F16.7": 7, "E20.13": 13}

# Of each sort of images: the text at 429, bytes a group, bytes ahead of the pixels, the second code byte of a line.
TEXT = {COUNTS: b"IU2 ", COMPLEX: b"C*8 "}
GROUP = {COUNTS: 2, COMPLEX: 8}
AHEAD = {COUNTS: 192, COMPLEX: 412}
LINE_CODE = {COUNTS: 11, COMPLEX: 10}

# --------------------------------------------------------------------------
# Spellings of numbers
# --------------------------------------------------------------------------


def _sign(rng: random.Random, negative: Optional[bool]) -> str:
    """A sign for a number below zero (True), above (False) or zero (None: any will do)."""
    if negative:
        return "-"
    return rng.choice(("", "", "+") if negative is False else ("", "+", "-"))


def spell_whole(rng: random.Random, value: int, width: int) -> bytes:
    """Blanks, perhaps a sign, leading zeros and the digits of value, in that width."""
    digits = str(abs(value))
    sign = _sign(rng, None if value == 0 else value < 0)
    if len(sign) + len(digits) > width:
        sign = "-" if value < 0 else ""
    room = width - len(sign) - len(digits)
    if room < 0:
        raise ValueError(f"{value} does not fit {width} bytes")
    zeros = rng.choice((0, 0, room, rng.randint(0, room)))
    return (sign + "0" * zeros + digits).rjust(width).encode("ascii")


def fits_width(value: int, width: int) -> bool:
    return len(str(value)) <= width


def _random_digits(rng: random.Random, how_many: int) -> str:
    return "".join(rng.choice("0000123456789" if rng.random() < 0.3 else "0123456789") for _ in range(how_many))


def spell_point(rng: random.Random, form: str) -> tuple[bytes, Answer]:
    """A random text of an I, F or E form and the value it writes."""
    width, places = WIDTH[form], PLACES.get(form, 0)
    exponent = rng.choice("+-") + _random_digits(rng, 2) if form[0] == "E" else ""
    tail = (1 + places if places else 0) + (1 + len(exponent) if exponent else 0)
    sign = rng.choice(("", "+", "-"))
    most = width - tail - len(sign)
    before = _random_digits(rng, rng.choice((most, rng.randint(0 if places else 1, most))))
    after = _random_digits(rng, places)
    text = before + ("." + after if places else "") + ("E" + exponent if exponent else "")
    room = width - len(sign) - len(text)
    gap = rng.choice((0, room, rng.randint(0, room))) if sign and places else 0  # F and E only (document 02, No. 4)
    text = sign + " " * gap + text
    units = int(before + after) * (-1 if sign == "-" else 1)
    return text.rjust(width).encode("ascii"), ("value", units, int(exponent or "0"))


def spell_listed(rng: random.Random, form: str) -> tuple[bytes, Answer]:
    """A listed field: blank or a value."""
    if rng.random() < 0.25:
        return b" " * WIDTH[form], BLANK
    return spell_point(rng, form)


class Badly(NamedTuple):
    """A badly written text, and which of its bytes is the bad one, from 0 (document 02, No. 5): by hand, not by the reader."""

    text: bytes
    bad: int

    def right(self, width: int) -> Badly:
        """At the right of a field of that width: blanks ahead of it go before anything."""
        return Badly(self.text.rjust(width), width - len(self.text) + self.bad)


# A sign that ends an I field is bad itself: a digit must follow it.
_BAD_WHOLE = {b"1 ": 1, b"-": 0, b"+": 0, b"- 1": 1, b"+ 0": 1, b"+-1": 1, b"1-": 1, b"1+1": 1, b".": 0, b"1.": 1, b"1.0": 1}
_BAD_WHOLE |= {b"1E2": 1, b"0x1": 1, b"1 1": 1, b"\t1": 0, b"\x001": 0, b"1\x00": 1, b"1\n": 1, b"\xb11": 0, b"A1": 0}
_BAD_WHOLE |= {b"1,0": 1, b"1_0": 1, b"\xff": 0}


def _bad_points(form: str) -> Iterator[Badly]:
    """At the field's right, so that a point is in its column where exactly so many bytes follow it."""
    places = PLACES[form]
    tail = b"E+00" if form[0] == "E" else b""
    good = b"1." + b"5" * places
    for mantissa, bad in (
        (b"1" * (1 + places), 0),  # no point
        (b"1." + b"5" * (places - 1), 0),  # too few places: the digit stands in the point's column
        (b"1." + b"5" * (places + 1), 1),  # too many (P8)
        (b"." + b"5" * (places + 1), 0),
        (b"." + b"5" * (places - 1), 0),  # blanks up to there may be a blank field
        (b"1" + b"." + b"5" * (places - 1) + b".", 1 + places),  # two points
        (b"- -." + b"5" * places, 2),  # two signs, with a blank between
        (b"- 1 ." + b"5" * places, 3),  # blanks stand behind the sign, not behind a digit
        (b"--." + b"5" * places, 1),
        (b"1 ." + b"5" * places, 1),
        (b"1," + b"5" * places, 1),
        (b"1." + b"5" * (places - 1) + b" ", 1 + places),
        (b"\t." + b"5" * places, 0),
        (b"\x00." + b"5" * places, 0),
        (b"1." + b"5" * (places - 1) + b"x", 1 + places),
        (b".", 0),
        (b"-", 0),
    ):
        yield Badly(mantissa + tail, bad)
    if form[0] == "E":
        # behind 15 good bytes; but a tail too short or too long moves the point out of its column
        tails = {b"e+00": 15, b"E 00": 16, b"E000": 16, b"E+0 ": 18, b"E+ 0": 17, b"D+00": 15, b"E+0x": 18, b"E+0": 0, b"E*00": 16}
        tails |= {b" +00": 15, b"E+00 ": 1, b"    ": 15, b"": 0}
        yield from (Badly(good + bad_tail, bad) for bad_tail, bad in tails.items())


def badly_written(form: str) -> list[Badly]:
    """Badly written texts of the form's width, none of them blank, each with the place of its bad byte."""
    width, places = WIDTH[form], PLACES.get(form)
    texts = [Badly(*one) for one in _BAD_WHOLE.items()] if places is None else list(_bad_points(form))
    padded = [one.right(width) for one in texts if len(one.text) <= width]
    point = {"F": -1, "E": -5}.get(form[0], 0) + width - (places or 0)  # the point's column
    for sign in (b"-", b"+", b" -"):  # a sign with blanks only: those behind an I field's sign are bad at once
        padded.append(Badly(sign.ljust(width), len(sign) if places is None else point))
    padded.append(Badly(b"1" * (width - 1) + b" ", width - 1 if places is None else point))
    padded += [Badly(b"\x00" * width, 0), Badly(b"\xff" * width, 0), Badly(b" " * (width - 1) + b"\t", width - 1)]
    return padded


def bad_texts(form: str) -> list[bytes]:
    return [one.text for one in badly_written(form)]


# --------------------------------------------------------------------------
# What is made
# --------------------------------------------------------------------------


@dataclass(frozen=True)
class Part:
    """A stretch of judged bytes.  Sorts: sequence, codes, length, text, number, listed, line."""

    sort: str
    record: int  # ordinal, from 1
    place: int  # in the file
    width: int
    form: str = ""
    low: int = 0
    high: int = 0
    blank_is_zero: bool = False


Sample = Union[int, tuple[int, int]]  # a count, or the patterns of real and imaginary part


@dataclass(frozen=True)
class Line:
    left: int
    pixels: tuple[Sample, ...]
    right: int


@dataclass
class Made:
    kind: int
    plan: State  # kind and plan, records passed 0
    data: bytes = b""
    starts: list[int] = field(default_factory=list)  # each record's start, then the end
    parts: list[Part] = field(default_factory=list)
    counts: list[int] = field(default_factory=list)  # a volume's record counts
    lines: list[Line] = field(default_factory=list)  # an image's lines
    listed: dict[int, Answer] = field(default_factory=dict)  # a leader's listed fields
    listed_in: dict[int, int] = field(default_factory=dict)  # field number: record ordinal

    @property
    def records(self) -> int:
        return len(self.starts) - 1

    def state(self, passed: int) -> State:
        """The state that the walk must hand back after so many records."""
        if passed == 0:
            return [self.kind] + [0] * (STATE_NUMBERS - 1)
        state = list(self.plan)
        state[PASSED] = passed
        return state

    def record_at(self, place: int) -> int:
        """The ordinal of the record that the place lies in; one past the last at the end."""
        return sum(1 for begun in self.starts if begun <= place)


def sample_bytes(sample: Sample) -> bytes:
    """A count of two bytes, or two patterns of four; high byte first."""
    if isinstance(sample, int):
        return sample.to_bytes(2, "big")
    return b"".join(pattern.to_bytes(4, "big") for pattern in sample)


class Maker:
    """Writes records end to end and notes the judged parts."""

    def __init__(self, rng: random.Random, plan: State) -> None:
        self.rng = rng
        self.made = Made(plan[KIND], list(plan))
        self.data = bytearray()

    def done(self) -> Made:
        self.made.starts.append(len(self.data))
        self.made.data = bytes(self.data)
        return self.made

    def record(self, codes: Sequence[Optional[int]], length: int) -> None:
        """A header, and bytes of any sort for the rest."""
        self.begun = len(self.data)
        self.made.starts.append(self.begun)
        self.ordinal = len(self.made.starts)
        self.data += self.rng.randbytes(length)
        self._write(1, self.ordinal.to_bytes(4, "big"))
        self._write(5, bytes(self.rng.randrange(256) if code is None else code for code in codes))
        self._write(9, length.to_bytes(4, "big"))
        judged = sum(code is not None for code in codes)  # "any fourth byte"
        for sort, byte, width in (("sequence", 1, 4), ("codes", 5, judged), ("length", 9, 4)):
            self._note(sort, byte, width)

    def text(self, byte: int, text: bytes) -> None:
        self._write(byte, text)
        self._note("text", byte, len(text))

    def number(self, byte: int, form: str, value: int, low: int, high: int) -> None:
        self._write(byte, spell_whole(self.rng, value, WIDTH[form]))
        self._note("number", byte, WIDTH[form], form=form, low=low, high=high)

    def count(self, byte: int, value: int, low: int, high: int) -> None:
        """An I6 count of the leader, where blank is 0."""
        blank = value == 0 and self.rng.random() < 0.4
        self._write(byte, b" " * 6 if blank else spell_whole(self.rng, value, 6))
        self._note("number", byte, 6, form="I6", low=low, high=high, blank_is_zero=True)

    def listed(self, number: int, byte: int, form: str) -> None:
        text, answer = spell_listed(self.rng, form)
        self._write(byte, text)
        self._note("listed", byte, WIDTH[form], form=form)
        self.made.listed[number] = answer
        self.made.listed_in[number] = self.ordinal

    def line_parts(self, line: int, fills: tuple[int, int, int]) -> None:
        for byte, value in zip((13, 17, 21, 25, 29), (line, 1, *fills)):
            self._write(byte, value.to_bytes(4, "big"))
        for byte, width in ((13, 4), (17, 4), (21, 12)):
            self._note("line", byte, width)

    def pixels(self, offset: int, pixels: Sequence[Sample]) -> None:
        """At so many bytes into the record."""
        self._write(1 + offset, b"".join(map(sample_bytes, pixels)))

    def _write(self, byte: int, text: bytes) -> None:
        place = self.begun + byte - 1
        self.data[place : place + len(text)] = text

    def _note(self, sort: str, byte: int, width: int, **more: object) -> None:
        self.made.parts.append(Part(sort, self.ordinal, self.begun + byte - 1, width, **more))  # type: ignore[arg-type]


# --------------------------------------------------------------------------
# Valid files from a plan
# --------------------------------------------------------------------------


def volume_first(maker: Maker, plan: State) -> None:
    """The first record that writes this pointer count, whether the rules allow it or not."""
    maker.record((192, 192, 18, 18), 360)
    maker.text(13, b"A ")
    maker.number(161, "I4", plan[POINTERS], 3, 6)


def make_volume(rng: random.Random, plan: State, counts: Optional[Sequence[int]] = None) -> Made:
    maker, pointers = Maker(rng, plan), plan[POINTERS]
    volume_first(maker, plan)
    chosen = list(counts or (_some(rng, 1, 99_999_999) for _ in range(pointers)))
    for pointer, count in enumerate(chosen, start=1):
        maker.record((219, 192, 18, 18), 360)
        maker.text(65, b"SARL" if pointer == 1 else b"SART" if pointer == pointers else b"IMOP")
        maker.number(101, "I8", count, 1, 99_999_999)
        maker.number(109, "I8", 720, 720, 720)
    maker.record((18, 192, 18, 18), 360)
    maker.made.counts = chosen
    return maker.done()


SUMMARY = ((1, 477, "F8.3"), (2, 711, "F16.7"), (3, 743, "F16.7"), (4, 935, "F16.7")) + tuple(
    (5 + i, 1887 + 20 * i, "E20.13") for i in range(6)
)
MAP = ((11, 61, "I16"), (12, 77, "I16"), (13, 93, "F16.7"))


def leader_first(maker: Maker, plan: State) -> None:
    """The first record that writes these plan numbers, whether the rules allow them or not."""
    maker.record((11, 192, 18, 18), 720)
    maker.text(13, b"A ")
    # Junk in every unread length: bytes of any sort are there already.
    limits = {1: (1, 1, 4096, 4096), 2: (0, 1, 1620, 1620)} | {slot: (0, 9, 12, 999_999) for slot in (3, 4, 5, 7)}
    at = SLOTS
    for slot in range(1, 16):
        byte = 181 + 12 * (slot - 1)
        if slot not in limits:
            maker.count(byte, 0, 0, 0)
            continue
        least, most, shortest, longest = limits[slot]
        maker.count(byte, plan[at], least, most)
        if plan[at]:
            maker.number(byte + 6, "I6", plan[at + 1], shortest, longest)
        at += 2
    for facility in range(FACILITY_PAIRS):
        byte, at = 421 + 14 * facility, FACILITIES + 2 * facility
        maker.count(byte, plan[at], 0, 1)
        if plan[at]:
            maker.number(byte + 6, "I8", plan[at + 1], 12, 99_999_999)


def make_leader(rng: random.Random, plan: State) -> Made:
    maker = Maker(rng, plan)
    leader_first(maker, plan)
    for i, code in enumerate((10, 20, 30, 40, 50, 60)):
        count, length = plan[SLOTS + 2 * i], plan[SLOTS + 2 * i + 1]
        for _ in range(count):
            maker.record((18, code, 18, 20), length)
            for number, byte, form in {10: SUMMARY, 20: MAP}.get(code, ()):
                maker.listed(number, byte, form)
    for i in range(FACILITY_PAIRS):
        count, length = plan[FACILITIES + 2 * i], plan[FACILITIES + 2 * i + 1]
        for _ in range(count):
            maker.record((18, 200, 18, None), length)
    return maker.done()


def image_first(maker: Maker, plan: State) -> None:
    """The first record that writes these plan numbers, whether the rules allow them or not.

    ValueError for a sort that no text names.
    """
    if plan[SORT] not in TEXT:
        raise ValueError(f"there is no sort {plan[SORT]}")
    group = GROUP[plan[SORT]]
    maker.record((50, 192, 18, 18), 720)
    maker.text(13, b"A ")
    maker.text(429, TEXT[plan[SORT]])
    maker.number(181, "I6", plan[N], 1, 999_999)
    maker.number(187, "I6", plan[L], 1, 999_999)
    maker.number(225, "I4", group, group, group)
    maker.number(233, "I4", 1, 1, 1)
    maker.number(237, "I8", plan[N], 1, 99_999_999)
    maker.number(249, "I8", plan[W], 1, 99_999_999)
    maker.number(281, "I8", plan[D], 1, 99_999_999)
    maker.number(289, "I4", plan[S], 0, 9_999)


def random_fills(rng: random.Random, w: int) -> tuple[int, int, int]:
    """Left, data and right counts whose sum is w; often none of one of them."""
    first, second = sorted((rng.choice((0, w, rng.randint(0, w))), rng.choice((0, w, rng.randint(0, w)))))
    return first, second - first, w - second


NANS = (0x7F800001, 0x7FA5A5A5, 0x7FBFFFFF, 0x7FC00000, 0x7FC12345, 0x7FFFFFFF)  # the first three without the quiet bit
# Patterns of 32 bits: zero, the least and the greatest, ones, infinity, NaNs.
PATTERNS = (0, 1, 0x007FFFFF, 0x00800000, 0x1A000000, 0x3F800000, 0x3F800001, 0x40490FDB, 0x5F7FFFFF, 0x5F800000, 0x7F7FFFFF, 0x7F800000, *NANS)
NEAR_ONE = 0x3F800000  # its power, and a sum of two, stay finite and normal


def random_pattern(rng: random.Random) -> int:
    """Mostly one whose power is finite; now and then a NaN, or any; with any sign."""
    some = NEAR_ONE + rng.randint(-(2**28), 2**28)
    return rng.choice((some, some, some, rng.choice(PATTERNS), rng.choice(NANS), rng.randrange(2**31))) ^ rng.choice((0, 2**31))


def random_sample(rng: random.Random, sort: int) -> Sample:
    if sort == COMPLEX:
        return random_pattern(rng), random_pattern(rng)
    return rng.choice((0, 513, 65_535, rng.randrange(65_536)))


Fills = tuple[int, int, int]  # left, data, right
Pixels = Sequence[Sequence[Sample]]


def make_image(rng: random.Random, plan: State, fills: Optional[Sequence[Fills]] = None, pixels: Optional[Pixels] = None) -> Made:
    """With these fills and data pixels of each line, or drawn ones."""
    maker = Maker(rng, plan)
    image_first(maker, plan)
    sort = plan[SORT]
    for line in range(1, plan[N] + 1):
        left, shown, right = fills[line - 1] if fills else random_fills(rng, plan[W])
        maker.record((50, LINE_CODE[sort], 18, 20), plan[L])
        maker.line_parts(line, (left, shown, right))
        samples = tuple(pixels[line - 1] if pixels else (random_sample(rng, sort) for _ in range(shown)))
        maker.pixels(plan[L] - plan[S] - plan[D] + GROUP[sort] * left, samples)
        maker.made.lines.append(Line(left, samples, right))
    return maker.done()


def trailer_first(maker: Maker, _plan: State) -> None:
    maker.record((63, 192, 18, 18), 720)
    maker.text(13, b"A ")


def make_trailer(rng: random.Random, plan: State) -> Made:
    return first_record(rng, plan)


def first_record(rng: random.Random, plan: State) -> Made:
    """A first record alone; ValueError when a number is wider than its field."""
    maker = Maker(rng, plan)
    firsts = {VOLUME: volume_first, LEADER: leader_first, IMAGE: image_first, TRAILER: trailer_first}
    firsts[plan[KIND]](maker, plan)
    return maker.done()


def make(rng: random.Random, plan: State) -> Made:
    """A valid file with that plan."""
    makers = {VOLUME: make_volume, LEADER: make_leader, IMAGE: make_image, TRAILER: make_trailer}
    return makers[plan[KIND]](rng, plan)


def size_of(plan: State) -> int:
    """The size of the files with that plan."""
    if plan[KIND] == VOLUME:
        return 360 * (plan[POINTERS] + 2)
    return 720 + sum(plan[i] * plan[i + 1] for i in range(SLOTS, N, 2)) + plan[N] * plan[L]


def rest(rng: random.Random, state: State) -> bytes:
    """Bytes that finish a file whose walk has come to that good state."""
    if state[PASSED] == 0:
        return make(rng, random_plan(rng, state[KIND])).data
    made = make(rng, state)
    return made.data[made.starts[state[PASSED]] :]


# --------------------------------------------------------------------------
# Plans
# --------------------------------------------------------------------------


def _some(rng: random.Random, low: int, high: int) -> int:
    """A number of the range: an end, a small one, one of a random size, or any."""
    if high - low < 4:
        return rng.randint(low, high)
    spread = min(high - low, 10 ** rng.randint(0, 8))
    return rng.choice((low, high, low + rng.randint(0, spread), rng.randint(low, high)))


def _empty_plan(kind: int) -> State:
    return [kind] + [0] * (STATE_NUMBERS - 1)


def volume_plan(pointers: int) -> State:
    plan = _empty_plan(VOLUME)
    plan[POINTERS] = pointers
    return plan


def leader_plan(slots: Sequence[tuple[int, int]], facilities: Sequence[tuple[int, int]]) -> State:
    """slots: the pairs of slots 2, 3, 4, 5, 7; facilities: eleven pairs."""
    plan = _empty_plan(LEADER)
    plan[SLOTS:N] = [number for pair in ((1, 4096), *slots, *facilities) for number in pair]
    return plan


def leader_shape(rng: random.Random, slots: int, facilities: int, most: int = 3) -> State:
    """A leader with the slots (5 bits) and facility pairs (11 bits) that the bits name."""
    pairs = []
    for i in range(5):
        if not slots >> i & 1:
            pairs.append((0, 0))
        elif i == 0:
            pairs.append((1, 1620))
        else:
            pairs.append((rng.randint(1, most), 12 + rng.choice((0, rng.randint(0, 60)))))
    some = [(1, 12 + rng.choice((0, rng.randint(0, 60)))) if facilities >> i & 1 else (0, 0) for i in range(11)]
    return leader_plan(pairs, some)


def least_length(sort: int, w: int, s: int) -> int:
    """The least record length of a line of w pixels."""
    return AHEAD[sort] + GROUP[sort] * w + s


def image_plan(n: int, w: int, s: int, length: Optional[int] = None, sort: int = COUNTS) -> State:
    plan = _empty_plan(IMAGE)
    plan[N], plan[W], plan[D], plan[S], plan[SORT] = n, w, GROUP[sort] * w, s, sort
    plan[L] = least_length(sort, w, s) if length is None else length
    return plan


def trailer_plan() -> State:
    return _empty_plan(TRAILER)


def random_plan(rng: random.Random, kind: int) -> State:
    """A plan of small files."""
    if kind == VOLUME:
        return volume_plan(rng.randint(3, 6))
    if kind == LEADER:
        return leader_shape(rng, rng.randrange(32), rng.choice((0, 2047, rng.randrange(2048))), rng.choice((1, 3, 9)))
    if kind == IMAGE:
        return random_image_plan(rng, rng.choice((COUNTS, COMPLEX)))
    return trailer_plan()


def random_image_plan(rng: random.Random, sort: int) -> State:
    w, s = rng.choice((1, rng.randint(1, 12))), rng.choice((0, rng.randint(0, 20)))
    more = rng.choice((0, 1, rng.randint(0, 40)))
    return image_plan(rng.randint(1, 5), w, s, least_length(sort, w, s) + more, sort)


def random_image(rng: random.Random, sort: int) -> Made:
    return make_image(rng, random_image_plan(rng, sort))


def random_file(rng: random.Random, kind: Optional[int] = None) -> Made:
    return make(rng, random_plan(rng, kind or rng.choice(KINDS)))


# --------------------------------------------------------------------------
# Rules broken, each with the refusal that it must bring
# --------------------------------------------------------------------------


@dataclass(frozen=True)
class Break:
    """A patch that breaks one rule.  Of several, the one of least rank is met first.

    rank: record, step of the turn, then the order inside the step.
    """

    name: str
    rank: tuple[int, ...]
    refusal: Answer
    place: int
    patch: bytes

    def overlaps(self, other: Break) -> bool:
        return self.place < other.place + len(other.patch) and other.place < self.place + len(self.patch)


HEADER, WHOLE, BODY = 5, 6, 7  # steps of the turn
TEXTS, NUMBERS, AGREEMENTS = 0, 1, 2  # order inside the body


def apply(data: bytes, *breaks: Break) -> bytes:
    changed = bytearray(data)
    for one in breaks:
        changed[one.place : one.place + len(one.patch)] = one.patch
    return bytes(changed)


def _other(rng: random.Random, value: int, below: int) -> int:
    """Another number: a near one, one bit off, its bytes turned round, or any."""
    width = (below.bit_length() - 1) // 8
    turned = int.from_bytes(value.to_bytes(width, "little"), "big")
    choices = [value + 1, value - 1, value ^ 1 << rng.randrange(8 * width), turned, rng.randrange(below)]
    rng.shuffle(choices)
    return next(choice for choice in choices if choice != value and 0 <= choice < below)


def _header_breaks(rng: random.Random, made: Made, part: Part) -> Iterator[Break]:
    number = {"sequence": 3, "codes": 4, "length": 5}[part.sort]
    order = part.place - made.starts[part.record - 1]
    rank, refusal = (part.record, HEADER, order), ("refused", number, part.record, part.place)
    if part.sort == "codes":
        for i in range(part.width):
            byte = made.data[part.place + i]
            yield Break(f"code byte {i + 1}", rank, refusal, part.place + i, bytes((_other(rng, byte, 256),)))
    else:
        value = int.from_bytes(made.data[part.place : part.place + 4], "big")
        yield Break(part.sort, rank, refusal, part.place, _other(rng, value, 2**32).to_bytes(4, "big"))


def _text_breaks(rng: random.Random, made: Made, part: Part) -> Iterator[Break]:
    rank, refusal = (part.record, BODY, TEXTS, part.place), ("refused", 8, part.record, part.place)
    for i in range(part.width):
        byte = made.data[part.place + i]
        patch = rng.choice((byte ^ 0x20, _other(rng, byte, 256), 0))
        yield Break(f"text byte {i + 1}", rank, refusal, part.place + i, bytes((patch,)))


def _number_breaks(rng: random.Random, part: Part) -> Iterator[Break]:
    rank = (part.record, BODY, NUMBERS, part.place)
    outside = ("refused", 7, part.record, part.place)
    for text, bad in rng.sample(badly_written(part.form), 3):
        yield Break(f"badly written {text!r}", rank, ("refused", 6, part.record, part.place + bad), part.place, text)
    blank = b" " * part.width
    if not part.blank_is_zero:
        yield Break("blank", rank, ("refused", 6, part.record, part.place + part.width - 1), part.place, blank)
    elif part.low > 0:
        yield Break("blank, so 0", rank, outside, part.place, blank)
    for value in (part.low - 1, part.high + 1, -part.high - 1, 10**part.width - 1, 0, -1):
        if fits_width(value, part.width) and not part.low <= value <= part.high:
            yield Break(f"range {value}", rank, outside, part.place, spell_whole(rng, value, part.width))


def _listed_breaks(rng: random.Random, part: Part) -> Iterator[Break]:
    rank = (part.record, BODY, NUMBERS, part.place)
    for text, bad in rng.sample(badly_written(part.form), 4):
        yield Break(f"listed {text!r}", rank, ("refused", 6, part.record, part.place + bad), part.place, text)


def _line_breaks(rng: random.Random, made: Made, part: Part) -> Iterator[Break]:
    rank, refusal = (part.record, BODY, TEXTS, part.place), ("refused", 10, part.record, part.place)
    values = [int.from_bytes(made.data[at : at + 4], "big") for at in range(part.place, part.place + part.width, 4)]
    for i, value in enumerate(values):
        patch = _other(rng, value, 2**32).to_bytes(4, "big")
        yield Break(f"line part {i}", rank, refusal, part.place + 4 * i, patch)
    if len(values) == 3:  # a sum that is w only when it wraps
        wrapped = (2**32 - 1, made.plan[W] + 1, 0)
        yield Break("wrapped fills", rank, refusal, part.place, b"".join(v.to_bytes(4, "big") for v in wrapped))


def _agreement_breaks(rng: random.Random, made: Made) -> Iterator[Break]:
    """Patches that stay in range and cannot mend one another."""
    if made.kind != IMAGE:
        return
    plan, rank, refusal = made.plan, (1, BODY, AGREEMENTS), ("refused", 8, 1, 0)
    least = least_length(plan[SORT], plan[W], plan[S])
    for name, byte, width, value in (
        ("lines n", 181, 6, plan[N] + 1),
        ("lines again", 237, 8, plan[N] + 2),
        ("w", 249, 8, plan[W] + 1),
        ("d odd", 281, 8, plan[D] + 1),
        ("d of the other sort", 281, 8, GROUP[other_sort(plan)] * plan[W]),
        ("L one too small", 187, 6, least - 1),
        ("s too long", 289, 4, plan[S] + plan[L] - least + 1),
    ):
        yield Break(f"agreement {name}", rank, refusal, byte - 1, spell_whole(rng, value, width))


def other_sort(plan: State) -> int:
    return COUNTS if plan[SORT] == COMPLEX else COMPLEX


# Texts that name no sort: other data types of the sources' style, in lower case, with the blank elsewhere.
OTHER_TEXTS = (b"C*8b", b"C*8\0", b"c*8 ", b" C*8", b"C*4 ", b"C*16", b"C8* ", b"I*2 ", b"IU2b", b"iu2 ", b" IU2", b"IU1 ", b"IS2 ", b"    ")


def _sort_breaks(rng: random.Random, made: Made) -> Iterator[Break]:
    """Text and group of an image, and its lines' code, as no sort or the other one has them."""
    if made.kind != IMAGE:
        return
    other, texts = other_sort(made.plan), (1, BODY, TEXTS, 428)
    no_sort, group = ("refused", 8, 1, 428), ("refused", 7, 1, 224)
    for text in rng.sample(OTHER_TEXTS, 4):
        yield Break(f"text {text!r}", texts, no_sort, 428, text)
    rank = (1, BODY, NUMBERS, 224)
    spelt = spell_whole(rng, GROUP[other], 4)
    yield Break("the other sort's text", rank, group, 428, TEXT[other])
    yield Break("the other sort's group", rank, group, 224, spelt)
    both = spelt + made.data[228:428] + TEXT[other]
    yield Break("the other sort's text and group", (1, BODY, AGREEMENTS), ("refused", 8, 1, 0), 224, both)
    for record, begun in enumerate(made.starts[1:-1], start=2):
        refusal = ("refused", 4, record, begun + 4)
        yield Break("the other sort's line code", (record, HEADER, 4), refusal, begun + 5, bytes((LINE_CODE[other],)))


def breaks(rng: random.Random, made: Made) -> list[Break]:
    """Every rule of the file broken, one at a time."""
    found = [*_agreement_breaks(rng, made), *_sort_breaks(rng, made)]
    for part in made.parts:
        if part.sort in ("sequence", "codes", "length"):
            found += _header_breaks(rng, made, part)
        elif part.sort == "text":
            found += _text_breaks(rng, made, part)
        elif part.sort == "number":
            found += _number_breaks(rng, part)
        elif part.sort == "listed":
            found += _listed_breaks(rng, part)
        else:
            found += _line_breaks(rng, made, part)
    return found


def cut_rank(made: Made, size: int) -> tuple[tuple[int, ...], Answer]:
    """Where a closed file cut to that size is refused with 2, and its rank among breaks."""
    record = made.record_at(size)
    begun = made.starts[record - 1]
    step = 4 if size - begun < 12 else WHOLE
    return (record, step), ("refused", 2, record, begun)


# --------------------------------------------------------------------------
# Damage of any sort
# --------------------------------------------------------------------------


def _number_text(rng: random.Random, width: int) -> bytes:
    """Text for a number field: well written, blank, bad, or letters of the grammar."""
    way = rng.randrange(5)
    if way == 0:
        return b" " * width
    if way == 1:
        return bytes(rng.choice(b"   +-01290.E") for _ in range(width))
    if way == 2:
        return rng.choice(bad_texts({4: "I4", 6: "I6", 8: "I8", 16: "I16", 20: "E20.13"}[width]))
    value = rng.choice((rng.randint(-2, 14), rng.randint(0, 300), rng.randint(0, 10**width - 1), 720, 1620, 4096))
    return spell_whole(rng, value if fits_width(value, width) else 1, width)


def flip(rng: random.Random, made: Made, data: bytes) -> bytes:
    """One to three bytes changed, anywhere."""
    changed = bytearray(data)
    for _ in range(rng.randint(1, 3)):
        if changed:
            changed[rng.randrange(len(changed))] = rng.randrange(256)
    return bytes(changed)


def flip_judged(rng: random.Random, made: Made, data: bytes) -> bytes:
    """A judged byte changed, by a bit or to a byte of written numbers."""
    part = rng.choice(made.parts)
    at = part.place + rng.randrange(part.width)
    if at >= len(data):
        return data
    byte = rng.choice((data[at] ^ 1 << rng.randrange(8), rng.choice(b" 0129+-.E"), rng.randrange(256)))
    return data[:at] + bytes((byte,)) + data[at + 1 :]


def cut(rng: random.Random, made: Made, data: bytes) -> bytes:
    """The first part of the bytes, often cut near a record's start."""
    near = rng.choice(made.starts) + rng.choice((-1, 0, 0, 1, 11, 12, 13, 32, 180))
    size = rng.choice((near, rng.randint(0, len(data))))
    return data[: max(0, size)]


def extend(rng: random.Random, made: Made, data: bytes) -> bytes:
    """Bytes after the end: some, or a record again."""
    record = rng.randrange(made.records)
    again = made.data[made.starts[record] : made.starts[record + 1]]
    return data + rng.choice((b"\x00", rng.randbytes(rng.randint(1, 40)), again))


def change_header(rng: random.Random, made: Made, data: bytes) -> bytes:
    """A header part written anew, or another record's header."""
    at, other = made.starts[rng.randrange(made.records)], made.starts[rng.randrange(made.records)]
    header = bytearray(made.data[at : at + 12])
    way = rng.randrange(4)
    if way == 3:
        header[:] = made.data[other : other + 12]
    else:
        small = bytes((0, 0, 0, rng.randrange(256)))
        header[4 * way : 4 * way + 4] = rng.choice((made.data[other : other + 4], rng.randbytes(4), small))
    return data[:at] + bytes(header) + data[at + 12 :] if at + 12 <= len(data) else data


def rewrite(rng: random.Random, made: Made, data: bytes) -> bytes:
    """A number field written anew, well or badly."""
    fields = [part for part in made.parts if part.sort in ("number", "listed")]
    if not fields:
        return data
    part = rng.choice(fields)
    in_form = part.sort == "listed" and rng.random() < 0.4
    text = spell_listed(rng, part.form)[0] if in_form else _number_text(rng, part.width)
    return data[: part.place] + text + data[part.place + part.width :] if part.place + part.width <= len(data) else data


def reordered(rng: random.Random, data: bytes, starts: Sequence[int]) -> bytes:
    """A piece left out, said twice, or exchanged with another; the pieces lie between the starts."""
    pieces = [data[begun:ended] for begun, ended in zip(starts, starts[1:])]
    i, j = rng.randrange(len(pieces)), rng.randrange(len(pieces))
    way = rng.randrange(3)
    if way == 0:
        del pieces[i]
    elif way == 1:
        pieces.insert(j, pieces[i])
    else:
        pieces[i], pieces[j] = pieces[j], pieces[i]
    return b"".join(pieces)


def change_sort(rng: random.Random, made: Made, data: bytes) -> bytes:
    """Some of what the other sort of an image writes: its text, group, d, and the code of a line."""
    if made.kind != IMAGE:
        return data
    other, begun = other_sort(made.plan), made.starts[rng.randint(1, made.records - 1)]
    d = spell_whole(rng, GROUP[other] * made.plan[W], 8)
    for place, text in ((428, TEXT[other]), (224, spell_whole(rng, GROUP[other], 4)), (280, d), (begun + 5, bytes((LINE_CODE[other],)))):
        if place + len(text) <= len(data) and rng.random() < 0.7:
            data = data[:place] + text + data[place + len(text) :]
    return data


def reorder(rng: random.Random, made: Made, data: bytes) -> bytes:
    """A record left out, said twice, or exchanged with another."""
    return reordered(rng, made.data, made.starts)


def break_rules(rng: random.Random, made: Made, data: bytes) -> bytes:
    """One or two rules broken."""
    chosen = rng.sample(breaks(rng, made), rng.randint(1, 2))
    return apply(data, *(one for one in chosen if one.place + len(one.patch) <= len(data)))


DAMAGES = (flip, flip_judged, flip_judged, cut, extend, change_header, rewrite, rewrite, reorder, change_sort, break_rules)


def damage(rng: random.Random, made: Made) -> bytes:
    """One damage, or two in a row; now and then none."""
    data = made.data
    for _ in range(rng.choice((0, 1, 1, 1, 1, 2))):
        data = rng.choice(DAMAGES)(rng, made, data)
    return data


# --------------------------------------------------------------------------
# States, good and bad
# --------------------------------------------------------------------------

EDGES = (0, 1, 2, 3, 6, 7, 8, 9, 10, 11, 12, 191, 192, 194, 411, 412, 420, 1619, 1620, 1621, 4095, 4096, 4097, 9_999, 10_000)
EDGES += (999_999, 1_000_000, 99_999_999, 100_000_000, 2**32 - 1, 2**32, 2**63, 2**64 - 192, 2**64 - 1)


def wide_plan(rng: random.Random, kind: int) -> State:
    """A plan that the rules allow, of any size (no file is made of it)."""
    if kind == VOLUME:
        return volume_plan(rng.randint(3, 6))
    if kind == LEADER:
        slots = [rng.choice(((0, 0), (1, 1620)))]
        slots += [rng.choice(((0, 0), (_some(rng, 1, 9), _some(rng, 12, 999_999)))) for _ in range(4)]
        return leader_plan(slots, [rng.choice(((0, 0), (1, _some(rng, 12, 99_999_999)))) for _ in range(11)])
    if kind == IMAGE:
        sort, s = rng.choice((COUNTS, COMPLEX)), _some(rng, 0, 9_999)
        w = _some(rng, 1, (999_999 - AHEAD[sort] - s) // GROUP[sort])
        return image_plan(_some(rng, 1, 999_999), w, s, _some(rng, least_length(sort, w, s), 999_999), sort)
    return trailer_plan()


def planned_total(plan: State) -> int:
    return 1 + {VOLUME: plan[POINTERS] + 1, IMAGE: plan[N]}.get(plan[KIND], sum(plan[SLOTS:N:2]))


def good_state_of(rng: random.Random, kind: int) -> State:
    """A state that keeps the state rule."""
    plan = wide_plan(rng, kind)
    passed = _some(rng, 0, planned_total(plan))
    if passed == 0:
        return _empty_plan(kind)
    plan[PASSED] = passed
    return plan


def any_state(rng: random.Random) -> State:
    """A good state with up to two numbers changed; now and then any numbers."""
    if rng.random() < 0.05:
        return [rng.choice((0, rng.choice(EDGES), rng.randrange(2**64))) for _ in range(STATE_NUMBERS)]
    state = good_state_of(rng, rng.choice(KINDS))
    for _ in range(rng.choice((0, 1, 1, 2))):
        at = rng.randrange(STATE_NUMBERS)
        near = state[at] + rng.choice((-1, 1))
        state[at] = rng.choice((rng.choice(EDGES), min(max(0, near), 2**64 - 1)))
    return state
