"""Checks of the oracle against document 01 (docs/RULES.md), what was decided where that
is silent (docs/DECISIONS.md), the three demands (docs/PROMISES.md), and what later
requests added (document 02).

Run: python3 selftest.py [seed].  Prints what was checked; the last line is the tally.
"""

from __future__ import annotations

import itertools
import random
import sys
import time
from typing import Callable, Iterable, Iterator

import cards
import reader
import make
import make_cards
import make_powers
from binary32 import INFINITY, SIGN, Exact, finite, power_of_two, rounded, worth
from cards import Card, card_answer, card_numbers, is_card
from reader import (
    COMPLEX, COUNTS, D, EVERY_RECORD, FACILITIES, IMAGE, KIND, L, LEADER, N, PASSED, POINTERS, S, SLOTS, SORT, STATE_NUMBERS,
    TRAILER, VOLUME, W, Answer, State, accepted, bad_place, begin, decimal, field, field_at, good_state, line_view, listing, planned,
    refused, row_copy, set_check, start, walk,
)
from samples import complex_row, power, power_of, sample
from make import KINDS, Break, Made

Whole = tuple[State, int, Answer]


class Tally:
    """Counts what holds and shows the first few that do not."""

    def __init__(self) -> None:
        self.passed = 0
        self.failed = 0

    def check(self, holds: bool, *what: object) -> None:
        if holds:
            self.passed += 1
            return
        self.failed += 1
        if self.failed <= 20:
            print("  FAILED:", *what)

    def equal(self, got: object, want: object, *what: object) -> None:
        self.check(got == want, *what, "\n    got ", got, "\n    want", want)


def fresh(kind: int) -> State:
    return begin(kind)[0]


def whole_walk(kind: int, data: bytes, closed: bool = True, budget: int = EVERY_RECORD) -> Whole:
    return walk(fresh(kind), data, closed, budget)


def zeros() -> State:
    return [0] * STATE_NUMBERS


def patched(data: bytes, byte: int, text: bytes) -> bytes:
    """The text written at that byte, numbered from 1."""
    return data[: byte - 1] + text + data[byte - 1 + len(text) :]


def words(*numbers: int) -> bytes:
    return b"".join(number.to_bytes(4, "big") for number in numbers)


def b(text: str) -> bytes:
    """The document's way of writing a field: `b` is a blank."""
    return text.replace("b", " ").encode("ascii")


# --------------------------------------------------------------------------
# The document's examples
# --------------------------------------------------------------------------


def listed_image(rng: random.Random) -> Made:
    """n = 2, w = 3, s = 0, L = 198, with the listing's fills."""
    return make.make_image(rng, make.image_plan(2, 3, 0, 198), [(0, 3, 0), (1, 2, 0)])


def proved_examples(tally: Tally, rng: random.Random) -> None:
    """The table P1 to P13."""
    for name, form, text, want in (
        ("P1", "F8.3", "bb90.000", ("value", 90000, 0)),
        ("P2", "F16.7", "+1234567.1234567", ("value", 12345671234567, 0)),
        ("P3", "F16.7", "bbbbbb-0.0000000", ("value", 0, 0)),
        ("P4", "F16.7", "bbbbbb-0.0000001", ("value", -1, 0)),
        ("P5", "F16.7", "-9999999.9999999", ("value", -99999999999999, 0)),
        ("P6", "F16.7", "99999999.9999999", ("value", 999999999999999, 0)),
        ("P7", "F16.7", "b" * 16, ("blank",)),
        ("P7", "I16", "b" * 16, ("blank",)),
        ("P8", "F16.7", "bbbbb1.000000000", ("bad",)),
        ("P9", "I6", "bbbbb0", ("value", 0, 0)),
        ("P10", "E20.13", "b1.0000000000000E+02", ("value", 10000000000000, 2)),
    ):
        tally.equal(decimal(form, b(text)), want, name)
    tally.equal(field(b"?" * 710 + b("bbbbb1.000000000"), 2), refused(6, 0, 716), "P8 as listed field 2: its point")
    image = listed_image(rng)
    tally.equal(whole_walk(IMAGE, patched(image.data, 181, b"     0")), (fresh(IMAGE), 0, refused(7, 1, 180)), "P9 as n")
    for zero in (b"    -0", b"    +0", b"000000"):
        tally.equal(whole_walk(IMAGE, patched(image.data, 181, zero))[2], refused(7, 1, 180), "0 as n", zero)
    first_pixel = 720 + 192 + 1
    tally.equal(row_copy(patched(image.data, first_pixel, b"\x02\x01"), 1, [7] * 4)[1][0], 513, "P11")
    tally.equal(whole_walk(VOLUME, b"", closed=False), (fresh(VOLUME), 0, ("wait", 12)), "P12 open")
    tally.equal(whole_walk(VOLUME, b"", closed=True), (fresh(VOLUME), 0, refused(2, 1, 0)), "P12 closed")
    for closed in (False, True):
        tally.equal(whole_walk(IMAGE, image.data + b"x", closed), (image.state(3), 3, refused(9, 4, 1116)), "P13")


def edges_and_slips(tally: Tally, rng: random.Random) -> None:
    """Edges to run, and slips that look right."""
    image = make.make_image(rng, make.image_plan(2, 3, 5), [(0, 3, 0), (1, 2, 0)])
    short = patched(image.data, 187, b"%6d" % (191 + 6 + 5))
    tally.equal(whole_walk(IMAGE, short), (fresh(IMAGE), 0, refused(8, 1, 0)), "L = 191 + d + s")
    tally.equal(whole_walk(IMAGE, image.data)[2], ("complete",), "L = 192 + d + s")
    for pointers in (2, 7, 3, 6):
        volume = make.make_volume(rng, make.volume_plan(min(6, max(3, pointers))))
        answer = whole_walk(VOLUME, patched(volume.data, 161, b"%4d" % pointers))[2]
        tally.equal(answer, refused(7, 1, 160) if pointers in (2, 7) else ("complete",), "pointers", pointers)
    line_two = 720 + image.plan[L]
    wrapped = patched(image.data, line_two + 21, words(4294967295, 4, 0))
    tally.equal(whole_walk(IMAGE, wrapped), (image.state(2), 2, refused(10, 3, line_two + 20)), "fills that wrap")
    tally.equal(line_view(wrapped, 2), refused(10, 3, line_two + 20), "fills that wrap, viewed")
    for text in ("bbbbbb-0.5000000", "bbbbbbb-.5000000", "-0000000.5000000"):
        tally.equal(decimal("F16.7", b(text)), ("value", -5000000, 0), "a minus lost on", text)
    wide = make.make_image(rng, make.image_plan(1, 2, 3, 192 + 4 + 3 + 10), [(0, 2, 0)])
    tally.equal(line_view(wide.data, 1), ("shown", 720 + 192 + 10, 2, 0), "pixels taken at 192")
    at_192 = patched(patched(wide.data, 720 + 193, b"\x01\x02\x03\x04"), 720 + 203, b"\x00\x05\x06\x00")
    tally.equal(row_copy(at_192, 1, [9, 9]), (("copied", 2), [5, 0x600]), "pixels taken at 192, low byte first")
    jers = make.make_image(rng, make.image_plan(1, 6000, 0, 12192), [(0, 6000, 0)])
    tally.equal(line_view(jers.data, 1), ("shown", 912, 6000, 0), "002: L = 12192 for 6000 pixels")
    for kind in KINDS:
        made = make.random_file(rng, kind)
        tally.equal(whole_walk(kind, made.data, False), (made.state(made.records), made.records, ("wait", 0)), "open complete")


def listing_examples(tally: Tally, rng: random.Random) -> None:
    """The listing, verbatim, and what docs/DECISIONS.md says of it."""
    image = listed_image(rng)
    tally.equal(
        listing(image.data),
        b"IMAGE 2 LINES 3 PIXELS\n1 0 3 0\n2 1 2 0\nCOMPLETE 3 RECORDS 1116 BYTES\n",
        "the listed image",
    )
    wrong = patched(image.data, 720 + 198 + 13, words(3))
    tally.equal(listing(wrong), b"IMAGE 2 LINES 3 PIXELS\n1 0 3 0\nREFUSED 10 RECORD 3 AT 930\n", "a wrong line number")
    tally.equal(listing(b""), b"REFUSED 2 RECORD 1 AT 0\n", "empty input")
    tally.equal(listing(patched(image.data, 1, words(2))), b"REFUSED 3 RECORD 1 AT 0\n", "first record refused")
    tally.equal(listing(patched(image.data, 429, b"IS2 ")), b"REFUSED 8 RECORD 1 AT 428\n", "IS2")
    tally.equal(
        listing(image.data + b"\0"),
        b"IMAGE 2 LINES 3 PIXELS\n1 0 3 0\n2 1 2 0\nREFUSED 9 RECORD 4 AT 1116\n",
        "a byte added",
    )
    tally.equal(listing(image.data[:720]), b"IMAGE 2 LINES 3 PIXELS\nREFUSED 2 RECORD 2 AT 720\n", "no lines")
    one = make.make_image(rng, make.image_plan(1, 1, 0), [(0, 0, 1)])
    tally.equal(listing(one.data), b"IMAGE 1 LINES 1 PIXELS\n1 0 0 1\nCOMPLETE 2 RECORDS 914 BYTES\n", "fixed words")
    longest = make.make_image(rng, make.image_plan(1, 1, 0, 32_768), [(1, 0, 0)])
    tally.equal(listing(longest.data), b"IMAGE 1 LINES 1 PIXELS\n1 1 0 0\nCOMPLETE 2 RECORDS 33488 BYTES\n", "L = 32,768")
    too_long = make.make_image(rng, make.image_plan(1, 1, 0, 32_769))
    for data in (too_long.data, too_long.data[:720], too_long.data[:721], too_long.data + b"?", patched(too_long.data, 721, b"?")):
        tally.equal(listing(data), b"IMAGE 1 LINES 1 PIXELS\nRECORD TOO LONG\n", "L = 32,769")


# --------------------------------------------------------------------------
# Written numbers and listed fields
# --------------------------------------------------------------------------


def second_reading(form: str, text: bytes) -> Answer:
    """The grammar once more, by taking the text apart from its end."""
    if len(text) != make.WIDTH[form]:
        return ("bad",)
    if text.strip(b" ") == b"":
        return ("blank",)
    if not reader.well_written(form, text):
        return ("bad",)
    mantissa, exponent = (text[:-4], int(text[-3:])) if form[0] == "E" else (text, 0)
    number = reader.written_whole(mantissa.replace(b".", b"") if form[0] == "I" else mantissa.replace(b".", b"").replace(b" ", b""))
    assert number is not None
    return ("value", number, exponent)


def decimals(tally: Tally, rng: random.Random) -> None:
    """Two readings agree; made texts have their values; bad texts are bad."""
    for letters in itertools.product(b" +-0.9\t", repeat=4):
        tally.equal(decimal("I4", bytes(letters)), second_reading("I4", bytes(letters)), "I4", bytes(letters))
    for form in make.WIDTH:
        for _ in range(800):
            text, want = make.spell_point(rng, form)
            tally.equal(decimal(form, text), want, form, text)
            at = rng.randrange(len(text))
            other = text[:at] + bytes((rng.choice(b" +-.E09e"),)) + text[at + 1 :]
            tally.equal(decimal(form, other), second_reading(form, other), form, other)
        for text in make.bad_texts(form):
            tally.equal(decimal(form, text), ("bad",), form, text)
        text, _ = make.spell_point(rng, form)
        for at, byte in itertools.product(range(len(text)), range(256)):
            other = text[:at] + bytes((byte,)) + text[at + 1 :]
            tally.equal(decimal(form, other), second_reading(form, other), form, other)
        for wrong in (b"", text[1:], text + b" ", b" " + text, b" " * (len(text) - 1), b" " * (len(text) + 1)):
            tally.equal(decimal(form, wrong), ("bad",), "not the form's width", form, wrong)
    for form, text, want in (
        ("I4", "9999", 9999), ("I4", "-999", -999), ("I4", "+001", 1), ("I4", "bb-0", 0), ("I8", "99999999", 99999999),
        ("I16", "9999999999999999", 9999999999999999), ("I16", "-999999999999999", -999999999999999),
        ("F8.3", "9999.999", 9999999), ("F8.3", "-999.999", -999999), ("F8.3", "bbbb.000", 0), ("F8.3", "bbb-.001", -1),
        ("F16.7", "bbbbbbbb.5000000", 5000000), ("F16.7", "bb-bbbb1.0000000", -10000000), ("F16.7", "-bbbbbbb.5000000", -5000000),
        ("F16.7", "+bbbbbb0.0000001", 1), ("F8.3", "-bbb.001", -1), ("F8.3", "b+b9.999", 9999),
    ):
        tally.equal(decimal(form, b(text)), ("value", want, 0), form, text)
    for text, number, exponent in (
        ("-9.9999999999999E-99", -99999999999999, -99), ("99.9999999999999E+99", 999999999999999, 99),
        ("b-.0000000000000E-07", 0, -7), ("-b.0000000000001E-07", -1, -7), ("bb.0000000000001E-00", 1, 0), ("+1.5000000000000E+10", 15000000000000, 10),
    ):
        tally.equal(decimal("E20.13", b(text)), ("value", number, exponent), text)


def _prefixes(texts: Iterable[bytes]) -> set[bytes]:
    return {text[:size] for text in texts for size in range(len(text) + 1)}


def _check_bad_place(tally: Tally, form: str, text: bytes, firsts: set[bytes], shape: Callable[[bytes], bytes] = bytes) -> None:
    """By the definition: some well-written field has the bytes before the place, and none has that byte too; one place only."""
    bad = [i for i in range(len(text)) if shape(text[:i]) in firsts and shape(text[: i + 1]) not in firsts]
    tally.equal([bad_place(form, text)], bad, "the bad byte of", form, text)


def bad_places(tally: Tally, rng: random.Random) -> None:
    """The place of a 6 (document 02, No. 5): of every text of I4 and I6 over five letters by all that are well written; by hand."""
    for form, width in (("I4", 4), ("I6", 6)):
        texts = [bytes(letters) for letters in itertools.product(b"5 -.x", repeat=width)]
        written = {text for text in texts if decimal(form, text) != ("bad",)}
        firsts = _prefixes(written)
        for text in texts:
            if text not in written:
                _check_bad_place(tally, form, text, firsts)
    for form, text, at in (
        ("F16.7", "b" * 15 + "1", 15), ("F16.7", "bbbbb1.000000000", 6), ("F16.7", "-" + "b" * 15, 8), ("F16.7", "bbbbbbbb-.500000", 8),
        ("F16.7", "-bbbbb-1.0000000", 6), ("F16.7", "-bbbbb1b.0000000", 7), ("F16.7", "b" * 9 + "5000000", 9), ("F8.3", "12345.67", 4),
        ("I4", "bbb-", 3), ("I4", "b-b1", 2), ("I4", "1bbb", 1), ("I6", "-b1234", 1), ("I16", "-" + "b" * 15, 1), ("I8", "+" * 8, 1),
        ("E20.13", "b" * 16 + "E+02", 16), ("E20.13", "-b.0000000000001E 07", 17), ("E20.13", "b1.0000000000000E+0b", 19),
        ("E20.13", "-b10000000000000E+07", 2),
    ):
        tally.equal(bad_place(form, b(text)), at, "a bad byte by hand", form, text)
        tally.equal(decimal(form, b(text)), ("bad",), "badly written", form, text)
    for form, width in make.WIDTH.items():
        tally.equal(bad_place(form, b" " * width), width - 1, "blank where a number is needed", form)
        for text, at in make.badly_written(form):
            tally.equal(bad_place(form, text), at, "a maker's bad byte", form, text)


SHAPES = bytes.maketrans(b"0123456789+", b"5555555555-")


def _written_shapes(form: str) -> Iterator[bytes]:
    """Every well-written field of the form, blank too, one digit for all and one sign for both: spelt from the table, not read."""
    width, places = make.WIDTH[form], make.PLACES.get(form)
    tail = b"" if places is None else b"." + b"5" * places + (b"E-55" if form[0] == "E" else b"")
    lead = width - len(tail)
    yield b" " * width
    for digits in range(0 if tail else 1, lead + 1):
        yield b" " * (lead - digits) + b"5" * digits + tail
        for gap in range(lead - digits if tail else 1):  # blanks behind the sign
            if digits < lead:
                yield b" " * (lead - digits - gap - 1) + b"-" + b" " * gap + b"5" * digits + tail


def _perhaps_bad(rng: random.Random, form: str) -> bytes:
    """Letters of the grammar; or a well-written field with one to three bytes changed, or its bytes moved by one."""
    width = make.WIDTH[form]
    if rng.random() < 0.2:
        return bytes(rng.choice(b"  5+-.E0x") for _ in range(width))
    text = bytearray(make.spell_listed(rng, form)[0])
    if rng.random() < 0.2:
        text = bytearray(rng.choice((text[1:] + b" ", text[1:] + b"7", b" " + text[:-1])))
    for _ in range(rng.randint(1, 3)):
        text[rng.randrange(width)] = rng.choice((rng.choice(b"  5+-.E09ex"), rng.randrange(256)))
    return bytes(text)


def drawn_bad_places(tally: Tally, rng: random.Random) -> None:
    """The place of a 6 of drawn texts of every form, by the first bytes of all well-written fields."""
    seen = 0
    for form in make.WIDTH:
        written = set(_written_shapes(form))
        tally.check(all(decimal(form, text) != ("bad",) for text in written), "spelt fields are well written", form)
        firsts = _prefixes(written)
        for _ in range(4000):
            text = _perhaps_bad(rng, form)
            bad = decimal(form, text) == ("bad",)
            tally.equal(text.translate(SHAPES) in written, not bad, "well written exactly if it is spelt so", form, text)
            if bad:
                seen += 1
                _check_bad_place(tally, form, text, firsts, lambda first: first.translate(SHAPES))
    tally.check(seen > 15_000, "enough that are bad", seen)


def listed_fields(tally: Tally, rng: random.Random) -> None:
    """The field reader: order 14, 2, 6; ordinal 0; places in the bytes given."""
    ends = {1: 484, 2: 726, 3: 758, 4: 950, 5: 1906, 6: 1926, 7: 1946, 8: 1966, 9: 1986, 10: 2006, 11: 76, 12: 92, 13: 108}
    for number, byte, form in make.SUMMARY + make.MAP:
        tally.equal(byte + make.WIDTH[form] - 1, ends[number], "the document's last byte", number)
        for _ in range(30):
            size = rng.choice((ends[number], ends[number] + rng.randint(0, 50)))
            text, want = make.spell_listed(rng, form)
            data = patched(rng.randbytes(size), byte, text)  # the header isn't judged
            tally.equal(field(data, number), want, "field", number)
            tally.equal(field_at(data, byte - 1, form), want, "field_at", number)
            badly, at = rng.choice(make.badly_written(form))
            bad = patched(data, byte, badly)
            tally.equal(field(bad, number), refused(6, 0, byte - 1 + at), "field 6", number, badly)
            cut = rng.choice((ends[number] - 1, rng.randrange(ends[number]), 0))
            tally.equal(field(bad[:cut], number), refused(2), "field 2 before 6", number, cut)
    for number in (0, 14, 15, 255, 2**32, 2**64 - 1):
        for data in (b"", rng.randbytes(4096)):
            tally.equal(field(data, number), refused(14), "no such listed field", number)
    for _ in range(40):
        made = make.random_file(rng, LEADER)
        for number, want in made.listed.items():
            begun, ended = made.starts[made.listed_in[number] - 1 : made.listed_in[number] + 1]
            tally.equal(field(made.data[begun:ended], number), want, "a made leader's field", number)


# --------------------------------------------------------------------------
# States
# --------------------------------------------------------------------------


def begins(tally: Tally, rng: random.Random) -> None:
    """begin: the fresh state, or refusal 1 with all zeros."""
    for kind in (0, 5, 6, 255, 256, 257, 2**32 + 1, 2**64 - 1):
        tally.equal(begin(kind), (zeros(), refused(1)), "begin", kind)
    for kind in KINDS:
        tally.equal(begin(kind), ([kind] + [0] * 42, ("fresh",)), "begin", kind)
        tally.check(good_state(fresh(kind)), "a fresh state is good")
        tally.equal(start(fresh(kind)), 0, "start of a fresh state")
    tally.equal((KIND, PASSED, POINTERS, SLOTS, FACILITIES, N, L, W, D, S, SORT), (0, 1, 2, 3, 15, 37, 38, 39, 40, 41, 42), "layout")


def _spoiled(state: State, **at: int) -> State:
    names = {"kind": KIND, "passed": PASSED, "pointers": POINTERS, "n": N, "L": L, "w": W, "d": D, "s": S, "sort": SORT}
    changed = list(state)
    for name, value in at.items():
        changed[names[name] if name in names else int(name[1:])] = value
    return changed


def state_rule_by_hand(tally: Tally, rng: random.Random) -> None:
    """The state rule's edges, written out."""
    volume = make.volume_plan(3)
    image = make.image_plan(4, 3, 2, 205)
    leader = make.leader_plan([(1, 1620), (9, 12), (1, 999_999), (0, 0), (2, 40)], [(1, 12), (1, 99_999_999)] + [(0, 0)] * 9)
    most = make.leader_plan([(1, 1620)] + [(9, 999_999)] * 4, [(1, 99_999_999)] * 11)
    trailer = make.trailer_plan()
    for want, state in (
        (True, _spoiled(volume, passed=1)), (True, _spoiled(volume, passed=5)), (False, _spoiled(volume, passed=6)),
        (False, _spoiled(volume, passed=0)), (False, _spoiled(volume, passed=2**64 - 1)),
        (False, _spoiled(volume, passed=1, pointers=2)), (False, _spoiled(volume, passed=1, pointers=7)),
        (True, _spoiled(volume, passed=8, pointers=6)), (False, _spoiled(volume, passed=9, pointers=6)),
        (False, _spoiled(volume, passed=1, pointers=2**64 - 1)), (False, _spoiled(volume, passed=1, s=1)),
        (False, _spoiled(volume, passed=1, _3=1)), (False, _spoiled(volume, passed=1, _36=1)),
        (True, _spoiled(image, passed=5)), (False, _spoiled(image, passed=6)), (False, _spoiled(image, passed=1, n=0)),
        (True, _spoiled(image, passed=999_999, n=999_999)), (True, _spoiled(image, passed=1_000_000, n=999_999)),
        (False, _spoiled(image, passed=1_000_001, n=999_999)), (False, _spoiled(image, passed=1, n=1_000_000)),
        (True, _spoiled(image, passed=1, L=200)), (False, _spoiled(image, passed=1, L=199)),
        (True, _spoiled(image, passed=1, L=999_999)), (False, _spoiled(image, passed=1, L=1_000_000)),
        (False, _spoiled(image, passed=1, d=7)), (False, _spoiled(image, passed=1, w=4)),
        (False, _spoiled(image, passed=1, w=0, d=0)), (False, _spoiled(image, passed=1, w=3 + 2**63)),
        (False, _spoiled(image, passed=1, w=2**63 - 96, d=2**64 - 192)), (False, _spoiled(image, passed=1, s=2**64 - 198)),
        (True, _spoiled(image, passed=1, s=9_999, L=10_197)), (False, _spoiled(image, passed=1, s=10_000, L=10_198)),
        (True, _spoiled(image, passed=1, w=499_903, d=999_806, s=1, L=999_999)), (False, _spoiled(image, passed=1, pointers=3)),
        (False, _spoiled(image, passed=1, _15=1)),
        (False, _spoiled(image, passed=1, sort=1)), (False, _spoiled(image, passed=1, sort=2, d=24, L=999)),
        (True, _spoiled(image, passed=1, sort=1, d=24, L=438)), (False, _spoiled(image, passed=1, sort=1, d=24, L=437)),
        (False, _spoiled(image, passed=1, sort=0, d=24, L=438)), (False, _spoiled(image, passed=1, sort=1, d=6, L=438)),
        (False, _spoiled(image, passed=1, sort=2)), (False, _spoiled(image, passed=1, sort=2**64 - 1)), (False, _spoiled(image, passed=1, sort=2**32)),
        (True, _spoiled(image, passed=5, sort=1, w=124_948, d=999_584, s=3, L=999_999)), (False, _spoiled(image, passed=6, sort=1, d=24, L=438)),
        (False, _spoiled(image, passed=1, sort=1, w=2**61 + 3, d=24, L=438)),  # 8w is d only where it wraps
        (False, _spoiled(fresh(IMAGE), sort=1)), (False, _spoiled(volume, passed=1, sort=1)), (False, _spoiled(trailer, passed=1, sort=1)),
        (False, _spoiled(leader, passed=1, sort=1)),
        (True, _spoiled(leader, passed=1)), (True, _spoiled(leader, passed=17)), (False, _spoiled(leader, passed=18)),
        (True, _spoiled(most, passed=50)), (False, _spoiled(most, passed=51)),
        (False, _spoiled(leader, passed=1, _3=0)), (False, _spoiled(leader, passed=1, _3=0, _4=0)), (False, _spoiled(leader, passed=1, _3=2)),
        (False, _spoiled(leader, passed=1, _4=4095)), (False, _spoiled(leader, passed=1, _5=0)), (True, _spoiled(leader, passed=1, _5=0, _6=0)),
        (False, _spoiled(leader, passed=1, _5=2)), (False, _spoiled(leader, passed=1, _6=1619)), (False, _spoiled(leader, passed=1, _6=12)),
        (False, _spoiled(leader, passed=1, _7=10)), (False, _spoiled(leader, passed=1, _8=11)), (False, _spoiled(leader, passed=1, _8=0)),
        (False, _spoiled(leader, passed=1, _10=1_000_000)), (False, _spoiled(leader, passed=1, _12=1)), (False, _spoiled(leader, passed=1, _11=1)),
        (False, _spoiled(leader, passed=1, _15=2)), (False, _spoiled(leader, passed=1, _16=11)), (False, _spoiled(leader, passed=1, _18=100_000_000)),
        (False, _spoiled(leader, passed=1, _20=1)), (False, _spoiled(leader, passed=1, _7=2**64 - 1)), (False, _spoiled(leader, passed=1, pointers=3)),
        (False, _spoiled(leader, passed=1, n=1)), (False, _spoiled(leader, passed=1, s=1)),
        (True, trailer), (True, _spoiled(trailer, passed=1)), (False, _spoiled(trailer, passed=2)), (False, _spoiled(trailer, passed=1, s=1)),
        (False, _spoiled(trailer, pointers=3)), (False, zeros()), (False, _spoiled(trailer, kind=5)), (False, _spoiled(trailer, kind=2**64 - 1)),
        (False, _spoiled(leader, kind=VOLUME, passed=1)), (False, _spoiled(volume, kind=TRAILER, passed=1)),
    ):  # fmt: skip
        tally.equal(good_state(state), want, "state rule", state)


def _plan_is_written(plan: State) -> bool:
    """The numbers that the kind does not use, and lengths of count 0, are 0."""
    used = {VOLUME: {POINTERS}, LEADER: set(range(SLOTS, N)), IMAGE: set(range(N, SORT + 1)), TRAILER: set()}[plan[KIND]]
    lengths = all(plan[i + 1] == 0 for i in range(SLOTS, N, 2) if plan[i] == 0)
    return lengths and not any(number for i, number in enumerate(plan) if i >= POINTERS and i not in used)


def states_and_first_records(tally: Tally, rng: random.Random) -> None:
    """A plan is good exactly when the first record that writes it is passed, and gives it back."""
    for _ in range(3000):
        plan = make.wide_plan(rng, rng.choice(KINDS))
        for _ in range(rng.choice((0, 1, 1, 2))):
            at = rng.randrange(POINTERS, STATE_NUMBERS)
            plan[at] = rng.choice((rng.choice(make.EDGES), max(0, plan[at] + rng.choice((-1, 1)))))
        if rng.random() < 0.5 and plan[KIND] == IMAGE:
            plan[D] = make.GROUP.get(plan[SORT], 2) * plan[W]
        state = list(plan)
        state[PASSED] = 1
        if not _plan_is_written(plan):
            tally.check(not good_state(state), "unused numbers must be 0", state)
            continue
        try:
            data = make.first_record(rng, plan).data
        except ValueError:  # wider than its field, or a sort that no text names
            tally.check(not good_state(state), "no record writes it", state)
            continue
        after, passed, stop = walk(fresh(plan[KIND]), data, False, 1)
        tally.equal(passed == 1, good_state(state), "first record passed and plan good", state, stop)
        if passed:
            tally.equal((after, stop), (state, ("pause",)), "plan named")


def any_states(tally: Tally, rng: random.Random) -> None:
    """Bad states: 11 before all else, the state given, start 0.  Good: the passed range, starts."""
    for _ in range(2500):
        state = make.any_state(rng)
        data = rng.choice((b"", rng.randbytes(rng.randint(0, 40))))
        for closed, budget in itertools.product((False, True), (0, 1, EVERY_RECORD)):
            after, count, stop = walk(state, data, closed, budget)
            tally.equal(stop == refused(11), not good_state(state), "11 and the state rule", state)
            if stop == refused(11):
                tally.equal((after, count), (state, 0), "state after 11")
            elif budget == 0:
                tally.equal((after, count, stop), (state, 0, ("pause",)), "budget 0")
            else:
                tally.check(stop[0] != "complete" or closed, "open files are never complete")
        if not good_state(state):
            tally.equal((start(state), planned(state)), (0, 0), "a bad state's start")
    for _ in range(1500):
        kind = rng.choice(KINDS)
        state = make.good_state_of(rng, kind)
        tally.check(good_state(state), "made good", state)
        if state[PASSED] == 0:
            continue
        total = make.planned_total(state)
        tally.equal(planned(state), total, "planned")
        state[PASSED] = total
        tally.equal(start(state), make.size_of(state), "start at the end is the file's size", state)
        tally.equal(walk(state, b"", True, 1), (state, 0, ("complete",)), "nothing left and closed")
        tally.equal(walk(state, b"", False, 1), (state, 0, ("wait", 0)), "nothing left and open")
        for closed in (False, True):
            tally.equal(walk(state, b"?", closed, 1)[2], refused(9, total + 1, make.size_of(state)), "9")
        state[PASSED] = total + 1
        tally.check(not good_state(state), "one record too many", state)


def far_places(tally: Tally, rng: random.Random) -> None:
    """Places pass 32 bits: n = L = 999,999."""
    for sort in (COUNTS, COMPLEX):
        _check_far(tally, make.image_plan(999_999, 2, 0, 999_999, sort))


def _check_far(tally: Tally, plan: State) -> None:
    plan[PASSED] = passed = 999_000
    begun = 720 + (passed - 1) * 999_999
    tally.equal(start(plan), begun, "far start")
    header = words(passed + 1) + bytes((50, make.LINE_CODE[plan[SORT]], 18, 20)) + words(999_999)
    line = header + words(passed, 1, 1, 1, 0)
    record = line + bytes(999_999 - len(line))
    moved = _spoiled(plan, passed=passed + 1)
    tally.equal(walk(plan, record, False, 1), (moved, 1, ("pause",)), "far record")
    tally.equal(walk(plan, record, True, 2), (moved, 1, refused(2, passed + 2, begun + 999_999)), "far 2")
    for byte, number, place in ((4, 3, 0), (8, 4, 4), (12, 5, 8), (16, 10, 12), (20, 10, 16), (24, 10, 20), (32, 10, 20)):
        bad = patched(record, byte, bytes((record[byte - 1] ^ 0x80,)))
        tally.equal(walk(plan, bad, False, 5), (plan, 0, refused(number, passed + 1, begun + place)), "far refusal", byte)


# --------------------------------------------------------------------------
# Valid files
# --------------------------------------------------------------------------


def _shapes(rng: random.Random) -> Iterator[State]:
    """All slot combinations, all facility combinations, all pointers, and random plans."""
    yield from (make.leader_shape(rng, slots, rng.randrange(2048)) for slots in range(32))
    yield from (make.leader_shape(rng, rng.randrange(32), pairs, 1) for pairs in range(2048))
    yield make.leader_plan([(1, 1620)] + [(9, 12)] * 4, [(1, 12)] * 11)  # 1 + 1 + 1 + 36 + 11 = 50 records
    yield from (make.volume_plan(pointers) for pointers in (3, 4, 5, 6) for _ in range(20))
    for n, w, s, more in itertools.product((1, 2, 3), (1, 2, 5), (0, 1, 7), (0, 1, 2, 33)):
        yield from (make.image_plan(n, w, s, make.least_length(sort, w, s) + more, sort) for sort in (COUNTS, COMPLEX))
    yield from (make.random_plan(rng, kind) for kind in KINDS for _ in range(60))


def _check_budgets(tally: Tally, made: Made) -> None:
    total = made.records
    for budget in sorted({0, 1, total - 1, total, total + 1, total + 5}):
        passed = min(budget, total)
        for closed in (False, True):
            stop = ("pause",) if budget <= total else ("complete",) if closed else ("wait", 0)
            tally.equal(whole_walk(made.kind, made.data, closed, budget), (made.state(passed), passed, stop), "budget", budget, total)
    for passed in (0, 1, total // 2, total):
        tally.equal(start(made.state(passed)), made.starts[passed], "start", made.kind, passed)


def valid_files(tally: Tally, rng: random.Random) -> None:
    """Made files are accepted and complete, with their own plan; no other kind takes them."""
    for plan in _shapes(rng):
        made = make.make(rng, plan)
        tally.check(accepted(made.kind, made.data), "accepted", plan)
        tally.equal(whole_walk(made.kind, made.data), (made.state(made.records), made.records, ("complete",)), "complete", plan)
        if rng.random() < 0.2:
            _check_budgets(tally, made)
            for other in set(KINDS) - {made.kind}:
                tally.check(not accepted(other, made.data), "another kind")
                tally.equal(whole_walk(other, made.data)[2], refused(4, 1, 4), "another kind")
    for kind in (0, 5, 2**64 - 1):
        tally.check(not accepted(kind, make.random_file(rng).data), "no such kind")
    # places in the middle of a record: wait for exactly what is missing
    for _ in range(60):
        made = make.random_file(rng)
        sizes = {rng.randint(0, len(made.data)) for _ in range(8)}
        sizes |= {edge + more for edge in made.starts[:6] for more in (0, 1, 11, 12, 13)}
        for size in sorted(size for size in sizes if size <= len(made.data)):
            _check_cut(tally, made, size)


def _check_cut(tally: Tally, made: Made, size: int) -> None:
    record = min(made.record_at(size), made.records + 1)
    begun, held = made.starts[record - 1], size - made.starts[record - 1]
    if record > made.records:
        missing = 0
    else:
        missing = 12 - held if held < 12 else made.starts[record] - size
    waiting = (made.state(record - 1), record - 1, ("wait", missing))
    tally.equal(whole_walk(made.kind, made.data[:size], False), waiting, "cut, open", size)
    closed = refused(2, record, begun) if record <= made.records else ("complete",)
    tally.equal(whole_walk(made.kind, made.data[:size], True), (*waiting[:2], closed), "cut, closed", size)


def unread_bytes(tally: Tally, rng: random.Random) -> None:
    """Bytes that no rule names are anything: the answer stays."""
    for _ in range(150):
        made = make.random_file(rng)
        changed = bytearray(rng.randbytes(len(made.data)))
        for part in made.parts:
            changed[part.place : part.place + part.width] = made.data[part.place : part.place + part.width]
        tally.check(accepted(made.kind, bytes(changed)), "unread bytes", made.kind)
        tally.equal(whole_walk(made.kind, bytes(changed)), whole_walk(made.kind, made.data), "unread bytes", made.kind)


def blank_counts(tally: Tally, rng: random.Random) -> None:
    """A blank count is 0; with count 0 the length is not read; the other slots never read theirs."""
    made = make.make_leader(rng, make.leader_shape(rng, 0b00000, 0))
    for slot in range(2, 16):
        for zero in (b"      ", b"     0", b"    -0", b"    +0", b"000000", b"-00000"):
            data = patched(made.data, 181 + 12 * (slot - 1), zero + rng.choice((b"######", b"    -1", b"      ")))
            tally.equal(whole_walk(LEADER, data), (made.state(2), 2, ("complete",)), "slot count 0", slot, zero)
            tally.check(accepted(LEADER, data), "slot count 0", slot, zero)
    for zero in (b"      ", b"     0", b"    -0"):
        data = patched(made.data, 181, zero + b"######")
        tally.equal(whole_walk(LEADER, data), (made.state(0), 0, refused(7, 1, 180)), "slot 1 count 0", zero)
    for pair in range(11):
        for zero in (b"      ", b"    -0"):
            data = patched(made.data, 421 + 14 * pair, zero + b"########")
            tally.equal(whole_walk(LEADER, data)[2], ("complete",), "facility count 0", pair)
        data = patched(made.data, 421 + 14 * pair, b"     1      11")
        tally.equal(whole_walk(LEADER, data)[2], refused(7, 1, 426 + 14 * pair), "facility length 11", pair)
    for slot in (6, *range(8, 16)):
        data = patched(made.data, 181 + 12 * (slot - 1), b"     1    12")
        for code in (0, 10, 20, 30, 40, 50, 60, 70, 80, 200):  # not even with the record that it would promise
            longer = data + words(3) + bytes((18, code, 18, 20)) + words(12)
            tally.equal(whole_walk(LEADER, longer)[2], refused(7, 1, 180 + 12 * (slot - 1)), "slot not admitted", slot)
            tally.check(not accepted(LEADER, longer), "slot not admitted", slot)


# --------------------------------------------------------------------------
# Rules broken
# --------------------------------------------------------------------------


def _check_refusal(tally: Tally, made: Made, data: bytes, refusal: Answer, name: str, closed_only: bool = False) -> None:
    record = refusal[2]
    want = (made.state(record - 1), record - 1, refusal)
    tally.equal(whole_walk(made.kind, data, True), want, "closed:", name)
    if not closed_only:
        tally.equal(whole_walk(made.kind, data, False), want, "open:", name)
    tally.check(not accepted(made.kind, data), "not accepted:", name)


def _check_single(tally: Tally, made: Made, one: Break) -> None:
    data = make.apply(made.data, one)
    _check_refusal(tally, made, data, one.refusal, one.name)
    if one.rank[1] == make.HEADER:  # judged before wholeness, with 12 bytes or more
        begun = made.starts[one.refusal[2] - 1]
        _check_refusal(tally, made, data[: begun + 12], one.refusal, one.name + ", not whole")
        _check_refusal(tally, made, data[: begun + 11], refused(2, one.refusal[2], begun), one.name + ", 11 bytes", True)


def broken_singly(tally: Tally, rng: random.Random) -> None:
    """Each rule broken alone brings its refusal, with its record and place."""
    for kind in KINDS:
        for _ in range(12):
            made = make.random_file(rng, kind)
            found = make.breaks(rng, made)
            for one in rng.sample(found, min(len(found), 120)):
                _check_single(tally, made, one)
    for kind in KINDS:  # one file of each kind with every break
        made = make.make(rng, make.leader_shape(rng, 31, 2047, 1)) if kind == LEADER else make.random_file(rng, kind)
        for one in make.breaks(rng, made):
            _check_single(tally, made, one)


def broken_in_pairs(tally: Tally, rng: random.Random) -> None:
    """Of two broken rules the one met first decides."""
    for _ in range(120):
        made = make.random_file(rng)
        found = make.breaks(rng, made)
        near = [one for one in found if one.rank[0] == rng.choice(found).rank[0]]
        for pool in (found, near):
            for _ in range(12):
                first, second = rng.choice(pool), rng.choice(pool)
                same = first.rank == second.rank and first.rank[-1] != make.AGREEMENTS
                if first.overlaps(second) or same:
                    continue
                met = min(first, second, key=lambda one: one.rank)
                _check_refusal(tally, made, make.apply(made.data, first, second), met.refusal, f"{first} and {second}")


def broken_and_cut(tally: Tally, rng: random.Random) -> None:
    """A broken rule in a file cut short, or with bytes added."""
    for _ in range(150):
        made = make.random_file(rng)
        found = make.breaks(rng, made)
        for _ in range(12):
            one = rng.choice(found)
            begun = made.starts[one.rank[0] - 1]
            size = rng.choice((rng.randrange(len(made.data)), begun + rng.choice((0, 11, 12, 13)), begun))
            rank, too_short = make.cut_rank(made, size)
            data = make.apply(made.data, one)
            met = one.refusal if one.rank < rank else too_short
            _check_refusal(tally, made, data[:size], met, f"{one} cut to {size}", met == too_short)
            _check_refusal(tally, made, data + b"more", one.refusal, f"{one} with bytes added")
        after = refused(9, made.records + 1, len(made.data))
        _check_refusal(tally, made, made.data + rng.randbytes(rng.randint(1, 20)), after, "bytes added")


# --------------------------------------------------------------------------
# Damage of any sort: acceptance, pieces, budgets, refusals that stay
# --------------------------------------------------------------------------


def _damaged(rng: random.Random, how_many: int) -> Iterator[tuple[Made, bytes]]:
    """Damaged files, several of each made one."""
    for _ in range(how_many // 5):
        made = make.random_file(rng)
        for _ in range(5):
            yield made, make.damage(rng, made)


def complete_and_accepted(tally: Tally, rng: random.Random) -> None:
    """Closed walk complete <=> accepted; planned + 1 is enough; the count is the state's difference."""
    taken = 0
    for made, data in _damaged(rng, 5000):
        after, count, stop = whole_walk(made.kind, data)
        taken += stop == ("complete",)
        tally.equal(stop == ("complete",), accepted(made.kind, data), "complete and accepted", made.kind, stop)
        tally.equal(count, after[PASSED], "count is the state's difference")
        tally.check(good_state(after), "states handed back are good")
        tally.check(stop[0] in ("complete", "refused"), "closed never waits", stop)
        enough = max(1, planned(after) + 1)
        for closed in (False, True):
            answer = whole_walk(made.kind, data, closed, enough)
            tally.equal(answer, whole_walk(made.kind, data, closed), "enough")
            tally.check(answer[2] != ("pause",), "enough: no pause")
        if stop == ("complete",):
            tally.check(not accepted(made.kind, data + b"x"), "bytes after the last record")
            tally.check(not accepted(made.kind, data[:-1]), "a byte short")
    print(f"    ({taken} of these files accepted)", end="")


def in_pieces(tally: Tally, rng: random.Random) -> None:
    """An open call with budget b that passed c, then one with d: the same as one with c + d."""
    for made, data in _damaged(rng, 2500):
        at = rng.choice((0, 0, rng.randint(0, made.records)))
        state, data = made.state(at), data[made.starts[at] :]
        size = rng.choice((rng.randint(0, len(data)), len(data)))
        first_budget, second_budget = rng.choice((0, 1, 2, EVERY_RECORD)), rng.choice((0, 1, 3, 100))
        middle, c, _ = walk(state, data[:size], False, first_budget)
        passed = start(middle) - start(state)
        for closed in (False, True):
            after, more, stop = walk(middle, data[passed:], closed, second_budget)
            whole = walk(state, data, closed, c + second_budget)
            tally.equal(whole, (after, c + more, stop), "in pieces", made.kind, size, first_budget, second_budget)


def byte_by_byte(tally: Tally, rng: random.Random) -> None:
    """A file that arrives in many pieces and small budgets ends as in one call."""
    for made, data in _damaged(rng, 400):
        state, held, passed = made.state(0), 0, 0
        while held < len(data):
            held = min(len(data), held + rng.choice((1, 12, 200, 720, 5000)))
            state, count, _ = walk(state, data[start(state) : held], False, rng.choice((0, 1, 2, 50)))
            passed += count
        after, count, stop = walk(state, data[start(state) :], True, EVERY_RECORD)
        tally.equal((after, passed + count, stop), whole_walk(made.kind, data), "byte by byte")


def refusals_stay(tally: Tally, rng: random.Random) -> None:
    """An open refusal is the same answer for further bytes, larger budgets, closing, and when asked again."""
    for made, data in _damaged(rng, 2500):
        budget = rng.choice((1, 2, 5, EVERY_RECORD))
        answer = after, count, stop = whole_walk(made.kind, data, False, budget)
        if stop[0] != "refused":
            continue
        more = rng.choice((b"", b"\0", rng.randbytes(800), made.data))
        for closed, larger in itertools.product((False, True), (budget, budget + 1, EVERY_RECORD)):
            tally.equal(whole_walk(made.kind, data + more, closed, larger), answer, "refusal stays", stop)
        left = data[start(after) :] + more
        for closed in (False, True):
            tally.equal(walk(after, left, closed, rng.choice((1, 9))), (after, 0, stop), "refusal repeats", stop)


FEASIBLE = 300_000  # bytes of a file that is made to finish another


def arriving(tally: Tally, rng: random.Random) -> None:
    """At a record's end: wait <=> some further bytes make an accepted file; refused <=> none do."""
    seen = {"wait": 0, "refused": 0}
    for made, data in _damaged(rng, 2500):
        sizes = [size for size in made.starts if size <= len(data)] + [len(data)]
        prefix = data[: rng.choice(sizes)]
        after, _, stop = whole_walk(made.kind, prefix, False)
        if stop[0] == "wait" and start(after) == len(prefix):
            if after[PASSED] == 0 or make.size_of(after) <= FEASIBLE:
                seen["wait"] += 1
                tally.check(accepted(made.kind, prefix + make.rest(rng, after)), "a wait can be finished", made.kind)
        elif stop[0] == "refused":
            seen["refused"] += 1
            finishing = make.rest(rng, after) if after[PASSED] == 0 or make.size_of(after) <= FEASIBLE else b""
            for tail in (b"", made.data[len(prefix) :], finishing, prefix):
                tally.check(not accepted(made.kind, prefix + tail), "a refusal cannot be finished", stop)
        else:  # a record begun: it can be finished only with its own bytes, so no promise is made
            tally.check(stop[0] == "wait" and start(after) < len(prefix), "a record not whole", stop)
    print(f"    ({seen['wait']} waits finished, {seen['refused']} refusals)", end="")


def body_damage_at_ends(tally: Tally, rng: random.Random) -> None:
    """Whole records with one rule broken, cut at that record's end: refused, open."""
    for _ in range(200):
        made = make.random_file(rng)
        one = rng.choice(make.breaks(rng, made))
        end = made.starts[one.rank[0]]
        prefix = make.apply(made.data, one)[:end]
        tally.equal(whole_walk(made.kind, prefix, False)[2], one.refusal, "broken at a record's end")
        before = prefix[: made.starts[one.rank[0] - 1]]
        after, _, stop = whole_walk(made.kind, before, False)
        tally.equal(stop, ("wait", 12), "before the broken record")
        tally.check(accepted(made.kind, before + make.rest(rng, after)), "before the broken record, finished")


# --------------------------------------------------------------------------
# Lines, rows, sets, listing
# --------------------------------------------------------------------------


def lines_and_rows(tally: Tally, rng: random.Random) -> None:
    """Every line of a made image is shown and copied, its pixels its own."""
    for _ in range(200):
        made = make.random_file(rng, IMAGE)
        plan = made.plan
        for k, line in enumerate(made.lines, start=1):
            begun = made.starts[k]
            want = begun + plan[L] - plan[S] - plan[D] + make.GROUP[plan[SORT]] * line.left
            view = ("shown", want, len(line.pixels), line.left)
            held = made.data[: made.starts[k + 1]]
            tally.equal(line_view(made.data, k), view, "line view")
            tally.equal(line_view(held, k), view, "line view of the prefix that ends with it")
            tally.equal(line_view(held[:-1], k), ("wait", 1), "one byte missing")
            tally.equal(line_view(made.data[:720], k), ("wait", k * plan[L]), "all lines missing")
            area = (begun + plan[L] - plan[S] - plan[D], begun + plan[L] - plan[S])
            tally.check(begun + make.AHEAD[plan[SORT]] <= area[0] and area[1] <= begun + plan[L], "pixel area inside its record")
            _check_rows(tally, rng, made, k)
            _check_samples(tally, rng, made, k)
        for k in (0, plan[N] + 1, 2**32, 2**64 - 1):
            tally.equal(line_view(made.data, k), refused(13), "line outside 1 to n", k)
            tally.equal(line_view(made.data[:720], k), refused(13), "13 before the wait", k)
            tally.equal(line_view(made.data[:719], k), ("wait", 1), "the first record's wait before 13", k)
            tally.equal(row_copy(made.data, k, []), (refused(13), []), "row copy 13", k)
        tally.equal(line_view(made.data[:5], 1), ("wait", 7), "first record waits for 12")


def _check_rows(tally: Tally, rng: random.Random, made: Made, k: int) -> None:
    """The row copy of the line's sort, and the other, which is 23 before 15."""
    pixels, data = made.lines[k - 1].pixels, made.data
    copy, other, each = (row_copy, complex_row, 1) if made.plan[SORT] == COUNTS else (complex_row, row_copy, 2)
    numbers = [number for pixel in pixels for number in (pixel if isinstance(pixel, tuple) else (pixel,))]
    shown = each * len(pixels)
    for size in {shown, shown + 1, shown + 7}:
        row = [rng.randrange(65_536) for _ in range(size)]
        tally.equal(copy(data, k, row), (("copied", len(pixels)), [*numbers, *row[shown:]]), "row copy", size)
        tally.equal(other(data, k, row), (refused(23), row), "23", size)
    tally.equal(other(data, k, []), (refused(23), []), "23 before 15")
    if shown:
        row = [rng.randrange(65_536) for _ in range(shown - 1)]
        tally.equal(copy(data, k, row), (refused(15), row), "15")
        tally.equal(copy(data[:730], k, [])[0][0], "wait", "15 comes last")
        tally.equal(other(data[:730], k, [])[0][0], "wait", "23 after the line's own")


def _check_samples(tally: Tally, rng: random.Random, made: Made, k: int) -> None:
    """Every sample of a made line is the maker's; 36 behind the last; the power's order 23, 36, 24."""
    pixels, data, counts = made.lines[k - 1].pixels, made.data, made.plan[SORT] == COUNTS
    for index, pixel in enumerate(pixels):
        want = ("complex", *pixel) if isinstance(pixel, tuple) else ("count", pixel)
        tally.equal(sample(data, k, index), want, "sample", index)
        bits = power_of(*pixel) if isinstance(pixel, tuple) else None
        due = refused(23) if counts else refused(24) if bits is None else ("power", bits)
        tally.equal(power(data, k, index), due, "power", index)
    for index in (len(pixels), len(pixels) + 1, 2**32, 2**61, 2**64 - 1):
        tally.equal(sample(data, k, index), refused(36), "36", index)
        tally.equal(power(data, k, index), refused(23 if counts else 36), "36 after 23", index)
        for ask in (sample, power):
            tally.equal(ask(data[:730], k, index)[0], "wait", "after the line's own wait")
            tally.equal(ask(data, 0, index), refused(13), "after the line's own refusal")


def broken_lines(tally: Tally, rng: random.Random) -> None:
    """A line's view is refused by its own record and the first alone."""
    for _ in range(150):
        made = make.random_file(rng, IMAGE)
        for one in rng.sample(make.breaks(rng, made), 25):
            data, record = make.apply(made.data, one), one.rank[0]
            row = [1] * made.plan[W]
            for k in range(1, made.plan[N] + 1):
                if record == 1:
                    want: Answer = one.refusal
                    tally.equal(line_view(data, 0), want, "the first record before 13")
                else:
                    want = one.refusal if record == k + 1 else line_view(made.data, k)
                tally.equal(line_view(data, k), want, "broken line", one, k)
                if want[0] == "refused":
                    tally.equal(row_copy(data, k, row), (want, row), "row untouched")
                    tally.equal(row_copy(data, k, []), (want, []), "15 comes last")
                    tally.equal(complex_row(data, k, row), (want, row), "the complex row's too")
                    tally.equal((sample(data, k, 0), power(data, k, 2**64 - 1)), (want, want), "the line's own first")
                    held = data[: made.starts[k + 1] - 1]
                    if record > 1:  # a wrong line header whose record is not whole is a wait
                        tally.equal(row_copy(held, k, row), (("wait", 1), row), "wait before 3, 4, 5, 10")


def lines_shown(tally: Tally, rng: random.Random) -> None:
    """Shown <=> the first record and record k + 1 fit the rules; an answer but wait stays for more bytes."""
    for _ in range(1200):
        made = make.random_file(rng, IMAGE)
        data = make.damage(rng, made)
        for k in (1, made.plan[N], rng.randint(0, made.plan[N] + 1)):
            view = line_view(data, k)
            tally.equal(view[0] == "shown", _line_fits(data, k), "shown", view)
            row = [3] * rng.randint(0, 12)
            copied = row_copy(data, k, row)
            if view[0] != "wait":
                longer = data + rng.randbytes(300)
                tally.equal(line_view(longer, k), view, "line stays")
                tally.equal(row_copy(longer, k, row), copied, "row stays")
            if copied[0][0] == "copied":
                numbers = [int.from_bytes(data[at : at + 2], "big") for at in range(view[1], view[1] + 2 * view[2], 2)]
                tally.equal(copied, (("copied", view[2]), numbers + row[view[2] :]), "samples named")
            else:
                tally.equal(copied[1], row, "row untouched")
                tally.check(view[0] != "shown" or copied[0] in (refused(15), refused(23)), "15 or 23", copied[0])


def _line_fits(data: bytes, k: int) -> bool:
    """By the records of acceptance: the first fits, and the one of line k is whole and fits."""
    records = reader.FILES[IMAGE](data)
    first = next(records)
    if not reader.record_fits(data[:720], 1, first) or k < 1:
        return False
    line = next(itertools.islice(records, k - 1, None), None)
    return line is not None and reader.record_fits(data[720 + (k - 1) * line.length : 720 + k * line.length], k + 1, line)


def sets(tally: Tally, rng: random.Random) -> None:
    """The directory's own refusal; the list's length; the first pointer that differs."""
    for _ in range(150):
        made = make.random_file(rng, VOLUME)
        counts, data = made.counts, made.data
        tally.equal(set_check(data, counts), ("agrees",), "agrees")
        for wrong in ([], counts[:-1], counts + [1], [0] * 9):
            tally.equal(set_check(data, wrong), refused(12, 0, 160), "wrong length")
        different = list(counts)
        changed = sorted(rng.sample(range(len(counts)), rng.randint(1, len(counts))))
        for i in changed:
            different[i] = rng.choice((counts[i] + 1, counts[i] - 1, 0, counts[i] + 2**32, 2**64 - counts[i]))
        tally.equal(set_check(data, different), refused(12, 0, 360 * (changed[0] + 1) + 100), "first pointer", changed)
        for one in rng.sample(make.breaks(rng, made), 12):
            for given in (counts, [], different):
                tally.equal(set_check(make.apply(data, one), given), one.refusal, "the directory's own refusal")
        tally.equal(set_check(data[:-1], []), refused(2, made.records, made.starts[-2]), "directory too short")
        tally.equal(set_check(data + b" ", []), refused(9, made.records + 1, len(data)), "directory too long")
        damaged = make.damage(rng, made)
        tally.check(set_check(damaged, counts) != ("agrees",) or accepted(VOLUME, damaged), "agrees only if accepted")


def _expected_listing(made: Made, last_line: int, closing: str) -> bytes:
    rows = [f"IMAGE {made.plan[N]} LINES {made.plan[W]} PIXELS"]
    rows += [f"{k} {line.left} {len(line.pixels)} {line.right}" for k, line in enumerate(made.lines[:last_line], start=1)]
    return "".join(row + "\n" for row in (*rows, closing)).encode()


def listings(tally: Tally, rng: random.Random) -> None:
    """Made images, whole, broken, cut and added to."""
    for _ in range(200):
        made = make.random_file(rng, IMAGE)
        lines, size = made.plan[N], len(made.data)
        tally.equal(listing(made.data), _expected_listing(made, lines, f"COMPLETE {lines + 1} RECORDS {size} BYTES"), "listing")
        more = _expected_listing(made, lines, f"REFUSED 9 RECORD {lines + 2} AT {size}")
        tally.equal(listing(made.data + b"more"), more, "listing, bytes added")
        for one in rng.sample(make.breaks(rng, made), 10):
            _, number, record, place = one.refusal
            row = f"REFUSED {number} RECORD {record} AT {place}"
            want = f"{row}\n".encode() if record == 1 else _expected_listing(made, record - 2, row)
            tally.equal(listing(make.apply(made.data, one)), want, "listing, broken", one)
        cut = rng.randrange(size)
        record = made.record_at(cut)
        row = f"REFUSED 2 RECORD {record} AT {made.starts[record - 1]}"
        want = f"{row}\n".encode() if record == 1 else _expected_listing(made, record - 2, row)
        tally.equal(listing(made.data[:cut]), want, "listing, cut", cut)


# --------------------------------------------------------------------------
# Complex scenes (document 02, No. 2)
# --------------------------------------------------------------------------


def spelt_complex() -> bytes:
    """n = 2, w = 2, s = 3, L = 432: 412 bytes, one more, 16 of pixels, 3.  Spelt out without the makers."""
    first = words(1) + bytes((50, 192, 18, 18)) + words(720) + b"A " + b" " * 706
    for byte, text in ((181, b"     2   432"), (225, b"   8"), (233, b"   1       2"), (249, b"       2"), (281, b"      16   3"), (429, b"C*8 ")):
        first = patched(first, byte, text)
    record = bytes((50, 10, 18, 20)) + words(432)
    # 3 and 4, then a NaN that signals and minus zero
    one = words(2) + record + words(1, 1, 0, 2, 0) + b"?" * (413 - 32) + words(0x40400000, 0x40800000, 0xFFA00001, 0x80000000)
    # the fill pixel is not judged; 1 and -2
    two = words(3) + record + words(2, 1, 1, 1, 0) + b"?" * (413 - 32) + b"fill....".ljust(8) + words(0x3F800000, 0xC0000000)
    return first + one + b"s" * 3 + two + b"s" * 3


def complex_by_hand(tally: Tally, rng: random.Random) -> None:
    """A complex image spelt out: its walk, views, samples, powers and rows."""
    data = spelt_complex()
    tally.equal(len(data), 720 + 2 * 432, "its size")
    last = [3, 3, *[0] * 35, 2, 432, 2, 16, 3, 1]
    tally.equal(whole_walk(IMAGE, data), (last, 3, ("complete",)), "complete")
    tally.check(accepted(IMAGE, data) and good_state(last), "accepted")
    tally.equal(line_view(data, 1), ("shown", 720 + 413, 2, 0), "line 1")
    tally.equal(line_view(data, 2), ("shown", 1152 + 413 + 8, 1, 1), "line 2: the left fill is 8 bytes a pixel")
    tally.equal(sample(data, 1, 0), ("complex", 0x40400000, 0x40800000), "3 and 4")
    tally.equal(sample(data, 1, 1), ("complex", 0xFFA00001, 0x80000000), "bits kept")
    tally.equal(sample(data, 2, 0), ("complex", 0x3F800000, 0xC0000000), "1 and -2")
    tally.equal([power(data, 1, 0), power(data, 2, 0)], [("power", 0x41C80000), ("power", 0x40A00000)], "25 and 5")
    tally.equal(power(data, 1, 1), refused(24), "a part is no number")
    tally.equal([sample(data, 1, 2), power(data, 1, 2), power(data, 2, 1)], [refused(36)] * 3, "36 before 24")
    row = [0x40400000, 0x40800000, 0xFFA00001, 0x80000000]
    tally.equal(complex_row(data, 1, [9] * 6), (("copied", 2), [*row, 9, 9]), "the complex row")
    tally.equal(complex_row(data, 1, [9] * 3), (refused(15), [9] * 3), "two numbers a sample")
    tally.equal(row_copy(data, 1, [9] * 9), (refused(23), [9] * 9), "the row copy stays for counts")
    tally.equal(listing(data), b"IMAGE 2 LINES 2 PIXELS\n1 0 2 0\n2 1 1 0\nCOMPLETE 3 RECORDS 1584 BYTES\n", "the listing")
    built = cards.build(data, small_leader(rng), bytes(63))
    tally.equal(built[0], ("built", 63), "its card")
    tally.equal(built[1][:43].hex(" ", 1)[:50], "01 00 00 00 02 00 00 01 b0 00 00 00 02 00 00 00 10", "n, L, w, d")


def complex_edges(tally: Tally, rng: random.Random) -> None:
    """What a text, a group, d, L and a line code may not be, each with its refusal, in order."""
    data, counts = spelt_complex(), make.make_image(rng, make.image_plan(2, 3, 0), [(0, 3, 0), (1, 2, 0)]).data
    first = fresh(IMAGE)
    for due, image, *patches in (
        (refused(7, 1, 224), data, (225, b"   2")), (refused(7, 1, 224), counts, (225, b"   8")),
        (refused(7, 1, 224), data, (429, b"IU2 ")), (refused(7, 1, 224), counts, (429, b"C*8 ")),
        (refused(8, 1, 0), data, (429, b"IU2 "), (225, b"   2")), (refused(8, 1, 0), counts, (429, b"C*8 "), (225, b"   8")),
        (refused(8, 1, 0), data, (281, b"       4")), (refused(8, 1, 0), data, (187, b"   430")),
        (refused(8, 1, 0), data, (187, b"   211")), (refused(8, 1, 0), data, (289, b"   5")),
        (refused(6, 1, 227), data, (225, b"    ")), (refused(7, 1, 224), data, (225, b"  -8")), (refused(7, 1, 224), data, (225, b"  16")),
        *((refused(8, 1, 428), image, (429, text), (225, b"   x")) for text in make.OTHER_TEXTS for image in (data, counts)),
        (refused(8, 1, 12), data, (13, b"B "), (429, b"    ")), (refused(6, 1, 185), data, (181, b"     x"), (225, b"   2")),
    ):
        for byte, text in patches:
            image = patched(image, byte, text)
        tally.equal(whole_walk(IMAGE, image), (first, 0, due), "an image's first record", patches)
        tally.equal([line_view(image, 9), sample(image, 9, 9), power(image, 9, 9)], [due] * 3, "before 13", patches)
        tally.check(not accepted(IMAGE, image), "not accepted", patches)
    tally.equal(whole_walk(IMAGE, patched(data, 726, b"\x0b"))[1:], (1, refused(4, 2, 724)), "line code 11 under C*8")
    tally.equal(whole_walk(IMAGE, patched(counts, 720 + 198 + 6, b"\x0a"))[1:], (2, refused(4, 3, 922)), "line code 10 under IU2")
    least = make.make_image(rng, make.image_plan(1, 2, 3, sort=COMPLEX), [(0, 2, 0)])
    tally.equal(least.plan[L], 431, "412 + 16 + 3")
    tally.equal((whole_walk(IMAGE, least.data)[2], line_view(least.data, 1)), (("complete",), ("shown", 1132, 2, 0)), "412 + d + s = L")


def roundings(tally: Tally, rng: random.Random) -> None:
    """Rounding to single precision: by hand, and no pattern is nearer, nor as near and even."""
    two = power_of_two
    for number, want in (
        (Exact(0), 0), (Exact(1), 0x3F800000), (1 + two(-24), 0x3F800000), (1 + 3 * two(-24), 0x3F800002),
        (1 + two(-24) + two(-60), 0x3F800001), (2 - two(-24), 0x40000000), (Exact(1, 3), 0x3EAAAAAB), (Exact(1, 10), 0x3DCCCCCD),
        (two(-149), 1), (two(-150), 0), (two(-150) + two(-300), 1), (3 * two(-150), 2), (two(-151), 0), (two(-126), 0x00800000),
        (two(-126) - two(-150), 0x00800000), (two(-126) - two(-149), 0x007FFFFF), (Exact(16777217), 0x4B800000), (Exact(16777219), 0x4B800002),
        (two(128) - two(104), 0x7F7FFFFF), (two(128) - two(103) - 1, 0x7F7FFFFF), (two(128) - two(103), INFINITY), (two(200), INFINITY),
    ):
        tally.equal(rounded(number), want, "rounded by hand", number)
    for pattern, number in ((0x80000000, Exact(0)), (0xC0490FDB, Exact(-13176795, 2**22)), (0x80000001, -two(-149)), (0x7F7FFFFF, two(128) - two(104))):
        tally.equal(worth(pattern), number, "worth", hex(pattern))
    for _ in range(3000):
        pattern = rng.choice((rng.choice(make_powers.EDGES), rng.randrange(INFINITY))) % INFINITY
        tally.equal(rounded(worth(pattern)), pattern, "a pattern is its own nearest", hex(pattern))
        number = worth(pattern) * Exact(rng.choice((rng.randrange(2**30), 2**29)), 2**29) + rng.choice((0, two(-150)))
        _check_nearest(tally, number)
        _check_nearest(tally, worth(pattern) ** 2)
        _check_nearest(tally, (worth(pattern) + worth(min(pattern + 1, INFINITY - 1))) / 2)


def _check_nearest(tally: Tally, number: Exact) -> None:
    """Against its neighbours; infinity stands where the next number would, 2^128."""
    found = rounded(number)
    if number >= power_of_two(128):
        tally.equal(found, INFINITY, "past the greatest", number)
        return

    def away(pattern: int) -> Exact:
        return abs(number - (worth(pattern) if finite(pattern) else power_of_two(128)))

    for other in {max(found - 1, 0), min(found + 1, INFINITY)} - {found}:
        nearest = away(found) < away(other) or (away(found) == away(other) and found % 2 == 0)
        tally.check(nearest, "nearest", number, hex(found), hex(other))


def powers(tally: Tally, rng: random.Random) -> None:
    """Powers by hand, and where a fused multiply-add would give other bits."""
    for real, imaginary, want in (
        (0x40400000, 0x40800000, 0x41C80000),  # 3 and 4: 25
        (0x80000000, 0x00000000, 0x00000000), (0x80000000, 0x80000000, 0x00000000),  # no minus zero
        (0x1A000000, 0x1A000000, 0), (0x1A000001, 0, 1), (0x1A000001, 0x1A000001, 2),  # 2^-75: its square is half the least
        (0x00000001, 0x3F800000, 0x3F800000), (0x007FFFFF, 0x007FFFFF, 0),  # subnormal parts have no square
        (0x20000000, 0, 0x00800000), (0x1FFFFFFF, 0, 0x007FFFFF), (0x1FB504F3, 0x1FB504F3, 0x00800000),
        (0x5F7FFFFF, 0, 0x7F7FFFFE), (0x5F800000, 0, None), (0, 0xDF800000, None),  # the square passes the greatest
        (0x5F3504F3, 0x5F3504F3, 0x7F7FFFFF), (0x5F3504F4, 0x5F3504F4, None), (0x5F7FFFFF, 0x5F000000, None),  # the sum does
        (0x7F800000, 0, None), (0, 0xFF800000, None), (0x7FC00000, 0, None), (0, 0x7F800001, None), (0x7F7FFFFF, 0, None),
        (0x3F800800, 0x39800000, 0x3F801000),  # 1 + 2^-12 and 2^-12: both ties go to the even one
    ):
        tally.equal(power_of(real, imaginary), want, "power by hand", hex(real), hex(imaginary))
        signs = [power_of(real ^ one, imaginary ^ other) for one in (0, SIGN) for other in (0, SIGN)]
        tally.equal(signs, [want] * 4, "any signs", hex(real), hex(imaginary))
        tally.equal(power_of(imaginary, real), want, "either order", hex(real), hex(imaginary))
    tally.equal(make_powers.fused(0x3F800800, 0x39800000), 0x3F801001, "a fused multiply-add rounds once too few")
    tally.equal(make_powers.fused(0x39800000, 0x3F800800), 0x3F801000, "the other way round it does not show")
    tally.check(len(make_powers.vectors()) >= 4_000, "enough pairs")
    telling = sum(make_powers.fused(*pair) != power_of(*pair) for pair in make_powers.vectors())
    turned = sum(make_powers.fused(*pair[::-1]) != power_of(*pair) for pair in make_powers.vectors())
    tally.check(telling >= 500 and turned >= 500, "enough that tell a fused multiply-add", telling, turned)
    print(f"    ({len(make_powers.vectors())} pairs, {telling} and {turned} tell a fused multiply-add)", end="")


# --------------------------------------------------------------------------
# Cards (document 02, No. 1)
# --------------------------------------------------------------------------

# n = 2, L = 198, w = 3, d = 6; the listing's fills; a descriptor and a summary of a leader
CARD = bytes.fromhex(
    "01 00000002 000000c6 00000003 00000006"
    "02 00000001 00000000 00000003"
    "02 00000002 00000001 00000002"
    "03 01 00000000 000002d0"
    "03 02 000002d0 00001000"
)
CARD_NUMBERS = [2, 198, 3, 6, 0, 3, 1, 2, 0, 720, 720, 4096]


def cards_by_hand(tally: Tally, rng: random.Random) -> None:
    """A card spelt out, read and built; each sort of entry where it may not stand; the order 20, 21, 22."""
    scene, line, second, first_record, summary = CARD[:17], CARD[17:30], CARD[30:43], CARD[43:53], CARD[53:]
    tally.equal(card_numbers(CARD, [9] * 14), (("card", 2, 2), [*CARD_NUMBERS, 9, 9]), "a card's numbers")
    tally.equal(cards.build(listed_image(rng).data, small_leader(rng), b"." * 65), (("built", 63), CARD + b".."), "the card built")
    for size in range(len(CARD)):
        due = ("card", 2, (size - 43) // 10) if size in (43, 53) else refused(21, 0, max(at for at in (0, 17, 30, 43, 53) if at <= size))
        tally.equal(card_answer(CARD[:size]), due, "a cut card", size)
    for data, due in (
        (b"", refused(21)),
        (scene, refused(21, 0, 17)),
        (scene + line, refused(21, 0, 30)),
        (line, refused(22)),
        (first_record, refused(22)),
        (line[:-1], refused(21)),  # cut short and out of order
        (b"\x07", refused(20)),  # unknown, and cut short
        (scene + scene + line + second, refused(22, 0, 17)),
        (scene + second + line, refused(22, 0, 17)),
        (scene + line + line, refused(22, 0, 30)),
        (scene + line + first_record + second, refused(22, 0, 30)),
        (scene + line + second + line, refused(22, 0, 43)),
        (scene + line + second + scene, refused(22, 0, 43)),
        (scene + line + second + summary, refused(22, 0, 43)),
        (CARD + first_record, refused(22, 0, 63)),
        (CARD + b"\x04", refused(20, 0, 63)),
        (CARD + b"\x03", refused(21, 0, 63)),
        (CARD + cards.entry(3, 3, 4816, 0), ("card", 2, 3)),
        (cards.entry(1, 2, 436, 3, 24) + CARD[17:], ("card", 2, 2)),  # d = 8w, 412 + d = L
        (cards.entry(1, 2, 435, 3, 24) + CARD[17:], refused(22)),
        (cards.entry(1, 2, 216, 3, 24) + CARD[17:], refused(22)),
        (cards.entry(1, 2, 436, 3, 6) + CARD[17:], ("card", 2, 2)),
        (cards.entry(1, 2, 436, 3, 12) + CARD[17:], refused(22)),
    ):
        tally.equal(card_answer(data), due, "a card by hand", data.hex())
    many = scene + line + second + b"".join(cards.entry(3, ordinal, 0, 0) for ordinal in range(1, 256))
    tally.equal(card_answer(many), ("card", 2, 255), "as many leader entries as one byte counts")
    tally.equal(card_answer(many + cards.entry(3, 0, 0, 0)), refused(22, 0, len(many)), "one more")


def small_leader(rng: random.Random) -> bytes:
    """A descriptor and a summary."""
    return make.make_leader(rng, make.leader_plan([(0, 0)] * 5, [(0, 0)] * 11)).data


def cards_read(tally: Tally, rng: random.Random) -> None:
    """Made cards give their numbers back; every cut; lists of any length; one rule broken, and two."""
    for _ in range(150):
        made = make_cards.random_card(rng)
        tally.equal(cards.read(made.data), made.card, "a made card")
        for size in {*made.starts, *(rng.randrange(len(made.data)) for _ in range(20))}:
            due = make_cards.cut_refusal(made, size) or ("card", made.card.n, (size - made.starts[made.scene_and_lines]) // 10)
            tally.equal(card_answer(made.data[:size]), due, "a made card cut", size)
        numbers = made.card.numbers()
        for room in {0, 4, len(numbers) - 1, len(numbers), len(numbers) + 3}:
            due = (refused(37), [7] * room) if room < len(numbers) else (made.card.answer(), numbers + [7] * (room - len(numbers)))
            tally.equal(card_numbers(made.data, [7] * room), due, "a list of", room)
        _check_broken_card(tally, rng, made)
    for _ in range(60):
        data, due = make_cards.far_leaders(rng)
        tally.equal(card_answer(data), due, "a start past four bytes")


def _check_broken_card(tally: Tally, rng: random.Random, made: make_cards.MadeCard) -> None:
    breaks = make_cards.breaks(rng, made)
    for one in rng.sample(breaks, min(60, len(breaks))):
        data = one.applied(made.data)
        tally.equal(card_answer(data), one.refusal, "a broken card", one)
        tally.equal(card_numbers(data, []), (one.refusal, []), "37 comes last")
        tally.check(not is_card(data), "a broken card is none")
        behind = [other for other in breaks if other.entry > one.entry]
        if behind:
            tally.equal(card_answer(rng.choice(behind).applied(data)), one.refusal, "the first fault counts", one)


def cards_are_read(tally: Tally, rng: random.Random) -> None:
    """Read <=> it is a card, and what is read is written again byte for byte."""
    for _ in range(3000):
        made = make_cards.random_card(rng)
        data = make_cards.damage(rng, made) if rng.random() < 0.9 else rng.randbytes(rng.randint(0, 40))
        said = cards.read(data)
        tally.equal(isinstance(said, Card), is_card(data), "a card is read", data[:80].hex())
        if isinstance(said, Card):
            tally.equal(cards.written(said), data, "written again")
        else:
            tally.check(said[1] in (20, 21, 22) and said[2] == 0 and said[3] <= len(data), "a card's refusal", said)
            longer = card_answer(data + rng.randbytes(20))
            tally.check(said[1] == 21 or longer == said, "more bytes do not mend 20 or 22", said, longer)


def cards_built(tally: Tally, rng: random.Random) -> None:
    """From accepted files the numbers that the makers put there; the image's refusal, the leader's, 37; nothing is written."""
    for _ in range(150):
        image, leader = make.random_file(rng, IMAGE), make.random_file(rng, LEADER)
        lines = [(line.left, len(line.pixels)) for line in image.lines]
        records = [(begun, ended - begun) for begun, ended in zip(leader.starts, leader.starts[1:])]
        card = Card(*image.plan[N:S], lines, records)
        size = 17 + 13 * image.plan[N] + 10 * leader.records
        lent = rng.randbytes(size + 5)
        tally.equal(cards.build(image.data, leader.data, lent), (("built", size), cards.written(card) + lent[size:]), "a card built")
        tally.equal(cards.read(cards.written(card)), card, "a built card reads back")
        tally.equal(cards.build(image.data, leader.data, lent[: size - 1]), (refused(37), lent[: size - 1]), "one byte too few")
        bad_image, bad_leader = make.damage(rng, image), make.damage(rng, leader)
        for one, other, room in itertools.product((image.data, bad_image), (leader.data, bad_leader), (0, size + 400)):
            stops = [whole_walk(IMAGE, one)[2], whole_walk(LEADER, other)[2]]
            first = next((stop for stop in stops if stop != ("complete",)), refused(37) if room == 0 else None)
            answer, after = cards.build(one, other, bytes(room))
            if first is None:
                tally.check(answer[0] == "built" and is_card(after[: answer[1]]) and not any(after[answer[1] :]), "built", answer)
            else:
                tally.equal((answer, after), (first, bytes(room)), "refused, in order")


def same_seed(tally: Tally, rng: random.Random) -> None:
    """A seed gives the same bytes again."""
    for seed in range(30):
        one, two = random.Random(seed), random.Random(seed)
        made, again = make.random_file(one), make.random_file(two)
        tally.equal(made.data, again.data, "same file")
        tally.equal(make.damage(one, made), make.damage(two, again), "same damage")
        tally.equal(make_cards.random_card(one), make_cards.random_card(two), "same card")


SECTIONS: tuple[Callable[[Tally, random.Random], None], ...] = (
    proved_examples, edges_and_slips, listing_examples, decimals, bad_places, drawn_bad_places, listed_fields, begins, state_rule_by_hand,
    states_and_first_records, any_states, far_places, valid_files, unread_bytes, blank_counts, broken_singly,
    broken_in_pairs, broken_and_cut, complete_and_accepted, in_pieces, byte_by_byte, refusals_stay, arriving,
    body_damage_at_ends, lines_and_rows, broken_lines, lines_shown, sets, listings,
    complex_by_hand, complex_edges, roundings, powers,
    cards_by_hand, cards_read, cards_are_read, cards_built, same_seed,
)  # fmt: skip


def main() -> int:
    seed = int(sys.argv[1]) if len(sys.argv) > 1 else 1
    tally, begun = Tally(), time.monotonic()
    for section in SECTIONS:
        before, at = tally.passed + tally.failed, time.monotonic()
        section(tally, random.Random(f"{seed} {section.__name__}"))
        checks, seconds = tally.passed + tally.failed - before, time.monotonic() - at
        print(f"  {section.__name__}: {checks} checks in {seconds:.1f} s.  {section.__doc__}")
    print(f"seed {seed}, {time.monotonic() - begun:.1f} s")
    print(f"{tally.passed} passed, {tally.failed} failed")
    return 1 if tally.failed else 0


if __name__ == "__main__":
    sys.exit(main())
