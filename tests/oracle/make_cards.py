"""Makers of cards, valid, broken, damaged and cut (document 02, No. 1).

As make.py: everything is drawn from a `random.Random`, and nothing here judges.  A
break is known with the refusal that it must get.
"""

from __future__ import annotations

import random
from dataclasses import dataclass
from typing import Iterator, Optional

import make
from cards import BODY, LEADER_RECORD, LINE, SCENE, SIZE, Card, entry, written
from reader import Answer, Pair, refused

UNKNOWN = (0, 4, 5, 16, 17, 127, 128, 129, 254, 255)
FOUR = 2**32

# --------------------------------------------------------------------------
# Valid cards
# --------------------------------------------------------------------------


@dataclass(frozen=True)
class MadeCard:
    card: Card
    data: bytes
    starts: tuple[int, ...]  # each entry's start, then the end

    @property
    def entries(self) -> int:
        return len(self.starts) - 1

    @property
    def scene_and_lines(self) -> int:
        """Without these entries a card ends too early."""
        return 1 + self.card.n


def made_card(card: Card) -> MadeCard:
    data, starts = written(card), [0]
    sizes = [SIZE[SCENE], *[SIZE[LINE]] * len(card.lines), *[SIZE[LEADER_RECORD]] * len(card.leaders)]
    for size in sizes:
        starts.append(starts[-1] + size)
    return MadeCard(card, data, tuple(starts))


def _fills(rng: random.Random, w: int) -> Pair:
    left, shown, _ = make.random_fills(rng, w)
    return left, shown


def leader_places(lengths: list[int]) -> list[Pair]:
    """Each record's start and length, end to end."""
    return [(sum(lengths[:i]), length) for i, length in enumerate(lengths)]


def leader_lengths(rng: random.Random, how_many: int) -> list[int]:
    """As a leader has them, or any: "a kind 3 length has no range"; the last start still fits four bytes."""
    some = (12, 1620, 999_999, 99_999_999) if rng.random() < 0.6 else (0, 1, 11, FOUR)
    most = FOUR // (how_many + 1)
    lengths = [720, 4096, *(rng.choice((*some, rng.randrange(most))) % most for _ in range(how_many))][:how_many]
    if how_many and rng.random() < 0.2:
        lengths[-1] = rng.choice((FOUR - 1, rng.randrange(FOUR)))
    return lengths


def card_like(rng: random.Random, n: int, leaders: int) -> MadeCard:
    """A card of so many lines and leader entries, with a scene of any size."""
    plan = make.wide_plan(rng, make.IMAGE)
    w, length, d = plan[make.W], plan[make.L], plan[make.D]
    lines = [_fills(rng, w) for _ in range(n)]
    return made_card(Card(n, length, w, d, lines, leader_places(leader_lengths(rng, leaders))))


def random_card(rng: random.Random) -> MadeCard:
    """Few lines; as many leader entries as a leader has records, now and then as many as one byte counts."""
    leaders = 255 if rng.random() < 0.01 else rng.choice((0, 1, 2, 3, rng.randint(0, 50)))
    return card_like(rng, rng.choice((1, 1, 2, 3, rng.randint(1, 12))), leaders)


# --------------------------------------------------------------------------
# Rules broken, each with the refusal that is due
# --------------------------------------------------------------------------


@dataclass(frozen=True)
class CardBreak:
    """Bytes to write at a place, and the entry (from 0) whose refusal they bring."""

    place: int
    patch: bytes
    entry: int
    refusal: Answer

    def applied(self, data: bytes) -> bytes:
        return data[: self.place] + self.patch + data[self.place + len(self.patch) :]


def _kinds(made: MadeCard, i: int) -> Iterator[CardBreak]:
    """Another kind: 20 where there is none such; else 21 where its body is not all there, then 22."""
    at = made.starts[i]
    for kind in (*UNKNOWN, *BODY):
        if kind == made.data[at]:
            continue
        number = 20 if kind not in BODY else 21 if at + SIZE[kind] > len(made.data) else 22
        yield CardBreak(at, bytes((kind,)), i, refused(number, 0, at))


def _other(rng: random.Random, number: int, width: int) -> int:
    near = ((number + 1) % 256**width, (number - 1) % 256**width, number ^ 1 << 8 * width - 1)
    return rng.choice([other for other in (*near, rng.randrange(256**width)) if other != number])


def _scene_numbers(rng: random.Random, card: Card) -> Iterator[tuple[int, ...]]:
    """n, L, w, d outside their ranges, or not in agreement."""
    n, length, w, d = card[:4]
    big = rng.randrange(1_000_000, FOUR)
    ahead = 192 if d == 2 * w else 412
    yield from ((other, length, w, d) for other in (0, 1_000_000, FOUR - 1, big))
    yield from ((n, other, w, d) for other in (0, 1_000_000, ahead - 1 + d, d, big))
    yield from ((n, length, w, other) for other in (0, d - 1, d + 1, w, 4 * w, 16 * w, (d + 2**31) % FOUR))
    yield from ((n, length, other, d) for other in (0, w - 1, w + 1, (w + 2**31) % FOUR))  # 2w and 8w wrap to d
    yield from ((n, length, 0, 0), (n, 999_999, 49_999_999, 99_999_998), (n, 999_999, 50_000_000, 100_000_000))
    yield from ((n, 999_999, 12_499_999, 99_999_992), (n, 999_999, 12_500_000, 100_000_000))
    yield from ((n, 999_999, 2**31, 0), (n, 999_999, 2**29, 0))
    # d of either sort where the record is one byte too short for it, or has the room of the other sort only
    yield from ((n, 191 + 2 * w, w, 2 * w), (n, 411 + 8 * w, w, 8 * w), (n, 192 + 8 * w, w, 8 * w))


def _line_numbers(rng: random.Random, card: Card, line: int) -> Iterator[tuple[int, ...]]:
    """Another line's number; left plus data over w, by one, by far, and so that four bytes would wrap."""
    left, shown = card.lines[line - 1]
    w = card.w
    yield from ((other, left, shown) for other in (0, line - 1, line + 1, _other(rng, line, 4)) if other != line)
    yield from ((line, *fills) for fills in ((w + 1, 0), (0, w + 1), (1, w), (w, 1), (FOUR - 1, 0), (0, FOUR - 1)))
    wrapping = ((FOUR - 1, 1), (FOUR - 1, w + 1), (w + 1, FOUR - 1), (2**31, 2**31), (FOUR - 1, FOUR - 1))
    yield from ((line, *fills) for fills in wrapping)


def _leader_numbers(rng: random.Random, card: Card, ordinal: int) -> Iterator[tuple[int, ...]]:
    """Another ordinal, another start."""
    begun, length = card.leaders[ordinal - 1]
    yield from ((other, begun, length) for other in {0, ordinal - 1, (ordinal + 1) % 256, _other(rng, ordinal, 1)})
    yield from ((ordinal, other, length) for other in {(begun + 1) % FOUR, (begun - 1) % FOUR, _other(rng, begun, 4)})


def _breaks_of(rng: random.Random, made: MadeCard, i: int) -> Iterator[CardBreak]:
    card, kind, at = made.card, made.data[made.starts[i]], made.starts[i]
    wrong = {
        SCENE: lambda: _scene_numbers(rng, card),
        LINE: lambda: _line_numbers(rng, card, i),
        LEADER_RECORD: lambda: _leader_numbers(rng, card, i - card.n),
    }
    yield from _kinds(made, i)
    yield from (CardBreak(at, entry(kind, *numbers), i, refused(22, 0, at)) for numbers in wrong[kind]())


def breaks(rng: random.Random, made: MadeCard) -> list[CardBreak]:
    """One rule broken at each entry, in every way."""
    return [one for i in range(made.entries) for one in _breaks_of(rng, made, i)]


def cut_refusal(made: MadeCard, size: int) -> Optional[Answer]:
    """What the card's first `size` bytes are due: a refusal, or None where they are a card."""
    whole = sum(1 for end in made.starts[1:] if end <= size)
    if made.starts[whole] == size and whole >= made.scene_and_lines:
        return None
    return refused(21, 0, made.starts[whole])


def far_leaders(rng: random.Random) -> tuple[bytes, Answer]:
    """Lengths whose sum passes four bytes: the start behind them, wrapped, is 22."""
    few = card_like(rng, 1, 0).card
    lengths = rng.choice(([FOUR - 1, 1], [2**31, 2**31], [FOUR - 1, FOUR - 1, 720], [1, FOUR - 1]))
    data = written(few._replace(leaders=[(begun, length) for begun, length in leader_places(lengths) if begun < FOUR]))
    ordinal = (len(data) - 17 - 13) // 10 + 1
    return data + entry(LEADER_RECORD, ordinal, sum(lengths[: ordinal - 1]) % FOUR, 12), refused(22, 0, len(data))


# --------------------------------------------------------------------------
# Damage of any sort
# --------------------------------------------------------------------------


def _flip(rng: random.Random, made: MadeCard, data: bytes) -> bytes:
    if not data:
        return data
    at = rng.choice((rng.randrange(len(data)), min(rng.choice(made.starts), len(data) - 1)))
    byte = rng.choice((data[at] ^ 1 << rng.randrange(8), rng.randrange(5), rng.randrange(256)))
    return data[:at] + bytes((byte,)) + data[at + 1 :]


def _cut(rng: random.Random, made: MadeCard, data: bytes) -> bytes:
    near = rng.choice(made.starts) + rng.choice((-1, 0, 0, 1, 9))
    return data[: max(0, rng.choice((near, rng.randint(0, len(data)))))]


def _extend(rng: random.Random, made: MadeCard, data: bytes) -> bytes:
    i = rng.randrange(made.entries)
    again = made.data[made.starts[i] : made.starts[i + 1]]
    return data + rng.choice((b"\0", bytes((rng.randrange(5),)), again, rng.randbytes(rng.randint(1, 20))))


def _reorder(rng: random.Random, made: MadeCard, data: bytes) -> bytes:
    """An entry left out, said twice, or exchanged with another."""
    return make.reordered(rng, made.data, made.starts)


def _break_one(rng: random.Random, made: MadeCard, data: bytes) -> bytes:
    one = rng.choice(breaks(rng, made))
    return one.applied(data) if one.place + len(one.patch) <= len(data) else data


def damage(rng: random.Random, made: MadeCard) -> bytes:
    """One damage, or two in a row; now and then none."""
    data = made.data
    for _ in range(rng.choice((0, 1, 1, 1, 2))):
        data = rng.choice((_flip, _flip, _cut, _extend, _reorder, _break_one))(rng, made, data)
    return data
