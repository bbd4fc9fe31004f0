"""The oracle's cards: document 02, No. 1; and No. 2 for the cards of complex scenes.

Written from the request and, where that leaves something open, from what was decided
there (docs/DECISIONS.md).  A card is entries of one byte of kind and a body whose length
the kind fixes; all numbers are high byte first.  As in reader.py the rules stand twice:
`read` judges a card entry by entry from the front, `is_card` says what a card is.
"""

from __future__ import annotations

from typing import Iterator, NamedTuple, Optional, Union

from reader import EVERY_RECORD, IMAGE, LEADER, N, D, L, PASSED, SORTS, W, Answer, Pair, State
from reader import UP_TO_EIGHT_DIGITS, UP_TO_SIX_DIGITS, begin, line_view, refused, start, walk, _agree, _within

# --------------------------------------------------------------------------
# Entries
# --------------------------------------------------------------------------

SCENE, LINE, LEADER_RECORD = 1, 2, 3
# The widths of a body's numbers.  "Kind 1 (16 bytes): n, L, w, d, four bytes each ... Kind 2 (12 bytes): line
# number, left fill, data count ... Kind 3 (9 bytes): leader record ordinal in one byte, start and length in four each."
BODY: dict[int, tuple[int, ...]] = {SCENE: (4, 4, 4, 4), LINE: (4, 4, 4), LEADER_RECORD: (1, 4, 4)}
SIZE: dict[int, int] = {kind: 1 + sum(widths) for kind, widths in BODY.items()}


class Card(NamedTuple):
    """What a card says."""

    n: int
    length: int
    w: int
    d: int
    lines: list[Pair]  # left fill and data count
    leaders: list[Pair]  # start and length

    def numbers(self) -> list[int]:
        """"n, L, w, d, then left and data a line, then start and length a leader entry"."""
        return [self.n, self.length, self.w, self.d, *(number for pair in self.lines + self.leaders for number in pair)]

    def answer(self) -> Answer:
        return ("card", len(self.lines), len(self.leaders))


def entry(kind: int, *numbers: int) -> bytes:
    return bytes((kind,)) + b"".join(number.to_bytes(width, "big") for width, number in zip(BODY[kind], numbers, strict=True))


def written(card: Card) -> bytes:
    """Kind 1 once and first, a kind 2 for every line, then the kind 3 entries, ordinals 1, 2, 3 and on."""
    lines = (entry(LINE, line, *fills) for line, fills in enumerate(card.lines, start=1))
    leaders = (entry(LEADER_RECORD, ordinal, *where) for ordinal, where in enumerate(card.leaders, start=1))
    return entry(SCENE, card.n, card.length, card.w, card.d) + b"".join(lines) + b"".join(leaders)


# --------------------------------------------------------------------------
# Reading
# --------------------------------------------------------------------------


class _Refuse(Exception):
    """A card's refusal: its number."""


def _body(data: bytes, at: int) -> tuple[int, list[int]]:
    """The entry that starts there: its kind (20), then its numbers (21 where it is cut short)."""
    kind = data[at]
    if kind not in BODY:
        raise _Refuse(20)
    if len(data) - at < SIZE[kind]:
        raise _Refuse(21)
    numbers, place = [], at + 1
    for width in BODY[kind]:
        numbers.append(int.from_bytes(data[place : place + width], "big"))
        place += width
    return kind, numbers


def _holds(right: bool) -> None:
    """Out of order, or a number that does not agree: 22."""
    if not right:
        raise _Refuse(22)


def _scene(kind: int, numbers: list[int]) -> Card:
    """"once and first"; "01's ranges or agreements (with s as 0)": d = 2w, 192 + d at most L.

    No. 2: "a card's kind 1 may hold d = 8w with L at least 412 + d".
    """
    _holds(kind == SCENE)
    n, length, w, d = numbers
    _holds(_within(n, UP_TO_SIX_DIGITS) and _within(length, UP_TO_SIX_DIGITS))
    _holds(_within(w, UP_TO_EIGHT_DIGITS) and _within(d, UP_TO_EIGHT_DIGITS))
    _holds(any(_agree(sort, length, w, d, 0) for sort in SORTS.values()))
    return Card(n, length, w, d, [], [])


def _line(card: Card, kind: int, numbers: list[int]) -> None:
    """"in rising line order, one for every line"; "left plus data over w", the ordinary sum."""
    _holds(kind == LINE)
    line, left, shown = numbers
    _holds(line == len(card.lines) + 1)
    _holds(left + shown <= card.w)
    card.lines.append((left, shown))


def _leader(card: Card, kind: int, numbers: list[int]) -> None:
    """"a leader start that isn't the sum of the lengths before it", the ordinary sum; a length has no range."""
    _holds(kind == LEADER_RECORD)
    ordinal, begun, length = numbers
    _holds(ordinal == len(card.leaders) + 1)
    _holds(begun == sum(length for _, length in card.leaders))
    card.leaders.append((begun, length))


def _all_lines(card: Optional[Card]) -> bool:
    return card is not None and len(card.lines) == card.n


def read(data: bytes) -> Union[Card, Answer]:
    """What the card says, or its first refusal, at the entry's start: 20, then 21, then 22."""
    card: Optional[Card] = None
    at = 0
    try:
        while at < len(data):
            kind, numbers = _body(data, at)
            if card is None:
                card = _scene(kind, numbers)
            elif not _all_lines(card):
                _line(card, kind, numbers)
            else:
                _leader(card, kind, numbers)
            at += SIZE[kind]
    except _Refuse as no:
        return refused(no.args[0], 0, at)
    # "or the card ends before kind 1 or the last line": 21 at the card's end
    return card if card is not None and _all_lines(card) else refused(21, 0, len(data))


def card_answer(data: bytes) -> Answer:
    """('card', lines, leader entries) | ('refused', ...)."""
    said = read(data)
    return said.answer() if isinstance(said, Card) else said


def card_numbers(data: bytes, lent: list[int]) -> tuple[Answer, list[int]]:
    """The card's own refusal, then 37 for a list that is too short; and the list afterwards."""
    said = read(data)
    if not isinstance(said, Card):
        return said, list(lent)
    numbers = said.numbers()
    if len(lent) < len(numbers):
        return refused(37), list(lent)
    return said.answer(), numbers + lent[len(numbers) :]


# --------------------------------------------------------------------------
# What a card is
# --------------------------------------------------------------------------
# With no cursor in it: the numbers stand at places that n alone fixes, and the card is
# what is written of them.


def _four(data: bytes, at: int) -> int:
    return int.from_bytes(data[at : at + 4], "big")


def _said(data: bytes) -> Card:
    n = _four(data, 1)
    lines = min(n, len(data) // 13)  # no more than there is room for
    behind = 17 + 13 * n
    leaders = max(0, len(data) - behind) // 10
    return Card(
        *(_four(data, at) for at in (1, 5, 9, 13)),
        [(_four(data, 17 + 13 * i + 5), _four(data, 17 + 13 * i + 9)) for i in range(lines)],
        [(_four(data, behind + 10 * i + 2), _four(data, behind + 10 * i + 6)) for i in range(leaders)],
    )


def _agrees(card: Card) -> bool:
    plan = 1 <= card.n <= 999_999 and 1 <= card.length <= 999_999 and 1 <= card.w <= 99_999_999 and 1 <= card.d <= 99_999_999
    counts = card.d == 2 * card.w and card.length >= 192 + card.d
    complex_samples = card.d == 8 * card.w and card.length >= 412 + card.d
    lines = len(card.lines) == card.n and all(left + shown <= card.w for left, shown in card.lines)
    starts = [sum(length for _, length in card.leaders[:i]) for i in range(len(card.leaders))]
    leaders = len(card.leaders) <= 255 and [begun for begun, _ in card.leaders] == starts
    return plan and (counts or complex_samples) and lines and leaders


def is_card(data: bytes) -> bool:
    """The bytes are the entries of some card, and nothing else."""
    card = _said(data)
    return _agrees(card) and written(card) == data


# --------------------------------------------------------------------------
# Building
# --------------------------------------------------------------------------


def _leader_records(state: State) -> Iterator[Pair]:
    """Start and length of every record of the leader, its descriptor first, as the walk has them."""
    places = [start([*state[:PASSED], passed, *state[PASSED + 1 :]]) for passed in range(state[PASSED] + 1)]
    yield from ((begun, ended - begun) for begun, ended in zip(places, places[1:]))


def card_of(image: bytes, leader: bytes) -> Union[Card, Answer]:
    """The card of two accepted files, or the image's closed refusal, then the leader's."""
    states = []
    for kind, data in ((IMAGE, image), (LEADER, leader)):
        state, _, stop = walk(begin(kind)[0], data, True, EVERY_RECORD)
        if stop != ("complete",):
            return stop
        states.append(state)
    plan, last = states
    views = (line_view(image, line) for line in range(1, plan[N] + 1))
    lines = [(left, shown) for _, _, shown, left in views]
    return Card(plan[N], plan[L], plan[W], plan[D], lines, list(_leader_records(last)))


def build(image: bytes, leader: bytes, lent: bytes) -> tuple[Answer, bytes]:
    """(('built', bytes) or the refusal, the buffer afterwards).  37 comes last; "on any writes nothing"."""
    said = card_of(image, leader)
    if not isinstance(said, Card):
        return said, lent
    card = written(said)
    if len(lent) < len(card):
        return refused(37), lent
    return ("built", len(card)), card + lent[len(card) :]
