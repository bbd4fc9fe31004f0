"""The questions to the driver (driver.c) as it reads them, beside the replies that are due by the oracle.

Every question is a case: one call of the boundary with its arrays, and every number of the reply is due: what was
returned, whether anything was harmed, the answer, and the state, value, row, card or list of numbers after the call. An
array that is too short is due 0, and what it held before."""
import struct
import sys
from collections import Counter
from pathlib import Path
from typing import Callable, Optional, Sequence

TESTS = Path(__file__).resolve().parent.parent.parent
sys.path.insert(0, str(TESTS / 'oracle'))
import cards  # noqa: E402
import reader  # noqa: E402
import samples  # noqa: E402
from reader import Answer, State  # noqa: E402

MANY = 2 ** 64 - 1
STATE, ANSWER, VALUE = 43, 5, 2  # how many numbers
NULLS, KEEP = 7, 8  # flags of the driver: NULL wherever a length is 0; hold the moved state
TAGS = {'refused': 0, 'wait': 1, 'pause': 2, 'complete': 3, 'fresh': 4, 'value': 5, 'blank': 6, 'shown': 7, 'copied': 8, 'agrees': 9,
        'built': 10, 'card': 11, 'count': 12, 'complex': 13, 'power': 14}
REFUSALS = (*range(1, 16), 20, 21, 22, 23, 24, 36, 37)  # every number that there is
LETTERS = {'b': 'sbg_begin', 'w': 'sbg_walk', 't': 'sbg_start', 'f': 'sbg_field', 'l': 'sbg_line', 'r': 'sbg_row', 'c': 'sbg_set',
           'L': 'the listing by sbg_walk and sbg_line', 'u': 'sbg_card_build', 'd': 'sbg_card', 'n': 'sbg_card_numbers',
           's': 'sbg_sample', 'p': 'sbg_power', 'x': 'sbg_complex_row'}

# What the driver's arrays hold before a call.
PATTERN = [0xA5A5A5A5A5A5A500 + i for i in range(1 << 14)]
SAMPLES = [(i * 40503 + 7) & 0xFFFF for i in range(1 << 15)]
WORDS = [(i * 2654435761 + 0x7FA00001) & 0xFFFFFFFF for i in range(1 << 16)]
CARD_BYTES = bytes((i * 151 + 93) & 0xFF for i in range(1 << 17))

_head = struct.Struct('<7Q').pack  # returned, harm, answer
_state = struct.Struct(f'<{STATE}Q').pack
_value = struct.Struct('<2Q').pack
_span = struct.Struct('<II').pack
_lengths = struct.Struct('<3B').pack
_number = struct.Struct('<Q').pack


class Disagree(Exception):
    """The oracle's walk and its acceptance say different things."""


class Reached(Exception):
    """The question that was wanted: `alone` asks it by itself."""

    def __init__(self, alone: bytes, words: str, due: bytes) -> None:
        super().__init__(words)
        self.alone, self.words, self.due = alone, words, due


def numbers_of(answer: Answer, count: int = 0) -> tuple[int, ...]:
    """Tag, a, b, c, count; the value itself goes to another array."""
    numbers = () if answer[0] == 'value' else answer[1:]
    return (TAGS[answer[0]], *numbers, *(0,) * (3 - len(numbers)), count)


def untouched(length: int, used: int) -> tuple[int, ...]:
    """An array of that length before the call, as far as its used numbers go; 0 past its end."""
    return tuple(PATTERN[i] if i < length else 0 for i in range(used))


class Asking:
    """A batch of questions and the replies due. With `stop_at` it ends at that question, for a report."""

    def __init__(self, stop_at: Optional[int] = None) -> None:
        self.questions = bytearray()
        self.due = bytearray()
        self.ends: list[int] = []  # of each reply in `due`
        self.tags: Counter[int] = Counter()
        self.refusals: Counter[int] = Counter()
        self.unanswered = 0  # an array was too short
        self.accepted = 0  # closed walks of whole files, whose acceptance was told a second way
        self.held = bytearray()
        self.state: State = [0] * STATE
        self.stop_at = stop_at

    # What is held ------------------------------------------------------------------------------------

    def hold(self, data: bytes) -> None:
        self.questions += b'B' + struct.pack('<I', len(data)) + data
        self.held = bytearray(data)

    def put(self, place: int, text: bytes) -> bytes:
        """Puts a text into what is held and gives what stood there."""
        old = bytes(self.held[place:place + len(text)])
        assert len(old) == len(text)
        self.questions += b'P' + _span(place, len(text)) + text
        self.held[place:place + len(text)] = text
        return old

    def set_state(self, state: State) -> None:
        if state != self.state:
            self.questions += b'S' + _state(*state)
            self.state = list(state)

    def set_number(self, index: int, number: int) -> None:
        self.questions += b'K' + bytes((index,)) + _number(number)
        self.state[index] = number

    def bytes_at(self, at: int, size: int) -> bytes:
        return bytes(self.held[at:at + size])

    # Questions ---------------------------------------------------------------------------------------

    def _ask(self, letter: str, spans: Sequence[tuple[int, int]], rest: bytes, due: bytes, words: str) -> None:
        """Of these parts of what is held."""
        asked = letter.encode()
        if len(self.ends) == self.stop_at:
            alone, data, parts = b'S' + _state(*self.state), b'', b''
            for span in spans:
                parts += _span(len(data), span[1])
                data += self.bytes_at(*span)
            alone += b'B' + struct.pack('<I', len(data)) + data
            raise Reached(alone + asked + parts + rest, f'{LETTERS[letter]}: {words}', due)
        self.questions += asked + b''.join(_span(*span) for span in spans) + rest
        self.due += due
        self.ends.append(len(self.due))

    def _told(self, answered: bool, answer: Answer, count: int, answer_len: int, harm: int = 0) -> bytes:
        """Returned, harm and the five numbers that are due."""
        if not answered:
            self.unanswered += 1
            return _head(0, harm, *untouched(answer_len, ANSWER))
        self.tags[TAGS[answer[0]]] += 1
        if answer[0] == 'refused':
            self.refusals[answer[1]] += 1
        return _head(1, harm, *numbers_of(answer, count))

    def _state_due(self, after: State, array_len: int) -> bytes:
        return _state(*(number if i < array_len else 0 for i, number in enumerate(after))) if array_len < STATE else _state(*after)

    def begin(self, kind: int, array_len: int = STATE, answer_len: int = ANSWER, keep: bool = True) -> None:
        answered = array_len >= STATE and answer_len >= ANSWER
        after, answer = reader.begin(kind)
        after = after if answered else self.state
        rest = _number(kind) + _lengths(array_len, answer_len, NULLS | (KEEP if keep else 0))
        due = self._told(answered, answer, 0, answer_len) + self._state_due(after, array_len)
        self._ask('b', [], rest, due, f'kind {kind}, state of {array_len}, answer of {answer_len}')
        if keep and answered:
            self.state = after

    def walk(self, at: int, size: int, closed: int, budget: int = MANY, keep: bool = False, array_len: int = STATE,
             answer_len: int = ANSWER) -> Answer:
        """Of the bytes held from there on, with the state held; its stop by the oracle."""
        answered = array_len >= STATE and answer_len >= ANSWER
        data = self.bytes_at(at, size)
        after, count, stop = reader.walk(self.state, data, closed != 0, budget) if answered else (self.state, 0, ('pause',))
        if answered and closed and budget == MANY and not any(self.state[1:]):
            self._accept(stop, data)
        rest = struct.pack('<QQ3B', closed, budget, array_len, answer_len, NULLS | (KEEP if keep else 0))
        due = self._told(answered, stop, count, answer_len) + self._state_due(after, array_len)
        words = f'{size} bytes, closed {closed}, budget {budget}, state of {array_len} {self.state}, answer of {answer_len}'
        self._ask('w', [(at, size)], rest, due, words)
        if keep:
            self.state = list(after)
        return stop

    def _accept(self, stop: Answer, data: bytes) -> None:
        """A closed walk from a fresh state is complete exactly on the files that the rules describe, with no turn or state in them."""
        if (stop == ('complete',)) != reader.accepted(self.state[0], data):
            raise Disagree(f'kind {self.state[0]}, {len(data)} bytes: the walk says {stop}, acceptance otherwise')
        self.accepted += 1

    def start(self, array_len: int = STATE) -> int:
        place = reader.start(self.state) if array_len >= STATE else 0
        due = _head(place, 0, *untouched(ANSWER, ANSWER)) + self._state_due(self.state, array_len)
        self._ask('t', [], _lengths(array_len, ANSWER, NULLS), due, f'state of {array_len} {self.state}')
        return place

    def field(self, at: int, size: int, number: int, array_len: int = VALUE, answer_len: int = ANSWER) -> None:
        answered = array_len >= VALUE and answer_len >= ANSWER
        answer = reader.field(self.bytes_at(at, size), number)
        value = untouched(array_len, VALUE)
        if answered and answer[0] == 'value':
            value = (answer[1] % 2 ** 64, answer[2] % 2 ** 64)
        rest = _number(number) + _lengths(array_len, answer_len, NULLS)
        due = self._told(answered, answer, 0, answer_len) + _value(*value)
        self._ask('f', [(at, size)], rest, due, f'field {number} of {size} bytes, value of {array_len}, answer of {answer_len}')

    def line(self, at: int, size: int, line: int, answer_len: int = ANSWER) -> Answer:
        answer = reader.line_view(self.bytes_at(at, size), line)
        rest = _number(line) + _lengths(0, answer_len, NULLS)
        due = self._told(answer_len >= ANSWER, answer, 0, answer_len)
        self._ask('l', [(at, size)], rest, due, f'line {line} of {size} bytes, answer of {answer_len}')
        return answer

    def row(self, at: int, size: int, line: int, row_len: int, answer_len: int = ANSWER) -> Answer:
        answered, before = answer_len >= ANSWER, SAMPLES[:row_len]
        answer, after = reader.row_copy(self.bytes_at(at, size), line, before)
        rest = struct.pack('<QI3B', line, row_len, 0, answer_len, NULLS)
        samples = struct.pack(f'<{row_len}H', *(after if answered else before))
        due = self._told(answered, answer, 0, answer_len) + samples
        self._ask('r', [(at, size)], rest, due, f'line {line} of {size} bytes, row of {row_len}, answer of {answer_len}')
        return answer

    def sample(self, at: int, size: int, line: int, index: int, answer_len: int = ANSWER) -> Answer:
        return self._sample('s', samples.sample, at, size, line, index, answer_len)

    def power(self, at: int, size: int, line: int, index: int, answer_len: int = ANSWER) -> Answer:
        return self._sample('p', samples.power, at, size, line, index, answer_len)

    def _sample(self, letter: str, oracle: Callable[[bytes, int, int], Answer], at: int, size: int, line: int, index: int,
                answer_len: int) -> Answer:
        answer = oracle(self.bytes_at(at, size), line, index)
        rest = struct.pack('<QQ3B', line, index, 0, answer_len, NULLS)
        due = self._told(answer_len >= ANSWER, answer, 0, answer_len)
        self._ask(letter, [(at, size)], rest, due, f'sample {index} of line {line} of {size} bytes, answer of {answer_len}')
        return answer

    def complex_row(self, at: int, size: int, line: int, row_len: int, answer_len: int = ANSWER) -> Answer:
        answered, before = answer_len >= ANSWER, WORDS[:row_len]
        answer, after = samples.complex_row(self.bytes_at(at, size), line, before)
        rest = struct.pack('<QI3B', line, row_len, 0, answer_len, NULLS)
        due = self._told(answered, answer, 0, answer_len) + struct.pack(f'<{row_len}I', *(after if answered else before))
        self._ask('x', [(at, size)], rest, due, f'line {line} of {size} bytes, row of {row_len}, answer of {answer_len}')
        return answer

    def set(self, at: int, size: int, counts: Sequence[int], answer_len: int = ANSWER) -> None:
        answer = reader.set_check(self.bytes_at(at, size), counts)
        rest = struct.pack(f'<I{len(counts)}Q3B', len(counts), *counts, 0, answer_len, NULLS)
        due = self._told(answer_len >= ANSWER, answer, 0, answer_len)
        self._ask('c', [(at, size)], rest, due, f'{size} bytes, counts {list(counts)}, answer of {answer_len}')

    def card_build(self, image: tuple[int, int], leader: tuple[int, int], card_len: int, answer_len: int = ANSWER) -> Answer:
        """Of two parts of what is held: place and size of each."""
        answered, before = answer_len >= ANSWER, CARD_BYTES[:card_len]
        answer, after = cards.build(self.bytes_at(*image), self.bytes_at(*leader), before)
        rest = struct.pack('<I3B', card_len, 0, answer_len, NULLS)
        due = self._told(answered, answer, 0, answer_len) + (after if answered else before)
        self._ask('u', [image, leader], rest, due, f'{image[1]} and {leader[1]} bytes, card of {card_len}, answer of {answer_len}')
        return answer

    def card(self, at: int, size: int, answer_len: int = ANSWER) -> Answer:
        data = self.bytes_at(at, size)
        answer = cards.card_answer(data)
        if (answer[0] == 'card') != cards.is_card(data):
            raise Disagree(f'{size} bytes: the reading says {answer}, what a card is otherwise')
        due = self._told(answer_len >= ANSWER, answer, 0, answer_len)
        self._ask('d', [(at, size)], _lengths(0, answer_len, NULLS), due, f'{size} bytes, answer of {answer_len}')
        return answer

    def card_numbers(self, at: int, size: int, many: int, answer_len: int = ANSWER) -> None:
        answered, before = answer_len >= ANSWER, PATTERN[:many]
        answer, after = cards.card_numbers(self.bytes_at(at, size), before)
        rest = struct.pack('<I3B', many, 0, answer_len, NULLS)
        due = self._told(answered, answer, 0, answer_len) + struct.pack(f'<{many}Q', *(after if answered else before))
        self._ask('n', [(at, size)], rest, due, f'{size} bytes, list of {many}, answer of {answer_len}')

    def listing(self, at: int, size: int) -> None:
        rows = reader.listing(self.bytes_at(at, size))
        due = struct.pack('<QQ', len(rows), 0) + rows
        self._ask('L', [(at, size)], _lengths(0, 0, 0), due, f'{size} bytes')


# For a report -------------------------------------------------------------------------------------------


def told(letter: str, reply: bytes) -> list[str]:
    """A reply in words, part by part."""
    if letter == 'L':
        return [f'{int.from_bytes(reply[:8], "little")} bytes of rows', *reply[16:].decode('ascii', 'replace').split('\n')]
    count = min(7, len(reply) // 8) if letter in 'rux' else len(reply) // 8
    names = ['returned', 'harm', 'tag', 'a', 'b', 'c', 'count']
    behind = {'f': ['number', 'exponent'], 'n': [f'numbers[{i}]' for i in range(count)]}
    names += behind.get(letter, [f'state[{i}]' for i in range(STATE)])
    parts = [f'{name} {number}' for name, number in zip(names, struct.unpack(f'<{count}Q', reply[:8 * count]))]
    if letter == 'u':
        return parts + [f'card[{i}] {byte}' for i, byte in enumerate(reply[56:])]
    width = {'r': 2, 'x': 4}.get(letter, 0)
    row = reply[56:len(reply) // width * width] if width else b''
    return parts + [f'row[{i}] {number}' for i, (number,) in enumerate(struct.iter_unpack('<I' if width == 4 else '<H', row))]
