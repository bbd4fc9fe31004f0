"""Commands and files for the makers of examples, walk.py, lines.py and listing.py.

The programs that run examples hold a buffer of 65,536 bytes. A maker writes commands that build files in it
and ask, and keeps the same bytes here, so that the answers are the oracle's of the very bytes that the
commands build.

  # TEXT  printed   c VALUE  fill   p BYTE:TEXT  b BYTE VALUE  q BYTE VALUE  put text, a byte, four bytes"""
import sys
from contextlib import contextmanager
from pathlib import Path
from typing import Iterator, NamedTuple

TESTS = Path(__file__).resolve().parent.parent
sys.path.insert(0, str(TESTS / 'oracle'))  # for the makers too
from reader import IMAGE, LEADER, TRAILER, VOLUME  # noqa: E402

MOST_INPUT = 250_000
HELD = 65_536
MANY = 2 ** 64 - 1
What = str | bytes | int  # what is put: a text, raw bytes, or a four-byte number
Patch = tuple[int, What]  # a byte number, from 1, and what is put there

commands: list[bytes] = []
answers: list[bytes] = []
held = bytearray(HELD)


# The commands ---------------------------------------------------------------------------------------


def title(text: str) -> None:
    commands.append(b'# ' + text.encode('ascii'))
    answers.append(b'# ' + text.encode('ascii'))


def ask(command: str, answer: str, due: str) -> None:
    """A command that answers. `due` is the whole answer or its first words, worked out by hand."""
    assert (answer + ' ').startswith(due + ' ') or not due, f'{command}: due {due}, the oracle says {answer}'
    commands.append(command.encode())
    answers.append(answer.encode())


def fill(value: int) -> None:
    commands.append(b'c %d' % value)
    held[:] = bytes((value,)) * HELD


def raw(what: What) -> bytes:
    if isinstance(what, int):
        return what.to_bytes(4, 'big')
    return what.encode('latin-1') if isinstance(what, str) else what


def put(byte: int, what: What) -> None:
    data = raw(what)
    assert 1 <= byte and byte - 1 + len(data) <= HELD
    if isinstance(what, int):
        commands.append(b'q %d %d' % (byte, what))
    elif len(data) == 1:
        commands.append(b'b %d %d' % (byte, data[0]))
    else:
        assert b'\n' not in data
        commands.append(b'p %d:' % byte + data)
    held[byte - 1:byte - 1 + len(data)] = data


@contextmanager
def changed(*patches: Patch) -> Iterator[None]:
    """These patches for a while; then the old bytes are put back."""
    olds: list[Patch] = []
    for byte, what in patches:
        old = bytes(held[byte - 1:byte - 1 + len(raw(what))])
        olds.append((byte, int.from_bytes(old, 'big') if isinstance(what, int) else old))
        put(byte, what)
    yield
    for byte, old_what in reversed(olds):
        put(byte, old_what)


def said(stop: tuple) -> str:
    if stop[0] == 'refused':
        return refused(*stop[1:])
    return ' '.join(str(part) for part in stop).upper()


def refused(number: int, record: int = 0, place: int = 0) -> str:
    return f'REFUSED {number} RECORD {record} AT {place}'


# Files, in document 01's words ------------------------------------------------------------------------

FIRST = {VOLUME: ((192, 192, 18, 18), 360), LEADER: ((11, 192, 18, 18), 720),
         IMAGE: ((50, 192, 18, 18), 720), TRAILER: ((63, 192, 18, 18), 720)}
POINTER, TEXT = (219, 192, 18, 18), (18, 192, 18, 18)


class Sort(NamedTuple):
    """A sort of images: its number in the plan, its text at 429, its bytes a group, the bytes ahead of the pixels, its lines' codes."""

    number: int
    text: str
    group: int
    ahead: int
    line: tuple[int, ...]

    def length(self, w: int, s: int, more: int) -> int:
        """The length of a line's record: so many bytes more than the least."""
        return self.ahead + self.group * w + s + more


COUNTS = Sort(0, 'IU2 ', 2, 192, (50, 11, 18, 20))
COMPLEX = Sort(1, 'C*8 ', 8, 412, (50, 10, 18, 20))  # document 02, No. 2


def header(at: int, number: int, codes: tuple[int, ...], length: int) -> None:
    """The 12 bytes that open a record at that place."""
    put(at + 1, number)
    put(at + 5, int.from_bytes(bytes(codes), 'big'))
    put(at + 9, length)


class File:
    """A file in the buffer from place 0 on: its kind, and where its records start and the last ends."""

    def __init__(self, kind: int) -> None:
        self.kind = kind
        self.starts = [0]
        self.record(*FIRST[kind])
        self.put(13, 'A ')

    def record(self, codes: tuple[int, ...], length: int) -> None:
        at = self.starts[-1]
        header(at, len(self.starts), codes, length)
        self.starts.append(at + length)

    def put(self, byte: int, what: What) -> None:
        """Into the last record, by its own byte numbers."""
        put(self.starts[-2] + byte, what)

    @property
    def size(self) -> int:
        return self.starts[-1]

    @property
    def records(self) -> int:
        return len(self.starts) - 1


def volume(pointers: int, filler: int = 32) -> File:
    fill(filler)
    file = File(VOLUME)
    file.put(161, f'{pointers:4}')
    for pointer in range(1, pointers + 1):
        file.record(POINTER, 360)
        file.put(65, 'SARL' if pointer == 1 else 'SART' if pointer == pointers else 'IMOP')
        file.put(101, f'{7 * pointer:8}{720:8}')
    file.record(TEXT, 360)
    return file


def image_first(n: int, w: int = 3, s: int = 0, more: int = 0, filler: int = 0, sort: Sort = COUNTS) -> File:
    """An image's first record: L = 192 + d + s (412 + d + s of complex samples) and so many more."""
    fill(filler)
    file, length = File(IMAGE), sort.length(w, s, more)
    file.put(181, f'{n:6}{length:6}')
    file.put(225, f'{sort.group:4}')
    file.put(233, f'   1{n:8}')
    file.put(249, f'{w:8}')
    file.put(281, f'{sort.group * w:8}{s:4}')
    file.put(429, sort.text)
    return file


Fills = tuple[int, int, int]  # left fill, data and right fill counts


def line_body(at: int, line: int, fills: Fills, over: int) -> None:
    """What a line's record at that place must hold; over zeros a zero need not be put."""
    for byte, value in zip((13, 17, 21, 25, 29), (line, 1, *fills)):
        if value or over:
            put(at + byte, value)


def image(n: int, w: int = 3, s: int = 0, more: int = 0, filler: int = 0, sort: Sort = COUNTS) -> File:
    """Left fills 0, 1, 2, .. by turns."""
    file = image_first(n, w, s, more, filler, sort)
    for line in range(1, n + 1):
        file.record(sort.line, sort.length(w, s, more))
        left = (line - 1) % (w + 1)
        line_body(file.starts[-2], line, (left, w - left, 0), filler)
    return file


# Drawn -------------------------------------------------------------------------------------------------

seed = [20260]


def draw(below: int) -> int:
    """A number from 0 on; the same in every run and every Python."""
    seed[0] = (seed[0] * 6364136223846793005 + 1442695040888963407) % 2 ** 64
    return (seed[0] >> 33) % below


# What is stored ----------------------------------------------------------------------------------------


def keep(home: Path, made: dict[str, bytes], what: str) -> int:
    """Writes a program's files; with --check it says whether they are as stored."""
    maker = Path(sys.argv[0]).name
    if '--check' in sys.argv[1:]:
        stale = [name for name, data in made.items() if not (home / name).exists() or (home / name).read_bytes() != data]
        print(f"tests/examples/{maker}: {what}, {'as stored' if not stale else 'not as stored: ' + ' '.join(stale)}")
        return 1 if stale else 0
    home.mkdir(parents=True, exist_ok=True)
    for name, data in made.items():
        (home / name).write_bytes(data)
    print(f"tests/examples/{maker}: wrote {what}, {len(made['stdin'])} bytes of input")
    return 0


def store(home: Path) -> int:
    """The commands and the answers, as a program's stdin and stdout."""
    made = {'stdin': b'\n'.join(commands) + b'\n', 'stdout': b'\n'.join(answers) + b'\n'}
    assert len(made['stdin']) <= MOST_INPUT, f"{len(made['stdin'])} bytes of input, the program reads {MOST_INPUT}"
    return keep(home, made, f'{len(answers)} answers')
