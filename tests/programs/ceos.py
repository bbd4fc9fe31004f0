#!/usr/bin/env python3
"""Builds host/ceos.c (scripts/host) and runs it as a user would, on every sort of file, and holds it to the oracle.

Every command on drawn files, whole, damaged and cut, closed and open; the listing's cases and lines of every length; decimals;
sets; files that are empty, missing, no file, or change while they are read; large ones, with their memory; use and help; progress on a
terminal. It says what it tried and how many checks that were, and exits with 1 at the first difference."""
import fcntl
import fractions  # noqa: F401  (for the oracle: once tests/examples is on the path, its numbers.py stands for the one that this needs)
import os
import pty
import random
import re
import subprocess
import sys
import tempfile
import time
from concurrent.futures import ThreadPoolExecutor
from contextlib import contextmanager
from dataclasses import dataclass
from pathlib import Path
from typing import Any, Callable, Iterator, Optional, Sequence

sys.dont_write_bytecode = True
sys.path.insert(0, str(Path(__file__).resolve().parent.parent / 'examples'))
import listing  # noqa: E402
from commands import TESTS  # noqa: E402
from running import NATIVE, Ran, Wrong, all_parts, checks, hold  # noqa: E402
import make  # noqa: E402  (commands.py puts tests/oracle on the path)
import reader as oracle  # noqa: E402
import marked  # noqa: E402
import samples as complex_samples  # noqa: E402
from floats import spelt_rows  # noqa: E402
from reader import EVERY_RECORD, IMAGE, LEADER, N, TRAILER, VOLUME, Answer, State  # noqa: E402

HOME = TESTS.parent
PROGRAM = str(HOME / 'target' / 'host' / 'ceos')
BY = [] if NATIVE else [str(HOME / 'scripts' / 'run')]
COMMAND = [*BY, PROGRAM]
EVERY = 1 if NATIVE else 5  # under the emulator a fifth of the cases is run
WORD = {VOLUME: 'volume', LEADER: 'leader', IMAGE: 'image', TRAILER: 'trailer'}
LONG = 60.0 if NATIVE else 600.0  # seconds after which a program that has not answered is taken to hang
ACCEPTED, REFUSED, FAILED, WAITING = 0, 1, 2, 3
folder = Path()  # for this run's files


def matches(what: str, found: str, pattern: str) -> None:
    checks[0] += 1
    if not re.fullmatch(pattern, found):
        raise Wrong(f'{what}: due {pattern}, found {found[:300]}')


# Running it ---------------------------------------------------------------------------------------------


def ran(*words: Any, **how: Any) -> Ran:
    """To its end. how: what subprocess.run takes."""
    how = {'stdout': subprocess.PIPE, 'stderr': subprocess.PIPE, **how}
    done = subprocess.run([*COMMAND, *map(str, words)], timeout=LONG, **how)
    return Ran(done.returncode, (done.stdout or b'').decode(), (done.stderr or b'').decode())


def filed(name: str, data: bytes) -> Path:
    path = folder / name
    path.write_bytes(data)
    return path


@dataclass(frozen=True)
class Case:
    """A command's words ahead of its files and behind them, the files' bytes, and the rows and the status that are due."""

    before: Sequence[Any]
    files: Sequence[bytes]
    after: Sequence[Any]
    rows: str
    status: int


def names(number: int, files: int) -> list[Path]:
    return [folder / f'case-{number}-{i}' for i in range(files)]


def try_case(number: int, case: Case) -> tuple[Case, Ran]:
    paths = names(number, len(case.files))
    for path, data in zip(paths, case.files):
        path.write_bytes(data)
    found = ran(*case.before, *paths, *case.after)
    for path in paths:
        path.unlink()
    return case, found


def messages_due(rows: str, paths: Sequence[Path], files: Sequence[bytes]) -> str:
    """A pattern: a message for each refusal, with its number, record and place, and of a 6 the marked field; nothing else."""
    due = []
    for title, number, record, place in re.findall(r'(?:<(\d+)>: )?REFUSED (\d+) RECORD (\d+) AT (\d+)\n', rows):
        path, data = paths[int(title or 0)], files[int(title or 0)]
        due.append(re.escape(f'ceos: {path}: refusal {number}, record {record}, at {place}: ') + r'\w.*')
        due += map(re.escape, marked.lines(path, data, int(record), int(place)) if number == '6' else [])
    return ''.join(line + r'\n' for line in due)


def try_all(what: str, cases: Sequence[Case]) -> str:
    """Each answers its rows and its status; messages come with refusals, and with nothing else."""
    cases = cases[::EVERY]
    with ThreadPoolExecutor(2) as pool:
        for number, (case, found) in enumerate(pool.map(try_case, range(len(cases)), cases)):
            title = f'{what}, case {number}: {case.before} {[len(data) for data in case.files]} {case.after}'
            rows, paths = case.rows, names(number, len(case.files))
            for i, path in enumerate(paths):
                rows = rows.replace(f'<{i}>', str(path))
            hold(title, found.rows, rows)
            hold(title, found.status, case.status)
            matches(title, found.messages, messages_due(case.rows, paths, case.files))
    return f'{len(cases)} {what}'


# What is due ----------------------------------------------------------------------------------------------


def refusal(stop: Answer) -> tuple[str, int]:
    return 'REFUSED {} RECORD {} AT {}\n'.format(*stop[1:]), REFUSED


def walked(kind: int, data: bytes, closed: bool) -> tuple[State, str, int]:
    """The state behind the walk, its closing row, and the status."""
    state, count, stop = oracle.walk(oracle.begin(kind)[0], data, closed, EVERY_RECORD)
    if stop[0] == 'refused':
        return state, *refusal(stop)
    if stop[0] == 'wait':
        return state, f'WAIT {stop[1]} BYTES RECORD {count + 1} AT {oracle.start(state)}\n', WAITING
    return state, f'COMPLETE {count} RECORDS {len(data)} BYTES\n', ACCEPTED


def opening(closed: bool) -> list[str]:
    return [] if closed else ['--open']


def walk_case(kind: int, data: bytes, closed: bool, word: Any) -> Case:
    _, rows, status = walked(kind, data, closed)
    return Case([*opening(closed), 'walk', word], [data], [], rows, status)


def list_case(data: bytes, closed: bool) -> Case:
    state, last, status = walked(IMAGE, data, closed)
    rows = f'IMAGE {state[N]} LINES {state[oracle.W]} PIXELS\n' if state[oracle.PASSED] else ''
    for line in range(1, state[oracle.PASSED]):
        at = 720 + (line - 1) * state[oracle.L]
        rows += ' '.join(map(str, (line, *oracle.fills(data[at:at + 32])))) + '\n'
    return Case(['list', *opening(closed)], [data], [], rows + last, status)


def line_case(data: bytes, line: int, closed: bool = True) -> Case:
    view = oracle.line_view(data, line)
    if view[0] == 'refused':
        return Case(['line'], [data], [line], *refusal(view))
    if view[0] == 'wait':
        return Case([*opening(closed), 'line'], [data], [line], f'WAIT {view[1]} BYTES\n', WAITING)
    _, start, samples, left = view
    state = walked(IMAGE, data, False)[0]
    rows = f'LINE {line} START {start} DATA {samples} LEFT {left} RIGHT {state[oracle.W] - left - samples}\n'
    return Case(['line', *opening(closed)], [data], [line], rows + sample_rows(data, line, samples, state[oracle.SORT]), ACCEPTED)


def sample_rows(data: bytes, line: int, samples: int, sort: int) -> str:
    """Counts ten in a row; of complex samples one."""
    if sort == oracle.COMPLEX:
        copied, parts = complex_samples.complex_row(data, line, [0] * (2 * samples))
        assert copied == ('copied', samples)
        return spelt_rows(parts)
    copied, row = oracle.row_copy(data, line, [0] * samples)
    assert copied == ('copied', samples)
    return ''.join(' '.join(map(str, row[j:j + 10])) + '\n' for j in range(0, samples, 10))


PLACES = {'F8.3': 3, 'F16.7': 7, 'E20.13': 13, 'I16': 0}


def spelt(number: int, answer: Answer) -> str:
    if answer[0] != 'value':
        return 'BLANK'
    form = oracle.LISTED[number][2]
    places = PLACES[form]
    digits = str(abs(answer[1])).rjust(places + 1, '0')
    text = ('-' if answer[1] < 0 else '') + (digits[:-places] + '.' + digits[-places:] if places else digits)
    return text + (f'E{answer[2]:+03}' if form[0] == 'E' else '')


def fields_case(data: bytes, closed: bool) -> Case:
    state, last, status = walked(LEADER, data, closed)
    passed, is_map = state[oracle.PASSED], state[oracle.SLOTS + 2] == 1
    rows = ''
    if passed >= 2:
        rows += ''.join(f'{i} {spelt(i, oracle.field(data[720:4816], i))}\n' for i in range(1, 11))
        rows += '' if is_map else '11 ABSENT\n12 ABSENT\n13 ABSENT\n'
    if passed >= 3 and is_map:
        rows += ''.join(f'{i} {spelt(i, oracle.field(data[4816:6436], i))}\n' for i in range(11, 14))
    return Case([*opening(closed), 'fields'], [data], [], rows + last, status)


def set_case(files: Sequence[bytes], closed: bool) -> Case:
    kinds = [VOLUME, LEADER, *[IMAGE] * (len(files) - 3), TRAILER]
    each = [walked(kind, data, closed) for kind, data in zip(kinds, files)]
    rows = ''.join(f'<{i}>: {row}' for i, (_, row, _) in enumerate(each))
    statuses = [status for _, _, status in each]
    status = REFUSED if REFUSED in statuses else max(statuses)
    if status == ACCEPTED:
        counts = [state[oracle.PASSED] for state, _, _ in each[1:]]
        answer = oracle.set_check(files[0], counts)
        row, status = (f'AGREES {len(counts)} FILES\n', ACCEPTED) if answer == ('agrees',) else refusal(answer)
        rows += row
    return Case([*opening(closed), 'set'], files, [], rows, status)


# Every command on drawn files -----------------------------------------------------------------------------


def drawn(rng: random.Random, kind: int, how_many: int) -> Iterator[tuple[bytes, bool]]:
    """Files of that kind, each whole, damaged twice, and cut; closed and open."""
    for _ in range(how_many):
        made = make.random_file(rng, kind)
        for data in (made.data, make.damage(rng, made), make.damage(rng, made), made.data[:rng.randint(0, len(made.data))]):
            yield data, rng.random() < 0.6
    yield b'', True
    yield b'', False


def walks() -> str:
    rng = random.Random(70)
    cases = [walk_case(kind, data, closed, rng.choice((kind, WORD[kind]))) for kind in WORD for data, closed in drawn(rng, kind, 30)]
    cases += [Case(['walk', kind], [b'any bytes'], [], *refusal(oracle.begin(kind)[1])) for kind in (0, 5, 2 ** 64 - 1)]
    return try_all('files walked', cases)


def lists() -> str:
    rng = random.Random(71)
    cases = [list_case(data, closed) for data, closed in drawn(rng, IMAGE, 50)]
    listing.make_all()
    some = [case for case in listing.cases if b'TOO LONG' not in case.rows][::4]
    for case in some:
        hold('the listing', list_case(case.data, True).rows, case.rows.decode())
    return try_all('images listed', cases + [list_case(case.data, True) for case in some])


def long_records() -> str:
    """Lines of every length are listed; the listing on standard input ends at 32,768 bytes."""
    rng, cases = random.Random(72), []
    for length in (32_768, 32_769, 65_536, 999_999):
        data = make.make_image(rng, make.image_plan(2, (length - 192) // 2, 0, length)).data
        cases += [list_case(data, True), list_case(data[:-1], True), list_case(data + b'.', True), line_case(data, 2)]
        hold('the oracle', b'TOO LONG' in oracle.listing(data), length > 32_768)
    return try_all('listings and lines of long records', cases)


def lines() -> str:
    rng = random.Random(73)
    cases = []
    for data, closed in drawn(rng, IMAGE, 40):
        cases += [line_case(data, line, closed) for line in (1, rng.randint(0, 6))]
    data = make.random_file(rng, IMAGE).data
    cases += [line_case(data, line) for line in (0, 6, 2 ** 32 + 1, 2 ** 64 - 1)]
    return try_all('lines shown', cases)


def leader_of(texts: dict[int, bytes], has_map: bool = True) -> bytes:
    """A leader with these listed fields; the others are blank."""
    data = bytearray(make.make_leader(random.Random(1), make.leader_shape(random.Random(1), int(has_map), 5)).data)
    for number in range(1, 14 if has_map else 11):
        first, last, _ = oracle.LISTED[number]
        at = first - 1 + (720 if number < 11 else 4816)
        data[at:at + last - first + 1] = texts.get(number, b'').rjust(last - first + 1)
    return bytes(data)


SPELT = {1: (b'90.000', '90.000'), 2: (b'+1234567.1234567', '1234567.1234567'), 3: (b'-0.5000000', '-0.5000000'), 4: (b'-.0000001', '-0.0000001'),
         5: (b'1.0000000000000E+02', '1.0000000000000E+02'), 6: (b'-9.9999999999999E-99', '-9.9999999999999E-99'),
         7: (b'-.0000000000000E-00', '0.0000000000000E+00'), 8: (b'', 'BLANK'), 9: (b'12.0000000000001E+00', '12.0000000000001E+00'),
         10: (b'-.5000000000000E-07', '-0.5000000000000E-07'), 11: (b'-999999999999999', '-999999999999999'),
         12: (b'9999999999999999', '9999999999999999'), 13: (b'-0.0000000', '0.0000000')}


def fields() -> str:
    rng = random.Random(74)
    cases = [fields_case(data, closed) for data, closed in drawn(rng, LEADER, 40)]
    data = leader_of({number: text for number, (text, _) in SPELT.items()})
    by_hand = ''.join(f'{number} {value}\n' for number, (_, value) in SPELT.items())
    hold('fields by hand', fields_case(data, True).rows.startswith(by_hand), True)
    cases += [fields_case(data, True), fields_case(data[:4816], False), fields_case(data[:4816], True), fields_case(leader_of({}, False), True)]
    return try_all("leaders' fields shown", cases)


def counted(kind: int, data: bytes) -> int:
    return walked(kind, data, True)[0][oracle.PASSED]


def some_set(rng: random.Random, images: int) -> list[bytes]:
    """A product whose directory tells its files' record counts."""
    kinds = [LEADER, *[IMAGE] * images, TRAILER]
    files = [make.random_file(rng, kind).data for kind in kinds]
    counts = [counted(kind, data) for kind, data in zip(kinds, files)]
    return [make.make_volume(rng, make.volume_plan(images + 2), counts).data, *files]


def damaged_sets(rng: random.Random, files: list[bytes]) -> Iterator[list[bytes]]:
    yield files
    at = rng.randrange(len(files))
    yield [data[:rng.randint(0, len(data) - 1)] if i == at else data for i, data in enumerate(files)]
    yield [files[0], files[1], *files[3:]]  # an image less
    yield [*files[:3], files[2], *files[3:]]  # one more
    yield [files[0], files[1], make.random_file(rng, IMAGE).data, *files[3:]]  # another one
    yield [make.make_volume(rng, make.volume_plan(len(files) - 1)).data, *files[1:]]  # another directory
    yield [files[1], files[0], *files[2:]]  # exchanged


def sets() -> str:
    rng, cases = random.Random(75), []
    for images in (1, 2, 3, 4, 1, 2):
        for files in damaged_sets(rng, some_set(rng, images)):
            cases.append(set_case(files, True))
        cases.append(set_case(files, False))
        cases.append(set_case(some_set(rng, images), False))
        cases.append(set_case([*some_set(rng, images)[:-1], b'no trailer at all'], False))
    hold('sets that agree', sum(case.rows.endswith('FILES\n') for case in cases) >= 6, True)
    hold('sets that differ', sum('REFUSED 12' in case.rows for case in cases) >= 6, True)
    return try_all('sets', cases)


# Files that are none, and wrong use -----------------------------------------------------------------------


def on_each(path: Any) -> list[list[Any]]:
    return [['walk', 'image', path], ['list', path], ['list', '--open', path], ['line', path, 1], ['fields', path], ['set', path, path, path],
            ['sample', path, 1, 0], ['power', path, 1, 0]]


def no_files() -> str:
    os.mkfifo(folder / 'pipe')
    (folder / 'loop').symlink_to('loop')
    ways = {folder: 'is a directory; .+', folder / 'missing': 'No such file or directory', folder / 'pipe': 'is no file on disk; .+',
            '/dev/null': 'is no file on disk; .+', folder / 'loop': 'Too many levels of symbolic links', '': 'No such file or directory'}
    for path, why in ways.items():
        for words in on_each(path):
            found = ran(*words)
            hold(f'{words}', (found.status, found.rows), (FAILED, ''))
            matches(f'{words}', found.messages, f'ceos: {re.escape(str(path))}: {why}\n')
    good = filed('good', make.random_file(random.Random(3), IMAGE).data)
    hold('behind --', ran('list', '--', good.name, cwd=folder).status, ACCEPTED)
    filed('-x', good.read_bytes())
    hold('a name with a hyphen', ran('list', '--', '-x', cwd=folder).status, ACCEPTED)
    hold('the same without --', ran('list', '-x', cwd=folder).status, FAILED)
    return f'{len(ways)} names of no file, each with 8 commands'


def wrong_use() -> str:
    ways = [[], ['walk'], ['walk', 'image'], ['walk', 'picture', 'x'], ['walk', '', 'x'], ['walk', '3x', 'x'], ['walk', 'image', 'x', 'y'],
            ['list'], ['list', 'x', 'y'], ['line', 'x'], ['line', 'x', 'y'], ['line', 'x', ''], ['line', 'x', '1.5'], ['line', 'x', '+1'],
            ['line', 'x', ' 1'], ['line', 'x', 2 ** 64], ['sample', 'x', 1], ['sample', 'x', 1, 0, 0], ['sample', 'x', 'y', 0], ['sample', 'x', 1, ''],
            ['power', 'x', 1], ['power', 'x', 1, '1.5'], ['power', 'x', 1, 2 ** 64], ['power', 'x', 2 ** 64, 1], ['power', 'x', 1, '0x1'], ['fields'], ['set'], ['set', 'x'], ['set', 'x', 'y'], ['show', 'x'], [''], ['--close', 'list', 'x']]
    for words in [*ways, ['line', 'x', '--', '-1']]:
        found = ran(*words)
        hold(f'{words}', (found.status, found.rows), (FAILED, ''))
        matches(f'{words}', found.messages, r"ceos: .+; 'ceos --help' says how it is used\n")
    for words in (['--help'], ['-h'], ['list', '--help'], ['walk', 'x', '--help', 'y']):
        found = ran(*words)
        hold(f'{words}', (found.status, found.messages), (ACCEPTED, ''))
        for part in ('NAME', 'SYNOPSIS', 'OPTIONS', 'OUTPUT', 'EXIT STATUS', 'ceos set VOL LED IMG.. TRL', '--open'):
            hold(f'{words}: {part}', part in found.rows, True)
        hold('the width of the help', max(map(len, found.rows.splitlines())) <= 110, True)
    return f'{len(ways) + 1} wrong uses, and the help'


def outputs() -> str:
    """Output that fails is a message and status 2."""
    path = filed('image', make.random_file(random.Random(4), IMAGE).data)
    for words in on_each(path)[:5]:
        for to in ('>/dev/full', '>&-'):
            found = subprocess.run(['sh', '-c', f'exec "$@" {to}', 'sh', *COMMAND, *map(str, words)], capture_output=True, timeout=LONG)
            hold(f'{words} {to}', found.returncode, FAILED)
            matches(f'{words} {to}', found.stderr.decode(), r'(ceos: [^\n]*refusal [^\n]*\n)?ceos: standard output: .+\n')
    locked = filed('locked', path.read_bytes())
    locked.chmod(0)
    if os.geteuid() != 0:
        hold('a file that may not be read', ran('list', locked).status, FAILED)
    return '10 outputs that fail'


# Files that change while they are read --------------------------------------------------------------------


def sparse(name: str, n: int, length: int, w: int = 500) -> Path:
    """A valid image whose lines' pixels are holes. It is a new file: to overwrite one takes some systems seconds."""
    path, s = folder / name, length - 192 - 2 * w
    path.unlink(missing_ok=True)
    first = make.first_record(random.Random(5), make.image_plan(n, w, min(s, 9999), length)).data
    with open(path, 'wb') as file:
        file.write(first)
        for line in range(1, n + 1):
            head = b''.join(number.to_bytes(4, 'big') for number in (line + 1, 0x320B1214, length, line, 1, line % 7, w - line % 7 - line % 5, line % 5))
            os.pwrite(file.fileno(), head, 720 + (line - 1) * length)
        file.truncate(720 + n * length)
    return path


def sparse_rows(n: int, w: int = 500) -> str:
    return f'IMAGE {n} LINES {w} PIXELS\n' + ''.join(f'{i} {i % 7} {w - i % 7 - i % 5} {i % 5}\n' for i in range(1, n + 1))


@dataclass
class Run:
    """A run that stands still until its rows are read: its pipe holds a page."""

    child: 'subprocess.Popen[bytes]'
    pipe: int
    rows: bytes = b''

    def read(self, until: Optional[int] = None) -> None:
        """Rows until there are so many bytes of them, or to their end."""
        while until is None or len(self.rows) < until:
            piece = os.read(self.pipe, 4096)
            if not piece:
                return
            self.rows += piece

    def memory(self) -> int:
        """The most that it has held so far, in bytes."""
        status = Path(f'/proc/{self.child.pid}/status').read_text()
        return 1024 * int(re.search(r'VmHWM:\s*(\d+) kB', status)[1])  # type: ignore[index]


@contextmanager
def halted(*words: Any, stderr: int = subprocess.PIPE) -> Iterator[Run]:
    read, write = os.pipe()
    fcntl.fcntl(write, fcntl.F_SETPIPE_SZ, 4096)  # type: ignore[attr-defined]
    child = subprocess.Popen([*COMMAND, *map(str, words)], stdout=write, stderr=stderr)
    os.close(write)
    try:
        yield Run(child, read)
    finally:
        child.kill()
        child.wait()
        os.close(read)
        if child.stderr is not None:
            child.stderr.close()


def changed_midway(change: Callable[[Path], None], *options: str) -> Ran:
    """The listing of an image of 4 batches that is changed once the first rows have come."""
    path = sparse('changing', 2000, 8192)
    with halted('list', *options, path) as run:
        run.read(1)
        time.sleep(0.02)  # so that the time of the change is another one
        change(path)
        run.read()
        assert run.child.stderr is not None
        messages = run.child.stderr.read().decode().replace(str(path), 'IMG')
        path.unlink(missing_ok=True)
        return Ran(run.child.wait(LONG), run.rows.decode(), messages)


def grow(path: Path) -> None:
    with open(path, 'ab') as file:
        file.write(b'more')


def overwrite(path: Path) -> None:
    with open(path, 'r+b') as file:
        file.seek(720 + 1999 * 8192 + 4000)
        file.write(b'x')


def spoil(path: Path) -> None:
    """In place, a line of a later batch: its number."""
    with open(path, 'r+b') as file:
        file.seek(720 + 1900 * 8192)
        file.write(b'xxxx')


def changing() -> str:
    rows, size = sparse_rows(2000), 720 + 2000 * 8192
    ways: list[tuple[Callable[[Path], None], list[str], int, str, str]] = [
        (grow, [], FAILED, '', f'ceos: IMG: grew from {size} to {size + 4} bytes while it was read; use --open .+\n'),
        (grow, ['--open'], WAITING, f'WAIT 0 BYTES RECORD 2002 AT {size}\n', f'ceos: IMG: grew from {size} to {size + 4} bytes meanwhile; .+\n'),
        (lambda path: os.truncate(path, size - 1), [], FAILED, '', f'ceos: IMG: shrank from {size} to {size - 1} bytes while it was read\n'),
        (lambda path: os.truncate(path, size - 1), ['--open'], FAILED, '', f'ceos: IMG: shrank from {size} to {size - 1} bytes .+\n'),
        (lambda path: os.truncate(path, 1000), [], FAILED, '', 'ceos: IMG: shrank while it was read, or the disk failed\n'),
        (lambda path: os.truncate(path, 0), ['--open'], FAILED, '', 'ceos: IMG: shrank while it was read, or the disk failed\n'),
        (os.unlink, [], ACCEPTED, f'COMPLETE 2001 RECORDS {size} BYTES\n', 'ceos: IMG: was removed or replaced while it was read; .+\n'),
        (overwrite, [], FAILED, '', 'ceos: IMG: was written to while it was read\n'),
        (overwrite, ['--open'], WAITING, f'WAIT 0 BYTES RECORD 2002 AT {size}\n', ''),
        (spoil, ['--open'], REFUSED, f'REFUSED 3 RECORD 1902 AT {720 + 1900 * 8192}\n', 'ceos: IMG: refusal 3, record 1902, .+\n')]
    for change, options, status, last, messages in ways:
        what = f'{getattr(change, "__name__", change)} {options}'
        found = changed_midway(change, *options)
        hold(what, found.status, status)
        matches(what, found.messages, messages)
        kept = found.rows.removesuffix(last) if last else found.rows
        hold(f'{what}: good rows', (rows.startswith(kept), kept.endswith('\n'), len(kept) < len(found.rows)), (True, True, bool(last)))
        hold(f'{what}: all rows', kept == rows, status in (ACCEPTED, WAITING))
    return f'{len(ways)} images that grow, shrink, vanish or are written to while they are listed'


# Large files ----------------------------------------------------------------------------------------------

LINES, LENGTH, ROOM = 10_000, 60_000, 12 << 20  # a batch of 4 MB, and what the kernel maps around a page


def large() -> str:
    """600 MB: the memory at a tenth of the rows, and close to their end; then the walk of it."""
    path, due = sparse('large', LINES, LENGTH), sparse_rows(LINES) + f'COMPLETE {LINES + 1} RECORDS {720 + LINES * LENGTH} BYTES\n'
    with halted('list', path) as run:
        run.read(len(due) // 10)
        early = run.memory()
        run.read(len(due) - 12_000)
        late = run.memory()
        run.read()
        hold('a large image', (run.child.wait(LONG), run.rows.decode()), (ACCEPTED, due))
    hold(f'flat memory: {early} bytes at a tenth, {late} near the end', late < ROOM + (0 if NATIVE else early), True)
    hold('the walk', ran('walk', 'image', path), Ran(ACCEPTED, due.splitlines(keepends=True)[-1], ''))
    left, right = LINES % 7, LINES % 5
    start = 720 + LINES * LENGTH - 1000 - 9999 + 2 * left
    hold('its last line', ran('line', path, LINES).rows.splitlines()[0], f'LINE {LINES} START {start} DATA {500 - left - right} LEFT {left} RIGHT {right}')
    path.unlink()
    return f'an image of {LINES * LENGTH // 10 ** 6} MB: {early >> 10} kB of memory at a tenth of its rows, {late >> 10} kB near the end'


def far_places() -> str:
    """Places past 32 bits, and records of 99,999,999 bytes."""
    n, length = 5000, 999_999
    path = sparse('far', n, length, 494_000)
    last = 720 + (n - 1) * length
    rows = ran('line', path, n).rows.splitlines()
    hold('the last line', rows[0], f'LINE {n} START {last + length - 988_000 - 9999 + 2 * (n % 7)} DATA {494_000 - n % 7} LEFT {n % 7} RIGHT 0')
    hold('its samples', ' '.join(rows[1:]), ' '.join(['0'] * (494_000 - n % 7)))
    hold('the walk', ran('walk', 3, path).rows, f'COMPLETE {n + 1} RECORDS {720 + n * length} BYTES\n')
    with open(path, 'r+b') as file:
        file.seek(last + 16)
        file.write(b'\0\0\0\2')
    hold('a far refusal', ran('walk', 'image', path).rows, f'REFUSED 10 RECORD {n + 1} AT {last + 16}\n')
    hold('that line', ran('line', path, n).rows, f'REFUSED 10 RECORD {n + 1} AT {last + 16}\n')
    os.truncate(path, last + 100)
    hold('cut, open', ran('--open', 'walk', 'image', path).rows, f'WAIT {length - 100} BYTES RECORD {n + 1} AT {last}\n')
    path.unlink()
    return f'an image of {720 + n * length} bytes; ' + far_leader()


def far_leader() -> str:
    plan = make.leader_plan([(1, 1620), (9, 999_999), (0, 0), (9, 999_999), (1, 12)], [(1, 99_999_999)] * 11)
    first = make.first_record(random.Random(6), plan).data
    path, at = folder / 'far leader', 720
    records = [(10, 4096), (20, 1620), *[(30, 999_999)] * 9, *[(50, 999_999)] * 9, (60, 12), *[(200, 99_999_999)] * 11]
    with open(path, 'wb') as file:
        file.write(first)
        for number, (code, length) in enumerate(records, start=2):
            os.pwrite(file.fileno(), number.to_bytes(4, 'big') + bytes((18, code, 18, 20)) + length.to_bytes(4, 'big'), at)
            at += length
        os.pwrite(file.fileno(), b' ' * 4000, 732)
        os.pwrite(file.fileno(), b' ' * 1000, 720 + 4096 + 12)
        file.truncate(at)
    hold('a leader of large records', ran('walk', 'leader', path), Ran(ACCEPTED, f'COMPLETE {len(records) + 1} RECORDS {at} BYTES\n', ''))
    blank = ''.join(f'{i} BLANK\n' for i in range(1, 14))
    hold('its fields', ran('fields', path).rows, f'{blank}COMPLETE {len(records) + 1} RECORDS {at} BYTES\n')
    with open(path, 'ab') as file:
        file.write(b'.')
    hold('and a byte', ran('fields', path).rows, f'{blank}REFUSED 9 RECORD {len(records) + 2} AT {at}\n')
    path.unlink()
    return f'a leader of {at} bytes'


# Progress -------------------------------------------------------------------------------------------------


def terminal(fd: int) -> str:
    """What has been written to a terminal whose other end is closed."""
    data = b''
    try:
        while piece := os.read(fd, 4096):
            data += piece
    except OSError:
        pass  # Linux says so that there is no more
    os.close(fd)
    return data.decode()


def progress() -> str:
    """Where standard error is a terminal and the work takes over a second; not where the rows go to a terminal as well, nor where it is quick."""
    ours, theirs = pty.openpty()
    quick = ran('list', sparse('quick', 20, 2048), stderr=theirs)
    os.close(theirs)
    hold('a quick listing', (quick.status, terminal(ours)), (ACCEPTED, ''))
    path, due = sparse('slow', 8000, 2048), sparse_rows(8000) + 'COMPLETE 8001 RECORDS 16384720 BYTES\n'
    (ours, theirs), (rows, to_rows), (beside, to_beside) = pty.openpty(), pty.openpty(), pty.openpty()
    with halted('list', path, stderr=theirs) as run, subprocess.Popen([*COMMAND, 'list', str(path)], stdout=to_rows, stderr=to_beside) as other:
        for fd in (theirs, to_rows, to_beside):
            os.close(fd)
        run.read(1)
        time.sleep(1.1)
        run.read()
        hold('a slow listing', (run.child.wait(LONG), run.rows.decode()), (ACCEPTED, due))
        hold('one on a terminal, slow as well', other.poll(), None)
        hold('its rows', terminal(rows).replace('\r', ''), due)
        hold('its end', other.wait(LONG), ACCEPTED)
    matches('progress', terminal(ours), rf'(ceos: {re.escape(str(path)[-40:])}: \d+ % of 16384720 bytes\r +\r)+')
    hold('no progress beside rows', terminal(beside), '')
    return 'two slow listings and a quick one with a terminal for messages'


def build() -> str:
    """Without a warning."""
    done = subprocess.run([str(HOME / 'scripts' / 'host')], capture_output=True, text=True, timeout=3000)
    hold('scripts/host', done.returncode, 0)
    hold('its warnings', re.findall(r'host/.*warning: .*', done.stderr), [])
    return 'built target/host/ without a warning'


def example() -> str:
    """The example of README.md."""
    path, program = folder / 'scene', [*BY, str(HOME / 'target' / 'host' / 'example')]
    subprocess.run([str(HOME / 'scripts' / 'scene'), 'palsar', str(path)], check=True)
    data = path.read_bytes()
    _, _, samples, _ = oracle.line_view(data, 3)
    found = subprocess.run([*program, str(path)], capture_output=True, text=True, timeout=LONG)
    hold('the example', (found.returncode, found.stdout.split()), (0, [str(pixel) for pixel in oracle.row_copy(data, 3, [0] * samples)[1]]))
    path.write_bytes(data[:3000])
    found = subprocess.run([*program, str(path)], capture_output=True, text=True, timeout=LONG)
    hold('the example, cut', (found.returncode, found.stdout), (1, f'{oracle.line_view(data[:3000], 3)[1]} bytes are still to come\n'))
    for shown in re.findall(r'```c\n(.*?)```', (HOME / 'README.md').read_text(), re.S):
        hold("README.md's example is host/example.c", shown, (HOME / 'host' / 'example.c').read_text())
    return 'the example of host/example.c on a whole scene and a cut one'


def main() -> int:
    global folder
    began = time.monotonic()
    with tempfile.TemporaryDirectory() as name:
        folder = Path(name)
        parts = (build, walks, lists, long_records, lines, fields, sets, no_files, wrong_use, outputs, changing, large, far_places, progress, example)
        status = all_parts('tests/programs/ceos.py', parts)
    if status == 0:
        print(f'tests/programs/ceos.py: {checks[0]} checks in {time.monotonic() - began:.0f} s')
    return status


if __name__ == '__main__':
    sys.exit(main())
