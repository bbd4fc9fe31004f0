#!/usr/bin/env python3
"""Runs the built listing program as a user would (scripts/run ceoslist), from files and through pipes, and holds it to the oracle.

The cases of tests/examples/listing.py and drawn ones; an image sent byte by byte; a large one under a limit of memory; input and
output that fail. It says what it ran, and exits with 1 at the first difference. It needs `rt ci`, or `rt run` in crates/ceoslist, before it."""
import fcntl
import os
import random
import resource
import select
import subprocess
import sys
import tempfile
from concurrent.futures import ThreadPoolExecutor
from contextlib import contextmanager
from pathlib import Path
from threading import Thread, Timer
from typing import IO, Any, Callable, Iterator, Sequence

sys.dont_write_bytecode = True
sys.path.insert(0, str(Path(__file__).resolve().parent.parent / 'examples'))
import listing  # noqa: E402
from commands import COUNTS, TESTS, held, image, image_first  # noqa: E402
import make  # noqa: E402  (commands.py puts tests/oracle on the path)
import reader  # noqa: E402
from reader import IMAGE  # noqa: E402
from listing import Case  # noqa: E402
from running import NATIVE, Ran, Wrong, all_parts, hold  # noqa: E402

RUN = TESTS.parent / 'scripts' / 'run'
COMMAND = [str(RUN), 'ceoslist']
LONG = 20.0 if NATIVE else 600.0  # seconds after which a program that has not answered is taken to hang
SHORT = 0.03  # seconds in which a row would show that must not come yet
READ_FAILED, WRITE_FAILED = b'ceoslist: read failed\n', b'ceoslist: write failed\n'


# Running it ---------------------------------------------------------------------------------------------


def ran(command: Sequence[str] = COMMAND, **how: Any) -> Ran:
    """To its end. how: what subprocess.run takes."""
    how = {'stdout': subprocess.PIPE, 'stderr': subprocess.PIPE, **how}
    done = subprocess.run(command, timeout=LONG, **how)
    return Ran(done.returncode, done.stdout or b'', done.stderr or b'')


def redirected(words: str) -> list[str]:
    """The command with a shell's redirections behind it."""
    return ['sh', '-c', f'exec "$@" {words}', 'sh', *COMMAND]


@contextmanager
def filed(data: bytes) -> Iterator[IO[bytes]]:
    """An open file with these bytes, which is nowhere once it is closed."""
    with tempfile.TemporaryFile() as file:
        file.write(data)
        file.flush()
        file.seek(0)
        yield file


def from_file(case: Case) -> Ran:
    with filed(case.data) as file:
        return ran(stdin=file)


def through_pipe(case: Case) -> Ran:
    return ran(input=case.data)


def all_of(what: str, cases: Sequence[Case], way: Callable[[Case], Ran]) -> str:
    """Each case by itself, a few at a time."""
    with ThreadPoolExecutor(os.cpu_count()) as pool:
        for number, (case, found) in enumerate(zip(cases, pool.map(way, cases)), start=1):
            hold(f'{what}, number {number} ({len(case.data)} bytes)', found, Ran(0, case.rows, b''))
    return f'{len(cases)} {what}'


class Talk:
    """The program at work: bytes are sent as one likes, and rows taken as they come."""

    def __init__(self) -> None:
        self.child = subprocess.Popen(COMMAND, stdin=subprocess.PIPE, stdout=subprocess.PIPE, stderr=subprocess.PIPE, bufsize=0)
        assert self.child.stdin and self.child.stdout and self.child.stderr
        self.to, self.rows, self.errors = self.child.stdin, self.child.stdout, self.child.stderr
        self.watch = Timer(LONG, self.child.kill)
        self.watch.start()

    def __enter__(self) -> 'Talk':
        return self

    def __exit__(self, *_: Any) -> None:
        self.watch.cancel()
        self.child.kill()
        self.child.wait()
        for stream in (self.to, self.rows, self.errors):
            stream.close()

    def dribble(self, data: bytes) -> None:
        for byte in data:
            os.write(self.to.fileno(), bytes((byte,)))

    def silent(self, what: str) -> None:
        hold(what, select.select([self.rows], [], [], SHORT)[0], [])

    def row(self, what: str) -> bytes:
        """The next row, which must come though no byte is sent."""
        taken = b''
        while not taken.endswith(b'\n'):
            if not select.select([self.rows], [], [], LONG)[0]:
                raise Wrong(f'{what}: no row came, only {taken!r}')
            byte = os.read(self.rows.fileno(), 1)
            if not byte:
                raise Wrong(f'{what}: the output ended behind {taken!r}')
            taken += byte
        return taken

    def ends(self, what: str) -> None:
        """It ends by itself, and says no more."""
        hold(what, Ran(self.child.wait(LONG), self.rows.read(), self.errors.read()), Ran(0, b'', b''))


# Files --------------------------------------------------------------------------------------------------


def line_record(line: int, length: int, fills: tuple[int, int, int], text: bytes = b'.') -> bytes:
    """A line's record in document 01's words: sequence number, codes, length; number, index, fills."""
    head = b''.join(number.to_bytes(4, 'big') for number in (line + 1, int.from_bytes(bytes(COUNTS.line), 'big'), length, line, 1, *fills))
    return head + text * (length - len(head))


def first_record(n: int, w: int, more: int = 0) -> bytes:
    image_first(n, w, more=more)
    return bytes(held[:720])


def cases_of_the_maker() -> str:
    return all_of("files as tests/examples/listing.py makes them", listing.cases, from_file)


def long_lines() -> str:
    """Three lines of the longest records, which the maker's buffer does not hold; whole, cut, and with a byte too many."""
    data = first_record(3, 16288) + b''.join(line_record(line, 32768, (line, 16288 - line, 0)) for line in (1, 2, 3))
    cases = [Case(some, reader.listing(some)) for some in (data, data[:-1], data + b'.', data[:720 + 2 * 32768 + 12])]
    hold('the oracle', cases[0].rows, b'IMAGE 3 LINES 16288 PIXELS\n1 1 16287 0\n2 2 16286 0\n3 3 16285 0\nCOMPLETE 4 RECORDS 99024 BYTES\n')
    return all_of('files with records of 32768 bytes', cases, from_file)


def drawn() -> str:
    rng = random.Random(20260)
    cases = []
    for _ in range(30):
        made = make.random_file(rng, IMAGE)
        for data in (made.data, make.damage(rng, made), make.damage(rng, made)):
            cases.append(Case(data, reader.listing(data)))
    return all_of('drawn images through a pipe, whole and damaged', cases, through_pipe)


# As soon as their record has passed -----------------------------------------------------------------------


def byte_by_byte() -> str:
    """Each row comes behind its record's last byte, not before it, and before a byte of the next record is sent."""
    file = image(3, 5, 2, 7)
    data = bytes(held[:file.size])
    due = reader.listing(data).splitlines(keepends=True)
    with Talk() as talk:
        for record, (start, end) in enumerate(zip(file.starts, file.starts[1:]), start=1):
            talk.dribble(data[start:end - 1])
            talk.silent(f'record {record} but for its last byte')
            talk.dribble(data[end - 1:end])
            hold(f'record {record}', talk.row(f'record {record}'), due[record - 1])
        talk.silent('the whole image, while the input is open')
        talk.to.close()
        hold('the closing row', talk.row('the closing row'), due[-1])
        talk.ends('behind the closing row')
    return f'an image of {len(data)} bytes sent byte by byte: {len(due) - 1} rows each before the next record, one once the input ended'


def ends_while_open() -> str:
    """What ends the listing ends it at once: the input stays open, and the program does not wait for more of it."""
    image(2)
    whole = bytes(held[:1116])
    wrong_number, wrong_length, wrong_line = b'\0\0\0\2', whole[:720] + whole[720:728] + b'\0\0\1\0', whole[:930] + b'\0\0\0\7' + whole[934:]
    ways = {'a wrong first header': wrong_number + whole[4:12], 'a wrong first record': whole[:12] + b'B' + whole[13:720],
            'a wrong line header': wrong_length, 'a wrong line number': wrong_line, 'a byte too many': whole + b'.',
            'a record too long': first_record(2, 16288, 1)}
    for what, data in ways.items():
        with Talk() as talk:
            talk.dribble(data)
            for row in reader.listing(data).splitlines(keepends=True):
                hold(what, talk.row(what), row)
            talk.ends(what)
    return f"{len(ways)} listings that end while the input stays open"


# A large image --------------------------------------------------------------------------------------------

LINES, WIDE, ROOM = 20_000, 10, 2 << 20  # the memory that it may take beside what it has when the first row is printed


def large_lines() -> Iterator[bytes]:
    for line in range(1, LINES + 1):
        left, right = line % 7, line % 3
        yield line_record(line, 212, (left, WIDE - left - right, right), bytes((line % 256,)))


def send(to: IO[bytes], some: Iterator[bytes]) -> None:
    try:
        for piece in some:
            to.write(piece)
        to.close()
    except BrokenPipeError:
        pass  # what was printed will differ


def limit(child: int) -> int:
    """From here on the program may take no more than ROOM beside what it has."""
    most = int(Path(f'/proc/{child}/statm').read_text().split()[0]) * os.sysconf('SC_PAGE_SIZE') + ROOM
    resource.prlimit(child, resource.RLIMIT_AS, (most, most))
    return most


def large() -> str:
    first = first_record(LINES, WIDE)
    data = first + b''.join(large_lines())
    due = reader.listing(data)
    hold('the oracle', due[-44:], b'20000 1 7 2\nCOMPLETE 20001 RECORDS 4240720 BYTES\n'[-44:])
    with Talk() as talk:
        os.write(talk.to.fileno(), first)
        rows = talk.row('the first row')
        most = limit(talk.child.pid)
        sender = Thread(target=send, args=(talk.to, large_lines()))
        sender.start()
        rows += talk.rows.read()
        sender.join()
        hold(f'an image of {LINES} lines', rows, due)
        talk.ends('behind its last row')
    return f'an image of {LINES} lines, {len(data)} bytes, with room for {ROOM} more than the program has at its first row ({most} in all)'


# Input and output that fail -------------------------------------------------------------------------------


def half_readable() -> Ran:
    """A first record, and then reads that fail: the pipe has no more and does not wait."""
    read, write = os.pipe()
    os.write(write, first_record(2, 3))
    fcntl.fcntl(read, fcntl.F_SETFL, os.O_NONBLOCK)
    try:
        return ran(stdin=read)
    finally:
        os.close(read)
        os.close(write)


def input_fails() -> str:
    """A message where errors go, and no closing row: an error is not the input's end."""
    with tempfile.TemporaryDirectory() as folder:
        hold('a directory for input', ran(redirected(f"<'{folder}'")), Ran(0, b'', READ_FAILED))
    hold('input closed', ran(redirected('<&-')), Ran(0, b'', READ_FAILED))
    hold('input that cannot be read', ran(redirected('0>/dev/null')), Ran(0, b'', READ_FAILED))
    hold('input that fails behind the first record', half_readable(), Ran(0, b'IMAGE 2 LINES 3 PIXELS\n', READ_FAILED))
    hold('input and errors closed', ran(redirected('<&- 2>&-')), Ran(0, b'', b''))
    hold('no input', ran(stdin=subprocess.DEVNULL), Ran(0, b'REFUSED 2 RECORD 1 AT 0\n', b''))
    return '5 inputs that fail, and one that is empty'


def output_fails() -> str:
    """A message where errors go, once."""
    whole = listing.printed()
    for words in ('>/dev/full', '>&-', '1</dev/null'):
        for data in (whole, b'', first_record(2, 16288, 1)):
            hold(f'output {words}, {len(data)} bytes', ran(redirected(words), input=data), Ran(0, b'', WRITE_FAILED))
    hold('output full, errors closed', ran(redirected('>/dev/full 2>&-'), input=whole), Ran(0, b'', b''))
    read, write = os.pipe()
    os.close(read)
    found = ran(stdout=write, input=whole, restore_signals=False)  # a signal for it is ignored
    os.close(write)
    hold('output that nobody reads', found, Ran(0, b'', WRITE_FAILED))
    return '11 outputs that fail'


def main() -> int:
    listing.make_all()
    return all_parts('tests/programs/ceoslist.py', (cases_of_the_maker, long_lines, drawn, byte_by_byte, ends_while_open, large, input_fails, output_fails))


if __name__ == '__main__':
    sys.exit(main())
