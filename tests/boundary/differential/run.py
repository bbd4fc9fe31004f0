#!/usr/bin/env python3
"""Holds the library to the oracle through the C boundary: run.py [--cases N] [--seed S] [--only SORT:BLOCK] [--selftest]

Questions are drawn, asked of the library by a C program on standard input and output (driver.c, under the emulator on
Arm), and every number of every reply is held to the oracle in Python (tests/oracle), which was written from document 01
and nothing of ours. A case is one call with all its arrays. It says how many cases of each sort and which refusals
were seen; at the first difference it says what was asked, what was due and what was found, how to ask again, and exits
with 1. --selftest alters the library's answers behind its back (wrong.c), each time in one way, and sees that each is noticed."""
import argparse
import os
import platform
import random
import re
import subprocess
import sys
import tempfile
import time
from collections import Counter
from pathlib import Path
from typing import Generator, Iterator, Optional

sys.dont_write_bytecode = True
HERE = Path(__file__).resolve().parent
sys.path.insert(0, str(HERE))
from asking import LETTERS, REFUSALS, STATE, TAGS, Asking, Disagree, Reached, told  # noqa: E402
import reader  # noqa: E402
import sorts  # noqa: E402
from sorts import BY_NAME, SORTS  # noqa: E402

HOME = HERE.parent.parent.parent
MADE = HOME / 'target' / 'differential'
LIBRARY = HOME / 'target' / 'lib' / 'libseobangyu.a'
RUN, CC = str(HOME / 'scripts' / 'run'), str(HOME / 'scripts' / 'cc')
CASES, SEED = 200_000, 20260
SELFTEST = 14_000  # cases that the wrong libraries are asked
BATCH = 6_000_000  # bytes of questions and replies, about
LONG = 120 if platform.machine() == 'x86_64' else 1200  # seconds that a batch may take
LISTINGS = 200  # inputs of the listing program
ENOUGH = 20_000  # cases that must bring every answer and every refusal
Where = tuple[int, str, int]  # seed, sort, block


# Building ------------------------------------------------------------------------------------------------


def sources() -> Iterator[Path]:
    """The code that the library is made of: the crates of the boundary and what they need."""
    boundary = subprocess.run([str(HOME / 'scripts' / 'boundary')], check=True, capture_output=True, text=True).stdout.split()
    needs = subprocess.run([str(HOME / 'scripts' / 'closure'), *boundary], check=True, capture_output=True, text=True).stdout
    for crate in needs.split():
        yield from (HOME / 'crates' / crate / 'src').glob('**/*.rt')
    yield HOME / 'include' / 'seobangyu.h'


def build_library() -> None:
    newest = max(path.stat().st_mtime for path in sources())
    if not LIBRARY.exists() or LIBRARY.stat().st_mtime < newest:
        print('differential: the library is missing or older than its sources: scripts/lib', flush=True)
        subprocess.run([str(HOME / 'scripts' / 'lib')], check=True, stdout=subprocess.DEVNULL)


def build(name: str, *words: str) -> Path:
    """The driver over the library, in target/differential."""
    MADE.mkdir(parents=True, exist_ok=True)
    program = MADE / name
    flags = ['-std=c11', '-O2', '-Wall', '-Wextra', '-Werror', f'-I{HOME / "include"}']
    subprocess.run([CC, *flags, '-o', str(program), str(HERE / 'driver.c'), *words, str(LIBRARY)], check=True)
    return program


# Asking --------------------------------------------------------------------------------------------------


def replies(program: Path, questions: bytes, wrong: str = '') -> tuple[bytes, str]:
    """What the driver wrote, and how it ended if that was not well."""
    with tempfile.TemporaryFile() as file:  # questions from a file: neither side waits for the other
        file.write(questions)
        file.seek(0)
        try:
            done = subprocess.run([RUN, str(program)], stdin=file, capture_output=True, timeout=LONG, env={**os.environ, 'WRONG': wrong})
        except subprocess.TimeoutExpired as late:
            return late.stdout or b'', f'the driver did not end in {LONG} s'
    ended = f'the driver ended with {done.returncode} {done.stderr.decode(errors="replace").strip()}' if done.returncode else ''
    return done.stdout, ended


def drawn(where: Where) -> random.Random:
    return random.Random('%d %s %d' % where)


def first_wrong(ask: Asking, found: bytes) -> Optional[int]:
    """The number of the first question whose reply is not the one due."""
    if found == ask.due:
        return None
    begun = 0
    for number, end in enumerate(ask.ends):
        if found[begun:end] != ask.due[begun:end]:
            return number
        begun = end
    return len(ask.ends) - 1


def parted(letter: str, due: bytes, found: bytes) -> str:
    """Where two replies differ, in words."""
    if not found:
        return '    no reply'
    one, other = told(letter, due), told(letter, found)
    other += ['nothing'] * (len(one) - len(other))
    differ = [f'    due {a}, found {b}' for a, b in zip(one, other) if a != b]
    return '\n'.join(differ[:12] + [f'    and {len(differ) - 12} more'] * (len(differ) > 12))


def report(program: Path, where: Where, number: int, found: bytes, ended: str) -> None:
    """The case in words, how to repeat it, and whether it differs when it is asked alone."""
    seed, name, block = where
    print(f'DIFFERENCE: seed {seed}, sort {name}, block {block}, question {number} of it')
    try:
        BY_NAME[name](drawn(where), Asking(stop_at=number), block)
    except Reached as case:
        letter = next(key for key, title in LETTERS.items() if case.words.startswith(title + ':'))
        kept = MADE / 'difference'
        kept.write_bytes(case.alone)
        alone, ended_alone = replies(program, case.alone)
        print(f'  asked: {case.words}')
        print(f'  {ended}\n' * bool(ended) + parted(letter, case.due, found[:len(case.due)]))
        same = 'differs as well' if alone != case.due or ended_alone else 'is right, so it needs the questions before it'
        print(f'  that question alone {same}: scripts/run {program.relative_to(HOME)} <{kept.relative_to(HOME)}')
    print(f'  to repeat: python3 tests/boundary/differential/run.py --seed {seed} --only {name}:{block}', flush=True)


class Batch:
    """Blocks of questions that go to one run of the driver."""

    def __init__(self, program: Path) -> None:
        self.program, self.ask = program, Asking()
        self.blocks: list[tuple[int, Where]] = []  # the first question of each

    def add(self, where: Where) -> int:
        """Asks a block and gives how many questions it had."""
        first = len(self.ask.ends)
        self.blocks.append((first, where))
        self.ask.held, self.ask.state = bytearray(), [-1] * STATE  # a block stands for itself
        self.ask.set_state([0] * STATE)
        BY_NAME[where[1]](drawn(where), self.ask, where[2])
        return len(self.ask.ends) - first

    def full(self) -> bool:
        return len(self.ask.questions) + len(self.ask.due) > BATCH

    def right(self) -> bool:
        """Whether every reply is the one due; if not, the first that is not is reported."""
        found, ended = replies(self.program, bytes(self.ask.questions))
        number = first_wrong(self.ask, found)
        if number is None and not ended:
            return True
        number = len(self.ask.ends) - 1 if number is None else number
        first, where = max(block for block in self.blocks if block[0] <= number)
        begun = self.ask.ends[number - 1] if number else 0
        report(self.program, where, number - first, found[begun:], ended)
        return False


# Running -------------------------------------------------------------------------------------------------


class Tally:
    def __init__(self) -> None:
        self.sorts: Counter[str] = Counter()
        self.tags: Counter[int] = Counter()
        self.refusals: Counter[int] = Counter()
        self.unanswered = self.accepted = 0

    def add(self, ask: Asking) -> None:
        self.tags += ask.tags
        self.refusals += ask.refusals
        self.unanswered += ask.unanswered
        self.accepted += ask.accepted

    def say(self, seconds: float) -> None:
        words = {number: word for word, number in TAGS.items()}
        print(f'differential: {sum(self.sorts.values())} cases in {seconds:.0f} s, no difference')
        print('  sorts: ' + ', '.join(f'{name} {many}' for name, many in self.sorts.items()))
        print('  answers: ' + ', '.join(f'{words[tag]} {self.tags[tag]}' for tag in sorted(words)) + f', no answer (an array too short) {self.unanswered}')
        print(f'  acceptance told a second way, by the list of a file\'s records: {self.accepted}')
        print('  refusals: ' + ', '.join(f'{number}: {self.refusals[number]}' for number in REFUSALS))

    def missing(self) -> list[str]:
        return [f'tag {tag}' for tag in TAGS.values() if not self.tags[tag]] + [f'refusal {number}' for number in REFUSALS if not self.refusals[number]]


def blocks(cases: int, seed: int) -> Generator[Where, int, None]:
    """Blocks of every sort in turn, until each sort has its share; it is sent how many questions a block had."""
    due = {sort: cases * share // sum(SORTS.values()) + 1 for sort, share in SORTS.items()}
    block = 0
    while any(left > 0 for left in due.values()):
        for sort in SORTS:
            if due[sort] > 0:
                due[sort] -= yield seed, sort.__name__, block
        block += 1


def asked(program: Path, cases: int, seed: int, tally: Tally) -> Iterator[Batch]:
    """The batches of a run, each full but the last."""
    batch, chosen = Batch(program), blocks(cases, seed)
    where = next(chosen)
    try:
        while True:
            many = batch.add(where)
            tally.sorts[where[1]] += many
            if batch.full():
                yield batch
                batch = Batch(program)
            where = chosen.send(many)
    except StopIteration:
        yield batch


def run(cases: int, seed: int) -> int:
    began, tally, program = time.monotonic(), Tally(), build('driver')
    try:
        for batch in asked(program, cases, seed, tally):
            if not batch.right():
                return 1
            tally.add(batch.ask)
    except Disagree as no:
        print(f'the oracle disagrees with itself: {no}')
        return 1
    tally.say(time.monotonic() - began)
    missing = tally.missing() if cases >= ENOUGH else []
    if missing:
        print(f'NOT SEEN: {", ".join(missing)}')
    return 1 if missing or not listings(seed) else 0


def repeat(seed: int, only: str) -> int:
    name, _, block = only.partition(':')
    if name not in BY_NAME or not block.isdigit():
        print(f'--only SORT:BLOCK, where SORT is one of {" ".join(BY_NAME)}')
        return 2
    batch = Batch(build('driver'))
    many = batch.add((seed, name, int(block)))
    if not batch.right():
        return 1
    print(f'differential: {many} cases of {only}, no difference')
    return 0


def listings(seed: int) -> bool:
    """The listing program on drawn images, if it is built: its rows are the oracle's."""
    if not (HOME / 'crates' / 'ceoslist' / 'out' / 'ceoslist').exists():
        print('  the listing program is not built (rt run in crates/ceoslist): it was not asked')
        return True
    for number in range(LISTINGS):
        data = sorts.listed_file(drawn((seed, 'ceoslist', number)), number)
        done = subprocess.run([RUN, 'ceoslist'], input=data, stdout=subprocess.PIPE)
        if done.returncode or done.stdout != reader.listing(data):
            (MADE / 'difference.img').write_bytes(data)
            print(f'DIFFERENCE: seed {seed}, listing {number}: scripts/run ceoslist <target/differential/difference.img')
            print(f'  due {reader.listing(data)!r}\n  found {done.stdout!r}, status {done.returncode}')
            return False
    print(f'  the listing program: {LISTINGS} images, no difference')
    return True


# Does it bite? -------------------------------------------------------------------------------------------


def selftest(seed: int) -> int:
    """Every way of wrong.c is noticed, and the same driver with none of them is right."""
    began, tally = time.monotonic(), Tally()
    names = re.findall(r'^uint64_t REAL\((\w+)\)', (HERE / 'wrong.c').read_text(), re.M)
    program = build('wrong', str(HERE / 'wrong.c'), *(f'-Wl,--wrap={name}' for name in names), '-lm')
    ways = sorted(set(re.findall(r'wrong\("([\w-]+)"\)', (HERE / 'wrong.c').read_text())))
    batches = list(asked(program, SELFTEST, seed, tally))
    if not all(batch.right() for batch in batches):
        return 1
    missed = []
    for way in ways:
        wrongs = (first_wrong(batch.ask, replies(program, bytes(batch.ask.questions), way)[0]) for batch in batches)
        if all(wrong is None for wrong in wrongs):
            missed.append(way)
    noticed, cases = len(ways) - len(missed), sum(tally.sorts.values())
    print(f'differential: {noticed} of {len(ways)} wrong libraries noticed in {cases} cases, {time.monotonic() - began:.0f} s')
    if missed or len(ways) < 80:
        print(f'NOT NOTICED: {", ".join(missed)}')
        return 1
    return 0


def main() -> int:
    words = argparse.ArgumentParser(description=__doc__, formatter_class=argparse.RawDescriptionHelpFormatter)
    words.add_argument('--cases', type=int, default=CASES, help=f'at least so many ({CASES})')
    words.add_argument('--seed', type=int, default=SEED)
    words.add_argument('--only', metavar='SORT:BLOCK', help='one block of one sort')
    words.add_argument('--selftest', action='store_true')
    given = words.parse_args()
    try:
        build_library()
        if given.selftest:
            return selftest(given.seed)
        return repeat(given.seed, given.only) if given.only else run(given.cases, given.seed)
    except subprocess.CalledProcessError as failed:
        print(f'differential: could not be built: {" ".join(failed.cmd)}')
        return 2


if __name__ == '__main__':
    sys.exit(main())
