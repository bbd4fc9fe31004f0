#!/usr/bin/env python3
"""Runs `ceos card build` and `ceos card show` as a user would and holds them to the oracle's cards (tests/oracle/cards.py).

Accepted scenes, a refused image, a refused leader; cards with every byte altered and cut at every byte; a disk that is
too short, folders that cannot be written to, names that are taken by what is read; runs that are ended while they
write. It says what it tried and how many checks that were, and exits with 1 at the first difference."""
import os
import random
import resource
import signal
import subprocess
import sys
import tempfile
import time
from concurrent.futures import ThreadPoolExecutor
from pathlib import Path
from typing import Any, Callable, Iterator, Union

sys.dont_write_bytecode = True
sys.path.insert(0, str(Path(__file__).resolve().parent))
import ceos  # noqa: E402
from ceos import ACCEPTED, COMMAND, EVERY, FAILED, LONG, REFUSED, Case, filed, matches, messages_due, ran, refusal, sparse, try_all, walked  # noqa: E402
from running import NATIVE, Ran, all_parts, checks, hold  # noqa: E402
import cards  # noqa: E402  (ceos.py puts tests/oracle on the path)
import make  # noqa: E402
import make_cards  # noqa: E402
from cards import Card  # noqa: E402
from reader import IMAGE, LEADER, Answer  # noqa: E402

FILLS = [(0, 3, 0), (1, 2, 0)]  # of the scene that the pages show


# What is due ----------------------------------------------------------------------------------------------


def card_row(card: Card, size: int) -> str:
    return f'CARD {card.n} LINES {len(card.leaders)} LEADERS {size} BYTES\n'


def shown(data: bytes) -> tuple[str, int]:
    """The rows of `card show` and the status."""
    said: Union[Card, Answer] = cards.read(data)
    if not isinstance(said, Card):
        return refusal(said)
    rows = f'IMAGE {said.n} LINES {said.w} PIXELS LENGTH {said.length} DATA {said.d}\n'
    rows += ''.join(f'LINE {k} LEFT {left} DATA {samples}\n' for k, (left, samples) in enumerate(said.lines, start=1))
    rows += ''.join(f'LEADER {k} START {begun} LENGTH {length}\n' for k, (begun, length) in enumerate(said.leaders, start=1))
    return rows + card_row(said, len(data)), ACCEPTED


def show_case(data: bytes) -> Case:
    return Case(['card', 'show'], [data], [], *shown(data))


def built(image: bytes, leader: bytes) -> tuple[str, int, bytes]:
    """The rows of `card build` but for the card's own, the status, and the card; none where a file is refused."""
    rows = ''
    for i, (kind, data) in enumerate(((IMAGE, image), (LEADER, leader))):
        _, row, status = walked(kind, data, True)
        rows += f'<{i}>: {row}'
        if status != ACCEPTED:
            return rows, status, b''
    said = cards.card_of(image, leader)
    assert isinstance(said, Card)
    return rows, ACCEPTED, cards.written(said)


# Scenes ---------------------------------------------------------------------------------------------------


def in_folder(folder: Path) -> set[str]:
    return set(os.listdir(folder))


def scene_in(folder: Path, image: bytes, leader: bytes) -> tuple[Path, Path]:
    folder.mkdir(exist_ok=True)
    (folder / 'IMG').write_bytes(image)
    (folder / 'LED').write_bytes(leader)
    return folder / 'IMG', folder / 'LED'


def small_scene() -> tuple[bytes, bytes]:
    rng = random.Random(80)
    image = make.make_image(rng, make.image_plan(2, 3, 0, 198), FILLS).data
    return image, make.make_leader(rng, make.leader_plan([(0, 0)] * 5, [(0, 0)] * 11)).data


def build_once(number: int, image: bytes, leader: bytes, given: bool) -> None:
    """One run in a folder of its own: its rows, its status, and nothing there but the two files and a card that is due."""
    folder = ceos.folder / f'scene-{number}'
    paths = scene_in(folder, image, leader)
    name = folder / 'other' if given else folder / 'IMG.card'
    due, status, card = built(image, leader)
    messages = messages_due(due, paths, (image, leader))
    found = ran('card', 'build', *paths, *([name] if given else []))
    due = due.replace('<0>', str(paths[0])).replace('<1>', str(paths[1]))
    what = f'scene {number}, {len(image)} and {len(leader)} bytes'
    if card:
        said = cards.read(card)
        assert isinstance(said, Card)
        due += f'{name}: {card_row(said, len(card))}'
    hold(what, (found.status, found.rows), (status, due))
    hold(f'{what}: files', in_folder(folder), {'IMG', 'LED', *([name.name] if card else [])})
    if card:
        hold(f'{what}: the card', name.read_bytes().hex(), card.hex())
        hold(f'{what}: the card shown', ran('card', 'show', name), Ran(ACCEPTED, shown(card)[0], ''))
    matches(what, found.messages, messages)
    for path in folder.iterdir():
        path.unlink()


def drawn_scenes() -> Iterator[tuple[bytes, bytes, bool]]:
    """An image and a leader, both good, one damaged, both, cut, exchanged; with a name for the card or without."""
    rng = random.Random(81)
    for _ in range(30):
        image, leader = make.random_file(rng, IMAGE), make.random_file(rng, LEADER)
        bad_image, bad_leader = make.damage(rng, image), make.damage(rng, leader)
        for one, other in ((image.data, leader.data), (bad_image, leader.data), (image.data, bad_leader), (bad_image, bad_leader)):
            yield one, other, rng.random() < 0.5
        yield image.data[:rng.randrange(len(image.data))], leader.data, False
        yield image.data, leader.data[:rng.randrange(len(leader.data))], True
    yield leader.data, image.data, False
    yield b'', b'', False


def scenes() -> str:
    some = list(drawn_scenes())[::EVERY]
    statuses = [built(image, leader)[1] for image, leader, _ in some]
    hold('some are accepted, some refused', (statuses.count(ACCEPTED) >= 6, statuses.count(REFUSED) >= 6), (True, True))
    with ThreadPoolExecutor(2) as pool:
        list(pool.map(lambda numbered: build_once(numbered[0], *numbered[1]), enumerate(some)))
    return f'{len(some)} scenes, {statuses.count(ACCEPTED)} of them with a card'


def built_again() -> str:
    """A card that is there is replaced; where a file is refused it stays, byte for byte."""
    image, leader = small_scene()
    folder = ceos.folder / 'again'
    paths = scene_in(folder, image, leader)
    card = folder / 'IMG.card'
    card.write_bytes(b'an old card, and a longer one than the new' * 9)
    hold('built over an old card', ran('card', 'build', *paths).status, ACCEPTED)
    due = built(image, leader)[2]
    hold('it is the new one', card.read_bytes(), due)
    hold('what the umask leaves', card.stat().st_mode & 0o777, paths[0].stat().st_mode & 0o777)
    paths[0].write_bytes(image[:-1])
    hold('a refused image', ran('card', 'build', *paths).status, REFUSED)
    paths[0].write_bytes(image)
    paths[1].write_bytes(leader + b'.')
    hold('a refused leader', ran('card', 'build', *paths).status, REFUSED)
    hold('the card is as it was', (card.read_bytes(), in_folder(folder)), (due, {'IMG', 'LED', 'IMG.card'}))
    return 'a card built over another, and kept where a file is refused'


# Cards that are damaged -----------------------------------------------------------------------------------


def altered(data: bytes) -> Iterator[bytes]:
    """Every byte altered: each bit, the kinds, the ends of its range."""
    for at, byte in enumerate(data):
        for other in sorted({byte ^ 1 << bit for bit in range(8)} | {0, 1, 2, 3, 4, 255, (byte + 1) % 256, (byte - 1) % 256} - {byte}):
            yield data[:at] + bytes((other,)) + data[at + 1:]


def damaged_cards() -> str:
    image, leader = small_scene()
    card = built(image, leader)[2]
    hold('the small card', len(card), 17 + 2 * 13 + 2 * 10)
    cases = [show_case(data) for data in altered(card)]
    for size in range(len(card) + 1):
        cases.append(show_case(card[:size]))
    cases += [show_case(card + more) for more in (b'\0', b'\1', b'\2', b'\3', b'\4', b'\xff', card, card[43:53], card[53:], card[17:30])]
    seen = {case.rows.split()[1] for case in cases if case.status == REFUSED}
    hold('their refusals', seen, {'20', '21', '22'})
    return try_all('small cards altered, cut and added to', cases)


def drawn_cards() -> str:
    rng, cases = random.Random(82), []
    for _ in range(60):
        made = make_cards.random_card(rng)
        cases += [show_case(made.data), show_case(make_cards.damage(rng, made)), show_case(make_cards.damage(rng, made))]
    cases += [show_case(make_cards.far_leaders(rng)[0]) for _ in range(4)]
    cases += [show_case(make_cards.card_like(rng, 3000, 50).data), show_case(make.random_file(rng, IMAGE).data)]
    return try_all('cards shown', cases)


# Cards that cannot be written -----------------------------------------------------------------------------


def no_room() -> None:
    """Files may have 40 bytes: a write gets so far and no further, as on a disk that is full."""
    resource.setrlimit(resource.RLIMIT_FSIZE, (40, 40))


def unwritten(what: str, name: Any, why: str, folder: Path, **how: Any) -> None:
    """A message and status 2, and in the folder all is as before."""
    before = {path.name: path.read_bytes() for path in folder.iterdir() if path.is_file()}
    found = ran('card', 'build', folder / 'IMG', folder / 'LED', *([] if name is None else [name]), **how)
    card = folder / 'IMG.card' if name is None else name
    hold(what, found.status, FAILED)
    matches(what, found.messages, f'ceos: {card}: {why}\n')
    hold(f'{what}: no card is told', 'CARD' in found.rows, False)
    hold(f'{what}: the folder', {path.name: path.read_bytes() for path in folder.iterdir() if path.is_file()}, before)


def cannot_write() -> str:
    image, leader = small_scene()
    folder = ceos.folder / 'closed'
    scene_in(folder, image, leader)
    unwritten('a short disk', None, 'cannot be written: File too large', folder, preexec_fn=no_room)
    (folder / 'IMG.card').write_bytes(b'an old card')
    unwritten('a short disk, and an old card', None, 'cannot be written: File too large', folder, preexec_fn=no_room)
    (folder / 'below').mkdir()
    ways: dict[Any, str] = {
        folder / 'missing' / 'card': 'cannot be written: No such file or directory',
        folder / 'LED' / 'card': 'cannot be written: Not a directory',
        folder / ('x' * 256): 'cannot be written: File name too long',
        folder / 'below': 'is no file on disk; .+',
        '/dev/full': 'is no file on disk; .+',
        folder / 'IMG': 'is the file that is read; .+',
        folder / 'LED': 'is the file that is read; .+',
        folder / 'below' / '..' / 'IMG': 'is the file that is read; .+',
    }
    for name, why in ways.items():
        unwritten(str(name), name, why, folder)
    if os.geteuid() != 0:
        folder.chmod(0o555)
        unwritten('a folder that may not be written to', folder / 'new', 'cannot be written: Permission denied', folder)
        folder.chmod(0o755)
    longest = folder / ('y' * 255)
    hold('a name as long as it may be', ran('card', 'build', folder / 'IMG', folder / 'LED', longest).status, ACCEPTED)
    hold('its card', longest.read_bytes(), built(image, leader)[2])
    here = ran('card', 'build', 'IMG', 'LED', 'here', cwd=folder)
    hold('a name without a folder', (here.status, here.rows.splitlines()[-1], (folder / 'here').read_bytes()),
         (ACCEPTED, f'here: CARD 2 LINES 2 LEADERS {17 + 26 + 20} BYTES', built(image, leader)[2]))
    with open('/dev/full', 'w') as full:
        found = ran('card', 'build', folder / 'IMG', folder / 'LED', stdout=full)
    hold('output that fails: the card is there', (found.status, (folder / 'IMG.card').read_bytes()), (FAILED, built(image, leader)[2]))
    return f'{len(ways) + 2} cards that cannot be written, each without a trace'


LINES, LENGTH, WIDE = 60_000, 4096, 500  # an image that takes long enough to be ended meanwhile


def large_card() -> bytes:
    """By the fills that `sparse` writes, and the two records of the small leader."""
    fills = [(line % 7, WIDE - line % 7 - line % 5) for line in range(1, LINES + 1)]
    return cards.written(Card(LINES, LENGTH, WIDE, 2 * WIDE, fills, [(0, 720), (720, 4096)]))


def wait_for(folder: Path, child: 'subprocess.Popen[bytes]', seconds: float) -> None:
    """So long, or until the new card is being written beside its place, or the run has ended."""
    end = time.monotonic() + seconds
    while time.monotonic() < end and child.poll() is None and not any(name.startswith('.') for name in os.listdir(folder)):
        pass


def ended_midway() -> str:
    """Runs ended by a signal at any time: there is no card, the old one or the new one, and nothing else."""
    folder = ceos.folder / 'ended'
    folder.mkdir()
    sparse('ended/IMG', LINES, LENGTH, WIDE)
    (folder / 'LED').write_bytes(small_scene()[1])
    words = [*COMMAND, 'card', 'build', str(folder / 'IMG'), str(folder / 'LED')]
    began = time.monotonic()
    hold('not ended', subprocess.run(words, capture_output=True, timeout=LONG).returncode, ACCEPTED)
    whole, took = (folder / 'IMG.card').read_bytes(), time.monotonic() - began
    hold(f'a card of {LINES} lines', whole == large_card(), True)
    rng, outcomes = random.Random(84), []
    for turn in range(24 if NATIVE else 6):
        old = rng.choice((None, b'an old card'))
        (folder / 'IMG.card').unlink(missing_ok=True)
        if old is not None:
            (folder / 'IMG.card').write_bytes(old)
        child = subprocess.Popen(words, stdout=subprocess.DEVNULL, stderr=subprocess.DEVNULL)
        wait_for(folder, child, rng.choice((LONG, rng.uniform(0.2, 1.1) * took)))
        child.send_signal(rng.choice((signal.SIGINT, signal.SIGTERM, signal.SIGHUP)))
        child.wait(LONG)
        there = in_folder(folder)
        card = (folder / 'IMG.card').read_bytes() if 'IMG.card' in there else None
        hold(f'run {turn}, ended: its card is the old one or the new one', card in (old, whole), True)
        hold(f'run {turn}, ended: files', there - {'IMG.card'}, {'IMG', 'LED'})
        outcomes.append(card == whole)
    shrunk = [shrinks_midway(folder, words, took, whole) for _ in range(4)]
    (folder / 'IMG').unlink()
    return (f'{len(outcomes)} runs ended by a signal: {sum(outcomes)} with the new card, the others as before; '
            f'{len(shrunk)} images cut meanwhile, {sum(shrunk)} of them seen')


def shrinks_midway(folder: Path, words: list[str], took: float, whole: bytes) -> bool:
    """An image that is cut while it is read: a message and no card; or the run had ended before."""
    size = (folder / 'IMG').stat().st_size
    (folder / 'IMG.card').unlink(missing_ok=True)
    child = subprocess.Popen(words, stdout=subprocess.DEVNULL, stderr=subprocess.PIPE)
    time.sleep(0.4 * took)
    os.truncate(folder / 'IMG', size - 100)
    _, messages = child.communicate(timeout=LONG)
    seen = child.returncode == FAILED
    if seen:
        matches('an image that is cut', messages.decode(), f'ceos: {folder}/IMG: shrank .+\n')
        hold('an image that is cut', in_folder(folder), {'IMG', 'LED'})
    else:
        hold('an image that was cut too late', (child.returncode, (folder / 'IMG.card').read_bytes() == whole), (ACCEPTED, True))
    os.truncate(folder / 'IMG', size)  # what was cut was a hole
    return seen


# Files that are none, changes, use ------------------------------------------------------------------------


def no_files() -> str:
    image, leader = small_scene()
    good, led = filed('good image', image), filed('good leader', leader)
    for words, name, why in ((['card', 'build', ceos.folder / 'missing', led], 'missing', 'No such file or directory'),
                             (['card', 'build', good, ceos.folder / 'missing'], 'missing', 'No such file or directory'),
                             (['card', 'build', good, ceos.folder], '', 'is a directory; .+'),
                             (['card', 'show', ceos.folder / 'missing'], 'missing', 'No such file or directory'),
                             (['card', 'show', ceos.folder], '', 'is a directory; .+')):
        found = ran(*words)
        hold(f'{words}', (found.status, found.rows), (FAILED, ''))
        matches(f'{words}', found.messages, f'ceos: {ceos.folder}/?{name}: {why}\n')
    hold('no card was put there', (ceos.folder / 'missing.card').exists() or (ceos.folder / 'good image.card').exists(), False)
    return '5 names of no file'


def wrong_use() -> str:
    ways = [['card'], ['card', 'build'], ['card', 'build', 'x'], ['card', 'build', 'x', 'y', 'z', 'u'], ['card', 'show'], ['card', 'show', 'x', 'y'],
            ['card', 'look', 'x'], ['--open', 'card', 'build', 'x', 'y'], ['card', 'show', 'x', '--open'], ['build', 'x', 'y']]
    for words in ways:
        found = ran(*words)
        hold(f'{words}', (found.status, found.rows), (FAILED, ''))
        matches(f'{words}', found.messages, r"ceos: .+; 'ceos --help' says how it is used\n")
    for part in ('ceos card build IMG LED [CARD]', 'ceos card show CARD', 'CARD 2 LINES 3 LEADERS 73 BYTES'):
        hold(f'the help: {part}', part in ran('--help').rows, True)
    return f'{len(ways)} wrong uses'


def main() -> int:
    began = time.monotonic()
    with tempfile.TemporaryDirectory() as name:
        ceos.folder = Path(name)
        parts: tuple[Callable[[], str], ...] = (
            ceos.build, scenes, built_again, damaged_cards, drawn_cards, cannot_write, ended_midway, no_files, wrong_use)
        status = all_parts('tests/programs/ceos_card.py', parts)
    if status == 0:
        print(f'tests/programs/ceos_card.py: {checks[0]} checks in {time.monotonic() - began:.0f} s')
    return status


if __name__ == '__main__':
    sys.exit(main())
