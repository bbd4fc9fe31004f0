#!/usr/bin/env python3
"""Makes the seeds of the fuzz run: seeds.py FOLDER [HOW-MANY]. Files of the four kinds, cards, images with their leaders, and
damage of them, by the makers of tests/oracle, each behind 16 bytes of choices as fuzz.c reads them."""
import random
import sys
from pathlib import Path

sys.dont_write_bytecode = True
sys.path.insert(0, str(Path(__file__).resolve().parent.parent.parent / 'oracle'))
import make  # noqa: E402
import make_cards  # noqa: E402


def behind_choices(rng: random.Random, kind: int, cut: int, data: bytes) -> bytes:
    budget, line, listed = rng.choice((0, 1, 1, 2, 16, 255)), rng.randint(0, 4), rng.randint(0, 15)
    front = bytes((kind, rng.randrange(4), budget, line, listed)) + cut.to_bytes(2, 'big') + bytes((rng.randrange(43),))
    return front + rng.choice((rng.randrange(10), rng.randrange(2 ** 64))).to_bytes(8, 'little') + data


def seed_file(rng: random.Random, number: int) -> bytes:
    made = make.random_file(rng, make.KINDS[number % 4])
    data = make.damage(rng, made) if number % 3 == 2 else made.data
    cut = rng.choice((*made.starts, rng.randint(0, len(data))))
    kind = made.kind + 240 * (number % 20 == 19)  # now and then one that there is not, by its high bits
    return behind_choices(rng, kind, cut, data)


def seed_card(rng: random.Random, number: int) -> bytes:
    made = make_cards.random_card(rng)
    data = make_cards.damage(rng, made) if number % 3 == 2 else made.data
    return behind_choices(rng, rng.randrange(6), rng.choice((*made.starts, rng.randint(0, len(data)))), data)


def seed_scene(rng: random.Random, number: int) -> bytes:
    """An image, and behind the cut its leader."""
    image, leader = make.random_file(rng, make.IMAGE), make.random_file(rng, make.LEADER)
    behind = make.damage(rng, leader) if number % 3 == 2 else leader.data
    return behind_choices(rng, make.IMAGE, len(image.data), image.data + behind)


def main() -> int:
    if len(sys.argv) not in (2, 3):
        print(__doc__)
        return 2
    rng, home = random.Random(20260), Path(sys.argv[1])
    home.mkdir(parents=True, exist_ok=True)
    for number in range(int(sys.argv[2]) if len(sys.argv) == 3 else 120):
        (home / f'seed{number}').write_bytes(seed_file(rng, number))
        if number % 3 == 0:
            (home / f'card{number}').write_bytes(seed_card(rng, number // 3))
            (home / f'scene{number}').write_bytes(seed_scene(rng, number // 3))
    return 0


sys.exit(main())
