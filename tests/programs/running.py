"""What the tests share that run a built program as a user would, ceoslist.py and ceos.py.

A fault, what a run left, two answers held to each other, and one part of a test after the other."""
import os
import platform
import subprocess
from dataclasses import dataclass
from typing import Any, AnyStr, Callable, Generic, Sequence

NATIVE = platform.machine() == 'x86_64'
checks = [0]


class Wrong(Exception):
    """The program did something else than it must."""


@dataclass(frozen=True)
class Ran(Generic[AnyStr]):
    """What a run left: how it ended, its rows and its messages."""

    status: int
    rows: AnyStr
    messages: AnyStr


def hold(what: str, found: Any, due: Any) -> None:
    """The two are the same; else they are shown from a little before where they part."""
    checks[0] += 1
    if found != due:
        one, other = str(found), str(due)
        at = max(0, len(os.path.commonprefix((one, other))) - 40)
        raise Wrong(f'{what}: due ..{other[at:at + 200]}, found ..{one[at:at + 200]}')


def all_parts(test: str, parts: Sequence[Callable[[], str]]) -> int:
    """Each part says what it ran; the first difference ends the test with 1."""
    for part in parts:
        try:
            print(f'{test}: {part()}', flush=True)
        except (Wrong, subprocess.TimeoutExpired, OSError) as fault:
            print(f'{test}: {part.__name__}: {fault}')
            return 1
    return 0
