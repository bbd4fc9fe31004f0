#!/usr/bin/env python3
"""scripts/setup beside kits that it has not seen: with an `rt` of another version in front of the path it says one line
and goes on; with a recorded one it says nothing; with no `rt` it stops with a sentence that says what to install."""
import os
import shutil
import subprocess
import sys
import tempfile
from pathlib import Path

HOME = Path(__file__).resolve().parent.parent.parent
# what scripts/setup calls besides rt
TOOLS = ('bash', 'dirname', 'grep', 'python3')
NOTICE = 'setup: this kit has not been tried yet; the gate decides'
MISSING = 'setup: there is no rt on this machine: install a Rattle kit'


def setup(path: str) -> tuple[int, str]:
    run = subprocess.run([HOME / 'scripts' / 'setup'], env={**os.environ, 'PATH': path}, capture_output=True, text=True, timeout=60)
    return run.returncode, run.stdout + run.stderr


def kit(folder: Path, version: str) -> None:
    """An rt that knows nothing but its version."""
    command = folder / 'rt'
    command.write_text(f'#!/bin/sh\necho "{version}"\n')
    command.chmod(0o755)


def recorded() -> list[str]:
    lines = (HOME / 'toolchain.txt').read_text().splitlines()
    return [line.split(' | ')[0] for line in lines if line and not line.startswith('#')]


def main() -> int:
    faults = []

    def hold(what: str, right: bool, seen: tuple[int, str]) -> None:
        if not right:
            faults.append(f'{what}: status {seen[0]}, it says {seen[1]!r}')

    with tempfile.TemporaryDirectory() as name:
        folder = Path(name)
        for tool in TOOLS:
            (folder / tool).symlink_to(shutil.which(tool))
        seen = setup(name)
        hold('without rt', seen[0] == 2 and seen[1].startswith(MISSING) and seen[1].count('\n') == 1, seen)
        kit(folder, 'some-other-kit logic 0123456789abcdef')
        seen = setup(name)
        hold('with another kit', seen[0] == 0 and seen[1].startswith(NOTICE) and seen[1].count('\n') == 1, seen)
        for version in recorded():
            kit(folder, version)
            seen = setup(name)
            hold(f'with {version}', seen == (0, ''), seen)
        if not recorded():
            faults.append('toolchain.txt records no kit')
    print(f'{2 + len(recorded())} kits tried')
    for fault in faults:
        print('  ' + fault)
    return 1 if faults else 0


sys.exit(main())
