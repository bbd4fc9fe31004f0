#!/usr/bin/env python3
"""What the object code must have that no proof speaks of, in the library that scripts/lib made.

The row copies swap in vectors (docs/SPEED.md): a small edit of `copies::write` or `copies::sample`, or of `complex_rows::write`
or `complex_rows::number`, loses it; the copy is right still, and takes several times as long. And no instruction multiplies and adds at once: a power is two products and a sum,
each rounded once (document 02, No. 2), where a fused multiply-add rounds once for both; a compiler that contracts them
gives other bits (tests/boundary/differential/powers.py has some)."""
import re
import subprocess
import sys
from pathlib import Path

HOME = Path(__file__).resolve().parent.parent.parent
ARCHIVE, SHARED = (HOME / 'target' / 'lib' / f'libseobangyu.{end}' for end in ('a', 'so'))
# counts, eight at once, and patterns, four at once: their bytes shuffled (x86-64-v2, for which the kit compiles); before that version's
# shuffle counts were shifted by a byte to the left and to the right, and patterns shuffled in halves and packed
SWAPS = {'sbg_row': (('pshufb',), ('psllw', 'psrlw')), 'sbg_complex_row': (('pshufb',), ('pshuflw', 'packuswb'))}
# x86-64: vfmadd132ss, vfnmsub231ps, .. and vfmaddsub..; AMD's older vfmaddss. aarch64: fmadd, fnmsub, fmla, fmls.
FUSED = r'vfn?m(?:add|sub)\w*|fn?m(?:add|sub)|fml[as]\w*'
# x86-64: mulss or mulps, with or without a v; aarch64: fmul.
MULTIPLY, ADD = r'v?mul[sp]s|fmul', r'v?add[sp]s|fadd'


def disassembled(library: Path) -> str:
    """What objdump prints of a library; it comes with the compiler (scripts/cc)."""
    tool = subprocess.run([HOME / 'scripts' / 'cc', '-print-prog-name=objdump'], capture_output=True, text=True, check=True).stdout.strip()
    return subprocess.run([tool, '-d', '--no-show-raw-insn', library], capture_output=True, text=True, check=True).stdout


def code(text: str, call: str) -> str:
    """The part that is one call of the library."""
    found = re.search(rf'^[0-9a-f]+ <{call}>:\n(.*?)(?:\n\n|\Z)', text, re.M | re.S)
    return found.group(1) if found else ''


def named(text: str, instruction: str) -> list[str]:
    """The instructions of that name: each stands behind its address and a tab."""
    return re.findall(rf'^ *[0-9a-f]+:\t({instruction})\b', text, re.M)


def swaps(call: str) -> bool:
    body = code(disassembled(ARCHIVE), call)
    way = next((words for words in SWAPS[call] if all(named(body, word) for word in words)), None)
    if way is None:
        print(f'{call}, {len(body.splitlines())} instructions: it has none of {SWAPS[call]}, so the copy is not in vectors')
        return False
    print(f'{call}, {len(body.splitlines())} instructions: it swaps in vectors, by {" and ".join(way)}')
    return True


def nothing_fused() -> bool:
    """No fused instruction in the whole library; and there are products and sums of floats, so that this says something."""
    text = disassembled(SHARED)
    fused, products, sums = (named(text, what) for what in (FUSED, MULTIPLY, ADD))
    if fused or not products or not sums:
        print(f'{SHARED.name}: fused {sorted(set(fused)) or "none"}, {len(products)} float products, {len(sums)} float sums')
        return False
    print(f'{SHARED.name}: {len(products)} float products, {len(sums)} float sums, none of them fused')
    return True


def main() -> int:
    results = [*(swaps(call) for call in SWAPS), nothing_fused()]
    return 0 if all(results) else 1


if __name__ == '__main__':
    sys.exit(main())
