"""crates.txt as the house's scripts and rules read it, and the parts of pages that are made and not written."""
import re
import sys
from pathlib import Path
from typing import Iterable, Iterator

HOME = Path(__file__).resolve().parent.parent
LIST = HOME / 'crates.txt'
KIT = ('bytes', 'check', 'io')  # the kit's libraries that a crate may need; `std` every crate has, and `libc` and `os` no crate may


def crate_of(said: str) -> str:
    """The crate's name out of what stands before a line's colon, which may say more, as `staticlib`."""
    return said.split()[0]


def needs() -> dict[str, list[str]]:
    """Each crate, in the order of the list, and what it is said to need."""
    lines = (line.split('#')[0] for line in LIST.read_text().splitlines())
    pairs = (line.split(':') for line in lines if ':' in line)
    return {crate_of(name): said.split() for name, said in pairs}


def floors() -> Iterator[tuple[str, list[str]]]:
    """The groups of crates, each under the comment line that stands right above it."""
    name, group = '', []
    for line in [*LIST.read_text().splitlines(), '']:
        if ':' in line.split('#')[0]:
            group.append(crate_of(line.split(':')[0]))
            continue
        if group:
            yield name, group
        name, group = line.lstrip('# ').strip(), []


def root(crate: str) -> Path:
    """The file a crate begins with."""
    source = HOME / 'crates' / crate / 'src'
    return source / 'main.rt' if (source / 'main.rt').exists() else source / 'lib.rt'


def opening(crate: str) -> str:
    """The first sentence of what a crate says of itself; a request's number, as No. 1, ends none."""
    said = []
    for line in root(crate).read_text().splitlines():
        if not line.startswith('//') or not line.strip('/ '):
            break
        said.append(line.lstrip('/ ').strip())
    return re.split(r'(?<=[.])(?<!No[.])\s', ' '.join(said), maxsplit=1)[0]


def code(path: Path) -> str:
    """A file without its comments."""
    return re.sub(r'//.*' if path.suffix == '.rt' else r'--.*', '', path.read_text())


def files(crate: str, *folders: str) -> list[Path]:
    """A crate's files of code, definitions and proofs."""
    return sorted(path for folder in folders for path in (HOME / 'crates' / crate / folder).rglob('*') if path.suffix in ('.rt', '.antt'))


def keep(page: Path, mark: str, made: Iterable[str]) -> int:
    """Puts what was made between a page's two lines `<!-- MARK: begin .. -->` and `<!-- MARK: end -->`; with --check it says whether it stands there."""
    text, rows = page.read_text(), '\n'.join(made)
    parts = re.split(rf'(?m)(^<!-- {mark}: begin.*-->\n|^<!-- {mark}: end -->$)', text)
    if len(parts) != 5:
        print(f"{page.relative_to(HOME)}: the two marks '{mark}' are not there, once each")
        return 1
    parts[2] = rows + '\n'
    now = ''.join(parts)
    if '--check' not in sys.argv[1:]:
        page.write_text(now)
    elif now != text:
        print(f'{page.relative_to(HOME)}: what stands between its marks is not what scripts/{Path(sys.argv[0]).name} makes')
        return 1
    return 0
