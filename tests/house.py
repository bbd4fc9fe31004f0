#!/usr/bin/env python3
"""The house's own rules, one a call: house.py RULE.

promises  every name that docs/PROMISES.md cites is defined there as public: `crates/..:name`; must-fail edits that it cites are there, and all are cited
list      its list of the must-fail edits is what scripts/edits makes of them
names     every `crate::function` and every file that README.md, CONTRIBUTING.md and docs/ name is there (not LANDINGS.md and PORT.md, which tell of their time);
          no two files of tests/ have one name; nothing leans on a page outside the repository
map       CONTRIBUTING.md's map of the crates is what scripts/map makes of crates.txt and the crates' own openings
floors    a crate needs only what stands above it in crates.txt, and none but a crate of theorems needs a crate of theorems
needs     crates.txt says of each crate exactly what it needs (scripts/needs)
openings  every proof file opens with a sentence that says what it shows
contracts every entry point's contract is an equation for its result and for each `&mut` parameter, so that no second
          answer fits; or docs/PROMISES.md lists it with a theorem that two outcomes which meet it are equal
requires  every public function with a `requires` is listed in docs/PROMISES.md with its callers
edits     no must-fail edit was refused only because a proof file no longer fits the code, or by a limit of the prover (by what
          `rt ci` said, which scripts/test keeps in target/ci.log)
lengths   functions of at most 40 lines, lines of at most 160 characters
refusals  docs/REFUSALS.md has a row for each number of include/refusals.def, which opens with its short words, and no other"""
import re
import subprocess
import sys
from pathlib import Path

sys.dont_write_bytecode = True
HOME = Path(__file__).resolve().parent.parent
sys.path.insert(0, str(HOME / 'scripts'))
import crates  # noqa: E402

PROMISES = HOME / 'docs' / 'PROMISES.md'
# a line that defines a public name; one that only uses it or speaks of it does not count
DEFINES = r'^ *(?:(?:abbrev|unfoldable) )?pub (?:(?:data|record) )?'


def sources() -> list[Path]:
    return sorted((HOME / 'crates').glob('*/src/**/*.rt'))


def promises() -> list[str]:
    faults = []
    text = PROMISES.read_text()
    cited = re.findall(r'`([\w/.]+\.(?:antt|rt)):([^`]+)`', text)
    for file, name in cited:
        path = HOME / 'crates' / file
        if not path.exists():
            faults.append(f'{file}: no such file')
        elif not re.search(DEFINES + re.escape(name) + r'(?=[\s:({]|$)', path.read_text(), re.M):
            faults.append(f'{file}: defines no public {name}')
    edits = set(re.findall(r'`must-fail ([\w]+/[\w]+)`', text))
    there = {f'{p.parent.parent.name}/{p.stem}' for p in (HOME / 'crates').glob('*/must-fail/*.edit')}
    faults += [f'must-fail {e}: no such edit' for e in sorted(edits - there)]
    faults += [f'must-fail {e}: not in docs/PROMISES.md' for e in sorted(there - edits)]
    print(f'{len(cited)} names and {len(edits)} edits cited')
    if not cited:
        faults.append('docs/PROMISES.md cites nothing')
    return faults


def names() -> list[str]:
    faults, count = [], 0
    pages = [HOME / 'README.md', HOME / 'CONTRIBUTING.md', *sorted((HOME / 'docs').glob('*.md'))]
    for page in (page for page in pages if page.name not in ('LANDINGS.md', 'PORT.md')):
        text = page.read_text()
        cited = {(crate, name) for crate, name in re.findall(r'`([a-z]\w*)::(?:\w+::)*(\w+)', text) if crate not in crates.KIT}
        for crate, name in sorted(cited):
            code = '\n'.join(crates.code(path) for path in crates.files(crate, 'src'))
            if not re.search(rf'\b(?:fn|struct|enum) {name}\b', code):
                faults.append(f'{page.name}: there is no {crate}::{name}')
        paths = set(re.findall(r'`((?:crates|tests|scripts|docs|host|include|bench)/[\w./-]*)`', text))
        faults += [f'{page.name}: there is no {path}' for path in sorted(paths) if 'NAME' not in path and not (HOME / path).exists()]
        count += len(cited) + len(paths)
    files = [path.name for path in (HOME / 'tests').rglob('*.*')]
    faults += [f'tests/: {files.count(name)} files are {name}' for name in sorted(set(files)) if files.count(name) > 1]
    for path in outside():
        faults.append(f'{path.relative_to(HOME)}: it leans on a page outside the repository')
    print(f'{count} names')
    return faults


def outside() -> list[Path]:
    """Pages and sources that name a page which a clone does not have."""
    word = re.compile(r'\.\./' + r'shared|DESIGN' + r'\.md|REQUESTS' + r'\.md|PROOF' + '-NOTES')
    texts = [HOME / 'README.md', HOME / 'CONTRIBUTING.md', HOME / 'Makefile', *(HOME / 'docs').glob('*.md'), *(HOME / 'scripts').glob('*')]
    texts += [path for folder in ('crates', 'tests', 'host', 'include', 'bench') for path in (HOME / folder).rglob('*.*')
              if path.suffix in ('.rt', '.antt', '.edit', '.py', '.c', '.h', '.def')]
    return sorted(path for path in texts if word.search(path.read_text()))


def made(script: str) -> list[str]:
    """What a script of the house finds to be out of date."""
    done = subprocess.run([HOME / 'scripts' / script, '--check'], capture_output=True, text=True)
    said = (done.stdout + done.stderr).splitlines()
    return said or [f'scripts/{script} failed'] if done.returncode else []


def list_() -> list[str]:
    return made('edits')


def map_() -> list[str]:
    return made('map')


def needs() -> list[str]:
    return made('needs')


def theorems_only(crate: str) -> bool:
    """Whether a crate has no function of its own but the one that says so."""
    return [name for path in crates.files(crate, 'src') for name, _, _, _ in functions(path)] == ['theorems_only']


def floors() -> list[str]:
    faults, above = [], set(crates.KIT)
    listed = crates.needs()
    theorems = {crate for crate in listed if theorems_only(crate)}
    for crate, needed in listed.items():
        faults += [f'{crate} needs {name}, which stands below it in crates.txt' for name in needed if name not in above]
        faults += [f'{crate} needs {name}, which has theorems only' for name in needed if name in theorems and crate not in theorems]
        if (crate in theorems) != crates.opening(crate).startswith('Theorems only'):
            faults.append(f'{crate}: its opening says "Theorems only" and it has functions, or it has none and does not say so')
        above.add(crate)
    print(f'{len(listed)} crates, {len(theorems)} of theorems only')
    return faults


def openings() -> list[str]:
    files = [p for p in (HOME / 'crates').glob('*/proofs/**/*.antt') if p.name != 'Lib.antt']
    print(f'{len(files)} proof files')
    return [str(p.relative_to(HOME)) for p in files if not p.read_text().startswith('-- ')]


def functions(path: Path):
    """Each function: its name, whether it is public, its clauses, the lines of its body."""
    lines = path.read_text().splitlines()
    for i, line in enumerate(lines):
        m = re.match(r'( *)(pub )?(?:extern "C" )?fn (\w+)', line)
        if not m:
            continue
        indent = m.group(1)
        clauses, j = [], i
        while j < len(lines) and not re.match(re.escape(indent) + r'\{', lines[j]) and not lines[j].endswith('{'):
            clauses.append(lines[j])
            j += 1
        k = j
        while k < len(lines) and lines[k] != indent + '}':
            k += 1
        yield m.group(3), bool(m.group(2)), clauses, k - j + 1


def requires() -> list[str]:
    text = PROMISES.read_text()
    faults, count = [], 0
    for path in sources():
        crate = path.relative_to(HOME / 'crates').parts[0]
        for name, public, clauses, _ in functions(path):
            if public and any(re.match(r'\s*requires', c) for c in clauses):
                count += 1
                if f'`{crate}::{name}` requires' not in text:
                    faults.append(f'{crate}::{name} has a `requires` and is not listed in docs/PROMISES.md')
    print(f'{count} public functions with a `requires`')
    return faults


def determined(path: Path, clauses: list[str]) -> bool:
    """A contract that is an equation for the result, or for each field of the struct that it is, and for each &mut parameter."""
    text = '\n'.join(clauses)
    signature = re.split(r'^\s*ensures', text, flags=re.M)[0]
    ensured = [c.strip() for c in clauses if c.strip().startswith('ensures')]
    result = re.search(r'-> (?:&?\[?)(\w+)', signature)
    whole = any(re.match(r'ensures (?:\w+ )?\{ \(?result(?:\.now)? ≡', c) for c in ensured)
    if result and not whole:
        struct = re.search(r'struct ' + result.group(1) + r' \{(.*?)\n\}', path.read_text(), re.S)
        fields = re.findall(r'^ *(?:pub )?(\w+):', struct.group(1), re.M) if struct else []
        whole = bool(fields) and all(re.search(rf'\(result\.{f} ≡', ' '.join(ensured)) for f in fields)
    lent = re.findall(r'(\w+): &mut', signature)
    return (not result or whole) and all(any(re.search(rf'(?:\{{ |\(){m}\.new ≡', c) for c in ensured) for m in lent)


def contracts() -> list[str]:
    text = PROMISES.read_text()
    faults, count, listed = [], 0, 0
    for path in sources():
        crate = path.relative_to(HOME / 'crates').parts[0]
        if crate.startswith('try_') or crate in ('ceoslist', 'promises'):
            continue  # programs, and a crate of theorems
        for name, public, clauses, _ in functions(path):
            if not public or any(re.match(r'\s*requires', c) for c in clauses):
                continue
            count += 1
            if re.search(rf'^- `{crate}::{name}` is determined by `[\w/]+\.antt:[\w-]+`', text, re.M):
                listed += 1
            elif not determined(path, clauses) and f'`{crate}::{name}` reads and writes streams' not in text:
                faults.append(f'{crate}::{name}: its contract is no equation for all that it answers or touches, and docs/PROMISES.md names no theorem')
    print(f'{count} entry points and helpers without a `requires`, {listed} of them by a theorem')
    if not count:
        faults.append('no entry point was found')
    return faults


def edits() -> list[str]:
    log = HOME / 'target' / 'ci.log'
    told = dict(re.findall(r'^rt: must-fail (\w+/\w+)\.edit: (.*)$', log.read_text(), re.M)) if log.exists() else {}
    there = {f'{p.parent.parent.name}/{p.stem}' for p in (HOME / 'crates').glob('*/must-fail/*.edit')}
    print(f'{len(told)} must-fail edits told of by `rt ci`')
    faults = [f'{e}: `rt ci` does not tell of it' for e in sorted(there - set(told))]
    for edit, what in told.items():
        refused, _, first = what.partition('refused, as it must be: ')
        if refused or not first:  # only for a limit, or for names that are gone, or not at all
            faults.append(f'{edit}: {what[:160]}')
        elif 'is not in scope' in first:
            faults.append(f'{edit}: it names what is not in scope')
    return faults


def lengths() -> list[str]:
    faults, count = [], 0
    for path in sources():
        for name, _, _, size in functions(path):
            count += 1
            if size > 40:
                faults.append(f'{path.relative_to(HOME)}: {name} has {size} lines')
    texts = sources() + sorted((HOME / 'crates').glob('*/specs/**/*.antt')) + sorted((HOME / 'crates').glob('*/proofs/**/*.antt'))
    for path in texts:
        for i, line in enumerate(path.read_text().splitlines(), 1):
            if len(line) > 160:
                faults.append(f'{path.relative_to(HOME)}:{i}: {len(line)} characters')
    print(f'{count} functions, {len(texts)} files')
    return faults


def refusals() -> list[str]:
    text = (HOME / 'include' / 'refusals.def').read_text()
    defined = re.findall(r'^REFUSAL\((\d+), "(.*)"\)$', text, re.M)
    rows = re.findall(r'^\| (\d+) \| (.*)$', (HOME / 'docs' / 'REFUSALS.md').read_text(), re.M)
    numbers, told = [number for number, _ in defined], dict(rows)
    faults = [f'{number}: its row does not open with **{words}**' for number, words in defined if not told.get(number, '').startswith(f'**{words}**')]
    if numbers != [number for number, _ in rows] or numbers != sorted(set(numbers), key=int):
        faults.append('the numbers of include/refusals.def and of the rows are not the same ones in rising order')
    if not defined or len(defined) != len(re.findall(r'^\s*REFUSAL', text, re.M)):
        faults.append('include/refusals.def has none, or one that is not written REFUSAL(number, "words") on a line')
    print(f'{len(defined)} refusals')
    return faults


def main() -> int:
    rules = {f.__name__.rstrip('_'): f for f in (promises, list_, names, map_, floors, needs, openings, contracts, requires, edits, lengths, refusals)}
    if len(sys.argv) != 2 or sys.argv[1] not in rules:
        print(__doc__)
        return 2
    faults = rules[sys.argv[1]]()
    for fault in faults:
        print('  ' + fault)
    return 1 if faults else 0


sys.exit(main())
