#!/usr/bin/env python3
"""Makes crates/try_numbers/stdin and stdout: examples of written numbers and of the field reader.

The answers are written here by hand, or follow from how the text was made; nothing of the reader is
used. `numbers.py` writes the two files, `numbers.py --check` says whether they are as stored."""
import sys
from pathlib import Path

HOME = Path(__file__).resolve().parent.parent.parent / 'crates' / 'try_numbers'
FORMS = {'I4': (1, 4), 'I6': (2, 6), 'I8': (3, 8), 'I16': (4, 16), 'F8.3': (5, 8), 'F16.7': (6, 16), 'E20.13': (7, 20)}
PLACES = {'F8.3': 3, 'F16.7': 7}
# number, first byte (from 1), form: document 01, "Listed fields"
LISTED = [(1, 477, 'F8.3'), (2, 711, 'F16.7'), (3, 743, 'F16.7'), (4, 935, 'F16.7'), (5, 1887, 'E20.13'),
          (6, 1907, 'E20.13'), (7, 1927, 'E20.13'), (8, 1947, 'E20.13'), (9, 1967, 'E20.13'),
          (10, 1987, 'E20.13'), (11, 61, 'I16'), (12, 77, 'I16'), (13, 93, 'F16.7')]

SOMEWHERE = 100  # the place in the record at which a badly written field is tried

commands: list[bytes] = []
answers: list[bytes] = []


def title(text: str) -> None:
    commands.append(b'# ' + text.encode())
    answers.append(b'# ' + text.encode())


def ask(command: bytes, answer: str) -> None:
    commands.append(command)
    answers.append(answer.encode())


def decimal(form: str, text: bytes | str, answer: str) -> None:
    raw = text.encode('latin-1') if isinstance(text, str) else text
    ask(b'd %d:' % FORMS[form][0] + raw, answer)


def badly(form: str, text: str, bad: int) -> None:
    """The text is badly written; as a field of a record it is refused at its bad byte, from 0 (document 02, No. 5)."""
    code, w = FORMS[form]
    raw = text.encode('latin-1')
    decimal(form, raw, 'BAD')
    commands.append(b'p %d:' % (SOMEWHERE + 1) + raw)
    ask(b'a %d %d %d' % (SOMEWHERE, code, SOMEWHERE + w), f'REFUSED 6 RECORD 0 AT {SOMEWHERE + bad}')


def badly_at_right(form: str, texts: dict[str, int]) -> None:
    """Each set to the right of the field; its bad byte is counted in the text itself."""
    w = FORMS[form][1]
    for text, bad in texts.items():
        badly(form, text.rjust(w), w - len(text) + bad)


def value(m: int, e: int = 0) -> str:
    return f'VALUE {m} {e}'


def worked_examples() -> None:
    title('P1 to P10')
    decimal('F8.3', '  90.000', value(90000))
    decimal('F16.7', '+1234567.1234567', value(12345671234567))
    decimal('F16.7', '      -0.0000000', value(0))
    decimal('F16.7', '      -0.0000001', value(-1))
    decimal('F16.7', '-9999999.9999999', value(-99999999999999))
    decimal('F16.7', '99999999.9999999', value(999999999999999))
    decimal('F16.7', ' ' * 16, 'BLANK')
    badly('F16.7', '     1.000000000', 6)
    decimal('I6', '     0', value(0))
    decimal('E20.13', ' 1.0000000000000E+02', value(10000000000000, 2))
    title('a sign in the first column, a sign with blanks only, two signs')
    decimal('F16.7', '  -    1.0000000', value(-10000000))
    decimal('F16.7', '-       .5000000', value(-5000000))
    badly('F16.7', '-' + ' ' * 15, 8)
    badly('F16.7', '-     -1.0000000', 6)
    badly('I16', '-              1', 1)
    badly('F16.7', ' ' * 15 + '1', 15)
    title('the slip of the lost minus')
    decimal('F16.7', '      -0.5000000', value(-5000000))
    decimal('F8.3', '  -0.500', value(-500))
    decimal('E20.13', '-0.5000000000000E-01', value(-5000000000000, -1))


def whole_shapes() -> None:
    for form in ('I4', 'I6', 'I8', 'I16'):
        w = FORMS[form][1]
        title(f'{form}: well written')
        for text, m in [('7', 7), ('+7', 7), ('-7', -7), ('-0', 0), ('+0', 0), ('0' * w, 0), ('12', 12),
                        ('0' * (w - 1) + '5', 5), ('-' + '0' * (w - 1), 0), ('+' + '0' * (w - 2) + '1', 1)]:
            decimal(form, text.rjust(w), value(m))
        decimal(form, ' ' * w, 'BLANK')
        title(f'{form}: extremes')
        decimal(form, '9' * w, value(10 ** w - 1))
        decimal(form, '-' + '9' * (w - 1), value(-(10 ** (w - 1) - 1)))
        decimal(form, '+' + '9' * (w - 1), value(10 ** (w - 1) - 1))
        decimal(form, '1' + '0' * (w - 1), value(10 ** (w - 1)))
        title(f'{form}: badly written')
        badly_at_right(form, {
            '- 1': 1, '+ 1': 1, '--1': 1, '+-1': 1, '-+1': 1, '++1': 1, '-': 0, '+': 0, '1 ': 1, '1 1': 1, '1.': 1, '.1': 0, '1e1': 1, '1,1': 1,
            '\t1': 0, '1\t': 1, '\x001': 0, '1\x00': 1, '\xa01': 0, '1\xa0': 1, '\x801': 0, '\xff1': 0, '1-': 1, '1+': 1, ':': 0, '/': 0, 'A': 0, 'é': 0})
        for text, bad in [('1'.ljust(w), 1), ('-'.ljust(w), 1), (' 1'.ljust(w), 2), ('\t' * w, 0), ('\x00' * w, 0), ('\xa0' * w, 0)]:
            badly(form, text, bad)


def point_shapes() -> None:
    for form, d in PLACES.items():
        w = FORMS[form][1]
        zeros, ones = '0' * d, '1' * d
        title(f'{form}: well written')
        for text, m in [(f'.{zeros}', 0), (f'-.{zeros}', 0), (f'+.{ones}', int(ones)), (f'-.{ones}', -int(ones)),
                        (f'0.{ones}', int(ones)), (f'-0.{ones}', -int(ones)), (f'-1.{zeros}', -10 ** d), (f'+01.{zeros}', 10 ** d)]:
            decimal(form, text.rjust(w), value(m))
        decimal(form, ' ' * w, 'BLANK')
        n = w - d - 1
        title(f'{form}: blanks behind the sign (document 02, No. 4)')
        for text, m in [(f'- 1.{zeros}', -10 ** d), (f'+ 1.{zeros}', 10 ** d), (f'-  .{ones}', -int(ones)), (f'+  .{zeros}', 0),
                        ('-' + f'1.{zeros}'.rjust(w - 1), -10 ** d), ('+' + f'.{ones}'.rjust(w - 1), int(ones))]:
            decimal(form, text.rjust(w), value(m))
        title(f'{form}: extremes')
        decimal(form, '9' * n + '.' + '9' * d, value(10 ** (n + d) - 1))
        decimal(form, '-' + '9' * (n - 1) + '.' + '9' * d, value(-(10 ** (n - 1 + d) - 1)))
        decimal(form, '+' + '9' * (n - 1) + '.' + '9' * d, value(10 ** (n - 1 + d) - 1))
        decimal(form, '0' * n + '.' + '0' * (d - 1) + '1', value(1))
        decimal(form, '-' + '0' * (n - 1) + '.' + '0' * (d - 1) + '1', value(-1))
        title(f'{form}: badly written')
        last = d + 1  # of a digit, a point and d bytes
        badly_at_right(form, {
            f'- -.{zeros}': 2, f'+ -.{zeros}': 2, f'--1.{zeros}': 1, f'+-1.{zeros}': 1, f'- 1 .{zeros}': 3, f'1 .{zeros}': 1, f'1. {zeros[1:]}': 2,
            f'1.{zeros[1:]} ': last, f'1.{zeros[1:]}': 0, f'1.{zeros}0': 1, f'1{zeros}': 0, f'1.{zeros[1:]}.': last, f'1..{zeros[1:]}': 2,
            f'1,{zeros}': 1, f'1.{zeros[1:]}-': last, f'1-.{zeros}': 1, f'1.-{zeros[1:]}': 2, '.': 0, '-.': 0, f'-{zeros}': 0, f'1e{zeros}': 1,
            f'\t1.{zeros}': 0, f'1.{zeros[1:]}\t': last, f'\x001.{zeros}': 0, f'\xa01.{zeros}': 0, f'1.{zeros[1:]}\xa0': last,
            f'\x801.{zeros}': 0, f'\xff1.{zeros}': 0, f'1\xb7{zeros}': 1, f'1.{zeros[1:]}:': last, f'1.{zeros[1:]}/': last, f'A.{zeros}': 0})
        # blanks behind a sign are good up to the point's column, which is n
        for text, bad in [(f'1.{zeros}'.ljust(w), 1), (f'.{zeros}'.ljust(w), 0), (' ' * (w - 1) + '.', w - 1), ('-'.ljust(w), n), (' +'.ljust(w), n),
                          (' ' * (w - 2) + '- ', w - 2), ('\x00' * w, 0), ('\xa0' * w, 0)]:
            badly(form, text, bad)


def exponent_shapes() -> None:
    form, w, d = 'E20.13', 20, 13
    z, nines = '0' * d, '9' * d
    title('E20.13: well written')
    for text, m, e in [(f'1.{z}E+02', 10 ** d, 2), (f'1.{z}E-02', 10 ** d, -2), (f'-1.{z}E+00', -10 ** d, 0),
                       (f'+1.{z}E-00', 10 ** d, 0), (f'.{z}E+99', 0, 99), (f'-.{z}E-99', 0, -99), (f'-0.{nines}E-12', -int(nines), -12),
                       (f'- .{z[1:]}1E-02', -1, -2), (f'+ .{nines}E+02', int(nines), 2)]:
        decimal(form, text.rjust(w), value(m, e))
    decimal(form, ' ' * w, 'BLANK')
    title('E20.13: extremes')
    decimal(form, f'99.{nines}E+99', value(10 ** 15 - 1, 99))
    decimal(form, f'-9.{nines}E-99', value(-(10 ** 14 - 1), -99))
    decimal(form, f'+9.{nines}E+99', value(10 ** 14 - 1, 99))
    decimal(form, f'00.{z[1:]}1E-99', value(1, -99))
    title('E20.13: badly written')
    # the point's column is the third: a text too short or too long is bad at its first digit, or at its point
    badly_at_right(form, {
        f'1.{z}e+02': 15, f'1.{z}D+02': 15, f'1.{z} +02': 15, f'1.{z}E02': 0, f'1.{z}E 02': 16, f'1.{z}E+2': 0, f'1.{z}E+2 ': 18, f'1.{z}E+ 2': 17,
        f'1.{z}E++2': 17, f'1.{z}E+0A': 18, f'1.{z}E+\t2': 17, f'1.{z}E+002': 1, f'1.{z[1:]}E+02': 0, f'1.{z}0E+02': 1, f'1{z}0E+02': 1,
        f'1.{z}': 0, f'1.{z}E+': 0, f'- -.{z[1:]}E+02': 2, f'--.{z}E+02': 1, f'- .{z}E- 2': 18, f'1 .{z}E+02': 1, f'1.{z[1:]} E+02': 14,
        f'\x001.{z}E+02': 0, f'\xa01.{z}E+02': 0, f'1.{z}\xc5+02': 15, f'1.{z}E\xab02': 16, f'1.{z}E+0\xb2': 18, 'E+02': 0, '.E+02': 0, f'1.{z}+E02': 15})
    for text, bad in [(f'1.{z}E+02'.ljust(w), 1), ('-'.ljust(w), 2), ('\x00' * w, 0), ('\xa0' * w, 0), ('\t' * w, 0)]:
        badly(form, text, bad)


def other_widths() -> None:
    title('bytes that are not as many as the form is wide are badly written')
    for form, (_, w) in FORMS.items():
        digit = {'I': '1', 'F': '1.' + '0' * PLACES.get(form, 0), 'E': '1.' + '0' * 13 + 'E+02'}[form[0]]
        for width in (0, 1, w - 1, w + 1, 2 * w):
            decimal(form, digit.rjust(width)[:width], 'BAD')
            decimal(form, ' ' * width, 'BAD')


def spelt(form: str, k: int) -> tuple[str, int, int]:
    """A number of that form that only field k has, with its value."""
    if form == 'I16':
        return f'{-1000 - k}', -1000 - k, 0
    if form == 'E20.13':
        return f'{k % 10}.{k:013d}E-{k:02d}', k % 10 * 10 ** 13 + k, -k
    d = PLACES[form]
    return f'-{k}.{k:0{d}d}', -(k * 10 ** d + k), 0


def listed_fields() -> None:
    title('every listed field at its place in a whole record')
    commands.append(b'c 32')
    for k, first, form in LISTED:
        text, _, _ = spelt(form, k)
        commands.append(b'p %d:' % first + text.rjust(FORMS[form][1]).encode())
    for k, _, form in LISTED:
        _, m, e = spelt(form, k)
        ask(b'f %d 4096' % k, value(m, e))
    title('a record that ends with the field, and one that is a byte short')
    for k, first, form in LISTED:
        _, m, e = spelt(form, k)
        end = first - 1 + FORMS[form][1]
        ask(b'f %d %d' % (k, end), value(m, e))
        ask(b'f %d %d' % (k, end - 1), 'REFUSED 2 RECORD 0 AT 0')
        ask(b'f %d 0' % k, 'REFUSED 2 RECORD 0 AT 0')
    title('blank, and badly written: 6 at the bad byte, from 0')
    commands.append(b'c 32')
    for k, _, _ in LISTED:
        ask(b'f %d 4096' % k, 'BLANK')
    for k, first, form in LISTED:
        commands.append(b'c 32')
        last = first + FORMS[form][1] - 1
        commands.append(b'b %d %d' % (last, 0xA0))
        ask(b'f %d 4096' % k, f'REFUSED 6 RECORD 0 AT {last - 1}')
        commands.append(b'c 0')
        ask(b'f %d 4096' % k, f'REFUSED 6 RECORD 0 AT {first - 1}')
        commands.append(b'c 32')
        commands.append(b'b %d 48' % (first - 1))
        commands.append(b'b %d 48' % (first + FORMS[form][1]))
        ask(b'f %d 4096' % k, 'BLANK')
    title('P8 as listed field 2: its point, in the column before the one where it belongs')
    commands.append(b'p 711:     1.000000000')
    ask(b'f 2 4096', 'REFUSED 6 RECORD 0 AT 716')
    title('no such listed field: 14, before 2')
    for k in (0, 14, 15, 255, 2 ** 32 + 1, 2 ** 64 - 1):
        for length in (0, 1, 4096):
            ask(b'f %d %d' % (k, length), 'REFUSED 14 RECORD 0 AT 0')


def fields_anywhere() -> None:
    title('a field of any form at any place')
    for form, (code, w) in FORMS.items():
        text, m, e = {'I': ('-12', -12, 0), 'F': ('1.' + '0' * PLACES.get(form, 0), 10 ** PLACES.get(form, 0), 0),
                      'E': ('1.' + '0' * 13 + 'E+02', 10 ** 13, 2)}[form[0]]
        for place in (0, 1, 100, 4096 - w):
            commands.append(b'c 32')
            commands.append(b'p %d:' % (place + 1) + text.rjust(w).encode())
            ask(b'a %d %d %d' % (place, code, place + w), value(m, e))
            ask(b'a %d %d %d' % (place, code, place + w - 1), 'REFUSED 2 RECORD 0 AT 0')
            commands.append(b'b %d 88' % (place + 1))
            ask(b'a %d %d %d' % (place, code, place + w), f'REFUSED 6 RECORD 0 AT {place}')
        for place in (4096, 4097, 2 ** 63, 2 ** 64 - 1):
            ask(b'a %d %d 4096' % (place, code), 'REFUSED 2 RECORD 0 AT 0')


def several_bytes() -> None:
    title('P11: 02 01 is 513')
    commands.append(b'c 0')
    commands.append(b'b 1 2')
    commands.append(b'b 2 1')
    ask(b'2 0 2', 'NUMBER 513')
    ask(b'2 1 4096', 'NUMBER 256')
    title('four bytes, high byte first; a byte past the end counts as 0')
    commands.extend([b'c 255', b'b 1 1', b'b 2 2', b'b 3 3', b'b 4 4'])
    ask(b'4 0 4', f'NUMBER {0x01020304}')
    ask(b'4 1 5', f'NUMBER {0x020304FF}')
    ask(b'4 4 4096', f'NUMBER {0xFFFFFFFF}')
    ask(b'4 0 3', f'NUMBER {0x01020300}')
    ask(b'4 3 4', f'NUMBER {0x04000000}')
    ask(b'4 4 4', 'NUMBER 0')
    ask(b'2 0 1', 'NUMBER 256')
    ask(b'2 %d 4096' % (2 ** 64 - 1), 'NUMBER 0')
    ask(b'4 %d 4096' % (2 ** 64 - 1), 'NUMBER 0')


def main() -> int:
    for part in (worked_examples, whole_shapes, point_shapes, exponent_shapes, other_widths, listed_fields, fields_anywhere, several_bytes):
        part()
    made = {'stdin': b'\n'.join(commands) + b'\n', 'stdout': b'\n'.join(answers) + b'\n'}
    assert len(made['stdin']) <= 65536, 'the program reads 65,536 bytes'
    if '--check' in sys.argv[1:]:
        stale = [name for name, data in made.items() if (HOME / name).read_bytes() != data]
        print(f"tests/examples/numbers.py: {len(answers)} answers, {'as stored' if not stale else 'not as stored: ' + ' '.join(stale)}")
        return 1 if stale else 0
    for name, data in made.items():
        (HOME / name).write_bytes(data)
    print(f'tests/examples/numbers.py: wrote {len(answers)} answers')
    return 0


sys.exit(main())
