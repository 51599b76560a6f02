"""Why a row is answered 2: what is wrong with its form, or out of range. The program alone decides that a row is answered
2; this names the fault, and finds none in any other row."""

import difflib
import re

from rows import shown

MOST_BYTES, MOST_DIGITS = 64, 7
TO_FACTORY = 8  # of a rollback: to the factory entry instead of so many versions
HEADER = b'kind,a,b,c,d'
FIELDS = {b'plan': ['n', 'k', 'r', 'b'], b'write': ['client', 'reading'], b'read': ['client'],
          b'send': ['client', 'cabinet'], b'deliver': ['slot'], b'lose': ['slot'], b'stop': ['cabinet'],
          b'restart': ['cabinet'], b'rollback': ['cabinet', 'number of versions back'], b'leave': ['client']}
READINGS = [b'open', b'closed', b'unknown']
STEPS = [kind for kind in FIELDS if kind != b'plan']


def fault(row, plan):
    """A sentence, or None where there is no fault. plan has the four numbers of the line, and is None for the plan row."""
    return beyond_a_line(row) or other_form(row.text, row.ended) or of_fields(row.text, plan)


def beyond_a_line(row):
    if not row.length:
        return 'the line is empty'
    if row.length > MOST_BYTES:
        inside = '; carriage returns alone do not end a row' if b'\r' in row.text else ''
        return f'the line has {row.length} bytes, and {MOST_BYTES} are the most{inside}'


def other_form(text, ended):
    """Bytes that no row has."""
    if b'\r' in text.rstrip(b'\r'):
        return 'a carriage return stands within the row; only a line feed ends a row'
    if b'\r' in text:
        return ('more than one carriage return stands at its end' if ended else
                'a carriage return stands at its end, and no line feed behind it')
    if b'"' in text:
        return 'there is a quotation mark, and fields are written without'
    for mark, name in ((b';', 'semicolons'), (b'\t', 'tabs')):
        if mark in text and b',' not in text:
            return f'the fields are divided by {name}, and must be divided by commas'


def of_fields(text, plan):
    kind, *fields = text.split(b',')
    if kind not in FIELDS:
        return no_kind(kind, text)
    if plan is None and kind != b'plan':
        return f'the row below the header must be the plan, and is a {shown(kind)} row'
    if plan is not None and kind == b'plan':
        return 'the plan stands in line 2 alone, and this is a later one'
    if len(fields) != 4:
        return f'the row has {counted(1 + len(fields), "field")}, and needs 5: {commas(len(fields))}'
    if kind == b'plan':
        return of_plan(fields)
    return of_write(fields) if kind == b'write' else of_step(kind, fields, plan[0])


def counted(number, what):
    return f'{number} {what}' if number == 1 else f'{number} {what}s'


def commas(found):
    return f'{counted(4 - found, "comma")} too few' if found < 4 else f'{counted(found - 4, "comma")} too many'


def no_kind(kind, text):
    if text == HEADER:
        return 'the header row stands here again'
    if not kind:
        return 'the kind is missing: the row begins with a comma'
    if not text.strip():
        return 'the line has nothing but blanks'
    plain = kind.strip().lower()
    if plain in FIELDS:
        return f"the kind is '{shown(kind)}', and must be {shown(plain)}, in small letters and without blanks"
    near = difflib.get_close_matches(shown(plain), [shown(one) for one in FIELDS], 1)
    return f'there is no kind {quoted(kind)}' + (f'; {near[0]}?' if near else '')


def quoted(text):
    """A field as it stands, in quotation marks where that makes it clearer."""
    return shown(text) if re.fullmatch(rb'[\w.+-]+', text) else f"'{shown(text)}'"


def of_number(name, field, least, most, bound=None):
    """What is wrong with a number, or None."""
    verb = 'are' if name == 'minutes' else 'is'
    subject = name if len(name) == 1 else f'the {name}'
    must = f'must be {least} to {bound or most}'
    if not field:
        return f'{subject} {verb} missing; it {must}' if verb == 'is' else f'{subject} {verb} missing; they {must}'
    if re.fullmatch(rb'-[0-9]+', field):
        return f'{subject} {verb} {shown(field)}, and {must}'
    if re.fullmatch(rb'\+[0-9]+', field):
        return f'{subject} {verb} {shown(field)}: a number has no sign'
    if re.fullmatch(rb'[0-9]+', field.strip()) and field != field.strip():
        return f"{subject} {verb} '{shown(field)}': no blank may stand beside a number"
    if not re.fullmatch(rb'[0-9]+', field):
        return f'{subject} {verb} {quoted(field)}, which is no whole number; {must}'
    if len(field) > 1 and field.startswith(b'0'):
        return f'{subject} {verb} {shown(field)}: a number has no leading zero'
    if len(field) > MOST_DIGITS:
        return f'{subject} {verb} {shown(field)}, and a number has at most {MOST_DIGITS} digits; {must}'
    if not least <= int(field) <= most:
        return f'{subject} {verb} {shown(field)}, and {must}'


def of_plan(fields):
    """n first, since it bounds k and b, and k bounds r."""
    for at, name in enumerate('nkrb'):
        wrong = of_number(name, fields[at], *plan_range(name, fields))
        if wrong:
            return wrong


def plan_range(name, fields):
    if name == 'n':
        return 2, 9
    above = 'k' if name == 'r' else 'n'
    bound = int(fields['nkrb'.index(above)])
    return 0, bound, f'{above}, which is {bound}'


def of_step(kind, fields, cabinets):
    back = 1, TO_FACTORY, f'{TO_FACTORY - 1}, or {TO_FACTORY} for the factory entry'
    ranges = {'client': (1, 8), 'cabinet': (1, cabinets), 'slot': (1, 64), 'number of versions back': back}
    for name, field in zip(FIELDS[kind], fields):
        wrong = of_number(name, field, *ranges[name])
        if wrong:
            return wrong
    return of_unused(f'a {shown(kind)} row', fields, len(FIELDS[kind]))


def of_write(fields):
    client, reading, minutes, _ = fields
    wrong = of_number('client', client, 1, 8)
    if wrong or reading not in READINGS:
        return wrong or of_reading(reading)
    if reading == b'open':
        return of_number('minutes', minutes, 0, 240) or of_unused('a write row', fields, 3)
    return of_unused(f'a write of {shown(reading)}', fields, 2)


def of_reading(reading):
    must = 'must be open, closed or unknown'
    if not reading:
        return f'the reading is missing; it {must}'
    if re.fullmatch(rb'open [0-9]+', reading):
        apart = shown(reading).replace(' ', ',')
        return f"the reading is '{shown(reading)}': the minutes stand in a field of their own, {apart}"
    near = difflib.get_close_matches(shown(reading.strip().lower()), [shown(one) for one in READINGS], 1)
    return f'the reading is {quoted(reading)}, and {must}' + (f'; {near[0]}?' if near else '')


def of_unused(what, fields, used):
    for letter, field in list(zip('abcd', fields))[used:]:
        if field:
            return f'field {letter} is {quoted(field)}, and {what} leaves it empty'
