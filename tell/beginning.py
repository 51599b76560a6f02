"""What stands in place of the header row, where the program answers 13."""

import rows
from reasons import HEADER

MUST = 'the first row must be kind,a,b,c,d'
BEGINNINGS = [((b'\xef\xbb\xbf',), 'the list begins with a byte-order mark; save it as UTF-8 without one'),
              ((b'\xff\xfe', b'\xfe\xff', b'k\0', b'\0k'), 'the list is in UTF-16; save it as UTF-8'),
              ((b'PK\3\4',), 'the list is a spreadsheet or a zip file; save it as CSV')]


def sentence(row):
    """From the first row of the list."""
    if not row.length and not row.ended:
        return f'the list is empty; {MUST}'
    for marks, said in BEGINNINGS:
        if row.text.startswith(marks):
            return said
    if row.text == HEADER + b'\r' and row.ended:
        return 'two carriage returns stand behind the header row, and one is the most'
    if row.text.startswith(HEADER + b'\r'):
        return 'the rows end in carriage returns alone; save the list with line feeds, or with both'
    if row.text.replace(b';', b',') == HEADER:
        return 'the fields are divided by semicolons; save the list with commas between them'
    return f"{MUST} and is '{rows.shown(row.text[:64])}'"
