"""Odd rows: rows of a wrong form, headers and plans that are refused, line ends."""

from guess import profile

HEADER = b'kind,a,b,c,d'

ODD_KINDS = [b'sweep,,,,', b'swept,1,,,', b'planrecover,3,0,,', b'plandoubt,4,1,1,', b'join,1,,,', b',,,,',
             b'deliver', b'sen,1,1,,', b'sends,1,1,,', b'reads,1,,,', b'rea,1,,,', b'stopp,1,,,', b'rollbac,1,1,,',
             b'rolledback,1,1,,', b'roll back,1,1,,', b'restar,1,,,', b'restarted,1,,,', b'los,1,,,', b'lost,1,,,',
             b'leav,1,,,', b'left,1,,,', b'open,1,1,,', b'writ,1,closed,,', b'writes,1,closed,,']

ODD_READINGS = [b'write,1,open,,', b'write,1,open,6,0', b'write,1,open,06,', b'write,1,open,-1,',
                b'write,1,closed,0,', b'write,1,closed,,0', b'write,1,unknown,5,', b'write,1,Open,6,',
                b'write,1,opened,6,', b'write,1,open 6,,', b'write,1,,6,', b'write,1,,,', b'write,1,6,open,',
                b'write,,open,6,', b'write,1,close,,', b'write,1,CLOSED,,', b'write,1,0,,', b'write,1,1,6,',
                b'write,1,open,256,', b'write,1,open,4294967302,', b'write,1,closed,', b'write,1,closed']

ODD_BYTES = [b'\0', b' ', b'\t', b'"', b"'", b'+', b'-', b'.', b';', b':', b'\r', b'\x0b', b'\x0c', b'\x1a', b'\x7f',
             b'\x80', b'\x8d', b'\xb1', b'\xff', b'\xc2\xa0', b'\xef\xbc\x91', b'/', b',', b'0', b'9', b'a']


def spoil(rng, row):
    """A row made wrong in one way or another; once in a while it is still right."""
    return rng.choice(SPOILERS)(rng, row)


def in_a_number(rng, row, change):
    """One number of the row changed, or the row as it was."""
    fields = row.split(b',')
    numbers = [at for at, field in enumerate(fields) if field.isdigit()]
    if numbers:
        at = rng.choice(numbers)
        fields[at] = change(fields[at])
    return b','.join(fields)


def leading_zero(rng, row):
    return in_a_number(rng, row, lambda number: rng.choice([b'0', b'00', b'000000', b'0' * 30]) + number)


def many_digits(rng, row):
    odd = [b'10000000', b'00000001', b'99999999', b'4294967297', b'18446744073709551617', b'1' * 40]
    return in_a_number(rng, row, lambda number: rng.choice(odd))


def sign(rng, row):
    return in_a_number(rng, row, lambda number: rng.choice([b'+', b'-']) + number)


def blank(rng, row):
    space = rng.choice([b' ', b'\t', b'  '])
    return in_a_number(rng, row, lambda number: rng.choice([space + number, number + space]))


def other_base(rng, row):
    return in_a_number(rng, row, lambda number: rng.choice([number + b'.0', number + b'e0', b'0x' + number, b'']))


def quoted(rng, row):
    fields = row.split(b',')
    at = rng.randrange(len(fields))
    fields[at] = b'"' + fields[at] + b'"'
    return b','.join(fields)


def whole_row_quoted(rng, row):
    return b'"' + row + b'"'


def byte_put_in(rng, row):
    at = rng.randrange(len(row) + 1)
    return row[:at] + rng.choice(ODD_BYTES) + row[at:]


def byte_changed(rng, row):
    at = rng.randrange(len(row))
    return row[:at] + rng.choice(ODD_BYTES) + row[at + 1:]


def byte_dropped(rng, row):
    at = rng.randrange(len(row))
    return row[:at] + row[at + 1:]


def capitals(rng, row):
    return rng.choice([row.upper(), row.capitalize()])


def cut_off(rng, row):
    return row[:rng.randrange(len(row))]


def more_fields(rng, row):
    return row + rng.choice([b',', b',,', b',0', b',1,1', b',,,,,,,'])


def unused_filled(rng, row):
    fields = row.split(b',')
    empty = [at for at, field in enumerate(fields) if not field]
    if empty:
        fields[rng.choice(empty)] = rng.choice([b'0', b'1', b' ', b'-', b'""', b'x'])
    return b','.join(fields)


def fields_swapped(rng, row):
    fields = row.split(b',')
    rng.shuffle(fields)
    return b','.join(fields)


def nothing(rng, row):
    return b''


def odd_kind(rng, row):
    return rng.choice(ODD_KINDS)


def odd_reading(rng, row):
    return rng.choice(ODD_READINGS)


def later_head(rng, row):
    return rng.choice([b'plan,3,1,0,0', b'plan,4,1,1,2', b'plan,2,0,0,0', b'plan,3,1,1,1', b'plan,1,,,', HEADER,
                       b'row,answer,outcome,slot,counter,writer,entry'])


def noise(rng, row):
    return rng.randbytes(rng.randrange(1, 40)).replace(b'\n', b'')


def long_row(rng, row):
    """Of 63 to 67 bytes or of many, with a good row at its start, its end or nowhere."""
    length = rng.choice([63, 64, 64, 65, 65, 66, 67, 128, 1000, rng.randrange(1000, 9000)])
    filler = rng.choice([b' ', b'0', b',', b'x', b'\r', b'\0', b'\xff']) * max(length - len(row), 0)
    return rng.choice([row + filler, filler + row, filler, row.replace(b',', b',' + filler, 1)])


def two_in_one(rng, row):
    """Good rows with something other than LF between them, some past the 64th byte."""
    between = rng.choice([b'\r', b'\0', b'\x0b', b'\x85', b' ', b';', b'\r' * 64])
    return between.join([row] * rng.choice([2, 3, 5, 6, 7, 40]))


SPOILERS = [leading_zero, many_digits, sign, blank, other_base, quoted, whole_row_quoted, byte_put_in, byte_put_in,
            byte_put_in, byte_changed, byte_dropped, capitals, cut_off, more_fields, unused_filled, unused_filled,
            fields_swapped, nothing, odd_kind, odd_kind, odd_reading, odd_reading, later_head, noise, long_row,
            long_row, two_in_one]


def odd_header(rng):
    """A first row that is nearly the header."""
    whole = [b'kind,a,b,c,d,', b'kind,a,b,c', b'kind,a,b,c,D', b'Kind,a,b,c,d', b'KIND,A,B,C,D', b' kind,a,b,c,d',
             b'kind,a,b,c,d ', b'\xef\xbb\xbfkind,a,b,c,d', b'"kind","a","b","c","d"', b'kind, a, b, c, d',
             b'kind;a;b;c;d', b'', b'\r', b'kind,a,b,c,d\r', b'kind,a,b,c,d\0', b'kind', b'plan,3,1,0,0',
             b'kind,a,b,c,d' + b' ' * 60, b'kind,a,b,c,d' * 2000]
    return rng.choice([rng.choice(whole), byte_put_in(rng, HEADER), byte_changed(rng, HEADER)])


def plan_in_range(rng):
    n = rng.randrange(2, 10)
    k = rng.randrange(n + 1)
    return n, k, rng.randrange(k + 1), rng.randrange(n + 1)


def plan_too_small(rng):
    while True:
        plan = plan_in_range(rng)
        if profile(*plan) == '12':
            return plan


def plan_out_of_range(rng):
    """One number just past its bound, or far out, or right but for the bits of a byte."""
    numbers = list(plan_in_range(rng))
    which = rng.randrange(4)
    past = [rng.choice([0, 1, 10, 10]), numbers[0] + 1, numbers[1] + 1, numbers[0] + 1][which]
    far = [numbers[which] + 256, numbers[which] + 65536, 9999999]
    numbers[which] = past if rng.random() < 0.7 else rng.choice(far)
    return tuple(numbers)


def refused_plan(rng):
    """A second row that is refused: out of range, too small a line, or of another form."""
    numbers = b'plan,%d,%d,%d,%d' % rng.choice([plan_too_small, plan_out_of_range])(rng)
    odd = [b'', b'\r', b'plan', b'plan,3,1,0', b'plan,3,1,0,', b'plan,3,1,0,0,', b'plan,,,,', b'Plan,3,1,0,0',
           b'read,1,,,', b'write,1,open,6,', b'restart,1,,,', HEADER]
    return rng.choice([numbers, numbers, rng.choice(odd), spoil(rng, b'plan,5,1,1,2'), spoil(rng, numbers)])


def joined(rng, rows, style):
    """The rows with their ends: LF, CRLF or both, rarely CR CR LF; the last may lack its own."""
    if style == 'lf':
        text = b'\n'.join(rows) + b'\n'
    elif style == 'crlf':
        text = b'\r\n'.join(rows) + b'\r\n'
    else:
        text = b''.join(row + rng.choices([b'\n', b'\r\n', b'\r\r\n'], [50, 50, 1])[0] for row in rows)
    cut = rng.random()
    if cut < 0.25:
        return text[:-1]  # leaves the CR of a CRLF, which is then part of the row
    if cut < 0.35:
        return text.rstrip(b'\r\n')
    if cut < 0.40:
        return text + rng.choice([b'\n', b'\r', b'\r\n', b'\n\n', b' ', b'\0'])
    return text
