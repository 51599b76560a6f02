"""Plans in words. Whether a plan is accepted, and with which profile, the program says; the stores and quorums that go
with a profile are those of docs/PLANNING.md."""

import subprocess

import reasons
import rows
from out import Broken


def asked(program, fields):
    """What the program says of a plan: forgetful, store, 2 or 12."""
    row = b','.join([b'plan', *fields])
    done = subprocess.run([program], input=reasons.HEADER + b'\n' + row + b'\n', stdout=subprocess.PIPE)
    said = done.stdout.decode().splitlines()
    if done.returncode or len(said) != 2:
        raise Broken('the program did not answer the plan')
    _, answer, outcome, *_ = said[1].split(',')
    return outcome if answer == '0' else answer


def asked_numbers(program, numbers):
    return asked(program, [b'%d' % number for number in numbers])


def stores(numbers, profile):
    """How many cabinets have a store: the first ones."""
    n, k, r, b = numbers
    return 0 if profile == 'forgetful' else 2 * k + r + 1


def quorums(numbers, profile):
    """How many cabinets first parts wait for, and second parts."""
    n, k, r, b = numbers
    return (k + 1, n - k) if profile == 'forgetful' else (n - k, n - k)


def of_stores(numbers, profile):
    count = stores(numbers, profile)
    if not count:
        return 'no cabinet has a store'
    if count == numbers[0]:
        return f'all cabinets have a store, 1 to {count}'
    return 'cabinet 1 has a store, and no other' if count == 1 else f'cabinets 1 to {count} have a store'


def of_quorums(numbers, profile):
    first, second = quorums(numbers, profile)
    if first == second:
        return f'each part of a write or read waits for {reasons.counted(first, "cabinet")}'
    return f'first parts wait for {reasons.counted(first, "cabinet")}, second parts for {second}'


def of_what_it_bears(numbers, profile):
    """k, r and b as what may happen to the line."""
    n, k, r, b = numbers
    how = 'down for good or going up and down without end' + (', or rolled back' if profile == 'store' else '')
    yield (f'{reasons.counted(k, "faulty cabinet")}: {how}' if k else
           'no faulty cabinet: while one is down, second parts wait')
    if profile == 'forgetful':
        yield 'no rollbacks: there is no store that could come back with an older version'
        yield f'restarts of {b or "no"} sound {"cabinet" if b == 1 else "cabinets"}; each is stale from then on'
    else:
        yield (f'rollbacks of {r} of the faulty: they may come back with an older version' if r else
               'no rollbacks: no cabinet may come back with an older version')
        yield 'restarts of all sound cabinets, as often as they like'


def written(numbers):
    return ','.join(map(str, numbers))


def too_small(numbers):
    """Why a plan is answered 12."""
    n, k, r, b = numbers
    without, with_stores = 2 * k + b + 1, 2 * k + r + 1
    return (f'the line is too small: {n} cabinets, where k, r and b need {min(without, with_stores)}'
            f' ({without} without stores, {with_stores} with)')


def nearest(program, numbers):
    """Accepted plans that differ least: more cabinets, or less borne. Each with its profile and what it gives up."""
    n, k, r, b = numbers
    ways = [('with more cabinets', [(more, k, r, b) for more in range(n + 1, 10)]),
            ('with fewer restarts', [(n, k, r, less) for less in reversed(range(b))]),
            ('with fewer rollbacks', [(n, k, less, b) for less in reversed(range(r))]),
            ('with fewer faulty', [(n, less, min(r, less), b) for less in reversed(range(k))])]
    for way, plans in ways:
        for plan in plans:
            profile = asked_numbers(program, plan)
            if profile in ('forgetful', 'store'):
                yield way, plan, profile
                break


def would_do(program, numbers):
    return [f'{way}: {written(plan)}, {profile}; {of_stores(plan, profile)}'
            for way, plan, profile in nearest(program, numbers)] or ['no plan near it would do']


def brought_into_range(fields):
    """The plan with each number that is out of range at the nearest end of its range; None where one is no number."""
    if len(fields) != 4 or not all(field.isdigit() for field in fields):
        return None
    n, k, r, b = map(int, fields)
    n = min(max(n, 2), 9)
    k = min(k, n)
    return n, k, min(r, k), min(b, n)


def why_refused(program, row, answer):
    """For a plan row that is answered 2 or 12: the reason, and what would do."""
    if answer == '12':
        numbers = tuple(map(int, row.text.split(b',')[1:]))
        return too_small(numbers), would_do(program, numbers)
    reason = reasons.fault(row, None) or 'its form or one of its numbers'
    near = brought_into_range(row.text.split(b',')[1:])
    if near is None:
        return reason, ['a plan row is plan,n,k,r,b, for example plan,4,1,1,4']
    profile = asked_numbers(program, near)
    if profile == '12':
        return reason, [f'{written(near)} is in range, and too small a line', *would_do(program, near)]
    return reason, [f'in range: {written(near)}, {profile}; {of_stores(near, profile)}']


def row_of(fields):
    text = b','.join([b'plan', *fields])
    return rows.Row(text, len(text), True)
