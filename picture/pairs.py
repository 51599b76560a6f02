"""The rows of a list, each beside the row that its transcript has for it, read one after another."""

import collections
import itertools

HEADER = 'row,answer,outcome,slot,counter,writer,entry'

# step has the fields of the list's row, answer and slot are text as in the transcript, entry is an Entry or None.
Row = collections.namedtuple('Row', 'number step answer outcome slot entry')


class Entry(collections.namedtuple('Entry', 'counter writer reading')):
    __slots__ = ()

    def __str__(self):
        return f'({self.counter},{self.writer}) {self.reading}'

    def stamp(self):
        return f'({self.counter},{self.writer})'

    def look(self):
        """open, closed or unknown."""
        return self.reading.split()[0]


class NoPicture(Exception):
    """Why there is nothing to draw."""


class Astray(NoPicture):
    """The transcript says what cannot be."""

    def __init__(self, why):
        super().__init__(f'the transcript is not that of the list: {why}')


def opened(path):
    """Only a line feed ends a row, and any byte may stand in one."""
    return open(path, encoding='latin-1', newline='\n')


def check_planned(transcript):
    """There is nothing to draw where the list has no plan that was accepted."""
    with opened(transcript) as lines:
        header, planned = (line.removesuffix('\n') for line in itertools.islice(itertools.chain(lines, ['', '']), 2))
    if header != HEADER:
        raise Astray('it begins otherwise')
    if not planned:
        raise NoPicture('the list has no plan row')
    answer = planned.split(',')[1:2]
    if answer == ['13']:
        raise NoPicture('the header row is missing or different (answer 13)')
    if answer != ['0']:
        raise NoPicture(f'the plan is refused (answer {"".join(answer)})')


def count(transcript):
    """How many rows it has after its header."""
    with opened(transcript) as lines:
        return sum(1 for _ in lines) - 1


def row(number, step, said):
    try:
        told, answer, outcome, slot, counter, writer, reading = said.removesuffix('\n').split(',')
        entry = Entry(int(counter), int(writer), reading) if reading else None
    except ValueError:
        raise Astray(f'row {number} is not one of a transcript')
    if told != str(number):
        raise Astray(f'row {number} has another number')
    return Row(number, step.removesuffix('\n').removesuffix('\r').split(','), answer, outcome, slot, entry)


def rows(steps, transcript):
    """From the plan on."""
    with opened(steps) as steps, opened(transcript) as said:
        pairs = itertools.islice(itertools.zip_longest(steps, said), 1, None)
        for number, (step, line) in enumerate(pairs, 1):
            if step is None or line is None:
                raise Astray(f'only one of the two has a row {number}')
            yield row(number, step, line)
