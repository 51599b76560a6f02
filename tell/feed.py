"""Feeds a list to the program and gives each of its rows beside what the transcript says of it, as they come.

In step: a small block goes in, then the answers to its rows are read, so that neither waits for the other and nothing
piles up. A block fits into any pipe.
"""

import os
import select
import signal
import subprocess

import out
import rows
from out import Broken, Stopped

BLOCK = 4096


class Source:
    """Blocks from standard input. Before each, what has been said is written. Ctrl-C is heard between two of them, so that
    what is said ends with a whole line."""

    def __init__(self):
        self.hear, wake = os.pipe()
        os.set_blocking(wake, False)
        signal.set_wakeup_fd(wake)
        signal.signal(signal.SIGINT, lambda *_: None)

    def __iter__(self):
        while True:
            out.flush()
            select.select([0, self.hear], [], [])
            # Asked by itself: Ctrl-C may come together with the end of the list.
            if select.select([self.hear], [], [], 0)[0]:
                raise Stopped
            try:
                block = os.read(0, BLOCK)
            except OSError as why:
                raise Broken(f'the list could not be read to its end: {why.strerror}')
            if not block:
                return
            yield block


class Program:
    def __init__(self, path):
        self.process = subprocess.Popen([path], stdin=subprocess.PIPE, stdout=subprocess.PIPE, start_new_session=True)

    def feed(self, block):
        try:
            self.process.stdin.write(block)
            self.process.stdin.flush()
        except BrokenPipeError:
            pass  # after a refused header or plan nothing more is read

    def said(self):
        """The fields of the next row of the transcript, or None where there is no more."""
        line = self.process.stdout.readline()
        return line[:-1].decode().split(',') if line.endswith(b'\n') else None

    def finish(self):
        try:
            self.process.stdin.close()
        except BrokenPipeError:
            pass


def fed(program, source):
    """Each row of the list, once the program has got it."""
    reader = rows.Reader()
    for block in source:
        program.feed(block)
        yield from reader.rows(block)
    program.finish()
    yield from reader.rest()


def pairs(path, source):
    """Line, row and what is said of it, from the plan on. A refused header is told of line 1; nothing follows it, nor a
    refused plan."""
    program = Program(path)
    steps = fed(program, source)
    header = next(steps, rows.NONE)
    program.said()
    for line, row in enumerate(steps, 2):
        said = program.said()
        if said is None:
            raise Broken('the program broke off')
        yield (1, header, said) if said[0] == '0' else (line, row, said)
        if line == 2 and said[1] != '0':
            return
    said = program.said()
    if said:
        yield 1, header, said
