"""Standard output in whole lines, and the ways in which a program of this folder ends."""

import os
import signal
import sys

pending = []


class Broken(Exception):
    """The program, or reading the list, broke off."""


class Stopped(Exception):
    """Ctrl-C."""


def say(line):
    pending.append(line + '\n')


def flush():
    text = ''.join(pending).encode('utf-8', 'replace')
    pending.clear()
    while text:
        text = text[os.write(1, text):]


def fail(sentence):
    print(f'rehearse: {sentence}', file=sys.stderr, flush=True)
    return 1


def ended(main):
    """The status of main, with all that it said written."""
    try:
        status = main()
    except Stopped:
        status = 130
    except Broken as why:
        flush()
        return fail(why)
    flush()
    return status


def guarded(main):
    """Ends this program as main does."""
    signal.signal(signal.SIGPIPE, signal.SIG_DFL)
    try:
        status = ended(main)
    except KeyboardInterrupt:
        status = 130
    except OSError as why:
        status = fail(f'what is said could not be written and is not whole: {why.strerror}')
    sys.exit(status)
