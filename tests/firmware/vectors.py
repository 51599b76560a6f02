#!/usr/bin/env python3
"""Pairs of entries in XDR, each with the answer that cabinet_offer owes.

    vectors.py           write vectors.txt
    vectors.py --check   fail unless vectors.txt is what would be written

The bytes come from xdrlib, the standard library's XDR writer, so that they do not rest on our own reading
of RFC 4506. Python 3.13 no longer has it, which is why the vectors are stored.
"""

import itertools
import pathlib
import sys
import warnings

try:
    with warnings.catch_warnings():
        warnings.simplefilter("ignore", DeprecationWarning)
        import xdrlib
except ImportError:
    xdrlib = None

STORED = pathlib.Path(__file__).resolve().with_name("vectors.txt")

TAKEN, KEPT, REFUSED = 20, 21, 2
UNKNOWN, OPEN, CLOSED = 0, 1, 2

READINGS = [(UNKNOWN, 0), (OPEN, 0), (OPEN, 6), (OPEN, 240), (CLOSED, 0)]

STAMPS = [
    (0, 0),
    (1, 1),
    (1, 2),
    (2, 1),
    (255, 8),
    (256, 0),
    (2**32 - 1, 8),
    (2**32, 1),
    (2**32 + 1, 0),
    (2**63 - 1, 8),
    (2**63, 3),
    (0x0102030405060708, 4),
    (0x0807060504030201, 5),
    (2**64 - 1, 0),
    (2**64 - 1, 8),
]

# The values of buffers that hold no entry. pairs() sets them against lower, equal and higher counters.
FLAWED = [
    (5, 9, OPEN, 6),
    (5, 256, OPEN, 6),
    (5, 0x01000000, OPEN, 6),
    (5, 2**32 - 1, OPEN, 6),
    (5, 1, 3, 0),
    (5, 1, 256, 0),
    (5, 1, 257, 0),
    (5, 1, 0x01000000, 0),
    (5, 1, 2**31 - 1, 0),
    (5, 1, -1, 0),
    (5, 1, -255, 6),
    (5, 1, -(2**31), 0),
    (5, 1, OPEN, 241),
    (5, 1, OPEN, 256),
    (5, 1, OPEN, 0x01000000),
    (5, 1, OPEN, 2**32 - 1),
    (5, 1, CLOSED, 1),
    (5, 1, CLOSED, 240),
    (5, 1, CLOSED, 2**32 - 1),
    (5, 1, UNKNOWN, 1),
    (5, 1, UNKNOWN, 240),
    (5, 1, UNKNOWN, 2**32 - 1),
    # too short, and too long
    (5,),
    (5, 1),
    (5, 1, OPEN),
    (5, 1, OPEN, 6, 5),
    (5, 1, OPEN, 6, 5, 1, OPEN, 6),
]


def is_entry(values):
    if len(values) != 4:
        return False
    _, writer, reading, minutes = values
    most = 240 if reading == OPEN else 0
    return writer <= 8 and reading in (UNKNOWN, OPEN, CLOSED) and minutes <= most


def answer(held, offered):
    if not (is_entry(held) and is_entry(offered)):
        return REFUSED
    return TAKEN if offered[:2] > held[:2] else KEPT


def pairs():
    for (i, held), (j, offered) in itertools.product(enumerate(STAMPS), repeat=2):
        # by the other one's place, so that each stamp comes with each reading on either side
        yield held + READINGS[j % len(READINGS)], offered + READINGS[i % len(READINGS)]
    for held, offered in itertools.product(READINGS, repeat=2):
        for counter in (6, 7, 8):
            yield (7, 3) + held, (counter, 3) + offered
    for flawed in FLAWED:
        for counter in (4, 5, 6):
            sound = (counter, 1, OPEN, 6)
            yield flawed, sound
            yield sound, flawed
        yield flawed, flawed


def encoded(values):
    packer = xdrlib.Packer()
    fields = (packer.pack_uhyper, packer.pack_uint, packer.pack_int, packer.pack_uint)
    for pack, value in zip(itertools.cycle(fields), values):
        pack(value)
    return packer.get_buffer().hex()


def vectors():
    return "".join(f"{encoded(held)} {encoded(offered)} {answer(held, offered)}\n" for held, offered in pairs())


def main(words):
    if words not in ([], ["--check"]):
        print("usage: vectors.py [--check]", file=sys.stderr)
        return 2
    if xdrlib is None:
        if words:
            print("vectors: skipped, vectors.txt is not compared: this Python has no xdrlib")
            return 0
        print("vectors: nothing written: this Python has no xdrlib", file=sys.stderr)
        return 1
    text = vectors().encode("ascii")
    if not words:
        STORED.write_bytes(text)
        return 0
    if not STORED.exists() or STORED.read_bytes() != text:
        print("vectors: vectors.txt is not what vectors.py writes", file=sys.stderr)
        return 1
    print(f"vectors: {text.count(10)} as xdrlib writes them")
    return 0


if __name__ == "__main__":
    sys.exit(main(sys.argv[1:]))
