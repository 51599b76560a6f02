"""The rows of a list as the program takes them, from blocks of any size. Only a line feed ends a row, and one carriage
return before it belongs to the end. Of a long row only its beginning is kept, so that an endless one fills no memory."""

import typing

KEPT = 200  # bytes of a row that are kept; one of over 64 is refused anyway


class Row(typing.NamedTuple):
    text: bytes  # the row without its end, at most KEPT bytes of it
    length: int
    ended: bool  # whether a line feed follows


NONE = Row(b'', 0, False)  # where a list has nothing


class Reader:
    def __init__(self):
        self.kept, self.length, self.last = b'', 0, b''

    def add(self, part):
        self.kept += part[:KEPT - len(self.kept)]
        self.length += len(part)
        self.last = part[-1:] or self.last

    def taken(self, ended):
        row_end = ended and self.last == b'\r'
        length = self.length - row_end
        row = Row(self.kept[:length], length, ended)
        self.kept, self.length, self.last = b'', 0, b''
        return row

    def rows(self, block):
        """The rows that end in this block."""
        *parts, rest = block.split(b'\n')
        for part in parts:
            self.add(part)
            yield self.taken(True)
        self.add(rest)

    def rest(self):
        """The last row, where it lacks its line feed."""
        return [self.taken(False)] if self.length else []


def whole(text):
    """The rows of a short text; one at least."""
    reader = Reader()
    return [*reader.rows(text), *reader.rest()] or [NONE]


def shown(text):
    """Bytes of a list as people may see them."""
    letters = text.decode('utf-8', 'replace')
    return ''.join(letter if letter.isprintable() and letter != '\ufffd' else '?' for letter in letters)
