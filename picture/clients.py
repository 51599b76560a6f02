"""What a client is about: its open operation, whom it has heard in the open part, and what it offers."""


class Client:
    __slots__ = ('left', 'number', 'kind', 'part', 'reading', 'heard', 'largest', 'offer')

    def __init__(self):
        self.left, self.number = False, 0
        self.rest()

    def rest(self):
        """No operation is open."""
        self.kind = self.part = self.reading = self.offer = self.largest = None
        self.heard = set()

    def begin(self, kind, reading):
        self.rest()
        self.number += 1
        self.kind, self.part, self.reading = kind, 1, reading

    def awaits(self, reply):
        return (self.part == reply.part and self.number == reply.number and reply.cabinet not in self.heard)

    def hear(self, reply):
        """Of equal stamps the first heard stays."""
        self.heard.add(reply.cabinet)
        if reply.told and (self.largest is None or reply.told[:2] > self.largest[:2]):
            self.largest = reply.told

    def end_word(self):
        """What the transcript calls the end of the open part."""
        return {('write', 1): 'chosen', ('read', 1): 'found', ('write', 2): 'written', ('read', 2): 'read'}[
            self.kind, self.part]

    def end_part(self, entry):
        """The second part offers the entry; after it there is none."""
        if self.part == 2:
            self.rest()
        else:
            self.part, self.offer, self.heard = 2, entry, set()
