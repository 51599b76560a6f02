"""A message: a request, or the reply to one."""


class Message:
    __slots__ = ('client', 'cabinet', 'slot', 'kind', 'number', 'part', 'offer', 'sent', 'began', 'reply', 'told',
                 'taken', 'place')

    def __init__(self, client, cabinet, slot, operation, sent):
        """operation is kind, number, part and what is offered, None in a first part; sent is the request's row."""
        self.client, self.cabinet, self.slot = client, cabinet, slot
        self.kind, self.number, self.part, self.offer = operation
        self.sent = self.began = sent
        self.reply = False
        self.told = None  # what the reply to an ask tells
        self.taken = None  # in a reply to an offer: whether the cabinet took it
        self.place = None  # in a reply that was counted: the how manyth heard in its part

    def answered(self, row, told, taken):
        """The reply, which takes the same slot."""
        operation = self.kind, self.number, self.part, self.offer
        reply = Message(self.client, self.cabinet, self.slot, operation, self.sent)
        reply.began, reply.reply, reply.told, reply.taken = row.number, True, told, taken
        return reply

    def told_words(self):
        """A write asks for the stamp alone."""
        return self.told.stamp() if self.kind == 'write' else str(self.told)
