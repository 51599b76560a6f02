"""A rough guess at a run: who is probably open, and what is probably on the air."""

CLIENTS = range(1, 9)
SLOTS = 64


def profile(n, k, r, b):
    """The profile's word, '12' or '2'."""
    if not (2 <= n <= 9 and 0 <= k <= n and 0 <= r <= k and 0 <= b <= n):
        return '2'
    if n >= 2 * k + b + 1:
        return 'forgetful'
    return 'store' if n >= 2 * k + r + 1 else '12'


class Guess:
    """Who is probably open, and what is probably on the air.

    It steers the walk and decides nothing: it knows no stamps, entries, versions
    or refusals. Where it is wrong, rows are refused or meet something else.
    """

    def __init__(self, plan):
        n, k, r, b = plan
        self.cabinets = range(1, n + 1)
        self.forgetful = profile(*plan) == 'forgetful'
        self.stores = 0 if self.forgetful else 2 * k + r + 1
        self.quorum = {1: k + 1 if self.forgetful else n - k, 2: n - k}
        self.part = dict.fromkeys(CLIENTS, 0)  # 0 idle, 1 or 2 open, 3 left
        self.operation = dict.fromkeys(CLIENTS, 0)
        self.heard = {client: set() for client in CLIENTS}
        self.slots = [None] * SLOTS
        self.full = []  # the slots in use, in no order
        self.down = set()
        self.stale = set()

    def begin(self, client):
        self.part[client] = 1
        self.operation[client] += 1
        self.heard[client] = set()

    def send(self, client, cabinet):
        if len(self.full) < SLOTS:
            slot = self.slots.index(None)
            self.slots[slot] = (client, self.operation[client], self.part[client], cabinet, 'request')
            self.full.append(slot)

    def free(self, slot):
        self.slots[slot] = None
        self.full.remove(slot)

    def deliver(self, slot):
        client, operation, part, cabinet, kind = self.slots[slot]
        if kind == 'request':
            if cabinet in self.down or (part == 1 and cabinet in self.stale):
                self.free(slot)
            else:
                self.slots[slot] = (client, operation, part, cabinet, 'reply')
            return
        self.free(slot)
        if operation == self.operation[client] and part == self.part[client]:
            heard = self.heard[client]
            heard.add(cabinet)
            if len(heard) >= self.quorum[part]:
                self.part[client] = 2 if part == 1 else 0
                self.heard[client] = set()

    def restart(self, cabinet):
        self.down.discard(cabinet)
        if self.forgetful:
            self.stale.add(cabinet)
