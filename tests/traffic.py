"""Traffic: step rows drawn by a weighted walk over a rough guess at a run."""

from guess import CLIENTS, SLOTS, Guess

# What a phase of the walk is made of: moves of Walk with their weights.
PHASES = {
    'healthy': dict(write=3, read=2, send=12, deliver=24),
    'reads': dict(write=1, read=5, send=14, deliver=28, send_again=1),
    'busy': dict(write=3, read=3, send=8, send_again=5, deliver=18, lose=3),
    'faults': dict(write=3, read=2, send=10, send_again=1, deliver=20, lose=1, stop=1, restart=2,
                   roll_back=2, leave=0.1),
    'rollbacks': dict(write=5, read=1, send=12, send_again=1, deliver=26, roll_back=3, restart=1),
    'flood': dict(write=2, read=2, send_again=30, send_idle=1, deliver=2, lose=1),
    'drain': dict(deliver=30, lose=1),
    'strays': dict(write=2, read=2, send=6, deliver=12, stray=6, stop=1, restart=1, leave=0.1),
}


class Walk:
    """Rows, one at a time, in phases of some length.

    reckless walks restart and leave without thought for what still has to be
    answered; others keep enough sound cabinets and clients to go on.
    """

    def __init__(self, rng, plan, phases, reckless=False):
        self.rng = rng
        self.guess = Guess(plan)
        self.plan = plan
        self.reckless = reckless
        self.decks = [self.deck(phase) for phase in phases]
        stores = max(self.guess.stores, 1)
        self.weak = [self.below(stores) + 1 for _ in range(max(plan[2], 1))]
        self.leaves = 8 if reckless else self.below(6)
        self.ahead = []  # rows that are to follow the last move at once
        self.left_in_phase = 0

    def below(self, bound):
        return int(self.rng.random() * bound)

    def pick(self, things):
        return things[int(self.rng.random() * len(things))]

    def chance(self, share):
        return self.rng.random() < share

    def deck(self, weights):
        """Each move as often as its weight says, in tenths."""
        return [getattr(self, move) for move, weight in weights.items() for _ in range(round(weight * 10))]

    def new_phase(self):
        guess = self.guess
        self.now = self.pick(self.decks)
        self.left_in_phase = self.pick([15, 40, 80, 150, 300])
        crew = self.pick([2, 2, 3, 4, 6, 8])
        self.crew = [self.pick(CLIENTS) for _ in range(crew)]
        self.reach = list(guess.cabinets)
        if self.chance(0.15):
            self.rng.shuffle(self.reach)
            self.reach = self.reach[:self.pick([1, 2, 3])]
        # Offers that reach few cabinets, and faults that strike just there, show what else is
        # covered up by the others.
        anywhere = [self.pick(guess.cabinets) for _ in range(2)]
        self.spots = self.pick([self.weak, self.weak, anywhere, [self.plan[0]]])  # the last has a store least often
        self.dawdlers = [client for client in self.crew if self.chance(0.4)]

    def row(self):
        """The next row."""
        if self.ahead:
            return self.ahead.pop()
        while True:
            if self.left_in_phase <= 0:
                self.new_phase()
            self.left_in_phase -= 1
            row = self.pick(self.now)()
            if row is not None:
                return row

    # The moves: a row, or None where the guess has no use for the move now.

    def write(self):
        client = self.pick(self.crew)
        if self.guess.part[client] != 0:
            return None
        self.guess.begin(client)
        return f'write,{client},{self.reading()}'

    def reading(self):
        return self.pick(['closed,,', 'unknown,,', 'open,0,', 'open,240,', 'open,%d,' % self.below(241),
                          'open,%d,' % self.below(241)])

    def read(self):
        client = self.pick(self.crew)
        if self.guess.part[client] != 0:
            return None
        self.guess.begin(client)
        return f'read,{client},,,'

    def open_client(self):
        client = self.pick(self.crew if self.chance(0.8) else CLIENTS)
        return client if self.guess.part[client] in (1, 2) else None

    def send(self):
        """To a cabinet that is still to be heard."""
        client = self.open_client()
        if client is None:
            return None
        second = self.guess.part[client] == 2
        reach = self.spots if second and client in self.dawdlers else self.reach
        wanted = [c for c in reach if c not in self.guess.heard[client] and c not in self.guess.down
                  and (second or c not in self.guess.stale)]
        return self.sent(client, self.pick(wanted)) if wanted else None

    def send_again(self):
        """To any cabinet, heard or not."""
        client = self.open_client()
        if client is None:
            return None
        return self.sent(client, self.pick(self.guess.cabinets if self.chance(0.3) else self.reach))

    def send_idle(self):
        client = self.pick(CLIENTS)
        if self.guess.part[client] in (1, 2):
            return None
        return f'send,{client},{self.pick(self.guess.cabinets)},,'

    def sent(self, client, cabinet):
        if len(self.guess.full) == SLOTS and self.chance(0.8):
            return None
        self.guess.send(client, cabinet)
        return f'send,{client},{cabinet},,'

    def deliver(self):
        guess = self.guess
        if not guess.full:
            return None
        # The message last touched comes on at once, or some other overtakes it.
        slot = guess.full[-1] if self.chance(0.4) else self.pick(guess.full)
        guess.deliver(slot)
        return f'deliver,{slot + 1},,,'

    def lose(self):
        if not self.guess.full:
            return None
        slot = self.pick(self.guess.full)
        self.guess.free(slot)
        return f'lose,{slot + 1},,,'

    def may_go(self, cabinet):
        """Whether the line can go on when this cabinet is down or stale."""
        guess = self.guess
        gone = len(guess.down | guess.stale | {cabinet})
        return self.reckless or self.chance(0.01) or len(guess.cabinets) - gone >= guess.quorum[1]

    def struck(self):
        return self.pick(self.spots if self.chance(0.5) else self.guess.cabinets)

    def stop(self):
        cabinet = self.struck()
        if cabinet in self.guess.down or not self.may_go(cabinet):
            return None
        self.guess.down.add(cabinet)
        return f'stop,{cabinet},,,'

    def restart(self):
        guess = self.guess
        cabinet = self.pick(sorted(guess.down)) if guess.down and self.chance(0.8) else self.struck()
        if guess.forgetful and cabinet not in guess.down and not self.may_go(cabinet):
            return None
        guess.restart(cabinet)
        return f'restart,{cabinet},,,'

    def roll_back(self):
        guess = self.guess
        if guess.forgetful and self.chance(0.9):
            return None
        cabinet = self.pick(self.weak if self.chance(0.75) else guess.cabinets)
        back = self.pick([1, 1, 1, 1, 2, 2, 3, 7, 8, self.below(8) + 1])  # 8 is the factory entry
        if back >= 7 and self.chance(0.5):  # to the oldest version or the factory entry, and past it
            self.ahead.append(f'rollback,{cabinet},{self.pick([1, 8])},,')
        if cabinet in guess.down and self.chance(0.9):
            # Up or still down, who knows: the row after it makes it sure.
            self.ahead.append(self.pick([f'restart,{cabinet},,,', f'stop,{cabinet},,,']))
            if self.ahead[-1].startswith('restart'):
                guess.restart(cabinet)
        return f'rollback,{cabinet},{back},,'

    def leave(self):
        if self.leaves <= 0:
            return None
        self.leaves -= 1
        client = self.pick(CLIENTS)
        self.guess.part[client] = 3
        return f'leave,{client},,,'

    def stray(self):
        """A row of the right form that is mostly refused."""
        client, part = self.pick(CLIENTS), self.guess.part
        row = self.pick([self.out_of_range, self.on_free_slot, self.on_down_cabinet])()
        if row is None and part[client] != 0:
            row = self.pick([f'write,{client},{self.reading()}', f'read,{client},,,'])
        elif row is None:
            row = f'send,{client},{self.pick(self.guess.cabinets)},,'
        if part[client] == 3 and self.chance(0.1):
            row = f'leave,{client},,,'
        return row

    def out_of_range(self):
        odd = self.pick([0, 10, 65, 241, 9999999, 9, 8, self.below(300)])
        client, cabinet = self.pick(CLIENTS), self.plan[0] + 1 + self.below(3)
        return self.pick([
            f'write,{self.pick([0, 9, odd + 9])},closed,,', f'write,{client},open,{241 + odd},',
            f'write,{client},open,241,', f'read,{9 + odd},,,', f'send,{9 + odd},1,,', f'send,{client},{cabinet},,',
            f'send,{client},0,,', f'deliver,{65 + odd},,,', 'deliver,0,,,', f'lose,{65 + odd},,,', 'lose,0,,,',
            f'stop,{cabinet},,,', 'stop,0,,,', f'restart,{cabinet},,,', 'restart,0,,,', f'rollback,{cabinet},1,,',
            'rollback,0,1,,', f'rollback,1,{9 + odd},,', 'rollback,1,0,,', f'leave,{9 + odd},,,', 'leave,0,,,'])

    def on_free_slot(self):
        slot = self.below(SLOTS)
        if self.guess.slots[slot] is not None:
            return None
        return f'{self.pick(["deliver", "lose"])},{slot + 1},,,'

    def on_down_cabinet(self):
        return f'stop,{self.pick(sorted(self.guess.down))},,,' if self.guess.down else None
