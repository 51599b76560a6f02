"""What a picture shows of a run, from one row to another: arrows, stretches of a lane, labels at a lane.

It is told row by row, after the run has followed the row. A lane is ('client', 3) or ('cabinet', 2). What was under way
when the story begins comes in at its top, and what is under way when it ends goes out at its foot.
"""

import collections

from looks import body_look, cabinet_look, cabinet_standing, client_look, client_standing, told_look
from words import row_words

BAND = 50  # rows from one band of lane names to the next; it says again what each lane holds

Label = collections.namedtuple('Label', 'row lane look text pair')  # pair: the row in which the message was sent
Span = collections.namedtuple('Span', 'lane began ended look')
Line = collections.namedtuple('Line', 'number pair words')  # a row of the list


class Arrow:
    """A message on its way. began and ended may lie before and after what is shown."""

    def __init__(self, message):
        self.message, self.began, self.ended, self.fate = message, message.began, None, 'underway'
        self.body = body_look(message)


class Story:
    def __init__(self, run, first, last):
        self.run, self.first, self.last = run, first, last
        self.clients, self.arrows, self.spans, self.labels = set(), [], [], []
        self.lines, self.refusals = [], []
        self.bands = {}  # row: {lane: two lines of words}, what stands there before the row
        self.air = {}  # slot: the arrow in it
        self.now = {}  # lane: since which row, and its look
        self.marked = {}  # cabinet's lane: since which row
        self.tell = {'refused': self.refused, 'begun': self.begun, 'sent': self.sent, 'answered': self.answered,
                     'unanswered': self.unanswered, 'lost': self.lost, 'discarded': self.discarded,
                     'counted': self.counted, 'left': self.left, 'stopped': self.fault, 'restarted': self.fault,
                     'rolled back': self.fault, 'forgetful': self.planned, 'store': self.planned}
        self.tell |= dict.fromkeys(['chosen', 'found', 'written', 'read'], self.part_ended)

    def before(self, number):
        """What stands there before a row is followed."""
        if number == self.first:
            self.come_in()
        if self.first <= number <= self.last and (number - self.first) % BAND == 0:
            self.bands[number] = dict(self.standing())

    def after(self, row, message):
        """A row that has been followed, and the message that came to its end with it, or None."""
        if row.number > self.last:
            self.ended_later(row)
        elif row.number >= self.first:
            self.tell[row.outcome](row, message)
            pair = message.sent if message else row.number if row.outcome == 'sent' else None
            self.lines.append(Line(row.number, pair, row_words(row)))

    def close(self):
        """After the last row."""
        end = self.last + 1
        for lane in list(self.now):
            self.turn(lane, end, None)
        self.spans = [span for span in self.spans if span.lane[0] == 'cabinet' or span.lane[1] in self.clients]
        self.spans += [Span(lane, began, end, 'mark') for lane, began in self.marked.items()]

    def come_in(self):
        """Open operations, messages on the air, and what each cabinet holds when the story begins."""
        for place, client in self.run.clients.items():
            if client.kind:
                self.clients.add(place)
            if client.kind or client.left:
                self.now['client', place] = self.first, client_look(client)
        for message in self.run.air.values():
            self.clients.add(message.client)
            self.launch(message)
        for place, cabinet in self.run.cabinets.items():
            self.now['cabinet', place] = self.first, cabinet_look(cabinet)
            if cabinet.marked:
                self.marked['cabinet', place] = self.first

    def standing(self):
        for place, client in self.run.clients.items():
            yield ('client', place), client_standing(client, self.run.plan)
        for place, cabinet in self.run.cabinets.items():
            yield ('cabinet', place), cabinet_standing(cabinet)

    def turn(self, lane, row, look):
        """The lane looks so from this row on."""
        if lane in self.now:
            since, before = self.now.pop(lane)
            self.spans.append(Span(lane, since, row, before))
        if look:
            self.now[lane] = row, look

    def turn_cabinet(self, row, place):
        self.turn(('cabinet', place), row.number, cabinet_look(self.run.cabinets[place]))

    def label(self, row, lane, look, text, message=None):
        self.labels.append(Label(row.number, lane, look, text, message.sent if message else None))

    def client(self, row):
        self.clients.add(int(row.step[1]))
        return 'client', int(row.step[1])

    def launch(self, message):
        self.air[message.slot] = Arrow(message)
        self.arrows.append(self.air[message.slot])

    def land(self, row, fate):
        arrow = self.air.pop(int(row.slot))
        arrow.ended, arrow.fate = row.number, fate

    def ended_later(self, row):
        """A message that went out at the foot: where it ended is told in words."""
        if row.slot and int(row.slot) in self.air:
            self.air.pop(int(row.slot)).ended = row.number

    def planned(self, row, _):
        """The plan stands in the heading."""

    def refused(self, row, _):
        self.refusals.append(row)

    def begun(self, row, _):
        lane = self.client(row)
        self.turn(lane, row.number, 'asking')
        self.label(row, lane, 'begun', f'begun: {" ".join(row.step[:1] + row.step[2:]).rstrip()}')

    def sent(self, row, _):
        self.client(row)
        self.launch(self.run.air[row.slot])

    def answered(self, row, request):
        self.land(row, 'answered')
        reply, held = self.run.air[row.slot], self.run.cabinets[request.cabinet].held
        self.launch(reply)
        if reply.taken:
            self.turn_cabinet(row, request.cabinet)
        verb = 'tells' if reply.told else 'takes' if reply.taken else 'keeps'
        look, text = (told_look(reply), reply.told_words()) if reply.told else (held.look(), held)
        self.label(row, ('cabinet', request.cabinet), f'{verb} {look}', f'{verb} {text}', request)

    def unanswered(self, row, request):
        self.land(row, 'unanswered')
        why = self.run.cabinets[request.cabinet].silent(not request.offer)
        self.label(row, ('cabinet', request.cabinet), 'aside', f'unanswered: {why}', request)

    def lost(self, row, _):
        self.land(row, 'lost')

    def discarded(self, row, reply):
        self.land(row, 'discarded')
        self.label(row, ('client', reply.client), 'aside', 'discarded', reply)

    def counted(self, row, reply):
        self.land(row, 'counted')
        heard = f'{reply.place} of {self.run.plan.quorums[reply.part]} heard'
        look, told = (f' {told_look(reply)}', f': {reply.told_words()}') if reply.told else ('', '')
        self.label(row, ('client', reply.client), f'heard{look}', f'{heard}{told}', reply)

    def part_ended(self, row, reply):
        self.land(row, 'counted')
        lane, look, quorum = ('client', reply.client), row.entry.look(), self.run.plan.quorums[reply.part]
        self.turn(lane, row.number, look if reply.part == 1 else None)
        self.label(row, lane, f'{row.outcome} {look}', f'{quorum} of {quorum}: {row.outcome} {row.entry}', reply)

    def left(self, row, _):
        lane = self.client(row)
        self.turn(lane, row.number, 'gone')
        self.label(row, lane, 'fault', 'left')

    def fault(self, row, _):
        """Something befalls a cabinet, and then it holds this."""
        place = int(row.step[1])
        cabinet, lane = self.run.cabinets[place], ('cabinet', place)
        text = {'stopped': 'stopped', 'rolled back': f'rolled back to {cabinet.held}',
                'restarted': f'restarted{", stale" * cabinet.stale}: {cabinet.held}'}[row.outcome]
        if cabinet.marked:
            self.marked.setdefault(lane, row.number)
        self.turn_cabinet(row, place)
        self.label(row, lane, 'fault', text)
