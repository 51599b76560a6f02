"""A run, followed row by row: what clients, cabinets and the air hold after each row.

The transcript says what happens. The rules say what then stands where, and wherever the transcript tells of that, the
two are held against each other; where they disagree the run is not followed any further.
"""

import heapq

from cabinets import Cabinet
from clients import Client
from messages import Message
from pairs import Astray, Entry
from plan import Plan
from refusals import has_reason

CLIENTS, SLOTS = range(1, 9), range(1, 65)
HEARD = ['counted', 'discarded', 'chosen', 'found', 'written', 'read']

# Which kinds of rows have which outcome.
KINDS = {'begun': ('write', 'read'), 'sent': ('send',), 'lost': ('lose',), 'left': ('leave',), 'stopped': ('stop',),
         'restarted': ('restart',), 'rolled back': ('rollback',)}
KINDS |= dict.fromkeys(['answered', 'unanswered', *HEARD], ('deliver',))


class Disagrees(Exception):
    """What is so by the rules, where the transcript says otherwise."""


class Run:
    def __init__(self, row):
        self.plan = Plan(row)
        self.cabinets = {place: Cabinet(place <= self.plan.stores, self.plan.forgetful)
                         for place in range(1, self.plan.n + 1)}
        self.clients = {place: Client() for place in CLIENTS}
        self.air, self.free = {}, list(SLOTS)  # slot: the message in it; a heap of the others
        self.follow = {
            'refused': self.refused, 'begun': self.begun, 'sent': self.sent, 'answered': self.answered,
            'unanswered': self.unanswered, 'lost': self.land, 'left': self.left, 'stopped': self.stopped,
            'restarted': self.restarted, 'rolled back': self.rolled_back} | dict.fromkeys(HEARD, self.heard)

    def take(self, row):
        """Follows a row. Gives the message that came to its end with it, or None."""
        try:
            if row.outcome != 'refused' and (row.answer != '0' or row.step[0] not in KINDS[row.outcome]):
                raise ValueError
            return self.follow[row.outcome](row)
        except Disagrees as why:
            raise Astray(f'row {row.number} says {row.outcome:.40}, and {why}')
        except (LookupError, ValueError):
            raise Astray(f'row {row.number} says {row.outcome:.40}, which does not go with the step')

    def marked(self):
        return sum(cabinet.marked for cabinet in self.cabinets.values())

    def refused(self, row):
        if not has_reason(row.answer, self, row.step):
            raise Disagrees(f'there is no reason for answer {row.answer}')

    def begun(self, row):
        client = self.clients[int(row.step[1])]
        if client.left or client.kind:
            raise Disagrees('the client is not idle')
        client.begin(row.step[0], ' '.join(row.step[2:]).rstrip())

    def sent(self, row):
        name = int(row.step[1])
        client = self.clients[name]
        if not client.kind or not 1 <= int(row.step[2]) <= self.plan.n:
            raise Disagrees('no such request is open')
        if not self.free or self.free[0] != int(row.slot):
            raise Disagrees(f'slot {row.slot} is not the first that is free')
        heapq.heappop(self.free)
        operation = client.kind, client.number, client.part, client.offer
        self.air[row.slot] = Message(name, int(row.step[2]), int(row.slot), operation, row.number)

    def message(self, row):
        """What the row's slot holds."""
        if row.step[1] != row.slot:
            raise ValueError
        if row.slot not in self.air:
            raise Disagrees(f'slot {row.slot} is empty')
        return self.air[row.slot]

    def land(self, row):
        """What the row's slot holds; it is empty from now on."""
        message = self.message(row)
        del self.air[row.slot]
        heapq.heappush(self.free, message.slot)
        return message

    def request(self, row, silent):
        """The request in the row's slot, at a cabinet that is to be silent or to answer."""
        request = self.message(row)
        if request.reply:
            raise Disagrees(f'slot {row.slot} holds a reply')
        why = self.cabinets[request.cabinet].silent(not request.offer)
        if bool(why) != silent:
            raise Disagrees(f'cabinet {request.cabinet} is {why or "up and not stale"}')
        return request

    def answered(self, row):
        """The reply takes the slot of the request."""
        request = self.request(row, False)
        cabinet = self.cabinets[request.cabinet]
        if request.offer:
            told, taken = None, cabinet.offer(request.offer)
        else:
            told, taken = cabinet.held, None
        self.air[row.slot] = request.answered(row, told, taken)
        return request

    def unanswered(self, row):
        self.request(row, True)
        return self.land(row)

    def heard(self, row):
        """A reply arrives; what comes of it follows from whom the client has heard."""
        reply = self.land(row)
        if not reply.reply:
            raise Disagrees(f'slot {row.slot} holds a request')
        client, expected = self.clients[reply.client], 'discarded'
        if client.awaits(reply):
            client.hear(reply)
            reply.place = len(client.heard)
            expected = client.end_word() if reply.place == self.plan.quorums[reply.part] else 'counted'
        if row.outcome != expected:
            raise Disagrees(f'by whom client {reply.client} has heard it is {expected}')
        if expected not in ('counted', 'discarded'):
            self.check_entry(row, reply.client, client)
            client.end_part(row.entry)
        return reply

    def check_entry(self, row, name, client):
        """Chosen is one more than the largest counter heard, found the largest entry, the others what was offered."""
        expected = client.offer
        if row.outcome == 'chosen':
            expected = Entry(client.largest.counter + 1, name, client.reading)
        elif row.outcome == 'found':
            expected = client.largest
        if row.entry != expected:
            raise Disagrees(f'has {row.entry}, where what the cabinets told makes it {expected}')

    def left(self, row):
        client = self.clients[int(row.step[1])]
        if client.left:
            raise Disagrees('the client had left before')
        client.left = True
        client.rest()

    def stopped(self, row):
        cabinet = self.cabinets[int(row.step[1])]
        if not cabinet.up:
            raise Disagrees('the cabinet is down')
        cabinet.up = False

    def restarted(self, row):
        self.cabinets[int(row.step[1])].restart()

    def rolled_back(self, row):
        cabinet, places = self.cabinets[int(row.step[1])], int(row.step[2])
        if not cabinet.can_go_back(places):
            raise Disagrees('the cabinet has nothing so old')
        cabinet.roll_back(places)
        if self.marked() > self.plan.r:
            raise Disagrees(f'more than {self.plan.r} cabinets are rolled back')
