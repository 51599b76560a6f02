"""A rehearsal in words, row by row. Nothing is decided here: who is open, down or gone, and what is in a slot, is taken
from the accepted rows and from what the transcript says of them."""

import collections

import beginning
import plans
import reasons
from rows import shown

Message = collections.namedtuple('Message', 'client cabinet operation part reply')
Operation = collections.namedtuple('Operation', 'line words part')  # words: read, or write open 6

ANSWERS = {'1': 'the run is damaged', '14': 'the lent table has not the right number of records',
           '3': '1,000,000 steps are accepted already, and a rehearsal takes no more',
           '7': 'all 64 slots hold a message; deliver or lose one first'}


class Story:
    """What the rows so far have made of clients, cabinets and slots."""

    def __init__(self, program):
        self.program = program
        self.plan = self.profile = None
        self.open = {}  # client: its Operation
        self.offer = {}  # client: the entry that its second part offers
        self.showed = {}  # client: the entry that its last read showed, and the line
        self.left, self.down, self.restarted, self.rolled = {}, {}, {}, {}  # of clients and cabinets: the line of it
        self.air = {}  # slot: the Message in it
        self.begun = self.finished = 0
        self.refused = collections.Counter()

    def words(self, line, row, said):
        """What came of a row: a line, or several for a refused plan."""
        answer, outcome = said[1], said[2]
        fields = [shown(field) for field in row.text.split(b',')]
        if answer != '0':
            self.refused[answer] += 1
            return self.of_refusal(line, row, fields, answer)
        sentence = BY_OUTCOME[outcome](self, line, fields, said)
        return [f'{outcome}: {sentence}']

    # ---- refused

    def of_refusal(self, line, row, fields, answer):
        if answer == '13':
            return [f'refused (13): {beginning.sentence(row)}']
        if line == 2:
            reason, would_do = plans.why_refused(self.program, row, answer)
            return [f'refused ({answer}): {reason}', *would_do]
        if answer == '2':
            return [f'refused (2): {reasons.fault(row, self.plan) or "the form of the row, or a number in it"}']
        return [f'refused ({answer}): {ANSWERS.get(answer) or REFUSED[answer](self, *map(int_or_text, fields[1:]))}']

    def has_left(self, client, *_):
        return f'client {client} has left, in line {self.left[client]}, and takes no more steps'

    def not_idle(self, client, *_):
        return f'client {client} is not idle: its {self.now(client)} is not finished'

    def is_idle(self, client, *_):
        return f'client {client} is idle: it has no write or read open that it could send for'

    def no_message(self, slot, *_):
        return f'slot {slot} is empty: there is nothing to deliver or lose'

    def is_down(self, cabinet, *_):
        return f'cabinet {cabinet} is down already, since line {self.down[cabinet]}'

    def no_version(self, cabinet, back, *_):
        if cabinet > plans.stores(self.plan, self.profile):
            return f'cabinet {cabinet} has no store: {plans.of_stores(self.plan, self.profile)}'
        if back == reasons.TO_FACTORY:
            return f'cabinet {cabinet} holds the factory entry already'
        fewer = 'no older version' if back == 1 else f'fewer than {back} older versions'
        return f'cabinet {cabinet} keeps {fewer}'

    def too_many(self, cabinet, *_):
        others = ' and '.join(f'cabinet {one} (line {at})' for one, at in sorted(self.rolled.items()))
        if not others:
            return 'r is 0: the plan bears no rollback'
        return f'r is {self.plan[2]}, and so many others have rolled back already: {others}'

    # ---- accepted

    def now(self, client):
        return f'{self.open[client].words}, begun in line {self.open[client].line},'

    def of_plan(self, line, fields, said):
        self.plan, self.profile = tuple(map(int, fields[1:])), said[2]
        return f'{plans.of_stores(self.plan, self.profile)}; {plans.of_quorums(self.plan, self.profile)}'

    def of_begun(self, line, fields, said):
        client, words = int(fields[1]), ' '.join(field for field in [fields[0], *fields[2:]] if field)
        self.open[client] = Operation(line, words, 1)
        self.begun += 1
        return f'client {client} begins to {words}'

    def of_sent(self, line, fields, said):
        client, cabinet, slot = int(fields[1]), int(fields[2]), said[3]
        operation = self.open[client]
        self.air[slot] = Message(client, cabinet, operation.line, operation.part, False)
        if operation.part == 1:
            return f'client {client} asks cabinet {cabinet}; the request is in slot {slot}'
        return f'client {client} offers {self.offer[client]} to cabinet {cabinet}; the request is in slot {slot}'

    def of_answered(self, line, fields, said):
        message = self.air[said[3]]
        self.air[said[3]] = message._replace(reply=True)
        return (f'cabinet {message.cabinet} has got the request of client {message.client};'
                f' its reply is in slot {said[3]}')

    def emptied(self, said):
        return self.air.pop(said[3]), f'slot {said[3]} is empty'

    def of_unanswered(self, line, fields, said):
        message, slot = self.emptied(said)
        cabinet = message.cabinet
        why = (f'is down, since line {self.down[cabinet]}' if cabinet in self.down else
               f'is stale, since its restart in line {self.restarted[cabinet]}, and does not answer when it is asked')
        return f'cabinet {cabinet} {why}; {slot}'

    def of_discarded(self, line, fields, said):
        message, slot = self.emptied(said)
        why = self.useless(message)
        return f'client {message.client} has no use for the reply of cabinet {message.cabinet}: {why}; {slot}'

    def useless(self, message):
        operation = self.open.get(message.client)
        if message.client in self.left:
            return 'it has left'
        if not operation or operation.line != message.operation:
            return f'what it began in line {message.operation} is finished'
        return 'that part is over' if operation.part != message.part else 'it has heard that cabinet in this part'

    def of_counted(self, line, fields, said):
        message, slot = self.emptied(said)
        return f'client {message.client} counts the reply of cabinet {message.cabinet}, and needs more; {slot}'

    def part_ended(self, said):
        message, slot = self.emptied(said)
        entry = f'({said[4]},{said[5]}) {said[6]}'
        return message.client, f'client {message.client} counts the reply of cabinet {message.cabinet}', entry, slot

    def of_first_part(self, line, fields, said):
        client, heard, entry, slot = self.part_ended(said)
        self.open[client], self.offer[client] = self.open[client]._replace(part=2), entry
        what = 'chooses' if said[2] == 'chosen' else 'has found'
        return f'{heard}, which is enough; it {what} {entry}, and offers that now; {slot}'

    def of_second_part(self, line, fields, said):
        client, heard, entry, slot = self.part_ended(said)
        begun = self.open.pop(client).line
        self.finished += 1
        if said[2] == 'written':
            return f'{heard}, which is enough; its write of line {begun} is finished: {entry}; {slot}'
        self.showed[client] = said[6], line
        return f'{heard}, which is enough; its read of line {begun} is finished, and it shows {entry}; {slot}'

    def of_lost(self, line, fields, said):
        message, slot = self.emptied(said)
        way = f'cabinet {message.cabinet} to client {message.client}'
        return (f'the reply from {way}' if message.reply else
                f'the request from client {message.client} to cabinet {message.cabinet}') + f' is lost; {slot}'

    def of_left(self, line, fields, said):
        client = int(fields[1])
        self.left[client] = line
        operation = self.open.pop(client, None)
        dropped = f'; its {operation.words} of line {operation.line} stays unfinished' if operation else ''
        return f'client {client} is gone{dropped}'

    def of_stopped(self, line, fields, said):
        self.down[int(fields[1])] = line
        return f'cabinet {fields[1]} is down'

    def of_restarted(self, line, fields, said):
        cabinet = int(fields[1])
        self.down.pop(cabinet, None)
        self.restarted[cabinet] = line
        if cabinet <= plans.stores(self.plan, self.profile):
            return f'cabinet {cabinet} is up, with what it held in its store'
        stale = ', and stale: it does not answer when it is asked' if self.profile == 'forgetful' else ''
        return f'cabinet {cabinet} is up, with the factory entry{stale}'

    def of_rolled_back(self, line, fields, said):
        cabinet = int(fields[1])
        self.down.pop(cabinet, None)
        self.rolled.setdefault(cabinet, line)
        back = int(fields[2])
        if back == reasons.TO_FACTORY:
            return f'cabinet {cabinet} is up, with the factory entry; the versions that it kept are gone'
        return f'cabinet {cabinet} is up, with what it held {reasons.counted(back, "version")} earlier'


def int_or_text(field):
    return int(field) if field.isdigit() else field


REFUSED = {'4': Story.has_left, '5': Story.not_idle, '6': Story.is_idle, '8': Story.no_message, '9': Story.is_down,
           '10': Story.no_version, '11': Story.too_many}
BY_OUTCOME = {'forgetful': Story.of_plan, 'store': Story.of_plan, 'begun': Story.of_begun, 'sent': Story.of_sent,
              'answered': Story.of_answered, 'unanswered': Story.of_unanswered, 'discarded': Story.of_discarded,
              'counted': Story.of_counted, 'chosen': Story.of_first_part, 'found': Story.of_first_part,
              'written': Story.of_second_part, 'read': Story.of_second_part, 'lost': Story.of_lost,
              'left': Story.of_left, 'stopped': Story.of_stopped, 'restarted': Story.of_restarted,
              'rolled back': Story.of_rolled_back}
