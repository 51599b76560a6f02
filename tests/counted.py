"""What a picture has to show, counted from list and transcript, apart from what draws it.

Lanes are named as in a picture, 'client 3' or 'cabinet 2'. Stamps are compared as pairs of numbers.
"""

FACTORY = (0, 0, 'unknown')
PARTS_END = ['chosen', 'found', 'written', 'read']
FAULTS = ['stopped', 'restarted', 'rolled back', 'left']


def words(entry):
    return '(%d,%d) %s' % entry


def look(entry):
    return entry[2].split()[0]


class Counted:
    def __init__(self, steps, transcript):
        steps, said = ([line.split(',') for line in text.decode('latin-1').split('\n')[1:] if line]
                       for text in (steps, transcript))
        n, k, r, b = map(int, steps[0][1:])
        forgetful = said[0][2] == 'forgetful'
        self.forgetful, self.stores = forgetful, 0 if forgetful else 2 * k + r + 1
        self.quorum = {False: k + 1 if forgetful else n - k, True: n - k}  # by whether something is offered
        self.cabinets = {str(place): [FACTORY] for place in range(1, n + 1)}  # the versions, the present one last
        self.down, self.stale, self.marked, self.gone = set(), set(), set(), set()
        self.open = {}  # client: kind, reading, what is offered, whom it heard
        self.air, self.arrows, self.labels, self.refused = {}, [], [], []
        self.cells, self.before, self.shown = {}, {}, set()  # (lane, row): look; row: {lane: words}; clients' lanes
        for number, (step, row) in enumerate(zip(steps, said), 1):
            self.before[number] = self.standing()
            if number > 1:
                self.count(number, [field.strip('\r') for field in step], row)
            self.cells.update({(lane, number): look for lane, look in self.looks()})
        self.arrows += [(start, began, None, None, f'{way} underway') for start, began, _, way, *_ in self.air.values()]
        self.end = len(steps)

    def count(self, number, step, row):
        outcome, slot = row[2], row[3]
        if outcome == 'refused':
            self.refused.append((number, row[1]))
        elif outcome == 'begun':
            self.open[step[1]] = [step[0], ' '.join(step[2:]).rstrip(), None, set()]
            self.label(number, f'client {step[1]}', f'begun: {" ".join(step[:1] + step[2:]).rstrip()}')
        elif outcome == 'sent':
            self.sent(number, step, slot)
        elif outcome == 'left':
            self.open.pop(step[1], None)
            self.gone.add(step[1])
            self.label(number, f'client {step[1]}', 'left')
        elif outcome in FAULTS:
            self.fault(number, outcome, step)
        else:
            self.arrived(number, outcome, slot, row)

    def label(self, number, lane, text):
        self.labels.append((number, lane, text))
        if lane.startswith('client'):
            self.shown.add(lane)

    def sent(self, number, step, slot):
        kind, _, offer, _ = self.open[step[1]]
        way = f'request offer {look(offer)}' if offer else 'request ask'
        self.shown.add(f'client {step[1]}')
        self.air[slot] = f'client {step[1]}', number, f'cabinet {step[2]}', way, kind, offer, None

    def fault(self, number, outcome, step):
        place, lane = step[1], f'cabinet {step[1]}'
        versions = self.cabinets[place]
        if outcome == 'stopped':
            self.down.add(place)
            return self.label(number, lane, 'stopped')
        self.down.discard(place)
        if outcome == 'rolled back':
            self.marked.add(place)
            versions[:] = [FACTORY] if step[2] == '8' else versions[:len(versions) - int(step[2])]
            return self.label(number, lane, f'rolled back to {words(versions[-1])}')
        if int(place) > self.stores:
            versions[:] = [FACTORY]
            if self.forgetful:
                self.stale.add(place)
        stale = ', stale' if place in self.stale else ''
        return self.label(number, lane, f'restarted{stale}: {words(versions[-1])}')

    def arrived(self, number, outcome, slot, row):
        start, began, goal, way, kind, offer, told = self.air.pop(slot)
        fate = 'counted' if outcome in PARTS_END else outcome
        self.arrows.append((start, began, None if outcome == 'lost' else goal, number, f'{way} {fate}'))
        place = goal.split()[1]
        if outcome == 'answered':
            self.answered(number, slot, start, goal, kind, offer)
        elif outcome == 'unanswered':
            self.label(number, goal, f'unanswered: {"down" if place in self.down else "stale"}')
        elif outcome == 'discarded':
            self.label(number, goal, 'discarded')
        elif outcome != 'lost':
            self.heard(number, outcome, row, start, goal, kind, told)

    def answered(self, number, slot, client, lane, kind, offer):
        versions, told = self.cabinets[lane.split()[1]], None
        if not offer:
            told = versions[-1]
            text = words(told) if kind == 'read' else '(%d,%d)' % told[:2]
            self.label(number, lane, f'tells {text}')
            way = f'reply told {look(told) if kind == "read" else "stamp"}'
        else:
            newer = offer[:2] > versions[-1][:2]
            if newer:
                versions.append(offer)
                del versions[:-8 if int(lane.split()[1]) <= self.stores else -1]
            self.label(number, lane, f'{"takes" if newer else "keeps"} {words(versions[-1])}')
            way = f'reply offer {look(offer)}'
        self.air[slot] = lane, number, client, way, kind, offer, told

    def heard(self, number, outcome, row, cabinet, client, kind, told):
        place = client.split()[1]
        operation = self.open[place]
        operation[3].add(cabinet)
        quorum = self.quorum[bool(operation[2])]
        if outcome == 'counted':
            text = '' if not told else f': {words(told)}' if kind == 'read' else ': (%d,%d)' % told[:2]
            return self.label(number, client, f'{len(operation[3])} of {quorum} heard{text}')
        entry = int(row[4]), int(row[5]), row[6]
        self.label(number, client, f'{quorum} of {quorum}: {outcome} {words(entry)}')
        if outcome in ('written', 'read'):
            del self.open[place]
        else:
            operation[2:] = entry, set()
        return None

    def looks(self):
        """How each lane looks now."""
        for place, (_, _, offer, _) in self.open.items():
            yield f'client {place}', look(offer) if offer else 'asking'
        yield from ((f'client {place}', 'gone') for place in self.gone)
        for place, versions in self.cabinets.items():
            states = [' stale'] * (place in self.stale) + [' down'] * (place in self.down)
            yield f'cabinet {place}', look(versions[-1]) + ''.join(states)
            if place in self.marked:
                yield f'mark {place}', 'mark'

    def standing(self):
        """What stands under the name of each lane."""
        lanes = {f'client {place}': ['left' if str(place) in self.gone else 'idle'] for place in range(1, 9)}
        for place, (kind, _, offer, heard) in self.open.items():
            lanes[f'client {place}'] = [f'offers {words(offer)}' if offer else f'{kind}: asks',
                                        f'{len(heard)} of {self.quorum[bool(offer)]} heard']
        for place, versions in self.cabinets.items():
            states = [state for state in ('down', 'stale', 'marked') if place in getattr(self, state)]
            lanes[f'cabinet {place}'] = [words(versions[-1])] + ([', '.join(states)] if states else [])
        return lanes

    def part(self, first, last):
        """Of arrows, labels, refusals and looks those that a picture of these rows shows."""
        arrows = [clipped(arrow, first, last) for arrow in self.arrows
                  if arrow[1] <= last and (arrow[3] is None or arrow[3] >= first)]
        return Part(arrows, [label for label in self.labels if first <= label[0] <= last],
                    [row for row in self.refused if first <= row[0] <= last],
                    {cell: look for cell, look in self.cells.items() if first <= cell[1] <= last})


def clipped(arrow, first, last):
    start, began, goal, ended, look = arrow
    if began < first:
        start = began = None
    if ended is None or ended > last:
        goal = ended = None
        look = look.rsplit(' ', 1)[0] + ' underway'
    return start, began, goal, ended, look


class Part:
    def __init__(self, arrows, labels, refused, cells):
        self.arrows, self.labels, self.refused, self.cells = sorted(arrows, key=str), sorted(labels), refused, cells
