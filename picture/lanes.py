"""Where lanes and rows stand, and how wide words are."""

from story import BAND

TOP, ROW, NAMES = 246, 17, 46  # the legend, a row, a band of names
GUTTER, AIR, FOOT, MARGIN, NARROWEST = 84, 110, 26, 14, 1020
CLIENT, CABINET = (120, 250), (96, 170)  # from one lane to the next: at least, at most

SIZES = {'heard': 9.5, 'tells': 9.5, 'read': 12}
BOLD = {'fault', 'written', 'read'}
NARROW, WIDE = set(" ,.:;()'ijlfrt"), set('mwMW')


def width(text, look=''):
    """Of words in a common sans serif face, with some room. The faces of other machines differ little from it."""
    first = look.split(' ')[0]
    ems = sum(.39 if letter in NARROW else .95 if letter in WIDE else .64 for letter in text)
    return round(ems * SIZES.get(first, 10.5) * (1.13 if first in BOLD else 1)) + 8


def spacing(widths, bounds):
    least, most = bounds
    return max(least, min(most, max(widths, default=0) + 18))


class Lanes:
    def __init__(self, story):
        self.story = story
        client, cabinet = self.spacings()
        self.x = {('client', place): GUTTER + client * order for order, place in enumerate(sorted(story.clients), 1)}
        first = GUTTER + client * len(story.clients) + AIR
        self.x |= {('cabinet', place): first + cabinet * (place - 1) for place in story.run.cabinets}
        self.air = first - AIR // 2  # between the last client and the first cabinet
        self.top, self.foot = self.y(story.first) - ROW // 2, self.y(story.last + 1)
        self.right = max([NARROWEST, max(self.x.values()) + cabinet] + [
            self.label_left(label) + width(label.text, label.look) + MARGIN for label in story.labels])
        self.bottom = self.foot + FOOT

    def spacings(self):
        """Wide enough for the words at a lane; what befalls a cabinet is rare and may lie over the next lane."""
        widths = {'client': [], 'cabinet': []}
        for label in self.story.labels:
            if label.look.split(' ')[0] != 'fault':
                widths[label.lane[0]].append(width(label.text, label.look))
        for band in self.story.bands.values():
            for lane, lines in band.items():
                widths[lane[0]] += [width(line) for line in lines]
        return spacing(widths['client'], CLIENT), spacing(widths['cabinet'], CABINET)

    def y(self, row):
        place = row - self.story.first
        return TOP + place * ROW + (place // BAND + 1) * NAMES + ROW // 2

    def air_x(self, slot):
        """Messages on the air at the same time stand side by side."""
        return self.air + (slot - 1) % 9 * 8 - 32

    def label_left(self, label):
        x = self.x[label.lane]
        return x + 8 if label.lane[0] == 'cabinet' else x - 8 - width(label.text, label.look)
