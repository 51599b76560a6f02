"""The sheet: a story drawn, layer by layer."""

import math
import pathlib
import xml.etree.ElementTree as ET

from lanes import ROW, Lanes, width
from words import arrow_words

BLANK = pathlib.Path(__file__).with_name('blank.svg')  # how things look, and the legend
SVG = 'http://www.w3.org/2000/svg'
ET.register_namespace('', SVG)

MOST_ROWS = 1800  # some viewers hold the sides of a picture to 32,767 points, and this many rows fit
BAR = {'mark': (-8, 2), 'gone': (-2, 4), 'asking': (-2, 4)}  # how far left of its lane a stretch begins, and its width


def part(parent, element, look=None, text=None, **places):
    made = ET.SubElement(parent, f'{{{SVG}}}{element}', {'class': look} if look else {})
    for name, value in places.items():
        if value is not None:
            made.set(name.replace('_', '-'), str(value))
    made.text = text
    return made


class Sheet:
    def __init__(self, story, name, rows):
        self.story, self.name, self.lanes = story, name, Lanes(story)
        self.rows_there = rows
        self.y = self.lanes.y

    def drawn(self):
        """The whole picture as text."""
        svg, lanes = ET.parse(BLANK).getroot(), self.lanes
        svg.attrib.update(viewBox=f'0 0 {lanes.right} {lanes.bottom}', width=str(lanes.right), height=str(lanes.bottom))
        self.heading(svg)
        for layer in (self.rows, self.refused, self.lines, self.spans, self.bands, self.messages, self.names,
                      self.labels):
            layer(part(svg, 'g', id=layer.__name__))
        ET.indent(svg)
        return ET.tostring(svg, encoding='unicode') + '\n'

    def heading(self, svg):
        """Also a title and a description, for those who do not see the picture."""
        story = self.story
        plan_words, waits = story.run.plan.words()
        rows = f'Rows {story.first} to {story.last} of {self.rows_there}, counted from the plan; time runs downward.'
        ends = [f'Row {label.row}: {label.lane[0]} {label.lane[1]} {label.text}.' for label in story.labels
                if label.look.split()[0] in ('written', 'read', 'fault')]
        svg[0].text, svg[1].text = f'Rehearsal of {self.name}. {plan_words} {waits}', ' '.join([rows] + ends)
        part(svg, 'text', 'name', f'Rehearsal of {self.name:.80}', x=14, y=24)
        part(svg, 'text', 'plan', plan_words, x=14, y=42)
        part(svg, 'text', 'plan', f'{waits} {rows}', x=14, y=58)

    def line(self, group, look, x1, y1, x2, y2):
        part(group, 'line', look, x1=x1, y1=y1, x2=x2, y2=y2)

    def rows(self, group):
        for line in self.story.lines:
            y, row = self.y(line.number), part(group, 'g', 'row', data_row=line.number, data_pair=line.pair)
            part(row, 'title', text=line.words)
            if line.number % 5 == 0:
                self.line(row, 'guide', 48, y, self.lanes.right - 10, y)
            part(row, 'text', 'number', str(line.number), x=44, y=y + 4)

    def refused(self, group):
        for row in self.story.refusals:
            tick, y, step = part(group, 'g', 'refused', data_row=row.number), self.y(row.number), ','.join(row.step)
            self.line(tick, None, 48, y, 54, y)
            part(tick, 'text', text=f'{row.answer} {ascii(step)[1:-1]:.24}', x=57, y=y + 4)

    def lines(self, group):
        for lane, x in self.lanes.x.items():
            self.line(group, f'lane {lane[0]}', x, self.lanes.top, x, self.lanes.foot)

    def spans(self, group):
        for span in self.story.spans:
            left, wide = BAR.get(span.look, (-4, 8))
            began, ended = self.y(span.began), self.y(span.ended)
            part(group, 'rect', f'span {span.look}', x=self.lanes.x[span.lane] + left, y=began, width=wide,
                 height=ended - began)

    def bands(self, group):
        """Paper under the names, so that a lane does not run through them; messages do."""
        for row in self.story.bands:
            for x in self.lanes.x.values():
                part(group, 'rect', 'paper', x=x - 30, y=self.y(row) - ROW // 2 - 42, width=60, height=38)

    def ends(self, arrow):
        """From lane to lane; what is lost, comes in at the top or goes out at the foot ends on the air."""
        message, lanes = arrow.message, self.lanes
        ends = [lanes.x['client', message.client], lanes.x['cabinet', message.cabinet]]
        x1, x2 = reversed(ends) if message.reply else ends
        y1, y2 = self.y(max(arrow.began, self.story.first)), self.y(min(arrow.ended or math.inf, self.story.last + 1))
        if arrow.began < self.story.first:
            x1, y1 = lanes.air_x(message.slot), lanes.top
        if arrow.fate in ('lost', 'underway'):
            x2 = lanes.air_x(message.slot)
        return x1, y1, x2, y2

    def row_of(self, arrow):
        """A row in the picture that is about the message, or None where it only passes by."""
        rows = [row for row in (arrow.began, arrow.ended) if row and self.story.first <= row <= self.story.last]
        return rows[0] if rows else None

    def messages(self, group):
        for arrow in self.story.arrows:
            message, (x1, y1, x2, y2) = arrow.message, self.ends(arrow)
            drawn = part(group, 'g', f'arrow {"reply" if message.reply else "request"} {arrow.body} {arrow.fate}',
                         data_pair=message.sent, data_row=self.row_of(arrow))
            part(drawn, 'title', text=arrow_words(arrow, self.story.run.plan))
            self.line(drawn, 'near', x1, y1, x2, y2)
            self.line(drawn, 'shaft', x1, y1, x2, y2)
            turn = 0 if arrow.fate == 'lost' else round(math.degrees(math.atan2(y2 - y1, x2 - x1)))
            part(drawn, 'use', 'end', href=f'#{arrow.fate}', transform=f'translate({x2},{y2}) rotate({turn})')
            if arrow.began < self.story.first:
                part(drawn, 'use', 'end', href='#incoming', transform=f'translate({x1},{y1})')

    def names(self, group):
        for row, lanes in self.story.bands.items():
            top = self.y(row) - ROW // 2
            for lane, x in self.lanes.x.items():
                part(group, 'text', 'lane-name', '%s %d' % lane, x=x, y=top - 31)
                for line, y in zip(filter(None, lanes[lane]), (top - 19, top - 8)):
                    part(group, 'text', 'standing', line, x=x, y=y)

    def labels(self, group):
        for label in self.story.labels:
            left, wide, y = self.lanes.label_left(label), width(label.text, label.look), self.y(label.row)
            drawn = part(group, 'g', f'label {label.look}', data_row=label.row, data_pair=label.pair)
            part(drawn, 'rect', x=left, y=y - 7, width=wide, height=14, rx=3)
            part(drawn, 'text', text=label.text, x=left + wide // 2, y=y + 4)
