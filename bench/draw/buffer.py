#!/usr/bin/env python3
"""Draws what the decoder's buffer holds over time, and the bits of each picture, by the report of `audit`, as an SVG.

    puckerledge audit --pictures < STREAM | bench/draw/buffer.py [SEQUENCE [TITLE]] > PICTURE.svg

SEQUENCE is its number in the report, 0 where none is given. All amounts and times are those of the report, whose columns are
found by their names. Above is what the buffer holds before and after each removal. In between bits come at the stream's rate,
at variable rate until the buffer is full; where a picture is late they come on until it is there, and it is removed then.
Failures are marked. Below, on the same time, is a bar for each picture, from its removal to the time of the next one; the zero
bytes that end it are pale, and each group has a mark. Where there is no account of the buffer the bars stand alone, each as wide
as its fields are shown; so do the last bars where a fault ended the report before their removals were told."""

import sys
from collections import defaultdict, namedtuple

WIDTH, LEFT, TOP, RIGHT = 760, 78, 30, 22
ACROSS = WIDTH - LEFT - RIGHT
# how high the panels are
HELD, SIZES, OTHER = 170, 80, 60
SECOND = 720000
# units of 1/720,000 s that a field takes, by frame_rate_code
FIELDS = {1: 15015, 2: 15000, 3: 14400, 4: 12012, 5: 12000, 6: 7200, 7: 6006, 8: 6000}
COLOURS = {'I': '#c64600', 'P': '#1a5fb4', 'B': '#62a0ea'}
GREY, RED, PALE = '#666', '#c01c28', ' fill-opacity=".3"'
# seconds between two numbers of the axis
STEPS = (0.2, 0.5, 1, 2, 5, 10, 20, 60, 120, 300, 600, 1200, 3600, 7200, 36000, 360000)
LATE = 'fill="%s" fill-opacity=".15"' % RED
# letters over a line stay readable
HALO = ' fill="%s" stroke="#fff" stroke-width="3" paint-order="stroke"' % GREY


# ---- the report

class Report:
    """The records of a report, by their kinds; the columns of each have the names that the report gives them."""

    def __init__(self, lines):
        kinds, self.records, self.by_sequence = {}, defaultdict(list), defaultdict(list)
        for line in lines:
            kind, *cells = line.rstrip('\n').split('\t')
            # a report that breaks off may do so inside a line
            if not line.endswith('\n'):
                break
            if kind == 'columns':
                kinds[cells[0]] = namedtuple(cells[0], cells[1:], rename=True)
            elif kind in kinds:
                record = kinds[kind](*(int(cell) if cell.isdigit() else cell for cell in cells))
                self.records[kind].append(record)
                self.by_sequence[kind, getattr(record, 'sequence', None)].append(record)

    def of(self, kind, number):
        """The records of a kind that a sequence has."""
        return self.by_sequence[kind, number]


class Sequence:
    """What a report tells of a sequence; `end` and `stop`, which is a fault or a limit, are None where there is none."""

    def __init__(self, report, number):
        self.first = next(iter(report.of('sequence', number)), None)
        self.groups, self.pictures, self.held, self.failures = (
            report.of(kind, number) for kind in ('group', 'picture', 'held', 'failure'))
        self.end, self.stop = (next(iter(found), None) for found in (
            report.of('end', number), report.of('fault', number) + report.of('limit', number)))
        self.size = 16384 * self.first.vbv_buffer_size if self.first else 0
        # without a frame rate times are fields
        self.field = FIELDS.get(self.first.frame_rate_code) if self.first else None
        self.spans = list(self.times())

    def times(self):
        """Of each picture the time of its removal, and when the next one is due."""
        after, field = 0, self.field or 1
        for number, picture in enumerate(self.pictures):
            if number < len(self.held):
                after = self.held[number].time + self.held[number].wait
            begin, after = after, after + field * picture.fields
            if number + 1 < len(self.held):
                after = self.held[number + 1].time
            yield begin, after

    def course(self):
        """Time and held bits, as a line."""
        rate, points = self.first.bit_rate / 1800, []
        for r in self.held:
            if points:
                points += coming(points[-1], (r.time, r.before), rate)
            points.append((r.time, r.before))
            # bits that find no room come later
            held = min(r.before, self.size)
            if r.wait:
                points.append((r.time, held))
                held = min(held + rate * r.wait, max(self.size, r.taken))
                points += coming(points[-1], (r.time + r.wait, held), rate)
            points.append((r.time + r.wait, max(0, held - r.taken)))
        return points


def coming(begin, end, rate):
    """The line from one point to another, while bits come: it is level from where it has all that it has at its end."""
    full = begin[0] + (end[1] - begin[1]) / rate
    return [(full, end[1]), end] if full + 1 < end[0] else [end]


# ---- parts of a drawing

def text(x, y, words, anchor='start', more=''):
    words = str(words).replace('&', '&amp;').replace('<', '&lt;')
    return '<text x="%.1f" y="%.1f" text-anchor="%s"%s>%s</text>' % (x, y, anchor, more, words)


def line(points, more):
    return '<polyline points="%s" fill="none" %s/>' % (' '.join('%.1f,%.1f' % point for point in points), more)


def circle(x, y):
    return '<circle cx="%.1f" cy="%.1f" r="4" fill="none" stroke="%s" stroke-width="2"/>' % (x, y, RED)


def block(x, y, wide, high, more):
    return '<rect x="%.1f" y="%.1f" width="%.1f" height="%.1f" %s/>' % (x, y, wide, high, more)


def mark(x, y):
    """A corner that points up, as a part of a path."""
    return 'M%.1f,%.1fl3,5h-6z' % (x, y)


def step_of(most, count):
    """The least of 1, 2, 5, 10, 20 .. that is in a number so often at most."""
    step = 1
    while most / step > count:
        step = step * 5 // 2 if str(step)[0] == '2' else step * 2
    return step


class Panel(namedtuple('Panel', 'top height end most')):
    """A part of the drawing: where it stands, and what times and values it shows, both from 0 on."""

    def across(self, time):
        return LEFT + ACROSS * time / self.end

    def down(self, value):
        return self.top + self.height * (1 - value / self.most)

    def place(self, point):
        return self.across(point[0]), self.down(point[1])

    def scale(self, most, count):
        """Values at its left up to this one, so many at most, and a line at each."""
        for value in range(0, int(most) + 1, step_of(most, count)):
            y = self.down(value)
            yield line([(LEFT, y), (WIDTH - RIGHT, y)], 'stroke="%s"' % ('#ddd' if value else '#999'))
            yield text(LEFT - 6, y + 4, '{:,}'.format(value), 'end', ' fill="%s"' % GREY)

    def course(self, points):
        """A line, of which each column of the drawing has the first, least, most and last value."""
        columns = {}
        for x, y in map(self.place, points):
            columns.setdefault(round(x, 1) if len(points) < 4 * ACROSS else int(x), []).append((x, y))
        for column in columns.values():
            if len(column) < 5:
                yield from column
            else:
                yield from (column[0], min(column, key=lambda p: p[1]), max(column, key=lambda p: p[1]), column[-1])

    def bars(self, sequence, values):
        """A bar for each picture, by its type; of those that are narrower than a column of the drawing, the highest one that
        begins there. A value has two parts, and the second one is pale."""
        columns = {}
        for (begin, end), picture, value in zip(sequence.spans, sequence.pictures, values):
            x, wide = self.across(begin), ACROSS * (end - begin) / self.end
            at = x if wide >= 1 else int(x)
            if at not in columns or sum(columns[at][2]) < sum(value):
                columns[at] = max(1, wide - (1 if wide > 3 else 0)), picture.type, value
        paths = defaultdict(str)
        for x, (wide, kind, (full, pale)) in columns.items():
            y = self.down(full)
            paths[kind, ''] += 'M%.1f,%.1fV%.1fh%.1fV%.1fz' % (x, self.top + self.height, y, wide, self.top + self.height)
            if pale:
                paths[kind, PALE] += 'M%.1f,%.1fV%.1fh%.1fV%.1fz' % (x, y, self.down(full + pale), wide, y)
        for (kind, more), path in paths.items():
            yield '<path d="%s" fill="%s"%s/>' % (path, COLOURS[kind], more)


def legend(parts, y):
    """Signs and what they are, up to the right edge; how wide words are is guessed."""
    wide = [28 + 6.4 * len(words) for _, words in parts]
    x = WIDTH - RIGHT + 10 - sum(wide)
    for (sign, words), more in zip(parts, wide):
        yield sign(x + 5, y)
        yield text(x + 14, y, words, more=' fill="%s"' % GREY)
        x += more


def square(more):
    return lambda x, y: block(x - 5, y - 9, 10, 10, more)


# ---- panels

def held_bits(sequence, end, top):
    """What the buffer holds, with the failures and the times for which the decoder waits."""
    points = sequence.course()
    most = max(1, sequence.size, *(bits for _, bits in points))
    panel, waits, signs = Panel(top + 20, HELD, end, 1.1 * most), [r for r in sequence.held if r.wait], []
    yield text(LEFT, top + 12, 'bits in the buffer', more=' fill="%s"' % GREY)
    for r in waits:
        yield block(panel.across(r.time), panel.down(most), ACROSS * r.wait / end, panel.height / 1.1, LATE)
    yield from panel.scale(most, 5)
    full = panel.down(sequence.size)
    yield line([(LEFT, full), (WIDTH - RIGHT, full)], 'stroke="%s" stroke-dasharray="4 3"' % GREY)
    yield line(panel.course(points), 'stroke="#1a5fb4" stroke-width="1.4"')
    before = {r.picture: r.before for r in sequence.held}
    places = [panel.place((failure.time, before[failure.picture])) for failure in sequence.failures]
    # of those that stand in one place one is enough
    for x, y in {(round(x), round(y)): (x, y) for x, y in places}.values():
        yield circle(x, y)
    yield text(WIDTH - RIGHT, full - 4, 'the buffer, {:,} bits'.format(sequence.size), 'end', HALO)
    if places:
        signs.append((lambda x, y: circle(x, y - 4), 'failure'))
    if waits:
        signs.append((square(LATE), 'the decoder waits'))
    yield from legend(signs, top + 12)


def sizes(sequence, end, top):
    """The bytes of each picture, and a mark at each group."""
    most = max(picture.bits // 8 for picture in sequence.pictures)
    panel, kinds = Panel(top + 20, SIZES, end, 1.05 * most), {picture.type for picture in sequence.pictures}
    yield text(LEFT, top + 12, 'bytes of each picture', more=' fill="%s"' % GREY)
    yield from panel.scale(most, 3)
    yield from panel.bars(sequence, [((p.bits - p.zeros) / 8, p.zeros / 8) for p in sequence.pictures])
    signs = [(square('fill="%s"' % COLOURS[kind]), kind) for kind in 'IPB' if kind in kinds]
    # where some can be seen
    if any(picture.zeros / 8 > most / SIZES for picture in sequence.pictures):
        signs.append((square('fill="%s"%s' % (COLOURS['P'], PALE)), 'zero bytes'))
    places = [panel.across(sequence.spans[group.picture][0]) for group in sequence.groups if group.picture < len(sequence.spans)]
    # of those that stand too close one is enough
    marks = ''.join(mark(x, panel.top + SIZES + 2) for x in {int(x / 4): x for x in places}.values())
    if marks:
        yield '<path d="%s" fill="#333"/>' % marks
        signs.append((lambda x, y: '<path d="%s" fill="#333"/>' % mark(x, y - 7), 'group'))
    yield from legend(signs, top + 12)


def by_picture(sequence, values, words, end, top):
    """A value of each picture as a bar, and what it is above."""
    most = max(1, *values)
    panel = Panel(top + 20, OTHER, end, 1.05 * most)
    yield text(LEFT, top + 12, words, more=' fill="%s"' % GREY)
    yield from panel.scale(most, 3)
    yield from panel.bars(sequence, [(value, 0) for value in values])


def axis(sequence, end, top):
    """The axis of time, in seconds or in fields."""
    unit = SECOND if sequence.field else 1
    step = next((step for step in STEPS if end / unit / step <= 12), STEPS[-1])
    yield line([(LEFT, top), (WIDTH - RIGHT, top)], 'stroke="#999"')
    for count in range(0, int(end / unit / step) + 1):
        x, time = LEFT + ACROSS * count * step * unit / end, round(count * step, 1)
        yield line([(x, top), (x, top + 4)], 'stroke="#999"')
        words = '%d' % time if not sequence.field else '%g s' % time if step < 60 else '%d min' % (time // 60)
        yield text(x, top + 17, words, 'middle')


# ---- the whole

def figures(sequence):
    """What the report says at the sequence's end, in its words, and whether that is all well."""
    first, end, words = sequence.first, sequence.end, []
    if first.rate == 'none':
        words.append('no account of the buffer' if sequence.field else 'no account of the buffer, time in fields')
    elif end:
        delays = ' delays %d' % end.delays if first.rate == 'constant' else ''
        words.append('low %d high %d%s failures %d' % (end.low, end.high, delays, end.failures))
    if end and end.breaches:
        words.append('breaches %d' % end.breaches)
    if sequence.stop:
        words.append(sequence.stop.kind + (' at bit %d' % sequence.stop.bit if hasattr(sequence.stop, 'bit') else ''))
    if not end:
        words.append('the report breaks off')
    return 'audit: ' + ', '.join(words), bool(end and not (end.failures or end.breaches or sequence.stop))


def titled(first):
    """A title where none is given."""
    rates = {'constant': 'constant rate, %g kbit/s', 'variable': 'variable rate, at most %g kbit/s'}
    rate = rates[first.rate] % (first.bit_rate * 0.4) if first.rate in rates else 'no account of the buffer'
    return 'Sequence %d: %d by %d, %s' % (first.sequence, first.width, first.height, rate)


def drawn(sequence, title, values=(), words=''):
    """The whole drawing, with a panel for other values of pictures where there are some, and with these words above it."""
    end, top, panels = max(1, sequence.spans[-1][1]), TOP, []
    if sequence.held:
        panels += held_bits(sequence, end, top)
        top += HELD + 26
    panels += sizes(sequence, end, top)
    top += SIZES + 32
    if values:
        panels += by_picture(sequence, values, words, end, top)
        top += OTHER + 26
    said, is_well = figures(sequence)
    height = top + 48
    yield ('<svg xmlns="http://www.w3.org/2000/svg" width="%d" height="%d" viewBox="0 0 %d %d" font-family="sans-serif" '
           'font-size="12">' % (WIDTH, height, WIDTH, height))
    yield '<rect width="%d" height="%d" fill="#fff"/>' % (WIDTH, height)
    yield text(LEFT, 20, title, more=' font-size="14"')
    yield from panels
    yield from axis(sequence, end, top)
    yield text(LEFT, height - 10, said, more='' if is_well else ' fill="%s"' % RED)
    yield '</svg>'


def main():
    number = int(sys.argv[1]) if len(sys.argv) > 1 else 0
    sequence = Sequence(Report(sys.stdin), number)
    if not sequence.first:
        sys.exit('there is no sequence %d in the report' % number)
    if not sequence.pictures:
        sys.exit('sequence %d has no pictures, or the report was made without --pictures' % number)
    print('\n'.join(drawn(sequence, sys.argv[2] if len(sys.argv) > 2 else titled(sequence.first))))


if __name__ == '__main__':
    main()
