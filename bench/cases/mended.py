#!/usr/bin/env python3
"""Mends a stream by the rules alone: what of any bytes is kept as a stream without a fault, and what is left out.

    bench/cases/mended.py [--groups] [--list NAME] < STREAM > MENDED
    bench/cases/mended.py --self-test

The line on standard error tells the groups, pictures and bytes that were kept; the list has a line for each gap. Bytes are
divided into steps, an anchor with the B pictures after it, or by --groups into whole groups. It shares nothing with the
program; whether bytes read is asked of bench/cases/faults.py. With --self-test streams of the table, whole and damaged, are
mended: what is made of them has no fault and is mended already, and what has no fault stays."""

import random
import sys

from faults import END, EXTENSION, GROUP, PICTURE, SEQUENCE, Finder
from faults_unit import Bits, Fault
from pictures_writer import B, FRAME, I, P

END_CODE = b'\0\0\1\xb7'
MOST_HEAD, MOST_PIECE, MOST_SPAN = 4096, 1 << 21, 1 << 26


# ---- units, pieces and spans

def cut(data):
    """The units of bytes, each from its start code up to the next one."""
    found, at = [], data.find(b'\0\0\1')
    while 0 <= at < len(data) - 3:
        behind = data.find(b'\0\0\1', at + 4)
        end = behind if 0 <= behind < len(data) - 3 else len(data)
        found.append(data[at:end])
        at = behind
    return found


def number(u, skip, width):
    """So many bits of a unit behind its start code; none where it is too short."""
    body = u[4:]
    if 8 * len(body) < skip + width:
        return None
    return int.from_bytes(body, 'big') >> 8 * len(body) - skip - width & (1 << width) - 1


class Piece:
    """A picture with the header units before it."""

    def __init__(self, units):
        self.units, self.bytes = units, b''.join(units)
        values = [u[3] for u in units]
        self.sequence, self.entry = SEQUENCE in values, SEQUENCE in values or GROUP in values
        self.group, self.pictures = GROUP in values, values.count(PICTURE)
        self.kind = self.field = 0
        if self.pictures:
            at = values.index(PICTURE)
            self.kind = number(units[at], 10, 3)
            after = units[at + 1] if at + 1 < len(units) else b'\0\0\1\0'
            structure = number(after, 22, 2) if after[3] == EXTENSION else None
            self.field = structure if structure not in (None, FRAME) else 0
        self.matrices = any(u[3] == EXTENSION and number(u, 0, 4) == 3 for u in units)

    def fits(self):
        return len(self.bytes.rstrip(b'\0')) <= MOST_PIECE

    def trimmed(self):
        whole = self.bytes.rstrip(b'\0')
        return len(whole) + min(64, len(self.bytes) - len(whole))


def grouped(units):
    """The pieces of units: behind a picture a picture, a sequence header or a group header begins another one."""
    pieces, mine, pictured = [], [], False
    for u in units:
        if pictured and u[3] in (PICTURE, SEQUENCE, GROUP):
            pieces.append(Piece(mine))
            mine, pictured = [], False
        mine, pictured = mine + [u], pictured or u[3] == PICTURE
    return pieces + ([Piece(mine)] if mine else [])


class Span:
    """Pieces that are kept or left out as one, with the byte at which they begin and the head before them."""

    def __init__(self, place, before, pieces):
        self.place, self.pieces = place, pieces
        self.head = head_of(before)
        self.bytes = b''.join(p.bytes for p in pieces)
        self.end = place + len(self.bytes)
        self.units = [u for p in pieces for u in p.units]
        self.own = pieces[0].sequence
        self.pictures = sum(p.pictures for p in pieces)
        self.is_group = pieces[0].entry and self.pictures > 0
        first = next((p for p in pieces if p.pictures), None)
        self.begins_intra = bool(first) and first.kind == I
        self.frame = 2 if pieces[0].field else 1
        behind = pieces[self.frame:]
        count = next((n for n, p in enumerate(behind) if p.kind != B), len(behind))
        self.leading = behind[:count]
        self.kept = pieces[:self.frame] + behind[count:]

    def is_short(self):
        head = 0 if self.own else len(self.head or b'')
        return all(p.fits() for p in self.pieces) and head + sum(p.trimmed() for p in self.pieces) <= MOST_SPAN

    def bits_before(self, test):
        """Where the first unit stands that passes a test; the span's first one where none does."""
        at = self.place
        for u in self.units:
            if test(u):
                return 8 * at
            at += len(u)
        return 8 * self.place


def head_of(units):
    """The last sequence header with the extensions right behind it, where no quant matrix extension stands behind those."""
    at = max((n for n, u in enumerate(units) if u[3] == SEQUENCE), default=None)
    if at is None:
        return None
    end = at + 1
    while end < len(units) and units[end][3] == EXTENSION:
        end += 1
    head = b''.join(units[at:end])
    loaded = any(u[3] == EXTENSION and number(u, 0, 4) == 3 for u in units[end:])
    return None if loaded or len(head) > MOST_HEAD else head


def spans_of(pieces, steps):
    spans, mine, waiting = [], [], 0
    for p in pieces:
        second = waiting and p.field and p.field != waiting
        if mine and (p.entry or steps and p.kind in (I, P) and not second):
            spans.append(mine)
            mine = []
        mine = mine + [p]
        waiting = 0 if second else p.field
    return spans + ([mine] if mine else [])


def stretches(data, steps):
    """The spans of each stretch: what stands up to an end code, or up to the end."""
    units = cut(data)
    place = len(data) - sum(map(len, units))
    before, mine, found = [], [], []

    def divided():
        at, known, spans = place, list(before), []
        for pieces in spans_of(grouped(mine), steps):
            spans.append(Span(at, known, pieces))
            at, known = spans[-1].end, known + spans[-1].units
        return spans

    for u in units:
        if u[3] == END:
            found.append(divided())
            place, before, mine = place + sum(map(len, mine)) + len(u), before + mine, []
        else:
            mine.append(u)
    return found + [divided()]


# ---- what reads

class Reading(Finder):
    """Reads a text, and keeps its pictures and the first sequence header."""

    def __init__(self, data):
        super().__init__(data, 0)
        self.pictures, self.header = [], None

    def take_sequence(self, place, bits):
        at = self.next - 1
        super().take_sequence(place, bits)
        if self.header is None:
            unit, after = (self.data[a:b] for a, _, b in self.units[at:at + 2])
            rate = number(unit, 28, 4), number(after, 41, 2), number(after, 43, 5)
            self.header = self.size, self.progressive, rate, number(after, 40, 1)

    def open(self, p):
        begins = not self.waiting
        super().open(p)
        self.pictures.append((p, begins, not self.waiting))


def read(data):
    """What was read of bytes with an end code behind them, and the first fault where there is one."""
    reading = Reading(data + END_CODE)
    try:
        reading.run()
    except Fault as fault:
        return reading, (fault.kind, fault.place)
    return reading, None


def last_open(units):
    return bool(units) and b'\0\0\1' in units[-1][4:]


def standing(pictures):
    """How many pictures stand before the first that may not stand in a strand; all where each may."""
    anchors = 0
    for n, (p, _, ends) in enumerate(pictures):
        if anchors == 0 and p.kind != I or p.kind == B and anchors < 2:
            return n
        anchors += ends and p.kind != B
    return len(pictures)


def is_strand(opening, first, data):
    """The bytes read, their header agrees, and they keep the rule of a strand."""
    units = cut(data)
    if not data.startswith(b'\0\0\1\xb3') or any(u[3] == END for u in units) or last_open(units):
        return False
    reading, fault = read(data)
    if fault or first not in (None, reading.header):
        return False
    return opening or standing(reading.pictures) == len(reading.pictures)


def frames_in(strand):
    return sum(ends and not p.dropped for p, _, ends in read(strand)[0].pictures)


# ---- what changes in bytes

def lowered(low, u):
    if low == 0 or u[3] != PICTURE or len(u) < 6 or not 1 <= u[5] // 8 % 8 <= 3:
        return u
    n = ((u[4] * 4 + u[5] // 64) - low) % 1024
    return u[:4] + bytes((n // 4, 64 * (n % 4) + u[5] % 64)) + u[6:]


def marked(u):
    return u[:7] + bytes((u[7] & ~0x40 | 0x20,)) + u[8:] if u[3] == GROUP and len(u) >= 8 else u


def from_sequence(units):
    at = next((n for n, u in enumerate(units) if u[3] == SEQUENCE), len(units))
    return units[at:]


def reference(span):
    u = next((u for u in span.units if u[3] == PICTURE), None)
    return u[4] * 4 + u[5] // 64 if u and len(u) >= 6 else 0


def opened(span):
    """The pieces with which a strand begins, and where each of them ends in the input."""
    low, at, pieces = reference(span), span.place, []
    for n, p in enumerate(span.pieces):
        at += len(p.bytes)
        if p in span.leading:
            continue
        if n:
            pieces.append((b''.join(lowered(low, u) for u in p.units), at))
            continue
        head = b'' if p.sequence else span.head or b''
        own = from_sequence(p.units) if p.sequence else p.units
        pieces.append((head + b''.join(marked(lowered(low, u)) for u in own), at))
    return pieces


# ---- why a span is left out

def behind_fault(span, data, opening):
    if last_open(cut(data)):
        return 'Truncated', 8 * span.end - 24
    reading, fault = read(data)
    if fault:
        return fault[0], 8 * span.end + fault[1] - 8 * len(data)
    count, at = standing(reading.pictures), 0
    for u in cut(data):
        if u[3] == PICTURE:
            if count == 0:
                break
            count -= 1
        at += len(u)
    return 'MissingReference', 8 * span.end + 8 * at - 8 * len(data)


def header_alone(span):
    units = from_sequence(span.units) if span.own else cut(span.head)
    count = 1
    while count < len(units) and units[count][3] == EXTENSION:
        count += 1
    reading = Reading(b''.join(units[:count]))
    try:
        reading.run()
    except Fault:
        return None
    return reading.header


def opened_fault(span):
    pieces = opened(span)
    data = b''.join(p for p, _ in pieces)
    if last_open(cut(data)):
        return 'Truncated', 8 * span.end - 24
    fault = read(data)[1]
    if not fault:
        return 'MissingReference', 8 * span.place
    kind, place = fault
    # a place is counted from the end of its piece, and what is told behind the last one stands at that one's end
    at = 0
    for p, end in pieces:
        at += len(p)
        if place < 8 * at or at == len(data):
            return kind, max(8 * span.place, 8 * end - (8 * at - place))
    return kind, 8 * span.place


def alone_fault(first, span):
    if not span.own and span.head is None:
        return 'NoSequence', 8 * span.place
    if not (span.pieces[0].entry and span.begins_intra):
        return 'MissingReference', span.bits_before(lambda u: u[3] == PICTURE)
    header = header_alone(span)
    if header and first not in (None, header):
        return 'SequenceChanged', span.bits_before(lambda u: u[3] == SEQUENCE)
    if any(p.matrices for p in span.leading):
        at = span.place + sum(len(p.bytes) for p in span.pieces[:span.frame])
        for u in (u for p in span.leading for u in p.units):
            if u[3] == EXTENSION and number(u, 0, 4) == 3:
                return 'Unsupported', 8 * at
            at += len(u)
    if not all(Piece([p]).fits() for p, _ in opened(span)):
        return 'Unsupported', 8 * span.place
    return opened_fault(span)


# ---- the whole

class Mending:
    """What is kept of the spans so far, and what was left out."""

    def __init__(self):
        self.done, self.strand, self.opening = [], b'', True
        self.first, self.low, self.groups, self.gaps = None, 0, 0, []

    def gap(self, start, size, pictures, fault):
        frames = sum(map(frames_in, self.strands()))
        if self.gaps and fault and self.gaps[-1][4] and self.gaps[-1][1] + self.gaps[-1][2] == start:
            frames, at, before, some, why = self.gaps.pop()
            self.gaps.append((frames, at, before + size, some + pictures, why))
        else:
            self.gaps.append((frames, start, size, pictures, fault))

    def strands(self):
        return self.done + ([self.strand] if self.strand else [])

    def keep(self, span, strand, low):
        self.strand, self.low = strand, low
        self.first = self.first or read(strand)[0].header
        self.groups += span.is_group

    def span(self, span):
        low = 0 if span.pieces[0].group else self.low
        strand = None
        if self.strand is not None:
            units = span.units if self.strand else from_sequence(span.units)
            strand = self.strand + b''.join(lowered(low, u) for u in units)
            if span.is_short() and is_strand(self.opening, self.first, strand):
                return self.keep(span, strand, low)
        if self.begins(span):
            strands = self.strands()
            if span.leading:
                self.gap(span.place + sum(len(p.bytes) for p in span.pieces[:span.frame]),
                         sum(len(p.bytes) for p in span.leading), sum(p.pictures for p in span.leading), None)
            self.done, self.opening = strands, False
            return self.keep(span, b''.join(p for p, _ in opened(span)), reference(span))
        fault = self.fault(span, strand)
        self.gap(span.place, len(span.bytes), span.pictures, fault)
        self.done, self.strand, self.opening, self.low = self.strands(), None, False, 0

    def begins(self, span):
        pieces = [p for p, _ in opened(span)]
        return ((span.own or span.head is not None) and span.pieces[0].entry and span.begins_intra
                and not any(p.matrices for p in span.leading) and span.is_short()
                and all(Piece([p]).fits() for p in pieces) and is_strand(False, self.first, b''.join(pieces)))

    def fault(self, span, strand):
        if not span.is_short():
            return 'Unsupported', 8 * span.place
        if self.strand or self.strand is not None and span.own:
            return behind_fault(span, strand, self.opening)
        return alone_fault(self.first, span)

    def ended(self):
        if self.strand:
            self.done, self.strand, self.opening, self.low = self.strands(), None, False, 0


def mend(data, steps=True):
    """The mended text, or nothing; its status and line; and the gaps."""
    made, all_spans = Mending(), stretches(data, steps)
    for spans in all_spans:
        for span in spans:
            made.span(span)
        made.ended()
    if not made.done:
        kind, place = made.gaps[0][4] if made.gaps else ('NoSequence', 8 * len(data))
        return None, 19, 'nothing kept stream %s at bit %d' % (kind, place), made.gaps
    text = b''.join(made.done) + END_CODE
    pictures, left = sum(s.pictures for spans in all_spans for s in spans), sum(g[3] for g in made.gaps)
    if left == 0:
        return text, 0, 'groups %d pictures %d bytes %d' % (made.groups, pictures, len(text)), made.gaps
    groups = sum(s.is_group for spans in all_spans for s in spans)
    line = 'groups %d of %d pictures %d of %d bytes %d' % (made.groups, groups, pictures - left, pictures, len(text))
    return text, 18, line, made.gaps


def lines_of(gaps):
    for frames, start, size, pictures, fault in gaps:
        why = 'stream %s at bit %d' % fault if fault else 'leading'
        yield 'frame %d from %d bytes %d pictures %d %s\n' % (frames, start, size, pictures, why)


# ---- what it is held against

def damaged(data, chance):
    """The bytes with one damage."""
    at, size = chance.randrange(len(data)), chance.choice((1, 3, 40, 400))
    turned = bytes((data[at] ^ 1 << chance.randrange(8),))
    return chance.choice((data[:at] + turned + data[at + 1:], data[:at] + data[at + size:], data[:at], data[at:],
                          data[:at] + data[at:at + size] + data[at:], data + data[at:]))


def self_test():
    from table_lines import read_bytes, read_table
    streams, cases = read_table()
    texts = {b''.join(read_bytes(streams, rest) for key, rest in lines if key == 'input') for lines in cases.values()
             if dict(lines).get('words') in ('decode', 'check')}
    chance, counts = random.Random(1), [0, 0, 0]
    for data in sorted(t for t in texts if 0 < len(t) < 20000):
        for text in (data, *(damaged(data, chance) for _ in range(3))):
            for steps in (False, True):
                made, status, line, gaps = mend(text, steps)
                counts[(0, 18, 19).index(status)] += 1
                if made:
                    assert not read(made[:-4])[1], line
                    assert mend(made, steps)[::3] == (made, []), line
                whole = read(text)
                units = cut(text)
                clear = units and units[0][3] == SEQUENCE and not any(u[3] == END for u in units[:-1]) and not last_open(units)
                if clear and not whole[1]:
                    kept = b''.join(u for u in units if u[3] != END)
                    assert (made, gaps) == (kept + END_CODE, []), line
    return counts


def main():
    if sys.argv[1:] == ['--self-test']:
        print('%d texts kept whole, %d in part, %d not at all' % tuple(self_test()))
        return
    words = sys.argv[1:]
    made, status, line, gaps = mend(sys.stdin.buffer.read(), '--groups' not in words)
    sys.stdout.buffer.write(made or b'')
    if '--list' in words:
        with open(words[words.index('--list') + 1], 'w') as out:
            out.writelines(lines_of(gaps))
    print(line, file=sys.stderr)
    sys.exit(status)


if __name__ == '__main__':
    main()
