#!/usr/bin/env python3
"""Writes the report of `audit` on a stream, by the rules alone.

    bench/cases/audited.py [--pictures] [--for NAME] < STREAM
    bench/cases/audited.py --self-test [COUNT] [SEED]
    bench/cases/audited.py --program 'PROGRAM audit' [COUNT] [SEED]

It shares nothing with the program: faults are found by bench/cases/faults.py, what comes before them is read by the parser
of bench/cases/verdicts.py, whose rules 1 to 15 these are, the stricter ones are those of bench/cases/audited_strict.py, and
those of the sets dvd, dvb and atsc are those of bench/cases/audited_sets.py; the account of the buffer is that of
bench/cases/audited_account.py, and the lines are put together by bench/cases/audited_records.py. --self-test draws accounts
and streams, and holds the report against a simulation in time and against the verdicts of `check`, and the reports by other
sets against that by main. --program holds a program against the report, on the streams of the table, drawn ones and damaged
ones, each by main and by one of the other sets.

A text is the input, and then what stands behind each sequence end code and behind each fault. Of each the pieces are told in turn, a piece
being a picture with the headers before it, up to the next header, picture or end behind it."""

import sys
from collections import defaultdict, deque
from dataclasses import dataclass

from audited_account import account, fields, intervals, rate_of
from audited_records import Records, head, line
from audited_sets import SETS, set_in
from audited_strict import (Arrival, Displays, Leading, Parity, arrival, besides, end_remarks, group_remarks, header_remarks,
                            picture_remarks)
from faults import first_fault
from pictures_writer import B, I, P
from verdicts import (END, GROUP, PICTURE, SEQUENCE, Coded, Group, Parser, Sequence, header_breaches, parts,
                      picture_breaches)

MOST_BYTES = 2097152
# faults that are told at the header or the end that they are found at; others at an edge end the piece before it
AHEAD = ('FieldPair', 'SequenceChanged', 'MissingReference')
STRUCTURES = {1: 'top', 2: 'bottom', 3: 'frame'}
TYPES = {I: 'I', P: 'P', B: 'B'}


# ---- texts and pieces

def text_at(data, start):
    """The text that begins at a byte: the bytes of each of its pieces, and where it ends."""
    units, edges, pictured = parts(data, start), [], False
    for at, value, _ in units:
        if not edges or pictured and value in (PICTURE, SEQUENCE, END, GROUP):
            edges.append(at)
            pictured = False
        pictured = pictured or value == PICTURE
    end = units[-1][2] if units else len(data)
    return list(zip(edges, edges[1:] + [end])), end


def onward(data, pieces, stop, record, end):
    """Where the next text begins: behind a fault behind its piece, or with it, where another sequence begins there and that is
    the fault; a limit ends the report."""
    if not record or stop == len(pieces):
        return end
    if record[0] == 'limit':
        return None
    begin, behind = pieces[stop]
    another = stop > 0 and record[1] == 8 * begin and data[begin:begin + 4] == bytes((0, 0, 1, SEQUENCE))
    return begin if another else behind


def stop_in(data, start, pieces):
    """The first piece that isn't told, or the end behind all of them, and the record and the line that say why."""
    fault = first_fault(data, start)
    said = (('fault', fault[1], fault[0]), (9, 'stream %s at bit %d' % fault)) if fault else (None, None)
    for number, (begin, end) in enumerate(pieces):
        if len(data[begin:end].rstrip(b'\0')) > MOST_BYTES:
            return number, ('limit', 'too_large'), (14, 'picture too large')
        if fault and (fault[1] < 8 * end or fault[1] == 8 * end and fault[0] not in AHEAD):
            return number, *said
    return len(pieces), *said


# ---- places in display order

def shown_in_order(frames, low_delay):
    """The frames of a group, sorted: an anchor comes right before the one decoded next, and the last one last."""
    keys, behind = [], len(frames)
    for number, frame in reversed(list(enumerate(frames))):
        anchor = frame[-1][1].kind != B and not low_delay
        keys.append((behind - 0.5 if anchor else number, number))
        behind = number if anchor else behind
    return [number for _, number in sorted(keys)]


def misplaced(stream, low_delay):
    """What breaks rule 11 by what it is known: by the picture that ends a frame or by the group header of a number."""
    frames, told = defaultdict(list), defaultdict(list)
    for number, p in enumerate(stream.coded):
        frames[p.frame].append((number, p))
    groups = defaultdict(list)
    for frame in frames.values():
        if frame[-1][1].ends_frame:
            groups[frame[-1][1].group].append(frame)
    for group, members in groups.items():
        anchors = [number for number, frame in enumerate(members) if frame[-1][1].kind != B]
        following = dict(zip(anchors, anchors[1:]))
        for place, number in enumerate(shown_in_order(members, low_delay)):
            at_once = low_delay or members[number][-1][1].kind == B
            known = number if at_once else following.get(number)
            by = ('group', group) if known is None else ('picture', members[known][-1][0])
            told[by] += [(number, p.temporal, place % 1024) for number, p in members[number]
                         if p.temporal != place % 1024]
    return told


# ---- a sequence

@dataclass
class Picture:
    """A picture: where it begins, the bits of its piece and what follows it, and those to the end of its start code."""
    coded: Coded
    bit: int
    bits: int
    code_bits: int


class Told:
    """What is told of a sequence by its set of rules: of its pieces up to the one where it stops."""

    def __init__(self, number, each, rules, data, start, pieces):
        self.records, self.rules, self.pieces, self.data = Records(number, each), rules, pieces, data
        base, end = pieces[0][0], pieces[-1][1]
        stream = Parser(data[base:end])
        self.headers = deque((8 * (base + at), header) for at, header in stream.headers)
        self.first, self.low_delay = stream.sequences[0], bool(stream.sequences[0].low_delay)
        self.misplaced = misplaced(stream, self.low_delay)
        self.pictures = [Picture(header, bit, 0, 0) for bit, header in self.headers if isinstance(header, Coded)]
        for p, (begin, end) in zip(self.pictures, pieces):
            p.bits, p.code_bits = 8 * (end - begin), p.bit + 32 - 8 * begin
        if self.pictures:
            self.pictures[-1].bits = 8 * (pieces[-1][1] - pieces[len(self.pictures) - 1][0])
        self.rate = rate_of(self.first, stream.coded)
        self.removals = account(self.first, stream.coded, [(p.bits, p.code_bits) for p in self.pictures])
        self.at = self.groups = self.told = self.gone = self.fields = 0
        self.leading, self.parity, self.last_group = Leading(), Parity(self.low_delay), None
        self.displays = Displays()
        self.units, self.arrived = intervals(self.first, stream.coded), None
        self.begin(start)
        for piece in pieces:
            self.piece(*piece)

    def begin(self, start):
        s, begin = self.first, self.pieces[0][0]
        if start < begin:
            self.records.put('skipped', start, begin - start)
        self.records.put('sequence', 8 * begin, s.width, s.height, s.code, s.aspect, s.level, s.progressive,
                         s.low_delay, s.rate, s.buffer, self.rate)

    def piece(self, begin, end):
        pictures, also = [], besides(self.data, begin, end)
        while self.headers and self.headers[0][0] < 8 * end:
            bit, header = self.headers.popleft()
            if isinstance(header, Sequence):
                for broken in header_breaches(header):
                    self.records.breach(self.at, bit, *broken)
                self.code = header.code
                of_main = (r for r in header_remarks(header, self.first, self.leading) if r[0] not in self.rules.silent)
                self.remarks(self.at, bit, of_main, self.rules.header(header))
                self.leading.sequence = True
            elif isinstance(header, Group):
                self.group(bit, header)
            else:
                pictures.append((bit, header))
        if self.leading.sequence:
            self.remarks(self.at, 8 * begin, self.displays.remarks(also.display), [])
        for bit, header in pictures:
            self.picture(bit, header, begin, end)
            for at, remarks in also.remarks:
                self.remarks(self.at - 1, at, remarks, [])
        # a removal is told once its picture is whole and no more bits change what is told of it
        while self.told < min(self.at - 1, len(self.removals)):
            r = self.removals[self.told]
            if 1800 * (8 * (end - self.pieces[0][0]) - self.gone) < r.reach:
                break
            self.removal(r)

    def group(self, bit, g):
        self.places(('group', self.groups))
        self.records.put_each('group', self.groups, bit, self.at, g.drop, g.hours, g.minutes, g.seconds, g.pictures,
                              g.closed, g.broken)
        of_main = group_remarks(g, self.code, self.leading, self.last_group, self.fields)
        self.remarks(self.at, bit, of_main, self.rules.group())
        self.leading.group, self.last_group, self.fields = True, g, 0
        self.groups += 1

    def picture(self, bit, p, begin, end):
        piece = self.data[begin:end]
        self.records.put_each('picture', self.at, bit, TYPES[p.kind], STRUCTURES[p.structure], p.temporal,
                              8 * len(piece), 8 * (len(piece) - len(piece.rstrip(b'\0'))), p.delay, fields(p),
                              int(p.dropped))
        constant = self.pictures[0].coded.delay != 65535
        for broken in picture_breaches(p, constant):
            self.records.breach(self.at, bit, *broken)
        arrivals = arrival(self.first.rate, self.arrived, bit + 32, p.delay)
        of_main = picture_remarks(p, constant, self.leading.sequence, arrivals)
        self.remarks(self.at, bit, of_main, self.rules.picture(self.at, p))
        self.arrived = Arrival(bit + 32, self.units[self.at], p.delay)
        self.leading = Leading()
        self.fields += fields(p)
        self.places(('picture', self.at))
        self.told_apart(self.parity.picture(self.at, bit, p))
        self.at += 1

    def remarks(self, picture, bit, of_main, of_set):
        for remark in (*of_main, *of_set):
            self.records.remark(picture, bit, *remark)

    def told_apart(self, remarks):
        """What is remarked of other pictures than the one at hand."""
        for remark in remarks:
            self.records.remark(*remark)

    def places(self, by):
        for number, have, need in self.misplaced[by]:
            self.records.breach(number, self.pictures[number].bit, 11, have, need)

    def removal(self, r):
        p = self.pictures[self.told]
        self.records.removal(self.told, p.bit, p.coded, r, self.first, self.rate == 'constant')
        self.gone, self.told = self.gone + p.bits, self.told + 1

    def left(self):
        """At the end: the places of the last group and the anchor that waits, the removals that are left, and what is remarked of
        the end."""
        self.places(('group', self.groups))
        self.told_apart(self.parity.shown(self.parity.anchor))
        for r in self.removals[self.told:]:
            self.removal(r)
        end = self.pieces[-1][1]
        closed = self.data[:end].endswith(bytes((0, 0, 1, END)))
        self.remarks(self.at, 8 * end, end_remarks(self.leading, closed), [])

    def end(self):
        coded = [p.coded for p in self.pictures]
        self.records.end(len(coded), sum(p.ends_frame and not p.dropped for p in coded), self.groups, self.size())

    def size(self):
        return self.pieces[-1][1] - self.pieces[0][0]


# ---- the whole

def totals(told):
    """The sums of the sequences: pictures, bytes, breaches, failures and warnings."""
    return (sum(len(t.pictures) for t in told), sum(t.size() for t in told), sum(t.records.breaches() for t in told),
            sum(t.records.failures for t in told), sum(t.records.warnings() for t in told))


def ending(told):
    """The status and the line where all was read."""
    pictures, size, breaches, failures, warnings = totals(told)
    counts = 'sequences %d pictures %d bytes %d' % (len(told), pictures, size)
    if breaches or failures:
        return 18, 'found %s breaches %d failures %d warnings %d' % (counts, breaches, failures, warnings)
    return 0, 'clean %s warnings %d' % (counts, warnings)


def report(data, pictures=False, rules='main'):
    """The status, the line and the output of an input, by a set of rules."""
    told, lines, answer, start, later = [], [head(rules)], None, 0, False
    while start is not None and (not later or start < len(data)):
        pieces, end = text_at(data, start)
        if not pieces and later:
            lines.append(line('skipped', len(told), start, end - start))
            break
        stop, record, said = stop_in(data, start, pieces)
        answer = answer or said
        of_set = SETS[rules](told[0].first if told else None)
        sequence = Told(len(told), pictures, of_set, data, start, pieces[:stop]) if stop else None
        records = sequence.records if sequence else Records(len(told), pictures)
        if record:
            records.put(*record)
        else:
            sequence.left()
        if sequence:
            sequence.end()
            told.append(sequence)
        lines += records.lines
        start, later = onward(data, pieces, stop, record, end), True
    lines.append(line('total', len(told), *totals(told)))
    return *(answer or ending(told)), ''.join(lines).encode()


def main():
    words = sys.argv[1:]
    if words[:1] == ['--self-test']:
        import audited_trials
        audited_trials.main(*map(int, words[1:]))
        return
    if words[:1] == ['--program']:
        import audited_trials
        audited_trials.hold_program(words[1], *map(int, words[2:]))
        return
    rules = set_in(words)
    if rules not in SETS:
        print('usage', file=sys.stderr)
        sys.exit(2)
    status, said, output = report(sys.stdin.buffer.read(), '--pictures' in words, rules)
    sys.stdout.buffer.write(output)
    print(said, file=sys.stderr)
    sys.exit(status)


if __name__ == '__main__':
    main()
